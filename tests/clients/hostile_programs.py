"""What `hostile_actions.py` tries with processes: lines that nobody reads, what ends sessions, and long paths."""

import concurrent.futures
import contextlib
import fcntl
import os
import re
import resource
import signal
import subprocess
import time

import messages as m
import programs
from execution_context import expect
from executing import Link
from hostile_folders import python
from server import opens_by_shell
from teams import Skipped

# The line of a run that failed, or one of another kind, as for lines that were dropped. None is within another one.
LINE = re.compile(rb"remoted: (run red [1-9]\d*( failed: folder|: )|(?!run ))((?!remoted: ).)*")
SMALLEST_PIPE = 4096
MOST_PROCESSES = 60

# The last number that a process was given, which root may write.
LAST_NUMBER = "/proc/sys/kernel/ns_last_pid"

# Forks as long as it is there, for so many seconds at most. Its processes are all in one session.
BOMB = """import os, sys, time
end = time.monotonic() + float(sys.argv[1])
while time.monotonic() < end:
    try:
        os.fork()
    except OSError:
        time.sleep(0.02)
"""

# Kills the other children of the process that started it, before it goes on as a bomb.
KILLING = """import os, signal
for name in os.listdir("/proc"):
    try:
        parent = open("/proc/" + name + "/stat").read().rpartition(")")[2].split()[1]
        if int(name) != os.getpid() and int(parent) == os.getppid():
            os.kill(int(name), signal.SIGKILL)
    except (OSError, ValueError, IndexError):
        pass
"""


# Standard error.


def fails(stage, peer):
    """A run that fails, however programs are started: a link of its tree stands above its output."""
    done = peer.execute(stage.action(["/bin/true"], tree={"d": Link("..")}, files=["d/x"]))
    expect((done.status.code, done.status.text), (13, "run failed"), "a run that fails")


def lines_unread(stage):
    """Standard error is a pipe that nobody reads, while runs fail again and again."""
    reader, writer = os.pipe()
    fcntl.fcntl(writer, fcntl.F_SETPIPE_SZ, SMALLEST_PIPE)
    with open(reader, "rb") as told, open(writer, "wb") as pipe:
        with stage.serve(heard=False, stderr=pipe) as (server, red):
            # ten lines a second are told, so the pipe is full after some seconds
            runs, end = 0, time.monotonic() + 15
            while time.monotonic() < end:
                fails(stage, red)
                runs += 1
                time.sleep(0.02)
            stage.blue_runs(server)
            first = os.read(reader, SMALLEST_PIPE)
            expect(len(first) > SMALLEST_PIPE / 2, True, f"{len(first)} bytes were told")
            for _ in range(10):
                fails(stage, red)
            pipe.close()
        whole = (first + told.read()).splitlines()
    expect([line for line in whole if not LINE.fullmatch(line)], [], "lines that are not whole")
    return f"{runs + 10} runs fail as they should, {len(whole)} lines were told, each of them whole"


def lines_unheard(stage):
    """The reader of standard error and of standard output has gone."""
    reader, writer = os.pipe()
    with open(writer, "wb") as pipe:
        with stage.serve(heard=False, stderr=pipe) as (server, red):
            os.close(reader)
            server.process.stdout.close()
            for _ in range(20):
                fails(stage, red)
            stage.runs(red, "printf abc")
            stage.blue_runs(server)
    return "the server goes on"


def lines_unheard_from_the_start(stage):
    """Standard error is a FIFO whose reader has gone before the server begins."""
    path = os.path.join(stage.folder, "standard-error")
    os.mkfifo(path)
    os.chown(path, *stage.owner())
    reader = os.open(path, os.O_RDONLY | os.O_NONBLOCK)
    writer = os.open(path, os.O_WRONLY)
    os.close(reader)
    with open(writer, "wb") as pipe, stage.serve(heard=False, stderr=pipe) as (server, red):
        for _ in range(20):
            fails(stage, red)
        stage.runs(red, "printf abc")
        stage.blue_runs(server)
    return "the server begins, and goes on"


# What ends sessions.


def helper_stopped(stage):
    """What ends sessions for the server is stopped (SIGSTOP)."""
    with stage.serve() as (server, red):
        stage.runs(red, "sleep 600 & printf abc")
        helper = stage.helper(server, programs.ENDS_SESSIONS)
        told = programs.helpers(stage.folder, server.process.pid)[helper]
        os.kill(helper, signal.SIGSTOP)
        try:
            took = [stage.blue_runs(server, 30) for _ in range(3)]
            stage.runs(red, "sleep 600 & printf abc")
            done = red.execute(stage.action("sleep 600 & sleep 600", seconds=1))
            expect((done.status.code, done.status.text), (4, "timed out"), "a timeout")
            stage.nothing_left(server)
            expect(programs.settled(lambda: programs.running(stage.folder, server.process.pid), 10), {}, "programs")
        finally:
            if programs.helpers(stage.folder, server.process.pid).get(helper) == told:
                os.kill(helper, signal.SIGKILL)
    longest = max(took)
    expect(longest < 15 * stage.slow, True, f"blue's action waited {longest:.1f} s")
    return f"another one takes its place: blue's actions took {', '.join(f'{each:.1f} s' for each in took)}"


def helper_killed(stage):
    """What ends sessions for the server is killed, again and again."""
    with stage.serve() as (server, red):
        stage.runs(red, "sleep 600 & printf abc")
        stage.helper(server, programs.ENDS_SESSIONS)
        killed, end = 0, time.monotonic() + 6
        number = red.start(stage.action("sleep 600 & (trap '' TERM; sleep 600) & sleep 5", seconds=60))
        while time.monotonic() < end:
            for helper in programs.shells(stage.folder, server.process.pid):
                with contextlib.suppress(ProcessLookupError):
                    os.kill(helper, signal.SIGKILL)
                    killed += 1
            time.sleep(0.2)
        done = red.operations(number)[-1]
        expect(done.result and done.result.code, 0, "red's action")
        took = stage.blue_runs(server)
        stage.runs(red, "sleep 600 & printf abc")
        stage.nothing_left(server)
        expect(programs.settled(lambda: programs.running(stage.folder, server.process.pid), 10), {}, "programs")
    return f"killed {killed} times, it is there again each time: blue's action then took {took:.1f} s"


@contextlib.contextmanager
def of_number(stage, number):
    """A process with this number, the first of a session of its own: the system gives the one behind that in a file."""
    for _ in range(1000):
        with open(LAST_NUMBER, "w") as file:
            file.write(str(number - 1))
        other = subprocess.Popen(["/bin/sleep", "600"], start_new_session=True, **stage.as_user())
        try:
            if other.pid == number:
                yield other
                return
        finally:
            other.kill()
            other.wait()
    raise Skipped("the number was not to be had")


def number_taken(stage):
    """The number of a program that ended is another process's, before what ends sessions goes on."""
    if os.geteuid() != 0 or not os.path.exists(LAST_NUMBER):
        raise Skipped("a process cannot be given a number here")
    with stage.serve() as (server, red):
        stage.runs(red, "true")
        helper = stage.helper(server, programs.ENDS_SESSIONS)
        before = set(programs.children([server.process.pid]))
        os.kill(helper, signal.SIGSTOP)
        run = red.start(stage.action("until [ -e told ]; do sleep 0.05; done"))
        path = os.path.join(server.start(), "0-2")
        begun = lambda: set(programs.children([server.process.pid])) - before
        stage.waits(lambda: begun() and "sleep 0.05" in str(programs.running(stage.folder)), 20, "red's action runs")
        number = min(begun())
        with open(os.path.join(path, "told"), "w"):
            pass
        stage.waits(lambda: not os.path.exists(f"/proc/{number}"), 20, "red's action is waited for")
        time.sleep(0.05)
        with of_number(stage, number) as other:
            os.kill(helper, signal.SIGCONT)
            done = red.operations(run)[-1]
            expect(done.result and done.result.code, 0, "red's action")
            stage.runs(red, "true")
            expect(other.poll(), None, "the process that has the number")
        stage.nothing_left(server)
    return "that one goes on"


def helper_lines(stage):
    """What ends sessions is told processes of other sessions, sessions whose number is taken, and odd names."""
    with stage.serve() as (server, red):
        stage.runs(red, "true")
        helper = stage.helper(server, programs.ENDS_SESSIONS)
        with open(f"/proc/{helper}/cmdline", "rb") as file:
            words = file.read().split(b"\0")[:-1]
    odd = os.path.join(stage.make("odd"), "a) S 1\n2 (")
    os.symlink("/bin/sleep", odd)
    pipes = {"stdin": subprocess.PIPE, "stdout": subprocess.PIPE, "stderr": subprocess.DEVNULL}
    begin = lambda path: subprocess.Popen([path, "600"], start_new_session=True, **stage.as_user())
    with subprocess.Popen(words, text=True, **pipes, **stage.as_user()) as copy, contextlib.ExitStack() as stack:
        plain, named = (stack.enter_context(begin(path)) for path in ["/bin/sleep", odd])

        def lives_after(line, process, seconds=0.05):
            copy.stdin.write(line + "\n")
            copy.stdin.flush()
            expect(copy.stdout.readline(), "\n", "the answer")
            with contextlib.suppress(subprocess.TimeoutExpired):
                process.wait(seconds)
            return process.poll() is None

        try:
            session, other = plain.pid, named.pid
            for line in [f"KILL {session} {other} -", f"KILL -{session} - {session}", f"KILL {session} {session} {other}"]:
                expect(lives_after(line, plain), True, f"{line!r}: the process is there")
            soon = 5 * stage.slow
            expect(lives_after(f"KILL {other} {other} -", named, soon), False, "a process with an odd name is there")
            expect(lives_after(f"KILL {session} {session} {2**22 + 1}", plain, soon), False, "the process is there")
            expect(lives_after(f"KILL -{session} - {2**22 + 1}", copy), True, "what ends sessions is there")
        finally:
            plain.kill()
            named.kill()
            copy.stdin.close()
    return "it sends a signal to none but those that are meant"


# What opens outputs.


def opener_stopped(stage):
    """What opens outputs for the server is stopped (SIGSTOP), again and again."""
    if not opens_by_shell(stage.way.launcher):
        raise Skipped("nobody can have a lease on an output, so the server opens outputs itself")
    with stage.serve() as (server, red):
        for _ in range(3):
            os.kill(stage.helper(server, programs.OPENS_OUTPUTS), signal.SIGSTOP)
            result = stage.runs(red, "printf a > a; printf b > b", files=["a", "b"])
            expect(result.files, {"a": (m.digest(b"a"), False), "b": (m.digest(b"b"), False)}, "output files")
        took = stage.blue_runs(server)
        stage.nothing_left(server)
    return f"another one takes its place: blue's action then took {took:.1f} s"


def opener_killed(stage):
    """What opens outputs for the server is killed fifty times a second."""
    if not opens_by_shell(stage.way.launcher):
        raise Skipped("nobody can have a lease on an output, so the server opens outputs itself")
    names = [f"f{number}" for number in range(20)]
    expected = {name: (m.digest(name.encode()), False) for name in names}
    killed = 0
    with stage.serve() as (server, red), concurrent.futures.ThreadPoolExecutor(1) as pool:
        for _ in range(10):
            action = stage.action(f"for n in {' '.join(names)}; do printf $n > $n; done", files=names)
            done = pool.submit(red.execute, action)
            while not done.done():
                for helper in programs.helpers(stage.folder, server.process.pid, programs.OPENS_OUTPUTS):
                    with contextlib.suppress(ProcessLookupError):
                        os.kill(helper, signal.SIGKILL)
                        killed += 1
                time.sleep(0.02)
            expect(done.result().result and done.result().result.files, expected, "output files")
        took = stage.blue_runs(server)
        stage.nothing_left(server)
    return f"killed {killed} times, it is there again each time: blue's action then took {took:.1f} s"


def processes_of(user):
    """How many processes a user has, those included that have ended and that the host's first process has yet to wait for."""
    count = 0
    for name in filter(str.isdigit, os.listdir("/proc")):
        with contextlib.suppress(OSError):
            count += os.stat(f"/proc/{name}").st_uid == user
    return count


def bomb(stage, script, seconds):
    """A fork bomb as the first action of a server that may have some processes alone."""
    if stage.user is None:
        raise Skipped("a limit of processes does not bind root; it is tried with a server of a plain user")
    limit, words, helper = {}, python(script, seconds * stage.slow), None
    if stage.way.launcher:
        # What a launcher gives a program is more than this host has room for, and Slurm needs processes itself.
        words = ["/bin/sh", "-c", f'ulimit -u {MOST_PROCESSES} || ulimit -p {MOST_PROCESSES}; exec "$@"', "sh", *words]
    else:
        limit["preexec_fn"] = lambda: resource.setrlimit(resource.RLIMIT_NPROC, (MOST_PROCESSES, MOST_PROCESSES))
    with stage.serve(slots=(1, 2), **limit) as (server, red):
        if stage.way.launcher:
            stage.runs(red, "true")
            helper = stage.helper(server, programs.ENDS_SESSIONS)
        begun = time.monotonic()
        number = red.start(stage.action(words, seconds=int(3 * stage.slow)))
        running = lambda: programs.running(stage.folder, server.process.pid)
        stage.waits(lambda: len(running()) > MOST_PROCESSES / 2, 20, "the bomb goes off")
        done = red.operations(number)[-1]
        expect((done.status.code, done.status.text), (4, "timed out"), "the bomb's run")
        stage.waits(lambda: not running(), seconds + 20, "the bomb is over")
        over = time.monotonic() - begun
        # what has ended counts for the limit until the host has waited for it
        stage.waits(lambda: processes_of(stage.user) < MOST_PROCESSES / 2, 60, "the bomb's processes are waited for")
        took = stage.blue_runs(server)
        if helper:
            expect(stage.helper(server, programs.ENDS_SESSIONS), helper, "the number of what ends sessions")
        stage.runs(red, "sleep 600 & printf abc")
        stage.nothing_left(server)
    return over, took


def fork_bomb(stage):
    """A fork bomb is the first action of a server under a limit of processes."""
    over, took = bomb(stage, BOMB, 60)
    expect(over < 20 * stage.slow, True, f"the bomb was there for {over:.1f} s")
    return f"its run is timed out, and it is gone after {over:.1f} s; blue's action then took {took:.1f} s"


def fork_bomb_alone(stage):
    """A fork bomb kills what ends sessions first, so that no other one can be started beside it."""
    over, took = bomb(stage, KILLING + BOMB, 30)
    return f"its run is timed out; it was there for {over:.1f} s, and blue's action then took {took:.1f} s"


# Looking programs up.


def long_path(stage):
    """A PATH has 65,000 entries, and one has two million."""
    path = lambda count: [("PATH", ":".join(["a"] * count))]
    with stage.serve(slots=(8, 2)) as (server, red):
        for _ in range(2):
            numbers = [red.start(stage.action(["no-such-program"], variables=path(65_000))) for _ in range(8)]
            stage.blue_runs(server)
            for number in numbers:
                done = red.operations(number)[-1]
                found = done.status.code, done.status.text, done.result and done.result.code
                # A launcher looks programs up itself, and has a code for one that is not there.
                wanted = (0, "", 127) if stage.way.launcher else (13, "run failed", None)
                expect(found, wanted, "no program along the path")
        for variables in [path(2_000_000), [(f"V{n}", "x" * 100_000) for n in range(100)]]:
            stage.fails(server, red, "start", ["/bin/true"], variables=variables)
        stage.fails(server, red, "start", ["/bin/echo", *("w" * 120_000 for _ in range(100))])
        stage.runs(red, ["true"], variables=[("PATH", ":".join(["a"] * 60_000 + ["/bin"]))])
        stage.blue_runs(server)
        stage.nothing_left(server)
    return "programs are looked for to the end of it, and what is too long for the system is refused"


def own_streams(stage):
    """A program reopens and truncates its streams, and a daemon in a session of its own goes on to write there."""
    script = """(setsid sh -c 'while :; do echo more; sleep 0.01; done' &)
        sleep 0.1; : > /proc/self/fd/1; printf abc >&2; exit 0"""
    with stage.serve() as (server, red):
        for _ in range(3):
            result = stage.runs(red, script, seconds=20)
            expect(red.stream_text(result.stderr), b"abc", "standard error")
            stage.end_programs()
        stage.blue_runs(server)
    return "only its own output is another"
