"""What `hostile_actions.py` tries with folders, links and outputs."""

import contextlib
import os
import signal
import threading
import time

import messages as m
import programs
from execution_context import expect
from executing import Link
from server import has_leases, opens_by_shell
from teams import PYTHON, TOP, Skipped, listed, victim

SECRET = b"of somebody else"

# Leaves a daemon behind that exchanges each pair of paths for some seconds.
EXCHANGING = """import ctypes, os, sys, time
system = ctypes.CDLL(None).renameat2
if os.fork():
    time.sleep(0.1)
    os._exit(0)
os.setsid()
if os.fork():
    os._exit(0)
for number in range(3):
    os.dup2(os.open("/dev/null", os.O_RDWR), number)
paths = [os.fsencode(os.path.abspath(path)) for path in sys.argv[2:]]
end = time.monotonic() + float(sys.argv[1])
while time.monotonic() < end:
    for one, other in zip(paths[::2], paths[1::2]):
        system(-100, one, -100, other, 2)
"""

# Leaves a daemon behind that holds a lease of a kind on a file, which makes whoever opens it wait.
LEASING = """import fcntl, os, signal, sys, time
signal.signal(signal.SIGIO, signal.SIG_IGN)
with open("o", "wb") as file:
    file.write(b"leased")
file = os.open("o", os.O_RDONLY)
read, write = os.pipe()
if os.fork():
    os.close(write)
    os.read(read, 1)
    os._exit(0)
os.setsid()
if os.fork():
    os._exit(0)
fcntl.fcntl(file, fcntl.F_SETLEASE, getattr(fcntl, sys.argv[1]))
os.write(write, b".")
time.sleep(60)
"""


# Lets each shell that opens outputs have idle processors alone, for some seconds, and leaves daemons behind that take all
# of them.
STARVING = """import os, time
end = time.monotonic() + 8
def forked():
    if os.fork():
        return False
    os.setsid()
    return True
for _ in range(24):
    if forked():
        while time.monotonic() < end:
            pass
        os._exit(0)
open("o", "w").close()
if forked():
    while time.monotonic() < end:
        for name in filter(str.isdigit, os.listdir("/proc")):
            try:
                with open(f"/proc/{name}/cmdline", "rb") as file:
                    words = file.read().split(b"\\0")
                if words[0] == b"/bin/sh" and any(b"printf -" in word for word in words):
                    os.sched_setscheduler(int(name), os.SCHED_IDLE, os.sched_param(0))
            except OSError:
                pass
    os._exit(0)
time.sleep(0.5)
"""


def python(script, *words):
    return [PYTHON, "-c", script, *map(str, words)]


# A start after another.


def former_program(stage):
    """Programs of a former server write on by their absolute paths, and make their folders again."""
    old = 'while :; do echo "of the OLD action" > "$PWD/out"; done'
    again = 'here=$PWD; cd /; while :; do mkdir -p "$here"; echo "of the OLD action" > "$here/out"; done'
    new = 'echo "of the NEW action" > out; sleep 1'
    for number in [signal.SIGTERM, signal.SIGKILL, signal.SIGHUP]:
        with stage.serve() as (server, red):
            for script in [old, again]:
                red.start(stage.action(script))
            running = lambda: programs.running(stage.folder, server.process.pid)
            stage.waits(lambda: len(running()) >= 2, 20, "the old programs run")
            time.sleep(0.3)
            stage.stop(server, number)
        begun = time.monotonic()
        with stage.serve() as (server, red):
            took = time.monotonic() - begun
            for action in [stage.action(new, files=["out"]) for _ in range(2)]:
                result = red.execute(action).result
                text = result and {path: red.text(each[0]) for path, each in result.files.items()}
                expect(text, {"out": b"of the NEW action\n"}, f"the output after signal {number}")
            stage.blue_runs(server)
        expect(took < 10 * stage.slow, True, f"the start took {took:.1f} s")
        stage.end_programs()
    return "their text is in no output of the new one's actions, after SIGTERM, SIGKILL and SIGHUP"


# Links.


def links_of_the_tree(stage):
    """Links of an input tree stand above outputs, and in the way of the working directory."""
    path = victim(stage)
    before = listed(path)
    with stage.serve() as (server, red), stage.blue_running(server, 8) as other:
        to_victim = {"d": Link(TOP + path[1:])}
        tried = [
            ({"d": Link(TOP + "proc")}, {"files": ["d/self/environ"]}),
            ({"d": Link(TOP + "proc/self")}, {"files": ["d/environ"]}),
            ({"d": Link(TOP + "etc")}, {"files": ["d/hostname"]}),
            ({"d": Link("..")}, {"files": [f"d/{other}/src"]}),
            ({"d": Link("..")}, {"directories": [f"d/{other}"]}),
            ({"d": Link("..")}, {"paths": [f"d/{other}", f"d/{other}/src"]}),
            ({"a": {"d": Link("../..")}}, {"files": [f"a/d/{other}/src"]}),
            (to_victim, {"files": ["d/file"]}),
            (to_victim, {"directories": ["d/inner"]}),
            (to_victim, {"files": ["d/made/by/server/x"]}),
            (to_victim, {"files": ["inner/made/x"], "folder": "d"}),
        ]
        for tree, given in tried:
            stage.fails(server, red, "folder", ["/bin/true"], tree=tree, **given)
        for folder in ["d", "d/inner", "d/new"]:
            stage.fails(server, red, "folder", "echo here > ran", tree=to_victim, folder=folder)
        stage.fails(server, red, "folder", "echo here > ran", tree={"d": Link("..")}, folder=f"d/{other}")
    expect(listed(path), before, "what the links led to")
    return "each run fails with `folder`; nothing is read, made or run where they lead"


def links_of_a_program(stage):
    """A program puts links above its outputs, and in the place of them."""
    path = victim(stage)
    before = listed(path)
    with stage.serve() as (server, red), stage.blue_running(server, 6) as other:
        script = f"""rm -r a d e p; ln -s {path} d; ln -s ../{other} e; ln -s /proc/self p; mkdir a; ln -s {path} a/d
            ln -s {path}/file f; mkdir o; ln -s {path} o/d; ln -s {path}/file o/f; printf abc > o/own"""
        files = ["d/file", "d/inner/file", "e/src", "p/environ", "a/d/file", "f"]
        result = stage.runs(red, script, files=files, directories=["d/inner", "a/d/inner", "d", "e", "o"])
        trees = {path: red.tree(each) for path, each in result.trees.items()}
        expect(result.files, {}, "output files")
        expect(trees, {"o": {"own": (m.digest(b"abc"), False)}}, "output directories")
        stage.nothing_left(server, is_kept=lambda name: name.partition(".")[0] == other)
    expect(listed(path), before, "what the links led to")
    return "what they lead to is no output, and stays as it is"


def root_replaced(stage):
    """A program puts a link in the place of the folder of its run."""
    path = victim(stage)
    before = listed(path)
    with stage.serve() as (server, red):
        for command in ['mv "$R" "$R-aside"', 'rm -r "$R"']:
            script = f'R=$PWD; cd /; {command}; ln -s {path} "$R"'
            done = red.execute(stage.action(script, files=["file", "inner/file"], directories=["inner"]))
            found = done.result and (done.result.files, done.result.trees)
            if stage.way.is_apart:
                # Its folder cannot be another one: what was made there for its outputs is there, and is empty.
                expect((found[0], texts(red, done.result)), ({}, set()), "outputs")
                stage.nothing_left(server)
            else:
                expect(found in (None, ({}, {})), True, f"outputs {found}")
        stage.runs(red, "printf abc > out", files=["out"])
        stage.nothing_left(server, is_kept=lambda name: name.endswith("-aside"))
    expect(listed(path), before, "what the link led to")
    return "nothing is read there, and nothing removed"


# What is exchanged while the server looks at it.


def race(stage, commands, rest, outputs, right, seconds, is_kept=lambda name: False):
    """Has actions leave daemons that exchange things while outputs are gathered, whose texts are known, and removed.

    With a launcher they end before that: then each run has a result, and nothing goes on behind it.
    """
    words = ["/bin/sh", "-c", f'{commands}; exec {PYTHON} -c "$1" 1.5 {rest}', "sh", EXCHANGING]
    end, results, failed = time.monotonic() + seconds, 0, 0
    with stage.serve() as (server, red):
        while time.monotonic() < end:
            done = red.execute(stage.action(words, **outputs))
            if done.result is None:
                expect((done.status.code, done.status.text), (13, "run failed"), "a run")
                failed += 1
            else:
                expect(done.result.code, 0, f"exit code: {red.stream_text(done.result.stderr)}")
                expect(texts(red, done.result) - set(right), set(), "what outputs are that nobody wrote there")
                results += 1
            if stage.way.launcher:
                stage.nothing_goes_on()
        if stage.way.launcher:
            expect(failed, 0, "runs that failed, as something went on")
        stage.end_programs()
        took = stage.blue_runs(server)
        stage.nothing_left(server, 60, is_kept)
    return f"{results} results and {failed} failed runs, none wrong; then blue's action took {took:.1f} s"


def texts(peer, result):
    """All texts of a result's outputs."""

    def of(tree):
        inner = lambda each: of(each) if isinstance(each, dict) else {peer.text(each[0])}
        return {text for each in tree.values() for text in inner(each)}

    return of(result.files) | {text for each in result.trees.values() for text in of(peer.tree(each))}


def fifos_exchanged(stage):
    """A daemon exchanges an output with a FIFO."""
    commands = "mkdir o; printf abc > o/a; mkfifo f"
    return race(stage, commands, "o/a f", {"files": ["o/a"], "directories": ["o"]}, [b"abc"], stage.seconds)


def links_exchanged(stage):
    """A daemon exchanges a directory above an output, and an output, with links to somebody else's."""
    path = victim(stage)
    before = listed(path)
    commands = f"""mkdir -p d/inner o; printf abc > d/file; printf abc > d/inner/file; printf abc > o/a
        ln -s {path} l; ln -s {path}/file k"""
    outputs = {"files": ["d/file", "d/inner/file", "o/a"], "directories": ["d/inner", "d", "o"]}
    told = race(stage, commands, "d l o/a k", outputs, [b"abc"], stage.seconds / 2)
    expect(listed(path), before, "what the links lead to")
    return told


def devices_exchanged(stage):
    """A daemon exchanges an output with a device, of which there is no end, and with one that waits."""
    if os.geteuid() or stage.user is not None:
        raise Skipped("only root can make devices")
    commands = "mkdir o; printf abc > o/a; printf abc > o/b; mknod z c 1 5; mknod t c 1 9; mkfifo f"
    if stage.way.is_apart:
        commands += "; [ ! -e z ] && [ ! -e t ] || exit 9"
    outputs = {"files": ["o/a", "o/b"], "directories": ["o"]}
    return race(stage, commands, "o/a z o/b f", outputs, [b"abc"], stage.seconds / 3)


def removal_exchanged(stage):
    """A daemon exchanges directories that are to be removed with links to somebody else's."""
    path = victim(stage)
    before = listed(path)
    commands = f"""mkdir d e; cd d; seq 2000 | xargs touch; cd ..; : > e/x; chmod 0 e
        ln -s {path} l; ln -s {path} k; ln -s {path} "$PWD-l\""""
    # Where the link stands at the end, the folder is beside it, or comes back: then it goes with the next start.
    told = race(stage, commands, 'd l e k "$PWD" "$PWD-l"', {}, [], stage.seconds / 2, lambda name: True)
    expect(listed(path), before, "what the links lead to")
    first = max(os.path.join(stage.work, name) for name in os.listdir(stage.work) if name.startswith("start-"))
    with stage.serve() as (server, red):
        stage.former_removed(server, red, first)
    expect(listed(path), before, "what the links led to")
    return told


def leased(stage):
    """Daemons hold leases on outputs, which keep whoever opens those waiting, where the system has leases."""
    waiting = 13 if has_leases() and not stage.way.launcher else 0
    longest = {"F_WRLCK": [], "F_RDLCK": []}
    with stage.serve(slots=(16, 2)) as (server, red):
        expect(server.said(), [], "what is said at the start")
        for kind, code in [("F_WRLCK", waiting), ("F_RDLCK", 0)] * 3:
            numbers = [red.start(stage.action(python(LEASING, kind), files=["o"])) for _ in range(16)]
            took, end = [], time.monotonic() + stage.slow
            while time.monotonic() < end:
                took.append(stage.blue_runs(server))
            longest[kind].append(max(took))
            for number in numbers:
                expect(red.operations(number)[-1].status.code, code, f"status at {kind}")
            stage.end_programs()
        stage.blue_runs(server)
        stage.nothing_left(server)
    beside, usual = (1000 * min(each) for each in longest.values())
    waited = f"blue's actions take {beside:.0f} ms at most, {usual:.0f} where nobody waits"
    expect(beside < usual + 100 * stage.slow, True, waited)
    if stage.way.launcher:
        return "they end before the outputs are opened, and nobody waits"
    return f"a run whose output has a write lease fails, and {waited}" if waiting else "the system has no leases"


def starved(stage):
    """Programs take the processor from the shells of the server, one of which opens outputs."""
    if not stage.way.is_apart and not opens_by_shell(stage.way.launcher):
        raise Skipped("nobody can have a lease on an output, so the server opens outputs itself")
    with stage.serve(slots=(8, 2)) as (server, red):
        numbers = [red.start(stage.action(python(STARVING), files=["o"])) for _ in range(3)]
        stage.blue_runs(server)
        codes = {red.operations(number)[-1].status.code for number in numbers}
        expect(codes <= {0, 13}, True, f"statuses {codes}")
        if stage.way.is_apart:
            policies = {os.sched_getscheduler(each) for each in programs.shells(stage.folder, server.process.pid)}
            expect(policies, {os.SCHED_OTHER}, "how the server's shells are scheduled")
            stage.nothing_goes_on()
        stage.end_programs()
        stage.blue_runs(server)
    if stage.way.is_apart:
        return "no shell of the server's is reached, and nobody waits"
    return "a run whose output cannot be opened fails, and nobody else waits"


@contextlib.contextmanager
def stalling(process):
    """Stops a server for more than a second, again and again."""
    is_over = threading.Event()

    def stall():
        while not is_over.wait(0.15):
            process.send_signal(signal.SIGSTOP)
            is_over.wait(1.1)
            process.send_signal(signal.SIGCONT)

    thread = threading.Thread(target=stall)
    thread.start()
    try:
        yield
    finally:
        is_over.set()
        thread.join()


def held_up(stage):
    """Outputs are to be opened while the server has no processor for a second, again and again, as by dear calls."""
    with stage.serve(slots=(8, 2)) as (server, red):
        busy = red.start(stage.action("for n in 1 2 3 4 5 6 7 8; do while :; do :; done & done; wait"))
        # Blue's calls would wait for the server, too: its action is to be right.
        server.neighbour.end()
        with stalling(server.process):
            for _ in range(4):
                numbers = [red.start(stage.action("printf a > a; printf b > b", files=["a", "b"])) for _ in range(5)]
                for number in numbers:
                    done = red.operations(number)[-1]
                    expect((done.status.code, done.status.text), (0, ""), "status")
                    expect(sorted(done.result.files), ["a", "b"], "output files")
            stage.blue_runs(server, 60)
        stage.end_programs()
        done = red.operations(busy)[-1]
        expect(bool(done.result) and done.result.code == 0, False, "the programs that were killed have ended well")
        stage.nothing_left(server)
    return "no run fails for it"


# Outputs that are no files.


def odd_outputs(stage):
    """Outputs are FIFOs, sockets, links, and for root devices."""
    script = f"""mkdir o; cd o; mkfifo f; ln -s f l; ln -s /dev/zero z; ln -s /proc/kmsg k; printf abc > a
        {PYTHON} -c 'import socket; socket.socket(socket.AF_UNIX).bind("s")'
        if [ "$(id -u)" = 0 ]; then mknod c c 1 5; mknod b b 7 0; fi; :"""
    asked = [f"o/{name}" for name in "flzkscba"]
    with stage.serve() as (server, red):
        for given in [{"paths": [*asked, "o"]}, {"files": asked, "directories": ["o"]}]:
            result = stage.runs(red, script, **given)
            expect(result.files, {"o/a": (m.digest(b"abc"), False)}, "output files")
            trees = {path: red.tree(each) for path, each in result.trees.items()}
            expect(trees, {"o": {"a": (m.digest(b"abc"), False)}}, "output directories")
        stage.blue_runs(server)
        stage.nothing_left(server)
    return "they are left out, and nothing waits"
