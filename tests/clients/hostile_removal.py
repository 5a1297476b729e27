"""What `hostile_actions.py` tries with what is left of runs and has to be removed."""

import contextlib
import os
import signal
import subprocess
import threading
import time

import programs
from execution_context import expect
from hostile_folders import python
from teams import PYTHON, Skipped

# Makes a chain of so many directories below one whose name is no text.
CHAIN = """import os, sys
os.mkdir(b"\\xff\\xfe")
os.chdir(b"\\xff\\xfe")
for level in range(int(sys.argv[1])):
    os.mkdir("a")
    os.chdir("a")
open(b"\\xff", "w").close()
"""


def deep_chain(stage):
    """Chains of 20,000 directories below a name that is no text are to be removed, after a run and at a start."""
    with stage.serve() as (server, red):
        begun = time.monotonic()
        for _ in range(2):
            stage.runs(red, python(CHAIN, 20_000))
        stage.nothing_left(server, 120)
        took = time.monotonic() - begun
        number = red.start(stage.action(["/bin/sh", "-c", f'{PYTHON} -c "$1" 20000; sleep 600', "sh", CHAIN]))
        red.next(number), red.next(number)
        running = lambda: programs.running(stage.folder, server.process.pid).values()
        stage.waits(lambda: "sleep 600" in running(), 60, "the chain is made")
        first = server.start()
        stage.stop(server, signal.SIGKILL)
    stage.end_programs()
    begun = time.monotonic()
    with stage.serve() as (server, red):
        start = time.monotonic() - begun
        stage.blue_runs(server)
        stage.former_removed(server, red, first, 120)
        removed = time.monotonic() - begun
    expect(start < 30 * stage.slow, True, f"the start took {start:.1f} s")
    return f"two are gone after {took:.1f} s; a start took {start:.1f} s, and a third was gone after {removed:.1f} s"


def wide_folders(stage):
    """Directories with 10,000 entries each, whose names are no text, are to be removed."""
    script = """import os
os.mkdir(b"\\xff")
for number in range(10_000):
    os.close(os.open(b"\\xff/\\xfe%d" % number, os.O_CREAT))
    os.mkdir(b"\\xff%d" % number)
"""
    with stage.serve() as (server, red):
        stage.runs(red, python(script))
        begun = time.monotonic()
        stage.nothing_left(server, 120)
        stage.blue_runs(server)
    return f"they are gone {time.monotonic() - begun:.1f} s after the run"


def deep_paths(stage):
    """A working directory and an output have half a million names, and many outputs 150 that they do not share."""
    deep, below = "/".join("a" * 500_000), "/".join("b" * 150)
    with stage.serve() as (server, red):
        stage.fails(server, red, "folder", "true", folder=deep)
        stage.fails(server, red, "folder", "true", files=[deep])
        stage.fails(server, red, "folder", "true", folder="/".join("a" * 100), files=["/".join("b" * 100)])
        result = stage.runs(red, "echo > 7/o", files=[f"{n}/{below}/o" for n in range(60)] + ["7/o"])
        expect(list(result.files), ["7/o"], "the outputs that are there")
        stage.nothing_left(server, 60)
        stage.blue_runs(server)
    return "runs with too deep a path fail, and the others end"


def many_outputs(stage):
    """Actions have more outputs than are gathered, or name a directory of many entries again and again."""
    with stage.serve() as (server, red):
        stage.fails(server, red, "folder", "true", files=[f"o{n}" for n in range(20_001)])
        result = stage.runs(red, "echo > o4711", files=[f"o{n}" for n in range(20_000)])
        expect(list(result.files), ["o4711"], "the outputs that are there")
        script = """import os
open("o", "w").close()
for number in range(54_000):
    os.makedirs(str(number % 6), exist_ok=True)
    os.link("o", f"{number % 6}/{number}")
"""
        stage.fails(server, red, "folder", python(script), directories=[str(number) for number in range(6)])
        stage.nothing_left(server, 120)
        stage.blue_runs(server)
    return "20,000 outputs are gathered, and no more; nor 54,000 entries of directories"


def links_listed(stage):
    """Output directories have 15,000 links each, which count for nothing, or one more, which is not looked at."""
    script = """import os, sys
for directory in range(10):
    os.mkdir(f"d{directory}")
    os.symlink("nowhere", f"d{directory}/link")
    for number in range(1, int(sys.argv[1])):
        os.link(f"d{directory}/link", f"d{directory}/{number}", follow_symlinks=False)
"""
    paths = [f"d{number}" for number in range(10)]
    with stage.serve() as (server, red):
        result = stage.runs(red, python(script, 15_000), directories=paths)
        expect(len(result.trees), 10, "the directories that are gathered")
        stage.fails(server, red, "folder", python(script, 15_001), directories=paths)
        stage.nothing_left(server, 120)
        stage.blue_runs(server)
    return "directories full of links are gathered, and one of 15,001 entries is refused"


# Makes so many files in a directory, and removes all but one of them.
EMPTIED = """import os, sys
os.mkdir("d")
names = [f"d/{number}" + 200 * "x" for number in range(int(sys.argv[1]))]
for name in names:
    os.close(os.open(name, os.O_CREAT | os.O_WRONLY))
for name in names[1:]:
    os.remove(name)
os.write(1, str(os.stat("d").st_size).encode())
"""


def emptied_directories(stage):
    """An output directory takes much room on the disk for files that are gone, which the system may all go through."""
    with stage.serve() as (server, red):
        grown = int(red.stream_text(stage.runs(red, python(EMPTIED, 1_000), directories=["d"]).stdout))
        if grown < 200_000:
            raise Skipped("directories of this disk get smaller again")
        stage.fails(server, red, "folder", python(EMPTIED, 100_000), directories=["d"])
        stage.nothing_left(server, 120)
        stage.blue_runs(server)
    return "one of some kilobytes is gathered, and one of more than 16 MiB is refused"


# Makes files of a thousand pieces each, in directories that may not be entered, and makes its standard error such a file.
# To remove one takes a disk seconds.
PIECES = """import ctypes, os, sys
os.write(2, 1_000 * b"x" * 8_192)
os.fsync(2)
for piece in range(1_000):
    ctypes.CDLL(None).fallocate(2, 3, ctypes.c_long(8_192 * piece), ctypes.c_long(4_096))
os.makedirs("d/e")
for number in range(int(sys.argv[1])):
    with open(f"d/e/{number}", "wb", 0) as file:
        for piece in range(1_000):
            os.pwrite(file.fileno(), b"x" * 4_096, 8_192 * piece)
        os.fsync(file.fileno())
os.chmod("d/e", 0)
os.chmod("d", 0)
"""


def files_of_pieces(stage):
    """Files of very many pieces are to be removed, each by one call of the system that takes long; and at a start."""
    with stage.serve() as (server, red):
        begun = time.monotonic()
        for _ in range(3):
            stage.runs(red, python(PIECES, 2))
        took = [stage.blue_runs(server) for _ in range(5)]
        of_blue = lambda: [name for name in server.entries() if name.startswith("1-")]
        stage.waits(lambda: not of_blue(), 5, "blue's folders are gone")
        for _ in range(70):
            stage.runs(red, "true")
        at = len({name.partition(".")[0] for name in server.entries()})
        expect(at < 2 * 70, True, f"{at} folders wait")
        stage.nothing_left(server, 200)
        removed = time.monotonic() - begun
        number = red.start(stage.action(["/bin/sh", "-c", f'{PYTHON} -c "$1" 2; sleep 600', "sh", PIECES]))
        red.next(number), red.next(number)
        running = lambda: programs.running(stage.folder, server.process.pid).values()
        stage.waits(lambda: "sleep 600" in running(), 60, "the files are made")
        first = server.start()
        stage.stop(server, signal.SIGKILL)
    stage.end_programs()
    begun = time.monotonic()
    with stage.serve() as (server, red):
        start = time.monotonic() - begun
        stage.blue_runs(server)
        stage.former_removed(server, red, first, 120)
    expect(start < 10 * stage.slow, True, f"the start took {start:.1f} s")
    told = f"blue's actions took {max(took):.1f} s at most, and red's folders were removed in {removed:.1f} s"
    return f"{told}; a start after a crash took {start:.1f} s"


def large_directory(stage):
    """A run's own folder is a directory that has had very many names, and is to be removed, while blue's folders are made."""
    script = """import os
for number in range(60_000):
    os.symlink("nowhere", "%d-%s" % (number, "x" * 230))
for name in os.listdir():
    if name.endswith("x"):
        os.unlink(name)
"""
    with stage.serve() as (server, red):
        took = []
        for _ in range(2):
            stage.runs(red, python(script))
            end = time.monotonic() + 3
            while time.monotonic() < end:
                took.append(stage.blue_runs(server))
        stage.nothing_left(server, 60)
    return f"blue's {len(took)} actions took {max(took):.2f} s at most"


def dear_although_little(stage):
    """Little is in a run's folder, and its removal takes long: each step waits for the disk, gigabytes of a file without
    blocks are in memory, or the system remembers many names that are not there."""
    scripts = [
        "chattr +D .; for name in $(seq 20); do mkdir $name; (cd $name; seq 120 | xargs touch); done",
        "truncate -s 2G file; cat file > /dev/null",
        python("import os\nfor number in range(1_000_000): os.path.exists(str(number))"),
    ]
    with stage.serve() as (server, red):
        took = []
        for script in scripts:
            for _ in range(2):
                stage.runs(red, script)
                end = time.monotonic() + 2
                while time.monotonic() < end:
                    took.append(stage.blue_runs(server))
        stage.nothing_left(server, 60)
    return f"blue's {len(took)} actions took {max(took):.2f} s at most"


def remover_killed(stage):
    """What removes folders for the server is killed fifty times a second."""
    killed, is_over = 0, threading.Event()

    def kill(server):
        nonlocal killed
        while not is_over.wait(0.02):
            for helper in programs.helpers(stage.folder, server.process.pid, programs.REMOVES_FOLDERS):
                with contextlib.suppress(ProcessLookupError):
                    os.kill(helper, signal.SIGKILL)
                    killed += 1

    with stage.serve() as (server, red):
        killer = threading.Thread(target=kill, args=[server])
        killer.start()
        try:
            for number in range(20):
                stage.runs(red, f"mkdir -p a/b; seq {100 * number} > a/b/o; mkdir c; chmod 0 a/b a")
            took = stage.blue_runs(server)
            stage.nothing_left(server)
        finally:
            is_over.set()
            killer.join()
        stage.runs(red, "mkdir a")
        stage.nothing_left(server)
        zombies = programs.zombies(server.process.pid)
        expect(len(zombies) <= 16, True, f"{len(zombies)} ended children")
    return f"killed {killed} times, all folders are gone: blue's action then took {took:.1f} s"


@contextlib.contextmanager
def stopping(server, until):
    """Stops (SIGSTOP) each shell that removes folders for the server, as soon as it is there, until something holds."""

    def stop():
        while not until() and not is_over.is_set():
            for helper in programs.begun(server.process.pid, programs.REMOVES_FOLDERS):
                with contextlib.suppress(ProcessLookupError):
                    os.kill(helper, signal.SIGSTOP)
            time.sleep(0.001)

    is_over, thread = threading.Event(), threading.Thread(target=stop)
    thread.start()
    try:
        yield
    finally:
        is_over.set()
        thread.join()


def remover_stopped(stage):
    """What removes folders for the server is stopped (SIGSTOP), and so is the program that it has started for one."""
    with stage.serve(slots=(4, 2)) as (server, red):
        stage.runs(red, "true")
        is_told = lambda: any("actions wait, as folders are still to be removed: 6" in line for line in server.said())
        count = 0
        # A shell that is stopped has another one in its place after some seconds, however few runs have ended by then.
        with stopping(server, is_told):
            while count < 100 and not is_told():
                # too much for the server to remove it by itself
                numbers = [red.start(stage.action("seq 200 | xargs touch")) for _ in range(4)]
                for number in numbers:
                    done = red.operations(number)[-1]
                    expect((done.status.code, done.result and done.result.code), (0, 0), "an action")
                count += len(numbers)
        expect(is_told(), True, f"a line says that actions wait, after {count} runs")
        begun = time.monotonic()
        stage.nothing_left(server, 30)
        took = time.monotonic() - begun
        # so many files that the program which removes them is found at it
        stage.runs(red, "seq 30000 | xargs touch")
        look = lambda: programs.removing(server.process.pid)
        programs.settled(lambda: not look(), 5 * stage.slow)
        for number in look():
            os.kill(number, signal.SIGSTOP)
        stage.runs(red, "seq 200 | xargs touch")
        try:
            stage.nothing_left(server, 30)
        finally:
            programs.end_stopped(stage.folder)
        stage.blue_runs(server)
    return f"another one takes its place: the folders of {count} runs were gone after {took:.1f} s"


def names_of_removal(stage):
    """Directories have the names that removal gives to what it moves, in the folder of the run and beside it."""
    inside = """seq -f ".removed-%g/x" 3000 | xargs mkdir -p; seq -f ".aside/%g/x" 300 | xargs mkdir -p
        seq -f "%g/x" 300 | xargs mkdir -p; mkdir -p a/b/c; chmod 0 a/b a"""
    beside = """here=$PWD; above=$(dirname "$here"); next=$above/0-$((${here##*-} + 1))
        for name in "$here" "$next"; do for ending in .removed .aside; do
        seq -f "$name$ending/%g/x" 300 | xargs mkdir -p; done; done; mkdir -p "$above/former/x" """
    with stage.serve() as (server, red):
        for _ in range(2):
            stage.runs(red, inside)
        stage.nothing_left(server, 60)
        if stage.way.is_apart:
            return made_beside(stage, server, red, beside)
        for _ in range(2):
            # the names of the run that follows are taken then
            stage.runs(red, beside)
            stage.fails(server, red, "folder", beside)
        is_told = lambda name: any(name in line for line in server.said())
        left = lambda: [name for name in server.entries() if name[2:].isdigit() and not is_told(name)]
        programs.settled(left, 60 * stage.slow)
        expect(left(), [], "folders that are left without a line")
        stage.blue_runs(server)
        first, count = server.start(), len(server.entries())
    with stage.serve() as (server, red):
        stage.former_removed(server, red, first)
    return f"no folder is kept by what is in it; what was made beside ({count} things) goes with the next start"


def made_beside(stage, server, red, beside):
    """What programs that are apart would make beside their folders is not made."""
    for _ in range(2):
        done = red.execute(stage.action(beside))
        expect(bool(done.result) and done.result.code != 0, True, "the program is told that it cannot be made")
        stage.nothing_left(server, 60)
        stage.runs(red, "true")
    stage.blue_runs(server)
    return "no folder is kept by what is in it, and nothing can be made beside"


def not_removable(stage):
    """Something in a folder cannot be removed."""
    with stage.serve() as (server, red):
        number = red.start(stage.action("mkdir d; : > d/f; until [ -e told ]; do sleep 0.05; done; printf abc"))
        path = os.path.join(server.start(), "0-1", "told")
        stage.waits(lambda: os.path.exists(os.path.join(server.start(), "0-1", "d", "f")), 20, "a folder")
        inner = os.path.join(server.start(), "0-1", "d")
        if stage.user is None:
            lock(inner)
        try:
            os.chown(inner, 0, 0)
            with open(path, "w"):
                pass
            done = red.operations(number)[-1]
            expect(done.result and done.result.code, 0, "the run")
            for _ in range(3):
                stage.runs(red, "printf abc > out", files=["out"])
            stage.blue_runs(server)
            line = "remoted: run red 1 failed: left"
            stage.waits(lambda: line in server.said(), 10, f"the line `{line}`: {server.said()}")
            stage.stop(server, signal.SIGTERM)
        except BaseException:
            unlock(stage, inner)
            raise
    try:
        for path in ["start-1", "start-1/0-1", "start-1/0-1/d"]:
            os.mkdir(os.path.join(stage.work, path))
            os.chown(os.path.join(stage.work, path), *stage.owner())
        with stage.serve() as (server, red):
            stage.runs(red, "printf abc > out", files=["out"])
            stage.blue_runs(server)
            is_told = lambda: any("cannot remove" in line and stage.work in line for line in server.said())
            stage.waits(is_told, 10, f"a line that says what cannot be removed: {server.said()}")
            stage.former_removed(server, red, os.path.join(stage.work, "start-1"), 20, is_all=False)
    finally:
        unlock(stage, inner)
    return "a line names it, after the run and at the next start; all else is removed, and others' runs go on"


def lock(inner):
    """Makes a file one that root cannot remove."""
    if os.geteuid():
        raise Skipped("only root can make what its own user cannot remove")
    if subprocess.run(["chattr", "+i", os.path.join(inner, "f")], capture_output=True).returncode:
        raise Skipped("no file can be made immutable (chattr +i) here")


def unlock(stage, inner):
    # A start may have moved it.
    subprocess.run(["chattr", "-R", "-f", "-i", stage.work], capture_output=True)
    if os.path.isdir(inner):
        os.chown(inner, *stage.owner())
