"""Two teams on one server: `red`, whose actions mean harm, and `blue`, whose calls have to be right and answered soon.

A case of `hostile_actions.py` is a function of a `Stage`: it says what holds, or raises `Fault` or `Skipped`.
"""

import contextlib
import os
import shutil
import signal
import subprocess
import tempfile
import threading
import time

import messages as m
import programs
from execution_context import Fault, expect
from executing import PATH, Action, Peer
from server import Server, is_tree
from ways import Way

# How long a call of blue's may wait on a quiet machine.
LONGEST_WAIT = 0.25
# After how long no answer is waited for any more.
GIVEN_UP = 10
# From any folder of a run to the root of the host.
TOP = "../" * 24
PYTHON = "/usr/bin/python3"


class Skipped(Exception):
    """Why a case cannot be tried here."""


class Neighbour:
    """Makes blue's calls again and again, and keeps what was wrong with them and how long the slowest waited."""

    def __init__(self, port, slow):
        self.port, self.slow = port, slow
        self.given_up = GIVEN_UP * slow
        self.count, self.longest, self.wrong = 0, 0.0, None
        self.is_over = threading.Event()
        self.thread = threading.Thread(target=self._go, daemon=True)

    def __enter__(self):
        self.peer = Peer(self.port, self.given_up)
        self.stored, self.absent = os.urandom(100), os.urandom(100)
        self.peer.store([self.stored])
        self.told = self.peer.call(m.CAPABILITIES, m.capabilities("blue"))
        expect(self.told[1], (0, ""), "blue's GetCapabilities")
        self.thread.start()
        return self

    def __exit__(self, *_):
        self.end()

    def end(self):
        self.is_over.set()
        self.thread.join(2 * self.given_up)
        self.peer.close()

    def _go(self):
        find = m.find_missing("blue", [m.digest(self.stored), m.digest(self.absent)])
        try:
            while not self.is_over.is_set():
                if self._timed(m.CAPABILITIES, m.capabilities("blue")) != self.told:
                    self.wrong = "GetCapabilities"
                messages, status = self._timed(m.FIND_MISSING, find)
                if status != (0, "") or m.every(messages[0], 2) != [m.digest(self.absent)]:
                    self.wrong = f"FindMissingBlobs {status}"
                time.sleep(0.01)
        except OSError as fault:
            self.wrong = f"no answer: {fault!r}"
            self.longest = max(self.longest, self.given_up if isinstance(fault, TimeoutError) else 0)
            if not self.is_over.is_set():
                # The case is lost: what `hostile_actions.py` does when its time is over.
                signal.pthread_kill(threading.main_thread().ident, signal.SIGALRM)

    def _timed(self, path, message):
        begun = time.monotonic()
        answer = self.peer.call(path, message)
        self.longest = max(self.longest, time.monotonic() - begun)
        self.count += 1
        return answer

    def check(self):
        expect(self.wrong, None, "blue's calls")
        waited = f"blue waited {1000 * self.longest:.0f} ms of at most {1000 * LONGEST_WAIT * self.slow:.0f} ms"
        expect(self.longest <= LONGEST_WAIT * self.slow, True, waited)


class Stage:
    """What a case has: the program, the user of its servers, a folder of its own, and a factor for all times.

    Where programs are started by a launcher, it is there, too, with what is known of it.
    """

    def __init__(self, program, user, slow, seconds, way=Way(None, None, False)):
        self.program, self.user, self.slow, self.seconds, self.way = program, user, slow, seconds, way
        self.folder = tempfile.mkdtemp(prefix="hostile-actions-")
        os.chmod(self.folder, 0o755)
        self.work = self.make("work")
        self.longest, self.neighbour, self.stopped, self.number = None, None, [], 0

    def make(self, name):
        """A folder of the servers' user, beside that of their work."""
        path = os.path.join(self.folder, name)
        os.mkdir(path)
        os.chown(path, *self.owner())
        return path

    def owner(self):
        return (os.geteuid(), os.getegid()) if self.user is None else (self.user, self.user)

    def as_user(self):
        """The words of `Popen` for the servers' user."""
        return {} if self.user is None else {"user": self.user, "group": self.user, "extra_groups": []}

    @contextlib.contextmanager
    def serve(self, slots=(2, 2), heard=True, **more):
        """A server with both teams, a connection of red's, and blue's calls beside: all that goes on is looked at."""
        instances = [("red", 2 * 10**8, slots[0]), ("blue", 2 * 10**8, slots[1])]
        more.setdefault("environment", {"SECRET": "of the server"})
        more |= {"folder": self.work, "heard": heard, "launcher": self.way.launcher, **self.as_user()}
        more["extra"] = [*self.way.extra, *more.get("extra", ())]
        with Server(self.program, instances, 2**62, **more) as server:
            neighbour = server.neighbour = self.neighbour = Neighbour(server.ports[1], self.slow)
            try:
                with neighbour, Peer(server.ports[0], 60 * self.slow) as red:
                    yield server, red
            finally:
                self.longest = max(self.longest or 0, neighbour.longest)
            neighbour.check()
            expect(server.is_running() or server in self.stopped, True, "the server is running")
            if heard:
                expect([line for line in server.said() if line.startswith("remoted: run blue")], [], "blue's runs")
        if self.way.launcher:
            self.nothing_goes_on()

    def nothing_goes_on(self):
        """What a launcher started ends with its run, or with its server; of a cluster, each job does."""
        running = lambda: programs.running(self.folder)
        expect(programs.settled(running, 20 * self.slow), {}, "programs that go on")
        if self.way.cluster:
            expect(programs.settled(self.way.cluster.jobs, 20 * self.slow), [], "jobs that go on")

    def stop(self, server, number):
        """Ends a server by a signal."""
        server.neighbour.end()
        self.stopped.append(server)
        expect(server.is_running(), True, "the server is running")
        server.process.send_signal(number)
        server.process.wait(10)

    def action(self, words, tree=None, variables=(PATH,), **more):
        """An action that is no other's and is never taken from the cache; its processes can be told by a variable."""
        self.number += 1
        tree = {f"number-{self.number}": b"", **(tree or {})}
        return Action(words, tree, do_not_cache=True, variables=[*variables, ("MARK", self.folder)], **more)

    def runs(self, peer, words, **more):
        """The result of an action that has to run and end with 0."""
        done = peer.execute(self.action(words, **more))
        expect((done.status.code, done.status.text), (0, ""), "status")
        expect(done.result.code, 0, f"exit code ({peer.stream_text(done.result.stderr)[:200]})")
        return done.result

    def fails(self, server, peer, word, words, **more):
        """An action whose run has to fail, with this word on standard error, where ten lines a second are told."""
        time.sleep(0.11)
        done = peer.execute(self.action(words, **more))
        expect((done.status.code, done.status.text, done.result), (13, "run failed", None), "a run that fails")
        line = f"remoted: run red {done.name.rpartition('/')[2]} failed: {word}"
        is_told = lambda: any(each.startswith(line) for each in server.said())
        programs.settled(lambda: not is_told(), 2 * self.slow)
        expect(is_told(), True, f"{line!r} in {server.said()[-3:]}")

    def blue_runs(self, server, seconds=20):
        """An action of blue's, whose answer is right and comes in time; gives how long that took."""
        text = os.urandom(20).hex()
        begun = time.monotonic()
        with Peer(server.ports[1], seconds * self.slow) as blue:
            result = self.runs(blue, "cat in; cat in > out", tree={"in": text.encode()}, files=["out"])
        expect(result.stdout, m.digest(text.encode()), "blue's standard output")
        expect(result.files, {"out": (m.digest(text.encode()), False)}, "blue's output")
        return time.monotonic() - begun

    @contextlib.contextmanager
    def blue_running(self, server, seconds):
        """An action of blue's that goes on meanwhile, whose answer has to be right; gives its folder's name."""
        source = b"the source of blue\n"
        with Peer(server.ports[1], (seconds + 40) * self.slow) as blue:
            number = blue.start(self.action(f"cat src; sleep {seconds}; cat src", tree={"src": source}))
            of_blue = lambda: [name for name in server.entries() if name.startswith("1-")]
            programs.settled(lambda: not of_blue(), 20 * self.slow)
            yield next(iter(of_blue()), "1-1")
            done = blue.operations(number)[-1]
            expect(done.status.code, 0, "the status of blue's action")
            expect(blue.stream_text(done.result.stdout), 2 * source, "what blue's action read")

    def nothing_left(self, server, seconds=20, is_kept=lambda name: False):
        """No folder of a run is left once some seconds have passed; some names are no run's."""
        is_stray = lambda name: not is_kept(name) and not (self.way.extra and is_tree(name))
        stray = lambda: list(filter(is_stray, server.entries()))
        left = programs.settled(stray, seconds * self.slow)
        expect(left[:10], [], f"{len(left)} folders that are left")

    def former_removed(self, server, red, path, seconds=60, is_all=True):
        """What a former start left at a path is removed, with some runs at the latest; all else too, unless said."""
        rest = os.path.join(server.start(), "former")
        is_left = lambda: os.path.lexists(path) or is_all and os.path.lexists(rest)
        end = time.monotonic() + seconds * self.slow
        while is_left() and time.monotonic() < end:
            self.runs(red, "printf abc > out", files=["out"])
        expect(is_left(), False, "what the former start left is there")

    def waits(self, holds, seconds, what):
        """Waits until something holds."""
        lacking = programs.settled(lambda: not holds(), seconds * self.slow)
        expect(not lacking, True, what)

    def helper(self, server, word):
        """The number of the server's helper whose command line has the word, once there is one."""
        look = lambda: programs.helpers(self.folder, server.process.pid, word)
        found = programs.settled(lambda: not look(), 5 * self.slow)
        helpers = look()
        if found or not helpers:
            raise Skipped("the server has no such helper")
        return min(helpers)

    def end_programs(self):
        """Kills what actions have left."""
        for _ in range(50):
            left = programs.running(self.folder)
            for number in left:
                with contextlib.suppress(ProcessLookupError):
                    os.kill(number, signal.SIGKILL)
            if not left:
                return
            time.sleep(0.02)

    def lost(self):
        """What was wrong with blue's calls."""
        return f"blue's calls: {self.neighbour.wrong or 'right'}" if self.neighbour else "no server"

    def close(self):
        self.end_programs()
        subprocess.run(["chmod", "-R", "u+rwx", self.folder], capture_output=True)
        subprocess.run(["rm", "-rf", "--", self.folder], capture_output=True)


def started(stage, *words, turns=2**62, seconds=20, **more):
    """What becomes of `remoted serve` with these words where it has to end by itself: status and standard error."""
    launched = ["--launcher", stage.way.launcher, *stage.way.extra] if stage.way.launcher else []
    whole = [stage.program, "serve", *launched, "--turns", str(turns), *words]
    process = subprocess.Popen(
        whole, stdout=subprocess.PIPE, stderr=subprocess.PIPE, text=True, **{**stage.as_user(), **more}
    )
    try:
        _, errors = process.communicate(timeout=seconds * stage.slow)
    except subprocess.TimeoutExpired:
        process.kill()
        printed, errors = process.communicate()
        raise Fault(f"it started: {printed!r}, and said {errors!r}") from None
    return process.returncode, errors


def listed(folder):
    """All that stands below a folder, with the modes of all and the texts of files."""
    found, mode = {}, lambda path: oct(os.lstat(path).st_mode)
    for above, folders, files in os.walk(folder):
        for name in folders:
            found[os.path.join(above, name)] = mode(os.path.join(above, name))
        for name in files:
            path = os.path.join(above, name)
            found[path] = mode(path), os.readlink(path) if os.path.islink(path) else open(path, "rb").read()
    return found


def victim(stage, name="victim"):
    """A folder that is no server's, which has to stay as it is."""
    path = stage.make(name)
    os.mkdir(os.path.join(path, "inner"))
    for each in ["file", "inner/file", *(f"inner/{n}" for n in range(200))]:
        with open(os.path.join(path, each), "w") as file:
            file.write("of somebody else")
    for above, folders, files in os.walk(path):
        for each in [".", *folders, *files]:
            os.chown(os.path.join(above, each), *stage.owner())
    return path


def copied(program, folder):
    """A copy of the program where any user may start it."""
    path = os.path.join(folder, "remoted")
    shutil.copy(program, path)
    os.chmod(path, 0o755)
    return path
