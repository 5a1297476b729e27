"""Starts `remoted serve` for a script, and looks at its process."""

import os
import re
import shutil
import socket
import subprocess
import tempfile
import time


# What a server says at its start of what it serves.
BEGINNING = re.compile(
    r"remoted: (\S+ begins with \d+ instances|\S+: \d+ bytes, \d+ slots, on \S+(, reads \S+)?"
    r"|each keeps \d+ blobs, and \d+ results of \d+ bytes, and has windows of \d+ bytes"
    r"|programs are started (by .*|without a launcher)|each instance keeps made trees of \d+ bytes at most"
    r"|figures are written to .*|ends once .* is there|jobs are ended by the lines of .*"
    r"|ends after \d+ turns( at the latest)?)"
)


# What it says behind the line on a run that failed.
REASON = re.compile(r"remoted: run \S+ \d+: ")


def has_leases():
    """Whether a program can take a lease on a file, which keeps whoever opens that waiting."""
    with open("/proc/sys/fs/leases-enable") as file:
        return int(file.read()) != 0


def is_tree(name):
    """Whether a name in the folder of a start is that of a made tree's folder, or of what belongs to it."""
    _, _, job = name.partition(".")[0].partition("-")
    return job.isdecimal() and int(job) >= 2**63


def opens_by_shell(launcher):
    """Whether a shell opens outputs for the server: a program may have a lease on one when its launcher has ended."""
    if not launcher:
        return has_leases()
    with open(launcher, "rb") as file:
        return has_leases() and b"# leaves: no process" not in file.read(4096).split(b"\n")


def free_ports(count):
    sockets = [socket.socket() for _ in range(count)]
    for each in sockets:
        each.bind(("127.0.0.1", 0))
    ports = [each.getsockname()[1] for each in sockets]
    for each in sockets:
        each.close()
    return ports


def remove(folder):
    """Removes a folder of a server that has ended: its launchers may write there for a moment."""
    for _ in range(50):
        shutil.rmtree(folder, ignore_errors=True)
        if not os.path.exists(folder):
            return
        time.sleep(0.1)
    shutil.rmtree(folder)


class Server:
    """A server with these instances: a name, a quota and maybe slots and a parent each. More may stand in its environment.

    It works in a folder of its own, or in `folder`, which is then left. What it says on standard error is kept where
    it is `heard`. Programs are started by `launcher`, where one is given. `extra` are more words of its command line, and
    further ones those of `Popen`: `stderr` among them is where standard error goes that is not kept.
    """

    def __init__(
        self,
        program,
        instances,
        turns=None,
        environment=None,
        folder=None,
        heard=False,
        launcher=None,
        extra=(),
        **more,
    ):
        self.program, self.ports = program, free_ports(len(instances))
        self.work = None if folder else tempfile.TemporaryDirectory()
        self.folder = folder or self.work.name
        self.errors = tempfile.TemporaryFile() if heard else None
        of = lambda name, quota, slots=0, parent=None: (name, quota, slots, parent)
        instances = [of(*each) for each in instances]
        word = lambda name, quota, slots, parent: (quota, slots) if parent is None else (quota, slots, parent)
        words = [
            ":".join(str(part) for part in (each[0], port, *word(*each))) for each, port in zip(instances, self.ports)
        ]
        turns = [] if turns is None else ["--turns", str(turns)]
        launched = [] if launcher is None else ["--launcher", launcher]
        self.process = subprocess.Popen(
            [program, "serve", "--work", self.folder, *launched, *turns, *extra, *words],
            stdout=subprocess.PIPE,
            text=True,
            env={**os.environ, **(environment or {})},
            **{"stderr": self.errors, **more},
        )
        try:
            self._hear_ports([name for name, *_ in instances])
        except BaseException:
            self.process.kill()
            self.process.wait()
            raise

    def _hear_ports(self, names):
        for name, port in zip(names, self.ports):
            line = self.process.stdout.readline()
            if line != f"listening {name} {port}\n":
                raise SystemExit(f"no line for {name}: {line!r} {self.said() if self.errors else ''}")

    def __enter__(self):
        return self

    def __exit__(self, *_):
        self.process.terminate()
        try:
            self.process.wait(10)
        except subprocess.TimeoutExpired:
            self.process.kill()
            self.process.wait()
        self.process.stdout.close()
        if self.work:
            remove(self.work.name)
            self.work.cleanup()

    def is_running(self):
        return self.process.poll() is None

    def all_said(self):
        """The lines on standard error so far."""
        size = os.fstat(self.errors.fileno()).st_size
        return os.pread(self.errors.fileno(), size, 0).decode().splitlines()

    def said(self, with_reasons=False):
        """The same, but for what it serves."""
        is_left_out = lambda line: BEGINNING.fullmatch(line) or not with_reasons and REASON.match(line)
        return [line for line in self.all_said() if not is_left_out(line)]

    def start(self):
        """The folder of the server's runs in that of `--work`, the one that was made last; None where there is none."""
        starts = [os.path.join(self.folder, name) for name in os.listdir(self.folder) if name.startswith("start-")]
        folders = [path for path in starts if path.rpartition("-")[2].isdecimal() and not os.path.islink(path)]
        return max(folders, key=lambda path: int(path.rpartition("-")[2]), default=None)

    def entries(self):
        """What stands in that folder, but for what a launcher keeps there for all runs."""
        start = self.start()
        return sorted(name for name in os.listdir(start) if not name.startswith("sandbox-")) if start else []

    def descriptors(self):
        return len(os.listdir(self._proc("fd")))

    def _proc(self, name):
        return f"/proc/{self.process.pid}/{name}"

    def open_sockets(self):
        names = [os.path.join(self._proc("fd"), name) for name in os.listdir(self._proc("fd"))]
        return sum(os.readlink(name).startswith("socket:") for name in names)

    def cpu_seconds(self):
        """Its processor time so far, to the nanosecond: it has one thread."""
        with open(self._proc("schedstat")) as file:
            return int(file.read().split()[0]) / 1e9

    def children_seconds(self):
        """Processor time of the programs that have ended."""
        with open(self._proc("stat")) as stat:
            words = stat.read().rpartition(")")[2].split()
        return (int(words[13]) + int(words[14])) / os.sysconf("SC_CLK_TCK")

    def peak_megabytes(self):
        return self._status_megabytes("VmHWM")

    def resident_megabytes(self):
        return self._status_megabytes("VmRSS")

    def _status_megabytes(self, name):
        with open(self._proc("status")) as status:
            return next(int(line.split()[1]) / 1024 for line in status if line.startswith(name))
