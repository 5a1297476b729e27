"""What `launchers_killed.py` kills, and what it finds left: the processes of a test, and the places where its actions run."""

import contextlib
import os
import shutil
import signal
import tempfile
import time

import slurm_cluster
from launchers_sandbox import sandbox
from programs import helpers, marked
from server import Server

PLAIN = {"user": 65534, "group": 65534, "extra_groups": []}
KINDS = ["sandbox", "plain", "slurm", "both"]


def _read(path):
    try:
        with open(path, "rb") as file:
            return file.read()
    except OSError:
        return b""


def stat(pid):
    """A process's state, its parent, its group and its session; nothing where it is gone."""
    words = _read(f"/proc/{pid}/stat").rpartition(b")")[2].split()
    return (words[0].decode(), *(int(each) for each in words[1:4])) if words else ("", 0, 0, 0)


def words(pid):
    return [each.decode(errors="replace") for each in _read(f"/proc/{pid}/cmdline").split(b"\0")]


def numbers():
    return [int(name) for name in os.listdir("/proc") if name.isdigit()]


def launchers(server, launcher):
    """The children of a server that are to start a program of an action by this launcher."""
    return [pid for pid in numbers() if stat(pid)[1] == server.process.pid and launcher in words(pid)]


def named(mark, name):
    """The processes of this name with the mark in their words."""
    return [
        pid
        for pid in numbers()
        if os.path.basename(words(pid)[0]) == name and any(mark in each for each in words(pid)) and stat(pid)[0] != "Z"
    ]


def kill(pid):
    """Whether it was there to be killed."""
    try:
        os.kill(pid, signal.SIGKILL)
    except ProcessLookupError:
        return False
    return True


class Place:
    """Where servers with a launcher work: a folder whose path is the mark of all that they start, and maybe a cluster."""

    def __init__(self, program, kind):
        self.program, self.kind, self.count = program, kind, 0
        self.folder = tempfile.mkdtemp(prefix=f"launchers-killed-{kind}-")
        os.chmod(self.folder, 0o777)
        self.cluster, self.more = None, PLAIN if kind == "plain" else {}
        self.are_missed = kind == "slurm" and not slurm_cluster.has_freezer()

    def __enter__(self):
        made = os.path.join(self.folder, "launcher")
        os.mkdir(made)
        following = "" if self.kind == "slurm" else sandbox(made)
        if self.kind in ("slurm", "both"):
            self.cluster = slurm_cluster.Cluster(self.folder, min(4, os.cpu_count())).__enter__()
            self.launcher = slurm_cluster.launcher(self.cluster, self.folder, following)
        else:
            self.launcher = following
        return self

    def __exit__(self, *_):
        for pid in marked(self.folder, self.daemons()):
            kill(pid)
        if self.cluster:
            self.cluster.__exit__()
        shutil.rmtree(self.folder, ignore_errors=True)

    def serve(self, slots=6):
        """A server with a folder of its own."""
        self.count += 1
        work = os.path.join(self.folder, f"work-{self.count}")
        return Server(self.program, [("red", 10**8, slots)], 2**62, None, work, True, self.launcher, **self.more)

    def daemons(self):
        """Those of the cluster, and a part of slurmctld's that is a process of its own."""
        if not self.cluster:
            return set()
        found = {process.pid for process in self.cluster.processes.values()}
        return found | {pid for pid in numbers() if stat(pid)[1] in found and "slurmscriptd" in words(pid)[0]}

    def left(self, server=None):
        """The processes that are there, but for a server that goes on, its helpers, and the cluster's."""
        spared = self.daemons()
        if server:
            spared |= {server.process.pid, *helpers(self.folder, server.process.pid)}
        return marked(self.folder, spared)

    def _is_missed(self, pid):
        """Whether it is a program's process that Slurm may have missed."""
        mark = b"MARK=" + os.fsencode(self.folder)
        return self.are_missed and mark in _read(f"/proc/{pid}/environ").split(bytes(1))

    def settled(self, seconds, server=None):
        """What is left once that is nothing or the time is over, after how long, and how many Slurm missed. It is killed then."""
        begun = time.monotonic()
        while (found := self.left(server)) and time.monotonic() < begun + seconds:
            time.sleep(0.2)
        took, missed = time.monotonic() - begun, [pid for pid in found if self._is_missed(pid)]
        for pid in found:
            kill(pid)
        return {pid: text for pid, text in found.items() if pid not in missed}, took, len(missed)
