"""Parts of watching.py: another user of the host puts things in the way of the files of --metrics and --stop, or fills
their disk, beside a team that goes on being served.
"""

import contextlib
import os
import pathlib
import re
import socket
import subprocess
import tempfile
import threading
import time

import messages as m
from executing import Peer
from server import free_ports
from watched import Watched, expect, within

LAST = re.compile(r'\nremoted_runs_over_quota_total{[^\n]*instance="blue"} 0\n\Z')


class Team:
    """Calls of an instance, one after another, until the end of the block: they are answered, each in five seconds."""

    def __init__(self, port, name):
        self.port, self.name, self.longest, self.count, self.ends = port, name, 0.0, 0, False
        self.thread = threading.Thread(target=self._call, daemon=True)

    def _call(self):
        with Peer(self.port) as peer:
            while not self.ends:
                begun = time.monotonic()
                status = peer.call(m.FIND_MISSING, m.find_missing("", [m.digest(b"absent")]))[1]
                self.longest = max(self.longest, time.monotonic() - begun)
                self.count += status[0] == 0
                time.sleep(0.02)

    def __enter__(self):
        self.thread.start()
        return self

    def __exit__(self, kind, *_):
        before = self.count
        served = within(5, lambda: self.count > before + 1)
        self.ends = True
        self.thread.join(5)
        if kind is None:
            what = f"beside it {self.name} is served"
            expect(served and self.longest < 5, what, (self.count, f"{self.longest:.1f} s"))


@contextlib.contextmanager
def two_teams(program, *words, **more):
    """A server of two instances. The one that is not the attacker's is called all the time."""
    with Watched(program, [("red", 10**6), ("blue", 10**6)], words, heard=True, **more) as server:
        with Team(server.ports[1], "blue"):
            yield server


def is_whole(path):
    """Whether a regular file stands there, with all figures from the first to the last."""
    if path.is_symlink() or not path.is_file():
        return False
    text = path.read_text()
    return text.startswith("# HELP remoted_build_info ") and LAST.search(text)


def itself(path):
    return path


def beside(path):
    """What the server writes first."""
    return path.with_name(path.name + ".new")


PRECIOUS = b"of somebody else\n"


@contextlib.contextmanager
def attacked():
    """A folder in which others can write, the path of the figures in it, and a file that nobody may change."""
    with tempfile.TemporaryDirectory() as folder:
        precious = pathlib.Path(folder, "precious")
        precious.write_bytes(PRECIOUS)
        common = pathlib.Path(folder, "common")
        common.mkdir()
        common.chmod(0o777)
        os.chmod(folder, 0o755)
        yield common, common / "remoted.prom", precious
        expect(precious.read_bytes() == PRECIOUS, "the file of somebody else is as it was")


def socket_at(path):
    with socket.socket(socket.AF_UNIX) as bound:
        bound.bind(str(path))


# What another may put under a name: what it is called, and how it is made there.
REPLACED = {
    "a link to another's file": lambda path, precious: path.symlink_to(precious),
    "a second name of another's file": lambda path, precious: path.hardlink_to(precious),
    "a link that leads nowhere": lambda path, _: path.symlink_to(path.with_name("made")),
    "a link to itself": lambda path, _: path.symlink_to(path),
    "a FIFO": lambda path, _: os.mkfifo(path),
    "a socket": lambda path, _: socket_at(path),
    "a file that cannot be written": lambda path, _: path.touch(0o000),
}


def hostile(program):
    for name, make in REPLACED.items():
        for place in [beside, itself]:
            with attacked() as (common, path, precious):
                make(place(path), precious)
                print(f"-- {name} at {place(path).name}", flush=True)
                with two_teams(program, "--metrics", str(path)) as server:
                    expect(within(10, lambda: is_whole(path)), "figures are written", server.said())
                    left = sorted(os.listdir(common))
                    expect(left == [path.name], "no other file is made or left", left)
                    expect(server.said() == [], "nothing is told", server.said())
    hostile_folders(program)
    hostile_all_the_time(program)
    hostile_in_a_sticky_folder(program)
    hostile_stops(program)


def hostile_folders(program):
    for place in [beside, itself]:
        with attacked() as (common, path, _):
            folder = place(path)
            folder.mkdir()
            folder.joinpath("file").touch()
            print(f"-- a folder at {folder.name}", flush=True)
            with two_teams(program, "--metrics", str(path)) as server:
                told = [f"remoted: cannot write {path}: Is a directory (os error 21)"]
                expect(within(10, lambda: server.said()) == told, told[0], server.said())
                time.sleep(12)
                expect(server.said() == told, "it is told once", server.said())
                expect(os.listdir(common) == [folder.name], "no file is made", os.listdir(common))
                folder.joinpath("file").unlink()
                folder.rmdir()
                expect(within(15, lambda: is_whole(path)), "once the folder is gone figures are written")


def swap(path, precious, ends):
    """Puts links and FIFOs under a name, as fast as that goes."""
    aside = path.with_name(f"aside-{path.name}-{threading.get_ident()}")
    while not ends.is_set():
        for make in [REPLACED["a link to another's file"], REPLACED["a FIFO"]]:
            with contextlib.suppress(OSError):
                make(aside, precious)
                aside.rename(path)


def hostile_all_the_time(program):
    with attacked() as (_, path, precious):
        print("-- links and FIFOs at remoted.prom.new, over and over", flush=True)
        ends = threading.Event()
        swapping = [threading.Thread(target=swap, args=(beside(path), precious, ends)) for _ in range(2)]
        for each in swapping:
            each.start()
        try:
            with two_teams(program, "--metrics", str(path)) as server:
                time.sleep(25)
                told = set(server.said())
                ends.set()
                allowed = {f"remoted: cannot write {path}: File exists (os error 17)"}
                expect(told <= allowed, f"the server tells at most {allowed}", told)
                expect(within(25, lambda: is_whole(path)), "once it is over figures are written", server.said())
        finally:
            ends.set()
            for each in swapping:
                each.join()


def hostile_in_a_sticky_folder(program):
    if os.geteuid() != 0:
        print("-- skipped a sticky folder: it needs root", flush=True)
        return
    plain = {"user": 65534, "group": 65534, "extra_groups": []}
    with attacked() as (common, path, precious), tempfile.TemporaryDirectory() as work:
        common.chmod(0o1777)
        os.chown(work, plain["user"], plain["group"])
        beside(path).symlink_to(precious)
        print("-- another's link at remoted.prom.new in a folder as /tmp, and a server of a plain user", flush=True)
        with two_teams(program, "--metrics", str(path), folder=work, **plain) as server:
            told = [f"remoted: cannot write {path}: Operation not permitted (os error 1)"]
            expect(within(10, lambda: server.said()) == told, told[0], server.said())
            beside(path).unlink()
            expect(within(15, lambda: is_whole(path)), "once it is gone figures are written", server.said())


def hostile_stops(program):
    kinds = {**REPLACED, "a folder": lambda path, _: path.mkdir()}
    for name in ["a link to another's file", "a link that leads nowhere", "a link to itself", "a FIFO", "a folder"]:
        with attacked() as (common, _, precious):
            path = common / "stop"
            print(f"-- {name} at stop", flush=True)
            with Watched(program, [("red", 10**6)], ["--stop", str(path)], heard=True) as server:
                kinds[name](path, precious)
                expect(server.process.wait(20) == 0 and server.said() == [], "it ends the server", server.said())
            words = [program, "serve", "--work", str(common / "work"), "--stop", str(path), f"red:{free_ports(1)[0]}:1:0"]
            done = subprocess.run(words, capture_output=True, text=True, timeout=60)
            told = f"remoted: {path} is there already: remove it\n"
            expect((done.returncode, done.stderr) == (1, told), "no server begins where it stands", done)
    with attacked() as (common, _, _):
        print("-- a file in the place of the folder of stop", flush=True)
        common.joinpath("inner").mkdir()
        with two_teams(program, "--stop", str(common / "inner" / "stop")) as server:
            common.joinpath("inner").rmdir()
            common.joinpath("inner").touch()
            time.sleep(3)
            expect(server.is_running() and server.said() == [], "the server goes on", server.said())


@contextlib.contextmanager
def small_disk(size):
    with tempfile.TemporaryDirectory() as folder:
        if subprocess.run(["mount", "-t", "tmpfs", "-o", f"size={size}", "tmpfs", folder]).returncode:
            yield None
            return
        try:
            yield pathlib.Path(folder)
        finally:
            subprocess.run(["umount", folder], check=True)


def fill(folder, but):
    """Takes all room of a disk but for so many bytes."""
    room = os.statvfs(folder)
    folder.joinpath("filling").write_bytes(bytes(room.f_bavail * room.f_frsize - but))


def full(program):
    # Of what is written there, a page has room: it would be half a file.
    page = os.sysconf("SC_PAGE_SIZE")
    with small_disk("64k") as disk:
        if disk is None:
            print("-- skipped: it needs root, to mount a tmpfs", flush=True)
            return
        path = disk / "remoted.prom"
        told = [f"remoted: cannot write {path}: No space left on device (os error 28)"]
        fill(disk, page)
        with two_teams(program, "--metrics", str(path)) as server:
            expect(within(10, lambda: server.said()) == told, told[0], server.said())
            time.sleep(12)
            expect(os.listdir(disk) == ["filling"], "no half file is left", os.listdir(disk))
            expect(server.said() == told, "it is told once", server.said())
            disk.joinpath("filling").unlink()
            expect(within(15, lambda: is_whole(path)), "once there is room figures are written", server.said())
            before = path.read_bytes()
            expect(len(before) > page, "they are more than the room that is left now", len(before))
            fill(disk, page)
            begun = time.monotonic()
            while time.monotonic() - begun < 25:
                if path.read_bytes() != before:
                    raise SystemExit("not so: figures change while the disk is full")
                time.sleep(0.005)
            expect(is_whole(path), "on a full disk the figures stay those before")
            left = sorted(os.listdir(disk))
            expect(left == ["filling", path.name], "no half file is left beside them", left)
            expect(set(server.said()) == set(told), "nothing else is told", server.said())
            disk.joinpath("filling").unlink()
            expect(within(15, lambda: path.read_bytes() != before), "and are new ones once there is room")
            expect(is_whole(path), "which are whole")
