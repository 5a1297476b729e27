"""A host of its own for a script: a folder with a fresh Debian, and systemd in it, in namespaces of its own.

It needs root, and Debian's `debootstrap` and `systemd-container`.
"""

import contextlib
import ctypes
import os
import pathlib
import shutil
import signal
import subprocess
import tempfile
import time

PACKAGES = "adduser,bubblewrap,python3-seccomp,systemd,systemd-sysv"
NEW_NETWORK = 0x4000_0000
HIERARCHIES = [pathlib.Path("/sys/fs/cgroup", name) for name in ["", "systemd", "unified"]]
# bubblewrap writes there, for its own namespace of users; all else of /proc/sys is read only in the machine.
WRITTEN = "/proc/sys/user"
NSPAWN = ["systemd-nspawn", "--quiet", "--register=no", "--private-network", "--console=pipe", f"--bind={WRITTEN}"]


@contextlib.contextmanager
def clean_root(made):
    """A fresh folder of Debian, which is removed in the end: a copy of `made`, where one is given, or a new one."""
    with tempfile.TemporaryDirectory(prefix="clean-root-") as folder:
        root = pathlib.Path(folder, "root")
        if made:
            subprocess.run(["cp", "-a", made, root], check=True)
        else:
            words = ["debootstrap", "--variant=minbase", f"--include={PACKAGES}", "bookworm", str(root)]
            subprocess.run(words, check=True, stdout=subprocess.DEVNULL)
        yield root


def in_root(root, *words, **more):
    """Runs a command in a root in which nothing else runs."""
    environment = {"PATH": "/usr/sbin:/usr/bin:/sbin:/bin", "DEBIAN_FRONTEND": "noninteractive"}
    return subprocess.run(["chroot", str(root), *words], capture_output=True, text=True, env=environment, **more)


class Machine:
    """A host that runs systemd over a root, until the block ends. Its network is its own, and so are its ports."""

    def __init__(self, root):
        self.root = root
        self.groups = [each / name for each in HIERARCHIES for name in ["payload", "supervisor"]]
        self.groups = [each for each in self.groups if not each.exists()]
        # Where the host has no systemd, nobody makes a group for it.
        kept = [] if os.path.isdir("/run/systemd/system") else ["--keep-unit"]
        words = [*NSPAWN, *kept, f"--directory={root}", "--boot"]
        nowhere = dict.fromkeys(["stdin", "stdout", "stderr"], subprocess.DEVNULL)
        self.process = subprocess.Popen(words, **nowhere)

    def __enter__(self):
        try:
            self.first = self._first_process()
            self.inside("sh", "-c", "until systemctl is-system-running --quiet --wait; do sleep 0.2; done", timeout=60)
            self.inside("mount", "-o", "remount,bind,rw", WRITTEN, check=True)
        except BaseException:
            self.__exit__()
            raise
        return self

    def _first_process(self):
        """The number of the process 1 of the machine."""
        children = pathlib.Path(f"/proc/{self.process.pid}/task/{self.process.pid}/children")
        for _ in range(100):
            for number in children.read_text().split():
                with contextlib.suppress(OSError):
                    if pathlib.Path(f"/proc/{number}/comm").read_text().strip() == "systemd":
                        return number
            time.sleep(0.1)
        raise SystemExit("systemd does not start")

    def inside(self, *words, folder="/", **more):
        """Runs a command in the machine, and gives what came of it."""
        entered = ["nsenter", "--all", f"--target={self.first}", f"--wdns={folder}", "--"]
        return subprocess.run([*entered, *words], capture_output=True, text=True, **more)

    def join_network(self):
        """From now on this process has the machine's network."""
        library = ctypes.CDLL(None, use_errno=True)
        with open(f"/proc/{self.first}/ns/net") as network:
            if library.setns(network.fileno(), NEW_NETWORK):
                raise OSError(ctypes.get_errno(), "setns")

    def __exit__(self, *_):
        if self.process.poll() is None:
            self.process.send_signal(signal.SIGTERM)
            try:
                self.process.wait(20)
            except subprocess.TimeoutExpired:
                self.process.kill()
                self.process.wait()
        for group in self.groups:
            for each, _, _ in os.walk(group, topdown=False):
                with contextlib.suppress(OSError):
                    os.rmdir(each)


def copy_in(root, source, place):
    """A copy of a file or folder in a root."""
    target = root / place
    target.parent.mkdir(parents=True, exist_ok=True)
    if os.path.isdir(source):
        shutil.copytree(source, target, symlinks=True)
    else:
        shutil.copy2(source, target)
