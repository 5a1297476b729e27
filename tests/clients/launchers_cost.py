"""What `launchers.py` measures: what a launcher costs an action, and what starts by the sandbox take of processors."""

import contextlib
import ctypes
import json
import os
import shutil
import statistics
import tempfile
import time
import traceback

import launchers_sandbox as sandbox
import slurm_cluster
from executing import Action, Peer
from server import Server

PLAIN = 61778
# The most that a start may take of the processor, of what it takes by another text of the launcher.
MOST = 0.8
BECOME_SUBREAPER = 36
BUBBLEWRAP = """/usr/bin/bwrap --unshare-all --unshare-user --disable-userns --cap-drop ALL --die-with-parent --as-pid-1
    --hostname sandbox --ro-bind /usr /usr --symlink usr/bin /bin --symlink usr/lib /lib --symlink usr/lib64 /lib64
    --proc /proc --dev /dev --tmpfs /tmp --bind {root} /work --remount-ro /proc --remount-ro / -- /bin/true""".split()


def seconds_each(program, launcher, count):
    with Server(program, [("red", 10**8, 1)], 2**62, launcher=launcher) as server, Peer(server.ports[0]) as peer:
        took = []
        for n in range(count):
            action = Action(["/bin/true"], tree={"n": b"%d" % n}, do_not_cache=True)
            peer.store(action.blobs)
            begun = time.monotonic()
            peer.operations(peer.start(action, is_stored=True))
            took.append(time.monotonic() - begun)
        return min(took), sorted(took)[count // 2]


def of_actions(report, program, count):
    """The time of an action, from its call to its answer."""
    tell(report, "no launcher", *seconds_each(program, None, count))
    with tempfile.TemporaryDirectory(prefix="launchers-cost-") as folder:
        tell(report, "sandbox", *seconds_each(program, sandbox.sandbox(folder), count))
    if slurm_cluster.lacking():
        return
    with tempfile.TemporaryDirectory(prefix="launchers-cost-") as folder, slurm_cluster.Cluster(folder) as cluster:
        launcher = slurm_cluster.launcher(cluster, folder)
        tell(report, "slurm", *seconds_each(program, launcher, max(1, count // 4)))


def tell(report, name, least, median):
    report.told(f"an action by {name}", f"{1000 * least:.1f} ms at least, {1000 * median:.1f} ms the median")


class Starts:
    """Starts of /bin/true in some ways: for each the processors' time and the whole, in milliseconds."""

    def __init__(self, folder, ways, at_once):
        self.ways, self.at_once, self.number = ways, at_once, 0
        self.folder = os.path.join(folder, str(at_once))
        self.took = {name: [] for name in ways}
        for name in ways:
            os.makedirs(self._start(name))

    def _start(self, name):
        return os.path.join(self.folder, f"start-{list(self.ways).index(name)}")

    def _root(self, name):
        """The folder of a run that is to be."""
        self.number += 1
        root = os.path.join(self._start(name), f"0-{self.number}")
        os.mkdir(root)
        os.mkdir(f"{root}.aside")
        return root

    def _once(self, name):
        """Some at a time. All that they start is waited for, also what nobody else waits for."""
        roots = [self._root(name) for _ in range(self.at_once)]
        nothing = [(os.POSIX_SPAWN_OPEN, each, "/dev/null", os.O_RDWR, 0) for each in range(3)]
        begun, processors = time.monotonic(), 0
        for words in map(self.ways[name], roots):
            os.posix_spawn(words[0], words, {}, file_actions=nothing, setsid=True)
        with contextlib.suppress(ChildProcessError):
            while True:
                _, status, used = os.wait4(-1, 0)
                processors += used.ru_utime + used.ru_stime
                if status:
                    raise SystemExit(f"a start by {name} ends with {status}")
        whole = time.monotonic() - begun
        for root in roots:
            shutil.rmtree(root, ignore_errors=True)
            shutil.rmtree(f"{root}.aside", ignore_errors=True)
        return 1000 * processors / self.at_once, 1000 * whole / self.at_once

    def medians(self, count):
        """In turn, so that what else goes on is the same for all. The first start of each makes what all share."""
        for name in self.ways:
            self._once(name)
        for _ in range(max(1, count // self.at_once)):
            for name in self.ways:
                self.took[name].append(self._once(name))
        return {name: [statistics.median(each) for each in zip(*took)] for name, took in self.took.items()}


def as_user(user, measure):
    """What is measured in a process of this user's, which waits for all that is left of what it starts."""
    reading, writing = os.pipe()
    child = os.fork()
    if child == 0:
        try:
            ctypes.CDLL(None).prctl(BECOME_SUBREAPER, 1, 0, 0, 0)
            if user != os.getuid():
                os.setgroups([])
                os.setgid(user)
                os.setuid(user)
            os.chdir("/")
            os.write(writing, json.dumps(measure()).encode())
            os._exit(0)
        except BaseException:
            traceback.print_exc()
        finally:
            os._exit(1)
    os.close(writing)
    with open(reading, "rb") as pipe:
        told = pipe.read()
    if os.waitpid(child, 0)[1]:
        raise SystemExit("nothing was measured")
    return json.loads(told)


def by_launcher(path):
    return lambda root: [path, "red", root, ".", "PATH=/usr/bin:/bin", "/bin/true"]


def of_starts(report, beside, count):
    """Starts by themselves, of root and of a plain user, one at a time and eight: a table, and what is too dear."""
    with tempfile.TemporaryDirectory(prefix="launchers-cost-") as folder:
        os.chmod(folder, 0o755)
        ways = {
            "no launcher": lambda root: ["/bin/true"],
            "bubblewrap alone": lambda root: [word.format(root=root) for word in BUBBLEWRAP],
            **({f"`{beside}`": by_launcher(os.path.realpath(beside))} if beside else {}),
            "`launchers/sandbox`": by_launcher(sandbox.sandbox(os.path.join(folder, "new"))),
        }
        measured = {}
        for user in {0, PLAIN} if os.geteuid() == 0 else {os.getuid()}:
            place = os.path.join(folder, str(user))
            os.mkdir(place)
            os.chown(place, user, user)
            for at_once in [1, 8]:
                name = f"{'a plain user' if user else 'root'}, {at_once} at a time"
                measured[name] = as_user(user, lambda: Starts(place, ways, at_once).medians(count))
        show(measured, ways)
        if beside:
            compare(report, measured, f"`{beside}`")


def show(measured, ways):
    print(f"| a start of `/bin/true`: ms of processors, ms in all | {' | '.join(measured)} |")
    print("|---|" + "---|" * len(measured))
    for way in ways:
        cells = [f"{processors:.1f}, {whole:.1f}" for processors, whole in (each[way] for each in measured.values())]
        print(f"| {way} | {' | '.join(cells)} |", flush=True)


def compare(report, measured, other):
    for name, took in measured.items():
        part = took["`launchers/sandbox`"][0] / took[other][0]
        report.expect(part <= MOST, f"{name}: {part:.2f} of what {other} takes of processors", f"more than {MOST}")
