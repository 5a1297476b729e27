"""What `launchers.py` looks at of `launchers/slurm`: actions on the two nodes of a cluster that is made for it."""

import contextlib
import os
import re
import shutil
import signal
import subprocess
import tempfile
import threading
import time

import messages as m
import programs
from executing import PATH, Action, Peer
from launchers_lost import script
from launchers_sandbox import ODD, Told, sandbox
from sandbox_attacks import REOPENED, REOPENING
from server import Server
from slurm_cluster import LOST_AFTER, NODES, Cluster, launcher


class Site:
    """A cluster, a server whose actions run on it, and a connection."""

    def __init__(self, report, program, folder, cluster, following):
        self.report, self.program, self.folder, self.cluster = report, program, folder, cluster
        self.work = os.path.join(folder, "work")
        self.launcher = launcher(cluster, folder, following)

    @contextlib.contextmanager
    def serve(self, slots=8):
        with Server(self.program, [("red", 10**9, slots)], 2**62, None, self.work, True, self.launcher) as server:
            with Peer(server.ports[0], 300 * self.report.slow) as peer:
                yield server, peer

    def action(self, words, variables=(PATH,), **more):
        return Action(words, do_not_cache=True, variables=[*variables, ("MARK", self.folder)], **more)

    def told(self, peer, words, **more):
        return Told(peer, self.action(words, **more))

    def expect(self, holds, what, found=""):
        self.report.expect(holds, f"slurm: {what}", found)

    def settled(self, look, seconds):
        return programs.settled(look, seconds * self.report.slow)

    def nothing_left(self, server, what):
        self.expect(not self.settled(self.cluster.jobs, 20), f"{what}: no job is left", self.cluster.jobs())
        self.expect(not self.settled(server.entries, 20), f"{what}: no folder is left", server.entries())


@contextlib.contextmanager
def site(report, program, following="", **more):
    folder = tempfile.mkdtemp(prefix="launchers-slurm-")
    try:
        with Cluster(folder, **more) as cluster:
            yield Site(report, program, folder, cluster, following)
    finally:
        for number in programs.running(folder):
            with contextlib.suppress(ProcessLookupError):
                os.kill(number, signal.SIGKILL)
        shutil.rmtree(folder, ignore_errors=True)


def on_nodes(report, program):
    """All of it, without a sandbox on the nodes."""
    with site(report, program) as here:
        with here.serve() as (server, peer):
            results(here, peer)
            timeouts(here, server, peer)
            with Peer(server.ports[0], 300 * report.slow) as second:
                many(here, peer, second)
            here.nothing_left(server, "200 actions")
        not_copied(here)
        srun_killed(here)
        killed(here)
        with here.serve() as (server, peer):
            node_lost(here, server, peer)


def not_copied(here):
    """The launcher alone, where what the program wrote cannot be written once more."""
    root = os.path.join(here.folder, "start-1", "0-1")
    os.makedirs(root)
    os.makedirs(f"{root}.aside")
    words, aside = [here.launcher, "red", root, ".", "/bin/echo", "x"], {"stdin": subprocess.DEVNULL, "env": {}}
    ended = [subprocess.run(words, stdout=subprocess.DEVNULL, **aside).returncode]
    shutil.rmtree(f"{root}.aside")
    os.makedirs(f"{root}.aside")
    with open("/dev/full", "wb") as full:
        ended.append(subprocess.run(words, stdout=full, stderr=subprocess.DEVNULL, **aside).returncode)
    here.expect(ended == [0, -signal.SIGKILL], "what cannot be copied is no result", ended)


def results(here, peer):
    """Outputs, codes, words and streams."""
    script = "cat in; printf err >&2; printf abc > out; mkdir -p t/d; printf x > t/d/f; cd ..; pwd | wc -l"
    told = here.told(peer, script, tree={"in": b"given\n"}, files=["out"], directories=["t"], folder="")
    wanted = (0, "given\n1\n", "err", {"out": b"abc"}, ["t"])
    here.expect((told.code, told.stdout, told.stderr, told.files, told.trees) == wanted, "outputs and streams", told)
    for code in [0, 1, 7, 126, 127, 255]:
        told = here.told(peer, f"exit {code}")
        here.expect((told.code, told.stdout, told.stderr) == (code, "", ""), f"exit code {code}", told)
    for number in [6, 9, 11, 15]:
        told = here.told(peer, f"kill -{number} $$")
        here.expect((told.code, told.stdout) == (128 + number, ""), f"ended by signal {number}", told)
    told = here.told(peer, "echo x; kill 0")
    here.expect((told.code, told.stdout) == (143, "x\n"), "a signal to its whole group", told)
    told = here.told(peer, REOPENING)
    here.expect((told.stdout, told.stderr) == REOPENED, "streams that are opened again", told)
    told = here.told(peer, ["/no/such"])
    here.expect(told.code == 127, "a program that is not there", told)
    told = Told(peer, Action(["/usr/bin/env"], variables=[("B", " x\ty'\"$(z)"), ("A", "1")], do_not_cache=True))
    here.expect(told.stdout == "B= x\ty'\"$(z)\nA=1\n", "variables, which are its own alone", told)
    told = here.told(peer, ["/usr/bin/printf", "%s|", *ODD])
    here.expect(told.stdout == "|".join(ODD) + "|", "odd words", told)
    told = here.told(peer, ["/usr/bin/printf", "%s|", ":", "--prolog=/bin/sh", "--", "a", ":"])
    here.expect(told.stdout == ":|--prolog=/bin/sh|--|a|:|", "words that mean something to srun", told)
    told = here.told(peer, "pwd", folder=":")
    here.expect(told.stdout.endswith("/:\n"), "a working directory of such a name", told)
    told = here.told(peer, "pwd -P; echo 1 > out", folder="a/b", files=["out"])
    here.expect(told.stdout.endswith("/a/b\n") and told.files == {"out": b"1\n"}, "an inner working directory", told)
    done = peer.execute(here.action("head -c 5000000 /dev/zero; head -c 3000000 /dev/zero >&2"))
    sizes = [m.first(each, 2) for each in (done.result.stdout, done.result.stderr)] if done.result else []
    here.expect(sizes == [5_000_000, 3_000_000], "large streams", sizes)


def timeouts(here, server, peer):
    """A program that does not end by itself."""
    begun = time.monotonic()
    told = here.told(peer, "trap '' TERM INT HUP; while :; do sleep 4321; done", seconds=4)
    here.expect(told.status == 4, "a timeout", told)
    here.nothing_left(server, "a timeout")
    alive = here.settled(lambda: programs.running(here.folder, server.process.pid), 20)
    here.expect(not alive, f"nothing of it runs {time.monotonic() - begun - 4:.1f} s later", alive)


def many(here, *peers):
    """A hundred actions at once of each connection, on both nodes."""
    count = 100 * len(peers)
    seen, is_over = set(), threading.Event()

    def watch():
        while not is_over.wait(0.3):
            seen.update(word.strip("|") for word in here.cluster.jobs())

    watcher = threading.Thread(target=watch, daemon=True)
    watcher.start()
    begun = time.monotonic()
    actions = [here.action(f"printf {n}; printf {n} > out; exit {n % 3}", files=["out"]) for n in range(count)]
    for each in actions:
        peers[0].store(each.blobs)
    calls = [(peers[n // 100], peers[n // 100].start(each, is_stored=True)) for n, each in enumerate(actions)]
    wrong = []
    for n, (peer, number) in enumerate(calls):
        done = peer.operations(number)[-1]
        found = done.result and (done.result.code, done.result.stdout, done.result.files)
        text = m.digest(b"%d" % n)
        if found != (n % 3, text, {"out": (text, False)}):
            wrong.append((n, done.status.code, found))
    is_over.set()
    watcher.join()
    took = time.monotonic() - begun
    here.expect(not wrong, f"{count} actions, each with its own answer, in {took:.1f} s", wrong[:3])
    here.expect(set(NODES) <= seen, "both nodes were used", seen)


def srun_killed(here):
    """Of what waits for a job only `srun` is killed, as for memory: the job goes, too."""
    with here.serve() as (_, peer):
        number = peer.start(here.action("trap '' TERM; while :; do sleep 4321; done"))
        here.settled(lambda: not here.cluster.jobs(), 20)
        count = 0
        for name in os.listdir("/proc"):
            with contextlib.suppress(OSError):
                with open(f"/proc/{name}/cmdline", "rb") as file:
                    said = file.read()
                if said.startswith(b"srun\0") and os.fsencode(here.folder) in said:
                    os.kill(int(name), signal.SIGKILL)
                    count += 1
        done = peer.operations(number)[-1]
        left = here.settled(here.cluster.jobs, 20)
        is_gone = count and done.status.code == 13 and not left
        here.expect(is_gone, "the job of an srun that is killed is cancelled", (count, done.status.code, left))


def killed(here):
    """A server that is killed takes its jobs with it."""
    for number in [signal.SIGTERM, signal.SIGKILL]:
        with here.serve() as (server, peer):
            for _ in range(3):
                peer.start(here.action("trap '' TERM; while :; do sleep 4321; done"))
            here.settled(lambda: len(here.cluster.jobs()) < 3, 20)
            count = len(here.cluster.jobs())
            server.process.send_signal(number)
            server.process.wait()
            begun = time.monotonic()
            left = here.settled(here.cluster.jobs, 20)
            took = time.monotonic() - begun
            what = f"the jobs of a server that signal {number} ends are cancelled"
            here.expect(count == 3 and not left, what, (count, left))
            print(f"   after {took:.1f} s", flush=True)


def lose(here, node):
    """Kills a node's daemon, and what holds its jobs."""
    spool = os.listdir(os.path.join(here.folder, f"spool-{node}"))
    steps = {f"slurmstepd: [{found[1]}]" for name in spool if (found := re.fullmatch(rf"{node}_(\d+\.\w+)", name))}
    here.cluster.stop_node(node)
    for name in os.listdir("/proc"):
        with contextlib.suppress(OSError):
            with open(f"/proc/{name}/cmdline", "rb") as file:
                said = file.read().replace(b"\0", b" ").decode(errors="replace").strip()
            if said in steps:
                os.kill(int(name), signal.SIGKILL)


def node_lost(here, server, peer):
    """A node goes away while actions run on both, and comes back."""
    numbers = [peer.start(here.action(f"printf {n}; sleep 2")) for n in range(40)]
    for number in numbers[:4]:
        peer.operations(number)
    here.settled(lambda: f"{NODES[1]}|" not in here.cluster.jobs(), 20)
    lose(here, NODES[1])
    begun, right, failed, wrong = time.monotonic(), 0, 0, []
    for n, number in enumerate(numbers[4:], 4):
        done = peer.operations(number)[-1]
        if done.result and (done.result.code, done.result.stdout) == (0, m.digest(b"%d" % n)):
            right += 1
        elif (done.status.code, done.status.text) == (13, "run failed"):
            failed += 1
        else:
            wrong.append((n, done.status.code, done.result and done.result.code))
    took = time.monotonic() - begun
    what = f"a node is lost: {right} actions right, {failed} failed runs, in {took:.0f} s"
    here.expect(not wrong and right > 0, what, wrong[:3])
    is_soon = took < (LOST_AFTER + 100) * here.report.slow
    here.expect(is_soon, "the others wait no longer than for the loss to be seen", took)
    told = here.told(peer, "printf after")
    here.expect(told.stdout == "after", "actions run on the other node", told)
    here.cluster.start_node(NODES[1])
    here.settled(lambda: here.cluster.states().count("idle") < 2, 40)
    for number in programs.running(here.folder, server.process.pid):
        with contextlib.suppress(ProcessLookupError):
            os.kill(number, signal.SIGKILL)
    told = here.told(peer, "printf again")
    here.expect(told.stdout == "again", "the node comes back", (told, here.cluster.states()))
    here.nothing_left(server, "a lost node")


def next_missing(report, program):
    """What is to start programs on the nodes is not there, or does not say that they have ended."""
    with tempfile.TemporaryDirectory(prefix="launchers-next-") as folder:
        silent = script(folder, "silent", "exit 0")
        other = script(folder, "other", 'echo 7 >"$2.aside/ended"; exit 3')
        saying = script(folder, "saying", 'echo 3 >"$2.aside/ended"; exit 3')
        for following, what, end in [
            ("/no/such", "nothing on the node to start programs: no result", (13, None)),
            (silent, "one that does not write the code: no result", (13, None)),
            (other, "one that writes another one: no result", (13, None)),
            (saying, "one that writes the code: a result", (0, 3)),
        ]:
            with site(report, program, following) as here, here.serve() as (_, peer):
                told = here.told(peer, "true")
                here.expect((told.status, told.code) == end, what, told)


def sandboxed(report, program):
    """The sandbox on the node, which is told the same words."""
    with tempfile.TemporaryDirectory(prefix="launchers-sandbox-") as folder, contextlib.ExitStack() as stack:
        here = stack.enter_context(site(report, program, sandbox(folder)))
        server, peer = stack.enter_context(here.serve())
        told = here.told(peer, "cat in; printf err >&2; printf abc > out", tree={"in": b"given\n"}, files=["out"])
        wanted = (0, "given\n", "err", {"out": b"abc"})
        found = (told.code, told.stdout, told.stderr, told.files)
        here.expect(found == wanted, "in a sandbox: outputs and streams", told)
        for code in [1, 7, 255]:
            told = here.told(peer, f"exit {code}")
            here.expect((told.code, told.stderr) == (code, ""), f"in a sandbox: exit code {code}", told)
        told = here.told(peer, f"cat /etc/shadow /etc/hostname; ls {here.folder} /root /home; true")
        here.expect((told.code, told.stdout) == (0, ""), "in a sandbox: the host's files", told)
        told = here.told(peer, "(setsid sleep 4321 &); sleep 0.2; printf abc")
        here.expect(told.stdout == "abc", "in a sandbox: a daemon is left", told)
        told = here.told(peer, "(setsid sleep 4321 &); trap '' TERM; while :; do sleep 4321; done", seconds=4)
        here.expect(told.status == 4, "in a sandbox: a timeout", told)
        here.nothing_left(server, "in a sandbox")
        alive = here.settled(lambda: programs.running(here.folder, server.process.pid), 20)
        here.expect(not alive, "in a sandbox: no program goes on", alive)
