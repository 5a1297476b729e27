#!/usr/bin/env python3
"""launchers_killed.py PROGRAM [--rounds N] [--only WHAT ..] [--in PLACE ..] [--slow FACTOR] [--seed N]: kills, by SIGKILL
at random moments, and looks at what is left.

PROGRAM is the built `remoted`. WHAT is `server`, `launcher`, `bwrap`, `srun`, `slurmctld` or `slurmd`; PLACE is `sandbox`
(as this user), `plain` (the same as a plain user), `slurm`, or `both` (the sandbox on nodes of Slurm). Kills come in
batches of ten: 20 batches for the server and for the launcher, 3 for each other, in turn at the places where there is such
a process; --rounds is the most batches of each. Meanwhile up to six programs are started and run.

Half a minute after a run's end, or its server's, no process of it may be there: none that has the test's folder in its
words, its variables, its working directory or its descriptors. A run whose server and node live, and of which nothing was
killed, gives its own result; one of which something was killed gives that, or fails. It needs root, bubblewrap,
python3-seccomp, slurm-wlm and munge; what is not there is said, and skipped. Slurm ends jobs by control groups of version
1 (freezer). Where the host has none, at `slurm` a program's process that began while it was to end is said, and allowed.
"""

import argparse
import contextlib
import glob
import importlib.util
import os
import random
import shutil
import signal
import sys
import time

import messages as m
import slurm_cluster
from executing import PATH, Action, Peer
from killing import KINDS, Place, kill, launchers, named
from programs import settled

# What is killed: how many batches of ten, and where.
BATCHES = {
    "server": (20, KINDS),
    "launcher": (20, KINDS),
    "bwrap": (3, ["sandbox", "plain", "both"]),
    "srun": (3, ["slurm", "both"]),
    "slurmctld": (3, ["slurm", "both"]),
    "slurmd": (3, ["slurm", "both"]),
}
KILLS, AT_ONCE, LEFT_FOR = 10, 6, 30
# After so many seconds slurmctld has saved what it knows of a job. One that is killed before forgets the job, and ends it.
SAVED_AFTER = 6
# Each action's, in seconds: none may come to it.
TIMEOUT = 60


class Runs:
    """Six actions that were started: what each is to give, and what came of it."""

    def __init__(self, place, server, peer, seconds):
        self.place, self.server, self.peer, self.calls = place, server, peer, {}
        for n in range(AT_ONCE):
            name = f"{place.kind}-{random.getrandbits(48):x}"
            script = f"printf {name} >begun; sleep {seconds}; printf {name}; exit {n}"
            named_by = [PATH, ("MARK", place.folder)]
            action = Action(script, do_not_cache=True, variables=named_by, files=["begun"], seconds=TIMEOUT)
            peer.store(action.blobs)
            self.calls[name] = (n, peer.start(action, is_stored=True))

    def begun(self, seconds):
        """The names of those whose programs have begun so long ago."""
        found = set()
        for path in glob.glob(f"{self.server.folder}/start-*/*/begun"):
            with contextlib.suppress(OSError), open(path) as file:
                if os.fstat(file.fileno()).st_mtime < time.time() - seconds:
                    found.add(file.read())
        return found

    def ended(self):
        """What came of each: `right`, `failed`, or what is wrong with it."""
        found = {}
        for name, (code, number) in self.calls.items():
            operation = self.peer.operations(number)[-1]
            result, text = operation.result, m.digest(name.encode())
            told = result and (result.code, result.stdout, result.stderr, result.files)
            if told == (code, text, b"", {"begun": (text, False)}):
                found[name] = "right"
            elif (operation.status.code, operation.status.text) == (13, "run failed"):
                found[name] = "failed"
            elif operation.status.code == 4:
                found[name] = "timed out"
            else:
                found[name] = f"status {operation.status.code}, {told}"
        return found


class Batch:
    """Ten kills at one place: how they went."""

    def __init__(self, place, what):
        self.place, self.what, self.killed, self.failed, self.wrong = place, what, 0, 0, []

    def judged(self, ended, must_be_right=(), most_failed=AT_ONCE):
        """Of these runs so many may have failed, but none of those that have to be right."""
        # A job that slurmctld had not saved is forgotten where that is killed: its run waits until its timeout.
        lost = ["failed", "timed out"] if self.what == "slurmctld" else ["failed"]
        failed = [name for name, what in ended.items() if what in lost]
        self.failed += len(failed)
        self.wrong += [what for what in ended.values() if what not in ("right", *lost)]
        self.wrong += [f"{name} failed" for name in failed if name in must_be_right]
        if len(failed) > most_failed:
            self.wrong.append(f"{len(failed)} runs failed of {most_failed} that something was killed of")

    # One kill each.

    def server(self):
        """Six programs begin, and the server is killed."""
        with self.place.serve() as server, Peer(server.ports[0]) as peer:
            Runs(self.place, server, peer, 4177)
            time.sleep(random.uniform(0, 2 if self.place.cluster else 0.5))
            server.process.kill()
            server.process.wait()
            self.killed += 1

    def one_of(self, server, peer, look, seconds):
        """One of the processes that are found is killed while six programs start, run and end."""
        runs = Runs(self.place, server, peer, 0.2)
        end = time.monotonic() + random.uniform(0, seconds)
        while time.monotonic() < end:
            time.sleep(0.005)
        found = look()
        is_killed = bool(found) and kill(random.choice(found))
        self.killed += is_killed
        self.judged(runs.ended(), most_failed=int(is_killed))
        if self.wrong:
            self.wrong.append(f"the server said {server.all_said()[-6:]}")

    def launcher(self, server, peer):
        self.one_of(server, peer, lambda: launchers(server, self.place.launcher), 1.5 if self.place.cluster else 0.6)

    def bwrap(self, server, peer):
        self.one_of(server, peer, lambda: named(server.folder, "bwrap"), 1.5 if self.place.cluster else 0.4)

    def srun(self, server, peer):
        self.one_of(server, peer, lambda: named(server.folder, "srun"), 1.5)

    def daemon(self, server, peer, stop, start):
        """A daemon of Slurm's is killed and started again. What had begun goes on: slurmctld knows it when it is back."""
        runs = Runs(self.place, server, peer, 10)
        time.sleep(random.uniform(0, 12))
        begun = runs.begun(SAVED_AFTER if stop == self.place.cluster.stop_controller else 0)
        stop()
        self.killed += 1
        time.sleep(random.uniform(0, 4))
        start()
        self.judged(runs.ended(), must_be_right=begun)

    def slurmctld(self, server, peer):
        cluster = self.place.cluster
        self.daemon(server, peer, cluster.stop_controller, cluster.start_controller)

    def slurmd(self, server, peer):
        cluster, node = self.place.cluster, random.choice(slurm_cluster.NODES)
        self.daemon(server, peer, lambda: cluster.stop_node(node), lambda: cluster.start_node(node))


def batch(place, what, slow):
    """Ten kills; then what is left, and after how long that is nothing."""
    made = Batch(place, what)
    if what == "server":
        for _ in range(KILLS):
            made.server()
        return made, *place.settled(LEFT_FOR * slow)
    with place.serve() as server:
        with Peer(server.ports[0], 110) as peer:
            tries = 0
            while made.killed < KILLS and tries < 10 * KILLS:
                getattr(made, what)(server, peer)
                tries += 1
            left, seconds, missed = place.settled(LEFT_FOR * slow, server)
            if place.cluster and what == "slurmctld" and settled(place.cluster.jobs, 10 * slow):
                # Of jobs that ended while it was away it may know that they run. The next action has them cancelled.
                made.judged(Runs(place, server, peer, 0).ended(), most_failed=0)
    later = place.settled(LEFT_FOR * slow)
    return made, {**left, **later[0]}, seconds, missed + later[2]


class Tally:
    """What was found, a line for each batch."""

    def __init__(self):
        self.passed, self.failed = 0, 0

    def told(self, made, left, seconds, missed):
        jobs = settled(made.place.cluster.jobs, LEFT_FOR) if made.place.cluster else []
        if jobs:
            made.place.cluster.told("scancel", "--user=root")
        is_well = made.killed == KILLS and not made.wrong and not left and not jobs
        self.passed, self.failed = self.passed + is_well, self.failed + (not is_well)
        text = f"{made.what} in {made.place.kind}: {made.killed} kills, {made.failed} runs failed"
        text += f", nothing is left after {seconds:.1f} s" if not left else f", left after {seconds:.1f} s: {left}"
        text += f", {missed} processes that Slurm missed" if missed else ""
        text += f", wrong: {made.wrong[:5]}" if made.wrong else ""
        print(("ok " if is_well else "FAILED ") + text + (f", jobs: {jobs}" if jobs else ""), flush=True)


def lacking():
    """What is not there for each place."""
    sandbox = [] if shutil.which("bwrap") else ["bubblewrap (bwrap)"]
    sandbox += [] if importlib.util.find_spec("seccomp") else ["python3-seccomp"]
    root, cluster = [] if os.geteuid() == 0 else ["root"], slurm_cluster.lacking()
    return {"sandbox": sandbox, "plain": sandbox + root, "slurm": cluster, "both": cluster + sandbox}


def rounds_at(kind, options):
    """What is killed at a place, so often."""
    found = []
    for what in options.only:
        count, places = BATCHES[what]
        places = [each for each in places if each in options.places]
        if kind in places:
            count = min(count, options.rounds)
            at = places.index(kind)
            found += [what] * (count // len(places) + (at < count % len(places)))
    return found


def main():
    parser = argparse.ArgumentParser(description=__doc__, formatter_class=argparse.RawDescriptionHelpFormatter)
    parser.add_argument("program")
    parser.add_argument("--rounds", type=int, default=20, metavar="N")
    parser.add_argument("--only", nargs="*", default=list(BATCHES), choices=list(BATCHES), metavar="WHAT")
    parser.add_argument("--in", dest="places", nargs="*", default=KINDS, choices=KINDS, metavar="PLACE")
    parser.add_argument("--slow", type=float, default=1.0, metavar="FACTOR")
    parser.add_argument("--seed", type=int, default=random.getrandbits(32))
    options = parser.parse_args()
    random.seed(options.seed)
    print(f"seed {options.seed}", flush=True)
    signal.signal(signal.SIGTERM, lambda *_: sys.exit(1))
    missing, tally = lacking(), Tally()
    for kind in options.places:
        if missing[kind]:
            print(f"skipped {kind}: it needs {', '.join(missing[kind])}", flush=True)
            continue
        todo = rounds_at(kind, options)
        if not todo:
            continue
        with Place(options.program, kind) as place:
            for what in todo:
                tally.told(*batch(place, what, options.slow))
    print(f"{tally.passed} passed, {tally.failed} failed", flush=True)
    sys.exit(tally.failed > 0)


main()
