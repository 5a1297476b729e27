#!/usr/bin/env python3
"""launchers_words.py PROGRAM [--only KIND ..] [--ways WAY ..] [--slots N] [--slow FACTOR]: odd commands, by launchers.

PROGRAM is the built `remoted`. It gives each command to five servers: one without a launcher, one with
`launchers/sandbox`, one of a plain user with that, one with `launchers/slurm`, and one with that and the sandbox behind it.
What comes of it has to be equal for all: the status of the Operation, the exit code, standard output and error, and the
outputs. What is known to differ stands in KNOWN, with its reason, and has to differ in just that way.

Kinds are the functions of `odd_commands.py`. Without bubblewrap, Slurm or root the ways that need them are left out, and
that is said. A line for each command that fails; it ends with `N passed, M failed`, and with status 1 where one failed.
"""

import argparse
import collections
import concurrent.futures
import contextlib
import os
import shutil
import signal
import subprocess
import sys
import tempfile
import time

import odd_commands
import slurm_cluster
from executing import Action, Peer
from launchers_sandbox import sandbox
from launchers_slurm import site
from server import Server

WAYS = ["none", "sandbox", "plain", "slurm", "both"]
# What differs: why, and for these ways the status and the exit codes that stand here. Each has a line in DEPLOYING.
FAILED, SANDBOXED = [(13, None)], ["sandbox", "plain", "both"]
all_of = lambda ways, ends: {way: ends for way in ways}
KNOWN = {
    "missing": (
        "a program that cannot be started is a failed run without a launcher, and code 126 or 127 of `env` with one",
        {"none": [*FAILED, (0, 127)], **all_of(WAYS[1:], [(0, 126), (0, 127)])},
    ),
    "equals": ("a program with a `=` in its name: `env` would take it for a variable", all_of(WAYS[1:], FAILED)),
    "order": (
        "variables have the order of their names without a launcher, and that of the command with one",
        all_of(WAYS[1:], [(0, 0)]),
    ),
    "loader": (
        "without a launcher `/usr/bin/setsid` has the action's variables, too: what the dynamic loader says comes twice",
        all_of(WAYS[1:], [(0, 0)]),
    ),
    "many": ("bubblewrap takes no more than 9,000 words, its own among them", all_of(SANDBOXED, FAILED)),
    "near": (
        "the last few kilobytes of 2 MiB of words: lines of launchers are longer",
        {"none": [(0, 0)], "slurm": [(0, 0), *FAILED], **all_of(SANDBOXED, FAILED)},
    ),
}
# How many actions a server knows of at a time.
TOGETHER = 64
# The user of the server whose way is `plain`.
PLAIN = 65534


class Report:
    """What holds and what does not."""

    def __init__(self, slow):
        self.slow, self.passed, self.failed = slow, 0, 0

    def expect(self, holds, what, found):
        if holds:
            self.passed += 1
        else:
            self.failed += 1
            print(f"FAILED {what}: {found}", flush=True)


class Outcome:
    """What came of a command, by digests, and the texts of its streams where they are wanted."""

    def __init__(self, operation, peer):
        result = operation.result
        self.end = operation.status.code, result and result.code
        self.outputs = result and (result.stdout, result.stderr, sorted(result.files.items()), sorted(result.trees.items()))
        self.texts = [peer.stream_text(each) for each in (result.stdout, result.stderr)] if result else []

    def __eq__(self, other):
        return (self.end, self.outputs) == (other.end, other.outputs)

    def __str__(self):
        said = " ".join(repr(text) if len(text) < 400 else f"{text[:150]!r} .. {text[-200:]!r}" for text in self.texts)
        return f"{self.end} {said} {self.outputs and self.outputs[2:]}"


def outcomes(peer, commands):
    """The outcomes of all commands, many at a time."""
    found, begun = [], collections.deque()
    take = lambda: found.append(Outcome(peer.operations(begun.popleft())[-1], peer))
    for each in commands:
        if len(begun) == TOGETHER:
            take()
        action = Action(each.words, each.tree, do_not_cache=True, **each.given)
        begun.append(peer.start(action))
    while begun:
        take()
    return found


@contextlib.contextmanager
def by_way(report, program, way, folder, slots):
    """A connection to a server whose programs are started in this way."""
    if way in ("slurm", "both"):
        following = sandbox(folder) if way == "both" else ""
        with site(report, program, following, cpus=(slots + 1) // 2) as here, here.serve(slots) as (_, peer):
            yield peer
    else:
        launcher, work = sandbox(folder) if way != "none" else None, os.path.join(folder, "work")
        user = {"user": PLAIN, "group": PLAIN, "extra_groups": []} if way == "plain" else {}
        with Server(program, [("red", 10**9, slots)], 2**62, None, work, True, launcher, **user) as server:
            with Peer(server.ports[0], 300 * report.slow) as peer:
                yield peer


def commands_of(kinds, folder):
    """The commands of these kinds, and the file that some of them try to write, which no sandbox shows."""
    mark, root = os.path.join(folder, "mark"), os.path.join(folder, "root")
    for name in [root, f"{root}.aside"]:
        os.mkdir(name)
    given = {"good": [mark], "divided": [mark, root]}
    return [each for kind in kinds for each in odd_commands.KINDS[kind](*given.get(kind, []))], mark


def is_known(known, way, ways):
    """Whether the outcome of a way is as the list says, and equal for launchers that end alike; or as that of the first way."""
    ends = KNOWN[known][1].get(way) if known else None
    if not ends:
        return ways[way] == next(iter(ways.values()))
    alike = [other for name, other in ways.items() if "none" not in (name, way) and other.end == ways[way].end]
    return ways[way].end in ends and all(other == ways[way] for other in alike)


def compare(report, found):
    """Compares what came of each command: `found` has for each way its commands and their outcomes."""
    for alike in zip(*found.values()):
        ways, command = dict(zip(found, (outcome for _, outcome in alike))), alike[0][0]
        wrong = [way for way in ways if not is_known(command.known, way, ways)]
        told = "".join(f"\n    {way}: {outcome}" for way, outcome in ways.items())
        report.expect(not wrong, f"{command.what} ({', '.join(wrong)})", told)


def told_by(report, options, program, way, folder):
    """All commands of these kinds with their outcomes in this way, which write no file outside of their folders."""
    os.mkdir(folder)
    os.chmod(folder, 0o777)
    begun, (commands, mark) = time.monotonic(), commands_of(options.only, folder)
    with by_way(report, program, way, folder, options.slots) as peer:
        found = outcomes(peer, commands)
    print(f"{way}: {len(commands)} commands in {time.monotonic() - begun:.0f} s", flush=True)
    report.expect(not os.path.exists(mark), f"{way}: no word is run outside of its program", mark)
    return list(zip(commands, found))


def is_there(way):
    """Whether what this way needs is there; otherwise it is said."""
    missing = slurm_cluster.lacking() if way in ("slurm", "both") else []
    missing += ["root"] if way == "plain" and os.geteuid() else []
    if way in SANDBOXED:
        missing += [] if shutil.which("bwrap") else ["bubblewrap (bwrap)"]
        trying = subprocess.run(["/usr/bin/python3", "-c", "import seccomp"], capture_output=True)
        missing += ["python3-seccomp"] if trying.returncode else []
    if missing:
        print(f"skipped {way}: it needs {', '.join(missing)}", flush=True)
    return not missing


def main():
    parser = argparse.ArgumentParser(description=__doc__, formatter_class=argparse.RawDescriptionHelpFormatter)
    parser.add_argument("program")
    parser.add_argument("--only", nargs="*", default=[*odd_commands.KINDS], choices=odd_commands.KINDS, metavar="KIND")
    parser.add_argument("--ways", nargs="*", default=WAYS, choices=WAYS, metavar="WAY")
    parser.add_argument("--slots", type=int, default=6, metavar="N")
    parser.add_argument("--slow", type=float, default=1.0, metavar="FACTOR")
    options = parser.parse_args()
    # What is ignored here, as behind `&` in a script, would be ignored by programs that no launcher starts.
    for each in (signal.SIGHUP, signal.SIGINT, signal.SIGQUIT, signal.SIGTERM):
        signal.signal(each, signal.SIG_DFL)
    report, folder = Report(options.slow), tempfile.mkdtemp(prefix="launchers-words-")
    os.chmod(folder, 0o755)
    try:
        program = shutil.copy(options.program, folder)
        ways = [way for way in options.ways if is_there(way)]
        with concurrent.futures.ThreadPoolExecutor() as threads:
            of = lambda way: threads.submit(told_by, report, options, program, way, os.path.join(folder, way))
            tasks = {way: of(way) for way in ways}
            compare(report, {way: task.result() for way, task in tasks.items()})
    finally:
        shutil.rmtree(folder)
    print(f"{report.passed} passed, {report.failed} failed", flush=True)
    sys.exit(report.failed > 0)


main()
