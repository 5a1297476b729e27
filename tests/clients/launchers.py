#!/usr/bin/env python3
"""launchers.py PROGRAM [--only PART ..] [--slow FACTOR] [--count N] [--beside OLD]: actions that launchers start.

PROGRAM is the built `remoted`. Parts:
- `sandbox`: two instances share a server whose environment has a secret, with `launchers/sandbox`. An action of the
  one runs while those of the other try to reach its folder, the server, its ports and the host's files, by themselves
  and by links for which the server is to gather; then come variables, words, codes, programs that are left, and
  timeouts. It needs bubblewrap, and a system that allows user namespaces.
- `plain`: the same with a server of a plain user. It needs root.
- `slurm`: actions on two nodes of a Slurm cluster, which is made on this host for it, with `launchers/slurm`: outputs,
  codes, timeouts, a server that is killed, 200 actions, and a node that is lost. It needs slurm-wlm, munge and root.
- `both`: some of that with the sandbox on the node.
- `attacks`: what one team tries against the other, the host and its own launcher in a sandbox: calls, what tells of the
  host, forged codes, folders of runs below what is seen, memory, and words told as the launcher's; as this user and as a
  plain one.
- `words`: words of one team's actions that mean something to `srun`, with and without the sandbox on the node.
- `lines`: that no program of a launcher has a word, a variable, the directory or the instance of an action on its line or
  in its variables, but bubblewrap behind its `--`; and that words which are lost, as on a full disk, fail the run.
- `trees`: the trees that a launcher is to bind: a file of them that is cut, and places that lead elsewhere, fail the run.
- `hung`: slurmctld does not answer for 50 seconds, while 24 actions at a time come to their timeouts of a second; and what
  cannot be cancelled.
- `lost`: launchers that end by a signal, or are gone: the words that the server writes.
- `cost`: what a launcher costs an action; and a table of what starts by the sandbox take of the processors, beside those
  by bubblewrap alone and, with --beside, by another text of the launcher, of which they may take eight tenths.

What a part needs and is not there is said, and the part is skipped. A line for each thing, `ok` or `FAILED`; it ends
with `N passed, M failed`, and with status 1 where one failed. --slow stretches the limits of time.
"""

import argparse
import importlib.util
import os
import shutil
import sys
import tempfile

import launchers_attacks as attacks
import launchers_cost
import launchers_hung
import launchers_lines
import launchers_lost
import launchers_sandbox as sandbox
import launchers_slurm as slurm
import launchers_trees
import slurm_cluster

PLAIN = 65534
OF_PLAIN = {"user": PLAIN, "group": PLAIN, "extra_groups": []}


class Report:
    """What holds and what does not, a line for each."""

    def __init__(self, slow):
        self.slow, self.passed, self.failed = slow, 0, 0

    def told(self, what, more=""):
        self.passed += 1
        print(f"ok {what}" + (f": {more}" if more else ""), flush=True)

    def missed(self, what, found):
        self.failed += 1
        print(f"FAILED {what}: {found}", flush=True)

    def expect(self, holds, what, found):
        if holds:
            self.told(what)
        else:
            self.missed(what, found)


def as_this_user(report, program):
    sandbox.reach(report, program, "as this user")
    sandbox.nothing_started(report, program, "as this user")
    sandbox.lower_limits(report, program, "as this user")
    sandbox.ended_alone(report, "as this user")
    sandbox.own_descriptors(report, "as this user")


def as_plain_user(report, program):
    who = "as a plain user"
    sandbox.reach(report, program, who, **OF_PLAIN)
    sandbox.nothing_started(report, program, who, **OF_PLAIN)
    sandbox.lower_limits(report, program, who, **OF_PLAIN)
    sandbox.ended_alone(report, who, **OF_PLAIN)
    sandbox.own_descriptors(report, who, **OF_PLAIN)


def cost(report, program, options):
    launchers_cost.of_starts(report, options.beside, options.count)
    launchers_cost.of_actions(report, program, options.count)


def attacked(report, program, no_group):
    """As this user, and as a plain one. Root alone can put folders of runs below what a sandbox sees."""
    ways, tried = {"as this user": {}}, [attacks.inside, attacks.told_words]
    if os.geteuid() == 0:
        ways["as a plain user"] = OF_PLAIN
        tried.append(attacks.hidden)
    else:
        print("skipped runs below what a sandbox sees: they need root", flush=True)
    for who, more in ways.items():
        for attack in tried:
            attack(report, program, who, **more)
        if not no_group:
            attacks.memory(report, program, who, **more)
    if no_group:
        print(f"skipped memory without a control group of the sandbox's own: it needs {', '.join(no_group)}", flush=True)


def main():
    parts = ["lost", "sandbox", "plain", "attacks", "lines", "trees", "slurm", "both", "words", "hung", "cost"]
    parser = argparse.ArgumentParser(description=__doc__, formatter_class=argparse.RawDescriptionHelpFormatter)
    parser.add_argument("program")
    parser.add_argument("--only", nargs="*", default=parts, choices=parts, metavar="PART")
    parser.add_argument("--slow", type=float, default=1.0, metavar="FACTOR")
    parser.add_argument("--count", type=int, default=100)
    parser.add_argument("--beside", metavar="OLD")
    options = parser.parse_args()
    report, program = Report(options.slow), options.program
    no_sandbox = [] if shutil.which("bwrap") else ["bubblewrap (bwrap)"]
    no_sandbox += [] if importlib.util.find_spec("seccomp") else ["python3-seccomp"]
    no_root = [] if os.geteuid() == 0 else ["root"]
    no_cluster = slurm_cluster.lacking()
    ways = {
        "lost": ([], lambda: launchers_lost.lost(report, program)),
        "sandbox": (no_sandbox, lambda: as_this_user(report, program)),
        "plain": (no_sandbox + no_root, lambda: as_plain_user(report, program)),
        "attacks": (no_sandbox, lambda: attacked(report, program, attacks.Group.lacking())),
        "lines": (no_sandbox, lambda: launchers_lines.lines(report, program, OF_PLAIN)),
        "trees": (no_sandbox, lambda: launchers_trees.trees(report, OF_PLAIN)),
        "words": (no_cluster + no_sandbox, lambda: launchers_hung.escape(report, program)),
        "hung": (no_cluster, lambda: (launchers_hung.hung(report, program), launchers_hung.not_cancelled(report, program))),
        "slurm": (no_cluster, lambda: (slurm.on_nodes(report, program), slurm.next_missing(report, program))),
        "both": (no_cluster + no_sandbox, lambda: slurm.sandboxed(report, program)),
        "cost": (no_sandbox, lambda: cost(report, program, options)),
    }
    folder = tempfile.mkdtemp(prefix="launchers-program-")
    os.chmod(folder, 0o755)
    try:
        program = shutil.copy(program, folder)
        for part in options.only:
            lacking, way = ways[part]
            if lacking:
                print(f"skipped {part}: it needs {', '.join(lacking)}", flush=True)
                continue
            try:
                way()
            except (Exception, SystemExit) as fault:
                report.missed(part, repr(fault))
    finally:
        shutil.rmtree(folder)
    print(f"{report.passed} passed, {report.failed} failed", flush=True)
    sys.exit(report.failed > 0)


main()
