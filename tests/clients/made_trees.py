#!/usr/bin/env python3
"""made_trees.py PROGRAM [--launcher L | --sandbox | --slurm-sandbox] [--off] [--case NAME ..] [--user WHO] [--slow FACTOR]
[--seconds N]: large inputs that are made once for many actions, beside a team.

PROGRAM is the built `remoted`, which is started with --made-trees. Each case is a server of two instances. `red` has
actions executed whose inputs have large directories, and looks at what their programs find there: all inputs have to be
there in any case, and what is bound has to be what can be bound. Programs try to change trees; trees have more room or
less; disks are full; what makes, binds or removes trees is killed; many actions want one tree at once. `blue` calls all
the while, as in hostile_actions.py: no call of it waits longer than 250 ms.

Programs are started by `launchers/sandbox` if nothing else is asked for; by the launcher L, which binds trees; or on a
Slurm cluster that is made for it, there in a sandbox (--slurm-sandbox). With --off servers have no --made-trees: then
nothing may be bound, and all else has to be the same.

A line for each: `ok` with what holds and how long blue's slowest call waited, or `FAILED` with what was found. It ends
with `N passed, M failed`, and with status 1 where one failed. --case runs those named alone, --list lists them, --user
has servers of one user alone (as root each case is tried once with a server of root and once with one of a plain user).
--slow stretches all limits of time. It needs Debian's `python3` at /usr/bin, and leaves no process and no folder.
"""

import argparse
import functools

import cases
import made_trees_attacked as attacked
import made_trees_bound as bound
import made_trees_kept as kept
import made_trees_killed as killed
import made_trees_odd as odd
from made_tree_stages import TreeStage

CASES = [*bound.CASES, *odd.CASES, *attacked.CASES, *kept.CASES, *killed.CASES]


def main():
    parser = argparse.ArgumentParser(description=__doc__, formatter_class=argparse.RawDescriptionHelpFormatter)
    parser.add_argument("program")
    parser.add_argument("--off", action="store_true")
    cases.add_options(parser, CASES)
    options = parser.parse_args()
    if options.slurm:
        parser.error("without the sandbox nothing is bound: take --slurm-sandbox")
    options.sandbox = not (options.launcher or options.slurm_sandbox)
    cases.carry_out(CASES, options, functools.partial(TreeStage, options.off))


main()
