#!/usr/bin/env python3
"""executions.py PROGRAM [--launcher L | --sandbox | --slurm | --slurm-sandbox] [--made-trees SIZE] [--large]
[--only NAME ..] [--skip NAME ..] [--slow FACTOR]: has a server run actions, and looks at each answer.

PROGRAM is the built `remoted`. A server with some instances runs small shell scripts, whose input trees, outputs,
streams, codes, timeouts and leftovers are looked at one after another, a line for each thing: `ok`, or `FAULT` with
what was found. In the end no process, no folder and no descriptor may be left. --large has outputs of 1,073,741,824
bytes gathered, which takes as much memory. Programs are started by the launcher L, by `launchers/sandbox` (--sandbox),
on a cluster that is made for it (--slurm; slurm_cluster.py says what that needs), or there in a sandbox
(--slurm-sandbox); then what looks at the host from within a program is left out. With --made-trees servers have trees,
too. Run as root it starts a second server as a plain user. --slow stretches all limits of time. It ends with status 1
where there was a fault.
"""

import argparse
import os
import shutil
import subprocess
import sys
import tempfile
import threading
import time

import execution_ends as ends
import execution_inputs as inputs
import programs
import ways
from execution_context import Context, expect, shell
from server import Server, is_tree

INSTANCES = [("main", 2**34, 4), ("other", 10**8, 2), ("small", 20_000, 1), ("off", 1000, 0)]
NOBODY = 65534
# In so many seconds 3,000 turns are over even where nothing runs.
TURNS_SECONDS = 400

OF_INPUTS = [inputs.probed, inputs.printed, inputs.codes, inputs.signals, inputs.not_there, inputs.found, inputs.environment]
OF_INPUTS += [
    inputs.working_directory,
    inputs.streams_in,
    inputs.trees,
    inputs.deep,
    inputs.many_files,
    inputs.odd_trees,
]
OF_ENDS = [ends.outputs, ends.output_trees, ends.replaced_directories, ends.large_streams, ends.too_large]
OF_ENDS += [ends.over_quota, ends.timeouts]
OF_ENDS += [ends.leftovers_of_programs, ends.own_groups, ends.named_by_sha512, ends.cached, ends.not_cached]
OF_ENDS += [ends.watched, ends.cut, ends.side_by_side, ends.hundred]
PLAIN_USER = [
    inputs.printed,
    inputs.not_there,
    inputs.trees,
    ends.outputs,
    ends.replaced_directories,
    ends.timeouts,
    ends.leftovers_of_programs,
    ends.rights,
]


def make_leftovers(program, folder):
    """What starts before may have left in the folder, once one has taken it, and things of others, which stay."""
    with Server(program, INSTANCES[:1], 2**62, folder=folder):
        pass
    aside = os.path.join(folder, "aside")
    for path in ["start-5/0-1/deep/er", "start-77/3-17", "aside", "2024-11", "0-1", "start-x", "start-07"]:
        os.makedirs(os.path.join(folder, path))
    for path in ["start-5/0-1/deep/er/file", "start-77/1-9.code", "aside/kept", "start-5.txt"]:
        with open(os.path.join(folder, path), "w") as file:
            file.write("left")
    os.symlink(aside, os.path.join(folder, "start-6"))
    os.symlink(aside, os.path.join(folder, "start-77", "3-17", "link"))


def leftovers(context):
    kept = ["0-1", "2024-11", "aside", "remoted.lock", "start-07", "start-5.txt", "start-x"]
    own = os.path.basename(context.server.start())
    # It is removed in the background.
    more = lambda: sorted(set(os.listdir(context.server.folder)) - {*kept, own})
    expect(programs.settled(more, 60), [], "what is left")
    expect(sorted(os.listdir(context.server.folder)), sorted([*kept, own]), "what is no run's")
    expect(os.listdir(os.path.join(context.server.folder, "aside")), ["kept"], "what a link led to")
    return "what a run before left is removed at the start, through no link, and nothing else"


def nothing_left(context):
    server = context.server
    seconds = 10 * context.slow
    with context.peer() as peer:
        context.ran(peer, shell("printf last"))
    left = programs.settled(lambda: programs.running(server.folder, server.process.pid), seconds)
    expect(left, {}, "running programs")
    zombies = programs.settled(lambda: programs.zombies(server.process.pid), seconds)
    expect(zombies, [], "ended programs that were not waited for")
    stray = lambda: [name for name in server.entries() if name not in context.kept and not is_tree(name)]
    expect(programs.settled(stray, seconds), [], "folders")
    time.sleep(3)
    more = server.descriptors() - context.descriptors
    # two of each shell that is kept: to end sessions, to open outputs, and to remove the folders of each instance
    expect(more <= 8, True, f"descriptors: {more} more than at the start")
    # Runs with links in their output directories are counted, in a line at most a second.
    wanted, said = sorted(context.lines), sorted(line for line in server.said() if "links in their output" not in line)
    expect(said, wanted, "the lines on standard error")
    return f"no process, no folder and no descriptor is left; {len(said)} lines on standard error, each as it has to be"


# Under a launcher what these look at is another thing: the launcher looks a program up, and it may take fewer words than
# the system; the paths, sessions and processes that a program sees are its own; it cannot write beside its folder.
OF_THE_HOST = ["not_there", "found", "working_directory", "streams_in", "odd_trees"]
OF_THE_HOST += ["cached", "not_cached", "cut", "side_by_side"]


def is_wanted(name, options):
    if options.launcher and name in OF_THE_HOST:
        return False
    return name not in options.skip and (not options.only or name in options.only)


def run_all(context, all_checks, options):
    faults = 0
    for check in all_checks:
        if not is_wanted(check.__name__, options):
            continue
        begun = time.monotonic()
        try:
            print(f"ok {check.__name__}: {check(context)} ({time.monotonic() - begun:.1f} s)", flush=True)
        except (Exception, SystemExit) as fault:
            faults += 1
            print(f"FAULT {check.__name__}: {fault!r}", flush=True)
            if not context.server.is_running():
                print(f"FAULT the server ended, with status {context.server.process.returncode}", flush=True)
                break
            for number in programs.running(context.server.folder, context.server.process.pid):
                os.kill(number, 9)
    return faults


def as_root(program, options):
    """All checks on one server, whose umask lets nobody else read."""
    folder = tempfile.mkdtemp(prefix="executions-")
    if is_wanted("leftovers", options):
        make_leftovers(program, folder)
    every = [leftovers, *OF_INPUTS, *OF_ENDS, *([ends.largest] if options.large else []), nothing_left]
    try:
        more = {"launcher": options.launcher, "extra": options.extra, "umask": 0o077}
        with Server(program, INSTANCES, 2**62, {"SECRET": "of the server"}, folder, True, **more) as server:
            return run_all(Context(server, [], options.slow), every, options)
    finally:
        shutil.rmtree(folder, ignore_errors=True)


def as_nobody(program, options):
    """Some checks on a server that is a plain user's, who may not look into a folder without rights."""
    folder = tempfile.mkdtemp(prefix="executions-")
    os.chown(folder, NOBODY, NOBODY)
    try:
        plain = {"user": NOBODY, "group": NOBODY, "extra_groups": []}
        more = {"launcher": options.launcher, "extra": options.extra, **plain}
        with Server(program, INSTANCES, 2**62, None, folder, True, **more) as server:
            return run_all(Context(server, [], options.slow), [*PLAIN_USER, nothing_left], options)
    finally:
        shutil.rmtree(folder, ignore_errors=True)


def turns_end(program, options):
    """A server that ends after its turns leaves no program and no folder."""
    for turns in [3_000, 20_000, 200_000]:
        folder = tempfile.mkdtemp(prefix="executions-")
        more = {"launcher": options.launcher, "extra": options.extra}
        with Server(program, INSTANCES[:1], turns, None, folder, True, **more) as server:
            context = Context(server, [], options.slow)
            begun = threading.Event()
            threading.Thread(target=begin_and_wait, args=(context, begun), daemon=True).start()
            was_begun = begun.wait(20 * options.slow)
            try:
                status = server.process.wait(TURNS_SECONDS * options.slow)
            except subprocess.TimeoutExpired:
                status = None
            left = programs.settled(lambda: programs.running(folder, server.process.pid), 2 * options.slow)
            entries = server.entries()
        for number in left:
            os.kill(number, 9)
        shutil.rmtree(folder, ignore_errors=True)
        if was_begun:
            break
    else:
        print("FAULT turns_end: no program was begun before the turns were over")
        return 1
    if status != 0 or left or entries:
        print(f"FAULT turns_end: status {status}, running {left}, left {entries}")
        return 1
    print(f"ok turns_end: after {turns:,} turns the server ends with status 0, and programs and folders with it")
    return 0


def begin_and_wait(context, begun):
    """Has programs run that would go on for long, and says when they run."""
    try:
        with context.peer() as peer:
            number = peer.start(context.action("sleep 1000 & (trap '' TERM INT; sleep 1000) & echo > file; sleep 1000"))
            peer.next(number)
            peer.next(number)
            time.sleep(0.3)
            begun.set()
            peer.end(number)
    except OSError:
        pass


def main():
    parser = argparse.ArgumentParser(description=__doc__, formatter_class=argparse.RawDescriptionHelpFormatter)
    parser.add_argument("program")
    parser.add_argument("--large", action="store_true")
    ways.add_ways(parser)
    ways.add_made_trees(parser)
    parser.add_argument("--only", nargs="*", default=[])
    parser.add_argument("--skip", nargs="*", default=[])
    parser.add_argument("--slow", type=float, default=1.0, metavar="FACTOR")
    options = parser.parse_args()
    parts = [as_root]
    if os.geteuid() == 0:
        parts.append(as_nobody)
    if is_wanted("turns_end", options):
        parts.append(turns_end)
    folder = tempfile.mkdtemp(prefix="executions-way-")
    os.chmod(folder, 0o755)
    try:
        with ways.made(options, folder) as way:
            options.launcher, options.extra = way.launcher, way.extra
            faults = sum(part(options.program, options) for part in parts)
    finally:
        shutil.rmtree(folder, ignore_errors=True)
    print(f"{faults} faults" if faults else "no fault")
    sys.exit(faults > 0)


main()
