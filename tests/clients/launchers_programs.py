#!/usr/bin/env python3
"""launchers_programs.py PROGRAM [--launcher L] [--way WAY ..] [--only NAME ..] [--slow FACTOR]:
programs that builds use, as actions by each launcher.

PROGRAM is the built `remoted`. The programs are those of real_programs.py: Java with `localhost`, C, C++ and Go, node,
Python and Perl with their sockets and processes, gdb, git, make, tar, sort, openssl and curl. Ways:
- `here`: `launchers/sandbox` with a server of this user;
- `plain`: the same with a server of a user that the host has no name for. It needs root;
- `slurm`: with `launchers/slurm` and the sandbox on the node, in a cluster that is made for it (slurm_cluster.py).
With --launcher it is that one alone. A program that the host does not have is skipped. A line for each; it ends with
`N passed, M failed`, and with status 1 where one failed. NAME is a part of a program's name.
"""

import argparse
import contextlib
import os
import shutil
import subprocess
import sys
import tempfile

import launchers_sandbox
import slurm_cluster
from executing import Action, Peer
from real_programs import all_programs
from server import Server

# A user without a line in the host's /etc/passwd.
NAMELESS = {"user": 61778, "group": 61778, "extra_groups": []}
VARIABLES = [("PATH", "/usr/bin:/bin"), ("LC_ALL", "C.UTF-8")]


class Verdicts:
    """Which programs did as they should."""

    def __init__(self):
        self.passed = self.failed = 0

    def tell(self, way, program, code, stdout, stderr):
        if program.is_right(code, stdout):
            self.passed += 1
            print(f"ok {way}: {program.name}", flush=True)
        else:
            self.failed += 1
            print(f"FAILED {way}: {program.name}: code {code}, {stdout[-400:]!r}, {stderr[-600:]!r}", flush=True)


def present(programs, names):
    """Those of these programs that are asked for and whose tools the host has."""
    found = []
    for program in programs:
        if names and not any(name in program.name for name in names):
            continue
        lacking = [tool for tool in program.needs if not shutil.which(tool, path="/usr/bin:/bin")]
        if lacking:
            print(f"skipped {program.name}: no {', '.join(lacking)}", flush=True)
        else:
            found.append(program)
    return found


def action(program):
    files = {name: text.encode() for name, text in program.files.items()}
    words = ["/bin/sh", "-c", program.script]
    return Action(words, tree=files, do_not_cache=True, variables=VARIABLES, seconds=300)


def run_all(verdicts, options, way, programs, launcher, work, **more):
    """All of these by one server, side by side."""
    with Server(options.program, [("red", 10**9, os.cpu_count())], 2**62, None, work, True, launcher, **more) as server:
        with Peer(server.ports[0], 300 * options.slow) as peer:
            calls = [(program, peer.start(action(program))) for program in programs]
            for program, call in calls:
                done = peer.operations(call)[-1]
                if done.result is None:
                    verdicts.tell(way, program, f"none, status {done.status.code}", "", str(server.said()[-1:]))
                    continue
                texts = [peer.stream_text(digest).decode(errors="replace") for digest in streams(done.result)]
                verdicts.tell(way, program, done.result.code, *texts)


def streams(result):
    return result.stdout, result.stderr


@contextlib.contextmanager
def launched(options, way):
    """A launcher, the folder of `--work`, and whose the server is."""
    folder = tempfile.mkdtemp(prefix="launchers-programs-")
    os.chmod(folder, 0o777)
    work = os.path.join(folder, "work")
    try:
        if way == "given":
            yield options.launcher, work, {}
        elif way != "slurm":
            yield launchers_sandbox.sandbox(folder), work, NAMELESS if way == "plain" else {}
        else:
            with tempfile.TemporaryDirectory(prefix="launchers-cluster-") as place:
                with slurm_cluster.Cluster(place, os.cpu_count()) as cluster:
                    yield slurm_cluster.launcher(cluster, place, launchers_sandbox.sandbox(folder)), work, {}
    finally:
        subprocess.run(["chmod", "-R", "u+w", folder])
        shutil.rmtree(folder, ignore_errors=True)


def lacking(way):
    """What a way needs and is not there."""
    needs = [] if way == "given" or shutil.which("bwrap") else ["bubblewrap"]
    needs += ["root"] if way == "plain" and os.geteuid() != 0 else []
    return needs + (slurm_cluster.lacking() if way == "slurm" else [])


def main():
    ways = ["here", "plain", "slurm"]
    parser = argparse.ArgumentParser(description=__doc__, formatter_class=argparse.RawDescriptionHelpFormatter)
    parser.add_argument("program")
    parser.add_argument("--launcher")
    parser.add_argument("--way", nargs="*", default=ways, choices=ways)
    parser.add_argument("--only", nargs="*", default=[], metavar="NAME")
    parser.add_argument("--slow", type=float, default=1.0, metavar="FACTOR")
    options = parser.parse_args()
    verdicts, programs = Verdicts(), present(all_programs(), options.only)
    with tempfile.TemporaryDirectory(prefix="launchers-program-") as place:
        os.chmod(place, 0o755)
        options.program = shutil.copy(options.program, place)
        for way in ["given"] if options.launcher else options.way:
            if lacking(way):
                print(f"skipped {way}: it needs {', '.join(lacking(way))}", flush=True)
                continue
            with launched(options, way) as (launcher, work, whose):
                run_all(verdicts, options, way, programs, launcher, work, **whose)
    print(f"{verdicts.passed} passed, {verdicts.failed} failed", flush=True)
    sys.exit(verdicts.failed > 0)


main()
