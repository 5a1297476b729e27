#!/usr/bin/env python3
"""large_build.py PROGRAM [--actions N] [--jobs N] [--usual]: a build of more actions than an instance usually keeps results.

PROGRAM is the built `remoted`. A workspace with N actions (15,000 if not given), each with an output of its own in one of
a hundred packages, is built by Bazel with a server of the numbers that DEPLOYING has for such a team, and again from
another copy of it with another output base: by Bazel's own count each action is a remote cache hit. With `--usual` the
server has the usual numbers, and at most a third of the second build is hit: none, where Bazel asks in the same order.
It ends with status 1 where that is not so, and tells how many results and blobs the instance has then, of how many, and
the server's memory. Debian: bazel-bootstrap (4.2.3).
"""

import argparse
import os
import re
import shutil
import subprocess
import tempfile
import time

from bazel import Bazel, Counts, make_files
from server import Server

PACKAGES = 100
NUMBERS = ("--blobs", "500000", "--results", "100000", "--result-bytes", "512M", "--window", "16M")


def rule(name, actions):
    """A package of so many actions, each of which writes what it is called."""
    return "".join(
        f'genrule(name = "g{number}", outs = ["o{number}"], cmd = "echo {name} {number} > $@")\n'
        for number in range(actions)
    )


def make_workspace(folder, actions):
    files = {"WORKSPACE": ""}
    for place in range(PACKAGES):
        more = actions // PACKAGES + (place < actions % PACKAGES)
        files[f"p{place}/BUILD"] = rule(f"p{place}", more)
    make_files(folder, files)


def build(folder, copy, port, options):
    flags = [f"--remote_cache=grpc://127.0.0.1:{port}", "--remote_instance_name=main", f"--jobs={options.jobs}"]
    flags += ["--spawn_strategy=local", "--remote_timeout=120", "--genrule_strategy=local"]
    begun = time.monotonic()
    with Bazel(folder, os.path.join(folder, f"workspace-{copy}"), f"base-{copy}") as bazel:
        status, told = bazel.run("build", *flags, "//...")
    if status != 0:
        raise SystemExit(f"Bazel failed:\n{told[-4000:]}")
    counts = Counts(told)
    seconds = time.monotonic() - begun
    print(f"ok {copy}: {counts.run} actions ran, {counts.hits} were remote hits, {seconds:.0f} s", flush=True)
    if counts.warnings:
        raise SystemExit(f"Bazel warns of {counts.warnings[:3]}")
    return counts


def figures(path):
    """The figures of the one instance that have no label but its name."""
    with open(path) as file:
        return {name: value for name, value in re.findall(r'^(\w+)\{[^{}]*instance="main"\} (\S+)$', file.read(), re.M)}


def compare(folder, options):
    for copy in ("one", "two"):
        make_workspace(os.path.join(folder, f"workspace-{copy}"), options.actions)
    path = os.path.join(folder, "figures.prom")
    extra = ("--metrics", path, *(() if options.usual else NUMBERS))
    with Server(options.program, [("main", 4 * 2**30)], extra=extra) as server:
        filled = build(folder, "one", server.ports[0], options)
        taken = build(folder, "two", server.ports[0], options)
        time.sleep(11)
        found = figures(path)
        told = {name: found.get(name) for name in ("remoted_results", "remoted_results_limit", "remoted_blobs", "remoted_blobs_limit")}
        print(f"ok {told}, memory {server.resident_megabytes():,.0f} MB", flush=True)
    least, most = (0, options.actions // 3) if options.usual else (options.actions, options.actions)
    if (filled.hits, filled.run) != (0, options.actions) or not least <= taken.hits <= most:
        raise SystemExit(f"FAILED: {taken.hits} remote hits, wanted {least} to {most}")
    print(f"ok {taken.hits} remote hits in the second build", flush=True)


def main():
    parser = argparse.ArgumentParser(description=__doc__, formatter_class=argparse.RawDescriptionHelpFormatter)
    parser.add_argument("program")
    parser.add_argument("--actions", type=int, default=15_000)
    parser.add_argument("--jobs", type=int, default=16)
    parser.add_argument("--usual", action="store_true")
    options = parser.parse_args()
    folder = tempfile.mkdtemp(prefix="large-build-")
    try:
        compare(folder, options)
    finally:
        subprocess.run(["chmod", "-R", "u+w", folder])
        shutil.rmtree(folder, ignore_errors=True)


main()
