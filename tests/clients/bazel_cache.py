#!/usr/bin/env python3
"""bazel_cache.py PROGRAM [--actions N] [--jobs N]: three builds by Bazel, of which the second takes
all from the cache and the third, of another instance, none.

PROGRAM is the built `remoted`. A workspace with N actions (120 if not given) is made: genrules, some of them over the
outputs of others, one in ten with an output of a megabyte, and one in ten a rule whose output is a directory. Bazel
builds it with a served instance as its cache, and then again from another copy of the workspace, with another output
base, against the same instance: by Bazel's own count each action is a remote cache hit. A third build, against another
instance of the same server, has no hit. What both builds made is compared byte by byte. A line for each build; it ends
with status 1 where one is not as said. Debian: bazel-bootstrap (4.2.3).
"""

import argparse
import os
import shutil
import subprocess
import tempfile

from bazel import DIRECTORY_RULE, Bazel, Counts, contents, make_files
from server import Server


def build_file(actions):
    """The BUILD file: each tenth rule makes a directory, each tenth a large file, the others small ones."""
    lines = ['load(":directory.bzl", "directory")']
    for number in range(actions):
        source = f'":f{number - 7}"' if number >= 7 and number % 10 not in (0, 7) else '"source.txt"'
        if number % 10 == 3:
            lines.append(f'directory(name = "d{number}", srcs = ["source.txt"])')
            lines.append(f'filegroup(name = "f{number}", srcs = ["source.txt"])')
            continue
        size = f"&& head -c 1000000 /dev/zero | tr '\\\\0' '{number % 10}' >> $@" if number % 10 == 5 else ""
        lines.append(
            f'genrule(name = "f{number}", srcs = [{source}], outs = ["out{number}.txt"], '
            f'cmd = "(cat $(SRCS); echo {number}) > $@ {size}")'
        )
    return "\n".join(lines) + "\n"


def make_workspace(folder, actions):
    make_files(
        folder,
        {
            "WORKSPACE": "",
            "BUILD": build_file(actions),
            "directory.bzl": DIRECTORY_RULE,
            "source.txt": "the source\n",
        },
    )


def build(folder, copy, port, instance, jobs):
    """Builds a copy of the workspace with an output base of its own; Bazel's counts, and the folder of outputs."""
    flags = [f"--remote_cache=grpc://127.0.0.1:{port}", f"--remote_instance_name={instance}", f"--jobs={jobs}"]
    flags += ["--spawn_strategy=local", "--remote_timeout=60"]
    with Bazel(folder, os.path.join(folder, f"workspace-{copy}"), f"base-{copy}") as bazel:
        status, told = bazel.run("build", *flags, "//:all")
        if status != 0:
            raise SystemExit(f"Bazel failed:\n{told}")
        return Counts(told), bazel.outputs()


def expect(condition, what, counts):
    if not condition:
        raise SystemExit(f"{what}: {counts.hits} hits, {counts.run} run, {counts.warnings}")
    if counts.warnings:
        raise SystemExit(f"{what}: Bazel warns of {counts.warnings}")


def compare(folder, options):
    for copy in ("one", "two", "three"):
        make_workspace(os.path.join(folder, f"workspace-{copy}"), options.actions)
    with Server(options.program, [("main", 10**9), ("other", 10**9)]) as server:
        main, other = server.ports
        filled, outputs = build(folder, "one", main, "main", options.jobs)
        expect(filled.hits == 0 and filled.run == options.actions, "the first build", filled)
        print(f"ok the first build ran {filled.run} actions, {filled.hits} from the cache", flush=True)
        taken, copies = build(folder, "two", main, "main", options.jobs)
        expect(taken.hits == options.actions and taken.run == 0, "the second build", taken)
        print(f"ok the second build ran {taken.run} actions, {taken.hits} from the cache", flush=True)
        made = contents(outputs)
        expect(made == contents(copies) and len(made) >= options.actions, "what the builds made", taken)
        print(f"ok both made the same {len(made)} files", flush=True)
        apart, _ = build(folder, "three", other, "other", options.jobs)
        expect(apart.hits == 0 and apart.run == options.actions, "another instance", apart)
        print(f"ok another instance: {apart.run} actions ran, {apart.hits} from the cache", flush=True)
        print(f"ok peak of the server's memory {server.peak_megabytes():,.0f} MB", flush=True)


def main():
    parser = argparse.ArgumentParser(description=__doc__, formatter_class=argparse.RawDescriptionHelpFormatter)
    parser.add_argument("program")
    parser.add_argument("--actions", type=int, default=120)
    parser.add_argument("--jobs", type=int, default=20)
    options = parser.parse_args()
    folder = tempfile.mkdtemp(prefix="bazel-cache-")
    try:
        compare(folder, options)
    finally:
        subprocess.run(["chmod", "-R", "u+w", folder])
        shutil.rmtree(folder, ignore_errors=True)


main()
