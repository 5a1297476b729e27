#!/usr/bin/env python3
"""bazel_parent.py PROGRAM [--actions N] [--jobs N]: builds by Bazel, of CI and of two teams that build on what CI stored.

PROGRAM is the built `remoted`. A workspace with N actions (40 if not given) is made: genrules over one of two sources,
one in ten with an output of a megabyte, and one in ten a rule whose output is a directory. Each build has a copy of the
workspace and an output base of its own.
  1. CI builds it: all actions run, and their outputs are stored.
  2. Team blue builds it, whose quota holds none of the large outputs: all actions run, since results are not shared,
     and Bazel warns of nothing, since it uploads no output that CI has stored.
  3. Blue builds it again: all is taken from the cache, by blue's results and CI's outputs.
  4. Team red builds it with one source changed, twice: all actions run, and then all is taken from the cache.
  5. CI builds the changed one: what is made of the changed source runs, though red has stored it.
What two builds of one text made is compared byte by byte. A line for each; it ends with status 1 where one is not as
said. Debian: bazel-bootstrap (4.2.3).
"""

import argparse
import os
import shutil
import subprocess
import tempfile

from bazel import DIRECTORY_RULE, Bazel, Counts, contents, make_files
from server import Server

LARGE, SMALL_QUOTA = 1_000_000, 100_000


def build_file(actions):
    """The BUILD file: the even rules read `first.txt`, and the odd ones `second.txt`."""
    lines = ['load(":directory.bzl", "directory")']
    for number in range(actions):
        source = ("first.txt", "second.txt")[number % 2]
        if number % 10 == 3:
            lines.append(f'directory(name = "d{number}", srcs = ["{source}"])')
            continue
        size = f"&& head -c {LARGE} /dev/zero | tr '\\\\0' '{number % 7}' >> $@" if number % 10 == 5 else ""
        lines.append(
            f'genrule(name = "f{number}", srcs = ["{source}"], outs = ["out{number}.txt"], '
            f'cmd = "(cat $(SRCS); echo {number}) > $@ {size}")'
        )
    return "\n".join(lines) + "\n"


def make_workspace(folder, actions, second):
    files = {"WORKSPACE": "", "BUILD": build_file(actions), "directory.bzl": DIRECTORY_RULE}
    make_files(folder, {**files, "first.txt": "the first source\n", "second.txt": second})


class Builds:
    """Builds of the workspace, each of a copy of its own, with instances of a server as their caches."""

    def __init__(self, folder, server, options):
        self.folder, self.options, self.count = folder, options, 0
        self.ports = dict(zip(("ci", "blue", "red"), server.ports))

    def build(self, instance, second="the second source\n"):
        """Bazel's counts, and what it made."""
        self.count += 1
        workspace = os.path.join(self.folder, f"workspace-{self.count}")
        make_workspace(workspace, self.options.actions, second)
        flags = [f"--remote_cache=grpc://127.0.0.1:{self.ports[instance]}", f"--remote_instance_name={instance}"]
        flags += [f"--jobs={self.options.jobs}", "--spawn_strategy=local", "--remote_timeout=60"]
        with Bazel(self.folder, workspace, f"base-{self.count}") as bazel:
            status, told = bazel.run("build", *flags, "//:all")
            if status != 0:
                raise SystemExit(f"Bazel failed:\n{told}")
            return Counts(told), contents(bazel.outputs())


def expect(counts, hits, run, what):
    """That a build had this many hits and ran this many actions, and that Bazel warned of nothing."""
    if (counts.hits, counts.run) != (hits, run) or counts.warnings:
        raise SystemExit(f"not so: {what}: {counts.hits} hits, {counts.run} run, {counts.warnings}")
    print(f"ok {what}: {run} actions ran, {hits} from the cache", flush=True)


def expect_equal(made, again, what):
    if made != again or not made:
        raise SystemExit(f"not so: {what}")
    print(f"ok {what}: {len(made)} files", flush=True)


def compare(builds, actions):
    filled, by_ci = builds.build("ci")
    expect(filled, 0, actions, "CI's build")
    run, _ = builds.build("blue")
    expect(run, 0, actions, "blue's build, which stores no output that CI has")
    taken, by_blue = builds.build("blue")
    expect(taken, actions, 0, "blue's build again")
    expect_equal(by_ci, by_blue, "CI and blue made the same")
    run, by_red = builds.build("red", second="another source\n")
    expect(run, 0, actions, "red's build of a changed source")
    taken, again = builds.build("red", second="another source\n")
    expect(taken, actions, 0, "red's build again")
    expect_equal(by_red, again, "red made the same twice")
    apart, changed = builds.build("ci", second="another source\n")
    expect(apart, (actions + 1) // 2, actions // 2, "CI's build of red's source")
    expect_equal(by_red, changed, "CI and red made the same")


def main():
    parser = argparse.ArgumentParser(description=__doc__, formatter_class=argparse.RawDescriptionHelpFormatter)
    parser.add_argument("program")
    parser.add_argument("--actions", type=int, default=40)
    parser.add_argument("--jobs", type=int, default=20)
    options = parser.parse_args()
    folder = tempfile.mkdtemp(prefix="bazel-parent-")
    instances = [("ci", 10**9), ("blue", SMALL_QUOTA, 0, "ci"), ("red", 10**9, 0, "ci")]
    try:
        with Server(options.program, instances) as server:
            compare(Builds(folder, server, options), options.actions)
    finally:
        subprocess.run(["chmod", "-R", "u+w", folder])
        shutil.rmtree(folder, ignore_errors=True)


main()
