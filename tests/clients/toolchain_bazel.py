"""The build of `toolchain_build.py` by Bazel: by its own sandbox on this host, and by a server with made trees."""

import os
import statistics
import subprocess
import tempfile
import time

from bazel import Bazel, Counts, contents
from large_inputs import OPTION
from server import Server

# How long the build by the server may take, of what it takes by Bazel's own sandbox.
MOST = 1.1

# A rule whose action is a step: it has all of the toolchain among its inputs, and its script for its program.
RULE = """
def _step(ctx):
    ctx.actions.run(
        executable = ctx.executable.tool,
        arguments = [ctx.outputs.out.path] + [each.path for each in ctx.files.srcs],
        inputs = depset(ctx.files.srcs, transitive = [ctx.attr.toolchain[DefaultInfo].files]),
        outputs = [ctx.outputs.out],
        env = {"PATH": "/usr/bin:/bin"},
        mnemonic = "Step",
    )
    return [DefaultInfo(files = depset([ctx.outputs.out]))]

step = rule(implementation = _step, attrs = {
    "out": attr.output(mandatory = True),
    "srcs": attr.label_list(allow_files = True),
    "tool": attr.label(default = "//:tools/tool", executable = True, cfg = "host", allow_single_file = True),
    "toolchain": attr.label(default = "@toolchain//:all"),
})
"""
OF_TOOLCHAIN = """filegroup(name = "all", srcs = glob(["d*/**"]), visibility = ["//visibility:public"])
"""


def build_file(steps):
    lines = ['load(":step.bzl", "step")']
    for number, each in enumerate(steps):
        inputs = [f"src/{name}" for name in each.sources] + [need.output for need in each.needs]
        listed = ", ".join(f'"{path}"' for path in inputs)
        lines.append(f'step(name = "step{number}", out = "{each.output}", srcs = [{listed}])')
    return "\n".join(lines) + "\n"


def written(folder, tree):
    """Writes a mapping of names to texts and further mappings."""
    os.makedirs(folder)
    for name, inner in tree.items():
        path = os.path.join(folder, name)
        if isinstance(inner, dict):
            written(path, inner)
            continue
        with open(path, "wb") as file:
            file.write(inner if isinstance(inner, bytes) else inner.encode())


def make_workspaces(folder, steps, tool, toolchain):
    """A workspace for each way in this folder, and the toolchain, a repository of its own, beside them."""
    sources = {name: text for each in steps for name, text in each.sources.items()}
    place = os.path.join(folder, "toolchain")
    written(place, {"WORKSPACE": "", "BUILD": OF_TOOLCHAIN, **toolchain.tree})
    named = f'local_repository(name = "toolchain", path = "{place}")\n'
    files = {"WORKSPACE": named, "BUILD": build_file(steps), "step.bzl": RULE, "tools": {"tool": tool}, "src": sources}
    for name in ("own", "served"):
        written(os.path.join(folder, name), files)
        os.chmod(os.path.join(folder, name, "tools", "tool"), 0o755)


def by_itself(options):
    return ["--spawn_strategy=sandboxed", f"--jobs={options.jobs}"]


def by_server(options, port):
    given = [f"--remote_executor=grpc://127.0.0.1:{port}", "--remote_instance_name=main", "--remote_timeout=600"]
    return [*given, "--spawn_strategy=remote", "--noremote_accept_cached", f"--jobs={options.jobs}"]


class Way:
    """Bazel with an output base of its own, which builds all again and again with the same flags, maybe by a server."""

    def __init__(self, name, bazel, flags, server=None):
        self.name, self.bazel, self.flags, self.server = name, bazel, [*flags, "--noshow_progress"], server
        self.took, self.used = [], []

    def build(self, count):
        """Builds all: how long that took, without what Bazel reads and reckons before, and what of the processors."""
        self.carried_out("clean")
        self.carried_out("build", "--nobuild", *self.flags, "//:all")
        before, begun = self.processor_seconds(), time.monotonic()
        told = self.carried_out("build", *self.flags, "//:all")
        self.took.append(time.monotonic() - begun)
        self.used.append(self.processor_seconds() - before)
        self.kinds = Counts(told).kinds
        if sum(self.kinds.values()) != count or len(self.kinds) != 1:
            raise SystemExit(f"{self.name}: of {count} actions ran {self.kinds}")

    def processor_seconds(self):
        """What Bazel and the server have taken of the processors, with all that they started."""
        of_server = self.server.cpu_seconds() + self.server.children_seconds() if self.server else 0
        return self.bazel.processor_seconds() + of_server

    def carried_out(self, *words):
        status, told = self.bazel.run(*words)
        if status:
            raise SystemExit(f"{self.name}: Bazel ends with status {status}:\n{told}")
        return told

    def __str__(self):
        kinds = ", ".join(f"{count} {kind}" for kind, count in self.kinds.items())
        listed = lambda numbers: ", ".join(f"{each:.1f}" for each in numbers[1:])
        first = f"the first time {self.took[0]:.1f} s"
        return f"{self.name}: {kinds} in {listed(self.took)} s ({first}), and {listed(self.used)} s of the processors"


def rounds(options, steps, ways):
    """Builds by each of the ways in turn, the first time uncounted; gives for each the median of the others."""
    for number in range(options.rounds + 1):
        for way in ways if number % 2 == 0 else reversed(ways):
            way.build(len(steps))
    for way in ways:
        print(way, flush=True)
    return [statistics.median(way.took[1:]) for way in ways]


def compared(options, steps, tool, toolchain):
    """Whether both ways make the same, and the one by the server is no slower than it may be; a line for each."""
    with tempfile.TemporaryDirectory(dir=options.place, prefix="toolchain-bazel-") as folder:
        make_workspaces(folder, steps, tool, toolchain)
        work = os.path.join(folder, "work")
        given = [("main", 2**31, options.jobs)], 2**62, None, work, True, options.started_by, OPTION
        started = lambda name: Bazel(folder, os.path.join(folder, name), f"base-{name}", options.bazel)
        try:
            with Server(options.program, *given) as server, started("own") as own, started("served") as served:
                ways = [
                    Way("Bazel's own sandbox", own, by_itself(options)),
                    Way("by the server", served, by_server(options, server.ports[0]), server),
                ]
                alone, remote = rounds(options, steps, ways)
                said = server.said()
                found = [contents(os.path.join(way.bazel.outputs(), "out")) for way in ways]
        finally:
            subprocess.run(["chmod", "-R", "u+w", folder])
    is_equal, is_fast = found[0] == found[1] and len(found[0]) == len(steps) and not said, remote <= MOST * alone
    print(f"{'ok' if is_equal else 'FAILED'} both make the same {len(found[0])} files {said[:3] or ''}")
    print(f"{'ok' if is_fast else 'FAILED'} by the server it takes {remote / alone:.2f} of the time, of at most {MOST}")
    return is_equal and is_fast
