#!/usr/bin/env python3
"""toolchain_build.py PROGRAM [--launcher L] [--off] [--jobs N] [--files N] [--megabytes N] [--place FOLDER] [--most MS]
[--bazel BAZEL] [--rounds N]: a build whose actions all have a toolchain among their inputs, as Bazel's hermetic ones do.

PROGRAM is the built `remoted`. A client of its own builds 100 libraries and 14 tests by 456 actions, as many as --jobs (4)
at once, each as soon as what it needs is there: it asks which texts are missing, stores these, has the action executed,
and gives its outputs to the next ones as inputs. Each compiles, archives, links or runs by a shell script that reads of
the toolchain if there is one, of --files (3,000) files and --megabytes (60) below one Directory. It is built three times
by servers of their own, whose --work lies in FOLDER: without the toolchain; with it; and with it and --made-trees.
Programs are started by `launchers/sandbox`, or by L, which binds trees.

A line for each says how long it took, and how much of the server's processor an action took. The outputs have to be equal
with --made-trees and without. It ends with status 1 where they are not, or where an action with --made-trees takes more
than --most (5) ms more of the server's processor than one without a toolchain. With --off there is no --made-trees.

With --bazel the same steps are rules of a workspace, too, which BAZEL (Debian: bazel-bootstrap, 4.2.3) builds: by its own
sandbox, and by a server with --made-trees, with the same --jobs. Each builds all --rounds (3) times in turn, behind a
first time that is not counted, and takes nothing from a cache. The files have to be the same, and the median by the
server may be 1.1 of the other.
"""

import argparse
import concurrent.futures
import os
import random
import sys
import tempfile
import threading
import time

import launchers_sandbox
import messages as m
import toolchain_bazel
from executing import Action, Executable, Peer
from large_inputs import OPTION, Toolchain
from server import Server

LIBRARIES, TESTS = 100, 14
# What each action runs: it reads all of its inputs, and some of the toolchain where that is there.
TOOL = b"""#!/bin/sh
out=$1 && shift
{ echo "$out"; for each in external/toolchain/d0/f[0-4]; do [ ! -e "$each" ] || head -c 20 "$each" >/dev/null; done
  cat "$@" | cksum; head -c 2000 "$1"; } >"$out"
"""


class Step:
    """An action of the build: its output, the steps whose outputs it needs, and what it has of its own."""

    def __init__(self, output, needs, sources):
        self.output, self.needs, self.sources, self.text = output, needs, sources, None


def steps():
    """All steps of the build, each behind those that it needs. Libraries stand upon others."""
    made, found, archives = random.Random(1), [], []

    def add(output, needs, sources):
        found.append(Step(output, needs, sources))
        return found[-1]

    source = lambda name: {name: made.randbytes(3_000)}
    for number in range(LIBRARIES):
        below = made.sample(archives, min(3, len(archives)))
        place = f"out/lib{number}"
        objects = [add(f"{place}/{name}.o", below, source(f"lib{number}-{name}.c")) for name in "ab"]
        checked = add(f"{place}/checked", below, source(f"lib{number}.h"))
        archives.append(add(f"{place}/lib.a", [*objects, checked], source(f"lib{number}.list")))
    for number in range(TESTS):
        below, place = made.sample(archives, 10), f"out/test{number}"
        compiled = add(f"{place}/test.o", below, source(f"test{number}.c"))
        linked = add(f"{place}/test", [compiled, *below], source(f"test{number}.list"))
        stripped = add(f"{place}/stripped", [linked], source(f"test{number}.sh"))
        add(f"{place}/log", [stripped], source(f"test{number}.args"))
    return found


def put(tree, path, text):
    *above, name = path.split("/")
    for each in above:
        tree = tree.setdefault(each, {})
    tree[name] = text


def action_of(step, toolchain):
    """Its action, with the outputs of what it needs."""
    tree = {"tool": Executable(TOOL), "src": dict(step.sources)}
    if toolchain:
        tree["external"] = {"toolchain": toolchain.digest}
    inputs = [f"src/{name}" for name in step.sources] + [each.output for each in step.needs]
    for each in step.needs:
        put(tree, each.output, each.text)
    return Action(["./tool", step.output, *inputs], tree, files=[step.output])


class Build:
    """A build by a server."""

    def __init__(self, port, toolchain, jobs):
        self.port, self.toolchain, self.jobs, self.own = port, toolchain, jobs, threading.local()

    def peer(self):
        if not hasattr(self.own, "peer"):
            self.own.peer = Peer(self.port, 600)
        return self.own.peer

    def store(self, peer, blobs):
        """Stores what is missing, as clients do."""
        texts = {m.digest(each): each for each in blobs}
        answers, status = peer.call(m.FIND_MISSING, m.find_missing("", list(texts)))
        if status[0]:
            raise SystemExit(f"FindMissingBlobs ends with {status}")
        peer.store([texts[each] for each in m.every(answers[0], 2)])

    def carry_out(self, step):
        peer, action = self.peer(), action_of(step, self.toolchain)
        self.store(peer, action.blobs)
        done = peer.execute(action, is_stored=True)
        if not done.result or done.result.code or step.output not in done.result.files:
            said = peer.stream_text(done.result.stderr) if done.result else b""
            raise SystemExit(f"{step.output}: {done.status.code} {done.status.text} {said[-200:]}")
        step.text = peer.text(done.result.files[step.output][0])

    def all(self):
        """Carries out all steps, and gives their outputs by their paths."""
        todo, running, done = steps(), {}, set()
        left = list(todo)
        with concurrent.futures.ThreadPoolExecutor(self.jobs) as threads:
            while left or running:
                ready = [each for each in left if all(need in done for need in each.needs)][: self.jobs - len(running)]
                for each in ready:
                    left.remove(each)
                    running[threads.submit(self.carry_out, each)] = each
                for task in concurrent.futures.wait(running, return_when=concurrent.futures.FIRST_COMPLETED).done:
                    task.result()
                    done.add(running.pop(task))
        return {each.output: each.text for each in todo}


def built(options, toolchain, extra, name):
    """Outputs of a build, and the server's processor time for an action."""
    with tempfile.TemporaryDirectory(dir=options.place, prefix="toolchain-build-") as folder:
        work = os.path.join(folder, "work")
        given = [("main", 2**31, options.jobs)], 2**62, None, work, True, options.started_by, extra
        with Server(options.program, *given) as server:
            build = Build(server.ports[0], toolchain, options.jobs)
            if toolchain:
                with Peer(server.ports[0], 600) as peer:
                    build.store(peer, toolchain.blobs)
            used, begun = server.cpu_seconds(), time.monotonic()
            outputs = build.all()
            took = time.monotonic() - begun
            each = 1000 * (server.cpu_seconds() - used) / len(outputs)
    print(f"{name}: {len(outputs)} actions in {took:.1f} s, {each:.1f} ms of the server's processor an action", flush=True)
    return outputs, each


def main():
    parser = argparse.ArgumentParser(description=__doc__, formatter_class=argparse.RawDescriptionHelpFormatter)
    parser.add_argument("program")
    parser.add_argument("--launcher", metavar="L")
    parser.add_argument("--off", action="store_true")
    parser.add_argument("--jobs", type=int, default=4, metavar="N")
    parser.add_argument("--files", type=int, default=3_000, metavar="N")
    parser.add_argument("--megabytes", type=int, default=60, metavar="N")
    parser.add_argument("--place", metavar="FOLDER")
    parser.add_argument("--most", type=float, default=5, metavar="MS")
    parser.add_argument("--bazel", metavar="BAZEL")
    parser.add_argument("--rounds", type=int, default=3, metavar="N")
    options = parser.parse_args()
    toolchain = Toolchain(options.files, options.megabytes)
    with tempfile.TemporaryDirectory(prefix="toolchain-build-") as folder:
        os.chmod(folder, 0o755)
        options.started_by = options.launcher or launchers_sandbox.sandbox(os.path.join(folder, "made"))
        is_well = by_a_client(options, toolchain)
        if options.bazel:
            is_well = toolchain_bazel.compared(options, steps(), TOOL, toolchain) and is_well
    sys.exit(not is_well)


def by_a_client(options, toolchain):
    """Whether the builds by the client of its own are as they have to be."""
    _, bare = built(options, None, [], "without a toolchain")
    wanted, _ = built(options, toolchain, [], f"with {options.files} files and {options.megabytes} MB")
    if options.off:
        return True
    found, each = built(options, toolchain, OPTION, "the same with --made-trees")
    is_equal, is_cheap = found == wanted, each <= bare + options.most
    print(f"{'ok' if is_equal else 'FAILED'} outputs are equal with --made-trees and without")
    print(f"{'ok' if is_cheap else 'FAILED'} {each - bare:.1f} ms more than without a toolchain, of at most {options.most:g}")
    return is_equal and is_cheap


if __name__ == "__main__":
    main()
