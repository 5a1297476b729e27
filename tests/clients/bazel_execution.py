#!/usr/bin/env python3
"""bazel_execution.py PROGRAM [--slots N] [--jobs N] [--seconds N] [--launcher L | --sandbox | --slurm | --slurm-sandbox]
[--made-trees SIZE] [--keep]: Bazel has a server build its actions.

PROGRAM is the built `remoted`. A workspace of some 200 actions is made: C++ libraries and programs that are compiled,
linked and run, genrules (over one another, over directories, over 2,000 files, with outputs of 20 MB), rules whose
output is a directory, and tests that pass, fail, time out and leave programs behind. Bazel (Debian: bazel-bootstrap,
4.2.3) does it
  1. here, without a server;
  2. with `--remote_executor`, all by the server, and what it makes is the same, byte for byte;
  3. again from another output base: each action that ended well comes from the cache;
  4. against another instance, broken off in its midst: no program goes on, and then to its end.
Programs are started by the launcher L, by `launchers/sandbox` (--sandbox), on a cluster of two nodes that is made for it
(--slurm; slurm_cluster.py says what that needs), where the programs that tests leave are not looked for, or there in a
sandbox (--slurm-sandbox). With --made-trees the server has trees, too. Then no process and no folder of the server's is
left. A line for each; it ends with status 1 at the first that is not as said, and after N seconds (600).
"""

import argparse
import os
import shutil
import signal
import subprocess
import tempfile
import time

import programs
import ways
from bazel import DIRECTORY_RULE, STUBS, Bazel, Counts, contents, make_files, overrides
from server import Server, is_tree

LIBRARIES, PROGRAMS, RULES, TREES = 24, 8, 56, 10
PASSING, FAILING, SLOW, LEAVING = 5, 3, 2, 3
TESTS = PASSING + FAILING + SLOW + LEAVING
TEST_SECONDS = 20

SCRIPTS = {
    "pass": "#!/bin/sh\necho passes\n",
    "fail": "#!/bin/sh\necho fails\nexit 3\n",
    "slow": "#!/bin/sh\n(sleep 1000; :) & sleep 1000\n",
    "leave": "#!/bin/bash\n(sleep 1000; :) & sleep 1000 & echo leaves\nset -m\nsleep 1000 & disown\nexit 0\n",
}


def rules():
    """The BUILD file."""
    lines = ['load(":directory.bzl", "directory")']
    for n in range(LIBRARIES):
        below = f'":l{n - 6}"' if n >= 6 else ""
        lines.append(f'cc_library(name = "l{n}", srcs = ["l{n}.cc"], hdrs = ["l{n}.h"], deps = [{below}])')
    for n in range(PROGRAMS):
        lines.append(f'cc_binary(name = "p{n}", srcs = ["p{n}.cc"], deps = [":l{LIBRARIES - 1 - n % 6}"])')
        lines.append(
            f'genrule(name = "ran{n}", srcs = [":p{n}"], outs = ["ran{n}.txt"], cmd = "$(location :p{n}) > $@")'
        )
    for n in range(RULES):
        source = f'":g{n - 7}"' if n >= 7 and n % 10 not in (0, 7) else '"source.txt"'
        more = f" && head -c 20000000 /dev/zero | tr '\\\\0' '{n % 10}' >> $@" if n % 14 == 5 else ""
        command = f"(cat $(SRCS); echo {n}) > $@{more}"
        lines.append(f'genrule(name = "g{n}", srcs = [{source}], outs = ["g{n}.txt"], cmd = "{command}")')
    for n in range(TREES):
        lines.append(f'directory(name = "d{n}", srcs = ["source.txt"])')
        command = "cd $(SRCS) && find . -type f | LC_ALL=C sort | xargs cat > $$OLDPWD/$@"
        lines.append(f'genrule(name = "t{n}", srcs = [":d{n}"], outs = ["t{n}.txt"], cmd = "{command}")')
    lines.append(
        'genrule(name = "many", srcs = glob(["many/**"]), outs = ["many.txt"], cmd = "cat $(SRCS) | sha256sum > $@")'
    )
    for kind, count in [("pass", PASSING), ("fail", FAILING), ("slow", SLOW), ("leave", LEAVING)]:
        lines += [f'sh_test(name = "{kind}{n}", srcs = ["{kind}.sh"], args = ["{n}"])' for n in range(count)]
    return "\n".join(lines) + "\n"


def workspace():
    files = {"WORKSPACE": "", "BUILD": rules(), "directory.bzl": DIRECTORY_RULE, "source.txt": "the source\n"}
    files |= {f"many/{n % 40}/{n}": f"{n}\n" for n in range(2_000)}
    files |= {f"{name}.sh": text for name, text in SCRIPTS.items()}
    for n in range(LIBRARIES):
        below = (f'#include "l{n - 6}.h"\n', f" + l{n - 6}(a)") if n >= 6 else ("", "")
        files[f"l{n}.h"] = f"int l{n}(int a);\n"
        body = f"{{ std::map<int, int> m; m[a] = {n}; return m[a]{below[1]}; }}"
        files[f"l{n}.cc"] = f'#include <map>\n#include "l{n}.h"\n{below[0]}int l{n}(int a) {body}\n'
    for n in range(PROGRAMS):
        top = LIBRARIES - 1 - n % 6
        body = f'{{ std::printf("%d\\n", l{top}({n})); }}'
        files[f"p{n}.cc"] = f'#include <cstdio>\n#include "l{top}.h"\nint main() {body}\n'
    return files


def flags(folder, options, port=None, instance=None):
    given = [
        *overrides(folder),
        f"--jobs={options.jobs}",
        f"--test_timeout={TEST_SECONDS}",
        "--keep_going",
        "--noshow_progress",
        "--verbose_failures",
    ]
    if port is None:
        return [*given, "--spawn_strategy=local", "--build_tests_only=false"]
    given += [
        f"--remote_executor=grpc://127.0.0.1:{port}",
        f"--remote_instance_name={instance}",
        "--remote_timeout=120",
    ]
    return [*given, "--spawn_strategy=remote", "--build_tests_only=false"]


class Build:
    """What Bazel says of a build with its tests, and the outputs' hashes."""

    def __init__(self, bazel, given, seconds):
        begun = time.monotonic()
        status, self.told = bazel.run("test", *given, "//:all", seconds=seconds)
        self.seconds = time.monotonic() - begun
        # 3 says that tests failed, as they do
        expect(status == 3, f"Bazel ends with status {status}", self.told)
        self.counts = Counts(self.told)
        says = lambda word: sum(line.startswith("//:") and word in line for line in self.told.splitlines())
        self.tests = {word: says(word) for word in ["PASSED", "FAILED", "TIMEOUT"]}
        expect(
            self.tests == {"PASSED": PASSING + LEAVING, "FAILED": FAILING, "TIMEOUT": SLOW},
            f"tests {self.tests}",
            self.told,
        )
        self.outputs = contents(bazel.outputs())

    def __str__(self):
        kinds = ", ".join(f"{count} {kind}" for kind, count in self.counts.kinds.items())
        tests = ", ".join(f"{count} {word}" for word, count in self.tests.items())
        return f"{kinds}; tests: {tests}; {len(self.outputs)} files, {self.seconds:.0f} s"


def expect(condition, what, told=""):
    if not condition:
        raise SystemExit(f"FAULT {what}\n{told}")


def same(one, other):
    differing = sorted(name for name in one.keys() | other.keys() if one.get(name) != other.get(name))
    expect(not differing, f"{len(differing)} files differ: {differing[:10]}")


def left_running(options, server, seconds):
    """The programs that still run after so many seconds. Those that a test leaves on a node are the cluster's to find: this
    one, whose nodes have no cgroups, does not find them, and they are ended here."""
    if not options.slurm:
        return programs.settled(lambda: programs.running(server.folder, server.process.pid), seconds)
    time.sleep(TEST_SECONDS)
    for number in programs.running(server.folder, server.process.pid):
        os.kill(number, signal.SIGKILL)
    return {}


def broken_off(options, bazel, given, server):
    """Begins a build, breaks it off after some seconds, and looks at what goes on after it."""
    words = [*bazel.words, "test", "--color=no", "--curses=no", *given, "//:all"]
    process = subprocess.Popen(words, cwd=bazel.workspace, stdout=subprocess.DEVNULL, stderr=subprocess.DEVNULL)
    time.sleep(8)
    process.send_signal(signal.SIGINT)
    process.wait(60)
    # What runs goes on to its end, or its timeout.
    left = left_running(options, server, TEST_SECONDS + 20)
    expect(not left, f"programs go on: {left}")


def build_all(folder, options, way):
    make_files(os.path.join(folder, "stubs"), STUBS)
    for copy in ("here", "one", "two", "three"):
        make_files(os.path.join(folder, copy), workspace())
    end = time.monotonic() + options.seconds
    left = lambda: max(1, end - time.monotonic())
    with Server(
        options.program,
        [("main", 2 * 10**9, options.slots), ("other", 2 * 10**9, options.slots)],
        2**62,
        heard=True,
        launcher=way.launcher,
        extra=way.extra,
    ) as server:
        main, other = server.ports
        with Bazel(folder, os.path.join(folder, "here"), "base-here") as bazel:
            here = Build(bazel, flags(folder, options), left())
            print(f"ok built here: {here}", flush=True)
        with Bazel(folder, os.path.join(folder, "one"), "base-one") as bazel:
            built = Build(bazel, flags(folder, options, main, "main"), left())
            expect(set(built.counts.kinds) == {"remote"}, f"not all by the server: {built.counts.kinds}", built.told)
            same(here.outputs, built.outputs)
            print(f"ok built by the server, the same files: {built}", flush=True)
        with Bazel(folder, os.path.join(folder, "two"), "base-two") as bazel:
            again = Build(bazel, flags(folder, options, main, "main"), left())
            # Of a test that fails or times out the program runs again, and its report is made again.
            runs = again.counts.run
            expect(runs <= 2 * (FAILING + SLOW), f"{runs} ran again", again.told)
            expect(again.counts.hits + runs == built.counts.run, "another number of actions", again.told)
            same(here.outputs, again.outputs)
            print(f"ok built again from the cache, the same files: {again}", flush=True)
        with Bazel(folder, os.path.join(folder, "three"), "base-three") as bazel:
            given = flags(folder, options, other, "other")
            broken_off(options, bazel, given, server)
            rest = Build(bazel, given, left())
            same(here.outputs, rest.outputs)
            print(
                f"ok broken off against another instance, where nothing goes on, and then built to its end: {rest}",
                flush=True,
            )
        begun = time.monotonic()
        running = left_running(options, server, 20)
        expect(not running, f"programs are left: {running}")
        if time.monotonic() - begun > 1:
            print(f"note: the last program ended {time.monotonic() - begun:.1f} s after Bazel did", flush=True)
        folders = programs.settled(lambda: [name for name in server.entries() if not is_tree(name)])
        expect(not folders, f"folders are left: {folders}")
        expect(not programs.settled(lambda: programs.zombies(server.process.pid)), "zombies are left")
        expect(not server.said(), f"on standard error: {server.said()[:10]}")
        cpu, peak = server.cpu_seconds(), server.peak_megabytes()
        print(
            f"ok no program and no folder is left; {cpu:.1f} s of the processor, peak of memory {peak:,.0f} MB",
            flush=True,
        )


def main():
    parser = argparse.ArgumentParser(description=__doc__, formatter_class=argparse.RawDescriptionHelpFormatter)
    parser.add_argument("program")
    parser.add_argument("--slots", type=int, default=os.cpu_count())
    parser.add_argument("--jobs", type=int, default=20)
    parser.add_argument("--seconds", type=int, default=600)
    ways.add_ways(parser)
    ways.add_made_trees(parser)
    parser.add_argument("--keep", action="store_true")
    options = parser.parse_args()
    folder = tempfile.mkdtemp(prefix="bazel-execution-")
    os.chmod(folder, 0o755)
    try:
        with ways.made(options, folder) as way:
            build_all(folder, options, way)
    except subprocess.TimeoutExpired:
        raise SystemExit(f"FAULT it takes longer than {options.seconds} seconds")
    finally:
        if not options.keep:
            subprocess.run(["chmod", "-R", "u+w", folder])
            shutil.rmtree(folder, ignore_errors=True)


main()
