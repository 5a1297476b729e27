#!/usr/bin/env python3
"""bazel_languages.py PROGRAM [--launcher L | --sandbox | --slurm | --slurm-sandbox] [--jobs N] [--seconds N] [--keep]:
Bazel builds and tests C++ and Java by a server.

PROGRAM is the built `remoted`. A workspace is made of a C++ library, a program and two tests (`cc_binary`, `cc_test`,
one with threads), and of Java classes that `javac` compiles, an archive, and two tests that `java` runs, one of them
with a server on `localhost` (genrules and `sh_test`: Debian's Bazel has no Java tools). Bazel (bazel-bootstrap, 4.2.3)
  1. builds and tests it here, without a server;
  2. does so with `--remote_executor`, all by the server: the same files, and each test passes;
  3. again from another output base: all of it comes from the cache;
  4. once more with a test and a class that are wrong: these fail, and the test says why.
Programs are started by the launcher L; by `launchers/sandbox` (--sandbox), whose filters are made for it; on a cluster
of two nodes that is made for it (--slurm; slurm_cluster.py says what that needs); or there in a sandbox
(--slurm-sandbox). A line for each; it ends with status 1 at the first that is not as said, and after N seconds (600).
"""

import argparse
import os
import shutil
import subprocess
import tempfile
import time

import ways
from bazel import STUBS, Bazel, Counts, contents, make_files, overrides
from server import Server

RULES = """
cc_library(name = "sum", srcs = ["sum.cc"], hdrs = ["sum.h"])
cc_binary(name = "program", srcs = ["program.cc"], deps = [":sum"])
cc_test(name = "sum_test", srcs = ["sum_test.cc"], deps = [":sum"])
cc_test(name = "threads_test", srcs = ["threads_test.cc"], deps = [":sum"], linkopts = ["-pthread"])
genrule(name = "ran", srcs = [":program"], outs = ["ran.txt"], cmd = "$(location :program) > $@")
genrule(
    name = "jar",
    srcs = ["Answers.java", "Says.java"],
    outs = ["says.jar"],
    cmd = "mkdir classes && javac -d classes $(SRCS)" +
          " && jar --create --file $@ --main-class Says --date=2000-01-01T00:00:00Z -C classes .",
)
genrule(name = "says", srcs = [":says.jar"], outs = ["says.txt"], cmd = "java -jar $(location :says.jar) > $@")
sh_test(name = "says_test", srcs = ["says_test.sh"], data = [":says.jar"])
sh_test(name = "answers_test", srcs = ["answers_test.sh"], data = [":says.jar"])
"""

SAYS = "public class Says { public static void main(String[] words) { System.out.println(Answers.SUM); } }\n"

ANSWERS = """
import java.net.*;
public class Answers {
  static final int SUM = 1 + 2;
  public static void main(String[] words) throws Exception {
    InetAddress here = InetAddress.getByName("localhost");
    try (ServerSocket server = new ServerSocket(0, 50, here)) {
      Thread other = new Thread(() -> {
        try (Socket peer = server.accept()) { peer.getOutputStream().write(SUM); } catch (Exception fault) { }
      });
      other.start();
      try (Socket peer = new Socket("localhost", server.getLocalPort())) {
        System.out.println(peer.getInputStream().read());
      }
      other.join();
    }
  }
}
"""

THREADS_TEST = """
#include <atomic>
#include <thread>
#include <vector>
#include "sum.h"
int main() {
  std::atomic<int> total{0};
  std::vector<std::thread> all;
  for (int n = 0; n < 8; n++) all.emplace_back([&total, n] { total += sum(n, 1); });
  for (auto &each : all) each.join();
  return total == 36 ? 0 : 1;
}
"""

FILES = {
    "WORKSPACE": "",
    "BUILD": RULES,
    "sum.h": "int sum(int a, int b);\n",
    "sum.cc": '#include "sum.h"\nint sum(int a, int b) { return a + b; }\n',
    "program.cc": '#include <iostream>\n#include "sum.h"\nint main() { std::cout << sum(1, 2) << std::endl; }\n',
    "sum_test.cc": '#include <cassert>\n#include "sum.h"\nint main() { assert(sum(1, 2) == 3); }\n',
    "threads_test.cc": THREADS_TEST,
    "Says.java": SAYS,
    "Answers.java": ANSWERS,
    "says_test.sh": '#!/bin/sh\n[ "$(java -jar says.jar)" = 3 ]\n',
    "answers_test.sh": '#!/bin/sh\nsaid=$(java -cp says.jar Answers) && echo "said $said" && [ "$said" = 3 ]\n',
}
TESTS = ["sum_test", "threads_test", "says_test", "answers_test"]
# What is wrong at the end, and what Bazel has to say of it.
WRONG = {"sum_test.cc": FILES["sum_test.cc"].replace("== 3", "== 4"), "Says.java": SAYS.replace("SUM", "NO_SUM")}
WRONG_SAYS = ["sum_test.cc:3: int main(): Assertion", "error: cannot find symbol"]


def flags(folder, options, port=None):
    given = [*overrides(folder), f"--jobs={options.jobs}", "--incompatible_strict_action_env", "--noshow_progress"]
    given += ["--verbose_failures", "--test_output=errors", "--build_tests_only=false", "--keep_going"]
    if port is None:
        return [*given, "--spawn_strategy=local"]
    remote = [f"--remote_executor=grpc://127.0.0.1:{port}", "--remote_instance_name=main", "--remote_timeout=120"]
    return [*given, *remote, "--spawn_strategy=remote"]


def expect(condition, what, told=""):
    if not condition:
        raise SystemExit(f"FAULT {what}\n{told}")


class Built:
    """A build with its tests, all of which pass: how many actions ran where, and the outputs' hashes."""

    def __init__(self, bazel, given, seconds):
        begun = time.monotonic()
        status, told = bazel.run("test", *given, "//:all", seconds=seconds)
        self.seconds = time.monotonic() - begun
        expect(status == 0, f"Bazel ends with status {status}", told)
        passed = [name for name in TESTS if any(line.split()[:1] == [f"//:{name}"] for line in told.splitlines())]
        expect(passed == TESTS and told.count("PASSED in") == len(TESTS), f"of the tests ran {passed}", told)
        self.kinds = Counts(told).kinds
        self.outputs = contents(bazel.outputs())

    def __str__(self):
        kinds = ", ".join(f"{count} {kind}" for kind, count in self.kinds.items())
        return f"{kinds}; {len(TESTS)} tests pass; {len(self.outputs)} files, {self.seconds:.0f} s"


def same(one, other):
    # where a test's runfiles lie is a path of this host
    differing = sorted(name for name in one.keys() | other.keys() if one.get(name) != other.get(name))
    expect(not differing, f"{len(differing)} files differ: {differing[:10]}")


def build_all(folder, options, started_by):
    make_files(os.path.join(folder, "stubs"), STUBS)
    for copy in ["here", "one", "two", "three"]:
        make_files(os.path.join(folder, copy), FILES | (WRONG if copy == "three" else {}))
    end = time.monotonic() + options.seconds
    left = lambda: max(1, end - time.monotonic())
    started = lambda name: Bazel(folder, os.path.join(folder, name), f"base-{name}")
    with Server(options.program, [("main", 10**9, os.cpu_count())], 2**62, heard=True, launcher=started_by) as server:
        given = flags(folder, options, server.ports[0])
        with started("here") as bazel:
            here = Built(bazel, flags(folder, options), left())
            print(f"ok built and tested here: {here}", flush=True)
        with started("one") as bazel:
            built = Built(bazel, given, left())
            expect(set(built.kinds) == {"remote"}, f"not all by the server: {built.kinds}")
            same(here.outputs, built.outputs)
            print(f"ok by the server, the same files: {built}", flush=True)
        with started("two") as bazel:
            again = Built(bazel, given, left())
            expect(set(again.kinds) == {"remote cache hit"}, f"not all from the cache: {again.kinds}")
            same(here.outputs, again.outputs)
            print(f"ok again, from the cache: {again}", flush=True)
        with started("three") as bazel:
            status, told = bazel.run("test", *given, "//:all", seconds=left())
            lacking = [words for words in WRONG_SAYS if words not in told]
            expect(status == 1 and not lacking, f"what is wrong: status {status}, it does not say {lacking}", told)
            print("ok a test that fails and a class that cannot be compiled say so", flush=True)
        expect(not server.said(), f"on standard error: {server.said()[:10]}")


def main():
    parser = argparse.ArgumentParser(description=__doc__, formatter_class=argparse.RawDescriptionHelpFormatter)
    parser.add_argument("program")
    ways.add_ways(parser)
    parser.add_argument("--jobs", type=int, default=8)
    parser.add_argument("--seconds", type=int, default=600)
    parser.add_argument("--keep", action="store_true")
    options = parser.parse_args()
    folder = tempfile.mkdtemp(prefix="bazel-languages-")
    try:
        with ways.made(options, folder) as way:
            build_all(folder, options, way.launcher)
    except subprocess.TimeoutExpired:
        raise SystemExit(f"FAULT it takes longer than {options.seconds} seconds")
    finally:
        if not options.keep:
            subprocess.run(["chmod", "-R", "u+w", folder])
            shutil.rmtree(folder, ignore_errors=True)


main()
