#!/usr/bin/env python3
"""tree_calls.py PROGRAM [--calls N]: how fast a server gives a tree and a result, and how much memory it takes.

PROGRAM is the built `remoted`. A tree of 10,000 directories in 64 levels is stored, and one of 10,000 in two, and each
is asked for N times (20 if not given), in pages of 1,000; then a result that names 1,000 files. Of each kind of call it
prints the time, the server's processor time and its peak of memory. Debian: python3-grpcio; run it by /usr/bin/python3.
"""

import argparse
import os
import sys
import time

import grpc

sys.path.insert(0, os.path.join(os.path.dirname(os.path.abspath(__file__)), "..", "tests", "clients"))

import messages as m  # noqa: E402
from server import Server  # noqa: E402

GET_TREE = m.CAS + "GetTree"
ACTION_CACHE = "/build.bazel.remote.execution.v2.ActionCache/"
DIRECTORIES = 10_000


def directory(children, number):
    """A directory with a link that tells it from others, and directories below it, in the order of their names."""
    nodes = [m.field(1, f"{place:05}") + m.field(2, m.digest(child)) for place, child in enumerate(children)]
    return b"".join(m.field(2, node) for node in nodes) + m.field(3, m.field(1, "link") + m.field(2, str(number)))


def tree(levels):
    """The texts of so many levels of directories, the root last: each level but the first has as many, one below each."""
    widths = [(DIRECTORIES - 1) // (levels - 1)] * (levels - 1)
    widths[-1] += DIRECTORIES - 1 - sum(widths)
    below, texts = [], []
    for width in widths:
        here = [directory(below[place : place + 1], len(texts) + place) for place in range(width)]
        here[-1] = directory(below[width - 1 :], len(texts) + width - 1)
        texts += here
        below = here
    return texts + [directory(below, len(texts))]


def store(channel, blobs):
    update = channel.unary_unary(m.BATCH_UPDATE)
    for first in range(0, len(blobs), 5_000):
        update(m.batch_update("main", blobs[first : first + 5_000]))


def measured(server, name, calls, call):
    used, start = server.cpu_seconds(), time.monotonic()
    for _ in range(calls):
        call()
    passed, used = time.monotonic() - start, server.cpu_seconds() - used
    print(f"{name}: {passed / calls * 1e3:.1f} ms, {used / calls * 1e3:.1f} ms of the processor a call,", end=" ")
    print(f"at most {server.peak_megabytes():,.0f} MB of memory", flush=True)


def ask_for_tree(channel, root):
    """Asks for a tree to its last page, of which all directories have to come."""
    pages = list(channel.unary_stream(GET_TREE)(m.field(1, "main") + m.field(2, m.digest(root))))
    found = sum(len(m.every(page, 1)) for page in pages)
    if found != DIRECTORIES or m.first(pages[-1], 2):
        raise SystemExit(f"{found} directories in {len(pages)} pages")


def ask_for_result(channel, action, result):
    found = channel.unary_unary(ACTION_CACHE + "GetActionResult")(m.field(1, "main") + m.field(2, m.digest(action)))
    if found != result:
        raise SystemExit("another result")


def main():
    parser = argparse.ArgumentParser(description=__doc__, formatter_class=argparse.RawDescriptionHelpFormatter)
    parser.add_argument("program")
    parser.add_argument("--calls", type=int, default=20)
    options = parser.parse_args()
    unbounded = [("grpc.max_receive_message_length", -1)]
    with Server(options.program, [("main", 10**9)]) as server:
        with grpc.insecure_channel(f"127.0.0.1:{server.ports[0]}", unbounded) as channel:
            for levels in (64, 2):
                texts = tree(levels)
                store(channel, texts)
                name = f"GetTree, {DIRECTORIES:,} directories in {levels} levels, {sum(map(len, texts)) / 1e6:.1f} MB"
                measured(server, name, options.calls, lambda: ask_for_tree(channel, texts[-1]))
            files = [b"file %d" % number for number in range(1_000)]
            store(channel, files)
            result = b"".join(m.field(2, m.field(1, f"{n:05}") + m.field(2, m.digest(f))) for n, f in enumerate(files))
            request = m.field(1, "main") + m.field(2, m.digest(b"action")) + m.field(3, result)
            update = channel.unary_unary(ACTION_CACHE + "UpdateActionResult")
            measured(server, "UpdateActionResult, 1,000 files", options.calls, lambda: update(request))
            name = "GetActionResult, 1,000 files"
            measured(server, name, options.calls, lambda: ask_for_result(channel, b"action", result))


main()
