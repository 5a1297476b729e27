#!/usr/bin/env python3
"""announced_messages.py PROGRAM: what messages that are announced and never sent cost another team.

PROGRAM is the built `remoted`, which gets 4 GiB of addresses here. Red opens 64 connections with 100 streams each, and
on each stream announces a message of 4 MiB, of which one byte comes. The server may take 128 KiB of addresses for each,
and blue still stores and reads 3 MB. Then red sends a message of 4 MB in small pieces, which is answered as ever. A
line for each thing that holds; it ends with status 1 at the first that does not.
"""

import os
import resource
import sys

import messages as m
from raw import PREFACE, WINDOWS, Connection, block, connect, frame
from server import Server

CONNECTIONS, STREAMS = 64, 100
FIND = "/build.bazel.remote.execution.v2.ContentAddressableStorage/FindMissingBlobs"
UPDATE = "/build.bazel.remote.execution.v2.ContentAddressableStorage/BatchUpdateBlobs"
MESSAGE = 4 * 1024 * 1024


def holds(what, is_so):
    print(f"{'ok' if is_so else 'NOT'}: {what}", flush=True)
    if not is_so:
        raise SystemExit(1)


def addresses(server):
    return server._status_megabytes("VmSize")


def announce(port):
    """A connection on each of whose streams a message is announced."""
    announced = b"\0" + MESSAGE.to_bytes(4, "big") + b"\x12"
    one = lambda stream: frame(1, 4, stream, block(FIND)) + frame(0, 0, stream, announced)
    found = connect(port)
    found.sendall(PREFACE + WINDOWS + b"".join(one(2 * number + 1) for number in range(STREAMS)))
    # A PING is answered once all before it was carried out.
    found.sendall(frame(6, 0, 0, b"are here"))
    got = b""
    while b"are here" not in got:
        got += found.recv(65536) or sys.exit("red's connection was closed")
    return found


def store(port, instance, text):
    """Whether a batch of one blob is stored."""
    request = m.field(1, instance) + m.field(2, m.field(1, m.digest(text)) + m.field(2, text))
    connection = Connection(port)
    answer = connection.call(UPDATE, [request])
    connection.close()
    return answer


def is_stored(port, instance, text):
    connection = Connection(port)
    answer = connection.call(FIND, [m.field(1, instance) + m.field(2, m.digest(text))])
    connection.close()
    return b"".join(payload for kind, payload in answer if kind == 0) == b"\0" * 5


def main(program):
    limit = lambda: resource.setrlimit(resource.RLIMIT_AS, (4 << 30, 4 << 30))
    teams = [("red", 100_000_000), ("blue", 100_000_000)]
    with Server(program, teams, turns=10**9, preexec_fn=limit) as server:
        red, blue = server.ports
        before = addresses(server)
        kept = [announce(red) for _ in range(CONNECTIONS)]
        taken = addresses(server) - before
        most = CONNECTIONS * STREAMS / 8
        holds(f"{CONNECTIONS * STREAMS} announced messages take {taken:.0f} MB of addresses, {most:.0f} at most", taken <= most)
        text = os.urandom(3_000_000)
        store(blue, "blue", text)
        holds("blue stores 3 MB beside them", is_stored(blue, "blue", text))
        for each in kept[1:]:
            each.close()
        text = os.urandom(3_900_000)
        store(red, "red", text)
        holds("red's message of 3.9 MB is answered as ever", is_stored(red, "red", text))


if __name__ == "__main__":
    if len(sys.argv) != 2:
        sys.exit(__doc__)
    main(sys.argv[1])
