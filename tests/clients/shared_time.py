#!/usr/bin/env python3
"""shared_time.py PROGRAM [--seconds N] [--only NAME..]: what one team's work leaves another of the server's time.

PROGRAM is the built `remoted`. Red does as much as it can in one way, beside which blue has one caller of small calls,
then one upload, then one Read. Each is compared with what it has alone in the same run: an upload and a Read keep two
fifths; the caller a twentieth of its calls, or three hundredths where red's pieces are calls that cannot be cut, 99 of
100 calls take three milliseconds at most, and none takes more than 100, or 50 more than red's longest call. Red's ways:

    uploads         62 connections that upload
    trees           8 connections that ask for the tree of 10,000 files
    primed          51 calls of GetTree at a time, sent but for their last bytes, and these in one packet
    outputs         three outputs of 300 MB
    inputs          actions with 500 inputs, four at a time
    small_outputs   actions with 3,000 outputs, two at a time
    farm            actions with 100 inputs and 300 KB of output, 48 at a time
    teams           2, 8 and 16 red teams that upload, and as many that ask for trees: blue keeps as much in proportion,
                    and 99 of 100 calls wait for no more than a tree and three milliseconds

A line for each says what was found, and it ends with status 1 where a limit is passed. The load is a program in C
(load.c), which `cc` makes. Red's loads go behind blue's and the server, as they would on hosts of their own.
"""

import argparse
import os
import re
import subprocess
import sys
import tempfile
import threading
import time

import messages as m
from executing import EXECUTE, Action, Peer
from raw import PREFACE, WINDOWS, Connection, block, connect, frame
from server import Server

HERE = os.path.dirname(os.path.abspath(__file__))
LARGE_OUTPUTS = "for i in 1 2 3; do head -c 300000000 /dev/zero > out$i; done"
SMALL_OUTPUTS = "i=0; while [ $i -lt 3000 ]; do echo $i > d/$i; i=$((i+1)); done"
TREE = "/build.bazel.remote.execution.v2.ContentAddressableStorage/GetTree"
MOST_TEAMS = 16


class Load:
    """The program of loads."""

    def __init__(self, folder):
        self.program = f"{folder}/load"
        subprocess.run(["cc", "-O2", "-pthread", "-o", self.program, f"{HERE}/load.c"], check=True)

    def begin(self, port, team, seconds, kind, count=1, blob=None):
        words = [self.program, str(port), team, str(seconds), kind, str(count)]
        named = [m.first(blob, 1).decode(), str(m.first(blob, 2, 0))] if blob else []
        behind = (lambda: os.nice(10)) if team.startswith("red") else None
        return subprocess.Popen(words + named, stdout=subprocess.PIPE, text=True, preexec_fn=behind)

    def run(self, *words):
        return self.begin(*words).communicate()[0]


def rate(text):
    return float(re.search(r"(?:\S+/s|write|read) ([0-9.]+)", text).group(1))


def told(text, name):
    return float(re.search(rf"{name} ([0-9.]+)", text).group(1))


class Until:
    """Work that is begun again and again, on a connection of its own, until it is ended."""

    def __init__(self, work):
        self.is_over, self.thread = False, threading.Thread(target=self._go, args=(work,), daemon=True)
        self.thread.start()

    def _go(self, work):
        number = 0
        try:
            while not self.is_over:
                work(number)
                number += 1
        except (ConnectionError, OSError, ValueError):
            if not self.is_over:
                raise

    def end(self):
        self.is_over = True
        self.thread.join(60)


def store(port, blob):
    """Stores a blob, and gives its digest."""
    with Peer(port) as peer:
        peer.store([blob])
    return m.digest(blob)


def large_tree(port):
    """The digest of a directory with 10,000 files, which are not looked at."""
    file = lambda number: m.field(1, m.field(1, f"file-{number:05}") + m.field(2, m.digest(b"%d" % number)))
    return store(port, b"".join(file(number) for number in range(10_000)))


def run_many(port, at_a_time, words, tree=None, **named):
    """Has so many such actions run at a time, each another, until it is ended."""
    peers = [Peer(port) for _ in range(at_a_time)]
    counts = [0] * at_a_time

    def one(place):
        counts[place] += 1
        text = f"{words} # {place} {counts[place]} {time.time()}"
        action = Action(text, tree, do_not_cache=True, **named)
        peer = peers[place]
        peer.store(action.blobs)
        peer.call(EXECUTE, m.field(6, action.digest) + m.field(3, 1))

    works = [Until(lambda _, place=place: one(place)) for place in range(at_a_time)]

    def end():
        for work in works:
            work.is_over = True
        for peer in peers:
            peer.close()
        for work in works:
            work.end()

    return end


def primed(port, digest):
    """Calls that were sent but for their last byte, and then the last bytes of all in a packet."""
    connection = Connection(port)
    message = m.field(2, digest)
    framed = b"\0" + len(message).to_bytes(4, "big") + message

    def one(_):
        streams = [connection.stream + 2 * number for number in range(51)]
        connection.stream += 102
        begun = b"".join(frame(1, 4, each, block(TREE)) + frame(0, 0, each, framed[:-1]) for each in streams)
        connection.socket.sendall(begun)
        time.sleep(0.02)
        connection.socket.sendall(b"".join(frame(0, 1, each, framed[-1:]) for each in streams))
        left = set(streams)
        while left:
            kind, flags, number, _ = connection._frame()
            if kind == 7:
                raise ConnectionError("GOAWAY")
            if (kind in (0, 1) and flags & 1) or kind == 3:
                left.discard(number)
        # The window of the connection is opened again.
        connection.socket.sendall(frame(8, 0, 0, (40_000_000).to_bytes(4, "big")))

    work = Until(one)

    def end():
        work.is_over = True
        work.end()
        connection.close()

    return end


def outputs(port):
    """An action with three large outputs, again and again."""
    return run_many(port, 1, LARGE_OUTPUTS, files=["out1", "out2", "out3"])


def files(count, size):
    return {f"f{number}": b"%d" % number * (size // 3) for number in range(count)}


class Teams:
    """Red's teams and blue, at one server."""

    def __init__(self, server, load, seconds):
        self.server, self.load, self.seconds = server, load, seconds
        self.reds, self.blue = server.ports[:-1], server.ports[-1]
        self.blob = store(self.blue, os.urandom(1 << 20))
        self.tree = None

    def beside(self, name, teams=1):
        """Begins red's work, and gives what ends it."""
        port, long = self.reds[0], 3 * self.seconds + 3
        if name in ("uploads", "trees"):
            kind, count = ("write", 62 if teams == 1 else 8) if name == "uploads" else ("tree", 8 if teams == 1 else 1)
            many = [(each, f"red{place}") for place, each in enumerate(self.reds[:teams])]
            blob = lambda each: large_tree(each) if kind == "tree" else None
            busy = [self.load.begin(each, team, long, kind, count, blob(each)) for each, team in many]
            return lambda: [each.communicate() for each in busy]
        if name == "primed":
            return primed(port, large_tree(port))
        if name == "outputs":
            return outputs(port)
        if name == "inputs":
            return run_many(port, 4, "true", files(500, 3000))
        if name == "small_outputs":
            return run_many(port, 2, "mkdir d; " + SMALL_OUTPUTS, directories=["d"])
        return run_many(port, 48, "head -c 300000 /dev/zero > o", files(100, 3000), files=["o"])

    def longest_tree(self):
        """How many milliseconds a call of red's takes alone."""
        digest, connection, waits = large_tree(self.reds[0]), Connection(self.reds[0]), []
        for _ in range(3):
            begun = time.monotonic()
            connection.call(TREE, [m.field(2, digest)])
            waits.append(time.monotonic() - begun)
        connection.close()
        return 1000 * min(waits)

    def measure(self):
        blue = (self.blue, "blue", self.seconds)
        call = self.load.run(*blue, "call")
        return call, self.load.run(*blue, "write"), self.load.run(*blue, "read", 1, self.blob)

    def try_one(self, name, teams=1):
        """Whether blue keeps its part beside red's work."""
        alone = self.measure()
        piece = self.longest_tree() if name in ("trees", "primed") else 0
        end = self.beside(name, teams)
        time.sleep(1)
        call, write, read = self.measure()
        end()
        calls, wrote, had = (rate(now) / rate(then) for now, then in zip((call, write, read), alone))
        least, part = (0.03 if piece else 0.05), 2 / (1 + teams)
        longest, most = told(call, "max"), max(100, piece + 50)
        is_well = wrote >= 0.4 * part and had >= 0.4 * part and calls >= least * part
        # Of several teams whose pieces cannot be cut one waits for more than one in a hundred calls.
        usual = max(3000 / part, 3000 + 1000 * piece if teams > 1 else 0)
        is_quick = told(call, "p99") <= usual and longest <= most / part
        verdict = "ok" if is_well and is_quick else "FAULT"
        print(
            f"{verdict} {name} of {teams}: Write keeps {wrote:.2f}, Read {had:.2f}, the caller {calls:.3f} "
            f"({call.strip()}; at most {most / part:.0f} ms)",
            flush=True,
        )
        return is_well and is_quick


def main():
    parser = argparse.ArgumentParser()
    parser.add_argument("program")
    parser.add_argument("--seconds", type=int, default=2)
    every = ["uploads", "trees", "primed", "outputs", "inputs", "small_outputs", "farm", "teams"]
    parser.add_argument("--only", nargs="*", default=every)
    given = parser.parse_args()
    with tempfile.TemporaryDirectory() as folder:
        load = Load(folder)
        reds = [(f"red{number}", 4 * 10**9, 48) for number in range(MOST_TEAMS)]
        with Server(given.program, [*reds, ("blue", 4 * 10**9)], folder=None) as server:
            teams = Teams(server, load, given.seconds)
            found = [teams.try_one(name) for name in given.only if name != "teams"]
            if "teams" in given.only:
                found += [teams.try_one(name, many) for name in ("uploads", "trees") for many in (2, 8, 16)]
    sys.exit(0 if all(found) else 1)


if __name__ == "__main__":
    main()
