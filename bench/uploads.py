#!/usr/bin/env python3
"""uploads.py PROGRAM.. [--megabytes N] [--rounds N] [--pictures FOLDER]: how fast blobs are written under SHA-256 and
under SHA-512.

Each PROGRAM is a built `remoted`. In each round each in turn takes a blob of N million bytes (200 if not given) by a
Write and as many by BatchUpdateBlobs, under either function that it offers. For each load it prints millions of bytes
a second and the server's processor time for a million, medians over the rounds. It needs Python alone.
"""

import argparse
import hashlib
import os
import statistics
import sys
import time

sys.path.insert(0, os.path.join(os.path.dirname(os.path.abspath(__file__)), "..", "tests", "clients"))

import messages as m  # noqa: E402
import pictures  # noqa: E402
from raw import Connection, block, frame  # noqa: E402
from server import Server  # noqa: E402

PIECE = 1_000_000
FUNCTIONS = {1: "sha256", 6: "sha512"}


class Uploader(Connection):
    """A connection that sends no more than the server's windows allow."""

    def __init__(self, port):
        super().__init__(port)
        self.room = 65_535

    def _take(self):
        """Takes one frame: kind, flags, stream, payload."""
        kind, flags, stream, payload = self._frame()
        if kind == 8 and stream == 0:
            self.room += int.from_bytes(payload, "big")
        if kind == 7:
            raise ConnectionError(f"GOAWAY {payload.hex()}")
        return kind, flags, stream, payload

    def upload(self, path, messages):
        """Makes a call with these messages, and gives the reply's message."""
        stream, self.stream = self.stream, self.stream + 2
        self.socket.sendall(frame(1, 4, stream, block(path)))
        for message in messages:
            framed = b"\0" + len(message).to_bytes(4, "big") + message
            for at in range(0, len(framed), 16_384):
                piece = framed[at : at + 16_384]
                while self.room < len(piece):
                    self._take()
                self.room -= len(piece)
                self.socket.sendall(frame(0, 0, stream, piece))
        self.socket.sendall(frame(0, 1, stream))
        reply = b""
        while True:
            kind, flags, number, payload = self._take()
            if number == stream and kind == 0:
                reply += payload
            if number == stream and kind in (0, 1) and flags & 1:
                return reply[5:]


def digest(function, blob):
    return m.field(1, hashlib.new(function, blob).hexdigest()) + m.field(2, len(blob))


def write(connection, function, noise, pieces):
    parts = [number.to_bytes(8, "big") + noise for number in range(pieces)]
    told = hashlib.new(function)
    for part in parts:
        told.update(part)
    name = m.write_name(os.urandom(8).hex(), told.hexdigest(), PIECE * pieces)
    messages = [
        m.write("" if number else name, number * PIECE, part, number + 1 == pieces) for number, part in enumerate(parts)
    ]
    return lambda: connection.upload(m.WRITE, messages) == m.field(1, PIECE * pieces)


def update(connection, function, noise, pieces):
    blobs = [number.to_bytes(8, "big") + noise for number in range(pieces)]
    calls = []
    for blob in blobs:
        request = m.field(1, digest(function, blob)) + m.field(2, blob)
        calls.append(m.field(1, "main") + m.field(2, request))
    return lambda: all(connection.upload(m.BATCH_UPDATE, [call]).endswith(b"\x12\x00") for call in calls)


LOADS = {"a Write": write, "BatchUpdateBlobs": update}


def offered(connection):
    """The functions that the server offers, which stand packed in the first field of the first field."""
    told = m.first(connection.upload(m.CAPABILITIES, [m.capabilities("main")]), 1)
    return [FUNCTIONS[number] for number in m.first(told, 1)]


def measured(program, pieces):
    """Pairs of a load and its figures, for each function that the program offers."""
    with Server(program, [("main", PIECE * pieces * 3)]) as server:
        connection = Uploader(server.ports[0])
        for function in offered(connection):
            for name, load in LOADS.items():
                call = load(connection, function, os.urandom(PIECE - 8), pieces)
                used, start = server.cpu_seconds(), time.monotonic()
                if not call():
                    raise SystemExit(f"{name} under {function}: not answered as it should be")
                passed, used = time.monotonic() - start, server.cpu_seconds() - used
                yield (name, function), (PIECE * pieces / passed / 1e6, used * 1e3 / pieces)
        connection.close()


def main():
    parser = argparse.ArgumentParser()
    parser.add_argument("programs", nargs="+")
    parser.add_argument("--megabytes", type=int, default=200)
    parser.add_argument("--rounds", type=int, default=5)
    pictures.add_option(parser)
    words = parser.parse_args()
    found = {}
    for _ in range(words.rounds):
        for program in words.programs:
            for load, figures in measured(program, words.megabytes):
                found.setdefault((load, program), []).append(figures)
    table = {}
    for (name, function), program in sorted(found):
        rates, times = zip(*found[(name, function), program])
        rate, used = statistics.median(rates), statistics.median(times)
        print(f"{name} under {function}, {program}: {rate:.0f} MB/s, {used:.2f} ms of the server a million bytes")
        table.setdefault(f"{name}, {function}", {})[program] = round(rate)
    pictures.bars(words.pictures, "uploads", "Uploads, medians", "MB/s", list(table.items()))


main()
