#!/usr/bin/env python3
"""byte_stream.py PROGRAM [--megabytes N]: writes and reads blobs by ByteStream with a client that others wrote.

PROGRAM is the built `remoted`. A blob of N million bytes (1,000 if not given) is written in one stream, read back in
another and compared; a Write is broken off in the middle and resumed where QueryWriteStatus says; ranges are read; and
another instance has none of it. A line for each case, with millions of bytes a second and the server's peak of
memory; it ends with status 1 where an answer is not the right one. Debian: python3-grpcio; run it by /usr/bin/python3.
"""

import argparse
import hashlib
import os
import time

import grpc

import messages as m
from server import Server

PIECE = 1_000_000


class Blob:
    """Pieces of a million bytes, each with its number in front, made as they are wanted."""

    def __init__(self, pieces):
        self.pieces, self.noise = pieces, os.urandom(PIECE - 8)
        self.size = pieces * PIECE
        told = hashlib.sha256()
        for number in range(pieces):
            told.update(self.piece(number))
        self.hash = told.hexdigest()

    def piece(self, number):
        return number.to_bytes(8, "big") + self.noise

    def bytes(self, start, end):
        first = start // PIECE
        joined = b"".join(self.piece(number) for number in range(first, (end - 1) // PIECE + 1))
        return joined[start - first * PIECE : end - first * PIECE]


def expect(found, wanted, what):
    if found != wanted:
        raise SystemExit(f"{what}: found {found!r}, wanted {wanted!r}")


class Client:
    def __init__(self, port):
        self.channel = grpc.insecure_channel(f"127.0.0.1:{port}")
        self.write = self.channel.stream_unary(m.WRITE)
        self.read = self.channel.unary_stream(m.READ)
        self.query = self.channel.unary_unary(m.QUERY)

    def write_from(self, blob, uuid, start, until, finish=True):
        """Writes the pieces from one until another; the number of committed bytes."""
        name = m.write_name(uuid, blob.hash, blob.size)

        def messages():
            for number in range(start, until):
                last = finish and number == until - 1
                yield m.write(name if number == start else "", number * PIECE, blob.piece(number), last)

        return m.first(self.write(messages(), timeout=3600), 1, 0)

    def status(self, blob, uuid):
        answer = self.query(m.query_write_status(m.write_name(uuid, blob.hash, blob.size)), timeout=60)
        return m.first(answer, 1, 0), m.first(answer, 2, 0)

    def code(self, call):
        try:
            call()
        except grpc.RpcError as error:
            return error.code().name
        return "OK"


def speed(name, blob, start, server):
    passed = time.monotonic() - start
    return f"{name}: {blob.size / passed / 1e6:.0f} MB/s, peak of memory {server.peak_megabytes():,.0f} MB"


def whole(client, blob, server):
    start = time.monotonic()
    expect(client.write_from(blob, "whole", 0, blob.pieces), blob.size, "what a Write committed")
    yield speed(f"Write of {blob.size:,} bytes in one stream", blob, start, server)
    start, size, told = time.monotonic(), 0, hashlib.sha256()
    for message in client.read(m.read(m.read_name(blob.hash, blob.size)), timeout=3600):
        content = m.first(message, 10)
        size += len(content)
        told.update(content)
    expect((size, told.hexdigest()), (blob.size, blob.hash), "what a Read gave")
    yield speed(f"Read of {blob.size:,} bytes in one stream", blob, start, server)


def ranges(client, blob):
    for offset, limit in [(0, 1), (65_530, 10), (blob.size - 5, 0), (blob.size - 5, 100), (PIECE - 3, 200_000)]:
        end = min(blob.size, offset + limit) if limit else blob.size
        name = m.read_name(blob.hash, blob.size)
        found = b"".join(m.first(each, 10) for each in client.read(m.read(name, offset, limit), timeout=60))
        expect(found, blob.bytes(offset, end), f"{limit} bytes from {offset} on")
    yield "Read of ranges, over the ends of pages too"


def resumed(client, blob):
    expect(client.write_from(blob, "broken", 0, 2, finish=False), 2 * PIECE, "what a Write without an end committed")
    expect(client.status(blob, "broken"), (2 * PIECE, 0), "how much is there")
    expect(client.code(lambda: client.write_from(blob, "broken", 1, 3)), "INVALID_ARGUMENT", "a Write at another place")

    def broken_off():
        name = m.write_name("broken", blob.hash, blob.size)
        yield m.write(name, 2 * PIECE, blob.piece(2))
        raise grpc.RpcError("broken off")

    expect(client.code(lambda: client.write(broken_off(), timeout=60)) == "OK", False, "a Write that broke off")
    deadline = time.monotonic() + 10
    while client.status(blob, "broken")[0] == 2 * PIECE and time.monotonic() < deadline:
        time.sleep(0.01)
    there = client.status(blob, "broken")[0]
    expect(there in [2 * PIECE, 3 * PIECE], True, "what a broken Write left")
    expect(client.write_from(blob, "broken", there // PIECE, blob.pieces), blob.size, "what the resumed Write committed")
    expect(client.status(blob, "broken"), (blob.size, 1), "how much is there in the end")
    yield f"a Write that was broken off at {there:,} bytes is resumed there, as QueryWriteStatus says"
    expect(client.write_from(blob, "again", 0, blob.pieces), blob.size, "a Write of what is there")
    yield "a Write of what is there is answered at once"


def apart(other, blob):
    expect(other.code(lambda: list(other.read(m.read(m.read_name(blob.hash, blob.size))))), "NOT_FOUND", "another's blob")
    expect(other.code(lambda: other.status(blob, "broken")), "NOT_FOUND", "another's upload")
    expect(other.write_from(blob, "broken", 0, 1, finish=False), PIECE, "what another instance's Write committed")
    yield "another instance has neither the blob nor the upload"


def main():
    parser = argparse.ArgumentParser(description=__doc__, formatter_class=argparse.RawDescriptionHelpFormatter)
    parser.add_argument("program")
    parser.add_argument("--megabytes", type=int, default=1000)
    options = parser.parse_args()
    large, small = Blob(options.megabytes), Blob(7)
    with Server(options.program, [("main", large.size + 10**8), ("other", 10**8)]) as server:
        client, other = (Client(port) for port in server.ports)
        for cases in [whole(client, large, server), ranges(client, large), resumed(client, small), apart(other, small)]:
            for line in cases:
                print("ok", line, flush=True)


main()
