#!/usr/bin/env python3
"""sockets.py PROGRAM [--seconds N] [--pictures FOLDER]: how fast a server answers over sockets, and its peak of memory.

PROGRAM is the built `remoted`. It prints calls a second of FindMissingBlobs with ten digests by h2load, on one stream
and on 16 at a time, and by a grpcio client; millions of bytes a second of batches that are uploaded and read; the
server's processor time for each; and its peak of memory. Debian: python3-grpcio, nghttp2-client; run it by
/usr/bin/python3.
"""

import argparse
import os
import subprocess
import sys
import tempfile
import time

import grpc

sys.path.insert(0, os.path.join(os.path.dirname(os.path.abspath(__file__)), "..", "tests", "clients"))

import messages as m  # noqa: E402
import pictures  # noqa: E402
from server import Server  # noqa: E402

HEAD = ["-H", "content-type: application/grpc", "-H", "te: trailers"]


def by_h2load(server, streams, seconds, calls):
    request = m.find_missing("main", [m.digest(b"%d" % number) for number in range(10)])
    with tempfile.NamedTemporaryFile() as body:
        body.write(b"\0" + len(request).to_bytes(4, "big") + request)
        body.flush()
        url = f"http://127.0.0.1:{server.ports[0]}{m.FIND_MISSING}"
        words = ["h2load", "-c", "1", "-m", str(streams), "-D", str(seconds), *HEAD, "-d", body.name, url]
        used = server.cpu_seconds()
        told = subprocess.run(words, capture_output=True, text=True, check=True).stdout
        used = server.cpu_seconds() - used
    line = next(line for line in told.splitlines() if line.startswith("requests:"))
    done = int(line.split(" succeeded")[0].split()[-1])
    name = f"FindMissingBlobs of 10, h2load, {streams} at a time"
    print(f"{name}: {done / seconds:,.0f} calls/s, {used / done * 1e6:.0f} us a call")
    calls.append((name, {"calls/s": round(done / seconds)}))


def repeated(server, name, size, seconds, call):
    """Calls as often as it can, and tells calls or millions of bytes a second."""
    count, used, start = 0, server.cpu_seconds(), time.monotonic()
    while time.monotonic() - start < seconds:
        call(count)
        count += 1
    passed, used = time.monotonic() - start, server.cpu_seconds() - used
    rate = f"{count / passed:,.0f} calls/s" if size == 0 else f"{count * size / passed / 1e6:.1f} MB/s"
    print(f"{name}: {rate}, {used / count * 1e6:,.0f} us a call", flush=True)
    return name, {"calls/s": round(count / passed)} if size == 0 else {"MB/s": round(count * size / passed / 1e6, 1)}


def by_grpc(server, seconds, calls, batches):
    options = [("grpc.max_receive_message_length", -1)]
    with grpc.insecure_channel(f"127.0.0.1:{server.ports[0]}", options) as channel:
        find, store, read = (channel.unary_unary(path) for path in [m.FIND_MISSING, m.BATCH_UPDATE, m.BATCH_READ])
        wanted = m.find_missing("main", [m.digest(b"%d" % number) for number in range(10)])
        name = "FindMissingBlobs of 10, grpcio, 1 at a time"
        calls.append(repeated(server, name, 0, seconds, lambda _: find(wanted)))
        for count, size in [(100, 10_000), (1, 3_000_000)]:
            blobs = [os.urandom(size) for _ in range(count)]
            name = f"{count} blobs of {size:,} bytes"
            update = m.batch_update("main", blobs)
            stored = lambda _: store(update)
            batches.append(repeated(server, f"BatchUpdateBlobs, {name}", count * size, seconds, stored))
            digests = m.batch_read("main", [m.digest(each) for each in blobs])
            batches.append(repeated(server, f"BatchReadBlobs, {name}", count * size, seconds, lambda _: read(digests)))


def main():
    parser = argparse.ArgumentParser()
    parser.add_argument("program")
    parser.add_argument("--seconds", type=int, default=5)
    pictures.add_option(parser)
    words = parser.parse_args()
    calls, batches = [], []
    with Server(words.program, [("main", 10**9)]) as server:
        for streams in [1, 16]:
            by_h2load(server, streams, words.seconds, calls)
        by_grpc(server, words.seconds, calls, batches)
        print(f"peak of memory: {server.peak_megabytes():.0f} MB")
    pictures.bars(words.pictures, "calls", "Calls a second", "calls/s", calls)
    pictures.bars(words.pictures, "batches", "Batches", "MB/s", batches)


main()
