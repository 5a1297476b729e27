#!/usr/bin/env python3
"""large_instance.py PROGRAM [--blobs N] [--results N] [--rounds N] [--slow FACTOR]: an instance with very many blobs and results.

PROGRAM is the built `remoted`. By grpcio N blobs (1,000,000 if not given) of 100 bytes are stored in an instance, and
results of as many actions (100,000), each of which names three blobs. Then all blobs are asked for by FindMissingBlobs,
and all results by GetActionResult: each has to be there. The server's memory has to be within 1.1 of what DEPLOYING
reckons, and before it was filled that of a server with the usual numbers. Calls of FindMissingBlobs, of GetActionResult
and of UpdateActionResult beside all these have to be at least 0.95 as quick as at an instance of the same server that has
a thousand of each: the quickest of rounds by turns, by the clock or by the server's processor time. At last a large blob
drives out 100,000 small ones, thrice, and no caller of another instance may wait for longer than 250 ms meanwhile. A line
for each; status 1 where one is not as said. Debian: python3-grpcio, nghttp2-client; run it by /usr/bin/python3.
"""

import argparse
import hashlib
import os
import re
import subprocess
import tempfile
import threading
import time

import grpc

import messages as m
from server import Server

CACHE = "/build.bazel.remote.execution.v2.ActionCache/"
BLOB, FEW, CALLS, DRIVEN_OUT = 100, 1000, 20_000, 100_000

# What DEPLOYING reckons for an empty server, a blob beside its own bytes, and a result beside its own.
EMPTY, OF_BLOB, OF_RESULT = 8 << 20, 570, 250


def blob(number):
    return b"%0100d" % number


def digest(number):
    return m.digest(blob(number))


def result(number, count):
    """The bytes of an ActionResult that names three blobs of the first `count`."""
    files = [m.field(2, m.field(1, f"out{place}") + m.field(2, digest((number * 3 + place) % count))) for place in range(3)]
    return b"".join(files)


def action(number):
    return m.digest(b"action %d" % number)


def update(name, number, count):
    return m.field(1, name) + m.field(2, action(number)) + m.field(3, result(number, count))


def get(name, number):
    return m.field(1, name) + m.field(2, action(number))


class Client:
    def __init__(self, name, port):
        self.name, self.port = name, port
        options = [("grpc.max_receive_message_length", -1)]
        self.channel = grpc.insecure_channel(f"127.0.0.1:{port}", options=options)
        self.find = self.channel.unary_unary(m.FIND_MISSING)
        self.store = self.channel.unary_unary(m.BATCH_UPDATE)
        self.update = self.channel.unary_unary(CACHE + "UpdateActionResult")
        self.get = self.channel.unary_unary(CACHE + "GetActionResult")

    def fill(self, blobs, results):
        for first in range(0, blobs, 10_000):
            some = [blob(number) for number in range(first, min(first + 10_000, blobs))]
            self.store(m.batch_update(self.name, some), timeout=60)
        self.all(self.update, (update(self.name, number, blobs) for number in range(results)))

    @staticmethod
    def all(method, requests):
        """Makes these calls, a hundred at a time, and gives how many ended well."""
        well, under_way = 0, []
        for request in requests:
            under_way.append(method.future(request, timeout=60))
            if len(under_way) == 100:
                well += sum(each.code() == grpc.StatusCode.OK for each in under_way)
                under_way = []
        return well + sum(each.code() == grpc.StatusCode.OK for each in under_way)

    def missing(self, blobs):
        count = 0
        for first in range(0, blobs, 20_000):
            asked = [digest(number) for number in range(first, min(first + 20_000, blobs))]
            count += len(m.every(self.find(m.find_missing(self.name, asked), timeout=60), 2))
        return count


def processor_seconds(server):
    with open(f"/proc/{server.process.pid}/schedstat") as times:
        return int(times.read().split()[0]) / 1e9


def costs(client, method, message, server):
    """What a call takes by the clock, and of the server's processor time, in microseconds."""
    with tempfile.NamedTemporaryFile() as body:
        body.write(b"\0" + len(message).to_bytes(4, "big") + message)
        body.flush()
        head = ["-H", "content-type: application/grpc", "-H", "te: trailers"]
        words = ["h2load", "-n", str(CALLS), "-c", "1", "-m", "50", *head, "-d", body.name]
        before = processor_seconds(server)
        told = subprocess.run([*words, f"http://127.0.0.1:{client.port}{method}"], capture_output=True, text=True).stdout
        took = processor_seconds(server) - before
    if f"{CALLS} succeeded, 0 failed" not in told:
        raise SystemExit(f"h2load: {told}")
    return 1e6 / float(re.search(r"([\d.]+) req/s", told)[1]), took / CALLS * 1e6


def kinds(client, blobs, results, part):
    """A call of each kind, about what stands at this part of all."""
    ten = [digest((int(blobs * part) + number * (blobs // 10)) % blobs) for number in range(10)]
    place = int(results * part)
    yield "FindMissingBlobs of 10", m.FIND_MISSING, m.find_missing(client.name, ten)
    yield "GetActionResult", CACHE + "GetActionResult", get(client.name, place)
    yield "UpdateActionResult", CACHE + "UpdateActionResult", update(client.name, place, blobs)


def compare(few, many, options, server):
    counts, found = {few: (FEW, FEW), many: (options.blobs, options.results)}, {}
    for number in range(options.rounds):
        for client in (few, many):
            for what, method, message in kinds(client, *counts[client], number / options.rounds):
                found.setdefault((what, client), []).append(costs(client, method, message, server))
    for what, *_ in kinds(few, *counts[few], 0):
        (few_clock, few_work), (many_clock, many_work) = (map(min, zip(*found[what, each])) for each in (few, many))
        clock, work = few_clock / many_clock, few_work / many_work
        told = f"{clock:.2f} of the rate beside {FEW:,}, {work:.2f} by processor time: {many_work:.2f} and {few_work:.2f} us"
        tell(max(clock, work) >= 0.95, f"{what}: {told} a call")


def drive_out(many, few, number, options):
    """One blob that takes the room of 100,000: how long another instance's caller waits."""
    size = DRIVEN_OUT * BLOB
    waits, done = [], threading.Event()

    def call():
        request = m.find_missing(few.name, [digest(1)])
        while not done.is_set():
            begun = time.monotonic()
            few.find(request, timeout=60)
            waits.append(time.monotonic() - begun)

    large = os.urandom(size)
    name = m.write_name(f"large-{number}", hashlib.sha256(large).hexdigest(), size, many.name)
    write = many.channel.stream_unary(m.WRITE)
    pieces = [m.write(name if at == 0 else "", at, large[at : at + 10**6], at + 10**6 >= size) for at in range(0, size, 10**6)]
    caller = threading.Thread(target=call)
    caller.start()
    write(iter(pieces), timeout=60)
    done.set()
    caller.join()
    tell(max(waits) < 0.25 * options.slow, f"another instance's caller waited {max(waits) * 1000:.0f} ms at most meanwhile")


FAILURES = []


def tell(holds, what):
    print("ok" if holds else "FAILED", what, flush=True)
    if not holds:
        FAILURES.append(what)


def try_all(options):
    quota = options.blobs * BLOB
    instances = [("few", 10**9), ("many", quota)]
    with Server(options.program, instances) as server:
        usual = server.resident_megabytes()
    numbers = ("--blobs", "2147483648", "--results", "2147483648", "--result-bytes", "2G", "--window", "2147483647")
    with Server(options.program, instances, extra=numbers) as server:
        few, many = (Client(name, port) for name, port in zip(("few", "many"), server.ports))
        empty = server.resident_megabytes()
        tell(empty < usual + 0.25, f"empty with the largest numbers it has {empty:.2f} MB, with the usual ones {usual:.2f}")
        few.fill(FEW, FEW)
        begun = time.monotonic()
        many.fill(options.blobs, options.results)
        tell(True, f"filled in {time.monotonic() - begun:.0f} s")
        tell(many.missing(options.blobs) == 0, f"all of {options.blobs:,} blobs are found")
        hits = many.all(many.get, (get(many.name, number) for number in range(options.results)))
        tell(hits == options.results, f"{hits:,} of {options.results:,} results are hits")
        reckoned = EMPTY + options.blobs * (OF_BLOB + BLOB) + options.results * (OF_RESULT + len(result(0, options.blobs)))
        found = server.resident_megabytes()
        ratio = found * 2**20 / reckoned
        tell(ratio <= 1.1, f"memory {found:,.0f} MB, {ratio:.2f} of what is reckoned")
        compare(few, many, options, server)
        for number in range(3):
            drive_out(many, few, number, options)
        gone = many.missing(options.blobs)
        wanted = 3 * DRIVEN_OUT
        tell(gone == wanted, f"three blobs of {DRIVEN_OUT * BLOB:,} bytes drove out {gone:,} of the others")


def main():
    parser = argparse.ArgumentParser(description=__doc__, formatter_class=argparse.RawDescriptionHelpFormatter)
    parser.add_argument("program")
    parser.add_argument("--blobs", type=int, default=1_000_000)
    parser.add_argument("--results", type=int, default=100_000)
    parser.add_argument("--rounds", type=int, default=20)
    parser.add_argument("--slow", type=float, default=1)
    options = parser.parse_args()
    try_all(options)
    raise SystemExit(1 if FAILURES else 0)


main()
