#!/usr/bin/env python3
"""idle_instances.py PROGRAM [--seconds N] [--each N] [--pictures FOLDER]: what idle instances and connections take.

PROGRAM is the built `remoted`. It is started with 1 and with 256 instances, and with 256 that have N idle connections
each (4 if not given), which send the preface and SETTINGS. For each it prints what the idle server takes of a
processor; then calls a second of FindMissingBlobs of one digest by h2load, on one stream and on 16, by turns on each of
the three, and the server's processor time a call, medians of seven. Debian: nghttp2-client.
"""

import argparse
import contextlib
import os
import sys
import tempfile
import time

sys.path.insert(0, os.path.join(os.path.dirname(os.path.abspath(__file__)), "..", "tests", "clients"))

import messages as m  # noqa: E402
import pictures  # noqa: E402
from idle_connections import by_h2load, idle, median  # noqa: E402
from server import Server  # noqa: E402

ROUNDS = 7


def share(server, seconds):
    """What the server takes of a processor, in percent."""
    used, start = server.cpu_seconds(), time.monotonic()
    time.sleep(seconds)
    return (server.cpu_seconds() - used) / (time.monotonic() - start) * 100


def main():
    parser = argparse.ArgumentParser()
    parser.add_argument("program")
    parser.add_argument("--seconds", type=int, default=1)
    parser.add_argument("--each", type=int, default=4)
    pictures.add_option(parser)
    words = parser.parse_args()
    request = m.find_missing("", [m.digest(b"")])
    with tempfile.NamedTemporaryFile() as body, contextlib.ExitStack() as stack:
        body.write(b"\0" + len(request).to_bytes(4, "big") + request)
        body.flush()
        start = lambda count: [(f"team-{number}", 1_000_000) for number in range(count)]
        servers = [stack.enter_context(Server(words.program, start(count), 2**62)) for count in [1, 256, 256]]
        connections = [idle(port, words.each) for port in servers[2].ports]
        names = ["1 instance", "256 instances", f"256 instances of {len(connections[0])} idle connections"]
        time.sleep(1)
        idles, calls = [], []
        for server, name in zip(servers, names):
            taken = share(server, 5 * words.seconds)
            print(f"{name}, idle: {taken:.1f} % of a processor", flush=True)
            idles.append((name, {"%": round(taken, 1)}))
        pictures.bars(words.pictures, "idle", "An idle server", "% of a processor", idles)
        for streams in [1, 16]:
            rounds = [[by_h2load(each, streams, words.seconds, body.name) for each in servers] for _ in range(ROUNDS)]
            for place, name in enumerate(names):
                rate, used = (median([each[place][part] for each in rounds]) for part in [0, 1])
                print(f"{streams} at a time, {name}: {rate:,.0f} calls/s, {used:.1f} us a call", flush=True)
                calls.append((f"{streams} at a time", name, round(rate)))
        rows = {}
        for row, name, rate in calls:
            rows.setdefault(row, {})[name] = rate
        pictures.bars(words.pictures, "idle_calls", "FindMissingBlobs beside idle instances", "calls/s", list(rows.items()))


if __name__ == "__main__":
    main()
