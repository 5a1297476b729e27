#!/usr/bin/env python3
"""idle_connections.py PROGRAM [--idle N] [--seconds N]: what connections on which nothing moves cost the others.

PROGRAM is the built `remoted`. It is started twice, and one of the two is given N idle connections (62 if not given),
which send the preface and SETTINGS. FindMissingBlobs of one digest is then called on one further connection by h2load,
on one stream and on 16, by turns on each of the two. It prints calls a second and the server's processor time a call.
Debian: nghttp2-client.
"""

import argparse
import os
import socket
import subprocess
import sys
import tempfile
import time

sys.path.insert(0, os.path.join(os.path.dirname(os.path.abspath(__file__)), "..", "tests", "clients"))

import messages as m  # noqa: E402
from server import Server  # noqa: E402

HEAD = ["-H", "content-type: application/grpc", "-H", "te: trailers"]
PREFACE = b"PRI * HTTP/2.0\r\n\r\nSM\r\n\r\n"
SETTINGS = bytes([0, 0, 0, 4, 0, 0, 0, 0, 0])
ROUNDS = 5


def idle(port, count):
    """So many connections that send the preface and SETTINGS, and nothing more."""
    connections = []
    for _ in range(count):
        connections.append(socket.create_connection(("127.0.0.1", port)))
        connections[-1].sendall(PREFACE + SETTINGS)
        time.sleep(0.004)
    return connections


def by_h2load(server, streams, seconds, body):
    url = f"http://127.0.0.1:{server.ports[0]}{m.FIND_MISSING}"
    words = ["h2load", "-c", "1", "-m", str(streams), "-D", str(seconds), *HEAD, "-d", body, url]
    used = server.cpu_seconds()
    told = subprocess.run(words, capture_output=True, text=True, check=True).stdout
    used = server.cpu_seconds() - used
    line = next(line for line in told.splitlines() if line.startswith("requests:"))
    done = int(line.split(" succeeded")[0].split()[-1])
    return done / seconds, used / done * 1e6


def median(numbers):
    return sorted(numbers)[len(numbers) // 2]


def main():
    parser = argparse.ArgumentParser()
    parser.add_argument("program")
    parser.add_argument("--idle", type=int, default=62)
    parser.add_argument("--seconds", type=int, default=1)
    words = parser.parse_args()
    request = m.find_missing("main", [m.digest(b"")])
    instances = [("main", 1_000_000)]
    with tempfile.NamedTemporaryFile() as body, Server(words.program, instances) as alone, Server(words.program, instances) as beside:
        body.write(b"\0" + len(request).to_bytes(4, "big") + request)
        body.flush()
        connections = idle(beside.ports[0], words.idle)
        for streams in [1, 16]:
            rounds = [[by_h2load(each, streams, words.seconds, body.name) for each in [alone, beside]] for _ in range(ROUNDS)]
            for place, name in enumerate(["alone", f"beside {len(connections)} idle connections"]):
                rate, used = (median([each[place][part] for each in rounds]) for part in [0, 1])
                print(f"{streams} at a time, {name}: {rate:,.0f} calls/s, {used:.1f} us a call", flush=True)


if __name__ == "__main__":
    main()
