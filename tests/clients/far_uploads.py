#!/usr/bin/env python3
"""far_uploads.py PROGRAM [--peer PEER] [--window N] [--megabytes N] [--trips MS ..] [--rounds N]: uploads from far away.

PROGRAM is the built `remoted`, which is started with `--window N` (16M if not given). Blobs of N million bytes (64 if
not given) are written by grpcio, in one Write each, on a connection that has made a Write before: straight, and through
a proxy of this script's own that holds each byte back for half a round trip of 2, 10 and 40 milliseconds each way. A line
for each: MB/s, the most of rounds by turns, beside those of a server with the usual window, and beside those of PEER,
where one is given: a program that serves ByteStream on the port that is its first word. With `--haproxy` the client is
that far from HAProxy with the windows of deploy/haproxy.cfg, which stands beside the server, and is told beside HAProxy's
own. It ends with status 1 where a rate is neither 0.8 of the peer's nor, two round trips taken off, 0.9 of that without a
delay. A window is wide enough where it is twice what the server takes in a round trip: at 40 ms and 100 MB/s 8 MB.
Debian: python3-grpcio, haproxy; run it by /usr/bin/python3.
"""

import argparse
import collections
import hashlib
import os
import pathlib
import re
import socket
import subprocess
import tempfile
import threading
import time

import grpc

import messages as m
from server import Server, free_ports

PIECE = 1_000_000


class Way:
    """One direction of a connection: bytes go on a while after they came, and the other end learns of the end so."""

    def __init__(self, source, sink, delay):
        self.source, self.sink, self.delay = source, sink, delay
        self.waiting, self.came = collections.deque(), threading.Condition()
        for work in (self.take, self.give):
            threading.Thread(target=work, daemon=True).start()

    def take(self):
        while True:
            try:
                some = self.source.recv(1 << 18)
            except OSError:
                some = b""
            with self.came:
                self.waiting.append((time.monotonic() + self.delay, some))
                self.came.notify()
            if not some:
                return

    def give(self):
        while True:
            with self.came:
                while not self.waiting:
                    self.came.wait()
                moment, some = self.waiting.popleft()
            time.sleep(max(0, moment - time.monotonic()))
            try:
                if not some:
                    return self.sink.shutdown(socket.SHUT_WR)
                self.sink.sendall(some)
            except OSError:
                return


class Far:
    """A port at which a server is so many seconds of a round trip away."""

    def __init__(self, port, trip):
        self.trip, self.server = trip, port
        self.listening = socket.create_server(("127.0.0.1", 0))
        self.port = self.listening.getsockname()[1]
        threading.Thread(target=self.accept, daemon=True).start()

    def accept(self):
        while True:
            try:
                client, _ = self.listening.accept()
            except OSError:
                return
            server = socket.create_connection(("127.0.0.1", self.server))
            for each in (client, server):
                each.setsockopt(socket.IPPROTO_TCP, socket.TCP_NODELAY, 1)
            Way(client, server, self.trip / 2)
            Way(server, client, self.trip / 2)


class HAProxy:
    """HAProxy before a server, with the windows that deploy/haproxy.cfg has, or with its own."""

    def __init__(self, folder, server, windows):
        config = pathlib.Path(__file__).resolve().parents[2] / "deploy/haproxy.cfg"
        found = re.findall(r"^    (tune\.h2\.\S*window\S* \d+)$", config.read_text(), re.M)
        if not found:
            raise SystemExit(f"{config} has no windows")
        (self.port,) = free_ports(1)
        path = os.path.join(folder, f"haproxy-{self.port}.cfg")
        with open(path, "w") as file:
            file.write("global\n" + "".join(f"    {line}\n" for line in found if windows))
            file.write("defaults\n    mode http\n    timeout connect 5s\n    timeout client 1h\n    timeout server 1h\n")
            file.write(f"listen here\n    bind 127.0.0.1:{self.port} proto h2\n    server it 127.0.0.1:{server} proto h2\n")
        self.process = subprocess.Popen(["haproxy", "-f", path], stderr=subprocess.DEVNULL)
        time.sleep(1)

    def end(self):
        self.process.kill()
        self.process.wait()


class Uploader:
    """A client on one connection, which has written a megabyte before."""

    def __init__(self, name, port):
        self.name = name
        self.channel = grpc.insecure_channel(f"127.0.0.1:{port}")
        self.write = self.channel.stream_unary(m.WRITE)
        self.upload(os.urandom(PIECE))

    def upload(self, blob):
        """Writes a blob, and gives the seconds that it took."""
        told = hashlib.sha256(blob).hexdigest()
        name = m.write_name(told[:16], told, len(blob), self.name)
        pieces = [
            m.write(name if at == 0 else "", at, blob[at : at + PIECE], at + PIECE >= len(blob))
            for at in range(0, len(blob), PIECE)
        ]
        begun = time.monotonic()
        committed = m.first(self.write(iter(pieces), timeout=600), 1, 0)
        took = time.monotonic() - begun
        if committed != len(blob):
            raise SystemExit(f"{committed} of {len(blob)} bytes were committed")
        return took


def measure(servers, options):
    """The least seconds of an upload to each server at each round trip, of rounds by turns."""
    trips = [0, *options.trips]
    uploaders = {
        (what, trip): Uploader(name, Far(port, trip / 1000).port if trip else port)
        for trip in trips
        for what, (name, port) in servers.items()
        if trip > 0 or what in ("window", "peer")
    }
    took = {place: [] for place in uploaders}
    for _ in range(options.rounds):
        for place, uploader in uploaders.items():
            # Each of the slow ones takes long enough once.
            if place[0] in ("window", "peer") or not took[place]:
                took[place].append(uploader.upload(os.urandom(options.megabytes * 10**6)))
    for uploader in uploaders.values():
        uploader.channel.close()
    return {place: min(each) for place, each in took.items()}


def compare(servers, options):
    size, failed = options.megabytes, 0
    least = measure(servers, options)
    rates = lambda trip: ", ".join(f"{what} {size / took:.1f} MB/s" for (what, at), took in least.items() if at == trip)
    print(f"ok straight: {rates(0)}", flush=True)
    for trip in options.trips:
        far = least["window", trip]
        own = least["window", 0] / (far - 2 * trip / 1000)
        beside = least["peer", trip] / far if "peer" in servers else 0
        holds = beside >= 0.8 or own >= 0.9
        failed += not holds
        peer = f"{beside:.2f} of the peer's, " if beside else ""
        print(f"{'ok' if holds else 'FAILED'} {trip:g} ms: {rates(trip)}; {peer}{own:.2f} of its own without", flush=True)
    return failed


def main():
    parser = argparse.ArgumentParser(description=__doc__, formatter_class=argparse.RawDescriptionHelpFormatter)
    parser.add_argument("program")
    parser.add_argument("--peer")
    parser.add_argument("--window", default="16M")
    parser.add_argument("--megabytes", type=int, default=64)
    parser.add_argument("--trips", type=float, nargs="+", default=[2, 10, 40])
    parser.add_argument("--rounds", type=int, default=5)
    parser.add_argument("--haproxy", action="store_true")
    options = parser.parse_args()
    proxies, folder = [], tempfile.TemporaryDirectory()
    (port,) = free_ports(1)
    peer = subprocess.Popen([options.peer, str(port)]) if options.peer else None
    try:
        with Server(options.program, [("main", 2**33)], extra=("--window", options.window)) as server:
            with Server(options.program, [("main", 2**33)]) as usual:
                servers = {"window": ("main", server.ports[0]), "usual": ("main", usual.ports[0])}
                if options.haproxy:
                    proxies = [HAProxy(folder.name, server.ports[0], windows) for windows in (True, False)]
                    servers = {"window": ("main", proxies[0].port), "HAProxy's own": ("main", proxies[1].port)}
                if peer:
                    time.sleep(1)
                    servers["peer"] = ("main", port)
                failed = compare(servers, options)
    finally:
        for each in proxies:
            each.end()
        if peer:
            peer.kill()
            peer.wait()
    raise SystemExit(1 if failed else 0)


main()
