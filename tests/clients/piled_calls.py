#!/usr/bin/env python3
"""piled_calls.py PROGRAM [--megabytes N] [--slow FACTOR]: what many dear calls at once cost another team.

PROGRAM is the built `remoted`. Red stores a blob of N million bytes (10), of which GetTree has to read all before it
is refused. It sends many such calls at once: 64 on one connection, 4 on each of 16, and one on each of 60. Then it
sends 51 on a connection but for the last byte of each, is quiet for so long that the server knows it for long pieces
no more, and ends them all by 510 bytes. Meanwhile blue makes calls of GetCapabilities one after another. The longest
of those may take as long as six of red's calls, and half a second. A line for each says what was found; it ends with
status 1 where a limit is passed or an answer is not the right one.
"""

import argparse
import multiprocessing
import time

import messages as m
from costly_calls import Team, time_calls
from raw import PREFACE, WINDOWS, block, connect, frame
from server import Server

# How many connections, and how many calls on each.
PILES = [(1, 64), (16, 4), (60, 1)]

# How many calls are ended by one packet, and for how many seconds red is quiet before that.
PRIMED = 51
QUIET = 62


class Pile:
    """A connection on which calls are sent at once."""

    def __init__(self, port, count):
        self.socket, self.count = connect(port), count
        self.socket.settimeout(600)
        self.socket.sendall(PREFACE + WINDOWS)

    def send(self, path, message):
        framed = b"\0" + len(message).to_bytes(4, "big") + message
        one = lambda stream: frame(1, 4, stream, block(path)) + frame(0, 1, stream, framed)
        self.socket.sendall(b"".join(one(2 * number + 1) for number in range(self.count)))

    def prime(self, path, message):
        """Sends the calls but for the last byte of each."""
        framed = b"\0" + len(message).to_bytes(4, "big") + message
        one = lambda stream: frame(1, 4, stream, block(path)) + frame(0, 0, stream, framed[:-1])
        self.socket.sendall(b"".join(one(2 * number + 1) for number in range(self.count)))

    def end(self, message):
        """Sends the last byte of each."""
        one = lambda stream: frame(0, 1, stream, message[-1:])
        self.socket.sendall(b"".join(one(2 * number + 1) for number in range(self.count)))

    def ended(self):
        """How many calls ended, each by headers that end its stream, until all did."""
        got, ended = b"", 0
        while ended < self.count:
            more = self.socket.recv(65536)
            if not more:
                raise SystemExit(f"red's connection was closed after {ended} calls")
            got += more
            while len(got) >= 9 and len(got) >= 9 + int.from_bytes(got[:3], "big"):
                size = 9 + int.from_bytes(got[:3], "big")
                if got[3] == 7:
                    raise SystemExit("red got GOAWAY")
                ended += got[3] == 1 and got[4] & 1
                got = got[size:]
        return ended


def pile(port, connections, calls, request):
    """Seconds until all calls were answered."""
    # Connections of before are closed by then.
    time.sleep(3)
    piles = [Pile(port, calls) for _ in range(connections)]
    time.sleep(0.5)
    begun = time.perf_counter()
    for each in piles:
        each.send(m.CAS + "GetTree", request)
    for each in piles:
        each.ended()
    taken = time.perf_counter() - begun
    for each in piles:
        each.socket.close()
    return taken


def primed(port, calls, request):
    """Seconds until all calls were answered that one packet ended."""
    time.sleep(3)
    one = Pile(port, calls)
    one.prime(m.CAS + "GetTree", request)
    time.sleep(QUIET)
    begun = time.perf_counter()
    one.end(request)
    one.ended()
    taken = time.perf_counter() - begun
    one.socket.close()
    return taken


def beside(ports, attack, *words):
    """Seconds until all calls were answered, and the longest that one of blue's took meanwhile."""
    ready, stop, longest = multiprocessing.Event(), multiprocessing.Event(), multiprocessing.Value("d", 0.0)
    blue = multiprocessing.Process(target=time_calls, args=(ports[1], ready, stop, longest))
    blue.start()
    ready.wait()
    taken = attack(ports[0], *words)
    stop.set()
    blue.join()
    return taken, longest.value


def main():
    parser = argparse.ArgumentParser()
    parser.add_argument("program")
    parser.add_argument("--megabytes", type=int, default=10)
    parser.add_argument("--slow", type=float, default=1)
    words = parser.parse_args()
    root = b"\x78\0" * (words.megabytes * 500_000) + b"\x07"
    with Server(words.program, [("red", 10**9), ("blue", 10**8)]) as server:
        team = Team(server.ports[0])
        team.store(root)
        request = m.field(2, m.digest(root))
        begun = time.perf_counter()
        if team.stream(m.CAS + "GetTree", request) != ("INVALID_ARGUMENT", b""):
            raise SystemExit("GetTree was not refused")
        one = time.perf_counter() - begun
        limit = words.slow * (6 * one + 0.5)
        attacks = [(f"{each[0]} x {each[1]} calls", pile, *each) for each in PILES]
        attacks.append((f"{PRIMED} calls ended by a packet", primed, PRIMED))
        for name, attack, *counts in attacks:
            taken, longest = beside(server.ports, attack, *counts, request)
            told = f"{name} in {taken:.1f} s, one in {one:.2f} s"
            print(f"{'ok' if longest <= limit else 'FAULT'} {told}: blue waits {longest:.2f} s at most", flush=True)
            if longest > limit:
                raise SystemExit(1)


if __name__ == "__main__":
    main()
