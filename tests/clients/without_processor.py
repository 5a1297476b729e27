#!/usr/bin/env python3
"""without_processor.py PROGRAM [--stopped N] [--only NAME..]: a server that has no processor for a while charges nobody.

PROGRAM is the built `remoted`. `pulses`: red makes small calls, 100 at a time on one connection, and blue one after
another. For three seconds the server is stopped every 5 ms, for 5 ms. Behind that red's calls may take a fifth more
processor time than those of green, which made none meanwhile: they would be read frame by frame, if red were held to be
dear. On a crowded host green is, too, where that is charged. `absence`: red has as many connections open as it may. The
server is stopped for N seconds (90). Meanwhile bytes are sent on each, and more clients come. None of the connections
may be closed. A line for each; it ends with status 1 where one is wrong.
"""

import argparse
import signal
import sys
import threading
import time

from raw import PREFACE, WINDOWS, Connection, block, connect, frame
from server import Server

CAPABILITIES = "/build.bazel.remote.execution.v2.Capabilities/GetCapabilities"
MOST_CONNECTIONS = 64
STREAMS = 100
PULSE = 0.005
PING, ACKNOWLEDGED = 6, 1


class Pile:
    """A connection on which as many small calls are made at once as it may have."""

    def __init__(self, port):
        self.socket, self.stream = connect(port), 1
        self.socket.sendall(PREFACE + WINDOWS)

    def turn(self):
        """Makes the calls, and waits until all have ended."""
        text = b""
        for _ in range(STREAMS):
            text += frame(1, 4, self.stream, block(CAPABILITIES)) + frame(0, 1, self.stream, bytes(5))
            self.stream += 2
        self.socket.sendall(text)
        got, ended = b"", 0
        while ended < STREAMS:
            more = self.socket.recv(1 << 20)
            if not more:
                raise SystemExit("red's connection was closed")
            got += more
            at = 0
            while len(got) - at >= 9 and len(got) - at >= 9 + int.from_bytes(got[at : at + 3], "big"):
                ended += got[at + 3] == 1 and got[at + 4] & 1
                at += 9 + int.from_bytes(got[at : at + 3], "big")
            got = got[at:]


def calls_for(pile, seconds):
    """How many calls were made in so many seconds."""
    calls, end = 0, time.monotonic() + seconds
    while time.monotonic() < end:
        pile.turn()
        calls += STREAMS
    return calls


def costs(server, piles):
    """The microseconds of the server's processor time for each call on each of these, by turns."""
    seconds, calls = [0.0] * len(piles), [0] * len(piles)
    for _ in range(4):
        for place, each in enumerate(piles):
            begun = server.cpu_seconds()
            calls[place] += calls_for(each, 1)
            seconds[place] += server.cpu_seconds() - begun
    return [taken * 1e6 / count for taken, count in zip(seconds, calls)]


def pulse(server, ended):
    """Stops the server by turns, until that is ended."""
    while not ended.is_set():
        server.process.send_signal(signal.SIGSTOP)
        time.sleep(PULSE)
        server.process.send_signal(signal.SIGCONT)
        time.sleep(PULSE)


def call_on(port, ended):
    """Small calls one after another."""
    caller = Connection(port)
    while not ended.is_set():
        caller.call(CAPABILITIES, [b""])
        time.sleep(0.001)
    caller.close()


def in_threads(work, jobs):
    """Does the work beside those jobs, each of which is told when it is over."""
    ended = threading.Event()
    threads = [threading.Thread(target=job, args=(*words, ended)) for job, *words in jobs]
    for each in threads:
        each.start()
    try:
        return work()
    finally:
        ended.set()
        for each in threads:
            each.join()


def pulses(program, _stopped):
    """Whether red's calls are as cheap behind stops as those of green, which made none."""
    with Server(program, [("red", 10**8), ("blue", 10**8), ("green", 10**8)]) as server:
        red, blue, green = server.ports
        piles = [Pile(red), Pile(green)]
        in_threads(lambda: calls_for(piles[0], 3), [(pulse, server), (call_on, blue)])
        behind, other = costs(server, piles)
    is_well = behind <= 1.2 * other
    told = f"a call takes {other:.1f} us of a processor, and {behind:.1f} behind stops"
    print(f"{'ok' if is_well else 'FAULT'} pulses: {told}", flush=True)
    return is_well


def is_answered(opened):
    """Whether the PING on a connection is acknowledged before it ends."""
    got = b""
    try:
        while True:
            more = opened.recv(65536)
            if not more:
                return False
            got += more
            while len(got) >= 9 and len(got) >= 9 + int.from_bytes(got[:3], "big"):
                if got[3] == PING and got[4] & ACKNOWLEDGED:
                    return True
                got = got[9 + int.from_bytes(got[:3], "big") :]
    except ConnectionError:
        return False


def absence(program, stopped):
    """Whether all connections are there behind a long stop on which something was sent meanwhile."""
    with Server(program, [("red", 10**8)]) as server:
        (red,) = server.ports
        held = [connect(red) for _ in range(MOST_CONNECTIONS)]
        for opened in held:
            opened.sendall(PREFACE + WINDOWS)
        time.sleep(1)
        server.process.send_signal(signal.SIGSTOP)
        more = [connect(red) for _ in range(8)]
        time.sleep(stopped)
        for opened in held:
            opened.sendall(frame(PING, 0, 0, bytes(8)))
        server.process.send_signal(signal.SIGCONT)
        lost = sum(not is_answered(opened) for opened in held)
        for opened in more + held:
            opened.close()
    print(f"{'FAULT' if lost else 'ok'} absence: of {MOST_CONNECTIONS} connections {lost} were closed", flush=True)
    return lost == 0


def main():
    tried = {"pulses": pulses, "absence": absence}
    parser = argparse.ArgumentParser()
    parser.add_argument("program")
    parser.add_argument("--stopped", type=int, default=90)
    parser.add_argument("--only", nargs="*", choices=tried, default=list(tried))
    words = parser.parse_args()
    found = [tried[name](words.program, words.stopped) for name in words.only]
    sys.exit(0 if all(found) else 1)


if __name__ == "__main__":
    main()
