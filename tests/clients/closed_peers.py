#!/usr/bin/env python3
"""closed_peers.py PROGRAM: clients that the server closes on get what they were sent last, whatever others do.

PROGRAM is the built `remoted`. A client of `blue` breaks the protocol, is told so by GOAWAY, and still sends for a
second. Nothing may reset its connection meanwhile: it is tried alone, and beside 400 connections of `red` on which the
server closed, and whose clients stay. A line for each; it ends with status 1 where one is wrong.
"""

import argparse
import socket
import time

from raw import PREFACE, connect, frame
from server import Server

OTHERS = 400
# A window of no size for all streams, of which HTTP/2 says that it is a connection error.
BROKEN = PREFACE + frame(4, 0, 0) + frame(8, 0, 0, bytes(4))


def is_told(opened):
    """Whether the connection's last frame is GOAWAY, and nothing comes after it."""
    got = b""
    while True:
        more = opened.recv(65536)
        if not more:
            break
        got += more
    last = b""
    while got:
        size = 9 + int.from_bytes(got[:3], "big")
        last, got = got[:size], got[size:]
    return len(last) > 9 and last[3] == 7


def stays(port):
    """Why a connection that the server closed was lost within a second; None where it was not."""
    opened = connect(port)
    try:
        opened.sendall(BROKEN)
        if not is_told(opened):
            return "no GOAWAY came last"
        for _ in range(20):
            opened.sendall(bytes(1000))
            time.sleep(0.05)
        return None
    except ConnectionError as error:
        return str(error)
    finally:
        opened.close()


def closed_on(port, count):
    """Connections on which the server closed, in groups that an instance takes at a time."""
    held = []
    while len(held) < count:
        group = [connect(port) for _ in range(min(40, count - len(held)))]
        for opened in group:
            opened.sendall(BROKEN)
        for opened in group:
            if not is_told(opened):
                raise SystemExit("red: no GOAWAY came last")
        held += group
    return held


def main():
    parser = argparse.ArgumentParser()
    parser.add_argument("program")
    words = parser.parse_args()
    with Server(words.program, [("red", 10**8), ("blue", 10**8)]) as server:
        red, blue = server.ports
        lost = stays(blue)
        if lost:
            raise SystemExit(f"alone: {lost}")
        print("ok alone", flush=True)
        begun = time.monotonic()
        held = closed_on(red, OTHERS)
        taken = time.monotonic() - begun
        lost = stays(blue)
        for opened in held:
            opened.setsockopt(socket.SOL_SOCKET, socket.SO_LINGER, bytes(8))
            opened.close()
        if lost:
            raise SystemExit(f"beside {OTHERS} of red, which took {taken:.1f} s: {lost}")
        print(f"ok beside {OTHERS} of red, which took {taken:.1f} s", flush=True)


main()
