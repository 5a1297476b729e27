#!/usr/bin/env python3
"""told_peers.py PROGRAM: no byte is stuck where the server learns what came only once.

PROGRAM is the built `remoted`. The system tells the server once that something came on a connection, and again only
after a read found nothing. So here is what might be lost between the two, each on a server at which nothing else comes:
  drip     a call byte by byte, at pauses up to 120 milliseconds, is answered within 30 behind its last byte
  burst    3,000,000 bytes at once, of which the server reads a part in each turn
  halves   a client that sends no more behind its call, or without one
  resets   connections that are reset, before a call and in the middle of one, leave no socket behind
  slow     a client that takes nothing for a second takes all of 3,000,000 bytes then, while others are answered
  crowd    64 connections at one time
  refused  connections that the server has no descriptor for are answered when others are closed
  untold   where epoll can watch no more than some clients, as when a program of the server's user has used that up, 62
           clients of each of five teams are answered within 250 milliseconds, and so is a sixth team's
A line for each; it ends with status 1 where one is wrong.
"""

import errno
import hashlib
import platform
import random
import resource
import socket
import struct
import sys
import time

import messages as m
from filters import ALLOW, ERRNO, put_in_place
from raw import PREFACE, WINDOWS, Connection, block, connect, frame
from server import Server

BLOB = random.Random(7).randbytes(3_000_000)
HELLO = PREFACE + WINDOWS
MOST_WAIT = 0.25

# From which descriptor on epoll says that it can watch no more, and the number of its call on some processors. These are
# the steps of a filter: its number, what it is to do (to add one), and with which descriptor.
FIRST_UNWATCHED = 48
EPOLL_CTL = {"x86_64": 233, "aarch64": 21}
STEPS = [(0x20, 0, 0, 0), (0x15, 0, 5, EPOLL_CTL.get(platform.machine(), 0))]
STEPS += [(0x20, 0, 0, 24), (0x15, 0, 3, 1), (0x20, 0, 0, 32), (0x35, 0, 1, FIRST_UNWATCHED)]
STEPS += [(0x06, 0, 0, ERRNO | errno.ENOSPC), (0x06, 0, 0, ALLOW)]


def asked(path, message, stream=1):
    framed = b"\0" + len(message).to_bytes(4, "big") + message
    return frame(1, 4, stream, block(path)) + frame(0, 1, stream, framed)


FIND = asked(m.FIND_MISSING, m.find_missing("", [m.digest(b"not there")]))
READ = asked(m.READ, m.read(m.read_name(hashlib.sha256(BLOB).hexdigest(), len(BLOB))), 3)


def expect(is_so, what):
    if not is_so:
        raise SystemExit(f"FAULT {what}")


def payloads(peer, stream=1):
    """The payloads of DATA until the stream ends."""
    got, data = b"", []
    while True:
        more = peer.recv(1 << 20)
        expect(more, f"closed before the answer ended, behind {sum(map(len, data)):,} bytes")
        got += more
        while len(got) >= 9 and len(got) >= 9 + int.from_bytes(got[:3], "big"):
            size, kind, flags, number = int.from_bytes(got[:3], "big"), got[3], got[4], int.from_bytes(got[5:9], "big")
            if kind == 0:
                data.append(got[9 : 9 + size])
            got = got[9 + size :]
            if number == stream and kind in (0, 1) and flags & 1:
                return b"".join(data)


def ends(peer):
    """Whether the server sends no more within some seconds."""
    peer.settimeout(5)
    try:
        while peer.recv(65536):
            pass
        return True
    except TimeoutError:
        return False


def drip(server):
    late, pauses = 0.0, [0, 0.0005, 0.002, 0.03, 0.06, 0.12]
    for place in range(6):
        peer, chance = connect(server.ports[0]), random.Random(place)
        peer.setsockopt(socket.IPPROTO_TCP, socket.TCP_NODELAY, 1)
        peer.sendall(HELLO)
        for byte in FIND:
            time.sleep(pauses[place] * chance.random())
            peer.sendall(bytes([byte]))
        begun = time.monotonic()
        expect(payloads(peer), "drip: no answer")
        late = max(late, time.monotonic() - begun)
        peer.close()
    expect(late < 0.03, f"drip: answered after {late:.3f} s")
    return f"answered {late * 1000:.1f} ms behind the last byte at most"


def burst(server):
    peer = Connection(server.ports[0])
    begun = time.monotonic()
    answer = peer.call(m.BATCH_UPDATE, [m.batch_update("", [BLOB])])
    peer.close()
    expect(len(answer) >= 2, "burst: no answer")
    return f"{len(BLOB):,} bytes are taken in {time.monotonic() - begun:.2f} s"


def halves(server):
    for sent in [HELLO + FIND, HELLO, b"", HELLO + FIND[:-1]]:
        peer = connect(server.ports[0])
        peer.sendall(sent)
        peer.shutdown(socket.SHUT_WR)
        if sent.endswith(FIND):
            expect(payloads(peer), "halves: no answer to what was sent before the end")
        expect(ends(peer), f"halves: not closed behind {len(sent)} bytes")
        peer.close()
    return "what came before the end is answered, and the end is heard"


def resets(server):
    before = server.open_sockets()
    for place in range(60):
        peer = connect(server.ports[0])
        peer.setsockopt(socket.SOL_SOCKET, socket.SO_LINGER, struct.pack("ii", 1, 0))
        peer.sendall([b"", HELLO, HELLO + FIND[:-1], HELLO + FIND + READ][place % 4])
        time.sleep([0, 0.005, 0.06][place % 3])
        peer.close()
    begun = time.monotonic()
    while server.open_sockets() > before and time.monotonic() - begun < 5:
        time.sleep(0.01)
    expect(server.open_sockets() <= before, f"resets: {server.open_sockets() - before} sockets are left")
    return "no socket is left"


def slow(server):
    peer, other = connect(server.ports[0]), Connection(server.ports[1])
    peer.setsockopt(socket.SOL_SOCKET, socket.SO_RCVBUF, 4096)
    peer.sendall(HELLO + READ)
    begun, calls = time.monotonic(), 0
    while time.monotonic() - begun < 1:
        other.call(m.FIND_MISSING, [m.find_missing("", [m.digest(b"")])])
        time.sleep(0.01)
        calls += 1
    other.close()
    expect(calls > 20, f"slow: only {calls} calls of another")
    expect(BLOB[-1000:] in payloads(peer, 3), "slow: not all was sent")
    peer.close()
    return f"{calls} calls of another meanwhile, and then all was sent"


def crowd(server):
    begun = time.monotonic()
    peers = [connect(server.ports[0]) for _ in range(64)]
    for peer in peers:
        peer.sendall(HELLO + FIND)
    for peer in peers:
        expect(payloads(peer), "crowd: no answer")
    taken = time.monotonic() - begun
    for peer in peers:
        peer.close()
    return f"64 are answered in {taken:.2f} s"


def refused(server):
    pid, few = server.process.pid, server.descriptors() + 2
    usual = resource.prlimit(pid, resource.RLIMIT_NOFILE)
    resource.prlimit(pid, resource.RLIMIT_NOFILE, (few, usual[1]))
    peers = [connect(server.ports[0]) for _ in range(6)]
    for peer in peers:
        peer.sendall(HELLO + FIND)
    used = server.cpu_seconds()
    time.sleep(0.5)
    used = server.cpu_seconds() - used
    for peer in peers:
        expect(payloads(peer), "refused: no answer")
        peer.close()
    resource.prlimit(pid, resource.RLIMIT_NOFILE, usual)
    return f"each was answered; {used * 200:.0f} % of a processor while they waited"


def untold(program):
    if platform.machine() not in EPOLL_CTL:
        return "not tried on this processor"
    filtered = lambda: put_in_place(b"".join(struct.pack("=HBBI", *step) for step in STEPS))
    teams = [(f"team{number}", 10**6) for number in range(6)]
    with Server(program, teams, preexec_fn=filtered) as server:
        # The last team has one client, which comes when all others are there.
        peers = [Connection(port) for port in server.ports[:-1] for _ in range(62)] + [Connection(server.ports[-1])]
        time.sleep(1)
        longest = 0.0
        for place, peer in enumerate(peers * 2):
            peer.socket.settimeout(5)
            begun = time.monotonic()
            try:
                peer.call(m.CAPABILITIES, [b""])
            except TimeoutError:
                raise SystemExit(f"FAULT untold: client {place} is not answered") from None
            longest = max(longest, time.monotonic() - begun)
        for peer in peers:
            peer.close()
    expect(longest < MOST_WAIT, f"untold: a client waited for {longest:.3f} s")
    return f"{len(peers)} clients are answered within {longest * 1000:.0f} ms"


def main():
    with Server(sys.argv[1], [("main", 10**8), ("other", 10**8)]) as server:
        for part in [burst, drip, halves, resets, slow, crowd, refused]:
            time.sleep(2.5)
            print(f"ok {part.__name__}: {part(server)}", flush=True)
    print(f"ok untold: {untold(sys.argv[1])}", flush=True)


if __name__ == "__main__":
    main()
