#!/usr/bin/env python3
"""broken_peers.py PROGRAM [--calls N] [--silent] [--halves | --idle]: a caller beside 62 broken peers of the same instance.

PROGRAM is the built `remoted`. The caller makes N calls (2,000) of FindMissingBlobs one after another, alone and then
beside 62 peers of each of these kinds in turn:
  drip    a byte of a call each 50 milliseconds
  full    Reads of a blob of a million bytes, of which nothing is ever taken
  endless a request without an end, of which a frame comes each 50 milliseconds
The 99th percentile of its times has to stay below four times what it is alone. With --silent there are 64 peers in
the end that say nothing at all, and a caller has to be let in after 60 seconds, or a few more. With --halves there are
four other instances instead, of each of which a program sleeps, and over 60 connections 6,000 calls wait of which five bytes
came: a minute later the caller's 99th percentile stays below four times what it is beside the programs alone. With --idle
there are 255 other instances with 4 connections each on which nothing moves, and then 128 with 62: a call takes no more of
the server's processor time than 1.7 times what it takes without them, and a tenth of the time that it takes by the clock.
A line for each kind; it ends with status 1 where one is wrong.
"""

import argparse
import hashlib
import multiprocessing
import resource
import time

import messages as m
from executing import Action, Peer
from raw import PREFACE, WINDOWS, Connection, block, connect, frame
from server import Server

PEERS = 62
BLOB = bytes(1000) * 1000
IDLE = [(255, 4), (128, 62)]


def dripped(place):
    """A call, byte by byte."""
    message = m.find_missing("", [m.digest(b"%d" % place)])
    framed = b"\0" + len(message).to_bytes(4, "big") + message
    for byte in PREFACE + frame(4, 0, 0) + frame(1, 4, 1, block(m.FIND_MISSING)) + frame(0, 1, 1, framed):
        yield bytes([byte])


def full(_place):
    """A Read whose answer is not taken."""
    message = m.read(m.read_name(hashlib.sha256(BLOB).hexdigest(), len(BLOB)))
    framed = b"\0" + len(message).to_bytes(4, "big") + message
    yield PREFACE + WINDOWS
    yield b"".join(frame(1, 4, 2 * n + 1, block(m.READ)) + frame(0, 1, 2 * n + 1, framed) for n in range(90))


def endless(_place):
    """A Write whose message never comes to its end."""
    yield PREFACE + frame(4, 0, 0) + frame(1, 4, 1, block(m.WRITE)) + frame(0, 0, 1, b"\0\0\x3f\xff\xff")
    while True:
        yield frame(0, 0, 1, bytes(100))


def go_on(port, what):
    """Peers of one kind, which go on until their process is ended."""
    peers = [(connect(port), what(place)) for place in range(PEERS)]
    while True:
        for opened, source in peers:
            opened.sendall(next(source, b""))
        time.sleep(0.05)


def percentile(port, calls):
    """The 99th percentile of the times of so many calls, in milliseconds."""
    request, wanted, times = m.find_missing("", [m.digest(b"not there")]), None, []
    connection = Connection(port)
    for _ in range(calls):
        begun = time.perf_counter()
        answer = connection.call(m.FIND_MISSING, [request])
        times.append(time.perf_counter() - begun)
        wanted = wanted or answer
        if answer != wanted:
            raise SystemExit(f"an answer differs: {answer}")
    connection.close()
    return sorted(times)[len(times) * 99 // 100] * 1000


def beside(port, name, what, calls, alone):
    peers = multiprocessing.Process(target=go_on, args=(port, what))
    peers.start()
    time.sleep(1)
    found = percentile(port, calls)
    has_ended = not peers.is_alive()
    peers.terminate()
    peers.join()
    if has_ended:
        raise SystemExit(f"{name}: the peers ended before")
    print(f"ok {name}: the 99th percentile is {found:.2f} ms, {alone:.2f} alone", flush=True)
    time.sleep(1)
    if found >= 4 * alone:
        raise SystemExit(f"{name}: that is {found / alone:.1f} times as long")


def let_in(port):
    """How many seconds it takes until a caller is answered beside 64 peers that say nothing."""
    silent = [connect(port) for _ in range(64)]
    begun = time.monotonic()
    while time.monotonic() - begun < 75:
        try:
            connection = Connection(port)
            connection.call(m.CAPABILITIES, [b""])
            connection.close()
            print(f"ok beside 64 silent peers a caller is let in after {time.monotonic() - begun:.0f} s", flush=True)
            for opened in silent:
                opened.close()
            return
        except ConnectionError:
            time.sleep(0.5)
    raise SystemExit("64 silent peers let nobody in for 75 seconds")


def half_calls(port):
    """Connections on which 100 calls wait, of whose messages five bytes came."""
    opened = [connect(port) for _ in range(60)]
    streams = range(1, 201, 2)
    halves = b"".join(frame(1, 4, each, block(m.FIND_MISSING)) + frame(0, 0, each, b"\0\0\0\1\0") for each in streams)
    for each in opened:
        each.sendall(PREFACE + WINDOWS + halves)
    return opened


def beside_halves(program, calls):
    teams = [(f"team{number}", 10**8, 1) for number in range(4)]
    with Server(program, [*teams, ("main", 10**8)]) as server:
        for number, port in enumerate(server.ports[:4]):
            with Peer(port) as peer:
                peer.next(peer.start(Action(["/bin/sleep", f"100.{number}"], seconds=100)))
        alone = min(percentile(server.ports[-1], calls) for _ in range(3))
        opened = [each for port in server.ports[:4] for each in half_calls(port)]
        # An instance is known for long pieces for a minute.
        time.sleep(62)
        found = min(percentile(server.ports[-1], calls) for _ in range(3))
        for each in opened:
            each.close()
    print(f"ok halves: the 99th percentile is {found:.2f} ms, {alone:.2f} beside the programs alone", flush=True)
    if found >= 4 * alone:
        raise SystemExit(f"halves: that is {found / alone:.1f} times as long")


def microseconds(server, connection, calls=100):
    """How long a call takes by the clock, and the server's processor time of it."""
    request, begun, used = m.find_missing("", [m.digest(b"not there")]), time.perf_counter(), server.cpu_seconds()
    for _ in range(calls):
        connection.call(m.FIND_MISSING, [request])
    return [seconds / calls * 1e6 for seconds in (time.perf_counter() - begun, server.cpu_seconds() - used)]


def idle_connections(server, each):
    """So many connections of each instance but the last, which all have been let in."""
    opened = []
    for _ in range(each):
        opened += [connect(port) for port in server.ports[:-1]]
        time.sleep(0.004)
    for one in opened:
        one.sendall(PREFACE + WINDOWS)
    end = time.monotonic() + 60
    while server.open_sockets() < len(opened) + len(server.ports):
        if time.monotonic() > end:
            raise SystemExit(f"idle: the server has {server.open_sockets()} sockets")
        time.sleep(0.2)
    return opened


def beside_idle(program, teams, each):
    """A caller beside so many instances with idle connections, and by turns one of a server without them."""
    others = [(f"team{number}", 10**6) for number in range(teams)]
    with Server(program, [("main", 10**8)]) as alone, Server(program, [*others, ("main", 10**8)]) as beside:
        servers = [(server, Connection(server.ports[-1])) for server in (alone, beside)]
        opened = idle_connections(beside, each)
        rounds = [[microseconds(*server) for server in servers] for _ in range(20)]
        for one in opened:
            one.close()
    usual = min(used for (_, used), _ in rounds)
    # That in which least else went on.
    clock, used = min(found for _, found in rounds)
    is_well = used <= 1.7 * usual + 0.1 * clock
    told = f"a call takes {used:.0f} us of the server's in {clock:.0f}, {usual:.0f} without them"
    print(f"{'ok' if is_well else 'FAULT'} {teams} instances of {each} idle connections: {told}", flush=True)
    return is_well


def main():
    parser = argparse.ArgumentParser()
    parser.add_argument("program")
    parser.add_argument("--calls", type=int, default=2000)
    parser.add_argument("--silent", action="store_true")
    parser.add_argument("--halves", action="store_true")
    parser.add_argument("--idle", action="store_true")
    words = parser.parse_args()
    if words.halves:
        beside_halves(words.program, words.calls)
        return
    if words.idle:
        most = resource.getrlimit(resource.RLIMIT_NOFILE)[1]
        resource.setrlimit(resource.RLIMIT_NOFILE, (most, most))
        if not all([beside_idle(words.program, *kind) for kind in IDLE]):
            raise SystemExit(1)
        return
    with Server(words.program, [("main", 10**8)]) as server:
        port = server.ports[0]
        connection = Connection(port)
        connection.call(m.BATCH_UPDATE, [m.batch_update("", [BLOB])])
        connection.close()
        percentile(port, words.calls)
        alone = percentile(port, words.calls)
        for name, what in [("drip", dripped), ("full", full), ("endless", endless)]:
            beside(port, name, what, words.calls, alone)
        if words.silent:
            let_in(port)


main()
