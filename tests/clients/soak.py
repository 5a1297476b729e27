#!/usr/bin/env python3
"""soak.py PROGRAM [--seconds N] [--seed N]: clients that come, cut and reset, beside clients that call.

PROGRAM is the built `remoted`. Three parts, a line each:
1. for N seconds (600) 64 connections of one instance are opened, fed with pieces of requests, cut and reset at random,
   while callers of another instance have each answer compared with the right one;
2. 1,000 connections are opened one after another, and none of the server's sockets stays open;
3. ten seconds without a caller take less than 2 % of a processor.
It ends with status 1 at the first thing that is wrong. Run it by /usr/bin/python3 (Debian: python3-grpcio).
"""

import argparse
import random
import socket
import struct
import threading
import time

import grpc

import messages as m
from server import Server

PREFACE = b"PRI * HTTP/2.0\r\n\r\nSM\r\n\r\n"
SETTINGS = bytes(3) + b"\x04" + bytes(5)


def frame(kind, flags, stream, payload):
    return len(payload).to_bytes(3, "big") + bytes([kind, flags]) + stream.to_bytes(4, "big") + payload


def some_bytes(dice):
    """What a client sends: a good beginning, then frames of any kind, or noise."""
    sent = PREFACE + SETTINGS
    for _ in range(dice.randrange(6)):
        payload = dice.randbytes(dice.randrange(200))
        sent += frame(dice.randrange(12), dice.randrange(256), dice.randrange(9), payload)
    return sent if dice.random() < 0.8 else dice.randbytes(300)


def connect(port):
    opened = socket.create_connection(("127.0.0.1", port), timeout=10)
    opened.setblocking(False)
    return opened


def reset(opened):
    opened.setsockopt(socket.SOL_SOCKET, socket.SO_LINGER, struct.pack("ii", 1, 0))
    opened.close()


def disturb(port, dice, is_over, problems):
    """Keeps 64 connections, of which one at a time goes on, is cut or is reset."""
    places = [None] * 64
    while not is_over.is_set():
        place = dice.randrange(64)
        opened = places[place]
        try:
            if opened is None:
                places[place] = connect(port)
            elif dice.random() < 0.3:
                places[place] = None
                reset(opened) if dice.random() < 0.5 else opened.close()
            else:
                text = some_bytes(dice)
                opened.send(text[: dice.randrange(1, len(text))])
                if dice.random() < 0.5:
                    opened.recv(65536)
        except (BlockingIOError, ConnectionError):
            pass
        except OSError as error:
            problems.append(f"a connection cannot be opened: {error}")
            return
        time.sleep(0.001)
    for opened in places:
        if opened is not None:
            opened.close()


def call(port, seed, is_over, problems, counts):
    """Stores, reads and looks for blobs of its own, and compares each answer."""
    dice = random.Random(seed)
    with grpc.insecure_channel(f"127.0.0.1:{port}") as channel:
        method = lambda path: channel.unary_unary(path)
        store, read, find = method(m.BATCH_UPDATE), method(m.BATCH_READ), method(m.FIND_MISSING)
        try:
            while not is_over.is_set():
                blob, other = dice.randbytes(dice.randrange(1, 20000)), dice.randbytes(40)
                store(m.batch_update("calm", [blob]), timeout=30)
                answer = read(m.batch_read("calm", [m.digest(blob)]), timeout=30)
                missing = find(m.find_missing("calm", [m.digest(blob), m.digest(other)]), timeout=30)
                if [m.first(one, 2) for one in m.every(answer, 1)] != [blob]:
                    problems.append("a blob that is read is another")
                if m.every(missing, 2) != [m.digest(other)]:
                    problems.append("a blob that is missing is not found missing")
                counts[seed] += 3
        except grpc.RpcError as error:
            problems.append(f"a call failed: {error.code()} {error.details()}")


def disturbed(server, seconds, seed):
    wild, calm = server.ports
    is_over, problems, counts = threading.Event(), [], [0] * 4
    threads = [threading.Thread(target=call, args=(calm, each, is_over, problems, counts)) for each in range(4)]
    threads.append(threading.Thread(target=disturb, args=(wild, random.Random(seed), is_over, problems)))
    for thread in threads:
        thread.start()
    end = time.monotonic() + seconds
    while time.monotonic() < end and not problems and server.is_running():
        time.sleep(0.2)
    is_over.set()
    for thread in threads:
        thread.join()
    if problems or not server.is_running():
        raise SystemExit("; ".join(problems) or "the server ended")
    print(f"ok {sum(counts):,} calls beside 64 disturbed connections, each answer right", flush=True)


def let_go(server):
    time.sleep(3)
    before = server.open_sockets()
    for _ in range(1000):
        connect(server.ports[0]).close()
    time.sleep(3)
    after = server.open_sockets()
    if after != before:
        raise SystemExit(f"{after - before} sockets stayed open")
    print(f"ok 1,000 connections one after another, {after} sockets before and after", flush=True)


def idle(server):
    before = server.cpu_seconds()
    time.sleep(10)
    share = (server.cpu_seconds() - before) * 10
    if share >= 2:
        raise SystemExit(f"idle, the server takes {share:.1f} % of a processor")
    print(f"ok idle, the server takes {share:.1f} % of a processor", flush=True)


def main():
    parser = argparse.ArgumentParser()
    parser.add_argument("program")
    parser.add_argument("--seconds", type=float, default=600)
    parser.add_argument("--seed", type=int, default=1)
    words = parser.parse_args()
    with Server(words.program, [("wild", 10**6), ("calm", 10**8)]) as server:
        disturbed(server, words.seconds, words.seed)
        let_go(server)
        idle(server)


main()
