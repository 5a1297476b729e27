#!/usr/bin/env python3
"""sleeping_programs.py PROGRAM: programs that only sleep slow nothing of another team.

PROGRAM is the built `remoted`. Four teams run 64 programs each that sleep, as many as they may. Another team has one
caller of small calls, then one upload, then one Read: of what it has without those programs it keeps nine tenths of its
calls, and 95 of 100 of the bytes. With them an idle server takes at most 3 of 100 parts of a processor. Beside 1,024
that sleep `/bin/true` takes at most a fifth longer than alone. Two lines for each number of programs say what was found,
and it ends with status 1 where a limit is passed. The least of some rounds counts. The load is a program in C (load.c),
which `cc` makes.
"""

import os
import signal
import sys
import tempfile
import time

import messages as m
from executing import EXECUTE, Action, Peer
from server import Server
from shared_time import Load, rate, store

SLOTS = 64
ROUNDS = 3
SECONDS = str(1000 + os.getpid() / 10**7)


class Sleepers:
    """Programs that sleep, of as many teams as they take."""

    def __init__(self, ports, count):
        self.seconds = f"{SECONDS}{count:04}"
        self.peers = [Peer(port) for port in ports[: count // SLOTS]]
        for number in range(count):
            peer, action = self.peers[number // SLOTS], Action(["/bin/sleep", f"{self.seconds}{number:04}"])
            peer.store(action.blobs)
            peer.begin(EXECUTE, m.field(6, action.digest))
        for _ in range(1200):
            if len(self.processes()) == count:
                return
            time.sleep(0.1)
        raise SystemExit(f"FAULT only {len(self.processes())} of {count} programs have begun within two minutes")

    def processes(self):
        """The numbers of those that sleep."""
        found = []
        for process in filter(str.isdigit, os.listdir("/proc")):
            try:
                with open(f"/proc/{process}/cmdline", "rb") as file:
                    if file.read().startswith(b"/bin/sleep\0" + self.seconds.encode()):
                        found.append(int(process))
            except OSError:
                pass
        return found

    def end(self):
        for process in self.processes():
            os.kill(process, signal.SIGKILL)


def shares(load, server, port):
    """What one team has of calls a second, of bytes that it writes and of bytes that it reads, at its best."""
    blob = store(port, os.urandom(1 << 20))
    kinds = (("call", ()), ("write", ()), ("read", (1, blob)))
    return {kind: max(rate(load.run(port, "quiet", 2, kind, *more)) for _ in range(ROUNDS)) for kind, more in kinds}


def milliseconds_of_true(port):
    """How long half of some actions take at most that do nothing."""
    waits = []
    with Peer(port) as peer:
        for number in range(100):
            action = Action(["/bin/true", f"{time.monotonic()}{number}"], do_not_cache=True)
            begun = time.perf_counter()
            done = peer.execute(action)
            waits.append(time.perf_counter() - begun)
            if not done.result or done.result.code:
                raise SystemExit(f"FAULT an action failed: {done.status}")
    return 1000 * sorted(waits)[len(waits) // 2]


def idle_part(server, seconds=4):
    """Which part of a processor the server takes while nobody asks it anything."""
    before = server.cpu_seconds()
    time.sleep(seconds)
    return (server.cpu_seconds() - before) / seconds


def try_with(program, load, count, try_it):
    """Tries it alone and beside so many programs that sleep. Whether it holds."""
    teams = [(f"busy{number}", 10**7, SLOTS) for number in range(count // SLOTS)]
    with Server(program, [*teams, ("quiet", 4 * 10**9, 16)], 2**62) as server:
        return try_it(load, server, lambda: Sleepers(server.ports, count), count)


def try_calls(load, server, begin, count):
    port = server.ports[-1]
    alone = shares(load, server, port)
    without = idle_part(server)
    sleepers = begin()
    beside, part = shares(load, server, port), idle_part(server)
    sleepers.end()
    kept = {kind: beside[kind] / alone[kind] for kind in alone}
    holds = kept["call"] >= 0.9 and min(kept["write"], kept["read"]) >= 0.95 and part <= without + 0.03
    words = ", ".join(f"{kind} keeps {part:.2f}" for kind, part in kept.items())
    print(f"{'ok' if holds else 'FAULT'} beside {count} that sleep: {words}; idle {100 * part:.1f} % of a processor", flush=True)
    return holds


def try_true(load, server, begin, count):
    port = server.ports[-1]
    alone = milliseconds_of_true(port)
    sleepers = begin()
    beside = min(milliseconds_of_true(port) for _ in range(ROUNDS))
    sleepers.end()
    holds = beside <= 1.2 * alone
    print(f"{'ok' if holds else 'FAULT'} /bin/true takes {alone:.2f} ms alone, {beside:.2f} beside {count} that sleep", flush=True)
    return holds


def main():
    program = sys.argv[1]
    with tempfile.TemporaryDirectory() as folder:
        load = Load(folder)
        holds = [try_with(program, load, 256, try_calls), try_with(program, load, 1024, try_true)]
    if not all(holds):
        raise SystemExit("FAULT programs that sleep slow another team")


if __name__ == "__main__":
    main()
