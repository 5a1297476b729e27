#!/usr/bin/env python3
"""watchers.py PROGRAM: what many calls cost that watch one action.

PROGRAM is the built `remoted`. A team has an action run whose Operation has a megabyte, since it has 9,000 outputs. Over
60 connections 1,980 calls watch it, and the clients take nothing: each is owed the Operation when it ends. Then as
many more ask for it once it has ended. Beside them another team calls all the time. The memory of the server may grow
by 64 MB, and the other team waits for 250 ms at most, or for as long as beside the action with one watcher, and 50 ms.
A client of each connection then takes what it is owed, which has to be the one Operation. It ends with status 1 where
one of that is not so.
"""

import argparse
import time

import messages as m
from executing import COMPLETED, Action, Operation, Peer
from hostile_watching import Team
from server import Server

OUTPUTS, CONNECTIONS, CALLS = 9_000, 60, 33
MAKES = "sleep 5; i=10000; while [ $i -lt 19000 ]; do echo $i > out/file-of-a-longer-name-$i; i=$((i+1)); done"


class Quick(Team):
    """Another team, whose calls follow each other at once."""

    def waited(self):
        """How long the longest wait was since the last question, in milliseconds."""
        longest, self.longest = self.longest, 0.0
        return 1000 * longest


def action(number):
    paths = [f"out/file-of-a-longer-name-{each}" for each in range(10_000, 10_000 + OUTPUTS)]
    return Action(f"{MAKES} # {number}", paths=paths, do_not_cache=True)


def started(peer, number):
    """The name of an Operation that runs, and the call that began it."""
    call = peer.start(action(number))
    return Operation(peer.next(call)).name, call


def watch(port, name):
    """Connections on which calls watch an Operation, and take no more than their first messages bring."""
    peers = [Peer(port) for _ in range(CONNECTIONS)]
    return [(peer, [peer.wait(name) for _ in range(CALLS)]) for peer in peers]


def last_of(peer, call):
    operations = peer.operations(call)
    if operations[-1].stage != COMPLETED:
        raise SystemExit("a watcher is not told the end")
    return operations[-1].bytes


def measure(server, blue, what, call, watchers, first):
    """Waits for the end, and says by how much memory grew, and how long blue waited."""
    before = server.resident_megabytes()
    blue.waited()
    bytes_told = last_of(first, call)
    time.sleep(1)
    grown, waited = server.resident_megabytes() - before, blue.waited()
    told = [last_of(peer, calls[0]) for peer, calls in watchers]
    is_one = all(each == bytes_told for each in told)
    for peer, _ in watchers:
        peer.close()
    print(f"{what}: an Operation of {len(bytes_told):,} bytes, {grown:.1f} MB more, blue waited {waited:.0f} ms", flush=True)
    return grown, waited, is_one


def main():
    parser = argparse.ArgumentParser(description=__doc__, formatter_class=argparse.RawDescriptionHelpFormatter)
    parser.add_argument("program")
    given = parser.parse_args()
    with Server(given.program, [("red", 10**9, 2), ("blue", 10**9)], heard=True) as server:
        port = server.ports[0]
        with Quick(server.ports[1], "blue") as blue, Peer(port) as first:
            _, call = started(first, 1)
            alone = measure(server, blue, "one watcher", call, [], first)
            name, call = started(first, 2)
            beside = measure(server, blue, "many watchers", call, watch(port, name), first)
            before = server.resident_megabytes()
            blue.waited()
            late = watch(port, name)
            time.sleep(2)
            grown, waited = server.resident_megabytes() - before, blue.waited()
            print(f"many that ask for it when it has ended: {grown:.1f} MB more, blue waited {waited:.0f} ms")
    most = max(250, alone[1] + 50)
    is_well = beside[2] and max(beside[0], grown) <= 64 and max(beside[1], waited) <= most
    print("ok" if is_well else f"FAULT: at most 64 MB and {most:.0f} ms")
    raise SystemExit(0 if is_well else 1)


if __name__ == "__main__":
    main()
