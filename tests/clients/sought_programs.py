#!/usr/bin/env python3
"""sought_programs.py PROGRAM [--only NAME..]: programs that are long looked for, or only sleep, hold up no other team.

PROGRAM is the built `remoted`, which starts programs as they are. One team has actions of one kind; another team runs
`/bin/true` again and again, and makes small calls. Kinds:

    long        programs that are looked for along a `PATH` of 65,000 folders which are not there: 1, 4 and 64 at a time
    links       .. of 1,600 folders, to each of which the way goes through 39 links of 2,000 steps: 4 at a time
    dear        64 programs that sleep, while the other team asks eight times for a tree of 10,000 files

`/bin/true` takes at most 250 ms each time, and a small call 100. Eight dear calls take at most twice what they take
alone, and 100 ms. A line for each says what was found, and it ends with status 1 where that does not hold.
"""

import argparse
import sys
import threading
import time

import messages as m
from executing import EXECUTE, Action, Link, Operation, Peer
from server import Server
from shared_time import TREE, large_tree

MOST_TRUE, MOST_CALL = 250, 100


class Calls(threading.Thread):
    """Small calls of a team, one after another, until it is ended."""

    def __init__(self, port):
        super().__init__(daemon=True)
        self.port, self.is_over, self.longest = port, False, 0.0
        self.start()

    def run(self):
        with Peer(self.port) as peer:
            while not self.is_over:
                begun = time.monotonic()
                peer.call(m.FIND_MISSING, m.find_missing("", [m.digest(b"absent")]))
                self.longest = max(self.longest, time.monotonic() - begun)
                time.sleep(0.002)

    def end(self):
        self.is_over = True
        self.join(10)
        return 1000 * self.longest


def milliseconds_of_true(port, seconds):
    """How long each of some actions took that do nothing."""
    waits, until = [], time.monotonic() + seconds
    with Peer(port) as peer:
        while time.monotonic() < until or len(waits) < 10:
            begun = time.monotonic()
            done = peer.execute(Action(["/bin/true", str(begun)], do_not_cache=True))
            waits.append(1000 * (time.monotonic() - begun))
            if not done.result or done.result.code:
                raise SystemExit(f"FAULT an action failed: {done.status.text}")
    return sorted(waits)


def sought(kind):
    """An action whose program is nowhere along its `PATH`."""
    name = [f"nothing{time.monotonic()}"]
    if kind == "long":
        return Action(name, variables=[("PATH", "a:" * 65_000)])
    return Action(name, {"l": Link("./" * 2_000)}, variables=[("PATH", ("l/" * 39 + ":") * 1_600)])


class Sought(threading.Thread):
    """Actions of a team whose programs are looked for, some at a time, until it is ended."""

    def __init__(self, port, kind, count):
        super().__init__(daemon=True)
        self.port, self.kind, self.count, self.is_over, self.ended, self.fault = port, kind, count, False, 0, None
        self.start()

    def begin(self, peer):
        action = sought(self.kind)
        peer.store(action.blobs)
        return peer.begin(EXECUTE, m.field(6, action.digest))

    def run(self):
        try:
            self.search()
        except ConnectionError as error:
            if not self.is_over:
                self.fault = error

    def search(self):
        with Peer(self.port, 600) as peer:
            calls = [self.begin(peer) for _ in range(self.count)]
            while not self.is_over:
                peer.read()
                for call in [each for each in calls if peer.calls[each].status is not None]:
                    found = Operation(peer.end(call)[0][-1])
                    if found.status.text != "run failed":
                        self.fault = found.status.text or found.result
                    self.ended += 1
                    calls.remove(call)
                    calls.append(self.begin(peer))


def try_sought(program, kind, count):
    with Server(program, [("red", 10**9, 64), ("blue", 10**8, 4)], heard=True) as server:
        red, blue = server.ports
        alone = milliseconds_of_true(blue, 1)
        searches = Sought(red, kind, count)
        time.sleep(0.5)
        before, calls = searches.ended, Calls(blue)
        beside = milliseconds_of_true(blue, 4)
        longest, ended = calls.end(), searches.ended - before
        searches.is_over = True
        if searches.fault:
            raise SystemExit(f"FAULT a search came to {searches.fault}")
    holds = beside[-1] <= MOST_TRUE and longest <= MOST_CALL
    middle = lambda waits: waits[len(waits) // 2]
    print(
        f"{'ok' if holds else 'FAULT'} {kind}, {count} at a time: /bin/true takes {middle(beside):.0f} ms, {beside[-1]:.0f} at most"
        f" ({middle(alone):.0f} alone); a call waited {longest:.0f} ms at most; {ended} searches ended meanwhile",
        flush=True,
    )
    return holds


def seconds_of_trees(port, digest):
    begun = time.monotonic()
    with Peer(port) as peer:
        for _ in range(8):
            if peer.call(TREE, m.field(2, digest))[1][0]:
                raise SystemExit("FAULT a tree is refused")
    return time.monotonic() - begun


def try_dear(program):
    with Server(program, [("red", 10**8, 64), ("blue", 10**9, 4)], heard=True) as server:
        red, blue = server.ports
        digest = large_tree(blue)
        alone = min(seconds_of_trees(blue, digest) for _ in range(3))
        with Peer(red) as peer:
            for number in range(64):
                action = Action(["/bin/sleep", f"60.{number:04}"], seconds=20)
                peer.store(action.blobs)
                peer.begin(EXECUTE, m.field(6, action.digest))
            time.sleep(2)
            beside = min(seconds_of_trees(blue, digest) for _ in range(3))
    holds = beside <= 2 * alone + 0.1
    print(f"{'ok' if holds else 'FAULT'} dear: eight trees take {1000 * beside:.0f} ms, {1000 * alone:.0f} alone", flush=True)
    return holds


def main():
    parser = argparse.ArgumentParser(description=__doc__, formatter_class=argparse.RawDescriptionHelpFormatter)
    parser.add_argument("program")
    parser.add_argument("--only", nargs="*", default=["long", "links", "dear"])
    given = parser.parse_args()
    holds = []
    if "long" in given.only:
        holds += [try_sought(given.program, "long", count) for count in (1, 4, 64)]
    if "links" in given.only:
        holds.append(try_sought(given.program, "links", 4))
    if "dear" in given.only:
        holds.append(try_dear(given.program))
    sys.exit(0 if all(holds) else 1)


if __name__ == "__main__":
    main()
