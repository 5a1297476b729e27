#!/usr/bin/env python3
"""equal_texts.py PROGRAM [--looks N]: nobody sees by the time of a call which texts other teams have.

PROGRAM is the built `remoted`. Equal texts of all teams are kept once. One team stores texts; another one uploads the
same, or others of the same length, and times the last, empty message of each upload: what it takes to compare a text
with one that is there must also be taken where none is. It learns from 120 uploads of which it knows what they are
where the time lies that parts them best, and says then of 120 others which the first team has. Of texts of 1 MB, and of
those of 4 MB, it is right about less than 65 of 100. A line for each says about how many, and it ends with status 1
where it is right more often. The second team is the first
one's sibling, and then its parent.
"""

import argparse
import hashlib
import os
import random
import sys
import time

import messages as m
from executing import Call, Peer
from raw import block, frame
from server import Server

SIZES = (10**6, 4 * 10**6)
MOST_RIGHT = 0.65


class Guesser(Peer):
    """A team that uploads a text, and sees how long its last message takes."""

    def _send(self, message, is_last=False):
        sent = b"\0" + len(message).to_bytes(4, "big") + message
        frames = [frame(0, is_last and at + 16384 >= len(sent), self.stream, sent[at : at + 16384]) for at in range(0, len(sent), 16384)]
        self.socket.sendall(b"".join(frames))

    def last_message(self, text):
        """How many seconds the last message of its upload takes."""
        name = m.write_name(os.urandom(8).hex(), hashlib.sha256(text).hexdigest(), len(text))
        number = self.begin_open(m.WRITE)
        for at in range(0, len(text), 10**6):
            self._send(m.write(name, at, text[at : at + 10**6]))
        while m.first(self.call(m.QUERY, m.query_write_status(name))[0][0], 1, 0) < len(text):
            pass
        message = m.write(name, len(text), b"", True)
        last = frame(0, 1, number, b"\0" + len(message).to_bytes(4, "big") + message)
        time.sleep(0.002)
        begun = time.perf_counter()
        self.socket.sendall(last)
        status = self.end(number)[1]
        took = time.perf_counter() - begun
        if status[0]:
            raise SystemExit(f"FAULT an upload is refused: {status}")
        return took

    def begin_open(self, path):
        """Begins a call whose messages are still to come."""
        self.stream += 2
        self.calls[self.stream] = Call()
        self.socket.sendall(frame(1, 4, self.stream, block(path)))
        return self.stream


def looks(keeper, guesser, size, count):
    """Pairs of whether the first team had a text, and how long the last message of the second's took."""
    found = []
    is_there = [place % 2 == 0 for place in range(count)]
    random.shuffle(is_there)
    for each in is_there:
        text, other = os.urandom(size), os.urandom(size)
        keeper.store([text if each else other])
        found.append((each, guesser.last_message(text)))
    return found


def best_limit(found):
    """The time that parts those that were there best from the others, and whether these take longer."""
    def right(limit, longer):
        return sum((took > limit) == (is_there == longer) for is_there, took in found)

    return max(((limit, longer) for _, limit in found for longer in (True, False)), key=lambda each: right(*each))


def part_right(keeper, guesser, size, count):
    limit, longer = best_limit(looks(keeper, guesser, size, count))
    tried = looks(keeper, guesser, size, count)
    return sum((took > limit) == (is_there == longer) for is_there, took in tried) / count


def main():
    parser = argparse.ArgumentParser(description=__doc__, formatter_class=argparse.RawDescriptionHelpFormatter)
    parser.add_argument("program")
    parser.add_argument("--looks", type=int, default=120)
    given = parser.parse_args()
    has_fault = False
    teams = [("parent", 4 * 10**9), ("keeper", 4 * 10**9, 0, "parent"), ("guesser", 4 * 10**9, 0, "parent")]
    pairs = {"a sibling's": (1, 2), "a child's": (1, 0)}
    with Server(given.program, teams, 2**62) as server:
        for words, (first, second) in pairs.items():
            for size in SIZES:
                with Peer(server.ports[first], 60) as keeper, Guesser(server.ports[second], 60) as guesser:
                    part = part_right(keeper, guesser, size, given.looks)
                is_fault = part >= MOST_RIGHT
                has_fault = has_fault or is_fault
                print(f"{'FAULT' if is_fault else 'ok'} {words} texts of {size // 10**6} MB: right about {100 * part:.0f} of 100", flush=True)
    if has_fault:
        sys.exit("FAULT by time it is seen which texts others have")


if __name__ == "__main__":
    main()
