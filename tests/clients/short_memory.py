#!/usr/bin/env python3
"""short_memory.py PROGRAM [--most N] [--refusals N]: refuses each request for memory while one team calls.

PROGRAM is the built `remoted`, which serves two teams. For each kind of call, and for N = 1, 2, .. until the call asks
for no Nth time, a client of the team red makes the call on a new connection while the server's Nth request for memory
is refused. Red is answered rightly, or its connection is closed; the server goes on; on a new connection red is
answered rightly. A client of the team blue keeps one connection all the time, and has each answer compared. At the
end so many refusals more (1,000) are made, and the server's memory is what it was, but for a few megabytes. A line for
each kind of call, with the count of requests. It ends with status 1 at the first thing that is wrong. cc is needed.
"""

import argparse
import os
import sys
import tempfile

import messages as m
from raw import Connection
from server import Server

sys.path.insert(0, os.path.join(os.path.dirname(os.path.abspath(__file__)), "../memory"))
from refusing import Refusing  # noqa: E402

ABC = b"abc"
TEXT = bytes(range(256)) * 40
ACTIONS = "/build.bazel.remote.execution.v2.ActionCache/"


def kinds():
    """For each kind of call its name, its path and the messages of a number's request.

    The right answers to the requests of an even number and of the next one are the same.
    """
    directory = b""
    result = m.field(2, m.field(1, "out") + m.field(2, m.digest(ABC)))
    asked = m.field(2, m.digest(ABC))

    def written(number):
        blob = TEXT + b"%07d" % number
        name = m.write_name(f"u{number}", m.hashlib.sha256(blob).hexdigest(), len(blob))
        return [m.write(name, 0, blob[:5000]), m.write("", 5000, blob[5000:], True)]

    name = m.read_name(m.hashlib.sha256(TEXT).hexdigest(), len(TEXT))
    return [
        ("GetCapabilities", m.CAPABILITIES, lambda n: [b""]),
        ("FindMissingBlobs", m.FIND_MISSING, lambda n: [m.find_missing("", [m.digest(ABC), m.digest(b"no")])]),
        ("BatchUpdateBlobs", m.BATCH_UPDATE, lambda n: [m.batch_update("", [b"%d" % (n // 2), ABC])]),
        ("BatchReadBlobs", m.BATCH_READ, lambda n: [m.batch_read("", [m.digest(ABC), m.digest(TEXT)])]),
        ("GetTree", m.CAS + "GetTree", lambda n: [m.field(2, m.digest(directory) or b"")]),
        ("UpdateActionResult", ACTIONS + "UpdateActionResult", lambda n: [asked + m.field(3, result)]),
        ("GetActionResult", ACTIONS + "GetActionResult", lambda n: [asked]),
        ("Read", m.READ, lambda n: [m.read(name)]),
        ("Write", m.WRITE, written),
        ("QueryWriteStatus", m.QUERY, lambda n: [m.query_write_status(m.write_name("q", "0" * 64, 5))]),
    ]


def prepare(port):
    """Stores what the calls ask for."""
    connection = Connection(port)
    connection.call(m.BATCH_UPDATE, [m.batch_update("", [ABC, TEXT])])
    connection.close()


class Blue:
    """A client of the other team, on one connection, whose answers are always the same."""

    def __init__(self, port):
        self.connection = Connection(port)
        self.wanted = self.answers()

    def answers(self):
        return [
            self.connection.call(m.FIND_MISSING, [m.find_missing("", [m.digest(ABC), m.digest(b"no")])]),
            self.connection.call(m.BATCH_READ, [m.batch_read("", [m.digest(TEXT)])]),
        ]

    def check(self, when):
        if self.answers() != self.wanted:
            raise SystemExit(f"{when}: the other team's answer differs")


class Trial:
    def __init__(self, server, refusing):
        self.server, self.refusing = server, refusing
        self.red = server.ports[0]
        for port in server.ports:
            prepare(port)
        self.blue = Blue(server.ports[1])
        self.count = 0

    def answer(self, path, messages):
        connection = Connection(self.red)
        try:
            return connection.call(path, messages)
        finally:
            connection.close()

    def refuse(self, kind, number):
        """Makes a call while the request of this number is refused. Answers whether one was, and how red fared."""
        name, path, request = kind
        self.count += 1
        when = f"{name}, request {number}"
        self.refusing.arm(number)
        try:
            answer = self.answer(path, request(2 * self.count + 1))
        except ConnectionError:
            answer = None
        refused = self.refusing.disarm()
        if not self.server.is_running():
            raise SystemExit(f"{when}: the server ended")
        wanted = self.answer(path, request(2 * self.count))
        if answer not in (None, wanted):
            raise SystemExit(f"{when}: red's answer is {answer}, and behind it {wanted}")
        self.blue.check(when)
        return refused, answer is None

    def refuse_each(self, kind, most):
        closed, number = 0, 1
        while number <= most:
            refused, is_closed = self.refuse(kind, number)
            if not refused:
                break
            closed += is_closed
            number += 1
        print(f"ok {kind[0]}: {number - 1} requests for memory, {closed} of them closed the connection", flush=True)


def main():
    parser = argparse.ArgumentParser()
    parser.add_argument("program")
    parser.add_argument("--most", type=int, default=1000, help="of each kind of call")
    parser.add_argument("--refusals", type=int, default=1000, help="behind that")
    words = parser.parse_args()
    with tempfile.TemporaryDirectory() as folder:
        refusing = Refusing(folder)
        with Server(words.program, [("red", 10**6), ("blue", 10**6)], environment=refusing.environment) as server:
            trial = Trial(server, refusing)
            for kind in kinds():
                trial.refuse_each(kind, words.most)
            before = server.resident_megabytes()
            for place in range(words.refusals):
                trial.refuse(kinds()[place % 10], place // 10 % 12 + 1)
            more = server.resident_megabytes() - before
            if more > 8:
                raise SystemExit(f"{words.refusals} refusals left {more:.1f} MB more")
            print(f"ok {words.refusals:,} refusals more left {more:.1f} MB more of {before:.1f}", flush=True)


main()
