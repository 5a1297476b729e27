#!/usr/bin/env python3
"""parents.py PROGRAM: teams build on what CI has stored, a line for each case.

PROGRAM is the built `remoted`. A server has an instance that CI fills, and two teams' that build on it, each with a
connection by plain sockets. A team finds and reads what CI has stored, and runs an action whose inputs only CI has; CI
and the other team see nothing of what a team stores; and a result of CI is no team's. It ends with status 1 at the
first answer that is not the right one.
"""

import sys

import messages as m
from executing import Action, Peer
from server import Server

UPDATE_RESULT = "/build.bazel.remote.execution.v2.ActionCache/UpdateActionResult"


def expect(condition, what):
    if not condition:
        raise SystemExit(f"not so: {what}")
    print("ok", what, flush=True)


def missing(peer, *blobs):
    """Those of these blobs that an instance does not see."""
    answers, _ = peer.call(m.FIND_MISSING, m.find_missing("", [m.digest(blob) for blob in blobs]))
    found = m.every(answers[0], 2)
    return [blob for blob in blobs if m.digest(blob) in found]


def read(peer, blob):
    answers, _ = peer.call(m.BATCH_READ, m.batch_read("", [m.digest(blob)]))
    return [m.first(each, 2) for each in m.every(answers[0], 1)]


def of_blobs(red, ci, blue):
    ci.store([b"of ci"])
    expect(missing(red, b"of ci") == missing(blue, b"of ci") == [], "both teams find what CI has stored")
    expect(read(red, b"of ci") == read(blue, b"of ci") == [b"of ci"], "both teams read it")
    expect(red.text(m.digest(b"of ci")) == b"of ci", "also by ByteStream")
    red.store([b"of red"])
    expect(missing(red, b"of red") == [], "a team finds what it has stored itself")
    expect(missing(ci, b"of red") == [b"of red"], "CI does not see it")
    expect(missing(blue, b"of red") == [b"of red"], "the other team does not see it")


def of_actions(red, ci):
    action = Action("cat input > output; cat input", tree={"input": b"an input"}, files=["output"])
    ci.store(action.blobs)
    ci.call(UPDATE_RESULT, m.field(2, action.digest) + m.field(3, m.field(4, 7)))
    expect(ci.cached(action).code == 7, "CI has a result of an action")
    expect(red.cached(action) is None, "a team has none of it")
    done = red.execute(action, is_stored=True)
    expect(not done.is_cached and done.result.code == 0, "a team runs the action, whose inputs only CI has")
    expect(red.stream_text(done.result.stdout) == b"an input", "its output is the input")
    expect(red.cached(action).code == 0 and ci.cached(action).code == 7, "each has the result of its own")
    expect(missing(ci, b"an input") == [] and missing(red, *action.blobs) == [], "the inputs are seen by both")


def main():
    if len(sys.argv) != 2:
        raise SystemExit(__doc__)
    instances = [("red", 10**6, 1, "ci"), ("ci", 10**6), ("blue", 10**6, 0, "ci")]
    with Server(sys.argv[1], instances) as server:
        red, ci, blue = [Peer(port) for port in server.ports]
        of_blobs(red, ci, blue)
        of_actions(red, ci)
        for each in (red, ci, blue):
            each.close()


main()
