#!/usr/bin/env python3
"""digests_that_collide.py PROGRAM [--only NAME ..]: what digests that are chosen to fall together cost another team.

PROGRAM is the built `remoted`. A hash that multiplies by the last eight bytes of a digest, xored with a constant, comes
to 0 where these are the constant. Then all digests that end so stand in one place of a map, and each is looked for
among all. For each kind of call a server of two instances is started, and what the call names is stored in the one.
Then the call is made once. It names many such digests, of blobs that nobody has. A client of the other instance makes
calls meanwhile, and may wait 250 ms; the limit of memory is that of `costly_calls.py`. It ends with status 1 where a
limit is passed or an answer is not the right one. Debian: python3-grpcio; run it by /usr/bin/python3.
"""

import argparse

import messages as m
from costly_calls import ACTION, ACTIONS, brought, expect, try_kind
from executing import EXECUTE, Operation, command

CONSTANT = 0x9E3779B97F4A7C15
PRECONDITION = 9


def absent(count):
    """Digests of blobs that nobody has, which end in the constant."""
    end = CONSTANT.to_bytes(8, "little")
    return [m.field(1, (number.to_bytes(24, "big") + end).hex()) + m.field(2, 9) for number in range(count)]


# ---- kinds of calls, as those of costly_calls.py


def answered(call, wanted):
    """The same call, whose answer has to be this one."""

    def checked():
        status, answer = call()
        expect(answer == wanted, True, "whether the answer is right")
        return status, answer

    return checked


def result_of_absent_trees(count):
    def ready(team):
        result = b"".join(m.field(3, m.field(3, digest)) for digest in absent(count))
        team.store_result(result)
        return lambda: team.unary(ACTIONS + "GetActionResult", m.field(2, ACTION)), len(result), "NOT_FOUND"

    return ready


def tree_of_absent_directories(count):
    def ready(team):
        named = enumerate(absent(count))
        root = b"".join(m.field(2, m.field(1, f"d{number:05}") + m.field(2, digest)) for number, digest in named)
        team.store(root)
        call = lambda: team.stream(m.CAS + "GetTree", m.field(2, m.digest(root)))
        return answered(call, m.field(1, root)), len(root), "OK"

    return ready


def action_of_absent_files(count):
    def ready(team):
        named = enumerate(absent(count))
        root = b"".join(m.field(1, m.field(1, f"f{number:05}") + m.field(2, digest)) for number, digest in named)
        words = command(["/bin/true"])
        action = m.field(1, m.digest(words)) + m.field(2, m.digest(root))
        for blob in (root, words, action):
            team.store(blob)

        def call():
            status, answer = team.stream(EXECUTE, m.field(6, m.digest(action)))
            told = Operation(answer).status
            expect((told.code, len(told.missing)), (PRECONDITION, count), "the code, and how many blobs are missing")
            return status, answer

        return call, len(root), "OK"

    return ready


def finding_of_absent(count):
    digests = b"".join(m.field(2, digest) for digest in absent(count))

    def ready(team):
        call, named, status = brought(m.FIND_MISSING, digests, "OK")(team)
        return answered(call, digests), named, status

    return ready


KINDS = {
    "result-of-absent-trees": lambda: result_of_absent_trees(58_000),
    "tree-of-absent-directories": lambda: tree_of_absent_directories(20_000),
    "action-of-absent-files": lambda: action_of_absent_files(9_990),
    "finding-of-absent-blobs": lambda: finding_of_absent(57_000),
}


def main():
    parser = argparse.ArgumentParser(description=__doc__, formatter_class=argparse.RawDescriptionHelpFormatter)
    parser.add_argument("program")
    parser.add_argument("--only", nargs="+", choices=KINDS, default=list(KINDS), metavar="NAME")
    words = parser.parse_args()
    if not all([try_kind(words.program, name, KINDS[name](), slots=1) for name in words.only]):
        raise SystemExit(1)


if __name__ == "__main__":
    main()
