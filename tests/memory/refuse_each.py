#!/usr/bin/env python3
"""refuse_each.py PROGRAM [--in-a-row N] [--from N] [--step N]: refuses each request for memory in turn.

PROGRAM is the built `acceptance`. It runs its stored cases of the kind `memory` with the Nth request refused, for
N = 1, 2, .. until none is left to refuse. Each instance has to give what it gives alone, unless one of its own events
was refused for want of memory, and what the server has stored at the end has to be what its instances are found to
have. A run may also end with status 5: where the program itself was refused memory, for the new server, for the
record of the run or for the comparison. A line tells how many requests there are and how the runs ended. It ends with
status 1 at the first run that is wrong.
"""

import argparse
import collections
import os
import re
import subprocess
import tempfile

from refusing import Refusing

STDIN = os.path.join(os.path.dirname(os.path.abspath(__file__)), "../../crates/acceptance/stdin")


def cases():
    with open(STDIN, "rb") as file:
        parts = re.split(rb"(?m)^(?=# )", file.read())
    return b"".join(part for part in parts if part.startswith(b"# memory "))


def is_right(lines):
    """Whether each line of a run that met no want of memory of its own is as it may be."""
    words = collections.Counter(line.split()[-1] for line in lines if line and not line.startswith("#"))
    is_whole = words["short"] > 0 or "as a run that ends then" in lines
    return is_whole and words["WRONG"] == 0 and words["alone"] + words["short"] == 3 and words["found"] == 1


def run(program, script, refusing, number, in_a_row):
    """How a run ends of which the request of this number is refused, and how many were refused."""
    refusing.arm(number, in_a_row)
    environment = {**os.environ, **refusing.environment}
    ended = subprocess.run([program], input=script, capture_output=True, env=environment, timeout=120)
    refused = refusing.disarm()
    lines = ended.stdout.decode().split("\n")
    if ended.returncode == 5:
        return "ended with 5", refused
    if ended.returncode or not is_right(lines):
        raise SystemExit(f"request {number}: status {ended.returncode}\n{ended.stdout.decode()}")
    short = sum(line.endswith(": short") for line in lines)
    return "with one instance short" if short == 1 else f"with {short} short" if short else "all alone", refused


def main():
    parser = argparse.ArgumentParser()
    parser.add_argument("program")
    parser.add_argument("--in-a-row", type=int, default=1)
    parser.add_argument("--from", type=int, default=1, dest="first")
    parser.add_argument("--step", type=int, default=1)
    words = parser.parse_args()
    script, number, counts = cases(), words.first, collections.Counter()
    with tempfile.TemporaryDirectory() as folder:
        refusing = Refusing(folder)
        while True:
            how, refused = run(words.program, script, refusing, number, words.in_a_row)
            if not refused:
                break
            counts[how] += 1
            number += words.step
    told = ", ".join(f"{count:,} {how}" for how, count in sorted(counts.items()))
    print(f"ok {number - 1:,} requests for memory, {sum(counts.values()):,} runs with refusals: {told}")


main()
