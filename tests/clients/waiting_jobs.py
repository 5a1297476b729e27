#!/usr/bin/env python3
"""waiting_jobs.py PROGRAM [--jobs N]: what jobs that wait make the server hold.

PROGRAM is the built `remoted`. For each kind of action a server of one instance is started, with a quota of 20 MB and
one slot, which a `sleep` takes. What the actions need is stored once. Then so many actions (1,000) that differ in their
timeout alone are asked for, and wait. A line for each kind says by how much the resident memory grew over one that
waits, and how long a call to Execute took on average. It may grow by 64 MB, and by 100 where each action names 1,000
texts. Then, by another server, one waits while other blobs drive out all that it needs: it has to run with the texts
of the moment at which it was asked for. It ends with status 1 where one of that is not so.
"""

import argparse
import hashlib
import os
import time

import messages as m
from executing import COMPLETED, QUEUED, Action, Operation, Peer, command, directory
from server import Server

QUOTA = 20_000_000
WORDS = ["/bin/sh", "-c", "ls | wc -l"]


class Alike:
    """An action of a command and a root that are stored by others; only its own text is new."""

    def __init__(self, of_command, root, seconds):
        text = m.field(1, of_command) + m.field(2, root) + m.field(6, m.field(1, seconds))
        self.blobs, self.digest, self.function = [text], m.digest(text), hashlib.sha256


def long_command():
    """A Command of 4 MB, nearly all of it in a property of its platform, and an empty root."""
    blobs = []
    root = directory({}, blobs)
    platform = m.field(1, m.field(1, "property") + m.field(2, "x" * 3_900_000))
    blobs.append(command(WORDS) + m.field(5, platform))
    return blobs, m.digest(blobs[-1]), root


def long_names():
    """A Directory of 4 MB, of 1,000 files with names of 4,000 bytes, and a short command."""
    blobs = []
    root = directory({f"{number:04}" + "n" * 3_990: b"one text" for number in range(1000)}, blobs)
    blobs.append(command(WORDS))
    return blobs, m.digest(blobs[-1]), root


def many_files():
    """A Directory of 1,000 files with a text each, and a short command."""
    blobs = []
    root = directory({f"f{number:04}": b"text %d" % number for number in range(1000)}, blobs)
    blobs.append(command(WORDS))
    return blobs, m.digest(blobs[-1]), root


# What is stored, by how many megabytes memory may grow, and what the one that runs says: None where no file system takes
# such names.
KINDS = {
    "a command of 4 MB": (long_command, 64, "0"),
    "names of 4 MB": (long_names, 64, None),
    "1,000 files": (many_files, 100, "1000"),
}


def queue(peer, action):
    """Asks for an action, which has to wait."""
    number = peer.start(action)
    operation = Operation(peer.next(number))
    if operation.stage != QUEUED:
        raise SystemExit(f"an action is in stage {operation.stage}, and does not wait")
    return number


def ended(peer, number):
    """The Operation with which a call ends."""
    operations = peer.operations(number)
    if operations[-1].stage != COMPLETED:
        raise SystemExit("an action has not ended")
    return operations[-1]


def drive_out(peer):
    """Stores other blobs, up to the quota."""
    peer.store([os.urandom(1_900_000) for _ in range(11)])


def try_kind(program, name, jobs):
    make, most, wanted = KINDS[name]
    blobs, of_command, root = make()
    with Server(program, [("red", QUOTA, 1)], heard=True) as server, Peer(server.ports[0], 600) as peer:
        sleep = peer.start(Action("sleep 600", seconds=600 if jobs > 100 else 15, do_not_cache=True))
        peer.next(sleep)
        peer.store(blobs)
        queue(peer, Alike(of_command, root, 1000))
        before, started = server.resident_megabytes(), time.monotonic()
        # a connection takes 100 calls at a time
        others = []
        for number in range(1, jobs):
            if number % 90 == 1:
                others.append(Peer(server.ports[0], 600))
            queue(others[-1], Alike(of_command, root, 1000 + number))
        milliseconds = (time.monotonic() - started) * 1000 / max(jobs - 1, 1)
        grown = server.resident_megabytes() - before
        for each in others:
            each.close()
        print(f"{name}: {jobs} jobs that wait: {grown:.1f} MB more, {milliseconds:.1f} ms a call", flush=True)
    said = runs_with_its_texts(program, blobs, of_command, root)
    if said != wanted:
        print(f"{name}: the job that waited said {said!r}, not {wanted!r}")
        return False
    return grown < most


def runs_with_its_texts(program, blobs, of_command, root):
    """What a job says that waited while all that it needs was driven out."""
    with Server(program, [("red", QUOTA, 1)], heard=True) as server, Peer(server.ports[0], 600) as peer:
        first = peer.start(Action("sleep 4", seconds=60, do_not_cache=True))
        peer.next(first)
        peer.store(blobs)
        number = queue(peer, Alike(of_command, root, 1000))
        drive_out(peer)
        missing = m.every(peer.call(m.FIND_MISSING, m.find_missing("", [of_command]))[0][0], 2)
        if not missing:
            raise SystemExit("the command was not driven out")
        ended(peer, first)
        result = ended(peer, number).result
        return peer.stream_text(result.stdout).decode().strip() if result else None


def main():
    parser = argparse.ArgumentParser(description=__doc__, formatter_class=argparse.RawDescriptionHelpFormatter)
    parser.add_argument("program")
    parser.add_argument("--jobs", type=int, default=1000)
    options = parser.parse_args()
    if not all([try_kind(options.program, name, options.jobs) for name in KINDS]):
        raise SystemExit(1)


if __name__ == "__main__":
    main()
