#!/usr/bin/env python3
"""Writes a file for `remoted replay`: one client whose actions are executed.

    execution_events.py KIND COUNT > FILE

The client stores an action, its command and its tree, and then makes COUNT calls, of which it takes every answer whole:

    result     GetActionResult of a result that names an output file and standard output
    cached     Execute of that action, which the result answers
    result10   GetActionResult of a result that names ten output files
    cached10   Execute of that action
    failed     Execute, which starts at once, and then its program cannot be run: QUEUED, EXECUTING, COMPLETED
    exited     the same, and its program ends with code 0 and leaves nothing
    outputs    the same, and it leaves ten output files of 16 bytes each, which are new
    large      the same with files of 1,000 bytes, most of whose time is that replay reads hexadecimal digits
    waiting    Execute of an action that waits for a slot: QUEUED alone, on connections of 100 calls each
    tree       as failed, with an input tree of 10,000 files
    read       as many bytes as a call has, in a frame that is passed over

The lengths of the answers are computed here, by the rules of docs/PROTOCOL.md.
"""

import os
import sys

sys.path.insert(0, os.path.join(os.path.dirname(os.path.abspath(__file__)), "..", "tests", "clients"))

import messages as m  # noqa: E402
from executing import COMPLETED, EXECUTE, EXECUTING, GET_RESULT, QUEUED, Action  # noqa: E402
from raw import PREFACE, WINDOWS, block, frame  # noqa: E402

METADATA = "type.googleapis.com/build.bazel.remote.execution.v2.ExecuteOperationMetadata"
RESPONSE = "type.googleapis.com/build.bazel.remote.execution.v2.ExecuteResponse"
UPDATE_RESULT = "/build.bazel.remote.execution.v2.ActionCache/UpdateActionResult"
SLOTS, WAITING, STREAMS = 64, 1000, 100
FAILED = m.field(3, m.field(1, 13) + m.field(2, "run failed"))


class Client:
    """A connection, and how many bytes answer what it sends."""

    def __init__(self, out, number):
        self.out, self.number, self.stream, self.is_first = out, number, -1, True
        out.write(f"open 1 0 {number}\ntook 1 0 {number} 15\n")
        self.send(PREFACE + WINDOWS, 9)

    def send(self, sent, answered):
        self.out.write(f"bytes 1 0 {self.number} {sent.hex()}\n")
        self.took(answered)

    def took(self, count):
        self.out.write(f"took 1 0 {self.number} {count}\n" if count else "")

    def head(self):
        """The length of the first block of an answer."""
        self.is_first, size = False, 30 if self.is_first else 29
        return size

    def call(self, path, message, replies, is_ended=True):
        self.stream += 2
        framed = b"\0" + len(message).to_bytes(4, "big") + message
        sent = bytearray(frame(1, 4, self.stream, block(path)))
        pieces = [framed[at : at + 16384] for at in range(0, len(framed), 16384)]
        for place, piece in enumerate(pieces):
            sent += frame(0, place + 1 == len(pieces), self.stream, piece)
        self.send(bytes(sent), 26 * len(pieces) - 13 + self.head() + of_messages(replies) + (24 if is_ended else 0))


def of_messages(replies):
    return sum(5 + len(each) + 9 * -(-(5 + len(each)) // 16384) for each in replies)


def operation(number, stage, digest, response=None):
    metadata = m.field(1, METADATA) + m.field(2, m.field(1, stage) + m.field(2, digest))
    done = b"" if response is None else m.field(3, 1) + m.field(5, m.field(1, RESPONSE) + m.field(2, response))
    return m.field(1, f"operations/{number}") + m.field(2, metadata) + done


def store(client, texts):
    size, batch = 0, []
    for each in [*texts, None]:
        # as many as have an answer that waits whole for the client
        if each is None or size + len(each) > 1_000_000 or len(batch) == 600:
            answers = b"".join(m.field(1, m.field(1, m.digest(text)) + m.field(2, b"")) for text in batch)
            client.call(m.BATCH_UPDATE, m.batch_update("", batch), [answers])
            size, batch = 0, []
        if each is not None:
            batch.append(each)
            size += len(each) + 100


def result_of(count):
    """A result that names so many output files, and the files' texts."""
    texts = [b"output %d" % number for number in range(count)]
    files = b"".join(m.field(2, m.field(1, f"out{n}") + m.field(2, m.digest(text))) for n, text in enumerate(texts))
    return files + m.field(6, m.digest(texts[0])), texts


def results(client, count, is_executed, outputs):
    """Calls that are answered by a stored result."""
    action = Action(["/bin/true"])
    result, texts = result_of(outputs)
    store(client, [*action.blobs, *texts])
    client.call(UPDATE_RESULT, m.field(2, action.digest) + m.field(3, result), [result])
    for number in range(1, count + 1):
        if is_executed:
            answer = operation(number, COMPLETED, action.digest, m.field(1, result) + m.field(2, 1))
            client.call(EXECUTE, m.field(6, action.digest), [answer])
        else:
            client.call(GET_RESULT, m.field(2, action.digest), [result])


def ended(kind, job):
    """The line of a job's end, without its beginning, and the response that it leads to."""
    if kind in ("failed", "tree"):
        return None, FAILED
    size = {"outputs": 16, "large": 1000}.get(kind)
    texts = [(b"%d %d " % (job, place)).ljust(size, b"x") for place in range(10)] if size else []
    files = b"".join(m.field(2, m.field(1, f"out{n}") + m.field(2, m.digest(text))) for n, text in enumerate(texts))
    words = "".join(f" out{n}={text.hex()}" for n, text in enumerate(texts))
    return f"0 - -{words}", m.field(1, files)


def executions(client, count, kind):
    """Calls to execute that start at once, and end."""
    tree = {f"f{number:05}": b"%d" % number for number in range(10_000)} if kind == "tree" else {}
    action = Action(["/bin/true"], tree, do_not_cache=True, files=[f"out{n}" for n in range(10)])
    store(client, action.blobs)
    for job in range(1, count + 1):
        begun = [operation(job, stage, action.digest) for stage in (QUEUED, EXECUTING)]
        client.call(EXECUTE, m.field(6, action.digest), begun, False)
        line, response = ended(kind, job)
        client.out.write(f"fail 1 0 {job}\n" if line is None else f"exit 1 0 {job} {line}\n")
        client.took(of_messages([operation(job, COMPLETED, action.digest, response)]) + 24)


def waiting(out, client, count):
    """Calls to execute that wait: all slots are taken before."""
    action = Action(["/bin/true"], do_not_cache=True)
    store(client, action.blobs)
    if count > WAITING:
        raise SystemExit(f"at most {WAITING} jobs wait")
    for job in range(1, SLOTS + count + 1):
        if job % STREAMS == 1:
            client = Client(out, job)
        stages = (QUEUED, EXECUTING) if job <= SLOTS else (QUEUED,)
        begun = [operation(job, stage, action.digest) for stage in stages]
        client.call(EXECUTE, m.field(6, action.digest), begun, False)


def write(out, kind, count):
    out.write(f"instance main 1099511627776 {SLOTS}\n")
    client = Client(out, 0)
    if kind in ("result", "cached", "result10", "cached10"):
        results(client, count, kind.startswith("cached"), 10 if kind.endswith("10") else 1)
    elif kind in ("failed", "exited", "outputs", "large", "tree"):
        executions(client, count, kind)
    elif kind == "waiting":
        waiting(out, client, count)
    elif kind == "read":
        action = Action(["/bin/true"])
        sent = frame(1, 4, 1, block(EXECUTE)) + frame(0, 1, 1, bytes(5) + m.field(6, action.digest))
        for _ in range(count):
            client.send(frame(200, 0, 0, bytes(len(sent) - 9)), 0)
    else:
        raise SystemExit(__doc__)


if __name__ == "__main__":
    if len(sys.argv) != 3:
        raise SystemExit(__doc__)
    write(sys.stdout, sys.argv[1], int(sys.argv[2]))
