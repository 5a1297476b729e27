"""Actions for the scripts that have them executed: messages, input trees, and a connection of many calls at a time."""

import hashlib
import os
import socket

import messages as m
from raw import PREFACE, WINDOWS, block, frame

EXECUTION = "/build.bazel.remote.execution.v2.Execution/"
EXECUTE = EXECUTION + "Execute"
WAIT = EXECUTION + "WaitExecution"
GET_RESULT = "/build.bazel.remote.execution.v2.ActionCache/GetActionResult"
QUEUED, EXECUTING, COMPLETED = 2, 3, 4
PATH = ("PATH", "/usr/bin:/bin")


class Executable(bytes):
    """The content of a file that may be run."""


class Link(str):
    """The target of a symbolic link."""


class Stored(bytes):
    """The digest of a directory, all texts of which are stored before."""


def directory(tree, blobs, function=hashlib.sha256):
    """The digest of a mapping of names to contents, links and further mappings; all texts are added to the blobs."""
    files, folders, links = b"", b"", b""
    for name in sorted(tree, key=str.encode):
        inner, named = tree[name], m.field(1, name)
        if isinstance(inner, (dict, Stored)):
            digest = inner if isinstance(inner, Stored) else directory(inner, blobs, function)
            folders += m.field(2, named + m.field(2, digest))
        elif isinstance(inner, Link):
            links += m.field(3, named + m.field(2, inner))
        else:
            blobs.append(bytes(inner))
            digest = m.digest(inner, function)
            files += m.field(1, named + m.field(2, digest) + m.field(4, int(isinstance(inner, Executable))))
    blobs.append(files + folders + links)
    return m.digest(blobs[-1], function)


def command(words, variables=(PATH,), files=(), directories=(), paths=(), folder=""):
    named = lambda number, texts: b"".join(m.field(number, text) for text in texts)
    given = b"".join(m.field(2, m.field(1, name) + m.field(2, value)) for name, value in variables)
    listed = named(3, files) + named(4, directories)
    return named(1, words) + given + listed + (m.field(6, folder) if folder else b"") + named(7, paths)


class Action:
    """An action: its digest, and the texts that have to be stored before, all named by one function."""

    def __init__(self, words, tree=None, seconds=0, nanos=0, do_not_cache=False, function=hashlib.sha256, **more):
        if isinstance(words, str):
            words = ["/bin/sh", "-c", words]
        self.blobs, self.function = [], function
        root = directory(tree or {}, self.blobs, function)
        self.blobs.append(command(words, **more))
        message = m.field(1, m.digest(self.blobs[-1], function)) + m.field(2, root)
        if seconds or nanos:
            message += m.field(6, m.field(1, seconds) + m.field(2, nanos))
        self.blobs.append(message + m.field(7, int(do_not_cache)))
        self.digest = m.digest(self.blobs[-1], function)


class Operation:
    """What an Operation says: its name, its stage, and once it is done the response's status, result and origin."""

    def __init__(self, message):
        self.bytes = message
        self.name = m.first(message, 1).decode()
        self.stage = m.first(m.first(m.first(message, 2), 2), 1, 0)
        self.is_done = bool(m.first(message, 3, 0))
        response = m.first(m.first(message, 5), 2)
        self.status = Status(m.first(response, 3))
        self.is_cached = bool(m.first(response, 2, 0))
        self.result = Result(m.first(response, 1)) if m.every(response, 1) else None


class Status:
    def __init__(self, message):
        self.code = m.first(message, 1, 0)
        self.text = m.first(message, 2).decode()
        details = m.every(message, 3)
        self.missing = [m.first(each, 2).decode() for each in m.every(m.first(details[0], 2), 1)] if details else []


class Result:
    """An ActionResult: the exit code, files as (digest, whether they may be run), trees and streams as digests."""

    def __init__(self, message):
        code = m.first(message, 4, 0)
        self.code = code - 2**64 if code >= 2**63 else code
        place = lambda each: m.first(each, 1).decode()
        self.files = {place(each): (m.first(each, 2), bool(m.first(each, 4, 0))) for each in m.every(message, 2)}
        self.trees = {place(each): m.first(each, 3) for each in m.every(message, 3)}
        self.stdout, self.stderr = m.first(message, 6), m.first(message, 8)


class Call:
    """What has come of a call: the messages that are not taken yet, and the trailer's status once it has ended."""

    def __init__(self):
        self.messages, self.unread, self.status = [], b"", None

    def add(self, data):
        self.unread += data
        while len(self.unread) >= 5:
            size = int.from_bytes(self.unread[1:5], "big")
            if len(self.unread) < 5 + size:
                break
            self.messages.append(self.unread[5 : 5 + size])
            self.unread = self.unread[5 + size :]


def trailer(header_block):
    """The status in a block of the server's, which has no Huffman code and no table."""
    at, found = 0, {}

    def text():
        nonlocal at
        size, at = header_block[at], at + 1
        if size == 127:
            size, at = size + header_block[at], at + 1
        at += size
        return header_block[at - size : at]

    while at < len(header_block):
        first, at = header_block[at], at + 1
        if first == 0:
            name = text()
            found[name] = text()
        elif first < 16:
            at += first == 15
            text()
    if b"grpc-status" in found:
        return int(found[b"grpc-status"]), found.get(b"grpc-message", b"").decode()
    return None


class Peer:
    """A connection on which calls go on side by side."""

    def __init__(self, port, seconds=120):
        self.socket = socket.create_connection(("127.0.0.1", port), timeout=seconds)
        self.socket.setsockopt(socket.IPPROTO_TCP, socket.TCP_NODELAY, 1)
        self.socket.sendall(PREFACE + WINDOWS)
        self.calls, self.stream, self.unread, self.received = {}, -1, bytearray(), 0

    def __enter__(self):
        return self

    def __exit__(self, *_):
        self.close()

    def close(self):
        self.socket.close()

    def begin(self, path, *messages):
        """Begins a call, and gives its number."""
        self.stream += 2
        sent = b"".join(b"\0" + len(each).to_bytes(4, "big") + each for each in messages)
        out = bytearray(frame(1, 4, self.stream, block(path)))
        for at in range(0, len(sent), 16384):
            out += frame(0, at + 16384 >= len(sent), self.stream, sent[at : at + 16384])
        self.calls[self.stream] = Call()
        self.socket.sendall(out)
        return self.stream

    def read(self):
        """Takes what has come, waiting for some, and gives the numbers of the calls that it belongs to."""
        more = self.socket.recv(1 << 20)
        if not more:
            raise ConnectionError("closed")
        self.unread += more
        at, touched = 0, []
        while len(self.unread) >= at + 9:
            size = int.from_bytes(self.unread[at : at + 3], "big")
            if len(self.unread) < at + 9 + size:
                break
            kind, flags, number = (
                self.unread[at + 3],
                self.unread[at + 4],
                int.from_bytes(self.unread[at + 5 : at + 9], "big"),
            )
            self._take(kind, flags, number, bytes(self.unread[at + 9 : at + 9 + size]))
            touched.append(number)
            at += 9 + size
        del self.unread[:at]
        return [number for number in dict.fromkeys(touched) if number in self.calls]

    def _take(self, kind, flags, number, payload):
        if kind == 7:
            raise ConnectionError(f"GOAWAY {payload.hex()}")
        call = self.calls.get(number)
        if call is None:
            return
        if kind == 0:
            call.add(payload)
            self.received += len(payload)
            if self.received >= 2**30:
                self.socket.sendall(frame(8, 0, 0, self.received.to_bytes(4, "big")))
                self.received = 0
        elif kind == 1 and flags & 1:
            call.status = trailer(payload)
        elif kind == 3 and call.status is None:
            call.status = (-1, f"RST_STREAM {payload.hex()}")

    def next(self, number):
        """The next message of a call, or None where it has ended."""
        call = self.calls[number]
        while not call.messages and call.status is None:
            self.read()
        return call.messages.pop(0) if call.messages else None

    def end(self, number):
        """The messages of a call that are left and its status, once it has ended."""
        call = self.calls[number]
        while call.status is None:
            self.read()
        del self.calls[number]
        return call.messages, call.status

    def call(self, path, *messages):
        return self.end(self.begin(path, *messages))

    # What the scripts call for.

    def store(self, blobs, function=hashlib.sha256):
        """Stores texts, small ones in batches and large ones by streams."""
        batch, size = [], 0
        for each in blobs:
            if len(each) > 2_000_000:
                self._write(each, function)
                continue
            if size + len(each) + 120 > 3_900_000 or len(batch) == 5000:
                self._store(batch, function)
                batch, size = [], 0
            batch.append(each)
            size += len(each) + 120
        if batch:
            self._store(batch, function)

    def _store(self, batch, function):
        answers, status = self.call(m.BATCH_UPDATE, m.batch_update("", batch, function))
        if status[0] or any(m.first(each, 2) for each in m.every(answers[0], 1)):
            raise SystemExit(f"texts are not stored: {status}")

    def _write(self, text, function):
        name = m.write_name(os.urandom(8).hex(), function(text).hexdigest(), len(text))
        pieces = range(0, len(text), 1_000_000)
        sent = [m.write(name, at, text[at : at + 1_000_000], at + 1_000_000 >= len(text)) for at in pieces]
        status = self.call(m.WRITE, *sent)[1]
        if status[0]:
            raise SystemExit(f"a text is not stored: {status}")

    def text(self, digest):
        """The text of a digest; none for the empty one."""
        name = m.read_name(m.first(digest, 1).decode(), m.first(digest, 2, 0))
        answers, status = self.call(m.READ, m.read(name))
        if status[0]:
            raise SystemExit(f"a text cannot be read: {status}")
        return b"".join(m.first(each, 10) for each in answers)

    def stream_text(self, digest):
        """The text of a stream, which has no digest where it is empty."""
        return self.text(digest) if digest else b""

    def start(self, action, instance="", skip=False, is_stored=False):
        """Stores an action, asks for it to be executed, and gives the call's number."""
        if not is_stored:
            self.store(action.blobs, action.function)
        asked = m.field(1, instance) + m.field(3, int(skip)) + m.field(6, action.digest)
        return self.begin(EXECUTE, asked)

    def operations(self, number):
        """All Operations of a call that are left, once it has ended well."""
        messages, status = self.end(number)
        if status != (0, ""):
            raise SystemExit(f"a call to execute ended with {status}")
        return [Operation(each) for each in messages]

    def execute(self, action, **more):
        """The done Operation of an action."""
        return self.operations(self.start(action, **more))[-1]

    def wait(self, name):
        return self.begin(WAIT, m.field(1, name))

    def cached(self, action):
        """The action's stored result, or None."""
        answers, status = self.call(GET_RESULT, m.field(2, action.digest))
        return Result(answers[0]) if status[0] == 0 else None

    def tree(self, digest, function=hashlib.sha256):
        """A Tree as a mapping, as `directory` takes it, but with the digests of files in place of their contents."""
        message = self.text(digest)
        children = {m.digest(each, function): each for each in m.every(message, 2)}

        def shown(text):
            found = {}
            for each in m.every(text, 1):
                found[m.first(each, 1).decode()] = (m.first(each, 2), bool(m.first(each, 4, 0)))
            for each in m.every(text, 2):
                found[m.first(each, 1).decode()] = shown(children[m.first(each, 2)])
            return found

        return shown(m.first(message, 1))
