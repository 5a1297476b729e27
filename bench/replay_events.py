#!/usr/bin/env python3
"""Writes a file for `remoted replay`: clients of several instances that ask for missing blobs, upload and read.

    replay_events.py EVENTS [INSTANCES CLIENTS] > FILE

There are four instances with eight clients each, or as many as are given. A client has one connection. It sends each
call whole (HEADERS and DATA, and WINDOW_UPDATE for the response before), and then takes the whole response: two
events a call. The lengths of the responses are computed here, by the rules of docs/PROTOCOL.md.
"""

import hashlib
import random
import sys

SERVICE = b'/build.bazel.remote.execution.v2.ContentAddressableStorage/'
PREFACE = b'PRI * HTTP/2.0\r\n\r\nSM\r\n\r\n'


def varint(number):
    out = bytearray()
    while number > 127:
        out.append(number & 127 | 128)
        number >>= 7
    out.append(number)
    return bytes(out)


def field(number, content):
    return varint(number * 8 + 2) + varint(len(content)) + content


def digest(blob):
    return field(1, hashlib.sha256(blob).hexdigest().encode()) + b'\x10' + varint(len(blob))


def frame(kind, flags, stream, payload):
    return len(payload).to_bytes(3, 'big') + bytes([kind, flags]) + stream.to_bytes(4, 'big') + payload


class Client:
    def __init__(self):
        self.stream, self.owed_window, self.first = 1, 0, True

    def call(self, method, message, reply):
        """The bytes of a call, and how many bytes answer it."""
        path = SERVICE + method
        block = (b'\x83\x86\x04' + varint_prefix(len(path)) + path + b'\x0f\x10\x10application/grpc'
                 + b'\x00\x02te\x08trailers')
        data = b'\x00' + len(message).to_bytes(4, 'big') + message
        out = PREFACE + frame(4, 0, 0, b'') if self.first else b''
        answer = 9 if self.first else 0
        if self.owed_window:
            out += frame(8, 0, 0, self.owed_window.to_bytes(4, 'big'))
        out += frame(1, 4, self.stream, block)
        parts = [data[i:i + 16384] for i in range(0, len(data), 16384)]
        for place, part in enumerate(parts):
            last = place == len(parts) - 1
            out += frame(0, 1 if last else 0, self.stream, part)
            answer += 13 if last else 26
        size = 5 + reply
        answer += (30 if self.first else 29) + size + 9 * -(-size // 16384) + 24
        self.owed_window, self.first = size, False
        self.stream += 2
        return out, answer


def varint_prefix(number):
    """A length with a prefix of seven bits (HPACK)."""
    return bytes([number]) if number < 127 else b'\x7f' + varint(number - 127)


def main():
    events, rng = int(sys.argv[1]), random.Random(1)
    instances, connections = (int(word) for word in sys.argv[2:4] or (4, 8))
    out = sys.stdout
    for i in range(instances):
        out.write('instance team%d 1099511627776 0\n' % i)
    clients, stored = {}, [[rng.randbytes(800)] for _ in range(instances)]
    for i in range(instances):
        for c in range(connections):
            out.write('open 0 %d %d\ntook 0 %d %d 15\n' % (i, c, i, c))
            clients[i, c] = Client()
    for i in range(instances):
        write_call(out, clients[i, 0], 1, i, 0, b'BatchUpdateBlobs', *upload(stored[i]))
    for moment in range((events - 2 * instances * (connections + 1)) // 2):
        i, c = rng.randrange(instances), rng.randrange(connections)
        kind = rng.random()
        if kind < 0.6:
            blobs = [rng.choice(stored[i]) for _ in range(10)]
            missing = [digest(rng.randbytes(40)) for _ in range(10)]
            message = b''.join(field(2, digest(blob)) for blob in blobs) + b''.join(field(2, d) for d in missing)
            reply = sum(len(field(2, d)) for d in missing)
            write_call(out, clients[i, c], moment + 2, i, c, b'FindMissingBlobs', message, reply)
        elif kind < 0.8:
            blobs = [rng.randbytes(rng.randrange(400, 1600)) for _ in range(2)]
            stored[i] += blobs
            write_call(out, clients[i, c], moment + 2, i, c, b'BatchUpdateBlobs', *upload(blobs))
        else:
            blobs = [rng.choice(stored[i][-1000:]) for _ in range(4)]
            message = b''.join(field(2, digest(blob)) for blob in blobs)
            reply = sum(len(field(1, field(1, digest(b)) + field(2, b) + b'\x1a\x00')) for b in blobs)
            write_call(out, clients[i, c], moment + 2, i, c, b'BatchReadBlobs', message, reply)


def upload(blobs):
    message = b''.join(field(2, field(1, digest(blob)) + field(2, blob)) for blob in blobs)
    return message, sum(len(field(1, field(1, digest(blob)) + b'\x12\x00')) for blob in blobs)


def write_call(out, client, moment, i, c, method, message, reply):
    sent, answer = client.call(method, message, reply)
    out.write('bytes %d %d %d %s\ntook %d %d %d %d\n' % (moment, i, c, sent.hex(), moment, i, c, answer))


if __name__ == '__main__':
    main()
