#!/usr/bin/env python3
"""Writes a script for `remoted unary`: batches of four million bytes that are uploaded or read.

    batch_calls.py COUNT SIZE update|read|refused BATCHES > FILE

A batch has COUNT blobs of SIZE bytes. By `update` each batch has blobs of its own; by `read` one batch is uploaded and
then read so many times; by `refused` the batches of `update` name an instance that is not there, so that what is left is
the time of reading the script and the messages.
"""

import random
import sys

from replay_events import digest, field

QUOTA = 1 << 40


def main():
    count, size, kind, batches = int(sys.argv[1]), int(sys.argv[2]), sys.argv[3], int(sys.argv[4])
    out, rng = sys.stdout, random.Random(1)
    out.write('instance main %d\n' % QUOTA)
    name = field(1, b'nobody') if kind == 'refused' else b''
    for _ in range(1 if kind == 'read' else batches):
        blobs = [rng.randbytes(size) for _ in range(count)]
        message = name + b''.join(field(2, field(1, digest(blob)) + field(2, blob)) for blob in blobs)
        out.write('call main BatchUpdateBlobs %s\n' % message.hex())
    if kind == 'read':
        line = 'call main BatchReadBlobs %s\n' % b''.join(field(2, digest(blob)) for blob in blobs).hex()
        out.write(line * batches)


if __name__ == '__main__':
    main()
