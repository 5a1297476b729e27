#!/usr/bin/env python3
"""Writes a file for `remoted replay`: the same blobs, or others, uploaded to several instances.

    shared_events.py BLOBS INSTANCES same|own > FILE

Each instance has one client, which uploads BLOBS blobs of 4,096 bytes in batches of 800. By `same` all
instances get the same blobs, by `own` each gets others; the files differ in nothing else.
"""

import random
import sys

from replay_events import Client, upload, write_call

BLOB_BYTES = 4096

# a response to more does not go into the window of 65,535 bytes that a client begins with (RFC 9113, section 6.9.2)
BATCH = 800


def main():
    blobs, instances, kind = int(sys.argv[1]), int(sys.argv[2]), sys.argv[3]
    out = sys.stdout
    for i in range(instances):
        out.write('instance team%d 1099511627776 0\n' % i)
    for i in range(instances):
        rng, client = random.Random(i if kind == 'own' else 0), Client()
        out.write('open 0 %d 0\ntook 0 %d 0 15\n' % (i, i))
        for first in range(0, blobs, BATCH):
            batch = [rng.randbytes(BLOB_BYTES) for _ in range(min(BATCH, blobs - first))]
            write_call(out, client, 1, i, 0, b'BatchUpdateBlobs', *upload(batch))


if __name__ == '__main__':
    main()
