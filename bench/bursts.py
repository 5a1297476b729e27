#!/usr/bin/env python3
"""bursts.py PROGRAM: how much memory a server keeps after bursts of large calls on one connection.

PROGRAM is the built `remoted`. A hundred calls at a time, each with about 4,000,000 bytes of request or reply, go over
one connection, and a second later it prints by how much more memory is resident than before the first of them; of that
the one blob that is stored is 4 MB. Debian: python3-grpcio; run it by /usr/bin/python3.
"""

import os
import sys
import time

import grpc

sys.path.insert(0, os.path.join(os.path.dirname(os.path.abspath(__file__)), "..", "tests", "clients"))

import messages as m  # noqa: E402
from server import Server  # noqa: E402

CALLS = 100


def burst(channel, path, request, count=CALLS):
    """Makes so many equal calls at a time, and says how many were answered."""
    call = channel.unary_unary(path)
    waiting = [call.future(request) for _ in range(count)]
    return sum(each.exception() is None for each in waiting)


def main():
    blob = os.urandom(4_000_000)
    digests = [m.digest(b"%d" % number) for number in range(56_000)]
    bursts = [
        ("FindMissingBlobs of 56,000 digests", m.FIND_MISSING, m.find_missing("main", digests)),
        ("BatchUpdateBlobs to an instance that is not there", m.BATCH_UPDATE, m.batch_update("other", [blob])),
        ("BatchUpdateBlobs of one blob, each time the same", m.BATCH_UPDATE, m.batch_update("main", [blob])),
        ("BatchReadBlobs of it", m.BATCH_READ, m.batch_read("main", [m.digest(blob)])),
    ]
    options = [("grpc.max_receive_message_length", -1), ("grpc.max_send_message_length", -1)]
    with Server(sys.argv[1], [("main", 1_000_000_000)]) as server:
        with grpc.insecure_channel(f"127.0.0.1:{server.ports[0]}", options) as channel:
            burst(channel, m.FIND_MISSING, m.find_missing("main", digests[:1]), 1)
            before = server.resident_megabytes()
            for name, path, request in bursts:
                answered = burst(channel, path, request)
                time.sleep(1)
                more = server.resident_megabytes() - before
                print(f"{CALLS} {name}: {answered} answered, {more:.1f} MB more than at first")


if __name__ == "__main__":
    main()
