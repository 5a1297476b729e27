#!/usr/bin/env python3
"""Writes a file for `remoted replay`: connections with streams that wait for a window, and then events of one.

    blocked_streams.py CONNECTIONS STREAMS EVENTS > FILE
"""
import sys
PREFACE = b'PRI * HTTP/2.0\r\n\r\nSM\r\n\r\n'
PATH = b'/build.bazel.remote.execution.v2.Capabilities/GetCapabilities'
def frame(kind, flags, stream, payload):
    return len(payload).to_bytes(3, 'big') + bytes([kind, flags]) + stream.to_bytes(4, 'big') + payload
block = b'\x83\x86\x04' + bytes([len(PATH)]) + PATH + b'\x0f\x10\x10application/grpc' + b'\x00\x02te\x08trailers'
connections, streams, events = (int(w) for w in sys.argv[1:4])
print('instance team 1000000000 0')
for c in range(connections):
    print('open 0 0 %d' % c)
    out = PREFACE + frame(4, 0, 0, b'\x00\x04\x00\x00\x00\x00')
    for s in range(streams):
        out += frame(1, 4, 2 * s + 1, block) + frame(0, 1, 2 * s + 1, b'\0\0\0\0\0')
    print('bytes 0 0 %d %s' % (c, out.hex()))
    print('took 0 0 %d 18' % c)
ping = frame(6, 0, 0, bytes(8)).hex()
for e in range(events):
    print('bytes 0 0 0 ' + ping)
    print('took 0 0 0 17')
