#!/usr/bin/env python3
"""grpc_calls.py PROGRAM: calls a server of two instances by clients that others wrote, a line for each case.

PROGRAM is the built `remoted`. Debian's packages python3-grpcio, nghttp2-client and curl are needed; run it by
/usr/bin/python3. It ends with status 1 where an answer is not the right one.
"""

import os
import subprocess
import sys
import tempfile

import grpc

import messages as m
from server import Server

CALLS = 100


def caller(channel, path):
    return channel.unary_unary(path, request_serializer=lambda b: b, response_deserializer=lambda b: b)


def at_once(channel, path, requests):
    """The answers to these requests, which are all sent before the first answer is awaited."""
    call = caller(channel, path)
    return [each.result(timeout=60) for each in [call.future(request) for request in requests]]


def blob(name, number):
    return f"{name} {number} ".encode() * (number + 1)


def stored_and_read(channels):
    """Uploads, reads and looks for blobs on both instances at once."""
    blobs = {name: [blob(name, number) for number in range(CALLS)] for name in channels}
    futures = {
        name: [caller(channel, m.BATCH_UPDATE).future(m.batch_update(name, [each])) for each in blobs[name]]
        for name, channel in channels.items()
    }
    for name in channels:
        for each, future in zip(blobs[name], futures[name]):
            answers = m.every(future.result(timeout=60), 1)
            expect([m.first(one, 1) for one in answers], [m.digest(each)], "its digest")
            expect([m.first(one, 2) for one in answers], [b""], "status OK")
    yield f"BatchUpdateBlobs: {CALLS} calls at a time on each of two instances"

    for name, channel in channels.items():
        reads = [m.batch_read(name, [m.digest(each)]) for each in blobs[name]]
        for each, answer in zip(blobs[name], at_once(channel, m.BATCH_READ, reads)):
            expect([m.first(one, 2) for one in m.every(answer, 1)], [each], "the blob")
    yield f"BatchReadBlobs: {CALLS} calls at a time on each"

    main, other = channels
    for name, there, missing in [(main, main, False), (other, main, True), (main, other, True)]:
        wanted = [m.digest(each) for each in blobs[there]]
        answers = at_once(channels[name], m.FIND_MISSING, [m.find_missing(name, [one]) for one in wanted])
        for one, answer in zip(wanted, answers):
            expect(m.every(answer, 2), [one] if missing else [], "what is missing")
    yield f"FindMissingBlobs: {CALLS} calls at a time; neither instance has the other's blobs"


def told(channels):
    for name, channel in channels.items():
        for answer in at_once(channel, m.CAPABILITIES, [m.capabilities(name)] * CALLS):
            expect(m.first(m.first(answer, 1), 1), b"\x01\x06", "SHA256 and SHA512")
    yield f"GetCapabilities: {CALLS} calls at a time on each"


def refused(channels):
    main, other = channels
    cases = [
        (m.FIND_MISSING, m.find_missing(other, []), grpc.StatusCode.NOT_FOUND, "another instance's name"),
        (m.FIND_MISSING, b"\xff", grpc.StatusCode.INVALID_ARGUMENT, "bytes that are no message"),
        (m.CAS + "NoSuchMethod", b"", grpc.StatusCode.UNIMPLEMENTED, "an unknown method"),
    ]
    for path, request, code, case in cases:
        try:
            caller(channels[main], path)(request, timeout=60)
        except grpc.RpcError as error:
            expect(error.code(), code, case)
            yield f"{case}: {code.name}"
        else:
            raise SystemExit(f"{case}: no error")


def by_tools(port, name):
    """The same call by curl and by h2load, with a framed message in a file."""
    request = m.find_missing(name, [m.digest(b"not there")])
    with tempfile.TemporaryDirectory() as folder:
        body = os.path.join(folder, "body")
        with open(body, "wb") as out:
            out.write(b"\0" + len(request).to_bytes(4, "big") + request)
        url = f"http://127.0.0.1:{port}{m.FIND_MISSING}"
        head = ["-H", "content-type: application/grpc", "-H", "te: trailers"]
        answer = subprocess.run(
            ["curl", "-s", "--http2-prior-knowledge", *head, "--data-binary", f"@{body}", url],
            capture_output=True,
            timeout=60,
        ).stdout
        expect(m.every(answer[5:], 2), [m.digest(b"not there")], "the answer to curl")
        yield "curl: a call of FindMissingBlobs"
        load = subprocess.run(
            ["h2load", "-n", "2000", "-c", "4", "-m", "100", *head, "-d", body, url],
            capture_output=True,
            text=True,
            timeout=120,
        ).stdout
        line = next((line for line in load.splitlines() if line.startswith("requests:")), "")
        expect("2000 succeeded, 0 failed" in line, True, "h2load: " + line)
        yield "h2load: 2,000 calls on 4 connections, 100 streams each"


def expect(found, wanted, what):
    if found != wanted:
        raise SystemExit(f"{what}: found {found!r}, wanted {wanted!r}")


def main():
    if len(sys.argv) != 2:
        raise SystemExit(__doc__)
    names = ["main", "other"]
    with Server(sys.argv[1], [(name, 10**8) for name in names]) as server:
        channels = {name: grpc.insecure_channel(f"127.0.0.1:{port}") for name, port in zip(names, server.ports)}
        for cases in [stored_and_read(channels), told(channels), refused(channels), by_tools(server.ports[0], "main")]:
            for line in cases:
                print("ok", line, flush=True)
        for channel in channels.values():
            channel.close()


main()
