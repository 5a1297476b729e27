#!/usr/bin/env python3
"""proxy.py PROGRAM: calls through HAProxy with TLS and the file deploy/haproxy.cfg: one certificate may write and have
actions run, one may read, one is revoked, and others get no connection. Uploads of five clients at once, of which the
server refuses some, are all taken through the proxy. Through a second proxy at the client, where the line that bounds
calls stands at the server's alone, some may be refused, and all are taken when they are tried again.

PROGRAM is the built `remoted`. Certificates are made by openssl, in a folder that is removed. A line for each thing
that holds; it ends with status 1 at the first that does not. Debian: haproxy, openssl, python3-grpcio; run it by
/usr/bin/python3.
"""

import collections
import concurrent.futures
import hashlib
import os
import pathlib
import subprocess
import sys
import tempfile
import time

import grpc

import messages as m
from executing import EXECUTE
from server import Server, free_ports

PIECE = 1_000_000
CLIENTS, UPLOADS = 5, 20
# Uploads of one client through two proxies, and how long it may take until each was taken.
OUTPUTS, SECONDS = 120, 120

CONFIG = pathlib.Path(__file__).resolve().parents[2] / "deploy/haproxy.cfg"


def make_certificates(folder):
    """An authority, certificates of it for the server, CI and a developer, and one of nobody's for a stranger."""

    def openssl(*words):
        subprocess.run(["openssl", *words], cwd=folder, check=True, capture_output=True)

    new = ["req", "-newkey", "rsa:2048", "-nodes"]
    openssl(*new, "-x509", "-days", "2", "-subj", "/CN=authority", "-keyout", "ca.key", "-out", "ca.pem")
    openssl(*new, "-x509", "-days", "2", "-subj", "/CN=ci", "-keyout", "stranger.key", "-out", "stranger.pem")
    with open(os.path.join(folder, "names"), "w") as names:
        names.write("subjectAltName=DNS:localhost\n")
    for name in ["server", "ci", "developer", "gone"]:
        openssl(*new, "-subj", f"/CN={name}", "-keyout", f"{name}.key", "-out", f"{name}.csr")
        sign = ["x509", "-req", "-in", f"{name}.csr", "-CA", "ca.pem", "-CAkey", "ca.key", "-CAcreateserial"]
        openssl(*sign, "-days", "2", "-extfile", "names", "-out", f"{name}.pem")
    for name in ["server", "ci"]:
        with open(os.path.join(folder, f"{name}-both.pem"), "wb") as both:
            both.write(bytes_of(folder, f"{name}.pem") + bytes_of(folder, f"{name}.key"))
    told = ["openssl", "x509", "-in", "gone.pem", "-noout", "-serial"]
    serial = subprocess.run(told, cwd=folder, check=True, capture_output=True, text=True).stdout
    with open(os.path.join(folder, "revoked"), "w") as revoked:
        revoked.write(serial.partition("=")[2])


def config_here(folder, port, server):
    """The file to install, with its lines that are comments, and the ports, the certificates and the time between
    checks of this test.
    """
    told = CONFIG.read_text()
    changes = {
        "bind :8443": f"bind 127.0.0.1:{port}",
        "/etc/haproxy/server.pem": f"{folder}/server-both.pem",
        "/etc/haproxy/clients.pem": f"{folder}/ca.pem",
        "127.0.0.1:8980": f"127.0.0.1:{server}",
        "check inter 5s": "check inter 1s",
        "# tune.h2.": "tune.h2.",
        "# http-request deny": "http-request deny",
        "/etc/haproxy/revoked": f"{folder}/revoked",
    }
    for old, new in changes.items():
        if told.count(old) != 1:
            raise SystemExit(f"{CONFIG} has not one {old!r}")
        told = told.replace(old, new)
    return told


def config_of_client(folder, port, server):
    """A proxy at a client, without a line that bounds its calls."""
    return f"""
global
    maxconn 256
    tune.h2.initial-window-size 16777216
defaults
    mode http
    timeout connect 5s
    timeout client 1d
    timeout server 1d
frontend cache
    bind 127.0.0.1:{port} proto h2
    default_backend cache
backend cache
    http-reuse always
    server cache 127.0.0.1:{server} ssl crt {folder}/ci-both.pem ca-file {folder}/ca.pem verify required verifyhost localhost alpn h2
"""


def bytes_of(folder, name):
    with open(os.path.join(folder, name), "rb") as file:
        return file.read()


def channel(folder, port, name, more=()):
    key, own = (bytes_of(folder, f"{name}.{kind}") if name else None for kind in ["key", "pem"])
    credentials = grpc.ssl_channel_credentials(bytes_of(folder, "ca.pem"), key, own)
    options = [("grpc.max_receive_message_length", -1), *more]
    return grpc.secure_channel(f"localhost:{port}", credentials, options)


def write(calls, blob, piece=PIECE):
    """Stores a blob in one stream; how many bytes are there."""
    name = f"red/uploads/{'1' * 8}-1111-1111-1111-{'1' * 12}/blobs/{hashlib.sha256(blob).hexdigest()}/{len(blob)}"

    def pieces():
        for at in range(0, len(blob), piece):
            named = m.field(1, name) if at == 0 else b""
            last = m.field(3, int(at + piece >= len(blob)))
            yield named + m.field(2, at) + last + m.field(10, blob[at : at + piece])

    return m.first(calls.stream_unary(m.WRITE)(pieces(), timeout=300), 1)


def read(calls, blob):
    request = m.field(1, f"red/blobs/{hashlib.sha256(blob).hexdigest()}/{len(blob)}")
    return b"".join(m.first(each, 10) for each in calls.unary_stream(m.READ)(request, timeout=60))


def code(call):
    """The status with which a call ends."""
    try:
        call()
    except grpc.RpcError as error:
        return error.code().name
    return "OK"


def expect(holds, what):
    if not holds:
        raise SystemExit(f"not so: {what}")
    print(f"ok {what}", flush=True)


def calls_through(folder, port):
    small, large = os.urandom(3_000), os.urandom(20_000_000)
    ask = lambda calls: calls.unary_unary(m.CAPABILITIES)(m.capabilities("red"), timeout=10)
    update = lambda calls: calls.unary_unary(m.BATCH_UPDATE)(m.batch_update("red", [small]), timeout=10)
    with channel(folder, port, "ci") as calls:
        expect(code(lambda: ask(calls)) == code(lambda: update(calls)) == "OK", "CI stores a small blob")
        expect(write(calls, large) == len(large) and read(calls, large) == large, "CI writes 20 MB, and reads them")
    with channel(folder, port, "developer") as calls:
        wanted = m.find_missing("red", [m.digest(small)])
        expect(calls.unary_unary(m.FIND_MISSING)(wanted, timeout=10) == b"", "a developer finds the small blob")
        expect(read(calls, large) == large, "a developer reads 20 MB")
        execute = lambda: list(calls.unary_stream(EXECUTE)(b"", timeout=10))
        refused = [code(lambda: update(calls)), code(lambda: write(calls, large)), code(execute)]
        expect(refused == ["PERMISSION_DENIED"] * 3, "a developer may not write, and have no action run")
    with channel(folder, port, "gone") as calls:
        expect(code(lambda: ask(calls)) == "PERMISSION_DENIED", "a certificate that is revoked may do nothing")
    for name in ["stranger", None]:
        with channel(folder, port, name) as calls:
            expect(code(lambda: ask(calls)) == "UNAVAILABLE", f"no connection with {name or 'no'} certificate")


def refused(open_channel):
    """How many uploads are refused, where each of some clients begins its own at once."""
    channels = [open_channel() for _ in range(CLIENTS)]
    try:
        writes = [(calls, os.urandom(3 * PIECE)) for calls in channels for _ in range(UPLOADS)]
        with concurrent.futures.ThreadPoolExecutor(len(writes)) as threads:
            codes = collections.Counter(threads.map(lambda each: code(lambda: write(*each, piece=65_536)), writes))
    finally:
        for calls in channels:
            calls.close()
    return codes["RESOURCE_EXHAUSTED"]


def many_uploads(folder, port, server):
    # A connection of each channel's own.
    own = [("grpc.use_local_subchannel_pool", 1)]
    count = refused(lambda: grpc.insecure_channel(f"127.0.0.1:{server}", own))
    expect(count > 0, f"{count} of {CLIENTS * UPLOADS} uploads at once are refused by the server")
    count = refused(lambda: channel(folder, port, "ci", own))
    expect(count == 0, "none is refused through the proxy")


def through_two(folder, port):
    """Each of many uploads at once through a proxy at the client and the server's is taken, perhaps when it is tried again."""
    own = free_ports(1)[0]
    path = os.path.join(folder, "client.cfg")
    with open(path, "w") as config:
        config.write(config_of_client(folder, own, port))
    proxy = subprocess.Popen(["haproxy", "-f", path], stderr=subprocess.DEVNULL)
    end = time.time() + SECONDS

    def until_taken(calls, blob):
        tries = 1
        while code(lambda: write(calls, blob, piece=16_384)) != "OK" and time.time() < end:
            tries += 1
            time.sleep(0.5)
        return tries

    try:
        time.sleep(1)
        blobs = [os.urandom(1_500_000) for _ in range(OUTPUTS)]
        with grpc.insecure_channel(f"127.0.0.1:{own}") as calls:
            with concurrent.futures.ThreadPoolExecutor(OUTPUTS) as threads:
                tries = list(threads.map(lambda blob: until_taken(calls, blob), blobs))
            names = [m.digest(blob) for blob in blobs]
            missing = calls.unary_unary(m.FIND_MISSING)(m.find_missing("red", names), timeout=60)
    finally:
        proxy.terminate()
        proxy.wait()
    expect(missing == b"", f"{OUTPUTS} uploads through two proxies are all taken, in {max(tries)} tries at most")


def main():
    if len(sys.argv) != 2:
        raise SystemExit(__doc__)
    port = free_ports(1)[0]
    with tempfile.TemporaryDirectory() as folder, Server(sys.argv[1], [("red", 10**9)]) as server:
        make_certificates(folder)
        path = os.path.join(folder, "haproxy.cfg")
        with open(path, "w") as config:
            config.write(config_here(folder, port, server.ports[0]))
        proxy = subprocess.Popen(["haproxy", "-f", path], stderr=subprocess.DEVNULL)
        try:
            # A check of the server comes each second.
            time.sleep(3)
            calls_through(folder, port)
            many_uploads(folder, port, server.ports[0])
            through_two(folder, port)
        finally:
            proxy.terminate()
            proxy.wait()


if __name__ == "__main__":
    main()
