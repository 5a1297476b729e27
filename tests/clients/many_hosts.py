"""Several hosts for many_servers.py: namespaces of network, servers in them, and one HAProxy before all."""

import os
import pathlib
import re
import socket
import ssl
import subprocess

from executing import Call, Peer
from raw import PREFACE, WINDOWS, block, frame
from watched import DEPLOY, expect, within

INSIDE = "MANY_SERVERS_INSIDE"
PIECE = 16_384


def run(*words):
    subprocess.run(words, check=True, capture_output=True)


def enter(words):
    """Begins the script again in namespaces of its own, where it is not in them already."""
    if INSIDE not in os.environ:
        os.makedirs("/run/netns", exist_ok=True)
        inside = {**os.environ, INSIDE: "1"}
        os.execvpe("unshare", ["unshare", "--net", "--mount", *words], inside)
    run("mount", "-t", "tmpfs", "none", "/run/netns")
    run("ip", "link", "set", "lo", "up")


class Host:
    """A host of its own, one link away."""

    def __init__(self, number):
        self.name, self.address, self.servers = f"host{number}", f"10.77.{number}.2", []
        run("ip", "netns", "add", self.name)
        run("ip", "link", "add", f"to{number}", "type", "veth", "peer", "name", "eth0", "netns", self.name)
        run("ip", "addr", "add", f"10.77.{number}.1/30", "dev", f"to{number}")
        run("ip", "link", "set", f"to{number}", "up")
        for words in [["addr", "add", f"{self.address}/30", "dev", "eth0"], ["link", "set", "eth0", "up"]]:
            run("ip", "-n", self.name, *words)

    def serve(self, program, folder, instances):
        """Begins a server of these teams, by their ports."""
        words = [f"{team}:{port}:{4 * 10**9}:0" for team, port in instances.items()]
        command = [program, "serve", "--work", folder, "--turns", "endless", "--listen", self.address, *words]
        server = subprocess.Popen(["ip", "netns", "exec", self.name, *command], stdout=subprocess.PIPE, text=True)
        self.servers.append(server)
        heard = [server.stdout.readline().split()[:2] for _ in instances]
        if heard != [["listening", team] for team in instances]:
            raise SystemExit(f"not so: {self.name} serves {list(instances)}")
        return server

    def end(self):
        for server in self.servers:
            server.kill()
            server.wait()


def certificates(folder, teams):
    """An authority, a certificate for the proxy, and one of CI's for each team, which the OU names."""

    def openssl(*words):
        subprocess.run(["openssl", *words], cwd=folder, check=True, capture_output=True)

    new = ["req", "-newkey", "ec", "-pkeyopt", "ec_paramgen_curve:prime256v1", "-nodes"]
    openssl(*new, "-x509", "-days", "2", "-subj", "/CN=authority", "-keyout", "ca.key", "-out", "ca.pem")
    subjects = {"server": "/CN=localhost", **{team: f"/OU={team}/CN=ci" for team in teams}}
    pathlib.Path(folder, "names").write_text("subjectAltName=DNS:localhost\n")
    for name, subject in subjects.items():
        openssl(*new, "-subj", subject, "-keyout", f"{name}.key", "-out", f"{name}.csr")
        sign = ["x509", "-req", "-in", f"{name}.csr", "-CA", "ca.pem", "-CAkey", "ca.key", "-CAcreateserial"]
        openssl(*sign, "-days", "2", "-extfile", "names", "-out", f"{name}.pem")
    both = pathlib.Path(folder, "server.pem").read_text() + pathlib.Path(folder, "server.key").read_text()
    pathlib.Path(folder, "both.pem").write_text(both)


class Proxy:
    """HAProxy with deploy/haproxy-teams.cfg, and a map that changes while it runs."""

    PORT = 8443

    def __init__(self, folder, places):
        self.folder, self.map = folder, pathlib.Path(folder, "teams.map")
        self.map.write_text("".join(f"{team} {place}\n" for team, place in places.items()))
        text = (DEPLOY / "haproxy-teams.cfg").read_text()
        changes = {"/etc/haproxy/server.pem": f"{folder}/both.pem", "/etc/haproxy/clients.pem": f"{folder}/ca.pem"}
        changes |= {"/etc/haproxy/teams.map": str(self.map), "/run/haproxy/admin.sock": f"{folder}/admin.sock"}
        for old, new in changes.items():
            text = text.replace(old, new)
        path = pathlib.Path(folder, "haproxy.cfg")
        path.write_text(text)
        self.process = subprocess.Popen(["haproxy", "-f", path], stderr=subprocess.DEVNULL)
        expect(within(10, lambda: self.is_open()), "HAProxy begins")

    def is_open(self):
        with socket.socket() as tried:
            return tried.connect_ex(("127.0.0.1", self.PORT)) == 0

    def tell(self, line):
        """What docs/OUTGROWING.md has socat say to it."""
        with socket.socket(socket.AF_UNIX) as asked:
            asked.connect(f"{self.folder}/admin.sock")
            asked.sendall(f"{line}\n".encode())
            answer = asked.recv(1000).decode().strip()
        if answer:
            raise SystemExit(f"not so: HAProxy takes `{line}`: {answer}")

    def place(self, team, place):
        """Where a team is served from now on."""
        known = re.search(rf"^{team} ", self.map.read_text(), re.MULTILINE)
        self.tell(f"{'set' if known else 'add'} map {self.map} {team} {place}")
        kept = [line for line in self.map.read_text().splitlines() if not line.startswith(f"{team} ")]
        self.map.write_text("\n".join([*kept, f"{team} {place}"]) + "\n")

    def forget(self, team):
        """A team that is served nowhere from now on."""
        self.tell(f"del map {self.map} {team}")
        kept = [line for line in self.map.read_text().splitlines() if not line.startswith(f"{team} ")]
        self.map.write_text("".join(f"{line}\n" for line in kept))

    def end(self):
        self.process.kill()
        self.process.wait()


class Client(Peer):
    """CI of a team, at the proxy. It sends no more than the windows allow."""

    def __init__(self, folder, team, seconds=60):
        context = ssl.SSLContext(ssl.PROTOCOL_TLS_CLIENT)
        context.load_verify_locations(f"{folder}/ca.pem")
        context.load_cert_chain(f"{folder}/{team}.pem", f"{folder}/{team}.key")
        context.set_alpn_protocols(["h2"])
        plain = socket.create_connection(("127.0.0.1", Proxy.PORT), timeout=seconds)
        plain.setsockopt(socket.IPPROTO_TCP, socket.TCP_NODELAY, 1)
        self.socket = context.wrap_socket(plain, server_hostname="localhost")
        self.socket.sendall(PREFACE + WINDOWS)
        self.calls, self.stream, self.unread, self.received = {}, -1, bytearray(), 0
        self.room, self.of_stream = 65_535, {}
        self.at_first = 65_535

    def _take(self, kind, flags, number, payload):
        if kind == 4 and not flags & 1:
            self._settings(payload)
        elif kind == 8 and number == 0:
            self.room += int.from_bytes(payload, "big")
        elif kind == 8 and number in self.of_stream:
            self.of_stream[number] += int.from_bytes(payload, "big")
        super()._take(kind, flags, number, payload)
        call = self.calls.get(number)
        if call and call.status is None and kind in (0, 1) and flags & 1:
            # HAProxy's own answer, as 403, has no status of gRPC.
            call.status = (-1, "an answer of HTTP")

    def _settings(self, payload):
        for at in range(0, len(payload), 6):
            if payload[at : at + 2] == b"\0\4":
                new = int.from_bytes(payload[at + 2 : at + 6], "big")
                for stream in self.of_stream:
                    self.of_stream[stream] += new - self.at_first
                self.at_first = new
        self.socket.sendall(frame(4, 1, 0))

    def begin(self, path, *messages):
        self.stream += 2
        stream, sent = self.stream, b"".join(b"\0" + len(each).to_bytes(4, "big") + each for each in messages)
        self.calls[stream], self.of_stream[stream] = Call(), self.at_first
        self.socket.sendall(frame(1, 4, stream, block(path)))
        for at in range(0, len(sent), PIECE):
            piece = sent[at : at + PIECE]
            while min(self.room, self.of_stream[stream]) < len(piece):
                self.read()
            self.room -= len(piece)
            self.of_stream[stream] -= len(piece)
            self.socket.sendall(frame(0, at + PIECE >= len(sent), stream, piece))
        del self.of_stream[stream]
        return stream
