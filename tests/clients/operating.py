#!/usr/bin/env python3
"""operating.py PROGRAM: a month of an operator in some minutes, with the files of deploy/ and what the guides say.

PROGRAM is the built `remoted`. It is started as deploy/remoted.service has it, with two teams, behind HAProxy with
deploy/haproxy.cfg, and watched by the file of its figures. Then it is restarted as the unit does it, and replaced by
another server as docs/DEPLOYING.md says under "Upgrades". Ports, paths and certificates are the test's own, and systemd
itself is not run. A line for each thing that holds; it ends with status 1 at the first that does not. Debian: haproxy,
openssl, python3-grpcio; run it by /usr/bin/python3.
"""

import os
import pathlib
import re
import subprocess
import sys
import tempfile
import time

import messages as m
from executing import GET_RESULT
from proxy import channel, code, config_here, expect, make_certificates
from server import free_ports
from watched import DEPLOY, UPDATE_RESULT, figures_of, key, within

UNIT = (DEPLOY / "remoted.service").read_text()


def of_unit(name):
    """The values of a name in the unit."""
    return re.findall(rf"^{name}=(.*)$", UNIT, re.MULTILINE)


class Service:
    """A server as the unit has it, below a folder, and with ports of its own."""

    def __init__(self, program, folder):
        self.program, self.folder = program, pathlib.Path(folder)
        self.folder.mkdir()
        self.ports = dict(zip(["8980", "8981"], free_ports(2)))
        self.variables = dict(word.split("=", 1) for line in of_unit("Environment") for word in line.split())
        self.variables |= {name: self.here(self.variables[name]) for name in ["STOP", "END", "METRICS"]}
        self.process = None

    def here(self, text):
        """A text of the unit with this test's program, paths and ports."""
        changes = {"/usr/local/bin/remoted": self.program, "/var/lib/remoted": f"{self.folder}/work"}
        changes |= {"/run/remoted": str(self.folder)}
        changes |= {f":{old}:": f":{new}:" for old, new in self.ports.items()}
        # In one pass: what stands for a path may hold another of them.
        old = "|".join(map(re.escape, changes))
        return re.sub(old, lambda found: changes[found.group()], text)

    def start(self):
        words = self.here(of_unit("ExecStart")[0]).split()
        words = [re.sub(r"\$\{(\w+)\}", lambda found: self.variables[found.group(1)], word) for word in words]
        environment = {"PATH": "/usr/bin:/bin", **self.variables}
        self.process = subprocess.Popen(words, stdout=subprocess.PIPE, text=True, env=environment)
        heard = [self.process.stdout.readline().split()[:2] for _ in self.ports]
        expect(heard == [["listening", "red"], ["listening", "blue"]], "the unit's command serves red and blue")

    def stop(self):
        """As systemd does: ExecStop, and then the folder of the run is removed."""
        stopping = re.fullmatch(r"/bin/sh -c '(.*)'", of_unit("ExecStop")[0]).group(1)
        environment = {**os.environ, **self.variables, "MAINPID": str(self.process.pid)}
        stopper = subprocess.Popen(["/bin/sh", "-c", stopping], env=environment)
        status = self.process.wait(30)
        expect(status == 0 and stopper.wait(5) == 0, "the unit's ExecStop ends it with status 0")
        for name in ["STOP", "METRICS"]:
            pathlib.Path(self.variables[name]).unlink()

    def checked(self):
        """Whether `check` is content with both instances."""
        words = [[self.program, "check", "--port", str(port)] for port in self.ports.values()]
        return [subprocess.run(each, capture_output=True).returncode for each in words] == [0, 0]

    def figures(self, seconds=15):
        """The figures as they are written next."""
        path, moment = pathlib.Path(self.variables["METRICS"]), time.time() + 0.5
        expect(within(seconds, lambda: path.exists() and path.stat().st_mtime > moment), "figures are written")
        return figures_of(path)


class Proxy:
    """HAProxy before the instance red of a service."""

    def __init__(self, folder):
        self.folder, self.port, self.process = folder, free_ports(1)[0], None

    def point_to(self, service):
        """Starts it, or has it go on with another server, as a reload does."""
        path = os.path.join(self.folder, "haproxy.cfg")
        with open(path, "w") as file:
            file.write(config_here(self.folder, self.port, service.ports["8980"]))
        old = [] if self.process is None else ["-sf", str(self.process.pid)]
        before, self.process = self.process, subprocess.Popen(["haproxy", "-f", path, *old], stderr=subprocess.DEVNULL)
        if before:
            before.wait(30)

    def end(self):
        self.process.terminate()
        self.process.wait()


def store(calls, blob):
    """CI stores a blob, and a result that names it."""
    calls.unary_unary(m.BATCH_UPDATE)(m.batch_update("red", [blob]), timeout=10)
    result = m.field(2, m.field(1, "out") + m.field(2, m.digest(blob)))
    update = m.field(1, "red") + m.field(2, m.digest(blob)) + m.field(3, result)
    calls.unary_unary(UPDATE_RESULT)(update, timeout=10)


def asks(folder, port, name, blob):
    """The status with which somebody is answered who asks for a result through the proxy."""
    with channel(folder, port, name) as calls:
        request = m.field(1, "red") + m.field(2, m.digest(blob))
        return code(lambda: calls.unary_unary(GET_RESULT)(request, timeout=10))


def ci_stores(folder, proxy, blob):
    with channel(folder, proxy.port, "ci") as calls:
        store(calls, blob)
    expect(asks(folder, proxy.port, "developer", blob) == "OK", "CI stores a result, and a developer takes it")


def days(folder, service, proxy, blob):
    """Some days of two teams."""
    service.start()
    proxy.point_to(service)
    expect(within(10, lambda: asks(folder, proxy.port, "ci", blob) == "NOT_FOUND"), "the proxy reaches it")
    ci_stores(folder, proxy, blob)
    expect(service.checked(), "`check` is content with both instances")
    found = service.figures()
    hits = found[key("action_cache_hits_total", instance="red")]
    expect((hits, found[key("blobs", instance="red")]) == (1, 1), "the figures of red tell of both")
    expect(found[key("blobs", instance="blue")] == 0, "and those of blue of none")


def restart(folder, service, proxy, blob):
    service.stop()
    expect(not service.checked(), "`check` is not content while the server is away")
    service.start()
    status = lambda: asks(folder, proxy.port, "developer", blob)
    expect(within(10, lambda: status() == "NOT_FOUND"), "after a restart the cache is empty, and the proxy is back")
    ci_stores(folder, proxy, blob)


def upgrade(folder, old, new, proxy, blob):
    new.start()
    warming = Proxy(folder)
    warming.point_to(new)
    within(10, lambda: asks(folder, warming.port, "ci", blob) == "NOT_FOUND")
    ci_stores(folder, warming, blob)
    warming.end()
    proxy.point_to(new)
    taken = within(10, lambda: asks(folder, proxy.port, "developer", blob) == "OK")
    expect(taken, "the proxy goes on with the new one")
    hits = new.figures()[key("action_cache_hits_total", instance="red")]
    expect(hits >= 2, "which has the developer's hit")
    idle = lambda: old.figures()[key("connections", instance="red")] == 0
    expect(within(40, idle), "the old one has no connection left")
    old.stop()
    expect(asks(folder, proxy.port, "developer", blob) == "OK", "and nobody misses it")
    new.stop()


def main():
    if len(sys.argv) != 2:
        raise SystemExit(__doc__)
    program, blob = os.path.abspath(sys.argv[1]), os.urandom(3_000)
    with tempfile.TemporaryDirectory() as folder:
        make_certificates(folder)
        old, new = (Service(program, os.path.join(folder, name)) for name in ["old", "new"])
        proxy = Proxy(folder)
        try:
            days(folder, old, proxy, blob)
            restart(folder, old, proxy, blob)
            upgrade(folder, old, new, proxy, blob)
        finally:
            for process in [proxy.process, old.process, new.process]:
                if process and process.poll() is None:
                    process.kill()
                    process.wait()


if __name__ == "__main__":
    main()
