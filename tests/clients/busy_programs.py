#!/usr/bin/env python3
"""busy_programs.py PROGRAM [--launcher L] [--before WORD ..]: programs that take all processors slow no calls of others.

PROGRAM is the built `remoted`. One team runs 64 programs that only compute, as many as it may. Another team has one
client that makes one small call at a time: of a hundred of its calls 99 take less than 5 ms. The server is started
behind the words of --before, up to the end of the line: by default as the units of deploy/ have it, which only root may
do. The client runs before all programs, as it would on a host of its own. A line says how long calls took. It ends with
status 1 where they take longer. It leaves no program.
"""

import argparse
import os
import signal
import sys
import tempfile
import time

import messages as m
from executing import EXECUTE, Action, Peer
from raw import Connection
from server import Server

BUSY = 64
SECONDS = 8
MOST = 0.005
AS_THE_UNITS = ["/usr/bin/nice", "-n", "-5", "/usr/bin/chrt", "--reset-on-fork", "--other", "0"]
MARK = f"busy-{os.getpid()}"
FIND = m.find_missing("", [m.digest(b"not there")])


def waits(port):
    """How many seconds each of the calls of one client took, the shortest first."""
    client, found = Connection(port), []
    end = time.monotonic() + SECONDS
    while time.monotonic() < end:
        begun = time.perf_counter()
        client.call(m.FIND_MISSING, [FIND])
        found.append(time.perf_counter() - begun)
    client.close()
    return sorted(found)


def busy():
    """The numbers of the programs that compute."""
    found = []
    for process in filter(str.isdigit, os.listdir("/proc")):
        try:
            with open(f"/proc/{process}/cmdline", "rb") as file:
                if file.read().startswith(b"/bin/sh\0-c\0: " + MARK.encode()):
                    found.append(int(process))
        except OSError:
            pass
    return found


def wait_for_all():
    for _ in range(600):
        if len(busy()) >= BUSY:
            return
        time.sleep(0.1)
    raise SystemExit(f"FAULT only {len(busy())} of {BUSY} programs have begun within a minute")


def behind(words, program, folder):
    """A script that starts the program behind these words."""
    path = f"{folder}/remoted"
    with open(path, "w") as file:
        file.write(f'#!/bin/sh\nexec {" ".join(words)} {program} "$@"\n')
    os.chmod(path, 0o755)
    return path


def told(name, found):
    at = lambda part: f"{found[int(len(found) * part)] * 1000:.2f}"
    print(f"{name}: {len(found) // SECONDS} calls a second; half take {at(0.5)} ms at most, 99 of 100 {at(0.99)}, the longest {found[-1] * 1000:.1f}", flush=True)


def main():
    parser = argparse.ArgumentParser(usage=__doc__)
    parser.add_argument("program")
    parser.add_argument("--launcher")
    parser.add_argument("--before", nargs=argparse.REMAINDER, default=AS_THE_UNITS)
    given = parser.parse_args()
    os.nice(-15)
    with tempfile.TemporaryDirectory() as folder:
        program = behind(given.before, given.program, folder)
        instances = [("busy", 10**7, BUSY), ("quiet", 10**7)]
        with Server(program, instances, launcher=given.launcher, preexec_fn=lambda: os.nice(15)) as server:
            told("alone", waits(server.ports[1]))
            try:
                with Peer(server.ports[0]) as peer:
                    for number in range(BUSY):
                        action = Action(["/bin/sh", "-c", f": {MARK} {number}; while :; do :; done"])
                        peer.store(action.blobs)
                        peer.begin(EXECUTE, m.field(6, action.digest))
                    wait_for_all()
                    time.sleep(1)
                    found = waits(server.ports[1])
            finally:
                for process in busy():
                    os.kill(process, signal.SIGKILL)
    told(f"beside {BUSY} programs that compute", found)
    if found[int(len(found) * 0.99)] >= MOST:
        sys.exit("FAULT programs that compute slow calls of another team")


if __name__ == "__main__":
    main()
