#!/usr/bin/env python3
"""disk_waits.py PROGRAM [--work DIR]: programs that write to the disk of the runs' folders hold nobody else up.

PROGRAM is the built `remoted`, and DIR where its folders stand: /dev/shm if not given. Four actions of one team write
200 MB at a time, and wait until these are on the disk, beside actions of the same team with 50 inputs and some output,
which the server itself writes and reads. Another team has one small call every two milliseconds: none takes longer than
100 ms. A line says how long calls took, and it ends with status 1 where one took longer.

On tmpfs that is so on a quiet machine. A disk may have whoever writes wait: DEPLOYING has what was measured.
"""

import argparse
import sys
import tempfile
import time

import messages as m
from executing import EXECUTE, Action, Peer
from raw import Connection
from server import Server
from shared_time import files, run_many

SECONDS = 15
MOST = 0.1
# For as long as a file is there: a server that a signal ends leaves its programs.
WRITES = "while [ -e {} ]; do dd if=/dev/zero of=f bs=1M count=200 conv=fsync 2>/dev/null; done"


def waits(port):
    """How long each of the small calls took that were made one by one."""
    client, found, end = Connection(port), [], time.monotonic() + SECONDS
    find = m.find_missing("", [m.digest(b"not there")])
    while time.monotonic() < end:
        begun = time.perf_counter()
        client.call(m.FIND_MISSING, [find])
        found.append(time.perf_counter() - begun)
        time.sleep(0.002)
    client.close()
    return sorted(found)


def main():
    parser = argparse.ArgumentParser(description=__doc__, formatter_class=argparse.RawDescriptionHelpFormatter)
    parser.add_argument("program")
    parser.add_argument("--work", default="/dev/shm")
    given = parser.parse_args()
    with tempfile.TemporaryDirectory(dir=given.work) as folder, tempfile.NamedTemporaryFile() as writes:
        teams = [("red", 4 * 10**9, 16), ("blue", 10**7)]
        with Server(given.program, teams, 2**62, folder=folder) as server:
            with Peer(server.ports[0]) as peer:
                for number in range(4):
                    action = Action(["/bin/sh", "-c", f": {number}; {WRITES.format(writes.name)}"], do_not_cache=True)
                    peer.store(action.blobs)
                    peer.begin(EXECUTE, m.field(6, action.digest))
                end = run_many(server.ports[0], 4, "head -c 300000 /dev/zero > o", files(50, 3000), files=["o"])
                time.sleep(3)
                found = waits(server.ports[1])
                end()
                writes.close()
                time.sleep(1)
    at = lambda part: f"{1000 * found[int(len(found) * part)]:.1f}"
    words = f"{len(found)} calls: half take {at(0.5)} ms at most, 99 of 100 {at(0.99)}, the longest {1000 * found[-1]:.1f}"
    print(f"{'ok' if found[-1] <= MOST else 'FAULT'} on {given.work}: {words}", flush=True)
    sys.exit(0 if found[-1] <= MOST else 1)


if __name__ == "__main__":
    main()
