#!/usr/bin/env python3
"""many_processes.py PROGRAM [--launcher FILE | --sandbox] [--others N]: what the end of an action costs beside other
processes.

PROGRAM is the built `remoted`. A team runs /bin/true again and again: one at a time, and without a launcher 16 at a time,
too. At first four other processes sleep on the host meanwhile, then N (4,000), then four again. With --sandbox
`launchers/sandbox` starts what is run, and those that sleep belong to four actions of another team. Beside N an action takes
no longer than 1.2 times as long as beside four, and a tenth of a millisecond; in the sandbox a microsecond more for each of
N, as the kernel looks at each process of the host where bubblewrap changes a root, and the same is so of the server's
processor time. A line for each says how long; it ends with status 1 where that is not so. It wants a quiet machine.
"""

import argparse
import os
import signal
import statistics
import tempfile
import threading
import time

from executing import Action, Peer
from launchers_sandbox import sandbox
from server import Server

SLOTS = 32
ACTIONS = 200
# How often it is measured each time. The best counts.
ROUNDS = 3
MOST = 1.2
SPARE = 0.0001
OF_PROCESS = 0.000001
# How many sleep at least, and how many actions have the programs of the other team; for how many seconds, by which these
# can be told.
FEW = 4
SECONDS = f"{1000 + os.getpid() / 10**7:.7f}"


def run(port, count):
    """How long each of so many actions took, one behind another."""
    took = []
    with Peer(port, 60) as peer:
        for _ in range(count):
            begun = time.perf_counter()
            done = peer.execute(Action(["/bin/true"], do_not_cache=True))
            took.append(time.perf_counter() - begun)
            if done.result is None or done.result.code != 0:
                raise SystemExit(f"/bin/true failed: {done.status.text}")
    return took


def measured(server, parallel):
    """Seconds of an action, and those of the server's processor time, where so many are run at a time."""
    found, count = [], ACTIONS // parallel * parallel
    for _ in range(ROUNDS):
        took, used = [], server.cpu_seconds()
        work = lambda: took.extend(run(server.ports[1], ACTIONS // parallel))
        threads = [threading.Thread(target=work) for _ in range(parallel)]
        for each in threads:
            each.start()
        for each in threads:
            each.join()
        if len(took) != count:
            raise SystemExit("an action was not answered")
        found.append((statistics.median(took), (server.cpu_seconds() - used) / count))
    return tuple(map(min, zip(*found)))


class Others:
    """Processes of the host that sleep, in sessions of their own."""

    def __init__(self, count):
        self.processes = [
            os.posix_spawn("/bin/sleep", ["sleep", SECONDS], os.environ, setsid=True) for _ in range(count)
        ]

    def end(self):
        for each in self.processes:
            os.kill(each, signal.SIGKILL)
        for each in self.processes:
            os.waitpid(each, 0)


class Programs:
    """The same of programs of another team."""

    def __init__(self, port, count):
        self.peer = Peer(port)
        script = f"for n in $(seq {count // FEW}); do sleep {SECONDS} & done; wait"
        actions = [Action(f"{script} # {place}", do_not_cache=True) for place in range(FEW)]
        self.calls = [self.peer.start(each) for each in actions]
        end = time.monotonic() + 120
        while len(self.processes()) < count:
            if time.monotonic() > end:
                raise SystemExit(f"FAULT only {len(self.processes())} programs sleep after two minutes")
            time.sleep(0.5)

    def processes(self):
        found = []
        for name in filter(str.isdigit, os.listdir("/proc")):
            try:
                with open(f"/proc/{name}/cmdline", "rb") as file:
                    if file.read() == b"sleep\0%s\0" % SECONDS.encode():
                        found.append(int(name))
            except OSError:
                pass
        return found

    def end(self):
        for each in self.processes():
            os.kill(each, signal.SIGKILL)
        for each in self.calls:
            self.peer.operations(each)
        self.peer.close()


def beside(server, parallel, others):
    """What is measured while others are there."""
    try:
        time.sleep(1)
        return measured(server, parallel)
    finally:
        others.end()


def compare(server, parallel, begin, count, is_used):
    """Says what an action takes beside few others and beside many, and whether that is little enough."""
    few, many, again = (beside(server, parallel, begin(each)) for each in (FEW, count, FEW))
    few = tuple(map(min, few, again))
    spare = SPARE + (OF_PROCESS * count if is_used else 0)
    is_quick = many[0] <= MOST * few[0] + spare
    is_well = is_quick and (not is_used or many[1] <= MOST * few[1] + spare)
    told = lambda found: f"{found[0] * 1000:.2f} ms ({found[1] * 1000:.2f} of the server's processor)"
    times = f"{told(few)} beside {FEW} processes, {told(many)} beside {count}"
    print(f"{'ok' if is_well else 'FAULT'} {parallel} at a time: {times}", flush=True)
    return is_well


def main():
    parser = argparse.ArgumentParser()
    parser.add_argument("program")
    way = parser.add_mutually_exclusive_group()
    way.add_argument("--launcher", type=os.path.abspath)
    way.add_argument("--sandbox", action="store_true")
    parser.add_argument("--others", type=int, default=4000)
    words = parser.parse_args()
    with tempfile.TemporaryDirectory(dir="/dev/shm") as folder, tempfile.TemporaryDirectory() as aside:
        launcher = sandbox(aside) if words.sandbox else words.launcher
        instances = [("red", 2 * 10**8, FEW), ("blue", 2 * 10**8, SLOTS)]
        with Server(words.program, instances, folder=folder, launcher=launcher) as server:
            begin = (lambda count: Programs(server.ports[0], count)) if words.sandbox else Others
            ways = [1] if launcher else [1, 16]
            if not all([compare(server, each, begin, words.others, words.sandbox) for each in ways]):
                raise SystemExit(1)


if __name__ == "__main__":
    main()
