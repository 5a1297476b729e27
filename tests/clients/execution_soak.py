#!/usr/bin/env python3
"""execution_soak.py PROGRAM [SECONDS] [--launcher L | --sandbox | --slurm | --slurm-sandbox] [--made-trees SIZE] [--plain]
[--seed N] [--megabytes N] [--slow FACTOR]: random actions, cut connections and a full disk.

PROGRAM is the built `remoted`. For SECONDS (600) six clients of one instance have random actions executed: with trees
and outputs that fill the disk and its inodes, programs that are not there, that run into their timeout, that leave
children, FIFOs, links and folders without rights behind. They wait, or reset the call, or cut or reset the connection.
Beside them another instance's client has its own small actions run, and blobs stored and read, and each answer of these
has to be right, or 13 `run failed` where the disk was full. The folder of `--work` is a file system in memory of N
megabytes (48) where the system lets one be mounted; else it is a plain folder, and the disk is never full. With
--made-trees most actions have one of a few directories that are made trees, which take so much of the disk at most: some
try to change it, and the other instance's client reads all of its own. With --plain, which root can give, the server is
a plain user's.
Then no process, folder or descriptor may be left, all slots are free, the lines on standard error are of the one kind,
and the server has as much memory as after a fifth of the time: nothing of all the jobs' texts is held. A line for each;
it ends with status 1 at the first that is not as said. --slow stretches all limits of time.
"""

import argparse
import collections
import os
import random
import re
import shutil
import socket
import struct
import subprocess
import tempfile
import threading
import time

import messages as m
import programs
import ways
from executing import PATH, Action, Executable, Link, Operation, Peer
from made_tree_stages import flat
from raw import frame
from server import Server, is_tree

SLOTS, QUOTA, CLIENTS = 6, 60_000_000, 6
# A number of a user for --plain.
PLAIN = 61_779
# Directories that are made trees: so many different ones, each of so many files.
TREES, FILES = 5, 100
# Everything ends by its timeout within so many seconds.
LONGEST = 4
LINE = re.compile(r"remoted: run (wild|calm) [1-9]\d* failed: (folder|start|launcher|too large|memory)")
# The quota is small, so what it drops was used a moment ago; clients are cut off, and lines are ten a second.
OF_OPERATORS = re.compile(r"remoted: (wild|calm): .+|remoted: \d+ lines were dropped|remoted: failed runs .+")

SCRIPTS = [
    "printf abc",
    "exit 3",
    "kill -9 $$",
    "cat in/* | wc -c",
    "head -c {size} /dev/zero > o",
    "head -c {size} /dev/zero",
    "head -c {size} /dev/zero >&2; exit 1",
    "mkdir t; cd t; seq {files} | xargs touch",
    "mkdir -p t/a/b; cd t/a; i=0; while [ $i -lt 90 ]; do mkdir s; cd s; i=$((i+1)); done; : > f",
    "sleep 1000 & sleep 1000 & printf abc",
    "sleep 1000 & (trap '' TERM; sleep 1000; :) & sleep 1000",
    "timeout 900 sleep 900 & sleep 0.05; printf abc",
    "(while :; do echo more >> o; done) & sleep 0.1",
    "(while :; do echo more >> t/$$; done) & mkdir t; sleep 0.05",
    "mkfifo o t; ln -s / l; printf abc",
    "mkdir -p t/u; chmod 0 t/u; chmod 0 t",
    "chmod 0 .; exit 2",
    "ln -s in o; rm -r in; mkdir in; ln -s .. in/up",
    "sleep 0.{short}; printf slow",
    "mkdir ../0-{next} 2>/dev/null; exit 1",
    "rm -rf ../$(basename $PWD); exit 0",
]
OF_TREES = [
    "cat lib/* | cksum",
    "cat lib/* > o; rm -rf lib; mv lib t; echo more >> lib/f1; mkdir -p lib/o; chmod 0 lib lib/f1; printf abc",
    "cd lib && sleep 1000 & (while :; do cat lib/*; done) > o & sleep 0.{short}",
    "sleep 1000 < lib/f1 & cp -r lib t; mkdir u; mv u lib; ln -s lib l",
]


class Wild:
    """A client that has random actions executed, and leaves them as it likes."""

    def __init__(self, options, port, folder, seed, counts):
        self.options, self.port, self.folder, self.counts = options, port, folder, counts
        self.dice, self.peer = random.Random(seed), None
        self.scripts = [*SCRIPTS, *(OF_TREES if options.made_trees else [])]

    def action(self):
        dice = self.dice
        tree = {"in": {"text": dice.randbytes(dice.choice([10, 300_000, 900_000])), "link": Link("nowhere")}}
        if dice.random() < 0.1:
            tree["in"] |= {f"f{number}": b"%d" % number for number in range(dice.choice([100, 2_000]))}
        if dice.random() < 0.05:
            tree["large"] = dice.randbytes(30_000_000 if dice.random() < 0.3 else 5_000_000)
        if self.options.made_trees and dice.random() < 0.8:
            tree["lib"] = flat(dice.randrange(TREES), FILES)
        words = [
            "/bin/sh",
            "-c",
            dice.choice(self.scripts).format(
                size=dice.choice([1000, 70_000, 3_000_000, 60_000_000]),
                files=dice.choice([10, 500, 20_000]),
                short=dice.randrange(10),
                next=dice.randrange(1, 20_000),
            ),
        ]
        if dice.random() < 0.04:
            words = dice.choice([["/no/such"], ["./in"], [""], ["./in/text"], ["/bin/sleep", "1000"]])
        if dice.random() < 0.1:
            tree["tool"], words = Executable(b"#!/bin/sh\nprintf tool\n"), ["./tool"]
        seconds, nanos = dice.choice([(LONGEST, 0), (LONGEST, 0), (1, 0), (0, 1_000_000), (0, 300_000_000)])
        variables = [PATH, ("MARK", self.folder)]
        return Action(words, tree, seconds, nanos, dice.random() < 0.7, variables=variables, paths=["o", "t", "l"])

    def go(self, is_over):
        while not is_over.is_set():
            try:
                self.once()
            except (ConnectionError, socket.timeout) as error:
                self.counts[f"lost: {error}"] += 1
                self.leave()
        self.leave()

    def leave(self):
        if self.peer:
            self.peer.close()
        self.peer = None

    def once(self):
        if self.peer is None:
            self.peer = Peer(self.port, 60 * self.options.slow)
        peer, dice = self.peer, self.dice
        started = [peer.start(self.action(), skip=dice.random() < 0.8) for _ in range(dice.choice([1, 1, 1, 3]))]
        end = dice.random()
        if end < 0.15:
            time.sleep(dice.random() * 0.3)
            if end < 0.07:
                peer.socket.setsockopt(socket.SOL_SOCKET, socket.SO_LINGER, struct.pack("ii", 1, 0))
            self.counts["connections cut"] += 1
            return self.leave()
        if end < 0.25:
            time.sleep(dice.random() * 0.2)
            for number in started:
                peer.socket.sendall(frame(3, 0, number, (8).to_bytes(4, "big")))
                peer.calls.pop(number)
            self.counts["calls reset"] += len(started)
            return None
        for number in started:
            messages, status = peer.end(number)
            if status != (0, ""):
                self.counts[f"calls refused: {status}"] += 1
                continue
            done = Operation(messages[-1])
            self.counts[f"done: {done.status.code} {done.status.text}" if done.status.code else "done"] += 1
        return None


class Calm:
    """A client that compares each answer with the right one."""

    def __init__(self, options, port, folder, counts, problems):
        self.options, self.port, self.folder, self.counts, self.problems = options, port, folder, counts, problems
        self.lib = flat("calm", FILES) if options.made_trees else {"f": b""}
        self.whole = b"".join(self.lib[name] for name in sorted(self.lib))

    def go(self, is_over):
        dice, number = random.Random(7), 0
        try:
            with Peer(self.port, 60 * self.options.slow) as peer:
                while not is_over.is_set():
                    number += 1
                    self.blobs(peer, dice)
                    self.action(peer, number)
        except (OSError, SystemExit) as error:
            self.problems.append(f"the other instance's client: {error!r}")

    def blobs(self, peer, dice):
        text, other = dice.randbytes(dice.randrange(1, 20_000)), dice.randbytes(40)
        peer.store([text])
        if peer.text(m.digest(text)) != text:
            self.problems.append("a blob that is read is another")
        answers, status = peer.call(m.FIND_MISSING, m.find_missing("calm", [m.digest(text), m.digest(other)]))
        if status[0] or m.every(answers[0], 2) != [m.digest(other)]:
            self.problems.append("a blob that is missing is not found missing")
        self.counts["calm calls"] += 3

    def action(self, peer, number):
        tree = {"f": b"%d" % number, "lib": self.lib}
        # on a full disk it ends with 1 or 2
        code = number % 3 * 40
        script = f"set -e; cat f; cat lib/* > o; printf {number} >> o; exit {code}"
        action = Action(["/bin/sh", "-c", script], tree, LONGEST, paths=["o"], variables=[PATH, ("MARK", self.folder)])
        done = peer.execute(action)
        if done.status.code in (4, 13) or (done.result and done.result.code in (1, 2)):
            self.counts["calm actions that failed on the full disk"] += 1
            return
        text = b"%d" % number
        found = done.result and (done.result.code, done.result.stdout, done.result.files)
        if found != (code, m.digest(text), {"o": (m.digest(self.whole + text), False)}):
            self.problems.append(f"action {number}: {done.status.code} {done.status.text} {found}")
        self.counts["calm actions"] += 1


def soak(server, options, share, counts):
    is_over, problems = threading.Event(), []
    seed, seconds = options.seed + int(share * 10), options.seconds * share
    clients = [Wild(options, server.ports[0], server.folder, seed * 100 + place, counts) for place in range(CLIENTS)]
    clients.append(Calm(options, server.ports[1], server.folder, counts, problems))
    threads = [threading.Thread(target=each.go, args=(is_over,)) for each in clients]
    for each in threads:
        each.start()
    end = time.monotonic() + seconds
    while time.monotonic() < end and not problems and server.is_running():
        time.sleep(0.2)
    is_over.set()
    for each in threads:
        each.join()
    if problems or not server.is_running():
        raise SystemExit(
            f"FAULT {'; '.join(problems[:5]) or 'the server ended with ' + str(server.process.returncode)}"
        )


def settled(server, slow, made):
    """Waits until all has ended, and looks at what is left."""
    left = programs.settled(lambda: programs.running(server.folder, server.process.pid), (LONGEST + 20) * slow)
    if left:
        raise SystemExit(f"FAULT programs are left: {left}")
    # an action makes folders of runs to come, which are then not the server's
    names = lambda: [name for name in server.entries() if not is_tree(name)]
    stray = programs.settled(lambda: [name for name in names() if not is_made(server, name)], 20 * slow)
    if stray:
        raise SystemExit(f"FAULT folders are left: {stray[:10]}")
    for name in names():
        os.rmdir(os.path.join(server.start(), name))
    zombies = programs.settled(lambda: programs.zombies(server.process.pid), 10 * slow)
    if zombies:
        raise SystemExit(f"FAULT {len(zombies)} ended programs were not waited for")
    time.sleep(3)
    made.append((server.descriptors(), server.resident_megabytes()))


def is_made(server, name):
    """Whether an action made it: an empty folder of a run to come, or of one that then failed."""
    path = os.path.join(server.start(), name)
    return (
        re.fullmatch(r"0-\d+", name)
        and os.path.isdir(path)
        and not os.listdir(path)
        and os.stat(path).st_mode & 0o777 == 0o755
    )


def filled(server, slow):
    """Puts other blobs in the place of all that the instances store."""
    for port in server.ports:
        with Peer(port, 120 * slow) as peer:
            for _ in range(QUOTA // 2_000_000):
                peer.store([os.urandom(1_990_000)])


def slots(server, slow):
    """How many actions run at once."""
    with Peer(server.ports[0], 120 * slow) as peer:
        script = f"date +%s.%N; sleep {0.5 * slow}; date +%s.%N"
        variables = [PATH, ("MARK", server.folder)]
        calls = [
            peer.start(Action(["/bin/sh", "-c", f": {n}; {script}"], {}, int(LONGEST * 5 * slow), variables=variables))
            for n in range(3 * SLOTS)
        ]
        spans = [peer.text(peer.operations(number)[-1].result.stdout).decode().split() for number in calls]
    spans = [(float(begun), float(ended)) for begun, ended in spans]
    return max(sum(a <= begun < b for a, b in spans) for begun, _ in spans)


def told(server, counts):
    said = collections.Counter()
    for line in server.said():
        if OF_OPERATORS.fullmatch(line):
            continue
        match = LINE.fullmatch(line)
        if match is None:
            raise SystemExit(f"FAULT on standard error: {line}")
        said[f"{match[1]} {match[2]}"] += 1
    for kind, count in sorted([*counts.items(), *((f"lines: {kind}", count) for kind, count in said.items())]):
        print(f"   {count:,} {kind}")


def run(options, folder, is_small):
    counts, made = collections.Counter(), []
    instances = [("wild", QUOTA, SLOTS), ("calm", QUOTA, 2)]
    user = {"user": PLAIN, "group": PLAIN, "extra_groups": []} if options.plain else {}
    more = {"launcher": options.way.launcher, "extra": options.way.extra, **user}
    with Server(options.program, instances, 2**62, None, folder, True, **more) as server:
        filled(server, options.slow)
        for share in [0.2, 0.8]:
            soak(server, options, share, counts)
            settled(server, options.slow, made)
            filled(server, options.slow)
            made[-1] = (made[-1][0], server.resident_megabytes())
            trees = [name for name in server.entries() if is_tree(name)]
            print(
                f"ok after {options.seconds * share:.0f} s no process and no folder is left but {len(trees)} of made trees; "
                f"{made[-1][0]} descriptors, {made[-1][1]:.0f} MB",
                flush=True,
            )
        told(server, counts)
        if made[1][0] > made[0][0] + 3:
            raise SystemExit(f"FAULT {made[1][0] - made[0][0]} descriptors more")
        if made[1][1] > made[0][1] + 60:
            raise SystemExit(f"FAULT {made[1][1] - made[0][1]:.0f} MB more")
        at_once = slots(server, options.slow)
        if at_once != SLOTS:
            raise SystemExit(f"FAULT {at_once} of {SLOTS} slots are at work at once")
        print(
            f"ok all {SLOTS} slots are free, memory and descriptors are what they were; "
            f"peak of memory {server.peak_megabytes():,.0f} MB"
        )
    print("ok on a full disk" if is_small else "note: no file system could be mounted, so the disk was never full")


def main():
    parser = argparse.ArgumentParser(description=__doc__, formatter_class=argparse.RawDescriptionHelpFormatter)
    parser.add_argument("program")
    parser.add_argument("seconds", type=float, nargs="?", default=600)
    parser.add_argument("--seed", type=int, default=1)
    parser.add_argument("--megabytes", type=int, default=48)
    parser.add_argument("--plain", action="store_true")
    parser.add_argument("--slow", type=float, default=1.0, metavar="FACTOR")
    ways.add_ways(parser)
    ways.add_made_trees(parser)
    options = parser.parse_args()
    beside = tempfile.mkdtemp(prefix="execution-soak-way-")
    os.chmod(beside, 0o755)
    try:
        with ways.made(options, beside) as options.way:
            on_small_disk(options)
    finally:
        shutil.rmtree(beside, ignore_errors=True)


def on_small_disk(options):
    folder = tempfile.mkdtemp(prefix="execution-soak-")
    size = f"size={options.megabytes}m,nr_inodes=5000,mode=0755"
    if options.plain:
        os.chown(folder, PLAIN, PLAIN)
        size += f",uid={PLAIN},gid={PLAIN}"
    mounted = subprocess.run(["mount", "-t", "tmpfs", "-o", size, "tmpfs", folder], capture_output=True).returncode == 0
    try:
        run(options, folder, mounted)
    finally:
        for number in programs.running(folder):
            os.kill(number, 9)
        if mounted:
            subprocess.run(["umount", "-l", folder])
        shutil.rmtree(folder, ignore_errors=True)


main()
