#!/usr/bin/env python3
"""executions.py PROGRAM [PART ..] [--count N] [--seconds N] [--in DIR] [--pictures FOLDER]: what running
actions costs a server, and others.

PROGRAM is the built `remoted`. The parts, all of them if none is given:
  rates   one client has /bin/true run N times (2,000), with 4 and with 64 slots: actions a second, the server's
          processor time an action, and that of its children; beside that the plain cost of making a folder, starting
          /bin/true in it and removing it (`plain_runs.c`, which needs `cc`), with `setsid` before it and without;
          all in a folder below --in (/dev/shm), since file systems on disks differ much in what a new file costs
  beside  FindMissingBlobs of one instance, a call each 2 milliseconds, alone and then beside another instance whose
          actions have outputs of 100 MB, and input trees of 10,000 files: median, 99th percentile and longest, in
          milliseconds, N seconds (10) each
  replay  processor time of calls that `remoted replay` carries out (`execution_events.py`), the least of five runs
"""

import argparse
import multiprocessing
import os
import resource
import subprocess
import sys
import tempfile
import time

HERE = os.path.dirname(os.path.abspath(__file__))
sys.path.insert(0, os.path.join(HERE, "..", "tests", "clients"))

import messages as m  # noqa: E402
import pictures  # noqa: E402
from executing import EXECUTE, Action, Operation, Peer  # noqa: E402
from server import Server  # noqa: E402

TRUE = "/bin/true"


# rates


def executed(peer, action, count, at_once):
    """Has an action run so many times, with as many calls at a time, and gives the seconds that it took."""
    request = m.field(3, 1) + m.field(6, action.digest)
    open_calls, begun, ended, start = set(), 0, 0, time.monotonic()
    while ended < count:
        while begun < count and len(open_calls) < at_once:
            open_calls.add(peer.begin(EXECUTE, request))
            begun += 1
        for number in peer.read():
            call = peer.calls[number]
            if call.status is None:
                continue
            done = Operation(call.messages[-1])
            if call.status[0] or done.result is None or done.result.code:
                raise SystemExit(f"an action failed: {call.status} {done.status.code} {done.status.text}")
            open_calls.remove(number)
            del peer.calls[number]
            ended += 1
    return time.monotonic() - start


def rates(options):
    action = Action([TRUE], variables=(), do_not_cache=True)
    rows = []
    for slots in [4, 64]:
        with tempfile.TemporaryDirectory(dir=options.below) as folder, Server(
            options.program, [("main", 10**9, slots)], 2**62, None, folder
        ) as server, Peer(server.ports[0]) as peer:
            peer.store(action.blobs)
            executed(peer, action, 200, 100)
            own, children = server.cpu_seconds(), server.children_seconds()
            passed = executed(peer, action, options.count, min(100, 2 * slots))
            each = lambda used: used / options.count * 1e6
            own, children = each(server.cpu_seconds() - own), each(server.children_seconds() - children)
            rows.append((f"{slots} slots", {"actions": round(options.count / passed)}))
            line = f"{TRUE}, {slots} slots: {options.count / passed:,.0f} actions/s"
            print(
                f"{line}, {own:,.0f} us of the server's processor time an action, {children:,.0f} of its children's",
                flush=True,
            )
    plain(options, rows)
    pictures.bars(options.pictures, "rates", f"Runs of {TRUE}", "a second", rows)


def plain(options, rows):
    with tempfile.TemporaryDirectory(dir=options.below) as folder:
        program = os.path.join(folder, "plain_runs")
        subprocess.run(["cc", "-O2", "-o", program, os.path.join(HERE, "plain_runs.c")], check=True)
        for words in [[TRUE], ["/usr/bin/setsid", "--", TRUE]]:
            for at_once in [4, 64]:
                told = subprocess.run(
                    [program, str(options.count), str(at_once), *words],
                    cwd=folder,
                    capture_output=True,
                    text=True,
                    check=True,
                )
                rate, own, children = (float(word) for word in told.stdout.split())
                rows.append((f"plainly, {os.path.basename(words[0])}, {at_once} at a time", {"actions": round(rate)}))
                line = f"plainly, {' '.join(words)}, {at_once} at a time: {rate:,.0f} runs/s"
                print(f"{line}, {own:,.0f} us of processor time a run, {children:,.0f} of its children's", flush=True)


# beside


def work(port, kind, folder):
    """Has actions of one kind run until the process is ended, and writes a line for each."""
    name = f"{folder}/{kind.replace(' ', '-')}"
    with Peer(port) as peer, open(name, "w") as told:
        tree = {f"f{number:05}": b"%d" % number for number in range(10_000)} if "tree" in kind else {}
        script = "yes $$ | head -c 100000000 > out" if "outputs" in kind else "exit 0"
        action = Action(["/bin/sh", "-c", script], tree, files=["out"], do_not_cache=True)
        peer.store(action.blobs)
        while True:
            done = peer.execute(action, skip=True)
            if done.result is None or done.result.code:
                told.write(f"FAULT {done.status.code} {done.status.text}\n")
            told.write("ran\n")
            told.flush()


def times(port, seconds):
    """How long calls take, in milliseconds: from when each is sent, and from when it was due, one each 2 ms."""
    request, sent, due = m.find_missing("", [m.digest(b"%d" % number) for number in range(10)]), [], []
    with Peer(port) as peer:
        first = time.perf_counter()
        for number in range(int(seconds / 0.002)):
            planned = first + number * 0.002
            time.sleep(max(0, planned - time.perf_counter()))
            begun = time.perf_counter()
            peer.call(m.FIND_MISSING, request)
            end = time.perf_counter()
            sent.append((end - begun) * 1000)
            due.append((end - planned) * 1000)
            if end - first > 3 * seconds:
                break
    return sorted(sent), sorted(due)


def part(found, share):
    return found[min(len(found) - 1, int(len(found) * share))]


def shown(sent, due):
    line = f"median {part(sent, 0.5):.2f} ms, 99th percentile {part(sent, 0.99):.2f} ms, longest {sent[-1]:.1f} ms"
    return f"{line}; of those due each 2 ms {part(due, 0.5):.2f}, {part(due, 0.99):.2f} and {due[-1]:.1f} ms"


def beside(options):
    kinds = [[], ["outputs of 100 MB"], ["trees of 10,000 files"], ["outputs of 100 MB", "trees of 10,000 files"]]
    rows = []
    for names in kinds:
        with Server(options.program, [("calm", 10**9, 0), ("busy", 2 * 10**9, 4)], 2**62) as server:
            with tempfile.TemporaryDirectory() as folder:
                workers = [multiprocessing.Process(target=work, args=(server.ports[1], name, folder)) for name in names]
                for each in workers:
                    each.start()
                time.sleep(3 if names else 0)
                used = server.cpu_seconds()
                begun = time.monotonic()
                found = times(server.ports[0], options.seconds)
                used = (server.cpu_seconds() - used) / (time.monotonic() - begun)
                for each in workers:
                    each.terminate()
                    each.join()
                lines = [line for name in os.listdir(folder) for line in open(os.path.join(folder, name))]
                ran, faults = lines.count("ran\n"), [line for line in lines if line.startswith("FAULT")]
            what = " and ".join(names) or "alone"
            sent = found[0]
            rows.append((what, {"99th percentile": round(part(sent, 0.99), 2), "longest": round(sent[-1], 2)}))
            print(
                f"FindMissingBlobs of 10, {what}: {shown(*found)}; {ran} actions ran, {used:.0%} of a processor",
                flush=True,
            )
            if faults:
                raise SystemExit(f"{len(faults)} actions failed: {faults[0]}")
    pictures.bars(options.pictures, "beside", "FindMissingBlobs beside actions of others", "ms", rows)


# replay

KINDS = ["read", "result", "cached", "result10", "cached10", "failed", "exited", "outputs", "large", "waiting", "tree"]
COUNTS = {"tree": 20, "waiting": 1_000, "large": 3_000}
ROUNDS = 5


def used_by(program, events):
    """The processor time of a run, of whose events none may be refused."""
    with tempfile.TemporaryFile() as out:
        before = resource.getrusage(resource.RUSAGE_CHILDREN)
        subprocess.run([program, "replay", events], stdout=out, check=True)
        after = resource.getrusage(resource.RUSAGE_CHILDREN)
        out.seek(0)
        if any(line.startswith((b"refused", b"stray")) for line in out):
            raise SystemExit(f"an event of {events} is refused")
    return after.ru_utime + after.ru_stime - before.ru_utime - before.ru_stime


def replayed(program):
    """Microseconds of processor time of a call of each kind, of runs that follow each other by turns."""
    best = {}
    with tempfile.TemporaryDirectory() as folder:
        runs = [(kind, count) for kind in KINDS for count in [0, COUNTS.get(kind, 20_000)]]
        for kind, count in runs:
            with open(f"{folder}/{kind}-{count}", "w") as events:
                words = [sys.executable, os.path.join(HERE, "execution_events.py"), kind, str(count)]
                subprocess.run(words, stdout=events, check=True)
        for _ in range(ROUNDS):
            for kind, count in runs:
                used = used_by(program, f"{folder}/{kind}-{count}")
                best[kind, count] = min(used, best.get((kind, count), used))
    return {kind: (best[kind, count] - best[kind, 0]) / count * 1e6 for kind, count in runs if count}


def replay(options):
    each = replayed(options.program)
    for kind, used in each.items():
        print(f"{kind}: {used:,.1f} us of processor time", flush=True)
    rows = [(kind, {"us": round(used, 1)}) for kind, used in each.items()]
    pictures.bars(options.pictures, "replay", "Processor time of calls", "us", rows)
    for outputs in ["", "10"]:
        result, cached = each["result" + outputs], each["cached" + outputs]
        less = (cached - each["read"]) / (result - each["read"])
        print(
            f"Execute of a cached action beside GetActionResult, {outputs or 1} outputs: "
            f"{cached / result:.2f} times; {less:.2f} without reading in"
        )
    print(f"Execute to QUEUED: {each['waiting']:.1f} us; to EXECUTING and a failed run: {each['failed']:.1f} us")
    for kind, size in [("outputs", "16"), ("large", "1,000")]:
        more = each[kind] - each["exited"]
        print(f"an outcome with 10 outputs of {size} bytes more than one with none: {more:.1f} us")
    print(f"a tree of 10,000 files more than an empty one: {each['tree'] - each['failed']:,.0f} us")


def main():
    parser = argparse.ArgumentParser(description=__doc__, formatter_class=argparse.RawDescriptionHelpFormatter)
    parser.add_argument("program")
    parser.add_argument("parts", nargs="*", choices=["rates", "beside", "replay", []], default=[])
    parser.add_argument("--count", type=int, default=2_000)
    parser.add_argument("--seconds", type=int, default=10)
    parser.add_argument("--in", dest="below", default="/dev/shm")
    pictures.add_option(parser)
    options = parser.parse_args()
    parts = {"rates": rates, "beside": beside, "replay": replay}
    for name in options.parts or parts:
        parts[name](options)


if __name__ == "__main__":
    main()
