"""What `executions.py` looks at of outputs, ends, results and watchers: each function says what holds, or raises `Fault`."""

import hashlib
import os
import socket
import struct
import threading
import time

import messages as m
import programs
from execution_context import Fault, expect, shell
from executing import COMPLETED, Action, Executable, Operation


# Outputs.


def outputs(c):
    script = """mkdir -p o/d; printf abc > o/file; printf run > o/run; chmod 755 o/run; printf x > o/odd
        chmod 410 o/odd
        : > o/none; ln -s file o/link; ln -s / o/link2; mkfifo o/fifo; printf inner > o/d/f; printf z > left"""
    asked = ["o/file", "o/missing", "o/link", "o/link2", "o/fifo", "o/none", "o/run", "o/odd", "o/d"]
    with c.peer() as peer:
        result = c.ran(peer, shell(script, paths=asked, folder="w")).result
        wanted = {"o/file": (m.digest(b"abc"), False), "o/none": (m.digest(b""), False)}
        wanted |= {"o/run": (m.digest(b"run"), True), "o/odd": (m.digest(b"x"), True)}
        expect(result.files, wanted, "output files")
        expect(
            {path: peer.tree(each) for path, each in result.trees.items()},
            {"o/d": {"f": (m.digest(b"inner"), False)}},
            "trees",
        )
        expect(peer.text(m.digest(b"inner")), b"inner", "what a tree's file has")
        older = c.ran(peer, shell(script, files=["o/file", "o/gone"], directories=["o", "gone"], folder="w")).result
        expect(list(older.files), ["o/file"], "by `output_files`")
        tree = peer.tree(older.trees["o"])
        expect(sorted(tree), ["d", "file", "none", "odd", "run"], "links and FIFOs of a tree are left out")
        expect(tree["odd"], (m.digest(b"x"), True), "who may run what")
        c.failed(peer, shell("mkdir a; echo > b", files=["a"], directories=["b"]), "folder")
    return "output files, modes, trees; what is missing, a link or a FIFO is left out; another kind is 13 `run failed`"


def output_trees(c):
    script = """mkdir -p t/a/b/c t/e t/é; printf 1 > t/z; printf 2 > t/a/y; chmod 755 t/a/y; printf 1 > t/a/b/c/x
        cd t; i=0; while [ $i -lt 300 ]; do printf $i > e/$i; i=$((i+1)); done"""
    with c.peer() as peer:
        result = c.ran(peer, shell(script, directories=["t", "none"])).result
        inner = {str(number): (m.digest(b"%d" % number), False) for number in range(300)}
        below = {"y": (m.digest(b"2"), True), "b": {"c": {"x": (m.digest(b"1"), False)}}}
        expect(peer.tree(result.trees["t"]), {"z": (m.digest(b"1"), False), "a": below, "é": {}, "e": inner}, "a tree")
        empty = c.ran(peer, shell("mkdir t", paths=["t"])).result
        expect({path: peer.tree(each) for path, each in empty.trees.items()}, {"t": {}}, "an empty tree")
        done = peer.execute(c.action(shell("mkdir t; : > t/$(printf '\\377')", paths=["t"])))
        expect((done.status.code, done.status.text), (13, "run failed"), "a name that is not UTF-8")
        c.lines += [line for line in c.server.said()[-1:] if f"main {done.name.rpartition('/')[2]} " in line]
        many = shell(
            "mkdir t; cd t; seq 10000 | xargs touch; mkdir -p ../u/1; cd ../u/1; seq 9998 | xargs touch",
            paths=["u", "t"],
        )
        expect(len(peer.tree(c.ran(peer, many).result.trees["t"])), 10_000, "a tree of 10,000 files")
        c.failed(peer, shell("mkdir t; cd t; seq 10001 | xargs touch", paths=["t"]), "folder")
        levels = "mkdir t; cd t; i=1; while [ $i -lt %d ]; do mkdir s; cd s; i=$((i+1)); done; : > f"
        c.ran(peer, shell(levels % 64, paths=["t"]))
        c.failed(peer, shell(levels % 65, paths=["t"]), "folder")
    return "trees of 10,000 nodes and 64 levels; one more of either is 13 `run failed`"


def replaced_directories(c):
    """A program puts other directories in the place of those that were made for its outputs, or came with its inputs."""
    old, new = {"d": {"e": {"o": b"old"}}}, (m.digest(b"new"), False)
    makes = "mkdir -p d/e; printf new > d/e/o"
    with c.peer() as peer:
        for script, tree in [
            ("rm -r d", {}),
            ("mv d other", {}),
            ("rm -r d", old),
            ("mv d other", old),
            ("mv d/e e", old),
        ]:
            for more in ({"paths": ["d/e/o"]}, {"files": ["d/e/o"]}):
                result = c.ran(peer, c.action(shell(f"{script}; {makes}", **more), tree=tree)).result
                expect(result.files, {"d/e/o": new}, f"after {script}, with {more}")
            result = c.ran(peer, c.action(shell(f"{script}; {makes}", paths=["d/e"]), tree=tree)).result
            expect(peer.tree(result.trees["d/e"]), {"o": new}, f"a tree after {script}")
        moved = shell("cd ..; mv w other; mkdir w; printf new > w/o", paths=["o"], folder="w")
        expect(c.ran(peer, moved).result.files, {"o": new}, "in another working directory")
        gone = c.ran(peer, c.action(shell("mv d other", paths=["d/e/o"]), tree=old)).result
        expect(gone.files, {}, "what was moved away is no output")
    return "outputs are what stands at their paths at the end, whatever became of the directories there before"


def large_streams(c):
    zeros = lambda byte, count: hashlib.sha256(byte * count).hexdigest()
    with c.peer() as peer:
        script = "head -c 50000000 /dev/zero; head -c 30000000 /dev/zero | tr '\\0' e >&2; head -c 70000 /dev/zero > o"
        result = c.ran(peer, shell(script, paths=["o"])).result
        hashes = [m.first(each, 1).decode() for each in [result.stdout, result.stderr, result.files["o"][0]]]
        expect(hashes, [zeros(b"\0", 50_000_000), zeros(b"e", 30_000_000), zeros(b"\0", 70_000)], "hashes")
        expect(len(peer.text(result.stderr)), 30_000_000, "standard error")
        both = c.ran(peer, shell("printf out; printf err >&2; printf more")).result
        expect((peer.text(both.stdout), peer.text(both.stderr)), (b"outmore", b"err"), "both streams")
        appended = c.said(peer, shell("printf 1; (printf 2; sleep 0.2; printf 4) & printf 3; wait; printf 5"))
        expect(sorted(appended.decode()), list("12345"), "a stream of two writers")
        expect(
            c.said(peer, shell("printf ab >/dev/stdout; printf c >>/dev/stdout; printf d")), b"abcd", "by /dev/stdout"
        )
    return "50 MB on standard output and 30 MB on standard error, each as written"


def too_large(c):
    with c.peer() as peer:
        c.failed(peer, shell("truncate -s 1073741825 o", paths=["o"]), "too large")
        c.failed(peer, shell("truncate -s 1073741824 o; printf x", paths=["o"]), "too large")
        c.failed(
            peer,
            shell("truncate -s 600000000 a; mkdir t; truncate -s 600000000 t/b; printf x >&2", paths=["a", "t"]),
            "too large",
        )
        c.ran(peer, shell("truncate -s 2000000000 not-asked-for"))
    return "outputs of more than 1,073,741,824 bytes together: the line `too large`"


def largest(c):
    with c.peer() as peer:
        begun = time.monotonic()
        result = c.ran(peer, shell("truncate -s 1073741823 o; printf x", paths=["o"])).result
        expect(m.first(result.files["o"][0], 2), 1_073_741_823, "the size")
        passed = time.monotonic() - begun
    peak = c.server.peak_megabytes()
    return f"outputs of 1,073,741,824 bytes together, in {passed:.1f} s; peak of memory {peak:,.0f} MB"


def over_quota(c):
    with c.peer(2) as peer:
        done = peer.execute(c.action("head -c 30000 /dev/zero"))
        expect((done.status.code, done.status.text, done.result), (8, "quota exceeded", None), "outputs over the quota")
        c.lines.append("remoted: small: runs that gave more than the quota of 20000 bytes, raise QUOTA: 1")
        expect(c.said(peer, shell("printf fits")), b"fits", "outputs that fit")
    with c.peer(3) as peer:
        peer.store([b"x"])
        status = peer.end(peer.start(Action(["/bin/true"]), is_stored=True))[1]
        expect(status, (12, "execution is off"), "an instance without slots")
    return "outputs over the quota are 8 `quota exceeded`; an instance without slots answers 12"


# Time.


def marked(c):
    return programs.running(c.server.folder, c.server.process.pid)


def timeouts(c):
    with c.peer() as peer:
        children = "sleep 1000 & (trap '' TERM HUP INT; sleep 1000; :) & nohup sleep 1000 >/dev/null 2>&1 &"
        script = children + " echo > file; sleep 1000"
        number = peer.start(c.action(shell(script, seconds=1, files=["file"])))
        peer.next(number), peer.next(number)
        begun = time.monotonic()
        done = peer.operations(number)[-1]
        passed = time.monotonic() - begun
        expect((done.status.code, done.status.text, done.result), (4, "timed out", None), "after a second")
        expect(0.8 < passed < 4 * c.slow, True, f"a timeout of a second took {passed:.2f} s")
        expect(programs.settled(lambda: marked(c), 5 * c.slow), {}, "processes that are left")
        tree = {f"f{number}": b"%d" % number for number in range(5_000)}
        done = peer.execute(c.action(shell("sleep 1000", nanos=1_000_000), tree=tree))
        expect((done.status.code, done.status.text), (4, "timed out"), "a millisecond")
        c.ran(peer, c.action("exit 0", seconds=3600))
    return f"1 s ends a program and its children after {passed:.2f} s, and a millisecond a tree that is being made"


def leftovers_of_programs(c):
    with c.peer() as peer:
        begun = time.monotonic()
        expect(c.said(peer, shell("sleep 1000 & printf abc")), b"abc", "with a child that has standard output open")
        expect(c.said(peer, shell("nohup sh -c 'sleep 1000; :' & sleep 0.2; printf abc")), b"abc", "with nohup")
        expect(
            c.said(peer, shell("(sleep 1000 & sleep 1000 & sleep 1000) & printf abc")),
            b"abc",
            "with a tree of children",
        )
        passed = time.monotonic() - begun
        expect(passed < 10 * c.slow, True, f"three runs took {passed:.1f} s")
        expect(programs.settled(lambda: marked(c), 5 * c.slow), {}, "processes that are left")
        writers = "(while :; do echo more >> o; done) & mkdir t; (while :; do echo x > t/$((n=(n+1)%1000)); done) & sleep 0.3"
        result = c.ran(peer, shell(writers, paths=["o", "t"])).result
        text = peer.text(result.files["o"][0])
        expect(m.digest(text), result.files["o"][0], "an output that a child still writes")
        expect(programs.settled(lambda: marked(c), 5 * c.slow), {}, "writers that are left")
    return "children that outlive their program, also with its streams open, are killed and hold nothing up"


def own_groups(c):
    with c.peer() as peer:
        expect(c.said(peer, shell("timeout 1000 sleep 999 & sleep 0.2; printf abc")), b"abc", "beside `timeout`")
        expect(
            programs.settled(lambda: marked(c), 5 * c.slow), {}, "a child in a process group of its own, by `timeout`, is left"
        )
        expect(
            c.said(peer, c.action(["/bin/bash", "-c", "set -m; sleep 998 & sleep 0.1; printf abc"])),
            b"abc",
            "job control",
        )
        expect(
            programs.settled(lambda: marked(c), 5 * c.slow), {}, "a child in a process group of its own, by job control, is left"
        )
    return "children in process groups of their own are killed too"


# Results and watchers.


def counted(c, name):
    """A file outside of all folders, to which each run of an action adds a line, and the action."""
    path = os.path.join(c.server.folder, name)
    c.kept.append(name)
    if os.path.exists(path):
        os.remove(path)
    return (lambda: len(open(path).readlines()) if os.path.exists(path) else 0), f"echo ran >> {path}; printf {name}"


def named_by_sha512(c):
    by, script = hashlib.sha512, "cat in/a; echo err >&2; printf abc > f; mkdir -p d/e; printf inner > d/e/x"
    with c.peer() as peer:
        action = c.action(shell(script, paths=["f", "d"]), tree={"in": {"a": b"given"}}, function=by)
        result = c.ran(peer, action).result
        expect(result.files, {"f": (m.digest(b"abc", by), False)}, "output files")
        tree = {path: peer.tree(each, by) for path, each in result.trees.items()}
        expect(tree, {"d": {"e": {"x": (m.digest(b"inner", by), False)}}}, "trees")
        expect((result.stdout, result.stderr), (m.digest(b"given", by), m.digest(b"err\n", by)), "streams")
        expect(peer.text(m.digest(b"inner", by)), b"inner", "what a tree's file has")
        expect(peer.cached(action).stdout, m.digest(b"given", by), "GetActionResult")
        lacking = c.action(shell("true"), tree={"a": b"not there by SHA-512"}, function=by)
        missing = lacking.blobs.pop(0)
        peer.store(lacking.blobs, by)
        done = peer.execute(lacking, is_stored=True)
        expect(done.status.missing, [f"blobs/{by(missing).hexdigest()}/{len(missing)}"], "what is missing")
    return "an action of SHA-512: its outputs, their trees and its streams are named by SHA-512"


def cached(c):
    ran, script = counted(c, "cached")
    with c.peer() as peer, c.peer() as second:
        action = c.action(shell(script))
        first = c.ran(peer, action)
        again = second.operations(second.start(action))
        expect([(each.stage, each.is_cached) for each in again], [(COMPLETED, True)], "the second time")
        expect((again[0].result.stdout, ran()), (m.digest(b"cached"), 1), "its result, and how often it ran")
        expect(again[0].name != first.name, True, "it has a number of its own")
        expect(second.cached(action).stdout, m.digest(b"cached"), "GetActionResult")
        skipped = c.ran(peer, action, skip=True)
        expect((skipped.is_cached, ran()), (False, 2), "with `skip_cache_lookup`")
    return (
        "a result is kept: the second time one done Operation with `cached_result`; `skip_cache_lookup` runs it again"
    )


def not_cached(c):
    ran, script = counted(c, "uncached")
    with c.peer() as peer:
        action = c.action(shell(script), do_not_cache=True)
        for _ in range(2):
            expect(c.ran(peer, action).is_cached, False, "not from the cache")
        expect((ran(), peer.cached(action)), (2, None), "how often it ran, and its result")
    return "an action that says `do_not_cache` runs each time, and no result is kept"


def watched(c):
    with c.peer() as peer, c.peer() as second:
        number = peer.start(c.action(shell("sleep 1; printf watched")))
        queued, executing = (Operation(peer.next(number)) for _ in range(2))
        watches = [each.wait(queued.name) for each in (second, peer, second)]
        done = peer.operations(number)[-1]
        for watcher, watch in zip((second, peer, second), watches):
            seen = watcher.operations(watch)
            expect([each.bytes for each in seen], [executing.bytes, done.bytes], "what a watcher sees")
        late = second.operations(second.wait(queued.name))
        expect([each.bytes for each in late], [done.bytes], "a late watcher")
        expect(second.end(second.wait("operations/123456789"))[1], (5, "unknown operation"), "a name that is none")
    with c.peer(1) as other:
        status = other.end(other.wait(f"operations/{10**6}"))[1]
        expect(status, (5, "unknown operation"), "another instance's name")
    return "WaitExecution on the same and on another connection sees the same Operations; later the last one"


def cut(c):
    ran, script = counted(c, "cut")
    action, reset = c.action(shell("sleep 0.7; " + script)), c.action(shell("sleep 0.7; printf reset"))
    peer, second = c.peer(), c.peer()
    for each, what in [(peer, action), (second, reset)]:
        number = each.start(what)
        each.next(number), each.next(number)
    peer.close()
    second.socket.setsockopt(socket.SOL_SOCKET, socket.SO_LINGER, struct.pack("ii", 1, 0))
    second.close()
    with c.peer() as third:
        end = time.monotonic() + 10 * c.slow
        while time.monotonic() < end and None in (third.cached(action), third.cached(reset)):
            time.sleep(0.1)
        expect(
            [each and each.stdout for each in (third.cached(action), third.cached(reset))],
            [m.digest(b"cut"), m.digest(b"reset")],
            "the results",
        )
        expect(ran(), 1, "how often it ran")
    return "the connection is cut while an action runs: the job goes on, and its result is kept"


def side_by_side(c):
    with c.peer() as peer, c.peer(1) as other:
        script = "date +%s.%N; sleep 0.5; date +%s.%N; pwd -P"
        calls = [(each, each.start(c.action(shell(f": {n}; {script}")))) for n in range(8) for each in (peer, other)]
        spans, folders = {peer: [], other: []}, {peer: set(), other: set()}
        for each, number in calls:
            words = each.text(each.operations(number)[-1].result.stdout).decode().split()
            spans[each].append((float(words[0]), float(words[1])))
            folders[each].add(os.path.basename(words[2]).split("-")[0])
        at_once = lambda these: max(sum(a <= begun < b for a, b in these) for begun, _ in these)
        most = at_once(spans[peer]), at_once(spans[other]), at_once(spans[peer] + spans[other])
        expect(most[0] <= 4 and most[1] <= 2, True, f"at once {most}")
        expect(most[0] >= 3 and most[1] == 2 and most[2] >= 5, True, f"at once {most}")
        expect((folders[peer], folders[other]), ({"0"}, {"1"}), "the folders' names")
        action = c.action(shell("printf mine"))
        c.ran(peer, action)
        expect(other.cached(action), None, "another instance's result")
        done = other.execute(action, is_stored=True)
        expect((done.status.code, done.status.text), (9, "missing blobs"), "another instance's blobs")
    return f"two instances, {most[0]} of 4 slots and {most[1]} of 2 at work at once; neither has the other's results"


def hundred(c):
    with c.peer() as peer, c.peer() as second:

        def ran(each, first):
            calls = [each.start(c.action(shell(f"printf {n}; exit {n % 3}"))) for n in range(first, first + 100)]
            for n, number in zip(range(first, first + 100), calls):
                done = each.operations(number)[-1]
                expect((done.result.code, done.result.stdout), (n % 3, m.digest(b"%d" % n)), f"action {n}")

        faults = []

        def guarded(each, first):
            try:
                ran(each, first)
            except (Fault, OSError, SystemExit) as fault:
                faults.append(fault)

        threads = [threading.Thread(target=guarded, args=pair) for pair in [(peer, 5_000), (second, 6_000)]]
        begun = time.monotonic()
        for each in threads:
            each.start()
        for each in threads:
            each.join()
        if faults:
            raise faults[0]
        passed = time.monotonic() - begun
    return f"two connections with 100 calls each at a time, each answer its own, in {passed:.1f} s"


def rights(c):
    """For a plain user's server: folders without rights."""
    with c.peer() as peer:
        c.ran(peer, shell("mkdir -p d/e; echo > d/e/f; chmod 0 d/e; chmod 0 d; chmod 500 ."))
        c.ran(peer, shell("mkdir d; echo > d/f; chmod 500 d"))
        stray = lambda: [name for name in c.server.entries() if name not in c.kept]
        expect(programs.settled(stray, 10 * c.slow), [], "folders without rights")
        c.failed(peer, shell("mkdir t; echo > t/f; chmod 0 t", paths=["t"]), "folder")
        c.failed(peer, shell("echo > f; chmod 0 f", paths=["f"]), "folder")
        told = c.said(peer, c.action(shell("id -u; ./run"), tree={"run": Executable(b"#!/bin/sh\nprintf run")}))
        expect(told, b"65534\nrun", "the user")
        expect(programs.settled(stray, 10 * c.slow), [], "folders")
    return (
        "programs are the server's user's; folders without rights are removed; an output that may not be read: `folder`"
    )
