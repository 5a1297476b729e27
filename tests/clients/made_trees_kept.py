"""How `made_trees.py` has trees kept: within their limit, on disks that are full, and wanted by many runs at once."""

import contextlib
import os
import pathlib
import random
import subprocess
import time

from ending_jobs import put
from execution_context import Fault, expect
from made_tree_stages import NODE, Asked, counted, flat, toolchain
from server import is_tree
from teams import Skipped


def sizes(folders):
    """What trees take: the bytes of their files, and something for each node."""
    found = 0
    for folder in folders:
        for above, _, files in os.walk(folder):
            with contextlib.suppress(FileNotFoundError):
                found += NODE + sum(os.lstat(os.path.join(above, name)).st_size + NODE for name in files)
    return found


def limit_in_use(stage):
    """There is room for one tree, and that is in use when another is wanted."""
    stage.needs_trees()
    one, two = flat(f"{stage.folder}1", 100, 10_000), flat(f"{stage.folder}2", 100, 10_000)
    with stage.serve(counted(one) * 3 // 2) as (server, red):
        stage.made(red, {"a": one})
        first = stage.trees(server)
        stage.looked(red, {"b": two})
        with stage.held(server, red, {"a": one}) as held:
            for count in range(4):
                found = stage.looked(red, {"b": two, "a": one, "n": b"%d" % count})
                expect(found, ["a"], "what is bound while the first one is in use")
            expect(stage.trees(server), first, "folders of trees")
        expect(held.bound, ["a"], "what was bound for who had it all the while")
        runs = stage.made(red, {"b": two})
        stage.settles(server, 1)
        expect(set(stage.trees(server)) & set(first), set(), "the folder of the first one")
        stage.made(red, {"a": one})
        stage.settles(server, 1)
        stage.blue_runs(server)
    return f"the other one is copied meanwhile, and made {runs} runs after nobody had the first one"


def limit_of_all(stage):
    """Twelve trees are wanted in turn at random, and there is room for four: never have trees more than their limit."""
    stage.needs_trees()
    made = random.Random(1)
    trees = [flat(f"{stage.folder}{number}", 70, 5_000) for number in range(12)]
    size, most, bound = counted(trees[0]) * 9 // 2, 0, 0
    with stage.serve(size) as (server, red):
        for _ in range(15):
            wanted = [trees[made.choice([0, 1, made.randrange(12)])] for _ in range(8)]
            bound += sum(map(len, stage.all_looked(red, [{"t": each} for each in wanted])))
            most = max(most, sizes(stage.trees(server)))
            expect(most <= size, True, f"{most} bytes of trees of at most {size}")
        stage.nothing_left(server, 20, is_tree)
        stage.blue_runs(server)
    expect(bound > 20, True, f"{bound} of 120 are bound")
    return f"at most {most} bytes of {size}; {bound} of 120 inputs were bound"


def least_used_goes(stage):
    """There is room for two trees, and a third one is wanted."""
    stage.needs_trees()
    trees = [flat(f"{stage.folder}{number}", 70, 5_000) for number in range(3)]
    with stage.serve(counted(trees[0]) * 5 // 2) as (server, red):
        for tree in trees[:2]:
            stage.made(red, {"t": tree})
        both = stage.trees(server)
        expect(stage.looked(red, {"t": trees[0]}), ["t"], "what is bound for the first one")
        stage.made(red, {"t": trees[2]})
        stage.settles(server, 2)
        expect(len(set(both) & set(stage.trees(server))), 1, "folders of before")
        expect(stage.looked(red, {"t": trees[0]}), ["t"], "what is bound for the first one again")
        expect(stage.looked(red, {"t": trees[1]}), [], "what is bound for the second one")
    return "that goes which was used longest ago"


@contextlib.contextmanager
def small_disk(stage, size):
    """The folder of --work is on a disk of this size."""
    user, group = stage.owner()
    how = f"size={size},mode=755,uid={user},gid={group}"
    if subprocess.run(["mount", "-t", "tmpfs", "-o", how, "none", stage.work], capture_output=True).returncode:
        raise Skipped("no disk can be mounted here")
    try:
        yield
    finally:
        subprocess.run(["umount", "--lazy", stage.work], check=True)


def fill(stage, server, left):
    """Takes the disk but for so many bytes, once no run is left, and gives the file's path."""
    stage.nothing_left(server, 20, is_tree)
    path = os.path.join(stage.work, "filler")
    with open(path, "wb", 0) as file:
        room = os.statvfs(stage.work)
        with contextlib.suppress(OSError):
            for _ in range((room.f_bavail * room.f_bsize - left) // 4096):
                file.write(bytes(4096))
    return path


def fails(red, stage, tree):
    done = red.execute(stage.action("true", tree=tree))
    expect((done.status.code, done.result), (13, None), "a run on a disk that is full")


def disk_full(stage):
    """The disk is full while a tree is made, and when it is bound."""
    tree = flat(stage.folder, 100, 100_000)
    with small_disk(stage, "50m"), stage.serve() as (server, red):
        for left in [5_000_000, 1_000_000, 200_000]:
            tree = {**tree, f"for-{left}": b""}
            stage.looked(red, {"tc": tree})
            filler = fill(stage, server, left)
            for count in range(3):
                fails(red, stage, {"tc": tree, "n": b"%d" % count})
            os.remove(filler)
            expect(stage.looked(red, {"tc": tree}) in ([], stage.bound("tc")), True, "what is bound with room again")
            stage.made(red, {"tc": tree})
        filler = fill(stage, server, 0)
        fails(red, stage, {"tc": tree})
        os.remove(filler)
        stage.nothing_left(server, 20, is_tree)
        expect(stage.looked(red, {"tc": tree}), stage.bound("tc"), "what is bound with room again")
        stage.blue_runs(server)
    return "runs fail then, and with room again all inputs are there"


def full_for_many(stage):
    """The disk has no room for a tree that six runs want at once."""
    tree = flat(stage.folder, 100, 100_000)
    with small_disk(stage, "70m"), stage.serve() as (server, red):
        stage.looked(red, {"tc": tree})
        filler = fill(stage, server, 5_000_000)
        asked = [stage.action("true", tree={"tc": tree}) for _ in range(6)]
        red.store([blob for each in asked for blob in each.blobs])
        done = [red.operations(number)[-1] for number in [red.start(each, is_stored=True) for each in asked]]
        expect({each.status.code for each in done}, {13}, "how they end")
        os.remove(filler)
        for count in range(4):
            found = stage.all_looked(red, [{"tc": tree, "n": b"%d" % count}] * 4)
        expect(found, [stage.bound("tc")] * 4, "what is bound at last")
        stage.settles(server, 1)
    return "all fail, and none waits for ever"


def many_at_once(stage):
    """Sixty-four slots want the same new tree at once, which was seen before."""
    tree = toolchain(stage.folder, 500, 200)
    script = "; stat -c %i tc/bin/f8 >inode"
    with stage.serve(slots=(64, 2)) as (server, red):
        stage.looked(red, {"tc": tree, "n": b""})
        asked = [Asked(stage, {"tc": tree, "n": b"%d" % number}, script, files=["inode"]) for number in range(64)]
        red.store([blob for each in asked for blob in each.action.blobs])
        begun = time.monotonic()
        numbers = [red.start(each.action, is_stored=True) for each in asked]
        done = [red.operations(number)[-1] for number in numbers]
        took = time.monotonic() - begun
        expect({(each.status.code, each.result and each.result.code) for each in done}, {(0, 0)}, "how they end")
        inodes = {each.result.files["inode"] for each in done}
        bound = [red.stream_text(each.result.stderr) for each in done].count(b"tc\n")
        stage.settles(server, 1)
        if not stage.is_off:
            expect((len(inodes), bound), (1, 64), "how many files are the tree's one, and in how many runs it is bound")
        stage.blue_runs(server)
    return f"one makes it, and all have it: {took:.1f} s"


def opposite_order(stage):
    """Two actions want two trees in opposite order, and four more one of them, all at once."""
    with stage.serve() as (server, red):
        for turn in range(8):
            one, two = flat(f"{stage.folder}1{turn}", 200), flat(f"{stage.folder}2{turn}", 200)
            stage.all_looked(red, [{"a": one}, {"b": two}])
            wanted = [{"a": one, "b": two}, {"a": two, "b": one}, {"c": one}, {"c": two}, {"c": {"d": one}}, {"d": two}]
            stage.all_looked(red, wanted)
            expect(stage.looked(red, wanted[0]), stage.bound("a", "b"), "what is bound then")
        stage.settles(server, 16)
    return "none waits for ever, and both are made, eight times"


def cancelled(stage):
    """An operator ends all of red's jobs while one makes a tree and others wait for it, at random moments."""
    path = pathlib.Path(stage.make("lines"), "jobs")
    ended = 0
    with stage.serve(extra=["--end", str(path)]) as (server, red):
        for turn in range(8):
            tree = flat(f"{stage.folder}{turn}", 2_000, 300)
            stage.looked(red, {"tc": tree})
            asked = [stage.action("sleep 0.3", tree={"tc": tree}) for _ in range(6)]
            red.store([blob for each in asked for blob in each.blobs])
            numbers = [red.start(each, is_stored=True) for each in asked]
            time.sleep(turn * 0.02)
            put(path, "red\n")
            done = [red.operations(number)[-1] for number in numbers]
            codes = {each.status.code for each in done}
            expect(codes <= {0, 13}, True, f"how they end: {codes}")
            ended += sum(each.status.code == 13 for each in done)
            stage.waits(lambda: not path.exists(), 10, "the lines are taken")
            stage.made(red, {"tc": tree})
        stage.nothing_left(server, 30, is_tree)
        stage.blue_runs(server)
    return f"{ended} of 48 jobs were ended, and each tree was made by the next ones"


def timed_out(stage):
    """Actions come to their timeouts while they make a tree, or wait for one."""
    count = 0
    with stage.serve() as (server, red):
        for turn in range(8):
            tree = flat(f"{stage.folder}{turn}", 2_000, 300)
            stage.looked(red, {"tc": tree})
            after = {"seconds": 2 ** turn // 50, "nanos": 2 ** turn * 20_000_000 % 10**9}
            asked = [stage.action("true", tree={"tc": tree}, **after) for _ in range(6)]
            red.store([blob for each in asked for blob in each.blobs])
            done = [red.operations(number)[-1] for number in [red.start(each, is_stored=True) for each in asked]]
            codes = [each.status.code for each in done]
            expect(set(codes) <= {0, 4}, True, f"how they end: {codes}")
            count += codes.count(4)
            stage.made(red, {"tc": tree})
        stage.nothing_left(server, 30, is_tree)
    if not count:
        raise Fault("none came to its timeout")
    return f"{count} of 48 came to it, and each tree was made by the next ones"


CASES = [
    limit_in_use,
    limit_of_all,
    least_used_goes,
    disk_full,
    full_for_many,
    many_at_once,
    opposite_order,
    cancelled,
    timed_out,
]
