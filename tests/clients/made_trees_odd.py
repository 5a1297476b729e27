"""Odd inputs of which `made_trees.py` has trees made, and programs that move what stands above a tree."""

import functools
import hashlib
import os

from execution_context import expect
from executing import Link
from made_tree_stages import LOOKING, flat, toolchain


def shapes():
    """Kinds of inputs, and how many directories are bound for the third action that has them."""
    deep = functools.reduce(lambda inner, _: {"d": inner}, range(60), {"leaf": b"x"})
    large = functools.reduce(lambda inner, level: {"d": inner, **flat(level, 64)}, range(60), {"e": {}})
    of_links = {f"l{number}": Link(f"f{number % 64}") for number in range(500)}
    yield "9,890 files", {"tc": {f"f{number}": b"%d" % (number % 7) for number in range(9_890)}}, 1
    yield "9,800 directories", {"tc": {**{f"d{number}": {} for number in range(9_800)}, **flat(1, 64)}}, 1
    yield "names of 255 bytes", {"tc": {"n" * 250 + f"{number:05}": b"%d" % number for number in range(100)}}, 1
    yield "a place of three such names", {"p" * 255: {"q" * 255: {"r" * 255: flat(2, 64), "s": {}}, **flat(3, 1)}}, 1
    yield "62 levels", {"tc": {"d": deep, **flat(4, 70)}}, 1
    yield "62 levels that are large each", large, 1
    yield "links, and one to itself", {"tc": {**flat(5, 64), **of_links, "loop": Link("loop")}}, 1
    yield "one directory at three places", {"a": flat(6, 64), "b": flat(6, 64), "c": {"a": flat(6, 64), "x": b""}}, 3
    yield "one that stands in another one, too", {"a": {"in": flat(7, 64), **flat(8, 64)}, "in": flat(7, 64)}, 2
    yield "files of 100 KB", {"tc": {f"f{number}": os.urandom(100_000) for number in range(70)}}, 1


def odd_shapes(stage):
    """Directories are as large, wide, deep, long or often there as they may be."""
    count = 0
    with stage.serve("2G") as (server, red):
        for what, tree, places in shapes():
            for number in range(3):
                # One file changes, beside what may be made.
                found = stage.looked(red, {f"{number}": b"", **tree})
            expect(len(found), 0 if stage.is_off else places, f"{what}: how many are bound")
            count += 1
        stage.blue_runs(server)
    return f"{count} kinds of inputs, and all of them are there"


def in_one_another(stage):
    """Four directories, each of which stands in the next one, are had by turns at other places."""
    one = flat(f"{stage.folder}1", 64)
    two = {"t": one, **flat(f"{stage.folder}2", 64)}
    three = {"u": two, **flat(f"{stage.folder}3", 64)}
    four = {"v": three, "t": one, "u": two}
    inputs = [{"t": one}, {"x": two}, {"y": {"v": three}}, {"w": four, "t": one}, {"a": three, "b": two, "c": one}]
    with stage.serve() as (server, red):
        for number in range(3):
            for tree in inputs:
                found = stage.looked(red, {"n": b"%d" % number, **tree})
        expect(found, stage.bound("a", "b", "c"), "what is bound for the last one")
        found = stage.all_looked(red, [{"n": b"%d" % number, **inputs[number % 5]} for number in range(20)])
        expect(all(found), not stage.is_off, "whether something is bound for each of 20 at once")
        stage.blue_runs(server)
    return "each has the outermost one, and all inputs are there"


def both_functions(stage):
    """The same directory is named by SHA-256 and by SHA-512."""
    tree = toolchain(stage.folder)
    with stage.serve() as (server, red):
        for number in range(3):
            for function in (hashlib.sha256, hashlib.sha512):
                action = stage.action(LOOKING, tree={"tc": tree, "n": b"%d" % number}, function=function)
                done = red.execute(action)
                expect((done.status.code, done.result and done.result.code), (0, 0), "how it ends")
                bound = red.stream_text(done.result.stderr)
        expect(bound, b"" if stage.is_off else b"tc\n", "what is bound for the last one")
        stage.settles(server, 2)
    return "each is a tree of its own"


def links_into(stage):
    """Links among the inputs lead into a tree, and outputs and working directories go through them."""
    tree = toolchain(stage.folder)
    links = {"l": Link("tc"), "f": Link("tc/bin/f8"), "gone": Link("tc/nothing")}
    links["d"] = {"up": Link("../tc/lib"), "x": b"y"}
    ways = {"l/o": {"files": ["l/o"]}, "l/bin/f8": {"files": ["l/bin/f8"]}, "l/new": {"directories": ["l/new"]}}
    ways |= {f"in {folder}": {"folder": folder} for folder in ("l", "l/bin", "l/new", "d/up")}
    left_out = [{"files": ["f"]}, {"files": ["gone"]}, {"directories": ["l"]}, {"paths": ["l"]}, {"paths": ["d/up"]}]
    with stage.serve() as (server, red):
        stage.made(red, {"tc": tree, **links})
        first = stage.trees(server)
        for what, more in ways.items():
            stage.fails(server, red, "folder", "true", tree={"tc": tree, **links}, **more)
        for more in left_out:
            result = stage.runs(red, "! echo x >gone; cat f >f; true", tree={"tc": tree, **links}, **more)
            expect((result.files, result.trees), ({}, {}), f"outputs of {more}")
        expect(stage.looked(red, {"tc": tree, **links}), stage.bound("tc"), "what is bound then")
        expect(stage.trees(server), first, "folders of trees")
    return f"{len(ways)} runs fail, as without a tree, and {len(left_out)} have no such output"


def moved_above(stage):
    """A program moves a directory above a tree into an output directory."""
    tree = flat(stage.folder, 64)
    script = "mkdir -p out && mv a out/ && ls out/a/tc | wc -l; cd /work; mkdir -p a/tc"
    ends = set()
    with stage.serve() as (server, red):
        for number in range(4):
            action = stage.action(script, tree={"a": {"tc": tree, f"{number}": b""}}, directories=["out"])
            done = red.execute(action)
            ends.add(done.status.code)
            if done.status.code == 0:
                found = red.tree(done.result.trees["out"])
                expect(len(found["a"]["tc"]), 64, f"files of an output directory of run {number + 1}")
        expect(ends <= {0, 13}, True, f"how they end: {ends}")
    return "what is gathered is whole, or the run fails"


CASES = [odd_shapes, in_one_another, both_functions, links_into, moved_above]
