"""What `executions.py` looks at of programs and their input: each function says what holds, or raises `Fault`."""

import hashlib
import os
import re
import subprocess
import tempfile
import time

import messages as m
from execution_context import expect, shell
from executing import COMPLETED, EXECUTING, QUEUED, Action, Executable, Link
from raw import PREFACE, block, frame


# Programs.


def printed(c):
    with c.peer() as peer:
        done = peer.operations(peer.start(Action(["/bin/sh", "-c", "printf abc"], variables=())))
        expect([each.stage for each in done], [QUEUED, EXECUTING, COMPLETED], "stages")
        expect(len({each.name for each in done}), 1, "names")
        expect(re.fullmatch(r"operations/[1-9]\d*", done[0].name) is not None, True, f"the name {done[0].name}")
        expect(done[-1].result.stdout, m.digest(b"abc"), "the digest of standard output")
        expect((done[-1].result.stderr, done[-1].result.code, done[-1].is_cached), (b"", 0, False), "the result")
        expect(peer.text(done[-1].result.stdout), b"abc", "the text")
    return '/bin/sh -c "printf abc": queued, executing, completed; the digest of standard output is abc\'s'


def probed(c):
    """`remoted probe` sends a call's bytes as they are, and shows those of the answer."""
    path = "/build.bazel.remote.execution.v2.ContentAddressableStorage/FindMissingBlobs"
    asked = m.field(2, m.digest(b"of no blob"))
    message = b"\0" + len(asked).to_bytes(4, "big") + asked
    sent = PREFACE + frame(4, 0, 0) + frame(1, 4, 1, block(path)) + frame(0, 1, 1, message)
    head = b"\x20\x88\x0f\x10\x10application/grpc"
    wanted = frame(4, 0, 0, b"\0\3\0\0\0\x64") + frame(4, 1, 0)
    wanted += frame(8, 0, 0, len(message).to_bytes(4, "big")) + frame(1, 4, 1, head)
    wanted += frame(0, 0, 1, message) + frame(1, 5, 1, b"\0\x0bgrpc-status\x010")
    with tempfile.NamedTemporaryFile() as file:
        file.write(sent)
        file.flush()
        words = ["probe", "--port", str(c.server.ports[0]), "--send", file.name, "--want", str(len(wanted))]
        shown = subprocess.run([c.server.program, *words], capture_output=True, text=True, timeout=20)
    expect((shown.returncode, shown.stdout.strip()), (0, wanted.hex()), "the answer's bytes")
    return "a call whose bytes `remoted probe` sends is answered byte by byte as it has to be"


def codes(c):
    with c.peer() as peer:
        for code in [1, 2, 126, 127, 255]:
            action = c.action(shell(f"exit {code}"))
            c.ran(peer, action, code)
            expect(peer.cached(action), None, "a result of a code that is not 0")
    return "exit codes up to 255; only 0 is kept as a result"


def signals(c):
    with c.peer() as peer:
        for number in [1, 2, 6, 9, 11, 15]:
            c.ran(peer, shell(f"kill -{number} $$"), 128 + number)
    return "a program that a signal ends has 128 and its number as its code"


def not_there(c):
    tree = {"plain": b"#!/bin/sh\n", "folder": {}, "gone": Link("nowhere")}
    with c.peer() as peer:
        for program in [
            "/no/such",
            "./plain",
            "./folder",
            "./gone",
            "no-such-program",
            "",
            "./plain/x",
            "/" + "n" * 5000,
        ]:
            c.failed(peer, c.action([program], tree=tree), "start")
        c.failed(peer, c.action(["sh", "-c", ":"], variables=[("PATH", "/no:/such")]), "start")
        c.failed(peer, c.action(["/bin/echo", "n" * 200_000]), "start")
        c.ran(peer, shell("exit 0"))
    return (
        "a program that is not there, or may not be run, or gets too long a word: 13 `run failed`, and the line `start`"
    )


def found(c):
    tree = {
        "tool": Executable(b"#!/bin/sh\nprintf 'tool %s' \"$*\"\n"),
        "bin": {"deep": Executable(b"#!/bin/sh\nprintf deep")},
    }
    with c.peer() as peer:
        expect(c.said(peer, c.action(["./tool", "a b", "", "c"], tree=tree)), b"tool a b  c", "a tool of the tree")
        expect(c.said(peer, c.action(["../bin/deep"], tree=tree, folder="work")), b"deep", "from the working directory")
        expect(c.said(peer, c.action(["printf", "x"])), b"x", "along PATH")
        expect(c.said(peer, Action(["sh", "-c", "printf y"], variables=[])), b"y", "without PATH")
        words = ["/bin/sh", "-c", 'printf "%s" "$#"', "sh", *("w" * 50 for _ in range(10_000))]
        expect(c.said(peer, c.action(words)), b"10000", "10,000 words")
        odd = "-- $HOME * \"'\\ \n é ;"
        expect(c.said(peer, c.action(["/usr/bin/printf", "%s", odd])), odd.encode(), "a word with odd letters")
    return "programs by a path from the working directory, along PATH, and without one; words as they are"


def environment(c):
    with c.peer() as peer:
        given = [("A", "1"), ("B_2", "two words é\n;"), ("EMPTY", "")]
        wanted = b"".join(f"{name}={value}\0".encode() for name, value in given)
        expect(c.said(peer, Action(["/usr/bin/env", "-0"], variables=given)), wanted, "the environment")
        expect(c.said(peer, Action(["/usr/bin/env", "-0"], variables=[])), b"", "no environment")
    return "the environment is the command's and nothing else"


def working_directory(c):
    with c.peer() as peer:
        done = c.ran(
            peer, shell("pwd -P; ls -A; ls -A ../..", folder="w/d", files=["o/x/file"], directories=["p/tree"])
        )
        number = done.name.rpartition("/")[2]
        told = peer.text(done.result.stdout).decode().split("\n")
        expect(told, [f"{os.path.realpath(c.server.start())}/0-{number}/w/d", "o", "p", "w", ""], "working directory")
        expect(c.said(peer, shell("stat -c %a .")), b"700\n", "the mode of the folder")
    return "a folder of mode 0700 for each run; working directory and the outputs' parents are made"


def streams_in(c):
    with c.peer() as peer:
        expect(
            c.said(peer, shell("cat | wc -c; ls /proc/self/fd | tr '\\n' ' '")), b"0\n0 1 2 3 ", "input and descriptors"
        )
        told = c.said(peer, shell("ps -o pid=,sid= -p $$ 2>/dev/null || awk '{print $1, $6}' /proc/$$/stat")).split()
        expect(len(set(told)), 1, f"a session of its own: process and session {told}")
    return "standard input is empty, no descriptor of the server is there, and the session is the program's own"


# Input trees.

SHOWN = "-type f -printf '%P f %m %s\\n' -o -type l -printf '%P l %l\\n' -o -printf '%P %y\\n'"
LOOK = f"find . -mindepth 1 \\( {SHOWN} \\) | LC_ALL=C sort"


def tree_lines(tree, above=""):
    for name, inner in tree.items():
        if isinstance(inner, dict):
            yield f"{above}{name} d"
            yield from tree_lines(inner, f"{above}{name}/")
        elif isinstance(inner, Link):
            yield f"{above}{name} l {inner}"
        else:
            yield f"{above}{name} f {'755' if isinstance(inner, Executable) else '644'} {len(inner)}"


def shown(tree):
    return "".join(line + "\n" for line in sorted(tree_lines(tree), key=str.encode)).encode()


def trees(c):
    tree = {
        "file": b"abc",
        "run": Executable(b"#!/bin/sh\n"),
        "none": b"",
        "empty": {},
        "large": b"0123456789" * 300_000,
    }
    tree["-n"] = {"with space": b"x", "é😀": {"..c": b"x", "n" * 255: Executable(b"abc"), "back\\slash\"'$": b"abc"}}
    tree["links"] = {"a": Link("../file"), "b": Link("not there"), "c": Link(".."), "d": Link("-n"), "e": Link("a")}
    with c.peer() as peer:
        expect(c.said(peer, c.action(shell(LOOK), tree=tree)), shown(tree), "an input tree")
        read = "cat file none links/a links/e -- -n/é*/n* | sha256sum; sha256sum < large"
        told = c.said(peer, c.action(shell(read), tree=tree))
        wanted = [hashlib.sha256(text).hexdigest() for text in [b"abc" * 4, tree["large"]]]
        expect([line.split()[0].decode() for line in told.splitlines()], wanted, "what files have")
        c.said(peer, c.action(shell("echo more >> file; rm -r links; chmod 0 run"), tree=tree))
        wanted = b"abc%d\n" % len(list(tree_lines(tree)))
        expect(
            c.said(peer, c.action(shell("cat file; " + LOOK + " | wc -l"), tree=tree)), wanted, "a second run's tree"
        )
    return "files of modes 0644 and 0755 whatever the umask, empty directories, links as they are, odd names"


def deep(c):
    tree, inner = {}, b"deep"
    for level in range(63):
        inner = {"d" * (level % 3 + 1): inner} if level else {"file": inner}
    tree = {"top": inner} if not isinstance(inner, dict) else inner
    with c.peer() as peer:
        told = c.said(peer, c.action(shell("find . -type f -exec cat {} +; find . -type d | wc -l"), tree=tree))
        expect(told, b"deep63\n", "63 levels")
        done = peer.execute(c.action("true", tree={"a": {"b": tree}}))
        expect((done.status.code, done.status.text), (8, "tree too large"), "65 levels")
        told = c.said(peer, c.action(shell("find . -type d | wc -l"), tree={"a": tree}))
        expect(told, b"64\n", "64 levels")
    return "64 levels of directories; 65 are 8 `tree too large`"


def many_files(c):
    tree = {f"f{number:05}": b"%d" % number for number in range(9_000)}
    tree["more"] = {f"g{number}": {f"h{inner}": Executable(b"same") for inner in range(8)} for number in range(111)}
    with c.peer() as peer:
        begun = time.monotonic()
        told = c.said(
            peer,
            c.action(
                shell("cat f* | sha256sum; find . -mindepth 1 | wc -l; find . -perm 755 -type f | wc -l"), tree=tree
            ),
        )
        passed = time.monotonic() - begun
        text = b"".join(b"%d" % number for number in range(9_000))
        expect(told.split(), [hashlib.sha256(text).hexdigest().encode(), b"-", b"10000", b"888"], "10,000 nodes")
        tree["one"] = {}
        done = peer.execute(c.action("true", tree=tree))
        expect((done.status.code, done.status.text), (8, "tree too large"), "10,001 nodes")
    return f"a tree of 10,000 nodes, made, used and removed in {passed:.1f} s; 10,001 are 8 `tree too large`"


def odd_trees(c):
    with c.peer() as peer:
        c.failed(peer, c.action("true", tree={"n" * 300: b"x"}), "folder")
        c.failed(peer, c.action("true", tree={"link": Link("a\0b")}), "folder")
        action = c.action("true", tree={"missing": b"is not stored %d" % os.getpid()})
        lacking = action.blobs.pop(0)
        done = peer.execute(action)
        subject = f"blobs/{hashlib.sha256(lacking).hexdigest()}/{len(lacking)}"
        expect(
            (done.status.code, done.status.text, done.status.missing),
            (9, "missing blobs", [subject]),
            "a file that is not there",
        )
        number = int(peer.execute(c.action(shell("exit 3"))).name.rpartition("/")[2])
        c.ran(peer, shell(f"mkdir ../0-{number + 2}; exit 4"), 4)
        c.failed(peer, shell("printf taken"), "folder")
        stands = os.path.join(c.server.start(), f"0-{number + 2}")
        if os.path.isdir(stands):
            os.rmdir(stands)
        expect(c.said(peer, shell("printf again")), b"again", "the next job")
    return "names that the host refuses, and a folder that is there already: the line `folder`; the next job runs"
