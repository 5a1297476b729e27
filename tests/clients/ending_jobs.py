#!/usr/bin/env python3
"""ending_jobs.py PROGRAM [--only PART ..]: jobs that an operator ends, why runs fail, and links that they leave.

PROGRAM is the built `remoted`. Each part has a second team that notices nothing. `all` ends 8 runs and 1,000 jobs that
wait, of one team, and a build of that team goes on at once; `some` ends those of one action, and those that nobody waits
for; `bad` has lines without form, and files that cannot be taken; `launcher` ends what a launcher runs that does not
end at once; `reasons` has runs fail, and looks at the lines that say why; `rules` has outputs break a rule, and looks
at the figures, too; `links` has runs leave links in output directories. A line for each thing that holds; it ends with
status 1 at the first that does not.
"""

import argparse
import contextlib
import os
import pathlib
import re
import tempfile
import time

import messages as m
from executing import Action, Peer
from waiting_jobs import Alike
from watched import Watched, expect, figures_of, key, within

FAILED = (13, "run failed")
WITHOUT = "remoted: failed runs without a line: "
CALLS = 100


class Neighbour:
    """A team beside the other, each call of which is answered at once."""

    def __init__(self, peer):
        self.peer, self.longest, self.action = peer, 0, Action("echo of blue > out", paths=["out"], do_not_cache=True)
        peer.store(self.action.blobs)

    def calls(self):
        began = time.monotonic()
        done = self.peer.execute(self.action, is_stored=True)
        self.longest = max(self.longest, time.monotonic() - began)
        expect(done.status.code == 0 and done.result.code == 0, "the other team's action runs")

    def asks(self):
        began = time.monotonic()
        self.peer.call(m.CAPABILITIES, m.capabilities(""))
        self.longest = max(self.longest, time.monotonic() - began)


@contextlib.contextmanager
def two_teams(program, slots=8, **more):
    """Two teams of a server whose jobs are ended by a file, and that file's path."""
    with tempfile.TemporaryDirectory() as folder:
        path = pathlib.Path(folder, "jobs")
        words = ["--end", str(path), *more.pop("words", [])]
        instances = [("red", 10**8, slots), ("blue", 10**8, 2)]
        with Watched(program, instances, words, heard=True, **more) as server:
            with Peer(server.ports[0]) as red, Peer(server.ports[1]) as blue:
                yield server, red, Neighbour(blue), path


def put(path, text):
    """Puts a file into its place, as an operator does."""
    new = path.with_name("new")
    new.write_bytes(text.encode() if isinstance(text, str) else text)
    new.rename(path)


def hears(server, *lines, seconds=5):
    """These lines, in any order, and no others since the last that were wanted."""
    wanted, already = sorted(lines), getattr(server, "wanted", 0)
    heard = within(seconds, lambda: len(server.said(True)) >= already + len(wanted) and server.said(True)[already:])
    expect(heard and sorted(heard) == wanted, " / ".join(lines), heard or server.said(True)[already:])
    server.wanted = already + len(wanted)


def many(red, seconds, count):
    """So many actions that differ in their timeouts alone, whose texts are stored."""
    first = Action(f"sleep {seconds}", seconds=3000)
    red.store(first.blobs)
    of_command, root = (m.first(first.blobs[-1], number) for number in (1, 2))
    actions = [Alike(of_command, root, 1000 + number) for number in range(count)]
    red.store([blob for action in actions for blob in action.blobs])
    return actions


def ask_all(peers, actions):
    """The calls of actions, a hundred on a connection at most."""
    return [(peers[at // CALLS], peers[at // CALLS].start(action, is_stored=True)) for at, action in enumerate(actions)]


def outcomes(calls):
    return {(done.status.code, done.status.text) for done in (peer.operations(number)[-1] for peer, number in calls)}


def all_jobs(program):
    with two_teams(program) as (server, red, blue, path):
        actions = many(red, 600, 1008)
        with contextlib.ExitStack() as stack:
            peers = [stack.enter_context(Peer(server.ports[0])) for _ in range(11)]
            calls = ask_all(peers, actions)
            within(10, lambda: running(server) == 8)
            expect(running(server) == 8, "8 programs run, and 1,000 wait", running(server))
            put(path, "red\n")
            gone = within(3, lambda: not path.exists())
            began = time.monotonic()
            expect(gone, "the file is taken within its second")
            blue.asks()
            ended = outcomes(calls)
            took = time.monotonic() - began
            expect(ended == {FAILED}, "each is told that its run failed", ended)
            expect(took < 1, f"all 1,008 within a second: {took:.3f} s", took)
            hears(server, "remoted: red: jobs ended by an operator: 1008")
            began = time.monotonic()
            done = red.execute(Action("echo again > out", paths=["out"]))
            took = time.monotonic() - began
            expect(done.status.code == 0 and done.result.code == 0, "the team's next action runs")
            expect(took < 2, f"and at once: {took:.3f} s", took)
        blue.calls()
        expect(blue.longest < 1, f"the other team waited for {blue.longest:.3f} s at most", blue.longest)
        expect(within(5, lambda: running(server) == 0) or running(server) == 0, "no program goes on", running(server))
        expect(not server.said(True)[server.wanted :], "and nothing else is said", server.said(True)[server.wanted :])


def running(server):
    """How many programs of its actions run."""
    count = 0
    for entry in os.listdir("/proc"):
        if entry.isdigit():
            with contextlib.suppress(OSError):
                words = pathlib.Path("/proc", entry, "cmdline").read_bytes().split(b"\0")
                place = os.readlink(f"/proc/{entry}/cwd")
                count += words[0] == b"sleep" and place.startswith(server.folder)
    return count


def some_jobs(program):
    with two_teams(program, slots=2) as (server, red, blue, path):
        actions = many(red, 600, 8)
        with Peer(server.ports[0]) as other:
            kept = [(red, red.start(action, is_stored=True)) for action in actions[:4]]
            left = [(other, other.start(action, is_stored=True)) for action in actions[4:]]
            expect(within(5, lambda: running(server) == 2), "two run, and six wait")
            digest = m.first(actions[0].digest, 1).decode()
            put(path, f"red {digest}\n")
            hears(server, "remoted: red: jobs ended by an operator: 1")
            expect(outcomes(kept[:1]) == {FAILED}, "the job of one action is ended, and no other")
            digest = m.first(actions[3].digest, 1).decode()
            put(path, f"red {digest[:6]}\n")
            hears(server, "remoted: red: jobs ended by an operator: 1")
            going = [number for peer, number in kept[1:] + left if peer.calls[number].status is None]
            expect(len(going) == 7, "the others go on, or wait", len(going))
            put(path, "red abandoned\n")
            hears(server, "remoted: red: jobs ended by an operator: 0")
        time.sleep(0.2)
        put(path, "red abandoned\nblue\n")
        lines = ["remoted: red: jobs ended by an operator: 4", "remoted: blue: jobs ended by an operator: 0"]
        hears(server, *lines)
        expect(within(5, lambda: running(server) == 2) == True, "those that somebody waits for run")
        put(path, "red\n")
        hears(server, "remoted: red: jobs ended by an operator: 2")
        expect(outcomes(kept[1:]) == {FAILED}, "until they are ended, too")
        blue.calls()
        expect(not server.said(True)[server.wanted :], "and nothing else is said", server.said(True)[server.wanted :])


def bad_lines(program):
    with two_teams(program) as (server, red, blue, path):
        odd = b"red 12345\nred abandoned now\n\ngreen\n\xff\nred 12345G\x1b[0m\n red \t abandoned \r\nblue\r\nblue \n"
        put(path, odd + b"red 1F0C5D")
        form, name = "it is not NAME, NAME HASH or NAME abandoned", "no instance has this name"
        few, more = "HASH has fewer than 6 digits", "a word stands behind NAME and HASH"
        blanks = "blanks stand beside NAME, and no word"
        capitals = "HASH has capitals, and is written in lower case"
        faults = {1: few, 2: more, 4: name, 5: form, 6: form, 9: blanks, 10: capitals}
        bad = [f"remoted: {path}: bad line {number}: {fault}" for number, fault in faults.items()]
        good = [f"remoted: {name}: jobs ended by an operator: 0" for name in ("red", "blue")]
        hears(server, *bad[:-2], *good, *bad[-2:])
        put(path, "\n".join(f"no x{number}" for number in range(1000)))
        hears(server, *[f"remoted: {path}: bad line {number}: {form}" for number in range(1, 11)])
        put(path, "")
        expect(within(3, lambda: not path.exists()), "an empty file is taken, and nothing said")
        os.mkfifo(path)
        hears(server, f"remoted: cannot take {path}: it is a folder, a link or a FIFO: remove it")
        blue.calls()
        path.unlink()
        path.symlink_to("/etc/passwd")
        time.sleep(2.5)
        expect(path.is_symlink(), "a link is not followed")
        path.unlink()
        blue.calls()
        expect(not server.said(True)[server.wanted :], "and nothing else is said", server.said(True)[server.wanted :])


def by_launcher(program):
    """A launcher that is told to end, and takes its time."""
    with tempfile.TemporaryDirectory() as folder:
        os.chmod(folder, 0o755)
        slow = pathlib.Path(folder, "slow")
        slow.write_text("#!/bin/sh\ntrap 'sleep 3; exit 1' TERM\nshift 3\nsleep 600 & wait\n")
        slow.chmod(0o755)
        with two_teams(program, slots=1, launcher=str(slow)) as (server, red, _, path):
            call = red.start(Action("sleep 600"))
            time.sleep(1)
            began = time.monotonic()
            put(path, "red\n")
            expect(outcomes([(red, call)]) == {FAILED}, "what a launcher runs is told as failed")
            took = time.monotonic() - began
            expect(took < 12, f"within the ten seconds that it has, and two: {took:.1f} s", took)
            hears(server, "remoted: red: jobs ended by an operator: 1")


def failing():
    """Actions whose runs fail: with the word, the reason, and what is shown of the first word of the command."""
    given = {"refused": b"#!/bin/sh\n", "folder": {}}
    for words, why, shown in [
        (["/no/such/program"], "no such program", "/no/such/program"),
        (["no\n\x1b[0mremoted: run x"], "no such program", "no\\n\\x1b[0mremoted: run x"),
        (["x" * 300], "no such program", "x" * 100),
        (["./refused"], "Permission denied", "./refused"),
        (["./folder"], "Permission denied", "./folder"),
        (["refused"], "Permission denied", "refused"),
        (["/bin/true", "x" * 140_000], "argument list too long", None),
    ]:
        yield Action(words, given, variables=[("PATH", "/no:.:/usr/bin")]), "start", why, shown
    name = Action("rm -rf out; mkdir -p out/x && cd out && touch $(printf 'a\\377b')", directories=["out"])
    yield name, "folder", "a name is not UTF-8", "/bin/sh, output out"
    deep = Action("true", folder="/".join(["d"] * 192))
    yield deep, "folder", "a path has more than 191 directories", "/bin/sh"
    deeper = Action("true", folder="/".join(["d"] * 100), paths=["/".join(["o"] * 93)])
    yield deeper, "folder", "a path has more than 191 directories", "/bin/sh, output .." + "/o" * 50
    many = Action("true", paths=[f"o{at}" for at in range(20_001)])
    yield many, "folder", "more than 20000 outputs are named", "output o20000"


def reasons(program):
    with two_teams(program, slots=1) as (server, red, blue, _):
        told = lambda job, word, why: (f"remoted: run red {job} failed: {word}", f"remoted: run red {job}: {why}")
        for job, (action, word, why, shown) in enumerate(failing(), 1):
            done = red.execute(action)
            expect((done.status.code, done.status.text) == FAILED, f"a run fails: {word}")
            hash = m.first(action.digest, 1).decode()[:6]
            hears(server, *told(job, word, f"{why}, action {hash}.." + ("" if shown is None else f", {shown}")))
            time.sleep(0.1)  # Ten in a second are told.
        for _ in range(15):
            red.execute(Action(["/no/such/program"]))
        time.sleep(2.5)
        lines = server.said(True)[server.wanted :]
        sums = [int(line.removeprefix(WITHOUT)) for line in lines if line.startswith(WITHOUT)]
        runs = [line for line in lines if line.startswith("remoted: run red ")]
        expect(len(runs) <= 30 and len(runs) % 2 == 0, f"lines come in twos: {len(runs)}", lines)
        expect(len(runs) // 2 + sum(sums) == 15, f"and of the others it is told how many: {sums}", lines)
        others = [line for line in lines if line not in runs and not line.startswith(WITHOUT)]
        dropped = [line for line in others if re.fullmatch(r"remoted: \d+ lines were dropped", line)]
        expect(dropped == others, "no more is said", others)
        blue.calls()


def links(program):
    make = "mkdir -p out/in; echo text > out/in/file; ln -s file out/in/link; ln -s in out/there"
    counted = "remoted: red: runs with links in their output directories, which are not stored, the last is 1{}: 1"
    with two_teams(program) as (server, red, blue, _):
        action = Action(make, directories=["out"])
        hash = m.first(action.digest, 1).decode()[:6]
        done = red.execute(action)
        expect(done.status.code == 0 and done.result.code == 0, "a run that leaves links goes well")
        tree = red.tree(done.result.trees["out"])
        expect(set(tree) == {"in"} and set(tree["in"]) == {"file"}, "without them", tree)
        hears(server, counted.format(f", action {hash}.."))
        blue.calls()
        expect(not server.said(True)[server.wanted :], "and that is said once", server.said(True)[server.wanted :])
    with two_teams(program, words=["--links", "fail"]) as (server, red, blue, _):
        action = Action(make, directories=["out"])
        done = red.execute(action)
        expect((done.status.code, done.status.text) == FAILED, "with --links fail such a run fails")
        expect(red.cached(action) is None, "and nothing is stored")
        hash = m.first(action.digest, 1).decode()[:6]
        why = f"remoted: run red 1: a symbolic link in an output directory, action {hash}.., /bin/sh, output out"
        hears(server, "remoted: run red 1 failed: folder", why, counted.format(""))
        done = red.execute(Action("mkdir out; echo text > out/file", directories=["out"]))
        expect(done.status.code == 0, "a run without links goes well")
        blue.calls()


def rules(program):
    """Outputs that break a rule: the run fails, whatever its program's code, and counts as such."""
    fill = "mkdir out; cd out; seq %d | xargs touch"
    sink = "mkdir out; cd out; i=1; while [ $i -lt %d ]; do mkdir s; cd s; i=$((i+1)); done; : > f"
    many = "an output directory has more than 10000 files and directories"
    deep = "an output directory has more than 64 levels"
    kind = "an output is not of the kind that is asked for"
    far = "d" * 70 + "/" + "e" * 70
    broken = [
        (Action(fill % 10_001, paths=["out"]), many, "out"),
        (Action(fill % 10_001 + "; exit 3", paths=["out"]), many, "out"),
        (Action(sink % 65, directories=["out"]), deep, "out"),
        (Action("mkdir out", files=["out"]), kind, "out is a directory"),
        (Action("echo text > out", directories=["out"]), kind, "out is a file"),
        (Action("echo text > out", files=["out"], directories=["out"]), kind, "out is a file"),
        (Action(f"mkdir {far}", files=[far]), kind, f"..{far[-100:]} is a directory"),
    ]
    kept = [Action(fill % 10_000, paths=["out"]), Action(sink % 64, directories=["out"])]
    kept.append(Action("true", files=["out"], directories=["none"]))
    with tempfile.TemporaryDirectory() as folder:
        path = pathlib.Path(folder, "remoted.prom")
        with two_teams(program, words=["--metrics", str(path)]) as (server, red, blue, _):
            for job, (action, why, which) in enumerate(broken, 1):
                done = red.execute(action)
                expect((done.status.code, done.status.text) == FAILED, why)
                expect(done.result is None and red.cached(action) is None, "nothing of it is answered or stored")
                hash = m.first(action.digest, 1).decode()[:6]
                run = f"remoted: run red {job}"
                hears(server, f"{run} failed: folder", f"{run}: {why}, action {hash}.., /bin/sh, output {which}")
            for action in kept:
                done = red.execute(action)
                expect(done.status.code == 0 and done.result.code == 0, "what keeps the rules goes well")
            blue.calls()
            expect(not server.said(True)[server.wanted :], "and nothing else is said", server.said(True)[server.wanted :])
            began = time.time() + 1
            within(25, lambda: path.exists() and path.stat().st_mtime > began)
            found = figures_of(path)
        how = lambda word: found[key("jobs_ended_total", instance="red", how=word)]
        counted = {word: how(word) for word in ["succeeded", "failed", "not_run"]}
        expect(counted == {"succeeded": 3, "failed": 0, "not_run": 7}, "they count as runs that failed", counted)
        faults = found[key("run_faults_total", instance="red", word="folder")]
        expect(faults == 7, "by this word", faults)


def over_quota(program):
    """A run that gives more than the quota: its client is told so, and a line and a figure say it to the operator."""
    with tempfile.TemporaryDirectory() as folder:
        path = pathlib.Path(folder, "remoted.prom")
        with two_teams(program, words=["--metrics", str(path)]) as (server, red, blue, _):
            large = Action("head -c 60000000 /dev/urandom > a; head -c 60000000 /dev/urandom > b", files=["a", "b"])
            small = Action("head -c 60000000 /dev/urandom > a", files=["a"])
            done = red.execute(large)
            expect((done.status.code, done.status.text) == (8, "quota exceeded"), "more than the quota is not stored")
            done = red.execute(small)
            expect(done.status.code == 0 and done.result.code == 0, "less goes well")
            says = "runs that gave more than the quota of 100000000 bytes, raise QUOTA: 1"
            blue.calls()
            within(25, lambda: path.exists() and figures_of(path)[key("runs_over_quota_total", instance="red")] > 0)
            counted = figures_of(path)[key("runs_over_quota_total", instance="red")]
            expect(counted == 1, "it is counted, and one that fits is not", counted)
            told = [line for line in server.said(True) if "quota" in line]
            expect(told == [f"remoted: red: {says}"], "and said once", told)


PARTS = {
    "all": all_jobs,
    "some": some_jobs,
    "bad": bad_lines,
    "launcher": by_launcher,
    "reasons": reasons,
    "links": links,
    "rules": rules,
    "quota": over_quota,
}


def main():
    parser = argparse.ArgumentParser()
    parser.add_argument("program")
    parser.add_argument("--only", nargs="+", choices=PARTS, default=list(PARTS))
    asked = parser.parse_args()
    for part in asked.only:
        print(f"{part}:", flush=True)
        PARTS[part](asked.program)


if __name__ == "__main__":
    main()
