"""What `hostile_actions.py` tries with starts: the folder of `--work`, and what a server lacks from the start."""

import contextlib
import os
import resource
import signal
import socket
import stat
import subprocess
import time

from execution_context import expect
from executing import Peer
from server import BEGINNING, free_ports
from teams import PYTHON, Skipped, listed, started


# Starts a program where there is no `setsid`: a layer over /usr/bin hides it.
MOUNTING = """#!/bin/sh
exec unshare --mount sh -c 'cd {folder} &&
    mount -t overlay -o lowerdir=/usr/bin,upperdir=upper,workdir=inner none /usr/bin &&
    test ! -e /usr/bin/setsid && cd / && exec "$@"' sh {program} "$@"
"""


def instance(slots=1, name="red"):
    return f"{name}:{free_ports(1)[0]}:100000:{slots}"


def refused(stage, words, told, **more):
    """A start that has to end with status 1, and to say so in one line of its own."""
    status, errors = started(stage, *words, **more)
    lines = errors.splitlines()
    expect((status, len(lines)), (1, 1), f"status and lines of {errors!r}")
    missing = [each for each in told if each not in lines[0]]
    expect((lines[0].startswith("remoted: "), missing), (True, []), f"in {lines[0]!r}")
    return lines[0]


def two_servers(stage):
    """A second server has the same folder."""
    with stage.serve() as (server, red), stage.blue_running(server, 4):
        number = red.start(stage.action("printf abc > out; sleep 3; cat out", files=["out"]))
        stage.waits(lambda: len(server.entries()) >= 4, 20, "the folders of two runs")
        before = server.entries()
        line = refused(stage, ["--work", stage.work, instance()], [stage.work])
        expect(server.entries(), before, "the first one's folders")
        done = red.operations(number)[-1]
        expect((done.result and done.result.code, list(done.result.files)), (0, ["out"]), "the first one's action")
    with stage.serve() as (server, red):
        stage.runs(red, "printf abc")
    return f"it ends with status 1 and `{line}`, and the first one's actions go on"


def foreign_folder(stage):
    """The folder has other people's files."""
    kept = [["2024-11/photos/a.jpg", "2025-01/b"], ["start-5/0-1/file", "start-5/1-9.out"]]
    kept += [["0-1/file", "0-1.out"], [".hidden"]]
    for number, paths in enumerate(kept):
        work = stage.make(f"foreign-{number}")
        for path in paths:
            os.makedirs(os.path.join(work, os.path.dirname(path)), exist_ok=True)
            with open(os.path.join(work, path), "w") as file:
                file.write("kept")
        for above, folders, files in os.walk(work):
            for each in [".", *folders, *files]:
                os.chown(os.path.join(above, each), *stage.owner())
        before = listed(work)
        line = refused(stage, ["--work", work, instance()], [work])
        expect(listed(work), before, f"the folder with {paths}")
    return f"the start ends with status 1 and `{line.replace(work, 'DIR')}`, and the folder is as it was"


def folder_by_link(stage):
    """The folder is told by a link, and what a former start left has links to somebody else's."""
    aside = stage.make("aside")
    with open(os.path.join(aside, "kept"), "w") as file:
        file.write("kept")
    before = listed(aside)
    with stage.serve() as (server, red):
        stage.runs(red, "printf abc")
        left = os.path.join(server.start(), "0-77")
        os.makedirs(left)
        os.symlink(aside, os.path.join(left, "link"))
        os.symlink(aside, os.path.join(stage.work, "start-6"))
        os.symlink(aside, os.path.join(server.start(), "0-78"))
        for path in [left, server.start()]:
            os.chown(path, *stage.owner())
        stage.stop(server, signal.SIGTERM)
    real = stage.work
    stage.work = os.path.join(stage.folder, "by-link")
    os.symlink(real, stage.work)
    with stage.serve() as (server, red):
        stage.runs(red, "printf abc > out", files=["out"])
        stage.former_removed(server, red, left)
    expect(listed(aside), before, "what the links lead to")
    return "what they lead to stays"


def shared_folder(stage):
    """Each user may write in the folder, or it is another user's; and somebody else would hold its mark."""
    line = f"remoted: other users may put folders of their own into {stage.work}: "
    with stage.serve() as (server, red):
        stage.runs(red, "printf abc")
        expect([each for each in server.said() if "other users" in each], [], "of a folder of one's own")
        mode = stat.S_IMODE(os.stat(os.path.join(stage.work, "remoted.lock")).st_mode)
        expect(oct(mode), oct(0o600), "who may open the mark")
    ways = [lambda: os.chmod(stage.work, 0o777)]
    if not os.geteuid() and stage.user is None:
        ways.append(lambda: (os.chmod(stage.work, 0o755), os.chown(stage.work, 65534, 65534)))
    for way in ways:
        way()
        os.chmod(os.path.join(stage.work, "remoted.lock"), 0o644)
        with stage.serve() as (server, red):
            stage.runs(red, "printf abc")
            expect([each.startswith(line) for each in server.said()[:1]], [True], f"a line: {server.said()}")
            mode = stat.S_IMODE(os.stat(os.path.join(stage.work, "remoted.lock")).st_mode)
            expect(oct(mode), oct(0o600), "who may open the mark of a former version")
    return "a line says so, and nobody else can hold the mark"


def odd_numbers(stage):
    """The folder has names that starts would have, with the largest numbers and beyond, made by an action."""
    script = """for n in 18446744073709551615 18446744073709551614 99999999999999999999 9223372036854775807; do
        mkdir -p ../../start-$n/x; done; : > ../../start-12; ln -s /nowhere ../../start-13"""
    with stage.serve() as (server, red):
        if stage.way.is_apart:
            done = red.execute(stage.action(script))
            expect(bool(done.result) and done.result.code != 0, True, "the program is told that they cannot be made")
            starts = [name for name in os.listdir(stage.work) if name.startswith("start-")]
            expect(starts, [os.path.basename(server.start())], "starts in the folder")
        else:
            stage.runs(red, script)
    with stage.serve() as (server, red):
        stage.runs(red, "printf abc > out", files=["out"])
        stage.blue_runs(server)
    return "the next start takes place, and its actions run"


def unusable_folder(stage):
    """The folder cannot be made, or not be written, or has no name."""
    file = os.path.join(stage.folder, "file")
    with open(file, "w"):
        pass
    lines = [refused(stage, ["--work", file, instance()], [file])]
    lines.append(refused(stage, ["--work", f"{file}/inner", instance()], [f"{file}/inner"]))
    status, errors = started(stage, "--work=", instance(), cwd=stage.folder)
    expect(status in (1, 2) and bool(errors), True, f"with the empty word: {status} {errors!r}")
    if stage.user is not None or os.geteuid():
        folder = stage.make("closed")
        os.chmod(folder, 0o555)
        lines.append(refused(stage, ["--work", folder, instance()], [folder]))
        lines.append(refused(stage, ["--work", f"{folder}/new", instance()], [folder]))
    return "; ".join(f"`{line.replace(stage.folder, '..')}`" for line in lines)


def full_disk(stage):
    """A server ends by SIGKILL while an action has left no room on the disk of its folder, and is started again."""
    user, group = stage.owner()
    how = f"size=4m,nr_inodes=400,mode=755,uid={user},gid={group}"
    if subprocess.run(["mount", "-t", "tmpfs", "-o", how, "none", stage.work], capture_output=True).returncode:
        raise Skipped("no disk can be mounted here")
    filling = """import time
try:
    for number in range(10_000):
        open(str(number), "x").close()
except OSError:
    time.sleep(60)
"""
    try:
        with stage.serve() as (server, red):
            red.start(stage.action([PYTHON, "-c", filling]))
            stage.waits(lambda: os.statvfs(stage.work).f_ffree == 0, 20, "the disk is full")
            stage.stop(server, signal.SIGKILL)
        stage.end_programs()
        # what the program wrote to has gone, and left room for some files
        former = next(name for name in os.listdir(stage.work) if name.startswith("start-"))
        for number in range(os.statvfs(stage.work).f_ffree):
            with open(os.path.join(stage.work, former, f"more-{number}"), "x"):
                pass
        expect(os.statvfs(stage.work).f_ffree, 0, "files that may still be made")
        with stage.serve() as (server, red):
            stage.runs(red, "printf abc > out", files=["out"])
            stage.blue_runs(server)
            expect([line for line in server.said() if "cannot remove" in line], [], "lines on what stays")
    finally:
        subprocess.run(["umount", "--lazy", stage.work], check=True)
    return "the next start makes room, and actions run"


def full_at_its_end(stage):
    """An action writes more than the disk of the folder has room for, prints something, and ends with 0."""
    user, group = stage.owner()
    how = f"size=1m,mode=755,uid={user},gid={group}"
    if subprocess.run(["mount", "-t", "tmpfs", "-o", how, "none", stage.work], capture_output=True).returncode:
        raise Skipped("no disk can be mounted here")
    # What has no room is what the program prints, or with which code it ended, which a launcher writes.
    word = "launcher" if stage.way.launcher else "start"
    try:
        with stage.serve() as (server, red):
            for given in [{"files": ["out"]}, {}]:
                stage.fails(server, red, word, "head -c 3000000 /dev/zero >out; echo abc; exit 0", **given)
                stage.waits(lambda: not server.entries(), 20, "the folder is gone")
            stage.runs(red, "printf abc > out", files=["out"])
            stage.blue_runs(server)
    finally:
        subprocess.run(["umount", "--lazy", stage.work], check=True)
    return "its run fails, and the next actions run"


def no_slots(stage):
    """No instance has slots: the folder is not needed."""
    work = os.path.join(stage.folder, "none")
    with stage.serve(slots=(0, 0)) as (server, _):
        expect(os.listdir(stage.work), [], "what is in the folder")
        status, errors = started(stage, f"--work={work}", instance(0), turns=50)
        said = [line for line in errors.splitlines() if not BEGINNING.fullmatch(line)]
        expect((status, said, os.path.lexists(work)), (0, [], False), "a second server without a folder")
    return "nothing is made or held there"


def children_ignored(stage):
    """SIGCHLD is ignored when the server starts."""
    ignoring = lambda: signal.signal(signal.SIGCHLD, signal.SIG_IGN)
    line = refused(stage, ["--work", stage.work, instance()], ["CHLD"], preexec_fn=ignoring)
    return f"the start says `{line}`"


def few_descriptors(stage):
    """The server may have 60 descriptors, and red opens as many connections as it can."""
    limit = lambda: resource.setrlimit(resource.RLIMIT_NOFILE, (60, 60))
    try:
        with stage.serve(preexec_fn=limit) as (server, red):
            stage.waits(lambda: any("60" in line for line in server.said()), 5, f"a line that says so: {server.said()}")
            begun = server.cpu_seconds()
            with contextlib.ExitStack() as stack:
                for _ in range(100):
                    with contextlib.suppress(OSError):
                        stack.enter_context(socket.create_connection(("127.0.0.1", server.ports[0]), 2))
                time.sleep(3)
                used = server.cpu_seconds() - begun
            told = server.said()[0]
            waits = "remoted: clients wait, and the system gives no connection to them: Too many open files (os error 24)"
            expect(waits in server.said(), True, f"a line on clients that wait: {server.said()}")
            stage.waits(lambda: can_connect(server), 10, "blue connects again")
            stage.blue_runs(server)
            return f"the start says `{told}`; out of them, it used {used / 3:.0%} of a processor, and then goes on"
    except SystemExit:
        line = refused(stage, ["--work", stage.work, instance(2), instance(2, "blue")], ["60"], preexec_fn=limit)
        return f"the start ends with status 1 and `{line}`"


def can_connect(server):
    with contextlib.suppress(OSError), Peer(server.ports[1], 2) as peer:
        peer.store([os.urandom(10)])
        return True
    return False


def no_sessions(stage):
    """There is no `setsid` on the host."""
    if os.geteuid() or stage.user is not None:
        raise Skipped("only root can hide it; it is tried with a server of root")
    folder, program = os.path.join(stage.folder, "hiding"), os.path.join(stage.folder, "without")
    for name in ["", "upper", "inner"]:
        os.mkdir(os.path.join(folder, name))
    os.mknod(os.path.join(folder, "upper", "setsid"), 0o600 | stat.S_IFCHR, os.makedev(0, 0))
    with open(program, "w") as file:
        file.write(MOUNTING.format(folder=folder, program=stage.program))
    os.chmod(program, 0o755)
    if subprocess.run([program, "--version"], capture_output=True).returncode:
        raise Skipped("it cannot be hidden here")
    stage.program = program
    with stage.serve() as (server, red):
        stage.waits(lambda: any("setsid" in line for line in server.said()), 5, f"a line that says so: {server.said()}")
        if stage.way.launcher:
            stage.fails(server, red, "launcher", "printf abc > out", files=["out"])
            return f"the start says `{server.said()[0]}`, and each run fails, as the launcher needs it"
        stage.runs(red, "printf abc > out", files=["out"])
        stage.blue_runs(server)
        return f"the start says `{server.said()[0]}`, and actions run"
