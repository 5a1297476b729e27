"""What `launchers.py` looks at of the programs that launchers start: where words of an action stand on their lines."""

import glob
import os
import shutil
import subprocess
import tempfile

import programs
import slurm_cluster
from executing import PATH, Action, Peer
from launchers_hung import Hung
from launchers_sandbox import LAUNCHERS, Told, sandbox
from server import Server

# Stands in for a program: notes its words, then its variables, with a NUL behind each, and becomes what it stands for.
NOTING = r"""#!/bin/sh
{ printf '%s\0' "$0" "$@"; printf '\n\0'; /usr/bin/env -0; } >"FOLDER/seen/$$.${0##*/}"
exec "/usr/bin/${0##*/}" "$@"
"""
NOTED = ["setpriv", "unshare", "mount", "bash", "bwrap", "mkdir", "prlimit", "head"]
NOTED += ["srun", "setsid", "flock", "timeout", "scancel", "squeue", "cksum", "cat", "mv", "grep"]
# Each word that is an action's has this in it, and nothing else has.
MARK = b"qzx"
ODD = {
    "words": ["/bin/sh", "-c", ": qzxword; exit 6", "qzx0", "--qzx=1", ":", "qzx :\nqzx"],
    "variables": [PATH, ("QZXNAME", "1"), ("NAME", "qzxvalue")],
    "folder": "qzxfolder",
    "tree": {"qzxfolder": {"in": b"x"}},
}
INSTANCE = "qzxteam"


def stand_ins(folder):
    """A folder of programs that note how they are started."""
    os.mkdir(os.path.join(folder, "seen"))
    os.chmod(os.path.join(folder, "seen"), 0o777)
    standing = os.path.join(folder, "programs")
    os.mkdir(standing)
    for name in NOTED:
        path = os.path.join(standing, name)
        with open(path, "w") as file:
            file.write(NOTING.replace("FOLDER", folder))
        os.chmod(path, 0o755)
    return standing


def noted(folder):
    """The programs that were started, each with its words and its variables."""
    found = []
    for path in glob.glob(f"{folder}/seen/*"):
        with open(path, "rb") as file:
            words, _, variables = file.read().partition(b"\n\0")
        found.append((path.rpartition(".")[2], words.split(b"\0")[:-1], variables.split(b"\0")))
    return found


def misplaced(program, words, variables):
    """What of an action's stands elsewhere than behind the `--` of a program that takes it as it is."""
    taken = words.index(b"--") if program == "bwrap" else len(words)
    return [each for each in [*words[:taken], *variables] if MARK in each.lower()]


def looked_at(report, who, folder, code, wanted):
    """What came of an action with such words, and how programs were started for it."""
    found = noted(folder)
    report.expect(code == 6, f"{who}: an action of marked words runs", code)
    lacking = wanted - {program for program, *_ in found}
    report.expect(not lacking, f"{who}: {', '.join(sorted(wanted))} are looked at", lacking)
    wrong = [(program, misplaced(program, *more)) for program, *more in found if misplaced(program, *more)]
    report.expect(not wrong, f"{who}: no line and no variable of {len(found)} programs has a word of it", wrong)


def code_of(server):
    with Peer(server.ports[0], 100) as peer:
        result = peer.execute(Action(do_not_cache=True, **ODD)).result
    return result and result.code


def of_sandbox(report, program, who, **more):
    folder = tempfile.mkdtemp(prefix="launchers-lines-")
    os.chmod(folder, 0o777)
    try:
        path = f"PATH={stand_ins(folder)}:/usr/bin:/bin"
        launcher, work = sandbox(folder, "PATH=/usr/bin:/bin", path), os.path.join(folder, "work")
        with Server(program, [(INSTANCE, 10**8, 1)], 2**62, None, work, True, launcher, **more) as server:
            code = code_of(server)
        as_root = {"unshare", "mount"} if os.geteuid() == 0 and not more else set()
        looked_at(report, who, folder, code, {"setpriv", "bash", "bwrap", "mkdir"} | as_root)
    finally:
        shutil.rmtree(folder, ignore_errors=True)


def of_slurm(report, program, following):
    name = "slurm, and the sandbox" if following else "slurm"
    noting = {"PATH=/usr/local/bin": "PATH=FOLDER/programs:/usr/local/bin"}
    with Hung(report, program, name, following, noting) as here:
        stand_ins(here.folder)
        if following:
            path = os.path.join(here.folder, "sandbox", "sandbox")
            with open(path) as file:
                text = file.read().replace("PATH=/usr/bin", f"PATH={here.folder}/programs:/usr/bin")
            with open(path, "w") as file:
                file.write(text)
        with Server(program, [(INSTANCE, 10**8, 1)], 2**62, None, here.work, True, here.launcher) as server:
            code = code_of(server)
        wanted = {"setpriv", "srun", "flock"} | ({"bash", "bwrap"} if following else set())
        looked_at(report, name, here.folder, code, wanted)


# So many bytes of the file of words are lost, as on a disk that was full: setpriv is started when it is written.
CUTTING = r"""#!/bin/sh
for each in "$@"; do
  for file in "$each".aside/*.words*; do
    [ ! -e "$file" ] || { head -c -BYTES "$file" >"$file-" && cat "$file-" >"$file" && rm "$file-"; }
  done
done
exec /usr/bin/setpriv "$@"
"""
LOST = {"a NUL": 1, "the end of a word": 3, "a word": 5, "all": 100_000}


def cutting(folder, lost):
    """A folder with a setpriv that loses so many bytes."""
    os.mkdir(f"{folder}/programs")
    with open(f"{folder}/programs/setpriv", "w") as file:
        file.write(CUTTING.replace("BYTES", str(lost)))
    os.chmod(f"{folder}/programs/setpriv", 0o755)


def words_lost(report, who, **more):
    """Not all words come back from the file: the run fails."""
    for what, lost in LOST.items():
        folder = tempfile.mkdtemp(prefix="launchers-lines-")
        os.chmod(folder, 0o777)
        try:
            cutting(folder, lost)
            launcher = sandbox(folder, "PATH=/usr/bin:/bin", f"PATH={folder}/programs:/usr/bin:/bin")
            code, said, printed = alone(launcher, folder, ["/bin/echo", "one", "last"], **more)
            is_lost = code == -9 and "words are lost" in said and not printed
            found = (code, said, printed)
            report.expect(is_lost, f"{who}: the file of words loses {what}: the run fails, with a reason", found)
        finally:
            shutil.rmtree(folder, ignore_errors=True)


def words_lost_by_slurm(report, program):
    """The same on a node."""
    with Hung(report, program, "slurm", changes={"PATH=/usr/local/bin": "PATH=FOLDER/programs:/usr/local/bin"}) as here:
        for what, lost in LOST.items():
            cutting(here.folder, lost)
            with here.serve(1) as server, Peer(server.ports[0], 100) as red:
                told = Told(red, here.action(["/bin/echo", "one", "last"]))
                is_said = lambda: any("words are lost" in line or "a word is cut" in line for line in server.all_said())
                programs.settled(lambda: not is_said(), 5 * report.slow)
                lines, is_lost = server.all_said(), told.status == 13 and is_said()
            found = (str(told), lines)
            report.expect(is_lost, f"slurm: the file of words loses {what}: the run fails, with a reason", found)
            shutil.rmtree(f"{here.folder}/programs")


def alone(launcher, work, words, **more):
    """A launcher by itself, as a server starts it: its code, what it said, and what the program printed."""
    root = os.path.join(work, "start-1", "0-1")
    for path in [os.path.dirname(root), root, f"{root}.aside"]:
        os.makedirs(path, exist_ok=True)
        os.chmod(path, 0o777)
    with open(f"{root}.aside/said", "w") as said:
        os.chmod(said.name, 0o666)
    line = [launcher, INSTANCE, root, ".", *words]
    given = {"env": {}, "cwd": "/", "stdin": subprocess.DEVNULL, "start_new_session": True}
    done = subprocess.run(line, capture_output=True, timeout=60, **given, **more)
    with open(f"{root}.aside/said") as said:
        return done.returncode, said.read(), done.stdout


# What of `launchers/slurm` fails where it is to start itself again.
UNMADE = {
    "it is gone": ('-- "$0" KEPT', '-- "$0.gone" KEPT'),
    "its shell cannot read it": ('-- "$0" KEPT', '-- /bin/sh "$0.gone" KEPT'),
    "setpriv has no memory": ("  exec setpriv", "  ulimit -v 1000; exec setpriv"),
    "setpriv knows no such signal": ("  exec setpriv --pdeathsig TERM", "  exec setpriv --pdeathsig NONE"),
}


def not_started_again(report):
    """`launchers/slurm` cannot start itself again by setpriv: it ends by a signal, and no program has run."""
    with open(os.path.join(LAUNCHERS, "slurm")) as file:
        text = file.read()
    for what, (old, new) in UNMADE.items():
        if text.count(old) != 1:
            raise SystemExit(f"launchers/slurm has no {old}")
        with tempfile.TemporaryDirectory(prefix="launchers-lines-") as folder:
            path = os.path.join(folder, "slurm")
            with open(path, "w") as file:
                file.write(text.replace(old, new))
            os.chmod(path, 0o755)
            found = alone(path, folder, ["/bin/echo", "one"])
        report.expect(found[0] < 0 and not found[2], f"slurm: {what} when it starts itself again: a failed run", found)


def disk_full(report, who, launchers, **more):
    """The disk has no room for the words of an action: its run fails, and says why."""
    for name, launcher in launchers.items():
        folder = tempfile.mkdtemp(prefix="launchers-lines-")
        mounted = ["mount", "-t", "tmpfs", "-o", "size=300k,mode=777", "none", folder]
        try:
            subprocess.run(mounted, check=True)
            found = alone(launcher, folder, ["/bin/echo", *(["x" * 100_000] * 5)], **more)
            is_told = found[0] == -9 and "the words cannot be written" in found[1] and not found[2]
            report.expect(is_told, f"{who}: {name}: the disk is full: a failed run, with a reason", found)
        finally:
            subprocess.run(["umount", "--lazy", folder], check=False)
            os.rmdir(folder)


def lines(report, program, plain):
    """As this user; as root also as a plain one, on a full disk, and by Slurm."""
    ways = {"as this user": {}, **({"as a plain user": plain} if os.geteuid() == 0 else {})}
    with tempfile.TemporaryDirectory(prefix="launchers-lines-") as folder:
        os.chmod(folder, 0o755)
        launchers = {"the sandbox": sandbox(os.path.join(folder, "made"))}
        if not slurm_cluster.lacking():
            launchers["slurm"] = os.path.join(LAUNCHERS, "slurm")
        for who, more in ways.items():
            of_sandbox(report, program, who, **more)
            words_lost(report, who, **more)
            if os.geteuid() == 0:
                disk_full(report, who, launchers, **more)
    if slurm_cluster.lacking():
        print(f"skipped words on lines by Slurm: it needs {', '.join(slurm_cluster.lacking())}", flush=True)
        return
    not_started_again(report)
    for following in (False, True):
        of_slurm(report, program, following)
    words_lost_by_slurm(report, program)
