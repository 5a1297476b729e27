"""What `launchers.py` looks at of `launchers/sandbox`: what an action of one team cannot reach of another's."""

import contextlib
import os
import platform
import resource
import shutil
import signal
import subprocess
import tempfile
import time

import programs
import sandbox_attacks as attacks
from executing import PATH, Action, Link, Peer
from server import Server

HERE = os.path.dirname(os.path.abspath(__file__))
LAUNCHERS = os.path.realpath(os.path.join(HERE, "..", "..", "launchers"))
SECRET, SOURCE = "server-secret", b"the source of blue\n"
ODD = ["a b", "", "-n", "*", "$HOME", "a\nb", "A=B", "'", '"']
TOP = "../" * 24

# What a sandbox in which no program can be started has in place of what. Root has no limit of processes.
NO_PROCESS = "in which no process can be made"
UNMADE = {
    NO_PROCESS: ("most_processes=2000", "most_processes=1"),
    "on a processor that it is not for": ("/sandbox.allowed", "/of_another/sandbox.allowed"),
    "without its words for setpriv": ("setpriv --pdeathsig", "setpriv --no-such-word"),
    "without the calls that are refused": ("/sandbox.refused", "/of_nobody/sandbox.refused"),
    "that is gone when setpriv starts it again": ('-- "$0" KEPT', '-- "$0.gone" KEPT'),
    "that its shell cannot read then": ('-- "$0" KEPT', '-- /bin/sh "$0.gone" KEPT'),
    "whose setpriv has no memory then": ("  exec setpriv", "  ulimit -v 1000; exec setpriv"),
    "whose setpriv knows no such signal then": ("  exec setpriv --pdeathsig TERM", "  exec setpriv --pdeathsig NONE"),
    "whose setsid and env have no memory": ("limits= ", "limits=v=1000 "),
    "of which the end is lost": ("# ==== The start", "make_nothing() {"),
}


def sandbox(folder, old="", new=""):
    """`launchers/sandbox` with its filters, in this folder, which has filters of another processor, too."""
    path, made = os.path.join(folder, "sandbox"), os.path.join(LAUNCHERS, "sandbox-filters")
    another = os.path.join(folder, "of_another")
    os.makedirs(another)
    subprocess.run(["/usr/bin/python3", made, folder], check=True)
    machine = "aarch64" if platform.machine() == "x86_64" else "x86_64"
    subprocess.run(["/usr/bin/python3", made, another, "--for", machine], check=True)
    with open(os.path.join(LAUNCHERS, "sandbox")) as file, open(path, "w") as copy:
        text = file.read()
        if old not in text:
            raise SystemExit(f"launchers/sandbox has no {old}")
        copy.write(text.replace(old, new) if old else text)
    os.chmod(path, 0o755)
    return path


class Told:
    """What came of an action, with its texts."""

    def __init__(self, peer, action):
        operation = peer.execute(action)
        self.status, result = operation.status.code, operation.result
        self.code = result and result.code
        self.stdout, self.stderr = [
            peer.stream_text(digest).decode(errors="replace") if result else ""
            for digest in ((result.stdout, result.stderr) if result else ("", ""))
        ]
        self.files = {path: peer.text(each[0]) for path, each in result.files.items()} if result else {}
        self.trees = list(result.trees) if result else []

    def __str__(self):
        return f"status {self.status}, code {self.code}, {self.stdout!r}, {self.stderr!r}, {self.files}, {self.trees}"


def folders_and_files(other, server):
    """Reading and writing what is not the action's own."""
    start, up = server.start(), TOP + server.start()[1:]
    places = f"/x /usr/x /etc/x /dev/x /work/../x {start}/x {server.folder}/x {start}/{other}/x"
    places += " /proc/sys/kernel/hostname"
    elsewhere = f"for f in {places}; do (echo x > $f) 2>/dev/null && echo $f; done; true"
    nothing = lambda t: not t.stdout and t.code is not None
    return [
        ("the other's folder, by its path", f"cat {start}/{other}/src; ls {start} {server.folder}", {}, nothing),
        ("the other's folder, by ..", f"cat ../{other}/src ../../{other}/src {up}/{other}/src", {}, nothing),
        ("the other's folder, by a link", f"ln -s {start}/{other} l; cat l/src", {}, nothing),
        ("the host's files", "cat /etc/shadow /etc/hostname; ls /root /home /run /sys /etc/ssl/private", {}, nothing),
        ("other places to write", elsewhere, {}, lambda t: t.stdout == "" and t.code == 0),
        ("/tmp, which is its own", "ls -A /tmp; echo x >/tmp/x; cat /tmp/x", {}, lambda t: t.stdout == "x\n"),
        (
            "a link that the program put above outputs",
            "rmdir d p; ln -s ../../../../../../etc d; ln -s ../../../../../../proc/self p",
            {"files": ["d/hostname", "p/environ"], "directories": ["d/ssl"]},
            lambda t: t.code == 0 and not t.files and not t.trees,
        ),
        (
            "a link of the tree above an output",
            ["/bin/true"],
            {"tree": {"d": Link("..")}, "files": [f"d/{other}/src"]},
            lambda t: t.status == 13,
        ),
        (
            "a link above an output directory",
            ["/bin/true"],
            {"tree": {"d": Link("..")}, "directories": [f"d/{other}"]},
            lambda t: t.status == 13,
        ),
        (
            "a link as the working directory",
            ["/bin/pwd"],
            {"tree": {"d": Link(f"../{other}")}, "folder": "d"},
            lambda t: t.status == 13,
        ),
    ]


def processes(helpers, server):
    """Reaching the server and its helper, its ports, and rights."""
    pids = " ".join(str(each) for each in [server.process.pid, *helpers])
    ports = [str(port) for port in server.ports]
    proc = f"for p in {pids} 1 $PPID; do cat /proc/$p/environ /proc/$p/cmdline; ls -l /proc/$p/fd /proc/$p/cwd; done"
    memory = f"for p in {pids}; do head -c 1 /proc/$p/mem; head -c 9 /proc/$p/maps; done"
    killing = f"for p in {pids}; do kill -9 $p && echo $p; done; kill -9 -1; true"
    stopping = f"for p in {pids}; do kill -STOP $p && echo $p; done; true"
    settings = """for f in $(find /proc -maxdepth 4 -path '/proc/sys*' -type f); do
        [ -w $f ] && (: >> $f) && echo $f; done; true"""
    mounting = "mount -t tmpfs x /work && echo in; mount -o remount,rw / && echo in; umount /proc && echo in; true"
    nothing = lambda t: t.stdout == "" and t.code is not None
    python = ["/usr/bin/python3", "-c"]
    silent = lambda t: SECRET not in t.stdout and "serve\0--work" not in t.stdout and t.code is not None
    return [
        ("the server's environment", "cat /proc/[0-9]*/environ", {}, lambda t: SECRET not in t.stdout and "MARK" in t.stdout),
        ("the server's /proc", proc, {}, silent),
        ("the server's memory", memory, {}, nothing),
        ("the server's process", "ls -d /proc/[0-9]* | wc -l", {}, lambda t: int(t.stdout) < 6),
        ("both ports", [*python, attacks.CONNECTING, *ports], {}, lambda t: t.stdout == "" and t.code == 0),
        ("killing the server and its helper", killing, {}, nothing),
        ("stopping the server and its helper", stopping, {}, nothing),
        ("calls that are refused", [*python, attacks.CALLS], {}, lambda t: t.stdout == attacks.CALLS_SAY),
        ("the same as a program of 32 bits", [*python, attacks.CALLS_OF_32], {}, lambda t: t.stdout in attacks.SAY_32),
        ("calls that are not", [*python, attacks.OWN_CALLS], {}, lambda t: t.stdout == "as ever\n"),
        ("what ends first where memory runs out", "cat /proc/self/oom_score_adj", {}, lambda t: t.stdout == "1000\n"),
        ("what is told of keys and locks", "cat /proc/keys /proc/key-users /proc/locks", {}, nothing),
        ("the nodes of /dev", attacks.DEVICES, {}, lambda t: t.stdout == "1\n" and t.code == 0),
        ("rights", "grep -c 'Cap.*:.0000000000000000$' /proc/self/status", {}, lambda t: t.stdout == "5\n"),
        ("another namespace", "unshare --user true", {}, lambda t: t.code != 0),
        ("the kernel's settings", settings, {}, nothing),
        ("mounting", mounting, {}, nothing),
    ]


def own_matters():
    """What an action has, and how it ends."""
    stubborn = "trap '' TERM INT; (setsid sleep 4321 &); while :; do sleep 4321; done"
    writing = "(setsid sh -c 'while :; do echo x >>/work/out; done' &); sleep 0.2"
    names = [("A", "1"), ("B", " x\ty'\"$(z)"), ("-S", "2"), ("BASH_ENV", "/work/e"), ("IFS", "x")]
    wanted = ["-S=2", "A=1", "B= x\ty'\"$(z)", "BASH_ENV=/work/e", "IFS=x"]
    is_wanted = lambda t: sorted(t.stdout.splitlines()) == wanted and not t.stderr
    inner = lambda t: t.stdout == "/work/a/b\n" and t.files == {"out": b"1\n"}
    return [
        ("variables, which are its own alone", ["/usr/bin/env"], {"variables": names}, is_wanted),
        ("odd words", ["/usr/bin/printf", "%s|", *ODD], {}, lambda t: t.stdout == "|".join(ODD) + "|"),
        ("an inner working directory", "pwd; echo 1 >out", {"folder": "a/b", "files": ["out"]}, inner),
        ("a program whose name has =", ["a=b"], {}, lambda t: t.status == 13),
        ("a program that is not there", ["/no/such"], {}, lambda t: t.code == 127),
        ("a code", "exit 7", {}, lambda t: t.code == 7 and not t.stderr),
        ("a signal", "kill -KILL $$", {}, lambda t: t.code == 137 and not t.stderr),
        ("another signal", "kill -SEGV $$", {}, lambda t: t.code == 139 and not t.stderr),
        ("a signal to its whole group", "echo x; kill 0", {}, lambda t: t.code == 143 and t.stdout == "x\n"),
        ("an interrupt to its whole group", "echo x; kill -INT 0", {}, lambda t: t.code == 130 and t.stdout == "x\n"),
        ("an interrupt to what waits for it", "kill -INT 1; kill -INT $PPID; exit 6", {}, lambda t: t.code == 6),
        ("streams that are opened again", attacks.REOPENING, {}, lambda t: (t.stdout, t.stderr) == attacks.REOPENED),
        ("a daemon, which ends with its program", writing, {"files": ["out"]}, lambda t: t.code == 0),
        ("a timeout", "(setsid sleep 4321 &); sleep 4321", {"seconds": 2}, lambda t: t.status == 4),
        ("a timeout of a program that goes on", stubborn, {"seconds": 2}, lambda t: t.status == 4),
    ]


def daemons(folder, server):
    """What goes on of actions that were to end."""
    running = programs.running(folder, server.process.pid)
    return {number: text for number, text in running.items() if "sleep 4321" in text or "echo x >>" in text}


def reach(report, program, who, **more):
    """All tries of one team's, while an action of the other team's runs."""
    folder = tempfile.mkdtemp(prefix="launchers-")
    os.chmod(folder, 0o777)
    launcher, work = sandbox(folder), os.path.join(folder, "work")
    instances = [("red", 10**8, 2), ("blue", 10**8, 2)]
    try:
        with Server(program, instances, 2**62, {"SECRET": SECRET}, work, True, launcher, **more) as server:
            red, blue = (Peer(port, 120 * report.slow) for port in server.ports)
            script = f"sleep {30 * report.slow}; cat src"
            slow = blue.start(marked(folder, script, tree={"src": SOURCE}, seconds=int(600 + 30 * report.slow)))
            of_blue = lambda: [name for name in server.entries() if name.startswith("1-")]
            programs.settled(lambda: not of_blue(), 20 * report.slow)
            tried_all(report, who, server, red, folder, of_blue()[0])
            ended_soon(report, who, server, red, folder)
            done = blue.operations(slow)[-1]
            is_right = done.result and blue.stream_text(done.result.stdout) == SOURCE
            report.expect(is_right, f"{who}: the other's action is as it is alone", done.status.code)
            left = programs.settled(server.entries, 20 * report.slow)
            report.expect(not left, f"{who}: no folder is left", left)
            report.expect(not programs.zombies(server.process.pid), f"{who}: no ended program is left", "some are")
            ends_with_server(report, who, server, red, folder)
    finally:
        programs.end(folder)
        shutil.rmtree(folder, ignore_errors=True)


def nothing_started(report, program, who, **more):
    """A sandbox in which no program can be started: that is the launcher's fault, and no result of the action."""
    for what, (old, new) in UNMADE.items():
        if what == NO_PROCESS and os.geteuid() == 0 and not more:
            continue
        folder = tempfile.mkdtemp(prefix="launchers-")
        os.chmod(folder, 0o777)
        launcher, work = sandbox(folder, old, new), os.path.join(folder, "work")
        # The server ignores SIGPIPE, as below systemd.
        given = {"restore_signals": False, **more}
        try:
            with Server(program, [("red", 10**8, 1)], 2**62, None, work, True, launcher, **given) as server:
                with Peer(server.ports[0], 60 * report.slow) as red:
                    told = Told(red, marked(folder, "true"))
                programs.settled(lambda: not server.said(), 2 * report.slow)
                lines = server.said()[-1:]
                is_told = told.status == 13 and bool(lines) and lines[0].startswith("remoted: run red 1 failed: launcher")
                report.expect(is_told, f"{who}: a sandbox {what}", (str(told), lines))
        finally:
            shutil.rmtree(folder, ignore_errors=True)


# Hard limits of the server's, lower than those of the script: processes, and seconds of a processor.
LOWER = {resource.RLIMIT_NPROC: 1500, resource.RLIMIT_CPU: 3000}


def lower_limits(report, program, who, **more):
    """A server that has lower limits than the sandbox's: these stay."""
    folder = tempfile.mkdtemp(prefix="launchers-")
    os.chmod(folder, 0o777)
    launcher, work = sandbox(folder, "limits= ", "limits=t=4000 "), os.path.join(folder, "work")
    lower = lambda: [resource.setrlimit(each, (most, most)) for each, most in LOWER.items()]
    try:
        with Server(program, [("red", 10**8, 1)], 2**62, None, work, True, launcher, preexec_fn=lower, **more) as server:
            with Peer(server.ports[0], 60 * report.slow) as red:
                told = Told(red, marked(folder, ["/bin/bash", "-c", "ulimit -u; ulimit -t"]))
        report.expect((told.code, told.stdout) == (0, "1500\n3000\n"), f"{who}: lower limits of the server's stay", told)
    finally:
        shutil.rmtree(folder, ignore_errors=True)


def own_descriptors(report, who, **more):
    """The launcher by itself: what is open where it is started is not open to the program."""
    folder = tempfile.mkdtemp(prefix="launchers-")
    os.chmod(folder, 0o777)
    launcher, root = sandbox(folder), os.path.join(folder, "1")
    for name in [root, f"{root}.aside"]:
        os.mkdir(name)
        os.chmod(name, 0o777)
    looking = "for n in 3 4 5 6 7 8 9; do [ ! -e /proc/self/fd/$n/etc ] || echo $n; done"
    listing = [launcher, "red", root, ".", "/bin/sh", "-c", looking]
    words = ["/bin/sh", "-c", 'exec 3</ 5</ 9</ && exec "$@"', "sh", *listing]
    try:
        done = subprocess.run(words, env={}, cwd="/", stdin=subprocess.DEVNULL, capture_output=True, text=True, **more)
        report.expect(done.stdout == "" and done.returncode == 0, f"{who}: descriptors of whoever starts the launcher", done)
    finally:
        shutil.rmtree(folder, ignore_errors=True)


def marked(mark, words, **given):
    """An action whose processes can be told by a variable."""
    return Action(words, do_not_cache=True, variables=[PATH, ("MARK", mark)], **given)


def tried_all(report, who, server, red, folder, other):
    """One team's actions, one after another."""
    Told(red, marked(folder, "true"))
    helpers = programs.helpers(folder, server.process.pid)
    cases = [*folders_and_files(other, server), *processes(helpers, server), *own_matters()]
    of_folders = len(folders_and_files(other, server))
    for number, (what, words, given, holds) in enumerate(cases):
        is_bare = "variables" in given
        told = Told(red, Action(words, do_not_cache=True, **given) if is_bare else marked(folder, words, **given))
        report.expect(holds(told), f"{who}: {what}", told)
        if programs.settled(lambda: daemons(folder, server), 15 * report.slow):
            report.missed(f"{who}: {what}: it goes on", daemons(folder, server))
        if number < of_folders and other not in server.entries():
            report.missed(f"{who}: {what}: the other's folder is there", "it is not")
    are_there = set(helpers) <= set(programs.helpers(folder, server.process.pid)) and server.is_running()
    report.expect(are_there, f"{who}: the server and its helper are there", "they are not")


def ended_soon(report, who, server, red, folder):
    """Timeouts while the sandbox is being made."""
    statuses = set()
    for n in range(40):
        action = marked(folder, ["/bin/sleep", "4321"], nanos=(5 + 4 * n) * 1_000_000)
        statuses.add(red.execute(action).status.code)
    left = programs.settled(lambda: daemons(folder, server), 15 * report.slow)
    report.expect(statuses == {4} and not left, f"{who}: timeouts while the sandbox is being made", (statuses, left))


def ended_alone(report, who, **more):
    """The launcher by itself, as on a node: it is ended while the sandbox is being made. Who started it ends its session."""
    folder = tempfile.mkdtemp(prefix="launchers-")
    os.chmod(folder, 0o777)
    launcher = sandbox(folder)
    try:
        for n in range(80):
            root = os.path.join(folder, str(n))
            for name in [root, f"{root}.aside"]:
                os.mkdir(name)
                os.chmod(name, 0o777)
            words = [launcher, "red", root, ".", f"MARK={folder}", "/bin/sleep", "4321"]
            nowhere = {"stdin": subprocess.DEVNULL, "stdout": subprocess.DEVNULL, "stderr": subprocess.DEVNULL}
            begun = subprocess.Popen(words, env={}, cwd="/", start_new_session=True, **nowhere, **more)
            time.sleep((5 + 2 * n) / 1000)
            if n % 2:
                os.killpg(begun.pid, signal.SIGTERM)
            else:
                begun.kill()
                begun.wait()
                with contextlib.suppress(ProcessLookupError):
                    os.killpg(begun.pid, signal.SIGKILL)
            begun.wait()
        left = programs.settled(lambda: programs.marked(folder), 5 * report.slow)
        report.expect(not left, f"{who}: the launcher alone is ended while the sandbox is being made", left)
    finally:
        programs.end(folder)
        shutil.rmtree(folder, ignore_errors=True)


def ends_with_server(report, who, server, red, folder):
    """A server that is killed takes its programs with it."""
    red.start(marked(folder, "(setsid sleep 4321 &); sleep 4321"))
    programs.settled(lambda: "sleep 4321" not in str(programs.running(folder)), 20 * report.slow)
    report.expect("sleep 4321" in str(programs.running(folder)), f"{who}: a program runs", "none does")
    server.process.kill()
    server.process.wait()
    begun = time.monotonic()
    left = programs.settled(lambda: programs.running(folder), 5 * report.slow)
    report.expect(not left, f"{who}: programs end with a server that is killed", left)
    print(f"   after {time.monotonic() - begun:.2f} s", flush=True)
