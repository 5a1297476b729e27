#!/usr/bin/env python3
"""command_line_faults.py PROGRAM [--slow FACTOR]: what `remoted` says where it cannot do what a command line asks for.

PROGRAM is the built `remoted`. Each command line is run by itself, and its status, its standard output and its standard
error are compared whole. Words that are wrong for an instance, ports that are taken, folders that cannot be made or
taken, files that cannot be read, scripts with bad lines, ends of `probe`, words that are not UTF-8, streams that are
closed, limits of the host; and what a server says of itself at its start. Of the command line's own form (a missing
option, `--help`) only what is said of the four numbers is compared. A line for each, `ok` or `FAILED` with what came; it
ends with `N passed, M failed`, and with status 1 where one failed.
"""

import argparse
import os
import pty
import re
import resource
import shutil
import signal
import socket
import subprocess
import sys
import tempfile
import threading
import time

from bad_scripts import BAD_LINES
from server import Server, free_ports

PARTS = "it is not NAME:PORT:QUOTA:SLOTS[:PARENT]"
PORT = "the port is not a number from 1 to 65535"
QUOTA = "the quota is not a number from 0 to 1099511627776"
SLOTS = "the slots are not a number from 0 to 64"
NAME = "the name is not 1 to 64 of a-z, 0-9 and -, or it is a word of resource names"
NAME_AGAIN = "an instance before it has the name"
PARENT = "the parent is not another instance, or it has a parent itself"
PORT_AGAIN = "an instance before it has the port"
SPACE = "a space stands in it before {}: each instance is a word of its own"
ITS_PARENT = "PARENT is blue: that has a parent itself, ci"

# Words for instances, the one that is bad, why, and what stands on the line behind that.
BAD_WORDS = [
    (["red"], "red", PARTS, "it has no PORT"),
    ([""], "", PARTS, "it has no PORT"),
    (["red:1:2"], "red:1:2", PARTS, "it has no SLOTS"),
    (["red:1:2:3:blue:4"], "red:1:2:3:blue:4", PARTS, "behind PARENT stands 4"),
    (["red:0:100:0"], "red:0:100:0", PORT, "PORT is 0"),
    (["red:65536:100:0"], "red:65536:100:0", PORT, "PORT is 65536"),
    (["red:+1:100:0"], "red:+1:100:0", PORT, "PORT is +1"),
    (["red::100:0"], "red::100:0", PORT, "PORT is empty"),
    (["red:1:x:0"], "red:1:x:0", QUOTA, "QUOTA is x"),
    (["red:1:8G:0"], "red:1:8G:0", QUOTA, "QUOTA is 8G: in digits that is 8589934592"),
    (["red:1:500M:0"], "red:1:500M:0", QUOTA, "QUOTA is 500M: in digits that is 524288000"),
    (["red:1:1T:0"], "red:1:1T:0", QUOTA, "QUOTA is 1T: in digits that is 1099511627776"),
    (["red:1:2T:0"], "red:1:2T:0", QUOTA, "QUOTA is 2T"),
    (["red:1:8g:0"], "red:1:8g:0", QUOTA, "QUOTA is 8g"),
    (["red:1::0"], "red:1::0", QUOTA, "QUOTA is empty"),
    (["red:1:1099511627777:0"], "red:1:1099511627777:0", QUOTA, "QUOTA is 1099511627777"),
    (["red:1:99999999999999999999:0"], "red:1:99999999999999999999:0", QUOTA, "QUOTA is 99999999999999999999"),
    (["red:1:100:65"], "red:1:100:65", SLOTS, "SLOTS is 65"),
    (["red:1:100:-1"], "red:1:100:-1", SLOTS, "SLOTS is -1"),
    ([":1:100:0"], ":1:100:0", NAME, "NAME is empty"),
    (["Red:1:100:0"], "Red:1:100:0", NAME, "NAME is Red"),
    (["blobs:1:100:0"], "blobs:1:100:0", NAME, "NAME is blobs"),
    (["n" * 65 + ":1:100:0"], "n" * 65 + ":1:100:0", NAME, "NAME is " + "n" * 65),
    (["red:1:100:0", "red:2:100:0"], "red:2:100:0", NAME_AGAIN, "NAME is red"),
    (["red:1:100:0:blue"], "red:1:100:0:blue", PARENT, "PARENT is blue: no instance has this name"),
    (["red:1:100:0:"], "red:1:100:0:", PARENT, "PARENT is empty"),
    (["red:1"], "red:1", PARTS, "it has no QUOTA"),
    (["red:1:100:0:red"], "red:1:100:0:red", PARENT, "PARENT is red: that is the instance itself"),
    (["red:1:100:0:blue", "blue:2:100:0:ci", "ci:3:100:0"], "red:1:100:0:blue", PARENT, ITS_PARENT),
    # A list in quotation marks is one word.
    (["red:1:100:0 blue:2:100:0"], "red:1:100:0 blue:2:100:0", PARTS, SPACE.format("blue:2:100:0")),
    (["red:1:100:0 blue"], "red:1:100:0 blue", SLOTS, SPACE.format("blue")),
    (["red:1:100 :0"], "red:1:100 :0", QUOTA, SPACE.format(":0")),
    (["red:1:100:0 "], "red:1:100:0 ", SLOTS, "a space stands at its end"),
    (["red:1:100:0", "blue:1:100:0"], "blue:1:100:0", PORT_AGAIN, "PORT is 1"),
    # What is told first where more is wrong.
    (["Red:1:100:0", "blue:0:1:0"], "blue:0:1:0", PORT, "PORT is 0"),
    (["Red:1:9999999999999:0"], "Red:1:9999999999999:0", NAME, "NAME is Red"),
    (["red:1:100:0:no", "blue:2:1099511627777:0"], "blue:2:1099511627777:0", QUOTA, "QUOTA is 1099511627777"),
    (["red:1:100:0:no", "blue:1:100:0"], "red:1:100:0:no", PARENT, "PARENT is no: no instance has this name"),
]


# What is said of a file that is not there.
NONE = "remoted: cannot read none\nremoted: none: No such file or directory (os error 2)\n"

# The numbers of an operator: what is said of one that is none, and some that are none.
BETWEEN = {
    "--blobs": "error: --blobs is not a number from 1 to 2147483648, as 65536, 64K or 1M: '{0}'",
    "--results": "error: --results is not a number from 0 to 2147483648, as 10000 or 64K: '{0}'",
    "--result-bytes": "error: --result-bytes is not a number of bytes from 4194304 to 2147483648, as 64M or 2G: '{0}'",
    "--window": "error: --window is not a number of bytes from 65535 to 2147483647, as 64K or 4M: '{0}'",
    "--turns": "error: --turns is not a number from 0 to 9223372036854775807, and not endless: '{0}'",
    "--made-trees": "error: --made-trees is not a number of bytes from 0 to 9223372036854775807, as 500M or 20G: '{0}'",
}
BAD_NUMBERS = {
    "--blobs": ["0", "0K", "2147483649", "3G", "1KB", ""],
    "--results": ["2147483649", "2T", "many"],
    "--result-bytes": ["4194303", "3M", "2147483649", "3G", "64m", "64MB", "M", ""],
    "--window": ["65534", "63K", "2147483648", "2G", "1T", "4M4", "x"],
    "--turns": ["9223372036854775808", "1K", "for ever", ""],
    "--made-trees": ["9223372036854775808", "8388608T", "20g", "20GB", ""],
}
# Words of `check` that are wrong, and what is said of them.
CHECKED = [
    ([], "error: neither --port is given, nor --metrics"),
    (["--port", "1", "--metrics", "a"], "error: --port and --metrics are given, and one of them is asked at a time"),
    (["--port", "1", "--seconds", "0"], "error: invalid value '0' for '--seconds <N>': 0 is not in 1..=3600"),
    (["--port", "1", "--host", "me"], "remoted: --host is no IPv4 or IPv6 address, as 127.0.0.1 or ::1: me"),
    (["--port", "1", "--instance", "n" * 65], "remoted: --instance is longer than any name: " + "n" * 65),
]
# What `--help` says that each costs.
COSTS = {
    "--blobs": "some 570 bytes of memory for each blob that is there",
    "--results": "some 250 bytes for each result that is there",
    "--result-bytes": "as many bytes as results have; they count in no quota",
    "--window": "nothing by itself: an upload has at most so many bytes on its way",
}


class Checks:
    """Runs of the program, whose whole answers are compared."""

    def __init__(self, program, folder, slow):
        self.program, self.folder, self.slow = program, folder, slow
        self.passed, self.failed = 0, 0
        self.version = subprocess.check_output([program, "--version"], text=True).split()[1]

    def ends(self, words, status, errors, output="", **more):
        """What the program has to end with for these words."""
        more.setdefault("stdin", subprocess.DEVNULL)
        try:
            done = subprocess.run(
                [self.program, *words], capture_output=True, text=True, timeout=30 * self.slow, cwd=self.folder, **more
            )
            found = (done.returncode, done.stdout, done.stderr)
        except subprocess.TimeoutExpired as late:
            found = (None, late.stdout, late.stderr)
        self.tell(" ".join(map(str, words)), found, (status, output, errors))

    def tell(self, what, found, wanted):
        what = what.replace(self.folder, "..")
        if found == wanted:
            self.passed += 1
            print(f"ok {what[:100]}: {wanted[0]} {wanted[2].strip()}", flush=True)
        else:
            self.failed += 1
            print(f"FAILED {what[:100]}: found {found}, wanted {wanted}", flush=True)

    def serve(self, *words):
        return ["serve", "--turns", "20", "--work", *words]

    def begun(self, *instances, programs="without a launcher"):
        """What such a server says at its start and its end, of instances as they are written without a parent."""
        told = [f"remoted: {self.version} begins with {len(instances)} instances"]
        for name, port, quota, slots in (word.split(":") for word in instances):
            told += [f"remoted: {name}: {quota} bytes, {slots} slots, on 127.0.0.1:{port}"]
        if any(word.split(":")[3] != "0" for word in instances):
            told += [f"remoted: programs are started {programs}"]
        told += ["remoted: ends after 20 turns at the latest", "remoted: ends after 20 turns"]
        return "\n".join([*told, ""])

    def file(self, name, text):
        path = os.path.join(self.folder, name)
        with open(path, "w") as file:
            file.write(text)
        return path


def words_for_instances(checks):
    for words, word, reason, behind in BAD_WORDS:
        told = f"remoted: bad instance {word}: {reason}\nremoted: {behind}\n"
        checks.ends(checks.serve("work", *words), 2, told)
    many = [f"i{n}:{n}:1:0" for n in range(1, 258)]
    checks.ends(checks.serve("work", *many), 2, "remoted: there are more than 256 instances\n")
    checks.tell("nothing was made", (0, os.path.lexists(os.path.join(checks.folder, "work")), ""), (0, False, ""))


def numbers(checks):
    """What is said of numbers out of their bounds, and what `--help` says that they cost."""
    run = lambda *words: subprocess.run(
        [checks.program, *words], capture_output=True, text=True, timeout=30 * checks.slow, cwd=checks.folder
    )
    for option, values in BAD_NUMBERS.items():
        for value in values:
            done = run("serve", "--work", "work", option, value, "red:1:100:0")
            found = (done.returncode, done.stdout, done.stderr.split("\n")[0])
            checks.tell(f"{option} {value}", found, (2, "", BETWEEN[option].format(value)))
    done = run("serve", "--work", "work", "--made-trees", "1", "red:1:100:0")
    told = "error: --made-trees is given, and no --launcher, which is to bind them"
    checks.tell("--made-trees", (done.returncode, done.stdout, done.stderr.split("\n")[0]), (2, "", told))
    for option in ["--turns", "--window", "--blobs"]:
        done = run("serve", "--work", "work", option, "-1", "red:1:100:0")
        found = (done.returncode, "tip" in done.stderr, done.stderr.split("\n")[0])
        checks.tell(f"{option} -1", found, (2, False, "error: unexpected argument '-1' found"))
        checks.tell(f"{option} -1", ("\n\nUsage: " in done.stderr, "", ""), (True, "", ""))
    done = run("serve", "--work", "work", "--quota", "5", "red:1:100:0")
    found = (done.returncode, "tip" in done.stderr, done.stderr.split("\n")[0])
    checks.tell("--quota", found, (2, False, "error: unexpected argument '--quota' found"))
    done = run("serve", "--work", "work", "--blobs", "no", "red:1:100:0")
    usage = "Usage: remoted serve [OPTIONS] --work <DIR>"
    checks.tell("the usage of the command", (done.returncode, usage in done.stderr, ""), (2, True, ""))
    for words, told in CHECKED:
        done = run("check", *words)
        found = (done.returncode, done.stdout, done.stderr.split("\n")[0])
        checks.tell(" ".join(words), found, (2, "", told))
    told = {" ".join(line.split()) for line in run("serve", "--help").stdout.splitlines()}
    for option, cost in COSTS.items():
        checks.tell(f"{option} in --help", (0, f"{option} {cost}" in told, ""), (0, True, ""))


def ports(checks):
    first, second = free_ports(2)
    with socket.socket() as taken:
        taken.bind(("127.0.0.1", second))
        taken.listen()
        words = [f"red:{first}:100:1", f"blue:{second}:100:1"]
        told = f"remoted: cannot listen on {second}\nremoted: port {second}: Address already in use (os error 98)\n"
        checks.ends(checks.serve("taken", *words), 1, told)
    checks.tell("no folder was made", (0, os.path.lexists(os.path.join(checks.folder, "taken")), ""), (0, False, ""))
    listening = f"listening red {first}\nlistening blue {second}\n"
    checks.ends(checks.serve("free", *words), 0, checks.begun(*words), listening)


def folders(checks):
    word = lambda: f"red:{free_ports(1)[0]}:100:1"
    checks.ends(["serve", "--work=", word()], 2, "remoted: --work names no folder\n")
    for options, told in [
        (["--links", "follow"], "--links is not leave-out or fail: follow"),
        (["--stop", "a", "--end", "a"], "--stop and --end name one file: a"),
        (["--metrics", "a", "--stop", "a"], "--metrics and --stop name one file: a"),
        (["--metrics", "a", "--end", "a.new"], "--end names a.new, which --metrics writes first"),
    ]:
        checks.ends(["serve", "--work", "none", *options, word()], 2, f"remoted: {told}\n")
    for option in ["--stop", "--end"]:
        for path, folder in [("none/in", "none"), ("/no/such/in", "/no/such")]:
            told = f"remoted: {option} is looked for in {folder}: there is no such folder\n"
            checks.ends(checks.serve("unmade", option, path, word()), 1, told)
    made = os.path.lexists(os.path.join(checks.folder, "unmade"))
    checks.tell("no folder was made", (0, made, ""), (0, False, ""))
    checks.file("file", "")
    told = "remoted: --end is looked for in file: there is no such folder\n"
    checks.ends(checks.serve("unmade", "--end", "file/in", word()), 1, told)
    checks.ends(checks.serve("file", word()), 1, "remoted: file is no folder: name another, or remove it\n")
    checks.ends(checks.serve("file/in", word()), 1, "remoted: cannot make file/in: Not a directory (os error 20)\n")
    long = "n" * 256
    checks.ends(checks.serve(long, word()), 1, f"remoted: cannot make {long}: File name too long (os error 36)\n")
    os.makedirs(os.path.join(checks.folder, "full", "2024-11"))
    told = "remoted: full is not empty, and is not a folder of remoted's: name an empty one, or one that is not there\n"
    checks.ends(checks.serve("full", word()), 1, told)
    makers = {"folder": os.mkdir, "fifo": os.mkfifo, "link": lambda path: os.symlink("/dev/null", path)}
    for name, make in makers.items():
        os.mkdir(os.path.join(checks.folder, name))
        make(os.path.join(checks.folder, name, "remoted.lock"))
        told = f"remoted: {name}/remoted.lock is no file: remove it, or name another folder\n"
        checks.ends(checks.serve(name, word()), 1, told)
    work = os.path.join(checks.folder, "held")
    with Server(checks.program, [("red", 100, 1)], 2**62, folder=work):
        told = "remoted: another server works in held: stop it, or name another folder\n"
        checks.ends(checks.serve("held", word()), 1, told)
    if os.geteuid() == 0:
        os.mkdir(os.path.join(checks.folder, "closed"), 0o755)
        plain = {"user": 65534, "group": 65534, "extra_groups": []}
        told = "remoted: cannot work in closed: Permission denied (os error 13)\n"
        checks.ends(checks.serve("closed", word()), 1, told, **plain)
        os.mkdir(os.path.join(checks.folder, "roots"))
        checks.file("roots/remoted.lock", "")
        os.chmod(os.path.join(checks.folder, "roots/remoted.lock"), 0o600)
        os.chown(os.path.join(checks.folder, "roots"), 65534, 65534)
        told = "remoted: cannot work in roots: roots/remoted.lock: Permission denied (os error 13)\n"
        checks.ends(checks.serve("roots", word()), 1, told, **plain)
        told = "remoted: cannot make closed/new: Permission denied (os error 13)\n"
        checks.ends(checks.serve("closed/new", word()), 1, told, **plain)
        os.mkdir(os.path.join(checks.folder, "barred"), 0o700)
        for option in ["--stop", "--end"]:
            told = f"remoted: {option} is looked for in barred: Permission denied (os error 13)\n"
            checks.ends(checks.serve("unmade", option, "barred/in", word()), 1, told, **plain)
    else:
        print("skipped a folder of another user: it needs root")


def launchers(checks):
    port, path = free_ports(1)[0], checks.file("no-program", "")
    missing, other = "there is no such file", "it is no file that the server may execute"
    for program, why in [("/no/such", missing), (path, other), (checks.folder, other)]:
        words = ["--launcher", program, f"red:{port}:100:1"]
        checks.ends(checks.serve("launched", *words), 1, f"remoted: cannot run {program}: {why}\n")
    words = ["--launcher", "/usr/bin/env", f"red:{port}:100:1"]
    told = checks.begun(words[2], programs="by /usr/bin/env")
    checks.ends(checks.serve("launched", *words), 0, told, f"listening red {port}\n")
    checks.file("needed", "")
    path = checks.file("needy", "#!/bin/sh\n# needs: needed none - nobody makes it\n")
    os.chmod(path, 0o755)
    told = f"remoted: {os.path.realpath(path)} lacks none beside it, so each action will fail: nobody makes it\n"
    told += checks.begun(words[2], programs=f"by {path}")
    checks.ends(checks.serve("launched", "--launcher", path, words[2]), 0, told, f"listening red {port}\n")
    made_trees(checks, words[2])


def made_trees(checks, word):
    """A launcher has to say that it binds them."""
    lines = {"binds": "# binds: trees", "binds-all": "# binds: trees ", "leaves": "# leaves: no process"}
    for name, line in lines.items():
        path = checks.file(name, f"#!/bin/sh\n{line}\n")
        os.chmod(path, 0o755)
        words = checks.serve("launched", "--launcher", path, "--made-trees", "1K", word)
        told = f"remoted: {os.path.realpath(path)} does not say by a line `# binds: trees` that it binds them: "
        told += "leave out --made-trees\n"
        by = f"by {path}\nremoted: each instance keeps made trees of 1024 bytes at most"
        if name == "binds":
            checks.ends(words, 0, checks.begun(word, programs=by), f"listening red {word.split(':')[1]}\n")
        else:
            checks.ends(words, 1, told)


def what_is_lacking(checks):
    port = free_ports(1)[0]
    ignoring = lambda: signal.signal(signal.SIGCHLD, signal.SIG_IGN)
    told = "remoted: SIGCHLD is ignored, so how a program ends is not seen: "
    told += "start it by env --default-signal=CHLD remoted\n"
    checks.ends(checks.serve("lacking", f"red:{port}:100:1"), 1, told, preexec_fn=ignoring)
    listening, cache, runner = f"listening red {port}\n", f"red:{port}:100:0", f"red:{port}:100:2"
    checks.ends(checks.serve("lacking", cache), 0, checks.begun(cache), listening, preexec_fn=ignoring)
    few = lambda count: lambda: resource.setrlimit(resource.RLIMIT_NOFILE, (count, count))
    told = (
        "remoted: {} files may be open, and up to 204 are needed: raise the limit (ulimit -n 204, or LimitNOFILE=204)\n"
    )
    words, begun = checks.serve("lacking", runner), checks.begun(runner)
    checks.ends(words, 0, told.format(60) + begun, listening, preexec_fn=few(60))
    fewer = "remoted: 33 files may be open, and at least 34 are needed to begin: raise the limit "
    fewer += "(ulimit -n 204, or LimitNOFILE=204)\n"
    checks.ends(words, 1, fewer, preexec_fn=few(33))
    checks.ends(words, 0, begun, listening, preexec_fn=few(204))
    small = lambda: resource.setrlimit(resource.RLIMIT_FSIZE, (5000, 5000))
    told = "remoted: files may have 5000 bytes, and writing more would end the server by SIGXFSZ: raise the limit "
    told += "(ulimit -f unlimited, or LimitFSIZE=infinity), or start it by env --ignore-signal=XFSZ remoted\n"
    checks.ends(words, 1, told, preexec_fn=small)
    # Popen sets this signal back where it is not told to leave it.
    checks.ends(words, 0, begun, listening, preexec_fn=lambda: ignores_and(small), restore_signals=False)


def ignores_and(limit):
    signal.signal(signal.SIGXFSZ, signal.SIG_IGN)
    limit()


def words_that_are_no_text(checks):
    told = "remoted: word {} of the command line is not UTF-8\n"
    checks.ends([b"unary", b"\xff.txt"], 2, told.format(2))
    checks.ends([b"serve", b"--work", b"a", b"--metrics", b"figures-\xc3", b"red:1:1:0"], 2, told.format(5))
    checks.ends([b"\xa0"], 2, told.format(1))


def streams_that_are_closed(checks):
    """A server with none of its own streams has nothing of a client's in their place."""
    port = free_ports(1)[0]
    shut = lambda: [os.close(stream) for stream in range(3)]
    words = [checks.program, "serve", "--turns", "endless", "--work", "shut", f"red:{port}:100:0"]
    server = subprocess.Popen(words, cwd=checks.folder, preexec_fn=shut)
    try:
        deadline = time.monotonic() + 10 * checks.slow
        found = None
        while found != 0 and time.monotonic() < deadline:
            found = subprocess.run([checks.program, "check", "--port", str(port)], capture_output=True).returncode
        with socket.create_connection(("127.0.0.1", port)):
            streams = {os.readlink(f"/proc/{server.pid}/fd/{stream}") for stream in range(3)}
        checks.tell("a server without streams", (found, streams, ""), (0, {"/dev/null"}, ""))
    finally:
        server.kill()
        server.wait()
    checks.file("good", "instance a 100\nput a 616263\n")
    for stream in range(3):
        output = "" if stream == 1 else "stored\n"
        checks.ends(["unary", "good"], 0, "", output, preexec_fn=lambda closed=stream: os.close(closed))


def beginnings(checks):
    """What a server says of what it serves."""
    ports = free_ports(2)
    words = [f"ci:{ports[0]}:8589934592:0", f"red:{ports[1]}:1000:4:ci"]
    options = ["--metrics", "figures", "--stop", "end", "--end", "jobs", "--listen", "::1"]
    told = f"remoted: {checks.version} begins with 2 instances\n"
    told += f"remoted: ci: 8589934592 bytes, 0 slots, on [::1]:{ports[0]}\n"
    told += f"remoted: red: 1000 bytes, 4 slots, on [::1]:{ports[1]}, reads ci\n"
    told += "remoted: programs are started without a launcher\n"
    told += "remoted: figures are written to figures\nremoted: ends once end is there\n"
    told += "remoted: jobs are ended by the lines of jobs\n"
    told += "remoted: ends after 20 turns at the latest\nremoted: ends after 20 turns\n"
    listening = f"listening ci {ports[0]}\nlistening red {ports[1]}\n"
    checks.ends(checks.serve("begun", *options, *words), 0, told, listening)
    figures_in_words(checks)
    word = f"red:{ports[0]}:1000:0"
    first, rest = checks.begun(word).split("remoted: ends", 1)
    told = "remoted: each keeps 7 blobs, and 0 results of 4194304 bytes, and has windows of 1048576 bytes\n"
    numbers = ["--blobs", "7", "--results", "0", "--result-bytes", "4M", "--window", "1M"]
    told = f"{first}{told}remoted: ends{rest}"
    checks.ends(checks.serve("chosen", *numbers, word), 0, told, f"listening red {ports[0]}\n")


def figures_in_words(checks):
    """What `check` says of the file of figures that the server before has written."""
    ask = ["check", "--metrics", "figures"]
    path = os.path.join(checks.folder, "figures")
    with open(path) as file:
        text = file.read()
    for words, wanted in [
        (ask, "Turns of the server's loop: "),
        ([*ask, "--instance", "red"], "red: The most bytes of blobs that are stored: 1000\n"),
        ([*ask, "--instance", "ci"], "ci: The most bytes of blobs that are stored: 8589934592\n"),
    ]:
        done = subprocess.run([checks.program, *words], capture_output=True, text=True, cwd=checks.folder)
        *lines, age = done.stdout.splitlines()
        all_its = len(words) == 3 or all(line.startswith(words[4] + ": ") for line in lines)
        found = (done.returncode, wanted in done.stdout and all_its, done.stderr)
        checks.tell(" ".join(words), found, (0, True, ""))
        young = int(age.removeprefix("Seconds since this was written: ")) <= 30
        checks.tell("how old they are", (young, "", ""), (True, "", ""))
    for moved, status, told in [
        (-61, 4, r"remoted: figures was written 6\d s ago: no server writes it now\n"),
        (-86400, 4, r"remoted: figures was written 864\d\d s ago: no server writes it now\n"),
        (3600, 0, r"remoted: figures was written 3[56]\d\d s after this host's clock: how old it is cannot be told\n"),
    ]:
        moment = time.time() + moved
        os.utime(path, (moment, moment))
        old = subprocess.run([checks.program, *ask], capture_output=True, text=True, cwd=checks.folder)
        is_told = bool(re.fullmatch(told, old.stderr)) and len(old.stdout.splitlines()) > 60
        checks.tell(f"figures whose time is {moved} s from now", (old.returncode, is_told, ""), (status, True, ""))
    os.utime(path)
    samples = [line for line in text.splitlines() if not line.startswith("#")]
    checks.tell("all of them", (len(lines) > 20, len(samples) > 60, ""), (True, True, ""))
    checks.ends([*ask, "--instance", "blue"], 4, "remoted: figures has no figures of blue\n")
    checks.ends(["check", "--metrics", "none"], 1, NONE)


def scripts(checks):
    failed = "remoted: input or output failed\n"
    checks.ends(["unary", "none"], 1, NONE)
    checks.ends(["replay", "."], 1, "remoted: cannot read .\nremoted: .: is a directory\n")
    checks.ends(["probe", "--port", "1", "--send", "none", "--want", "1"], 1, NONE)
    checks.file("bad", "instance a 100\nput a 616263\n\nno line\n")
    told = "remoted: bad line 4\nremoted: line 4: it begins with none of instance, put and call\n"
    checks.ends(["unary", "bad"], 3, told)
    checks.file("worse", "instance a 100 0\nopen 0 0 7\nopen 1 0 eight\n")
    checks.ends(["replay", "worse"], 3, "remoted: bad line 3\nremoted: line 3: C is not a number below 2^32\n")
    with open(os.path.join(checks.folder, "bad")) as text:
        checks.ends([], 3, told, stdin=text)
    for command, texts in BAD_LINES.items():
        for text, why in texts:
            checks.file("bad", text)
            number = len(text.removesuffix("\n").split("\n"))
            checks.ends([command, "bad"], 3, f"remoted: bad line {number}\nremoted: line {number}: {why}\n")
    at_a_terminal(checks)
    checks.file("sent", "PRI")
    port = free_ports(1)[0]
    refused = f"remoted: cannot connect to {port}: Connection refused (os error 111)\n"
    checks.ends(["probe", "--port", str(port), "--send", "sent", "--want", "1"], 1, refused + failed)
    with socket.socket() as closing:
        closing.bind(("127.0.0.1", 0))
        closing.listen()
        words = ["probe", "--port", str(closing.getsockname()[1]), "--send", "sent", "--want", "3"]
        threading.Thread(target=answer_two, args=(closing,), daemon=True).start()
        checks.ends(words, 4, "remoted: 2 bytes came\n")


def at_a_terminal(checks):
    """Without a command and at a terminal the program says what it waits for."""
    other, terminal = pty.openpty()
    errors = subprocess.PIPE
    with subprocess.Popen([checks.program], stdin=terminal, stdout=errors, stderr=errors, text=True) as program:
        os.close(terminal)
        line = program.stderr.readline()
        os.write(other, b"instance a 100\nput a 616263\n\x04")
        found = (program.wait(30 * checks.slow), program.stdout.read(), line + program.stderr.read())
    os.close(other)
    told = "remoted: reads a script of calls from this terminal, up to Ctrl-D; other commands are in remoted --help\n"
    checks.tell("a terminal", found, (0, "stored\n", told))


def answer_two(listening):
    connection, _ = listening.accept()
    with connection:
        connection.recv(3)
        connection.sendall(b"ab")


PARTS = [words_for_instances, numbers, words_that_are_no_text, ports, folders, launchers, what_is_lacking]
PARTS += [streams_that_are_closed, beginnings, scripts]


def main():
    parser = argparse.ArgumentParser(description=__doc__, formatter_class=argparse.RawDescriptionHelpFormatter)
    parser.add_argument("program")
    parser.add_argument("--slow", type=float, default=1.0, metavar="FACTOR")
    options = parser.parse_args()
    folder = tempfile.mkdtemp(prefix="command-line-faults-")
    os.chmod(folder, 0o755)
    try:
        program = shutil.copy(options.program, folder)
        checks = Checks(program, folder, options.slow)
        for each in PARTS:
            each(checks)
    finally:
        shutil.rmtree(folder)
    print(f"{checks.passed} passed, {checks.failed} failed", flush=True)
    sys.exit(checks.failed > 0)


main()
