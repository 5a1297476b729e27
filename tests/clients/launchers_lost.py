"""What `launchers.py` looks at of launchers that cannot do their work: scripts of its own."""

import os
import sys
import tempfile
import time

import messages as m
from executing import Action, Peer
from server import Server, remove

WELL = 'shift 3; exec /usr/bin/env -i -- "$@"'
BEGUN = "remoted: run red {} failed: "
END = "kill -KILL $$"
GONE = "No such file or directory"

# Asks for leases on a file, and says in it whether it got one.
LEASE = """
import fcntl, sys
word = "refused"
for kind, mode in ((fcntl.F_RDLCK, "r"), (fcntl.F_WRLCK, "a")):
    with open(sys.argv[1], mode) as file:
        try:
            fcntl.fcntl(file, fcntl.F_SETLEASE, kind)
            word = "leased"
        except OSError:
            pass
with open(sys.argv[1], "w") as file:
    file.write(word)
"""


def script(folder, name, text):
    path = os.path.join(folder, name)
    with open(path, "w") as file:
        file.write(f"#!/bin/sh\n{text}\n")
    os.chmod(path, 0o755)
    return path


def told(program, launcher, words=("/bin/true",), before=lambda: None):
    """The status of an action by a launcher, its exit code, and the lines that the server wrote."""
    with Server(program, [("red", 10**8, 1)], 2**62, launcher=launcher, heard=True) as server:
        before()
        with Peer(server.ports[0]) as peer:
            operation = peer.execute(Action(list(words)))
        return operation.status.code, operation.result and operation.result.code, server.said(True)


def expect(report, what, found, wanted):
    report.expect(found == wanted, what, f"{found}, not {wanted}")


def failed(word, said=None, words=("/bin/true",)):
    """What is told of a run that failed so: what was said, the action and its program are on a line of their own."""
    action = m.first(Action(list(words)).digest, 1).decode()[:6]
    why = "remoted: run red 1: " + ("" if said is None else said + ", ") + f"action {action}.., {words[0]}"
    return 13, None, [BEGUN.format(1) + word, why]


def lost(report, program):
    folder = tempfile.mkdtemp(prefix="launchers-lost-")
    os.chmod(folder, 0o755)
    try:
        lost_by_itself(report, program, folder)
        last_words(report, program, folder)
        words_of_others(report, program, folder)
        not_started(report, program, folder)
    finally:
        remove(folder)


def lost_by_itself(report, program, folder):
    made = lambda text: script(folder, "launcher", text)
    expect(report, "a launcher that does its work", told(program, made(WELL)), (0, 0, []))
    silent = told(program, made(END))
    expect(report, "one that kills itself: the fault is its own", silent, failed("launcher"))
    for signal in ["TERM", "SEGV"]:
        expect(report, f"by SIG{signal}", told(program, made(f"kill -{signal} $$")), failed("launcher"))
    ran = told(program, made("exit 77"))
    expect(report, "one that ends with a code has run the program", ran, (0, 77, []))


def last_words(report, program, folder):
    """What a launcher writes into its own file before it kills itself."""
    says = lambda text: told(program, script(folder, "launcher", f"said=$2.aside/said; {text}; {END}"))
    plain = says("echo no node is up >$said")
    expect(report, "what it said is in the line", plain, failed("launcher", "no node is up\\n"))
    more = says("echo no node is up >>$said; printf again >>$said")
    expect(report, "and what it added", more, failed("launcher", "no node is up\\nagain"))
    odd = says("""printf 'a\\tb\\r\\n"c"\\\\\\033[0m\\303\\251\\0' >$said""")
    expect(report, "on one line", odd, failed("launcher", 'a\\tb\\r\\n\\"c\\"\\\\\\x1b[0m\\xc3\\xa9\\x00'))
    much = says("printf '%0300dend' 7 >$said")
    expect(report, "the last 200 bytes of it", much, failed("launcher", "0" * 196 + "7end"))
    huge = says("{ head -c 1000000 /dev/zero | tr '\\0' 0; printf 7end; } >$said")
    expect(report, "of a megabyte, too", huge, failed("launcher", "0" * 196 + "7end"))
    forged = says("printf 'x\\nremoted: run blue 1 failed: start' >$said")
    expect(report, "it forges no line", forged, failed("launcher", "x\\nremoted: run blue 1 failed: start"))


def words_of_others(report, program, folder):
    """What stands elsewhere, or comes into the place of that file, is not told, and waited for by nobody."""
    secret = os.path.join(folder, "secret")
    with open(secret, "w") as file:
        file.write("the secret")
    without = failed("launcher")
    for what, text in (
        ("what goes to the streams", "echo not this; echo nor this >&2"),
        ("no file", "rm $said"),
        ("a FIFO", "rm $said; mkfifo $said"),
        ("a link", f"rm $said; ln -s {secret} $said"),
        ("another name of a file", f"ln -f {secret} $said"),
        ("a directory", "rm $said; mkdir $said"),
        ("another file", f"cp {secret} $said.new; mv $said.new $said"),
    ):
        begun = time.monotonic()
        found = told(program, script(folder, "launcher", f"said=$2.aside/said; {text}; {END}"))
        expect(report, f"not told: {what}", found, without)
        took = time.monotonic() - begun
        report.expect(took < 5 * report.slow, f"nor waited for: {what}", f"{took:.1f} s")
    leased = script(folder, "launcher", f"{sys.executable} -c '{LEASE}' $2.aside/said; {END}")
    expect(report, "nor can a lease be taken on it", told(program, leased), failed("launcher", "refused"))
    words = ("/bin/sh", "-c", "echo a program >&2; kill -KILL $$")
    its_own = told(program, script(folder, "launcher", WELL), words)
    without = failed("launcher", words=words)
    expect(report, "a program that a signal ends, by a launcher that becomes it", its_own, without)


def not_started(report, program, folder):
    """Launchers that were there when the server started."""
    gone = script(folder, "gone", WELL)
    expect(report, "one that is gone", told(program, gone, before=lambda: os.remove(gone)), failed("start", f"the launcher {os.path.realpath(gone)}: {GONE}"))
    bare = script(folder, "bare", WELL)
    found = told(program, bare, before=lambda: os.chmod(bare, 0o644))
    why = f"the launcher {os.path.realpath(bare)}: permission denied"
    expect(report, "one that may not be run", found, failed("start", why))
    named = told(program, script(folder, "well", WELL), ("A=B", "x"))
    why = "the program has a = in its name, so a launcher would take it for a variable"
    wanted = failed("start", why, ("A=B", "x"))
    expect(report, "a program that would be taken for a variable", named, wanted)
