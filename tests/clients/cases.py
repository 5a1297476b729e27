"""Carries out cases with their stages (teams.py): in time, by servers of root and of a plain user, a line for each."""

import contextlib
import os
import pwd
import shutil
import signal
import sys
import tempfile
import time

import ways
from teams import PYTHON, Skipped, Stage, copied

# How long a case may take, but for what --seconds and --slow add.
MOST_SECONDS = 120


class Late(Exception):
    """A case that takes too long, or in which blue has no answer any more."""


def ring(*_):
    raise Late


def add_options(parser, cases):
    """The words of a command line that say which cases are tried, and how."""
    parser.add_argument("--case", action="append", choices=[each.__name__ for each in cases], metavar="NAME")
    parser.add_argument("--list", action="store_true")
    parser.add_argument("--slow", type=float, default=1.0, metavar="FACTOR")
    parser.add_argument("--seconds", type=float, default=60.0, metavar="N")
    parser.add_argument("--user", choices=["root", "plain", "both"], default="both")
    ways.add_ways(parser)


def plain_user(options):
    """A number of a user who has no process and no name: limits of processes are then the servers' own.

    Slurm runs nothing for one who has no name: there it is `nobody`.
    """
    if options.slurm or options.slurm_sandbox:
        return pwd.getpwnam("nobody").pw_uid
    taken = {each.pw_uid for each in pwd.getpwall()}
    for name in filter(str.isdigit, os.listdir("/proc")):
        with contextlib.suppress(OSError):
            taken.add(os.stat(f"/proc/{name}").st_uid)
    return next(number for number in range(61_000 + os.getpid() % 2_000, 65_000) if number not in taken)


def tried(case, stage, options):
    """Whether a case holds; none where it cannot be tried."""
    who = "plain user" if stage.user is not None else "root" if os.geteuid() == 0 else "this user"
    begun = time.monotonic()
    signal.setitimer(signal.ITIMER_REAL, (MOST_SECONDS + 2 * options.seconds) * options.slow)
    try:
        told, word, holds = case(stage), "ok", True
    except Skipped as reason:
        told, word, holds = reason, "skipped", None
    except Late:
        told, word, holds = f"{case.__doc__} Too late; {stage.lost()}", "FAILED", False
    except (Exception, SystemExit) as fault:
        told, word, holds = f"{case.__doc__} {fault}; {stage.lost()}", "FAILED", False
    finally:
        signal.setitimer(signal.ITIMER_REAL, 0)
        stage.close()
    waited = "" if stage.longest is None else f"; blue waited {1000 * stage.longest:.0f} ms at most"
    print(f"{word} {case.__name__} ({who}): {told} ({time.monotonic() - begun:.1f} s{waited})", flush=True)
    return holds


def carry_out(cases, options, staged=Stage):
    """Tries the cases that are asked for, each on a stage of its own, and ends with status 1 where one fails."""
    if options.list:
        for case in cases:
            print(f"{case.__name__}: {case.__doc__}")
        return
    if not os.access(PYTHON, os.X_OK):
        sys.exit(f"it needs {PYTHON}")
    signal.signal(signal.SIGALRM, ring)
    users = {"root": [None], "plain": [plain_user(options)], "both": [None, plain_user(options)]}[options.user]
    users = users if os.geteuid() == 0 else [None]
    folder = tempfile.mkdtemp(prefix="hostile-actions-program-")
    os.chmod(folder, 0o755)
    try:
        program = copied(options.program, folder)
        cases = [case for case in cases if not options.case or case.__name__ in options.case]
        with ways.made(options, folder) as way:
            on_stage = lambda user: staged(program, user, options.slow, options.seconds, way)
            found = [tried(case, on_stage(user), options) for case in cases for user in users]
    finally:
        shutil.rmtree(folder)
    passed, failed = found.count(True), found.count(False)
    print(f"{passed} passed, {failed} failed", flush=True)
    sys.exit(failed > 0)
