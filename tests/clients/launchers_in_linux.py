#!/usr/bin/env python3
"""launchers_in_linux.py [--slow FACTOR]: what `launchers/sandbox` does in control groups of version 2, and with cores that
the system gives to a program, in a Linux of its own.

It starts Debian's user-mode-linux once, which sees this host's files, and has there a control group with memory and pids
for a server and one for sandboxes, as root and as a plain user. It needs root, `user-mode-linux`, `bubblewrap` and
`python3-seccomp`; what is not there is said, and all is skipped. A line for each thing, `ok` or `FAILED`; it ends with
`N passed, M failed`, and with status 1 where one failed.
"""

import argparse
import contextlib
import importlib.util
import os
import re
import shutil
import signal
import subprocess
import sys
import tempfile
import time

from launchers_sandbox import sandbox

LINUX = "/usr/bin/linux.uml"
SETTINGS = {"most_memory": 96 << 20, "most_shared": 1 << 30, "most_processes": 60}

# Linux as a program keeps all of a processor's registers, or where this host has more than it knows, what processors had
# long ago: then it asks for the others in vain. Programs in it use no others, so.
STARTING = """import errno, os, sys
from seccomp import ALLOW, EQ, ERRNO, Arg, SyscallFilter
if sys.argv[1] == "few":
    made = SyscallFilter(ALLOW)
    made.add_rule(ERRNO(errno.EIO), "ptrace", Arg(0, EQ, 0x4204), Arg(2, EQ, 0x202))
    made.load()
os.execv(sys.argv[2], sys.argv[2:])
"""
IS_WELL = "root:well code=0"
PLAIN_REGISTERS = "GLIBC_TUNABLES=glibc.cpu.hwcaps=-AVX_Fast_Unaligned_Load,-AVX512F,-AVX512VL,-AVX512BW,-AVX512DQ,-AVX512CD,-AVX512ER,-AVX2,-AVX"

# What is process 1 there. A line `NAME VALUE ..` goes to the host for each thing that was seen.
INIT = r"""#!/bin/sh
here=%(here)s
export %(registers)s PATH=/usr/sbin:/usr/bin:/sbin:/bin
exec </dev/null >"$here/told" 2>"$here/errors"
mount -t proc proc /proc && mount -t sysfs sys /sys && mount -t cgroup2 groups /sys/fs/cgroup && mount -t tmpfs tmp "$here/work"
unit=/sys/fs/cgroup/unit
echo "+memory +pids" >/sys/fs/cgroup/cgroup.subtree_control
mkdir $unit $unit/server $unit/sandboxes
echo "+memory +pids" >$unit/cgroup.subtree_control
echo "+memory +pids" >$unit/sandboxes/cgroup.subtree_control
echo "groups $(cat $unit/sandboxes/cgroup.controllers)"
chmod 777 "$here/work"
for who in root plain; do
  as=
  [ $who = root ] || { as="setpriv --reuid 65534 --regid 65534 --clear-groups --" && chown -R 65534 $unit; }
  (
    echo 0 >$unit/server/cgroup.procs
    exec $as /bin/sh "$here/tries" $who
  )
done
echo "end"
while :; do sleep 100; done
"""

# What is tried there as each user. A try is a run of the launcher, each in a session of its own, as a server starts it.
TRIES = r"""here=%(here)s who=$1 number=0 groups=/sys/fs/cgroup/unit/sandboxes
begin() { # START SCRIPT: a sandbox, whose session is $session
  number=$((number + 1)) root=$here/work/$who-start/start-$1/0-$number
  mkdir -p "$root" "$root.aside"
  setsid -- "$here/launcher/sandbox" red "$root" . "%(registers)s" PATH=/usr/bin:/bin /bin/sh -c "$2" >"$root.aside/out" 2>"$root.aside/err" &
  session=$!
}
told() { # NAME: its code, the launcher's words, and what it wrote
  wait "$session"
  echo "$who:$1 code=$? said=$(tr '\n' ' ' <"$root.aside/said") out=$(tr '\n' ' ' <"$root.aside/out") err=$(tail -n 1 "$root.aside/err")"
}
tried() { begin 1 "$2" && told "$1"; }
tried well "echo fine"
echo "$who:left $(ls -d $groups/start-* 2>/dev/null)"
for each in "memory=head -c 300000000 /dev/zero | tail >/dev/null; echo on" \
  "temporary=head -c 300000000 /dev/zero >/tmp/x; echo on" "shared=head -c 300000000 /dev/zero >/dev/shm/x; echo on" \
  "processes=n=0; while [ \$n -lt 200 ]; do sleep 999 & n=\$((n + 1)); echo \$n; done"; do
  begin 1 "sleep 4; head -c 9000000 /dev/zero >/tmp/x; echo fine"
  beside=$session of_beside=$root
  tried "${each%%%%=*}" "${each#*=}"
  session=$beside root=$of_beside
  told "beside-${each%%%%=*}"
done
echo "$who:left-of-all $(ls -d $groups/start-* 2>/dev/null)"
begin 1 "echo >begun; sleep 4177"
until [ -e "$root/begun" ]; do sleep 0.2; done
kill -s KILL "$session"
kill -s KILL -- "-$session"
wait "$session"
echo "$who:killed $(ls -d $groups/start-* | wc -l)"
begin 2 "echo fine" && told next
echo "$who:left-of-killed $(ls -d $groups/start-* 2>/dev/null)"

pattern="|$here/handler $here/cores"
[ $who != root ] || echo "$pattern" >/proc/sys/kernel/core_pattern
cores() { # NAME LIMIT SCRIPT: by the launcher where there is a script, alone where there is none
  number=$((number + 1)) # of the next one, as it is counted in a shell of its own
  (prlimit --pid $(exec sh -c 'echo $PPID') "--core=$2" && if [ -n "$3" ]; then tried "$1" "$3"; else sh -c 'kill -s SEGV $$'; fi)
  sleep 1
  echo "$who:cores-$1 $(cat "$here/cores" 2>/dev/null | wc -l)"
  rm -f "$here/cores"
}
cores alone unlimited ""
cores unlimited unlimited 'kill -s SEGV $$'
cores one 1:1 'ulimit -c unlimited; kill -s SEGV $$'
cores raised unlimited 'ulimit -c unlimited; prlimit --pid $$ --core=unlimited; kill -s SEGV $$'
cores soft 0:unlimited 'kill -s SEGV $$'
"""

HANDLER = """#!/bin/sh
echo core >>"$1"
"""


def made(folder):
    """The launcher with small bounds, and the scripts of the Linux."""
    os.makedirs(os.path.join(folder, "launcher"))
    os.makedirs(os.path.join(folder, "work"))
    path = sandbox(os.path.join(folder, "launcher"))
    with open(path) as file:
        text = file.read()
    for name, value in SETTINGS.items():
        text, count = re.subn(rf"(^|\s){name}=\d+", rf"\g<1>{name}={value}", text, count=1)
        if not count:
            raise SystemExit(f"launchers/sandbox has no setting {name}")
    # This Linux shows tables of more than 4 KiB of mounts now and then without their last line, which bubblewrap looks for.
    text, count = re.subn(r'^hidden=".*?"$', "hidden=keys", text, count=1, flags=re.DOTALL | re.MULTILINE)
    if not count:
        raise SystemExit("launchers/sandbox has no list of what it hides")
    with open(path, "w") as file:
        file.write(text)
    filled = {"here": folder, "registers": PLAIN_REGISTERS}
    for name, text in {"init": INIT % filled, "tries": TRIES % filled, "handler": HANDLER, "starting": STARTING}.items():
        with open(os.path.join(folder, name), "w") as file:
            file.write(text)
        os.chmod(os.path.join(folder, name), 0o755)


def told(folder, registers, slow):
    """The lines that came of it, by their names; with these registers it may do nothing well."""
    words = ["/usr/bin/python3", f"{folder}/starting", registers, LINUX, "mem=700M", "rootfstype=hostfs", "root=/dev/root", "rw"]
    words += [f"init={folder}/init", f"uml_dir={folder}/uml", "con=null", "con0=null,fd:1"]
    with contextlib.suppress(FileNotFoundError):
        os.remove(f"{folder}/told")
    with open(os.path.join(folder, "log"), "wb") as log:
        linux = subprocess.Popen(words, stdin=subprocess.DEVNULL, stdout=log, stderr=log, start_new_session=True)
    try:
        begun, text, most = time.monotonic(), "", 60
        while not text.endswith("\nend\n") and linux.poll() is None and time.monotonic() < begun + most * slow:
            time.sleep(0.5)
            if IS_WELL in text:
                most = 300
            elif "root:well" in text:
                break
            if os.path.exists(f"{folder}/told"):
                with open(f"{folder}/told", errors="replace") as file:
                    text = file.read()
    finally:
        os.killpg(linux.pid, signal.SIGKILL)
        linux.wait()
    return dict(line.partition(" ")[::2] for line in text.splitlines())


class Report:
    """What holds and what does not, a line for each."""

    def __init__(self, found):
        self.found, self.passed, self.failed = found, 0, 0

    def expect(self, name, what, *patterns):
        text = self.found.get(name, "(nothing)")
        holds = all(re.search(each, text) for each in patterns)
        self.passed, self.failed = self.passed + holds, self.failed + (not holds)
        print(f"ok {what}" if holds else f"FAILED {what}: {text}", flush=True)


def judged(report, who):
    name = {"root": "as root", "plain": "as a plain user"}[who]
    expect = lambda key, what, *patterns: report.expect(f"{who}:{key}", f"{name}: {what}", *patterns)
    well, ended = (r"^code=0 said= out=fine\s*err=$",), ("^code=137 said=sandbox: it was ended", "out= ")
    expect("well", "a sandbox in a group of its own", *well)
    expect("left", "the group is removed with it", "^$")
    for key in ["memory", "temporary", "shared"]:
        expect(key, f"one that takes too much ends, with words ({key})", *ended)
        expect(f"beside-{key}", f"one beside it is fine ({key})", *well)
    expect("processes", "processes are bounded", r"^code=2 said= out=.* 5\d ", "[Ff]ork")
    expect("beside-processes", "one beside it is fine (processes)", *well)
    expect("left-of-all", "none of their groups is left", "^$")
    expect("killed", "the group of a launcher that is killed stays", "^1$")
    expect("next", "a run of the next start", *well)
    expect("left-of-killed", "removes it", "^$")
    expect("cores-alone", "cores go to a program without the sandbox", "^1$")
    for key in ["unlimited", "one", "raised", "soft"]:
        expect(key, f"a program that ends by SIGSEGV (limit: {key})", "^code=139 said= ")
        expect(f"cores-{key}", f"its core goes to no program (limit: {key})", "^0$")


def main():
    parser = argparse.ArgumentParser(description=__doc__, formatter_class=argparse.RawDescriptionHelpFormatter)
    parser.add_argument("--slow", type=float, default=1.0, metavar="FACTOR")
    options = parser.parse_args()
    lacking = [] if os.geteuid() == 0 else ["root"]
    lacking += [] if os.path.exists(LINUX) else ["user-mode-linux"]
    lacking += [] if shutil.which("bwrap") else ["bubblewrap (bwrap)"]
    lacking += [] if importlib.util.find_spec("seccomp") else ["python3-seccomp"]
    if lacking:
        print(f"skipped: it needs {', '.join(lacking)}\n0 passed, 0 failed")
        return
    folder = tempfile.mkdtemp(prefix="launchers-in-linux-")
    os.chmod(folder, 0o777)
    try:
        made(folder)
        found = told(folder, "all", options.slow)
        if IS_WELL not in f"root:well {found.get('root:well')}":
            found = told(folder, "few", options.slow)
        report = Report(found)
        report.expect("groups", "control groups of version 2", "memory", "pids")
        for who in ["root", "plain"]:
            judged(report, who)
        if report.failed:
            for name in ["errors", "log"]:
                with open(f"{folder}/{name}", errors="replace") as file:
                    print(f"-- {name}\n{file.read()[-3000:]}")
    finally:
        shutil.rmtree(folder, ignore_errors=True)
    print(f"{report.passed} passed, {report.failed} failed", flush=True)
    sys.exit(report.failed > 0)


main()
