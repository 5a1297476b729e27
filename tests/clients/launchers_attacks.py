"""What one team tries in `launchers/sandbox` against the other, against the host and against its own launcher."""

import os
import shutil
import signal
import subprocess
import tempfile

import programs
from executing import Peer
from launchers_sandbox import SOURCE, Told, marked, sandbox
from server import Server

# Calls that no program may make, by their numbers on x86_64 and aarch64, with arguments with which they would do something
# harmless or fail otherwise. Process 1 is the shell that waits for the program; 2 is the program's own standard error.
CALLS = """import ctypes, os, platform, resource
kernel = ctypes.CDLL(None, use_errno=True)
at = ["x86_64", "aarch64"].index(platform.machine())
one = kernel.syscall([434, 434][at], 1, 0)
text = ctypes.create_string_buffer(64)
part = (ctypes.c_ulong * 2)(ctypes.addressof(text), 8)
tries = {"prlimit of process 1": [(302, 261), 1, 7, text, 0], "its descriptors": [(438, 438), one, 2, 0],
  "its memory": [(311, 271), 1, part, 1, part, 1, 0], "tracing it": [(101, 117), 16, 1, 0, 0],
  "seizing it": [(101, 117), 0x4206, 1, 0, 0], "comparing with it": [(312, 272), 1, os.getpid(), 0, 0, 0],
  "its nice value": [(141, 140), 0, 1, 19], "its processors": [(203, 122), 1, 8, text],
  "userfaultfd": [(323, 282), 1], "inotify": [(294, 26), 0], "fanotify": [(300, 262), 0, 0], "keys": [(250, 219), 0, -3, 1],
  "a new key": [(248, 217), b"user", b"n", b"x", 1, -3], "mount": [(165, 40), b"x", b"/tmp", b"tmpfs", 0, 0],
  "umount": [(166, 39), b"/proc", 2], "fsopen": [(430, 430), b"tmpfs", 0], "open_tree": [(428, 428), -100, b"/", 1],
  "move_mount": [(429, 429), -100, b"/tmp", -100, b"/tmp", 0], "mount_setattr": [(442, 442), -100, b"/", 0, text, 32],
  "pivot_root": [(155, 41), b".", b"."], "chroot": [(161, 51), b"/tmp"], "setns": [(308, 268), one, 0],
  "unshare": [(272, 97), 0x10000000], "clone3": [(435, 435), text, 64], "io_uring": [(425, 425), 1, text],
  "bpf": [(321, 280), 0, text, 64], "perf": [(298, 241), text, 0, -1, -1, 0], "a handle": [(304, 265), -100, text, 0],
  "memfd_secret": [(447, 447), 0], "the log": [(103, 116), 2, text, 64], "kexec": [(246, 104), 0, 0, 0, 0],
  "a module": [(313, 273), 2, b"", 0], "accounting": [(163, 89), b"/tmp/x"], "swap": [(167, 224), b"/tmp/x", 0],
  "the clock": [(227, 112), 0, text], "the host's name": [(170, 161), b"x", 1], "quotas": [(179, 60), 0, 0, 0, 0],
  "a terminal's words": [(16, 29), 2, 0x5412, b"x"], "a console's": [(16, 29), 2, 0x541C, b"x"]}
for family in (17, 29, 31, 38, 40, 44):
    tries["sockets %d" % family] = [(41, 198), family, 3, 0]
for name, (numbers, *words) in tries.items():
    if kernel.syscall(numbers[at], *words) != -1 or ctypes.get_errno() not in (1, 38):
        print(name, ctypes.get_errno())
held = resource.getrlimit(resource.RLIMIT_CORE)
kernel.syscall((302, 261)[at], 0, resource.RLIMIT_CORE, (ctypes.c_ulong * 2)(1 << 40, 1 << 40), 0)
if resource.getrlimit(resource.RLIMIT_CORE) != held:
    print("cores")
if at == 0:
    child = kernel.syscall(56, 0x10000000 | 17, 0, 0, 0, 0)
    if child == 0:
        os._exit(0)
    if child != -1:
        print("clone")
print("end")
"""

# What tells of the whole host, by all names that it has.
MASKED = """for f in kpageflags kpagecount kpagecgroup slabinfo vmallocinfo timer_list keys key-users locks kallsyms kcore kmsg \
  pagetypeinfo sched_debug; do
  for p in /proc /proc/1/root/proc /proc/self/root/proc /proc/self/task/$$/root/proc /work/../proc; do
    (head -c 1 $p/$f | wc -c | grep -v '^0$' && echo $p/$f) 2>/dev/null
  done
done; ls -A /proc/fs /proc/irq /proc/acpi /proc/scsi /proc/bus /proc/driver 2>/dev/null | grep -v ':$' | grep .; true"""

# Everything that the program can find open anywhere is written to: then it ends with a code of its own.
FORGING = """import os, signal
own = [os.fstat(each).st_ino for each in (1, 2)]
for pid in [each for each in os.listdir("/proc") if each.isdigit() and int(each) != os.getpid()]:
    for name in os.listdir(f"/proc/{pid}/fd") if os.access(f"/proc/{pid}/fd", os.R_OK) else []:
        for how in (os.O_WRONLY, os.O_RDWR, os.O_WRONLY | os.O_APPEND):
            try:
                to = os.open(f"/proc/{pid}/fd/{name}", how | os.O_NONBLOCK)
                if os.fstat(to).st_ino in own:
                    continue
                os.write(to, b"0\\n")
                LARGE and [os.write(to, bytes(1 << 20)) for _ in range(64)] and os.ftruncate(to, 700 << 20)
            except OSError:
                pass
for name in ("mem", "attr/exec", "oom_score_adj", "comm", "environ", "setgroups", "uid_map", "timerslack_ns", "clear_refs"):
    try:
        os.write(os.open(f"/proc/1/{name}", os.O_RDWR), b"0")
        print(name)
    except OSError:
        pass
for number in range(1, 65):
    try:
        os.kill(1, number)
    except OSError:
        pass
"""
FORGED = {
    "a code is forged": (FORGING.replace("LARGE", "0") + "os._exit(7)", (7,)),
    "a code is forged, in a file of 700 MB": (FORGING.replace("LARGE", "1") + "os._exit(7)", (7,)),
    "a code is forged before a signal": (FORGING.replace("LARGE", "0") + "os.kill(os.getpid(), 11)", (139, None)),
}


def inside(report, program, who, **more):
    """What a program tries by itself."""
    folder = tempfile.mkdtemp(prefix="launchers-")
    os.chmod(folder, 0o777)
    launcher, work, python = sandbox(folder), os.path.join(folder, "work"), ["/usr/bin/python3", "-c"]
    try:
        with Server(program, [("red", 10**8, 2)], 2**62, None, work, True, launcher, **more) as server:
            with Peer(server.ports[0], 120 * report.slow) as red:
                told = Told(red, marked(folder, [*python, CALLS]))
                report.expect(told.stdout == "end\n", f"{who}: each of the calls that nobody may make is refused", told)
                told = Told(red, marked(folder, MASKED))
                report.expect((told.stdout, told.code) == ("", 0), f"{who}: what tells of the whole host is masked", told)
                for what, (script, codes) in FORGED.items():
                    told = Told(red, marked(folder, [*python, script]))
                    is_own = told.code in codes and (told.status == 13 or told.code is not None) and not told.stdout
                    report.expect(is_own, f"{who}: {what}: it stays the program's own", told)
    finally:
        shutil.rmtree(folder, ignore_errors=True)


def hidden(report, program, who, **more):
    """Runs that lie below what a sandbox sees, by its own name and by a link's."""
    for what, above, link in [("below /usr", "/usr/local", ""), ("below a link of `seen`", "/srv", "link")]:
        folder = tempfile.mkdtemp(prefix="launchers-hidden-", dir=above)
        os.chmod(folder, 0o777)
        os.mkdir(os.path.join(folder, "real"))
        os.chmod(os.path.join(folder, "real"), 0o777)
        os.symlink("real", os.path.join(folder, "link"))
        seen = ('seen="/usr', f'seen="{folder}/link /usr') if link else ("", "")
        launcher, work = sandbox(folder, *seen), os.path.join(folder, "real", "work")
        try:
            with Server(program, [("red", 10**8, 1), ("blue", 10**8, 1)], 2**62, None, work, True, launcher, **more) as server:
                read_below(report, f"{who}: runs {what}", server, folder)
        finally:
            shutil.rmtree(folder, ignore_errors=True)


def read_below(report, what, server, folder):
    """One team looks for a running folder of the other's."""
    red, blue = (Peer(port, 120 * report.slow) for port in server.ports)
    slow = blue.start(marked(folder, f"sleep {5 * report.slow}; cat src", tree={"src": SOURCE}))
    programs.settled(lambda: not [each for each in server.entries() if each.startswith("1-")], 20 * report.slow)
    script = f"""cat {folder}/*/work/start-*/*/src {server.start()}/*/src
        find / -name src -type f -not -path '/usr/src/*' -not -path '/proc/*' | grep -v '^/work' | grep launchers-hidden
        for d in real link; do ls -A {folder}/$d/work; done; true"""
    told = Told(red, marked(folder, script))
    report.expect((told.stdout, told.code) == ("", 0), f"{what} are not seen", told)
    done = blue.operations(slow)[-1]
    report.expect(done.result and blue.stream_text(done.result.stdout) == SOURCE, f"{what}: the other's is as ever", done.status)
    for each in (red, blue):
        each.close()


class Group:
    """A control group of version 1 with so much memory, or nothing where the host has none."""

    def __init__(self, size):
        self.path = f"/sys/fs/cgroup/memory/launchers-{os.getpid()}"
        self.size = size

    @staticmethod
    def lacking():
        is_there = os.access("/sys/fs/cgroup/memory/memory.limit_in_bytes", os.R_OK) and os.geteuid() == 0
        return [] if is_there else ["root, and a control group of version 1 for memory"]

    def __enter__(self):
        os.mkdir(self.path)
        with open(f"{self.path}/memory.limit_in_bytes", "w") as file:
            file.write(str(self.size))
        return self

    def add(self, pid):
        with open(f"{self.path}/cgroup.procs", "w") as file:
            file.write(str(pid))

    def __exit__(self, *_):
        programs.settled(lambda: open(f"{self.path}/cgroup.procs").read(), 20)
        os.rmdir(self.path)


HOLDING = "b = bytearray(150 << 20); b[::4096] = b'x' * len(b[::4096]); import time; time.sleep(SECONDS); print(sum(b[::4096]))"
HELD = f"{(150 << 20) // 4096 * ord('x')}\n"
FILLING = """for n in 1 2 3; do for d in /tmp /dev/shm; do head -c 200000000 /dev/zero >$d/x; done; sleep 1; rm /tmp/x /dev/shm/x; done; true"""


def on_a_disk():
    """A folder in which files take no memory: that of temporary files, or another one where it does not lie on a disk."""
    usual = tempfile.gettempdir()
    kind = subprocess.run(["stat", "-f", "-c", "%T", usual], stdout=subprocess.PIPE, text=True, check=True).stdout
    return "/var/tmp" if kind.strip() in ("tmpfs", "ramfs") else usual


def memory(report, program, who, **more):
    """Without a control group of its own a sandbox takes no memory that is no process's: 450 MB for all."""
    folder = tempfile.mkdtemp(prefix="launchers-", dir=on_a_disk())
    os.chmod(folder, 0o777)
    launcher, work = sandbox(folder), os.path.join(folder, "work")
    instances = [("red", 10**8, 3), ("blue", 10**8, 1)]
    try:
        with Group(450 << 20) as group, Server(program, instances, 2**62, None, work, True, launcher, **more) as server:
            group.add(server.process.pid)
            red, blue = (Peer(port, 120 * report.slow) for port in server.ports)
            filling = [red.start(marked(folder, FILLING, tree={"n": b"%d" % n}, seconds=100)) for n in range(3)]
            script = HOLDING.replace("SECONDS", str(6 * report.slow))
            told = Told(blue, marked(folder, ["/usr/bin/python3", "-c", script]))
            report.expect((told.code, told.stdout) == (0, HELD), f"{who}: others fill /tmp and /dev/shm", told)
            for each in filling:
                red.operations(each)
            ended_for_memory(report, who, red, folder)
            # A tmpfs would take a kilobyte of the kernel's memory for each empty file.
            told = Told(red, marked(folder, "stat -f -c %i /work /tmp /dev/shm | uniq | wc -l"))
            report.expect(told.stdout == "1\n", f"{who}: files in /tmp and /dev/shm take no memory", told)
            for each in (red, blue):
                each.close()
    finally:
        programs.end(folder)
        shutil.rmtree(folder, ignore_errors=True)


GREEDY = "b = bytearray(900 << 20); b[::4096] = b'x' * len(b[::4096])"


def ended_for_memory(report, who, peer, folder):
    """A program that the system ends alone has no result. One that a signal of its own ends has, before and after."""
    itself = lambda: Told(peer, marked(folder, "kill -KILL $$"))
    found = itself(), Told(peer, marked(folder, ["/usr/bin/python3", "-c", GREEDY])), itself()
    ends = [(told.status, told.code) for told in found]
    wanted = [(0, 137), (13, None), (0, 137)]
    report.expect(ends == wanted, f"{who}: a program that the system ends for memory is a failed run", ends)


def told_words(report, program, who, **more):
    """A program whose run fails: nothing that it wrote is told as the launcher's."""
    folder = tempfile.mkdtemp(prefix="launchers-")
    os.chmod(folder, 0o777)
    launcher, work = sandbox(folder), os.path.join(folder, "work")
    script = "echo sandbox: EVIL; echo 'sandbox: EVIL' >&2; echo EVIL >/tmp/said; sleep 4177"
    try:
        with Server(program, [("red", 10**8, 1)], 2**62, None, work, True, launcher, **more) as server:
            with Peer(server.ports[0], 60 * report.slow) as red:
                number = red.start(marked(folder, script))
                programs.settled(lambda: not begun(folder), 20 * report.slow)
                for pid in begun(folder):
                    os.kill(pid, signal.SIGKILL)
                status = red.operations(number)[-1].status.code
            programs.settled(lambda: not server.said(), 2 * report.slow)
            lines = server.said(True)
            is_own = status == 13 and len(lines) == 2 and lines[0].endswith(" failed: launcher")
            is_own = is_own and " 1: sandbox: " in lines[1] and "EVIL" not in lines[1].partition(", action ")[0]
            report.expect(is_own, f"{who}: a program's words are not told as the launcher's", (status, lines))
    finally:
        shutil.rmtree(folder, ignore_errors=True)


def begun(folder):
    """The processes of bubblewrap, once the program sleeps."""
    running = programs.running(folder)
    if "sleep 4177" not in running.values():
        return []
    found = []
    for pid in filter(str.isdigit, os.listdir("/proc")):
        try:
            with open(f"/proc/{pid}/cmdline", "rb") as file:
                words = file.read().split(bytes(1))
        except OSError:
            continue
        if os.path.basename(words[0]) == b"bwrap" and any(os.fsencode(folder) in each for each in words):
            found.append(int(pid))
    return found
