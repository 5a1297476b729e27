"""Programs that `launchers_sandbox.py` has run in a sandbox, and what they say there."""

CONNECTING = """import socket, sys
for port in sys.argv[1:]:
    for host in ("127.0.0.1", "::1", "0.0.0.0"):
        try:
            socket.create_connection((host, int(port)), 2)
            print("in")
        except OSError:
            pass
"""

# The calls of a processor that are refused, with arguments with which each of them fails otherwise than by EPERM (1), or not
# at all. Process 1 is the sandbox's own; 1024 is F_SETLEASE, 1026 F_NOTIFY, 1040 F_SETDELEG, 40 AF_VSOCK, 38 AF_ALG. The
# calls of ioctl are those by which btrfs makes subvolumes and snapshots.
CALLS = """import ctypes, os, platform
kernel = ctypes.CDLL(None, use_errno=True)
here = os.open(".", os.O_RDONLY)
names = ["add_key", "request_key", "keyctl", "inotify_init1", "fanotify_init", "io_uring_setup", "ptrace",
  "process_vm_writev", "sched_setparam", "sched_setscheduler", "sched_setaffinity", "sched_setattr", "setpriority",
  "fcntl", "socket", "ioctl"]
numbers = {"x86_64": [248, 249, 250, 294, 300, 425, 101, 311, 142, 144, 203, 314, 141, 72, 41, 16],
  "aarch64": [217, 218, 219, 26, 262, 425, 117, 271, 118, 119, 122, 274, 140, 25, 198, 29]}[platform.machine()]
of = dict(zip(names, numbers))
tries = [(name, 0, 0, 0, 0, 0) for name in names[:3]]
tries += [("inotify_init1", 0), ("fanotify_init", 0, 0), ("io_uring_setup", 0, 0), ("ptrace", 1, 1, 0, 0)]
tries += [(name, 1, 0, 0, 0, 0, 0) for name in names[7:12]]
tries += [("setpriority", 0, 1, 0), ("setpriority", 2, 0, 0)]
tries += [("fcntl", here, 1024, 2), ("fcntl", here, 1026, 1), ("fcntl", here, 1040, 0)]
tries += [("socket", 40, 1, 0), ("socket", 38, 5, 0)]
tries += [("ioctl", here, each, 0) for each in (0x50009401, 0x5000940E, 0x50009417, 0x50009418)]
for name, *more in tries:
    print(name, kernel.syscall(of[name], *more), ctypes.get_errno())
if platform.machine() == "x86_64":
    for number in (248, 521, 540):
        print("x32", kernel.syscall(1 << 30 | number, 1, 1, 0, 0, 0, 0), ctypes.get_errno())
    print("x32", kernel.syscall(1 << 30 | 514, here, 0x5000940E, 0), ctypes.get_errno())
else:
    print("x32 -1 1\\n" * 4, end="")
"""

CALLS_SAY = "".join(
    f"{name} -1 1\n"
    for name in "add_key request_key keyctl inotify_init1 fanotify_init io_uring_setup ptrace process_vm_writev".split()
    + "sched_setparam sched_setscheduler sched_setaffinity sched_setattr setpriority setpriority".split()
    + "fcntl fcntl fcntl socket socket ioctl ioctl ioctl ioctl x32 x32 x32 x32".split()
)

# The same by the calls of i386, which a program of 64 bits may make, too; the last one, getpid, is not refused.
CALLS_OF_32 = """import ctypes, mmap, platform
if platform.machine() != "x86_64":
    raise SystemExit("none", 0)
page = mmap.mmap(-1, 4096, prot=7)
def call(number, first=0, second=0):
    code = b"\\x53\\xb8%b\\xbb%b\\xb9%b\\x31\\xd2\\x31\\xf6\\x31\\xff\\xcd\\x80\\x5b\\xc3"
    page.seek(0)
    page.write(code % tuple(each.to_bytes(4, "little") for each in (number, first, second)))
    return ctypes.CFUNCTYPE(ctypes.c_int)(ctypes.addressof(ctypes.c_char.from_buffer(page)))()
tries = [(286,), (287,), (288,), (291,), (332,), (338,), (425,), (26, 1, 1), (348, 1), (55, 0, 1024), (221, 0, 1026)]
tries += [(154, 1), (156, 1), (241, 1), (351, 1), (97, 0, 1), (97, 2, 0), (55, 0, 1040)]
tries += [(54, 0, each) for each in (0x50009401, 0x5000940E, 0x50009417, 0x50009418)]
print(*[call(*each) for each in [*tries, (359, 40, 1), (102, 1)]], call(20) > 0)
"""

SAY_32 = [" ".join(["-1"] * 24) + " True\n", "none\n"]

# What looks like these calls, and is of no harm: usual sockets, the tracing of an own child, and being nice.
OWN_CALLS = """import ctypes, os, socket
kernel = ctypes.CDLL(None, use_errno=True)
for family in (socket.AF_UNIX, socket.AF_INET, socket.AF_INET6, socket.AF_NETLINK):
    socket.socket(family, socket.SOCK_RAW if family == socket.AF_NETLINK else socket.SOCK_STREAM).close()
socket.socketpair()
os.nice(1)
os.sched_setaffinity(0, os.sched_getaffinity(0))
os.sched_setscheduler(0, os.SCHED_BATCH, os.sched_param(0))
child = os.fork()
if not child:
    kernel.ptrace(0, 0, 0, 0)
    os.kill(os.getpid(), 19)
    os._exit(0)
stopped = os.WIFSTOPPED(os.waitpid(child, 0)[1])
kernel.ptrace.argtypes = [ctypes.c_long, ctypes.c_long, ctypes.c_void_p, ctypes.c_void_p]
went_on = kernel.ptrace(7, child, None, None) == 0
ended = os.waitpid(child, 0)[1] == 0
print("as ever" if stopped and went_on and ended else (stopped, went_on, ended, ctypes.get_errno()))
"""

# The nodes of /dev are the host's: the modes are those that they have.
DEVICES = """chmod 666 /dev/full /dev/null && echo in
chmod 666 /proc/self/fd/0 && echo in; chmod 666 /proc/1/fd/0 && echo in
echo x >/dev/null || echo out; head -c 1 /dev/zero | wc -c
"""

REOPENING = "echo a; echo b >>/dev/stdout; echo c; echo d >&2; echo e >>/dev/stderr; echo f >&2"
REOPENED = ("a\nb\nc\n", "d\ne\nf\n")
