"""Filters of system calls as the kernel reads them, and the numbers of calls in the kernel's headers.

It shares nothing with `launchers/sandbox-filters` and libseccomp, which make the filters.
"""

import ctypes
import os
import re
import shutil
import struct
import subprocess

ALLOW, ERRNO = 0x7FFF0000, 0x00050000
LONGEST = 4096

# What a processor is to a filter (linux/audit.h).
ARCHITECTURES = {"x86_64": 0xC000003E, "i386": 0x40000003, "aarch64": 0xC00000B7, "arm": 0x40000028}
OTHERS = {"riscv64": 0xC00000F3, "ppc64le": 0xC0000015, "s390x": 0x80000016, "mips": 8, "none": 0, "all bits": 0xFFFFFFFF}
X32 = 1 << 30

# For each: where its headers lie, which of them has the numbers, what a compiler for it has defined, and the package.
DEBIAN = {"x86": "linux-libc-dev", "aarch64": "linux-libc-dev-arm64-cross", "arm": "linux-libc-dev-armhf-cross"}
X86 = "/usr/include /usr/include/x86_64-linux-gnu"
HEADERS = {
    "x86_64": (X86, "asm/unistd_64.h", [], DEBIAN["x86"]),
    "i386": (X86, "asm/unistd_32.h", [], DEBIAN["x86"]),
    "x32": (X86, "asm/unistd_x32.h", ["__X32_SYSCALL_BIT=0x40000000"], DEBIAN["x86"]),
    "aarch64": ("/usr/aarch64-linux-gnu/include", "asm/unistd.h", ["__aarch64__", "__LP64__"], DEBIAN["aarch64"]),
    "arm": ("/usr/arm-linux-gnueabihf/include", "asm/unistd.h", ["__arm__", "__ARM_EABI__"], DEBIAN["arm"]),
}
NO_CALLS = {"syscalls", "arch_specific_syscall", "SYSCALL_BASE", "SYSCALL_MASK", "OABI_SYSCALL_BASE", "BASE"}


def lacking(architecture):
    """What is needed for the numbers of this architecture and is not there."""
    places, header, _, package = HEADERS[architecture]
    is_there = any(os.path.exists(os.path.join(place, header)) for place in places.split())
    return ([] if is_there else [package]) + ([] if shutil.which("cpp") else ["cpp"])


def calls(architecture):
    """The names of an architecture's calls, by their numbers."""
    places, header, defined, _ = HEADERS[architecture]
    words = ["cpp", "-dM", "-undef", "-nostdinc", "-include", header]
    words += [f"-I{place}" for place in places.split()] + [f"-D{each}" for each in defined]
    done = subprocess.run([*words, "/dev/null"], capture_output=True, text=True, check=True)
    texts = dict(line.split(maxsplit=2)[1:] for line in done.stdout.splitlines() if len(line.split(maxsplit=2)) == 3)

    def value(text):
        while found := re.search(r"__\w+", text):
            text = text.replace(found[0], texts[found[0]])
        return eval(text, {"__builtins__": {}})

    numbers = {}
    for name, text in texts.items():
        found = re.fullmatch(r"__(?:ARM_)?NR_(\w+)", name)
        if found and found[1] not in NO_CALLS:
            numbers.setdefault(value(text), set()).add(found[1])
    return numbers


class Call:
    """What the kernel shows a filter of a call."""

    def __init__(self, architecture, number, arguments=()):
        given = [each % 2**64 for each in arguments] + [0] * (6 - len(arguments))
        self.words = struct.unpack("<16I", struct.pack("<IIQ6Q", number % 2**32, architecture, 0, *given))


class Filter:
    """A filter in a file: the instructions of the classic BPF that the kernel takes for calls of the system."""

    def __init__(self, path):
        with open(path, "rb") as file:
            self.steps = list(struct.iter_unpack("<HBBI", file.read()))
        if not 0 < len(self.steps) <= LONGEST:
            raise SystemExit(f"{path} has {len(self.steps)} instructions")

    def verdict(self, call):
        """What the filter answers to a call."""
        machine = Machine(call)
        while machine.answer is None:
            machine.step(*self.steps[machine.at])
        return machine.answer


CLASSES = ["load", "load_other", "store", "store_other", "calculate", "jump", "end", "move"]


class Machine:
    """The machine that carries out a filter: two numbers of 32 bits, 16 places of memory, and the next instruction."""

    def __init__(self, call):
        self.call, self.at, self.answer = call, 0, None
        self.a, self.x, self.memory = 0, 0, [0] * 16

    def step(self, code, if_true, if_false, k):
        self.at += 1
        kind, more = CLASSES[code & 7], code & ~7
        if kind == "load":
            self.a = self.loaded(more, k)
        elif kind == "load_other":
            self.x = self.loaded(more, k)
        elif kind in ("store", "store_other") and not more:
            self.memory[k] = self.a if kind == "store" else self.x
        elif kind == "calculate":
            self.a = self.calculated(more & ~8, self.x if more & 8 else k) % 2**32
        elif kind == "jump":
            self.at += self.jump(more & ~8, self.x if more & 8 else k, if_true, if_false)
        elif kind == "end" and more in (0, 0x10):
            self.answer = self.a if more else k
        elif kind == "move" and more in (0, 0x80):
            self.a, self.x = (self.x, self.x) if more else (self.a, self.a)
        else:
            raise SystemExit(f"the kernel takes no such instruction: {code:#x}")

    def loaded(self, how, k):
        if how == 0x20 and k % 4 == 0 and k < 64:
            return self.call.words[k // 4]
        if how in (0x00, 0x80):
            return 64 if how else k
        if how == 0x60:
            return self.memory[k]
        raise SystemExit(f"the kernel takes no such load: {how:#x} {k}")

    def calculated(self, how, value):
        ways = {
            0x00: lambda: self.a + value,
            0x10: lambda: self.a - value,
            0x20: lambda: self.a * value,
            0x30: lambda: self.a // value,
            0x40: lambda: self.a | value,
            0x50: lambda: self.a & value,
            0x60: lambda: self.a << value,
            0x70: lambda: self.a >> value,
            0x80: lambda: -self.a,
            0xA0: lambda: self.a ^ value,
        }
        return ways[how]()

    def jump(self, how, value, if_true, if_false):
        if how == 0:
            return value
        holds = {0x10: self.a == value, 0x20: self.a > value, 0x30: self.a >= value, 0x40: bool(self.a & value)}[how]
        return if_true if holds else if_false


def together(first, second, call):
    """The kernel's answer where the second filter is put in place behind the first: the harder one, or that of the second."""
    earlier, later = first.verdict(call), second.verdict(call)
    hardness = lambda answer: struct.unpack("<i", struct.pack("<I", answer & 0xFFFF0000))[0]
    return earlier if hardness(earlier) < hardness(later) else later


class Steps(ctypes.Structure):
    _fields_ = [("count", ctypes.c_ushort), ("steps", ctypes.c_void_p)]


def put_in_place(text):
    """Has the kernel ask a filter about each call of this process and of its children. Whether it took the filter."""
    kernel = ctypes.CDLL(None, use_errno=True)
    held = ctypes.create_string_buffer(text, len(text))
    steps = Steps(len(text) // 8, ctypes.cast(held, ctypes.c_void_p))
    return kernel.prctl(38, 1, 0, 0, 0) == 0 and kernel.prctl(22, 2, ctypes.byref(steps)) == 0
