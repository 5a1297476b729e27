#!/usr/bin/env python3
"""launchers_filters.py [--only NAME ..]: whether the filters of the sandbox are what `launchers/sandbox.calls` says.

It has `launchers/sandbox-filters` make the filters for x86_64 and for aarch64, carries them out as the kernel does, and
compares the answer to each call with the list, which it reads by itself. The numbers of calls are those of the kernel's
headers: x86_64 with i386, and aarch64 with arm. Calls of x32 and of other processors have to fail. Then it puts the
filters of this processor in place and makes some calls.

What an architecture needs and is not there is said, and it is skipped. It ends with `N passed, M failed`, and with status
1 where one failed.
"""

import argparse
import ctypes
import errno
import itertools
import os
import platform
import random
import re
import subprocess
import sys
import tempfile

from filters import ALLOW, ARCHITECTURES, ERRNO, OTHERS, X32, Call, Filter, calls, lacking, put_in_place, together

HERE = os.path.dirname(os.path.abspath(__file__))
LAUNCHERS = os.path.realpath(os.path.join(HERE, "..", "..", "launchers"))
MACHINES = {"x86_64": ["x86_64", "i386"], "aarch64": ["aarch64", "arm"]}
NAMES = {ALLOW: "passes", ERRNO | errno.EPERM: "EPERM", ERRNO | errno.ENOSYS: "ENOSYS", ERRNO: "does nothing"}
NO_PASS = ["EPERM", "ENOSYS"]

# On i386 `socketcall` does what these do, and shows nothing of their arguments: it is refused where they can be.
SOCKETCALL = {"socket": "0=1", "socketpair": "0=8"}

# Arguments that say nothing, or all that they can.
PLAIN = [(0,) * 6, (1,) * 6, (2**64 - 1,) * 6, (2**32,) * 6, (2**31,) * 6]


class Test:
    """A test of an argument in the list, as `1=1024`: in its lower 32 bits for `=`, and of the whole of it otherwise."""

    def __init__(self, text):
        at, self.how, value = re.fullmatch(r"([0-5])([=>!&])(\w+)", text).groups()
        self.at, self.value = int(at), int(value, 0)

    def holds(self, arguments):
        found = arguments[self.at]
        if self.how == "=":
            return found % 2**32 == self.value
        if self.how == "&":
            return found & self.value == self.value
        return found > self.value if self.how == ">" else found != self.value

    def near(self):
        """Values on both sides of the test, also with bits above the lower 32."""
        low = {self.value, self.value - 1, self.value + 1, 0, 2**32 - 1, 2**31 | self.value, ~self.value % 2**32}
        wide = {above | self.value for above in (2**32, 0xFFFFFFFF << 32, 2**63)}
        return {each % 2**32 for each in low} | wide | {2**32}


class Policy:
    """`sandbox.calls`: the names of calls that pass; and for names of which calls are refused, or do nothing, the tests
    that have to hold for it."""

    def __init__(self):
        self.allowed, self.refused, self.ignored = set(), {}, {}
        with open(os.path.join(LAUNCHERS, "sandbox.calls")) as file:
            for line in file:
                self._read(line.split("#")[0].split())

    def _read(self, words):
        if not words:
            return
        verb, names = words[0], [each for each in words[1:] if not each[0].isdigit()]
        tests = [Test(each) for each in words[1:] if each[0].isdigit()]
        if verb == "allow":
            self.allowed.update(names)
        kept = {"refuse": self.refused, "ignore": self.ignored}.get(verb)
        for name in names if kept is not None else []:
            kept.setdefault(name, []).append(tests)

    def names(self):
        return self.allowed | set(self.refused) | set(self.ignored)

    def rules(self, names, architecture):
        """The tests of a call, and its answer where they hold: the first one counts."""
        found = [(tests, "does nothing") for name in names for tests in self.ignored.get(name, [])]
        found += [(tests, "EPERM") for name in names for tests in self.refused.get(name, [])]
        if architecture == "i386" and "socketcall" in names:
            found += [([Test(test)], "EPERM") for name, test in SOCKETCALL.items() if name in self.refused]
        return found

    def answer(self, names, architecture, arguments):
        for tests, answer in self.rules(names, architecture):
            if all(test.holds(arguments) for test in tests):
                return answer
        return "passes" if names & self.allowed else "ENOSYS"


class Report:
    def __init__(self):
        self.passed, self.failed = 0, 0

    def expect(self, wrong, what):
        """Tells of a thing that holds where nothing is wrong."""
        if wrong:
            self.failed += 1
            print(f"FAILED {what}: {len(wrong)} differ: {'; '.join(wrong[:20])}", flush=True)
        else:
            self.passed += 1
            print(f"ok {what}", flush=True)


def arguments_of(rules, is_wide, chance):
    """Arguments around all tests of a call, and some by chance."""
    values = [{0, 1, 2**32 - 1} for _ in range(6)]
    for test in itertools.chain(*rules):
        values[test.at] |= test.near()
        if test.how == ">":
            values[test.at] |= set(range(70))
    tested = sorted({test.at for test in itertools.chain(*rules)})
    for chosen in itertools.product(*(sorted(values[at]) for at in tested)):
        given = [chance.choice([0, 1, 7, 2**32 - 1]) for _ in range(6)]
        for at, value in zip(tested, chosen):
            given[at] = value
        yield given if is_wide else [each % 2**32 for each in given]
    for given in PLAIN:
        yield given if is_wide else [each % 2**32 for each in given]


def compared(policy, both, architecture, chance):
    """Each call of an architecture where the filters answer otherwise than the list, and how many calls were tried."""
    known, wrong, count = calls(architecture), [], 0
    is_wide = architecture in MACHINES
    numbers = sorted({*range(601), *known, *range(0xF0000, 0xF0010), *chance.sample(range(601, 2**20), 200)})
    for number in numbers:
        names = known.get(number, set())
        rules = [tests for tests, _ in policy.rules(names, architecture)]
        for arguments in arguments_of(rules, is_wide, chance):
            found = NAMES.get(together(*both, Call(ARCHITECTURES[architecture], number, arguments)), "another answer")
            wanted = policy.answer(names, architecture, arguments)
            count += 1
            if found != wanted:
                named = f"{number} {'/'.join(sorted(names)) or 'no call'}"
                wrong.append(f"{named} {[hex(each) for each in arguments]}: {found}, not {wanted}")
    return wrong, count


def passing(both, architecture, numbers):
    """Those of these calls that do not fail."""
    wrong = []
    for number, arguments in itertools.product(numbers, PLAIN):
        found = NAMES.get(together(*both, Call(architecture, number, arguments)), "another answer")
        if found not in NO_PASS:
            wrong.append(f"{number:#x}: {found}")
    return wrong


def made(folder, machine):
    """The two filters, in the order in which the sandbox puts them in place."""
    os.mkdir(folder)
    subprocess.run(["/usr/bin/python3", os.path.join(LAUNCHERS, "sandbox-filters"), folder, "--for", machine], check=True)
    return [Filter(os.path.join(folder, f"sandbox.{name}")) for name in ("allowed", "refused")]


def of_machine(report, policy, machine, folder, chance):
    both = made(os.path.join(folder, machine), machine)
    for architecture in MACHINES[machine]:
        if lacking(architecture):
            print(f"skipped {architecture}: it needs {', '.join(lacking(architecture))}", flush=True)
            continue
        wrong, count = compared(policy, both, architecture, chance)
        report.expect(wrong, f"{machine}: {count} calls of {architecture} are answered as the list says")
        number = ARCHITECTURES[architecture]
        negative = passing(both, number, [-1, -2, -600, 2**31, 2**31 + 1])
        report.expect(negative, f"{machine}: no call of {architecture} with a negative number passes")
    if machine == "x86_64":
        x32 = [X32 + number for number in range(601)] + [*calls("x32"), X32 | 2**31, 2**32 - 2]
        report.expect(passing(both, ARCHITECTURES["x86_64"], x32), "x86_64: no call of x32 passes")
    others = {name: number for name, number in {**ARCHITECTURES, **OTHERS}.items() if name not in MACHINES[machine]}
    for name, number in others.items():
        report.expect(passing(both, number, range(601)), f"{machine}: no call of {name} passes")


def names_known(report, policy):
    """Names of the list that no header has would be of no use, and may be misspelt."""
    if any(lacking(each) for each in ARCHITECTURES):
        return
    known = set().union(*(names for each in ARCHITECTURES for names in calls(each).values()))
    report.expect(sorted(policy.names() - known), "each name of the list stands in a header")
    both = sorted(policy.allowed & {name for name, rules in policy.refused.items() if [] in rules})
    report.expect(both, "no name is allowed and always refused")


# Numbers of a call with its arguments, for each processor, and its errno; 0 where it is to end otherwise than by these two.
# What is refused would fail by EINVAL (22) or EBADF (9) otherwise, or do nothing. What is ignored would fail by EFAULT or
# EBADF.
IGNORED = None
TRIED = {
    "mount": ({"x86_64": 165, "aarch64": 40}, (0, 0, 0, 0, 0), errno.ENOSYS),
    "unshare": ({"x86_64": 272, "aarch64": 97}, (0,), errno.ENOSYS),
    "clone3": ({"x86_64": 435, "aarch64": 435}, (0, 0), errno.ENOSYS),
    "setns": ({"x86_64": 308, "aarch64": 268}, (-1, 0), errno.ENOSYS),
    "kcmp": ({"x86_64": 312, "aarch64": 272}, (0, 0, 0, 0, 0), errno.ENOSYS),
    "no call": ({"x86_64": 600, "aarch64": 600}, (), errno.ENOSYS),
    "keyctl": ({"x86_64": 250, "aarch64": 219}, (0, 0, 0, 0, 0), errno.EPERM),
    "bpf": ({"x86_64": 321, "aarch64": 280}, (0, 0, 0), errno.EPERM),
    "io_uring_setup": ({"x86_64": 425, "aarch64": 425}, (0, 0), errno.EPERM),
    "socket of AF_VSOCK": ({"x86_64": 41, "aarch64": 198}, (40, 1, 0), errno.EPERM),
    "pair of AF_VSOCK": ({"x86_64": 53, "aarch64": 199}, (40, 1, 0, 0), errno.EPERM),
    "pair of AF_UNIX, to nowhere": ({"x86_64": 53, "aarch64": 199}, (1, 1, 0, 0), 0),
    "socket of AF_UNIX": ({"x86_64": 41, "aarch64": 198}, (1, 1, 0), 0),
    "a filter of a socket": ({"x86_64": 54, "aarch64": 208}, (-1, 1, 26, 0, 0), errno.EPERM),
    "an option of a socket": ({"x86_64": 54, "aarch64": 208}, (-1, 1, 2, 0, 0), 0),
    "advice on a file": ({"x86_64": 221, "aarch64": 223}, (-1, 0, 0, 4), IGNORED),
    "a lease": ({"x86_64": 72, "aarch64": 25}, (0, 1024, 2), errno.EPERM),
    "a lease, with higher bits": ({"x86_64": 72, "aarch64": 25}, (0, 2**32 | 1024, 2), errno.EPERM),
    "F_GETFD": ({"x86_64": 72, "aarch64": 25}, (0, 1), 0),
    "a snapshot": ({"x86_64": 16, "aarch64": 29}, (0, 0x50009401, 0), errno.EPERM),
    "a user namespace": ({"x86_64": 56, "aarch64": 220}, (0x10000000 | 0x200, 0, 0, 0, 0), errno.EPERM),
    "prlimit64 for cores": ({"x86_64": 302, "aarch64": 261}, (0, 4, 1, 0), IGNORED),
    "prlimit64 that reads": ({"x86_64": 302, "aarch64": 261}, (0, 4, 0, 0), 0),
    "getpid": ({"x86_64": 39, "aarch64": 172}, (), 0),
    "getpid of x32": ({"x86_64": X32 | 39}, (), errno.EPERM),
}


def answers(folder, machine):
    """What the kernel answers where both filters are in place, for this process from now on."""
    kernel = ctypes.CDLL(None, use_errno=True)
    kernel.syscall.restype = ctypes.c_long
    for name in ("allowed", "refused"):
        with open(os.path.join(folder, machine, f"sandbox.{name}"), "rb") as file:
            if not put_in_place(file.read()):
                return [f"the kernel does not take the filter: {ctypes.get_errno()}"]
    wrong = []
    for name, (numbers, arguments, wanted) in TRIED.items():
        if machine in numbers:
            ctypes.set_errno(0)
            kernel.syscall(ctypes.c_long(numbers[machine]), *(ctypes.c_ulong(each % 2**64) for each in arguments))
            found = ctypes.get_errno()
            is_right = found == (wanted or 0) or (wanted == 0 and found not in (errno.EPERM, errno.ENOSYS))
            if not is_right:
                wrong.append(f"{name}: {found}, not {wanted}")
    return wrong


def in_place(report, folder):
    """The filters of this processor, in a process of their own."""
    machine = platform.machine()
    read, write = os.pipe()
    child = os.fork()
    if not child:
        os.write(write, "\n".join(answers(folder, machine)).encode())
        os._exit(0)
    os.close(write)
    with os.fdopen(read) as said:
        wrong = said.read().splitlines()
    if os.waitpid(child, 0)[1]:
        wrong.append("the process that has them in place failed")
    report.expect(wrong, f"{machine}: {len(TRIED)} calls with the filters in place")


def main():
    parser = argparse.ArgumentParser(description=__doc__, formatter_class=argparse.RawDescriptionHelpFormatter)
    parser.add_argument("--only", nargs="*", default=[*MACHINES], choices=MACHINES, metavar="NAME")
    options = parser.parse_args()
    if subprocess.run(["/usr/bin/python3", "-c", "import seccomp"], capture_output=True).returncode:
        raise SystemExit("skipped: it needs python3-seccomp")
    report, policy, chance = Report(), Policy(), random.Random(1)
    with tempfile.TemporaryDirectory(prefix="launchers-filters-") as folder:
        names_known(report, policy)
        for machine in options.only:
            of_machine(report, policy, machine, folder, chance)
        if platform.machine() in options.only:
            in_place(report, folder)
    print(f"{report.passed} passed, {report.failed} failed", flush=True)
    sys.exit(report.failed > 0)


main()
