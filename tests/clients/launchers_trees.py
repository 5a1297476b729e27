"""What `launchers.py` looks at of `launchers/sandbox` and made trees, by itself: the file `trees`, and the places in it."""

import os
import subprocess
import tempfile

from launchers_sandbox import sandbox

ODD = b"a b/\\040x/\n\t*$HOME'\"/\xff\xfe-n"
# Prints what is bound read only, and tries to change it.
LOOKING = """cd /work; for f in tc/f */*/*/*/f; do
    cat "$f"; { echo x >"$f" || chmod 777 "$f" || rm "$f" || mv "${f%/f}" moved || rmdir "${f%/f}"; } && echo changed
done 2>/dev/null; tc/sub/run"""


class Start:
    """The folder of a start with two trees, in which a launcher is started without a server."""

    def __init__(self, folder, more):
        self.more, self.count = more, 0
        self.launcher, self.path = sandbox(os.path.join(folder, "made")), os.path.join(folder, "work", "start-1")
        self.trees = [os.path.join(self.path, f"0-{2**64 - 1 - number}") for number in range(2)]
        for tree in self.trees:
            os.makedirs(os.path.join(tree, "sub"))
            with open(os.path.join(tree, "f"), "w") as file:
                file.write(f"of {os.path.basename(tree)[-1]}\n")
            with open(os.path.join(tree, "sub", "run"), "w") as file:
                file.write("#!/bin/sh\necho ran\n")
            os.chmod(file.name, 0o755)

    def told(self, words, places, trees=None, prepare=lambda root: None):
        """The launcher's code, what it said, and what the program printed, in a run with these empty directories."""
        self.count += 1
        root = os.path.join(self.path, f"0-{self.count}")
        os.makedirs(f"{root}.aside")
        for each in [b"", *places]:
            os.makedirs(os.path.join(os.fsencode(root), each), exist_ok=True)
        prepare(root)
        for name, text in {"said": b"", **({} if trees is None else {"trees": trees})}.items():
            with open(f"{root}.aside/{name}", "wb") as file:
                file.write(text)
        if self.more:
            owner = f"{self.more['user']}:{self.more['group']}"
            subprocess.run(["chown", "-R", "--no-dereference", owner, self.path], check=True)
        given = {"env": {}, "cwd": "/", "stdin": subprocess.DEVNULL, "start_new_session": True, "timeout": 60}
        line = [self.launcher, "red", root, ".", "PATH=/usr/bin:/bin", *words]
        done = subprocess.run(line, capture_output=True, **given, **self.more)
        with open(f"{root}.aside/said") as said:
            return done.returncode, said.read(), done.stdout.decode(errors="replace")

    def refuses(self, said, *given, **more):
        """Whether a run fails by a signal with this reason, and no program has run; else what came of it."""
        code, reason, printed = self.told(["/bin/echo", "ran"], *given, **more)
        return (code == -9 and said in reason and not printed) or (code, reason, printed)


def listed(*words):
    return b"".join(os.fsencode(word) + b"\0" for word in words)


def bound(report, who, start):
    one, two = start.trees
    whole = listed(one, "tc", two, ODD, "")
    found = start.told(["/bin/sh", "-c", LOOKING], [b"tc", ODD], whole)
    report.expect(found == (0, "", "of 5\nof 4\nran\n"), f"{who}: two trees are bound, one at an odd place, read only", found)
    found = start.told(["/bin/sh", "-c", "ls -A tc"], [b"tc"])
    report.expect(found == (0, "", ""), f"{who}: without the file nothing is bound", found)
    cuts = [at for at in range(len(whole)) if at % 9 == 0 or at > len(whole) - 8]
    wrong = [(at, told) for at in cuts if (told := start.refuses("trees are lost", [b"tc", ODD], whole[:at])) is not True]
    report.expect(not wrong, f"{who}: the file is cut at {len(cuts)} places: each run fails, with a reason", wrong)


def link(target, name):
    return lambda root: os.symlink(target, os.path.join(root, name))


def places(report, who, start):
    """What stands at a place leads elsewhere, or is not there."""
    tree = start.trees[0]
    ways = {
        "a link": ("tc", [], link("/usr", "tc")),
        "a link to a directory of the run": ("tc", [b"in"], link("in", "tc")),
        "below a link": ("tc/share", [], link("/usr", "tc")),
        "a link on the way": ("in/l/b", [b"in/b"], link("../in", "in/l")),
        "the folder above": ("..", [], link("x", "x")),
        "the folder above, from one in it": ("in/../..", [b"in"], link("x", "x")),
        "a file": ("file", [], lambda root: open(os.path.join(root, "file"), "x").close()),
        "nothing": ("gone", [], link("x", "x")),
        "the root itself": ("", [], link("x", "x")),
    }
    for what, (place, made, prepare) in ways.items():
        found = start.refuses("places of trees are lost", made, listed(tree, place, ""), prepare=prepare)
        report.expect(found is True, f"{who}: the place of a tree is {what}: the run fails, with a reason", found)
    for what, path in {"is gone": f"{tree}x", "has no path": ""}.items():
        found = start.refuses("Can't find source path", [b"tc"], listed(path, "tc", ""))
        report.expect(found is True, f"{who}: a tree {what}: the run fails, with a reason", found)


def trees(report, plain):
    """As this user, and as a plain one."""
    for who, more in {"as this user": {}, **({"as a plain user": plain} if os.geteuid() == 0 else {})}.items():
        with tempfile.TemporaryDirectory(prefix="launchers-trees-") as folder:
            os.chmod(folder, 0o755)
            start = Start(folder, more)
            bound(report, who, start)
            places(report, who, start)
