"""What the parts of watching.py share: a server with further words, its figures, and what is expected of it."""

import pathlib
import re
import time

from server import Server

DEPLOY = pathlib.Path(__file__).resolve().parents[2] / "deploy"
UPDATE_RESULT = "/build.bazel.remote.execution.v2.ActionCache/UpdateActionResult"
SAMPLE = re.compile(r"^(\w+)(?:\{(.*)\})? (\S+)$")
LABEL = re.compile(r'(\w+)="((?:[^"\\]|\\.)*)"')


def expect(holds, what, found=None):
    if not holds:
        raise SystemExit(f"not so: {what}" + ("" if found is None else f": {found}"))
    print(f"ok {what}", flush=True)


def within(seconds, test):
    """What the test gives once it gives something, or what it gives at the end."""
    end = time.monotonic() + seconds
    while not (found := test()) and time.monotonic() < end:
        time.sleep(0.05)
    return found


def figures_of(path):
    """The samples of a file: numbers by name and labels. Each has that of the file before its own."""
    found = {}
    for line in path.read_text().splitlines():
        if not line.startswith("#"):
            name, labels, value = SAMPLE.match(line).groups()
            file, *others = LABEL.findall(labels or "")
            if file != ("file", str(path)):
                raise SystemExit(f"not so: a sample tells its file: {line}")
            found[(name, *sorted(others))] = float(value)
    return found


def key(name, **labels):
    return (f"remoted_{name}", *sorted(labels.items()))


class Watched(Server):
    """A server with further words."""

    def __init__(self, program, instances, words, **more):
        self.words = words
        super().__init__(program, instances, turns="endless", extra=words, **more)
