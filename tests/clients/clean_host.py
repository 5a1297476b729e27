"""What scripts ask of the machine of clean_root.py: units, processes and blobs."""

import messages as m
from executing import Peer
from watched import expect, within


class Host:
    """A machine whose commands begin in a folder."""

    def __init__(self, machine, folder="/"):
        self.machine, self.folder = machine, folder

    def run(self, script):
        """Does what a block of a guide says."""
        done = self.machine.inside("sh", "-ec", script, folder=self.folder, timeout=120)
        first = script.split("\n")[0][:60]
        expect(done.returncode == 0, f"the block goes well that begins with `{first}`", done.stderr)

    def systemctl(self, *words):
        return self.machine.inside("systemctl", *words, timeout=120).stdout.strip()

    def unit_is(self, unit, state):
        found = within(20, lambda: self.systemctl("is-active", unit) == state)
        expect(found, f"{unit} is {state}", None if found else self.systemctl("status", unit))

    def main_process(self, unit):
        return self.systemctl("show", "--value", "--property=MainPID", unit)

    def answers(self, port):
        check = lambda: self.machine.inside("remoted", "check", "--port", str(port)).returncode == 0
        expect(within(20, check), f"the server of {port} answers")

    def has_file(self, path):
        return self.machine.inside("test", "-e", path).returncode == 0

    def write(self, name, text):
        path = self.machine.root / name
        path.parent.mkdir(parents=True, exist_ok=True)
        path.write_text(text)


def store(port, blob):
    with Peer(port) as peer:
        peer.store([blob])


def has(port, blob):
    with Peer(port) as peer:
        (answer,), status = peer.call(m.FIND_MISSING, m.find_missing("", [m.digest(blob)]))
        return status[0] == 0 and not m.every(answer, 2)
