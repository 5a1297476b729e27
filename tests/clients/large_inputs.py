#!/usr/bin/env python3
"""large_inputs.py PROGRAM [--launcher L] [--off] [--places FOLDER ..] [--count N] [--seconds N] [--processor MS] [--later MS]
[--rate N] [--beside PART]: what inputs of a large toolchain cost an action, with --made-trees and without.

PROGRAM is the built `remoted`. Its --work lies in each of these folders, by default the machine's disk (that of
temporary files) and /dev/shm. Programs are started by `launchers/sandbox`, or by L, which binds trees. It measures:

- 9,800 inputs of 400 MB, all the same but one file, which stands beside the toolchain's Directory: the server's processor
  time for an action with all that its end takes, and how much later its program starts than one without inputs.
  --count (10) is how many actions of each kind are taken.
- 5,000 inputs of 300 MB, by 8 slots: how many actions end in a second, for --seconds (8).
- another team that has /bin/true executed, one at a time, beside these: how many in a second, of what it has alone and
  beside actions without inputs.

A line for each place, without the option and with it (with --off without it alone), and then one for each limit that is
to hold with it: at most --processor (25) ms an action, --later (40) ms later, at least --rate (50) actions a second,
and --beside (0.6) of what the other team has alone. It ends with status 1 where one does not hold. The first actions of
a kind, which make the tree, are not counted.
"""

import argparse
import os
import statistics
import sys
import tempfile
import threading
import time

import launchers_sandbox
from executing import Action, Peer, Stored, directory
from programs import settled
from server import Server, is_tree

SLOTS = 8
OPTION = ["--made-trees", "4G"]


class Toolchain:
    """So many files of so many megabytes in directories of a hundred: as a mapping, by their digest, and all texts."""

    def __init__(self, files, megabytes):
        self.blobs, size = [], megabytes * 1_000_000 // files
        common = os.urandom(size)
        of = lambda number: (b"%d of %d " % (number, files) + common)[:size]
        alike = lambda at: {f"f{number}": of(number) for number in range(at, min(at + 100, files))}
        self.tree = {f"d{at}": alike(at) for at in range(0, files, 100)}
        self.digest = Stored(directory(self.tree, self.blobs))


class Setting:
    """A server whose folder is at a place, with the option or without it, and what is stored there."""

    def __init__(self, options, place, extra):
        self.options, self.place, self.extra, self.number = options, place, extra, 0

    def __enter__(self):
        self.folder = tempfile.TemporaryDirectory(dir=self.place, prefix="large-inputs-")
        instances = [("red", 2**31, SLOTS), ("blue", 10**8, 2)]
        work = os.path.join(self.folder.name, "work")
        self.server = Server(
            self.options.program, instances, 2**62, None, work, True, self.options.started_by, self.extra
        )
        return self

    def __exit__(self, *_):
        self.server.__exit__()
        self.folder.cleanup()

    def action(self, tree, words=("/bin/true",)):
        """An action that is no other's."""
        self.number += 1
        return Action(list(words), {"new": b"%d" % self.number, **tree}, do_not_cache=True)

    def no_run(self):
        """Waits until no folder of a run is left."""
        settled(lambda: [name for name in self.server.entries() if not is_tree(name)], 120)

    # What is measured.

    def one_at_a_time(self, peer, tree):
        """The server's processor time for an action, its children's, and after how long its program starts: milliseconds."""
        count, after = self.options.count, []
        for _ in range(3):
            peer.execute(self.action(tree))
        self.no_run()
        actions = [self.action(tree, ["/usr/bin/date", "+%s%N"]) for _ in range(count)]
        for each in actions:
            peer.store(each.blobs)
        before = self.server.cpu_seconds(), self.server.children_seconds()
        for each in actions:
            begun = time.time_ns()
            done = peer.execute(each, is_stored=True)
            if not done.result or done.result.code:
                raise SystemExit(f"an action ends with {done.status.text!r}: {self.server.said()[-3:]}")
            after.append((int(peer.text(done.result.stdout)) - begun) / 1e6)
            self.no_run()
        used = self.server.cpu_seconds() - before[0], self.server.children_seconds() - before[1]
        return [1000 * each / count for each in used] + [statistics.median(after)]

    def rate(self, instance, at_once, tree, seconds, is_over=None):
        """How many actions end in a second, so many at once, for these seconds or until it is over."""
        with Peer(self.server.ports[instance], 600) as peer:
            begin = lambda: peer.start(self.action(tree))
            numbers, ended = [begin() for _ in range(at_once)], 0
            begun = time.monotonic()
            while time.monotonic() < begun + seconds and not (is_over and is_over.is_set()):
                ended += self._taken(peer, numbers)
                numbers += [begin() for _ in range(at_once - len(numbers))]
            took = time.monotonic() - begun
            while numbers:
                self._taken(peer, numbers)
            return ended / took

    def _taken(self, peer, numbers):
        """Waits until some calls have ended, takes them out, and gives how many they are."""
        peer.read()
        ended = [number for number in numbers if peer.calls[number].status is not None]
        for number in ended:
            done = peer.operations(number)[-1]
            if not done.result or done.result.code:
                raise SystemExit(f"an action ends with {done.status.text!r}: {self.server.said()[-3:]}")
            numbers.remove(number)
        return len(ended)

    def beside(self, tree):
        """How many actions of blue's end in a second, while red keeps its slots busy."""
        is_over = threading.Event()
        loading = threading.Thread(target=self.rate, args=[0, SLOTS, tree, 1e9, is_over])
        loading.start()
        try:
            time.sleep(1)
            return self.rate(1, 1, {}, self.options.seconds)
        finally:
            is_over.set()
            loading.join()


def measured(options, place, extra, toolchains):
    """All numbers of a place, by their names."""
    with Setting(options, place, extra) as setting, Peer(setting.server.ports[0], 600) as red:
        large, wide = toolchains
        red.store(large.blobs)
        bare = setting.one_at_a_time(red, {})
        one = setting.one_at_a_time(red, {"toolchain": large.digest})
        red.store(wide.blobs)
        alone = setting.rate(1, 1, {}, options.seconds)
        tree = {"toolchain": wide.digest}
        setting.rate(0, SLOTS, tree, 1)
        rate = setting.rate(0, SLOTS, tree, options.seconds)
        without, within = setting.beside({}), setting.beside(tree)
        setting.no_run()
        return {
            "processor": one[0],
            "bare": bare[0],
            "children": one[1],
            "later": one[2] - bare[2],
            "start": bare[2],
            "rate": rate,
            "alone": alone,
            "without": without,
            "within": within,
            "beside": within / alone,
        }


TOLD = (
    "{processor:.0f} ms of the server's processor an action (without inputs {bare:.0f}; its children {children:.0f}), its"
    " program starts {later:.0f} ms later (than after {start:.0f} ms); {rate:.1f} actions a second by 8 slots; another team"
    " has {within:.0f} a second beside them (alone {alone:.0f}, beside actions without inputs {without:.0f})"
)


def judged(options, place, found):
    """Whether all limits hold, a line for each."""
    holds = [
        (found["processor"] <= options.processor, f"{found['processor']:.1f} ms an action of at most {options.processor:g}"),
        (found["later"] <= options.later, f"{found['later']:.1f} ms later of at most {options.later:g}"),
        (found["rate"] >= options.rate, f"{found['rate']:.1f} actions a second of at least {options.rate:g}"),
        (found["beside"] >= options.beside, f"{found['beside']:.2f} beside them of at least {options.beside:g}"),
    ]
    for is_so, text in holds:
        print(f"{'ok' if is_so else 'FAILED'} {place}: {text}", flush=True)
    return all(is_so for is_so, _ in holds)


def main():
    parser = argparse.ArgumentParser(description=__doc__, formatter_class=argparse.RawDescriptionHelpFormatter)
    parser.add_argument("program")
    parser.add_argument("--launcher", metavar="L")
    parser.add_argument("--off", action="store_true")
    parser.add_argument("--places", nargs="+", default=[tempfile.gettempdir(), "/dev/shm"], metavar="FOLDER")
    parser.add_argument("--count", type=int, default=10, metavar="N")
    parser.add_argument("--seconds", type=float, default=8, metavar="N")
    parser.add_argument("--large", type=int, nargs=2, default=[9_800, 400], metavar=("FILES", "MB"))
    parser.add_argument("--wide", type=int, nargs=2, default=[5_000, 300], metavar=("FILES", "MB"))
    for name, most in {"processor": 25, "later": 40, "rate": 50, "beside": 0.6}.items():
        parser.add_argument(f"--{name}", type=float, default=most)
    options = parser.parse_args()
    toolchains = [Toolchain(*options.large), Toolchain(*options.wide)]
    is_well = True
    with tempfile.TemporaryDirectory(prefix="large-inputs-") as folder:
        os.chmod(folder, 0o755)
        options.started_by = options.launcher or launchers_sandbox.sandbox(os.path.join(folder, "made"))
        for place in options.places:
            for extra in [[], OPTION][: 1 if options.off else 2]:
                found = measured(options, place, extra, toolchains)
                print(f"{place}, {' '.join(extra) or 'without --made-trees'}: {TOLD.format(**found)}", flush=True)
                is_well = (not extra or judged(options, place, found)) and is_well
    sys.exit(not is_well)


if __name__ == "__main__":
    main()
