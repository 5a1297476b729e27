"""What the cases of `made_trees.py` share: toolchains, what a program finds of its inputs, and the folders of trees."""

import contextlib
import hashlib
import os
import random

import messages as m
import programs
from execution_context import Fault, expect
from execution_inputs import LOOK, shown
from executing import Executable, Link, Peer
from server import is_tree
from teams import Skipped, Stage

SIZE = "100M"
# A file, a directory and a link count so many bytes more than their texts have.
NODE = 4096
# Says on standard error which directories of its inputs are bound, and prints all that stands in its folder: each file's
# mode and size, and a digest of all their texts, in the order of their paths.
BOUND = "sed -n 's|^[0-9]* [0-9]* [0-9:]* [^ ]* /work/\\([^ ]*\\) ro,.*|\\1|p' /proc/self/mountinfo >&2"
TEXTS = "find . -type f -print0 | LC_ALL=C sort -z | xargs -0 cat | sha256sum"
LOOKING = f"{BOUND}; cd /work; {LOOK}; {TEXTS}"


def toolchain(seed, files=80, size=40):
    """A directory as compilers have it: so many files of such a size, some that may be run, links, and an empty one."""
    made = random.Random(str(seed))
    tree = {"bin": {}, "lib": {}, "empty": {}}
    for number in range(files):
        text = b"%d " % number + made.randbytes(size)
        above = tree["bin"] if number % 8 == 0 else tree["lib"].setdefault(f"d{number // 100}", {"in": {}})
        name = f"f{number}" if number % 5 else f"odd é {number}"
        above[name] = Executable(text) if number % 8 == 0 else text
    tree["lib"]["links"] = {"to": Link("../d0"), "gone": Link("nowhere"), "up": Link("..")}
    return tree


def flat(seed, files=64, size=20):
    """A directory of so many files, and of nothing else."""
    made = random.Random(str(seed))
    return {f"f{number}": made.randbytes(size) for number in range(files)}


def counted(tree):
    """What a tree counts: the bytes of its files, and something for each node, itself among them."""
    if isinstance(tree, dict):
        return NODE + sum(counted(each) for each in tree.values())
    return NODE + (0 if isinstance(tree, Link) else len(tree))


def files_of(tree, above=""):
    """The texts of all files by their paths."""
    for name, inner in tree.items():
        if isinstance(inner, dict):
            yield from files_of(inner, f"{above}{name}/")
        elif not isinstance(inner, Link):
            yield above + name, bytes(inner)


def with_directories(tree, paths):
    """The tree with these directories, as a server makes them."""
    tree = dict(tree)
    for path in filter(None, paths):
        name, _, rest = path.partition("/")
        tree[name] = with_directories(tree.get(name, {}), [rest])
    return tree


def wanted(tree, folder="", files=(), directories=(), paths=()):
    """What LOOKING has to print for an action."""
    above = [os.path.dirname(os.path.join(folder, each)) for each in [*files, *directories, *paths]]
    tree = with_directories(tree, [folder, *above])
    texts = sorted((f"./{path}".encode(), text) for path, text in files_of(tree))
    digest = hashlib.sha256(b"".join(text for _, text in texts)).hexdigest()
    lines = sorted(shown(tree).split(b"\n")[:-1])
    return b"\n".join([*lines, digest.encode() + b"  -", b""])


class Asked:
    """An action that looks at its inputs, and what it has to find."""

    def __init__(self, stage, tree, then="", **more):
        self.action = stage.action(f"{LOOKING}{then}", tree=tree, **more)
        given = {key: more[key] for key in ("folder", "files", "directories", "paths") if key in more}
        self.wanted = wanted({f"number-{stage.number}": b"", **tree}, **given)

    def ended(self, peer, number):
        """Which directories were bound: the action has ended with 0, and found all of its inputs."""
        done = peer.operations(number)[-1]
        expect((done.status.code, done.status.text), (0, ""), "status")
        streams = [peer.stream_text(each).decode() for each in (done.result.stdout, done.result.stderr)]
        expect(done.result.code, 0, f"exit code ({streams[1][-300:]})")
        is_whole = done.result.stdout == m.digest(self.wanted)
        expect(is_whole, True, f"all inputs are there: {difference(streams[0], self.wanted)}")
        return sorted(streams[1].split("\n")[:-1])


def difference(found, wanted):
    """Some lines that are in one of two texts alone."""
    found, wanted = (set(text.split("\n")) for text in (found, wanted.decode()))
    return f"too many {sorted(found - wanted)[:3]}, missing {sorted(wanted - found)[:3]}"


class TreeStage(Stage):
    """A stage whose servers have made trees, if they are not off: then nothing is bound, and all else is the same."""

    def __init__(self, is_off, *given):
        super().__init__(*given)
        self.is_off = is_off

    def serve(self, size=SIZE, slots=(8, 4), extra=(), **more):
        option = [] if self.is_off else ["--made-trees", str(size)]
        return super().serve(slots, extra=[*option, *extra], **more)

    def needs_trees(self):
        if self.is_off:
            raise Skipped("no trees are made")

    def bound(self, *places):
        """These places, where trees are made."""
        return [] if self.is_off else sorted(places)

    def all_looked(self, peer, trees, **more):
        """What is bound for actions with these inputs that are asked for at once."""
        asked = [Asked(self, each, **more) for each in trees]
        peer.store([blob for each in asked for blob in each.action.blobs])
        numbers = [peer.start(each.action, is_stored=True) for each in asked]
        return [each.ended(peer, number) for each, number in zip(asked, numbers)]

    def looked(self, peer, tree, **more):
        return self.all_looked(peer, [tree], **more)[0]

    def made(self, peer, tree, most=12, **more):
        """Has an action with this input run until what it wants is bound; gives after how many runs."""
        for count in range(1, most + 1):
            if self.looked(peer, tree, **more) or self.is_off:
                return count
        raise Fault(f"nothing is bound after {most} runs")

    def trees(self, server, instance=0):
        """The folders of an instance's trees."""
        names = [name for name in server.entries() if is_tree(name) and "." not in name]
        return [os.path.join(server.start(), name) for name in names if name.startswith(f"{instance}-")]

    def settles(self, server, count, instance=0, seconds=20):
        """Waits until an instance has so many trees, and no folder of a run is left."""
        count = 0 if self.is_off else count
        found = lambda: len(self.trees(server, instance))
        programs.settled(lambda: found() != count, seconds * self.slow)
        expect(found(), count, "folders of trees")
        self.nothing_left(server, seconds, is_tree)

    @contextlib.contextmanager
    def held(self, server, peer, tree, then="", **more):
        """An action that looks at its inputs and then goes on meanwhile; gives what was bound, and its folder."""
        before = set(server.entries())
        asked = Asked(self, tree, f"; : >looked; until [ -e go ]; do sleep 0.05; done{then}", **more)
        number = peer.start(asked.action)
        new = lambda: [name for name in set(server.entries()) - before if not is_tree(name)]
        looked = lambda: [name for name in new() if os.path.exists(os.path.join(server.start(), name, "looked"))]
        self.waits(looked, 30, "an action looks at its inputs")
        held = Held(os.path.join(server.start(), looked()[0]))
        try:
            yield held
        finally:
            held.let_go()
        held.bound = asked.ended(peer, number)


class Held:
    """A run that goes on until it is let go."""

    def __init__(self, root):
        self.root, self.bound = root, None

    def let_go(self):
        with contextlib.suppress(OSError), open(os.path.join(self.root, "go"), "x"):
            pass


@contextlib.contextmanager
def another(server, instance):
    """A connection of an instance's."""
    with Peer(server.ports[instance], 600) as peer:
        yield peer
