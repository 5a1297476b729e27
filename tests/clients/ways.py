"""The ways in which a script's actions are started: by a launcher that is told, or by one of `launchers/`."""

import contextlib
import os
import tempfile
from collections import namedtuple

import launchers_sandbox
from executing import Action, Peer
from server import Server
from slurm_cluster import Cluster, launcher

# What starts programs, the cluster that was made for it, whether programs see nothing of the host but their folder, and
# more words of a server's command line. The first two may be none.
Way = namedtuple("Way", "launcher cluster is_apart extra", defaults=[()])

KINDS = ["--sandbox", "--slurm", "--slurm-sandbox"]


def add_ways(parser):
    """The words of a script's command line that say how actions are started."""
    way = parser.add_mutually_exclusive_group()
    way.add_argument("--launcher", metavar="L")
    for name in KINDS:
        way.add_argument(name, action="store_true")


def add_made_trees(parser):
    """The word by which servers have made trees, too."""
    parser.add_argument("--made-trees", metavar="SIZE")


def made_trees(options):
    """The words of a server's command line that say so."""
    size = getattr(options, "made_trees", None)
    if size and not (options.launcher or options.sandbox or options.slurm_sandbox):
        raise SystemExit("--made-trees needs a launcher that binds them, as --sandbox")
    return ["--made-trees", size] if size else []


@contextlib.contextmanager
def made(options, folder):
    """The launcher, which any user may start, in a cluster that is there meanwhile where it is asked for.

    Whether programs are apart is what one says that looks for this folder.
    """
    cluster, sandbox, extra = None, None, made_trees(options)
    with contextlib.ExitStack() as stack:
        if options.sandbox or options.slurm_sandbox:
            sandbox = launchers_sandbox.sandbox(open_folder(folder))
        if options.slurm or options.slurm_sandbox:
            cluster = stack.enter_context(Cluster(open_folder(folder)))
            sandbox = launcher(cluster, cluster.folder, sandbox or "")
        started_by = options.launcher or sandbox
        is_apart = started_by is not None and not sees(options.program, started_by, folder)
        yield Way(started_by, cluster, is_apart, extra)


def sees(program, started_by, path):
    """Whether a program that this launcher starts sees what is at a path of the host."""
    with Server(program, [("main", 10**6, 1)], 2**62, launcher=started_by) as server, Peer(server.ports[0]) as peer:
        result = peer.execute(Action(["/bin/ls", "-d", path])).result
    if result is None:
        raise SystemExit(f"{started_by} starts no program")
    return result.code == 0


def open_folder(folder):
    path = tempfile.mkdtemp(dir=folder)
    os.chmod(path, 0o755)
    return path
