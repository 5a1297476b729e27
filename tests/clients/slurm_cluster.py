"""A Slurm cluster of two nodes on this host alone, for `launchers.py`: its own configuration, daemons and folder.

It needs Debian's slurm-wlm and munge, and root. All of it listens on free ports of this host, and lies in one folder.
"""

import contextlib
import os
import random
import re
import shutil
import signal
import socket
import subprocess
import time

NEEDED = ["munged", "slurmctld", "slurmd", "srun", "scancel", "squeue", "scontrol"]
NODES = ["one", "two"]
# After how many seconds a node that does not answer counts as lost.
LOST_AFTER = 20

CONFIGURATION = """
ClusterName=launchers
SlurmctldHost={host}(127.0.0.1)
SlurmctldPort={ports[0]}
SlurmUser=root
SlurmdUser=root
AuthType=auth/munge
AuthInfo=socket={folder}/munge.socket
CredType=cred/munge
StateSaveLocation={folder}/state
SlurmdSpoolDir={folder}/spool-%n
SlurmctldPidFile={folder}/slurmctld.pid
SlurmdPidFile={folder}/slurmd-%n.pid
SlurmctldLogFile={folder}/slurmctld.log
SlurmdLogFile={folder}/slurmd-%n.log
ProctrackType=proctrack/{tracked_by}
FirstJobId={first}
TaskPlugin=task/none
SelectType=select/cons_tres
SelectTypeParameters=CR_CPU
SwitchType=switch/none
MpiDefault=none
ReturnToService=2
SlurmdTimeout={lost}
MessageTimeout=60
KillWait=2
SchedulerParameters=batch_sched_delay=0,sched_min_interval=10000
SlurmdParameters=config_overrides
NodeName=one NodeHostname={host} NodeAddr=127.0.0.1 Port={ports[1]} CPUs={cpus} State=UNKNOWN
NodeName=two NodeHostname={host} NodeAddr=127.0.0.1 Port={ports[2]} CPUs={cpus} State=UNKNOWN
PartitionName=main Nodes=ALL Default=YES MaxTime=INFINITE State=UP
"""


# The launcher of this repository.
LAUNCHER = os.path.join(os.path.dirname(os.path.abspath(__file__)), "../../launchers/slurm")


def launcher(cluster, folder, following=""):
    """`launchers/slurm` with its settings, in this folder: the cluster, and what starts the program on the node.

    That is `launchers/sandbox` or nothing, and with it made trees are bound.
    """
    with open(LAUNCHER) as file:
        text = file.read()
    following = f"{following}\n# binds: trees" if following else ""
    for name, value in {"SLURM_CONF": cluster.configuration, "next": following}.items():
        text, count = re.subn(rf"^{name}=.*$", f"{name}={value}", text, count=1, flags=re.MULTILINE)
        if count != 1:
            raise SystemExit(f"launchers/slurm has no setting {name}")
    path = os.path.join(folder, "slurm")
    with open(path, "w") as file:
        file.write(text)
    os.chmod(path, 0o755)
    return path


def lacking():
    """What has to be there and is not."""
    path = os.environ.get("PATH", "") + ":/usr/sbin:/sbin"
    return [name for name in NEEDED if not shutil.which(name, path=path)] + ([] if os.geteuid() == 0 else ["root"])


def has_freezer():
    """Whether Slurm can end jobs by control groups of version 1. By other means it misses what a job starts just then."""
    return os.access("/sys/fs/cgroup/freezer", os.W_OK)


def quiet_ports(count):
    """Free ports that no program is given by chance: daemons that are started again have to have them, too."""
    found = []
    while len(found) < count:
        with socket.socket() as tried, contextlib.suppress(OSError):
            tried.bind(("127.0.0.1", random.randrange(10000, 32000)))
            found.append(tried.getsockname()[1])
    return found


class Cluster:
    """Two nodes with some processors each, from `with` on to its end."""

    def __init__(self, folder, cpus=2):
        self.folder, self.processes = folder, {}
        self.configuration = os.path.join(folder, "slurm.conf")
        host = socket.gethostname().split(".")[0]
        # Control groups have the jobs' numbers in their names, which another cluster on this host may have, too.
        tracked_by = "cgroup" if has_freezer() else "linuxproc"
        given = {"tracked_by": tracked_by, "first": random.randrange(1, 10**7), "lost": LOST_AFTER, "cpus": cpus}
        with open(self.configuration, "w") as file:
            file.write(CONFIGURATION.format(host=host, ports=quiet_ports(3), folder=folder, **given))
        with open(os.path.join(folder, "cgroup.conf"), "w") as file:
            file.write("CgroupPlugin=cgroup/v1\nCgroupAutomount=no\nCgroupMountpoint=/sys/fs/cgroup\n")
        self.environment = {"PATH": "/usr/bin:/bin:/usr/sbin:/sbin", "SLURM_CONF": self.configuration}

    def __enter__(self):
        try:
            self._begin()
        except BaseException:
            self.__exit__()
            raise
        return self

    def _begin(self):
        for name in ["state", *(f"spool-{node}" for node in NODES)]:
            os.mkdir(os.path.join(self.folder, name))
        with open(os.path.join(self.folder, "munge.key"), "wb") as file:
            os.chmod(file.name, 0o600)
            file.write(os.urandom(128))
        named = lambda kind: f"--{kind}={self.folder}/munge.{kind.removesuffix('-file')}"
        options = ["--force", "--foreground", "--num-threads=2", named("socket")]
        options += [named(f"{kind}-file") for kind in ["key", "pid", "log", "seed"]]
        self._start("munged", options)
        self._wait(lambda: os.path.exists(f"{self.folder}/munge.socket"), "munged")
        self.start_controller()
        for node in NODES:
            self.start_node(node)
        self._wait(lambda: self.states().count("idle") == len(NODES), "the nodes")

    def start_controller(self):
        self._start("slurmctld", ["-D", "-i"])

    def stop_controller(self):
        """Kills what hands out the nodes; what runs on them goes on."""
        process = self.processes.pop("slurmctld")
        process.kill()
        process.wait()

    def start_node(self, node):
        self._start("slurmd", ["-D", "-N", node], node)

    def stop_node(self, node):
        """Kills a node's daemon; what runs there goes on."""
        process = self.processes.pop(f"slurmd {node}")
        process.kill()
        process.wait()

    def _start(self, program, options, node=""):
        log = open(os.path.join(self.folder, f"{program}{node}.said"), "wb")
        path = shutil.which(program, path="/usr/sbin:/usr/bin:/sbin:/bin")
        with log:
            self.processes[f"{program} {node}".strip()] = subprocess.Popen(
                [path, *options], stdin=subprocess.DEVNULL, stdout=log, stderr=log, env=self.environment, cwd="/"
            )

    def _wait(self, holds, what, seconds=60):
        end = time.monotonic() + seconds
        while not holds():
            ended = [name for name, process in self.processes.items() if process.poll() is not None]
            if ended or time.monotonic() > end:
                said = {name: self._last(name) for name in os.listdir(self.folder) if name.endswith((".said", ".log"))}
                raise SystemExit(f"no cluster: {what}, {ended} {said}")
            time.sleep(0.1)

    def _last(self, name):
        with open(os.path.join(self.folder, name), errors="replace") as file:
            return file.read()[-500:]

    def told(self, *words):
        """What a program of Slurm's prints."""
        done = subprocess.run(words, env=self.environment, capture_output=True, text=True, timeout=90)
        return done.stdout.split()

    def states(self):
        return self.told("sinfo", "--noheader", "--Node", "--format=%t")

    def jobs(self):
        """The nodes of the jobs that are there, one word for each job."""
        return self.told("squeue", "--noheader", "--format=%N|")

    def __exit__(self, *_):
        if "slurmctld" in self.processes:
            for words in (["--signal=KILL", "--state=RUNNING"], ["--user=root"]):
                with contextlib.suppress(subprocess.TimeoutExpired):
                    subprocess.run(["scancel", *words], env=self.environment, capture_output=True, timeout=20)
        for name in reversed(self.processes):
            process = self.processes[name]
            process.terminate()
            try:
                process.wait(10)
            except subprocess.TimeoutExpired:
                process.kill()
                process.wait()
        self._end_left()

    def _end_left(self):
        """Ends what still asks this cluster, as processes that cancel jobs, and what holds its jobs."""
        mark = f"SLURM_CONF={self.configuration}".encode()
        for name in filter(str.isdigit, os.listdir("/proc")):
            with contextlib.suppress(OSError):
                with open(f"/proc/{name}/environ", "rb") as file:
                    is_left = mark in file.read().split(b"\0")
                if is_left:
                    os.kill(int(name), signal.SIGKILL)
