"""What one team tries against `launchers/slurm` by its words, and what comes of a Slurm that does not answer."""

import contextlib
import os
import shutil
import signal
import tempfile
import threading
import time

import messages as m
import programs
from executing import PATH, Action, Peer
from killing import kill
from launchers_sandbox import SOURCE, Told, sandbox
from programs import marked
from server import Server
from slurm_cluster import Cluster, launcher

SLOTS, HUNG_FOR = 24, 50


class Hung:
    """A cluster, and a server with two teams whose actions run on it by a launcher, of which some texts are changed."""

    def __init__(self, report, program, name, following=None, changes=None):
        self.report, self.program, self.name, self.changes = report, program, name, changes or {}
        self.folder = tempfile.mkdtemp(prefix="launchers-hung-")
        self.following = following

    def __enter__(self):
        beside = os.path.join(self.folder, "sandbox")
        os.mkdir(beside)
        self.cluster = Cluster(self.folder, min(4, os.cpu_count())).__enter__()
        path = launcher(self.cluster, self.folder, sandbox(beside) if self.following else "")
        with open(path) as file:
            text = file.read()
        for old, new in self.changes.items():
            if old not in text:
                raise SystemExit(f"launchers/slurm has no {old}")
            text = text.replace(old, new.replace("FOLDER", self.folder))
        with open(path, "w") as file:
            file.write(text)
        self.launcher, self.work = path, os.path.join(self.folder, "work")
        return self

    def __exit__(self, *_):
        self.go_on()
        for pid in marked(self.folder, self.daemons()):
            kill(pid)
        self.cluster.__exit__()
        shutil.rmtree(self.folder, ignore_errors=True)

    def serve(self, slots):
        instances = [("red", 10**9, slots), ("blue", 10**9, 2)]
        return Server(self.program, instances, 2**62, None, self.work, True, self.launcher)

    def daemons(self):
        found = {process.pid for process in self.cluster.processes.values()}
        return found | set(programs.children(found))

    def left(self, server):
        """What is there of runs while the server goes on."""
        return marked(self.folder, self.daemons() | {server.process.pid} | set(programs.children([server.process.pid], "set -f")))

    def controller(self):
        return self.cluster.processes["slurmctld"].pid

    def stop(self):
        os.kill(self.controller(), signal.SIGSTOP)

    def go_on(self):
        with contextlib.suppress(KeyError, ProcessLookupError):
            os.kill(self.controller(), signal.SIGCONT)

    def action(self, words, **more):
        return Action(words, do_not_cache=True, variables=[PATH, ("MARK", self.folder)], **more)

    def expect(self, holds, what, found=""):
        self.report.expect(holds, f"{self.name}: {what}", found)

    def logged(self):
        with contextlib.suppress(OSError), open(f"{self.work}/slurm.log") as file:
            return file.read()
        return ""


def escape(report, program):
    """Words that mean something to srun, of one team, while an action of the other's runs."""
    for following in (False, True):
        name = "slurm, and the sandbox" if following else "slurm"
        with Hung(report, program, name, following) as here, here.serve(2) as server:
            red, blue = (Peer(port, 120 * report.slow) for port in server.ports)
            slow = blue.start(here.action(f"sleep {15 * report.slow}; cat src", tree={"src": SOURCE}))
            programs.settled(lambda: "cat src" not in str(programs.running(here.folder)), 20 * report.slow)
            evil = f"(id; env; cat {here.work}/start-*/*/src) >>{here.folder}/evil; cat {here.work}/start-*/*/src"
            tries = [
                (["/bin/true", ":", "/bin/sh", "-c", evil], {}, (0, "")),
                (["/bin/true", ":", "--prolog=/bin/sh", "--", "-c", evil], {}, (0, "")),
                (["/bin/true", ":", "-n1", f"--task-prolog={here.folder}/evil.sh", "true"], {}, (0, "")),
                (["/bin/echo", "a", ":", "b"], {}, (0, "a : b\n")),
                (["/bin/sh", "-c", "echo $#", ":", "x", "y"], {}, (0, "2\n")),
                (["/usr/bin/cut", "-d", ":", "-f", "1", "in"], {"tree": {"in": b"a:b\n"}}, (0, "a\n")),
                (["/bin/pwd"], {"folder": ":"}, None),
            ]
            for words, more, wanted in tries:
                told = Told(red, here.action(words, **more))
                is_own = (told.code, told.stdout) == wanted if wanted else told.code == 0 and told.stdout.endswith("/:\n")
                here.expect(is_own, f"words that srun would read: {' '.join(words[:4])[:40]}", told)
            here.expect(not os.path.exists(f"{here.folder}/evil"), "nothing of an action's words was run elsewhere", "it was")
            done = blue.operations(slow)[-1]
            here.expect(done.result and blue.stream_text(done.result.stdout) == SOURCE, "the other's is as ever", done.status)
            for each in (red, blue):
                each.close()


class Flood:
    """A team's actions with timeouts of a second, as many at a time as it has slots, until it is stopped."""

    def __init__(self, here, port):
        self.here, self.peer, self.is_over, self.statuses = here, Peer(port, 300), threading.Event(), {}
        self.thread = threading.Thread(target=self._go, daemon=True)
        self.thread.start()

    def _go(self):
        running = []
        for n in range(10**6):
            if self.is_over.is_set():
                break
            running.append(self.peer.start(self.here.action("sleep 4177", tree={"n": b"%d" % n}, seconds=1)))
            if len(running) == SLOTS:
                self._end(running.pop(0))
        for each in running:
            self._end(each)

    def _end(self, number):
        status = self.peer.operations(number)[-1].status.code
        self.statuses[status] = self.statuses.get(status, 0) + 1

    def stop(self):
        self.is_over.set()
        self.thread.join()
        self.peer.close()


def answered(peer, n):
    """After how many seconds a text that was stored is answered, and whether it is the right one."""
    text, begun = b"%d" % n * 300, time.monotonic()
    peer.store([text])
    is_right = peer.text(m.digest(text)) == text
    return time.monotonic() - begun, is_right


def hung(report, program):
    """slurmctld is stopped for 50 seconds."""
    with Hung(report, program, "slurmctld does not answer") as here, here.serve(SLOTS) as server:
        flood, counts, calls = Flood(here, server.ports[0]), [], []
        with Peer(server.ports[1], 60) as blue:
            time.sleep(5)
            here.stop()
            begun = looked = time.monotonic()
            while (now := time.monotonic()) < begun + HUNG_FOR:
                calls.append(answered(blue, len(calls)))
                if now > looked:
                    counts.append((now - begun, len(here.left(server))))
                    looked = now + 2
                time.sleep(0.05)
        here.go_on()
        early = max(count for at, count in counts if 12 < at < 30)
        late = max(count for at, count in counts if at >= 30)
        here.expect(late < 1.2 * early + 12, f"processes do not grow: {early}, then {late}, for {SLOTS} slots", counts)
        took = sorted(each for each, _ in calls)
        quick = took[len(took) * 99 // 100]
        here.expect(all(right for _, right in calls), f"another team's {len(calls)} calls are right")
        here.expect(quick < 0.5 * report.slow, f"and 99 % of them within {1000 * quick:.0f} ms", took[-5:])
        flood.stop()
        here.expect(set(flood.statuses) <= {4, 13}, "no action is told as what it is not", flood.statuses)
        one = programs.settled(lambda: len(sessions(here.left(server))) > 1, 30 * report.slow)
        here.expect(not one, "half a minute later there is one canceller at most", here.left(server))
        here.expect(not programs.settled(lambda: here.left(server), 60 * report.slow), "and it ends", here.left(server))
        here.expect(not programs.settled(here.cluster.jobs, 10), "no job is left", here.cluster.jobs())


def sessions(found):
    """The sessions of processes."""
    numbers = set()
    for pid in found:
        with contextlib.suppress(ProcessLookupError):
            numbers.add(os.getsid(pid))
    return numbers


def not_cancelled(report, program):
    """What could not be cancelled is told in a log beside the runs."""
    refused = {"PATH=/usr/local/bin": "PATH=FOLDER/bin:/usr/local/bin"}
    with Hung(report, program, "scancel fails", changes=refused) as here, here.serve(2) as server:
        os.mkdir(f"{here.folder}/bin")
        with open(f"{here.folder}/bin/scancel", "w") as file:
            file.write("#!/bin/sh\nexit 1\n")
        os.chmod(f"{here.folder}/bin/scancel", 0o755)
        job = lost_job(here, server)
        programs.settled(lambda: job not in here.logged().split(), 30 * report.slow)
        here.expect(job in here.logged().split(), "a line names the job", here.logged())
        os.remove(f"{here.folder}/bin/scancel")
        here.expect(not programs.settled(here.cluster.jobs, 30 * report.slow), "it is tried again", here.cluster.jobs())
    with Hung(report, program, "srun does not end", changes=refused) as here:
        os.mkdir(f"{here.folder}/bin")
        with open(f"{here.folder}/bin/srun", "w") as file:
            file.write("#!/bin/sh\ntrap '' TERM\nexec sleep 4177\n")
        os.chmod(f"{here.folder}/bin/srun", 0o755)
        with here.serve(2) as server, Peer(server.ports[0], 100) as red:
            red.start(here.action("true"))
            programs.settled(lambda: "sleep 4177" not in str(here.left(server)), 20 * report.slow)
            here.expect("sleep 4177" in str(here.left(server)), "a run waits for it", here.left(server))
            server.process.kill()
            server.process.wait()
            left = programs.settled(lambda: here.left(server), 30 * report.slow)
            here.expect(not left, "half a minute after its server's end it waits no more", left)
    with Hung(report, program, "Slurm never answers", changes={'"$failures" -lt 100': '"$failures" -lt 1'}) as here:
        with here.serve(2) as server:
            here.stop()
            with Peer(server.ports[0], 100) as red:
                told = Told(red, here.action("sleep 4177", seconds=2))
            here.expect(told.status in (4, 13), "the action is no result", told)
            programs.settled(lambda: not here.logged(), 45 * report.slow)
            here.expect("does not answer" in here.logged(), "a line says so", here.logged())
            here.expect(not programs.settled(lambda: here.left(server), 30 * report.slow), "nothing waits for it", here.left(server))


def lost_job(here, server):
    """The number of a job whose launcher and srun are killed."""
    with Peer(server.ports[0], 100) as red:
        red.start(here.action("sleep 4177"))
        programs.settled(lambda: "sleep 4177" not in programs.running(here.folder).values(), 30)
        job = here.cluster.told("squeue", "--noheader", "--format=%i")[0]
        for pid in programs.children([server.process.pid]):
            with open(f"/proc/{pid}/cmdline", "rb") as file:
                is_launcher = os.fsencode(here.launcher) in file.read().split(bytes(1))
            if is_launcher:
                kill(pid)
    return job
