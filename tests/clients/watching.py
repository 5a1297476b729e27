#!/usr/bin/env python3
"""watching.py PROGRAM [--only PART ..]: what an operator sees of a server, and how it is stopped.

PROGRAM is the built `remoted`. Parts: `figures` has known calls made of two instances, and compares each figure with
what the callers counted; `prometheus` has node_exporter and Prometheus of Debian read them, and asks for the hit
rate, and each query of the dashboard and of the alerts is asked over a server with traffic (`dashboard`);
`unwritable` is a FILE that cannot be written; `hostile` has another user of the host put links, FIFOs, folders and
files in the way of the files of --metrics and --stop, and `full` fills their disk (both beside a team that goes on
being served; parts of them need root); `notices` are lines on standard error, each after what it tells of; `flood`
has blobs dropped in each second; `vanished` has the system look after clients that say nothing (`ss` of iproute2);
`check` in each of its ends; `stop` ends a server while an action runs, and as the unit of deploy/ does; `listen`
serves on other addresses. A line for each thing that holds; it ends with status 1 at the first that does not. Debian:
prometheus, prometheus-node-exporter, python3-grpcio.
"""

import argparse
import collections
import contextlib
import hashlib
import json
import os
import pathlib
import shutil
import socket
import subprocess
import tempfile
import time
import urllib.parse
import urllib.request

import messages as m
from checking_and_stopping import check, listen, stop
from executing import EXECUTE, GET_RESULT, Action, Operation, Peer
from hostile_watching import full, hostile
from server import free_ports
from watched import DEPLOY, UPDATE_RESULT, Watched, expect, figures_of, key, within

CODES = """OK CANCELLED UNKNOWN INVALID_ARGUMENT DEADLINE_EXCEEDED NOT_FOUND ALREADY_EXISTS PERMISSION_DENIED
    RESOURCE_EXHAUSTED FAILED_PRECONDITION ABORTED OUT_OF_RANGE UNIMPLEMENTED INTERNAL UNAVAILABLE DATA_LOSS
    UNAUTHENTICATED""".split()
DROPPED = "remoted: red: blobs dropped, the youngest used 0 s before, raise QUOTA: "
LONG_MESSAGES = "uploads refused, their messages have more than 4194304 bytes"
LARGER = "uploads refused, larger than the quota of 1000 bytes, raise QUOTA"
TOGETHER = "uploads refused, alone or together larger than the quota of 1000 bytes, raise QUOTA or have fewer at once"
ALWAYS = ["GetActionResult", "Execute", "Read", "Write"]


class Counted(Peer):
    """A connection that counts its calls as the server should."""

    def __init__(self, port, instance, counts):
        super().__init__(port)
        self.instance, self.counts = instance, counts

    def call(self, path, *messages):
        answers, status = super().call(path, *messages)
        method = path.rpartition("/")[2]
        named = {"instance": self.instance, "method": method}
        self.counts[key("calls_total", status=CODES[status[0]], **named)] += 1
        self.counts[key("received_bytes_total", **named)] += sum(map(len, messages))
        # Of Read the bytes of blobs count, without the head of each message.
        parts = [m.first(each, 10) for each in answers] if path == m.READ else answers
        self.counts[key("sent_bytes_total", **named)] += sum(map(len, parts))
        return answers, status

    def executed(self, action):
        """The last Operation of an action, whose texts are stored."""
        answers, status = self.call(EXECUTE, m.field(6, action.digest))
        return Operation(answers[-1]) if answers else status


def read_when_new(path, moment):
    """The figures of a file once it was written after a moment, by the clock of the host."""
    fresh = within(25, lambda: path.exists() and path.stat().st_mtime > moment)
    expect(fresh, "the file is written anew within 25 seconds")
    return figures_of(path)


def known_calls(peer):
    """Calls of the instance red, and what they leave."""
    small, large = os.urandom(100), os.urandom(300_000)
    absent = m.digest(b"absent")
    peer.call(m.CAPABILITIES, m.capabilities(""))
    peer.call(m.CAPABILITIES, m.capabilities("nobody"))
    peer.call(m.FIND_MISSING, m.find_missing("", [m.digest(small), absent]))
    peer.call(m.BATCH_UPDATE, m.batch_update("", [small]))
    name = m.write_name("1", hashlib.sha256(large).hexdigest(), len(large))
    halves = [m.write(name, 0, large[:150_000]), m.write(name, 150_000, large[150_000:], True)]
    peer.call(m.WRITE, *halves)
    peer.call(m.WRITE, m.write(m.write_name("2", hashlib.sha256(b"").hexdigest(), 10**8), 0, b"x"))
    peer.call(m.BATCH_READ, m.batch_read("", [m.digest(small), absent]))
    for blob in [small, large, b"absent"]:
        peer.call(m.READ, m.read(m.read_name(hashlib.sha256(blob).hexdigest(), len(blob))))
    result = m.field(2, m.field(1, "out") + m.field(2, m.digest(small)))
    peer.call(UPDATE_RESULT, m.field(2, m.digest(large)) + m.field(3, result))
    for action in [m.digest(large), m.digest(large), m.digest(large), absent]:
        peer.call(GET_RESULT, m.field(2, action))
    return {"blobs": 2, "blob_bytes": len(small) + len(large), "results": 1}


def known_actions(peer):
    """Actions of the instance blue, and how many ended how."""
    good, bad = Action("echo good > out", paths=["out"]), Action("exit 3")
    late, lost = Action("sleep 100", seconds=1), Action(["/no/such/program"])
    many = Action("mkdir out; cd out; seq 10001 | xargs touch", paths=["out"])
    for action in [good, bad, late, lost, many]:
        peer.store(action.blobs)
        peer.executed(action)
    expect(peer.executed(good).is_cached, "an action is answered from the cache")
    return {"succeeded": 1, "failed": 1, "timed_out": 1, "not_run": 2}


def of_instance(found, instance, names):
    return {name: found.get(key(name, instance=instance)) for name in names}


def by_label(found, family, label):
    """The samples of a family that are not 0, by one label."""
    return {dict(labels)[label]: value for (name, *labels), value in found.items() if name == family and value}


def compare_counts(found, counts):
    for instance in ["red", "blue"]:
        for method in ALWAYS:
            named = {"instance": instance, "method": method}
            counts[key("calls_total", status="OK", **named)] += 0
            counts[key("received_bytes_total", **named)] += 0
            counts[key("sent_bytes_total", **named)] += 0
        for method in ["Execute", "Write"]:
            counts[key("calls_total", instance=instance, method=method, status="RESOURCE_EXHAUSTED")] += 0
    counted = ("remoted_calls_total", "remoted_received_bytes_total", "remoted_sent_bytes_total")
    seen = {name: value for name, value in found.items() if name[0] in counted}
    pairs = {name: (seen.get(name), counts.get(name)) for name in {*seen, *counts}}
    differ = {name: pair for name, pair in pairs.items() if pair[0] != pair[1]}
    expect(not differ, "calls by method and status, and their bytes, are those that callers counted", differ)


def figures(program):
    with tempfile.TemporaryDirectory() as folder:
        path = pathlib.Path(folder, "remoted.prom")
        words = ["--metrics", str(path)]
        with Watched(program, [("red", 10**7), ("blue", 10**7, 2)], words) as server:
            started = time.time()
            counts = collections.Counter()
            with Counted(server.ports[0], "red", counts) as red, Counted(server.ports[1], "blue", counts) as blue:
                stored = known_calls(red)
                ended = known_actions(blue)
                faulty(server.ports[0])
                found = read_when_new(path, time.time() + 1)
            compare(found, counts, stored, ended)
            of_server(found, server, started)
            lint = subprocess.run(["promtool", "check", "metrics"], input=path.read_bytes(), capture_output=True)
            expect(lint.returncode == 0 and not lint.stderr, "promtool check metrics finds nothing", lint.stderr)
            expect(sorted(os.listdir(folder)) == ["remoted.prom"], "no other file is left")


def faulty(port):
    """Connections that end in other ways: one that the client closes, and one with a fault of HTTP/2."""
    for bytes_sent in [b"", b"PRI * HTTP/2.0\r\n\r\nSM\r\n\r\n\0\0\0\x04\0\0\0\0\0\0\0\x05\x06\0\0\0\0\0hello"]:
        with socket.create_connection(("127.0.0.1", port)) as connection:
            connection.sendall(bytes_sent)
            time.sleep(0.2)


def compare(found, counts, stored, ended):
    compare_counts(found, counts)
    wanted = {**stored, "quota_bytes": 10**7, "uploads": 0, "connections": 1, "connections_opened_total": 3}
    wanted |= {"connections_refused_total": 0, "connections_closed_silent_total": 0, "blobs_dropped_total": 0}
    wanted |= {"connections_closed_memory_total": 0, "connections_closed_client_total": 1, "events_cut_total": 0}
    wanted |= {"action_cache_hits_total": 3, "action_cache_misses_total": 1, "execute_hits_total": 0}
    seen = of_instance(found, "red", wanted)
    expect(seen == wanted, "the figures of a cache are those of its calls", (seen, wanted))
    faults = {name: value for name, value in found.items() if name[0] == "remoted_connections_closed_fault_total"}
    wanted = {key("connections_closed_fault_total", instance="red", code="FRAME_SIZE_ERROR"): 1}
    expect(faults == wanted, "a connection's fault is told by its code", faults)
    wanted = {"execute_hits_total": 1, "execute_queued_total": 5, "jobs_waiting": 0, "jobs_running": 0}
    seen = of_instance(found, "blue", wanted)
    expect(seen == wanted, "the figures of actions are those of its calls", (seen, wanted))
    seen = {how: found[key("jobs_ended_total", instance="blue", how=how)] for how in ended}
    expect(seen == ended, "actions ended as they should", (seen, ended))
    seen = by_label(found, "remoted_run_faults_total", "word")
    expect(seen == {"start": 1, "folder": 1}, "what runs failed by is told by its word", seen)
    seen = by_label(found, "remoted_refused_total", "cause")
    expect(seen == {"quota exceeded": 1}, "what a limit ended is told by its cause", seen)
    ran = found[key("jobs_ran_seconds_total", instance="blue")]
    expect(1 <= ran < 30, "the time that actions ran is told", ran)


def of_server(found, server, started):
    version = subprocess.run([server.program, "--version"], capture_output=True, text=True).stdout.split()[1]
    expect(found[key("build_info", version=version)] == 1, "the version is that of --version")
    expect(abs(found[key("start_time_seconds")] - started) < 10, "the start is when it was")
    expect(10**6 < found[key("resident_memory_bytes")] < 10**9, "memory is told")
    expect(found[key("turns_total")] > 0 and found[key("longest_turn_seconds")] < 10, "turns are told")
    stored = sum(found[key("blob_bytes", instance=instance)] for instance in ["red", "blue"])
    expect(found[key("pool_bytes")] >= stored, "texts in memory are at least those that are stored")


def ask_prometheus(port, query):
    text = urllib.parse.urlencode({"query": query})
    with urllib.request.urlopen(f"http://127.0.0.1:{port}/api/v1/query?{text}", timeout=5) as answer:
        return [float(each["value"][1]) for each in json.load(answer)["data"]["result"]]


@contextlib.contextmanager
def running(*words):
    process = subprocess.Popen(words, stdout=subprocess.DEVNULL, stderr=subprocess.DEVNULL)
    try:
        yield process
    finally:
        process.terminate()
        process.wait()


def prometheus(program):
    rules = subprocess.run(["promtool", "check", "rules", str(DEPLOY / "alerts.yml")], capture_output=True, text=True)
    expect(rules.returncode == 0 and "10 rules found" in rules.stdout, "promtool check rules passes", rules.stderr)
    one_of_two_is_gone()
    node, port = free_ports(2)
    with tempfile.TemporaryDirectory() as folder:
        textfiles, path = os.path.join(folder, "textfiles"), os.path.join(folder, "remoted.prom")
        os.mkdir(textfiles)
        other = os.path.join(folder, "other.prom")
        # As WATCHING has it.
        os.symlink(path, os.path.join(textfiles, "remoted.prom"))
        os.symlink(other, os.path.join(textfiles, "remoted-other.prom"))
        config = os.path.join(folder, "prometheus.yml")
        pathlib.Path(config).write_text(
            f"global: {{scrape_interval: 1s, evaluation_interval: 1s}}\nrule_files: [{DEPLOY}/alerts.yml]\n"
            f"scrape_configs: [{{job_name: node, static_configs: [{{targets: ['127.0.0.1:{node}']}}]}}]\n"
        )
        exporter = ["prometheus-node-exporter", "--collector.disable-defaults", "--collector.textfile"]
        exporter += [f"--collector.textfile.directory={textfiles}", f"--web.listen-address=127.0.0.1:{node}"]
        database = ["prometheus", f"--config.file={config}", f"--storage.tsdb.path={folder}/data"]
        database += [f"--web.listen-address=127.0.0.1:{port}"]
        with Watched(program, [("red", 10**7)], ["--metrics", path]) as server, running(*exporter), running(*database):
            with Counted(server.ports[0], "red", collections.Counter()) as red:
                known_calls(red)
            scraped(port)
            with Watched(program, [("red", 10**6)], ["--metrics", other]):
                told = within(30, lambda: len(quotas := ask_prometheus(port, "remoted_quota_bytes")) == 2 and quotas)
            expect(sorted(told or []) == [10**6, 10**7], "two servers of a host are told apart", told)
            expect(ask_prometheus(port, "remoted_build_info") == [1, 1], "by what is said of them as a whole, too")
            expect(ask_prometheus(port, "node_textfile_scrape_error") == [0], "and node_exporter finds no fault")


def queries():
    """What the dashboard asks, of all instances, and what the alerts ask."""
    panels = json.loads((DEPLOY / "grafana.json").read_text())["panels"]
    for panel in panels:
        for target in panel["targets"]:
            yield panel["title"], target["expr"].replace("$instance", ".*")


def traffic(red, blue, until):
    """Calls of each kind, some of which are refused, until a moment."""
    number = 0
    while time.monotonic() < until:
        number += 1
        red.call(m.FIND_MISSING, m.find_missing("red", [m.digest(b"%d" % number)]))
        red.call(m.BATCH_UPDATE, m.batch_update("red", [b"%0200d" % number]))
        known_calls(red)
        if number % 50 == 1:
            known_actions(blue)
        time.sleep(0.02)


def alerts_are_asked(port):
    """Prometheus asks for each alert without a fault, and the one on refused uploads is on."""
    with urllib.request.urlopen(f"http://127.0.0.1:{port}/api/v1/rules", timeout=5) as answer:
        (group,) = json.load(answer)["data"]["groups"]
    told = {rule["name"]: (rule["health"], rule["state"]) for rule in group["rules"]}
    expect(len(told) == 10 and all(health == "ok" for health, _ in told.values()), "all alerts are asked for", told)
    expect(told["RemotedUploadsRefused"][1] == "firing", "refused uploads are told", told)


def dashboard(program):
    """Each query of the dashboard answers over a server with traffic."""
    node, port = free_ports(2)
    with tempfile.TemporaryDirectory() as folder:
        textfiles, path = os.path.join(folder, "textfiles"), os.path.join(folder, "remoted.prom")
        os.mkdir(textfiles)
        os.symlink(path, os.path.join(textfiles, "remoted.prom"))
        config = os.path.join(folder, "prometheus.yml")
        pathlib.Path(config).write_text(
            f"global: {{scrape_interval: 1s, evaluation_interval: 1s}}\nrule_files: [{DEPLOY}/alerts.yml]\n"
            f"scrape_configs: [{{job_name: node, static_configs: [{{targets: ['127.0.0.1:{node}']}}]}}]\n"
        )
        exporter = ["prometheus-node-exporter", "--collector.disable-defaults", "--collector.textfile"]
        exporter += [f"--collector.textfile.directory={textfiles}", f"--web.listen-address=127.0.0.1:{node}"]
        database = ["prometheus", f"--config.file={config}", f"--storage.tsdb.path={folder}/data"]
        database += [f"--web.listen-address=127.0.0.1:{port}"]
        with Watched(program, [("red", 10**5), ("blue", 10**7, 2)], ["--metrics", path]) as server:
            with running(*exporter), running(*database), contextlib.ExitStack() as stack:
                counts = collections.Counter()
                peers = [Counted(each, name, counts) for each, name in zip(server.ports, ("red", "blue"))]
                red, blue = (stack.enter_context(peer) for peer in peers)
                traffic(red, blue, time.monotonic() + 40)
                for title, query in queries():
                    found = ask_prometheus(port, query)
                    expect(found and all(value == value for value in found), f"{title}: {query}", found)
                alerts_are_asked(port)


def one_of_two_is_gone():
    """Two servers, the file of one of which is gone from the sixth minute on: that is told, and of that one alone."""
    red, blue = ("/run/remoted-red/remoted.prom", "/run/remoted-blue/remoted.prom")
    series = [("remoted_build_info", "1x20"), (f'node_textfile_mtime_seconds{{file="{red}"}}', "0+60x20")]
    series += [(f'node_textfile_mtime_seconds{{file="{blue}"}}', "0+60x5")]
    summary = "A server is gone, or its figures are more than a minute old"
    gone = {"exp_labels": {"severity": "critical", "file": blue}, "exp_annotations": {"summary": summary}}
    wanted = [("4m", []), ("14m", [gone])]
    case = {
        "interval": "1m",
        "input_series": [{"series": name, "values": values} for name, values in series],
        "alert_rule_test": [
            {"eval_time": when, "alertname": "RemotedGone", "exp_alerts": alerts} for when, alerts in wanted
        ],
    }
    with tempfile.NamedTemporaryFile("w", suffix=".yml") as file:
        json.dump({"rule_files": [str(DEPLOY / "alerts.yml")], "tests": [case]}, file)
        file.flush()
        tried = subprocess.run(["promtool", "test", "rules", file.name], capture_output=True, text=True)
        expect(tried.returncode == 0, "of two servers the one that is gone is told", tried.stdout + tried.stderr)


def scraped(port):
    def asked(query):
        try:
            return ask_prometheus(port, query)
        except OSError:
            return []

    # Prometheus has a label `instance` of its own, and gives this one another name.
    hits, misses = "remoted_action_cache_hits_total", "remoted_action_cache_misses_total"
    rate = f'{hits}{{exported_instance="red"}} / ({hits} + {misses})'
    found = within(60, lambda: [value for value in asked(rate) if value == value])
    expect(found == [0.75], "Prometheus tells the hit rate, of 3 hits and 1 miss", found)
    expect(asked("time() - node_textfile_mtime_seconds < bool 60") == [1], "node_exporter tells the age of the file")
    expect(asked('ALERTS{alertname="RemotedGone"}') == [], "no alert is on")


def unwritable(program):
    with tempfile.TemporaryDirectory() as folder:
        path = pathlib.Path(folder, "later", "remoted.prom")
        with Watched(program, [("red", 10**6)], ["--metrics", str(path)], heard=True) as server:
            told = f"remoted: cannot write {path}: No such file or directory (os error 2)"
            expect(within(5, lambda: server.said()) == [told], "a file that cannot be written is a line", server.said())
            time.sleep(12)
            expect(server.said() == [told] and server.is_running(), "it is told once, and the server goes on")
            os.mkdir(path.parent)
            expect(within(15, path.exists), "once it can be written it is")


def hears(server, line):
    """A line on standard error, and only that since the last one that was wanted."""
    heard = within(5, lambda: server.said()[server.wanted :])
    expect(heard == [line], line, heard)
    server.wanted += 1


def notices(program):
    with Watched(program, [("red", 1_000)], [], heard=True) as server:
        server.wanted, port = 0, server.ports[0]
        faulty(port)
        hears(server, "remoted: red: connections closed for FRAME_SIZE_ERROR: 1")
        held = [Peer(port) for _ in range(64)]
        held[0].call(m.CAPABILITIES, m.capabilities(""))
        with socket.create_connection(("127.0.0.1", port)) as refused:
            expect(refused.recv(1) == b"", "a client more than 64 is closed")
        hears(server, "remoted: red: clients refused, 64 are connected, put a proxy before the port: 1")
        for peer in held[1:]:
            peer.close()
        peer = held[0]
        for number in range(65):
            # Each stays unfinished.
            name = m.write_name(f"{number}", hashlib.sha256(b"x" * 15).hexdigest(), 15)
            status = peer.call(m.WRITE, m.write(name, 0, b"x"))[1]
        expect(status[0] == 8, f"an upload more than 64 is refused: {status[1]}", status)
        hears(server, "remoted: red: uploads refused, 64 are unfinished, bound them in Bazel or in the proxy: 1")
        peer.close()
    with Watched(program, [("red", 1_000)], [], heard=True) as server, Peer(server.ports[0]) as peer:
        server.wanted = 0
        for number, line in [(2_000, LARGER), (1 << 22, LONG_MESSAGES)]:
            name = m.write_name(f"{number}", hashlib.sha256(b"").hexdigest(), number)
            status = peer.call(m.WRITE, m.write(name, 0, b"x" * number))[1]
            expect(status[0] == 8, f"an upload is refused: {status[1]}", status)
            hears(server, f"remoted: red: {line}: 1")
        name = m.write_name("first", hashlib.sha256(b"x" * 900).hexdigest(), 900)
        peer.call(m.WRITE, m.write(name, 0, b"x" * 800))
        name = m.write_name("second", hashlib.sha256(b"y" * 900).hexdigest(), 900)
        status = peer.call(m.WRITE, m.write(name, 0, b"y" * 800))[1]
        expect(status[0] == 8, f"two uploads together are more than the quota: {status[1]}", status)
        hears(server, f"remoted: red: {TOGETHER}: 1")
    with Watched(program, [("red", 1_000)], [], heard=True) as server, Peer(server.ports[0]) as peer:
        server.wanted = 0
        peer.store([os.urandom(400) for _ in range(3)])
        hears(server, DROPPED + "1")


def flood(program):
    """Blobs of one team are dropped in each second: two lines in a minute tell all of them, and the other has none."""
    instances = [("red", 1_000), ("blue", 10**6)]
    with Watched(program, instances, [], heard=True) as server:
        with Peer(server.ports[0]) as red, Peer(server.ports[1]) as blue:
            blue.store([b"blue's"])
            for _ in range(20):
                red.store([os.urandom(400) for _ in range(3)])
                time.sleep(1)
            expect(len(server.said()) == 1, "20 seconds of dropped blobs are one line", server.said())
            lines = within(60, lambda: len(server.said()) > 1 and server.said())
            counts = [int(line.removeprefix(DROPPED)) for line in lines]
            expect(len(counts) == 2 and sum(counts) == 1 + 19 * 3, "the next one, a minute later, tells the rest", lines)
            expect(blue.text(m.digest(b"blue's")) == b"blue's", "the other team has its blob")


def vanished(program):
    if not shutil.which("ss"):
        print("skipped: there is no ss")
        return
    with Watched(program, [("red", 10**6)], []) as server, Peer(server.ports[0]) as peer:
        peer.call(m.CAPABILITIES, m.capabilities(""))
        words = ["ss", "-tnoH", "state", "established", f"( sport = :{server.ports[0]} )"]
        asks = lambda: subprocess.run(words, capture_output=True, text=True, check=True).stdout
        # Before that the last answer has to be acknowledged.
        told = within(5, lambda: "timer:(keepalive," in asks())
        expect(told, "the system asks a silent client whether it is there", asks())


PARTS = [figures, prometheus, dashboard, unwritable, hostile, full, notices, flood, vanished, check, stop, listen]


def main():
    parser = argparse.ArgumentParser(description=__doc__, formatter_class=argparse.RawDescriptionHelpFormatter)
    parser.add_argument("program")
    parser.add_argument("--only", nargs="+", choices=[part.__name__ for part in PARTS])
    options = parser.parse_args()
    for part in PARTS:
        if not options.only or part.__name__ in options.only:
            print(f"-- {part.__name__}", flush=True)
            part(options.program)


if __name__ == "__main__":
    main()
