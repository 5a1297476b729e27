#!/usr/bin/env python3
"""many_servers.py PROGRAM [--teams N] [--slurm] [--uploaders N] [--megabytes N]: servers of several hosts, one HAProxy.

PROGRAM is the built `remoted`. Three hosts, which are namespaces of network, have a server each, among which the teams
are spread (20 of them). HAProxy with deploy/haproxy-teams.cfg sends each to its own by its certificate. A team is added
and another one moved while the others make calls, each on the connection that it has: none of these calls fails. Then N
teams (6) upload N megabytes each (120), once with all teams on one server and once on three: MB/s. With --slurm three
servers, with a slot for each team, have their actions run by one Slurm cluster on this host. A line for each thing that
holds; it ends with status 1 at the first that does not. It needs root; Debian: haproxy, openssl, iproute2; for --slurm
slurm-wlm and munge.
"""

import argparse
import contextlib
import multiprocessing
import os
import pathlib
import sys
import tempfile
import threading
import time

import messages as m
from executing import Action, Peer
from many_hosts import Client, Host, Proxy, certificates, enter
from server import Server
from slurm_cluster import Cluster, launcher
from watched import expect

FIRST_PORT = 9000
# How long a call of a team may take while others come and move, on a busy machine.
LONGEST = 1.0


def store(client, blob):
    (answer,), status = client.call(m.BATCH_UPDATE, m.batch_update("", [blob]))
    return status[0] == 0 and not m.first(m.first(answer, 1), 2)


def missing(client, blobs):
    """How many of these blobs are not there."""
    (answer,), status = client.call(m.FIND_MISSING, m.find_missing("", [m.digest(blob) for blob in blobs]))
    return len(m.every(answer, 2)) if status[0] == 0 else -1


def only(team):
    """The blob that this team alone has."""
    return f"what only {team} has".encode()


class Neighbour(threading.Thread):
    """A team that goes on with its calls, on one connection. It finds what it stores, and nothing of another team's."""

    def __init__(self, folder, team, another):
        super().__init__(daemon=True)
        self.client, self.team, self.another = Client(folder, team), team, only(another)
        self.count, self.longest, self.fault, self.is_over = 0, 0.0, None, False

    def run(self):
        try:
            while not self.is_over:
                began = time.monotonic()
                blob = f"{self.team} {self.count}".encode()
                if not store(self.client, blob) or missing(self.client, [blob, only(self.team), self.another]) != 1:
                    raise ValueError("an answer is wrong")
                self.count, self.longest = self.count + 1, max(self.longest, time.monotonic() - began)
                time.sleep(0.02)
        except (OSError, ValueError, SystemExit) as fault:
            self.fault = fault

    def end(self):
        self.is_over = True
        self.join(20)
        return self.fault is None and self.count > 0


def spread(teams, hosts):
    """The teams of each host with their ports."""
    found = [{} for _ in hosts]
    for number, team in enumerate(teams):
        found[number % len(hosts)][team] = FIRST_PORT + number
    return found


def begin(program, folder, teams, hosts):
    """A server on each host, and the places of all teams."""
    places = {}
    for host, instances in zip(hosts, spread(teams, hosts)):
        host.serve(program, f"{folder}/work-{host.name}-{len(host.servers)}", instances)
        places |= {team: f"{host.address}:{port}" for team, port in instances.items()}
    return places


def each_to_its_own(folder, teams):
    clients = {team: Client(folder, team) for team in teams}
    expect(all(store(clients[team], only(team)) for team in teams), f"each of {len(teams)} teams stores a blob")
    every = [only(team) for team in teams]
    own = all(missing(clients[team], [only(team)]) == 0 for team in teams)
    others = all(missing(clients[team], every) == len(teams) - 1 for team in teams)
    expect(own and others, "each finds its own, and none of another's, over the connections that all share")
    for client in clients.values():
        client.close()
    stranger = Client(folder, "stranger")
    _, status = stranger.call(m.CAPABILITIES, m.capabilities(""))
    expect(status is not None and status[0] != 0, "a certificate of the authority whose team has no place is refused")


def added_and_moved(program, folder, teams, hosts, proxy):
    """A team more, and a team elsewhere, beside neighbours who notice nothing."""
    neighbours = [Neighbour(folder, team, another) for team, another in zip(teams[1:], teams)]
    for each in neighbours:
        each.start()
    time.sleep(1)
    hosts[1].serve(program, f"{folder}/work-added", {"added": 9500})
    proxy.place("added", f"{hosts[1].address}:9500")
    with Client(folder, "added") as client:
        expect(store(client, b"a new team's") and missing(client, [b"a new team's"]) == 0, "a team is added")
        proxy.forget("added")
        _, status = client.call(m.CAPABILITIES, m.capabilities(""))
        expect(status is not None and status[0] != 0, "and taken away: the next call of its connection is refused")
    with Client(folder, "team0") as client:
        expect(store(client, b"before"), "a team works where it is")
        hosts[2].serve(program, f"{folder}/work-moved", {"team0": 9501})
        proxy.place("team0", f"{hosts[2].address}:9501")
        expect(missing(client, [b"before"]) == 1, "its next call, on the same connection, is the new server's")
        expect(store(client, b"after") and missing(client, [b"after"]) == 0, "where it goes on, with an empty cache")
    time.sleep(1)
    ended = [each.end() for each in neighbours]
    faults = [(each.team, each.fault, each.count) for each in neighbours if each.fault or not each.count]
    expect(all(ended), f"no call of the {len(neighbours)} others failed or was another's", faults)
    longest = max(each.longest for each in neighbours)
    expect(longest < LONGEST, f"the slowest of {sum(each.count for each in neighbours)} took {longest * 1000:.0f} ms")


def upload(folder, team, count, ready, results):
    """Uploads so many blobs of three million bytes, and says when it began and ended."""
    client, noise = Client(folder, team), os.urandom(3_000_000 - 8)
    calls = [m.batch_update("", [number.to_bytes(8, "big") + noise]) for number in range(count)]
    ready.wait()
    began = time.monotonic()
    for call in calls:
        (answer,), status = client.call(m.BATCH_UPDATE, call)
        if status[0] or m.first(m.first(answer, 1), 2):
            raise SystemExit("an upload is refused")
    results.put((began, time.monotonic()))


def rate(folder, teams, megabytes):
    """Millions of bytes a second that these teams upload together."""
    ready, results = multiprocessing.Barrier(len(teams)), multiprocessing.Queue()
    count = max(1, megabytes // 3)
    loads = [multiprocessing.Process(target=upload, args=(folder, team, count, ready, results)) for team in teams]
    for each in loads:
        each.start()
    times = [results.get(timeout=300) for _ in loads]
    for each in loads:
        each.join()
    return len(teams) * count * 3 / (max(end for _, end in times) - min(begin for begin, _ in times))


def rates(program, folder, teams, hosts, asked):
    """Uploads to one server, and to three."""
    for chosen in [hosts[:1], hosts]:
        for host in hosts:
            host.end()
        proxy = Proxy(folder, begin(program, folder, teams, chosen))
        try:
            found = [rate(folder, teams[: asked.uploaders], asked.megabytes) for _ in range(3)]
        finally:
            proxy.end()
        what = "one server" if len(chosen) == 1 else f"{len(chosen)} servers"
        print(f"{what}: {sorted(found)[1]:.0f} MB/s of uploads of {asked.uploaders} teams together", flush=True)


def team_runs(port, team, count, found):
    """Has so many actions run, one after another, and keeps what each said."""
    with Peer(port) as peer:
        for _ in range(count):
            result = peer.execute(Action(f"sleep 0.5; echo {team}", do_not_cache=True)).result
            found.append(peer.stream_text(result.stdout).decode().strip() if result.code == 0 else "")


def on_one_cluster(program, teams, count=3):
    """The actions of teams of three servers, on the nodes of one cluster."""
    with tempfile.TemporaryDirectory(prefix="many-servers-") as folder, Cluster(folder, cpus=4) as cluster:
        with contextlib.ExitStack() as all_servers:
            places, launched = {}, launcher(cluster, folder)
            for number in range(3):
                own = teams[number::3]
                instances = [(team, 10**8, 1) for team in own]
                made = Server(program, instances, folder=f"{folder}/{number}", launcher=launched)
                places |= dict(zip(own, all_servers.enter_context(made).ports))
            found = {team: [] for team in teams}
            words = [(places[team], team, count, found[team]) for team in teams]
            threads = [threading.Thread(target=team_runs, args=each) for each in words]
            for each in threads:
                each.start()
            nodes, end = set(), time.monotonic() + 120
            while any(each.is_alive() for each in threads) and time.monotonic() < end:
                nodes |= {node for words in cluster.jobs() for node in words.split("|") if node}
                time.sleep(0.2)
        right = all(found[team] == [team] * count for team in teams)
        expect(right, f"{len(teams)} teams of three servers have {count} actions each run by one cluster", found)
        expect(nodes == {"one", "two"}, "on both of its nodes", nodes)


def main():
    parser = argparse.ArgumentParser(description=__doc__, formatter_class=argparse.RawDescriptionHelpFormatter)
    parser.add_argument("program")
    parser.add_argument("--teams", type=int, default=20)
    parser.add_argument("--uploaders", type=int, default=6)
    parser.add_argument("--megabytes", type=int, default=120)
    parser.add_argument("--slurm", action="store_true")
    asked = parser.parse_args()
    enter([sys.executable, *sys.argv])
    program, teams = str(pathlib.Path(asked.program).resolve()), [f"team{number}" for number in range(asked.teams)]
    with tempfile.TemporaryDirectory() as folder:
        hosts = [Host(number) for number in (1, 2, 3)]
        try:
            certificates(folder, [*teams, "added", "stranger"])
            proxy = Proxy(folder, begin(program, folder, teams, hosts))
            try:
                each_to_its_own(folder, teams)
                added_and_moved(program, folder, teams, hosts, proxy)
            finally:
                proxy.end()
            if asked.slurm:
                on_one_cluster(program, teams)
            rates(program, folder, teams, hosts, asked)
        finally:
            for host in hosts:
                host.end()


if __name__ == "__main__":
    main()
