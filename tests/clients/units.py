#!/usr/bin/env python3
"""units.py PROGRAM [--root FOLDER]: the units of deploy/ and the guides under systemd, by the commands that they print.

PROGRAM is the built `remoted`. In a fresh Debian, which debootstrap makes, systemd runs in namespaces of its own. There
each block of the sections on services is run as it is printed: one server for two teams, and then a server for each
team, with a login of its own. A team is added, another's quota changed, and a team removed, while the first team's blobs
stay and its server goes on. With --root the Debian is a copy of FOLDER, made by debootstrap with what clean_root.py names.
A line for each thing that holds; it ends with status 1 at the first that does not. It needs root; Debian: debootstrap,
systemd-container.
"""

import argparse
import pathlib
import re

from clean_host import Host, has, store
from clean_root import Machine, clean_root, copy_in
from executing import Action, Peer
from watched import expect, within

TOP = pathlib.Path(__file__).resolve().parents[2]
CHECKOUT = "checkout"
SYSTEM = "etc/systemd/system"
# Opens so many pipes, says how much the last one holds (F_GETPIPE_SZ), and keeps them until its input ends.
PIPES = """import fcntl, os, sys
held = [os.pipe() for _ in range(int(sys.argv[1]))]
print(fcntl.fcntl(held[-1][0], 1032), flush=True)
sys.stdin.read()"""
# What a pipe of red's and one of blue's hold while another process of red's has 1,100, which are over 64 MB.
PIPES_OF_TWO = f"""import resource, subprocess
resource.setrlimit(resource.RLIMIT_NOFILE, (4000, 4000))
kept = []
for team, count in [("red", 1100), ("red", 1), ("blue", 1)]:
    words = ["python3", "-c", {PIPES!r}, str(count)]
    kept += [subprocess.Popen(words, user="remoted-" + team, stdin=-1, stdout=-1, text=True)]
    print(kept[-1].stdout.readline().strip())"""


def blocks(heading, guide="DEPLOYING", language="sh"):
    """The blocks of a language between a heading of a guide and the next one."""
    text = (TOP / f"docs/{guide}.md").read_text().split(f"# {heading}\n")[1]
    section = re.split(r"^#+ ", text, maxsplit=1, flags=re.MULTILINE)[0]
    return re.findall(rf"^```{language}\n(.*?)^```$", section, re.MULTILINE | re.DOTALL)


def one_server(host):
    """One server for two teams."""
    (block,) = blocks("The service")
    host.run(block)
    without_fault(host, "remoted.service")
    store(8980, b"red's")
    expect(has(8980, b"red's") and not has(8981, b"red's"), "both teams are served, each for itself")
    limits = host.machine.inside("cat", f"/proc/{host.main_process('remoted')}/limits").stdout
    found = re.search(r"Max address space +(\d+)", limits)
    expect(found and int(found.group(1)) == 24 * 2**30, "with the unit's limit of memory")
    checked_each_minute(host)
    host.systemctl("disable", "--now", "remoted")
    host.unit_is("remoted", "inactive")
    result = host.systemctl("show", "--value", "--property=Result,ExecMainStatus", "remoted").split()
    expect(result == ["success", "0"], "it ends with status 0 and was not killed", result)
    expect(not host.has_file("/run/remoted"), "its folder below /run is gone")


def without_fault(host, unit):
    done = host.machine.inside("systemd-analyze", "verify", unit)
    expect(done.returncode == 0 and not done.stderr, f"systemd-analyze finds no fault in {unit}", done.stderr)


def checked_each_minute(host):
    """The service and the timer of WATCHING."""
    for text, kind in zip(blocks("A check", "WATCHING", "ini"), ["service", "timer"]):
        host.write(f"{SYSTEM}/remoted-check.{kind}", text)
    host.systemctl("daemon-reload")
    host.systemctl("start", "remoted-check.timer")
    host.unit_is("remoted-check.timer", "active")
    result = host.machine.inside("systemctl", "start", "remoted-check.service").returncode
    expect(result == 0, "the check of each minute is content")
    host.systemctl("stop", "remoted-check.timer")


def with_slots(host):
    """The unit with slots that DEPLOYING prints, as a drop-in."""
    (block,) = blocks("A unit with slots", language="ini")
    text = block.replace("ExecStart=", "ExecStart=\nExecStart=", 1).replace("sleep 30", "sleep 1")
    host.write(f"{SYSTEM}/remoted.service.d/slots.conf", text)
    host.systemctl("daemon-reload")
    host.systemctl("start", "remoted")
    host.answers(8980)
    ran(host, 8980, "id -un", b"remoted\n", "with slots a program runs as the server's user")
    host.systemctl("stop", "remoted")
    host.unit_is("remoted", "inactive")


def ran(host, port, script, wanted, what):
    with Peer(port) as peer:
        done = peer.execute(Action(script, do_not_cache=True))
        found = done.result and (done.result.code, peer.stream_text(done.result.stdout))
        said = host.machine.inside("journalctl", "--no-pager", "--lines=5").stdout
        expect(found == (0, wanted), what, found or said)


def a_server_for_each(host):
    """A server for each team, and what each of them notices of the other's changes: nothing."""
    first, another, other_quota, _ = blocks("A server for each team")
    host.run(first)
    without_fault(host, "remoted@red.service")
    store(8980, b"red's")
    red = host.main_process("remoted@red")
    limits = host.machine.inside("cat", f"/proc/{red}/limits").stdout
    expect(int(re.search(r"Max address space +(\d+)", limits).group(1)) == 3_500_000_000, "MEMORY bounds it")
    host.run(another)
    store(8981, b"blue's")
    blue = host.main_process("remoted@blue")
    host.run(other_quota)
    expect(not has(8981, b"blue's"), "blue's cache is empty after its change")
    figures = host.machine.inside("cat", "/run/remoted-blue/remoted.prom").stdout
    expect(re.search(r"^remoted_quota_bytes\{.*\} 500000000$", figures, re.MULTILINE), "blue has its new quota")
    expect(has(8980, b"red's"), "and red's is what it was")
    same = host.main_process("remoted@red") == red and host.main_process("remoted@blue") != blue
    expect(same, "red's server is the same process, and blue's another one")
    two_logins(host)


def two_logins(host):
    """The servers of two teams run as two users, and neither user reaches the other's server."""
    numbers = {team: host.main_process(f"remoted@{team}") for team in ["red", "blue"]}
    for team, number in numbers.items():
        owner = host.machine.inside("stat", "--format=%U:%G", f"/proc/{number}").stdout.strip()
        expect(owner == f"remoted-{team}:remoted-{team}", f"{team}'s server runs as a login of its own", owner)
        modes = [f"/run/remoted-{team}", f"/var/lib/remoted-{team}", f"/etc/remoted/{team}.conf"]
        found = host.machine.inside("stat", "--format=%U %a", *modes).stdout.splitlines()
        wanted = [f"remoted-{team} 755", f"remoted-{team} 755", "root 644"]
        expect(found == wanted, "which has its folders, and not the team's file", found)
        figures = said_as(host, "nobody", f"cat /run/remoted-{team}/remoted.prom")
        expect(figures.returncode == 0 and "remoted_blobs" in figures.stdout, "others can read the figures", figures.stderr)
        signal = said_as(host, f"remoted-{team}", f"kill -0 {number}")
        expect(signal.returncode == 0, "it may send itself a signal", signal.stderr)
    for team, other in [("red", "blue"), ("blue", "red")]:
        signal = said_as(host, f"remoted-{team}", f"kill -0 {numbers[other]}")
        refused = signal.returncode and "Operation not permitted" in signal.stderr
        expect(refused, f"{team}'s login may send {other}'s server no signal", signal.stderr)
        for name in ["mem", "environ"]:
            read = said_as(host, f"remoted-{team}", f"head -c 1 /proc/{numbers[other]}/{name}")
            refused = read.returncode and "Permission denied" in read.stderr
            expect(refused, f"nor read its /proc/PID/{name}", read.stderr)
        written = said_as(host, f"remoted-{team}", f"touch /run/remoted-{other}/stop /var/lib/remoted-{other}/a")
        expect(written.stderr.count("Permission denied") == 2, "nor write into its folders", written.stderr)
    found = host.machine.inside("python3", "-c", PIPES_OF_TWO)
    wanted = ["8192", "8192", "65536"]
    expect(found.stdout.split() == wanted, "red's many pipes make red's small, and not blue's", found)


def said_as(host, user, script):
    return host.machine.inside("runuser", "-u", user, "--", "env", "LC_ALL=C", "bash", "-c", script)


def what_else_is_said(host):
    """A team without a login, a taken port, a parent, slots, and the end of a team."""
    host.write("etc/remoted/green.conf", "INSTANCES=green:8980:1000:0\nMEMORY=unlimited\nOPTIONS=\n")
    host.systemctl("start", "remoted@green")
    told = lambda: "status=217/USER" in host.machine.inside("journalctl", "-u", "remoted@green").stdout
    expect(within(20, told), "a team without a login has no server, and the journal says so")
    host.systemctl("stop", "remoted@green")
    host.systemctl("reset-failed", "remoted@green")
    host.run(blocks("A team more", "OUTGROWING")[0].splitlines()[0])
    host.systemctl("start", "remoted@green")
    said = lambda: "cannot listen on 8980" in host.machine.inside("journalctl", "-u", "remoted@green").stdout
    expect(within(20, said), "a server whose port is taken does not begin, and says so")
    host.systemctl("stop", "remoted@green")
    expect(has(8980, b"red's"), "and red's notices nothing")
    parent = "INSTANCES=ci:8982:1000000:0 dev:8983:1000000:1:ci\nMEMORY=unlimited\n"
    parent += "OPTIONS=--launcher /usr/local/lib/remoted/sandbox --made-trees 20G --listen 127.0.0.1\n"
    host.write("etc/remoted/green.conf", parent)
    slots = (TOP / "deploy/slots.conf").read_text()
    host.write(f"{SYSTEM}/remoted@green.service.d/slots.conf", slots.replace("sleep 30", "sleep 1"))
    host.systemctl("daemon-reload")
    host.systemctl("start", "remoted@green")
    host.unit_is("remoted@green", "active")
    host.answers(8983)
    store(8982, b"ci's")
    expect(has(8983, b"ci's"), "an instance and its parent stand in one file")
    ran(host, 8983, "pwd && test ! -e /etc/remoted", b"/work\n", "in the sandbox no file of the host's is")
    ended_by_an_operator(host)
    a_team_goes(host)
    left = said_as(host, "remoted-green", "echo left >/dev/shm/left")
    expect(left.returncode == 0, "a login leaves memory that is shared", left.stderr)
    host.systemctl("stop", "remoted@*")
    for team in ["red", "blue", "green"]:
        host.unit_is(f"remoted@{team}", "inactive")
    expect(not host.has_file("/dev/shm/left"), "and it goes with the login's server")


def a_team_goes(host):
    """All of a team is removed, and another one notices nothing."""
    host.run(blocks("A server for each team")[-1])
    users = host.machine.inside("getent", "passwd").stdout + host.machine.inside("getent", "group").stdout
    expect("remoted-red:" in users and "remoted-blue:" not in users, "blue's login is gone", users)
    places = ["/etc/remoted/blue.conf", "/var/lib/remoted-blue", "/run/remoted-blue"]
    left = [path for path in places if host.has_file(path)]
    expect(not left, "and its files", left)
    expect(has(8980, b"red's"), "and red's notices nothing")


def ended_by_an_operator(host):
    """Root ends a job of a team's server, by the block of WATCHING."""
    (block,) = blocks("To end jobs", "WATCHING")
    with Peer(8983) as peer:
        action = Action("sleep 600")
        peer.store(action.blobs)
        number = peer.start(action, is_stored=True)
        host.run(block.replace("red abandoned", "dev").replace("/run/remoted/", "/run/remoted-green/"))
        (*_, done) = peer.operations(number)
        expect((done.status.code, done.status.text) == (13, "run failed"), "a job is ended by the file of the unit")


def main():
    parser = argparse.ArgumentParser(description=__doc__, formatter_class=argparse.RawDescriptionHelpFormatter)
    parser.add_argument("program")
    parser.add_argument("--root")
    asked = parser.parse_args()
    with clean_root(asked.root) as root:
        for name in ["deploy", "launchers"]:
            copy_in(root, TOP / name, f"{CHECKOUT}/{name}")
        copy_in(root, asked.program, f"{CHECKOUT}/build/remoted")
        with Machine(root) as machine:
            host = Host(machine, f"/{CHECKOUT}")
            machine.join_network()
            one_server(host)
            with_slots(host)
            a_server_for_each(host)
            what_else_is_said(host)


if __name__ == "__main__":
    main()
