#!/usr/bin/env python3
"""package.py PROGRAM [--root FOLDER] [--image]: the package for Debian that tools/release makes of PROGRAM.

PROGRAM is the built `remoted`. In a fresh Debian, which debootstrap makes, the package is installed, first without and
then under systemd. A team is served by its unit, the package is upgraded beneath it, and removed. With --image buildah
makes an image of deploy/Containerfile, too, and its command is run. With --root the Debian is a copy of FOLDER, made by
debootstrap with what clean_root.py names. A line for each thing that holds; it ends with status 1 at the first that does
not. It needs root and git; Debian: debootstrap, systemd-container; for an image buildah and iproute2.
"""

import argparse
import json
import os
import pathlib
import re
import shlex
import subprocess
import sys
import tempfile

from clean_host import Host, has, store
from clean_root import Machine, clean_root, in_root
from watched import expect

TOP = pathlib.Path(__file__).resolve().parents[2]
TEAM = "/usr/share/doc/remoted/examples/team.conf"
COMPLETED = """. /usr/share/bash-completion/completions/remoted
COMP_WORDS=(remoted serve --me); COMP_CWORD=2; _remoted; echo "${COMPREPLY[@]}" """


def made_by_release(program, folder):
    """The package of the last commit."""
    clone = pathlib.Path(folder, "clone")
    subprocess.run(["git", "clone", "--quiet", "--local", TOP, clone], check=True)
    words = [clone / "tools/release", "--program", program, "--untagged", "--into", folder]
    subprocess.run(words, check=True, stdout=subprocess.DEVNULL)
    (made,) = pathlib.Path(folder).glob("*.deb")
    return made


def newer(package, folder):
    """The same package with a later version."""
    parts, later = os.path.join(folder, "parts"), os.path.join(folder, "later.deb")
    subprocess.run(["dpkg-deb", "-R", package, parts], check=True)
    control = pathlib.Path(parts, "DEBIAN/control")
    control.write_text(re.sub(r"^(Version: .*)$", r"\1+later", control.read_text(), flags=re.MULTILINE))
    subprocess.run(["dpkg-deb", "--root-owner-group", "-b", parts, later], check=True, stdout=subprocess.DEVNULL)
    return later


def without_systemd(root):
    """In a root where nothing runs, as while an image is made."""
    done = in_root(root, "dpkg", "-i", "/first.deb")
    expect(done.returncode == 0, "it is installed where no systemd runs", done.stderr)
    expect(in_root(root, "remoted", "--version").stdout.startswith("remoted "), "the program begins there")
    expect("remoted" in (root / "etc/passwd").read_text(), "there is the user remoted")
    done = in_root(root, "dpkg", "--purge", "remoted")
    expect(done.returncode == 0 and not (root / "usr/bin/remoted").exists(), "and it goes again", done.stderr)


def dpkg(host, *words):
    done = host.machine.inside("dpkg", *words, timeout=120)
    expect(done.returncode == 0, f"dpkg {words[0]} goes well", done.stderr)


def installed(host):
    dpkg(host, "-i", "/first.deb")
    expect(host.systemctl("is-active", "remoted") == "inactive", "nothing is begun by itself")
    page = host.machine.inside("zcat", "/usr/share/man/man1/remoted.1.gz").stdout
    expect('.SH "REMOTED SERVE"' in page, "there is a man page with the command serve")
    completed = host.machine.inside("bash", "-c", COMPLETED).stdout
    expect(completed == "--metrics\n", "bash completes an option", completed)
    if host.has_file("/usr/lib/remoted/sandbox-filters"):
        expect(host.has_file("/usr/lib/remoted/sandbox.allowed"), "the sandbox's filters are made")
    host.systemctl("start", "remoted")
    host.answers(8981)
    host.systemctl("stop", "remoted")


def upgraded(host):
    """A team goes on while the package changes beneath it, until it is restarted."""
    host.machine.inside("useradd", "--system", "--no-create-home", "remoted-red", check=True)
    host.machine.inside("cp", TEAM, "/etc/remoted/red.conf")
    host.systemctl("enable", "--now", "remoted@red")
    host.answers(8980)
    store(8980, b"red's")
    program = lambda: host.machine.inside("readlink", f"/proc/{host.main_process('remoted@red')}/exe").stdout.strip()
    before = host.main_process("remoted@red")
    dpkg(host, "-i", "/later.deb")
    expect(host.main_process("remoted@red") == before, "an upgrade leaves the server")
    expect(program() == "/usr/bin/remoted (deleted)", "which goes on with the old program")
    expect(has(8980, b"red's"), "and with its blobs")
    host.systemctl("restart", "remoted@red")
    host.answers(8980)
    expect(program() == "/usr/bin/remoted", "after a restart it is the new program")


def removed(host):
    dpkg(host, "-r", "remoted")
    host.unit_is("remoted@red", "inactive")
    left = [path for path in ["/usr/bin/remoted", "/usr/lib/remoted", "/usr/share/doc/remoted"] if host.has_file(path)]
    expect(not left, "the server has ended, and its files are gone", left)
    expect(host.has_file("/etc/remoted/red.conf"), "the team's file is there")
    dpkg(host, "--purge", "remoted")
    left = [path for path in ["/etc/remoted", "/var/lib/remoted-red"] if host.has_file(path)]
    expect(not left, "and goes with a purge, as its folder does", left)
    expect(host.machine.inside("id", "remoted-red").returncode == 0, "the team's login stays")


def image(root, package, folder):
    """The image that deploy/Containerfile says, and its command in a network of its own."""
    (context := pathlib.Path(folder, "image")).mkdir()
    subprocess.run(["tar", "-C", root, "-cf", context / "root.tar", "."], check=True)
    os.link(package, context / "remoted.deb")
    buildah = ["buildah", "--storage-driver=vfs", f"--root={folder}/store", f"--runroot={folder}/run"]
    said = lambda *words: subprocess.check_output([*buildah, *words], text=True, stderr=subprocess.PIPE).strip()
    said("build", "--isolation=chroot", "-f", TOP / "deploy/Containerfile", "-t", "remoted", context)
    container = said("from", "remoted")
    config = json.loads(said("inspect", "--type=image", "remoted"))["OCIv1"]["config"]
    expect(config["User"] == "remoted", "an image is made, whose user is the server's")
    command = shlex.join([*config["Entrypoint"], *config["Cmd"]])
    run = shlex.join([*buildah, "run", "--isolation=chroot", container, "--", "sh", "-c"])
    tried = f"{command} & until remoted check --port 8980; do sleep 0.2; done; kill $!; wait"
    script = f"ip link set lo up && {run} {shlex.quote(tried)}"
    done = subprocess.run(["unshare", "--net", "sh", "-c", script], capture_output=True, text=True, timeout=60)
    expect("remoted: 8980 answers" in done.stdout, "and its command serves", done.stderr)
    said("rm", container)


def main():
    parser = argparse.ArgumentParser(description=__doc__, formatter_class=argparse.RawDescriptionHelpFormatter)
    parser.add_argument("program", type=lambda path: str(pathlib.Path(path).resolve(strict=True)))
    parser.add_argument("--root")
    parser.add_argument("--image", action="store_true")
    asked = parser.parse_args()
    with tempfile.TemporaryDirectory() as folder, clean_root(asked.root) as root:
        first = made_by_release(asked.program, folder)
        if asked.image:
            image(root, first, folder)
        for name, path in [("first.deb", first), ("later.deb", newer(first, folder))]:
            (root / name).write_bytes(pathlib.Path(path).read_bytes())
        without_systemd(root)
        with Machine(root) as machine:
            host = Host(machine)
            machine.join_network()
            installed(host)
            upgraded(host)
            removed(host)


if __name__ == "__main__":
    sys.exit(main())
