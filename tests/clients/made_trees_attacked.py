"""What programs try to do to a tree in `made_trees.py`, as root and as a plain user."""

import os
import re

from execution_context import expect
from executing import Peer
from made_tree_attacks import ATTACKS, LEFT
from made_tree_stages import another, toolchain
from teams import PYTHON


def state(folder):
    """All of a folder, with what would tell of any change: numbers, modes, links, sizes and times, and texts."""
    found = {}
    for above, folders, files in os.walk(folder):
        for name in [".", *folders, *files]:
            path = os.path.join(above, name)
            seen = os.lstat(path)
            is_file = name in files and not os.path.islink(path)
            text = open(path, "rb").read() if is_file else os.readlink(path) if os.path.islink(path) else None
            found[path] = (seen.st_ino, seen.st_mode, seen.st_nlink, seen.st_uid, seen.st_mtime_ns, seen.st_ctime_ns, text)
    return found


def whole(stage, server, red, tree, before):
    """The tree is as it was, on the disk and for the next action."""
    if stage.is_off:
        return
    folders = stage.trees(server)
    expect(len(folders), 1, "folders of trees")
    after = state(folders[0])
    expect({path for path in {*before, *after} if before.get(path) != after.get(path)}, set(), "what has changed")
    expect(stage.looked(red, {"tc": tree}), ["tc"], "what is bound for the next action")


def made(stage, server, red, tree):
    stage.made(red, {"tc": tree})
    return {} if stage.is_off else state(stage.trees(server)[0])


def tried_all(stage):
    """A program tries to change the tree that it has, by each call and each path that it knows."""
    stage.needs_trees()
    tree = toolchain(stage.folder)
    with stage.serve() as (server, red):
        before = made(stage, server, red, tree)
        result = stage.runs(red, [PYTHON, "-c", ATTACKS], tree={"tc": tree})
        said = red.stream_text(result.stdout).decode()
        count = int(re.match(r"(\d+) tries", said)[1])
        expect(said, f"{count} tries; could: []\n", "what it could")
        whole(stage, server, red, tree, before)
        stage.blue_runs(server)
    return f"none of {count} ways goes, and the tree is as it was, to the time of each file"


def by_commands(stage):
    """Programs of the shell try it, with what stands above the tree, too."""
    tree = toolchain(stage.folder)
    script = """cd /work; d=a/tc; (echo x >$d/bin/f8) && echo wrote; (echo x >>$d/new) && echo made
        cp /etc/passwd $d/bin/f8 && echo copied; dd if=/dev/zero of=$d/bin/f8 count=1 conv=notrunc && echo filled
        rm -rf $d; [ ! -e $d/bin/f8 ] && echo removed; mv $d gone && echo moved; mv a/tc/bin a/bin && echo moved
        chmod -R 777 $d && echo chmod; touch $d/bin/f8 && echo touched; ln $d/bin/f8 l && echo linked
        sed -i s/8/9/ $d/bin/f8 && echo edited; tar cf - a | tar xf - -C a/tc && echo unpacked
        mkdir own && mount --bind own $d && echo bound; umount $d && echo taken; unshare -Ur true && echo namespace
        mv a b && mv b a && [ -e a/tc/bin/f8 ] || echo lost
        cp -r $d copy && chmod -R 777 copy && echo x >copy/bin/f8; cp -al $d/bin linked && echo linked; true"""
    with stage.serve() as (server, red):
        before = made(stage, server, red, tree)
        result = stage.runs(red, script, tree={"a": {"tc": tree}})
        said = red.stream_text(result.stdout).decode()
        if not stage.is_off:
            expect(said, "", f"what they could ({red.stream_text(result.stderr)[-300:]})")
        whole(stage, server, red, tree, before)
        stage.nothing_left(server, 20, lambda name: "-184467440" in name)
    return "nothing there is changed, also where the directory above is renamed; a copy can be written"


def left_process(stage):
    """A process is left when its program has ended, and goes on trying."""
    tree = toolchain(stage.folder)
    with stage.serve() as (server, red):
        before = made(stage, server, red, tree)
        for _ in range(4):
            result = stage.runs(red, [PYTHON, "-c", LEFT], tree={"tc": tree}, files=["said"])
            expect(result.files, {}, "outputs")
        whole(stage, server, red, tree, before)
        stage.nothing_left(server, 20, lambda name: "-184467440" in name)
    return "it ends with its program, and the tree is as it was"


def outputs_of_links(stage):
    """A program leads outputs into the tree by links, and names it by the path that it has on the host."""
    tree = toolchain(stage.folder)
    script = """ln -s tc/bin o; ln -s ../tc d/l; path=$(sed -n 's|^[0-9]* [0-9]* [0-9:]* \\([^ ]*\\) /work/tc .*|\\1|p' \
        /proc/self/mountinfo); ls -A "$path" && echo seen; ls -A /proc/1/root"$path" && echo seen; ln -s "$path" p; true"""
    with stage.serve() as (server, red):
        before = made(stage, server, red, tree)
        more = {"files": ["o/f8", "p/bin/f8", "d/l/bin/f8"], "directories": ["d/m"]}
        done = red.execute(stage.action(f"{script}; rmdir o p; ln -s tc/bin o", tree={"tc": tree}, **more))
        files = done.result.files if done.result else {}
        expect(set(files) - {"o/f8"}, set(), "outputs")
        said = red.stream_text(done.result.stdout) if done.result and not stage.is_off else b""
        expect(said, b"", "what it sees by the path of the host")
        whole(stage, server, red, tree, before)
    return "nothing is found by them"


def of_another(stage):
    """Blue's programs look for red's tree, and red's try to have it removed with their folder."""
    tree = toolchain(stage.folder)
    with stage.serve() as (server, red), another(server, 1) as blue:
        before = made(stage, server, red, tree)
        if not stage.is_off:
            path = stage.trees(server)[0]
            look = f"ls -A {path} ../{os.path.basename(path)} /proc/1/root{path}; grep -c {path} /proc/self/mountinfo"
            done = blue.execute(stage.action(look, tree={"tc": tree}))
            expect(blue.stream_text(done.result.stdout), b"0\n", "what blue's program finds of it")
        for number in range(5):
            stage.runs(red, f"mkdir -p m/{number}/d; mv tc m/; cd m; ln -s ../tc l; chmod 0 {number}", tree={"tc": tree})
        stage.nothing_left(server, 20, lambda name: "-184467440" in name)
        whole(stage, server, red, tree, before)
    return "no other team sees it, and folders are removed without it"


CASES = [tried_all, by_commands, left_process, outputs_of_links, of_another]
