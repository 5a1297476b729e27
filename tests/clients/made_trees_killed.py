"""What `made_trees.py` has left where the server, its helpers or launchers are killed while trees are made and bound."""

import contextlib
import os
import random
import signal
import threading
import time

import killing
import programs
from execution_context import expect
from made_tree_stages import counted, flat, toolchain
from server import is_tree

# What a server is killed in: the runs that are asked for, of which the last ones go on, and what is waited for before.
STEPS = ["noted", "making", "made", "bound", "removed"]


def begun(stage, server, red, step, turn):
    """Has a server with room for one tree come to a step, at which it is to be killed."""
    one, two = flat(f"{stage.folder}1-{turn}", 2_000, 1_000), flat(f"{stage.folder}2-{turn}", 2_000, 1_000)
    ask = lambda tree, then="sleep 60": red.start(stage.action(then, tree={"tc": tree}))
    names = lambda: {name for name in server.entries() if is_tree(name)}
    if step == "noted":
        ask(one)
        return
    stage.looked(red, {"tc": one})
    if step == "making":
        for _ in range(3):
            ask(one)
        stage.waits(names, 30, "a tree is begun")
        return
    stage.made(red, {"tc": one})
    if step == "bound":
        ask(one)
    if step == "removed":
        stage.looked(red, {"tc": two})
        before = names()
        first = [os.path.join(server.start(), name, "f0") for name in before]
        ask(two, "true"), ask(two, "true")
        stage.waits(lambda: names() != before or not all(map(os.path.exists, first)), 30, "it goes")


def server_killed(stage):
    """The server is killed at each step of a tree, four times, and started again."""
    stage.needs_trees()
    size = counted(flat(0, 2_000, 1_000)) * 5 // 4
    for turn in range(4):
        for step in STEPS:
            with stage.serve(size) as (server, red):
                begun(stage, server, red, step, turn)
                time.sleep(random.uniform(0, 0.1) * turn)
                first = server.start()
                stage.stop(server, signal.SIGKILL)
            stage.end_programs()
            with stage.serve(size) as (server, red):
                stage.former_removed(server, red, first)
                stage.made(red, {"tc": flat(0, 100)})
                stage.settles(server, 1)
                stage.blue_runs(server)
    return f"{', '.join(STEPS)}: the next start removes all, and makes trees of its own"


def launcher_killed(stage):
    """Launchers are killed while they bind a tree, at random moments, and while a program has it."""
    one, two = toolchain(f"{stage.folder}1"), toolchain(f"{stage.folder}2")
    failed = 0
    with stage.serve(counted(one) * 3 // 2) as (server, red):
        stage.made(red, {"tc": one})
        for turn in range(24):
            number = red.start(stage.action("sleep 0.2", tree={"tc": one}))
            look = lambda: killing.launchers(server, stage.way.launcher)
            programs.settled(lambda: not look(), 5)  # where none is seen, the run has ended by itself
            time.sleep(random.uniform(0, 0.3) * (turn % 4) / 3)
            for each in look():
                killing.kill(each)
            done = red.operations(number)[-1]
            expect(done.status.code in (0, 13), True, f"status {done.status.code}")
            failed += done.status.code == 13
            expect(stage.looked(red, {"tc": one}), stage.bound("tc"), "what is bound for the next action")
        stage.settles(server, 1)
        # Were it still in use, there would be no room for another one.
        expect(stage.made(red, {"tc": two}) < 12, True, "another one is made then")
        stage.settles(server, 1)
        stage.blue_runs(server)
    expect(failed > 4, True, f"{failed} runs failed of 24")
    return f"{failed} of 24 runs failed, none left the tree in use, and each next action read all of it"


def helpers_killed(stage):
    """All shells of the server's are killed again and again while trees are made, bound and removed."""
    trees = [flat(f"{stage.folder}{number}", 300, 1_000) for number in range(3)]
    killed, is_over = 0, threading.Event()

    def kill(server):
        nonlocal killed
        while not is_over.wait(0.05):
            for helper in programs.shells(stage.folder, server.process.pid):
                killed += killing.kill(helper)

    with stage.serve(counted(trees[0]) * 3 // 2) as (server, red):
        killer = threading.Thread(target=kill, args=[server])
        killer.start()
        try:
            for turn in range(12):
                for tree in trees[: 1 + turn % 3]:
                    with contextlib.suppress(KeyError):
                        stage.looked(red, {"tc": tree, "n": b"%d" % turn})
            took = stage.blue_runs(server)
        finally:
            is_over.set()
            killer.join()
        stage.made(red, {"tc": trees[0]})
        stage.settles(server, 1)
    return f"killed {killed} times, all inputs are there, and all folders go: blue's action took {took:.1f} s"


def stopped_by_a_signal(stage):
    """The server ends by SIGTERM while a tree is made, and while it is bound."""
    tree = flat(stage.folder, 2_000, 1_000)
    for step in ("making", "bound"):
        with stage.serve() as (server, red):
            stage.looked(red, {"tc": tree})
            for _ in range(3):
                red.start(stage.action("sleep 60", tree={"tc": tree}))
            before = lambda: any(is_tree(name) for name in server.entries()) or stage.is_off
            stage.waits(before, 30, "a tree is begun")
            time.sleep(1 if step == "bound" else 0)
            first = server.start()
            stage.stop(server, signal.SIGTERM)
        stage.end_programs()
        with stage.serve() as (server, red):
            stage.former_removed(server, red, first)
            stage.made(red, {"tc": tree})
            stage.settles(server, 1)
    return "the next start removes all"


CASES = [server_killed, launcher_killed, helpers_killed, stopped_by_a_signal]
