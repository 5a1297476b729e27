"""Parts of watching.py: `remoted check` in each of its ends, the ways to end a server, and the addresses it serves."""

import contextlib
import os
import pathlib
import re
import socket
import subprocess
import tempfile
import threading
import time

import messages as m
from executing import EXECUTE, Action, Peer
from server import Server, free_ports
from watched import DEPLOY, Watched, expect, within


def answer_with(text, closes=True):
    """A port at which each client is sent a text."""
    listening = socket.socket()
    listening.bind(("127.0.0.1", 0))
    listening.listen()

    def serve():
        with contextlib.suppress(OSError):
            while True:
                connection, _ = listening.accept()
                connection.recv(1000)
                connection.sendall(text)
                if closes:
                    connection.close()
                else:
                    kept.append(connection)

    kept = []
    threading.Thread(target=serve, daemon=True).start()
    return listening


def checked(program, *words):
    done = subprocess.run([program, "check", *words], capture_output=True, text=True, timeout=60)
    return done.returncode, done.stdout, done.stderr


def check(program):
    def ends(words, status, errors="", output=""):
        found = checked(program, *words)
        expect(found == (status, output, errors), f"check {' '.join(words)}: {(output or errors).strip()}", found)

    with Server(program, [("red", 100), ("blue", 100, 1)], "endless") as server:
        for port, name in zip(server.ports, ["red", "blue"]):
            ends(["--port", str(port)], 0, "", f"remoted: {port} answers\n")
            ends(["--port", str(port), "--instance", name], 0, "", f"remoted: {port} answers\n")
        port = server.ports[0]
        ends(["--port", str(port), "--instance", "blue"], 4, f"remoted: {port} refused: 5 unknown instance\n")
        held = [socket.create_connection(("127.0.0.1", port)) for _ in range(64)]
        time.sleep(0.5)
        status, _, errors = checked(program, "--port", str(port))
        expect(status == 4 and "gave no answer" in errors, f"check of a full instance: {errors.strip()}")
        for each in held:
            each.close()
    ends(["--port", str(port)], 4, f"remoted: cannot connect to {port}: Connection refused (os error 111)\n")
    ends(["--port", "1", "--host", "nowhere"], 2, "remoted: --host is no IPv4 or IPv6 address, as 127.0.0.1 or ::1: nowhere\n")
    ends(["--port", "1", "--instance", "n" * 65], 2, "remoted: --instance is longer than any name: " + "n" * 65 + "\n")
    no_http2 = "it speaks no HTTP/2"
    for text, closes, why in [
        (b"HTTP/1.1 400 Bad Request\r\n\r\n", True, no_http2),
        (b"\0\0\0\x04\0\0\0\0\0", True, "it ended the connection"),
        (b"\0\0\0\x04\0\0\0\0\0", False, None),
        (b"\0\0\x04\x03\0\0\0\0\x01\0\0\0\x07", False, "it reset the call"),
    ]:
        with answer_with(text, closes) as listening:
            port = str(listening.getsockname()[1])
            told = f"gave no answer: {why}" if why else "gave no answer in 1 s"
            ends(["--port", port, "--seconds", "1"], 4, f"remoted: {port} {told}\n")


def is_alive(mark):
    """Whether a program runs that has the mark among its words."""
    for name in os.listdir("/proc"):
        with contextlib.suppress(OSError):
            if name.isdecimal() and mark.encode() in pathlib.Path("/proc", name, "cmdline").read_bytes():
                return True
    return False


def begin_long_action(server, mark):
    """An action that runs until it is ended."""
    peer = Peer(server.ports[0])
    action = Action(f"exec sleep {mark}")
    peer.store(action.blobs)
    peer.begin(EXECUTE, m.field(6, action.digest))
    expect(within(10, lambda: is_alive(mark)), "an action runs")
    return peer


def stop(program):
    mark = f"10000.{os.getpid()}"
    with tempfile.TemporaryDirectory() as folder:
        path = pathlib.Path(folder, "stop")
        with Watched(program, [("red", 10**6, 2)], ["--stop", str(path)], heard=True) as server:
            with begin_long_action(server, mark):
                path.touch()
                status = server.process.wait(20)
            expect(status == 0 and server.said() == [], "the file ends the server with status 0", server.said())
            lines = server.all_said()
            expect(f"remoted: ends once {path} is there" in lines, "which was said at its start", lines)
            expect(not server.entries(), "the folder of its run is removed", server.entries())
            expect(not is_alive(mark), "the action's program is gone")
            expect(path.exists(), "the file is left")
        words = [program, "serve", "--work", folder + "/work", "--stop", str(path), f"red:{free_ports(1)[0]}:1:0"]
        done = subprocess.run(words, capture_output=True, text=True)
        told = f"remoted: {path} is there already: remove it\n"
        expect((done.returncode, done.stdout, done.stderr) == (1, "", told), "a file that is there is a fault", done)
        words[5:6] = [str(path) + ".new", "--metrics", str(path)]
        done = subprocess.run(words, capture_output=True, text=True)
        told = f"remoted: --stop names {path}.new, which --metrics writes first\n"
        expect((done.returncode, done.stderr) == (2, told), "one file for both is a fault", done)
    ports_close_first(program, mark)
    stop_as_the_unit(program, mark)


def is_over(connection):
    """Whether a connection ends within five seconds."""
    connection.settimeout(5)
    try:
        while connection.recv(1000):
            pass
    except ConnectionResetError:
        return True
    except TimeoutError:
        return False
    return True


def ports_close_first(program, mark):
    """A launcher does not end when it is told to: nobody waits for that at the ports."""
    with tempfile.TemporaryDirectory() as folder:
        path, launcher = pathlib.Path(folder, "stop"), pathlib.Path(folder, "launcher")
        launcher.write_text(f"#!/bin/sh\ntrap '' TERM\nexec sleep {mark}\n")
        launcher.chmod(0o755)
        words = ["--stop", str(path)]
        with Watched(program, [("red", 10**6, 1)], words, launcher=str(launcher)) as server:
            port = server.ports[0]
            with begin_long_action(server, mark), socket.create_connection(("127.0.0.1", port)) as connection:
                path.touch()
                expect(is_over(connection), "connections end within five seconds")
                status, _, errors = checked(program, "--port", str(port))
                expect(status == 4 and "Connection refused" in errors, "and the port is closed", errors)
                expect(server.is_running() and is_alive(mark), "while an action's launcher does not end")
                expect(server.process.wait(20) == 0 and not is_alive(mark), "then it is ended, and the server ends")


def stop_as_the_unit(program, mark):
    line = next(line for line in (DEPLOY / "remoted.service").read_text().splitlines() if line.startswith("ExecStop="))
    command = re.fullmatch(r"ExecStop=/bin/sh -c '(.*)'", line).group(1)
    with tempfile.TemporaryDirectory() as folder:
        path = os.path.join(folder, "stop")
        with Watched(program, [("red", 10**6, 2)], ["--stop", path]) as server:
            threading.Thread(target=server.process.wait, daemon=True).start()
            with begin_long_action(server, mark):
                environment = {"STOP": path, "MAINPID": str(server.process.pid), "PATH": "/usr/bin:/bin"}
                done = subprocess.run(["/bin/sh", "-c", command], env=environment, timeout=30)
            expect(done.returncode == 0 and not server.is_running(), "the unit's ExecStop waits for the end")
            expect(server.process.returncode == 0 and not is_alive(mark), "and that is a good one")


def listen(program):
    with Server(program, [("red", 100)], "endless") as server:
        port = str(server.ports[0])
        status, _, errors = checked(program, "--port", port, "--host", "127.0.0.2")
        expect(status == 4 and "Connection refused" in errors, "by default no other address is served", errors)
    for address, reached in [("0.0.0.0", ["127.0.0.1", "127.0.0.2"]), ("::1", ["::1"]), ("::", ["::1", "127.0.0.2"])]:
        with Watched(program, [("red", 100)], ["--listen", address]) as server:
            port = str(server.ports[0])
            for host in reached:
                found = checked(program, "--port", port, "--host", host)
                expect(found[0] == 0, f"--listen {address}: {found[1].strip()}", found)
        with socket.socket(socket.AF_INET6 if ":" in address else socket.AF_INET) as taken:
            taken.bind((address, 0))
            taken.listen()
            port = taken.getsockname()[1]
            words = [program, "serve", "--work", "/nowhere", "--listen", address, f"red:{port}:1:0"]
            done = subprocess.run(words, capture_output=True, text=True)
            told = f"[{address}]:{port}" if ":" in address else f"{address}:{port}"
            told = f"remoted: cannot listen on {told}\nremoted: port {port}: Address already in use (os error 98)\n"
            expect((done.returncode, done.stderr) == (1, told), told.split("\n")[0], done)
    done = subprocess.run([*words[:4], "--listen", "localhost", "red:1:1:0"], capture_output=True, text=True)
    told = "remoted: --listen is no IPv4 or IPv6 address, as 127.0.0.1 or ::1: localhost\n"
    expect((done.returncode, done.stderr) == (2, told), told.strip(), done)
