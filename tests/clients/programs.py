"""Looks for the programs that a server of `remoted` has running."""

import contextlib
import os
import signal
import time


def _read(path):
    try:
        with open(path, "rb") as file:
            return file.read()
    except OSError:
        return b""


def _link(path):
    try:
        return os.readlink(path)
    except OSError:
        return ""


def _state(pid):
    """The state of a process and its parent."""
    words = _read(f"/proc/{pid}/stat").rpartition(b")")[2].split()
    return (words[0].decode(), int(words[1])) if words else ("", 0)


def _is_removing(name):
    """Whether a process is a shell that removes folders, or what such a shell started."""
    words = _read(f"/proc/{name}/cmdline").split(b"\0")
    return words[0] in (b"/bin/mv", b"/bin/rm", b"/bin/chmod") or any(REMOVES_FOLDERS.encode() in word for word in words)


def removing(server):
    """The programs by which a server's shells remove folders now."""
    found = [int(name) for name in os.listdir("/proc") if name.isdigit() and _read(f"/proc/{name}/cmdline").startswith(b"/bin/rm\0")]
    return [each for each in found if _state(_state(each)[1])[1] == server]


def end_stopped(folder):
    """Kills what was stopped while it removed something below a folder."""
    for name in filter(str.isdigit, os.listdir("/proc")):
        if _link(f"/proc/{name}/cwd").startswith(folder + "/") and _state(name)[0] == "T":
            os.kill(int(name), signal.SIGKILL)


def running(folder, server=None):
    """The processes that work below a folder, or have it as `MARK` in their environment: numbers and command lines."""
    mark, found = b"MARK=" + os.fsencode(folder), {}
    for name in os.listdir("/proc"):
        if not name.isdigit() or int(name) in (os.getpid(), server):
            continue
        where = _link(f"/proc/{name}/cwd")
        # What removes folders works in that of a start itself.
        if os.path.basename(where).startswith("start-") and _is_removing(name):
            continue
        if where.startswith(folder + "/") or mark in _read(f"/proc/{name}/environ").split(b"\0"):
            if _state(name)[0] not in ("Z", "X", ""):
                found[int(name)] = _read(f"/proc/{name}/cmdline").replace(b"\0", b" ").decode(errors="replace").strip()
    return found


def _links(pid):
    """The working directory of a process, and what its descriptors are of."""
    found = []
    with contextlib.suppress(OSError):
        found.append(os.readlink(f"/proc/{pid}/cwd"))
        found += [os.readlink(f"/proc/{pid}/fd/{name}") for name in os.listdir(f"/proc/{pid}/fd")]
    return found


def marked(mark, spared=()):
    """The processes that have a mark in their words, variables, working directory or descriptors, by their numbers."""
    found, sought = {}, os.fsencode(mark)
    for pid in [int(name) for name in os.listdir("/proc") if name.isdigit()]:
        if pid == os.getpid() or pid in spared or _state(pid)[0] in ("Z", "X", ""):
            continue
        said = _read(f"/proc/{pid}/cmdline")
        if sought in said or sought in _read(f"/proc/{pid}/environ") or any(mark in each for each in _links(pid)):
            found[pid] = f"{_state(pid)[0]} {said.replace(bytes(1), b' ').decode(errors='replace')[:150]}"
    return found


# What the command line of the shell has that ends sessions, that of the one that opens outputs, and those that remove folders.
ENDS_SESSIONS, OPENS_OUTPUTS, REMOVES_FOLDERS = "kill -s", "printf -", "/bin/rm -rf"


def helpers(folder, server, word=""):
    """The children of a server that are no programs of actions and have the word: numbers and command lines."""
    children = [int(name) for name in os.listdir("/proc") if name.isdigit() and _state(name)[1] == server]
    actions = running(folder, server)
    told = {each: _read(f"/proc/{each}/cmdline").replace(b"\0", b" ").decode(errors="replace") for each in children}
    return {each: text for each, text in told.items() if text and word in text and each not in actions}


def shells(folder, server):
    """The shells that a server keeps for its own ends, which are no launchers either."""
    words = [ENDS_SESSIONS, OPENS_OUTPUTS, REMOVES_FOLDERS]
    return [each for each, text in helpers(folder, server).items() if any(word in text for word in words)]


def children(parents, word=""):
    """The children of processes whose command lines have the word."""
    found = [int(name) for name in os.listdir("/proc") if name.isdigit() and _state(name)[1] in parents]
    return [each for each in found if word.encode() in _read(f"/proc/{each}/cmdline")]


def begun(parent, word):
    """The same of one parent, by what the system says of it alone: it can be asked a thousand times a second."""
    found = [int(name) for name in _read(f"/proc/{parent}/task/{parent}/children").split()]
    return [each for each in found if word.encode() in _read(f"/proc/{each}/cmdline")]


def zombies(server):
    """The ended children of a server for which it has not asked."""
    return [int(name) for name in os.listdir("/proc") if name.isdigit() and _state(name) == ("Z", server)]


def end(folder):
    """Kills what is left of a test."""
    for number in marked(folder):
        with contextlib.suppress(ProcessLookupError):
            os.kill(number, signal.SIGKILL)


def settled(look, seconds=10):
    """What `look` finds, once it finds nothing or the time is over."""
    end = time.monotonic() + seconds
    found = look()
    while found and time.monotonic() < end:
        time.sleep(0.05)
        found = look()
    return found
