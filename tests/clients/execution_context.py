"""What the checks of `executions.py` stand on: a server, what it is to say, and `Fault`."""

import time

import programs
from executing import PATH, Action, Peer


class Fault(Exception):
    pass


def expect(found, wanted, what):
    if found != wanted:
        short = lambda value: repr(value) if len(repr(value)) < 600 else repr(value)[:600] + ".."
        raise Fault(f"{what}: found {short(found)}, wanted {short(wanted)}")


def shell(script, **more):
    return (["/bin/sh", "-c", script], more)


class Context:
    """A server, what it is to say on standard error, what stays in its folder, and a factor for all limits of time."""

    def __init__(self, server, kept, slow=1.0):
        self.server, self.kept, self.lines, self.slow = server, kept, [], slow
        self.descriptors = server.descriptors()

    def peer(self, instance=0):
        return Peer(self.server.ports[instance], 120 * self.slow)

    def action(self, words, variables=(PATH,), **more):
        """An action whose processes can be told by a variable."""
        if isinstance(words, tuple):
            words, more = words[0], {**words[1], **more}
            variables = more.pop("variables", variables)
        return Action(words, variables=[*variables, ("MARK", self.server.folder)], **more)

    def made(self, what):
        return what if isinstance(what, Action) else self.action(what)

    def ran(self, peer, what, code=0, **more):
        """The done Operation of an action that has to run and end with a code."""
        done = peer.execute(self.made(what), **more)
        expect((done.status.code, done.status.text), (0, ""), "status")
        expect(done.result.code, code, "exit code")
        return done

    def said(self, peer, what, code=0, **more):
        """What an action writes to standard output."""
        return peer.stream_text(self.ran(peer, what, code, **more).result.stdout)

    def failed(self, peer, what, word=None, name="main"):
        """An action whose run has to fail, with a line on standard error where a word is given. Ten lines a second are told."""
        time.sleep(0.11)
        done = peer.execute(self.made(what))
        expect((done.status.code, done.status.text, done.result), (13, "run failed", None), "a run that fails")
        if word:
            line = f"remoted: run {name} {done.name.rpartition('/')[2]} failed: {word}"
            self.lines.append(line)
            programs.settled(lambda: line not in self.server.said(), 2 * self.slow)
            # What is counted may be told behind it.
            expect(line in self.server.said()[-2:], True, f"on standard error: {self.server.said()[-2:]}")
