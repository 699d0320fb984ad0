"""Hubs for the tests of the clients: the program, and one that says what it is told to."""
import contextlib
import os
import queue
import socket
import subprocess
import threading

import pytest

PROGRAM = os.environ.get("TOPICHUB")
NEEDS_PROGRAM = pytest.mark.skipif(not PROGRAM, reason="TOPICHUB names no program")


@contextlib.contextmanager
def served(folder, sessions):
    """The path of a server of so many sessions. It has to end by itself."""
    path = str(folder / "hub")
    with subprocess.Popen([PROGRAM, "serve", path, "--sessions", str(sessions)], stdout=subprocess.PIPE) as server:
        try:
            assert server.stdout.readline() == b"listening\n"
            yield path
            assert server.wait(timeout=60) == 0
        finally:
            server.kill()


@contextlib.contextmanager
def standing(path, *words):
    """A server that runs until it is told to end, or is killed."""
    with subprocess.Popen([PROGRAM, "serve", path, "--at-once", "8", "--until-eof", *words], stdin=subprocess.PIPE,
                          stdout=subprocess.PIPE) as server:
        try:
            assert server.stdout.readline() == b"listening\n"
            yield server
            server.stdin.close()
            assert server.wait(timeout=60) == 0 or server.returncode < 0
        finally:
            server.kill()


class Hub(threading.Thread):
    """A hub that answers each line, in their order, once it is told how."""

    def __init__(self, connection):
        super().__init__()
        self.connection, self.lines, self.replies = connection, [], queue.SimpleQueue()
        self.start()

    def run(self):
        answers = True
        # A client may close before it has read all, or while it is answered.
        with contextlib.suppress(ConnectionError), self.connection, self.connection.makefile("rb") as given:
            for line in given:
                self.lines.append(line[:-1])
                reply = self.replies.get() if answers else None
                answers = reply is not None
                if answers:
                    self.connection.sendall(reply + b"\n")

    def say(self, *replies):
        for reply in replies:
            self.replies.put(reply)

    def heard(self, client):
        """All lines that came, at the end of the session."""
        client.close()
        self.end()
        return self.lines

    def end(self):
        self.say(None)
        self.join()


@contextlib.contextmanager
def listening(folder):
    path = str(folder / "hub")
    with socket.socket(socket.AF_UNIX) as server:
        server.bind(path)
        server.listen()
        yield path, server
