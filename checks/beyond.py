"""What `topichub serve --at-once N --busy` tells clients beyond N, and what people are told of clients that die, for checks/serve.

What is due is written in docs/SERVER.md."""
import contextlib
import os
import signal
import threading
import time

from histories import ended
from program import eventually
from sessions import DIED, OTHERS, Client, Server

BUSY = b"ERR 24 busy\n"


def standing(path, at_once, *words):
    return Server(path, None, words=["--at-once", str(at_once), "--until-eof", *words])


def told_alone(path):
    """What a client is told that sends nothing, until the connection is closed."""
    with contextlib.closing(Client(path)) as client:
        return client.rest()


# ---- clients beyond those that are served

def busy(folder):
    path = os.path.join(folder, "beyond-busy")
    with standing(path, 2, "--busy") as server:
        yield from refuses(server)


def refuses(server):
    path = server.path
    served = [Client(path) for _ in range(2)]
    told = [client.ask(b"LIST") for client in served]
    yield "as many as may be are served", told == [b"OK 0\n"] * 2
    yield "with --busy who comes then is told so, and closed", told_alone(path) == BUSY
    with contextlib.closing(Client(path)) as client:
        client.send(b"OPEN t B 1\n" * 10)
        told = client.rest(), served[0].ask(b"LIST")
    yield "also who sends lines, of which none is carried out", told == (BUSY, b"OK 0\n")

    # All that it sends has come before the server looks at it.
    server.process.send_signal(signal.SIGSTOP)
    with contextlib.closing(Client(path)) as client:
        client.send(b"x" * 100_000)
        server.process.send_signal(signal.SIGCONT)
        told = client.rest()
    yield "and who has sent much before it reads", told == BUSY

    def is_closed(client):
        try:
            client.send(b"x" * 10_000)
        except OSError:
            return True
        return False

    with contextlib.closing(Client(path)) as client:
        yield "one that goes on sending and closes nothing is closed after a moment", client.rest() == BUSY and eventually(lambda: is_closed(client))
    with contextlib.closing(Client(path)) as still:
        told = still.lines(1), told_alone(path)
        served[1].send(b"QUIT\n")
        told += served[1].rest(),
        with contextlib.closing(Client(path)) as client:
            told += client.ask(b"LIST"),
            client.send(b"QUIT\n")
            client.rest()
        yield "one that stands still holds up nobody", told == (BUSY, BUSY, b"BYE\n", b"OK 0\n")
    served[1].close()
    told = set()
    for _ in range(200):
        with contextlib.closing(Client(path)) as client:
            client.send(b"QUIT\n")
            told.add(client.rest())
    yield "once a connection is closed its place is free", told == {b"BYE\n"}
    served[0].close()
    status, printed, told = ended(server)
    yield "who was refused is no session", (status, printed, told) == (0, "listening\ndone 203\n", "")


class Crowd:
    """Clients that come, look and go, each in a thread of its own, until so many have been served."""

    def __init__(self, path, most):
        self.path, self.most, self.lock = path, most, threading.Lock()
        self.now = self.highest = self.served = self.refused = 0
        self.wrong = None

    def come(self):
        with contextlib.closing(Client(self.path)) as client:
            told = client.lines(1) if client.is_told() else client.ask(b"LIST")
            if told == BUSY:
                with self.lock:
                    self.refused += 1
                return
            with self.lock:
                self.now, self.served = self.now + 1, self.served + 1
                self.highest = max(self.highest, self.now)
            if told != b"OK 0\n":
                self.wrong = told
            client.ask(b"LIST")
            with self.lock:
                self.now -= 1
            client.send(b"QUIT\n")
            client.rest()

    def go(self):
        try:
            while self.served < self.most and self.wrong is None:
                # (a client whose line comes once it is refused may see that its connection is closed before it sees why)
                with contextlib.suppress(BrokenPipeError, ConnectionResetError):
                    self.come()
        except OSError as fault:
            self.wrong = fault


def crowds(folder):
    path, most = os.path.join(folder, "beyond-crowds"), 3
    with standing(path, most, "--busy") as server:
        crowd = Crowd(path, 1_000)
        threads = [threading.Thread(target=crowd.go) for _ in range(8)]
        for thread in threads:
            thread.start()
        for thread in threads:
            thread.join()
        status, printed, told = ended(server)
    yield "each one of a crowd is served or told so", crowd.wrong is None and crowd.served >= 1_000 and crowd.refused > 0
    yield "never more at a time than may be", crowd.highest <= most
    yield "and all of these are counted, and no other", (status, printed, told) == (0, f"listening\ndone {crowd.served}\n", "")


def files(folder):
    """A server that tells clients so has one file more open."""
    path = os.path.join(folder, "beyond-files")
    for files, told in ((24, f"topichub: {path}: 16 sessions at once take 25 open files, and 24 are allowed\n"), (25, "")):
        with Server(path, None, words=["--at-once", "16", "--busy", "--until-eof"], files=files) as server:
            ends = ended(server)
        yield f"of {files} descriptors with --busy {'the start says what it needs' if told else 'nothing is said'}", ends == (
            0, "listening\ndone 0\n", told)


# ---- clients that die

def dies(path):
    """A session whose client has gone while it has something to tell it."""
    with contextlib.closing(Client(path)) as client:
        client.send(b"LIST\n" * 5_000)
        client.lines(1)


def deaths(folder):
    path = os.path.join(folder, "beyond-deaths")
    before = time.monotonic()
    with standing(path, 4) as server:
        begun, made = time.monotonic(), 0
        while made < 40 or time.monotonic() < begun + 2.5:  # (so that more than a second goes by; nothing is due after a fixed time)
            dies(path)
            made += 1
        with contextlib.closing(Client(path)) as client:
            client.ask(b"LIST")
        # Each session that was stopped is over once nothing moves.
        server.settled()
        status, printed, told = ended(server)
    took = time.monotonic() - before
    lines = told.splitlines()
    sessions = [int(said[1]) for line in lines if (said := DIED.fullmatch(line))]
    others = [int(said[1] or said[2]) for line in lines if (said := OTHERS.fullmatch(line))]
    yield "each session that was stopped is told or counted", (status, printed, len(sessions) + sum(others)) == (
        0, f"listening\ndone {made + 1}\n", made)
    yield "at most one line a second tells one", 2 <= len(sessions) <= took + 1 and len(set(sessions)) == len(sessions)
    yield "nothing else is told", len(sessions) + len(others) == len(lines)
    yield "before the next one the others are told, and at the end those that are left", OTHERS.fullmatch(lines[-1]) is not None and all(
        OTHERS.fullmatch(line) for line, after in zip(lines, lines[1:]) if DIED.fullmatch(after))


TRIED = (busy, crowds, files, deaths)
