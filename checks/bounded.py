"""What `topichub serve --memory-bytes` holds at most, for checks/serve: one client asks for as much as it can, and is refused before the
server takes more; what was opened can always be published to and received from, and a history cut.

What is due is written in docs/SERVER.md. Memory is the server's resident memory, with one arena of the C
library, as the unit sets it."""
import contextlib
import os
import threading

from program import eventually
from sessions import Client, Server

LEAST = 64 << 20
BYTES = 128 << 20
AT_ONCE = 8
VALUE = b"x" * 1024
SHORT = "--history", "1", "--memory", "1024"
TOGETHER = 64  # lines that are sent ahead of their replies
LARGEST = 65_536
NO_MEMORY = b"ERR 21 no-memory\n"


def resident(server):
    with open(f"/proc/{server.process.pid}/status", encoding="ascii") as file:
        return next(int(line.split()[1]) for line in file if line.startswith("VmRSS:")) << 10


def bounded(path, at_once=AT_ONCE, most=BYTES, words=()):
    """A server that may take so many bytes."""
    words = ["--at-once", str(at_once), "--until-eof", "--memory-bytes", str(most), *words]
    return Server(path, None, environment=dict(os.environ, MALLOC_ARENA_MAX="1"), words=words)


def opened(client, capacity, names):
    """The topics of this capacity that were opened under these names, until one is refused; and the refusal."""
    found = []
    for name in names:
        reply = client.ask(b"OPEN %s B %d" % (name, capacity))
        if reply != b"OK %d\n" % capacity:
            return found, reply
        found.append(name)
    return found, None


def filled(client, topic, count):
    """Whether so many of the largest values were taken on the topic, all of them for one receiver."""
    def send():
        for _ in range(count // TOGETHER):
            client.send((b"PUB %s %s\n" % (topic, VALUE)) * TOGETHER)

    sender = threading.Thread(target=send)
    sender.start()
    told = [client.lines(TOGETHER) for _ in range(count // TOGETHER)]
    sender.join()
    return set(told) == {b"OK 1\n" * TOGETHER}


def windows(folder):
    """A client opens large topics, as many as it can, and fills them, at a server whose histories leave most of it for windows."""
    path = os.path.join(folder, "windows")
    with bounded(path, words=SHORT) as server, contextlib.closing(Client(path)) as client:
        large, refusal = opened(client, 4096, [b"n%d" % k for k in range(1022)])
        yield "the largest windows are refused before the server takes more", 8 < len(large) < BYTES // (4096 * len(VALUE)) and refusal == NO_MEMORY
        yield "what is refused is not there", client.ask(b"SUB n%d" % len(large)) == b"ERR 11 no-topic\n"
        held = []
        for topic in large:
            held += [client.ask(b"BIND " + topic), client.ask(b"SUB " + topic)]
            held.append(filled(client, topic, 4096 + TOGETHER))
        yield "what was opened is published to, however full it is", all(it in (b"OK\n", True) for it in held)
        yield "and received from", all(client.ask(b"TRY " + topic) == b"LAG %d\n" % TOGETHER for topic in large)
        yield "memory stays below the bound", resident(server) < BYTES
        small, refusal = opened(client, 1, [b"s%d" % k for k in range(1022)])
        yield "smaller ones have what is left", len(small) > 8 and refusal == NO_MEMORY
        yield "memory stays below it still", resident(server) < BYTES
        yield "the server ends as ever", server.end()[0] == 0


def histories(folder):
    """A client publishes on and on, and another asks for traces that it does not read."""
    path = os.path.join(folder, "long")
    with bounded(path, words=["--history", "1000000", "--memory", "1000000000"]) as server:
        with contextlib.closing(Client(path)) as client:
            opened(client, 1, [b"t"])
            held = [client.ask(b"BIND t"), client.ask(b"SUB t"), filled(client, b"t", 3 * LARGEST)]
            yield "a history is cut before the server takes more", held == [b"OK\n", b"OK\n", True] and resident(server) < BYTES
            silent = [Client(path) for _ in range(AT_ONCE - 2)]
            for other in silent:
                filled(client, b"t", 20 * TOGETHER)
                other.send(b"TRACE t\n")
            told = [other.lines(1) for other in silent]
            counted = [line.startswith(b"OK ") for line in told]
            yield "traces that are not read are refused in time", set(told) - {NO_MEMORY} and True in counted
            yield "memory stays below the bound", resident(server) < BYTES
            for other in silent:
                other.close()
            yield "and are told again once those are gone", eventually(lambda: client.ask(b"TRACE t").startswith(b"OK "))
        yield "the server ends as ever", server.end()[0] == 0


def too_few(folder):
    """So many bytes have to be enough for the sessions."""
    path = os.path.join(folder, "few")
    with bounded(path, at_once=1024, most=LEAST) as server:
        told = f"topichub: no memory\ntopichub: {path}: so many sessions at once need --memory-bytes {(1024 * 256 + 32 * 1024) << 10} at least\n"
        yield "too few bytes for the sessions are refused", server.end() == (1, "", told) and not os.path.lexists(path)


TRIED = windows, histories, too_few
