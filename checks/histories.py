"""What `topichub serve --at-once` makes of histories, for checks/serve: where they are cut, and the files of their parts.

What is due is written in docs/SERVER.md. How many events a topic has is counted by hand, from the lines
that are sent: each line that is an event is one, a `RESUB` is two, and a session that ends spends its handles."""
import contextlib
import ctypes
import errno
import glob
import os
import re
import select
import socket
import subprocess
import threading

from program import eventually, is_sanitized, patience, program, run
from sessions import Client, Server
from tries import leave_out

GROUP = 64  # lines that are carried out together at most
MANY = 1_000_000  # entries that a trace has at most
TIMEVAL = 16  # bytes that a limit of time of a socket has, all of them 0 where there is none
PART = re.compile(r"([a-z0-9_-]{1,32})\.([0-9]{20})\.trace")
# Requests of Linux's ptrace, and how one waits for a thread that is no process.
SEIZE, INTERRUPT, DETACH, EACH_THREAD = 0x4206, 0x4207, 17, 0x40000000
# How many lines are sent before their replies are read.
AHEAD = 4_096


def standing(path, *words, **how):
    """A server that ends with its standard input."""
    return Server(path, None, words=["--at-once", "4", "--until-eof", *words], **how)


def ended(server):
    """The status, and what was printed and told as an error, of a server whose standard input has ended."""
    server.process.stdin.close()
    server.process.stdin = None
    return server.end()


def entries_of(path):
    """How many entries a trace has, by its last line."""
    with open(path, "rb") as file:
        file.seek(max(0, os.path.getsize(path) - 40))
        return int(file.read().rpartition(b"END ")[2])


def parts_of(folder, topic):
    """The whole parts of a topic's history in a folder: the number of each one's first event, its entries, and its path."""
    parts = []
    for name in sorted(os.listdir(folder)):
        named = PART.fullmatch(name)
        if named and named[1] == topic:
            path = os.path.join(folder, name)
            parts.append((int(named[2]), entries_of(path), path))
    return parts


def follow(parts):
    """Whether the first one begins with the first event, and each goes on where the one before it ends."""
    due = 1
    for number, entries, _ in parts:
        if number != due:
            return False
        due += entries
    return True


def joined(parts):
    """How many entries these parts have as one history; None where they are none."""
    said = run(["check", "--joined", *(path for _, _, path in parts)], b"").stdout
    return int(said.split()[1]) if said.startswith(b"joined ") else None


def are_history(folder, topic, events):
    """Whether the files of a topic are one history of so many events."""
    parts = parts_of(folder, topic)
    return follow(parts) and joined(parts) == events


def starts(traces):
    """The folders of the starts that have written below this one, the oldest first."""
    return sorted(glob.glob(os.path.join(traces, "*")))


def sent_ahead(client, line, count):
    """The kinds of replies to a line that is sent so many times, many at once."""
    kinds = set()
    for sent in range(0, count, AHEAD):
        some = min(AHEAD, count - sent)
        client.send(line * some)
        kinds |= set(client.lines(some).splitlines())
    return kinds


# ---- what is tried: each yields what was tried and whether it was as it should be, and says what it leaves out

def words(folder):
    path = os.path.join(folder, "words")
    stand = (path, "--at-once", "2")
    for given in ((*stand, "--history", "0"), (*stand, "--history", "1000001"), (*stand, "--memory", "1023"),
                  (*stand, "--memory", "1000000001"), (*stand, "--socket-fd", "2"), (*stand, "--socket-fd", "1024"),
                  (*stand, "--socket-fd", "3", "--replace"), (path, "--sessions", "2", "--history", "5"),
                  (path, "--sessions", "2", "--memory", "1024"), (path, "--sessions", "2", "--traces", folder),
                  (path, "--sessions", "2", "--socket-fd", "3")):
        ran = subprocess.run([program(), "serve", *given], stdin=subprocess.DEVNULL, capture_output=True, timeout=patience())
        name = " ".join(["serve", *map(os.path.basename, given)])
        yield f"'{name}' is a usage fault", (ran.returncode, ran.stdout) == (2, b"") and not os.path.lexists(path)


# Verbs that are events, what stands behind the topic, and how many events they are. A history that is long is cut by any of them.
ON_BROADCAST = ((b"BIND", b"", 1), (b"SUB", b"", 1), (b"PUB", b" v", 1), (b"NEXT", b"", 1), (b"TRY", b"", 1), (b"LEFT", b"", 1),
                (b"QUEUED", b"", 1), (b"READERS", b"", 1), (b"RESUB", b"", 2))
ON_WATCH = ((b"BIND", b"", 1), (b"SUB", b"", 1), (b"PUB", b" v", 1), (b"CHANGED", b"", 1), (b"SWAP", b" w", 1),
            (b"EDIT", b" SET x", 1), (b"EDIT", b" QUIET y", 1), (b"EDIT", b" DIFFER y", 1), (b"GET", b"", 1), (b"TAKE", b"", 1),
            (b"HAS", b"", 1), (b"TRYCHANGED", b"", 1), (b"MARK", b"", 1), (b"UNMARK", b"", 1), (b"READERS", b"", 1))


def cuts(folder):
    traces = os.path.join(folder, "some", "traces")
    with standing(os.path.join(folder, "cuts"), "--history", "5", "--traces", traces) as server:
        yield from cut(server, traces)


def cut(server, traces):
    kept, = starts(traces)
    asks, other = Client(server.path), Client(server.path)
    asks.ask(b"OPEN t B 128")
    asks.ask(b"OPEN w W v")
    made = {"t": 0, "w": 0}
    for topic, verbs in (("t", ON_BROADCAST), ("w", ON_WATCH)):
        for verb, rest, events in verbs:
            name = topic.encode()
            # What was told as a trace is a part too, so the next part begins here.
            told = asks.ask(b"TRACE " + name)
            asks.lines(int(told.split()[1]))
            first = made[topic] + 1
            for _ in range(5):
                other.ask(b"READERS " + name)
            is_early = any(number == first for number, _, _ in parts_of(kept, topic))
            reply = asks.ask(verb + b" " + name + rest)
            made[topic] += 5 + events
            due = (first, 5, os.path.join(kept, f"{topic}.{first:020}.trace"))
            line = (verb + b" " + name + rest).decode()
            yield f"'{line}' cuts a history of 5 entries", not reply.startswith(b"ERR") and not is_early and eventually(
                lambda: due in parts_of(kept, topic))

    # At the end the receiver has missed what the topic does not keep of 200 values.
    for line, count, due in ((b"PUB t x\n", 100, {b"OK 1"}), (b"NEXT t\n", 100, {b"VAL x"}), (b"TRY t\n", 100, {b"EMPTY"}),
                             (b"PUB t y\n", 200, {b"OK 1"}), (b"NEXT t\n", 129, {b"LAG 72", b"VAL y"}), (b"LEFT t\n", 100, {b"OK 0"}),
                             (b"PUB w x\n", 100, {b"OK"}), (b"GET w\n", 100, {b"NEW x"}), (b"TAKE w\n", 100, {b"NEW x", b"SAME x"})):
        made[line.split()[1].decode()] += count
        told = sent_ahead(asks, line, count)
        yield f"{count} times '{line.decode().strip()}' in one write are answered as one by one", told == due
    for client in (asks, other):
        client.close()
    # The session of `asks` had a sender and a receiver of each topic.
    status, printed, told = ended(server)
    yield "at its end each topic's files are one history of all its events", (status, printed, told) == (
        0, "listening\ndone 2\n", "") and all(are_history(kept, topic, count + 2) for topic, count in made.items())
    # The last part of each topic has the ends of handles too.
    parts = [parts_of(kept, topic) for topic in made]
    longest = max(entries for some in parts for _, entries, _ in some[:-1])
    yield "no part is longer than by what is made together", 5 < longest <= 5 + GROUP - 1
    yield "and nothing else is there", len(os.listdir(kept)) == sum(map(len, parts))


def each_alone(folder):
    traces = os.path.join(folder, "alone")
    with standing(os.path.join(folder, "one"), "--history", "1", "--traces", traces) as server:
        kept, = starts(traces)
        with contextlib.closing(Client(server.path)) as client:
            name = "-" * 31 + "a"
            for line in ("OPEN {} B 1", "BIND {}", "SUB {}", *["PUB {} x"] * 20, *["TRY {}"] * 2, "END {}"):
                client.ask(line.format(name).encode())
        status = ended(server)[0]
        lengths = [entries for _, entries, _ in parts_of(kept, name)]
    # The end of a handle asks for no room, so what is spent at the end stands behind the last other event.
    yield "with --history 1 each event is a part of its own, the ends of handles but", (status, lengths) == (
        0, [1] * 23 + [4]) and are_history(kept, name, 27)


def divided(folder):
    traces = os.path.join(folder, "divided")
    with standing(os.path.join(folder, "memory"), "--memory", "1024", "--traces", traces) as server:
        kept, = starts(traces)
        client = Client(server.path)

        def are_first(topic, lengths):
            """Whether the first parts of a topic have so many entries each, now or soon."""
            return eventually(lambda: [entries for _, entries, _ in parts_of(kept, topic)] == lengths)

        def published(topic, count):
            for _ in range(count):
                client.ask(b"PUB %b x" % topic)

        def opened(topic):
            for line in (b"OPEN %b B 1", b"BIND %b", b"SUB %b"):
                client.ask(line % topic)

        opened(b"a")
        published(b"a", 598)
        early = parts_of(kept, "a")
        client.ask(b"OPEN b W v")
        yield "a history that is longer than its part of the memory is cut when a topic is opened", not early and are_first("a", [600])
        for _ in range(400):
            client.ask(b"READERS b")
        opened(b"c")
        opened(b"d")
        yield "of either kind", are_first("b", [400])
        for _ in range(300):
            client.ask(b"READERS b")
        cut = [are_first("b", [400, 256])]
        for topic, lengths in (("a", [600, 256]), ("c", [256]), ("d", [256])):
            published(topic.encode(), 300)
            # What comes faster than it is written may be left out, so each part is waited for.
            cut.append(are_first(topic, lengths))
        yield "of 4 topics each is cut at a quarter", all(cut)
        client.close()
        told = ended(server)
    yield "and nothing is left out", told == (0, "listening\ndone 1\n", "") and all(
        are_history(kept, topic, events) for topic, events in (("a", 902), ("b", 700), ("c", 304), ("d", 304)))


LAST_TRACE = b"""TRACE 1 B 2
AT 1 3 NEXT 4
KEEP 1
KEEP 2
TX 1
TX 2
RX 3 0
BEGIN
C send 2 3
R sent 1
C send 2 4
R sent 1
END 2
"""


def let_go(folder):
    path = os.path.join(folder, "gone", "hub")
    os.mkdir(os.path.dirname(path))
    with standing(path, "--history", "5") as server, contextlib.closing(Client(path)) as client:
        for line in (b"OPEN t B 2", b"BIND t", b"SUB t", b"PUB t 0", b"PUB t 1", b"PUB t 2", b"PUB t 3", b"PUB t 4"):
            client.ask(line)
        told = client.ask(b"TRACE t", 14)
        yield "without --traces a TRACE begins where the history was cut last", told == b"OK 13\n" + LAST_TRACE
        found = set(os.listdir(os.path.dirname(path)))
        yield "and no file is made", (found, ended(server)[0]) == ({"hub", "hub.lock"}, 0)


def endless(folder):
    if is_sanitized():
        leave_out("serve", "the program is compiled with AddressSanitizer", "more lines and events than one trace has")
        return
    traces = os.path.join(folder, "endless")
    with standing(os.path.join(folder, "full"), "--history", str(MANY), "--traces", traces) as server:
        kept, = starts(traces)
        with contextlib.closing(Client(server.path)) as client:
            for line in (b"OPEN t B 1", b"BIND t", b"SUB t"):
                client.ask(line)
            told = sent_ahead(client, b"PUB t x\n", MANY + 1_000)
        yield "a session has no bound on lines, and a topic none on events", told == {b"OK 1"}
        told = ended(server)
    parts = parts_of(kept, "t")
    yield "a history of a million entries is cut before it has no room for what is made together", told[0] == 0 and len(parts) == 2 and (
        MANY - 3 - GROUP <= parts[0][1] <= MANY)
    yield "and all of it is one history", are_history(kept, "t", MANY + 1_004)


def publishes(client, line, most):
    """A thread that sends a line up to so many times, as long as it is answered."""
    def go():
        with contextlib.suppress(OSError):
            sent_ahead(client, line, most)

    thread = threading.Thread(target=go)
    thread.start()
    return thread


def killed(folder):
    traces, path = os.path.join(folder, "killed"), os.path.join(folder, "kill")
    with standing(path, "--history", "1000", "--traces", traces) as server:
        kept, = starts(traces)
        clients = [Client(path), Client(path)]
        for client, kind in zip(clients, (b"b B 4", b"w W v")):
            client.ask(b"OPEN " + kind)
            for verb in (b"BIND ", b"SUB "):
                client.ask(verb + kind[:1])
        # Fewer than there is room for where parts wait, so none is left out.
        threads = [publishes(client, b"PUB %b x\n" % topic, 400_000) for client, topic in zip(clients, (b"b", b"w"))]
        begun = eventually(lambda: len(parts_of(kept, "b")) > 4 and len(parts_of(kept, "w")) > 4)
        server.process.kill()
        server.end()
        for thread in threads:
            thread.join()
        for client in clients:
            client.close()
    parts = {topic: parts_of(kept, topic) for topic in ("b", "w")}
    yield "after kill -9 all whole files are one history", begun and all(
        follow(some) and joined(some) == sum(entries for _, entries, _ in some) for some in parts.values())
    unfinished = len(os.listdir(kept)) - sum(map(len, parts.values()))
    yield "and at most one of each kind is not whole", unfinished == len(glob.glob(os.path.join(kept, "*.trace.part"))) <= 2
    with standing(path, "--history", "1000", "--traces", traces, "--replace") as server, contextlib.closing(
            Client(path)) as client:
        told = client.ask(b"LIST"), client.ask(b"OPEN b B 1"), client.ask(b"BIND b")
        status = ended(server)[0]
        others = [it for it in starts(traces) if it != kept]
    yield "the next start replaces the socket, and has a folder of its own", (told, status, len(others)) == (
        (b"OK 0\n", b"OK 1\n", b"OK\n"), 0, 1) and are_history(others[0], "b", 2) and parts_of(kept, "b") == parts["b"]


@contextlib.contextmanager
def small_disk(folder):
    """A disk of 1 MB; None where it cannot be mounted."""
    disk = os.path.join(folder, "disk")
    os.mkdir(disk)
    try:
        is_there = subprocess.run(["mount", "-t", "tmpfs", "-o", "size=1m", "topichub-check", disk], stdin=subprocess.DEVNULL,
                                  capture_output=True).returncode == 0
    except OSError:
        is_there = False
    try:
        yield disk if is_there else None
    finally:
        if is_there:
            subprocess.run(["umount", "--lazy", disk], check=True)


def runs_of(parts):
    """The parts in lists, in each of which each goes on where the one before it ends."""
    runs, due = [], None
    for part in parts:
        if part[0] != due:
            runs.append([])
        runs[-1].append(part)
        due = part[0] + part[1]
    return runs


def full_disk(folder):
    with small_disk(folder) as disk:
        if disk is None:
            leave_out("serve", "no disk of 1 MB can be mounted", "files on a full disk")
            return
        traces = os.path.join(disk, "traces")
        with standing(os.path.join(folder, "small"), "--history", "100", "--traces", traces) as server:
            kept, = starts(traces)
            with contextlib.closing(Client(server.path)) as client:
                for line in (b"OPEN t B 1", b"BIND t", b"SUB t"):
                    client.ask(line)
                told = sent_ahead(client, b"PUB t " + b"x" * 500 + b"\n", 4_000), client.ask(b"READERS t")
            ends = ended(server)
        parts = parts_of(kept, "t")
        yield "on a full disk the server goes on", (told, ends[:2]) == (({b"OK 1"}, b"OK 1\n"), (0, "listening\ndone 1\n"))
        yield "and says so once", ends[2] == f"topichub: {kept}: a trace could not be written; the server goes on\n"
        yield "what is whole there is one history as far as it goes", parts != [] and parts[0][0] == 1 and all(
            joined(some) == sum(entries for _, entries, _ in some) for some in runs_of(parts))
        yield "and nothing else is left", len(os.listdir(kept)) == len(parts)


def writer_of(server, client, kept):
    """The thread that writes the parts of broadcast topics: of those that are awake when the first part is cut, the one that is not
    awake for an event that cuts nothing."""
    resting = server.settled()
    client.ask(b"READERS t")
    served = server.settled(since=resting)
    sent_ahead(client, b"PUB t x\n", 98)
    client.ask(b"PUB t x")
    eventually(lambda: parts_of(kept, "t") != [])
    cut = server.settled(since=served)
    found, = {it for it in cut if cut[it] != served[it]} - {it for it in served if served[it] != resting[it]}
    return int(found)


@contextlib.contextmanager
def standing_still(thread):
    """A thread of a child, which stands still meanwhile, as one does whose disk hangs; whether it can be had do so."""
    ptrace = ctypes.CDLL(None, use_errno=True).ptrace
    ptrace.argtypes = [ctypes.c_long, ctypes.c_long, ctypes.c_void_p, ctypes.c_void_p]
    is_held = ptrace(SEIZE, thread, None, None) == 0
    if is_held:
        ptrace(INTERRUPT, thread, None, None)
        os.waitpid(thread, EACH_THREAD)
    try:
        yield is_held
    finally:
        if is_held:
            ptrace(DETACH, thread, None, None)


def slow_disk(folder):
    traces = os.path.join(folder, "slow")
    with standing(os.path.join(folder, "hangs"), "--history", "100", "--memory", "1024", "--traces", traces) as server:
        kept, = starts(traces)
        with contextlib.closing(Client(server.path)) as client:
            for line in (b"OPEN t B 1", b"BIND t", b"SUB t"):
                client.ask(line)
            with standing_still(writer_of(server, client, kept)) as is_held:
                if not is_held:
                    leave_out("serve", "no thread of a child can be stopped", "a disk that hangs")
                    return
                # There is room for 5 parts.
                told = {client.ask(b"PUB t x") for _ in range(1_000)}
                written = parts_of(kept, "t")
        ends = ended(server)
    yield "where a disk hangs the server goes on", (told, len(written)) == ({b"OK 1\n"}, 1)
    yield "and says once that parts are left out", ends == (
        0, "listening\ndone 1\n", f"topichub: {kept}: traces are left out, since they come faster than they are written\n")
    lasting, last = runs_of(parts_of(kept, "t"))
    yield "what was written is one history up to what was left out", lasting[0][0] == 1 and joined(lasting) == sum(
        entries for _, entries, _ in lasting) >= 600
    yield "and so is what was written behind that", joined(last) == last[0][1] and last[0][0] + last[0][1] - 1 == 1_104


def no_folder(folder):
    path, file = os.path.join(folder, "unmade"), os.path.join(folder, "file")
    with open(file, "w") as made:
        made.write("a file\n")
    traces = os.path.join(file, "traces")
    why = f"{os.strerror(errno.ENOTDIR)} (os error {errno.ENOTDIR})"
    with standing(path, "--traces", traces) as server:
        ends = ended(server)
    yield "a folder for traces that cannot be made ends the server, as a write fault, and is named", ends == (
        1, "", f"topichub: write fault\ntopichub: {traces}: no folder for the traces can be made: {why}\n")
    yield "and no socket is left", not os.path.lexists(path)
    with standing(path, "--traces", file) as server:
        yield "nor can it be made where a file stands", ended(server)[0] == 1 and not os.path.lexists(path)


def are_waiting(listener):
    """Whether a connection is there that nobody has accepted."""
    return bool(select.select([listener], [], [], 0)[0])


def handed_over(folder):
    path = os.path.join(folder, "handed")
    with socket.socket(socket.AF_UNIX) as listener:
        listener.bind(path)
        listener.listen()
        descriptor = listener.fileno()
        how = {"pass_fds": (descriptor,)}
        handed = ("--socket-fd", str(descriptor))
        for start in ("a socket that was handed over is served", "and once more, by the next start"):
            with standing(path, *handed, **how) as server, contextlib.closing(Client(path)) as client:
                told = server.first, client.ask(b"LIST"), ended(server)
            yield start, told == ("listening\n", b"OK 0\n", (0, "listening\ndone 1\n", ""))
            yield "it is left at the end, and no lock is made", (os.path.lexists(path), os.path.lexists(path + ".lock")) == (True, False)
            limits = [listener.getsockopt(socket.SOL_SOCKET, option, TIMEVAL) for option in (socket.SO_RCVTIMEO, socket.SO_SNDTIMEO)]
            yield "nobody waits there, and it is as it was", (are_waiting(listener), limits) == (False, [bytes(TIMEVAL)] * 2)
        with contextlib.closing(Client(path)) as early, standing(path, *handed, **how) as server:
            told = early.ask(b"LIST"), ended(server)
        yield "who connects between two starts is served by the next", told == (b"OK 0\n", (0, "listening\ndone 1\n", ""))
        with open(os.devnull) as other, standing(path, "--socket-fd", str(other.fileno()), pass_fds=(other.fileno(),)) as server:
            ends = ended(server)
        yield "a descriptor that is no socket is refused", ends == (
            1, "", f"topichub: socket fault\ntopichub: {path}: the descriptor that was handed over is no socket\n")
        nowhere = os.path.join(folder, "nowhere-handed")
        fault = "no socket stands there, so none was handed over"
        for there in (False, True):
            if there:
                with open(nowhere, "w") as file:
                    file.write("a file\n")
            with standing(nowhere, *handed, **how) as server:
                ends = ended(server)
            yield ("where a file stands" if there else "where nothing stands") + " at the path, no socket was handed over", ends == (
                1, "", f"topichub: socket fault\ntopichub: {nowhere}: {fault}\n")


def two_starts(folder):
    traces = os.path.join(folder, "both")
    os.mkdir(traces)
    with contextlib.ExitStack() as opened:
        servers = [None, None]

        def start(number):
            servers[number] = opened.enter_context(standing(os.path.join(folder, f"start-{number}"), "--traces", traces))

        threads = [threading.Thread(target=start, args=(number,)) for number in range(2)]
        for thread in threads:
            thread.start()
        for thread in threads:
            thread.join()
        for number, server in enumerate(servers):
            with contextlib.closing(Client(server.path)) as client:
                client.ask(b"OPEN t B 1")
                for _ in range(number + 1):
                    client.ask(b"READERS t")
        told = [ended(server)[0] for server in servers]
    counts = sorted(joined(parts_of(kept, "t")) for kept in starts(traces))
    yield "two starts at once have two folders", (told, counts) == ([0, 0], [1, 2])


def moved(folder):
    for name in ("made", "handed over"):
        path, traces = os.path.join(folder, "moved"), os.path.join(folder, f"{name}-moved")
        with socket.socket(socket.AF_UNIX) as listener:
            how = {}
            words = ["--traces", traces]
            if name == "handed over":
                listener.bind(path)
                listener.listen()
                words += ["--socket-fd", str(listener.fileno())]
                how = {"pass_fds": (listener.fileno(),)}
            with standing(path, *words, **how) as server:
                with contextlib.closing(Client(path)) as client:
                    client.ask(b"OPEN t B 1")
                    client.ask(b"READERS t")
                os.remove(path)
                ends = ended(server)
        kept, = starts(traces)
        yield f"a socket that was {name} and removed keeps no end from being orderly", ends == (
            0, "listening\ndone 1\n", "") and are_history(kept, "t", 1)


TRIED = (words, cuts, each_alone, divided, let_go, endless, killed, full_disk, slow_disk, no_folder, handed_over, moved, two_starts)
