"""What `topichub serve --at-once` does for the files of traces where it is asked to, for checks/serve: `--sync`, `--anchors`, and how it
begins where the system limits the size of a file.

What is due is written in docs/SERVER.md. Sums are made here by Python's hashlib, of the files as they are. What
is on the disk when takes `strace` to be seen, where that is installed. What is left out is said."""
import contextlib
import hashlib
import os
import re
import resource

from guarded import can_trace
from histories import ended, joined, parts_of, standing, starts
from program import eventually, program, run
from sessions import Client, Server

ANCHOR = re.compile(r"topichub: anchor (\S+)/(\S+) ([0-9a-f]{64})")
KINDS = {"b": b"B 4", "c": b"B 1", "w": b"W v", "x": b"W v"}
TOGETHER = 64  # lines that are carried out together at most


# How large the lines of a trace may be, by docs/FORMATS.md: those of each kind at their longest, with 20 digits for a number.
NUMBER, VALUE = "9" * 20, "v" * 1_024
HEAD = 128  # the first line, AT, BEGIN and END, together
KEPT = len(f"KEEP {VALUE}\n")
LIVE = len(f"RX {NUMBER} {NUMBER}\n")
END = len(f"C drop-rx {NUMBER}\nR done\n")
ENTRY = len(f"C replace {NUMBER} {VALUE}\nR shown same {VALUE}\n")


def most_bytes(history):
    """How large a trace may be: the largest window, 65,535 senders and as many receivers, what is carried out together, and their ends."""
    return HEAD + 65_536 * KEPT + 2 * 65_535 * (LIVE + END) + (history + TOGETHER - 1) * ENTRY


def is_within(path):
    """Whether no line of a trace is longer than that."""
    with open(path, "rb") as file:
        lines = file.read().splitlines(keepends=True)
    begin = next(at for at, line in enumerate(lines) if line == b"BEGIN\n")
    kinds = {kind: [len(line) for line in lines[2:begin] if line.startswith(kind + b" ")] for kind in (b"KEEP", b"TX", b"RX")}
    entries = [len(call) + len(reply) for call, reply in zip(lines[begin + 1:-1:2], lines[begin + 2:-1:2])]
    head = len(lines[0]) + len(lines[1]) + len(lines[begin]) + len(lines[-1])
    return 2 + sum(map(len, kinds.values())) == begin and head <= HEAD and max(kinds[b"KEEP"], default=0) <= KEPT and max(
        [*kinds[b"TX"], *kinds[b"RX"]]) <= LIVE and 2 * len(entries) == len(lines) - begin - 2 and max(entries) <= ENTRY


def sums_of(kept, topic):
    """The sum of each of a topic's files and those before it, in their order, by the file's name."""
    found, last = {}, b""
    for _, _, path in parts_of(kept, topic):
        with open(path, "rb") as file:
            last = hashlib.sha256(last + file.read()).digest()
        found[os.path.basename(path)] = last.hex()
    return found


def anchors_in(told, kept):
    """The sums that were told, in their order, by the file's name, of each topic; None where something else was told."""
    found = {}
    for line in told.splitlines():
        said = ANCHOR.fullmatch(line)
        if not said or said[1] != os.path.basename(kept):
            return None
        found.setdefault(said[2].split(".")[0], {})[said[2]] = said[3]
    return found


def are_alike(told, due):
    """Whether these topics' sums are the same, in the same order."""
    return told is not None and {topic: list(sums.items()) for topic, sums in told.items()} == {
        topic: list(sums.items()) for topic, sums in due.items()}


def opened(client, kinds):
    for topic, kind in kinds.items():
        for line in (b"OPEN %b " % topic.encode() + kind, b"BIND %b" % topic.encode(), b"SUB %b" % topic.encode()):
            client.ask(line)


def made(client, topics, rounds):
    """Some events on each of these topics, time and again, in which histories are cut."""
    for number in range(rounds):
        for topic in topics:
            client.ask(b"PUB %b value-%d" % (topic.encode(), number))


# ---- what is tried: each yields what was tried and whether it was as it should be, and says what it leaves out

def words(folder):
    path = os.path.join(folder, "anchored-words")
    for word in ("--sync", "--anchors"):
        for other in (["--at-once", "2"], ["--sessions", "2"]):
            with Server(path, None, words=[*other, word]) as server:
                ends = server.end()
            yield f"{word} without --traces is a usage fault, with {other[0]}", ends[:2] == (2, "") and word in ends[2]


def anchors(folder):
    """Topics of both kinds, many cuts, a TRACE, and what is left at the end."""
    for more in ([], ["--sync"]):
        name = " ".join(["--anchors", *more])
        traces = os.path.join(folder, f"anchored-{len(more)}")
        with standing(os.path.join(folder, "anchored-anchors"), "--history", "7", "--traces", traces, "--anchors", *more) as server:
            kept, = starts(traces)
            with contextlib.closing(Client(server.path)) as client, contextlib.closing(Client(server.path)) as other:
                opened(client, KINDS)
                made(client, KINDS, 60)
                other.ask(b"READERS w")
                told = client.ask(b"TRACE w")
                client.lines(int(told.split()[1]))
                client.ask(b"OPEN unused B 1")
                made(client, KINDS, 40)
            status, printed, told = ended(server)
        due = {topic: sums_of(kept, topic) for topic in KINDS}
        yield f"with {name} all is as without it", (status, printed) == (0, "listening\ndone 2\n") and all(
            joined(parts_of(kept, topic)) for topic in KINDS)
        yield "each file is told with a sum that binds it and those before it", are_alike(anchors_in(told, kept), due)
        yield "over many cuts", min(len(sums) for sums in due.values()) > 10
        yield "and nothing else is there", len(os.listdir(kept)) == sum(map(len, due.values()))


def compared(folder):
    """What `check --anchors` says of a server's files, by what the server told of them in a journal."""
    traces, journal = os.path.join(folder, "anchored-compared"), os.path.join(folder, "anchored-journal")
    with standing(os.path.join(folder, "anchored-tells"), "--history", "7", "--traces", traces, "--anchors") as server:
        kept, = starts(traces)
        with contextlib.closing(Client(server.path)) as client:
            opened(client, {topic: KINDS[topic] for topic in "bw"})
            made(client, "bw", 40)
        told = ended(server)[2]
    with open(journal, "w") as file:
        file.write("".join(f"Dec 01 10:00:00 host topichub[12]: {line}\n" for line in ["a line", *told.splitlines(), "another"]))
    paths = [path for _, _, path in parts_of(kept, "b")]
    whole = {topic: f"joined {joined(parts_of(kept, topic))} 1-{joined(parts_of(kept, topic))} {topic}\n" for topic in "bw"}

    def says(*names, anchors=journal):
        ran = run(["check", "--joined", "--anchors", anchors, *names], b"")
        return ran.returncode, ran.stdout.decode(), ran.stderr.decode()

    yield "files that are those of their anchors are joined", len(paths) > 3 and says(*paths) == (0, whole["b"], "")
    yield "so are those of each topic in a folder", says(kept) == (0, whole["b"] + whole["w"], "")
    yield "where the last file is missing, that is told", says(*paths[:-1]) == (3, f"ended {paths[-2]}\n", "")
    yield "where the first one is, the next has no anchor", says(*paths[1:]) == (3, f"unanchored {paths[1]}\n", "")
    yield "anchors that cannot be read are told by name", says(*paths, anchors=journal + "-none") == (
        1, "", f"topichub: {journal}-none: read fault\n")
    changed = []
    for path in paths:
        with open(path, "rb") as file:
            text = file.read()
        if b" value-20\n" in text:
            changed.append(path)
            with open(path, "wb") as file:
                file.write(text.replace(b" value-20\n", b" value-2x\n"))
    again = run(["check", "--joined", *paths], b"").stdout.decode()
    yield "files with another value may be joined", changed != [] and again == whole["b"]
    yield "and have no anchor", says(*paths) == (3, f"unanchored {changed[0]}\n", "")
    yield "the files before them have", says(*paths[:paths.index(changed[0])])[:2] == (3, f"ended {paths[paths.index(changed[0]) - 1]}\n")


def moved_away(folder):
    """Who takes a file as soon as it has its name changes no sum."""
    traces = os.path.join(folder, "anchored-away")
    names, sums, last = [], [], b""
    with standing(os.path.join(folder, "anchored-takes"), "--history", "5", "--traces", traces, "--anchors") as server:
        kept, = starts(traces)
        with contextlib.closing(Client(server.path)) as client:
            opened(client, {"t": b"B 1"})
            for _ in range(10):
                eventually(lambda: client.ask(b"READERS t") and parts_of(kept, "t"))
                for _, _, path in parts_of(kept, "t"):
                    with open(path, "rb") as file:
                        last = hashlib.sha256(last + file.read()).digest()
                    names.append(os.path.basename(path))
                    sums.append(last.hex())
                    os.remove(path)
        told = ended(server)[2]
    found = anchors_in(told, kept) or {"t": {}}
    yield "files that are taken away are bound as they were", len(names) > 1 and list(found["t"].items())[:len(names)] == list(zip(names, sums))


@contextlib.contextmanager
def watched(path, words, log, *faults):
    """A server that stands, of which these system calls are noted, and some of them fail."""
    calls = "trace=fsync,fdatasync,rename,renameat,renameat2,lseek"
    strace = ["strace", "-f", "-y", "-o", log, "-e", calls, *faults, program()]
    with Server(path, None, words=["--at-once", "4", "--until-eof", *words], file=strace) as server:
        yield server


def noted(log, kept, name):
    """What was done to a file and its folder, in order: `file` where it was synced, `name` where it got its name, `folder`."""
    found, is_named = [], False
    unfinished = os.path.join(kept, name + ".part")
    with open(log, encoding="utf-8", errors="replace") as lines:
        for line in lines:
            if "sync(" in line and f"<{unfinished}>" in line:
                found.append("file")
            elif "rename" in line and f'"{unfinished}"' in line:
                found.append("name")
                is_named = True
            elif "sync(" in line and f"<{kept}>" in line and is_named:
                found.append("folder")
                return found
    return found


def cut_once(server, kept, client):
    """The name of the first trace of a topic, once it is there."""
    name = "t.00000000000000000001.trace"
    opened(client, {"t": b"B 1"})
    for _ in range(10):
        client.ask(b"READERS t")
    return name, eventually(lambda: os.path.exists(os.path.join(kept, name)))


def syncs(folder):
    if not can_trace("that traces are on the disk before they have their names"):
        return
    log = os.path.join(folder, "anchored-syncs")
    for asked, due in ((["--sync"], ["file", "name", "folder"]), ([], ["name"])):
        traces = os.path.join(folder, f"anchored-synced{len(asked)}")
        with watched(os.path.join(folder, "anchored-hub"), ["--history", "5", "--traces", traces, *asked], log) as server:
            kept, = starts(traces)
            with contextlib.closing(Client(server.path)) as client:
                name, is_there = cut_once(server, kept, client)
            ends = ended(server)
        with open(log, encoding="utf-8", errors="replace") as lines:
            of_start = any("sync(" in line and f"<{os.path.realpath(traces)}>" in line for line in lines)
        yield f"{'with' if asked else 'without'} --sync a trace and its name are{'' if asked else ' not'} synced", (
            is_there, ends, noted(log, kept, name)) == (True, (0, "listening\ndone 1\n", ""), due)
        yield f"and the name of the start is{'' if asked else ' not'}", of_start == bool(asked)


def sync_faults(folder):
    """Nothing is cut before the end, so one thread makes all three syncs: that of the folder of a start, and at the end those of a file and
    of its name."""
    if not can_trace("what comes of a sync that fails"):
        return
    log, path = os.path.join(folder, "anchored-faults"), os.path.join(folder, "anchored-fails")
    traces = os.path.join(folder, "anchored-unsynced")
    with watched(path, ["--traces", traces, "--sync"], log, "-e", "inject=fsync:error=EIO") as server:
        ends = server.end()
    yield "a folder for traces that cannot be synced is refused by its name", ends == (
        1, "", f"topichub: write fault\ntopichub: {traces}: the folder for the traces cannot be synced\n") and os.listdir(traces) == []
    failed = "topichub: {}: a trace could not be written; the server goes on\n"
    for name, when, is_there in (("file", "2", False), ("name", "3", True)):
        traces = os.path.join(folder, f"anchored-unsynced-{name}")
        with watched(path, ["--history", "100", "--traces", traces, "--sync"], log, "-e", f"inject=fsync:error=EIO:when={when}") as server:
            kept, = starts(traces)
            with contextlib.closing(Client(path)) as client:
                opened(client, {"t": b"B 1"})
            ends = ended(server)
        yield f"where a {name} cannot be synced that counts as a trace that is not written", ends == (
            0, "listening\ndone 1\n", failed.format(kept))
        yield f"and the file is {'there' if is_there else 'not there'}", (os.listdir(kept) != []) == is_there


def unreadable(folder):
    """The second file of the thread that writes cannot be read again."""
    if not can_trace("a file that cannot be read again"):
        return
    log, path, traces = (os.path.join(folder, name) for name in ("anchored-calls", "anchored-rereads", "anchored-unread"))
    with watched(path, ["--history", "5", "--traces", traces, "--anchors"], log, "-e", "inject=lseek:error=EIO:when=2") as server:
        kept, = starts(traces)
        with contextlib.closing(Client(path)) as client:
            opened(client, {"t": b"B 1"})
            eventually(lambda: client.ask(b"READERS t") and len(parts_of(kept, "t")) > 3)
        status, _, told = ended(server)
    (first, _), (second, _) = list(sums_of(kept, "t").items())[:2]
    start = os.path.basename(kept)
    yield "where a file cannot be read again its topic's anchors end, and that is told", (status, told) == (
        0, f"topichub: anchor {start}/{first} {sums_of(kept, 't')[first]}\n"
           f"topichub: {start}/{second}: it cannot be read again, so this topic has no further anchors\n")


def sized(size):
    """Begins a process that may write so many bytes to a file; past that the system ends it."""
    return lambda: resource.setrlimit(resource.RLIMIT_FSIZE, (size, size))


def sizes(folder):
    path = os.path.join(folder, "anchored-sizes")
    for history in (None, 1, 1_000, 1_000_000):
        words = ["--at-once", "2", "--until-eof"] + (["--history", str(history)] if history else [])
        least = most_bytes(history or 100_000)
        name = f"--history {history}" if history else "no --history"
        traces = os.path.join(folder, f"anchored-sizes-{history}")
        with Server(path, None, words=[*words, "--traces", traces], begin=sized(least - 1)) as server:
            ends = server.end()
        yield f"with {name} a start is refused by its name where a trace may be larger than a file", ends == (
            1, "", f"topichub: write fault\ntopichub: {traces}: a trace may take {least} bytes, and files of {least - 1} are allowed\n")
        yield "and nothing is made", (os.path.lexists(path), os.path.lexists(path + ".lock"), os.path.lexists(traces)) == (False,) * 3
        with Server(path, None, words=[*words, "--traces", traces], begin=sized(least)) as server:
            ends = ended(server)
        yield "one byte more is enough", ends == (0, "listening\ndone 0\n", "")
    with Server(path, None, words=["--at-once", "2", "--until-eof"], begin=sized(4_096)) as server:
        ends = ended(server)
    yield "without --traces no file grows", ends == (0, "listening\ndone 0\n", "")


def longest(folder):
    """What a trace has in fact, of values as long as may be."""
    traces, value = os.path.join(folder, "anchored-longest"), b"v" * 1_024
    with standing(os.path.join(folder, "anchored-long"), "--history", "50", "--traces", traces) as server:
        kept, = starts(traces)
        with contextlib.closing(Client(server.path)) as client:
            opened(client, {"b": b"B 64 AT 18446744073709551000", "w": b"W " + value})
            for _ in range(100):
                for line in (b"PUB b " + value, b"SWAP w " + value, b"TAKE w", b"GET w", b"EDIT w DIFFER " + value):
                    client.ask(line)
        ended(server)
    paths = [path for topic in "bw" for _, _, path in parts_of(kept, topic)]
    yield "no line of a trace is longer than is counted on", len(paths) > 5 and all(map(is_within, paths))


TRIED = (words, anchors, compared, moved_away, syncs, sync_faults, unreadable, sizes, longest)
