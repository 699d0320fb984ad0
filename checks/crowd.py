"""Many connections at once to `topichub serve --at-once`, for checks/load.

They share topics by sixteen, of which three are broadcast topics where the fourth is a watch topic. One of the sixteen publishes,
up to 64 values in a write and on as soon as they are answered; the others receive or look, up to 32 lines in a write. A value tells
its publisher and its number. A client stays for a few seconds; then another one takes its place, and half of those that go are
killed: while they wait, with replies unread, or in the middle of a line.

Asked is of each reply that it is as it may be: that a publisher's values come in their order, and none is left out but as many as
a LAG tells; that a watch topic goes on. Of the traces: that all are legal, and that those of each topic are one history. Files that
were checked are removed but for the last one of each topic, to which the next ones are joined."""
import collections
import contextlib
import glob
import multiprocessing
import os
import random
import re
import selectors
import socket
import subprocess
import tempfile
import time

from histories import entries_of
from program import PATIENCE, program, run
from sessions import DIED, OTHERS, Client

TOGETHER = 16  # clients of a topic
WORKERS = 2  # processes with clients
STAY = (0.5, 5)  # seconds that a client stays
SENT, HEARD = 64, 32  # lines in a write
VALUE_BYTES = 24  # bytes of a value, or some more where its numbers are longer
# As the unit has it: else the C library keeps what was given back for each worker apart.
SETTINGS = {"MALLOC_ARENA_MAX": "1"}
CHECKED = 5  # seconds from one check of the files to the next
VALUE = re.compile(rb"(\d+)\.(\d+);x*")


class Wrong(Exception):
    """A reply that may not come, or something else that has to be otherwise."""


def need(holds, *what):
    if not holds:
        raise Wrong(" ".join(str(word) for word in what))


def topics_of(worker, clients):
    """The topics that the clients of a worker share: their names, and whether each is a watch topic."""
    return [(b"%d-%d" % (worker, number), number % 4 == 3) for number in range(-(-clients // TOGETHER))]


# ---- what a client does, and what it may be told

class Publishing:
    def __init__(self, topic, is_watch, generation, size):
        self.topic, self.is_watch, self.generation, self.size, self.count = topic, is_watch, generation, size, 0
        # So that somebody always receives.
        self.first = b"BIND %b\nSUB %b\n" % (topic, topic), 2

    def lines(self, chance):
        count = chance.randint(1, SENT)
        begin, self.count = self.count, self.count + count
        values = (b"%d.%d;" % (self.generation, number) for number in range(begin, begin + count))
        return b"".join(b"PUB %b %b\n" % (self.topic, value.ljust(self.size, b"x")) for value in values), count

    def told(self, lines, totals):
        if self.is_watch:
            need(lines == [b"OK"] * len(lines), lines[0])
        else:
            need(all(line.startswith(b"OK ") and line != b"OK 0" for line in lines), lines)
        totals["published"] += len(lines)


class Receiving:
    """A receiver. Of the publishers that came before its SUB was answered, it may be told from any number on."""

    def __init__(self, topic, generation):
        self.topic, self.before, self.last, self.owed = topic, generation, {}, 0
        self.first = b"SUB %b\n" % topic, 1

    def lines(self, chance):
        count = chance.randint(1, HEARD)
        return (b"NEXT %b\n" if chance.random() < 0.9 else b"TRY %b\n") % self.topic * count, count

    def value(self, generation, number):
        last = self.last.get(generation, -1)
        missed = number - last - 1
        if missed and (last >= 0 or generation > self.before):
            need(0 < missed <= self.owed, f"{generation}.{number} comes behind {generation}.{last}")
            self.owed -= missed
        self.last[generation] = number

    def told(self, lines, totals):
        for line in lines:
            kind, _, rest = line.partition(b" ")
            if kind == b"VAL":
                totals["values"] += 1
                # The value of a line that was torn has no end.
                if found := VALUE.fullmatch(rest):
                    self.value(int(found[1]), int(found[2]))
            elif kind == b"LAG":
                need(int(rest) > 0, line)
                totals["lags"] += 1
                self.owed += int(rest)
            else:
                need(line == b"EMPTY", line)


class Looking:
    """A reader of a watch topic."""

    def __init__(self, topic):
        self.topic, self.last = topic, {}
        self.first = b"SUB %b\n" % topic, 1

    def lines(self, chance):
        count = chance.randint(1, HEARD)
        return (b"CHANGED %b\nTAKE %b\n" % (self.topic, self.topic)) * count, 2 * count

    def told(self, lines, totals):
        for line in lines:
            kind, _, rest = line.partition(b" ")
            if found := VALUE.fullmatch(rest):
                totals["values"] += 1
                generation, number = int(found[1]), int(found[2])
                need(number >= self.last.get(generation, 0), f"{line} comes behind {self.last.get(generation)}")
                self.last[generation] = number
            need(kind in (b"NEW", b"SAME") or line == b"CHANGED", line)


class Connection:
    """A client that does so."""

    def __init__(self, crowd, place):
        self.crowd, self.place, self.chance = crowd, place, crowd.chance
        self.does = crowd.role(place)
        self.socket = socket.socket(socket.AF_UNIX)
        self.socket.settimeout(PATIENCE)
        self.socket.connect(crowd.path)
        self.socket.setblocking(False)
        self.goes = time.monotonic() + self.chance.uniform(*STAY)
        self.is_killed = crowd.kills and self.chance.random() < 0.5
        self.given, self.came, self.lines, self.has_quit = b"", b"", [], False
        self.say(*self.does.first)
        self.is_new = True

    def __str__(self):
        return f"{type(self.does).__name__.lower()} {self.does.topic.decode()} at place {self.place}"

    def say(self, text, count):
        self.given, self.due, self.since = text, count, time.monotonic()
        self.write()

    def write(self):
        with contextlib.suppress(BlockingIOError):
            self.given = self.given[self.socket.send(self.given):]

    def judge(self):
        lines, self.lines = self.lines[:self.due], self.lines[self.due:]
        need(not self.lines, "a reply to no line", self.lines[:1])
        if self.has_quit:
            need(lines == [b"BYE"], lines)
        elif self.is_new:
            self.is_new = False
            need(lines == [b"OK"] * self.due, lines)
            self.does.before = self.crowd.generation  # whoever publishes may have come while this one's SUB waited
        else:
            self.does.told(lines, self.crowd.totals)
        self.crowd.totals["replies"] += len(lines)

    def hear(self):
        """Takes what came, and goes on; False once it has gone."""
        try:
            chunk = self.socket.recv(1 << 16)
        except BlockingIOError:
            return True
        need(chunk or self.has_quit and not self.due, f"{self} was ended")
        *lines, self.came = (self.came + chunk).split(b"\n")
        self.lines += lines
        if not chunk:
            return False
        if len(self.lines) < self.due:
            return True
        self.judge()
        now = time.monotonic()
        if self.has_quit:
            self.due = 0
        elif self.crowd.may_go(self, now):
            self.has_quit = True
            self.say(b"QUIT\n", 1)
        else:
            self.say(*self.does.lines(self.chance))
        return True

    def kill(self):
        """Goes at once: as it stands, or with what is left of a line behind the others."""
        if self.chance.random() < 0.5:
            text = self.does.lines(self.chance)[0]
            with contextlib.suppress(OSError):
                self.socket.send(self.given + text[:self.chance.randrange(len(text))])


class Crowd:
    """The clients of a worker."""

    def __init__(self, path, worker, clients, kills, seed, size):
        self.path, self.kills, self.chance, self.size = path, kills, random.Random(seed * 100 + worker), size
        self.topics, self.generation = topics_of(worker, clients), 0
        self.totals, self.over, self.publishers = collections.Counter(), float("inf"), set()
        self.selector, self.there = selectors.DefaultSelector(), {}
        self.clients = clients

    def role(self, place):
        topic, is_watch = self.topics[place // TOGETHER]
        if place % TOGETHER == 0:
            self.generation += 1
            return Publishing(topic, is_watch, self.generation, self.size)
        return Looking(topic) if is_watch else Receiving(topic, self.generation)

    def join(self, place):
        client = Connection(self, place)
        self.there[place] = client
        self.selector.register(client.socket, selectors.EVENT_READ, client)

    def leave(self, client):
        self.selector.unregister(client.socket)
        client.socket.close()
        del self.there[client.place]

    def may_go(self, client, now):
        """Whether it quits now. At the end those who receive go first, since a NEXT waits for who publishes."""
        if now < self.over:
            return self.kills and now >= client.goes and not client.is_killed
        return not self.is_wanted(client.place, now)

    def is_wanted(self, place, now):
        """Whether somebody is to be at this place."""
        return now < self.over or place % TOGETHER == 0 and any(other % TOGETHER for other in self.there)

    def look(self, now):
        """What time does of itself."""
        for client in list(self.there.values()):
            if client.given:
                client.write()
            if client.is_killed and now >= client.goes and now < self.over and not client.has_quit:
                client.kill()
                self.totals["killed"] += 1
                self.leave(client)
                self.join(client.place)
            need(now - client.since < PATIENCE, f"{client} has {len(client.lines)} of {client.due} replies after {PATIENCE} seconds")

    def run(self, seconds):
        self.over, looked = time.monotonic() + seconds, 0.0
        for place in range(self.clients):
            self.join(place)
        while self.there:
            now = time.monotonic()
            if now - looked > 0.02:
                looked = now
                self.look(now)
            for key, _ in self.selector.select(0.02):
                client = key.data
                if self.there.get(client.place) is client and not client.hear():
                    self.leave(client)
                    if self.is_wanted(client.place, time.monotonic()):
                        self.join(client.place)
        return self.totals


def crowd_of(path, worker, clients, kills, seed, size, seconds):
    return Crowd(path, worker, clients, kills, seed, size).run(seconds)


# ---- the server

class Files:
    """The files of the parts of all topics, which are checked as they come."""

    def __init__(self, traces, topics):
        self.traces, self.entries = traces, 0
        # Of each topic the last file that was checked, if any, and the number of the first event behind it.
        self.checked = {topic: ([], 1) for topic in topics}

    def found(self):
        return {os.path.basename(path): path for path in glob.glob(os.path.join(self.traces, "*", "*"))}

    def check(self):
        found = self.found()
        for topic, (last, due) in self.checked.items():
            paths, first = list(last), due
            while path := found.get(f"{topic}.{due:020}.trace"):
                paths.append(path)
                due += entries_of(path)
            if due > first:
                self.join(topic, paths, due - first)
                self.checked[topic] = paths[-1:], due

    def join(self, topic, paths, more):
        """The first file was checked before, if any was, and the others have so many entries."""
        before = sum(map(entries_of, self.checked[topic][0]))
        said = run(["check", "--joined", *paths], b"", 5 * PATIENCE).stdout.decode()
        first = int(paths[0].split(".")[-2])
        due = f"joined {before + more} {first}-{first + before + more - 1} {topic}\n"
        need(said == due, f"the files of {topic}, {due.strip()}: {said.strip()}")
        for path in paths[:-1]:
            os.remove(path)
        self.entries += more

    def end(self):
        """The last check. Nothing else is left."""
        self.check()
        need(all(last for last, _ in self.checked.values()), "a topic has no file")
        last = {path for paths, _ in self.checked.values() for path in paths}
        rest = set(self.found().values()) - last
        need(not rest, f"{len(rest)} files go on from none, as {min(rest, default='')}")


def resident(process):
    """The server's resident memory, in MiB."""
    with open(f"/proc/{process.pid}/statm") as file:
        return int(file.read().split()[1]) * os.sysconf("SC_PAGE_SIZE") / 2**20


def take(client, topic):
    """Has a topic's trace told, and lets it go."""
    client.send(b"TRACE %b\n" % topic)
    for _ in range(int(client.replies.readline().split()[1])):
        client.replies.readline()


def served(folder, words, clients, seconds, kills, seed, size, traces=None, tells=None):
    """Has so many clients talk to a server for so long: what they were told in all."""
    path = os.path.join(folder, "hub")
    stands = "--at-once" in words
    words = [program(), "serve", path, *words, *(["--traces", traces] if traces else [])]
    # Of clients that are killed it says in hours more than a pipe takes that nobody reads, and would wait there.
    errors = open(os.path.join(folder, "errors"), "w+", encoding="utf-8")
    server = subprocess.Popen(words, env={**os.environ, **SETTINGS}, stdin=subprocess.PIPE, stdout=subprocess.PIPE, stderr=errors, text=True)
    shares = [clients // WORKERS + (number < clients % WORKERS) for number in range(WORKERS)]
    try:
        need(server.stdout.readline() == "listening\n", "the server does not listen")
        keeper = Client(path)
        topics = [topic for worker, share in enumerate(shares) for topic in topics_of(worker, share)]
        for topic, is_watch in topics:
            keeper.ask(b"OPEN %b " % topic + (b"W 0.0;" if is_watch else b"B 1024"))
        files = Files(traces, [topic.decode() for topic, _ in topics]) if traces else None
        with multiprocessing.get_context("fork").Pool(WORKERS) as pool:
            told = pool.starmap_async(crowd_of, [(path, worker, share, kills, seed, size, seconds)
                                                 for worker, share in enumerate(shares) if share], chunksize=1)
            begun = time.monotonic()
            tenth, checked = 1, begun
            while not told.ready():
                told.wait(0.1)
                now = time.monotonic()
                need(now - begun < seconds + 4 * PATIENCE, "the clients do not end")
                if tells and now - begun >= seconds * tenth / 10 and tenth <= 10:
                    tells(tenth, resident(server))
                    tenth += 1
                if files and now - checked >= CHECKED:
                    files.check()
                    checked = time.monotonic()
                if not stands:
                    for topic, _ in topics:
                        take(keeper, topic)
            totals = sum(told.get(), collections.Counter())
        keeper.close()
        printed, _ = server.communicate(timeout=4 * PATIENCE)
        need(server.returncode == 0 and printed.startswith("done "), f"the server ended with {server.returncode}, {printed!r}")
        errors.seek(0)
        wrong = [line for line in errors.read().splitlines() if not (DIED.fullmatch(line) or OTHERS.fullmatch(line))]
        need(not wrong, f"the server said {wrong[:1]}")
        need(not os.path.exists(path), "the socket is left behind")
    finally:
        server.kill()
        server.communicate()
        errors.close()
    if files:
        files.end()
        totals["entries"] = files.entries
    return totals


def rate(totals, seconds):
    return totals["values"] / seconds


def load(clients, seconds, seed, size):
    """The whole trial, with values of so many bytes: what is told of it, line by line."""
    stands = ["--at-once", str(clients + 1), "--until-eof"]
    few = min(clients, 63)

    def resident_at(tenth, size):
        print(f"load: after {tenth} tenths the server has {size:.1f} MiB", flush=True)

    with tempfile.TemporaryDirectory() as folder:
        whole = served(folder, stands, clients, seconds, True, seed, size, os.path.join(folder, "traces"), resident_at)
        yield (f"{whole['replies']} replies as they may be ({whole['values']} values, {whole['lags']} lags), {whole['killed']} clients "
               f"killed; {whole['entries']} entries legal and joined; {rate(whole, seconds):.0f} values a second")
        part = min(30, max(5, seconds / 10))
        without = served(folder, stands, clients, part, True, seed, size)
        yield f"without --traces {rate(without, part):.0f} values a second"
        told = [f"{rate(served(folder, how, few, part, False, seed, size, traces), part):.0f} {name}" for how, traces, name in (
            (stands, os.path.join(folder, "few"), "with --traces"), (stands, None, "without"),
            (["--sessions", str(few + 1)], None, "with --sessions, where one client takes the traces"))]
        yield f"of {few} clients that stay: {', '.join(told)}"
