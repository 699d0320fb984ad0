#!/usr/bin/python3
"""Joins hubs by Redis Streams: what is sent on a broadcast topic at one hub is sent on the topic of that name at the others.

A bridge runs next to each hub, each with its own NAME, and all of them use one Redis, version 6 or newer. It needs python3-redis.
A topic has to be opened at each hub; a bridge waits until it is. The bridge is a receiver and a sender there, so the topic does not
close while it runs.

What was sent while a bridge or Redis was down arrives late, once, and in order, as far as the hub or the stream still has it.
What is missing is reported as a gap, on standard error and on the topic itself, by a value that is the byte 26 and `LAG n NAME`, such
as `\\x1aLAG 3 east`. It takes the place of the n values that nobody received. They were missed

  at the source      the bridge there was too slow, or was down for longer than its hub's history of the topic goes back
  in the stream      entries were trimmed, by --keep or by hand, or lost by Redis, before the bridge here had read them

The n is exact. `LAG ? NAME` is reported if nobody can count: the hub there was restarted, or Redis has lost what it knew of the
bridge there. If a bridge is killed again right after its start, between its TRACE and Redis's answer, what was sent while it was down
is lost too, and counted.

A bridge keeps its state at its hub, in a watch topic `bridge-..`, and in Redis. When it starts it takes a `TRACE` of its topics, so a
history that others collect by `TRACE` lacks that part; with --no-trace it takes none, and what is sent while it is not running is
reported as `LAG ?`. On SIGUSR1 it prints a line of counters for each topic.

exit status: 1 if it cannot continue, for example without its hub; 2 for bad usage. SIGTERM and Ctrl-C end it with status 0.
"""
from __future__ import annotations

import argparse
import hashlib
import importlib
import os
import queue
import re
import secrets
import select
import signal
import socket
import sys
import threading
import time
from collections import deque
from typing import Any, Callable, Iterable, NamedTuple, Optional, Sequence

PAUSE, LONGEST_PAUSE = 0.1, 5.0  # seconds until Redis is tried again: twice as many each time
PATIENCE = 5  # seconds that Redis may take for an answer
AGAIN = 0.5  # seconds until a value that a hub refused is sent again
SOON = 0.01  # seconds until a hub is asked again whether a topic is open, or another bridge has ended
READ = 65_536  # bytes that are read at once
MOST_READ = 100  # entries of the stream that are read at once
MOST_APPENDED = 64  # entries that are appended at once
MOST_VALUES, MOST_BYTES = 256, 4_096  # in one entry; a single value may have 1,024 bytes
# What is sent to the hub at once, in values and bytes. All of it, followed by the state, goes in one write of less than 32 KiB, which
# Linux transfers as a whole or not at all, and which the hub reads as a whole. So a kill never separates the two, or cuts a value.
PIECE_VALUES, PIECE_BYTES = 32, 12_288
TAKEN = 256  # values that are taken from the hub at once
CALM = 32  # values that a receiver at the hub may not have read yet when more come from Redis
GRACE, RUSH = 0.02, 1.0  # seconds of waiting for slow receivers, and seconds without it after that was in vain
KEPT = 1_024  # entries that are appended again if Redis comes back without them
NOTED = 0.1  # seconds between two notes in Redis of how far we have read, while more comes
MOST_STATE = 1_000  # bytes of the state at the hub; a value has at most 1,024
GAP = b"\x1aLAG %s %s"
NAME = re.compile(r"[a-z0-9_-]{1,32}")
RUN = re.compile(r"[0-9]{1,20}")
NUMBER = re.compile(r"0|[1-9][0-9]{0,17}")
VALUE = re.compile(rb"[^\r\n]{1,1024}")
VALUES = re.compile(rb"[^\r\n]{1,1024}(?:\n[^\r\n]{1,1024}){0,%d}" % (MOST_VALUES - 1))
PLACE = re.compile(r"[0-9]{1,20}-[0-9]{1,20}")  # of an entry in its stream
LIFE = re.compile(r"[0-9a-f]{16}")  # names one run of a hub; the first bridge of a name there chooses it
# What Redis says if it cannot do something now. Anything else it will not do later either.
NOT_NOW = ("OOM", "READONLY", "NOREPLICAS", "MISCONF", "LOADING", "BUSY", "CLUSTERDOWN", "MASTERDOWN", "TRYAGAIN", "UNBLOCKED")


def tell(*words: object) -> None:
    print("bridge:", *words, file=sys.stderr, flush=True)


def text(field: Optional[bytes], form: re.Pattern[str]) -> Optional[str]:
    """What Redis keeps, as text, if it has the form in which a bridge writes it; else `None`. Others may have written anything there,
    so nothing is used before this check."""
    found = field.decode("ascii", "replace") if field is not None else ""
    return found if form.fullmatch(found) else None


def read_words(line: bytes, forms: Sequence[re.Pattern[str]]) -> Optional[list[str]]:
    """The words of these forms at the beginning of a line; `None` if they are not there."""
    found = [text(word, form) for word, form in zip(line.split(b" "), forms)]
    words = [it for it in found if it is not None]
    return words if len(words) == len(forms) else None


# ---- the stream

class Entry(NamedTuple):
    """What a bridge appends: its name, its run, the number of the last value in that run, and either how many values were missed or
    the values themselves; neither at the beginning of a run."""

    name: str
    run: str
    number: int
    missed: int
    values: Optional[list[bytes]]  # `None`: it is not a value

    @classmethod
    def read(cls, fields: dict[bytes, bytes]) -> Optional[Entry]:
        """The entry with these fields; `None` if no bridge would have written them."""
        name, run = text(fields.get(b"from"), NAME), text(fields.get(b"run"), RUN)
        number, missed = text(fields.get(b"number"), NUMBER), text(fields.get(b"gap", b"0"), NUMBER)
        if name is None or run is None or number is None or missed is None or int(missed) > int(number):
            return None
        many, one = fields.get(b"values"), fields.get(b"value")
        values: Optional[list[bytes]] = []
        if many is not None:
            values = many.split(b"\n") if VALUES.fullmatch(many) else None
            if values is None or len(values) > int(number) or missed != "0":
                return None
        elif missed == "0" and number != "0":
            values = [one] if one is not None and VALUE.fullmatch(one) else None
        return cls(name, run, int(number), int(missed), values)

    def fields(self) -> dict[str, Any]:
        more: dict[str, Any] = {}
        if self.missed:
            more = {"gap": self.missed}
        elif self.values:
            more = {"values": b"\n".join(self.values)} if len(self.values) > 1 else {"value": self.values[0]}
        return {"from": self.name, "run": self.run, "number": self.number, **more}


class Due(NamedTuple):
    """An entry that is to be appended. `end` is what Redis keeps of its bridge from then on: the run, the number, the run of the hub,
    how many of the values that were sent there are accounted for, and how many of these were ours."""

    entry: Entry
    end: str


class Away:
    """A Redis that may be away, or refuse for a while: each question is asked again until it is answered."""

    def __init__(self, redis: Any, url: str) -> None:
        self.is_away, self.is_refused = (redis.ConnectionError, redis.TimeoutError), redis.AuthenticationError
        self.faults = *self.is_away, redis.ResponseError
        self.redis = redis.Redis.from_url(url, socket_timeout=PATIENCE)
        self.troubles: dict[int, str] = {}
        self.telling = threading.Lock()

    def ask(self, question: Callable[[Any], Any]) -> Any:
        pause = PAUSE
        while True:
            try:
                answer = question(self.redis)
            except self.faults as fault:
                self.tell_trouble(*self.trouble(fault))
                time.sleep(pause)
                pause = min(2 * pause, LONGEST_PAUSE)
            else:
                self.tell_no_trouble()
                return answer

    def trouble(self, fault: Exception) -> tuple[str, str]:
        """What is temporarily wrong, and more details. Raises if waiting will not help. What Redis says may quote values, so only
        its first word is reported."""
        said = str(fault).rpartition("caused error: ")[2].split(" ")[0]
        word = {"ReadOnlyError": "READONLY", "BusyLoadingError": "LOADING", "OutOfMemoryError": "OOM"}.get(type(fault).__name__, said)
        if word in NOT_NOW:
            return f"Redis refuses for now: {word}", ""
        if isinstance(fault, self.is_away) and not isinstance(fault, self.is_refused):
            return "Redis is away", f": {fault}"
        raise ValueError(f"Redis refuses: {word if re.fullmatch('[A-Z]{1,20}', word) else type(fault).__name__}") from fault

    def tell_trouble(self, trouble: str, more: str) -> None:
        with self.telling:
            if trouble not in self.troubles.values():
                tell(trouble + more)
            self.troubles[threading.get_ident()] = trouble

    def tell_no_trouble(self) -> None:
        with self.telling:
            if self.troubles.pop(threading.get_ident(), None) and not self.troubles:
                tell("Redis is there again")

    def all_at_once(self, *questions: Callable[[Any], Any]) -> list[Any]:
        """The answers to questions, of which Redis takes all or none."""
        def question(redis: Any) -> Any:
            with redis.pipeline(transaction=True) as line:
                for it in questions:
                    it(line)
                return line.execute()
        answers: list[Any] = self.ask(question)
        return answers


class Writer:
    """Appends entries, and notes how far the other direction has read, in its own thread. What Redis does not take for now is kept,
    and those of the last entries that it has lost are appended again."""

    def __init__(self, topic: str, words: argparse.Namespace, redis: Away) -> None:
        self.stream = f"topichub:{topic}"
        self.ends = f"{self.stream}:ends"  # the `Due.end` of each bridge
        self.read = f"{self.stream}:read:{words.name}"  # how far we have read, in the stream and of each bridge
        self.name, self.keep, self.hold, self.redis = words.name, words.keep, words.hold, redis
        self.news = threading.Condition()
        self.coming: deque[Due] = deque()
        self.note: dict[str, str] = {}
        self.noting: dict[str, str] = {}
        self.due: deque[Due] = deque()  # what Redis may not have
        self.kept: deque[Due] = deque(maxlen=KEPT)  # what it has had
        self.waiting = 0  # values that wait for Redis
        self.is_unsure = False
        self.on_room: Callable[[], None] = lambda: None

    def append(self, dues: Iterable[Due]) -> None:
        with self.news:
            self.coming.extend(dues)
            self.waiting += sum(len(it.entry.values or ()) for it in dues)
            self.news.notify()

    def note_read(self, note: dict[str, str]) -> None:
        with self.news:
            self.note.update(note)
            self.news.notify()

    def has_room(self) -> bool:
        return self.waiting < int(self.hold)

    def run(self) -> None:
        while True:
            with self.news:
                self.news.wait_for(lambda: self.coming or self.note)
                while self.coming and len(self.due) < MOST_APPENDED:
                    self.due.append(self.coming.popleft())
                self.noting, self.note = self.note, {}
            self.redis.ask(self.bring)
            self.on_room()

    def bring(self, redis: Any) -> None:
        if self.is_unsure:
            self.compare(redis)
        self.is_unsure = True
        while self.due or self.noting:
            now = [self.due[at] for at in range(min(len(self.due), MOST_APPENDED))]
            with redis.pipeline(transaction=True) as line:
                for it in now:
                    line.xadd(self.stream, it.entry.fields(), maxlen=self.keep, approximate=True)
                if now:
                    line.hset(self.ends, self.name, now[-1].end)
                if self.noting:
                    line.hset(self.read, mapping=self.noting)
                line.execute()
            self.noting = {}
            for _ in now:
                self.has_got()
        self.is_unsure = False

    def has_got(self) -> None:
        got = self.due.popleft()
        self.kept.append(got)
        with self.news:
            self.waiting -= len(got.entry.values or ())

    def compare(self, redis: Any) -> None:
        """Finds out which of the last entries Redis has: when it went away it may have done all of what was asked, or nothing."""
        end = read_words(redis.hget(self.ends, self.name) or b"", (RUN, NUMBER))
        while self.due and end and end[0] == self.due[0].entry.run and self.due[0].entry.number <= int(end[1]):
            self.has_got()
        while self.kept and not (end and end[0] == self.kept[-1].entry.run and self.kept[-1].entry.number <= int(end[1])):
            self.due.appendleft(self.kept.pop())
            with self.news:
                self.waiting += len(self.due[0].entry.values or ())


# ---- the hub

class Refused(Exception):
    """The hub answered `ERR code word`."""


class Session:
    """A session with the hub. Lines are sent ahead, and their replies are read together. The bridge is installed as one file, so it does
    not use `topichub.Client`."""

    def __init__(self, path: str) -> None:
        self.socket = socket.socket(socket.AF_UNIX, socket.SOCK_STREAM)
        self.socket.connect(path)
        self.came = b""

    def send(self, *lines: bytes) -> None:
        self.socket.sendall(b"\n".join((*lines, b"")))

    def read(self) -> bytes:
        more = self.socket.recv(READ)
        if not more:
            raise ConnectionError("the hub has ended the session")
        return more

    def replies(self, count: int) -> list[bytes]:
        """The next lines that the hub sends."""
        parts, due = [self.came], count - self.came.count(b"\n")
        while due > 0:
            parts.append(self.read())
            due -= parts[-1].count(b"\n")
        *found, self.came = b"".join(parts).split(b"\n", count)
        return found

    def ask(self, line: bytes) -> bytes:
        self.send(line)
        reply = self.replies(1)[0]
        if reply.startswith(b"ERR "):
            raise Refused(reply.decode())
        return reply

    def count(self, line: bytes) -> int:
        return int(self.ask(line).split(b" ")[1])


class Traced(NamedTuple):
    """What a trace shows."""

    begins: int  # the position of the first value that was sent in it
    joined: int  # the position at which our receiver joined
    sender: str  # the number of our sender
    ours: int  # how many values our earlier run has sent from the position `due` on
    dropped: int  # how many of the other values were too many to be kept
    sends: list[tuple[int, int, bytes]]  # the others that were sent before we joined: position, ours until then, and the value


# In a trace: the position of the next value at its beginning, and the calls that matter here; of the sends only those that succeeded.
PICTURE = re.compile(rb"^AT [0-9]+ ([0-9]+) ", re.M)
ENTRY = re.compile(rb"^C (?:(send) ([0-9]+) ([^\n]+)\nR sent |(?:(queued|readers|subscribe) ([0-9]+))$)", re.M)


def read_trace(trace: bytes, mark: str, before: str, due: int, most: int) -> Optional[Traced]:
    """Reads a trace; `None` if it does not show us. Our sender is the one that made the calls of `mark` before it made our receiver;
    `before` is the sender of an earlier run. What was sent below the position `due` is known already."""
    calls: dict[bytes, str] = {}
    sends: deque[tuple[int, int, bytes]] = deque()
    position = begins = int((PICTURE.search(trace) or [b"", b"0"])[1])
    ours, dropped = 0, 0
    for entry in ENTRY.finditer(trace):
        call, handle, value = entry[1] or entry[4], entry[2] or entry[5], entry[3]
        if call == b"send":
            if position >= due:
                if handle.decode() == before:
                    ours += 1
                else:
                    sends.append((position, ours, value))
                    if len(sends) > most:
                        sends.popleft()
                        dropped += 1
            position += 1
        elif call != b"subscribe":
            calls[handle] = (calls.get(handle, "") + call[:1].decode())[-len(mark):]
        elif calls.get(handle) == mark:
            return Traced(begins, position, handle.decode(), ours, dropped, list(sends))
    return None


class Item(NamedTuple):
    """A value to be sent, if there is one, and what is known once it is sent."""

    value: Optional[bytes]
    name: str
    run: str
    number: int
    at: Optional[str]


class State:
    """The state of a bridge, as the watch topic at its hub keeps it: the run of the hub, the number of its sender, how many values it
    has sent, the entry after which it continues, and for each bridge the run and number that were sent last."""

    def __init__(self, life: str) -> None:
        self.life, self.sender, self.sent = life, "0", 0
        self.at: Optional[str] = None
        self.seen: dict[str, tuple[str, int]] = {}

    def copy(self) -> State:
        other = State(self.life)
        other.sender, other.sent, other.at, other.seen = self.sender, self.sent, self.at, dict(self.seen)
        return other

    def know(self, item: Item) -> None:
        """Records that an item is sent."""
        self.seen.pop(item.name, None)
        self.seen[item.name] = item.run, item.number
        self.at = item.at or self.at
        self.sent += item.value is not None

    @classmethod
    def read(cls, line: bytes) -> State:
        words = line.split(b" ")
        first = read_words(line, (LIFE, NUMBER, NUMBER))
        if first is None or len(words) < 4:
            raise ValueError("the watch topic at the hub was not written by a bridge")
        state = cls(first[0])
        state.sender, state.sent = first[1], int(first[2])
        state.at = text(words[3], PLACE)
        for word in words[4:]:
            name, end = word.partition(b":")[::2]
            state.see(name, end.replace(b":", b" "))
        return state

    def see(self, name: bytes, end: bytes) -> None:
        found, known = text(name, NAME), read_words(end, (RUN, NUMBER))
        if found is None or known is None:
            raise ValueError("what is kept of the bridges was not written by a bridge")
        self.seen.pop(found, None)
        self.seen[found] = known[0], int(known[1])

    def line(self) -> bytes:
        """The state as it is kept: with those bridges that were sent last, as far as there is room. Redis knows the others."""
        words = f"{self.life} {self.sender} {self.sent} {self.at or '-'}"
        for name in reversed(self.seen):
            run, number = self.seen[name]
            if len(words) > MOST_STATE - len(name) - len(run) - 22:
                break
            words += f" {name}:{run}:{number}"
        return words.encode()


class Window:
    """A row of positions of the topic, ours among them, and what has been read there: values, or `None` for missed ones."""

    def __init__(self, begins: int, ends: int, ours: list[bytes]) -> None:
        self.begins, self.ends, self.ours = begins, ends, ours
        self.found: list[Optional[bytes]] = []

    def others(self) -> list[Optional[bytes]]:
        """What others have sent there; each of ours is replaced by an empty value. The hub sends lines that came together in a row."""
        count, found, at = len(self.ours), list(self.found), 0
        fits = [first for first in range(len(found) - count + 1)
                if all(it in (None, due) for it, due in zip(found[first:first + count], self.ours))]
        if fits:
            first = max(fits, key=lambda first: sum(it is not None for it in found[first:first + count]))
            return [*found[:first], *[b""] * count, *found[first + count:]]
        for value in self.ours:  # the hub refused one of them, or sent others in between
            while at < len(found) and found[at] not in (None, value):
                at += 1
            if at == len(found):
                raise ConnectionError("the hub does not tell what was sent to it")
            found[at], at = b"", at + 1
        return found


class Topic:
    """A topic at the hub, and its stream: both directions, in one thread except for the waits for Redis."""

    def __init__(self, words: argparse.Namespace, topic: str, redis: Away) -> None:
        self.words, self.topic, self.name, self.redis = words, topic, words.name, redis
        self.writer = Writer(topic, words, redis)
        self.hub, self.alarm = Session(words.path), Session(words.path)
        self.is_armed = False
        told = hashlib.sha256(f"{words.name} {topic}".encode()).hexdigest()
        self.account = b"bridge-" + told[:16].encode()
        self.named = topic.encode()
        self.waker, self.woken = os.pipe()[::-1]
        os.set_blocking(self.waker, False)
        self.writer.on_room = self.wake
        # To the stream.
        self.run, self.number = "", 0
        self.place, self.is_placed = 0, False  # the position that our receiver reads next; if that is not known, counted from its joining
        self.left = 0  # how many values it has to read, at least
        self.ours = 0  # how many below that are ours
        self.windows: deque[Window] = deque()
        self.values: list[bytes] = []  # of the entry that was begun
        self.size, self.last = 0, (0, 0)
        self.entries: list[Due] = []
        # From the stream.
        self.state = State("")
        self.ahead: dict[str, tuple[str, int]] = {}  # what `state.seen` will be once all items are sent
        self.incoming: queue.Queue[list[Any]] = queue.Queue(4)
        self.items: deque[Item] = deque()
        self.queued, self.waits_since, self.rushes_until = 0, 0.0, 0.0
        self.is_noted, self.noted_at = True, 0.0
        self.counts = {"out": 0, "out missed": 0, "in": 0, "in missed": 0}

    def wake(self) -> None:
        try:
            os.write(self.waker, b".")
        except BlockingIOError:
            pass  # it is awake

    def tell_gap(self, count: object, name: str, why: str) -> None:
        tell(f"{self.topic}: LAG {count} {name}: {why}")

    def status(self) -> str:
        there = "; ".join(sorted(set(self.redis.troubles.values()))) or "Redis is there"
        return (f"{self.topic}: {self.counts['out']} values sent out, {self.counts['out missed']} missed; "
                f"{self.counts['in']} values taken in, {self.counts['in missed']} missed; "
                f"{self.writer.waiting} wait for Redis; {there}")

    # ---- how it begins

    def join(self) -> None:
        """Becomes a sender and a receiver, once the topic is open, and learns what is known of earlier runs."""
        pause = SOON
        while True:
            try:
                self.hub.ask(b"BIND " + self.named)
                break
            except Refused as refusal:
                if str(refusal) != "ERR 11 no-topic":  # nobody has opened it yet
                    raise
                time.sleep(pause)
                pause = min(2 * pause, AGAIN)
        self.hub.count(b"QUEUED " + self.named)  # which a watch topic refuses
        self.alarm.ask(b"BIND " + self.named)  # so that it can join even if the hub's own sender is closed
        self.take_account()
        ends = self.redis.ask(lambda it: it.hget(self.writer.ends, self.name))
        self.begin_out(ends)
        self.begin_in()
        self.hub.ask(b"PUB %s %s" % (self.account, self.state.line()))
        self.left = self.hub.count(b"LEFT " + self.named)

    def take_account(self) -> None:
        """Reads our state at the hub. An earlier bridge may still be running, or the hub may not have read all its lines."""
        life = secrets.token_hex(8)
        try:
            self.hub.ask(b"OPEN %s W %s" % (self.account, State(life).line()))
        except Refused as refusal:
            if str(refusal) != "ERR 12 exists":
                raise
        self.hub.ask(b"BIND " + self.account)
        self.hub.ask(b"SUB " + self.account)
        if self.hub.count(b"READERS " + self.account) > 1:
            tell(f"{self.topic}: waits for the end of another bridge of this name")
            while self.hub.count(b"READERS " + self.account) > 1:
                time.sleep(SOON)
        self.state = State.read(self.hub.ask(b"GET " + self.account).split(b" ", 1)[1])

    def subscribe(self, due: int) -> Optional[Traced]:
        """Joins, and returns what the topic's history has from the position `due` on. A history that is cut during these few lines does
        not show us, so it is tried again."""
        if self.words.no_trace:
            self.hub.ask(b"SUB " + self.named)
            return None
        for _ in range(5):
            mark = "".join(secrets.choice("qr") for _ in range(48))
            calls = [(b"QUEUED " if it == "q" else b"READERS ") + self.named for it in mark]
            self.hub.send(*calls, b"SUB " + self.named, b"TRACE " + self.named)
            *_, last = self.hub.replies(len(calls) + 2)
            if not last.startswith(b"OK "):
                raise Refused(last.decode())
            rows = self.hub.replies(int(last.split(b" ")[1]))
            traced = read_trace(b"\n".join(rows), mark, self.state.sender, due, self.words.hold)
            if traced:
                return traced
            self.hub.ask(b"UNSUB " + self.named)
        self.hub.ask(b"SUB " + self.named)
        tell(f"{self.topic}: its history is too short to go on from")
        return None

    def begin_out(self, ends: Optional[bytes]) -> None:
        """Continues the run before, if the hub has not been restarted since; otherwise begins a run."""
        run = read_words(ends or b"", (RUN, NUMBER, LIFE, NUMBER, NUMBER))
        is_same = run is not None and run[2] == self.state.life
        due, ours = (int(run[3]), int(run[4])) if run and is_same else (0, 0)
        traced = self.subscribe(due)
        if traced:
            self.place, self.state.sender, self.is_placed = traced.joined, traced.sender, True
        if run and is_same and traced:
            self.run, self.number = run[0], int(run[1])
            if traced.joined < due:
                raise ValueError(f"{self.writer.ends} in Redis was not written by a bridge")
            self.catch_up(traced, max(0, traced.begins - due) - (self.state.sent - ours - traced.ours))
        else:
            before = read_words(ends or b"", (RUN,))
            self.run = str(max(time.time_ns(), int(before[0]) + 1 if before else 0))  # a later run has a larger number
            is_new = run is not None and traced is not None  # the hub was restarted since the run before, so all that it has is new
            place, known = (traced.begins, self.state.sent - traced.ours) if traced and is_new else (self.place, self.state.sent)
            self.entries.append(Due(Entry(self.name, self.run, 0, 0, []), self.end(place, known)))
            if traced and is_new:
                self.catch_up(traced, 0)
        self.ours = self.state.sent
        self.hand_over("the bridge here was not running")

    def catch_up(self, traced: Traced, missed: int) -> None:
        """Carries what was sent while no bridge was running, and reports what is gone."""
        base = self.state.sent - traced.ours
        missed += traced.dropped
        if missed > 0:
            first = traced.sends[0] if traced.sends else (traced.joined, traced.ours, b"")
            self.put_gap(missed, first[0], base + first[1])
        for position, ours, value in traced.sends:
            self.put(value, position + 1, base + ours)

    def begin_in(self) -> None:
        """Finds the entry after which we continue, and the last run and number of each bridge, as our hub knows them, else as Redis
        does."""
        state, read = self.state, self.writer.read
        saved = self.redis.ask(lambda it: it.hgetall(read))
        if not saved and state.at is None:
            newest, saved = self.redis.all_at_once(lambda it: it.xrevrange(self.writer.stream, count=1),
                                                   lambda it: it.hgetall(self.writer.ends))
            saved[b":at"] = newest[0][0] if newest else b"0-0"
            tell(f"{self.topic}: begins with what is sent from now on")
        else:
            tell(f"{self.topic}: goes on where the last run ended")
        at = text(saved.pop(b":at", b"0-0"), PLACE)
        newer, state.seen = state.seen, {}
        for name, end in saved.items():
            state.see(name, end)
        state.seen.update(newer)
        if at is None:
            raise ValueError(f"{read} in Redis was not written by a bridge")
        state.at = state.at or at
        self.ahead = dict(state.seen)
        self.is_noted = False
        self.tell_redis()

    def note(self) -> dict[str, str]:
        seen = {name: f"{run} {number}" for name, (run, number) in self.state.seen.items()}
        return {":at": self.state.at or "0-0", **seen}

    # ---- from the hub to the stream

    def end(self, place: int, ours: int) -> str:
        return f"{self.run} {self.number}" + (f" {self.state.life} {place} {ours}" if self.is_placed else "")

    def put(self, value: bytes, place: int, ours: int) -> None:
        """Adds a value to those that go out. Everything below `place` is accounted for then, and `ours` of it was ours."""
        if self.values and (len(self.values) >= MOST_VALUES or self.size + len(value) > MOST_BYTES):
            self.end_entry()
        self.number += 1
        self.values.append(value)
        self.size += len(value) + 1
        self.last = place, ours

    def end_entry(self) -> None:
        if self.values:
            self.entries.append(Due(Entry(self.name, self.run, self.number, 0, self.values), self.end(*self.last)))
            self.counts["out"] += len(self.values)
            self.values, self.size = [], 0

    def put_gap(self, missed: int, place: int, ours: int) -> None:
        self.end_entry()
        self.number += missed
        self.counts["out missed"] += missed
        if self.entries and self.entries[-1].entry.missed:
            missed += self.entries.pop().entry.missed
        self.entries.append(Due(Entry(self.name, self.run, self.number, missed, []), self.end(place, ours)))

    def hand_over(self, why: str) -> None:
        self.end_entry()
        for it in self.entries:
            if it.entry.missed:
                self.tell_gap(it.entry.missed, self.name, why)
        if self.entries:
            self.writer.append(self.entries)
            self.entries = []

    def account_for(self, replies: list[bytes]) -> None:
        """Takes what our receiver got: values of others go out, ours do not."""
        for reply in replies:
            word, rest = reply[:4], reply[4:]
            if word == b"VAL ":
                if self.windows and self.place >= self.windows[0].begins:
                    self.put_in_window(rest)
                else:
                    self.place += 1
                    self.put(rest, self.place, self.ours)
            elif word == b"LAG ":
                self.pass_over(int(rest))
            elif reply != b"EMPTY":
                raise Refused(reply.decode(errors="replace"))

    def pass_over(self, missed: int) -> None:
        while missed:
            begins = self.windows[0].begins if self.windows else self.place + missed
            if self.place < begins:
                before = min(missed, begins - self.place)
                self.lag(before)
                missed -= before
            else:
                self.put_in_window(None)
                missed -= 1

    def lag(self, missed: int) -> None:
        self.place += missed
        self.put_gap(missed, self.place, self.ours)

    def put_in_window(self, value: Optional[bytes]) -> None:
        window = self.windows[0]
        window.found.append(value)
        self.place += 1
        if self.place < window.ends:
            return
        self.windows.popleft()
        self.place, missed = window.begins, 0
        for it in (*window.others(), b""):  # the last one is there only to end a gap
            if it is None:
                missed += 1
                continue
            if missed:
                self.lag(missed)
                missed = 0
            if self.place == window.ends:
                break
            self.place += 1
            if it == b"":
                self.ours += 1
            else:
                self.put(it, self.place, self.ours)

    # ---- from the stream to the hub

    def read_stream(self) -> None:
        """Hands over what the stream has, in its own thread."""
        at = self.state.at or "0-0"
        is_new = True

        def question(redis: Any) -> Any:
            nonlocal at, is_new
            if is_new:  # a Redis that has lost entries counts from an earlier point
                newest = redis.xrevrange(self.writer.stream, count=1)
                if not newest or place_of(newest[0][0]) < place_of(at.encode()):
                    at = "0-0"  # what comes twice is recognized by its number
            is_new = True
            found = redis.xread({self.writer.stream: at}, MOST_READ, 1000)
            is_new = False
            return found
        while True:
            for _, entries in self.redis.ask(question):
                self.incoming.put(entries)
                self.wake()
                at = entries[-1][0].decode()

    def gather(self) -> None:
        """Turns what has come into items, until there are enough to be sent at once."""
        while len(self.items) < PIECE_VALUES:
            try:
                entries = self.incoming.get_nowait()
            except queue.Empty:
                return
            for at, fields in entries:
                self.take(at, fields)

    def take(self, at: bytes, fields: dict[bytes, bytes]) -> None:
        entry, place = Entry.read(fields), text(at, PLACE)
        if entry is None:
            tell(f"{self.topic}: {place} in the stream is no entry of a bridge")
            return
        if entry.name != self.name:
            self.take_from(entry)
            run, number = self.ahead[entry.name]
            self.items.append(Item(None, entry.name, run, number, place))

    def take_from(self, entry: Entry) -> None:
        """Takes an entry of another bridge. The first one of a run has the number 0 and carries nothing."""
        name, run, number, values = entry.name, entry.run, entry.number, entry.values
        last_run, last = self.ahead.setdefault(name, (run, 0))
        count = entry.missed or (1 if values is None else len(values))
        before = number - count  # the number that the last one should have
        if int(run) < int(last_run):
            return  # it was read before, from a stream whose end Redis has lost
        if last_run != run:
            self.gap("?", entry, before, "its hub, or Redis, was started anew")
            last = before
        elif number <= last:
            return  # it was appended a second time
        elif before > last:
            self.gap(before - last, entry, before, "they are no longer in the stream")
            last = before
        if entry.missed:
            self.gap(number - last, entry, number, "its bridge was too slow, or not running")
        elif values is None:
            self.gap(1, entry, number, "it is no value")
        else:
            for at in range(last - before, count):
                self.items.append(Item(values[at], name, run, before + at + 1, None))
            self.ahead[name] = run, number

    def gap(self, count: object, entry: Entry, number: int, why: str) -> None:
        self.tell_gap(count, entry.name, why)
        self.counts["in missed"] += count if isinstance(count, int) else 0
        self.items.append(Item(GAP % (str(count).encode(), entry.name.encode()), entry.name, entry.run, number, None))
        self.ahead[entry.name] = entry.run, number

    def piece(self) -> list[Item]:
        """The items that are sent next."""
        items: list[Item] = []
        values, size = 0, 0
        while self.items and values < PIECE_VALUES and size < PIECE_BYTES:
            items.append(self.items.popleft())
            if items[-1].value is not None:
                values += 1
                size += len(items[-1].value) + len(self.named)
        return items

    def may_send(self) -> bool:
        """Whether more may be sent already: receivers at this hub get some time to read what has come, but not forever."""
        now = time.monotonic()
        if self.queued <= max(CALM, self.left) or now < self.rushes_until:
            self.waits_since = 0.0
            return True
        if not self.waits_since:
            self.waits_since = now
        if now - self.waits_since > GRACE:
            self.rushes_until = now + RUSH
        time.sleep(0.001)
        return False

    # ---- both

    def carry(self) -> None:
        while True:
            self.look_at_alarm()
            self.gather()
            has_room = self.writer.has_room()
            if self.items and self.may_send():
                self.send_piece(self.piece())
            elif self.left and has_room or self.items:
                self.turn([], has_room)
            else:
                self.wait(has_room)

    def send_piece(self, items: list[Item]) -> None:
        """Sends values, with the state that holds then; if there are none, only Redis needs to know it yet."""
        while items:
            before = self.state.copy()
            for it in items:
                self.state.know(it)
            values = [it.value for it in items if it.value is not None]
            refused = self.turn(values, self.writer.has_room()) if values else []
            items = self.after_refusals(items, refused, before) if refused else []
        self.is_noted = False
        if time.monotonic() > self.noted_at + NOTED:
            self.tell_redis()

    def tell_redis(self) -> None:
        """Notes in Redis how far we have read, for a hub that is restarted and so knows nothing of it."""
        if not self.is_noted:
            self.writer.note_read(self.note())
            self.is_noted, self.noted_at = True, time.monotonic()

    def after_refusals(self, items: list[Item], refused: list[int], before: State) -> list[Item]:
        """Some of the values were refused, as when the hub has no memory. Returns what is to be sent now: those behind which none was
        taken; and for the others, which would arrive out of order, that they are missing."""
        at = [index for index, it in enumerate(items) if it.value is not None]
        taken = [index for nth, index in enumerate(at) if nth not in refused]
        behind = taken[-1] + 1 if taken else 0
        again = [it._replace(value=GAP % (b"1", it.name.encode()), number=items[behind - 1].number, at=None)
                 for nth, it in ((nth, items[index]) for nth, index in enumerate(at)) if nth in refused and at[nth] < behind]
        for it in again:
            self.tell_gap(1, it.name, "the hub here refused it")
        self.state = before
        for it in items[:behind]:
            self.state.know(it)
        self.state.sent -= sum(1 for nth in refused if at[nth] < behind)
        self.hub.ask(b"PUB %s %s" % (self.account, self.state.line()))
        time.sleep(AGAIN)
        return [*again, *items[behind:]]

    def turn(self, values: list[bytes], takes: bool) -> list[int]:
        """One exchange with the hub: sends these values, with the state, and takes what has come. Returns which values were refused."""
        topic, count = self.named, min(self.left + len(values), TAKEN) if takes else 0
        look, sent = b"LEFT " + topic, [b"PUB %s %s" % (topic, it) for it in values]
        if values:
            sent = [look, *sent, b"PUB %s %s" % (self.account, self.state.line()), look]
        looks = [b"QUEUED " + topic, look] if values or self.items else [look]  # each is an event of the topic's history
        self.hub.send(*sent, *[b"TRY " + topic] * count, *looks)
        replies = self.hub.replies(len(sent) + count + len(looks))
        refused = self.open_window(values, replies[:len(sent)]) if values else []
        self.account_for(replies[len(sent):-len(looks)])
        self.queued, self.left = (int(it.split(b" ")[1]) for it in (replies[-len(looks)], replies[-1]))
        self.hand_over("the bridge here was too slow")
        return refused

    def open_window(self, values: list[bytes], replies: list[bytes]) -> list[int]:
        """Notes where our values are, and returns which of them were refused."""
        before, *told, account, after = replies
        sent = [it for it, reply in zip(values, told) if reply.startswith(b"OK ")]
        refused = [nth for nth, reply in enumerate(told) if not reply.startswith(b"OK ")]
        if sent:
            self.windows.append(Window(self.place + int(before[3:]), self.place + int(after[3:]), sent))
        if refused:
            tell(f"{self.topic}: {told[refused[0]].decode()}; it is tried again")
        elif account != b"OK":
            raise Refused(account.decode())
        self.counts["in"] += len(sent)
        return refused

    # ---- waits

    def arm(self) -> None:
        """Has the hub wake us when something is sent, by a second session, so that our own can send meanwhile."""
        self.alarm.send(b"SUB " + self.named, b"NEXT " + self.named)
        self.is_armed = True
        if self.alarm.replies(1)[0] != b"OK":
            raise ConnectionError("the hub refuses a second receiver")

    def look_at_alarm(self) -> None:
        if self.is_armed and (self.alarm.came or select.select([self.alarm.socket], [], [], 0)[0]):
            self.alarm.replies(1)
            self.is_armed = False
            self.alarm.ask(b"UNSUB " + self.named)  # otherwise the hub would keep for it what it has not read

    def wait(self, has_room: bool) -> None:
        """Waits until the hub or the stream has something, or there is room."""
        self.tell_redis()
        if has_room and not self.is_armed:
            self.arm()
            self.left = self.hub.count(b"LEFT " + self.named)  # it may have come before
            if self.left:
                return
        ears = [self.woken, self.hub.socket, *([self.alarm.socket] if has_room else [])]
        ready = select.select(ears, [], [])[0]
        if self.woken in ready:
            os.read(self.woken, 4096)
        if self.hub.socket in ready:
            self.hub.read()  # it sends nothing unasked, so it has ended
            raise ConnectionError("the hub has sent more replies than it was asked for")
        if self.alarm.socket in ready:
            self.left = max(self.left, 1)


def place_of(at: bytes) -> tuple[int, int]:
    """The place of an entry in its stream, in a form that can be compared."""
    time_of, _, number = at.partition(b"-")
    return int(time_of), int(number)


def run(words: argparse.Namespace, redis: Away) -> None:
    """Runs both directions of each topic, until one fails."""
    faults: queue.SimpleQueue[str] = queue.SimpleQueue()
    topics = [Topic(words, it, redis) for it in words.topics]

    def begin(topic: Topic, work: Callable[[], None]) -> None:
        def go() -> None:
            try:
                work()
            except Exception as fault:
                faults.put(f"{topic.topic}: {fault}")
        threading.Thread(target=go, daemon=True).start()

    def both(topic: Topic) -> None:
        begin(topic, topic.writer.run)
        topic.join()
        begin(topic, topic.read_stream)
        tell(f"{topic.topic}: has joined")
        topic.carry()

    def tell_all(*_: object) -> None:
        for it in topics:
            tell(it.status())

    signal.signal(signal.SIGUSR1, tell_all)
    signal.signal(signal.SIGTERM, lambda *_: sys.exit(0))
    for it in topics:
        begin(it, lambda it=it: both(it))  # type: ignore[misc]
    while True:
        try:
            sys.exit(f"bridge: {faults.get(timeout=words.status)}")
        except queue.Empty:
            tell_all()


def main() -> None:
    about = argparse.ArgumentParser(prog="topichub-bridge", description=__doc__.partition("\nexit status")[0],
                                    epilog="exit status" + __doc__.partition("\nexit status")[2],
                                    formatter_class=argparse.RawDescriptionHelpFormatter)
    about.add_argument("path", metavar="PATH", help="the hub's socket, as in: topichub serve PATH --at-once 64")
    about.add_argument("name", metavar="NAME", help="the name of this hub's bridge, as in: east")
    about.add_argument("topics", metavar="TOPIC", nargs="+", help="broadcast topics")
    about.add_argument("--redis", metavar="URL", default="redis://localhost:6379",
                       help="as redis://host:port or unix:///path; %(default)s if left out")
    about.add_argument("--keep", metavar="N", type=int, default=100_000,
                       help=f"entries that a stream keeps, or some more; %(default)s if left out. An entry has up to {MOST_VALUES} values, "
                            f"of {MOST_BYTES} bytes")
    about.add_argument("--hold", metavar="N", type=int, default=20_000,
                       help="values that wait here while Redis is away, or some more; %(default)s if left out")
    about.add_argument("--status", metavar="SECONDS", type=float, help="print the counters this often")
    about.add_argument("--no-trace", action="store_true", help="take no TRACE, so that others lack nothing of the topics' histories")
    words = about.parse_args()
    for name in (words.name, *words.topics):
        if not NAME.fullmatch(name):
            about.error(f"{name!r} is no name: 1 to 32 of a to z, 0 to 9, _ and -")
    try:
        redis = importlib.import_module("redis")
    except ImportError:
        sys.exit(f"bridge: {sys.executable} has no module `redis`, which is in Debian's package python3-redis")
    try:
        run(words, Away(redis, words.redis))
    except KeyboardInterrupt:
        pass
    except OSError as fault:
        sys.exit(f"bridge: {words.path}: {fault.strerror}; does `serve` listen there?")


if __name__ == "__main__":
    main()
