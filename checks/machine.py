"""A plain second reader of traces: the two machines of docs/CHANNELS.md, which keep all that was ever sent, and the lines of
docs/FORMATS.md, "Traces". It shares nothing with the crates, and is as slow as it is short.

`verdict(text)` is ("legal", entries), ("illegal", line) or ("bad", line), lines counted from 1; `read(text)` is the trace
itself, where it is legal.
"""
import re

LONGEST = 4096
MOST_ENTRIES = 1_000_000
MOST_OF_A_KIND = 65_535
TOP = 2**64 - 1
NUMBER = re.compile(rb"0|[1-9][0-9]{0,19}")


class Bad(Exception):
    """The line is none that may stand there."""


def need(holds):
    if not holds:
        raise Bad


def number(field):
    need(NUMBER.fullmatch(field))
    need(int(field) <= TOP)
    return int(field)


def value(field):
    need(1 <= len(field) <= 1024 and b"\r" not in field)
    return field


def lines_of(text):
    """The lines; None stands for one that is too long."""
    *ended, last = text.split(b"\n")
    lines = [(line[:-1] if line.endswith(b"\r") else line) if len(line) <= LONGEST else None for line in ended]
    if last:
        lines.append(last if len(last) <= LONGEST else None)
    return lines


# ---- what both kinds have in common

class Channel:
    """Live senders and receivers, and the number of the next handle. A receiver's number stands beside its place or mark."""

    def __init__(self):
        self.senders, self.receivers, self.next = [], {}, 1

    def new(self, of_kind):
        """The number of a new handle of a kind of which so many are live, or None."""
        if of_kind >= MOST_OF_A_KIND or self.next == TOP:
            return None
        self.next += 1
        return self.next - 1

    def new_receiver(self, place):
        made = self.new(len(self.receivers))
        if made is None:
            return b"too-many"
        self.receivers[made] = place
        return b"new-rx %d" % made

    def step(self, call, handle, given):
        """The reply to a call, and the state after it."""
        if handle not in (self.senders if call in self.BY_SENDER else self.receivers):
            return b"no-handle"
        if call == b"clone-tx":
            made = self.new(len(self.senders))
            if made is None:
                return b"too-many"
            self.senders.append(made)
            return b"new-tx %d" % made
        if call == b"drop-tx":
            self.senders.remove(handle)
            return b"done"
        if call == b"drop-rx":
            del self.receivers[handle]
            return b"done"
        if call == b"readers":
            return b"count %d" % len(self.receivers)
        return self.other(call, handle, given)

    def is_ready(self, call, handle):
        return call not in self.WAITS or not self.would_wait(handle)


class Broadcast(Channel):
    BY_SENDER = (b"send", b"subscribe", b"subscribe-oldest", b"clone-tx", b"drop-tx", b"queued", b"readers")
    BY_RECEIVER = (b"try-recv", b"recv", b"resubscribe", b"drop-rx", b"left")
    VALUED = (b"send",)
    WAITS = (b"recv",)
    REPLIES = (b"empty", b"closed", b"done", b"too-many")
    NUMBERED = (b"sent", b"lagged", b"new-rx", b"new-tx", b"count")
    TELLING = (b"value",)

    def __init__(self, capacity):
        super().__init__()
        self.capacity, self.tail, self.values = capacity, 0, {}

    def low(self):
        """The least position that is kept, or the tail."""
        return max(self.tail - self.capacity, min(self.receivers.values())) if self.receivers else self.tail

    def kept(self):
        return [self.values[at] for at in range(self.low(), self.tail)]

    def would_wait(self, handle):
        return handle in self.receivers and self.receivers[handle] == self.tail and self.senders

    def receive(self, handle):
        place, oldest = self.receivers[handle], self.tail - self.capacity
        if place == self.tail:
            return b"empty" if self.senders else b"closed"
        if place < oldest:
            self.receivers[handle] = oldest
            return b"lagged %d" % (oldest - place)
        self.receivers[handle] = place + 1
        return b"value " + self.values[place]

    def other(self, call, handle, given):
        if call == b"send":
            if not self.receivers:
                return b"no-receivers"
            if self.tail == TOP:
                return b"exhausted"
            self.values[self.tail] = given
            self.tail += 1
            return b"sent %d" % len(self.receivers)
        if call in (b"try-recv", b"recv"):
            return self.receive(handle)
        if call in (b"subscribe", b"resubscribe"):
            return self.new_receiver(self.tail)
        if call == b"subscribe-oldest":
            return self.new_receiver(self.low())
        return b"count %d" % (self.tail - (self.low() if call == b"queued" else self.receivers[handle]))

    def picture(self):
        return (self.capacity, self.low(), self.tail, self.next, self.kept(), self.senders, self.receivers)


class Watch(Channel):
    BY_SENDER = (b"send", b"replace", b"set", b"differ", b"quiet", b"subscribe", b"clone-tx", b"drop-tx", b"is-closed", b"readers")
    BY_RECEIVER = (b"borrow", b"take", b"has-changed", b"try-changed", b"changed", b"mark-changed", b"mark-unchanged",
                   b"clone-rx", b"drop-rx")
    VALUED = (b"send", b"replace", b"set", b"differ", b"quiet")
    WAITS = (b"changed",)
    REPLIES = (b"done", b"modified yes", b"modified no", b"changed yes", b"changed no", b"marked", b"not-yet", b"closed",
               b"gone yes", b"gone no", b"too-many")
    NUMBERED = (b"new-rx", b"new-tx", b"count")
    TELLING = (b"was", b"shown new", b"shown same")

    def __init__(self):
        super().__init__()
        self.version, self.newest = 1, None

    def is_unseen(self, handle):
        return self.receivers[handle] < self.version

    def would_wait(self, handle):
        return handle in self.receivers and not self.is_unseen(handle) and self.senders

    def publish(self, given, told):
        if self.version == TOP:
            return b"exhausted"
        self.version, self.newest = self.version + 1, given
        return told

    def other(self, call, handle, given):
        if call == b"send":
            return self.publish(given, b"done") if self.receivers else b"no-receivers"
        if call == b"replace":
            return self.publish(given, b"was " + self.newest)
        if call == b"set" or call == b"differ" and given != self.newest:
            return self.publish(given, b"modified yes")
        if call in (b"differ", b"quiet"):
            self.newest = given
            return b"modified no"
        if call in (b"borrow", b"take"):
            told = (b"shown new " if self.is_unseen(handle) else b"shown same ") + self.newest
            if call == b"take":
                self.receivers[handle] = self.version
            return told
        if call == b"has-changed":
            return (b"changed yes" if self.is_unseen(handle) else b"changed no") if self.senders else b"closed"
        if call in (b"try-changed", b"changed"):
            if self.is_unseen(handle):
                self.receivers[handle] = self.version
                return b"marked"
            return b"not-yet" if self.senders else b"closed"
        if call in (b"mark-changed", b"mark-unchanged"):
            self.receivers[handle] = 0 if call == b"mark-changed" else self.version
            return b"done"
        if call == b"subscribe":
            return self.new_receiver(self.version)
        if call == b"clone-rx":
            return self.new_receiver(self.receivers[handle])
        return b"gone no" if self.receivers else b"gone yes"

    def picture(self):
        unseen = {handle: self.is_unseen(handle) for handle in self.receivers}
        return (self.version, self.next, self.newest, self.senders, unseen)


# ---- the lines

class Reader:
    """Takes a trace's lines one by one."""

    def __init__(self):
        self.channel, self.take = None, self.head
        self.entries, self.call = 0, None
        self.start, self.calls = None, []

    def head(self, line):
        fields = line.split(b" ")
        need(fields[0] == b"TRACE" and len(fields) in (3, 4))
        self.version = fields[1]
        if len(fields) == 3:
            need(fields[1:] == [b"1", b"W"])
            self.channel = Watch()
        else:
            need(fields[1] in (b"1", b"2") and fields[2] == b"B")
            capacity = number(fields[3])
            need(1 <= capacity <= 65_536 and capacity & (capacity - 1) == 0)
            self.channel = Broadcast(capacity)
        self.take = self.at

    def at(self, line):
        fields = line.split(b" ")
        is_broadcast = isinstance(self.channel, Broadcast)
        need(fields[0] == b"AT" and len(fields) == (5 if is_broadcast else 4) and fields[-2] == b"NEXT")
        numbers = [number(field) for field in fields[1:-2]]
        self.channel.next = number(fields[-1])
        need(self.channel.next >= 1)
        if is_broadcast:
            self.first, self.channel.tail = numbers
            need(self.first <= self.channel.tail <= self.first + self.channel.capacity)
            self.told, self.due = self.first, self.channel.tail
        else:
            (self.channel.version,) = numbers
            need(self.channel.version >= 1)
            self.told, self.due = 0, 1
        self.take = self.below

    def below(self, line):
        """KEEP, TX, RX, BEGIN."""
        channel = self.channel
        word, _, rest = line.partition(b" ")
        if word == b"KEEP":
            need(self.told < self.due and b" " in line)
            kept = value(rest)
            if isinstance(channel, Broadcast):
                channel.values[self.told] = kept
            else:
                channel.newest = kept
            self.told += 1
            return
        need(self.told == self.due)
        if line == b"BEGIN":
            if isinstance(channel, Broadcast):
                need(self.first == channel.low())
            self.start, self.take = repr(channel.picture()), self.call_line
        elif word == b"TX":
            handle = number(rest)
            need(not channel.receivers and 0 < handle < channel.next and len(channel.senders) < MOST_OF_A_KIND)
            need(not channel.senders or channel.senders[-1] < handle)
            channel.senders.append(handle)
        else:
            fields = line.split(b" ")
            need(word == b"RX" and len(fields) == 3)
            handle = number(fields[1])
            need(0 < handle < channel.next and len(channel.receivers) < MOST_OF_A_KIND)
            need(all(other < handle for other in channel.receivers) and handle not in channel.senders)
            if isinstance(channel, Broadcast):
                place = number(fields[2])
                need(place <= channel.tail)
            else:
                need(fields[2] in (b"seen", b"unseen"))
                place = channel.version if fields[2] == b"seen" else 0
            channel.receivers[handle] = place

    def call_line(self, line):
        if line.startswith(b"END "):
            need(number(line[4:]) == self.entries)
            self.take = self.after
            return
        need(line.startswith(b"C ") and self.entries < MOST_ENTRIES)
        word, _, rest = line[2:].partition(b" ")
        channel = self.channel
        need(word in channel.BY_SENDER + channel.BY_RECEIVER and b" " in line[2:])
        need(word != b"subscribe-oldest" or self.version == b"2")
        handle, space, given = rest.partition(b" ")
        need(bool(space) == (word in channel.VALUED))
        self.call = (word, number(handle), value(given) if space else None)
        self.take = self.reply_line

    def reply_line(self, line):
        """False where the reply is of good form, and not the machine's."""
        need(line.startswith(b"R "))
        reply, channel = line[2:], self.channel
        word, _, rest = reply.rpartition(b" ") if not reply.startswith(channel.TELLING) else (b"", b"", b"")
        if reply in (b"no-receivers", b"exhausted"):
            need(self.call[2] is not None)
        elif reply == b"no-handle" or reply in channel.REPLIES:
            pass
        elif word in channel.NUMBERED:
            number(rest)
        else:
            told = [word for word in channel.TELLING if reply.startswith(word + b" ")]
            need(told)
            value(reply[len(told[0]) + 1:])
        if not channel.is_ready(*self.call[:2]) or channel.step(*self.call) != reply:
            return False
        self.calls.append((self.call, reply))
        self.entries += 1
        self.take = self.call_line
        return True

    def after(self, line):
        raise Bad


def judged(text):
    """The verdict, with the reader that gave it."""
    reader = Reader()
    lines = lines_of(text)
    for at, line in enumerate(lines, 1):
        try:
            need(line is not None)
            if reader.take(line) is False:
                return ("illegal", at), reader
        except Bad:
            return ("bad", at), reader
    if reader.take != reader.after:
        return ("bad", len(lines) + 1), reader
    return ("legal", reader.entries), reader


def verdict(text):
    return judged(text)[0]


def read(text):
    """A legal trace: its reader, with `start` (the first picture), `calls` and `channel` (as it is at the end)."""
    told, reader = judged(text)
    if told[0] != "legal":
        raise ValueError(f"{told[0]} {told[1]}")
    return reader
