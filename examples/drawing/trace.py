"""Reads a trace, the answer to TRACE (docs/FORMATS.md, "Traces").

What a reply tells is taken as it is: whether it is right, `topichub check` says.
"""

SHOWN = 60  # letters shown of a line that is wrong

SENDER_CALLS = {
    "B": ("send", "subscribe", "subscribe-oldest", "clone-tx", "drop-tx", "queued", "readers"),
    "W": ("send", "replace", "set", "differ", "quiet", "subscribe", "clone-tx", "drop-tx", "is-closed", "readers"),
}
RECEIVER_CALLS = {
    "B": ("try-recv", "recv", "resubscribe", "drop-rx", "left"),
    "W": ("borrow", "take", "has-changed", "try-changed", "changed", "mark-changed", "mark-unchanged", "clone-rx", "drop-rx"),
}
NUMBERED = ("sent", "lagged", "new-rx", "new-tx", "count")  # replies that tell a number


class NoTrace(Exception):
    """What is wrong with the input, in words."""


def number(word):
    if not (word.isascii() and word.isdigit()):
        raise ValueError
    return int(word)


def printable(text):
    """The text with a mark in place of each letter that is not shown."""
    if text.isprintable():
        return text
    return "".join(letter if letter.isprintable() else "\ufffd" for letter in text)


class Entry:
    """A call by a handle, with a value or "", and the reply: its word, and what it tells."""

    def __init__(self, count, kind, line):
        self.count, self.call_line = count, printable(line)
        self.call, handle, *value = line[2:].split(" ", 2)
        self.handle = number(handle)
        self.value = printable(value[0]) if value else ""
        self.by_sender = self.call in SENDER_CALLS[kind]
        if not line.startswith("C ") or not (self.by_sender or self.call in RECEIVER_CALLS[kind]):
            raise ValueError
        self.reply_line = self.said = self.told = ""

    def answer(self, line):
        self.reply_line = printable(line)
        self.said, _, told = line[2:].partition(" ")
        self.told = printable(told)
        if not line.startswith("R "):
            raise ValueError
        if self.said in NUMBERED:
            number(told)

    @property
    def made(self):
        """The number of the handle that it made, or None."""
        return int(self.told) if self.said in ("new-rx", "new-tx") else None


class Trace:
    """The picture that a trace begins with, and its entries."""

    def __init__(self, kind, capacity):
        self.kind, self.capacity = kind, capacity
        self.low = self.next = 0  # the first kept position or version, and the next one
        self.kept, self.senders, self.receivers = [], [], []
        self.entries = []

    def picture_line(self, line):
        word, _, rest = line.partition(" ")
        fields = rest.split(" ")
        if word == "AT" and fields[-2:-1] == ["NEXT"]:
            self.low = number(fields[0])
            self.next = number(fields[1]) if self.kind == "B" else self.low + 1
        elif word == "KEEP":
            self.kept.append(printable(rest))
        elif word == "TX":
            self.senders.append(number(rest))
        elif word == "RX" and self.kind == "B":
            self.receivers.append((number(fields[0]), number(fields[1])))
        elif word == "RX" and fields[1] in ("seen", "unseen"):
            self.receivers.append((number(fields[0]), fields[1] == "seen"))
        else:
            raise ValueError


class Lines:
    """The lines one by one, with the number of the last one taken, from 1."""

    def __init__(self, text):
        self.rest = iter(text.removesuffix("\n").split("\n"))
        self.at, self.last = 0, ""

    def take(self):
        line = next(self.rest, None)
        if line is None:
            raise NoTrace("the trace has no end: its last line, END and the number of entries, is missing")
        self.at, self.last = self.at + 1, line.removesuffix("\r")
        return self.last


def begun(lines):
    """The trace that the first line of one begins."""
    try:
        while not (line := lines.take()).startswith("TRACE "):
            pass
    except NoTrace:
        raise NoTrace("there is no trace in the input, which begins with a line such as `TRACE 1 B 2`") from None
    fields = line.split(" ")
    if fields[2:] == ["W"]:
        return Trace("W", 1)
    if len(fields) != 4 or fields[2] != "B":
        raise ValueError
    return Trace("B", number(fields[3]))


def read_picture(lines, trace):
    while (line := lines.take()) != "BEGIN":
        trace.picture_line(line)


def read_entries(lines, trace):
    while not (line := lines.take()).startswith("END "):
        trace.entries.append(Entry(len(trace.entries) + 1, trace.kind, line))
        trace.entries[-1].answer(lines.take())
    if number(line[4:]) != len(trace.entries):
        raise ValueError


def read(text):
    """The first trace in the text."""
    lines = Lines(text)
    try:
        trace = begun(lines)
        read_picture(lines, trace)
        read_entries(lines, trace)
    except (ValueError, IndexError):
        line = printable(lines.last[:SHOWN]) + ("\u2026" if len(lines.last) > SHOWN else "")
        raise NoTrace(f"line {lines.at} of the input is none that may stand there in a trace: {line}") from None
    return trace
