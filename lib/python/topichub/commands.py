"""The commands of `topichub serve`: the line of each, and the meaning of its reply.

Each function of this module makes a `Command`, which `Client.ask` and `AsyncClient.ask` carry out.

    hub.ask(commands.send("news", b"one"))

The name of a topic is a `str`. A value is `bytes`, since it need not be text: 1 to 1,024 bytes, without LF and CR. A `str` value
needs a client that was made with an `encoding`; other clients refuse it with `TypeError` before anything is sent.

A sender or a receiver belongs to the session: at most one of each on each topic. docs/FORMATS.md in the repository describes every
command and when it is refused. A refusal raises `Refused`, or one of its subclasses such as `NoTopic`.
"""
from __future__ import annotations

import re
from dataclasses import dataclass, field, replace
from typing import Callable, Generic, Optional, TypeVar, Union

from .answers import Closed, Empty, Lagged, MayHaveMissed, NoReceivers, ProtocolError, Shown, refusal

T = TypeVar("T")

__all__ = ["Command", "LONGEST_VALUE", "Reply", "bind", "borrow", "borrow_and_update", "changed", "edit_differ", "edit_quiet", "edit_set",
           "end", "has_changed", "left", "mark_changed", "mark_unchanged", "open_broadcast", "open_watch", "queued", "quit_session",
           "raw", "receiver_count", "recv", "reply_of", "resubscribe", "send", "send_replace", "subscribe", "topics", "trace",
           "try_changed", "try_recv", "unbind", "unsubscribe"]

Value = Union[bytes, bytearray, memoryview, str]

LONGEST_VALUE = 1_024
NO_RECEIVERS = 17
# What stands in place of a count where nobody has counted: a client says so to itself after it has reconnected.
UNKNOWN = b"?"
_NAME = re.compile(r"[a-z0-9_-]{1,32}")
_LONGEST_NUMBER = 2**64 - 1


@dataclass(frozen=True)
class Reply:
    """A reply of the hub: its first line, split at the first space, and the lines below it."""

    word: bytes
    rest: bytes = b""
    rows: tuple[bytes, ...] = ()

    @property
    def line(self) -> bytes:
        """Its first line, without the line end."""
        return self.word + b" " + self.rest if self.rest else self.word


@dataclass(frozen=True)
class Command(Generic[T]):
    """A line for the hub, and the function that reads its reply, which returns `None` if the reply does not fit the command.

    If `text` is set, it is a value that has still to be encoded, and the line ends before it.
    """

    line: bytes
    read: Callable[[Reply], Optional[T]] = field(repr=False)
    has_rows: bool = field(default=False, repr=False)
    text: Optional[str] = None

    def encoded(self, encoding: Optional[str]) -> Command[T]:
        """The command with its whole line. Raises `TypeError` if its value is a `str` and there is no encoding."""
        if self.text is None:
            return self
        if encoding is None:
            raise TypeError(f"a value is bytes, and {self.text!r} is a str: send {self.text!r}.encode(), or make the client with "
                            "encoding='utf-8'")
        return replace(self, line=self.line + _checked(self.text.encode(encoding)), text=None)

    def count_rows(self, reply: Reply) -> int:
        """How many lines follow this first line of the reply."""
        return (_count(reply) or 0) if self.has_rows else 0

    def answer(self, reply: Reply) -> T:
        """The meaning of the reply. Raises the error that it stands for."""
        if reply.word == b"ERR":
            _refuse(reply)
        told = self.read(reply)
        if told is None:
            raise ProtocolError(self.line, reply.line)
        return told


class _Raw(Command[Reply]):
    """A command whose reply is not interpreted."""

    def answer(self, reply: Reply) -> Reply:
        return reply


def reply_of(line: bytes) -> Reply:
    """The reply with this first line, given without its line end."""
    word, _, rest = line.partition(b" ")
    return Reply(word, rest)


def _refuse(reply: Reply) -> None:
    """Raises the error of a refusal. A reply without a number is not one."""
    code, _, word = reply.rest.partition(b" ")
    if not code.isdigit():
        return
    if int(code) == NO_RECEIVERS:
        raise NoReceivers
    raise refusal(int(code), word.decode(errors="backslashreplace"))


# ---- the fields of a line


def _name(topic: str) -> bytes:
    if not isinstance(topic, str):
        raise TypeError(f"the name of a topic is a str, and {topic!r} is not")
    if not _NAME.fullmatch(topic):
        raise ValueError(f"a name has 1 to 32 of a to z, 0 to 9, _ and -, and {topic!r} does not")
    return topic.encode()


def _number(number: int) -> bytes:
    if not 0 <= number <= _LONGEST_NUMBER:
        raise ValueError(f"a number is from 0 to 2**64 - 1, and {number} is not")
    return b"%d" % number


def _checked(value: bytes) -> bytes:
    if not 1 <= len(value) <= LONGEST_VALUE:
        raise ValueError(f"a value has 1 to {LONGEST_VALUE:,} bytes, and this one has {len(value):,}")
    if b"\n" in value or b"\r" in value:
        raise ValueError("a value has neither LF nor CR")
    return value


def _with_value(line: bytes, value: Value, read: Callable[[Reply], Optional[T]]) -> Command[T]:
    """The command whose line ends with this value."""
    if isinstance(value, str):
        return Command(line, read, text=value)
    try:
        value = bytes(memoryview(value))  # `bytes` of a number would be that many zeros
    except TypeError:
        raise TypeError(f"a value is bytes, and {value!r} is not") from None
    return Command(line + _checked(value), read)


# ---- what replies mean


def _done(reply: Reply) -> Optional[bool]:
    return True if (reply.word, reply.rest) == (b"OK", b"") else None


def _bye(reply: Reply) -> Optional[bool]:
    return True if reply.word == b"BYE" else None


def _count(reply: Reply) -> Optional[int]:
    return int(reply.rest) if reply.word == b"OK" and reply.rest.isdigit() else None


def _sent(reply: Reply) -> Optional[int]:
    """The number of receivers; 0 for a watch topic, whose reply has no number."""
    return 0 if _done(reply) else _count(reply)


def _received(reply: Reply) -> Optional[bytes]:
    if reply.word == b"LAG" and reply.rest.isdigit():
        raise Lagged(int(reply.rest))
    if (reply.word, reply.rest) == (b"LAG", UNKNOWN):
        raise MayHaveMissed
    if reply.word == b"EMPTY":
        raise Empty
    if reply.word == b"CLOSED":
        raise Closed
    return reply.rest if reply.word == b"VAL" else None


def _was(reply: Reply) -> Optional[bytes]:
    return reply.rest if reply.word == b"WAS" else None


def _yes(reply: Reply) -> Optional[bool]:
    if reply.word == b"CLOSED":
        raise Closed
    return {b"YES": True, b"NO": False}.get(reply.word)


def _changed(reply: Reply) -> Optional[bool]:
    if reply.word == b"CLOSED":
        raise Closed
    return {b"CHANGED": True, b"NOTYET": False}.get(reply.word)


def _shown(reply: Reply) -> Optional[Shown[bytes]]:
    if reply.word not in (b"NEW", b"SAME"):
        return None
    return Shown(reply.rest, reply.word == b"NEW")


def _topics(reply: Reply) -> Optional[dict[str, str]]:
    if _count(reply) is None:
        return None
    rows = (row.decode().partition(" ") for row in reply.rows)
    return {topic: kind for topic, _, kind in rows}


def _trace(reply: Reply) -> Optional[bytes]:
    return None if _count(reply) is None else b"".join(row + b"\n" for row in reply.rows)


# ---- topics


def open_broadcast(topic: str, capacity: int, base: int = 0) -> Command[int]:
    """Opens a broadcast topic that keeps this many values, 1 to 65,536.

    The answer is the capacity in force: the next power of two. The first value has the position `base`. Raises `TopicExists`.
    """
    at = b" AT " + _number(base) if base else b""
    return Command(b"OPEN " + _name(topic) + b" B " + _number(capacity) + at, _count)


def open_watch(topic: str, value: Value) -> Command[int]:
    """Opens a watch topic with this value. The answer is its version, 1. Raises `TopicExists`."""
    return _with_value(b"OPEN " + _name(topic) + b" W ", value, _count)


def end(topic: str) -> Command[bool]:
    """Closes the hub's own sender. The topic is closed once the last sender of a session is closed too."""
    return Command(b"END " + _name(topic), _done)


def topics() -> Command[dict[str, str]]:
    """The topics in the order in which they were opened, each with `B` for broadcast or `W` for watch."""
    return Command(b"LIST", _topics, has_rows=True)


def trace(topic: str) -> Command[bytes]:
    """What has happened on the topic since its last trace, as `topichub check` reads it. The next trace starts after it."""
    return Command(b"TRACE " + _name(topic), _trace, has_rows=True)


def quit_session() -> Command[bool]:
    """Ends the session, and closes all its senders and receivers."""
    return Command(b"QUIT", _bye)


def raw(line: bytes) -> Command[Reply]:
    """Any line of the protocol, without its line end. The answer is the reply, unchanged, and no refusal is raised.

    The lines below the first line of a reply to `LIST` and `TRACE` are in its `rows`.
    """
    if b"\n" in line or b"\r" in line or not line:
        raise ValueError(f"{line!r} is not one line")
    return _Raw(line, lambda reply: reply, has_rows=line.partition(b" ")[0] in (b"LIST", b"TRACE"))


# ---- senders and receivers


def bind(topic: str) -> Command[bool]:
    """Makes this session a sender on the topic. Raises `AlreadyHeld`, `TopicClosed`."""
    return Command(b"BIND " + _name(topic), _done)


def unbind(topic: str) -> Command[bool]:
    """Closes this session's sender on the topic. Raises `NotHeld`."""
    return Command(b"UNBIND " + _name(topic), _done)


def subscribe(topic: str, oldest: bool = False) -> Command[bool]:
    """Makes this session a receiver of what is sent from now on; with `oldest`, on a broadcast topic, also of what is still kept.

    Raises `AlreadyHeld`, `TopicClosed`.
    """
    return Command(b"SUB " + _name(topic) + (b" OLDEST" if oldest else b""), _done)


def unsubscribe(topic: str) -> Command[bool]:
    """Closes this session's receiver on the topic. Raises `NotHeld`."""
    return Command(b"UNSUB " + _name(topic), _done)


def resubscribe(topic: str) -> Command[bool]:
    """Replaces this session's receiver on a broadcast topic with one for what is sent from now on. Raises `NotHeld`."""
    return Command(b"RESUB " + _name(topic), _done)


def receiver_count(topic: str) -> Command[int]:
    """How many receivers the topic has, in all sessions."""
    return Command(b"READERS " + _name(topic), _count)


# ---- values


def send(topic: str, value: Value) -> Command[int]:
    """Sends a value. The answer is how many receivers will get it; on a watch topic, where the hub does not say, 0.

    Raises `NoReceivers`, `NotHeld`.
    """
    return _with_value(b"PUB " + _name(topic) + b" ", value, _sent)


def recv(topic: str) -> Command[bytes]:
    """The next value of a broadcast topic. The hub answers once there is one, and no other command of the session until then.

    Raises `Lagged`, `Closed`, `NotHeld`; after a reconnect `MayHaveMissed`.
    """
    return Command(b"NEXT " + _name(topic), _received)


def try_recv(topic: str) -> Command[bytes]:
    """The next value, if there is one. Raises `Empty` and what `recv` raises.

    While a `recv` that was given up has no reply yet, it raises `Empty` at once.
    """
    return Command(b"TRY " + _name(topic), _received)


def left(topic: str) -> Command[int]:
    """How many values this session's receiver has not received yet, including those that it has missed."""
    return Command(b"LEFT " + _name(topic), _count)


def queued(topic: str) -> Command[int]:
    """How many values a broadcast topic keeps."""
    return Command(b"QUEUED " + _name(topic), _count)


# ---- watch topics


def send_replace(topic: str, value: Value) -> Command[bytes]:
    """Publishes a value, even if there is no receiver. The answer is the value before it."""
    return _with_value(b"SWAP " + _name(topic) + b" ", value, _was)


def edit_set(topic: str, value: Value) -> Command[bool]:
    """Publishes a value, even if there is no receiver."""
    return _with_value(b"EDIT " + _name(topic) + b" SET ", value, _yes)


def edit_differ(topic: str, value: Value) -> Command[bool]:
    """Publishes a value if it differs from the newest one. The answer is whether it did."""
    return _with_value(b"EDIT " + _name(topic) + b" DIFFER ", value, _yes)


def edit_quiet(topic: str, value: Value) -> Command[bool]:
    """Replaces the newest value without notifying the receivers. The answer is `False`."""
    return _with_value(b"EDIT " + _name(topic) + b" QUIET ", value, _yes)


def borrow(topic: str) -> Command[Shown[bytes]]:
    """The newest value, and whether it is unseen. It stays unseen."""
    return Command(b"GET " + _name(topic), _shown)


def borrow_and_update(topic: str) -> Command[Shown[bytes]]:
    """The newest value, and whether it was unseen. It is seen from then on."""
    return Command(b"TAKE " + _name(topic), _shown)


def has_changed(topic: str) -> Command[bool]:
    """Whether the newest value is unseen. Raises `Closed`."""
    return Command(b"HAS " + _name(topic), _yes)


def changed(topic: str) -> Command[bool]:
    """Waits until the newest value is unseen, and marks it as seen. The hub answers no other command of the session until then.

    Raises `Closed`.
    """
    return Command(b"CHANGED " + _name(topic), _changed)


def try_changed(topic: str) -> Command[bool]:
    """Marks the newest value as seen, without waiting. The answer is whether it was unseen. Raises `Closed`.

    While a `changed` that was given up has no reply yet, the answer is `False` at once.
    """
    return Command(b"TRYCHANGED " + _name(topic), _changed)


def mark_changed(topic: str) -> Command[bool]:
    """Makes the newest value unseen by this session's receiver."""
    return Command(b"MARK " + _name(topic), _done)


def mark_unchanged(topic: str) -> Command[bool]:
    """Marks the newest value as seen by this session's receiver."""
    return Command(b"UNMARK " + _name(topic), _done)
