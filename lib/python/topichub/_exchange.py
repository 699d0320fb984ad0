"""What a session with a hub has asked and has not been answered yet, independent of how bytes are moved.

The hub answers the lines of a session in their order. So a command that was given up, because its time was up or its task was
cancelled, still gets its reply, and that reply may have taken something from the hub: a value, the news of a change, a segment of the
history. None of that is lost. A reply that took something goes to the oldest command that still wants the same from the same topic;
if there is none, it is kept for the next one, which is then answered without being sent.

A command is also not sent while a line for the same thing, for which nobody waits any more, is on its way. It waits for that line, and is
sent only if the reply took nothing. So no line waits at the hub for a value that nobody wants, unless a `recv` or a `changed` was given
up.
"""
from __future__ import annotations

import asyncio
from collections import deque
from typing import Any, Callable, Generator, Iterable, Optional, TypeVar

from . import commands
from .answers import Busy, ChannelError, Reconnected
from .commands import Command, Reply, reply_of

A = TypeVar("A")

TAKE = b"TAKE"
VALUES, NEWS, TRACE = "values", "news", "trace"
# What each verb takes by its reply, and the first words of the replies that do so.
TAKING = {b"NEXT": VALUES, b"TRY": VALUES, b"CHANGED": NEWS, b"TRYCHANGED": NEWS, TAKE: NEWS, b"TRACE": TRACE}
TOOK = {VALUES: (b"VAL", b"LAG"), NEWS: (b"CHANGED", b"NEW"), TRACE: (b"OK",)}
# The verbs on which the hub waits; and those that ask for the same without waiting, with the reply that there is nothing.
WAITING = (b"NEXT", b"CHANGED")
NOT_WAITING = {b"TRY": (b"NEXT", Reply(b"EMPTY")), b"TRYCHANGED": (b"CHANGED", Reply(b"NOTYET"))}
NEWS_CAME = Reply(b"CHANGED")
MAY_HAVE_MISSED = Reply(b"LAG", commands.UNKNOWN)
DONE = Reply(b"OK")
BUSY = b"24"

Key = tuple[str, bytes]


class Asked:
    """A command that somebody waits for, and its reply once there is one."""

    __slots__ = ("command", "told", "verb", "topic", "wants", "sent", "reply", "number")

    def __init__(self, command: Command[Any], told: Optional[asyncio.Future[None]]) -> None:
        self.command, self.told = command, told
        self.verb, _, rest = command.line.partition(b" ")
        self.topic = rest.partition(b" ")[0]
        what = TAKING.get(self.verb)
        # What another command may have taken for this one. `TAKE` shows the newest value, so it needs its own reply.
        self.wants: Optional[Key] = (what, self.topic) if what and self.verb != TAKE else None
        self.sent: Optional[Sent] = None  # the line whose reply is its own
        self.reply: Optional[Reply] = None
        self.number = 0  # of the reply, in the order in which the replies came

    def answer(self, reply: Reply, number: int) -> None:
        self.reply, self.number = reply, number
        self.wake()

    def wake(self) -> None:
        """Wakes the task that waits, with or without a reply."""
        if self.told and not self.told.done():
            self.told.set_result(None)

    def result(self) -> Any:
        """The meaning of the reply, which has arrived."""
        if self.reply is None:
            raise RuntimeError("the reply has not come")
        return self.command.answer(self.reply)


class Sent:
    """A line that was sent and has not been answered yet, and the command that waits for its reply, if any."""

    __slots__ = ("asked", "owner")

    def __init__(self, asked: Asked) -> None:
        self.asked = asked
        self.owner: Optional[Asked] = asked


def took(verb: bytes, topic: bytes, reply: Reply) -> Optional[Key]:
    """What a reply took from the hub."""
    what = TAKING.get(verb)
    return (what, topic) if what and reply.word in TOOK[what] else None


class Exchange:
    """The commands and replies of one session, and after a reconnect those of the next one."""

    def __init__(self, encoding: Optional[str]) -> None:
        self.encoding = encoding
        self.out = bytearray()  # what is still to be sent
        self.has_ended = False
        self._came = b""  # the beginning of a line
        self._first: Optional[Reply] = None  # a reply of which further lines are still to come
        self._rows: list[bytes] = []
        self._row_count = 0  # how many further lines it has in all
        self._sent: deque[Sent] = deque()
        self.free: dict[Sent, None] = {}  # those of them for whose replies nobody waits
        self._wanting: dict[Key, deque[Asked]] = {}
        self._kept: dict[Key, list[tuple[int, Reply]]] = {}
        self._count = 0
        self._senders: dict[bytes, None] = {}
        self._receivers: dict[bytes, None] = {}
        self._unanswered: tuple[bytes, ...] = ()  # lines of sessions before this one

    # ---- commands

    def encoded(self, commands: Iterable[Command[A]]) -> list[Command[A]]:
        """The commands with their whole lines. If one of them cannot be sent, it raises before any is sent."""
        return [it.encoded(self.encoding) for it in commands]

    def ask(self, command: Command[Any], told: Optional[asyncio.Future[None]] = None) -> Asked:
        """Begins a command: it is answered from what is kept, or waits for a line that was already sent, or is sent."""
        asked = Asked(command.encoded(self.encoding), told)
        wants = asked.wants
        if wants is None:
            return self._send(asked)
        if self._kept.get(wants):
            number, reply = self._kept[wants].pop(0)
            asked.answer(reply, number)
            return asked
        free = self._free_for(wants) if self.free else []
        waiting, nothing = NOT_WAITING.get(asked.verb, (None, None))
        if nothing and any(it.asked.verb == waiting for it in free):
            asked.answer(nothing, 0)
            return asked
        self._wanting.setdefault(wants, deque()).append(asked)
        if not free:
            return self._send(asked)
        self._own(free[0], asked)
        return asked

    def _free_for(self, wants: Key) -> list[Sent]:
        """The lines on their way for which nobody waits, and whose replies may take the same thing."""
        return [it for it in self._sent if it.owner is None and (TAKING.get(it.asked.verb), it.asked.topic) == wants]

    def _own(self, sent: Sent, owner: Optional[Asked]) -> None:
        """From now on this command, or none, waits for the reply to this line."""
        sent.owner = owner
        if owner:
            owner.sent = sent
            self.free.pop(sent, None)
        else:
            self.free[sent] = None

    def _send(self, asked: Asked) -> Asked:
        asked.sent = Sent(asked)
        self._sent.append(asked.sent)
        self.out += asked.command.line + b"\n"
        return asked

    def give_up(self, asked: Asked) -> None:
        """Nobody waits for this command any more."""
        wanting = self._wanting.get(asked.wants) if asked.wants else None
        if wanting and asked in wanting:
            wanting.remove(asked)
        if asked.sent:
            self._own(asked.sent, None)
            asked.sent = None
        key = took(asked.verb, asked.topic, asked.reply) if asked.reply else None
        if key and asked.reply:
            self._hand_over(key, asked.number, asked.reply, None)

    def give_up_others(self, asked: list[Asked], answered: int) -> None:
        """Nobody waits for these commands any more. That many of them were answered, and the next one raised the error of its reply."""
        for number, it in enumerate(asked):
            if number != answered or it.reply is None:
                self.give_up(it)

    def given_up(self) -> tuple[bytes, ...]:
        """The lines that were sent and given up, and have no reply yet."""
        return tuple(it.asked.command.line for it in self._sent if it.owner is None)

    def why_late(self, asked: Asked) -> str:
        """What to say when the time of a command is up."""
        ahead = next((it.asked for it in self._sent if it.asked.verb in WAITING), None)
        text = f"there was no reply to {asked.command.line!r} in time"
        if ahead is None or ahead.command.line == asked.command.line:
            return text
        return f"{text}: the hub still waits for a value to answer {ahead.command.line!r}, and answers nothing before"

    # ---- replies

    def come(self, data: bytes) -> None:
        """Takes bytes that the hub has sent. Raises `ConnectionError` if they are no reply to a line that was sent."""
        *lines, self._came = (self._came + data).split(b"\n")
        for line in lines:
            if self._first is None:
                self._first = reply_of(line)
                if not self._sent:
                    raise ConnectionError("the hub sent what nobody asked for") from self._refusal()
                self._row_count = self._sent[0].asked.command.count_rows(self._first)
            else:
                self._rows.append(line)
            if len(self._rows) >= self._row_count:
                reply = Reply(self._first.word, self._first.rest, tuple(self._rows)) if self._rows else self._first
                self._first, self._rows = None, []
                self._come(self._sent.popleft(), reply)

    def _refusal(self) -> Optional[Busy]:
        is_busy = self._first and self._first.word == b"ERR" and self._first.rest.partition(b" ")[0] == BUSY
        return Busy(int(BUSY), "busy") if is_busy else None

    def _come(self, sent: Sent, reply: Reply) -> None:
        self._count += 1
        verb, topic, owner = sent.asked.verb, sent.asked.topic, sent.owner
        self.free.pop(sent, None)
        if owner:
            owner.sent = None
        reply = self._with_kept(verb, topic, reply)
        self._note_handles(verb, topic, reply)
        key = took(verb, topic, reply)
        if key and not (verb == TAKE and owner is sent.asked):
            self._hand_over(key, self._count, reply, owner)
        elif owner is sent.asked:
            if owner.wants:
                self._wanting[owner.wants].remove(owner)
            owner.answer(reply, self._count)
        elif owner:  # it took nothing, so the command that waited for it is sent
            self._send(owner)

    def _hand_over(self, key: Key, number: int, reply: Reply, owner: Optional[Asked]) -> None:
        """Gives what a reply took to the first command that waits for it, or keeps it. If that is not the owner of the reply, the owner
        waits for the line of the first one instead."""
        reply = NEWS_CAME if key[0] == NEWS else reply
        wanting = self._wanting.get(key)
        if wanting:
            first = wanting.popleft()
            if first.sent:
                self._own(first.sent, owner)
                first.sent = None
            first.answer(reply, number)
        elif key[0] != NEWS or not self._kept.get(key):  # there is news, or there is none: it is not counted
            kept = self._kept.setdefault(key, [])
            kept.append((number, reply))
            kept.sort(key=lambda it: it[0])

    def _with_kept(self, verb: bytes, topic: bytes, reply: Reply) -> Reply:
        """The reply that the hub would give if what is kept were still there."""
        if not self._kept:
            return reply
        news = self._kept.get((NEWS, topic))
        if verb == b"LEFT" and reply.word == b"OK" and reply.rest.isdigit():
            missed = (int(it.rest) if it.word == b"LAG" else 1 for _, it in self._kept.get((VALUES, topic), ()) if it != MAY_HAVE_MISSED)
            return Reply(b"OK", b"%d" % (int(reply.rest) + sum(missed)))
        if news and (verb, reply.word) == (b"HAS", b"NO"):
            return Reply(b"YES")
        if news and verb in (b"GET", TAKE) and reply.word == b"SAME":
            reply = Reply(b"NEW", reply.rest)
        if verb == TAKE or verb in (b"MARK", b"UNMARK") and reply == DONE:
            self._kept.pop((NEWS, topic), None)
        return reply

    def _note_handles(self, verb: bytes, topic: bytes, reply: Reply) -> None:
        """Keeps track of what the session holds."""
        if verb == b"QUIT" and reply.word == b"BYE":
            self._senders, self._receivers = {}, {}
        if reply.word != b"OK" or reply.rest:
            return
        if verb in (b"SUB", b"UNSUB", b"RESUB"):  # what is kept was for the receiver before
            self._kept.pop((VALUES, topic), None)
            self._kept.pop((NEWS, topic), None)
        if verb == b"SUB":
            self._receivers[topic] = None
        elif verb == b"BIND":
            self._senders[topic] = None
        elif verb in (b"UNSUB", b"UNBIND"):
            (self._receivers if verb == b"UNSUB" else self._senders).pop(topic, None)

    # ---- the end of a session, and the next one

    def end(self) -> None:
        """Wakes all that still wait: they get no reply."""
        self.has_ended = True
        for it in self._sent:
            if it.owner:
                it.owner.wake()

    def renewed(self) -> Exchange:
        """The exchange of the next session. It takes over what is kept, and what is to be held again."""
        other = Exchange(self.encoding)
        other._kept, other._count = self._kept, self._count
        other._senders, other._receivers = self._senders, self._receivers
        other._unanswered = self._unanswered + tuple(it.asked.command.line for it in self._sent)
        return other

    def hold_again(self) -> Generator[Command[Any], Any, Reconnected]:
        """The commands by which a new session gets the senders and receivers of the old one. Each is to be answered with the meaning
        of its reply, or with the `ChannelError` that it raises."""
        lost: dict[str, ChannelError] = {}
        steps: list[tuple[dict[bytes, None], Callable[[str], Command[bool]]]]
        steps = [(self._senders, commands.bind), (self._receivers, commands.subscribe)]
        for held, command in steps:
            for topic in list(held):
                kept = self._kept.get((VALUES, topic), []) if held is self._receivers else []
                answer = yield command(topic.decode())
                if isinstance(answer, ChannelError):
                    del held[topic]
                    lost[topic.decode()] = answer
                elif held is self._receivers:
                    answer = yield commands.mark_changed(topic.decode())
                    if isinstance(answer, ChannelError):  # it is a broadcast topic
                        self._count += 1
                        gap = [] if kept and kept[-1][1] == MAY_HAVE_MISSED else [(self._count, MAY_HAVE_MISSED)]
                        self._kept[VALUES, topic] = kept + gap
        unanswered, self._unanswered = self._unanswered, ()
        return Reconnected(tuple(it.decode() for it in self._senders), tuple(it.decode() for it in self._receivers), lost, unanswered)
