"""What a call on a channel returns or raises, both in this process and through `topichub serve`."""
from __future__ import annotations

from dataclasses import dataclass, field
from typing import Any, Generic, Mapping, TypeVar

__all__ = ["AlreadyHeld", "BadCapacity", "BadLimit", "Busy", "ChannelError", "Closed", "Empty", "Exhausted", "HandleClosed",
           "HistoryFull", "Lagged", "MayHaveMissed", "NoReceivers", "NotHeld", "NoTopic", "PartlySent", "ProtocolError",
           "Reconnected", "Refused", "Shown", "TooMany", "TooManyAtHub", "TopicClosed", "TopicExists", "Verdict", "WrongKind"]

T = TypeVar("T")


@dataclass(frozen=True)
class Shown(Generic[T]):
    """The newest value of a watch channel, and whether this receiver had not seen it before."""

    value: T
    unseen: bool


@dataclass(frozen=True)
class Verdict:
    """The result of `check`: `legal` with the number of entries, or `illegal` or `bad` with the number of the first line that is
    wrong or missing, counted from 1."""

    word: str
    number: int


@dataclass(frozen=True)
class Reconnected:
    """The result of `reconnect`: what the new session holds, and what is not known about the old one.

    The hub keeps no record of a session. What was sent between the two sessions was not received, and nobody knows how much that
    was.
    """

    senders: tuple[str, ...] = ()
    """The topics on which the client is a sender again."""

    receivers: tuple[str, ...] = ()
    """The topics on which the client is a receiver again. On a broadcast topic the next receive raises `MayHaveMissed`, once. On a
    watch topic the newest value counts as unseen."""

    lost: Mapping[str, ChannelError] = field(default_factory=dict)
    """The topics on which a sender or receiver was refused, with the refusal: `NoTopic` if the hub has been restarted."""

    unanswered: tuple[bytes, ...] = ()
    """The lines of the old session that got no reply. They may or may not have been carried out."""


class ChannelError(Exception):
    """The base class of the errors that this package defines."""

    def __reduce__(self) -> tuple[Any, ...]:
        return _again, (type(self), self.args, self.__dict__)


def _again(kind: type[ChannelError], words: tuple[Any, ...], more: dict[str, Any]) -> ChannelError:
    """Restores an error in another process: its class may take other arguments."""
    fault = kind.__new__(kind, *words)
    fault.__dict__.update(more)
    return fault


class Lagged(ChannelError):
    """This receiver was too slow and missed `count` values. Its next receive continues with the oldest value that is kept."""

    def __init__(self, count: int) -> None:
        super().__init__(f"missed {count:,} {'value' if count == 1 else 'values'}")
        self.count = count


class MayHaveMissed(ChannelError):
    """The client has reconnected, and values that were sent meanwhile are missing here. Nobody knows how many, or if any were.

    It is raised once, by the first receive after the gap. The next receive continues with what was sent after the reconnect.
    """

    def __init__(self) -> None:
        super().__init__("the client has reconnected, and any number of values may be missing here")


class Empty(ChannelError):
    """There is nothing to receive yet."""

    def __init__(self) -> None:
        super().__init__("there is nothing to receive yet")


class Closed(ChannelError):
    """No sender is left, and this receiver has received all that the channel kept for it."""

    def __init__(self) -> None:
        super().__init__("no sender is left")


class NoReceivers(ChannelError):
    """There is no receiver, so the value was not kept. A later send may succeed."""

    def __init__(self) -> None:
        super().__init__("there is no receiver")


class PartlySent(ChannelError):
    """`send_many` failed after the first `sent` values had been sent. Its `__cause__` says why."""

    def __init__(self, sent: int) -> None:
        super().__init__(f"only the first {sent:,} of these values were sent")
        self.sent = sent


class TooMany(ChannelError):
    """The channel has 65,535 senders, or 65,535 receivers, which is the most that it can have. Close one to make room for another.

    Nothing has changed: the existing handles go on as before.
    """

    def __init__(self, text: str = "the channel has 65,535 handles of this kind, the most that it can have") -> None:
        super().__init__(text)


class HandleClosed(ChannelError, ValueError):
    """This sender or receiver was closed, and can no longer be used."""

    def __init__(self) -> None:
        super().__init__("this handle is closed")


class BadCapacity(ChannelError, ValueError):
    """A broadcast channel keeps 1 to 65,536 values."""

    def __init__(self) -> None:
        super().__init__("a capacity is 1 to 65,536")


class BadLimit(ChannelError, ValueError):
    """A recorded history has 3 to 1,000,000 entries."""

    def __init__(self) -> None:
        super().__init__("the limit of a history is 3 to 1,000,000")


class HistoryFull(ChannelError, OverflowError):
    """The limit of the recorded history leaves no room for another entry in addition to the drops of all handles."""

    def __init__(self) -> None:
        super().__init__("the limit of the history has no room for one entry and the drop of each live handle")


class Exhausted(ChannelError, OverflowError):
    """The channel has used its last position or version, some 2^64 of them."""

    def __init__(self) -> None:
        super().__init__("the channel has used its last position or version")


class Refused(ChannelError):
    """The hub answered `ERR code word`, and nothing has changed. The common refusals have their own subclasses."""

    def __init__(self, code: int, word: str) -> None:
        ChannelError.__init__(self, f"{code} {word}")
        self.code = code
        self.word = word


class NoTopic(Refused):
    """11: there is no topic of that name. `commands.open_broadcast` and `commands.open_watch` open one."""


class TopicExists(Refused):
    """12: a topic of that name is already open."""


class WrongKind(Refused):
    """13: the command is for the other kind of topic."""


class AlreadyHeld(Refused):
    """15: this session already has a sender (a receiver) on the topic."""


class NotHeld(Refused):
    """16: this session has no sender (no receiver) on the topic. `commands.bind` and `commands.subscribe` make one."""


class TopicClosed(Refused):
    """18: the hub's own sender on the topic is closed."""


class TooManyAtHub(Refused, TooMany):
    """19: a hub has at most 1,024 topics and 1,024 sessions at a time, and a topic 65,535 senders and 65,535 receivers."""


class Busy(Refused):
    """24: the hub has no place for another session now."""


_REFUSALS: dict[int, type[Refused]] = {11: NoTopic, 12: TopicExists, 13: WrongKind, 15: AlreadyHeld, 16: NotHeld, 18: TopicClosed,
                                       19: TooManyAtHub, 24: Busy}


def refusal(code: int, word: str) -> Refused:
    """The error for `ERR code word`."""
    return _REFUSALS.get(code, Refused)(code, word)


class ProtocolError(ChannelError):
    """The hub's reply does not fit the command that was sent. The session is of no further use."""

    def __init__(self, line: bytes, reply: bytes) -> None:
        super().__init__(f"{line!r} was answered {reply!r}")
        self.line = line
        self.reply = reply

