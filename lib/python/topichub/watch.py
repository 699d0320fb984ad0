"""A channel that keeps only the newest value, with the rules of Tokio's `watch`."""
from __future__ import annotations

from typing import Callable, Generic, Iterable, Optional, TypeVar

from ._core import FIRST_SENDER, Core, Held, refuse, wait, wait_async, wake_all
from ._library import Status
from .answers import Closed, Empty, NoReceivers, PartlySent, Shown

__all__ = ["Watch", "WatchReceiver"]

T = TypeVar("T")


class _Channel(Core, Generic[T]):
    """The channel, which holds a number, and the newest value: the number counts the values that have replaced the first one."""

    def __init__(self, value: T, limit: Optional[int]) -> None:
        super().__init__("watch", 0, 1, limit)
        self.newest = value
        self.published = 0

    def let_go(self, count: int) -> object:
        return None

    def publish(self, name: str, number: int, value: T) -> tuple[int, T]:
        """Replaces the newest value. Returns the status, and the value that is released."""
        reply = self.call(name, number, self.published + 1)
        if not reply.let_go:
            return reply.status, value
        before, self.newest = self.newest, value
        self.published += 1
        return reply.status, before


class Watch(Held, Generic[T]):
    """A sender of a watch channel. `Watch(value)` also makes the channel, with this value.

    The channel is closed when all its senders are closed. It has at most 65,535 senders and 65,535 receivers at a time. With
    `recorded` it records each call and its reply, at most that many entries for each `trace`.

    Threads and tasks may share a sender. Raises `BadLimit`.

    >>> light = Watch("red")
    >>> reader = light.subscribe()
    >>> for color in ("amber", "green"):
    ...     light.send(color)
    >>> reader.changed()
    >>> reader.borrow()
    Shown(value='green', unseen=False)
    """

    _channel: _Channel[T]

    def __init__(self, value: T, *, recorded: Optional[int] = None) -> None:
        super().__init__(_Channel[T](value, recorded), FIRST_SENDER)

    def send(self, value: T) -> None:
        """Publishes a value, if there is a receiver. Raises `NoReceivers`; a later send may succeed."""
        if self._publish("send", lambda _: value)[0] == Status.NO_RECEIVERS:
            raise NoReceivers

    def send_many(self, values: Iterable[T]) -> None:
        """Publishes the values in their order. Receivers see only the last of them; a recorded history has them all.

        It is a loop of sends under one lock, after which the receivers are woken once. Raises `NoReceivers`, with none of them sent,
        and `PartlySent` if a later one cannot be sent.
        """
        channel, sent, gone = self._channel, 0, []
        woken: list[Callable[[], None]] = []
        waiting = list(values)  # which may run any code, and so not under the lock
        try:
            with channel.turn():
                for value in waiting:
                    status, before = channel.publish("send", self._id, value)
                    if status == Status.NO_RECEIVERS:
                        raise NoReceivers
                    if status != Status.DONE:
                        refuse(status)
                    gone.append(before)
                    sent += 1
                    woken += channel.waiting.take()
        except Exception as fault:
            if not sent:
                raise
            raise PartlySent(sent) from fault
        finally:
            wake_all(woken)
        del gone

    def send_replace(self, value: T) -> T:
        """Publishes a value, even if there is no receiver, and returns the one before."""
        return self._publish("replace", lambda _: value)[1]

    def send_modify(self, change: Callable[[T], T]) -> None:
        """Publishes `change(newest)`, even if there is no receiver. `change` must not use the channel."""
        self._publish("set", change)

    def send_quietly(self, change: Callable[[T], T]) -> None:
        """Replaces the newest value with `change(newest)` without notifying the receivers. `change` must not use the channel."""
        self._publish("quiet", change)

    def _publish(self, name: str, change: Callable[[T], T]) -> tuple[int, T]:
        channel = self._channel
        with channel.turn():
            status, before = channel.publish(name, self._id, change(channel.newest))
            woken = [] if status in (Status.NO, Status.NO_RECEIVERS) else channel.waiting.take()
        wake_all(woken)
        if status not in (Status.DONE, Status.WAS, Status.YES, Status.NO, Status.NO_RECEIVERS):
            refuse(status)
        return status, before

    def subscribe(self) -> WatchReceiver[T]:
        """A receiver, which counts the newest value as seen. Raises `TooMany`."""
        with self._channel.turn():
            number = self._channel.new_receiver("subscribe", self._id)
        return WatchReceiver(self._channel, number)

    def clone(self) -> Watch[T]:
        """Another sender of the same channel. Raises `TooMany`."""
        with self._channel.turn():
            number = self._channel.new_sender(self._id)
        sender: Watch[T] = Watch.__new__(Watch)
        Held.__init__(sender, self._channel, number)
        return sender

    def receiver_count(self) -> int:
        """How many receivers the channel has."""
        with self._channel.turn():
            return self._channel.ask("readers", Status.COUNT, self._id)

    def is_closed(self) -> bool:
        """Whether no receiver is left."""
        with self._channel.turn():
            return self._is_gone()

    def wait_closed(self, timeout: Optional[float] = None) -> None:
        """Waits until no receiver is left, at most `timeout` seconds. Raises `TimeoutError`."""
        wait(self._channel, self._channel.leaving, self._gone, timeout)

    async def wait_closed_async(self, timeout: Optional[float] = None) -> None:
        """Like `wait_closed`, for a task. It may be cancelled."""
        await wait_async(self._channel, self._channel.leaving, self._gone, timeout)

    def _is_gone(self) -> bool:
        reply = self._channel.call("is_closed", self._id)
        if reply.status not in (Status.YES, Status.NO):
            refuse(reply.status)
        return bool(reply.status == Status.YES)

    def _gone(self) -> None:
        if not self._is_gone():
            raise Empty

    def trace(self) -> str:
        """The next segment of the recorded history, which starts where the last trace ended, as `check` reads it. It has at most as many
        entries as the limit. Each value appears in it as a number: 0 is the first value, and each later one has the next number."""
        return self._channel.trace()


class WatchReceiver(Held, Generic[T]):
    """Sees the newest value, and learns of each change. `Watch.subscribe` makes it.

    The newest value is unseen by a receiver until the receiver has marked it as seen, which `changed` and `borrow_and_update` do.
    """

    _channel: _Channel[T]
    _drop = "drop_rx"

    def borrow(self) -> Shown[T]:
        """The newest value, and whether it is unseen. It stays unseen."""
        return self._look("borrow")

    def borrow_and_update(self) -> Shown[T]:
        """The newest value, and whether it was unseen. It is seen from then on."""
        return self._look("take")

    def _look(self, name: str) -> Shown[T]:
        with self._channel.turn():
            reply = self._channel.call(name, self._id)
            if reply.status not in (Status.NEW, Status.SAME):
                refuse(reply.status)
            return Shown(self._channel.newest, bool(reply.status == Status.NEW))

    def has_changed(self) -> bool:
        """Whether the newest value is unseen. Raises `Closed` if no sender is left."""
        with self._channel.turn():
            reply = self._channel.call("has_changed", self._id)
        if reply.status == Status.CLOSED:
            raise Closed
        if reply.status not in (Status.YES, Status.NO):
            refuse(reply.status)
        return bool(reply.status == Status.YES)

    def changed(self, timeout: Optional[float] = None) -> None:
        """Waits until the newest value is unseen, at most `timeout` seconds, and marks it as seen.

        Raises `Closed`, `TimeoutError`. After a `TimeoutError` nothing is marked: the next call learns of a value that comes later.
        """
        wait(self._channel, self._channel.waiting, self._told, timeout)

    async def changed_async(self, timeout: Optional[float] = None) -> None:
        """Like `changed`, for a task. It may be cancelled: a cancelled wait has marked nothing."""
        await wait_async(self._channel, self._channel.waiting, self._told, timeout)

    def _told(self) -> None:
        reply = self._channel.call("changed", self._id)
        if reply.status == Status.WOULD_WAIT:
            raise Empty
        if reply.status == Status.CLOSED:
            raise Closed
        if reply.status != Status.MARKED:
            refuse(reply.status)

    def mark_changed(self) -> None:
        """Makes the newest value unseen by this receiver."""
        with self._channel.turn():
            self._channel.ask("mark_changed", Status.DONE, self._id)

    def mark_unchanged(self) -> None:
        """Marks the newest value as seen by this receiver."""
        with self._channel.turn():
            self._channel.ask("mark_unchanged", Status.DONE, self._id)

    def clone(self) -> WatchReceiver[T]:
        """Another receiver, which has seen the newest value if this one has. Raises `TooMany`."""
        with self._channel.turn():
            number = self._channel.new_receiver("clone_rx", self._id)
        return WatchReceiver(self._channel, number)
