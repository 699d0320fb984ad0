"""A channel in which every value goes to every receiver, with the rules of Tokio's `broadcast`."""
from __future__ import annotations

import itertools
from typing import AsyncIterator, Callable, Generic, Iterable, Iterator, Optional, TypeVar

from ._core import FIRST_SENDER, Core, Held, many, refuse, wait, wait_async, wake_all
from ._library import Reply, Status
from .answers import Closed, Empty, Lagged, NoReceivers, PartlySent

__all__ = ["Broadcast", "Receiver"]

T = TypeVar("T")


class _Channel(Core, Generic[T]):
    """The channel, which holds numbers, and the values that they stand for.

    A value is stored before its number is sent, and removed after the library has released it. So a call that is interrupted never
    leaves a number without its value.
    """

    def __init__(self, capacity: int, limit: Optional[int]) -> None:
        super().__init__("broadcast", capacity, 0, limit)
        self.kept: dict[int, T] = {}  # in the order sent
        self.numbers = itertools.count()

    def let_go(self, count: int) -> object:
        return [self.kept.pop(number) for number in list(itertools.islice(self.kept, count))]

    def send(self, sender: int, value: T) -> tuple[int, object]:
        """Sends a value. Returns how many receivers there are, and what is released."""
        number = next(self.numbers)
        self.kept[number] = value
        reply = self._sent(sender, number)
        return int(reply.number), self.let_go(reply.let_go)

    def _sent(self, sender: int, number: int) -> Reply:
        try:
            reply = self.call("send", sender, number)
            if reply.status == Status.NO_RECEIVERS:
                raise NoReceivers
            if reply.status != Status.SENT:
                refuse(reply.status)
            return reply
        except Exception:
            del self.kept[number]
            raise

    def received(self, reply: Reply) -> tuple[T, object]:
        """The value that a receiver gets, and what is released. Raises the error if the reply is one."""
        if reply.status == Status.VALUE:
            return self.kept[reply.number], self.let_go(reply.let_go)
        if reply.status == Status.LAGGED:
            raise Lagged(reply.number)
        if reply.status in (Status.EMPTY, Status.WOULD_WAIT):
            raise Empty
        if reply.status == Status.CLOSED:
            raise Closed
        refuse(reply.status)


class Broadcast(Held, Generic[T]):
    """A sender of a broadcast channel. `Broadcast(capacity)` also makes the channel.

    The channel keeps the newest values: `capacity` of them, 1 to 65,536, rounded up to a power of two. It is closed when all its
    senders are closed. It has at most 65,535 senders and 65,535 receivers at a time. With `recorded` it records each call and its
    reply, at most that many entries for each `trace`.

    Threads and tasks may share a sender. Raises `BadCapacity`, `BadLimit`.

    >>> with Broadcast(2) as news:
    ...     receiver = news.subscribe()
    ...     counts = [news.send(word) for word in ("one", "two", "three")]
    >>> receiver.recv()
    Traceback (most recent call last):
    topichub.answers.Lagged: missed 1 value
    >>> list(receiver)
    ['two', 'three']
    """

    _channel: _Channel[T]

    def __init__(self, capacity: int, *, recorded: Optional[int] = None) -> None:
        super().__init__(_Channel[T](capacity, recorded), FIRST_SENDER)

    def send(self, value: T) -> int:
        """Sends a value to every receiver, and returns how many there are. Raises `NoReceivers`; a later send may succeed."""
        channel = self._channel
        with channel.turn():
            count, gone = channel.send(self._id, value)
            woken = channel.waiting.take()
        wake_all(woken)
        del gone
        return count

    def send_many(self, values: Iterable[T]) -> int:
        """Sends the values in their order, and returns how many receivers there are; 0 if there are no values.

        It is a loop of sends under one lock, after which the receivers are woken once. So no value of another sender comes between
        them. Raises `NoReceivers`, with none of them sent, and `PartlySent` if a later one cannot be sent.
        """
        channel, count, sent, gone = self._channel, 0, 0, []
        woken: list[Callable[[], None]] = []
        waiting = list(values)  # which may run any code, and so not under the lock
        try:
            with channel.turn():
                for value in waiting:
                    count, released = channel.send(self._id, value)
                    gone.append(released)
                    sent += 1
                    woken += channel.waiting.take()
        except Exception as fault:
            if not sent:
                raise
            raise PartlySent(sent) from fault
        finally:
            wake_all(woken)
        del gone
        return count

    def subscribe(self, *, oldest: bool = False) -> Receiver[T]:
        """A receiver of what is sent from now on; with `oldest`, also of what is still kept for others. Raises `TooMany`."""
        with self._channel.turn():
            number = self._channel.new_receiver("subscribe_oldest" if oldest else "subscribe", self._id)
        return Receiver(self._channel, number)

    def clone(self) -> Broadcast[T]:
        """Another sender of the same channel. Raises `TooMany`."""
        with self._channel.turn():
            number = self._channel.new_sender(self._id)
        sender: Broadcast[T] = Broadcast.__new__(Broadcast)
        Held.__init__(sender, self._channel, number)
        return sender

    def receiver_count(self) -> int:
        """How many receivers the channel has."""
        with self._channel.turn():
            return self._channel.ask("readers", Status.COUNT, self._id)

    def queued(self) -> int:
        """How many values are kept: those that some receiver has not received yet, at most as many as the capacity."""
        with self._channel.turn():
            return self._channel.ask("queued", Status.COUNT, self._id)

    def trace(self) -> str:
        """The next segment of the recorded history, which starts where the last trace ended, as `check` reads it. It has at most as many
        entries as the limit. Each value appears in it as a number; the numbers rise in the order of the sends."""
        return self._channel.trace()


class Receiver(Held, Generic[T]):
    """Receives everything that is sent to a broadcast channel after `Broadcast.subscribe` made the receiver.

    A `for` or `async for` loop over it ends when the channel is closed, and raises `Lagged` where values were missed; another loop
    continues after them. When the receiver is closed, the values that only it had still to receive are released.
    """

    _channel: _Channel[T]
    _drop = "drop_rx"

    def recv(self, timeout: Optional[float] = None) -> T:
        """The next value. The thread waits until there is one, at most `timeout` seconds.

        Raises `Lagged`, `Closed`, `TimeoutError`. After a `TimeoutError` nothing is lost: a value that comes later goes to the next
        receive.
        """
        return wait(self._channel, self._channel.waiting, lambda: self._told("recv"), timeout)[0]

    async def recv_async(self, timeout: Optional[float] = None) -> T:
        """Like `recv`, for a task. It may be cancelled: a cancelled wait has received nothing."""
        return (await wait_async(self._channel, self._channel.waiting, lambda: self._told("recv"), timeout))[0]

    def recv_many(self, most: int, timeout: Optional[float] = None) -> list[T]:
        """The values that are there, at most `most`. The thread waits until there is one, at most `timeout` seconds.

        It is a loop of receives under one lock. Raises what `recv` raises if that comes first; if it comes after a value, it is left
        to the next receive. If `most` is below 1, the list is empty at once.
        """
        if most < 1:
            return []
        return [it[0] for it in wait(self._channel, self._channel.waiting, lambda: self._told_many(most), timeout)]

    async def recv_many_async(self, most: int, timeout: Optional[float] = None) -> list[T]:
        """Like `recv_many`, for a task. It may be cancelled: a cancelled wait has received nothing."""
        if most < 1:
            return []
        return [it[0] for it in await wait_async(self._channel, self._channel.waiting, lambda: self._told_many(most), timeout)]

    def try_recv(self) -> T:
        """The next value, if there is one. Raises `Lagged`, `Empty`, `Closed`."""
        with self._channel.turn():
            told = self._told("try_recv")
        return told[0]

    def _told(self, name: str) -> tuple[T, object]:
        return self._channel.received(self._channel.call(name, self._id))

    def _told_many(self, most: int) -> list[tuple[T, object]]:
        # A lag can only come first: nobody sends in between.
        return many(self._told("recv"), lambda: self._told("recv"), most)

    def left(self) -> int:
        """How many values this receiver has not received yet, including those that it has missed."""
        with self._channel.turn():
            return self._channel.ask("left", Status.COUNT, self._id)

    def resubscribe(self) -> Receiver[T]:
        """Another receiver, of what is sent from now on. This one stays as it is. Raises `TooMany`."""
        with self._channel.turn():
            number = self._channel.new_receiver("resubscribe", self._id)
        return Receiver(self._channel, number)

    def __iter__(self) -> Iterator[T]:
        return self

    def __next__(self) -> T:
        try:
            return self.recv()
        except Closed:
            raise StopIteration from None

    def __aiter__(self) -> AsyncIterator[T]:
        return self

    async def __anext__(self) -> T:
        try:
            return await self.recv_async()
        except Closed:
            raise StopAsyncIteration from None
