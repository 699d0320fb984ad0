"""What both kinds of channels have in common: the library's channel under a lock, the waits, and what is recorded."""
from __future__ import annotations

import asyncio
import contextlib
import ctypes
import functools
import threading
import weakref
from collections import deque
from types import TracebackType
from typing import Any, Callable, Iterator, NoReturn, Optional, Type, TypeVar

from ._library import Handle, Reply, Status, library, text_of
from ._limit import Limit
from .answers import BadCapacity, BadLimit, ChannelError, Empty, Exhausted, HandleClosed, HistoryFull, TooMany

A = TypeVar("A")
H = TypeVar("H", bound="Held")

FIRST_SENDER = 1
LATE = "nothing came in time"
# An entry for the first receiver, and the drops of that one and of the first sender.
LEAST_LIMIT = 3


class Waiters:
    """Those who wait for news, each represented by the function that wakes it. Used under the lock of a channel."""

    def __init__(self) -> None:
        self._wakes: dict[int, Callable[[], None]] = {}
        self._next = 0

    def add(self, wake: Callable[[], None]) -> int:
        self._next += 1
        self._wakes[self._next] = wake
        return self._next

    def remove(self, number: int) -> None:
        self._wakes.pop(number, None)

    def take(self) -> list[Callable[[], None]]:
        """All that wait, to be woken once the lock is released."""
        taken, self._wakes = list(self._wakes.values()), {}
        return taken


class Core:
    """A channel of the library, which takes one call at a time: each call below is made within `turn`.

    The garbage collector may find a handle in the middle of a call. So its drop is only noted, and is carried out by the caller that
    holds the lock then, or takes it next.
    """

    def __init__(self, kind: str, argument: int, more: int, limit: Optional[int]) -> None:
        self._prefix = f"topichub_{kind}_"
        self._handle = Handle()
        self._lock = threading.Lock()
        self._full: deque[Handle] = deque()  # parts of the history that were cut because they were full
        self._found: deque[tuple[str, int]] = deque()
        self._is_recorded = limit is not None
        self._senders, self._receivers = 1, 0
        self.waiting, self.leaving = Waiters(), Waiters()
        if limit is not None and limit < LEAST_LIMIT:
            raise BadLimit
        words = (argument, more) if limit is None else (argument, more, limit)
        made = self._function("new" if limit is None else "new_recorded")(ctypes.byref(self._handle), *words)
        if made != Status.DONE:
            refuse(made)
        # When the process exits, its handles may still be in use, and freeing it would gain nothing.
        weakref.finalize(self, self._function("free"), ctypes.byref(self._handle)).atexit = False

    def _function(self, name: str) -> Any:
        return getattr(library(), self._prefix + name)

    @contextlib.contextmanager
    def turn(self) -> Iterator[None]:
        """Holds the lock. Values that are released must be kept alive within it, since their finalizers may run any code."""
        try:
            with self._lock:
                yield
        finally:
            self._drop_found()

    def call(self, name: str, *numbers: int) -> Reply:
        """Makes a call. If the history has no room for it, the next segment begins."""
        reply: Reply = self._function(name)(ctypes.byref(self._handle), *numbers)
        if reply.status == Status.LOG_FULL:
            self._full.append(self._cut())
            reply = self._function(name)(ctypes.byref(self._handle), *numbers)
        return reply

    def ask(self, name: str, wanted: Status, number: int) -> int:
        """The number of the reply, which must have this status."""
        reply = self.call(name, number)
        if reply.status != wanted:
            refuse(reply.status)
        return int(reply.number)

    def new_sender(self, number: int) -> int:
        made = self._make("clone_tx", Status.NEW_TX, number, "senders")
        self._senders += 1
        return made

    def new_receiver(self, name: str, number: int) -> int:
        made = self._make(name, Status.NEW_RX, number, "receivers")
        self._receivers += 1
        return made

    def _make(self, name: str, wanted: Status, number: int, handles: str) -> int:
        try:
            return self.ask(name, wanted, number)
        except TooMany:
            raise TooMany(f"the channel has 65,535 {handles}, the most that it can have") from None

    def drop(self, name: str, number: int) -> tuple[int, list[Callable[[], None]]]:
        """Drops a handle, by `drop_tx` or `drop_rx`. Returns how many values are released, and what wakes those that waited for it."""
        reply = self.call(name, number)
        if reply.status == Status.NOT_OPEN:  # the garbage collector has found the channel first
            return 0, []
        if reply.status != Status.DONE:
            refuse(reply.status)
        if name == "drop_tx":
            self._senders -= 1
            return reply.let_go, [] if self._senders else self.waiting.take()
        self._receivers -= 1
        return reply.let_go, [] if self._receivers else self.leaving.take()

    def let_go(self, count: int) -> object:
        """Takes out the oldest values that are kept, as many as the library has released."""
        raise NotImplementedError

    def drop_now(self, name: str, number: int) -> None:
        with self.turn():
            count, woken = self.drop(name, number)
            gone = self.let_go(count)
        wake_all(woken)
        del gone

    def drop_later(self, name: str, number: int) -> None:
        """Like `drop_now`, for the garbage collector."""
        self._found.append((name, number))
        self._drop_found()

    def _drop_found(self) -> None:
        # If the lock is held, its holder comes by here after it has released it.
        while self._found and self._lock.acquire(blocking=False):
            gone, woken = [], []
            try:
                while self._found:
                    count, calls = self.drop(*self._found.popleft())
                    gone.append(self.let_go(count))
                    woken += calls
            finally:
                self._lock.release()
            wake_all(woken)
            del gone

    def _cut(self) -> Handle:
        trace = Handle()
        status = self._function("cut")(ctypes.byref(self._handle), ctypes.byref(trace))
        if status != Status.DONE:
            refuse(status)
        return trace

    def trace(self) -> str:
        """The next segment of the recorded history."""
        if not self._is_recorded:
            raise ValueError("the channel was made without `recorded`")
        with self.turn():
            segment = self._full.popleft() if self._full else self._cut()
        return text_of(segment)


class Held:
    """A sender or a receiver: a number of a channel, which is dropped once."""

    _drop = "drop_tx"
    _is_open = False
    _id = 0

    def __init__(self, channel: Core, number: int) -> None:
        self._channel = channel
        self._id = number
        self._is_open = True

    def close(self) -> None:
        """Closes this handle. Closing it again does nothing; any other use of it raises `HandleClosed`."""
        if self._is_open:
            self._is_open = False
            self._channel.drop_now(self._drop, self._id)

    def __enter__(self: H) -> H:
        return self

    def __exit__(self, kind: Optional[Type[BaseException]], fault: Optional[BaseException],
                 at: Optional[TracebackType]) -> None:
        self.close()

    def __del__(self) -> None:
        if self._is_open:
            self._channel.drop_later(self._drop, self._id)

    def __repr__(self) -> str:
        return f"<{type(self).__name__} {self._id}{'' if self._is_open else ', closed'}>"


def refuse(status: int) -> NoReturn:
    """Raises the error for a status that is not a result."""
    if status == Status.TOO_MANY:
        raise TooMany
    if status == Status.NO_MEMORY:
        raise MemoryError("memory was refused")
    if status == Status.NO_HANDLE:
        raise HandleClosed
    if status == Status.BAD_CAPACITY:
        raise BadCapacity
    if status == Status.BAD_LIMIT:
        raise BadLimit
    if status == Status.EXHAUSTED:
        raise Exhausted
    if status == Status.LOG_FULL:
        raise HistoryFull
    raise RuntimeError(f"libtopichub answered with the status {status}, which this call does not have")


def wake_all(wakes: list[Callable[[], None]]) -> None:
    for wake in wakes:
        wake()


def many(first: A, more: Callable[[], A], most: int) -> list[A]:
    """The first result and those that follow, at most `most`, until one is not available. The next call reports why."""
    found = [first]
    with contextlib.suppress(ChannelError, MemoryError):
        while len(found) < most:
            found.append(more())
    return found


def wait(core: Core, waiters: Waiters, attempt: Callable[[], A], timeout: Optional[float]) -> A:
    """The result of `attempt`, which is made within a turn, and again after each wake while it raises `Empty`. Raises
    `TimeoutError` after this many seconds. Only an attempt takes anything, so a wait that ends in another way loses nothing."""
    limit = Limit(timeout)
    while True:
        woken = threading.Event()
        with core.turn():
            with contextlib.suppress(Empty):
                return attempt()
            number = waiters.add(woken.set)
        try:
            if not woken.wait(limit.left()):
                raise TimeoutError(LATE)
        except BaseException:
            _leave(core, waiters, number)
            raise


async def wait_async(core: Core, waiters: Waiters, attempt: Callable[[], A], timeout: Optional[float]) -> A:
    """Like `wait`, for an asyncio task."""
    limit, loop = Limit(timeout), asyncio.get_running_loop()
    while True:
        woken: asyncio.Future[bool] = loop.create_future()
        with core.turn():
            with contextlib.suppress(Empty):
                return attempt()
            number = waiters.add(functools.partial(_wake_task, woken))
        left = limit.left()
        timer = None if left is None else loop.call_later(left, _resolve, woken, False)
        try:
            if not await woken:
                raise TimeoutError(LATE)
        except BaseException:
            _leave(core, waiters, number)
            raise
        finally:
            if timer:
                timer.cancel()


def _leave(core: Core, waiters: Waiters, number: int) -> None:
    with core.turn():
        waiters.remove(number)


def _wake_task(woken: asyncio.Future[bool]) -> None:
    """Wakes a task, from any thread."""
    with contextlib.suppress(RuntimeError):  # its loop has been closed
        woken.get_loop().call_soon_threadsafe(_resolve, woken, True)


def _resolve(woken: asyncio.Future[bool], is_news: bool) -> None:
    if not woken.done():
        woken.set_result(is_news)
