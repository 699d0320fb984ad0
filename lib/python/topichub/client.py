"""Clients of `topichub serve`: one that blocks its thread, and one for asyncio tasks.

    from topichub import Client, commands

    with Client("hub.socket") as hub:
        hub.ask(commands.open_broadcast("news", 4))
        hub.ask(commands.bind("news"))
        hub.ask(commands.subscribe("news"))
        hub.ask(commands.send("news", b"one"))
        print(hub.ask(commands.recv("news"), timeout=5))

A connection is a session: when it ends, the hub closes all its senders and receivers.

Waits with a timeout. A wait raises the built-in `TimeoutError` when its time is up. A waiting task may be cancelled. Either way the
command has been sent and cannot be taken back. The hub answers it when it can, and the late reply is treated as follows.

- `recv`, `try_recv`: the late reply, a value or a lag, goes to the next `recv` or `try_recv` on the same topic. So no value is lost, and
  each comes in its place. `left` counts such values too.
- `changed`, `try_changed`, `borrow_and_update`: if the late reply marked a value as seen, the change has still to be reported. The next
  `changed` or `try_changed` on the topic reports it; until then `has_changed` returns `True`, and `borrow` and `borrow_and_update` show
  the newest value as unseen.
- `trace`: the late reply, a segment of the history, goes to the next `trace` on the same topic.
- All others: the late reply is dropped. A `send` that was given up may or may not have been carried out. To learn which, do not give it
  up: `Client.send` and `Client.answer(timeout)` let a reply wait, and so does `asyncio.wait({task}, timeout=..)`, which cancels nothing.

While the hub waits for a value to answer `recv` or `changed`, it answers no other command of the session. After such a command was given
up, the next one of the same kind and topic waits for the same reply; `try_recv` raises `Empty` and `try_changed` returns `False` at once;
any other command waits behind it, or until its own time is up. `given_up` shows the commands that the hub has still to answer. To
continue at once, use a second client, or `reconnect`.
"""
from __future__ import annotations

import asyncio
import contextlib
import select
import socket
import struct
from collections import deque
from types import TracebackType
from typing import Any, Iterable, Literal, Optional, Type, TypeVar, Union, overload

from ._exchange import Asked, Exchange
from ._limit import Limit
from .answers import ChannelError, Reconnected
from .commands import Command

__all__ = ["AsyncClient", "Client"]

A = TypeVar("A")

ENDED = "the hub has ended the session"
CLOSED = "the client was closed"
NOT_ACCEPTED = "the hub did not accept the connection in time"
AT_ONCE = 65_536  # bytes that are read at once
LONGEST = 1e9  # seconds that the system is told to wait, at most
PAUSE = 0.01  # seconds until a task tries again to connect


def _check_encoding(encoding: Optional[str]) -> Optional[str]:
    if encoding is not None:
        "".encode(encoding)  # raises LookupError where there is none of that name
    return encoding


def _result(asked: Asked, return_exceptions: bool) -> Any:
    try:
        return asked.result()
    except ChannelError as fault:
        if not return_exceptions:
            raise
        return fault


def _connected(path: str, limit: Limit) -> socket.socket:
    """A socket that is connected to this path."""
    connection = socket.socket(socket.AF_UNIX, socket.SOCK_STREAM)
    left = limit.left()
    try:
        if left is not None:  # a non-blocking `connect` would not wait for a server whose queue is full
            micros = max(1, int(1e6 * min(left, LONGEST)))
            connection.setsockopt(socket.SOL_SOCKET, socket.SO_SNDTIMEO, struct.pack("ll", *divmod(micros, 1_000_000)))
        connection.connect(path)
    except BlockingIOError:
        connection.close()
        raise TimeoutError(NOT_ACCEPTED) from None
    except BaseException:
        connection.close()
        raise
    return connection


async def _opened(path: str, limit: Limit) -> tuple[asyncio.StreamReader, asyncio.StreamWriter]:
    """Streams that are connected to this path."""
    connection = socket.socket(socket.AF_UNIX, socket.SOCK_STREAM)
    connection.setblocking(False)
    try:
        while True:
            try:
                connection.connect(path)
                return await asyncio.open_unix_connection(sock=connection)
            except BlockingIOError:  # the server's queue is full, and nothing tells when it no longer is
                if limit.left() == 0:
                    raise TimeoutError(NOT_ACCEPTED) from None
                await asyncio.sleep(PAUSE)
    except BaseException:
        connection.close()
        raise


class Client:
    """A session that blocks its thread while it waits. Only one thread may use it at a time.

    The module `topichub.client` says what happens to a reply that comes after its time was up.
    """

    def __init__(self, path: str, *, encoding: Optional[str] = None, timeout: Optional[float] = None) -> None:
        """Connects to the socket of `topichub serve PATH`.

        With an `encoding`, such as "utf-8", commands may have values of type `str`. Received values are still `bytes`, since other
        clients may send any bytes. Raises `OSError` if no server listens there, and `TimeoutError` if connecting takes more than
        `timeout` seconds.
        """
        self._path = path
        self._exchange = Exchange(_check_encoding(encoding))
        self._ahead: deque[Asked] = deque()
        self._is_moving = False  # bytes are under way
        self._fault: Optional[BaseException] = None  # why no command can be sent any more
        self._socket = _connected(path, Limit(timeout))

    def ask(self, command: Command[A], timeout: Optional[float] = None) -> A:
        """The answer to a command; of `recv` and `changed` once there is one. All commands sent ahead must have been answered.

        Raises the error that the reply stands for (`topichub.answers`), `TimeoutError` after `timeout` seconds, and
        `ConnectionError` if the session has ended. A wait that ends with `TimeoutError` loses nothing: see `topichub.client`.
        Neither does Ctrl-C during a wait; if it comes while bytes are being moved, the session ends.
        """
        limit = Limit(timeout)
        self._go_on()
        if self._ahead:
            raise RuntimeError("the replies to commands that were sent ahead come first")
        asked = self._begin(command)
        try:
            self._wait_for(asked, limit)
        except BaseException:
            self._exchange.give_up(asked)
            raise
        answer: A = asked.result()
        return answer

    @overload
    def ask_all(self, commands: Iterable[Command[A]], timeout: Optional[float] = None, *,
                return_exceptions: Literal[False] = False) -> list[A]: ...

    @overload
    def ask_all(self, commands: Iterable[Command[A]], timeout: Optional[float] = None, *,
                return_exceptions: Literal[True]) -> list[Union[A, ChannelError]]: ...

    def ask_all(self, commands: Iterable[Command[A]], timeout: Optional[float] = None, *,
                return_exceptions: bool = False) -> list[Any]:
        """The answers to several commands, all of which are sent before the first is answered. `timeout` applies to all of them together.

        Raises the first error. The others are given up then, answered or not: what they have received goes to the next receive.
        With `return_exceptions` an error of the hub or channel (`ChannelError`) is put into the list in place of the answer.
        """
        limit = Limit(timeout)
        self._go_on()
        if self._ahead:
            raise RuntimeError("the replies to commands that were sent ahead come first")
        whole = self._exchange.encoded(commands)
        asked = []
        answers: list[Any] = []
        try:
            for command in whole:
                asked.append(self._begin(command))
            for it in asked:
                self._wait_for(it, limit)
                answers.append(_result(it, return_exceptions))
        except BaseException:
            self._exchange.give_up_others(asked, len(answers))
            raise
        return answers

    def send(self, *commands: Command[Any], timeout: Optional[float] = None) -> None:
        """Sends commands ahead, without waiting for their answers, which `answer` returns one by one, in the order of the commands.

        It waits only if the hub does not read. Raises `TimeoutError` if that takes more than `timeout` seconds: the commands still
        count as sent ahead, and the rest of their lines goes out with the next call.
        """
        limit = Limit(timeout)
        self._go_on()
        for command in self._exchange.encoded(commands):
            self._ahead.append(self._begin(command))
        while self._exchange.out:
            self._move(reads=False)
            if self._exchange.out:
                self._wait(limit)
                self._move()

    def answer(self, timeout: Optional[float] = None) -> Any:
        """The answer to the oldest command that was sent ahead. Raises what `ask` raises.

        After a `TimeoutError` the command is still the oldest one, and the next `answer` waits for the same reply.
        """
        limit = Limit(timeout)
        self._go_on()
        if not self._ahead:
            raise IndexError("no command was sent ahead")
        asked = self._ahead[0]
        self._wait_for(asked, limit)
        self._ahead.popleft()
        return asked.result()

    @property
    def given_up(self) -> tuple[bytes, ...]:
        """The lines that were sent and then given up, and that the hub has not answered yet."""
        return self._exchange.given_up()

    def reconnect(self, timeout: Optional[float] = None) -> Reconnected:
        """Ends the session, connects again, and makes the client a sender and receiver again on the topics on which it was one.

        Call it after a `ConnectionError`, or to get out of a wait that was given up. The hub keeps nothing of a session that has
        ended, so nobody knows what was sent in between. `Reconnected` says what is known, and on each broadcast topic the next
        receive raises `MayHaveMissed` in the place where values may be missing. On a watch topic the newest value counts as unseen.
        Values that were received before, and not handed out yet, still come first.

        Raises `OSError` if no server listens, and `TimeoutError` if all this takes more than `timeout` seconds. It may then be
        called again.
        """
        limit = Limit(timeout)
        self._end(self._fault or ConnectionError(CLOSED))
        self._socket = _connected(self._path, limit)
        self._exchange, self._ahead, self._fault, self._is_moving = self._exchange.renewed(), deque(), None, False
        steps = self._exchange.hold_again()
        try:
            command = next(steps)
            while True:
                try:
                    answer = self.ask(command, limit.left())
                except ChannelError as fault:
                    answer = fault
                command = steps.send(answer)
        except StopIteration as end:
            result: Reconnected = end.value
            return result
        except BaseException as fault:
            self._end(fault)
            raise

    def _begin(self, command: Command[Any]) -> Asked:
        if self._exchange.free:  # their replies may have come meanwhile
            self._move()
        return self._exchange.ask(command)

    def _wait_for(self, asked: Asked, limit: Limit) -> None:
        """Waits for the reply. If the wait ends in another way, nothing is lost, unless bytes were being moved."""
        try:
            if self._exchange.out:
                self._move(reads=False)
            while asked.reply is None:
                self._wait(limit)
                self._move()
        except TimeoutError:
            raise TimeoutError(self._exchange.why_late(asked)) from None

    def _wait(self, limit: Limit) -> None:
        """Waits until the hub sends, or reads what is to be sent. It moves no bytes."""
        waiting, left = select.poll(), limit.left()
        waiting.register(self._socket, select.POLLIN | select.POLLOUT if self._exchange.out else select.POLLIN)
        if not waiting.poll(None if left is None else min(1_000 * left, 2**31 - 1)) and limit.left() == 0:
            raise TimeoutError

    def _move(self, reads: bool = True) -> None:
        """Sends what can be sent now, and receives what has come. If it does not finish, nobody knows which bytes have moved, and the
        session ends."""
        if self._is_moving:
            self._end(ConnectionError("an earlier call was interrupted"))
        self._go_on()
        self._is_moving = True
        try:
            self._send_now()
            if reads:
                self._receive_now()
        except BaseException as fault:
            self._end(fault)
            raise
        self._is_moving = False

    def _send_now(self) -> None:
        out = self._exchange.out
        try:
            while out:
                del out[:self._socket.send(out, socket.MSG_DONTWAIT)]
        except BlockingIOError:
            pass

    def _receive_now(self) -> None:
        try:
            came = self._socket.recv(AT_ONCE, socket.MSG_DONTWAIT)
        except BlockingIOError:
            return
        if not came:
            raise ConnectionError(ENDED)
        self._exchange.come(came)

    def _go_on(self) -> None:
        if self._fault:
            raise ConnectionError(ENDED) from self._fault

    def _end(self, fault: BaseException) -> None:
        self._fault = fault
        self._socket.close()

    def close(self) -> None:
        """Ends the session. Closing it again does nothing."""
        self._end(self._fault or ConnectionError(CLOSED))

    def __enter__(self) -> Client:
        return self

    def __exit__(self, kind: Optional[Type[BaseException]], fault: Optional[BaseException],
                 at: Optional[TracebackType]) -> None:
        self.close()

    def __repr__(self) -> str:
        return f"<{type(self).__name__} {self._path!r}{', ended' if self._fault else ''}>"


class AsyncClient:
    """A session for the tasks of one event loop. Several tasks may ask at a time, and are answered in the order in which they asked.

    A waiting task may be cancelled, as by `asyncio.wait_for`, and nothing is lost. The module `topichub.client` says what happens to
    a reply that comes later.
    """

    def __init__(self, reader: asyncio.StreamReader, writer: asyncio.StreamWriter, *, encoding: Optional[str] = None) -> None:
        """A session over streams that are connected to a hub. Most programs use `connect`."""
        self._path: Optional[str] = None
        self._exchange = Exchange(_check_encoding(encoding))
        self._use(reader, writer)

    def _use(self, reader: asyncio.StreamReader, writer: asyncio.StreamWriter) -> None:
        self._reader, self._writer = reader, writer
        self._fault: Optional[BaseException] = None
        self._reading = asyncio.get_running_loop().create_task(self._read_all(self._exchange))

    @classmethod
    async def connect(cls, path: str, *, encoding: Optional[str] = None, timeout: Optional[float] = None) -> AsyncClient:
        """Connects to the socket of `topichub serve PATH`. The arguments and errors are those of `Client`."""
        _check_encoding(encoding)
        client = cls(*await _opened(path, Limit(timeout)), encoding=encoding)
        client._path = path
        return client

    async def ask(self, command: Command[A], timeout: Optional[float] = None) -> A:
        """The answer to a command; of `recv` and `changed` once there is one.

        Raises the error that the reply stands for (`topichub.answers`), `TimeoutError` after `timeout` seconds, and
        `ConnectionError` if the session has ended. A wait that ends with `TimeoutError` or is cancelled loses nothing: see
        `topichub.client`.
        """
        limit, exchange = Limit(timeout), self._exchange
        asked = self._begin(command)
        try:
            await self._wait_for(exchange, asked, limit)
        except BaseException:
            exchange.give_up(asked)
            raise
        answer: A = asked.result()
        return answer

    @overload
    async def ask_all(self, commands: Iterable[Command[A]], timeout: Optional[float] = None, *,
                      return_exceptions: Literal[False] = False) -> list[A]: ...

    @overload
    async def ask_all(self, commands: Iterable[Command[A]], timeout: Optional[float] = None, *,
                      return_exceptions: Literal[True]) -> list[Union[A, ChannelError]]: ...

    async def ask_all(self, commands: Iterable[Command[A]], timeout: Optional[float] = None, *,
                      return_exceptions: bool = False) -> list[Any]:
        """The answers to several commands, all of which are sent before the first is answered. `timeout` applies to all of them together.

        Raises the first error. The others are given up then, answered or not: what they have received goes to the next receive.
        With `return_exceptions` an error of the hub or channel (`ChannelError`) is put into the list in place of the answer.
        """
        limit, exchange = Limit(timeout), self._exchange
        whole = exchange.encoded(commands)
        asked = []
        answers: list[Any] = []
        try:
            for command in whole:
                asked.append(self._begin(command))
            for it in asked:
                await self._wait_for(exchange, it, limit)
                answers.append(_result(it, return_exceptions))
        except BaseException:
            exchange.give_up_others(asked, len(answers))
            raise
        return answers

    @property
    def given_up(self) -> tuple[bytes, ...]:
        """The lines that were sent and then given up, and that the hub has not answered yet."""
        return self._exchange.given_up()

    async def reconnect(self, timeout: Optional[float] = None) -> Reconnected:
        """Like `Client.reconnect`. Tasks that still wait for a reply of the old session get a `ConnectionError`.

        Only one task may call it at a time. Raises `ValueError` if the client was made without a path.
        """
        if self._path is None:
            raise ValueError("the client was made of streams, and knows no path to connect to")
        limit = Limit(timeout)
        self._writer.transport.abort()  # else a hub that does not read would hold up the end
        await self.close()
        streams = await _opened(self._path, limit)
        self._exchange = self._exchange.renewed()
        self._use(*streams)
        steps = self._exchange.hold_again()
        try:
            command = next(steps)
            while True:
                try:
                    answer = await self.ask(command, limit.left())
                except ChannelError as fault:
                    answer = fault
                command = steps.send(answer)
        except StopIteration as end:
            result: Reconnected = end.value
            return result
        except BaseException as fault:
            self._end(fault)
            raise

    def _begin(self, command: Command[Any]) -> Asked:
        self._go_on()
        asked = self._exchange.ask(command, asyncio.get_running_loop().create_future())
        self._send_out()
        return asked

    def _send_out(self) -> None:
        if self._exchange.out:
            self._writer.write(bytes(self._exchange.out))
            self._exchange.out.clear()

    async def _wait_for(self, exchange: Exchange, asked: Asked, limit: Limit) -> None:
        """Waits for the reply."""
        left = limit.left()
        timer = None if left is None else asyncio.get_running_loop().call_later(left, asked.wake)
        try:
            if asked.told:
                await asked.told
        finally:
            if timer:
                timer.cancel()
        if asked.reply is None and exchange.has_ended:
            raise ConnectionError(ENDED) from self._fault
        if asked.reply is None:
            raise TimeoutError(exchange.why_late(asked))

    async def _read_all(self, exchange: Exchange) -> None:
        try:
            while True:
                came = await self._reader.read(AT_ONCE)
                if not came:
                    raise ConnectionError(ENDED)
                exchange.come(came)
                self._send_out()
        except BaseException as fault:
            self._end(fault)
            if not isinstance(fault, (OSError, ValueError)):
                raise

    def _go_on(self) -> None:
        if self._fault:
            raise ConnectionError(ENDED) from self._fault

    def _end(self, fault: BaseException) -> None:
        self._fault = self._fault or fault
        self._exchange.end()
        self._writer.close()

    async def close(self) -> None:
        """Ends the session. Tasks that still wait get a `ConnectionError`. Closing it again does nothing."""
        self._fault = self._fault or ConnectionError(CLOSED)
        self._reading.cancel()
        with contextlib.suppress(asyncio.CancelledError):
            await self._reading
        self._end(self._fault)
        with contextlib.suppress(OSError):
            await self._writer.wait_closed()

    async def __aenter__(self) -> AsyncClient:
        return self

    async def __aexit__(self, kind: Optional[Type[BaseException]], fault: Optional[BaseException],
                        at: Optional[TracebackType]) -> None:
        await self.close()

    def __repr__(self) -> str:
        path = "" if self._path is None else f" {self._path!r}"
        return f"<{type(self).__name__}{path}{', ended' if self._fault else ''}>"
