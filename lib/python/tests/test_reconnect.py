"""What a client has after it has connected again, and what it is told of the time in between."""
import asyncio
import contextlib
import socket
import threading

import pytest

from topichub import AsyncClient, Busy, Client, Empty, MayHaveMissed, NoTopic, Reconnected, Refused, Shown, WrongKind, commands

from hubs import NEEDS_PROGRAM, Hub, listening, standing

MOMENT = 0.01  # seconds that a wait may take which has to end without an answer; a longer one is as right


def cut(client):
    """Ends the connection, as a hub or a system does that goes down."""
    client._socket.shutdown(socket.SHUT_RDWR)
    with pytest.raises(ConnectionError):
        client.ask(commands.topics())


@pytest.fixture
def path(tmp_path):
    place = str(tmp_path / "hub")
    with standing(place):
        yield place


@pytest.fixture
def clients(path):
    """A receiver, and one that sends on both topics."""
    with Client(path) as hub, Client(path) as other:
        for command in (commands.open_broadcast("news", 8), commands.open_watch("light", b"red"), commands.bind("news"),
                        commands.bind("light")):
            other.ask(command)
        for topic in ("news", "light"):
            hub.ask(commands.subscribe(topic))
        yield hub, other


@NEEDS_PROGRAM
def test_what_may_be_missing_is_said_once_on_each_broadcast_topic(clients):
    hub, other = clients
    other.ask(commands.send("news", b"one"))
    assert hub.ask(commands.recv("news")) == b"one"
    cut(hub)
    assert hub.reconnect(timeout=60) == Reconnected((), ("news", "light"), {}, (b"LIST",))
    other.ask(commands.send("news", b"two"))
    with pytest.raises(MayHaveMissed):
        hub.ask(commands.recv("news"))
    assert hub.ask(commands.recv("news")) == b"two"
    with pytest.raises(Empty):
        hub.ask(commands.try_recv("news"))


@NEEDS_PROGRAM
def test_the_newest_value_of_a_watch_topic_is_news_after_a_reconnect(clients):
    hub, other = clients
    hub.ask(commands.borrow_and_update("light"))
    cut(hub)
    other.ask(commands.send_replace("light", b"green"))
    hub.reconnect()
    assert hub.ask(commands.changed("light"), timeout=60) is True
    assert hub.ask(commands.borrow("light")) == Shown(b"green", False)


@NEEDS_PROGRAM
def test_what_was_received_and_not_handed_out_comes_before_the_gap(clients):
    hub, other = clients
    with pytest.raises(TimeoutError):
        hub.ask(commands.recv("news"), timeout=MOMENT)
    other.ask(commands.send("news", b"one"))
    hub.ask(commands.topics())  # by then the late value is here
    for _ in range(2):  # a gap behind a gap is one
        cut(hub)
        hub.reconnect()
    other.ask(commands.send("news", b"two"))
    assert hub.ask(commands.recv("news")) == b"one"
    with pytest.raises(MayHaveMissed):
        hub.ask(commands.recv("news"))
    assert hub.ask(commands.recv("news")) == b"two"


@NEEDS_PROGRAM
def test_a_reconnect_ends_a_wait_that_was_given_up_and_names_what_got_no_reply(clients):
    hub, other = clients
    for command in (commands.recv("news"), commands.left("news")):
        with pytest.raises(TimeoutError):
            hub.ask(command, timeout=MOMENT)
    assert hub.reconnect().unanswered == (b"NEXT news", b"LEFT news")
    assert hub.given_up == ()
    assert hub.ask(commands.left("news"), timeout=60) == 0


@NEEDS_PROGRAM
def test_only_what_was_held_is_held_again(clients):
    hub, other = clients
    hub.ask(commands.bind("news"))
    hub.ask(commands.unsubscribe("light"))
    other.ask(commands.unbind("light"))
    assert hub.reconnect() == Reconnected(("news",), ("news",), {}, ())
    assert other.reconnect() == Reconnected(("news",), (), {}, ())
    assert hub.ask(commands.send("news", b"one")) == 1
    hub.ask(commands.quit_session())
    assert hub.reconnect() == Reconnected()


@NEEDS_PROGRAM
def test_a_hub_that_was_started_anew_has_no_topic(tmp_path):
    path = str(tmp_path / "hub")
    with contextlib.ExitStack() as held:
        with standing(path):
            hub = held.enter_context(Client(path))
            hub.ask(commands.open_broadcast("news", 8))
            hub.ask(commands.bind("news"))
            hub.ask(commands.subscribe("news"))
        with pytest.raises(OSError):
            hub.reconnect()
        with standing(path):
            found = hub.reconnect(timeout=60)
            assert (found.senders, found.receivers, found.unanswered) == ((), (), ())
            assert {topic: type(fault) for topic, fault in found.lost.items()} == {"news": NoTopic}
            with pytest.raises(NoTopic) as refused:
                hub.ask(commands.recv("news"))
            assert isinstance(refused.value, Refused) and refused.value.code == 11


@NEEDS_PROGRAM
def test_tasks_reconnect_too(path):
    async def run():
        async with await AsyncClient.connect(path) as hub, await AsyncClient.connect(path) as other:
            await other.ask_all([commands.open_broadcast("news", 8), commands.bind("news")])
            await hub.ask(commands.subscribe("news"))
            waiting = asyncio.create_task(hub.ask(commands.recv("news")))
            await asyncio.sleep(0)
            found = await hub.reconnect(timeout=60)
            with pytest.raises(ConnectionError):
                await waiting
            await other.ask(commands.send("news", b"one"))
            with pytest.raises(MayHaveMissed):
                await hub.ask(commands.recv("news"))
            told = await hub.ask(commands.recv("news"))
            await hub.close()
            with pytest.raises(ConnectionError):
                await hub.ask(commands.recv("news"))
            await hub.reconnect()
            with pytest.raises(WrongKind):
                await hub.ask(commands.borrow("news"))
            return found, told

    assert asyncio.run(run()) == (Reconnected((), ("news",), {}, (b"NEXT news",)), b"one")


def test_a_hub_that_does_not_read_holds_up_no_reconnect(tmp_path):
    async def run(path, server):
        async with await AsyncClient.connect(path) as client:
            hubs = [Hub(server.accept()[0])]  # which answers nothing, and so reads no further
            value = b"x" * 1_000
            with pytest.raises(TimeoutError):
                await client.ask_all([commands.send("t", value)] * 5_000, timeout=MOMENT)
            found = await client.reconnect(timeout=60)
            hubs.append(Hub(server.accept()[0]))
            hubs[1].say(b"OK 3")
            assert await client.ask(commands.left("t")) == 3
            await client.close()
            for hub in hubs:
                hub.end()
            return len(found.unanswered)

    with listening(tmp_path) as (path, server):
        assert asyncio.run(run(path, server)) == 5_000


def test_streams_know_no_path():
    async def run():
        near, far = socket.socketpair()
        with far:
            async with AsyncClient(*await asyncio.open_unix_connection(sock=near)) as hub:
                with pytest.raises(ValueError, match="made of streams"):
                    await hub.reconnect()

    asyncio.run(run())


@contextlib.contextmanager
def full(folder):
    """A server that accepts nobody, whose queue is full."""
    path = str(folder / "hub")
    with socket.socket(socket.AF_UNIX) as server, socket.socket(socket.AF_UNIX) as first:
        server.bind(path)
        server.listen(0)
        first.connect(path)
        yield path, server


def test_a_connection_that_is_not_accepted_is_waited_for_no_longer_than_told(tmp_path):
    with full(tmp_path) as (path, _):
        with pytest.raises(TimeoutError, match="did not accept"):
            Client(path, timeout=MOMENT)
        with pytest.raises(TimeoutError, match="did not accept"):
            asyncio.run(AsyncClient.connect(path, timeout=MOMENT))


def test_a_connection_that_is_accepted_later_is_one(tmp_path):
    async def run(path):
        async with await AsyncClient.connect(path, timeout=60):
            pass

    with full(tmp_path) as (path, server):
        accepting = threading.Timer(MOMENT, lambda: [server.accept()[0].close() for _ in range(3)])
        accepting.start()
        Client(path, timeout=60).close()
        asyncio.run(run(path))
        accepting.join()


def test_a_hub_that_does_not_answer_ends_a_reconnect_in_time(tmp_path):
    with listening(tmp_path) as (path, server), Client(path) as client:
        hubs = [Hub(server.accept()[0])]
        hubs[0].say(b"OK")
        client.ask(commands.subscribe("news"))
        with pytest.raises(TimeoutError):
            client.reconnect(timeout=MOMENT)
        hubs.append(Hub(server.accept()[0]))
        with pytest.raises(ConnectionError):
            client.ask(commands.left("news"))
        answering = threading.Timer(MOMENT, lambda: hubs.append(Hub(server.accept()[0])) or hubs[2].say(b"OK", b"ERR 13 wrong-kind"))
        answering.start()
        assert client.reconnect(timeout=60).receivers == ("news",)
        answering.join()
        client.close()
        for hub in hubs:
            hub.end()
        assert hubs[2].lines == [b"SUB news", b"MARK news"]


def test_a_hub_without_a_place_is_named(tmp_path):
    with listening(tmp_path) as (path, server):
        with Client(path) as client, server.accept()[0] as connection:
            connection.sendall(b"ERR 24 busy\n")
            with pytest.raises(Busy):
                client.ask(commands.topics())

        async def run():
            async with await AsyncClient.connect(path) as client:
                with server.accept()[0] as connection:
                    connection.sendall(b"ERR 24 busy\n")
                while not client._fault:
                    await asyncio.sleep(0)
                with pytest.raises(ConnectionError) as ended:
                    await client.ask(commands.topics())
                return ended.value

        fault = asyncio.run(run())
        while fault and not isinstance(fault, Busy):
            fault = fault.__cause__
        assert fault
