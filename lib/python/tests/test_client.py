"""The clients of `topichub serve`: with a hub that only pretends, and with the program where `TOPICHUB` names it."""
import asyncio
import contextlib
import os
import socket
import subprocess
import sys
import threading

import pytest

from topichub import (AsyncClient, Client, Closed, Empty, Lagged, NoReceivers, ProtocolError, Refused, Shown, commands)

from hubs import NEEDS_PROGRAM, served

NOT_TEXT = b"\xff\x00 \x80"


@contextlib.contextmanager
def pretended(folder, replies):
    """The path of a socket that answers each line with the next of these bytes, and the lines that came."""
    path, lines = str(folder / "pretended"), []
    with socket.socket(socket.AF_UNIX) as listening:
        listening.bind(path)
        listening.listen()

        def answer():
            connection, _ = listening.accept()
            with connection, connection.makefile("rb") as given:
                for reply in replies:
                    lines.append(given.readline())
                    connection.sendall(reply)
                connection.shutdown(socket.SHUT_WR)
                given.read()  # else what was not read would take back what was sent

        answering = threading.Thread(target=answer)
        answering.start()
        yield path, lines
        answering.join()


ANSWERS = [
    (commands.open_broadcast("t", 3), b"OPEN t B 3", b"OK 4", 4),
    (commands.open_broadcast("t", 3, base=9), b"OPEN t B 3 AT 9", b"OK 4", 4),
    (commands.open_watch("t", NOT_TEXT), b"OPEN t W " + NOT_TEXT, b"OK 1", 1),
    (commands.end("t"), b"END t", b"OK", True),
    (commands.topics(), b"LIST", b"OK 2\nnews B\nlight W", {"news": "B", "light": "W"}),
    (commands.trace("t"), b"TRACE t", b"OK 3\nTRACE 1 W\nKEEP " + NOT_TEXT + b"\nEND 0",
     b"TRACE 1 W\nKEEP " + NOT_TEXT + b"\nEND 0\n"),
    (commands.quit_session(), b"QUIT", b"BYE", True),
    (commands.bind("t"), b"BIND t", b"OK", True),
    (commands.unbind("t"), b"UNBIND t", b"OK", True),
    (commands.subscribe("t"), b"SUB t", b"OK", True),
    (commands.subscribe("t", oldest=True), b"SUB t OLDEST", b"OK", True),
    (commands.unsubscribe("t"), b"UNSUB t", b"OK", True),
    (commands.resubscribe("t"), b"RESUB t", b"OK", True),
    (commands.receiver_count("t"), b"READERS t", b"OK 7", 7),
    (commands.send("t", NOT_TEXT), b"PUB t " + NOT_TEXT, b"OK 2", 2),
    (commands.send("t", b"one two"), b"PUB t one two", b"OK", 0),
    (commands.recv("t"), b"NEXT t", b"VAL " + NOT_TEXT, NOT_TEXT),
    (commands.try_recv("t"), b"TRY t", b"VAL  a b ", b" a b "),
    (commands.left("t"), b"LEFT t", b"OK 0", 0),
    (commands.queued("t"), b"QUEUED t", b"OK 5", 5),
    (commands.send_replace("t", b"new"), b"SWAP t new", b"WAS old", b"old"),
    (commands.edit_set("t", b"new"), b"EDIT t SET new", b"YES", True),
    (commands.edit_differ("t", b"new"), b"EDIT t DIFFER new", b"NO", False),
    (commands.edit_quiet("t", b"new"), b"EDIT t QUIET new", b"NO", False),
    (commands.borrow("t"), b"GET t", b"NEW " + NOT_TEXT, Shown(NOT_TEXT, True)),
    (commands.borrow_and_update("t"), b"TAKE t", b"SAME x", Shown(b"x", False)),
    (commands.has_changed("t"), b"HAS t", b"YES", True),
    (commands.changed("t"), b"CHANGED t", b"CHANGED", True),
    (commands.try_changed("t"), b"TRYCHANGED t", b"NOTYET", False),
    (commands.mark_changed("t"), b"MARK t", b"OK", True),
    (commands.mark_unchanged("t"), b"UNMARK t", b"OK", True),
]
RAISED = [
    (commands.recv("t"), b"LAG 3", Lagged),
    (commands.recv("t"), b"CLOSED", Closed),
    (commands.try_recv("t"), b"EMPTY", Empty),
    (commands.changed("t"), b"CLOSED", Closed),
    (commands.has_changed("t"), b"CLOSED", Closed),
    (commands.send("t", b"x"), b"ERR 17 no-receivers", NoReceivers),
    (commands.send("t", b"x"), b"ERR 16 not-held", Refused),
    (commands.send("t", b"x"), b"VAL x", ProtocolError),
    (commands.left("t"), b"OK", ProtocolError),
    (commands.send("t", b"x"), b"ERR", ProtocolError),
    (commands.send("t", b"x"), b"ERR seventeen", ProtocolError),
    (commands.recv("t"), b"LAG many", ProtocolError),
    (commands.topics(), b"OK many", ProtocolError),
]


def test_each_command_has_its_line_and_its_answer(tmp_path):
    with pretended(tmp_path, [reply + b"\n" for _, _, reply, _ in ANSWERS]) as (path, lines), Client(path) as hub:
        for command, _, _, answer in ANSWERS:
            assert hub.ask(command) == answer
    assert lines == [line + b"\n" for _, line, _, _ in ANSWERS]


def test_what_a_reply_tells_in_place_of_an_answer_is_raised(tmp_path):
    with pretended(tmp_path, [reply + b"\n" for _, reply, _ in RAISED]) as (path, _), Client(path) as hub:
        for command, _, fault in RAISED:
            with pytest.raises(fault):
                hub.ask(command)


def test_a_refusal_has_its_code_and_a_lag_its_count():
    with pytest.raises(Refused) as refused:
        commands.bind("t").answer(commands.reply_of(b"ERR 18 closed"))
    assert (refused.value.code, refused.value.word) == (18, "closed")
    with pytest.raises(Lagged) as lag:
        commands.recv("t").answer(commands.reply_of(b"LAG 12"))
    assert lag.value.count == 12


def test_what_no_line_may_have_is_refused_before_it_is_sent():
    for topic in ("", "T", "a b", "a" * 33, "a\nQUIT", "ä"):
        with pytest.raises(ValueError):
            commands.bind(topic)
    for value in (b"", b"a\nQUIT", b"a\r", b"x" * 1_025):
        with pytest.raises(ValueError):
            commands.send("t", value)
    for number in (-1, 2**64):
        with pytest.raises(ValueError):
            commands.open_broadcast("t", number)
    for value in (5, None, ["x"]):
        with pytest.raises(TypeError, match="a value is bytes"):
            commands.send("t", value)
    with pytest.raises(TypeError, match="a str"):
        commands.bind(b"t")
    for line in (b"", b"LIST\nQUIT"):
        with pytest.raises(ValueError):
            commands.raw(line)
    for value in (bytearray(b"x"), memoryview(b"x")):
        assert commands.send("t", value).line == b"PUB t x"


def test_a_session_that_has_ended_says_so(tmp_path):
    with pretended(tmp_path, [b"OK\n", b"VAL cut off"]) as (path, _), Client(path) as hub:
        hub.ask(commands.subscribe("t"))
        with pytest.raises(ConnectionError):
            hub.ask(commands.recv("t"))
    with pytest.raises(OSError):
        Client(str(tmp_path / "nowhere"))


def test_a_session_that_was_lost_says_so_to_each_later_command(tmp_path):
    near, far = socket.socketpair()
    with pretended(tmp_path, []) as (path, _), Client(path) as hub:
        hub._socket.close()
        hub._socket = near
        far.close()
        for _ in range(3):
            with pytest.raises(ConnectionError):
                hub.ask(commands.bind("t"))
        with pytest.raises(ConnectionError):
            hub.answer()


def test_commands_may_be_sent_ahead(tmp_path):
    with pretended(tmp_path, [b"OK\n", b"OK 1\n", b"VAL x\n"]) as (path, _), Client(path) as hub:
        for command in (commands.subscribe("t"), commands.send("t", b"x"), commands.recv("t")):
            hub.send(command)
        with pytest.raises(RuntimeError):
            hub.ask(commands.bind("t"))
        assert [hub.answer() for _ in range(3)] == [True, 1, b"x"]


def test_where_one_command_cannot_be_sent_none_is(tmp_path):
    several = commands.send("t", b"x"), commands.send("t", "text")

    def made():
        yield commands.send("t", b"x")
        raise ValueError("the second one cannot be made")

    async def run(path):
        async with await AsyncClient.connect(path) as hub:
            for given, fault in ((several, TypeError), (made(), ValueError)):
                with pytest.raises(fault):
                    await hub.ask_all(given)
            return await hub.ask(commands.left("t"))

    with pretended(tmp_path, [b"OK 1\n"]) as (path, lines):
        assert asyncio.run(run(path)) == 1
    assert lines == [b"LEFT t\n"]
    os.remove(path)
    with pretended(tmp_path, [b"OK 1\n"]) as (path, lines), Client(path) as hub:
        for act in (lambda: hub.send(*several), lambda: hub.ask_all(several), lambda: hub.ask(several[1])):
            with pytest.raises(TypeError):
                act()
        with pytest.raises(ValueError):
            hub.ask_all(made())
        assert hub.ask(commands.left("t")) == 1
    assert lines == [b"LEFT t\n"]


def test_tasks_ask_side_by_side_and_a_cancelled_ask_shifts_no_reply(tmp_path):
    async def run(path):
        async with await AsyncClient.connect(path) as hub:
            given_up = asyncio.create_task(hub.ask(commands.recv("t")))
            await asyncio.sleep(0)
            given_up.cancel()
            counts = await hub.ask_all([commands.queued("t"), commands.queued("t")])
            rows = await hub.ask(commands.topics())
            late = await hub.ask(commands.recv("t"))
            with pytest.raises(Lagged):
                await hub.ask(commands.recv("t"))
            return counts, rows, late

    replies = [b"VAL late\n", b"OK 1\n", b"OK 2\n", b"OK 1\nnews B\n", b"LAG 1\n"]
    with pretended(tmp_path, replies) as (path, _):
        assert asyncio.run(run(path)) == ([1, 2], {"news": "B"}, b"late")


def test_tasks_are_told_when_the_session_has_ended(tmp_path):
    async def run(path):
        async with await AsyncClient.connect(path) as hub:
            asked = [asyncio.create_task(hub.ask(commands.recv("t"))) for _ in range(2)]
            told = await asyncio.gather(*asked, return_exceptions=True)
            with pytest.raises(ConnectionError):
                await hub.ask(commands.recv("t"))
            return told

    with pretended(tmp_path, [b"VAL x\n"]) as (path, _):
        first, second = asyncio.run(run(path))
    assert first == b"x" and isinstance(second, ConnectionError)


@NEEDS_PROGRAM
def test_a_session_with_the_program(tmp_path):
    with served(tmp_path, 2) as path, Client(path) as hub, Client(path) as other:
        assert hub.ask(commands.open_broadcast("news", 2)) == 2
        hub.ask(commands.bind("news"))
        with pytest.raises(NoReceivers):
            hub.ask(commands.send("news", b"nobody"))
        other.ask(commands.subscribe("news"))
        for value in (b"one", NOT_TEXT, b"three"):
            assert hub.ask(commands.send("news", value)) == 1
        with pytest.raises(Lagged):
            other.ask(commands.recv("news"))
        assert [other.ask(commands.recv("news")) for _ in range(2)] == [NOT_TEXT, b"three"]
        assert NOT_TEXT in hub.ask(commands.trace("news"))
        assert hub.ask(commands.topics()) == {"news": "B"}
        with pytest.raises(Refused):
            hub.ask(commands.borrow("news"))
        for session in (hub, other):
            session.ask(commands.quit_session())


@NEEDS_PROGRAM
def test_tasks_with_the_program(tmp_path):
    async def run(path):
        async with await AsyncClient.connect(path) as hub, await AsyncClient.connect(path) as reader:
            await hub.ask_all([commands.open_watch("light", NOT_TEXT)])
            await reader.ask(commands.subscribe("light"))
            waiting = asyncio.create_task(reader.ask(commands.changed("light")))
            await asyncio.sleep(0.02)  # so that it waits by then, mostly
            await hub.ask(commands.bind("light"))
            await hub.ask(commands.send("light", b"green"))
            await asyncio.wait_for(waiting, 60)
            return await reader.ask(commands.borrow("light"))

    with served(tmp_path, 2) as path:
        assert asyncio.run(run(path)) == Shown(b"green", False)


EXAMPLES = os.path.join(os.path.dirname(os.path.abspath(__file__)), "..", "..", "..", "examples", "clients")


@pytest.mark.skipif(not os.path.isdir(EXAMPLES), reason="the examples are not beside this package")
def test_the_clients_among_the_examples_print_a_value_as_it_came(tmp_path):
    script = "import sys; from hub import connected; hub = connected(sys.argv[1]); print(hub.ask('GET t'))"
    with pretended(tmp_path, [b"NEW " + NOT_TEXT + b"\n"]) as (path, _):
        printed = subprocess.run([sys.executable, "-c", script, path], cwd=EXAMPLES, stdout=subprocess.PIPE, check=True,
                                 env={**os.environ, "PYTHONPATH": ".", "PYTHONDONTWRITEBYTECODE": "1"}).stdout
    assert printed == b"NEW " + NOT_TEXT + b"\n"
