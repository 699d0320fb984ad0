"""Replies that come after their time was up, or after their task was cancelled: nothing that they took is lost."""
import asyncio
import contextlib
import random
import threading
import time

import pytest

from topichub import AsyncClient, Client, Empty, Lagged, NoReceivers, NotHeld, Shown, commands
from topichub._exchange import Exchange
from topichub.commands import Reply

from hubs import NEEDS_PROGRAM, Hub, listening, served

MOMENT = 0.01  # seconds that a wait may take which has to end without an answer; a longer one is as right


@pytest.fixture
def both(tmp_path):
    """A client and its hub."""
    with listening(tmp_path) as (path, server), Client(path) as client:
        hub = Hub(server.accept()[0])
        yield client, hub
        client.close()
        hub.end()


def gives_up(client, command):
    with pytest.raises(TimeoutError):
        client.ask(command, timeout=MOMENT)


def tried(client):
    """The next value, once it is there."""
    while True:
        with contextlib.suppress(Empty):
            return client.ask(TRY)
        time.sleep(0.001)


RECV, TRY, LEFT = commands.recv("t"), commands.try_recv("t"), commands.left("t")
CHANGED, TRY_CHANGED = commands.changed("t"), commands.try_changed("t")


def test_a_late_value_goes_to_the_next_receive_and_is_not_asked_for_again(both):
    client, hub = both
    gives_up(client, RECV)
    assert client.given_up == (b"NEXT t",)
    gives_up(client, RECV)
    hub.say(b"VAL one")
    assert (client.ask(RECV), client.given_up) == (b"one", ())
    hub.say(b"VAL two")
    assert client.ask(RECV) == b"two"
    assert hub.heard(client) == [b"NEXT t", b"NEXT t"]


def test_a_late_value_comes_before_those_behind_it_whoever_asks(both):
    client, hub = both
    gives_up(client, RECV)
    hub.say(b"VAL one", b"OK 2", b"LAG 3")
    assert client.ask(LEFT) == 3  # the one that is kept here is still to come
    assert client.ask(TRY) == b"one"
    with pytest.raises(Lagged):
        client.ask(TRY)
    assert hub.heard(client) == [b"NEXT t", b"LEFT t", b"TRY t"]


def test_a_late_lag_is_counted_and_told(both):
    client, hub = both
    gives_up(client, RECV)
    hub.say(b"LAG 3", b"OK 2")
    assert client.ask(LEFT) == 5
    with pytest.raises(Lagged) as lag:
        client.ask(RECV)
    assert lag.value.count == 3


def test_while_a_receive_is_unanswered_a_try_is_empty_at_once(both):
    client, hub = both
    gives_up(client, RECV)
    for _ in range(2):
        with pytest.raises(Empty):
            client.ask(TRY)
    hub.say(b"VAL one")
    assert tried(client) == b"one"
    assert hub.heard(client) == [b"NEXT t"]


def test_a_late_try_without_a_value_is_no_answer_to_the_next(both):
    client, hub = both
    gives_up(client, TRY)
    hub.say(b"EMPTY", b"VAL one")
    assert client.ask(TRY) == b"one"
    gives_up(client, TRY)
    hub.say(b"VAL two", b"EMPTY")
    assert client.ask(TRY) == b"two"
    assert set(hub.heard(client)) == {b"TRY t"}


def test_an_end_or_a_refusal_that_came_late_is_asked_for_again(both):
    client, hub = both
    for late in (b"ERR 16 not-held", b"CLOSED"):
        gives_up(client, RECV)
        hub.say(late, b"OK", b"VAL one")
        assert client.ask(commands.subscribe("t"))
        assert client.ask(RECV) == b"one"


def test_who_waits_for_a_line_that_was_given_up_asks_anew_where_it_took_nothing(both):
    client, hub = both
    for late in (b"CLOSED", b"ERR 16 not-held"):
        gives_up(client, RECV)
        saying = threading.Timer(MOMENT, hub.say, [late, b"VAL one"])
        saying.start()
        assert client.ask(RECV) == b"one"
        saying.join()
    assert hub.heard(client) == [b"NEXT t"] * 4


@pytest.mark.parametrize("first, late, then, told, further", [
    (TRY, b"VAL one", RECV, b"one", b"OK 0"),
    (TRY_CHANGED, b"CHANGED", CHANGED, True, b"OK 0"),
    (commands.borrow_and_update("t"), b"NEW x", CHANGED, True, b"OK 0"),
])
def test_a_look_that_was_given_up_leaves_nothing_at_the_hub_that_waits(both, first, late, then, told, further):
    client, hub = both
    gives_up(client, first)
    saying = threading.Timer(MOMENT, hub.say, [late, further])
    saying.start()
    assert client.ask(then) == told
    assert client.ask(LEFT) == 0  # which a line that waits at the hub would hold up
    saying.join()
    assert hub.heard(client) == [first.line, LEFT.line]


@pytest.mark.parametrize("first, late, then, reply, told", [
    (TRY, b"EMPTY", RECV, b"VAL one", b"one"),
    (TRY, b"EMPTY", TRY, b"VAL one", b"one"),
    (TRY_CHANGED, b"NOTYET", CHANGED, b"CHANGED", True),
    (commands.borrow_and_update("t"), b"SAME x", CHANGED, b"CHANGED", True),
    (commands.trace("t"), b"ERR 11 no-topic", commands.trace("t"), b"OK 0", b""),
])
def test_a_look_that_was_given_up_and_found_nothing_is_followed_by_a_line_of_ones_own(both, first, late, then, reply, told):
    client, hub = both
    gives_up(client, first)
    saying = threading.Timer(MOMENT, hub.say, [late, reply])
    saying.start()
    assert client.ask(then) == told
    saying.join()
    assert hub.heard(client) == [first.line, then.line]


def test_a_late_change_is_told_by_whatever_asks_for_news(both):
    client, hub = both
    gives_up(client, CHANGED)
    assert client.ask(TRY_CHANGED) is False
    hub.say(b"CHANGED", b"NO", b"SAME x", b"NO")
    assert client.ask(commands.has_changed("t")) is True
    assert client.ask(commands.borrow("t")) == Shown(b"x", True)
    assert client.ask(CHANGED) is True
    assert client.ask(commands.has_changed("t")) is False
    assert hub.heard(client) == [b"CHANGED t", b"HAS t", b"GET t", b"HAS t"]


@pytest.mark.parametrize("command, reply, late, ask", [
    (CHANGED, b"CHANGED", b"SAME y", commands.borrow_and_update("t")),
    (commands.borrow_and_update("t"), b"NEW x", b"SAME y", commands.borrow_and_update("t")),
])
def test_a_mark_that_came_late_leaves_the_newest_value_unseen_once(both, command, reply, late, ask):
    client, hub = both
    gives_up(client, command)
    hub.say(reply, late, b"SAME y", b"NOTYET")
    assert client.ask(ask) == Shown(b"y", True)
    assert client.ask(ask) == Shown(b"y", False)
    assert client.ask(TRY_CHANGED) is False


@pytest.mark.parametrize("second, late", [(TRY_CHANGED, b"CHANGED"), (commands.borrow_and_update("t"), b"NEW x")])
def test_news_is_told_once_however_often_it_came_late(both, second, late):
    client, hub = both
    with pytest.raises(TimeoutError):
        client.ask_all([TRY_CHANGED, second], timeout=MOMENT)
    hub.say(b"CHANGED", late, b"OK 0", b"NOTYET")
    client.ask(LEFT)  # by then both have come
    assert [client.ask(TRY_CHANGED) for _ in range(2)] == [True, False]


@pytest.mark.parametrize("mark", [commands.mark_unchanged("t"), commands.subscribe("t")])
def test_what_marks_all_as_seen_ends_late_news_too(both, mark):
    client, hub = both
    gives_up(client, CHANGED)
    hub.say(b"CHANGED", b"OK", b"NO")
    client.ask(mark)
    assert client.ask(commands.has_changed("t")) is False


def test_a_new_receiver_does_not_get_what_the_one_before_it_had(both):
    client, hub = both
    gives_up(client, RECV)
    hub.say(b"VAL old", b"OK", b"EMPTY")
    client.ask(commands.resubscribe("t"))
    with pytest.raises(Empty):
        client.ask(TRY)


def test_a_late_trace_is_the_next_one(both):
    client, hub = both
    gives_up(client, commands.trace("t"))
    hub.say(b"OK 2\nTRACE 1 W\nEND 0", b"OK 1\nlater")
    assert client.ask(commands.trace("t")) == b"TRACE 1 W\nEND 0\n"
    assert client.ask(commands.trace("t")) == b"later\n"
    assert hub.heard(client) == [b"TRACE t", b"TRACE t"]


def test_other_topics_and_other_commands_have_their_own_replies(both):
    client, hub = both
    gives_up(client, RECV)
    with pytest.raises(TimeoutError, match=r"PUB t x.* to answer .*NEXT t"):
        client.ask(commands.send("t", b"x"), timeout=MOMENT)
    assert client.given_up == (b"NEXT t", b"PUB t x")
    hub.say(b"VAL one", b"OK 1", b"VAL other", b"ERR 17 no-receivers", b"ERR 16 not-held")
    assert client.ask(commands.recv("other")) == b"other"
    with pytest.raises(NoReceivers):
        client.ask(commands.send("t", b"x"))
    with pytest.raises(NotHeld):
        client.ask(LEFT)
    assert client.ask(RECV) == b"one"


def test_a_reply_in_pieces_is_read_over_several_waits(tmp_path):
    with listening(tmp_path) as (path, server), Client(path) as client:
        connection, _ = server.accept()
        with connection:
            client.send(commands.topics())
            for piece in (b"OK", b" 2\nnews", b" B\nlight "):
                connection.sendall(piece)
                with pytest.raises(TimeoutError):
                    client.answer(timeout=MOMENT)
            connection.sendall(b"W\n")
            assert client.answer() == {"news": "B", "light": "W"}


def test_what_was_sent_ahead_keeps_its_place_while_its_answer_is_late(both):
    client, hub = both
    client.send(RECV)
    client.send(commands.send("t", b"x"))
    for _ in range(2):
        with pytest.raises(TimeoutError):
            client.answer(timeout=MOMENT)
    hub.say(b"VAL one", b"OK 4")
    assert (client.answer(), client.answer()) == (b"one", 4)
    with pytest.raises(IndexError):
        client.answer()


def test_what_cannot_be_sent_in_time_goes_out_later(both):
    client, hub = both
    value, count = b"x" * 1_000, 0
    with pytest.raises(TimeoutError):
        while True:  # until the hub, which waits for what to answer, has no room for more
            count += 1
            client.send(commands.send("t", value), timeout=MOMENT)
    hub.say(*[b"OK %d" % number for number in range(count)])
    assert [client.answer() for _ in range(count)] == list(range(count))
    assert hub.heard(client) == [b"PUB t " + value] * count


def test_an_error_among_several_leaves_to_the_next_receives_what_the_others_got(both):
    client, hub = both
    hub.say(b"VAL one", b"EMPTY", b"VAL two")
    with pytest.raises(Empty):
        client.ask_all([TRY] * 3)
    assert [client.ask(TRY) for _ in range(2)] == [b"one", b"two"]
    hub.say(b"VAL three", b"EMPTY")
    first, second = client.ask_all([TRY] * 2, return_exceptions=True)
    assert first == b"three" and isinstance(second, Empty)
    with pytest.raises(TimeoutError):
        client.ask_all([RECV] * 2, timeout=MOMENT)
    hub.say(b"VAL four", b"VAL five", b"VAL six")
    assert client.ask_all([RECV] * 3) == [b"four", b"five", b"six"]


def test_ctrl_c_in_a_wait_loses_nothing(both, monkeypatch):
    client, hub = both

    def interrupt(limit):
        raise KeyboardInterrupt

    with monkeypatch.context() as interrupted:
        interrupted.setattr(client, "_wait", interrupt)
        with pytest.raises(KeyboardInterrupt):
            client.ask(RECV)
    hub.say(b"VAL one")
    assert client.ask(RECV) == b"one"


# ---- tasks


def in_task(folder, work):
    """Runs work(client, hub) in a loop; the hub is that of this file."""
    async def run(path, server):
        async with await AsyncClient.connect(path) as client:
            hub = Hub(server.accept()[0])
            try:
                return await asyncio.wait_for(work(client, hub), 60)
            finally:
                await client.close()
                hub.end()

    with listening(folder) as (path, server):
        return asyncio.run(run(path, server))


@pytest.mark.parametrize("wait", [
    lambda client, command: asyncio.wait_for(client.ask(command), MOMENT),
    lambda client, command: client.ask(command, timeout=MOMENT),
])
def test_a_task_that_gives_up_loses_nothing(tmp_path, wait):
    async def work(client, hub):
        with pytest.raises((TimeoutError, asyncio.TimeoutError)):
            await wait(client, RECV)
        with pytest.raises(Empty):
            await client.ask(TRY)
        hub.say(b"VAL one")
        told = [await client.ask(RECV)]
        hub.say(b"LAG 2", b"VAL two")
        with pytest.raises(Lagged):
            await client.ask(RECV)
        told.append(await client.ask(RECV))
        return told, client.given_up, list(hub.lines)

    assert in_task(tmp_path, work) == ([b"one", b"two"], (), [b"NEXT t"] * 3)


def test_a_task_that_is_cancelled_when_its_reply_has_come_leaves_it_to_the_next(tmp_path):
    async def work(client, hub):
        asking = [asyncio.create_task(client.ask(RECV)) for _ in range(3)]
        await asyncio.sleep(0)
        client._exchange.come(b"VAL one\nVAL two\n")  # the tasks have their replies, and have not run since
        for it in asking[:2]:
            it.cancel()
        assert [it.__class__ for it in await asyncio.gather(*asking[:2], return_exceptions=True)] == [asyncio.CancelledError] * 2
        told = [await asking[2], await client.ask(RECV)]
        client._exchange.come(b"VAL three\n")
        return [*told, await client.ask(RECV)]

    assert in_task(tmp_path, work) == [b"one", b"two", b"three"]


def test_a_task_that_waits_for_a_line_that_was_given_up_asks_anew_where_it_took_nothing(tmp_path):
    async def work(client, hub):
        with pytest.raises(TimeoutError):
            await client.ask(TRY, timeout=MOMENT)
        asking = asyncio.create_task(client.ask(RECV))
        await asyncio.sleep(0)
        hub.say(b"EMPTY", b"VAL one")
        return await asking, list(hub.lines)

    assert in_task(tmp_path, work) == (b"one", [b"TRY t", b"NEXT t"])


def test_the_time_of_one_task_is_not_that_of_another(tmp_path):
    async def work(client, hub):
        waiting = asyncio.create_task(client.ask(RECV))
        await asyncio.sleep(0)
        with pytest.raises(TimeoutError, match="NEXT t"):
            await client.ask(LEFT, timeout=MOMENT)
        hub.say(b"VAL one", b"OK 9", b"OK 3")
        return await waiting, await client.ask(LEFT)

    assert in_task(tmp_path, work) == (b"one", 3)


def test_an_answer_in_the_moment_in_which_the_time_is_up_is_an_answer(tmp_path):
    async def work(client, hub):
        asking = asyncio.create_task(client.ask(RECV, timeout=60))
        await asyncio.sleep(0)
        asked = client._exchange._sent[0].owner
        asked.wake()  # as its timer does
        client._exchange.come(b"VAL one\n")
        return await asking

    assert in_task(tmp_path, work) == b"one"


# ---- against a model of a hub


class Model:
    """A hub with one broadcast topic and one receiver, which answers lines in their order, by the rules of docs/FORMATS.md."""

    def __init__(self):
        self.lines, self.values, self.position = [], [], 0

    def answer(self):
        """The reply to the first line; none where it has to wait."""
        verb = self.lines[0].split()[0]
        unread = len(self.values) - self.position
        if verb == b"NEXT" and not unread:
            return None
        del self.lines[0]
        if verb == b"LEFT":
            return b"OK %d\n" % unread
        if not unread:
            return b"EMPTY\n"
        if unread > 4:
            self.position += unread - 4
            return b"LAG %d\n" % (unread - 4)
        self.position += 1
        return b"VAL %d\n" % self.values[self.position - 1]


class Run:
    """A run of an exchange against the model, with what was received."""

    def __init__(self, seed, verbs):
        self.dice, self.hub, self.exchange, self.verbs = random.Random(seed), Model(), Exchange(None), verbs
        self.asked, self.told = [], []

    def publish(self):
        self.hub.values.append(len(self.hub.values))

    def ask(self):
        self.asked.append(self.exchange.ask(self.dice.choice(self.verbs)))

    def carry(self):
        """Lines to the hub, and its replies, in pieces."""
        self.hub.lines += bytes(self.exchange.out).splitlines()
        self.exchange.out.clear()
        while self.hub.lines and (reply := self.hub.answer()) is not None:
            cut = self.dice.randrange(len(reply))
            self.exchange.come(reply[:cut])
            self.exchange.come(reply[cut:])
            self.hub.lines += bytes(self.exchange.out).splitlines()
            self.exchange.out.clear()

    def take(self):
        """What has been answered, in the order of the replies."""
        answered = sorted((it for it in self.asked if it.reply is not None), key=lambda it: it.number)
        self.asked = [it for it in self.asked if it.reply is None]
        for it in answered:
            try:
                self.told.append(int(it.result()))
            except Lagged as lag:
                self.told += [None] * lag.count
            except Empty:
                pass

    def give_up(self, which):
        for it in which:
            self.exchange.give_up(it)
            self.asked.remove(it)

    def is_whole(self):
        """Whether each value was received or missed, in its order."""
        return [place if it is None else it for place, it in enumerate(self.told)] == list(range(len(self.hub.values)))


@pytest.mark.parametrize("seed", range(300))
def test_whatever_is_given_up_each_value_is_received_or_counted_in_its_order(seed):
    run = Run(seed, [RECV, RECV, TRY])
    for _ in range(200):
        act = run.dice.randrange(10)
        if act < 3:
            run.publish()
        elif act < 6:
            run.ask()
        elif act < 8:
            run.give_up([it for it in run.asked if run.dice.random() < 0.4])
        else:
            run.carry()
        run.take()
    # Each that still waits is answered in the end: for a value there is one that waits at most, and for each that was given up.
    for _ in range(len(run.asked) + len(run.exchange.given_up()) + 1):
        run.publish()
        run.carry()
        run.take()
    assert not run.asked
    while len(run.told) < len(run.hub.values):
        run.asked.append(run.exchange.ask(RECV))
        run.carry()
        run.take()
    assert run.is_whole()


@pytest.mark.parametrize("seed", range(100))
def test_what_is_given_up_when_its_reply_has_come_is_the_next_ones(seed):
    run = Run(seed, [RECV])
    for _ in range(100):
        run.publish()
        run.ask()
        if run.dice.random() < 0.7:
            run.carry()
        if run.dice.random() < 0.5:
            run.give_up(list(run.asked))
        if run.dice.random() < 0.5:
            run.take()
    run.carry()
    run.take()
    while len(run.told) < len(run.hub.values):
        run.ask()
        run.carry()
        run.take()
    assert run.is_whole()


@pytest.mark.parametrize("seed", range(100))
def test_where_only_looks_are_given_up_the_hub_is_never_held_up(seed):
    run = Run(seed, [RECV, TRY])
    for _ in range(100):
        act = run.dice.randrange(8)
        if act < 2:
            run.publish()
        elif act < 4 and not run.asked:
            run.ask()
        elif act < 6:
            run.give_up([it for it in run.asked if it.verb == b"TRY"])
        else:
            run.carry()
        run.take()
    while run.asked:
        run.publish()
        run.carry()
        run.take()
    looked = run.exchange.ask(LEFT)
    run.carry()
    assert looked.result() == len(run.hub.values) - len(run.told)


# ---- with the program


@NEEDS_PROGRAM
def test_a_receive_that_was_given_up_gets_what_is_sent_later(tmp_path):
    async def run(path):
        async with await AsyncClient.connect(path) as hub, await AsyncClient.connect(path) as other:
            await hub.ask_all([commands.open_broadcast("news", 8), commands.subscribe("news")])
            await other.ask(commands.bind("news"))
            with pytest.raises(asyncio.TimeoutError):
                await asyncio.wait_for(hub.ask(commands.recv("news")), MOMENT)
            for value in (b"one", b"two", b"three"):
                await other.ask(commands.send("news", value))
            return [await hub.ask(commands.recv("news")) for _ in range(3)]

    with served(tmp_path, 2) as path:
        assert asyncio.run(run(path)) == [b"one", b"two", b"three"]


COUNT = 3_000


def publish(path, ready):
    with Client(path) as hub:
        hub.ask(commands.bind("news"))
        ready.wait()
        for number in range(COUNT):
            hub.ask(commands.send("news", b"%d" % number))


def account(told):
    """That what was received and missed is all that was sent, in its order."""
    place = 0
    for it in told:
        if isinstance(it, Lagged):
            place += it.count
        else:
            assert int(it) == place
            place += 1
    assert place == COUNT


@NEEDS_PROGRAM
def test_short_waits_of_a_thread_miss_nothing(tmp_path):
    dice, told, ready = random.Random(7), [], threading.Event()
    with served(tmp_path, 2) as path, Client(path) as hub:
        hub.ask(commands.open_broadcast("news", 64))
        hub.ask(commands.subscribe("news"))
        publishing = threading.Thread(target=publish, args=(path, ready))
        publishing.start()
        ready.set()
        while not told or told[-1] != b"%d" % (COUNT - 1):
            try:
                told.append(hub.ask(dice.choice([commands.recv("news"), commands.try_recv("news")]), timeout=dice.random() / 5_000))
            except Lagged as lag:
                told.append(lag)
            except (Empty, TimeoutError):
                pass
        publishing.join()
    account(told)


@NEEDS_PROGRAM
def test_short_waits_and_cancels_of_tasks_miss_nothing(tmp_path):
    dice, ready = random.Random(8), threading.Event()

    async def run(path):
        told = []
        async with await AsyncClient.connect(path) as hub:
            await hub.ask_all([commands.open_broadcast("news", 64), commands.subscribe("news")])
            publishing = threading.Thread(target=publish, args=(path, ready))
            publishing.start()
            ready.set()
            while not told or told[-1] != b"%d" % (COUNT - 1):
                limit, command = dice.random() / 5_000, dice.choice([commands.recv("news"), commands.try_recv("news")])
                asking = asyncio.create_task(hub.ask(command) if dice.random() < 0.5 else hub.ask(command, timeout=limit))
                await asyncio.wait([asking], timeout=limit)
                asking.cancel()  # whether it has its answer or not
                try:
                    told.append(await asking)
                except Lagged as lag:
                    told.append(lag)
                except (Empty, TimeoutError, asyncio.CancelledError):
                    pass
            await asyncio.to_thread(publishing.join)
        return told

    with served(tmp_path, 2) as path:
        account(asyncio.run(run(path)))


@NEEDS_PROGRAM
def test_the_newest_value_of_a_watch_topic_is_always_seen_in_the_end(tmp_path):
    dice, ready = random.Random(9), threading.Event()

    def publishes(path):
        with Client(path) as hub:
            hub.ask(commands.bind("light"))
            ready.wait()
            for number in range(1, 1_001):
                hub.ask(commands.send("light", b"%d" % number))

    with served(tmp_path, 2) as path, Client(path) as hub:
        hub.ask(commands.open_watch("light", b"0"))
        hub.ask(commands.subscribe("light"))
        publishing = threading.Thread(target=publishes, args=(path,))
        publishing.start()
        ready.set()
        seen = b"0"
        while seen != b"1000":
            # Only after it is told of news does it look; so without the last news it would wait for ever.
            try:
                if hub.ask(dice.choice([commands.changed("light"), commands.try_changed("light")]), timeout=dice.random() / 5_000):
                    seen = hub.ask(commands.borrow("light")).value
            except TimeoutError:
                pass
        publishing.join()


def test_a_raw_command_takes_what_came_late_too(both):
    client, hub = both
    gives_up(client, commands.raw(b"NEXT t"))
    hub.say(b"VAL a b")
    assert client.ask(commands.raw(b"TRY t")) in (Reply(b"VAL", b"a b"), Reply(b"EMPTY"))
