"""The rules of a broadcast channel, between threads and tasks too."""
import asyncio
import gc
import random
import threading
import time
import weakref

import pytest

from topichub import (BadCapacity, BadLimit, Broadcast, ChannelError, Closed, Empty, HandleClosed, HistoryFull, Lagged, NoReceivers,
                      PartlySent, TooMany, check)


def test_each_value_goes_to_each_receiver_in_order():
    with Broadcast(4) as news:
        receivers = [news.subscribe(), news.subscribe()]
        values = ["one", 2, None, b"\xff", ["any", "object"]][:4]
        assert [news.send(value) for value in values] == [2] * 4
    for receiver in receivers:
        assert list(receiver) == values
        with pytest.raises(Closed):
            receiver.recv()


def test_who_is_too_slow_is_told_how_many_values_it_missed():
    news = Broadcast(3)
    receiver = news.subscribe()
    for number in range(7):
        news.send(number)
    assert (receiver.left(), news.queued()) == (7, 4)
    with pytest.raises(Lagged) as lag:
        receiver.try_recv()
    assert lag.value.count == 3
    assert [receiver.recv() for _ in range(4)] == [3, 4, 5, 6]
    with pytest.raises(Empty):
        receiver.try_recv()


def test_a_loop_goes_on_behind_a_lag():
    with Broadcast(2) as news:
        receiver = news.subscribe()
        for number in range(5):
            news.send(number)
    with pytest.raises(Lagged):
        list(receiver)
    assert list(receiver) == [3, 4]


def test_without_receivers_a_value_is_not_kept():
    news = Broadcast(2)
    with pytest.raises(NoReceivers):
        news.send("lost")
    receiver = news.subscribe()
    assert (news.receiver_count(), news.send("told"), receiver.recv()) == (1, 1, "told")


def test_a_value_that_was_refused_is_not_held_on_to():
    news = Broadcast(2)
    for send in (news.send, lambda value: news.send_many([value])):
        value = threading.Event()  # any object that can be weakly held
        left = weakref.ref(value)
        with pytest.raises(NoReceivers):
            send(value)
        del value
        gc.collect()
        assert left() is None
    receiver = news.subscribe()
    assert (news.send("told"), receiver.recv(), news.queued()) == (1, "told", 0)


def test_new_receivers_begin_where_they_say():
    news = Broadcast(4)
    first = news.subscribe()
    news.send(1)
    news.send(2)
    assert first.recv() == 1
    newest, oldest, again = news.subscribe(), news.subscribe(oldest=True), first.resubscribe()
    news.clone().send(3)
    assert [receiver.try_recv() for receiver in (newest, oldest, again, first)] == [3, 2, 3, 2]


def test_handles_that_are_closed_or_collected_are_dropped():
    news = Broadcast(4)
    receivers = [news.subscribe() for _ in range(3)]
    receivers[0].close()
    receivers[0].close()
    assert news.receiver_count() == 2
    with receivers[1]:
        pass
    assert news.receiver_count() == 1
    with pytest.raises(ValueError):
        receivers[0].try_recv()
    receivers.clear()
    gc.collect()
    assert news.receiver_count() == 0
    last = news.subscribe()
    del news
    gc.collect()
    with pytest.raises(Closed):
        last.recv()


class Counted:
    """A value that counts how many of its kind are left."""

    alive = 0

    def __init__(self, news):
        self.news = news
        Counted.alive += 1

    def __del__(self):
        Counted.alive -= 1
        self.news.receiver_count()  # its end may use the channel


def test_values_are_let_go_after_the_last_receive_and_may_use_the_channel_then():
    news = Broadcast(2)
    first, second = news.subscribe(), news.subscribe()
    for _ in range(3):
        news.send(Counted(news))
    gc.collect()
    assert Counted.alive == 2
    for receiver in (first, second):
        with pytest.raises(Lagged):
            receiver.recv()
        receiver.recv()
    gc.collect()
    assert Counted.alive == 1
    first.close()
    second.close()
    gc.collect()
    assert Counted.alive == 0


def test_what_no_channel_can_have_is_refused():
    for capacity in (0, 65_537):
        with pytest.raises(BadCapacity):
            Broadcast(capacity)
    for limit in (0, 2, 1_000_001):
        with pytest.raises(BadLimit):
            Broadcast(1, recorded=limit)
    with pytest.raises(ValueError):
        Broadcast(1).trace()
    assert issubclass(BadCapacity, ValueError) and issubclass(BadLimit, ValueError) and issubclass(HandleClosed, ValueError)
    assert all(issubclass(it, ChannelError) for it in (BadCapacity, BadLimit, HandleClosed, TooMany, PartlySent))


def test_the_65_536th_receiver_is_refused_by_name_and_a_closed_one_makes_room():
    news = Broadcast(1)
    receivers = [news.subscribe() for _ in range(65_535)]
    for subscribe in (news.subscribe, lambda: news.subscribe(oldest=True), receivers[0].resubscribe):
        with pytest.raises(TooMany, match="65,535 receivers"):
            subscribe()
    assert news.receiver_count() == 65_535
    assert news.send("still") == 65_535
    receivers.pop().close()
    receivers.append(news.subscribe())
    assert (news.receiver_count(), receivers[0].recv()) == (65_535, "still")


def test_the_65_536th_sender_is_refused_by_name_and_a_closed_one_makes_room():
    senders = [Broadcast(1)]
    senders += [senders[0].clone() for _ in range(65_534)]
    with pytest.raises(TooMany, match="65,535 senders"):
        senders[-1].clone()
    senders.pop().close()
    senders.append(senders[0].clone())


def test_a_closed_handle_says_so():
    news = Broadcast(1)
    receiver = news.subscribe()
    news.close()
    receiver.close()
    for use in (lambda: news.send(1), news.subscribe, news.clone, news.queued, receiver.recv, receiver.try_recv, receiver.left,
                lambda: receiver.recv_many(2), lambda: news.send_many([1, 2])):
        with pytest.raises(HandleClosed):
            use()


def test_a_receive_waits_no_longer_than_it_is_told():
    news = Broadcast(1)
    receiver = news.subscribe()
    with pytest.raises(TimeoutError):
        receiver.recv(timeout=0.01)
    timer = threading.Timer(0.05, news.send, ["late"])
    timer.start()
    assert receiver.recv(timeout=60) == "late"
    timer.join()


def test_a_limit_may_be_nothing_or_more_than_a_system_counts():
    news = Broadcast(4)
    receiver = news.subscribe()
    for timeout in (0, -1, 0.0):
        with pytest.raises(TimeoutError):
            receiver.recv(timeout)
        with pytest.raises(TimeoutError):
            asyncio.run(receiver.recv_async(timeout))
    timer = threading.Timer(0.01, news.send_many, [["late", "later"]])
    timer.start()
    assert receiver.recv(1e300) == "late"
    assert asyncio.run(receiver.recv_async(float("inf"))) == "later"
    timer.join()
    news.send("there")
    assert receiver.recv(0) == "there"


def test_what_comes_after_the_limit_is_the_next_receive():
    async def run():
        news = Broadcast(4)
        receiver = news.subscribe()
        for wait in (receiver.recv_async(timeout=0.01), receiver.recv_many_async(3, timeout=0.01)):
            with pytest.raises(TimeoutError):
                await wait
        for wait in (receiver.recv_async(), receiver.recv_many_async(3)):
            with pytest.raises(asyncio.TimeoutError):
                await asyncio.wait_for(wait, 0.01)
        for wait in (lambda: receiver.recv(0.01), lambda: receiver.recv_many(3, 0.01)):
            with pytest.raises(TimeoutError):
                wait()
        news.send_many([1, 2, 3])
        return [await receiver.recv_async(timeout=60), receiver.recv(60), *receiver.recv_many(3)]

    assert asyncio.run(run()) == [1, 2, 3]


def test_short_waits_and_cancels_miss_nothing():
    dice = random.Random(3)

    async def receive(receiver, told):
        while True:
            limit = dice.random() / 5_000
            wait = dice.choice([lambda: receiver.recv_async(limit), receiver.recv_async, lambda: receiver.recv_many_async(3, limit)])
            waiting = asyncio.create_task(wait())
            await asyncio.wait([waiting], timeout=limit)
            waiting.cancel()  # whether it has its value or not
            try:
                found = await waiting
                told += found if isinstance(found, list) else [found]
            except Lagged as lag:
                told += [None] * lag.count
            except (TimeoutError, asyncio.CancelledError):
                pass
            except Closed:
                return told

    news = Broadcast(64)
    receiver = news.subscribe()

    def send():
        with news:
            for number in range(3_000):
                news.send(number)
                if number % 50 == 0:
                    time.sleep(0.0001)  # so that the receiver has to wait now and then

    sending = threading.Thread(target=send)
    sending.start()
    told = asyncio.run(receive(receiver, []))
    sending.join()
    assert [number if value is None else value for number, value in enumerate(told)] == list(range(3_000))


def test_many_values_are_sent_in_a_row_and_received_as_far_as_they_are_there():
    with Broadcast(4) as news:
        first, second = news.subscribe(), news.subscribe()
        assert news.send_many(iter("abc")) == 2
        assert news.send_many([]) == 0
        assert first.recv_many(2) == ["a", "b"]
        assert first.recv_many(9) == ["c"]
        assert (first.recv_many(0), first.recv_many(-1), second.left()) == ([], [], 3)
        news.send_many("defg")
        with pytest.raises(Lagged) as lag:
            second.recv_many(9)
        assert (lag.value.count, second.recv_many(3), second.recv_many(9)) == (3, ["d", "e", "f"], ["g"])
    assert first.recv_many(9) == ["d", "e", "f", "g"]
    with pytest.raises(Closed):
        first.recv_many(9)
    assert second.recv_many(0) == []


def test_a_receive_of_many_waits_for_one():
    news = Broadcast(4)
    receiver = news.subscribe()
    timer = threading.Timer(0.01, news.send_many, [[1, 2]])
    timer.start()
    assert receiver.recv_many(9, timeout=60) == [1, 2]
    timer.join()
    timer = threading.Timer(0.01, news.send_many, [[3, 4]])
    timer.start()
    assert asyncio.run(receiver.recv_many_async(9, timeout=60)) == [3, 4]
    timer.join()


def test_a_send_of_many_to_nobody_sends_none():
    with pytest.raises(NoReceivers):
        Broadcast(8).send_many([1, 2])


def test_a_history_without_room_is_named():
    news = Broadcast(8, recorded=3)  # room for one call, and for the drops of the sender and one receiver
    receiver = news.subscribe()
    with pytest.raises(HistoryFull):
        news.subscribe()
    assert (news.send("there"), receiver.recv(), issubclass(HistoryFull, OverflowError)) == (1, "there", True)


def test_a_send_of_many_that_fails_wakes_those_who_get_the_first(monkeypatch):
    news = Broadcast(8)
    receiver = news.subscribe()
    channel, made = news._channel, []
    call = channel.call

    def fails(name, *numbers):
        made.append(name)
        if made == ["send"] * 3:
            raise MemoryError("memory was refused")
        return call(name, *numbers)

    told = []
    receiving = threading.Thread(target=lambda: told.append(receiver.recv(60)))
    receiving.start()
    while not channel.waiting._wakes:
        time.sleep(0.001)
    with monkeypatch.context() as refusing:
        refusing.setattr(channel, "call", lambda name, *numbers: fails(name, *numbers) if name == "send" else call(name, *numbers))
        with pytest.raises(PartlySent) as partly:
            news.send_many([1, 2, 3, 4])
    receiving.join()
    assert (partly.value.sent, type(partly.value.__cause__), told) == (2, MemoryError, [1])
    assert (news.send(5), receiver.recv_many(9)) == (1, [2, 5])


def test_a_receive_of_many_that_fails_keeps_what_it_has(monkeypatch):
    news = Broadcast(8)
    receiver = news.subscribe()
    news.send_many([1, 2, 3])
    channel, made = news._channel, []
    call = channel.call

    def fails(name, *numbers):
        made.append(name)
        if len(made) == 3:
            raise MemoryError("memory was refused")
        return call(name, *numbers)

    with monkeypatch.context() as refusing:
        refusing.setattr(channel, "call", fails)
        assert receiver.recv_many(9) == [1, 2]
    assert receiver.recv_many(9) == [3]


def test_a_task_waits_and_others_run_meanwhile():
    async def run():
        news = Broadcast(8)
        receiver = news.subscribe()
        told = []

        async def follow():
            async for value in receiver:
                told.append(value)

        following = asyncio.create_task(follow())
        for number in range(5):
            news.send(number)
            await asyncio.sleep(0)
        threading.Timer(0.02, news.close).start()
        await asyncio.wait_for(following, 60)
        return told

    assert asyncio.run(run()) == [0, 1, 2, 3, 4]


def test_a_wait_that_is_cancelled_has_received_nothing():
    async def run():
        news = Broadcast(8)
        receiver = news.subscribe()
        for _ in range(3):
            waiting = asyncio.create_task(receiver.recv_async())
            await asyncio.sleep(0)
            waiting.cancel()
            await asyncio.gather(waiting, return_exceptions=True)
        news.send("there")
        return receiver.try_recv()

    assert asyncio.run(run()) == "there"


def test_a_loop_that_has_been_closed_holds_up_nobody():
    news = Broadcast(8)
    receiver = news.subscribe()
    loop = asyncio.new_event_loop()
    waiting = loop.create_task(receiver.recv_async())
    loop.run_until_complete(asyncio.sleep(0))
    loop.close()
    assert news.send("there") == 1
    assert receiver.recv() == "there"
    waiting._log_destroy_pending = False


def receive_all(receiver, dice):
    """What a receiver is told by different receives, and how many values it missed."""
    told, missed = [], 0
    while True:
        try:
            how = dice.randrange(3)
            if how == 0:
                told.append(receiver.try_recv())
            elif how == 1:
                told.append(receiver.recv())
            else:
                told.append(asyncio.run(receiver.recv_async()))
        except Lagged as lag:
            missed += lag.count
        except Empty:
            time.sleep(0)
        except Closed:
            return told, missed


def test_runs_of_threads_are_legal():
    for seed in range(10):
        news = Broadcast(8, recorded=100_000)
        told = {}

        def receive(turn, receiver):
            told[turn] = receive_all(receiver, random.Random(100 * seed + turn))

        def send(turn, sender):
            with sender:
                for number in range(60):
                    sender.send((turn, number))
                    if number % 7 == turn:
                        sender.subscribe(oldest=True).close()

        receiving = [threading.Thread(target=receive, args=(turn, news.subscribe())) for turn in range(3)]
        sending = [threading.Thread(target=send, args=(turn, news.clone())) for turn in range(2)]
        news.close()
        for thread in receiving + sending:
            thread.start()
        for thread in receiving + sending:
            thread.join()
        for values, missed in told.values():
            assert len(values) + missed == 120
            for turn in range(2):
                numbers = [number for sender, number in values if sender == turn]
                assert numbers == sorted(set(numbers))
        assert check(news.trace()).word == "legal"
