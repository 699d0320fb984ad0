"""The rules of a watch channel, between threads and tasks too."""
import asyncio
import random
import threading
import time

import pytest

from topichub import Closed, NoReceivers, Shown, TooMany, Watch, check


def test_a_change_is_told_once_and_the_newest_value_is_shown():
    light = Watch("red")
    reader = light.subscribe()
    assert not reader.has_changed()
    light.send("amber")
    light.send("green")
    assert reader.has_changed()
    assert reader.borrow() == Shown("green", True)
    reader.changed()
    assert not reader.has_changed()
    assert reader.borrow_and_update() == Shown("green", False)


def test_marks():
    light = Watch(1)
    reader = light.subscribe()
    reader.mark_changed()
    assert (reader.has_changed(), reader.clone().has_changed(), light.subscribe().has_changed()) == (True, True, False)
    reader.mark_unchanged()
    assert not reader.has_changed()


def test_an_unseen_value_is_told_before_the_end():
    with Watch(1) as light:
        reader = light.subscribe()
        light.send(2)
    with pytest.raises(Closed):
        reader.has_changed()
    reader.changed()
    with pytest.raises(Closed):
        reader.changed()
    assert reader.borrow().value == 2


def test_publications_with_and_without_readers():
    light = Watch(1)
    assert light.is_closed()
    with pytest.raises(NoReceivers):
        light.send(2)
    assert light.send_replace(3) == 1
    light.send_modify(lambda value: value + 1)
    with light.subscribe() as reader:
        assert reader.borrow() == Shown(4, False)
        light.send_quietly(lambda value: value + 1)
        assert reader.borrow() == Shown(5, False)
        light.clone().send(6)
        assert (reader.borrow(), light.receiver_count()) == (Shown(6, True), 1)
    light.wait_closed(timeout=60)


def test_a_change_that_raises_publishes_nothing():
    light = Watch(1)
    reader = light.subscribe()
    with pytest.raises(ZeroDivisionError):
        light.send_modify(lambda value: value // 0)
    assert reader.borrow() == Shown(1, False)


def test_a_reader_waits_in_a_thread_or_a_task():
    light = Watch(0)
    reader = light.subscribe()
    with pytest.raises(TimeoutError):
        reader.changed(timeout=0.01)

    async def follow():
        seen = []
        while True:
            try:
                await reader.changed_async()
            except Closed:
                return seen
            seen.append(reader.borrow_and_update().value)

    def publish():
        for value in range(1, 4):
            time.sleep(0.02)  # so that the reader waits meanwhile, mostly
            light.send(value)
        light.close()

    publisher = threading.Thread(target=publish)
    publisher.start()
    seen = asyncio.run(asyncio.wait_for(follow(), 60))
    publisher.join()
    assert seen[-1] == 3 and seen == sorted(seen)


def test_what_comes_after_the_limit_is_told_by_the_next_wait():
    async def run():
        light = Watch(0)
        reader = light.subscribe()
        with pytest.raises(TimeoutError):
            await reader.changed_async(timeout=0.01)
        with pytest.raises(asyncio.TimeoutError):
            await asyncio.wait_for(reader.changed_async(), 0.01)
        with pytest.raises(TimeoutError):
            await light.wait_closed_async(timeout=0.01)
        with pytest.raises(TimeoutError):
            light.wait_closed(timeout=0.01)
        light.send(1)
        await reader.changed_async(timeout=60)
        light.send(2)
        reader.changed(timeout=60)
        reader.close()
        await light.wait_closed_async(timeout=60)
        light.wait_closed(timeout=60)

    asyncio.run(run())


def test_short_waits_and_cancels_miss_no_last_value():
    dice = random.Random(4)

    async def follow(reader):
        seen = 0
        while seen != 1_000:
            waiting = asyncio.create_task(reader.changed_async(dice.choice([None, dice.random() / 5_000])))
            await asyncio.wait([waiting], timeout=dice.random() / 5_000)
            waiting.cancel()  # whether it was told or not
            # Only after it is told of news does it look; so without the last news it would wait for ever.
            if (await asyncio.gather(waiting, return_exceptions=True))[0] is None:
                seen = reader.borrow().value

    light = Watch(0)
    reader = light.subscribe()
    publishing = threading.Thread(target=lambda: [light.send(number) for number in range(1, 1_001)])
    publishing.start()
    asyncio.run(asyncio.wait_for(follow(reader), 60))
    publishing.join()


def test_many_values_are_published_in_a_row():
    light = Watch("red", recorded=100)
    with pytest.raises(NoReceivers):
        light.send_many(["amber", "green"])
    reader = light.subscribe()
    light.send_many([])
    assert not reader.has_changed()
    light.send_many(iter(["amber", "green"]))
    assert reader.borrow_and_update() == Shown("green", True)
    assert not reader.has_changed()
    text = light.trace()
    assert check(text).word == "legal" and "C send 1 1\nR done\nC send 1 2\nR done\n" in text


def test_many_values_wake_a_reader_that_waits():
    light = Watch("red")
    reader = light.subscribe()
    timer = threading.Timer(0.01, light.send_many, [["amber", "green"]])
    timer.start()
    reader.changed(timeout=60)
    timer.join()
    assert reader.borrow() == Shown("green", False)


def test_the_65_536th_handle_is_refused_by_name():
    light = Watch(0)
    readers = [light.subscribe() for _ in range(65_535)]
    for subscribe in (light.subscribe, readers[0].clone):
        with pytest.raises(TooMany, match="65,535 receivers"):
            subscribe()
    readers.pop().close()
    readers.append(readers[0].clone())
    assert light.receiver_count() == 65_535
    senders = [light, *(light.clone() for _ in range(65_534))]
    with pytest.raises(TooMany, match="65,535 senders"):
        senders[-1].clone()


def test_a_sender_waits_until_nobody_reads():
    light = Watch(0)
    reader = light.subscribe()
    timer = threading.Timer(0.02, reader.close)
    timer.start()
    asyncio.run(asyncio.wait_for(light.wait_closed_async(), 60))
    assert light.is_closed()


def test_runs_of_threads_are_legal():
    for seed in range(10):
        light = Watch(0, recorded=100_000)

        def read(turn, reader):
            dice, seen = random.Random(10 * seed + turn), []
            with reader:
                waits = [reader.changed, lambda: asyncio.run(reader.changed_async())]
                while True:
                    try:
                        dice.choice([*waits, reader.mark_unchanged, reader.has_changed])()
                    except Closed:
                        break
                    shown = reader.borrow_and_update()
                    if shown.unseen:
                        seen.append(shown.value)
            assert seen == sorted(set(seen))

        threads = [threading.Thread(target=read, args=(turn, light.subscribe())) for turn in range(3)]
        for thread in threads:
            thread.start()
        for value in range(1, 100):
            light.send(value) if value % 3 else light.send_modify(lambda before: before + 1)
        light.close()
        for thread in threads:
            thread.join()
        assert check(light.trace()).word == "legal"
