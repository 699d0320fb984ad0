"""What is recorded, and what a check says of it."""
import os
import re

import pytest

from topichub import Broadcast, Closed, Lagged, Verdict, Watch, __version__, _library, check, version

HERE = os.path.dirname(os.path.abspath(__file__))
HEADER = os.path.join(HERE, "..", "..", "c", "topichub.h")


def test_a_broadcast_channel_tells_each_call_with_its_reply():
    news = Broadcast(2, recorded=100)
    receiver = news.subscribe()
    for word in ("red", "green", "blue"):
        news.send(word)
    with pytest.raises(Lagged):
        receiver.recv()
    assert receiver.try_recv() == "green"
    told = news.trace()
    assert told == ("TRACE 1 B 2\nAT 0 0 NEXT 2\nTX 1\nBEGIN\nC subscribe 1\nR new-rx 2\nC send 1 0\nR sent 1\n"
                    "C send 1 1\nR sent 1\nC send 1 2\nR sent 1\nC recv 2\nR lagged 1\nC try-recv 2\nR value 1\nEND 6\n")
    assert check(told) == Verdict("legal", 6)
    assert check(told.replace("lagged 1", "lagged 2")) == Verdict("illegal", 14)
    assert check(b"") == Verdict("bad", 1)


def test_a_full_history_goes_on_in_the_next_trace():
    light = Watch("red", recorded=10)
    reader = light.subscribe()
    for color in range(20):
        light.send(color)
        reader.changed()
    light.close()
    with pytest.raises(Closed):
        reader.changed()
    reader.close()
    counts = []
    while not counts or counts[-1]:
        verdict = check(light.trace())
        assert verdict.word == "legal" and verdict.number <= 10
        counts.append(verdict.number)
    assert sum(counts) == 1 + 40 + 3


def test_the_library_and_the_package_are_of_one_version():
    with open(os.path.join(HERE, "..", "pyproject.toml"), encoding="utf-8") as file:
        packaged = re.search(r'^version = "(.*)"$', file.read(), re.MULTILINE)
    assert version() == __version__ == packaged[1]


@pytest.mark.skipif(not os.path.exists(HEADER), reason="the header is not beside this package")
def test_the_statuses_are_those_of_the_header():
    with open(HEADER, encoding="utf-8") as file:
        header = dict(re.findall(r"^ *TOPICHUB_([A-Z_]+) = (\d+),", file.read(), re.MULTILINE))
    assert {status.name: str(status.value) for status in _library.Status}.items() <= header.items()


@pytest.mark.skipif(not os.path.exists(HEADER), reason="the header is not beside this package")
def test_each_call_takes_what_the_header_says():
    with open(HEADER, encoding="utf-8") as file:
        declared = re.findall(r"^topichub_reply topichub_(broadcast|watch)_(\w+)\((.*)\);", file.read(), re.MULTILINE)
    numbers = {(kind, name): words.count("uint64_t") for kind, name, words in declared}
    for kind, calls in _library.CALLS.items():
        assert {(kind, name): count for name, count in calls.items()}.items() <= numbers.items()
