"""What the bridge makes of entries, traces and its own account. With hubs and a Redis it is tried by examples/clients/check-tools
and checks/bridge."""
import pytest

from topichub.bridge import Entry, Refused, State, Window, read_trace

EAST = {b"from": b"east", b"run": b"7", b"number": b"5"}


def read(**more):
    return Entry.read({**EAST, **{name.encode(): value for name, value in more.items()}})


@pytest.mark.parametrize("more, values, missed", [
    ({"value": b"one two"}, [b"one two"], 0),
    ({"value": b"\xff\x00"}, [b"\xff\x00"], 0),
    ({"values": b"a\nb\nc"}, [b"a", b"b", b"c"], 0),
    ({"gap": b"5"}, [], 5),
    ({"value": b"two\nlines"}, None, 0),
    ({"value": b""}, None, 0),
    ({}, None, 0),
    ({"number": b"0"}, [], 0),
])
def test_entry(more, values, missed):
    entry = read(**more)
    assert (entry.name, entry.run, entry.values, entry.missed) == ("east", "7", values, missed)


@pytest.mark.parametrize("more", [
    {"from": b"two\nlines"}, {"from": b"East"}, {"run": b"x"}, {"number": b"-3"}, {"number": b"9" * 40}, {"gap": b"6"}, {"gap": b"x"},
    {"values": b"1\n2\n3\n4\n5\n6"}, {"values": b"a\n\nb"}, {"values": b"a\rb"}, {"values": b"a\nb", "gap": b"1"},
    {"values": b"x" * 1_025}, {"values": b"\n".join([b"x"] * 257), "number": b"300"},
])
def test_no_entry_of_a_bridge(more):
    assert read(**more) is None


def test_entry_is_read_as_it_is_written():
    for entry in (Entry("east", "7", 5, 0, [b"a", b"b"]), Entry("east", "7", 5, 0, [b"a"]), Entry("east", "7", 5, 3, []),
                  Entry("east", "7", 0, 0, [])):
        fields = {name.encode(): it if isinstance(it, bytes) else str(it).encode() for name, it in entry.fields().items()}
        assert Entry.read(fields) == entry


@pytest.mark.parametrize("ours, found, others", [
    ([b"a", b"b"], [b"a", b"b"], [b"", b""]),
    ([b"a", b"b"], [b"x", b"a", b"b", b"y"], [b"x", b"", b"", b"y"]),
    ([b"a", b"b"], [None, None, None, b"b", b"y"], [None, None, b"", b"", b"y"]),
    ([b"a", b"b"], [None, None, None], [b"", b"", None]),
    ([b"a", b"a"], [b"a", b"x", b"a", b"a"], [b"a", b"x", b"", b""]),
    ([b"a", b"b"], [b"a", b"x", b"b"], [b"", b"x", b""]),
])
def test_window(ours, found, others):
    window = Window(10, 10 + len(found), ours)
    window.found = list(found)
    assert window.others() == others


def test_window_without_what_was_sent():
    window = Window(10, 12, [b"a"])
    window.found = [b"x", b"y"]
    with pytest.raises(ConnectionError):
        window.others()


def test_state():
    state = State("0123456789abcdef")
    assert state.line() == b"0123456789abcdef 0 0 -"
    state.sender, state.sent, state.at, state.seen = "4", 17, "1700-3", {"west": ("9", 12), "north": ("8", 0)}
    assert state.line() == b"0123456789abcdef 4 17 1700-3 north:8:0 west:9:12"
    again = State.read(state.line())
    assert (again.life, again.sender, again.sent, again.at, again.seen) == (state.life, "4", 17, "1700-3", state.seen)


def test_state_is_no_longer_than_a_value():
    state = State("0123456789abcdef")
    state.seen = {f"{it:032}": ("1" * 20, 10 ** 17) for it in range(40)}
    assert len(state.line()) <= 1_024
    assert list(State.read(state.line()).seen) == [f"{it:032}" for it in range(39, 39 - len(State.read(state.line()).seen), -1)]


@pytest.mark.parametrize("line", [b"", b"0123456789abcdef 1", b"0123456789ABCDEF 0 0 -", b"0123456789abcdef 0 0 - west", b"green"])
def test_no_state(line):
    with pytest.raises(ValueError):
        State.read(line)


# An earlier run was the sender 3, and ours is 5: it has made the calls q, r, q.
TRACE = b"""TRACE 1 B 4
AT 8 10 NEXT 5
KEEP eight
KEEP nine
TX 1
TX 3
RX 2 8
BEGIN
C send 1 ten
R sent 1
C send 3 ours
R sent 1
C send 1 twelve and more
R sent 1
C send 1 nobody
R no-receivers
C clone-tx 1
R new-tx 5
C queued 5
R count 2
C readers 1
R count 1
C readers 5
R count 1
C queued 5
R count 2
C send 1 thirteen
R sent 1
C subscribe 5
R new-rx 6
C send 1 fourteen
R sent 2
END 11"""


@pytest.mark.parametrize("due, most, ours, dropped, sends", [
    (0, 9, 1, 0, [(10, 0, b"ten"), (12, 1, b"twelve and more"), (13, 1, b"thirteen")]),
    (11, 9, 1, 0, [(12, 1, b"twelve and more"), (13, 1, b"thirteen")]),
    (12, 9, 0, 0, [(12, 0, b"twelve and more"), (13, 0, b"thirteen")]),
    (14, 9, 0, 0, []),
    (0, 2, 1, 1, [(12, 1, b"twelve and more"), (13, 1, b"thirteen")]),
])
def test_trace(due, most, ours, dropped, sends):
    assert read_trace(TRACE, "qrq", "3", due, most) == (10, 14, "5", ours, dropped, sends)


def test_trace_that_does_not_tell_of_us():
    assert read_trace(TRACE, "qqq", "3", 0, 9) is None


def test_refused_is_no_end_of_the_session():
    assert not issubclass(Refused, OSError)
