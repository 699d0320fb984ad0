"""Traces, and what `topichub check` says of them (docs/FORMATS.md, "Traces"): the verdict of each, and of some what is said to people.
"""
LF = b"\n"

# A receiver of a channel of capacity 2 lags twice.
LAGS = b"""\
TRACE 1 B 2
AT 0 0 NEXT 2
TX 1
BEGIN
C clone-tx 1
R new-tx 2
C subscribe 1
R new-rx 3
C send 2 1
R sent 1
C send 2 2
R sent 1
C send 2 3
R sent 1
C try-recv 3
R lagged 1
C send 2 4
R sent 1
C send 2 5
R sent 1
C try-recv 3
R lagged 2
C try-recv 3
R value 4
C try-recv 3
R value 5
C try-recv 3
R empty
END 12
"""

# The same up to the second lag, which is told as one more than it was.
MISTOLD = LAGS.partition(b"R lagged 2\n")[0] + b"R lagged 3\n"

# A trace that begins in the middle, with a receiver behind the window.
MIDDLE = b"TRACE 1 B 2\nAT 3 5 NEXT 4\nKEEP 4\nKEEP 5\nTX 1\nTX 2\nRX 3 1\nBEGIN\n"

# A watch channel, published to without and with a reader.
WATCH = b"""\
TRACE 1 W
AT 1 NEXT 2
KEEP a
TX 1
BEGIN
C clone-tx 1
R new-tx 2
C send 2 z
R no-receivers
C replace 2 b
R was a
C subscribe 1
R new-rx 3
C has-changed 3
R changed no
C borrow 3
R shown same b
END 6
"""

# Below the first line of a trace of version 2: receivers that begin at the oldest value kept, one of them behind a receiver
# that lags, and one where nothing is left.
FROM_OLDEST = b"""\
AT 0 0 NEXT 2
TX 1
BEGIN
C clone-tx 1
R new-tx 2
C subscribe 1
R new-rx 3
C send 2 1
R sent 1
C send 2 2
R sent 1
C send 2 3
R sent 1
C subscribe-oldest 1
R new-rx 4
C left 4
R count 2
C try-recv 4
R value 2
C try-recv 3
R lagged 1
C try-recv 3
R value 2
C try-recv 3
R value 3
C queued 2
R count 1
C drop-rx 3
R done
C queued 2
R count 1
C try-recv 4
R value 3
C queued 2
R count 0
C subscribe-oldest 1
R new-rx 5
C try-recv 5
R empty
END 18
"""

# Channels with one sender; and a watch channel with one reader too, which has seen the value.
ONE = b"TRACE 1 B 1\nAT 0 0 NEXT 2\nTX 1\nBEGIN\n"
TWO = b"TRACE 1 B 2\nAT 0 0 NEXT 2\nTX 1\nBEGIN\n"
SEEN = b"TRACE 1 W\nAT 1 NEXT 3\nKEEP a\nTX 1\nRX 2 seen\nBEGIN\n"

# Texts with their verdicts.
ROWS = (
    (LAGS, "legal 12"),
    (LAGS + b"x\n", "bad 30"),
    (LAGS + b"\n", "bad 30"),
    (MISTOLD, "illegal 22"),
    (MISTOLD + b"nonsense\n", "illegal 22"),
    (MIDDLE + b"END 0\n", "legal 0"),
    (MIDDLE + b"C try-recv 3\nR lagged 2\nEND 1", "legal 1"),
    (MIDDLE + b"C try-recv 3\nR lagged 1\nEND 1\n", "illegal 10"),
    (MIDDLE + b"C try-recv 3\r\nR lagged 2\r\nEND 1\r\n", "legal 1"),
    (MIDDLE + b"C try-recv 3\n", "bad 10"),
    (MIDDLE + b"C try-recv 4\nR no-handle\nEND 2\n", "bad 11"),
    (MIDDLE + b"C subscribe-oldest 1\n", "bad 9"),
    (WATCH, "legal 6"),
    (b"TRACE 2 B 2\n" + FROM_OLDEST, "legal 18"),
    (b"TRACE 1 B 2\n" + FROM_OLDEST, "bad 15"),
    (b"", "bad 1"),
    (b"\n", "bad 1"),
    (b"TRACE 2 B 2\nAT 0 0 NEXT 2\nTX 1\nBEGIN\nC subscribe-oldest 1\nR new-rx 2\nEND 1\n", "legal 1"),
    (b"TRACE 1 B 1\nAT 0 0 NEXT 18446744073709551615\nTX 1\nBEGIN\nC subscribe 1\nR too-many\nEND 1\n", "legal 1"),
    (
        b"TRACE 1 B 1\nAT 0 0 NEXT 18446744073709551614\nTX 1\nBEGIN\nC subscribe 1\nR new-rx 18446744073709551614\nEND 1\n",
        "legal 1",
    ),
    (
        b"TRACE 1 W\nAT 18446744073709551615 NEXT 2\nKEEP a\nTX 1\nBEGIN\n"
        b"C replace 1 b\nR exhausted\nC quiet 1 c\nR modified no\nC differ 1 c\nR modified no\nEND 3\n",
        "legal 3",
    ),
    (b"TRACE 1 B 1\nAT 0 0 NEXT 3\nTX 1\nRX 2 0\nBEGIN\nC recv 2\nR empty\nEND 1\n", "illegal 7"),
    (SEEN + b"C changed 2\nR not-yet\nEND 1\n", "illegal 8"),
    (SEEN + b"C borrow 2\nR shown new a\nEND 1\n", "illegal 8"),
    (ONE + b"C queued 1\nR exhausted\nEND 1\n", "bad 6"),
    (ONE + b"C queued 1\nC queued 1\n", "bad 6"),
    (ONE + b"R count 0\n", "bad 5"),
    (ONE + b"C is-closed 1\n", "bad 5"),
    (b"TRACE 1 W\nAT 1 NEXT 2\nKEEP a\nTX 1\nBEGIN\nC queued 1\n", "bad 6"),
    (ONE + b"C  queued 1\n", "bad 5"),
    (ONE + b"END 1\n", "bad 5"),
    (ONE + b"END 00\n", "bad 5"),
    (ONE + b"C send 1 a\nR no-receivers\nEND 0\n", "bad 7"),
    (ONE + b"C send 1 a\nR no-receivers\nEND 1\nEND 1\n", "bad 8"),
    (ONE + b"C send 7 a\nR no-handle\nC left 1\nR no-handle\nEND 2\n", "legal 2"),
)

# The beginnings of traces, up to the first line that is bad; and two pictures without a sender.
PICTURE_ROWS = (
    (b"TRACE 1 B 3\n", "bad 1"),
    (b"TRACE 1 B 131072\n", "bad 1"),
    (b"TRACE 2 W\n", "bad 1"),
    (b"TRACE 3 B 2\n", "bad 1"),
    (b"TRACE 1 B 02\n", "bad 1"),
    (b"TRACE 1 B 2\nAT 3 2 NEXT 2\n", "bad 2"),
    (b"TRACE 1 B 2\nAT 0 3 NEXT 2\n", "bad 2"),
    (b"TRACE 1 B 2\nAT 0 0 NEXT 0\n", "bad 2"),
    (b"TRACE 1 B 2\nAT 0 1 NEXT 2\nTX 1\n", "bad 3"),
    (b"TRACE 1 B 2\nAT 0 1 NEXT 2\nKEEP x\nKEEP y\n", "bad 4"),
    (b"TRACE 1 B 2\nAT 0 0 NEXT 2\nTX 0\n", "bad 3"),
    (b"TRACE 1 B 2\nAT 0 0 NEXT 2\nTX 2\n", "bad 3"),
    (b"TRACE 1 B 2\nAT 0 0 NEXT 4\nTX 2\nTX 1\n", "bad 4"),
    (b"TRACE 1 B 2\nAT 0 0 NEXT 2\nTX 1\nRX 1 0\n", "bad 4"),
    (b"TRACE 1 B 2\nAT 0 0 NEXT 3\nTX 1\nRX 2 1\n", "bad 4"),
    (b"TRACE 1 B 2\nAT 0 0 NEXT 4\nRX 2 0\nTX 1\n", "bad 4"),
    (b"TRACE 1 B 2\nAT 0 1 NEXT 2\nKEEP x\nTX 1\nBEGIN\n", "bad 5"),
    (b"TRACE 1 B 2\nAT 0 1 NEXT 3\nKEEP x\nTX 1\nRX 2 1\nBEGIN\n", "bad 6"),
    (b"TRACE 1 W\nAT 0 NEXT 2\n", "bad 2"),
    (b"TRACE 1 W\nAT 1 NEXT 2\nTX 1\n", "bad 3"),
    (b"TRACE 1 W\nAT 1 NEXT 2\nKEEP a\nKEEP b\n", "bad 4"),
    (b"TRACE 1 W\nAT 1 NEXT 3\nKEEP a\nTX 1\nRX 2 new\n", "bad 5"),
    (b"TRACE 1 B 2\nAT 0 0 NEXT 2\nBEGIN\nEND 0\n", "legal 0"),
    (b"TRACE 2 B 2\nAT 0 0 NEXT 2\nBEGIN\nEND 0\n", "legal 0"),
)

NO_LINE = b"line %d is no line that may stand here: "
SHOWN = b"TRACE 1 W\nAT 1 NEXT 3\nKEEP a \x1b[2J\nTX 1\nRX 2 seen\nBEGIN\n"

# Texts with what is said of them to people: of a byte that no terminal should get there is a `?`, and of a long line the front.
SAID = (
    (LAGS, b""),
    (LAGS + b"x\n", NO_LINE % 30 + b"x\n"),
    (LAGS + b"\n", NO_LINE % 30 + b"it is empty\n"),
    (LAGS + b"END 12\r", NO_LINE % 30 + b"END 12?\n"),
    (MISTOLD + b"nonsense\n", b"line 22: R lagged 3\nexpected: R lagged 2\n"),
    (MIDDLE + b"C try-recv 3\r\nR value \x1b[2J\r\n", b"line 10: R value ?[2J\nexpected: R lagged 2\n"),
    (MIDDLE + b"C subscribe-oldest 1\n", NO_LINE % 9 + b"C subscribe-oldest 1\n"),
    (MIDDLE + b"C try-recv 3\n", b"line 10 is missing\n"),
    (b"", b"line 1 is missing\n"),
    (SHOWN + b"C borrow 2\nR shown new b", b"line 8: R shown new b\nexpected: R shown same a ?[2J\n"),
    (SHOWN + b"C changed 2\nR not-yet\n", b"line 8: R not-yet\nexpected: no reply, since the call would wait\n"),
    (b"a" * 200 + b"\n", NO_LINE % 1 + b"a" * 200 + b"\n"),
    (b"a" * 201 + b"\n", NO_LINE % 1 + b"a" * 200 + b" ..\n"),
    (b"a" * 4096 + b"\n", NO_LINE % 1 + b"a" * 200 + b" ..\n"),
    (b"a" * 4097 + b"\n", NO_LINE % 1 + b"it has more than 4096 bytes\n"),
)


def fronts():
    """Each front of a trace. Where its last line is whole but for the LF, the next one is missing."""
    for length in range(len(LAGS) + 1):
        front, behind = LAGS[:length], LAGS[length:length + 1]
        ended = front.count(b"\n")
        if ended == 29 or ended == 28 and behind == LF:
            yield front, "legal 12"
        else:
            yield front, f"bad {ended + (2 if behind == LF else 1)}"


def long_values():
    for count, verdict in ((1024, "legal 1"), (1025, "bad 5"), (4097, "bad 5")):
        yield ONE + b"C send 1 " + b"a" * count + b"\nR no-receivers\nEND 1\n", verdict


def crowds():
    """With 65,535 live senders no further one is made, though numbers are left; but a receiver is. A picture with one more is none."""
    broadcast = b"TRACE 1 B 1\nAT 0 0 NEXT 65537\n"
    watch = b"TRACE 1 W\nAT 1 NEXT 65537\nKEEP a\n"
    refused = b"BEGIN\nC clone-tx 1\nR too-many\nC subscribe 1\nR new-rx 65537\nEND 2\n"
    made = b"BEGIN\nC clone-tx 1\nR new-tx 65537\n"
    for head, senders, rest, verdict in (
        (broadcast, 65_535, refused, "legal 2"),
        (broadcast, 65_535, made, "illegal 65540"),
        (broadcast, 65_534, made + b"END 1\n", "legal 1"),
        (broadcast, 65_536, b"BEGIN\n", "bad 65538"),
        (watch, 65_535, refused, "legal 2"),
    ):
        yield head + b"".join(b"TX %d\n" % sender for sender in range(1, senders + 1)) + rest, verdict


def many_entries():
    """As many entries as a trace may have, and one more."""
    entry = b"C queued 1\nR count 0\n"
    yield TWO + entry * 1_000_000 + b"END 1000000\n", "legal 1000000"
    yield TWO + entry * 1_000_001 + b"END 1000000\n", "bad 2000005"
