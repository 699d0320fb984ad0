"""The functions of `libtopichub`, as `topichub.h` declares them."""
from __future__ import annotations

import ctypes
import enum
import functools
import os
from typing import Any

from .answers import Verdict

SONAME = "libtopichub.so.0"
_HERE = os.path.dirname(os.path.abspath(__file__))
_C = os.path.join(_HERE, "..", "..", "c", "build")
# Beside this package, where a wheel puts it, and in the repository around this package: the proved one first.
_PLACES = tuple(os.path.join(it, "libtopichub.so") for it in (_HERE, _C, os.path.join(_C, "fast")))
_PIECE = 4_096

# How many numbers each call takes beside its channel.
BROADCAST = {"send": 2, "try_recv": 1, "recv": 1, "subscribe": 1, "subscribe_oldest": 1, "resubscribe": 1, "clone_tx": 1,
             "drop_tx": 1, "drop_rx": 1, "queued": 1, "left": 1, "readers": 1}
WATCH = {"send": 2, "replace": 2, "set": 2, "quiet": 2, "borrow": 1, "take": 1, "has_changed": 1, "changed": 1,
         "mark_changed": 1, "mark_unchanged": 1, "subscribe": 1, "clone_rx": 1, "clone_tx": 1, "drop_tx": 1, "drop_rx": 1,
         "is_closed": 1, "readers": 1}
CALLS = {"broadcast": BROADCAST, "watch": WATCH}


class Status(enum.IntEnum):
    """The status of a call: those values of `enum topichub_status` that this package can get."""

    DONE = 0
    SENT = 1
    VALUE = 2
    LAGGED = 3
    EMPTY = 4
    CLOSED = 5
    NEW_RX = 6
    NEW_TX = 7
    COUNT = 8
    WAS = 9
    NEW = 10
    SAME = 11
    YES = 12
    NO = 13
    MARKED = 14
    NO_RECEIVERS = 16
    EXHAUSTED = 17
    TOO_MANY = 18
    NO_HANDLE = 19
    WOULD_WAIT = 20
    LOG_FULL = 21
    NO_MEMORY = 22
    NOT_OPEN = 23
    BAD_CAPACITY = 25
    BAD_LIMIT = 27
    NOT_RECORDED = 28
    LEGAL = 29
    ILLEGAL = 30
    BAD_TRACE = 31


class Build(enum.IntEnum):
    """How a library was built: a `TOPICHUB_BUILD_..`."""

    GIVEN = 0
    PROVED = 1
    CHECKED = 2
    UNCHECKED = 3


class Reply(ctypes.Structure):
    """A `topichub_reply`."""

    status: int
    let_go: int
    number: int
    _fields_ = [("status", ctypes.c_uint32), ("let_go", ctypes.c_uint32), ("number", ctypes.c_uint64)]


class Handle(ctypes.Structure):
    """A `topichub_broadcast`, `topichub_watch` or `topichub_trace`: a pointer that belongs to the library."""

    _fields_ = [("at", ctypes.c_void_p)]


_Pointer = ctypes.POINTER(Handle)
_Number = ctypes.c_uint64
_Count = ctypes.POINTER(_Number)
# What makes a channel and cuts its history, and what each takes beside its channel.
_MAKERS: dict[str, list[Any]] = {"new": [_Number] * 2, "new_recorded": [_Number] * 3, "cut": [_Pointer]}


def _declare(library: ctypes.CDLL) -> None:
    for kind, calls in CALLS.items():
        for name, numbers in calls.items():
            function = getattr(library, f"topichub_{kind}_{name}")
            function.restype, function.argtypes = Reply, [_Pointer] + [_Number] * numbers
        for name, words in _MAKERS.items():
            function = getattr(library, f"topichub_{kind}_{name}")
            function.restype, function.argtypes = ctypes.c_uint32, [_Pointer, *words]
    for name in ("broadcast_free", "watch_free", "trace_free"):
        function = getattr(library, "topichub_" + name)
        function.restype, function.argtypes = None, [_Pointer]
    library.topichub_trace_read.argtypes = [_Pointer, ctypes.c_char_p, ctypes.c_size_t, _Count]
    library.topichub_check.argtypes = [ctypes.c_char_p, ctypes.c_size_t, _Count]
    for name in ("trace_read", "check", "version"):
        getattr(library, "topichub_" + name).restype = ctypes.c_uint32


@functools.lru_cache(maxsize=None)
def library() -> ctypes.CDLL:
    """The shared library: the file that `TOPICHUB_LIBRARY` names, otherwise one in this package's folder, otherwise the installed one."""
    named = os.environ.get("TOPICHUB_LIBRARY")
    found = named or next((place for place in _PLACES if os.path.exists(place)), SONAME)
    try:
        loaded = ctypes.CDLL(found)
    except OSError as fault:
        how = "TOPICHUB_LIBRARY names it" if named else "run `make -C lib/c fast` in a clone, or install it (docs/INSTALL.md)"
        raise ImportError(f"there is no libtopichub ({fault}): {how}") from fault
    _declare(loaded)
    return loaded


def text_of(trace: Handle) -> str:
    """The text of a trace. The trace is freed."""
    pieces: list[bytes] = []
    room, written = ctypes.create_string_buffer(_PIECE), ctypes.c_uint64()
    try:
        while True:
            status = library().topichub_trace_read(ctypes.byref(trace), room, _PIECE, ctypes.byref(written))
            if status != Status.DONE:
                raise MemoryError("memory was refused")
            if not written.value:
                return b"".join(pieces).decode()
            pieces.append(room.raw[:written.value])
    finally:
        library().topichub_trace_free(ctypes.byref(trace))


def check(trace: str | bytes) -> Verdict:
    """Checks the trace of a channel, as the program `topichub check` does."""
    text = trace.encode() if isinstance(trace, str) else trace
    line = ctypes.c_uint64()
    status = library().topichub_check(text, len(text), ctypes.byref(line))
    if status == Status.NO_MEMORY:
        raise MemoryError("memory was refused")
    words = {Status.LEGAL: "legal", Status.ILLEGAL: "illegal", Status.BAD_TRACE: "bad"}
    return Verdict(words[Status(status)], line.value)


def version() -> str:
    """The version of the loaded library."""
    number = library().topichub_version()
    return f"{number // 1_000_000}.{number // 1_000 % 1_000}.{number % 1_000}"


def build() -> str:
    """How the loaded library was built, according to its builder.

    "proved"; "checked": compiled with run-time checks, not proved; "unchecked": neither; "given": nothing is known of its proof.
    """
    loaded = library()
    try:
        number = loaded.topichub_build()
    except AttributeError as fault:
        raise ImportError(f"{loaded._name} is of an older build, which cannot tell how it was built") from fault
    return next((it.name.lower() for it in Build if it == number), "given")
