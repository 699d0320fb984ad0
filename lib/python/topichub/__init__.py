"""Broadcast and watch channels over a core whose every reply is proved, and clients of `topichub serve`.

Channels inside this process, for threads and for asyncio tasks: `Broadcast` and `Watch`. The state of a channel, that is, what each
call returns and leaves behind, is proved. It is in the library `libtopichub`, and `build` says whether the loaded library was proved.
This package adds the lock, the values and the waits, which are tested, not proved.

Clients of a hub, which need only Python: `Client` and `AsyncClient`. The module `commands` has the commands that a client can send.

    from topichub import Broadcast, Lagged          # pydoc topichub.broadcast, topichub.watch
    from topichub import Client, commands           # pydoc topichub.client, topichub.commands

Every wait takes a `timeout` in seconds and raises the built-in `TimeoutError` when the time is up; a waiting task may be cancelled.
Neither loses a value: a value that comes later goes to the next receive. All errors that this package defines are subclasses of
`ChannelError` (`pydoc topichub.answers`).
"""
from . import commands
from ._library import build, check, version
from .answers import (AlreadyHeld, BadCapacity, BadLimit, Busy, ChannelError, Closed, Empty, Exhausted, HandleClosed, HistoryFull, Lagged,
                      MayHaveMissed, NoReceivers, NotHeld, NoTopic, PartlySent, ProtocolError, Reconnected, Refused, Shown, TooMany,
                      TooManyAtHub, TopicClosed, TopicExists, Verdict, WrongKind)
from .broadcast import Broadcast, Receiver
from .client import AsyncClient, Client
from .watch import Watch, WatchReceiver

__version__ = "0.1.0"
__all__ = ["AlreadyHeld", "AsyncClient", "BadCapacity", "BadLimit", "Broadcast", "Busy", "ChannelError", "Client", "Closed", "Empty",
           "Exhausted", "HandleClosed", "HistoryFull", "Lagged", "MayHaveMissed", "NoReceivers", "NotHeld", "NoTopic", "PartlySent",
           "ProtocolError", "Receiver", "Reconnected", "Refused", "Shown", "TooMany", "TooManyAtHub", "TopicClosed", "TopicExists",
           "Verdict", "Watch", "WatchReceiver", "WrongKind", "build", "check", "commands", "version"]
