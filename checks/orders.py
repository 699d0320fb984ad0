"""An order of calls that were made at the same time, as a trace.

Read are the lines that checks/tokio_recorded.rs prints of a run: who called what, when the call began and ended by one clock,
and the reply. Looked for is an order in which each call stands between its begin and its end, and gets its reply. Nobody has
to trust the search, nor the two small channels below: what it proposes is judged by `topichub check`.
"""
from typing import NamedTuple

CAPACITY = 8  # of the broadcast channel in checks/tokio_recorded.rs


class Call(NamedTuple):
    """A call with its reply, and when it began and ended."""

    began: int
    ended: int
    handle: int
    name: str
    value: str  # empty where the call has none
    reply: str


def read(text):
    """The calls of each handle, in their order."""
    calls = {}
    for line in text.splitlines():
        made, reply = line.split(" => ")
        handle, began, ended, name, *value = made.split(" ", 4)
        calls.setdefault(int(handle), []).append(Call(int(began), int(ended), int(handle), name, "".join(value), reply))
    return [sorted(of_one) for of_one in calls.values()]


class Broadcast(NamedTuple):
    """A broadcast channel: how many values were sent, the newest of them, who sends, and where each receiver stands."""

    tail: int
    window: tuple
    senders: frozenset
    places: tuple  # (receiver, place)

    @classmethod
    def new(cls, senders, receivers):
        return cls(0, (), frozenset(senders), tuple((receiver, 0) for receiver in receivers))

    def picture(self):
        lines = [f"TRACE 1 B {CAPACITY}", f"AT 0 0 NEXT {next_handle(self.senders, dict(self.places))}"]
        return lines + [f"TX {tx}" for tx in sorted(self.senders)] + [f"RX {rx} 0" for rx, _ in sorted(self.places)] + ["BEGIN"]

    def step(self, call):
        """The reply to a call, and the channel after it; no reply where it would wait."""
        if call.name == "send":
            if not self.places:
                return "no-receivers", self
            return f"sent {len(self.places)}", self._replace(tail=self.tail + 1, window=(*self.window, call.value)[-CAPACITY:])
        if call.name == "drop-tx":
            return "done", self._replace(senders=self.senders - {call.handle})
        if call.name == "readers":
            return f"count {len(self.places)}", self
        if call.name == "drop-rx":
            return "done", self._replace(places=tuple(it for it in self.places if it[0] != call.handle))
        place = dict(self.places)[call.handle]
        return (f"count {self.tail - place}", self) if call.name == "left" else self.receive(call, place)

    def receive(self, call, place):
        oldest = self.tail - len(self.window)
        if place < oldest:
            return f"lagged {oldest - place}", self.at(call.handle, oldest)
        if place < self.tail:
            return "value " + self.window[place - oldest], self.at(call.handle, place + 1)
        if not self.senders:
            return "closed", self
        return (None if call.name == "recv" else "empty"), self

    def at(self, receiver, place):
        return self._replace(places=tuple((it, place if it == receiver else stands) for it, stands in self.places))


class Watch(NamedTuple):
    """A watch channel: the newest value and its version, who sends, and which version each receiver has seen."""

    version: int
    newest: str
    senders: frozenset
    marks: tuple  # (receiver, version)

    @classmethod
    def new(cls, senders, receivers):
        return cls(1, "first", frozenset(senders), tuple((receiver, 1) for receiver in receivers))

    def picture(self):
        lines = ["TRACE 1 W", f"AT 1 NEXT {next_handle(self.senders, dict(self.marks))}", f"KEEP {self.newest}"]
        return lines + [f"TX {tx}" for tx in sorted(self.senders)] + [f"RX {rx} seen" for rx, _ in sorted(self.marks)] + ["BEGIN"]

    def step(self, call):
        """The reply to a call, and the channel after it; no reply where it would wait."""
        if call.value:
            return self.publish(call)
        if call.name == "drop-tx":
            return "done", self._replace(senders=self.senders - {call.handle})
        if call.name == "readers":
            return f"count {len(self.marks)}", self
        if call.name == "is-closed":
            return "gone " + ("no" if self.marks else "yes"), self
        if call.name == "drop-rx":
            return "done", self._replace(marks=tuple(it for it in self.marks if it[0] != call.handle))
        return self.look(call, dict(self.marks)[call.handle] < self.version)

    def publish(self, call):
        if call.name == "send" and not self.marks:
            return "no-receivers", self
        reply = {"send": "done", "replace": "was " + self.newest, "set": "modified yes", "quiet": "modified no"}[call.name]
        return reply, self._replace(newest=call.value, version=self.version + (call.name != "quiet"))

    def look(self, call, is_unseen):
        seen = self._replace(marks=tuple((it, self.version if it == call.handle else mark) for it, mark in self.marks))
        if call.name in ("borrow", "take"):
            return f"shown {'new' if is_unseen else 'same'} {self.newest}", self if call.name == "borrow" else seen
        if call.name == "has-changed":
            return ("changed " + ("yes" if is_unseen else "no") if self.senders else "closed"), self
        if is_unseen:
            return "marked", seen
        return (None if self.senders else "closed"), self


def next_handle(*handles):
    return max(max(some, default=0) for some in handles) + 1


def start_of(kind, calls):
    """The channel before the first call, with all its handles."""
    dropped = {(of_one[-1].handle, of_one[-1].name) for of_one in calls}
    return kind.new(*([handle for handle, name in sorted(dropped) if name == word] for word in ("drop-tx", "drop-rx")))


def candidates(calls, at):
    """Whose next call may be the next of all: it began before any call that is left has ended. The likeliest is last."""
    left = [(of_one[index], turn) for turn, (of_one, index) in enumerate(zip(calls, at)) if index < len(of_one)]
    first_end = min((call.ended for call, _ in left), default=0)
    return [turn for call, turn in sorted(left, key=lambda it: -it[0].ended) if call.began < first_end]


def find(calls, start, most_steps):
    """An order of all calls from this channel on, and the steps it took. None where there is none, or not found in so many."""
    at, state, steps = [0] * len(calls), start, 0
    path, choices, seen = [], [candidates(calls, at)], set()
    total = sum(map(len, calls))
    while len(path) < total and steps < most_steps:
        if not choices[-1]:
            choices.pop()
            if not path:
                return None, steps
            turn, state = path.pop()
            at[turn] -= 1
            continue
        turn = choices[-1].pop()
        call = calls[turn][at[turn]]
        reply, after = state.step(call)
        steps += 1
        at[turn] += 1
        if reply != call.reply or (*at, after) in seen:
            at[turn] -= 1
            continue
        seen.add((*at, after))
        path.append((turn, state))
        state = after
        choices.append(candidates(calls, at))
    if len(path) < total:
        return None, steps
    at = [0] * len(calls)
    order = []
    for turn, _ in path:
        order.append(calls[turn][at[turn]])
        at[turn] += 1
    return order, steps


def trace(start, order):
    """The calls in this order, as a trace from the channel's picture on."""
    lines = start.picture()
    for call in order:
        lines += [f"C {call.name} {call.handle}" + (f" {call.value}" if call.value else ""), f"R {call.reply}"]
    return "\n".join([*lines, f"END {len(order)}", ""])
