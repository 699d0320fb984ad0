"""The state of a topic, carried from entry to entry by what the replies tell."""


class Broadcast:
    """Live senders, the place of each live receiver, and each value that is known, by its position."""

    kind, receiver_side = "B", "receiver"

    def __init__(self, trace):
        self.capacity, self.next = trace.capacity, trace.next
        self.senders, self.places = list(trace.senders), dict(trace.receivers)
        self.values = {trace.low + index: value for index, value in enumerate(trace.kept)}
        self.first = min([trace.low, *self.places.values()])

    @property
    def receivers(self):
        return self.places

    def window(self):
        """The window's positions, as far as the trace knows of them."""
        return range(max(self.next - self.capacity, self.first), self.next)

    def low(self):
        """The least position that is kept, or the next one where none is."""
        return min(self.next, max(self.next - self.capacity, self.last_place()))

    def last_place(self):
        """The place of the receiver that has read least, or the next position where there is none."""
        return min(self.places.values(), default=self.next)

    def at(self, entry):
        """The position at which a call stands."""
        return self.next if entry.by_sender else self.places.get(entry.handle, self.next)

    def follow(self, entry):
        at, said = self.at(entry), entry.said
        if said == "sent":
            self.values[at] = entry.value
            self.next += 1
        elif said == "value":
            self.places[entry.handle] = at + 1
        elif said == "lagged":
            self.places[entry.handle] = at + int(entry.told)
        elif said == "new-rx":
            self.places[entry.made] = self.low() if entry.call == "subscribe-oldest" else self.next
        else:
            follow_handles(self, entry)


class Watch:
    """Live senders, the mark of each live reader, and each value that was published, by its version.

    A mark is the version that is seen; 0 where the newest value was marked as unseen, and None where the trace tells no more
    than that it is unseen.
    """

    kind, receiver_side = "W", "reader"

    def __init__(self, trace):
        self.version = self.first = trace.low
        self.senders = list(trace.senders)
        self.marks = {reader: trace.low if seen else None for reader, seen in trace.receivers}
        self.values = dict.fromkeys([trace.low], "".join(trace.kept))

    @property
    def receivers(self):
        return self.marks

    @property
    def next(self):
        return self.version + 1

    def is_seen(self, reader):
        return self.marks.get(reader) == self.version

    def at(self, _entry):
        return self.version

    def publishes(self, entry):
        if entry.call in ("set", "differ"):
            return entry.told == "yes"
        return (entry.call, entry.said) in (("send", "done"), ("replace", "was"))

    def marks_seen(self, entry):
        return entry.said == "marked" or (entry.call, entry.said) in (("take", "shown"), ("mark-unchanged", "done"))

    def follow(self, entry):
        if self.publishes(entry):
            self.version += 1
            self.values[self.version] = entry.value
        elif entry.call == "quiet" and entry.said == "modified":
            self.values[self.version] = entry.value
        elif self.marks_seen(entry):
            self.marks[entry.handle] = self.version
        elif entry.call == "mark-changed" and entry.said == "done":
            self.marks[entry.handle] = 0
        elif entry.said == "new-rx":
            self.marks[entry.made] = self.marks.get(entry.handle) if entry.call == "clone-rx" else self.version
        else:
            follow_handles(self, entry)


def follow_handles(topic, entry):
    """What is the same in both kinds: a new sender, and the end of a handle."""
    if entry.said == "new-tx":
        topic.senders.append(entry.made)
    elif entry.call == "drop-tx" and entry.said == "done" and entry.handle in topic.senders:
        topic.senders.remove(entry.handle)
    elif entry.call == "drop-rx" and entry.said == "done":
        topic.receivers.pop(entry.handle, None)


def at_first(trace):
    """The topic as the trace's picture has it."""
    return (Broadcast if trace.kind == "B" else Watch)(trace)


def walk(trace, most=None):
    """Each of the first entries, the position or version at which its call stands, and the topic after it (one object, carried on)."""
    topic = at_first(trace)
    for entry in trace.entries[:most]:
        at = topic.at(entry)
        topic.follow(entry)
        yield entry, at, topic
