"""A trace as a story: a lane for each handle, and in it what happened, at a position or a version."""
from drawing import topic as topics

ENTRIES = 300  # entries told at most; the others are counted
IDLE = 3  # so many columns in turn at which nothing happens become one

# Replies whose own words would be too long, or too terse.
PLAIN = {"no-receivers": "nobody", "not-yet": "not yet", "too-many": "too many", "no-handle": "no handle"}


class Note:
    """What happened in a lane: at a column, or over a range of columns, at an entry (0: before the trace).

    Its shape is one of "words", "begin", "end", "sent" (a value that is new), "got" (one that is taken), "looked" (one that
    is only looked at) and "missed". What stands in `small` is told below the text.
    """

    def __init__(self, entry, at, text, shape="words", small="", to=None):
        self.entry, self.at, self.text, self.shape, self.small = entry, at, text, shape, small
        self.to = at if to is None else to


class Lane:
    """A handle: its notes in order; of a reader also where its mark stood, as (entry, version, is it seen).

    Of a receiver that is there in the end, `place` is the position it reads next, and `behind` tells how many were sent since.
    """

    def __init__(self, number, side):
        self.number, self.side = number, side
        self.notes, self.marks = [], []
        self.place, self.behind = None, 0


class Story:
    """The lanes by handle number, the values of each column as (entry, value), and each move of the window."""

    def __init__(self, trace, subject):
        topic = topics.at_first(trace)
        self.kind, self.capacity, self.subject = trace.kind, trace.capacity, subject
        self.entries, self.told = len(trace.entries), min(len(trace.entries), ENTRIES)
        self.lanes, self.windows = {}, []
        self.values = {at: [(0, value)] for at, value in topic.values.items()}
        self.first = topic.first
        for sender in topic.senders:
            self.lane(sender, "sender")
        for receiver in topic.receivers:
            self.begin(0, topic, receiver)
        self.move_window(0, topic)
        for entry, at, topic in topics.walk(trace, ENTRIES):
            self.tell(entry, at, topic)
        self.next = topic.next
        for receiver in topic.receivers if self.kind == "B" else ():
            lane = self.lanes[receiver]
            lane.place, lane.behind = topic.places[receiver], topic.next - topic.places[receiver]

    def lane(self, number, side):
        return self.lanes.setdefault(number, Lane(number, side))

    def begin(self, entry, topic, receiver):
        lane = self.lane(receiver, topic.receiver_side)
        at = topic.places[receiver] if topic.kind == "B" else topic.version
        lane.notes.append(Note(entry, at, "begins", "begin"))
        if topic.kind == "W":
            lane.marks.append((entry, topic.version, topic.is_seen(receiver)))

    def move_window(self, entry, topic):
        if topic.kind == "B" and topic.window():
            self.windows.append((entry, topic.window()[0], topic.window()[-1]))

    def tell(self, entry, at, topic):
        lane = self.lane(entry.handle, "sender" if entry.by_sender else topic.receiver_side)
        note = noted(entry, at, topic)
        lane.notes.append(note)
        if note.shape == "sent":
            self.values.setdefault(note.at, []).append((entry.count, entry.value))
            self.move_window(entry.count, topic)
        if entry.said == "new-rx":
            self.begin(entry.count, topic, entry.made)
        elif entry.said == "new-tx":
            self.lane(entry.made, "sender").notes.append(Note(entry.count, at, "begins", "begin"))
        elif topic.kind == "W" and (topic.marks_seen(entry) or (entry.call, entry.said) == ("mark-changed", "done")):
            lane.marks.append((entry.count, topic.version, topic.is_seen(entry.handle)))


def noted(entry, at, topic):
    """The note of an entry in the lane of its handle."""
    count, call, said, told = entry.count, entry.call, entry.said, entry.told
    if entry.made:
        return Note(count, at, f"makes {told}")
    if said == "count":
        return Note(count, at, f"{call} {told}")
    if call in ("drop-tx", "drop-rx") and said == "done":
        return Note(count, at, "ends", "end")
    return (broadcast_note if topic.kind == "B" else watch_note)(entry, at, topic) or Note(count, at, PLAIN.get(said, said))


def broadcast_note(entry, at, _topic):
    count, said, told = entry.count, entry.said, entry.told
    if said == "sent":
        return Note(count, at, entry.value, "sent", f"to {told}")
    if said == "value":
        return Note(count, at, told, "got")
    if said == "lagged":
        return Note(count, at, f"lag {told}", "missed", to=at + max(int(told), 1) - 1)
    return None


def watch_note(entry, at, topic):
    count, call, said, told = entry.count, entry.call, entry.said, entry.told
    if topic.publishes(entry):
        return Note(count, at + 1, entry.value, "sent", f"was {told}" if said == "was" else "")
    if said == "modified" and call == "quiet":
        return Note(count, at, entry.value, "sent", "quietly")
    if said == "modified":
        return Note(count, at, entry.value, "looked", "equal")
    if said == "shown":
        news, _, shown = told.partition(" ")
        return Note(count, at, shown, "got" if call == "take" else "looked", news)
    if said == "changed":
        return Note(count, at, f"has: {told}")
    if said == "gone":
        return Note(count, at, f"gone: {told}")
    if said == "marked":
        return Note(count, at, "changed")
    if call in ("mark-changed", "mark-unchanged") and said == "done":
        return Note(count, at, "unseen" if call == "mark-changed" else "seen")
    return None


def columns_of(story, lanes):
    """The columns, each a range of positions: one position, or many in turn at which nothing happens in these lanes."""
    busy = {story.next - 1 if story.kind == "W" else story.next}
    for lane in lanes:
        for note in lane.notes:
            busy.update((note.at, note.to))
        busy.update(version for _, version, _ in lane.marks)
    for _, begin, end in story.windows:
        busy.update((begin, end))
    columns, last = [], None
    for at in sorted(busy):
        if last is not None and at - last > IDLE:
            columns.append((last + 1, at - 1))
        elif last is not None:
            columns.extend((idle, idle) for idle in range(last + 1, at))
        columns.append((at, at))
        last = at
    return columns
