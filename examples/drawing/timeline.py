"""A trace as lines over its entries: the next position or the newest version, where each receiver stood, and what it missed."""
import bisect
import heapq

from drawing import topic as topics
from drawing import words


class Steps:
    """A number that changes at entries: the entries, rising, and what it is from each of them on."""

    def __init__(self, entry, value):
        self.entries, self.values = [entry], [value]

    def step(self, entry, value):
        if value != self.values[-1]:
            self.entries.append(entry)
            self.values.append(value)

    def at(self, entry):
        """What it is after an entry; at one before the first, what it is there."""
        return self.values[max(bisect.bisect_right(self.entries, entry) - 1, 0)]


class Line:
    """A handle from the entry that made it (0: before the trace) to the one that ended it, or None.

    A receiver has its places: the position that it reads next, or of a watch topic its mark. `heights` are where it is drawn: those
    places; or the version it has seen, and one below the newest where the trace tells no more than that this one is unseen. `lags` has
    (entry, position, count) of each lag; of a watch topic of each look that found versions replaced unseen.
    """

    def __init__(self, number, side, begin):
        self.number, self.side, self.begin, self.end = number, side, begin, None
        self.places = self.heights = self.peak = None
        self.lags = []

    @property
    def lagged(self):
        """The values that the lags tell of."""
        return sum(count for _, _, count in self.lags)


class Timeline:
    """The lines by handle number, the line of what is sent, and each value with the entry that brought it."""

    def __init__(self, trace):
        topic = topics.at_first(trace)
        self.kind, self.capacity, self.total = trace.kind, topic_capacity(topic), len(trace.entries)
        self.first, self.low = topic.first, trace.low
        self.top = Steps(0, newest(topic))
        self.lines, self.sent = {}, set()
        self.live = [Steps(0, len(topic.senders)), Steps(0, len(topic.receivers))]
        self.order = sorted((place, number) for number, place in topic.receivers.items()) if self.kind == "B" else []
        self.slowest = Steps(0, self.least(topic))
        self.said = [(0, at, value) for at, value in sorted(topic.values.items())]
        for number in topic.senders:
            self.lines[number] = Line(number, "sender", 0)
        for number in topic.receivers:
            self.receive(number, 0, topic)
        for entry, _, topic in topics.walk(trace):
            self.take(entry, topic)

    # ---- one entry after another

    def least(self, topic):
        """The place of the receiver that has read least, None without one; of a watch topic nothing."""
        while self.order and topic.receivers.get(self.order[0][1]) != self.order[0][0]:
            heapq.heappop(self.order)
        return self.order[0][0] if self.order else None

    def count(self, entry, topic):
        """Who is live after an entry, and who has read least."""
        if self.kind == "B":
            for number in (entry.handle, entry.made):
                if number in topic.receivers:
                    heapq.heappush(self.order, (topic.receivers[number], number))
        self.slowest.step(entry.count, self.least(topic))
        self.live[0].step(entry.count, len(topic.senders))
        self.live[1].step(entry.count, len(topic.receivers))

    def receive(self, number, entry, topic):
        line = self.lines[number] = Line(number, topic.receiver_side, entry)
        place = topic.receivers[number]
        line.places = line.heights = Steps(entry, place)
        if self.kind == "W":
            line.heights = Steps(entry, place or topic.version - 1)

    def take(self, entry, topic):
        count, line = entry.count, self.lines.get(entry.handle)
        self.count(entry, topic)
        self.top.step(count, newest(topic))
        if is_value(entry, topic):
            self.said.append((count, newest(topic) - (self.kind == "B"), entry.value))
            self.sent.add(entry.handle)
        if entry.said == "new-rx":
            self.receive(entry.made, count, topic)
        elif entry.said == "new-tx":
            self.lines[entry.made] = Line(entry.made, "sender", count)
        elif line and entry.call in ("drop-tx", "drop-rx") and entry.said == "done":
            line.end = count
        elif line and line.places and entry.handle in topic.receivers:
            self.move(line, entry, topic)

    def move(self, line, entry, topic):
        """A receiver's place after its call."""
        place = topic.receivers[entry.handle]
        if self.kind == "B":
            if entry.said == "lagged":
                line.lags.append((entry.count, line.places.values[-1], int(entry.told)))
            line.places.step(entry.count, place)
            return
        line.places.step(entry.count, place)
        height = line.heights.values[-1]
        if place == topic.version and height < place - 1:
            line.lags.append((entry.count, height, place - height - 1))
        line.heights.step(entry.count, place or min(height, topic.version - 1))

    # ---- what is asked of the whole

    @property
    def receivers(self):
        return [line for line in self.lines.values() if line.places]

    def floor(self, entry):
        """The lower edge of the window, as far as the trace knows of it; of a watch topic one below the newest version."""
        return max(self.top.at(entry) - self.capacity, self.first)

    def until(self, line):
        return self.total if line.end is None else line.end

    def pending(self, line):
        """The values that the receiver has missed in the end, and has not been told of."""
        end = self.until(line)
        if self.kind == "B":
            return max(self.top.at(end) - self.capacity - line.places.values[-1], 0)
        return max(self.top.at(end) - line.heights.values[-1] - 1, 0)

    def missed(self, line):
        return line.lagged + self.pending(line)

    def due(self, line):
        """The values that were sent to it, or published to it, in the trace; with those that it had to come at its beginning."""
        return self.top.at(self.until(line)) - line.heights.values[0]

    def backlogs(self, line):
        """How far the receiver is behind, as (entry, number) at each change, rising."""
        moves, tops = line.heights, self.top
        end, at = self.until(line), bisect.bisect_right(tops.entries, line.begin)
        yield line.begin, tops.values[at - 1] - moves.values[0]
        index = 1
        while True:
            next_move = moves.entries[index] if index < len(moves.entries) else end + 1
            next_top = tops.entries[at] if at < len(tops.entries) else end + 1
            entry = min(next_move, next_top)
            if entry > end:
                return
            index += next_move == entry
            at += next_top == entry
            yield entry, tops.values[at - 1] - moves.values[index - 1]

    def peak(self, line):
        """The most that it was ever behind."""
        if line.peak is None:
            line.peak = max(backlog for _, backlog in self.backlogs(line))
        return line.peak

    def shown(self, most):
        """The receivers that are drawn, by number: where there are too many, those that missed most, then those most behind."""
        receivers = self.receivers
        if len(receivers) > most:
            receivers = sorted(receivers, key=lambda line: (-self.missed(line), -self.peak(line), line.number))[:most]
        return sorted(receivers, key=lambda line: line.number)

    def first_lag(self):
        """The first entry that tells of a lag; else the last entry."""
        return min((line.lags[0][0] for line in self.receivers if line.lags), default=self.total)


def newest(topic):
    """What the line of sends shows: the next position, or the newest version."""
    return topic.next if topic.kind == "B" else topic.version


def topic_capacity(topic):
    return topic.capacity if topic.kind == "B" else 1


def is_value(entry, topic):
    """Whether the entry brings a value."""
    if topic.kind == "B":
        return entry.said == "sent"
    return topic.publishes(entry) or (entry.call, entry.said) == ("quiet", "modified")


# ---- the finding

def finding(timeline, names):
    """What the trace shows, in a few words: who missed most."""
    value, missed = ("value", "missed") if timeline.kind == "B" else ("version", "skipped")
    if not timeline.receivers:
        return "Nobody receives" if timeline.kind == "B" else "Nobody reads"
    side = timeline.receivers[0].side
    missing = [line for line in timeline.receivers if timeline.missed(line)]
    if not missing:
        return f"No {side} {missed} a {value}"
    worst = max(missing, key=lambda line: (timeline.missed(line), -line.number))
    who = names[worst.number] or f"{side.capitalize()} {worst.number}"
    text = f"{who} {missed} {timeline.missed(worst):,} of {words.plural(timeline.due(worst), value, ',')}"
    if len(missing) > 1:
        text += f", and {words.plural(len(missing) - 1, 'other')} {missed} some too"
    return text


def subject(timeline):
    """What is drawn, in a few words."""
    kind = f"Broadcast topic that keeps {words.plural(timeline.capacity, 'value', ',')}" if timeline.kind == "B" else "Watch topic"
    return f"{kind}; {words.plural(timeline.total, 'entry', ',')}"
