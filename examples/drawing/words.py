"""Entries and states of a topic, told in words."""

LONGEST = 80  # letters shown of a value

BEGINNING = "The beginning of the trace."

ASKED_TO_RECEIVE = {
    "value": "is given {told}, from position {at}",
    "empty": "is told that there is nothing to read yet",
    "closed": "is told that the channel is closed: no sender is left, and everything was read",
    "lagged": "is told that it missed {values}, at {missed}; it reads position {after} next",
}
TOLD_OF_CHANGE = {
    "marked": "is told that the newest value is unseen, and counts it as seen",
    "not-yet": "is told that there is nothing new yet",
    "closed": "is told that the channel is closed: no sender is left",
}
NOT_SENT = {
    "no-receivers": "but nobody is there to get it, and it is handed back",
    "exhausted": "but the last number is used up, and it is handed back",
}
SENT = {"sent": "at position {at}, to {receivers}", **NOT_SENT}
ANSWERED = {
    "new-tx": "makes {made}",
    "too-many": "asks for a new handle, and is told that there are too many",
    "no-handle": "is no live handle, and nothing happens",
    "done": "ends",
}
MADE = {
    "B": {
        "subscribe": "makes {made}, which gets what is sent from position {place} on",
        "resubscribe": "makes {made}, which gets what is sent from position {place} on",
        "subscribe-oldest": "makes {made}, which begins at the oldest kept value, at position {place}",
    },
    "W": {
        "subscribe": "makes {made}, for which version {at} counts as seen",
        "clone-rx": "makes {made}, with the same mark",
    },
}
COUNTED = {
    "queued": "asks how many values are kept: {told}",
    "left": "asks how many values are to come, missed ones among them: {told}",
    "readers": "asks how many {side}s are live: {told}",
}
WATCHED = {
    ("send", "done"): "publishes {value} as version {after}",
    ("replace", "was"): "publishes {value} as version {after}, in place of {told}",
    ("replace", "exhausted"): "publishes {value}, " + NOT_SENT["exhausted"],
    ("set", "modified"): "sets the value to {value}, which is published as version {after}",
    ("set", "exhausted"): "sets the value to {value}, " + NOT_SENT["exhausted"],
    ("differ", "exhausted"): "sets the value to {value} if it differs, " + NOT_SENT["exhausted"],
    ("quiet", "modified"): "sets the value to {value} quietly: it is shown from here on, and nobody is told",
    ("mark-changed", "done"): "marks the newest value as unseen",
    ("mark-unchanged", "done"): "marks the newest value as seen",
    ("has-changed", "closed"): TOLD_OF_CHANGE["closed"],
}
WATCHED_YES_OR_NO = {
    ("differ", "yes"): "sets the value to {value}, which differs, and is published as version {after}",
    ("differ", "no"): "sets the value to {value} if it differs, which it does not: nothing is published",
    ("has-changed", "yes"): "asks whether the newest value is unseen: yes",
    ("has-changed", "no"): "asks whether the newest value is unseen: no",
    ("is-closed", "yes"): "asks whether every reader is gone: yes",
    ("is-closed", "no"): "asks whether every reader is gone: no",
}
SHOWN = {
    ("borrow", "new"): "looks at {shown}, which is unseen, and stays so",
    ("borrow", "same"): "looks at {shown}, which was seen before",
    ("take", "new"): "takes {shown}, which was unseen, and is seen now",
    ("take", "same"): "takes {shown}, which was seen before",
}


def plural(count, word, form=""):
    """A number with its noun; the form is that of `format`, such as a comma between thousands."""
    many = word[:-1] + "ies" if word.endswith("ry") else word + "s"
    return f"{count:{form}} {word}" if str(count) == "1" else f"{count:{form}} {many}"


def quoted(value):
    """A value as it is shown between words; of a long one the front."""
    return f"\u201c{value}\u201d" if len(value) <= LONGEST else f"\u201c{value[:LONGEST]}\u2026\u201d"


def span(word, begin, end):
    """One position or version, or several in turn."""
    return f"{word} {begin}" if begin == end else f"{word}s {begin} to {end}"


class Names:
    """The names that handles were given on the command line."""

    def __init__(self, names):
        self.names = names

    def __getitem__(self, handle):
        return self.names.get(handle)

    def short(self, line):
        """The name of a handle, or what and which it is."""
        return self[line.number] or f"{line.side} {line.number}"

    def of(self, side, handle):
        """The handle in a sentence."""
        name = self.names.get(handle)
        return f"{name} ({side} {handle})" if name else f"{side} {handle}"


def template(entry, kind):
    """The words for a call with its reply, without who makes it; None where the two do not go together."""
    call, said, told = entry.call, entry.said, entry.told
    if said in ("no-handle", "too-many", "new-tx"):
        return ANSWERED[said]
    if said == "new-rx":
        return MADE[kind].get(call)
    if said == "count":
        return COUNTED.get(call)
    if call in ("drop-tx", "drop-rx"):
        return ANSWERED["done"] if said == "done" else None
    if kind == "B" and call == "send":
        return "sends {value}, " + SENT[said] if said in SENT else None
    if kind == "B":
        return ASKED_TO_RECEIVE.get(said) if call in ("recv", "try-recv") else None
    if call == "send" and said in NOT_SENT:
        return "publishes {value}, " + NOT_SENT[said]
    if call in ("changed", "try-changed"):
        return TOLD_OF_CHANGE.get(said)
    if said == "shown":
        return SHOWN.get((call, told.partition(" ")[0]))
    return WATCHED_YES_OR_NO.get((call, told)) or WATCHED.get((call, said))


def sentence(entry, at, topic, names):
    """What an entry tells; `at` is where its call stands, and the topic is as after it."""
    words = template(entry, topic.kind)
    side = "sender" if entry.by_sender else topic.receiver_side
    who = names.of(side, entry.handle) if names[entry.handle] else f"{side.capitalize()} {entry.handle}"
    if words is None:
        return f"{who}: {entry.call}, answered {entry.said} {entry.told}".rstrip() + "."
    made = entry.made
    missed = int(entry.told) if entry.said == "lagged" else 1
    told = words.format(
        at=at, after=at + missed, value=quoted(entry.value), side=topic.receiver_side,
        told=quoted(entry.told) if entry.said in ("value", "was") else entry.told,
        shown=quoted(entry.told.partition(" ")[2]), receivers=plural(entry.told, "receiver"),
        values=plural(missed, "value"), missed=span("position", at, at + missed - 1),
        made=names.of("sender" if entry.said == "new-tx" else topic.receiver_side, made) if made else "",
        place=topic.receivers.get(made, at) if made else "",
    )
    return f"{who} {told}."
