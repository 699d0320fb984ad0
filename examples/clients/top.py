#!/usr/bin/env python3
"""Shows the topics of a hub once a second, as top(1) shows processes, until Ctrl-C.

  READERS   the receivers of the topic
  KEPT      of a broadcast topic: the values that a receiver has still to read
  NEW/S     with --values: the values that came in the last second; of a watch topic, whether any did
  STATE     closed, once the hub's own sender has ended: no client can ask then, so the numbers are not known

It is a client like any other, and what it asks is an event in a topic's history: READERS of each topic, and QUEUED of each
broadcast topic, once a second; LIST is no event. It takes no handle for that. How many events a topic has had is told by TRACE
alone, which would cut its history. What was sent can be told by who receives: so with --values it has a receiver of its own on
each topic, and asks besides, of a broadcast topic, LEFT and RESUB (two events), of a watch topic TRYCHANGED. READERS is without
that receiver, but everybody else sees it: a PUB answers one receiver more, is not refused for want of any, and its value is kept
for a second.
"""
import contextlib
import os
import shutil
import signal
import sys
import time

from hub import connected, parser

SHOWN, HIDDEN = "\x1b[?1049l\x1b[?25h", "\x1b[?1049h\x1b[?25l"  # the screen as it was, and one of our own without a cursor
HOME, REST, END_OF_LINE, REVERSE, PLAIN = "\x1b[H", "\x1b[J", "\x1b[K", "\x1b[7m", "\x1b[m"
SECOND = 1.0


class Topic:
    """What is known of a topic. None stands for a number that is not known."""

    def __init__(self, name, kind):
        self.name, self.kind = name, kind
        self.readers = self.kept = self.new = None
        self.state, self.subscribed = "", False
        self.counted, self.since = 0, 0.0  # values that were told of already, and when we asked last

    def questions(self, values):
        """What is asked of it, in the order in which `learn` has the answers."""
        lines = [f"READERS {self.name}"]
        if self.kind == "B":
            lines.append(f"QUEUED {self.name}")
        if values and self.subscribed:
            lines += [f"LEFT {self.name}", f"RESUB {self.name}"] if self.kind == "B" else [f"TRYCHANGED {self.name}"]
        elif values:
            lines.append(f"SUB {self.name}")
        return lines

    def learn(self, values, told):
        """What it answered."""
        told = iter(told)
        answer = next(told)
        self.readers, self.state = number(answer), "closed" if answer == "ERR 18 closed" else ""
        if self.kind == "B":
            self.kept = number(next(told))
        if values and self.subscribed:
            self.learn_values(told)
            if self.readers is not None:
                self.readers -= 1
        elif values:
            self.subscribed = next(told) == "OK"
        self.since = time.monotonic()

    def learn_values(self, told):
        answer = next(told)
        if self.kind == "W":
            self.new = {"CHANGED": "yes", "NOTYET": "no"}.get(answer)
            return
        left = number(answer)
        self.new = None if left is None else round((left - self.counted) / (time.monotonic() - self.since))
        # After a RESUB the receiver has nothing to come.
        self.counted = 0 if next(told) == "OK" else left or 0

    def cells(self, values):
        """Its row of the table."""
        seen = [self.name, self.kind, self.readers, self.kept if self.kind == "B" else ""]
        seen += [self.new] if values else []
        return [*("-" if it is None else str(it) for it in seen), self.state]


def number(reply):
    """That of a reply `OK n`."""
    return int(reply.split()[1]) if reply.startswith("OK ") else None


def look(hub, topics, values):
    """Asks about all topics at once, those that are new included."""
    for row in hub.rows("LIST")[len(topics):]:
        topics.append(Topic(*row.split()))
    questions = [topic.questions(values) for topic in topics]
    told = hub.ask_all([line for lines in questions for line in lines])
    for topic, lines in zip(topics, questions):
        topic.learn(values, told[:len(lines)])
        del told[:len(lines)]


def table(topics, values):
    """The rows, with a first one that names the columns; topics with the most to read stand first."""
    names = ["TOPIC", "KIND", "READERS", "KEPT", *(["NEW/S"] if values else []), "STATE"]
    order = sorted(topics, key=lambda it: (-(it.kept or 0), -(it.readers or 0)))
    cells = [names, *(it.cells(values) for it in order)]
    widths = [max(map(len, column)) for column in zip(*cells)]
    # Words stand to the left, numbers to the right.
    sides = ["<", "<", *">" * (len(names) - 3), "<"]
    return ["  ".join(f"{it:{side}{width}}" for it, side, width in zip(row, sides, widths)).rstrip() for row in cells]


def screen(path, rows):
    """A screen full of the table."""
    width, height = shutil.get_terminal_size()
    room = max(1, height - 1)
    shown, beyond = rows[:room], len(rows) - room
    if beyond > 0:
        shown[-1] = f".. and {beyond + 1} more"
    first = f"{path}  {time.strftime('%H:%M:%S')}  {len(rows) - 1} topics"
    lines = [first[:width], REVERSE + shown[0][:width] + PLAIN, *(row[:width] for row in shown[1:])]
    return HOME + "\n".join(line + END_OF_LINE for line in lines[:max(1, height)]) + REST


def show(text):
    sys.stdout.write(text)
    sys.stdout.flush()


def stop(number, _):
    """Ctrl-Z: the screen as it was, as long as others have it."""
    show(SHOWN)
    signal.signal(number, signal.SIG_DFL)
    os.kill(os.getpid(), number)
    signal.signal(number, stop)
    show(HIDDEN)


@contextlib.contextmanager
def screen_of_its_own():
    """A screen of our own, until we end: by Ctrl-C, or by a signal that ends us."""
    signal.signal(signal.SIGTSTP, stop)
    for number in (signal.SIGTERM, signal.SIGHUP):
        signal.signal(number, lambda number, _: sys.exit(128 + number))
    show(HIDDEN)
    try:
        with contextlib.suppress(KeyboardInterrupt):
            yield
    finally:
        with contextlib.suppress(OSError):  # where the terminal is gone
            show(SHOWN)


def watch(hub, path, values):
    """Once a second, for ever."""
    topics = []
    due = time.monotonic()
    while True:
        look(hub, topics, values)
        show(screen(path, table(topics, values)))
        due += SECOND
        time.sleep(max(0, due - time.monotonic()))


def once(hub, values):
    topics = []
    look(hub, topics, values)
    if values:
        time.sleep(SECOND)
        look(hub, topics, values)
    print("\n".join(table(topics, values)))
    hub.ask("QUIT")


def main():
    about = parser(__doc__)
    about.add_argument("--once", action="store_true", help="print one table, and end")
    about.add_argument("--values", action="store_true", help="count values too, by a receiver on each topic")
    words = about.parse_args()
    if not (words.once or sys.stdout.isatty() and os.environ.get("TERM", "dumb") != "dumb"):
        about.error("standard output is no terminal that can be drawn on; --once prints one table")
    hub = connected(words.path)
    if words.once:
        return once(hub, words.values)
    with screen_of_its_own():
        watch(hub, words.path, words.values)
    return None


if __name__ == "__main__":
    try:
        main()
    except OSError as fault:
        sys.exit(f"top: {fault}")
