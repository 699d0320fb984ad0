"""Draws a timeline as SVG: the entries of the trace across, positions or versions up.

The window is a band, what is sent its upper edge, each receiver a line, and a lag a jump from below the band to its lower edge. Of a
long trace the chart shows some entries, and below it stands how far each receiver was behind, over the whole trace. Lines are drawn by
pixel columns, so their parts do not grow with the trace. The script of the page draws the same in the browser.
"""
import bisect

from drawing import canvas, timeline, words
from drawing.canvas import BOLD, Canvas, fitted, width_of

SHORT = 100  # entries up to which a trace is drawn as strips, unless it is said otherwise, and whose chart has no overview
LINES = 12  # receivers drawn at most
SPAN = 16  # so many windows are shown above each other at most, or ROWS positions
ROWS = 24
BELOW = 3  # so many windows are shown below the first one at most

WIDTH, HEIGHT, MARGIN = 900, 320, 10
MOST_RIGHT = 220  # the room for what the lines are
ENTRY, ROW = 24, 34  # the most that an entry takes across, and a position up
LABEL, TICK, TITLE = 12, 11, 15  # sizes of letters
LINE = 15  # from one label to the next one below it
STRIP = 30  # the height of a line of the overview
COLOURS_OF_LINES = 4
NEAR = 46  # pixels between two ticks
VALUES = 16  # pixels up that a position takes at least where its value stands beside it
THIN = 6  # pixels up a position takes at least where lines beside each other are told apart
DOTS = 7  # pixels across that an entry takes at least where each step has a dot
SAID = 300  # entries up to which each says in words what it is, where the pointer is
FEW = 8  # lags up to which a number may stand on the left of its arrow, where lines are; and so many arrows are kept free of numbers
MISSED = {"B": "missed", "W": "skipped"}

SHAPES = """
.chart text { font: 12px system-ui, -apple-system, "Segoe UI", Helvetica, Arial, sans-serif }
.chart .title { font-size: 15px; font-weight: bold }
.chart .tick { font-size: 11px }
.chart .value { font: 12px ui-monospace, SFMono-Regular, Menlo, Consolas, "DejaVu Sans Mono", monospace }
.chart .bold { font-weight: bold }
.chart .middle { text-anchor: middle }
.chart .end { text-anchor: end }
.chart .halo { paint-order: stroke; stroke-width: 4; stroke-linejoin: round }
.chart path, .chart line { fill: none }
.chart .grid { stroke-width: .7 }
.top { stroke-width: 2.5 }
.reader { stroke-width: 2 }
.thin .reader { stroke-width: 1.5 }
.thin .top { stroke-width: 4.5 }
.unseen { stroke-dasharray: 3 3; stroke-opacity: .8 }
.chart .backlog { fill-opacity: .3; stroke-width: 1 }
.dash1 { stroke-dasharray: 7 3 }
.dash2 { stroke-dasharray: 2 3 }
.lag { stroke-width: 3.5 }
.lag-mark { stroke-width: 1.5 }
.touch { fill: none; pointer-events: all }
"""
COLOURS = """
.ground {{ fill: {ground} }}
.chart text {{ fill: {ink} }}
.chart .soft {{ fill: {soft} }}
.chart .halo {{ stroke: {ground} }}
.chart .band {{ fill: {band} }}
.chart .grid {{ stroke: {rule} }}
.chart .top {{ stroke: {sent} }}
.chart .top-text {{ fill: {sent} }}
.chart .lag, .chart .lag-mark {{ stroke: {missed} }}
.chart .lag-head {{ fill: {missed} }}
.chart .shown {{ fill: {band} }}
""" + "".join(f""".chart .line{n} {{{{ stroke: {{lines[{n}]}} }}}}
.chart .fill{n} {{{{ fill: {{lines[{n}]}} }}}}
""" for n in range(COLOURS_OF_LINES))


def style():
    return canvas.style(SHAPES, COLOURS)


# ---- what is shown

def view(tale):
    """The entries that the chart shows at first: all, or where the window would be too thin those around the first lag."""
    rows = max(SPAN * tale.capacity, ROWS)
    if tale.top.at(tale.total) - tale.first <= rows:
        return 0, tale.total
    middle = tale.top.at(tale.first_lag())
    begin = bisect.bisect_left(tale.top.values, middle - rows // 3)
    end = bisect.bisect_left(tale.top.values, middle + rows // 3)
    return tale.top.entries[begin], tale.top.entries[end] if end < len(tale.top.entries) else tale.total


def extent(tale, lines, begin, end):
    """The least and the most position that the chart shows; receivers that are further below are drawn at its lower edge."""
    floor = tale.floor(begin)
    places = [line.heights.at(max(begin, line.begin)) for line in lines if line.begin <= end and tale.until(line) >= begin]
    limit = floor - BELOW * tale.capacity
    within = [place for place in places if place >= limit]
    least = min([floor, *within])
    if len(within) < len(places):
        least = max(least - max(tale.capacity // 2, 1), limit)
    return least, max(tale.top.at(end), least + 1)


def steps_between(least, most, room, near):
    """Round numbers from the least to the most, no nearer to each other than `near` pixels."""
    step, span = 1, max(most - least, 1)
    while span / step * near > room:
        step = step * 5 // 2 if str(step)[0] == "2" else step * 2
    first = -(-least // step) * step
    return range(first, most + 1, step)


def columns(steps, begin, end, x_of):
    """The least, the most and the last of a line of steps in each pixel column in which it changes, and where it begins."""
    at = bisect.bisect_right(steps.entries, begin)
    last = steps.values[max(at - 1, 0)]
    found = [[round(x_of(begin)), last, last, last]]
    for index in range(at, len(steps.entries)):
        entry, value = steps.entries[index], steps.values[index]
        if entry > end:
            break
        x = round(x_of(entry))
        if x == found[-1][0]:
            found[-1][1:] = min(found[-1][1], value), max(found[-1][2], value), value
        else:
            found.append([x, min(found[-1][3], value), max(found[-1][3], value), value])
    return found


def backlog_columns(tale, line, x_of):
    """The most that a receiver was behind, in each pixel column in which that changes."""
    found, last = [], 0
    for entry, backlog in tale.backlogs(line):
        x = round(x_of(entry))
        if found and x == found[-1][0]:
            found[-1][1] = max(found[-1][1], backlog)
        else:
            found.append([x, max(last, backlog) if found else backlog])
        last = backlog
    return found


def apart(labels, least, most):
    """The heights of labels, moved so that they do not overlap: (height, text, style) rising by height."""
    labels = sorted(labels, key=lambda label: label[0])
    heights = [min(max(label[0], least), most) for label in labels]
    for index in range(1, len(heights)):
        heights[index] = max(heights[index], heights[index - 1] + LINE)
    ceiling = most
    for index in reversed(range(len(heights))):
        heights[index] = min(heights[index], ceiling)
        ceiling = heights[index] - LINE
    return [(height, *label[1:]) for height, label in zip(heights, labels)]


# ---- the drawing

class Frame:
    """Where the entries and the positions are drawn: the corners in pixels, and what stands there."""

    def __init__(self, left, top, width, height, entries, rows, drops=()):
        self.left, self.top, self.right, self.bottom = left, top, left + width, top + height
        self.drops, self.axis = drops, top + height + max(drops, default=0)
        self.begin, self.end = entries
        self.least, self.most = rows
        self.row = height / (self.most - self.least)

    def x(self, entry):
        return self.left + (entry - self.begin) * (self.right - self.left) / max(self.end - self.begin, 1)

    def y(self, at):
        return self.bottom - (min(max(at, self.least), self.most) - self.least) * self.row


def path_of(frame, found, until, drop=0):
    """A line of steps, as the words of a path."""
    x, at = found[0][:2]
    parts = [f"M{x} {frame.y(at) + drop:.1f}"]
    for x, *heights in found:
        parts.append(f"H{x}")
        for height in heights:
            if height != at:
                parts.append(f"V{frame.y(height) + drop:.1f}")
                at = height
    return "".join(parts) + f"H{round(until)}"


def draw_band(drawing, frame, tale):
    """The window as an area, and its upper edge."""
    found = columns(tale.top, frame.begin, frame.end, frame.x)
    edges = [(x, frame.y(most), frame.y(max(last - tale.capacity, tale.first))) for x, _, most, last in found]
    ends = [x for x, _, _ in edges[1:]] + [frame.right]
    upper = [f"H{x}V{high:.1f}H{end}" for (x, high, _), end in zip(edges, ends)]
    lower = [f"V{low:.1f}H{x}" for x, _, low in reversed(edges)]
    drawing.path(f"M{edges[0][0]} {edges[0][1]:.1f}" + "".join(upper + lower) + "Z", "band")
    drawing.path(path_of(frame, found, frame.right), "top")


def rows_of(tale, frame):
    """The positions or versions that are shown, each with its value where it is known, and the height of its row's middle."""
    known = {}
    for entry, at, value in tale.said:
        if entry <= frame.end and frame.least <= at <= frame.most:
            known.setdefault(at, []).append(value)
    shift = 0 if tale.kind == "B" else 1  # a version is seen by the step that ends at it, and a position is read by one that begins there
    for at in range(frame.least + shift, frame.most + shift):
        yield at, ", ".join(known.get(at, [])), frame.y(at - shift) - frame.row / 2


def draw_ticks(drawing, frame, tale):
    """The entries below, and on the left the positions: each with its value, where there is room for it."""
    near = max(NEAR, width_of(f"{frame.end:,}", TICK) + 14)
    for entry in steps_between(frame.begin, frame.end, frame.right - frame.left, near):
        x = frame.x(entry)
        drawing.line(x, frame.axis, x, frame.axis + 4, "grid")
        drawing.text(x, frame.axis + 16, f"{entry:,}", "tick soft middle")
    drawing.text(frame.right, frame.axis + 31, "entries of the trace \u2192", "tick soft end")
    if frame.row < VALUES:
        for at in steps_between(frame.least, frame.most, frame.bottom - frame.top, NEAR):
            drawing.line(frame.left, frame.y(at), frame.right, frame.y(at), "grid")
            drawing.text(frame.left - 6, frame.y(at) + 4, f"{at:,}", "tick soft end")
        return
    for at, value, y in rows_of(tale, frame):
        drawing.line(0, y - frame.row / 2, frame.right, y - frame.row / 2, "grid")
        number = f"{at:,}"
        drawing.text(0, y + 4, number, "tick soft")
        room = frame.left - 14 - width_of(number, TICK)
        drawing.text(frame.left - 6, y + 4, fitted(value, room, LABEL, mono=True), "value end", title=value)
    drawing.line(0, frame.bottom, frame.right, frame.bottom, "grid")


def seen_path(frame, tale, line, begin, end, drop):
    """The parts of a reader's line at which it has seen the newest version."""
    parts, since = [], None
    for entry, behind in [*tale.backlogs(line), (end, None)]:
        if since is not None and min(entry, end) >= begin:
            x, to = round(frame.x(max(since, begin))), round(frame.x(min(entry, end)))
            parts += [f"M{x} {frame.y(line.heights.at(since)) + drop:.1f}H{to}"] if to > x else []
        if entry >= end:
            break
        since = entry if behind == 0 else None
    return "".join(parts)


def draw_receiver(drawing, frame, tale, line, index):
    """A receiver's line from its beginning to its end, with a dot at each of its steps where there is room."""
    drop = frame.drops[index]
    begin, end = max(frame.begin, line.begin), min(frame.end, tale.until(line))
    colour = index % COLOURS_OF_LINES
    found = columns(line.heights, begin, end, frame.x)
    drawing.path(path_of(frame, found, frame.x(end), drop),
                 f"reader line{colour} " + ("unseen" if tale.kind == "W" else f"dash{index // COLOURS_OF_LINES % 3}"))
    if tale.kind == "W":
        drawing.path(seen_path(frame, tale, line, begin, end, drop), f"reader line{colour}")
    if frame.x(frame.begin + 1) - frame.left >= DOTS:
        for x, _, _, at in found[line.begin < frame.begin:]:
            drawing.dot(x, frame.y(at) + drop, 3.5, f"fill{colour}")
    if line.end is not None and line.end <= frame.end:
        x, y = frame.x(line.end), frame.y(line.heights.values[-1]) + drop
        for turn in (-4, 4):
            drawing.line(x - 4, y - turn, x + 4, y + turn, f"reader line{colour}")


def lags_of(frame, tale, lines):
    """The lags in view: the most missed first, and of those in the same pixel column the first."""
    found, taken = [], set()
    lags = ((count, entry, place, index) for index, line in enumerate(lines) for entry, place, count in line.lags
            if frame.begin <= entry <= frame.end)
    for count, entry, place, index in sorted(lags, key=lambda lag: (-lag[0], lag[1])):
        x = round(frame.x(entry))
        if (x, index) not in taken:
            taken.add((x, index))
            found.append((x, place, place + count, count, index))
    return found


def draw_lags(drawing, frame, tale, lines, used):
    """Each lag as an arrow over what was missed; with its number, where that overlaps no other one, no long arrow, and no text that is
    there already."""
    lags = lags_of(frame, tale, lines)
    longest = [(x, frame.y(to), frame.y(place)) for x, place, to, _, _ in lags[:FEW]]
    for x, place, to, count, index in lags:
        low, high = frame.y(place) + frame.drops[index], frame.y(to) + frame.drops[index]
        drawing.line(x, low, x, high + 4, "lag")
        drawing.path(f"M{x - 5} {high + 7:.1f}L{x} {high:.1f}L{x + 5} {high + 7:.1f}Z", "lag-head")
        text, y = f"{MISSED[tale.kind]} {count:,}", (low + high) / 2 + 4
        width = width_of(text, LABEL) * BOLD
        lefts = [x + 8, x - 8 - width] if len(lags) <= FEW else [x + 8]
        for left in lefts:
            is_free = all(abs(y - other) > LINE or left > end or left + width < begin for other, begin, end in used)
            if is_free and not any(left < other < left + width and above <= y <= below for other, above, below in longest):
                used.append((y, left, left + width))
                drawing.text(left, y, text, "bold halo")
                break


class Label:
    """What a line is: a text for the right of the chart, the position at which the line ends, and how far below it is drawn."""

    def __init__(self, place, below, text, style_):
        self.place, self.below, self.text, self.style = place, below, text, style_


def labels_of(tale, lines, names, begin, end, drops):
    top = tale.top.at(end)
    window = top - tale.floor(end)
    yield Label(top, -4, sent_label(tale, names), "top-text bold")
    if tale.kind == "B" and window:
        yield Label(top - window / 2, 0, f"window: {words.plural(window, 'value', ',')}", "soft")
    for index, line in enumerate(lines):
        last = min(end, tale.until(line))
        if line.begin <= end and last >= begin:
            yield Label(line.heights.at(last), drops[index], names.short(line) + standing(tale, line, last, end),
                        f"fill{index % COLOURS_OF_LINES} bold")


def standing(tale, line, last, end):
    """How a receiver stands at its last entry in view, where that is worth a word."""
    behind = tale.top.at(last) - line.heights.at(last)
    about = f", {behind:,} behind" if tale.kind == "B" and behind > tale.capacity else ", unseen" if tale.kind == "W" and behind else ""
    return about + (", ended" if line.end is not None and line.end <= end else "")


def draw_labels(drawing, frame, labels):
    """Each label beside the end of its line; the room that each text takes, as (height, from, to)."""
    placed = [(frame.y(label.place) + label.below, label.text, label.style) for label in labels]
    for y, text, style_ in apart(placed, frame.top + 4, frame.bottom):
        drawing.text(frame.right + 10, y + 4, text, style_)
        yield y + 4, frame.right + 4, float("inf")


def sent_label(tale, names):
    """Who sends: the one sender that there is, where it has a name."""
    senders = [names[number] for number, line in tale.lines.items() if line.side == "sender" and number in tale.sent]
    verb = "sent" if tale.kind == "B" else "published"
    return f"{verb} by {senders[0]}" if len(senders) == 1 and senders[0] else verb


def drops_of(row, count):
    """How far below its own height each line is drawn, so that lines at one position stay apart."""
    room = max(min(row * .8, 5 * (count + 1)), 2)
    return [room * (index + 1) / (count + 1) for index in range(count)]


def said(shown):
    """How many entries have to be told in words for a chart: those up to its last one, or none where it shows too many."""
    return shown[1] if shown[1] - shown[0] <= SAID else 0


def draw_chart(drawing, frame, tale, lines, labels):
    if frame.row < THIN:
        drawing.parts.append("<g class='thin'>")
    draw_band(drawing, frame, tale)
    draw_ticks(drawing, frame, tale)
    for index, line in enumerate(lines):
        if line.begin <= frame.end and tale.until(line) >= frame.begin:
            draw_receiver(drawing, frame, tale, line, index)
    if frame.row < THIN:
        drawing.end()
    draw_lags(drawing, frame, tale, lines, list(draw_labels(drawing, frame, labels)))
    if said((frame.begin, frame.end)):
        half = (frame.x(frame.begin + 1) - frame.left) / 2
        for entry in range(max(frame.begin, 1), frame.end + 1):
            drawing.begin(entry, is_event=True)
            drawing.box(frame.x(entry) - half, frame.top, round(2 * half, 1), frame.bottom - frame.top, "touch")
            drawing.end()


def draw_backlog(drawing, frame, tale, line, index, names):
    """How far a receiver was behind, over the whole trace, with a mark at each lag."""
    found = backlog_columns(tale, line, frame.x)
    until = round(frame.x(tale.until(line)))
    ends = [x for x, _ in found[1:]] + [until]
    steps = "".join(f"H{x}V{frame.y(behind):.1f}H{end}" for (x, behind), end in zip(found, ends))
    colour = index % COLOURS_OF_LINES
    drawing.path(f"M{found[0][0]} {frame.bottom}{steps}V{frame.bottom}Z", f"backlog fill{colour} line{colour}")
    for x in sorted({round(frame.x(entry)) for entry, _, _ in line.lags}):
        drawing.line(x, frame.bottom, x, frame.bottom + 5, "lag-mark")
    drawing.line(frame.left, frame.bottom, frame.right, frame.bottom, "grid")
    drawing.line(frame.left, frame.y(tale.capacity), frame.right, frame.y(tale.capacity), "grid dash2")
    if index == 0 and tale.kind == "B":
        drawing.text(frame.right + 10, frame.y(tale.capacity) + 4, f"dotted: {tale.capacity:,} behind", "tick soft")
    name = names.short(line)
    drawing.text(frame.left, frame.top - 6, name, f"fill{colour} bold")
    drawing.text(frame.left + width_of(name, LABEL) * BOLD + 10, frame.top - 6, record(tale, line), "soft")


def record(tale, line):
    """What a receiver missed in all, and how far it was behind."""
    value = "value" if tale.kind == "B" else "version"
    text = f"{MISSED[tale.kind]} {tale.missed(line):,} of {words.plural(tale.due(line), value, ',')}"
    if line.lags:
        text += f", told in {words.plural(len(line.lags), 'lag', ',')}" if tale.kind == "B" else ""
    return text + f"; at most {tale.peak(line):,} behind"


def draw_overview(drawing, tale, lines, shown, names, left, width, top):
    """A line for each receiver over the whole trace; where they end."""
    begin, end = (left + entry * width / max(tale.total, 1) for entry in shown)
    bottom = top + 8 + len(lines) * (STRIP + 2 * LINE)
    if shown != (0, tale.total):
        drawing.box(begin, top + 6, round(max(end - begin, 2), 1), bottom - top, "shown")
    for index, line in enumerate(lines):
        y = top + 10 + LINE + index * (STRIP + 2 * LINE)
        rows = 0, max(tale.peak(line), tale.capacity * 1.2)
        draw_backlog(drawing, Frame(left, y, width, STRIP, (0, tale.total), rows), tale, line, index, names)
    return bottom


def head(tale, lines, shown, names):
    """The lines above the drawing."""
    yield timeline.finding(tale, names), "title"
    yield timeline.subject(tale), "soft"
    if shown != (0, tale.total):
        yield f"Entries {shown[0]:,} to {shown[1]:,}; below, how far each receiver was behind over the whole trace", "soft"
    if len(lines) < len(tale.receivers):
        yield f"{len(lines)} of {len(tale.receivers)} receivers are drawn: those that missed most", "soft"


def left_of(tale, frame_rows, row):
    """The room for the positions and their values on the left."""
    least, most = frame_rows
    if row < VALUES:
        return max(width_of(f"{at:,}", TICK) for at in (least, most)) + 10
    values = [value for _, at, value in tale.said if least <= at <= most]
    longest = max((width_of(value, LABEL, mono=True) for value in values), default=0)
    return min(longest, 90) + width_of(f"{most:,}", TICK) + 16


def svg(tale, sentences, names, shown):
    """The drawing of the entries that are shown, with a line for each receiver below it where the trace is long."""
    drawing, lines = Canvas(sentences), tale.shown(LINES)
    rows = extent(tale, lines, *shown)
    height = max(min(HEIGHT, ROW * (rows[1] - rows[0])), LINE * (len(lines) + 2))
    row = height / (rows[1] - rows[0])
    drops = drops_of(row, len(lines))
    labels = list(labels_of(tale, lines, names, *shown, drops))
    left = left_of(tale, rows, row)
    right = min(max(width_of(label.text, LABEL) * BOLD for label in labels) + 12, MOST_RIGHT)
    width = min(WIDTH - left - right, ENTRY * max(shown[1] - shown[0], 8))
    y = 0
    for text, style_ in head(tale, lines, shown, names):
        y += 20 if style_ == "title" else 18
        drawing.text(0, y, text, style_)
    frame = Frame(left, y + 22, width, height, shown, rows, drops)
    draw_chart(drawing, frame, tale, lines, labels)
    y = frame.axis + 36
    if tale.total > SHORT:
        y = draw_overview(drawing, tale, lines, shown, names, left, width, y)
    wide = max(left + width + right, *(width_of(text, TITLE if style_ == "title" else LABEL) * BOLD
                                       for text, style_ in head(tale, lines, shown, names)))
    return canvas.framed(drawing, "chart", timeline.finding(tale, names), round(wide) + 2 * MARGIN, round(y) + 2 * MARGIN, MARGIN, style())
