"""Draws a story as SVG: positions or versions across, a lane for each handle, wrapped into bands."""
import bisect

from drawing import canvas
from drawing.canvas import BOLD, COUNT, SMALL, TEXT, TITLE, Canvas, fitted, last_digits, width_of, wrapped
from drawing.story import columns_of

LANES = 24  # lanes drawn at most
STAIRS = 14  # so many rows of the window in one band at most; else it is told in numbers

LARGER = 1.25  # by so much on a page
LEFT, COLUMN, MARGIN = 76, 68, 8
TOKEN, LINE, GAP, STAIR = 18, 13, 6, 9

COLOURS = """
.ground {{ fill: {ground} }}
.trace text, .ink, .filled {{ fill: {ink} }}
.trace .count, .trace .soft {{ fill: {soft} }}
.lane {{ fill: {lane} }}
.rule, .trace .grid {{ stroke: {rule} }}
.edge, .filled, .ring {{ stroke: {ink} }}
.ring, .got, .looked {{ fill: {ground} }}
.sent {{ fill: {sent}; stroke: {sent} }}
.trace .on-sent {{ fill: {on_sent} }}
.got, .looked {{ stroke: {got} }}
.missed, .hatch {{ stroke: {missed} }}
.window {{ fill: {window}; stroke: {ink} }}
"""
SHAPES = """
.trace text { font: 10px system-ui, -apple-system, "Segoe UI", Helvetica, Arial, sans-serif }
.trace .title { font-size: 13px; font-weight: bold }
.trace .name { font-size: 11px; font-weight: bold }
.trace .count { font-size: 9px }
.trace .value { font: 11px ui-monospace, SFMono-Regular, Menlo, Consolas, "DejaVu Sans Mono", monospace }
.trace .bold { font-weight: bold }
.trace .middle { text-anchor: middle }
.rule { stroke-width: .7 }
.trace .grid { stroke-width: .7; stroke-dasharray: 1 3 }
.edge { stroke-width: 2 }
.got { stroke-width: 2 }
.looked { stroke-width: 1.5; stroke-dasharray: 3 2 }
.missed { stroke-width: 1.5; stroke-dasharray: 5 3 }
.hatch { stroke-width: 1.5 }
.window { stroke-width: .7 }
.track { stroke-width: 1 }
.ring { stroke-width: 1.5 }
.touch { fill: none; pointer-events: all }
"""


def style():
    return canvas.style(SHAPES, COLOURS)


class Band:
    """Some columns in turn, drawn one beside the other."""

    def __init__(self, columns):
        self.columns = columns
        self.ends = [end for _, end in columns]
        self.width = LEFT + COLUMN * len(columns)

    def has(self, at, to):
        return at <= self.ends[-1] and to >= self.columns[0][0]

    def left(self, at):
        return LEFT + COLUMN * min(bisect.bisect_left(self.ends, max(at, self.columns[0][0])), len(self.columns) - 1)

    def right(self, to):
        return self.left(min(to, self.ends[-1])) + COLUMN


# ---- notes

def number_at(note):
    """Where in the column the entry's number stands."""
    return 4 if note.shape == "begin" else 2


def inset_of(note):
    """How far the entry's number reaches into the column."""
    return number_at(note) + width_of(str(note.entry), COUNT) + 3 if note.entry else 4


def lines_of(note):
    """The words of a note that has no box, in lines."""
    lines = wrapped(note.text, COLUMN - inset_of(note) - 1, COLUMN - 6)
    return lines if not note.small else lines + [fitted(note.small, COLUMN - 6, SMALL)]


def height_of(note):
    if note.shape in ("words", "begin", "end"):
        return LINE * len(lines_of(note))
    return TOKEN + (LINE if note.small else 0)


def stacked(band, notes):
    """The notes of a band with the height at which each stands, below all that share a column with it; and the height of all."""
    depth, placed = {}, []
    for note in notes:
        if not band.has(note.at, note.to):
            continue
        across = range(int(band.left(note.at)), int(band.right(note.to)), COLUMN)
        top = max(depth.get(x, 0) for x in across)
        placed.append((top, note))
        for x in across:
            depth[x] = top + height_of(note) + 3
    return placed, max(depth.values(), default=LINE)


def draw_missed(drawing, band, note, y):
    x, to = band.left(note.at), band.right(note.to)
    inset = inset_of(note) if note.entry else 0
    drawing.box(x + 3, y, to - x - 6, TOKEN, "missed", " fill='url(#missed)'")
    label = fitted(note.text, to - x - inset - 14, SMALL)
    wide = width_of(label, SMALL) + 8 + inset
    drawing.box((x + to - wide) / 2, y + 2, wide, TOKEN - 4, "ground")
    if note.entry:
        drawing.text((x + to - wide) / 2 + 3, y + 10, str(note.entry), "count")
    drawing.text((x + to - wide) / 2 + inset + 3, y + 13, label)


def draw_box(drawing, x, note, y):
    inset = inset_of(note)
    corners = "" if note.shape == "sent" else " rx='6'"
    drawing.box(x + inset, y, COLUMN - inset - 4, TOKEN, note.shape, corners)
    drawing.text((x + inset + x + COLUMN - 4) / 2, y + 13, fitted(note.text, COLUMN - inset - 8, TEXT, mono=True),
                "value middle on-sent" if note.shape == "sent" else "value middle")
    if note.small:
        drawing.text(x + inset + 1, y + TOKEN + 10, fitted(note.small, COLUMN - inset - 2, SMALL))


def draw_words(drawing, x, note, y):
    inset = inset_of(note)
    for index, line in enumerate(lines_of(note)):
        if not line:
            continue
        has_room = index == 0 or inset + width_of(line, SMALL) < COLUMN
        drawing.text(x + (inset if has_room else 4), y + LINE * index + 10, line)
    if note.shape == "begin":
        drawing.line(x + 1, y, x + 1, y + LINE - 1, "edge")
    elif note.shape == "end":
        at = x + inset + width_of(note.text, SMALL) + 2
        drawing.line(at, y + 3, at + 6, y + 10, "edge")
        drawing.line(at + 6, y + 3, at, y + 10, "edge")


def draw_note(drawing, band, note, y):
    x = band.left(note.at)
    drawing.begin(note.entry, is_event=True)
    drawing.box(x + 1, y, band.right(note.to) - x - 2, height_of(note), "touch")
    if note.shape == "missed":
        draw_missed(drawing, band, note, y)
    else:
        if note.shape in ("sent", "got", "looked"):
            draw_box(drawing, x, note, y)
        else:
            draw_words(drawing, x, note, y)
        if note.entry:
            drawing.text(x + number_at(note), y + 9, str(note.entry), "count")
    drawing.end()


def draw_marks(drawing, band, lane, y):
    """The track of a reader's mark: a line where it moves on, a disc where it is seen, a ring where it is unseen."""
    places, used = [], {}
    for entry, version, seen in lane.marks:
        if band.has(version, version):
            used[version] = used.get(version, 0) + 1
            places.append((entry, band.left(version) + 8 + 13 * min(used[version] - 1, 3), seen))
        else:
            places.append((entry, LEFT if version < band.columns[0][0] else band.right(version), None))
    for (_, x, _), (entry, to, _) in zip(places, places[1:]):
        if x != to:
            drawing.begin(entry)
            drawing.line(x, y, to, y, "rule track")
            drawing.end()
    for entry, x, seen in places:
        if seen is not None:
            drawing.begin(entry)
            drawing.dot(x, y, 4, "filled" if seen else "ring")
            drawing.end()


# ---- bands

def draw_window(drawing, band, story, y):
    """Each stand of the window as a bar, one below the other; or, where these are many, in numbers. The height taken."""
    stands = [(entry, begin, end) for entry, begin, end in story.windows if band.has(begin, end)]
    if not stands:
        return 0
    drawing.text(2, y + 9, "window", "name")
    if len(stands) > STAIRS:
        for at, to in band.columns:
            entries = [entry for entry, begin, end in stands if begin <= at and to <= end]
            if entries and at == to:
                left = [entry for entry, begin, _ in story.windows if begin > at]
                drawing.text(band.left(at) + 3, y + 9, f"{entries[0]} to {left[0]}" if left else f"{entries[0]} on", "count")
        return LINE + GAP
    for row, (entry, begin, end) in enumerate(stands):
        x, to = band.left(begin), band.right(end)
        drawing.begin(entry)
        drawing.box(x + 3, y + STAIR * row + 2, to - x - 6, STAIR - 3, "window")
        if entry:
            drawing.text(x + 1 - width_of(str(entry), COUNT), y + STAIR * row + 8, str(entry), "count")
        drawing.end()
    return STAIR * len(stands) + GAP


def draw_head(drawing, band, story, y):
    """The positions or versions, and the values at them."""
    drawing.text(2, y + 11, "position" if story.kind == "B" else "version", "name")
    drawing.text(2, y + 25, "value", "name")
    for at, to in band.columns:
        middle = band.left(at) + COLUMN / 2
        label = last_digits(at, COLUMN - 10) if at == to else "\u2026"
        drawing.text(middle, y + 11, label, "middle", title=str(at) if at == to else f"{at} to {to}")
        if at in story.values and at == to:
            value = ", ".join(value for _, value in story.values[at])
            drawing.begin(story.values[at][0][0])
            drawing.text(middle, y + 25, fitted(value, COLUMN - 4, TEXT, mono=True), "value middle bold", value)
            drawing.end()


def draw_lane(drawing, band, lane, name, y, is_odd):
    """A lane with its notes in this band; where it ends, or None where it has nothing here."""
    placed, depth = stacked(band, lane.notes)
    versions = [version for _, version, _ in lane.marks]
    stays = lane.place is not None and lane.place < band.columns[0][0] and not placed
    if not placed and not stays and not (versions and band.has(min(versions), max(versions))):
        return None
    height = 4 + (12 if lane.marks else 0) + max(depth, 26 if name else LINE) + 2
    if is_odd:
        drawing.box(0, y, band.width, height, "lane")
    drawing.line(0, y, band.width, y, "rule")
    title = f"{lane.side} {lane.number}"
    drawing.text(2, y + 14, fitted(name or title, (LEFT - 4) / BOLD, TEXT), "name", title=name)
    if name:
        drawing.text(2, y + 26, fitted(title, LEFT - 4, SMALL), "soft", title)
    y += 4
    if lane.marks:
        draw_marks(drawing, band, lane, y + 5)
        y += 12
    for drop, note in placed:
        draw_note(drawing, band, note, y + drop)
    if stays:
        drawing.text(LEFT + 4, y + 10, f"\u25c0 {lane.behind} behind: it reads position {lane.place} next", "soft")
    return y + max(depth, 26 if name else LINE) + 2


def draw_band(drawing, band, story, lanes, names, y):
    draw_head(drawing, band, story, y)
    y += 32
    y += draw_window(drawing, band, story, y)
    top = y
    for index, lane in enumerate(lanes):
        y = draw_lane(drawing, band, lane, names[lane.number], y, index % 2 == 1) or y
    drawing.line(0, y, band.width, y, "rule")
    for column in range(len(band.columns)):
        drawing.line(LEFT + COLUMN * column, top, LEFT + COLUMN * column, y, "grid")
    return y + 16


# ---- the whole

def lanes_of(story):
    """The lanes that have anything: senders first, numbers rising."""
    order = sorted(story.lanes.values(), key=lambda lane: (lane.side != "sender", lane.number))
    return [lane for lane in order if lane.notes or lane.marks]


def shown_lanes(story):
    """The lanes that are drawn: where there are too many, those that are most behind, and then the first ones."""
    lanes = lanes_of(story)
    kept = {lane.number for lane in sorted(lanes, key=lambda lane: -lane.behind)[:LANES]}
    return [lane for lane in lanes if lane.number in kept]


def left_out(story):
    """What the drawing does not show."""
    if story.entries > story.told:
        yield f"Too long to draw whole: the first {story.told} of {story.entries} entries."
    if len(lanes_of(story)) > LANES:
        yield f"Too many handles: {LANES} of {len(lanes_of(story))} are drawn."


def legend(story):
    if story.kind == "B":
        return ["Filled: a value that is sent. Outlined: one that is received.", "Hatched: values that were missed.",
                "Bars: the window after each send.", "Small numbers count the entries of the trace."]
    return ["Filled: a value that is published. Outlined: taken, and seen;", "dashed: only looked at, or equal.",
            "A disc: seen up to here; a ring: unseen again.", "Small numbers count the entries of the trace."]


def heading(story, columns):
    """The lines above the first band, below the title."""
    what = "Positions" if story.kind == "B" else "Versions"
    return [f"{story.subject}; {what.lower()} {columns[0][0]} to {columns[-1][1]}", *left_out(story)]


def widest(story, columns, across, title):
    """The width that the bands take, and the lines above and below them."""
    lines = legend(story) + (heading(story, columns) if title else [])
    wide = width_of(title, TITLE) * BOLD if title else 0
    return max(LEFT + COLUMN * min(across, len(columns)), wide, *(width_of(line, SMALL) for line in lines)) + 2


def draw_all(drawing, story, names, across, title):
    """Everything but the frame; the width and the height."""
    lanes = shown_lanes(story)
    columns, y = columns_of(story, lanes), 0
    if title:
        drawing.text(2, 11, title, "title")
        for index, line in enumerate(heading(story, columns)):
            drawing.text(2, 29 + 15 * index, line)
        y = 24 + 15 * len(heading(story, columns))
    for begin in range(0, len(columns), across):
        y = draw_band(drawing, Band(columns[begin:begin + across]), story, lanes, names, y)
    for line in legend(story):
        drawing.text(2, y, line)
        y += 14
    return widest(story, columns, across, title), y - 14


def svg(story, sentences, names, across, title, mark=None):
    """The drawing. As a part of a page it has a mark of its own, and the page has its style."""
    drawing = Canvas(sentences)
    width, height = (round(size) + 2 * MARGIN for size in draw_all(drawing, story, names, across, title if not mark else None))
    pattern = mark or "missed"
    drawing.parts = [part.replace("url(#missed)", f"url(#{pattern})") for part in drawing.parts]
    defs = (f"<defs><pattern id='{pattern}' width='6' height='6' patternUnits='userSpaceOnUse' patternTransform='rotate(45)'>"
            "<line x1='0' y1='0' x2='0' y2='6' class='hatch'/></pattern></defs>")
    return canvas.framed(drawing, "trace", title, width, height, MARGIN, None if mark else style(), defs, LARGER if mark else 1)
