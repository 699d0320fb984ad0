"""Makes a page of a timeline: a slider through its entries, the chart, the state at each entry, and all entries in words.

The script draws the chart and tells the state, from the lines of the timeline and the sentences; so the page of a long trace is no
more than these.
"""
import json
import os
import re
import string

from drawing import canvas, chart, strips, timeline, words
from drawing.canvas import escaped

HERE = os.path.dirname(os.path.abspath(__file__))
NARROW, WIDE = 4, 11  # columns of the two drawings of strips, of which the page shows the one that fits
# What the script takes of the chart.
SHARED = ("BELOW", "COLOURS_OF_LINES", "DOTS", "FEW", "LINE", "NEAR", "ROW", "SHORT", "THIN", "VALUES")
LISTED = 300  # entries up to which all are listed in words


def read(name):
    with open(os.path.join(HERE, name), encoding="utf-8") as file:
        return file.read()


# ---- what the script takes

def risen(numbers, base=0):
    """Each number by what it is more than the one before; None stays."""
    found, last = [], base
    for number in numbers:
        found.append(None if number is None else number - last)
        last = last if number is None else number
    return found


def steps_data(steps, base=0):
    return [risen(steps.entries), risen(steps.values, base)]


def raised(tale, places):
    """Places above the first one; of a watch topic -1 for a mark that was taken away."""
    for place in places:
        yield -1 if tale.kind == "W" and place == 0 else None if place is None else place - tale.first


def line_data(line, tale, names, is_shown):
    """A handle; of a receiver also its places, and of a watch topic where it is drawn."""
    found = {"number": line.number, "side": line.side, "name": names[line.number], "begin": line.begin, "end": line.end}
    if line.places:
        found["places"] = [risen(line.places.entries), risen(raised(tale, line.places.values))]
        found["heights"] = steps_data(line.heights, tale.first) if tale.kind == "W" else None
        found["lags"] = [[entry, place - tale.first, count] for entry, place, count in line.lags]
        found["record"] = chart.record(tale, line)
        found["isShown"] = is_shown
    return found


def texts_data(trace, sentences):
    """What each entry tells, its call and its reply: the texts without their numbers, each once, and then by entry which text it is
    and its numbers. So that a long trace, whose texts are much alike, takes little."""
    known, rows = {}, []
    for entry, sentence in zip([None, *trace.entries], sentences):
        whole = "\u0001".join([sentence, entry.call_line, entry.reply_line] if entry else [sentence])
        text = re.sub("[0-9]+", "\u0000", whole)
        rows.append(" ".join([str(known.setdefault(text, len(known))), *re.findall("[0-9]+", whole)]))
    return {"texts": list(known), "rows": "\n".join(rows)}


def handles_of(tale):
    """The handles in the table: senders first, of each kind no more than are drawn."""
    senders = [line for line in tale.lines.values() if line.side == "sender"]
    senders = sorted(senders, key=lambda line: (line.number not in tale.sent, line.number))[:chart.LINES]
    return sorted(senders, key=lambda line: line.number) + tale.shown(chart.LINES)


def data_of(trace, tale, shown, sentences, names):
    """Numbers of positions are those above the first one. No `<` is left in it, so nothing in it ends the element."""
    told = {
        "kind": tale.kind, "capacity": tale.capacity, "first": str(tale.first), "low": tale.low - tale.first, "last": tale.total,
        "chart": {name: getattr(chart, name) for name in SHARED}, "shown": shown, "lag": tale.first_lag(),
        "sent": chart.sent_label(tale, names), "missed": chart.MISSED[tale.kind],
        "top": steps_data(tale.top, tale.first), "slowest": steps_data(tale.slowest, tale.first),
        "live": [steps_data(count) for count in tale.live],
        "said": [risen(entry for entry, _, _ in tale.said), [value for _, _, value in tale.said]],
        "lines": [line_data(line, tale, names, line.places is not None) for line in handles_of(tale)],
        **texts_data(trace, sentences),
    }
    return json.dumps(told, ensure_ascii=False, separators=(",", ":")).replace("<", "\\u003c")


# ---- the page

def handle_row(line, names):
    name = names[line.number]
    title = f"{line.side} {line.number}"
    head = f"{escaped(name)} <small>{title}</small>" if name else title
    return f"<tr><th scope='row'>{head}</th><td></td></tr>"


def drawings(story, sentences, names, across):
    """The strips; or, where the width is left to the page, those for narrow screens and those for others."""
    def drawn(columns, mark):
        return strips.svg(story, sentences, names, columns, story.subject, mark)

    if across:
        return f"<div class='drawing'>{drawn(across, 'missed')}</div>"
    return (f"<div class='drawing narrow'>{drawn(NARROW, 'missed-narrow')}</div>\n"
            f"<div class='drawing wide'>{drawn(WIDE, 'missed-wide')}</div>")


def strips_part(story, sentences, names, across):
    """The section of the strips, where there are any."""
    if story is None:
        return ""
    left_out = "".join(f"<p class='left-out'>{escaped(line)}</p>" for line in strips.left_out(story))
    return string.Template(read("strips.html")).substitute(
        left_out=left_out, drawings=drawings(story, sentences, names, across),
        what="positions" if story.kind == "B" else "versions")


def entry_rows(trace, sentences):
    for entry, sentence in zip(trace.entries[:LISTED], sentences[1:]):
        yield (f"<li><a href='#{entry.count}'>{escaped(sentence)}</a> "
               f"<code>{escaped(entry.call_line)}</code> <code>{escaped(entry.reply_line)}</code></li>")


def html(trace, tale, shown, story, sentences, names, across):
    handles = handles_of(tale)
    left_out = len(tale.lines) - len(handles)
    return string.Template(read("page.html")).substitute(
        title=escaped(timeline.finding(tale, names)),
        subject=escaped(timeline.subject(tale)),
        style=canvas.variables() + chart.style() + (strips.style() if story else "") + read("page.css"),
        left_out=f"<p class='left-out'>{left_out} of {len(tale.lines)} handles are left out: those that missed least.</p>"
        if left_out else "",
        what="positions" if tale.kind == "B" else "versions",
        pointer="A receiver below a position reads it next." if tale.kind == "B" else
        "A reader below a version has seen up to there.",
        side="receiver" if tale.kind == "B" else "reader",
        window=f"the window, {words.plural(tale.capacity, 'value', ',')}" if tale.kind == "B" else "1 version",
        last=tale.total,
        handles="\n".join(handle_row(line, names) for line in handles),
        still=chart.svg(tale, sentences, names, shown),
        layout="" if story else " class='without-strips'",
        strips=strips_part(story, sentences, names, across),
        listed="All entries in words" if tale.total <= LISTED else f"The first {LISTED} entries in words",
        entries="\n".join(entry_rows(trace, sentences)),
        data=data_of(trace, tale, shown, sentences, names),
        script="\n".join(read(name) for name in ("state.js", "chart.js", "page.js")),
    )
