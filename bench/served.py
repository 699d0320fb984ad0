"""The picture of `topichub serve`: clients, the socket, the sessions and topics of the server, and traces on the disk."""
from drawing import canvas
from drawing.canvas import Canvas

WIDTH, HEIGHT, MARGIN = 590, 596, 12
CLIENTS, SOCKET, SESSIONS, TOPICS = 0, 226, 276, 374  # where each column begins
CLIENT, SESSION, TOPIC, FILE = 196, 64, 196, 176  # its width
SERVER = 430  # where the server ends, and the disk begins
FIRST, STEP, BOX = 74, 84, 62  # the first row, from one to the next, and a box's height

SHAPES = """
.served text { font: 13px system-ui, -apple-system, "Segoe UI", Helvetica, Arial, sans-serif }
.served .title { font-size: 14px; font-weight: bold }
.served .code { font: 12px ui-monospace, SFMono-Regular, Menlo, Consolas, "DejaVu Sans Mono", monospace }
.served .end { text-anchor: end }
.served .bold { font-weight: bold }
.served .middle { text-anchor: middle }
.box, .server, .cell, .dropped { stroke-width: 1.2 }
.server { stroke-width: 1.8 }
.dropped { stroke-dasharray: 3 3 }
.flow { stroke-width: 1.6; fill: none }
.socket { stroke-width: 3; stroke-dasharray: 8 5 }
"""
COLOURS = """
.ground, .dropped {{ fill: {ground} }}
.served text {{ fill: {ink} }}
.served .soft {{ fill: {soft} }}
.server {{ fill: {lane}; stroke: {ink} }}
.box {{ fill: {ground}; stroke: {rule} }}
.dropped {{ stroke: {rule} }}
.cell {{ fill: {sent}; stroke: {sent} }}
.served .in-cell {{ fill: {on_sent} }}
.flow {{ stroke: {soft} }}
.head {{ fill: {soft} }}
.socket {{ stroke: {sent} }}
.served .socket-text {{ fill: {sent} }}
.lag {{ fill: none; stroke: {missed}; stroke-width: 1.8 }}
"""
# Each client with what it sends, what it gets, and the row of its topic.
ROWS = (
    ("a publisher", "PUB news v7", "OK 2", 0),
    ("a fast subscriber", "NEXT news", "VAL v7", 0),
    ("a slow subscriber", "NEXT news", "LAG 2", 0),
    ("a watcher", "CHANGED price", "CHANGED", 1),
)
FILES = ("news.\u2026001.trace", "news.\u2026085.trace", "price.\u2026001.trace")


def arrow(drawing, x, y, to_x, to_y, both=False):
    """A line with a head where it ends, and one where it begins if it goes both ways; it is level at its ends."""
    middle = (x + to_x) / 2
    drawing.path(f"M{x} {y:g}C{middle:g} {y:g} {middle:g} {to_y:g} {to_x} {to_y:g}", "flow")
    drawing.path(f"M{to_x} {to_y:g}l-8 -4v8z", "head")
    if both:
        drawing.path(f"M{x} {y:g}l8 -4v8z", "head")


def draw_client(drawing, index, name, call, reply):
    y = FIRST + STEP * index
    drawing.box(CLIENTS, y, CLIENT, BOX, "lag" if reply.startswith("LAG") else "box", " rx='6'")
    drawing.text(CLIENTS + 12, y + 24, name, "bold")
    drawing.text(CLIENTS + 12, y + 46, call, "code")
    drawing.text(CLIENTS + 111, y + 46, "\u2192", "soft")
    drawing.text(CLIENTS + 131, y + 46, reply, "code bold" if reply.startswith("LAG") else "code")


def draw_topic(drawing, y, name, kind, kept, dropped):
    """A topic with what it keeps, and what it has dropped."""
    drawing.box(TOPICS, y, TOPIC, 96, "box", " rx='6'")
    drawing.text(TOPICS + 12, y + 22, name, "bold")
    drawing.text(TOPICS + 12, y + 40, kind, "soft")
    for index, value in enumerate(dropped + kept):
        is_kept = index >= len(dropped)
        x = TOPICS + 12 + 39 * index
        drawing.box(x, y + 54, 33, 28, "cell" if is_kept else "dropped")
        drawing.text(x + 16.5, y + 73, value, "code middle in-cell" if is_kept else "code middle soft")


def draw_disk(drawing):
    """The files of the log, and who reads them."""
    top = SERVER + 44
    drawing.path(f"M{TOPICS + TOPIC / 2} {SERVER - 10}V{top - 20}", "flow")
    drawing.path(f"M{TOPICS + TOPIC / 2} {top - 12}l-4 -8h8z", "head")
    drawing.text(0, top - 12, "--traces DIR", "title")
    drawing.text(106, top - 12, "the log of each topic, in files", "soft")
    for index, name in enumerate(FILES):
        x = index * (FILE + (WIDTH - 3 * FILE) / 2)
        drawing.box(x, top, FILE, 36, "box", " rx='3'")
        drawing.text(x + FILE / 2, top + 23, name, "code middle")
    drawing.path(f"M{FILE / 2} {top + 36}v24", "flow")
    drawing.path(f"M{FILE / 2} {top + 66}l-4 -8h8z", "head")
    drawing.text(0, top + 86, "topichub check --joined DIR/START", "code bold")
    drawing.text(258, top + 86, "says whether every reply was the right one", "soft")


def svg():
    drawing = Canvas([])
    middles = (FIRST + 60, FIRST + 60 + 170)
    drawing.box(SESSIONS - 20, 2, WIDTH - SESSIONS + 20, SERVER - 12, "server", " rx='10'")
    drawing.text(CLIENTS, 28, "clients", "title")
    drawing.text(CLIENTS, 46, "processes on the same machine", "soft")
    drawing.text(SESSIONS - 6, 28, "topichub serve PATH --at-once 64", "title")
    drawing.text(SESSIONS - 6, 46, "a thread each", "soft")
    drawing.text(TOPICS, 46, "topics, which all share", "soft")
    drawing.line(SOCKET, 8, SOCKET, SERVER - 36, "socket")
    drawing.text(SOCKET + 20, SERVER - 16, "Unix socket PATH", "bold socket-text end")
    for index, (name, call, reply, topic) in enumerate(ROWS):
        y = FIRST + STEP * index + BOX / 2
        arrow(drawing, CLIENTS + CLIENT, y, SESSIONS - 2, y, both=True)
        arrow(drawing, SESSIONS + SESSION, y, TOPICS - 2, middles[topic], both=True)
        draw_client(drawing, index, name, call, reply)
        drawing.box(SESSIONS, y - 18, SESSION, 36, "box", " rx='6'")
        drawing.text(SESSIONS + SESSION / 2, y + 5, "session", "middle")
    draw_topic(drawing, middles[0] - 48, "news", "broadcast, keeps 2 values", ["v6", "v7"], ["v4", "v5"])
    draw_topic(drawing, middles[1] - 48, "price", "watch, keeps the newest", ["42"], ["40", "41"])
    draw_disk(drawing)
    return canvas.framed(drawing, "served", "topichub serve: clients on a Unix socket, sessions, topics, and traces on the disk",
                         WIDTH + 2 * MARGIN, HEIGHT - 20 + 2 * MARGIN, MARGIN, canvas.style(SHAPES, COLOURS))
