"""What pictures are drawn on: colours, the widths of texts, and the parts of an SVG."""
import html
import unicodedata

TITLE, TEXT, SMALL, COUNT = 13, 11, 10, 9  # sizes of letters: the title, values and names, words, numbers of entries

# Widths of letters in DejaVu Sans, which is among the widest; whatever fits there fits in other fonts.
WIDTHS = {letter: width for letters, width in (
    ("ijl' ", .32), ("I|.,:;!f()[]-", .4), ("rt", .42), ("cszJ", .55), ("ABCDEFGHKLNOPQRSTUVXYZw", .82), ("mW%@M", 1),
) for letter in letters}
WIDE, MONO, BOLD = 0.64, 0.61, 1.12

# The colours are those of Okabe and Ito, which the colour-blind tell apart; those of lines are darker, or lighter, since text has
# them too. None carries a meaning alone: of strips, what is sent is filled, what is received is outlined, what is looked at is dashed,
# and what is missed is hatched; of charts, each line has its name at its end, and what is missed is an arrow with its number.
LIGHT = {"ground": "#ffffff", "ink": "#1f2328", "soft": "#57606a", "rule": "#8c959f", "lane": "#f4f6f8",
         "sent": "#0072b2", "on_sent": "#ffffff", "got": "#009e73", "missed": "#d55e00", "missed_text": "#a84a00", "window": "#56b4e9",
         "band": "#dde3ea", "lines": ("#00694c", "#a5447f", "#5c4b00", "#1f2328")}
DARK = {"ground": "#0d1117", "ink": "#e6edf3", "soft": "#9aa4af", "rule": "#6e7681", "lane": "#161b22",
        "sent": "#56b4e9", "on_sent": "#0d1117", "got": "#009e73", "missed": "#e69f00", "missed_text": "#e69f00", "window": "#0072b2",
        "band": "#2b333d", "lines": ("#25a37c", "#dd8fba", "#f0e442", "#e6edf3")}


def style(shapes, colours):
    """A style sheet: the shapes, and the colours as templates of `str.format`, for light systems and for dark ones."""
    dark = "@media (prefers-color-scheme: dark) {" + colours.format(**DARK) + "}\n"
    return shapes.lstrip() + colours.format(**LIGHT).lstrip() + dark


def variables():
    """The colours as variables of a style sheet: --ground and so on, and of lines --line0 and so on."""
    def told(colours):
        lines = {f"line{index}": colour for index, colour in enumerate(colours["lines"])}
        named = {**{name: colour for name, colour in colours.items() if isinstance(colour, str)}, **lines}
        return ":root { " + " ".join(f"--{name}: {colour};" for name, colour in named.items()) + " }\n"

    return told(LIGHT) + "@media (prefers-color-scheme: dark) { " + told(DARK) + "}\n"


# ---- text

def escaped(text):
    return html.escape(text)


def width_of(text, size, mono=False):
    cells = (2 * MONO if unicodedata.east_asian_width(letter) in "WF" else MONO if mono else WIDTHS.get(letter, WIDE)
             for letter in text)
    return size * sum(cells)


def fitted(text, room, size, mono=False):
    """The text, or the front of it that fits."""
    if width_of(text, size, mono) <= room:
        return text
    while text and width_of(text + "\u2026", size, mono) > room:
        text = text[:-1]
    return text + "\u2026"


def last_digits(number, room):
    """The number, or its last digits where it is long."""
    digits = str(number)
    while width_of(digits, SMALL) > room:
        digits = "\u2026" + digits[2:]
    return digits


def wrapped(text, first, room):
    """The words in lines: the first line is narrower, and empty where no word fits there."""
    lines = [""]
    for word in text.split(" "):
        if word.isdigit():
            word = last_digits(word, room)
        longer = f"{lines[-1]} {word}".strip()
        if width_of(longer, SMALL) <= (first if len(lines) == 1 else room):
            lines[-1] = longer
        else:
            lines.append(fitted(word, room, SMALL))
    return lines


# ---- what is drawn on

class Canvas:
    """Parts of a drawing. What belongs to an entry stands in a group that says so, with what the entry tells in words."""

    def __init__(self, sentences):
        self.parts, self.sentences = [], sentences

    def begin(self, entry, is_event=False):
        sentence = self.sentences[entry]
        if is_event:
            self.parts.append(f"<g class='event' data-entry='{entry}'><title>{entry}. {escaped(sentence)}</title>" if entry
                              else f"<g data-entry='0'><title>{escaped(sentence)}</title>")
        else:
            self.parts.append(f"<g data-entry='{entry}'>")

    def end(self):
        self.parts.append("</g>")

    def text(self, x, y, text, style="", title=None):
        tip = f"<title>{escaped(title)}</title>" if title and title != text else ""
        kind = f" class='{style}'" if style else ""
        self.parts.append(f"<text x='{x:g}' y='{y:g}'{kind}>{tip}{escaped(text)}</text>")

    def line(self, x, y, to_x, to_y, style):
        self.parts.append(f"<line x1='{x:g}' y1='{y:g}' x2='{to_x:g}' y2='{to_y:g}' class='{style}'/>")

    def path(self, steps, style):
        self.parts.append(f"<path d='{steps}' class='{style}'/>")

    def dot(self, x, y, radius, style):
        self.parts.append(f"<circle cx='{x:g}' cy='{y:g}' r='{radius:g}' class='{style}'/>")

    def box(self, x, y, width, height, style, more=""):
        self.parts.append(f"<rect x='{x:g}' y='{y:g}' width='{width}' height='{height}' class='{style}'{more}/>")



def framed(drawing, kind, title, width, height, margin, style_, defs="", scale=1):
    """The SVG: an image with its title, its style and its ground. Without a style it is a part of a page, which has that."""
    role, sheet = ("img", f"<style>\n{style_}</style>") if style_ else ("group", "")
    return "\n".join(filter(None, [
        f"<svg xmlns='http://www.w3.org/2000/svg' width='{width * scale:g}' height='{height * scale:g}' "
        f"viewBox='{-margin} {-margin} {width} {height}' class='{kind}' role='{role}'>",
        f"<title>{escaped(title)}</title>", sheet, defs,
        f"<rect x='{-margin}' y='{-margin}' width='{width}' height='{height}' class='ground'/>",
        *drawing.parts, "</svg>",
    ])) + "\n"
