"""A run drawn: a time line of the bus, the seconds, the flags and the pin, as an SVG document.

Events of the bus take no time and have a width of their own. Pulses take time: their event is wider the more they
are, and what happened in it stands in proportion. Where a row is full the run goes on in the next.
"""

import math
import re
from xml.sax.saxutils import escape

from scripts import registers, words
from scripts.files import BYTE, POWER_LOSS, PULSES, READ_ACK, READ_NAK, START, STOP

WIDTH, LEFT, RIGHT = 1180, 74, 1166
TOP, PITCH = 134, 250
CELLS = {START: 48, STOP: 44, BYTE: 42, READ_ACK: 42, READ_NAK: 42, POWER_LOSS: 44}

# Heights within a row: for the bus the master's line, the chip's, and notes below them.
CAPTION, INDEX = 8, 26
BUS_TOP, MASTER, CHIP, NOTES, BUS_END = 32, 36, 60, 91, 108
BOX, AXIS = 19, 132
FLAG_TOPS, FLAG_HEIGHT = {"INTAF": 150, "INTDF": 178}, 11
PIN_TOP, PIN_HEIGHT, ROW_END = 205, 18, 229

# More changes of the pin, or zeros of the countdown, in one event are a band with their number.
MOST_DRAWN = 24
LONGEST_TITLE = 110
NOT_IN_XML = re.compile(r"[^\x20-\uD7FF\uE000-\uFFFD\U00010000-\U0010FFFF]")

NOTES_OF = {
    "to-write": "write", "to-read": "read", "elsewhere": "deaf", "pointed": "pointer", "beyond": "deaf",
    "stored": "stored", "lost": "lost", "unheard": "unheard",
    "latched": "latch", "renewed": "renews", "silent": "silent",
}
FONTS = "DejaVu Sans Mono, Menlo, Consolas, monospace"
BANDS = {"X": "crystal", "dense": "dense"}

STYLE = """
text{font-size:11px;fill:#1b1f24;text-anchor:middle}
.title{font-size:17px;font-weight:bold;text-anchor:start}
.said,.lane,.caption{text-anchor:start}
.lane{font-size:10px}
.caption{font-weight:bold}
.index,.note,.often{font-size:9px}
.no{font-weight:bold}
.index{fill:#6a737d}
.time{font-size:10px;text-anchor:start}
.left{text-anchor:end}
.transfer{fill:#e6edf7;stroke:#8ea4c2}
.span{fill:#f1f1ee}
.byte{fill:#fff;stroke:#1b1f24}
.read{fill:#cfd6dd}
.lost{stroke-dasharray:3 2}
.bar{stroke:#1b1f24;stroke-width:3}
.timeout,.power{stroke:#1b1f24;stroke-width:2;stroke-dasharray:5 3}
.extent,.axis,.tick{fill:none;stroke:#6a737d}
.tick{stroke:#1b1f24;stroke-width:1.5}
.intaf,.intdf,.pin{fill:none;stroke:#1b1f24;stroke-width:1.5}
.mark{fill:#1b1f24}
.crystal{fill:url(#slanted);stroke:#1b1f24}
.dense{fill:url(#upright);stroke:#1b1f24}
.ground{fill:#fff}
"""
PATTERNS = (
    '<pattern id="slanted" width="6" height="6" patternUnits="userSpaceOnUse" patternTransform="rotate(45)">'
    '<path d="M0 0V6" stroke="#1b1f24"/></pattern>'
    '<pattern id="upright" width="3" height="6" patternUnits="userSpaceOnUse">'
    '<path d="M1 0V6" stroke="#1b1f24"/></pattern>'
)


# Elements

def figure(number):
    """A coordinate, with one digit behind the point where that is not 0."""
    return f"{number:.1f}".replace(".0", "")


def text(x, y, said, kind):
    return f'<text class="{kind}" x="{figure(x)}" y="{figure(y)}">{escape(said)}</text>'


def box(x, y, width, height, kind):
    place = f'x="{figure(x)}" y="{figure(y)}" width="{figure(width)}" height="{figure(height)}"'
    return f'<rect class="{kind}" {place}/>'


def path(moves, kind):
    return f'<path class="{kind}" d="{moves}"/>'


def upright(x, top, end, kind):
    return path(f"M{figure(x)} {top}V{end}", kind)


def label(x, y, said, kind):
    """A small text on a ground of its own."""
    width = 5.5 * len(said) + 4
    return box(x - width / 2, y - 8, width, 10, "ground") + text(x, y, said, kind)


class Wave:
    """A line of levels over one row; a level that has no height is drawn as a band."""

    def __init__(self, kind, top, height, levels):
        self.kind, self.top, self.height = kind, top, height
        self.heights = dict(zip(levels, (top, top + height)))

    def begin(self, level):
        self.pieces = [(LEFT, level, "")]

    def change(self, x, level, note=""):
        if level != self.pieces[-1][1]:
            self.pieces.append((x, level, note))

    def drawn(self, end):
        parts, moves = [], ""
        ends = [x for x, _, _ in self.pieces[1:]] + [end]
        for (x, level, note), until in zip(self.pieces, ends):
            if level in self.heights:
                y = self.heights[level]
                moves += (f"V{y}" if moves else f"M{figure(x)} {y}") + f"H{figure(until)}"
                continue
            parts.append(path(moves, self.kind) if moves else "")
            parts.append(box(x, self.top, until - x, self.height, BANDS[level]))
            parts.append(label((x + until) / 2, self.top + self.height / 2 + 3, note, "often") if note else "")
            moves = ""
        return parts + ([path(moves, self.kind)] if moves else [])


# Events of the bus

def cell(x, event):
    """An event of the bus: who sends stands in which line, and the other side's answer in the other."""
    middle, end = x + CELLS[event.kind] / 2, x + CELLS[event.kind]
    parts = [text(middle, INDEX, str(event.index), "index")]
    if event.kind == START:
        return parts + [upright(x + 3, BUS_TOP, BUS_END, "bar start"), text(middle + 2, MASTER + 13, "START", "sign")]
    if event.kind == STOP:
        return parts + [upright(end - 3, BUS_TOP, BUS_END, "bar stop"), text(middle - 2, MASTER + 13, "STOP", "sign")]
    if event.kind == POWER_LOSS:
        said = [label(middle, MASTER + 9, "power", "note"), label(middle, MASTER + 19, "loss", "note")]
        return parts + [upright(middle, BUS_TOP, ROW_END, "power"), *said]
    return parts + said_bytes(x, middle, event)


def said_bytes(x, middle, event):
    """A byte in a box on the line of who sent it, how it was answered, and what became of it."""
    if event.kind == BYTE:
        line, byte, kind, other, answer = MASTER, f"{event.byte:02X}h", "byte", CHIP, event.answer
    else:
        line, byte, kind, other = CHIP, f"{event.answer}h", "byte read", MASTER
        answer = "ACK" if event.kind == READ_ACK else "NAK"
    if event.deed in ("lost", "unheard", "silent"):
        kind += " lost"
    notes = [NOTES_OF[event.deed]] if event.deed in NOTES_OF else []
    if event.register is not None and event.deed != "pointed":
        notes.insert(0, f"{event.register:02X}h")
    return [
        box(x + 4, line, CELLS[event.kind] - 8, BOX, kind),
        text(middle, line + 13, byte, "value"),
        text(middle, other + 13, answer, "answer no" if answer in ("NK", "NAK") else "answer"),
        *(text(middle, NOTES + 11 * at, note, "note") for at, note in enumerate(notes)),
    ]


# Events of pulses

def width_of(event):
    return CELLS[event.kind] if event.kind != PULSES else 40 + 11 * math.log2(event.count + 1)


class Span:
    """An event of pulses at its place in a row."""

    def __init__(self, x, event):
        self.x, self.event, self.width = x, event, width_of(event)
        self.end = x + self.width

    def places(self, what):
        """Where in the row something happened."""
        return [self.x + self.width * pulse / self.event.count for pulse in words.pulses_of(self.event, what)]

    def drawn(self):
        event, middle, line = self.event, (self.x + self.end) / 2, MASTER + BOX
        extent = f"M{figure(self.x + 3)} {line - 3}v6m0 -3H{figure(self.end - 3)}m0 -3v6"
        parts = [
            text(middle, INDEX, str(event.index), "index"),
            text(middle, MASTER + 13, words.counted(event.count, "pulse"), "pulses"),
            path(extent, "extent"),
        ]
        for x in self.places("timeout"):
            # The words stay within the event, wherever in it the transfer ends.
            place = min(max(x, self.x + 24), self.end - 24)
            parts += [upright(x, BUS_TOP, BUS_END, "timeout"), label(place, CHIP + 13, "timeout", "note")]
        marks = self.marks("INTAF", "alarm", event.counts.alarms) + self.marks("INTDF", "zero", event.counts.zeros)
        return parts + self.seconds() + marks

    def seconds(self):
        parts = []
        numbers = [moment.value for moment in self.event.moments if moment.what == "second"]
        for x, number in zip(self.places("second"), numbers):
            said = "illegal" if number is None else words.time_worded(number, b"").split()[1]
            fits = x + 54 < WIDTH
            parts.append(upright(x, AXIS - 12, AXIS, "tick"))
            parts.append(text(x + 4 if fits else x - 4, AXIS - 4, said, "time" if fits else "time left"))
        return parts

    def marks(self, flag, what, times):
        """Small triangles above a flag where what raises it happened, or a band if that was often."""
        line = FLAG_TOPS[flag] - 3
        if times > MOST_DRAWN:
            said = label((self.x + self.end) / 2, line + 1, f"{times:,} {what}s", "often")
            return [box(self.x + 1, line - 6, self.width - 2, 6, "dense"), said]
        moves = "".join(f"M{figure(x)} {line}l-3 -6h6z" for x in self.places(what))
        return [path(moves, f"mark {what}")] if moves else []


# The rows

def lanes():
    """The names at the left of a row."""
    named = {"master": MASTER + 13, "chip": CHIP + 13, "seconds": AXIS, "pin": PIN_TOP + 13}
    named.update({flag: top + FLAG_HEIGHT - 1 for flag, top in FLAG_TOPS.items()})
    edges = [(PIN_TOP, "H"), (PIN_TOP + PIN_HEIGHT, "L")]
    edges += [(top + (1 - level) * FLAG_HEIGHT, str(level)) for top in FLAG_TOPS.values() for level in (1, 0)]
    levels = [text(LEFT - 7, y + 3, said, "note") for y, said in edges]
    names = [text(10, y, name, "lane") for name, y in named.items()]
    return f'<g id="lanes">{"".join(names + levels)}</g>'


def levels_of(item):
    """The levels of each wave after an event."""
    byte = item.state[registers.CTR1]
    return {"INTAF": registers.INTAF.of(byte), "INTDF": registers.INTDF.of(byte), "pin": item.pin}


class Drawing:
    """Rows of events, one below the other."""

    def __init__(self, start):
        self.rows = []
        self.waves = {flag: Wave(flag.lower(), top, FLAG_HEIGHT, (1, 0)) for flag, top in FLAG_TOPS.items()}
        self.waves["pin"] = Wave("pin", PIN_TOP, PIN_HEIGHT, "HL")
        self.transfer, self.waiting = None, []
        self.begin_row(start, 0)

    def begin_row(self, before, index):
        self.x, self.first, self.last = LEFT, index, index - 1
        self.time = words.time_worded(before.number, before.state[:7])
        # What lies behind the events, and the events.
        self.back, self.front = [], []
        for name, level in levels_of(before).items():
            self.waves[name].begin(level)
        if self.transfer is not None:
            self.transfer = (LEFT, "transfer continued")

    def end_row(self):
        if self.transfer is not None:
            self.draw_transfer(self.x)
        events = f"events {self.first} to {self.last}" if self.last > self.first else f"event {self.first}"
        caption = f"{events if self.last >= self.first else 'no events'}; the time is {self.time}"
        axis = path(f"M{LEFT} {AXIS}H{figure(self.x)}", "axis")
        waves = [part for wave in self.waves.values() for part in wave.drawn(self.x)]
        parts = [text(LEFT, CAPTION, caption, "caption"), '<use href="#lanes"/>', *self.back, axis, *self.front, *waves]
        place = f"translate(0 {TOP + PITCH * len(self.rows)})"
        self.rows.append("\n".join([f'<g class="row" transform="{place}">', *parts, "</g>"]))

    def draw_transfer(self, end):
        x, kind = self.transfer
        self.back.append(box(x, BUS_TOP, end - x, BUS_END - BUS_TOP, kind))

    def add(self, before, event):
        """A transfer's events wait for its end, so that one which fits into a row is not broken."""
        self.waiting.append((before, event))
        if not event.state[words.PHASE]:
            self.place_waiting()

    def place_waiting(self):
        width = sum(width_of(event) for _, event in self.waiting)
        fits = width <= RIGHT - LEFT
        for at, (before, event) in enumerate(self.waiting):
            if self.x + (width if fits and at == 0 else width_of(event)) > RIGHT:
                self.end_row()
                self.begin_row(before, event.index)
            self.place(before, event)
        self.waiting = []

    def place(self, before, event):
        parts = self.span(event) if event.kind == PULSES else self.cell(before, event)
        title = escape(f"event {event.index}: {words.said_of(before, event)}")
        self.front.append(f'<g class="event"><title>{title}</title>{"".join(parts)}</g>')
        self.x, self.last = self.x + width_of(event), event.index

    def cell(self, before, event):
        x, width = self.x, CELLS[event.kind]
        was_open, is_open = before.state[words.PHASE], event.state[words.PHASE]
        if is_open and not was_open:
            self.transfer = (x + 3, "transfer")
        if was_open and not is_open:
            self.draw_transfer(x + width - 3 if event.kind == STOP else x + width / 2)
            self.transfer = None
        for name, level in levels_of(event).items():
            self.waves[name].change(x + width / 2, level)
        return cell(x, event)

    def span(self, event):
        span, levels = Span(self.x, event), levels_of(event)
        self.back.append(box(span.x, BUS_END + 4, span.width, ROW_END - BUS_END - 4, "span"))
        for end in span.places("timeout"):
            self.draw_transfer(end)
            self.transfer = None
        for flag, cause in (("INTAF", "alarm"), ("INTDF", "zero")):
            for x in span.places(cause)[:1]:
                self.waves[flag].change(x, levels[flag])
        self.draw_pin(span)
        return span.drawn()

    def draw_pin(self, span):
        event, places = span.event, span.places("pin")
        if event.counts.pins > MOST_DRAWN:
            self.waves["pin"].change(places[0], "dense", f"{event.counts.pins:,} changes")
            self.waves["pin"].change(span.end, event.pin)
            return
        letters = [moment.value for moment in event.moments if moment.what == "pin"]
        for x, letter in zip(places, letters):
            self.waves["pin"].change(x, letter)


# The document

def legend():
    """What the signs mean, in two lines below the title."""
    signs = [
        (box(0, -13, 34, 17, "byte"), "a byte of the master"),
        (box(0, -13, 34, 17, "byte read"), "a byte of the chip"),
        (box(0, -13, 34, 17, "byte lost"), "lost or not heard"),
        (box(0, -13, 34, 17, "transfer"), "a transfer"),
        (box(0, -13, 34, 17, "span"), "pulses: time passes"),
        (path("M17 2l-3 -6h6z", "mark"), "alarm rings, count reaches 0"),
        (box(0, -13, 34, 17, "crystal"), "X: the pin follows the crystal"),
        (box(0, -13, 34, 17, "dense"), "more than can be drawn"),
    ]
    for at, (sign, said) in enumerate(signs):
        place = f"translate({10 + 285 * (at % 4)} {76 + 24 * (at // 4)})"
        yield f'<g class="legend" transform="{place}">{sign}{text(42, 0, said, "said")}</g>'


def plain(title):
    """A title without what XML cannot hold, and no longer than the picture is wide."""
    title = NOT_IN_XML.sub("\uFFFD", title)
    return title if len(title) <= LONGEST_TITLE else title[: LONGEST_TITLE - 3] + "..."


def drawn(items, title):
    """The whole SVG document of a run."""
    items = iter(items)
    before = next(items)
    drawing, summary = Drawing(before), words.Summary()
    for event in items:
        drawing.add(before, event)
        summary.add(before, event)
        before = event
    drawing.place_waiting()
    drawing.end_row()
    height = TOP + PITCH * len(drawing.rows)
    size = f'width="{WIDTH}" height="{height}" viewBox="0 0 {WIDTH} {height}"'
    return "\n".join([
        f'<svg xmlns="http://www.w3.org/2000/svg" {size} font-family="{FONTS}">',
        f"<title>{escape(plain(title))}</title>",
        f"<defs><style>{STYLE}</style>{PATTERNS}{lanes()}</defs>",
        box(0, 0, WIDTH, height, "ground"),
        text(10, 28, plain(title), "title"),
        text(10, 48, summary.totals(), "said"),
        *legend(),
        *drawing.rows,
        "</svg>",
        "",
    ])
