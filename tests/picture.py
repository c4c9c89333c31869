"""The picture of a run: what is drawn where, from the facts in tests/golden (see tests/words.py)."""

import re
import sys
from xml.etree import ElementTree

sys.path.insert(0, "tools")

from scripts import facts, picture, registers
from words import items_of, judged

SVG = "{http://www.w3.org/2000/svg}"
MOST_EVENTS, MOST_BYTES = 4089, 3_000_000

# Where a state has the phase of the bus (rule 10.2); 0 is closed.
PHASE = 41

# The fonts are monospaced: a letter is so wide for its height.
LETTER = 0.602
SIZES = {"title": 17, "time": 10, "lane": 10, "index": 9, "note": 9, "often": 9}
FROM_THE_LEFT = {"title", "said", "caption", "lane", "time"}


def parsed(items, title="a run"):
    return ElementTree.fromstring(picture.drawn(items, title))


def is_a(element, *kinds):
    return set(kinds) <= set(element.get("class", "").split())


def found(root, tag, *kinds):
    return [element for element in root.iter(SVG + tag) if is_a(element, *kinds)]


def number(element, name):
    return float(element.get(name))


def texts(root, *kinds):
    return [element.text for element in found(root, "text", *kinds)]


# Where things are

def rows_of(root):
    """Each row with the middle of its events, by their index."""
    for row in found(root, "g", "row"):
        yield row, {int(text.text): number(text, "x") for text in found(row, "text", "index")}


def pieces(row, kind):
    """A wave's level pieces, as the drawn paths have them: from, to, height."""
    for wave in found(row, "path", kind):
        x = y = None
        for letter, places in re.findall(r"([MHV])([^MHV]*)", wave.get("d")):
            values = [float(place) for place in places.split()]
            if letter == "H":
                yield x, values[0], y
                x = values[0]
            elif letter == "V":
                y = values[0]
            else:
                x, y = values


def heights_at(row, kind, x):
    return {height for begin, end, height in pieces(row, kind) if begin <= x <= end}


def covered(row, kind, x):
    """Whether a band of the pin's lane is drawn there."""
    boxes = [box for box in found(row, "rect", kind) if number(box, "y") == picture.PIN_TOP]
    return any(number(box, "x") <= x <= number(box, "x") + number(box, "width") for box in boxes)


def span_of(row, x):
    """The ground of the pulses around a place: where it begins and how wide it is."""
    boxes = [(number(box, "x"), number(box, "width")) for box in found(row, "rect", "span")]
    return next((begin, width) for begin, width in boxes if begin <= x <= begin + width)


# The tries

def waves():
    """Just before and just after each event of the bus every wave is as the facts have it."""
    items = items_of("every")
    root = parsed(items)
    pin = {"H": {picture.PIN_TOP}, "L": {picture.PIN_TOP + picture.PIN_HEIGHT}, "X": set()}
    compared = 0
    for row, places in rows_of(root):
        for index, x in places.items():
            before, event = items[index], items[index + 1]
            for item, at in ((before, x - 0.5), (event, x + 0.5)) if event.kind != facts.PULSES else ():
                compared += 1
                bits = item.state[registers.CTR1]
                for flag, bit in (("intaf", bits >> 5 & 1), ("intdf", bits >> 4 & 1)):
                    height = picture.FLAG_TOPS[flag.upper()] + (1 - bit) * picture.FLAG_HEIGHT
                    yield f"{flag} at event {index}", heights_at(row, flag, at) == {height}
                yield f"the pin at event {index}", heights_at(row, "pin", at) == pin[item.pin]
                yield f"the band at event {index}", covered(row, "crystal", at) == (item.pin == "X")
    yield "all events of the bus", compared == 2 * sum(event.kind != facts.PULSES for event in items[1:])


def moments():
    """What happened in pulses stands in proportion: event 96 rings at pulse 32,763 of 65,535."""
    root = parsed(items_of("every"))
    row, places = next((row, places) for row, places in rows_of(root) if 96 in places)
    begin, width = span_of(row, places[96])
    low, high = picture.PIN_TOP + picture.PIN_HEIGHT, picture.PIN_TOP
    levels = {100: low, 8100: low, 8300: high, 32600: high, 32900: low, 40800: low, 41100: high, 65400: high}
    for pulse, level in levels.items():
        x = begin + width * pulse / 65535
        yield f"the pin at pulse {pulse} of event 96", heights_at(row, "pin", x) == {level}
    rise = [x for x, _, height in pieces(row, "intaf") if height == picture.FLAG_TOPS["INTAF"]]
    yield "INTAF rises with the ring", abs(min(rise) - (begin + width * 32763 / 65535)) < 0.1
    rings = [float(x) for mark in found(row, "path", "alarm") for x in re.findall(r"M([0-9.]+)", mark.get("d"))]
    yield "one ring", len(rings) == 1 and abs(rings[0] - (begin + width * 32763 / 65535)) < 0.1
    yield "what happened often", sorted(texts(root, "often")) == ["75 changes", "75 zeros"]
    yield "few changes of the pin", len(list(pieces(row, "pin"))) > 4
    yield "the timeout", len(found(root, "path", "timeout")) == 1 and texts(root, "note").count("timeout") == 1


def transfers():
    items = items_of("every")
    root = parsed(items)
    deeds = [event.deed for event in items[1:]]
    begun = [part for part in found(root, "rect", "transfer") if not is_a(part, "continued")]
    # The legend has one too.
    yield "a box for each transfer", len(begun) == deeds.count("opened") + 1
    yield "a START for each", len(found(root, "path", "start")) == sum(event.kind == facts.START for event in items[1:])
    yield "a STOP for each", len(found(root, "path", "stop")) == sum(event.kind == facts.STOP for event in items[1:])
    yield "a power loss", len(found(root, "path", "power")) == deeds.count("power-lost") == 1
    lost = sum(deed in ("lost", "unheard", "silent") for deed in deeds) + 1
    yield "lost bytes", len(found(root, "rect", "byte", "lost")) == lost
    sent = sum(event.kind in (facts.READ_ACK, facts.READ_NAK) for event in items[1:]) + 1
    yield "bytes of the chip", len(found(root, "rect", "byte", "read")) == sent


def in_transfer(row, x):
    parts = [(number(part, "x"), number(part, "width")) for part in found(row, "rect", "transfer")]
    return any(begin < x < begin + width for begin, width in parts)


def insides():
    """An event of the bus lies in a box exactly if a transfer is open at its begin or opened by it."""
    items = items_of("every")
    for row, places in rows_of(parsed(items)):
        for index, x in places.items():
            before, event = items[index], items[index + 1]
            is_open = before.state[PHASE] != 0 or event.deed == "opened"
            yield f"the box at event {index}", in_transfer(row, x - 0.5) == is_open
            if event.deed == "power-lost":
                yield "the box's end at a power loss", not in_transfer(row, x + 0.5)


def lines():
    """Bytes, answers and seconds as texts, and who sent them by their height."""
    root = parsed(items_of("boot"))
    yield "seconds", texts(root, "time") == ["21:15:01", "21:15:02", "21:15:03"]
    yield "a tick for each", len(found(root, "path", "tick")) == 3
    yield "pulses", texts(root, "pulses") == ["32,768 pulses"] * 3
    row = found(root, "g", "row")[-1]
    yield "the bytes of the reading", texts(row, "value") == "65h 03h 15h 29h 04h 14h 03h 24h".split()
    yield "the answers", texts(row, "answer") == "AK ACK ACK ACK ACK ACK ACK NAK".split()
    heights = {text.text: number(text, "y") for text in found(row, "text", "value")}
    yield "the master above the chip", heights["65h"] < heights["29h"]
    said = [element.text for element in row.iter(SVG + "title")]
    yield "the words of an event", said[1].startswith("event 39: 65h: address, to read from 00h seconds on;")
    captions = texts(root, "caption")
    yield "the time at a row's begin", captions[0] == "events 0 to 20; the time is 2024-03-14 09:14:59"
    last = texts(parsed(items_of("every")), "caption")[-1]
    yield "the first line below the title", "48 events (0 to 47), 98,304 pulses, 3 seconds ended" in texts(root, "said")
    yield "an illegal time", last == "events 172 to 189; the time is illegal (5A 15 A1 03 31 02 06)"


# What a reader sees

def extent(text):
    """The box that a text fills."""
    kinds = text.get("class").split()
    size = next((SIZES[kind] for kind in kinds if kind in SIZES), 11)
    width, x, y = LETTER * size * len(text.text), number(text, "x"), number(text, "y")
    if "left" in kinds:
        x -= width
    elif not FROM_THE_LEFT & set(kinds):
        x -= width / 2
    return x, x + width, y - 0.75 * size, y


def bars(row):
    """The thick lines of START and STOP, as wide as they are drawn."""
    for bar in found(row, "path", "bar"):
        x, top, end = map(float, re.fullmatch(r"M([0-9.]+) ([0-9.]+)V([0-9.]+)", bar.get("d")).groups())
        yield (x - 1.5, x + 1.5, top, end), "a bar"


def boxes(row):
    for box in found(row, "rect", "byte"):
        x, y = number(box, "x"), number(box, "y")
        yield (x, x + number(box, "width"), y, y + number(box, "height")), "a byte's box"


def overlap(one, other):
    return one[0] < other[1] and other[0] < one[1] and one[2] < other[3] and other[2] < one[3]


def within(one, other):
    return other[0] <= one[0] and one[1] <= other[1] and other[2] <= one[2] and one[3] <= other[3]


def clashes(root):
    """Texts in a row that lie over another one, over a bar or a box's edge, or past the edge of the picture."""
    for row in found(root, "g", "row"):
        placed = [(extent(text), text.text) for text in found(row, "text")]
        things = [*bars(row), *boxes(row)]
        for at, (place, said) in enumerate(placed):
            if place[0] < 0 or place[1] > picture.WIDTH:
                yield f"{said} is past the edge"
            over = [other for there, other in placed[at + 1 :] if overlap(place, there)]
            over += [other for there, other in things if overlap(place, there) and not within(place, there)]
            yield from (f"{said} over {other}" for other in over)


def long_run():
    """As many events as a file can have, of which each is like one of the golden run."""
    start, *events = items_of("every")
    many = (events * (MOST_EVENTS // len(events) + 1))[:MOST_EVENTS]
    return [start, *(event._replace(index=index) for index, event in enumerate(many))]


def looks():
    for name in ("boot", "every"):
        yield from ((f"{name}: {clash}", False) for clash in clashes(parsed(items_of(name))))
    document = picture.drawn(long_run(), "long")
    yield "the size of a long run", len(document.encode()) < MOST_BYTES
    root = ElementTree.fromstring(document)
    rows = list(rows_of(root))
    yield "all events of a long run", [index for _, places in rows for index in places] == list(range(MOST_EVENTS))
    yield "rows that end in time", all(x < picture.RIGHT for _, places in rows for x in places.values())
    shifts = [float(re.search(r"translate\(0 ([0-9]+)\)", row.get("transform")).group(1)) for row, _ in rows]
    yield "rows one below the other", all(after - row == picture.PITCH for row, after in zip(shifts, shifts[1:]))
    yield "the document's height", number(root, "height") == shifts[-1] + picture.PITCH


def broken_transfer():
    """A transfer that no row can hold goes on in the next."""
    start, *events = items_of("boot")
    inner = [event for event in events if event.deed == "stored"] * 10
    items = [start, *events[:3], *inner, events[8]]
    items = [start, *(event._replace(index=index) for index, event in enumerate(items[1:]))]
    root = parsed(items)
    yield "one box that goes on", [len(found(row, "rect", "transfer")) for row, _ in rows_of(root)] == [1, 1, 1, 1]
    yield "its other parts", len(found(root, "rect", "transfer", "continued")) == 3


def titles():
    items = items_of("boot")
    plain = 'a < b & "c" \u00e9'
    yield "a title with signs of XML", parsed(items, plain).find(SVG + "title").text == plain
    odd = parsed(items, "a\x01b\udcffc\n").find(SVG + "title").text
    yield "a title that XML cannot hold", odd == "a\ufffdb\ufffdc\ufffd"
    long_title = parsed(items, "n" * 300)
    yield "a long title", texts(long_title, "title")[0].endswith("n...") and not list(clashes(long_title))
    yield "the same again", picture.drawn(items, "a") == picture.drawn(iter(items), "a")
    yield "a run of no events", texts(parsed(items[:1]), "caption") == ["no events; the time is 2024-03-14 09:14:59"]
    yield "no scripts", not any("script" in element.tag for element in parsed(items).iter())


def refused():
    try:
        picture.drawn(facts.read(["refused 4 0\n"]), "a")
        yield "a refused file is drawn", False
    except facts.Refused as refusal:
        yield "the refusal", refusal.number == 4


if __name__ == "__main__":
    sys.exit(judged("picture", [waves, moments, transfers, insides, lines, looks, broken_transfer, titles, refused]))
