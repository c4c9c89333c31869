"""A script file's bytes, taken apart and put together (docs/RULES.md, section 9)."""

import struct
from dataclasses import dataclass, field

# The end of a script file's name.
ENDING = ".script"
HEADER = struct.Struct("<4H")
EVENT = struct.Struct("<BBH")
START_COUNT = 19
LONGEST = 16384
MOST_EVENTS = (LONGEST - HEADER.size - START_COUNT) // EVENT.size
MOST_PULSES = 65535
START, STOP, BYTE, READ_ACK, READ_NAK, PULSES, POWER_LOSS = range(7)

# The fixed bits of 00h to 06h (rule 2.2).
FIXED_BITS = (0x80, 0x80, 0x40, 0xF8, 0xC0, 0xE0, 0x00)

# What each refusal of a file says (rule 9.4); 7 is about the output and comes for no file alone.
MEANINGS = {
    2: "an event's kind is over 6",
    3: "an event has an unused field that is not 0, or 0 pulses",
    4: "the file has under 8 bytes",
    5: "the start bytes are not 19, or a section is not in the file, or shares a byte with the header or the other",
    6: "a start byte of the time has a fixed bit set",
    8: "the file has over 16,384 bytes",
}


class Refused(Exception):
    """A file that is not run: the refusal's number, and the index of the event at fault, else 0."""

    def __init__(self, number, index=0):
        event = f", event {index}" if number in (2, 3) else ""
        super().__init__(f"refused {number}{event}: {MEANINGS[number]}")
        self.number, self.index = number, index


@dataclass
class Script:
    """What a file holds and where: the events are (kind, byte, count), the rest is offset and byte, 0 left out."""

    start: bytes
    events: list
    start_at: int
    events_at: int
    length: int
    rest: dict = field(default_factory=dict)

    @property
    def sections(self):
        """What has bytes in the file, from where and up to where."""
        yield "the header", 0, HEADER.size
        yield "the start bytes", self.start_at, self.start_at + START_COUNT
        yield "the events", self.events_at, self.events_at + EVENT.size * len(self.events)

    @property
    def end(self):
        """The shortest length that holds all of it; an empty section must lie in the file, too."""
        return max(end for _, _, end in self.sections)

    def owner(self, at):
        """The section that a byte belongs to, or nothing."""
        return next((name for name, first, end in self.sections if first <= at < end), None)


def fault(kind, byte, count):
    """The number with which an event is refused, or 0 (rule 8.3)."""
    if kind > POWER_LOSS:
        return 2
    unused = (kind != BYTE and byte != 0) or (kind != PULSES and count != 0)
    return 3 if unused or (kind == PULSES and count == 0) else 0


def placed(count, events_at, start_count, start_at, length):
    """Whether both sections are as rule 9.2 says."""
    events_end, start_end = events_at + EVENT.size * count, start_at + START_COUNT
    inside = min(events_at, start_at) >= HEADER.size and max(events_end, start_end) <= length
    apart = count == 0 or events_end <= start_at or start_end <= events_at
    return start_count == START_COUNT and inside and apart


def decoded(data):
    """The script in a file, or Refused, judged in the order of rule 9.4."""
    if len(data) > LONGEST:
        raise Refused(8)
    if len(data) < HEADER.size:
        raise Refused(4)
    count, events_at, start_count, start_at = HEADER.unpack_from(data)
    if not placed(count, events_at, start_count, start_at, len(data)):
        raise Refused(5)
    start = data[start_at : start_at + START_COUNT]
    if any(byte & fixed for byte, fixed in zip(start, FIXED_BITS)):
        raise Refused(6)
    events = list(EVENT.iter_unpack(data[events_at : events_at + EVENT.size * count]))
    for index, event in enumerate(events):
        if fault(*event):
            raise Refused(fault(*event), index)
    script = Script(start, events, start_at, events_at, len(data))
    script.rest = {at: byte for at, byte in enumerate(data) if byte and not script.owner(at)}
    return script


def encoded(script):
    """The bytes of a file that holds the script."""
    data = bytearray(script.length)
    for at, byte in script.rest.items():
        data[at] = byte
    HEADER.pack_into(data, 0, len(script.events), script.events_at, START_COUNT, script.start_at)
    data[script.start_at : script.start_at + START_COUNT] = script.start
    for index, event in enumerate(script.events):
        EVENT.pack_into(data, script.events_at + EVENT.size * index, *event)
    return bytes(data)
