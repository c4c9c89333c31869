"""What ./bench gives both sides to do, as script files (docs/RULES.md, section 9)."""

import struct
from dataclasses import dataclass

# A quarter past nine in the evening of 20 December 2006, in 24-hour hours, and nothing in the RAM.
START_BYTES = bytes([0x00, 0x15, 0xA1, 0x03, 0x20, 0x12, 0x06]) + bytes(12)
START, STOP, BYTE, READ_ACK, READ_NAK, PULSES = range(6)
MOST_PULSES = 65535
MOST_EVENTS = 4089


@dataclass
class Work:
    """A script file of which the events from the first on are timed, and how many units of work they are."""

    name: str
    unit: str
    prepare: list
    events: list
    units: int

    @property
    def file(self):
        events = self.prepare + self.events
        header = struct.pack("<4H", len(events), 8 + len(START_BYTES), len(START_BYTES), 8)
        return header + START_BYTES + b"".join(struct.pack("<BBH", *event) for event in events)

    @property
    def first(self):
        return len(self.prepare)


def write(*data):
    return [(BYTE, byte, 0) for byte in data]


def pulses(count):
    return [(PULSES, 0, count)]


START_EVENT = [(START, 0, 0)]
STOP_EVENT = [(STOP, 0, 0)]


def store(at, *data):
    """A transfer that writes registers from one on."""
    return START_EVENT + write(0x64, at, *data) + STOP_EVENT


def fetch(at, count):
    """A transfer that turns to reading by a repeated START, and reads registers from one on."""
    reads = [(READ_ACK, 0, 0)] * (count - 1) + [(READ_NAK, 0, 0)]
    return START_EVENT + write(0x64, at) + START_EVENT + write(0x65) + reads + STOP_EVENT


UNLOCK = store(0x10, 0x80) + store(0x0F, 0x84)
LOCK = store(0x10, 0x00)


def pulse_works():
    """The largest event of pulses, in settings that keep different parts of the chip busy.

    Some pulses come before: then pin pulses are under way where the two sides' states are compared.
    """
    # By its seconds: pulses alone make no alarm ring more often. The first round ends just behind a ring.
    every_minute = store(0x07, 0x02) + store(0x0E, 0x01)
    settings = {
        "nothing enabled": [],
        "trimmed seconds": UNLOCK + store(0x12, 0x3F),
        "alarm ringing each minute": UNLOCK + every_minute + store(0x10, 0xD2),
        "countdown, TDS 0": UNLOCK + store(0x11, 0x00) + store(0x13, 0xC8) + store(0x10, 0xB4),
        "countdown, TDS 2": UNLOCK + store(0x11, 0x20) + store(0x13, 0x02) + store(0x10, 0xB4),
    }
    rounds = {name: (prepare + pulses(4000), pulses(MOST_PULSES)) for name, prepare in settings.items()}
    rounds["a transfer open at the begin"] = [], START_EVENT + write(0x65) + pulses(MOST_PULSES)
    return [Work(name, "pulses", *events, MOST_PULSES) for name, events in rounds.items()]


def traffic():
    """What a host does with the clock, mistakes among it: a list of transfers."""
    return [
        UNLOCK,
        store(0x00, 0x00, 0x15, 0x29, 0x03, 0x20, 0x12, 0x06),
        store(0x07, 0x00, 0x30, 0x29, 0x7F, 0x20, 0x12, 0x06, 0x07),
        store(0x10, 0x92),
        fetch(0x00, 7),
        START_EVENT + write(0x65) + [(READ_ACK, 0, 0)] * 6 + [(READ_NAK, 0, 0)] + STOP_EVENT,
        fetch(0x00, 32),
        store(0x14, *range(0xA0, 0xAC)),
        fetch(0x0F, 1),
        LOCK,
        store(0x00, 0x59, 0x59),
        store(0x14, 0x00, 0x00),
        START_EVENT + write(0xD0, 0x00, 0x12) + STOP_EVENT,
        START_EVENT + write(0x64, 0x20, 0x12) + START_EVENT + write(0x64, 0x1F, 0xFF, 0xFF) + STOP_EVENT,
        START_EVENT + [(READ_ACK, 0, 0)] + write(0x66) + [(READ_NAK, 0, 0)] + START_EVENT + STOP_EVENT,
    ]


def bus_work(name):
    events = sum(traffic(), [])
    return Work(name, "events", [], events, len(events))


def largest_script():
    """As many events as a file can have: the traffic over and over, a hundredth of a second after each transfer."""
    events = []
    while len(events) < MOST_EVENTS:
        for transfer in traffic():
            events += transfer + pulses(328)
    return Work("script of 4,089 events", "scripts", [], events[:MOST_EVENTS], 1)
