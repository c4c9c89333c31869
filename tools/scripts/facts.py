"""What the program `explain` prints of a run, read into plain objects.

A run is a Start, what power-on leaves, and then an Event for each event of the script with its Moments.
"""

import re
from typing import List, NamedTuple, Optional

from scripts.files import BYTE, POWER_LOSS, PULSES, READ_ACK, READ_NAK, START, STOP

# Which kinds of event have a deed, and whether it concerns a register.
DEEDS = {
    "opened": ((START,), False),
    "repeated": ((START,), False),
    "closed": ((STOP,), False),
    "cleared": ((STOP,), False),
    "idle": ((STOP,), False),
    "to-write": ((BYTE,), False),
    "to-read": ((BYTE,), False),
    "elsewhere": ((BYTE,), False),
    "pointed": ((BYTE,), True),
    "beyond": ((BYTE,), False),
    "stored": ((BYTE,), True),
    "lost": ((BYTE,), True),
    "unheard": ((BYTE,), False),
    "latched": ((READ_ACK, READ_NAK), True),
    "sent": ((READ_ACK, READ_NAK), True),
    "renewed": ((READ_ACK, READ_NAK), True),
    "silent": ((READ_ACK, READ_NAK), False),
    "passed": ((PULSES,), False),
    "power-lost": ((POWER_LOSS,), False),
}

# So many zeros and changes of the pin are told one by one in an event; `counts` has them all.
MOST_TOLD = 64

NUMBER = r"([0-9]+|-)"
STATE = r"([0-9A-F]{122})"
REFUSED = re.compile(r"refused ([1-8]) ([0-9]+)")
BEGIN = re.compile(rf"start {STATE} {NUMBER} ([HLX])")
# The lines after the first, by the word that they begin with.
FORMS = {
    "pulse": re.compile(rf"pulse ([0-9]+) (?:(timeout|zero|alarm)|(second) {NUMBER}|(pin) ([HLX]))"),
    "counts": re.compile(r"counts ([0-9]+) ([0-9]+) ([0-9]+) ([0-9]+)"),
    "event": re.compile(
        r"event ([0-9]+) ([0-6]) ([0-9A-F]{2}) ([0-9]+) (--|AK|NK|[0-9A-F]{2}) ([HLX]) "
        rf"([a-z-]+) (--|[01][0-9A-F]) {STATE} {NUMBER} {NUMBER} ([0-9A-F]{{8}})"
    ),
    "end": re.compile(r"end ([0-9]+)"),
}


class Refused(Exception):
    """The script file is refused, with a number and the index of the event at fault."""

    def __init__(self, number, index):
        super().__init__(f"refused {number}")
        self.number, self.index = number, index


class Broken(Exception):
    """What was read are no facts; one line that says where."""


class Start(NamedTuple):
    """The state that power-on leaves."""

    state: bytes
    number: Optional[int]
    pin: str


class Moment(NamedTuple):
    """What one pulse of an event did; the value is a second number, a pin's letter or None."""

    pulse: int
    what: str
    value: object


class Counts(NamedTuple):
    """How often each happened in an event of pulses."""

    seconds: int
    alarms: int
    zeros: int
    pins: int


class Event(NamedTuple):
    """An event, what it did and the state after it."""

    index: int
    kind: int
    byte: int
    count: int
    answer: str
    pin: str
    deed: str
    register: Optional[int]
    state: bytes
    number: Optional[int]
    latched: Optional[int]
    id: str
    moments: List[Moment]
    counts: Optional[Counts]


def number_of(word):
    return None if word == "-" else int(word)


def begin_of(line):
    found = BEGIN.fullmatch(line)
    if not found:
        raise Broken("the facts begin with no start")
    state, number, pin = found.groups()
    return Start(bytes.fromhex(state), number_of(number), pin)


def words_of(line):
    """The word that a line begins with, and those that its form has behind it."""
    word = line.split(" ")[0]
    found = FORMS[word].fullmatch(line) if word in FORMS else None
    if not found:
        raise Broken(f"no fact: {line[:40]}")
    return word, found.groups()


def moment_of(pulse, plain, second, number, pin, letter):
    return Moment(int(pulse), plain or second or pin, number_of(number) if second else letter)


def event_of(words, moments, counts):
    index, kind, byte, count, answer, pin, deed, register, state, number, latched, id_digits = words
    return Event(
        int(index), int(kind), int(byte, 16), int(count), answer, pin, deed,
        None if register == "--" else int(register, 16),
        bytes.fromhex(state), number_of(number), number_of(latched), id_digits, moments, counts,
    )


def check_moments(event):
    """An event of pulses tells its moments in order, as many as it counts; no other event has any."""
    if event.kind != PULSES:
        if event.moments or event.counts:
            raise Broken("moments before an event that has no pulses")
        return
    if not event.counts:
        raise Broken("an event of pulses without its counts")
    pulses = [moment.pulse for moment in event.moments]
    if pulses != sorted(pulses) or not all(1 <= pulse <= event.count for pulse in pulses):
        raise Broken("moments that are not in the order of the event's pulses")
    told = [sum(moment.what == what for moment in event.moments) for what in ("second", "alarm", "zero", "pin")]
    seconds, alarms, zeros, pins = event.counts
    if told != [seconds, alarms, min(zeros, MOST_TOLD), min(pins, MOST_TOLD)]:
        raise Broken("counts that are not those of the moments before them")


def answers(event):
    """Whether an event's answer is one of its kind (rule 8.1)."""
    if event.kind in (READ_ACK, READ_NAK):
        return event.answer not in ("--", "AK", "NK")
    return event.answer in (("AK", "NK") if event.kind == BYTE else ("--",))


def check_event(event, index):
    if event.index != index:
        raise Broken(f"event {event.index} where event {index} belongs")
    kinds, concerned = DEEDS.get(event.deed, ((), False))
    if event.kind not in kinds or (event.register is not None) != concerned:
        raise Broken(f"event {index} cannot have done this: {event.deed}")
    if not answers(event):
        raise Broken(f"event {index} cannot have this answer: {event.answer}")
    check_moments(event)


def events_of(lines):
    """Each event, up to the end that tells how many there were."""
    index, moments, counts = 0, [], None
    for line in lines:
        word, words = words_of(line)
        if word == "event":
            event = event_of(words, moments, counts)
            check_event(event, index)
            yield event
            index, moments, counts = index + 1, [], None
        elif counts or (word == "end" and moments):
            raise Broken("moments that no event follows")
        elif word == "pulse":
            moments.append(moment_of(*words))
        elif word == "counts":
            counts = Counts(*map(int, words))
        elif int(words[0]) != index:
            raise Broken(f"{line} where {index} events were told")
        else:
            return
    raise Broken("the facts stop before their end")


def items_of(lines):
    first = next(lines, "")
    refused = REFUSED.fullmatch(first)
    if not refused:
        yield begin_of(first)
        yield from events_of(lines)
    if next(lines, None) is not None:
        raise Broken("more lines after the end")
    if refused:
        raise Refused(*map(int, refused.groups()))


def read(lines):
    """The Start and then each Event, as the lines come; raises Refused or Broken."""
    at = 0

    def counted():
        nonlocal at
        for line in lines:
            at += 1
            yield line[:-1] if line.endswith("\n") else line

    try:
        yield from items_of(counted())
    except Broken as broken:
        raise Broken(f"line {max(at, 1)} of the facts: {broken}") from None
