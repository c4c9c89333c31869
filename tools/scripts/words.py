"""A run explained: the script program's line of each event with words behind it, and a summary."""

from datetime import datetime, timedelta

from scripts import registers
from scripts.files import BYTE, POWER_LOSS, PULSES, READ_NAK, START, STOP

EPOCH = datetime(2000, 1, 1)
# So many pulses are told one by one, and so many readings in the summary.
FEW = 4
MOST_READINGS = 20

# Where a state has what no register shows (rule 10.2).
LATCH = slice(32, 39)
RELOAD, POINTER, PHASE, MARK = 39, 40, 41, 42
SECOND_COUNTER, PRESCALER = slice(49, 53), slice(57, 61)

PHASES = (
    "no transfer is open", "an address is awaited", "a pointer byte is awaited",
    "the chip writes", "the chip reads", "the chip is deaf",
)
PIN = {"H": "high", "L": "low", "X": "following the crystal"}
PIN_MOVES = {"H": "goes high", "L": "goes low", "X": "follows the crystal"}


# Small words

def counted(number, thing):
    return f"{number:,} {thing}" if number == 1 else f"{number:,} {thing}s"


def listed(words):
    """Words as prose has them: `a, b and c`."""
    return " and ".join(filter(None, [", ".join(words[:-1]), words[-1]]))


def time_worded(number, seven):
    """A time by its second number, or where it has none by its bytes."""
    if number is None:
        return f"illegal ({seven.hex(' ').upper()})"
    return str(EPOCH + timedelta(seconds=number))


def pulses_of(event, what):
    return [moment.pulse for moment in event.moments if moment.what == what]


def times_at(pulses, times):
    """At which pulses something happened, or how often if that was often."""
    if times > FEW:
        return f"{times:,} times, first at pulse {pulses[0]:,}"
    return f"at {'pulse' if times == 1 else 'pulses'} {listed([f'{pulse:,}' for pulse in pulses])}"


# What an event did

def address_read(before, event):
    latched = time_worded(event.latched, event.state[LATCH])
    return f"address, to read from {registers.named(event.state[POINTER])} on; the time is latched: {latched}"


def stored(before, event):
    held = event.state[event.register]
    other = "" if held == event.byte else f", which holds {held:02X}h now"
    meaning = registers.worded(event.register, held)
    return f"stored at {registers.named(event.register)}{other}" + (f": {meaning}" if meaning else "")


def lost(before, event):
    was_open, is_open = registers.lock_is_open(before.state), registers.lock_is_open(event.state)
    why = "the lock is closed" if was_open == is_open else f"but it {'opens' if is_open else 'closes'} the lock"
    return f"lost at {registers.named(event.register)}, {why}"


def read(before, event):
    meaning = registers.worded(event.register, int(event.answer, 16))
    said = [f"{event.answer}h, {meaning}" if meaning else f"{event.answer}h"]
    if event.deed == "renewed":
        said.append(f"the pointer wraps, the time is latched anew: {time_worded(event.latched, event.state[LATCH])}")
    if event.state[MARK] > before.state[MARK]:
        said.append("this marks the transfer")
    if event.kind == READ_NAK:
        said.append("after the NAK the chip is deaf")
    return "; ".join(said)


def passed(before, event):
    """What the pulses did, but for registers other than those of the time."""
    counts, said = event.counts, []
    if counts.seconds:
        ended = f"{counted(counts.seconds, 'second')} {'ends' if counts.seconds == 1 else 'end'}"
        said.append(f"{ended}, the time is {time_worded(event.number, event.state[:7])}")
    if counts.alarms:
        said.append(f"the alarm rings {times_at(pulses_of(event, 'alarm'), counts.alarms)}")
    if counts.zeros:
        said.append(f"the countdown reaches zero {times_at(pulses_of(event, 'zero'), counts.zeros)}")
    said += [f"the transfer times out at pulse {pulse:,}" for pulse in pulses_of(event, "timeout")]
    if counts.pins > FEW:
        said.append(f"the pin changes {times_at(pulses_of(event, 'pin'), counts.pins)}")
    elif counts.pins:
        moves = [(PIN_MOVES[moment.value], moment.pulse) for moment in event.moments if moment.what == "pin"]
        said.append("the pin " + listed([f"{move} at pulse {pulse:,}" for move, pulse in moves]))
    return "; ".join(said or ["no second ends"])


def power_lost(before, event):
    gone = ", the transfer is gone" if before.state[PHASE] else ""
    return f"time and RAM stay, all else begins anew{gone}"


def by_phase(said):
    """Words for what the chip's phase before the event explains."""
    return lambda before, event: f"{said}, {PHASES[before.state[PHASE]]}"


SAID = {
    "opened": "a transfer opens",
    "repeated": "the transfer goes on, an address is awaited",
    "closed": "the transfer ends",
    "cleared": "the transfer ends; 0Fh was read in it and ARST is 1, so INTAF and INTDF clear",
    "idle": "no transfer is open",
    "to-write": "address, to write",
    "to-read": address_read,
    "elsewhere": "not the address of this chip, which is deaf now",
    "pointed": lambda before, event: f"points at {registers.named(event.register)}",
    "beyond": "no register to point at; the pointer stays and the chip is deaf",
    "stored": stored,
    "lost": lost,
    "unheard": by_phase("not heard"),
    "latched": read,
    "sent": read,
    "renewed": read,
    "silent": by_phase("nothing is sent"),
    "passed": passed,
    "power-lost": power_lost,
}


def subject(event):
    if event.kind == BYTE:
        return f"{event.byte:02X}h"
    if event.kind == PULSES:
        return counted(event.count, "pulse")
    if event.register is not None:
        return f"read {registers.named(event.register)}{' from the latch' if event.deed == 'latched' else ''}"
    return {START: "START", STOP: "STOP", POWER_LOSS: "power loss"}.get(event.kind, "read")


def changes(before, event):
    """What else became another by the event than the words above tell."""
    old, new, told = before.state, event.state, ()
    if event.kind == PULSES:
        told = range(7)
    elif event.deed == "stored" and event.register != registers.CTR1:
        told = (event.register,)
    asked = [register for register in range(32) if register not in told]
    said = [change for register in asked for change in registers.changed(register, old[register], new[register])]
    said = [", ".join(said)] if said else []
    if old[RELOAD] != new[RELOAD]:
        said.append(f"reload {old[RELOAD]:02X}h to {new[RELOAD]:02X}h")
    if event.deed == "stored":
        said += [
            f"the {name} begins anew" for name, counter in (("second", SECOND_COUNTER), ("tick", PRESCALER))
            if old[counter] != new[counter]
        ]
    return said


def said_of(before, event):
    """An event in words, given the Start or the Event before it."""
    words = SAID[event.deed]
    said = [f"{subject(event)}: {words if isinstance(words, str) else words(before, event)}", *changes(before, event)]
    if event.kind != PULSES and event.pin != before.pin:
        said.append(f"the pin {PIN_MOVES[event.pin]}")
    return "; ".join(said)


# The summary

class Readings:
    """The times that were read whole: 00h to 06h in a row, from one latch."""

    def __init__(self):
        self.reads, self.lines, self.count = [], [], 0

    def add(self, event):
        # Neither of these touches the latch or the pointer of a reading.
        if event.deed in ("passed", "unheard"):
            return
        if event.deed != "latched" or event.register == 0:
            self.reads = []
        if event.deed == "latched" and event.register == len(self.reads):
            self.reads.append(event)
        if len(self.reads) == 7:
            self.count += 1
            if self.count <= MOST_READINGS:
                self.lines.append(self.worded())
            self.reads = []

    def worded(self):
        first, last = self.reads[0], self.reads[-1]
        seven = bytes(int(event.answer, 16) for event in self.reads)
        said = [time_worded(last.latched, seven)]
        if last.latched is not None:
            mode = "24-hour mode" if seven[registers.HOURS] & 0x80 else "12-hour mode"
            said += [f"weekday {seven[registers.WEEKDAY]}", mode]
        return f"time read in events {first.index} to {last.index}: {', '.join(said)}, id {last.id}"

    def told(self):
        more = self.count - len(self.lines)
        yield from self.lines or ["the time was never read whole, from 00h to 06h in a row"]
        if more:
            yield f"and {more:,} more"


class Summary:
    """What is counted over a run."""

    def __init__(self):
        self.events = self.pulses = self.seconds = self.stored = self.shut_out = self.closing = 0
        self.readings = Readings()

    def add(self, before, event):
        self.events += 1
        self.pulses += event.count
        self.seconds += event.counts.seconds if event.counts else 0
        self.stored += event.deed == "stored"
        was_open = registers.lock_is_open(before.state)
        self.shut_out += event.deed == "lost" and not was_open
        self.closing += event.deed == "lost" and was_open
        self.readings.add(event)

    def totals(self):
        numbers = f" (0 to {self.events - 1})" if self.events else ""
        seconds = counted(self.seconds, "second")
        return f"{counted(self.events, 'event')}{numbers}, {counted(self.pulses, 'pulse')}, {seconds} ended"

    def told(self, last):
        yield self.totals()
        yield from self.readings.told()
        yield f"data bytes: {self.stored:,} stored, {self.lost()}"
        flags = ", ".join(field.shown(last.state[registers.CTR1]) for field in (registers.INTAF, registers.INTDF))
        lock = "open" if registers.lock_is_open(last.state) else "closed"
        yield f"at the end: {flags}, the pin {PIN[last.pin]}, the lock {lock}, {PHASES[last.state[PHASE]]}"

    def lost(self):
        reasons = {"while the lock was closed": self.shut_out, "by closing it": self.closing}
        return ", ".join(f"{count:,} lost {why}" for why, count in reasons.items() if count) or "none lost"


def explained(items):
    """The lines of an explained run, without their newlines."""
    items, summary = iter(items), Summary()
    before = next(items)
    for event in items:
        yield f"{event.answer} {event.pin}  {said_of(before, event)}"
        summary.add(before, event)
        before = event
    yield ""
    yield from summary.told(before)
