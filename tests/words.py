"""Facts of a run, read and put into words.

The facts in tests/golden are those of the independent model, which is asked for them again here. What each line of
their listings must say stands below, by hand. The stored listings themselves were written by the words that are tried
here and then read against docs/RULES.md: they tell that a wording has changed, and not that it is right.
"""

import re
import subprocess
import sys
from pathlib import Path

sys.path.insert(0, "tools")

from scripts import facts, registers, words

GOLDEN = Path("tests/golden")
SCRIPTS = {"boot": Path("examples/boot.script"), "every": GOLDEN / "every.script"}
MODEL = Path("harness/target/release/facts")
MOMENTS = {"timeout", "zero", "second", "alarm", "pin"}


def lines_of(name):
    return (GOLDEN / f"{name}.facts").read_text().splitlines(keepends=True)


def items_of(name):
    return list(facts.read(lines_of(name)))


# Reading

def broken_by(lines):
    """What is said of lines that are no facts."""
    try:
        list(facts.read(lines))
    except facts.Broken as broken:
        return str(broken)
    return "taken for facts"


def edited(old, new, lines):
    """The lines with one word sequence replaced where it comes first, so that nothing else is wrong."""
    at = next(at for at, line in enumerate(lines) if old in line)
    return lines[:at] + [lines[at].replace(old, new, 1)] + lines[at + 1 :]


def damaged_lines():
    """Facts with a line too few, too many or of no form, and what must be said of them."""
    boot = lines_of("boot")
    no_fact, none = "no fact: ", "the facts begin with no start"
    return {
        "nothing at all": ([], f"line 1 of the facts: {none}"),
        "no start": (boot[1:], f"line 1 of the facts: {none}"),
        "a short state": (edited("start 59", "start ", boot), none),
        "a refusal that there is not": (["refused 9 0\n"], none),
        "lines after a refusal": (["refused 4 0\n", "end 0\n"], "line 2 of the facts: more lines after the end"),
        "no end": (boot[:-1], f"line {len(boot) - 1} of the facts: the facts stop before their end"),
        "another number of events": (edited("end 48", "end 47", boot), "end 47 where 48 events were told"),
        "lines after the end": (boot + ["end 48\n"], "more lines after the end"),
        "an empty line": (boot[:2] + ["\n"] + boot[2:], f"line 3 of the facts: {no_fact}"),
        "an unknown line": (boot[:2] + ["pulses 3\n"] + boot[2:], f"{no_fact}pulses 3"),
        "an unknown pin": (edited("AK H", "AK M", boot), no_fact),
    }


def damaged_events():
    """Facts with an event that does not fit into its place or its kind."""
    boot = lines_of("boot")
    deed, answer = "cannot have done this", "cannot have this answer"
    return {
        "an event left out": (boot[:2] + boot[3:], "event 2 where event 1 belongs"),
        "an unknown deed": (edited("opened", "shut", boot), f"event 0 {deed}: shut"),
        "a deed of another kind": (edited("opened", "closed", boot), f"event 0 {deed}: closed"),
        "a deed without its register": (edited("pointed 10", "pointed --", boot), deed),
        "a register of no deed": (edited("to-write --", "to-write 10", boot), deed),
        "no answer to a read": (edited("03 H latched", "-- H latched", boot), f"event 40 {answer}: --"),
        "no answer to a byte": (edited("AK H to-write", "-- H to-write", boot), f"event 1 {answer}: --"),
        "an answer to a START": (edited("-- H opened", "AK H opened", boot), f"event 0 {answer}: AK"),
    }


def damaged_moments():
    """Facts with pulses that do not fit their event or its counts."""
    boot, every = lines_of("boot"), lines_of("every")
    counts = next(at for at, line in enumerate(boot) if line.startswith("counts"))
    stray, order = "moments that no event follows", "moments that are not in the order of the event's pulses"
    wrong = "counts that are not those of the moments before them"
    return {
        "counts of another event": (boot[:2] + ["counts 0 0 0 0\n"] + boot[2:], "before an event that has no pulses"),
        "no counts": (boot[:counts] + boot[counts + 1 :], "an event of pulses without its counts"),
        "counts twice": (boot[:counts] + [boot[counts]] + boot[counts:], stray),
        "a moment before the end": (boot[:-1] + ["pulse 1 alarm\n"] + boot[-1:], stray),
        "a pulse past the event's": (edited("pulse 32768", "pulse 32769", boot), order),
        "a pulse 0": (edited("pulse 32768", "pulse 0", boot), order),
        "pulses that go back": (edited("pulse 8 pin", "pulse 7 pin", every), order),
        "a second too many": (edited("counts 1 0 0 0", "counts 2 0 0 0", boot), wrong),
        "an alarm too few": (edited("counts 1 1 0 1", "counts 1 0 0 1", every), wrong),
        "zeros that are not told": (edited("counts 0 0 1 1", "counts 0 0 2 1", every), wrong),
        "fewer zeros than told": (edited("counts 0 0 75 0", "counts 0 0 63 0", every), wrong),
        "a change of the pin too few": (edited("counts 0 0 1 1", "counts 0 0 1 0", every), wrong),
    }


def reading():
    damages = {**damaged_lines(), **damaged_events(), **damaged_moments()}
    for name, (lines, says) in damages.items():
        said = broken_by(lines)
        yield f"{name}: {said}", says in said and "\n" not in said
    try:
        list(facts.read(["refused 3 17\n"]))
        yield "a refused file is taken for facts", False
    except facts.Refused as refused:
        yield "a refusal's number and index", (refused.number, refused.index) == (3, 17)


def objects():
    """One event of each sort, as the facts' lines have it."""
    start, *events = items_of("boot")
    yield "the start", (start.number, start.pin) == (763722899, "H")
    yield "the start's state", (start.state[:7].hex(), len(start.state)) == ("59140904140324", 61)
    lost = events[3]
    yield "a lost byte", lost[:8] == (3, facts.BYTE, 0x80, 0, "AK", "H", "lost", 0x10)
    yield "no latched time", (lost.latched, lost.id, lost.moments, lost.counts) == (None, "00000000", [], None)
    second = events[20]
    yield "a second", (second.moments, second.counts) == ([(32768, "second", 763766101)], (1, 0, 0, 0))
    yield "what is latched", (events[39].latched, events[39].id) == (763766103, "03142915")


# Words

def golden():
    for name, script in SCRIPTS.items():
        said = "\n".join(words.explained(facts.read(lines_of(name)))) + "\n"
        yield f"the listing of {name}", said == (GOLDEN / f"{name}.listing").read_text()
        model = subprocess.run([MODEL, "lines", script], stdout=subprocess.PIPE) if MODEL.is_file() else None
        yield f"the independent model's facts of {script}", model and model.stdout.decode() == "".join(lines_of(name))
    events = items_of("every")[1:]
    yield "every deed in a listing", {event.deed for event in events} == set(facts.DEEDS) == set(words.SAID)
    yield "every moment in a listing", {moment.what for event in events for moment in event.moments} == MOMENTS


# How the words of an event must begin, by its deed (rules 11.2 to 11.5), and what moments must be named (rule 11.6).
MEANT = {
    "opened": "START: a transfer opens",
    "repeated": "START: the transfer goes on",
    "closed": "STOP: the transfer ends",
    "cleared": "STOP: the transfer ends; 0Fh was read in it and ARST is 1, so INTAF and INTDF clear",
    "idle": "STOP: no transfer is open",
    "to-write": "64h: address, to write",
    "to-read": "65h: address, to read",
    "elsewhere": "{byte:02X}h: not the address of this chip",
    "pointed": "{byte:02X}h: points at {at}",
    "beyond": "{byte:02X}h: no register to point at",
    "stored": "{byte:02X}h: stored at {at}",
    "lost": "{byte:02X}h: lost at {at}",
    "unheard": "{byte:02X}h: not heard",
    "latched": "read {at} from the latch: {answer}h",
    "sent": "read {at}: {answer}h",
    "renewed": "read {at}: {answer}h; the pointer wraps, the time is latched anew",
    "silent": "read: nothing is sent",
    "passed": "{count:,} pulse",
    "power-lost": "power loss: time and RAM stay",
}
NAMED = {
    "second": r"[1-9]\d* seconds? ends?, the time is ",
    "alarm": "the alarm rings ",
    "zero": "the countdown reaches zero ",
    "timeout": "the transfer times out at pulse ",
    "pin": "the pin ",
}


def meant():
    """Each line against what its deed and its moments are called, and nothing that did not happen."""
    for name in SCRIPTS:
        start, *events = items_of(name)
        for event, line in zip(events, words.explained([start, *events])):
            at = "" if event.register is None else registers.named(event.register)
            begins = f"{event.answer} {event.pin}  " + MEANT[event.deed].format(at=at, **event._asdict())
            yield f"{line} in {name}", line.startswith(begins)
            happened = {moment.what for moment in event.moments}
            told = {what for what, said in NAMED.items() if re.search(said, line)}
            yield f"moments in: {line}", event.deed != "passed" or told == happened


def runs():
    """Runs that no script of a reasonable length has."""
    boot = items_of("boot")
    reading = boot[40:49]
    no_events = list(words.explained(facts.read([lines_of("boot")[0], "end 0\n"])))
    yield "a run of no events", no_events[:3] == [
        "", "0 events, 0 pulses, 0 seconds ended", "the time was never read whole, from 00h to 06h in a row",
    ]
    yield "no data bytes", no_events[3] == "data bytes: 0 stored, none lost"
    told = [line for line in words.explained([boot[0], *reading * 23]) if line.startswith(("time read", "and "))]
    yield "many readings", len(told) == 21 and told[-1] == "and 3 more"
    halves = [boot[0], *reading[:5], *reading[:1], *reading[5:]]
    yield "a reading of two latches", not any(line.startswith("time read") for line in words.explained(halves))
    broken = [boot[0], *reading[:5], *reading[6:]]
    yield "a reading with a byte left out", not any(line.startswith("time read") for line in words.explained(broken))


def bytes_worded():
    """Bytes by their bits (rules 2.3 to 2.6, 3.4 and 3.5)."""
    every_field = (
        "WRTC1 1, IM 1 (pulse), INTS 3 (countdown), FOBAT 1, INTDE 1, INTAE 1, INTFE 1",
        "WRTC3 1, INTAF 1, INTDF 1, WRTC2 1, RTCF 1",
        "ARST 1, TDS 3, FS 15",
    )
    expected = {
        (0x10, 0xFF): every_field[0], (0x0F, 0xB5): every_field[1], (0x11, 0xBF): every_field[2],
        (0x10, 0x00): "all bits 0", (0x10, 0x20): "INTS 2 (frequency)", (0x0F, 0x10): "INTDF 1",
        (0x02, 0x29): "12-hour mode, PM", (0x02, 0x09): "12-hour mode, AM", (0x02, 0xA1): "24-hour mode",
        (0x0E, 0x7F): "enables seconds, minutes, hours, weekday, day, month, year", (0x0E, 0x00): "enables nothing",
        (0x0A, 0x41): "weekdays 0, 6", (0x0A, 0x00): "no weekday",
        (0x12, 0x29): "F 41", (0x13, 0xC8): "count 200", (0x00, 0x59): "", (0x1F, 0xFF): "",
    }
    for (register, byte), says in expected.items():
        said = registers.worded(register, byte)
        yield f"{byte:02X}h at {register:02X}h: {said}", said == says
    yield "32 names", len(registers.NAMES) == 32
    names = {0x06: "06h year", 0x0D: "0Dh alarm year", 0x0E: "0Eh alarm enable", 0x13: "13h countdown", 0x14: "14h RAM"}
    yield "the names' places", all(registers.named(register) == name for register, name in names.items())


def judged(subject, parts):
    """Prints which tries failed, and gives the status to end with."""
    tries = [tried for part in parts for tried in part()]
    failed = [name for name, passed in tries if not passed]
    for name in failed:
        print(f"{subject} failed on: {name}")
    print(f"{subject}: {len(tries)} tries")
    return 1 if failed else 0


if __name__ == "__main__":
    sys.exit(judged("words", [reading, objects, golden, meant, runs, bytes_worded]))
