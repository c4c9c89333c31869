"""A script file as text that assembles to the same bytes (docs/SCRIPTS.md)."""

from itertools import groupby

from scripts import files, text

WIDTH = 16
# The shortest section has four bytes, so fewer zeros between two bytes of a gap hide none.
MOST_ZEROS = 3
NAMES = {files.START: "START", files.STOP: "STOP", files.READ_ACK: "read-ack", files.READ_NAK: "read-nak"}


class Unfaithful(Exception):
    """A listing that does not assemble to the bytes that it was made of."""


def spelled(data):
    return " ".join(f"{byte:02X}" for byte in data)


def times(seven):
    """How seven bytes would be said as a time, if they are one: with the calendar's weekday and with their own."""
    second, minute, hour, weekday, day, month, year = seven
    if hour & 0x80:
        clock = f"{hour & 0x7F:02X}:{minute:02X}:{second:02X}"
    else:
        clock = f"{hour & 0x1F:X}:{minute:02X}:{second:02X} {'PM' if hour & 0x20 else 'AM'}"
    time = f"time 20{year:02X}-{month:02X}-{day:02X} {clock}"
    return time, f"{time} weekday {weekday}"


def says(line, seven):
    """Whether a line of time gives these seven bytes."""
    try:
        return files.decoded(text.assembled(line.encode())).start[:7] == seven
    except text.TextError:
        return False


def time_line(seven):
    return next((line for line in times(seven) if says(line, seven)), f"time-bytes {spelled(seven)}")


def layout_lines(script):
    usual = {
        "start": (script.start_at, files.HEADER.size),
        "events": (script.events_at, script.start_at + files.START_COUNT),
        "length": (script.length, script.end),
    }
    words = [f"{name} {value}" for name, (value, expected) in usual.items() if value != expected]
    return [" ".join(["layout", *words])] if words else []


def gap_lines(rest):
    """The bytes of no section that are not 0, neighbours together."""
    groups = []
    for at in sorted(rest):
        if groups and at <= groups[-1][-1] + MOST_ZEROS + 1 and at < groups[-1][0] + WIDTH:
            groups[-1].append(at)
        else:
            groups.append([at])
    for group in groups:
        data = (rest.get(at, 0) for at in range(group[0], group[-1] + 1))
        yield f"gap {group[0]} {spelled(data)}"


def event_words(events):
    """A word for each event, and one for reads of a kind in a row."""
    for (kind, byte, count), same in groupby(events):
        many = len(list(same))
        if kind in (files.READ_ACK, files.READ_NAK):
            yield NAMES[kind] + (f"*{many}" if many > 1 else "")
        elif kind == files.BYTE:
            yield from [f"{byte:02X}"] * many
        elif kind == files.PULSES:
            yield from [f"pulses {count}"] * many
        else:
            yield from [NAMES.get(kind, "power-loss")] * many


def event_lines(events):
    """A line from each START on; pulses and power losses have lines of their own."""
    lines, ended = [], True
    for word in event_words(events):
        own = word.startswith(("pulses", "power-loss"))
        if own or ended or word == "START":
            lines.append([])
        lines[-1].append(word)
        ended = own
    for words in lines:
        for at in range(0, len(words), WIDTH):
            yield ("    " if at else "") + " ".join(words[at : at + WIDTH])


def listed(data):
    """The text of a script file; files.Refused if it is refused."""
    script = files.decoded(data)
    lines = [time_line(script.start[:7])]
    ram = script.start[7:].rstrip(b"\0")
    lines += [f"ram {spelled(ram)}"] if ram else []
    lines += [*layout_lines(script), *gap_lines(script.rest)]
    lines += ["", *event_lines(script.events)] if script.events else []
    result = "".join(f"{line}\n" for line in lines)
    if text.assembled(result.encode()) != data:
        raise Unfaithful("the listing does not assemble to the bytes of the file")
    return result
