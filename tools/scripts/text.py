"""The text form of script files, described in docs/SCRIPTS.md: from a text to the bytes of its file."""

import calendar
import codecs
import datetime
import re
from collections import deque
from dataclasses import dataclass
from typing import Optional

from scripts import files

# The end of a text's name.
ENDING = ".text"
MOST_TEXT = 1 << 20
SECOND = 32768
MOST_PULSES = files.MOST_EVENTS * files.MOST_PULSES
RAM_COUNT = 12
LAYOUT_WORDS = ("start", "events", "length")

CONTROL = re.compile(r"[\x00-\x08\x0b-\x1f\x7f-\x9f]")
BYTE = re.compile(r"[0-9A-Fa-f]{2}")
# A word that begins with a digit can only be meant for a byte.
LIKE_BYTE = re.compile(r"[0-9].*|[A-Fa-f][0-9A-Fa-f]")
# So few digits that no number takes long to read.
NUMBER = re.compile(r"[0-9]{1,9}")
DATE = re.compile(r"([0-9]{4})-([0-9]{2})-([0-9]{2})")
TIME_OF_DAY = re.compile(r"([0-9]{1,2}):([0-9]{2}):([0-9]{2})")

# Every message of an error; a test asks that each of them is provoked.
MESSAGES = {
    "empty": "the text is empty",
    "long": "the text goes over {most} bytes",
    "utf-8": "the byte {byte:02X}h is not UTF-8",
    "control": "control character {byte:02X}h",
    "unknown": "no such word: {word}",
    "byte": "a byte of two hexadecimal digits is needed here, not {word}",
    "number": "{what} from {least} to {most} is needed here, not {word}",
    "date": "a date like 2006-12-20 is needed here, not {word}",
    "time of day": "a time of day like 21:15:00 is needed here, not {word}",
    "register": "a register from 00 to 1F is needed here, not {word}",
    "layout": "start, events or length is needed here, not {word}",
    "missing": "{word} needs {what} behind it",
    "extra": "nothing more can stand on this line: {word}",
    "repeated": "only a word that stands alone can be repeated: {word}",
    "late": "{word} must stand before the first event",
    "twice": "{what} is given twice",
    "seven": "time-bytes takes seven bytes",
    "ram": "ram takes 12 bytes at most",
    "fixed bit": "{word} sets a fixed bit of register {register:02X}h",
    "header": "{section} cannot begin at {at}: the first 8 bytes are the header",
    "outside": "{section} at {at} do not fit into {length} bytes",
    "shared": "no room for this event: the events from byte {at} on run into the start bytes at {start}",
    "full": "no room for this event: in a file of {length} bytes the most from byte {at} on is {most}",
    "gap": "byte {at} is in no gap: it belongs to {owner}",
    "past": "byte {at} is past the end of the file, which has {length} bytes",
}


class TextError(Exception):
    """The first thing that is wrong with a text, and where; lines and columns count from 1."""

    def __init__(self, line, column, message):
        super().__init__(f"line {line}, column {column}: {message}")
        self.line, self.column, self.message = line, column, message


def shown(text):
    """A word as a message has it: cut where it is long, and no character in it that cannot be seen."""
    text = text if len(text) <= 40 else text[:40] + ".."
    return text if text.isprintable() else ascii(text)[1:-1]


def lowered(text):
    """Case is free in ASCII alone: a few other letters have theirs there."""
    return text.lower() if text.isascii() else text


@dataclass(frozen=True)
class Word:
    """A word of the text, or a part of one, with its place."""

    text: str
    line: int
    column: int

    @property
    def name(self):
        return lowered(self.text)

    def part(self, first, end=None):
        return Word(self.text[first:end], self.line, self.column + first)

    def error(self, message, **values):
        return TextError(self.line, self.column, MESSAGES[message].format(word=shown(self.text), **values))


@dataclass(frozen=True)
class Run:
    """A byte that a word gives so many times."""

    word: Word
    byte: int
    times: int


# Words to values

def take(words, behind, what):
    """The next word, which the one before cannot do without."""
    if not words:
        raise behind.error("missing", what=what)
    return words.popleft()


def end_line(words):
    if words:
        raise words[0].error("extra")


def number(word, least, most, what="a number"):
    if not NUMBER.fullmatch(word.text) or not least <= int(word.text) <= most:
        raise word.error("number", what=what, least=least, most=most)
    return int(word.text)


def repeated(word):
    """The text and the number of TEXT*N; without a star the number is 1."""
    text, star, times = word.text.partition("*")
    if star and not times:
        raise word.error("missing", what="a number")
    return text, number(word.part(len(text) + 1), 1, files.LONGEST) if star else 1


def byte_run(word):
    text, times = repeated(word)
    if not BYTE.fullmatch(text):
        raise word.error("byte")
    return Run(word, int(text, 16), times)


def byte_runs(words, behind):
    """All words that are left on the line, at least one."""
    yield byte_run(take(words, behind, "a byte"))
    while words:
        yield byte_run(words.popleft())


def register(words, behind):
    word = take(words, behind, "a register")
    if not BYTE.fullmatch(word.text) or int(word.text, 16) > 0x1F:
        raise word.error("register")
    return word, int(word.text, 16)


def unrolled(runs, most, message):
    """The bytes of some runs with their words; the word that brings one too many gets the message."""
    count = 0
    for run in runs:
        count += run.times
        if count > most:
            raise run.word.error(message)
        yield from [(run.word, run.byte)] * run.times


# Times

def parts(word, form, message):
    """The three numbers of a date or of a time of day, as words."""
    found = form.fullmatch(word.text)
    if not found:
        raise word.error(message)
    return [word.part(*found.span(group)) for group in (1, 2, 3)]


def bcd(value):
    return value // 10 * 16 + value % 10


def date_of(word):
    year, month, day = parts(word, DATE, "date")
    in_year = number(year, 2000, 2099, "a year")
    in_month = number(month, 1, 12, "a month")
    last = calendar.monthrange(in_year, in_month)[1]
    return datetime.date(in_year, in_month, number(day, 1, last, "a day"))


def time_of_day(word, half):
    """Seconds, minutes and hours; half is am or pm in 12-hour mode and empty in 24-hour mode (rules 3.4 and 3.5)."""
    hour, minute, second = parts(word, TIME_OF_DAY, "time of day")
    if half:
        hours = bcd(number(hour, 1, 12, "an hour")) + (0x20 if half == "pm" else 0)
    else:
        hours = 0x80 + bcd(number(hour, 0, 23, "an hour"))
    minutes = bcd(number(minute, 0, 59, "a minute"))
    return [bcd(number(second, 0, 59, "a second")), minutes, hours]


def time_bytes(head, words):
    """The seven bytes of the time that stands behind time or set-time, up to the line's end."""
    first = take(words, head, "a date")
    date = date_of(first)
    second = take(words, first, "a time of day")
    half = words.popleft().name if words and words[0].name in ("am", "pm") else ""
    clock = time_of_day(second, half)
    weekday = date.isoweekday() % 7
    if words and words[0].name == "weekday":
        named = words.popleft()
        weekday = number(take(words, named, "a number"), 0, 6, "a weekday")
    end_line(words)
    return bytes([*clock, weekday, bcd(date.day), bcd(date.month), bcd(date.year - 2000)])


# Events

def byte_events(*data):
    return [(files.BYTE, byte, 0) for byte in data]


def pulse_events(count):
    """As few events as hold so many pulses."""
    whole, rest = divmod(count, files.MOST_PULSES)
    return [(files.PULSES, 0, files.MOST_PULSES)] * whole + ([(files.PULSES, 0, rest)] if rest else [])


START, STOP = [(files.START, 0, 0)], [(files.STOP, 0, 0)]
READ_ACK, READ_NAK = [(files.READ_ACK, 0, 0)], [(files.READ_NAK, 0, 0)]


def written(at, *data):
    """A transfer that writes registers from one on."""
    return START + byte_events(0x64, at, *data) + STOP


def fetched(at, count):
    """A transfer that points at a register and reads so many from there on."""
    return START + byte_events(0x64, at) + START + byte_events(0x65) + READ_ACK * (count - 1) + READ_NAK + STOP


ALONE = {
    "start": START,
    "stop": STOP,
    "read-ack": READ_ACK,
    "read-nak": READ_NAK,
    "power-loss": [(files.POWER_LOSS, 0, 0)],
    # 10h first: before WRTC1 is set, 0Fh takes no lock bit (rule 7.3).
    "unlock": written(0x10, 0x80) + written(0x0F, 0x84),
    "lock": written(0x10, 0x00),
    "read-time": fetched(0x00, 7),
}


# The file

@dataclass
class Layout:
    """Where the sections begin, and the length, if the text gives one."""

    start_at: int = files.HEADER.size
    events_at: int = files.HEADER.size + files.START_COUNT
    length: Optional[int] = None

    @property
    def limit(self):
        return files.LONGEST if self.length is None else self.length

    @property
    def before_start(self):
        """Whether it is the start bytes that the events run into."""
        return self.events_at < self.start_at + files.START_COUNT

    @property
    def most_events(self):
        end = self.start_at if self.before_start else self.limit
        return max(0, (end - self.events_at) // files.EVENT.size)


def layout_of(given):
    """The layout by its words, which are (word of the number, number) by name."""
    values = {name: value for name, (_, value) in given.items()}
    start_at = values.get("start", files.HEADER.size)
    layout = Layout(start_at, values.get("events", start_at + files.START_COUNT), values.get("length"))
    sections = {"start": ("the start bytes", layout.start_at), "events": ("the events", layout.events_at)}
    for name, (section, at) in sections.items():
        if at < files.HEADER.size:
            raise given[name][0].error("header", section=section, at=at)
        end = at + (files.START_COUNT if name == "start" else 0)
        if end > layout.limit:
            # Without a length only the start bytes can be too far back: an offset is at most the longest length.
            word, _ = given.get("length") or given["start"]
            raise word.error("outside", section=section, at=at, length=layout.limit)
    return layout


class Assembler:
    """A script file as it comes together, line by line."""

    def __init__(self):
        self.time, self.ram, self.layout = bytes(7), bytes(RAM_COUNT), Layout()
        self.gaps, self.events, self.given = [], [], set()
        self.directives = {
            "time": self.take_time,
            "time-bytes": self.take_time_bytes,
            "ram": self.take_ram,
            "layout": self.take_layout,
            "gap": self.take_gap,
        }
        self.leading = {
            "pulses": self.take_pulses,
            "seconds": self.take_seconds,
            "set-time": self.take_set_time,
            "write": self.take_write,
            "read": self.take_read,
        }

    def knows(self, name):
        """Whether a line can begin with this word; a byte is left out."""
        return name in ALONE or name in self.leading or name in self.directives

    def take_line(self, words):
        if words[0].name in self.directives and not self.events:
            head = words.popleft()
            self.directives[head.name](head, words)
            end_line(words)
        while words:
            self.take_event(words.popleft(), words)

    # Directives

    def once(self, head, what):
        if what in self.given:
            raise head.error("twice", what=what)
        self.given.add(what)

    def take_time(self, head, words):
        self.once(head, "the time")
        self.time = time_bytes(head, words)

    def take_time_bytes(self, head, words):
        self.once(head, "the time")
        found = []
        for word, byte in unrolled(byte_runs(words, head), 7, "seven"):
            if byte & files.FIXED_BITS[len(found)]:
                raise word.error("fixed bit", register=len(found))
            found.append(byte)
        if len(found) < 7:
            raise head.error("seven")
        self.time = bytes(found)

    def take_ram(self, head, words):
        self.once(head, "ram")
        found = unrolled(byte_runs(words, head), RAM_COUNT, "ram")
        self.ram = bytes(byte for _, byte in found).ljust(RAM_COUNT, b"\0")

    def take_layout(self, head, words):
        self.once(head, "layout")
        given = {}
        behind = take(words, head, "start, events or length")
        while behind:
            if behind.name not in LAYOUT_WORDS:
                raise behind.error("layout")
            if behind.name in given:
                raise behind.error("twice", what=behind.name)
            word = take(words, behind, "a number")
            given[behind.name] = word, number(word, 0, files.LONGEST)
            behind = words.popleft() if words else None
        self.layout = layout_of(given)

    def take_gap(self, head, words):
        """Judged at the end, when it is known where the events stop."""
        word = take(words, head, "an offset")
        offset = number(word, 0, files.LONGEST - 1, "an offset")
        self.gaps.append((offset, list(byte_runs(words, word))))

    # Events

    def take_event(self, word, words):
        text, times = repeated(word)
        name = lowered(text)
        if name in ALONE:
            self.add(word, ALONE[name], times)
        elif name in self.leading and text == word.text:
            self.leading[name](word, words)
        elif name in self.directives and text == word.text:
            raise word.error("late")
        elif name in self.leading or name in self.directives:
            raise word.error("repeated")
        elif LIKE_BYTE.fullmatch(text):
            self.add(word, byte_events(byte_run(word).byte), times)
        else:
            raise word.error("unknown")

    def add(self, word, events, times=1):
        layout = self.layout
        if len(self.events) + len(events) * times > layout.most_events:
            if layout.before_start:
                raise word.error("shared", at=layout.events_at, start=layout.start_at)
            raise word.error("full", length=layout.limit, most=layout.most_events, at=layout.events_at)
        self.events += events * times

    def take_pulses(self, head, words):
        word = take(words, head, "a number")
        self.add(head, pulse_events(number(word, 1, MOST_PULSES)))

    def take_seconds(self, head, words):
        word = take(words, head, "a number")
        self.add(head, pulse_events(SECOND * number(word, 1, MOST_PULSES // SECOND)))

    def take_set_time(self, head, words):
        self.add(head, written(0x00, *time_bytes(head, words)))

    def take_write(self, head, words):
        word, at = register(words, head)
        self.add(head, START + byte_events(0x64, at))
        for run in byte_runs(words, word):
            self.add(run.word, byte_events(run.byte), run.times)
        self.add(head, STOP)

    def take_read(self, head, words):
        _, at = register(words, head)
        count = number(words.popleft(), 1, files.MOST_EVENTS) if words else 1
        end_line(words)
        self.add(head, fetched(at, count))

    # The end

    def script(self):
        layout = self.layout
        script = files.Script(self.time + self.ram, self.events, layout.start_at, layout.events_at, layout.limit)
        if layout.length is None:
            script.length = script.end
        for offset, runs in self.gaps:
            for run in runs:
                fill(script, offset, run)
                offset += run.times
        return script


def fill(script, offset, run):
    """The bytes of a gap, if they are bytes of no section and nobody has given them yet."""
    for at in range(offset, offset + run.times):
        if script.owner(at):
            raise run.word.error("gap", at=at, owner=script.owner(at))
        if at >= script.length:
            raise run.word.error("past", at=at, length=script.length)
        if at in script.rest:
            raise run.word.error("twice", what=f"byte {at}")
        script.rest[at] = run.byte


# The text

def end_of(text):
    """An empty word just behind a text."""
    return Word("", text.count("\n") + 1, len(text) - text.rfind("\n"))


def decoded(data):
    """The characters of a text; a mark of the byte order, which some editors put first, is passed over."""
    if not data:
        raise end_of("").error("empty")
    if len(data) > MOST_TEXT:
        raise end_of(data[:MOST_TEXT].decode("utf-8-sig", "ignore")).error("long", most=MOST_TEXT)
    try:
        return data.decode("utf-8-sig")
    except UnicodeDecodeError as error:
        place = end_of(error.object[: error.start].decode("utf-8"))
        raise place.error("utf-8", byte=error.object[error.start]) from None


def lines_of(text):
    """The words of each line that has some; a comment has none."""
    for line, content in enumerate(text.replace("\r\n", "\n").split("\n"), 1):
        control = CONTROL.search(content)
        if control:
            raise Word("", line, control.start() + 1).error("control", byte=ord(control.group()))
        found = re.finditer(r"[^ \t]+", content.partition("#")[0])
        words = deque(Word(word.group(), line, word.start() + 1) for word in found)
        if words:
            yield words


def characters(data, more=False):
    """The characters of what can be read, else none; where more would follow, the last one may be cut."""
    try:
        found = codecs.getincrementaldecoder("utf-8-sig")().decode(data, not more)
    except UnicodeDecodeError:
        return ""
    return "" if CONTROL.search(found.replace("\r", "")) else found


def is_text(data, more=False):
    """Whether bytes are a text beyond doubt: they can be read, and a line can begin with their first word.

    Blank lines and comments say nothing, and a hex dump begins with bytes. No accepted file is taken for a text: its
    byte 5 is the high byte of the start byte count, 19, and so a NUL.
    """
    for line in characters(data, more).split("\n"):
        word = re.search(r"[^ \t\r]+", line.partition("#")[0])
        if word:
            return Assembler().knows(lowered(word.group().partition("*")[0]))
    return False


def assembled(data):
    """The script file that a text stands for; TextError if something is wrong with it."""
    assembler = Assembler()
    for words in lines_of(decoded(data)):
        assembler.take_line(words)
    return files.encoded(assembler.script())
