"""Scripts as text: what each word stands for, every error with its place, listings, and the command tools/script.

What is expected is written down by hand from docs/RULES.md and docs/SCRIPTS.md, or is the independent model's
(tests/files). Prints each thing that is not as it should be; the exit status is then 1.
"""

import ast
import os
import pty
import random
import re
import stat
import struct
import subprocess
import sys
import tempfile
from pathlib import Path
from unittest import mock

import stored

ROOT = Path(__file__).resolve().parent.parent
sys.path.insert(0, str(ROOT / "tools"))

from scripts import files, listing, text

EXAMPLES = ROOT / "examples"
COMMAND = ROOT / "tools" / "script"
SEED = 2068
RANDOM_FILES = 400
RANDOM_TEXTS = 3000

# Hours from midnight on, in both modes (rule 3.5).
HOURS_24 = "80 81 82 83 84 85 86 87 88 89 90 91 92 93 94 95 96 97 98 99 A0 A1 A2 A3"
HOURS_12 = "12 01 02 03 04 05 06 07 08 09 10 11 32 21 22 23 24 25 26 27 28 29 30 31"

# Seven bytes of a time, in the order of 00h to 06h.
TIMES = {
    "2006-12-20 21:15:00": "00 15 A1 03 20 12 06",
    "2006-12-20 9:15:00": "00 15 89 03 20 12 06",
    "2006-12-20 9:15:00 PM": "00 15 29 03 20 12 06",
    "2006-12-20 09:15:00 am": "00 15 09 03 20 12 06",
    "2006-12-20 21:15:00 weekday 0": "00 15 A1 00 20 12 06",
    "2006-12-20 9:15:00 pm WEEKDAY 6": "00 15 29 06 20 12 06",
    "2006-12-17 00:00:00": "00 00 80 00 17 12 06",
    "2006-12-23 00:00:00": "00 00 80 06 23 12 06",
    "2000-02-29 23:59:59": "59 59 A3 02 29 02 00",
    "2000-01-01 12:00:00 AM": "00 00 12 06 01 01 00",
    "2099-12-31 12:59:59 PM": "59 59 32 04 31 12 99",
}

# Events as their four bytes: kind, byte, count with the low byte first (rules 8.1 and 9.3).
EVENTS = {
    "START": "00000000",
    "stop": "01000000",
    "64": "02640000",
    "0f 0F 00": "020F0000 020F0000 02000000",
    "read-ack": "03000000",
    "Read-NAK": "04000000",
    "power-loss": "06000000",
    "pulses 1": "05000100",
    "PULSES 300 STOP": "05002C01 01000000",
    "pulses 65535": "0500FFFF",
    "pulses 65536": "0500FFFF 05000100",
    "pulses 131070": "0500FFFF 0500FFFF",
    "pulses 200000": "0500FFFF 0500FFFF 0500FFFF 0500430D",
    "seconds 1": "05000080",
    "seconds 3 STOP": "0500FFFF 05000180 01000000",
    "read-ack*3 read-nak*1": "03000000 03000000 03000000 04000000",
    "START*2 0a*2": "00000000 00000000 020A0000 020A0000",
    "unlock": "00000000 02640000 02100000 02800000 01000000 00000000 02640000 020F0000 02840000 01000000",
    "lock*2": "00000000 02640000 02100000 02000000 01000000 00000000 02640000 02100000 02000000 01000000",
    "set-time 2006-12-20 9:15:00 PM":
        "00000000 02640000 02000000 02000000 02150000 02290000 02030000 02200000 02120000 02060000 01000000",
    "read-time":
        "00000000 02640000 02000000 00000000 02650000 "
        "03000000 03000000 03000000 03000000 03000000 03000000 04000000 01000000",
    "write 10 92": "00000000 02640000 02100000 02920000 01000000",
    "STOP write 1f 00*2 FF": "01000000 00000000 02640000 021F0000 02000000 02000000 02FF0000 01000000",
    "read 0F": "00000000 02640000 020F0000 00000000 02650000 04000000 01000000",
    "read 14 2": "00000000 02640000 02140000 00000000 02650000 03000000 04000000 01000000",
}

# Whole files, in hexadecimal: header, then what lies where (rule 9.1).
ZEROS = "00" * 19
FILES = {
    "# nothing but a comment": f"0000 1B00 1300 0800 {ZEROS}",
    "\r\n\t STOP\t#64\r\n\n": f"0100 1B00 1300 0800 {ZEROS} 01000000",
    "\ufeffSTOP": f"0100 1B00 1300 0800 {ZEROS} 01000000",
    "ram 11 2F\ntime-bytes 7F*2 BF 07 3F 1f FF": f"0000 1B00 1300 0800 7F7FBF073F1FFF 112F {'00' * 10}",
    "RAM 00*11 aB\nTIME 2006-12-20 18:19:20": f"0000 1B00 1300 0800 20199803201206 {'00' * 11} AB",
    "layout start 12 events 8\nSTOP": f"0100 0800 1300 0C00 01000000 {ZEROS}",
    "layout start 9\nSTOP": f"0100 1C00 1300 0900 00 {ZEROS} 01000000",
    "gap 27 AA BB\nlayout length 30": f"0000 1B00 1300 0800 {ZEROS} AABB00",
    "layout length 45 events 31 start 9\ngap 8 01\ngap 28 00 02*2\ngap 44 03\nSTOP STOP STOP":
        f"0300 1F00 1300 0900 01 {ZEROS} 000202 01000000 01000000 01000000 0003",
    "layout events 10": f"0000 0A00 1300 0800 {ZEROS}",
    "layout events 29": f"0000 1D00 1300 0800 {ZEROS} 0000",
    "layout start 16365": f"0000 0040 1300 ED3F {'00' * 16357} {ZEROS}",
    "#" * 1048576: f"0000 1B00 1300 0800 {ZEROS}",
    "STOP*4089": f"F90F 1B00 1300 0800 {ZEROS}" + "01000000" * 4089,
    "pulses 267972615": f"F90F 1B00 1300 0800 {ZEROS}" + "0500FFFF" * 4089,
}

FULL = "no room for this event: in a file of 16384 bytes the most from byte 27 on is 4089"

# A text, the line and the column of what is wrong with it, and what is said.
ERRORS = [
    ("", 1, 1, "the text is empty"),
    (b"#" * 1048577, 1, 1048577, "the text goes over 1048576 bytes"),
    (b"#" * 1048573 + b"\n\xC3\xA4\xC3\xA4", 2, 2, "the text goes over 1048576 bytes"),
    (b"STOP\n# \xC3\xA4 \xFF", 2, 5, "the byte FFh is not UTF-8"),
    (b"\xEF\xBB\xBFSTOP \xC3", 1, 6, "the byte C3h is not UTF-8"),
    ("STOP\nSTOP #\x07", 2, 7, "control character 07h"),
    ("STOP\rSTOP", 1, 5, "control character 0Dh"),
    ("\tSTOP \x7F", 1, 7, "control character 7Fh"),
    ("STOP # \x85", 1, 8, "control character 85h"),
    ("STOP\r\n\n  STRAT 64", 3, 3, "no such word: STRAT"),
    ("# \u00E4 \u00F6\nFFF", 2, 1, "no such word: FFF"),
    ("STOP*2 *2", 1, 8, "no such word: *2"),
    ("START\u00A064", 1, 1, "no such word: START\\xa064"),
    ("loc\u212A", 1, 1, "no such word: loc\u212A"),
    ("z" * 50, 1, 1, "no such word: " + "z" * 40 + ".."),
    ("START 6", 1, 7, "a byte of two hexadecimal digits is needed here, not 6"),
    ("0x64", 1, 1, "a byte of two hexadecimal digits is needed here, not 0x64"),
    ("pulses 100 200", 1, 12, "a byte of two hexadecimal digits is needed here, not 200"),
    ("ram 11 2", 1, 8, "a byte of two hexadecimal digits is needed here, not 2"),
    ("write 14 STOP", 1, 10, "a byte of two hexadecimal digits is needed here, not STOP"),
    ("pulses 0", 1, 8, "a number from 1 to 267972615 is needed here, not 0"),
    ("pulses 267972616", 1, 8, "a number from 1 to 267972615 is needed here, not 267972616"),
    ("pulses " + "9" * 5000, 1, 8, "a number from 1 to 267972615 is needed here, not " + "9" * 40 + ".."),
    ("pulses 65,535", 1, 8, "a number from 1 to 267972615 is needed here, not 65,535"),
    ("pulses \u0663", 1, 8, "a number from 1 to 267972615 is needed here, not \u0663"),
    ("seconds 8178", 1, 9, "a number from 1 to 8177 is needed here, not 8178"),
    ("seconds -1", 1, 9, "a number from 1 to 8177 is needed here, not -1"),
    ("STOP*0", 1, 6, "a number from 1 to 16384 is needed here, not 0"),
    ("64*2*2", 1, 4, "a number from 1 to 16384 is needed here, not 2*2"),
    ("read 0F 0", 1, 9, "a number from 1 to 4089 is needed here, not 0"),
    ("read 0F STOP", 1, 9, "a number from 1 to 4089 is needed here, not STOP"),
    ("layout start 16385", 1, 14, "a number from 0 to 16384 is needed here, not 16385"),
    ("gap 16384 00", 1, 5, "an offset from 0 to 16383 is needed here, not 16384"),
    ("time 1999-12-31 00:00:00", 1, 6, "a year from 2000 to 2099 is needed here, not 1999"),
    ("time 2006-13-20 00:00:00", 1, 11, "a month from 1 to 12 is needed here, not 13"),
    ("time 2006-00-20", 1, 11, "a month from 1 to 12 is needed here, not 00"),
    ("time 2006-11-31 00:00:00", 1, 14, "a day from 1 to 30 is needed here, not 31"),
    ("time 2006-02-29 00:00:00", 1, 14, "a day from 1 to 28 is needed here, not 29"),
    ("time 2006-12-00 00:00:00", 1, 14, "a day from 1 to 31 is needed here, not 00"),
    ("time 2006-12-20 24:00:00", 1, 17, "an hour from 0 to 23 is needed here, not 24"),
    ("time 2006-12-20 0:00:00 AM", 1, 17, "an hour from 1 to 12 is needed here, not 0"),
    ("set-time 2006-12-20 13:00:00 PM", 1, 21, "an hour from 1 to 12 is needed here, not 13"),
    ("time 2006-12-20 9:60:00", 1, 19, "a minute from 0 to 59 is needed here, not 60"),
    ("time 2006-12-20 9:59:60 AM", 1, 22, "a second from 0 to 59 is needed here, not 60"),
    ("time 2006-12-20 9:59:59 weekday 7", 1, 33, "a weekday from 0 to 6 is needed here, not 7"),
    ("time 20-12-2006 9:15:00", 1, 6, "a date like 2006-12-20 is needed here, not 20-12-2006"),
    ("time 2006-12-20 9:15", 1, 17, "a time of day like 21:15:00 is needed here, not 9:15"),
    ("write 20 00", 1, 7, "a register from 00 to 1F is needed here, not 20"),
    ("read 0F*2", 1, 6, "a register from 00 to 1F is needed here, not 0F*2"),
    ("layout start 8 end 27", 1, 16, "start, events or length is needed here, not end"),
    ("STOP pulses", 1, 6, "pulses needs a number behind it"),
    ("seconds\n1", 1, 1, "seconds needs a number behind it"),
    ("STOP 64*", 1, 6, "64* needs a number behind it"),
    ("time", 1, 1, "time needs a date behind it"),
    ("set-time 2006-12-20", 1, 10, "2006-12-20 needs a time of day behind it"),
    ("time 2006-12-20 9:15:00 weekday", 1, 25, "weekday needs a number behind it"),
    ("time-bytes", 1, 1, "time-bytes needs a byte behind it"),
    ("ram # 11", 1, 1, "ram needs a byte behind it"),
    ("layout", 1, 1, "layout needs start, events or length behind it"),
    ("layout start", 1, 8, "start needs a number behind it"),
    ("gap", 1, 1, "gap needs an offset behind it"),
    ("gap 27", 1, 5, "27 needs a byte behind it"),
    ("write", 1, 1, "write needs a register behind it"),
    ("write 10", 1, 7, "10 needs a byte behind it"),
    ("read", 1, 1, "read needs a register behind it"),
    ("time 2006-12-20 9:15:00 ram 11", 1, 25, "nothing more can stand on this line: ram"),
    ("set-time 2006-12-20 9:15:00 AM STOP", 1, 32, "nothing more can stand on this line: STOP"),
    ("read 00 7 STOP", 1, 11, "nothing more can stand on this line: STOP"),
    ("pulses*2 5", 1, 1, "only a word that stands alone can be repeated: pulses*2"),
    ("ram*2 11", 1, 1, "only a word that stands alone can be repeated: ram*2"),
    ("START\nram 11", 2, 1, "ram must stand before the first event"),
    ("START time 2006-12-20 9:15:00", 1, 7, "time must stand before the first event"),
    ("time 2006-12-20 9:15:00\n\ntime-bytes 00*7", 3, 1, "the time is given twice"),
    ("ram 11\nram 11", 2, 1, "ram is given twice"),
    ("layout start 8\nlayout events 27", 2, 1, "layout is given twice"),
    ("layout start 8 start 8", 1, 16, "start is given twice"),
    ("layout length 40\ngap 30 AA BB\ngap 29 00 00", 3, 11, "byte 30 is given twice"),
    ("time-bytes 20 19 98 03 20 12", 1, 1, "time-bytes takes seven bytes"),
    ("time-bytes 20 19 98 03 20 12 06 07", 1, 33, "time-bytes takes seven bytes"),
    ("ram 00*11 11 22", 1, 14, "ram takes 12 bytes at most"),
    ("time-bytes 80 FF*7", 1, 12, "80 sets a fixed bit of register 00h"),
    ("time-bytes 00 80 00", 1, 15, "80 sets a fixed bit of register 01h"),
    ("time-bytes 00 00 40", 1, 18, "40 sets a fixed bit of register 02h"),
    ("time-bytes 00 00 00 08*4", 1, 21, "08*4 sets a fixed bit of register 03h"),
    ("time-bytes 00*4 40", 1, 17, "40 sets a fixed bit of register 04h"),
    ("time-bytes 00*4 00 20", 1, 20, "20 sets a fixed bit of register 05h"),
    ("layout start 7", 1, 14, "the start bytes cannot begin at 7: the first 8 bytes are the header"),
    ("layout events 0 start 9", 1, 15, "the events cannot begin at 0: the first 8 bytes are the header"),
    ("layout length 26", 1, 15, "the start bytes at 8 do not fit into 26 bytes"),
    ("layout length 0", 1, 15, "the start bytes at 8 do not fit into 0 bytes"),
    ("layout length 40 start 22", 1, 15, "the start bytes at 22 do not fit into 40 bytes"),
    ("layout start 16366", 1, 14, "the start bytes at 16366 do not fit into 16384 bytes"),
    ("layout events 41 length 40", 1, 25, "the events at 41 do not fit into 40 bytes"),
    ("layout start 15 events 8\nSTOP STOP", 2, 6,
     "no room for this event: the events from byte 8 on run into the start bytes at 15"),
    ("layout events 26\nSTOP", 2, 1,
     "no room for this event: the events from byte 26 on run into the start bytes at 8"),
    ("layout length 34\nSTOP STOP", 2, 6,
     "no room for this event: in a file of 34 bytes the most from byte 27 on is 1"),
    ("STOP*4089\nSTOP", 2, 1, FULL),
    ("unlock*16384", 1, 1, FULL),
    ("write 14 00*4086", 1, 1, FULL),
    ("write 14 00 11*4086", 1, 13, FULL),
    ("STOP pulses 267972615", 1, 6, FULL),
    ("gap 7 00 00", 1, 7, "byte 7 is in no gap: it belongs to the header"),
    ("gap 26 00", 1, 8, "byte 26 is in no gap: it belongs to the start bytes"),
    ("layout events 28\ngap 27 00 01\nSTOP", 2, 11, "byte 28 is in no gap: it belongs to the events"),
    ("gap 27 00", 1, 8, "byte 27 is past the end of the file, which has 27 bytes"),
    ("layout length 30\ngap 27 00*3 00*16384", 2, 13, "byte 30 is past the end of the file, which has 30 bytes"),
]

# Every word but a byte that a line can begin with.
WORDS = (
    "START STOP read-ack read-nak pulses seconds power-loss unlock lock set-time read-time write read "
    "time time-bytes ram layout gap"
).split()

# What is a text beyond doubt by its bytes alone, and what is not.
TEXTS = {
    **{word.encode(): True for word in WORDS},
    b"": False,
    b" \t\r\n": False,
    b"# START": False,
    b"# \xC3\xA4\r\n\n \tread-TIME*2#": True,
    b"\xEF\xBB\xBFSTOP": True,
    b"STOP\rSTOP": True,
    b"STOP zz # \xC3\xA4": True,
    b"zz STOP": False,
    b"zz\nSTOP": False,
    b"*2 STOP": False,
    b"64 START": False,
    b"FF*2": False,
    b"STARTS": False,
    b"AM STOP": False,
    b"START\xC2\xA064": False,
    b"loc\xE2\x84\xAA": False,
    b"STOP \xC3": False,
    b"STOP\x00": False,
    b"STOP\x1B": False,
    b"STOP # \xC2\x85": False,
    b"STOP \x7F": False,
}

# Files and their listings. The first has nothing at its usual place, an hour 33h, and a transfer of 18 words.
LISTINGS = [
    (
        "1B00 2100 1300 0A00 AA00 20203303201206 0102 00000000000000000000 00000001"
        "00000000 02650000 03000000 03000000 05000100 03000000 04000000 06000000 01000000 00000000 02640000 02140000"
        "02010000 02020000 02030000 02040000 02050000 02060000 02070000 02080000 02090000 020A0000 020B0000 020C0000"
        "020D0000 020E0000 020F0000 000000C1C2000000C300000000C400",
        """\
time-bytes 20 20 33 03 20 12 06
ram 01 02
layout start 10 events 33 length 156
gap 8 AA
gap 32 01
gap 144 C1 C2 00 00 00 C3
gap 154 C4

START 65 read-ack*2
pulses 1
read-ack read-nak
power-loss
STOP
START 64 14 01 02 03 04 05 06 07 08 09 0A 0B 0C 0D
    0E 0F
""",
    ),
    (f"0000 1B00 1300 0800 {ZEROS}", "time-bytes 00 00 00 00 00 00 00\n"),
    (
        "0200 0800 1300 1000 0500FFFF 05000080 59593206311299 FFFFFFFFFFFFFFFFFFFFFFFF",
        """\
time 2099-12-31 12:59:59 PM weekday 6
ram FF FF FF FF FF FF FF FF FF FF FF FF
layout start 16 events 8

pulses 65535
pulses 32768
""",
    ),
    (
        "0600 1B00 1300 0800 20199803201206 000000000000000000000000"
        "00000000 00000000 02640000 01000000 01000000 00000000",
        "time 2006-12-20 18:19:20\n\nSTART\nSTART 64 STOP STOP\nSTART\n",
    ),
]

# Words of which texts are drawn at random, good and bad.
VOCABULARY = (
    "START STOP 64 65 10 80 0F 84 read-ack read-nak*3 00*2 pulses seconds power-loss unlock lock read-time set-time "
    "2006-12-20 2007-02-28 9:15:00 23:59:59 AM PM weekday time time-bytes ram layout start events length gap write "
    "read 0 1 7 8 9 27 30 31 40 100 70000 16384 FF 00*7 * *2 zz # \n \n \n \t \r\n"
).split(" ")


# The parts of the test: each gives what is wrong

def differing(what, owed, given):
    """A line for what was not as it should be."""
    if owed != given:
        yield f"{what}: expected {short(owed)}, and it is {short(given)}"


def short(value):
    value = value.hex() if isinstance(value, bytes) else repr(value)
    return value if len(value) <= 400 else value[:400] + ".."


def tried(work, given):
    """What is made of something, or the error that it ends with."""
    try:
        return work(given)
    except Exception as error:
        return f"{type(error).__name__}: {error}"


def assembled(given):
    return tried(text.assembled, given if isinstance(given, bytes) else given.encode())


def refusal(data):
    """Number and index of a file's refusal, or nothing."""
    try:
        files.decoded(data)
        return None
    except files.Refused as refused:
        return refused.number, refused.index


def round_trip(what, data):
    """An accepted file: taken apart and put together, and listed and assembled, it stays the same."""
    yield from differing(f"{what}, put together", data, tried(lambda file: files.encoded(files.decoded(file)), data))
    yield from differing(f"{what}, listed and assembled", data, assembled(tried(listing.listed, data)))
    if text.is_text(data):
        yield f"{what} is taken for a text"


def stored_files():
    # 7 is about the output that is lent, and not about the file.
    owed = {run.name: (run.refusal, run.index) if run.refusal not in (0, 7) else None for run in stored.runs()}
    every = {path.name: path.read_bytes() for path in (stored.FILES / "data").iterdir()}
    yield from differing("names of the stored files", sorted(owed), sorted(every))
    yield from differing("refusals among them", {2, 3, 4, 5, 6, 8}, {found[0] for found in owed.values() if found})
    for name, data in every.items():
        yield from differing(name, owed.get(name), refusal(data))
        if refusal(data) is None:
            yield from round_trip(name, data)


def drawn_time(draw):
    """Seven bytes without fixed bits, of which half are a legal time."""
    fixed = (0x80, 0x80, 0x40, 0xF8, 0xC0, 0xE0, 0x00)
    if draw.random() < 0.5:
        return bytes(draw.randrange(256) & ~bits for bits in fixed)
    digits = "%02d%02d" % (draw.randrange(60), draw.randrange(60)) + draw.choice(f"{HOURS_24} {HOURS_12}".split())
    ends = ((0, 7), (1, 29), (1, 13), (0, 100))
    return bytes.fromhex(digits + "".join("%02d" % draw.randrange(*pair) for pair in ends))


def drawn_event(draw):
    kind = draw.randrange(7)
    return struct.pack("<BBH", kind, draw.randrange(256) * (kind == 2), draw.randrange(1, 65536) * (kind == 5))


def drawn_file(draw):
    """An accepted file: both sections in some order, with bytes before, between and behind them."""
    start = drawn_time(draw) + bytes(draw.choice((0, draw.randrange(256))) for _ in range(12))
    count = draw.choice((0, 1, draw.randrange(60)))
    sections = [start, b"".join(drawn_event(draw) for _ in range(count))]
    order = draw.sample((0, 1), 2)
    data, offsets = bytes(8), {}
    for place in order:
        data += bytes(draw.choice((0, 0, draw.randrange(256))) for _ in range(draw.choice((0, 0, draw.randrange(50)))))
        offsets[place] = len(data)
        data += sections[place]
    data += bytes(draw.choice((0, draw.randrange(256))) for _ in range(draw.choice((0, draw.randrange(50)))))
    # A section without bytes may stand anywhere behind the header.
    events_at = offsets[1] if count else draw.randrange(8, len(data) + 1)
    return struct.pack("<4H", count, events_at, 19, offsets[0]) + data[8:]


def random_files(draw):
    for index in range(RANDOM_FILES):
        yield from round_trip(f"random file {index}", drawn_file(draw))


def is_in(given, line, column):
    """Whether a text has a character at a place."""
    lines = given.split("\n")
    return 1 <= line <= len(lines) and 1 <= column <= len(lines[line - 1])


def random_texts(draw):
    """Whatever the text, there is a file that is not refused, or an error at a place in the text."""
    good = 0
    for _ in range(RANDOM_TEXTS):
        given = " ".join(draw.choices(VOCABULARY, k=draw.randrange(1, 12)))
        found = assembled(given)
        place = re.match(r"TextError: line ([0-9]+), column ([0-9]+): ", found) if isinstance(found, str) else None
        if isinstance(found, bytes):
            good += 1
            yield from differing(f"{given!r} assembled", None, refusal(found))
        elif not place or not is_in(given, int(place[1]), int(place[2])):
            yield f"{given!r}: {found}"
    if not 100 < good < RANDOM_TEXTS - 100:
        yield f"of the random texts {good} are good, and that tells too little"


def meanings():
    for words, owed in EVENTS.items():
        yield from differing(words, bytes.fromhex(owed), assembled(words)[27:])
    for words, owed in TIMES.items():
        yield from differing(words, bytes.fromhex(owed), assembled(f"time {words}")[8:15])
    for given, owed in FILES.items():
        yield from differing(short(given), bytes.fromhex(owed), assembled(given))
    for data, owed in TEXTS.items():
        yield from differing(f"{data} as a text", owed, text.is_text(data))
    for data, owed in ((b"STOP \xC3", True), (b"STOP \xC3\xC3", False), (b"STOP \xFF", False)):
        yield from differing(f"{data} and more as a text", owed, text.is_text(data, True))


def hours():
    """Each hour of both modes, to its code and back."""
    words = [f"{hour:02}:00:00" for hour in range(24)]
    words += [f"{hour}:00:00 {half}" for half in ("AM", "PM") for hour in (12, *range(1, 12))]
    for hour, code in zip(words, bytes.fromhex(f"{HOURS_24} {HOURS_12}")):
        line = f"time 2006-12-20 {hour}\n"
        data = assembled(line)
        yield from differing(hour, code, data[10])
        yield from differing(f"{hour} listed", line, tried(listing.listed, data))


def errors():
    for given, line, column, message in ERRORS:
        yield from differing(short(given), f"TextError: line {line}, column {column}: {message}", assembled(given))


def raised_at(given):
    """The line of text.py that raises the error."""
    try:
        text.assembled(given if isinstance(given, bytes) else given.encode())
    except text.TextError as error:
        trace = error.__traceback__
        while trace.tb_next:
            trace = trace.tb_next
        return trace.tb_lineno
    return None


def unprovoked():
    """Each message and each place in text.py that raises has a row among the errors."""
    for name, form in text.MESSAGES.items():
        pattern = re.compile(re.sub(r"\\\{.*?\\\}", ".+", re.escape(form)))
        if not any(pattern.fullmatch(message) for _, _, _, message in ERRORS):
            yield f"no error has the message {name!r}"
    lines = {raised_at(given) for given, _, _, _ in ERRORS}
    places = [node for node in ast.walk(ast.parse(Path(text.__file__).read_text())) if isinstance(node, ast.Raise)]
    for place in places:
        if not lines & set(range(place.lineno, place.end_lineno + 1)):
            yield f"no error is raised at line {place.lineno} of text.py"
    if not places:
        yield "nothing is raised in text.py"


def listings():
    for data, owed in LISTINGS:
        yield from differing("a listing", owed, tried(listing.listed, bytes.fromhex(data)))
    read, boot = ((EXAMPLES / f"{name}.script").read_bytes() for name in ("read", "boot"))
    owed = "Unfaithful: the listing does not assemble to the bytes of the file"
    with mock.patch.object(text, "assembled", return_value=read):
        yield from differing("a listing that does not assemble", owed, tried(listing.listed, boot))


def examples():
    for name in ("read", "boot"):
        owed = (EXAMPLES / f"{name}.script").read_bytes()
        yield from differing(f"examples/{name}.text", owed, assembled((EXAMPLES / f"{name}.text").read_bytes()))
    morning, evening = (assembled((EXAMPLES / f"{name}.text").read_bytes()) for name in ("morning", "evening"))
    hours = [(left, right) for left, right in zip(morning, evening) if left != right]
    yield from differing("the boots of morning and evening", [(0x09, 0x29)], hours)
    yield from differing("their lengths", len(morning), len(evening))


def page():
    """What docs/SCRIPTS.md shows: a text, a listing, and shortcuts beside the words that they stand for."""
    shown = (ROOT / "docs" / "SCRIPTS.md").read_text()
    blocks = re.findall(r"^```[a-z]*\n(.*?)^```$", shown, re.DOTALL | re.MULTILINE)
    yield from differing("the text on the page", (EXAMPLES / "morning.text").read_text(), blocks[0])
    yield from differing("the listing on the page", listing.listed((EXAMPLES / "boot.script").read_bytes()), blocks[2])
    rows = re.findall(r"^\| `([a-z][^`]+)` \| `(START[^`]+)` \|$", shown, re.MULTILINE)
    yield from differing("shortcuts on the page", ["unlock", "lock", "read-time", "write", "read"], [
        words.split()[0] for words, _ in rows
    ])
    for words, owed in rows:
        yield from differing(f"{words} on the page", assembled(owed), assembled(words))


# The command

def run(folder, *words, given=b""):
    done = subprocess.run([COMMAND, *words], input=given, capture_output=True, cwd=folder)
    return done.returncode, done.stdout, done.stderr.decode()


def content(path):
    return path.read_bytes() if path.is_file() else None


def conversions(folder):
    read, boot = ((EXAMPLES / f"{name}.script").read_bytes() for name in ("read", "boot"))
    short_text, short_listing = b"START 65 # hello", b"time-bytes 00 00 00 00 00 00 00\n\nSTART 65\n"
    short_file = bytes.fromhex(f"0200 1B00 1300 0800 {ZEROS} 00000000 02650000")
    yield "assemble to output", (0, read, ""), run(folder, "assemble", EXAMPLES / "read.text")
    yield "assemble to - from -", (0, short_file, ""), run(folder, "assemble", "-", "-", given=short_text)
    yield "assemble to a file", (0, b"", ""), run(folder, "assemble", EXAMPLES / "boot.text", "a file")
    yield "that file", boot, content(folder / "a file")
    yield "its mode", "-rw-r-----", stat.filemode(os.stat(folder / "a file").st_mode)
    yield "list to output", (0, short_listing, ""), run(folder, "list", "-", given=short_file)
    yield "list to a file", (0, b"", ""), run(folder, "list", "-", "listing", given=short_file)
    yield "that listing", short_listing, content(folder / "listing")
    os.link(folder / "a file", folder / "older")
    (folder / "link").symlink_to("a file")
    yield "assemble through a link", (0, b"", ""), run(folder, "assemble", "-", "link", given=short_text)
    yield "the file behind it", short_file, content(folder / "a file")
    yield "the link", True, (folder / "link").is_symlink()
    yield "the file that it replaced", boot, content(folder / "older")
    yield "a device", (0, b"", ""), run(folder, "assemble", "-", "/dev/null", given=short_text)
    yield "that device", True, Path("/dev/null").is_char_device()


FIVE = (
    "refused 5: the start bytes are not 19, or a section is not in the file, "
    "or shares a byte with the header or the other"
)


def complaints(folder):
    """Wrong calls: one line, nothing on standard output."""
    help_line = "see tools/script --help\n"
    no_file = "No such file or directory\n"
    two = struct.pack("<4H", 1, 27, 19, 8) + bytes(19) + b"\x07\0\0\0"
    calls = [
        ("", (), 2, f"assemble or list is needed: {help_line}"),
        ("", ("run", "x"), 2, f"assemble or list is needed: {help_line}"),
        ("", ("list",), 2, f"list takes one name or two: {help_line}"),
        ("", ("assemble", "a", "b", "c"), 2, f"assemble takes one name or two: {help_line}"),
        ("", ("assemble", "none", "kept"), 2, f"none: cannot be read: {no_file}"),
        ("", ("list", "."), 2, ".: cannot be read: Is a directory\n"),
        ("STRAT", ("assemble", "-", "kept"), 2, "standard input: line 1, column 1: no such word: STRAT\n"),
        ("", ("assemble", "bad.text", "kept"), 2, "bad.text: line 3, column 7: no such word: STRAT\n"),
        ("#" * 1048577, ("assemble", "-"), 2,
         "standard input: line 1, column 1048577: the text goes over 1048576 bytes\n"),
        ("STOP", ("assemble", "-", "none/x"), 2, f"none/x: cannot be written: {no_file}"),
        ("STOP", ("assemble", "-", "."), 2, ".: cannot be written: Is a directory\n"),
        ("STOP", ("assemble", "-", "/dev/full"), 2, "/dev/full: cannot be written: No space left on device\n"),
        (b"\0" * 7, ("list", "-", "kept"), 1, "standard input: refused 4: the file has under 8 bytes\n"),
        (b"\0" * 20000, ("list", "-"), 1, "standard input: refused 8: the file has over 16,384 bytes\n"),
        ("START 65", ("list", "-"), 1, f"standard input: {FIVE}; it is a text, which assemble takes\n"),
        ("# crash log", ("list", "-"), 1, f"standard input: {FIVE}\n"),
        (two, ("list", "-", "kept"), 1, "standard input: refused 2, event 0: an event's kind is over 6\n"),
    ]
    (folder / "kept").write_bytes(b"kept")
    (folder / "bad.text").write_text("# bad\n\nSTOP  STRAT\n")
    for given, words, status, says in calls:
        given = given if isinstance(given, bytes) else given.encode()
        yield f"script {' '.join(words)}", (status, b"", f"script: {says}"), run(folder, *words, given=given)


def outputs(folder):
    """Standard output as a terminal, and the help."""
    ours, theirs = pty.openpty()
    done = subprocess.run([COMMAND, "assemble", EXAMPLES / "read.text"], stdout=theirs, stderr=subprocess.PIPE)
    says = b"script: a script file is bytes, and standard output is a terminal: name a file behind the text\n"
    yield "a terminal", (2, says), (done.returncode, done.stderr)
    done = subprocess.run([COMMAND, "list", EXAMPLES / "read.script"], stdout=theirs, stderr=subprocess.PIPE)
    listed = b"time 2006-12-20 18:19:20\r\n\r\nSTART 65 read-ack read-nak STOP\r\n"
    yield "a listing on it", (0, b"", listed), (done.returncode, done.stderr, os.read(ours, 1000))
    for end in (ours, theirs):
        os.close(end)
    status, out, err = run(folder, "--help")
    yield "help", (0, "", True), (status, err, out.startswith(b"usage: tools/script assemble TEXT [FILE]\n"))


def shell_outputs(folder):
    """Outputs that are full, closed, left by their reader, or given no room for so much as a byte of a file."""
    listed = f"'{COMMAND}' list '{EXAMPLES / 'read.script'}'"
    for line, says in {
        f"{listed} > /dev/full": "script: standard output: cannot be written: No space left on device\n",
        f"{listed} >&-": "script: standard output: cannot be written: Bad file descriptor\n",
        f"{listed} | true": "",
        f"ulimit -f 0; {listed} kept": "script: kept: cannot be written: File too large\n",
    }.items():
        done = subprocess.run(line, shell=True, cwd=folder, capture_output=True, text=True)
        yield line, ("", says), (done.stdout, done.stderr)
    yield "a file that nothing was to be written to", b"kept", content(folder / "kept")
    names = ["a file", "bad.text", "kept", "link", "listing", "older"]
    yield "what is in the folder", names, sorted(os.listdir(folder))


def command():
    os.umask(0o027)
    with tempfile.TemporaryDirectory() as name:
        for part in (conversions, complaints, outputs, shell_outputs):
            for what, owed, given in part(Path(name)):
                yield from differing(what, owed, given)


def main():
    draw = random.Random(SEED)
    parts = [stored_files(), random_files(draw), random_texts(draw), meanings(), hours(), errors(), unprovoked()]
    faults = 0
    for part in (*parts, listings(), examples(), page(), command()):
        for fault in part:
            print(f"texts: {fault}")
            faults += 1
    many = len(list((stored.FILES / "data").iterdir()))
    print(f"texts: {many} stored and {RANDOM_FILES} random files, {RANDOM_TEXTS} random texts, {len(ERRORS)} errors")
    return 1 if faults else 0


if __name__ == "__main__":
    sys.exit(main())
