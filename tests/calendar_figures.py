"""Figures of the clock's calendar, to be compared with those of the proved crates.

An implementation of docs/RULES.md, sections 2 and 3, that shares no code with
the crates. Every figure of a legal time comes from Python's datetime; only
for bytes that are no legal time are the rules written out, as lists of legal
bytes in the order in which they follow each other.

A time is a list of seven bytes in register order (rule 2.1): seconds,
minutes, hours, weekday, day, month, year. Prints 47 lines: 25 of dates,
12 of month ends and 10 of patterns, each with a digest of its figures.
"""

from datetime import datetime, timedelta
from itertools import islice

EPOCH = datetime(2000, 1, 1)
SECOND = timedelta(seconds=1)
CENTURY = (datetime(2100, 1, 1) - EPOCH) // SECOND  # 3,155,760,000 (3.14)

NONE = 4294967290  # mixed in where the rules say that there is none; no other figure is as high


# Digests and random numbers

def mix(digest, values):
    for value in values:
        digest = (digest * 1000003 + value + 1) % 4294967291
    return digest


def draws(x):
    while True:
        x = (x * 1664525 + 1013904223) % 4294967296
        yield x


# Legal times, by datetime

def bcd(number):
    return int("%02d" % number, 16)


def decimal(byte):
    """The number that a byte's two digits say; a ValueError if they are none."""
    return int("%02x" % byte)


def hour_code(when, mode24):
    if mode24:
        return 0x80 | bcd(when.hour)
    # "%I" is the hour of a 12-hour clock, 12 at midnight and at noon (3.5).
    return int(when.strftime("%I"), 16) | (0x20 if when.hour >= 12 else 0)


CODES_OF_DAY = {
    mode24: [hour_code(EPOCH + timedelta(hours=h), mode24) for h in range(24)]
    for mode24 in (False, True)
}


def time_of(number, mode24, weekday):
    """The time that has a second number, in the hour mode asked for (3.15)."""
    when = EPOCH + timedelta(seconds=number)
    return [bcd(when.second), bcd(when.minute), CODES_OF_DAY[mode24][when.hour],
            weekday, bcd(when.day), bcd(when.month), bcd(when.year - 2000)]


def is_mode24(time):
    return time[2] >= 0x80


def second_number(time):
    """The second number of a time, or None; datetime alone judges it (3.14)."""
    second, minute, hour, _, day, month, year = time
    try:
        when = datetime(2000 + decimal(year), decimal(month), decimal(day),
                        CODES_OF_DAY[is_mode24(time)].index(hour),
                        decimal(minute), decimal(second))
    except ValueError:
        return None
    return (when - EPOCH) // SECOND


def weekday_on(weekday, midnights):
    """A weekday stepped once for each midnight; an illegal one to 0 first (3.7)."""
    if midnights == 0:
        return weekday
    stepped = weekday + 1 if weekday < 6 else 0
    return (stepped + midnights - 1) % 7


def seconds_on(time, number, n):
    """The time n seconds after one with the given second number (3.16)."""
    start = timedelta(seconds=number)
    end = start + timedelta(seconds=n)
    # The midnights count on over the century's end, where the date wraps.
    weekday = weekday_on(time[3], end.days - start.days)
    return time_of((number + n) % CENTURY, is_mode24(time), weekday)


# Any seven bytes, by the rules

SIXTY = [bcd(n) for n in range(60)]
HOURS_12 = [0x12, 0x01, 0x02, 0x03, 0x04, 0x05, 0x06, 0x07, 0x08, 0x09, 0x10, 0x11,
            0x32, 0x21, 0x22, 0x23, 0x24, 0x25, 0x26, 0x27, 0x28, 0x29, 0x30, 0x31]
HOURS_24 = [0x80, 0x81, 0x82, 0x83, 0x84, 0x85, 0x86, 0x87, 0x88, 0x89,
            0x90, 0x91, 0x92, 0x93, 0x94, 0x95, 0x96, 0x97, 0x98, 0x99,
            0xA0, 0xA1, 0xA2, 0xA3]
WEEKDAYS = [0, 1, 2, 3, 4, 5, 6]
DAYS_31 = [bcd(n) for n in range(1, 32)]
MONTHS = [bcd(n) for n in range(1, 13)]
YEARS = [bcd(n) for n in range(100)]
LEAP_YEARS = YEARS[::4]  # by the number, not the byte; no illegal year (3.8)


def days_of(month, year):
    """The legal days of a month; an illegal month has 31 of them (3.9)."""
    if month in (0x04, 0x06, 0x09, 0x11):
        return DAYS_31[:30]
    if month == 0x02:
        return DAYS_31[:29] if year in LEAP_YEARS else DAYS_31[:28]
    return DAYS_31


def legal_bytes(time):
    """The legal bytes of each field, the day's by month and year as held (3.10)."""
    hours = HOURS_24 if is_mode24(time) else HOURS_12
    days = days_of(time[5], time[6])
    return [SIXTY, SIXTY, hours, WEEKDAYS, days, MONTHS, YEARS]


def step(byte, legal):
    """The next legal byte; the first after the last or an illegal one (3.3)."""
    if byte not in legal or byte == legal[-1]:
        return legal[0]
    return legal[legal.index(byte) + 1]


def one_second_on(time):
    """What one second does to any seven bytes (3.17)."""
    legal = legal_bytes(time)
    after = list(time)
    # The carry goes past the weekday, which carries nowhere (3.7).
    for field in (0, 1, 2, 4, 5, 6):
        after[field] = step(time[field], legal[field])
        if field == 2 and after[2] == legal[2][0]:
            after[3] = step(time[3], legal[3])
        if after[field] != legal[field][0]:
            break
    return after


def legality(time):
    """Whether the time of day (3.6), the date (3.11) and the weekday are legal."""
    held = [byte in legal for byte, legal in zip(time, legal_bytes(time))]
    return all(held[0:3]), all(held[4:7]), held[3]


# The three parts

def print_dates():
    numbers = draws(1)
    for first in range(0, 36525, 1461):
        digest = 0
        for day in range(first, first + 1461):
            number = day * 86400 + next(numbers) // 256 % 86400
            n = next(numbers)
            for mode24 in (False, True):
                time = time_of(number, mode24, day % 8)
                assert second_number(time) == number, (time, number)
                digest = mix(digest, time)
                digest = mix(digest, [number])
                digest = mix(digest, seconds_on(time, number, 1))
                digest = mix(digest, seconds_on(time, number, n))
        print("dates %d to %d digest %d" % (first, first + 1460, digest))


def print_month_ends():
    for first in range(0, 1200, 100):
        digest = 0
        for month in range(first, first + 100):
            following = datetime(2000 + (month + 1) // 12, (month + 1) % 12 + 1, 1)
            number = (following - EPOCH) // SECOND - 1
            for mode24 in (False, True):
                time = time_of(number, mode24, month % 7)
                digest = mix(digest, time)
                digest = mix(digest, seconds_on(time, number, 1))
        print("month ends %d to %d digest %d" % (first, first + 99, digest))


EDGES = [
    [0x59, 0x59, 0x59, 0x00, 0x58, 0x5A, 0x60, 0xD9],  # seconds
    [0x59, 0x59, 0x59, 0x00, 0x09, 0x5F, 0x60, 0xD9],  # minutes
    [0xA3, 0x31, 0xA3, 0x31, 0x11, 0x29, 0xA4, 0x13],  # hours
    [0x00, 0x01, 0x02, 0x03, 0x04, 0x05, 0x06, 0x07],  # weekday
    [0x28, 0x29, 0x30, 0x31, 0x28, 0x29, 0x00, 0x32],  # day
    [0x02, 0x02, 0x04, 0x12, 0x01, 0x09, 0x13, 0x00],  # month
    [0x00, 0x99, 0x01, 0x04, 0x10, 0x96, 0x9A, 0x14],  # year
]


def pattern_of(numbers):
    """Seven bytes, about one in four at random and the others near a carry."""
    return [x // 16777216 if x // 65536 % 4 == 0 else edges[x // 16777216 % 8]
            for edges, x in zip(EDGES, islice(numbers, 7))]


def pattern_figures(time, n):
    """Legality, second number or None, one second on, n seconds on or None."""
    legal = legality(time)
    number = second_number(time)
    after = one_second_on(time)
    assert (number is not None) == (legal[0] and legal[1]), \
        "rules and datetime differ on what is legal: %s" % bytes(time).hex(" ")
    if number is None:
        return legal, None, after, None
    by_datetime = seconds_on(time, number, 1)
    assert after == by_datetime, \
        "rules and datetime differ one second on: %s" % bytes(time).hex(" ")
    return legal, number, by_datetime, seconds_on(time, number, n)


def print_patterns():
    numbers = draws(2)
    for first in range(0, 100000, 10000):
        digest = numbered = turned = 0
        for _ in range(10000):
            time = pattern_of(numbers)
            legal, number, after, later = pattern_figures(time, next(numbers))
            numbered += number is not None
            turned += after[6] != time[6]
            digest = mix(digest, legal)
            digest = mix(digest, [NONE if number is None else number])
            digest = mix(digest, after)
            digest = mix(digest, [NONE] if later is None else later)
        print("patterns %d to %d numbered %d years turned %d digest %d"
              % (first, first + 9999, numbered, turned, digest))


if __name__ == "__main__":
    print_dates()
    print_month_ends()
    print_patterns()
