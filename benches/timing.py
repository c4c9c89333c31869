"""Both sides of ./bench: how they are built, compared and timed.

A part has works that are timed: build() makes both sides, compare() stops where they differ, and rows(runs) times them
in turns.
"""

import functools
import os
import statistics
import struct
import subprocess
import tempfile
import time
from dataclasses import dataclass
from pathlib import Path

SOURCES = Path(__file__).resolve().parent
ROOT = SOURCES.parent
BUILT = ROOT / "target" / "benches"
TOOLS = ROOT / "tools"

# A run is so many slices of each side in turns, of about so many seconds, as in measure.c.
SLICES = 5
SLICE = 0.06
SEED = 2068


class Stop(Exception):
    """What ends the command, in one line."""


@dataclass
class Row:
    """Seconds for a unit of work on both sides, for each run."""

    name: str
    unit: str
    proved: list
    yardstick: list

    @property
    def ratios(self):
        return [proved / by_hand for proved, by_hand in zip(self.proved, self.yardstick)]


def call(words, says, **options):
    try:
        return subprocess.run(words, check=True, **options).stdout
    except (OSError, subprocess.CalledProcessError) as error:
        raise Stop(says) from error


def said(words, says):
    """The one line that a command prints."""
    return call(words, says, stdin=subprocess.DEVNULL, stdout=subprocess.PIPE, text=True).rstrip("\n")


# Building

def build_c(name, *others):
    BUILT.mkdir(parents=True, exist_ok=True)
    words = [TOOLS / "c", "build", BUILT / name, "-I", ROOT / "include", SOURCES / f"{name}.c", *others]
    call(words, f"benches/{name}.c cannot be built")


def archive():
    """The proved clock to link: that of this repository, or another that is named."""
    given = os.environ.get("TALLOWREED_ARCHIVE")
    path = Path(given or said([TOOLS / "archive"], "tools/archive failed"))
    if not path.is_file():
        raise Stop(f"no such archive: {path}")
    return path


@functools.cache
def build_measure():
    """Once for all parts that it times."""
    build_c("measure", SOURCES / "yardstick.c", archive())


def proved(crate):
    """A proved program, which tools/program builds if it is not built yet."""
    return Path(said([TOOLS / "program", "--words", crate], f"tools/program {crate} failed"))


# Steps and files, timed by measure.c

class Measured:
    """Works that one process does on both sides in turns, and their total if it has a name."""

    def __init__(self, works, way, total=None):
        self.works, self.way, self.total = works, way, total

    def build(self):
        build_measure()

    def compare(self):
        for work in self.works:
            self.measure(work, 0)

    def measure(self, work, runs):
        """For each run the nanoseconds and rounds of the proved clock, and those of the yardstick."""
        with tempfile.NamedTemporaryFile() as file:
            file.write(work.file)
            file.flush()
            words = [BUILT / "measure", self.way, file.name, str(work.first), str(runs)]
            lines = call(words, f"benches/measure.c fails on: {work.name}", stdout=subprocess.PIPE, text=True)
        return [list(map(int, line.split())) for line in lines.splitlines()]

    def rows(self, runs):
        rows = []
        for work in self.works:
            times = self.measure(work, runs)
            proved = [took / rounds / work.units / 1e9 for took, rounds, _, _ in times]
            by_hand = [took / rounds / work.units / 1e9 for _, _, took, rounds in times]
            rows.append(Row(work.name, work.unit, proved, by_hand))
        return rows + ([self.sum(rows)] if self.total else [])

    def sum(self, rows):
        """As much of each work, one behind the other."""
        proved = [statistics.mean(times) for times in zip(*(row.proved for row in rows))]
        by_hand = [statistics.mean(times) for times in zip(*(row.yardstick for row in rows))]
        return Row(self.total, rows[0].unit, proved, by_hand)


# Whole programs, timed from outside

def time_processes(program, given, times):
    """Seconds that a program takes with this file as its input, started so many times in a row."""
    actions = [(os.POSIX_SPAWN_OPEN, 0, given, os.O_RDONLY, 0), (os.POSIX_SPAWN_OPEN, 1, os.devnull, os.O_WRONLY, 0)]
    begin = time.monotonic()
    for _ in range(times):
        _, status = os.waitpid(os.posix_spawn(program, [program], os.environ, file_actions=actions), 0)
        if status != 0:
            raise Stop(f"{program} failed while it was timed")
    return time.monotonic() - begin


def filling(timing):
    """The amount of work that fills a slice."""
    amount, took = 1, timing(1)
    while took < SLICE / 2:
        amount *= 2
        took = timing(amount)
    return max(1, int(amount * SLICE / took))


class Programs:
    """A work for two programs, which read it from standard input and write the same."""

    flags = []

    def __init__(self, crate, source, other):
        self.crate, self.source, self.other = crate, source, other

    def build(self):
        build_c(self.source, SOURCES / f"{self.other}.c", *self.flags)
        self.sides = [proved(self.crate), BUILT / self.source]

    def compare_on(self, *given):
        """One input for each side."""
        sides = zip(self.sides, given)
        outputs = [call([side], f"{side} failed", input=asked, stdout=subprocess.PIPE) for side, asked in sides]
        if outputs[0] != outputs[1] or not outputs[0]:
            raise Stop(f"the two sides differ on: {self.name}")

    def rows(self, runs):
        with tempfile.NamedTemporaryFile() as file:
            amounts = [filling(lambda amount: self.timing(side, file, amount)) for side in range(len(self.sides))]
            times = [self.run(file, amounts) for _ in range(runs)]
        return [Row(self.name, self.unit, *map(list, zip(*times)))]

    def run(self, file, amounts):
        """Seconds for a unit of work on each side."""
        took = [0, 0]
        for _ in range(SLICES):
            for side, amount in enumerate(amounts):
                took[side] += self.timing(side, file, amount)
        return [seconds / SLICES / amount for seconds, amount in zip(took, amounts)]


def put(file, content):
    file.seek(0)
    file.truncate()
    file.write(content)
    file.flush()


class Scripts(Programs):
    """The script program, a process for each script."""

    unit = "scripts"

    def __init__(self, name, script):
        super().__init__("clock", "program", "yardstick")
        self.name, self.example = name, script

    def compare(self):
        self.compare_on(self.example, self.example)

    def timing(self, side, file, amount):
        put(file, self.example)
        return time_processes(self.sides[side], file.name, amount)


class Dates(Programs):
    """Second numbers to dates and back, all in one process, whose start is not counted."""

    unit = "numbers"
    # The proved crates are compiled as one program, too.
    flags = ["-flto"]

    def __init__(self, name, way):
        super().__init__("date_rounds", "rounds", "dates")
        self.name, self.way = name, way
        self.example = self.asking(1)[0]

    def asking(self, count):
        """The input for each side: the proved program is told the way, too."""
        asked = struct.pack("<II", SEED, count)
        return [asked + bytes([self.way]), asked]

    def compare(self):
        for count in (0, 1, 100_000):
            self.compare_on(*self.asking(count))

    def process(self, side, file, count):
        put(file, self.asking(count)[side])
        return time_processes(self.sides[side], file.name, 1)

    def timing(self, side, file, amount):
        """What the conversions take: a process that makes none is timed beside, and taken off."""
        return self.process(side, file, amount) - self.process(side, file, 0)
