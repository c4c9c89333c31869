"""The facts of script files: what the proved program `explain` prints, compared with the independent model.

usage: python3 tests/facts.py

The files are the stored ones, the examples and random ones. Of each all lines are compared, and its answers and pins
are held to what the script program prints. A file with more than LIMIT pulses is left out: `explain` makes them one by
one. Says how much was compared and left out; the exit status is 1 on a difference, and then each file's first is shown.
"""

import os
import random
import subprocess
import sys
import tempfile
from concurrent.futures import ThreadPoolExecutor
from itertools import zip_longest
from pathlib import Path
from typing import NamedTuple

ROOT = Path(__file__).resolve().parent.parent
sys.path.insert(0, str(ROOT / "tools"))

from scripts import programs, text

MODEL = ROOT / "harness" / "target" / "release"
SEED = 2068
RANDOM_FILES = 250
LIMIT = 1_000_000


class Case(NamedTuple):
    """A script file, and the facts that the independent model has of it."""

    name: str
    script: bytes
    owed: bytes

    def events(self):
        """The words of each event's line."""
        lines = (line.split(b" ") for line in self.owed.splitlines())
        return [words for words in lines if words[0] == b"event"]

    def pulses(self):
        return sum(int(words[4]) for words in self.events())

    def refused(self):
        return self.owed.startswith(b"refused ")


def build():
    """Both sides, each once, before anything is run beside anything else."""
    words = ["cargo", "build", "--quiet", "--release", "--offline", "--manifest-path", ROOT / "harness" / "Cargo.toml"]
    subprocess.run(words, check=True, env=dict(os.environ, CARGO_TARGET_DIR=MODEL.parent))
    for crate in ("explain", "clock"):
        programs.command(crate)


def model(name, *words):
    """What a program of the independent model writes."""
    return subprocess.run([MODEL / name, *words], check=True, capture_output=True).stdout


def drawn(folder):
    """Random files, named by the numbers that they are drawn from."""
    draw = random.Random(SEED)
    for _ in range(RANDOM_FILES):
        x = draw.randrange(2**32)
        path = Path(folder) / f"random file {x}"
        path.write_bytes(model("random", "file", str(x)))
        yield path


def examples(folder):
    """The example scripts, those in words assembled."""
    yield from sorted((ROOT / "examples").glob("*.script"))
    for words in sorted((ROOT / "examples").glob("*.text")):
        path = Path(folder) / words.name
        path.write_bytes(text.assembled(words.read_bytes()))
        yield path


def cases(paths):
    return [Case(path.name, path.read_bytes(), model("facts", "lines", path)) for path in paths]


def difference(name, expected, given):
    """The first line that differs, as a line to print, or nothing."""
    if expected == given:
        return []
    lines = zip_longest(expected.split(b"\n"), given.split(b"\n"), fillvalue=b"")
    at, (left, right) = next((at, pair) for at, pair in enumerate(lines, 1) if pair[0] != pair[1])
    return [f'{name}, line {at}: expected "{left.decode()}", got "{right.decode("ascii", "replace")}"']


def wire(case):
    """What the script program has to print where these are the facts."""
    if case.refused():
        return b" ".join(case.owed.split(b" ")[:2]) + b"\n"
    return b"".join(b" ".join(words[5:7]) + b"\n" for words in case.events())


def differences(case):
    """The facts against the independent model's; where they are the same, their answers against the script program."""
    found = difference(f"facts of {case.name}", case.owed, programs.output("explain", case.script))
    return found or difference(f"script program on {case.name}", wire(case), programs.output("clock", case.script))


def compared(what, paths):
    """Compares these files and prints how many they are; says whether there was no difference."""
    every = cases(paths)
    some = [case for case in every if case.pulses() <= LIMIT]
    with ThreadPoolExecutor(os.cpu_count()) as pool:
        found = sum(pool.map(differences, some), [])
    for line in found:
        print(line)
    refused = sum(case.refused() for case in some)
    events, pulses = sum(len(case.events()) for case in some), sum(case.pulses() for case in some)
    print(f"facts: {len(some)} {what} compared, {refused} of them refused, {events} events, {pulses} pulses;", end=" ")
    print(f"{len(every) - len(some)} over {LIMIT} pulses left out; {len(found)} differ")
    return bool(some) and not found


def main():
    try:
        build()
        with tempfile.TemporaryDirectory() as folder:
            groups = {
                "stored files": sorted((ROOT / "tests" / "files" / "data").iterdir()),
                "examples": examples(folder),
                "random files": drawn(folder),
            }
            return 0 if all([compared(what, paths) for what, paths in groups.items()]) else 1
    except FileNotFoundError as error:
        print(f"facts: {error.filename} is missing", file=sys.stderr)
    except subprocess.CalledProcessError as error:
        print(f"facts: {error.cmd[0]} ended with status {error.returncode}", file=sys.stderr)
    except (programs.Missing, programs.Stopped) as error:
        print(f"facts: {error}", file=sys.stderr)
    return 1


if __name__ == "__main__":
    sys.exit(main())
