"""The yardstick of ./bench, compared with the independent model: one that is wrong would measure nothing.

Script files, stored and random, and single steps, stored and random, are held to what the independent model says;
second numbers and dates to Python's datetime. Prints how much was compared; the exit status is 1 on a difference.
"""

import os
import random
import re
import struct
import subprocess
import sys
import tempfile
from pathlib import Path

import calendar_figures

ROOT = Path(__file__).resolve().parent.parent
TARGET = ROOT / "target" / "benches"
MODEL = ROOT / "harness" / "target" / "release"
FILES = ROOT / "tests" / "files"
ROUNDS = ROOT / "crates" / "date_rounds"
C = ROOT / "tools" / "c"

SEED = 2068
RANDOM_FILES = 300
RANDOM_STEPS = 2000
NUMBERS = 100_000
PATTERNS = 100_000


class Difference(Exception):
    pass


def output(words, **options):
    """What a program writes to standard output; it must end with status 0."""
    return subprocess.run(words, check=True, stdout=subprocess.PIPE, **options).stdout


def build():
    """The independent model and the programs with the yardstick in them."""
    words = ["cargo", "build", "--quiet", "--release", "--offline", "--manifest-path", ROOT / "harness" / "Cargo.toml"]
    subprocess.run(words, check=True, env=dict(os.environ, CARGO_TARGET_DIR=MODEL.parent))
    TARGET.mkdir(parents=True, exist_ok=True)
    for name, part in (("check", "yardstick"), ("program", "yardstick"), ("check_dates", "dates"), ("rounds", "dates")):
        sources = [ROOT / "benches" / f"{name}.c", ROOT / "benches" / f"{part}.c"]
        subprocess.run([C, "build", TARGET / name, "-I", ROOT / "include", *sources], check=True)


def yardstick(name, *words, **options):
    return output([TARGET / name, *words], **options)


def compare(what, owed, given):
    """The first line that differs, if one does."""
    if owed == given:
        return
    left, right = (part.decode("ascii", "replace").splitlines() for part in (owed, given))
    at = next((n for n, (a, b) in enumerate(zip(left, right)) if a != b), min(len(left), len(right)))
    shown = [lines[at] if at < len(lines) else "the end" for lines in (left, right)]
    raise Difference(f"{what}, line {at + 1}: expected {shown[0]}, the yardstick says {shown[1]}")


def stored_files():
    words = (FILES / "args").read_text().split()
    given = yardstick("check", "runs", *words, cwd=FILES / "data")
    compare("stored script files", (FILES / "runs").read_bytes(), given)
    return len(words) // 2


def answers():
    """The whole program on each stored file."""
    names = sorted((FILES / "data").iterdir())
    for name in names:
        given = yardstick("program", input=name.read_bytes())
        compare(f"program on {name.name}", output([MODEL / "script", "answer", name]), given)
    return len(names)


def random_files(draw):
    with tempfile.TemporaryDirectory() as folder:
        words = []
        for _ in range(RANDOM_FILES):
            x = str(draw.randrange(2**32))
            drawn = subprocess.run([MODEL / "random", "file", x], check=True, capture_output=True)
            (Path(folder) / x).write_bytes(drawn.stdout)
            words += [x, drawn.stderr.split()[1].decode()]
        args = Path(folder) / "args"
        args.write_text("\n".join(words))
        owed = output([MODEL / "script", "lines", folder, args])
        compare("random script files, by their numbers", owed, yardstick("check", "runs", *words, cwd=folder))
    return RANDOM_FILES


def scripts_in(items):
    """The items that are scripts, which come first (harness/README.md), and how many events they have."""
    at = events = 0
    while at < len(items) and items[at] <= 1:
        at += 1 + (61 if items[at] else 19)
        count = int.from_bytes(items[at : at + 2], "little")
        at += 2 + 4 * count
        events += count
    return items[:at], events


def without_pins(lines):
    """The yardstick says of an event that is refused only with what number."""
    return re.sub(rb"^(refused [0-9]) -- [HLX]$", rb"\1", lines, flags=re.MULTILINE)


def steps(what, items):
    items, events = scripts_in(items)
    with tempfile.NamedTemporaryFile() as file:
        file.write(items)
        file.flush()
        owed = without_pins(output([MODEL / "sd2068", "lines", file.name]))
        compare(what, owed, yardstick("check", "items", input=items))
    return events


def damaged_steps():
    """A START on the state of an open transfer with one bit turned, each bit but those of phase and mark."""
    items = b""
    for bit in range(8 * 61):
        state = bytearray(61)
        state[0x0F], state[41] = 0x01, 1
        state[bit // 8] ^= 1 << bit % 8
        if bit // 8 not in (41, 42):
            items += bytes([1, *state, 1, 0, 0, 0, 0, 0])
    return steps("damaged states", items)


def no_states():
    """A phase over 5, a mark over 1, and an age or a mark on a closed bus are no state: tallowreed.h refuses them."""
    odd = [(41, 6), (41, 255), (42, 1), (42, 2), (43, 1), (44, 1)]
    for at, value in odd:
        state = bytes(value if n == at else 0 for n in range(61))
        given = yardstick("check", "items", input=bytes([1, *state, 1, 0, 0, 0, 0, 0]))
        compare(f"byte {at} of a state as {value}", f"refused 1\n{state.hex().upper()}\n".encode(), given)
    return len(odd)


def start_lengths():
    """Start bytes that are not 19 are refused with 5, whatever they are, and leave what 19 zero bytes give (8.4)."""
    state = bytearray(61)
    state[0x0F] = 0x01
    lengths = [0, 1, 18, 20, 61]
    for length in lengths:
        given = yardstick("check", "start", input=b"\xFF" * length)
        compare(f"{length} start bytes", f"refused 5\n{state.hex().upper()}\n".encode(), given)
    return len(lengths)


def random_steps(draw):
    drawn = (output([MODEL / "random", "step", str(draw.randrange(2**32))]) for _ in range(RANDOM_STEPS))
    return steps("random steps", b"".join(drawn))


def numbers(draw):
    """Second numbers in both modes: the ends, their neighbours beyond, and any."""
    century = calendar_figures.CENTURY
    asked = [0, 1, century - 1, century, century + 1, 2**32 - 1]
    asked += [draw.randrange(century) for _ in range(NUMBERS - len(asked))]
    for number in asked:
        for mode in (0, 1):
            yield number, mode, calendar_figures.time_of(number, bool(mode), 0) if number < century else None


def patterns(draw):
    """Seven bytes, legal or not: the patterns of the calendar's figures, and legal times with one byte changed."""
    drawn = calendar_figures.draws(SEED)
    for _ in range(PATTERNS // 2):
        yield calendar_figures.pattern_of(drawn)
        time = calendar_figures.time_of(draw.randrange(calendar_figures.CENTURY), draw.random() < 0.5, 0)
        time[draw.randrange(7)] = draw.randrange(256)
        yield time


def text(figures):
    return "none" if figures is None else " ".join(map(str, figures))


def dates(draw):
    asked, owed = [], []
    for number, mode, time in numbers(draw):
        asked.append(f"n {number} {mode}")
        owed.append(text(time))
    for time in patterns(draw):
        number = calendar_figures.second_number(time)
        asked.append("t " + text(time))
        owed.append(text(None if number is None else [number]))
    given = yardstick("check_dates", input="\n".join(asked).encode())
    compare("dates", "\n".join(owed + [""]).encode(), given)
    return len(asked)


def digest_of(drawn, count):
    """What the rounds from a seed come to, by datetime."""
    digest = 0
    for _ in range(count):
        drawn = (drawn * 1664525 + 1013904223) % 2**32
        number = drawn % calendar_figures.CENTURY
        for figure in [*calendar_figures.time_of(number, bool(drawn >> 16 & 1), 0), number]:
            digest = (digest * 31 + figure) % 2**32
    return f"{digest}\n".encode()


def rounds():
    """What is stored for date_rounds, which is asked for both its ways, and what the yardstick prints."""
    asked = list(struct.iter_unpack("<IIB", (ROUNDS / "stdin").read_bytes()))
    if [way for _, _, way in asked] != [0, 1]:
        raise Difference("what is stored for date_rounds does not ask for each way once")
    owed = [digest_of(seed, count) for seed, count, _ in asked]
    compare("what is stored for date_rounds", b"".join(owed), (ROUNDS / "stdout").read_bytes())
    for (seed, count, _), line in zip(asked, owed):
        compare("rounds", line, yardstick("rounds", input=struct.pack("<II", seed, count)))
    return sum(count for _, count, _ in asked)


def main():
    try:
        build()
        draw = random.Random(SEED)
        files = f"{stored_files()} stored and {random_files(draw)} random runs of script files"
        programs = f"the program on {answers()} files"
        stored = steps("stored steps", (ROOT / "crates" / "sd2068_vectors" / "stdin").read_bytes())
        others = f"{damaged_steps() + no_states()} on damaged states, {random_steps(draw)} random ones"
        lengths = f"{start_lengths()} lengths of start bytes"
        figures = f"{dates(draw)} dates, {rounds()} rounds of dates"
        counts = f"{files}, {programs}, {lengths}, {stored} stored steps, {others}, {figures}"
        print(f"yardstick: {counts} compared, no difference")
        return 0
    except Difference as difference:
        print(f"yardstick: {difference}", file=sys.stderr)
    except FileNotFoundError as error:
        print(f"yardstick: {error.filename} is missing", file=sys.stderr)
    except subprocess.CalledProcessError as error:
        print(f"yardstick: {error.cmd[0]} ended with status {error.returncode}", file=sys.stderr)
    return 1


if __name__ == "__main__":
    sys.exit(main())
