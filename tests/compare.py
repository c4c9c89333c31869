"""Random files or steps, drawn by the independent model and run on both sides, compared byte for byte.

usage: python3 tests/compare.py files|steps SEED COUNT

The same SEED and COUNT give the same draws each time. Says how many were compared, or names the first one that
the two sides differ on and how to look into it; the exit status is then 1.
"""

import os
import re
import subprocess
import sys
from collections import namedtuple
from concurrent.futures import ThreadPoolExecutor

ROOT = os.path.dirname(os.path.dirname(os.path.abspath(__file__)))
TARGET = os.path.join(ROOT, "harness", "target")
RANDOM = os.path.join(TARGET, "release", "random")
SHOWN = os.path.relpath(RANDOM, ROOT)
PROGRAM = [os.path.join(ROOT, "tools", "program"), "sd2068_vectors"]
SIZE = 1000

# The lines that begin so tell a refusal: no line of a state or an output does.
REFUSED = {"files": re.compile(rb"^refusal [1-9]", re.MULTILINE), "steps": re.compile(rb"^refused ", re.MULTILINE)}

# What the program printed for the batch of so many drawn from x, and its exit status.
Batch = namedtuple("Batch", "what x size output status")


def build():
    """Both sides, each once, before anything is run beside anything else."""
    words = ["cargo", "build", "--quiet", "--release", "--offline"]
    words += ["--manifest-path", os.path.join(ROOT, "harness", "Cargo.toml")]
    subprocess.run(words, check=True, env=dict(os.environ, CARGO_TARGET_DIR=TARGET))
    subprocess.run(PROGRAM, check=True, stdin=subprocess.DEVNULL)


def model(*words):
    """What the independent model's program writes for these words."""
    return subprocess.run([RANDOM, *map(str, words)], check=True, stdout=subprocess.PIPE).stdout


def starts(what, x, count, size):
    """The number that each batch is drawn from."""
    return [int(line) for line in model("starts", what, x, count, size).split()]


def given(what, x, size):
    """A batch as the proved program runs it."""
    done = subprocess.run(PROGRAM, input=model("items", what, x, size), stdout=subprocess.PIPE)
    return Batch(what, x, size, done.stdout, done.returncode)


def checked(what, x, size):
    """How many of a batch are refused, and the batch if the two sides differ on it."""
    owed = model("lines", what, x, size)
    batch = given(what, x, size)
    same = batch.output == owed and batch.status == 0
    return len(REFUSED[what].findall(owed)), None if same else batch


def checked_all(what, seed, count):
    """How many are refused, and the first batch that the two sides differ on."""
    size, refused = min(SIZE, count), 0
    with ThreadPoolExecutor(os.cpu_count()) as pool:
        try:
            for part, differing in pool.map(lambda x: checked(what, x, size), starts(what, seed, count, size)):
                if differing:
                    return refused, differing
                refused += part
        finally:
            # Whatever ends the loop, no batch begins behind it.
            pool.shutdown(cancel_futures=True)
    return refused, None


def first_difference(batch):
    """The place of the first one whose lines are not the next of the output, and its number; else nothing."""
    at = 0
    for place, x in enumerate(starts(batch.what, batch.x, batch.size, 1)):
        owed = model("lines", batch.what, x, 1)
        if not batch.output.startswith(owed, at):
            return place, x
        at += len(owed)
    return None


def report(batch):
    """Which one of a batch differs, found by going through it one by one."""
    what, one = batch.what, batch.what[:-1]
    found = first_difference(batch)
    if found:
        place, x = found
        print(f"compare: the two sides differ on the {one} drawn from {x}")
        print(f"compare: {SHOWN} {one} {x} writes it, {SHOWN} lines {what} {x} 1 what is owed for it")
        if checked(what, x, 1)[1] is None:
            print(f"compare: alone it comes out the same; {SHOWN} items {what} {batch.x} {place + 1} ends with it")
    else:
        print(f"compare: the program does not end as it should behind the batch drawn from {batch.x}")
        print(f"compare: {SHOWN} items {what} {batch.x} {batch.size} writes it")
    if batch.status:
        print(f"compare: the program ended with status {batch.status}")


def compared(what, seed, count):
    refused, differing = checked_all(what, seed, count)
    if differing:
        report(differing)
        return 1
    print(f"{count} {what} from {seed} compared, {refused} of them refused, no difference")
    return 0


def asked(words):
    """What to draw, from where and how many, or nothing if the words make no sense."""
    if len(words) != 3 or words[0] not in REFUSED or not all(w.isdecimal() and w.isascii() for w in words[1:]):
        return None
    seed, count = int(words[1]), int(words[2])
    whole = 0 < count <= SIZE or count % SIZE == 0
    return (words[0], seed, count) if seed < 2**32 and 0 < count < 2**32 and whole else None


def main(words):
    ask = asked(words)
    if ask is None:
        print("usage: python3 tests/compare.py files|steps SEED COUNT", file=sys.stderr)
        print("SEED is below 4294967296, COUNT at most 1000 or a multiple of 1000", file=sys.stderr)
        return 2
    try:
        build()
        return compared(*ask)
    except OSError as error:
        print(f"compare: {error.filename}: {error.strerror}", file=sys.stderr)
    except subprocess.CalledProcessError as error:
        print(f"compare: {error.cmd[0]} ended with status {error.returncode}", file=sys.stderr)
    return 2


if __name__ == "__main__":
    sys.exit(main(sys.argv[1:]))
