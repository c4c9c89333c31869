"""The clock as C meets it: the header, the archive against the independent model, and the example board.

usage: python3 tests/boundary.py [ARCHIVE]

ARCHIVE is by default the one that tools/archive proves and builds. The cases are those of
harness/target/release/boundary. A line for each part; the exit status is 1 where one is not as it should be, and 2
where something is missing.
"""

import os
import subprocess
import sys
import tempfile
from pathlib import Path

ROOT = Path(__file__).resolve().parent.parent
TOOLS = ROOT / "tools"
CASES = ROOT / "harness" / "target" / "release" / "boundary"
BOARD = ROOT / "examples" / "board.c"

# 20 December at 09:15, then at 9:15 PM: in 12-hour mode 29h is the code of the latter (rule 3.5).
BOARD_LINES = "12200915\n12202915\n"

# What is compiled: the header alone, twice as two headers of a board may have it, and the example board.
TEXTS = ('#include "include/tallowreed.h"\n' * 2, '#include "examples/board.c"\n')

WARNINGS = "-Wall -Wextra -pedantic -Werror -Wconversion -Wsign-conversion -Wshadow -Wcast-qual -Wundef"
COMPILERS = {
    "gcc": (["c89", "c99", "c11"], ["-xc", "-Wstrict-prototypes", "-Wmissing-prototypes", "-Wc++-compat"]),
    "g++": (["c++98", "c++17"], ["-xc++"]),
}


class Failed(Exception):
    """Something is not as it should be."""


class Missing(Exception):
    """Something that is needed is not there."""


def call(words, **options):
    """What a command ended with; its output is text."""
    try:
        return subprocess.run(list(map(str, words)), cwd=ROOT, stdout=subprocess.PIPE, text=True, **options)
    except FileNotFoundError:
        raise Missing("%s is missing" % words[0]) from None


def compile_text(text, compiler, standard, flags):
    """Nothing is kept of it."""
    words = [compiler, "-std=" + standard, "-O2", *WARNINGS.split(), *flags, "-I", ROOT, "-c", "-o", os.devnull, "-"]
    if call(words, input=text).returncode != 0:
        raise Failed("%s does not compile it as %s: %s" % (compiler, standard, text.splitlines()[0]))


def header():
    for compiler, (standards, flags) in COMPILERS.items():
        for standard in standards:
            for text in TEXTS:
                compile_text(text, compiler, standard, flags)
    standards = [standard for listed, _ in COMPILERS.values() for standard in listed]
    return "the header and the example board compile as %s" % ", ".join(standards)


def find_archive(words):
    if words:
        archive = Path(words[0]).resolve()
        if not archive.is_file():
            raise Missing("there is no archive %s" % words[0])
        return archive
    done = call([TOOLS / "archive"], stdin=subprocess.DEVNULL)
    if done.returncode != 0:
        raise Failed("tools/archive failed")
    return Path(done.stdout.rstrip("\n"))


def build(program, sources, archive):
    if call([TOOLS / "c", "build", program, *sources, archive]).returncode != 0:
        raise Failed("%s cannot be built with %s" % (program.name, archive))


def comparison(folder, archive):
    """The program's own line, of how much was compared or of the first difference."""
    if not CASES.is_file():
        raise Missing("%s is missing: build harness with cargo build --release" % CASES.relative_to(ROOT))
    program, cases = folder / "boundary", folder / "cases"
    build(program, sorted((ROOT / "tests" / "boundary").glob("*.c")), archive)
    with cases.open("wb") as written:
        if subprocess.run([CASES], stdout=written).returncode != 0:
            raise Failed("the independent model wrote no cases")
    with cases.open("rb") as given:
        done = call([program], stdin=given)
    if done.returncode != 0:
        print(done.stdout, end="")
        raise Failed("the archive does not do what it should (status %d)" % done.returncode)
    return done.stdout.strip()


def board(folder, archive):
    program = folder / "board"
    build(program, [BOARD], archive)
    done = call([program])
    if (done.returncode, done.stdout) != (0, BOARD_LINES):
        raise Failed("examples/board printed %r and ended with status %d" % (done.stdout, done.returncode))
    return "the example board reads back %s" % " and ".join(BOARD_LINES.split())


def main(words):
    if len(words) > 1 or words[:1] in (["-h"], ["--help"]):
        print(__doc__.strip(), file=sys.stderr if len(words) > 1 else sys.stdout)
        return 2 if len(words) > 1 else 0
    try:
        print(header(), flush=True)
        archive = find_archive(words)
        with tempfile.TemporaryDirectory() as name:
            print(comparison(Path(name), archive), flush=True)
            print(board(Path(name), archive))
    except (Failed, Missing) as error:
        print("boundary: %s" % error, file=sys.stderr)
        return 1 if isinstance(error, Failed) else 2
    return 0


if __name__ == "__main__":
    sys.exit(main(sys.argv[1:]))
