"""What ./test tries: its parts, in their order."""

import sys
from typing import NamedTuple, Optional


class Call(NamedTuple):
    """A command, and what it means if it fails."""

    words: tuple
    complaint: str


class Part(NamedTuple):
    """What is tried under one name: by which calls, by which others behind rt ci, and whether it fills all processors."""

    name: str
    about: str
    calls: tuple
    whole: Optional[tuple] = None
    wide: bool = False


def python(complaint, *words):
    return Call((sys.executable, *words), complaint)


def cargo(verb, complaint):
    words = ("--manifest-path", "harness/Cargo.toml", "--quiet", "--release", "--offline")
    return Call(("cargo", verb, *words), complaint)


def built(program):
    """So that the tests meet it as a user does who has called it before."""
    return Call(("tools/program", "--words", program), "the program %s cannot be had" % program)


def random(*counts):
    said = "the two models differ on a random file or step"
    return tuple(python(said, "tests/compare.py", what, str(seed), str(count)) for what, seed, count in counts)


# Several parts ask for the programs of the independent model.
MODEL = cargo("build", "the independent model cannot be built")
REFUSALS = python("a must-fail edit was not refused for its reason", "tests/refusals.py")
WRONG = python("a wrong program was not refused for its reason", "tests/wrong_programs.py")
WRONG_AGAIN, WRONG_TOO = (WRONG._replace(words=(*WRONG.words, word)) for word in ("--again", "--rt"))
BAD_EDITS = python("a bad edit is not told as it should be", "tests/bad_edits.py")

# How many of the parts ask for nothing that is built.
BEFORE_RT = 2
PARTS = (
    Part(
        "layout",
        "the layout of the sources, by rt fmt",
        (python("a source is not in rt's layout: run rt fmt in its crate", "tests/layout.py"),),
    ),
    Part(
        "pages",
        "the promises, the rules, and every name and link of the pages",
        (
            python("docs/PROMISES.md does not say what is proved", "tests/promises.py"),
            python("a page names what is not there", "tests/rules.py"),
        ),
    ),
    Part(
        "wrong",
        "the wrong programs, over what is proved, and that a harmless one would be told",
        (WRONG_TOO, BAD_EDITS),
        whole=(WRONG_AGAIN, BAD_EDITS),
        wide=True,
    ),
    Part(
        "model",
        "the independent model, and what it has written for the vector programs",
        (MODEL, cargo("test", "a test of the independent model failed")),
    ),
    Part(
        "boards",
        "the header and the archive for C, and the Rust package over it",
        (
            MODEL,
            python("the archive is not what its header and the independent model say", "tests/boundary.py"),
            Call(("tests/bindings.sh",), "the package bindings/rust does not do what it should"),
        ),
    ),
    Part(
        "clock",
        "./clock on a script and on a folder, and what README prints",
        (
            MODEL,
            built("clock"),
            built("explain"),
            python("./clock does not do what it should", "tests/clock.py"),
            python("./clock does not do what it should with a folder", "tests/folder.py"),
            python("a page's commands do not print what stands there", "tests/readme.py"),
        ),
    ),
    Part(
        "calls",
        "what ./test and tools/program say of their words",
        (python("./test or tools/program does not do what it should", "tests/calls.py"),),
    ),
    Part(
        "yardstick",
        "the yardstick of ./bench",
        (python("the yardstick does not follow the rules", "tests/yardstick.py"),),
    ),
    Part("texts", "scripts as text", (MODEL, python("the text form is not what docs/SCRIPTS.md says", "tests/texts.py"))),
    Part(
        "explained",
        "runs explained, in facts, words and pictures",
        (
            MODEL,
            built("clock"),
            built("explain"),
            python("the two models differ on what happened", "tests/facts.py"),
            python("an explained run is not worded as it should be", "tests/words.py"),
            python("a run is not drawn as it should be", "tests/picture.py"),
        ),
    ),
    Part(
        "figures",
        "the calendar's figures, by Python's datetime",
        (python("the figures are not those that calendar_vectors is held to", "tests/figures.py"),),
    ),
    Part(
        "random",
        "random files and steps on both models",
        random(("files", 3, 1000), ("steps", 3, 1000)),
        whole=random(("files", 1, 20000), ("steps", 2, 20000)),
        wide=True,
    ),
)
