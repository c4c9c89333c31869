"""Wrong programs as texts: an edit of a crate, as a file has it, and a copy of the crate with edits in it.

The form is that of rt's must-fail edits: comment lines; a line `file:` with a path in the crate; behind it pairs of a
line `old:`, whose text stands just once in that file, and a line `new:`.
"""

import functools
import re
import shutil
from pathlib import Path
from typing import NamedTuple

from refusals import comment

CRATES = Path("crates")
PARTS = ("src", "specs", "proofs")


class Bad(Exception):
    """An edit that cannot be tried, or that is not refused."""


class Edit(NamedTuple):
    """A wrong program: its crate, its label, its text, and the replacements: a file, the old text and the new."""

    crate: str
    label: str
    text: str
    pairs: tuple

    @property
    def name(self):
        return "%s/%s" % (self.crate, self.label)

    @property
    def proof(self):
        """The function in whose proof, or the file in which, it is to be refused."""
        return (comment(self.text, "Refused in") or "").rpartition(", ")[0]

    @property
    def body(self):
        """The function whose body is all that it changes, by its file and its place there; or None."""
        found = {body_with(self.crate, file, old) for file, old, _ in self.pairs}
        return found.pop() if len(found) == 1 and "::" in self.proof else None


def read(crate, file):
    """The edit of a crate that a file has."""
    text = file.read_text(encoding="utf-8")
    named, old = "", None
    pairs = []
    for line in text.split("\n"):
        word, _, rest = line.partition(":")
        rest = rest[1:] if rest.startswith(" ") else rest
        if word == "file":
            named = rest
        elif word == "old":
            old = rest
        elif word == "new":
            pairs.append((named, old, rest))
            old = None
    return Edit(crate, file.stem, text, tuple(pairs))


@functools.lru_cache(maxsize=None)
def source(crate, file):
    """The text of a crate's file; empty where a path leads to none."""
    parts = file.split("/")
    path = CRATES / crate / file
    inside = parts[0] in PARTS and ".." not in parts and path.is_file()
    return path.read_text(encoding="utf-8") if inside else ""


def bodies(text):
    """Where the body of each function begins and ends, by rt's layout: braces stand below the fn or end its line."""
    place = 0
    indent = begin = None
    for line in text.splitlines(keepends=True):
        head = re.match(r"( *)(?:pub(?:\(crate\))? )?(?:extern \"C\" )?fn \w", line)
        if head:
            indent, begin = head.group(1), None
        place += len(line)
        if indent is not None and begin is None and (line == indent + "{\n" or head and line.endswith("{\n")):
            begin = place
        elif begin is not None and line == indent + "}\n":
            yield begin, place - len(line)
            indent = begin = None


def body_with(crate, file, old):
    """The function in whose body an old text stands, or None."""
    text = source(crate, file) if file.startswith("src/") else ""
    at = text.find(old) if old else -1
    return next(((file, begin) for begin, end in bodies(text) if begin <= at and at + len(old) <= end), None)


def spots(edits):
    """The replacements of several edits by their files, each with the place of its old text."""
    found = {}
    for edit in edits:
        if not edit.pairs:
            raise Bad("it has no 'old:' and 'new:' pair")
        for file, old, new in edit.pairs:
            text = source(edit.crate, file)
            if not text:
                raise Bad("a 'file:' line names no file of the crate")
            if not old or text.count(old) != 1:
                raise Bad("an 'old:' text is not in %s just once" % file)
            found.setdefault(file, []).append((text.index(old), old, new))
    return found


def copy(edits, place):
    """Leaves a copy of the edits' crate with all of them in it."""
    crate = edits[0].crate
    replaced = spots(edits)
    shutil.rmtree(place, ignore_errors=True)
    for part in PARTS:
        if (CRATES / crate / part).is_dir():
            shutil.copytree(CRATES / crate / part, place / part)
    for file, changes in replaced.items():
        text = source(crate, file)
        # From the last place to the first, so that those before it stay true.
        for at, old, new in sorted(changes, reverse=True):
            if text[at : at + len(old)] != old:
                raise Bad("two replacements in %s meet" % file)
            text = text[:at] + new + text[at + len(old) :]
        (place / file).write_text(text, encoding="utf-8")
