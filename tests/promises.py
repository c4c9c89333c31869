"""docs/PROMISES.md names only theorems and wrong programs that there are, and leaves no promise out.

A line that begins with "- Theorem" names theorems, each as `name`, and all of
them stand in one file. A wrong program is named by its file.
"""

import re
import sys
from pathlib import Path

from names import theorems
from refusals import comment

PAGE = Path("docs/PROMISES.md")
FILE = Path("crates/promises/proofs/Promises.antt")
THEOREMS = re.compile(r"^- Theorems?: .*$", re.MULTILINE)
EDITS = re.compile(r"`(crates/[a-z0-9_]+/(?:must-fail|wrong)/\w+\.edit)`")


def named(text):
    """The theorems named in a text."""
    return {name for line in THEOREMS.findall(text) for name in re.findall(r"`([a-z]\w*)`", line)}


def by_law(edit):
    """Whether an edit changes a definition and its code, or a statement, and a law refuses it and no function's proof."""
    text = Path(edit).read_text(encoding="utf-8")
    met = "\nfile: src/" in text or edit.startswith("crates/promises/")
    return met and "\nfile: specs/" in text and "::" not in (comment(text, "Refused in") or "")


def wrong(promise):
    """The wrong programs of a promise that a law refuses."""
    return {edit for edit in EDITS.findall(promise) if Path(edit).is_file() and by_law(edit)}


def faults(page):
    for name in sorted(named(page) - theorems(FILE)):
        yield "%s has no theorem %s" % (FILE, name)
    for name in sorted(theorems(FILE) - named(page)):
        yield "%s is promised in %s and not on the page" % (name, FILE)
    for path in sorted(set(re.findall(r"`((?:crates|docs|tests)/[^`*]+)`", page))):
        if not Path(path).exists():
            yield "%s is not there" % path
    for promise in re.split(r"^#+ ", page, flags=re.MULTILINE)[1:]:
        title = promise.splitlines()[0]
        if named(promise) and len(wrong(promise)) < 2:
            yield "%s: fewer than two wrong programs that a law refuses" % title
        if "- Wrong" in promise and not named(promise):
            yield "%s: no theorem" % title


def main():
    page = PAGE.read_text(encoding="utf-8")
    found = list(faults(page))
    for fault in found:
        print("%s: %s" % (PAGE, fault))
    print("%d theorems are named on the page" % len(named(page)))
    return 1 if found or not named(page) else 0


if __name__ == "__main__":
    sys.exit(main())
