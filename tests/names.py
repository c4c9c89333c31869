"""What a file defines, by name: for the checks of the pages in docs."""

import re

PYTHON = re.compile(r"^ *def (\w+)", re.MULTILINE)
CODE = re.compile(r'^ *(?:pub(?:\(crate\))? )?(?:extern "C" )?(?:fn|struct|enum|const) (\w+)', re.MULTILINE)
TYPES = re.compile(r"^ *(?:pub )?(?:record|data) (\w+)", re.MULTILINE)
STATED = re.compile(r"^( *)((?:abbrev |unfoldable )?(?:pub )?)([A-Za-z][\w-]*) :", re.MULTILINE)


def stated(text):
    """Each name that an antt file states and gives a body, which a record's field has not, with the words before it."""
    for indent, words, name in STATED.findall(text):
        if re.search(r"^%s%s(?![\w-])[^:\n]*=" % (indent, name), text, re.MULTILINE):
            yield name, words.split()


def theorems(file):
    """The theorems that other files may name: what is public, has a proof and is no abbreviation."""
    if not file.is_file():
        return set()
    found = stated(file.read_text(encoding="utf-8"))
    return {name for name, words in found if "pub" in words and "abbrev" not in words and name[0].islower()}


def defined(file):
    """All that a file defines: one of proofs its theorems, another one in antt its definitions and types."""
    if "proofs" in file.parts:
        return theorems(file)
    text = file.read_text(encoding="utf-8")
    if file.suffix == ".antt":
        return {name for name, _ in stated(text)} | set(TYPES.findall(text))
    return set((PYTHON if file.suffix == ".py" else CODE).findall(text))
