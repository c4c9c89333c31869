#!/usr/bin/env python3
"""Brings the names of this repository's definitions and lemmas to one spelling.

Words are in snake case, types and modules in camel case. Run once at the top of the repository, after the kit's
port.py: it turns specs/, proofs/, the clauses of src/ and the names that the pages cite.
"""

import pathlib
import re

# A definition that is a type, and so keeps a capital.
TYPES = {"eventsRun": "EventsRun"}

# A local name that ends in one register number.
WHOLE = {"to0F": "to_0f"}

# A lemma that port.py has already given the name of the definition that it is about.
JOINED = ("calendar", "LentLaws", "second_from")

NAME = re.compile(r"[^\s(){}\[\];,.:\"`«»]+")
CAMEL = re.compile(r"[a-z][a-z0-9]*(?:[A-Z][A-Za-z0-9]*)+'*$")
DECLARED = re.compile(r"^\s*(?:abbrev |unfoldable |pub )*([^\s(){}\[\];,.:\"]+)\s+:\s", re.M)
ALIAS = re.compile(r"\bas ([^\s(){}\[\];,.:\"]+)")
USE = re.compile(r"^(?:pub )?(?:ghost )?use ([^\s{]+?)\.\{([^}]*)\}", re.M)


def snake(name):
    """The words of a name in lower case, with a line under the gap between two."""
    if name in TYPES or name in WHOLE:
        return TYPES.get(name) or WHOLE[name]
    return re.sub(r"(?<=[a-z0-9])([A-Z])", lambda m: "_" + m.group(1).lower(), name)


class Names:
    """What the repository declares, and the new name of each with a dash."""

    def __init__(self, crates):
        self.crates = {c.name for c in crates}
        self.files = [f for c in sorted(crates) for d in ("specs", "proofs") for f in sorted((c / d).rglob("*.antt"))]
        self.definitions, self.dashed, self.modules = set(), {}, {}
        laws = [(f, f.read_text()) for f in self.files if f.name != "Proof.antt"]
        for f, text in laws:
            for name in DECLARED.findall(text):
                if CAMEL.match(name) or f.parent.name == "specs":
                    self.definitions.add(snake(name))
        for f, text in laws:
            self.dashed.update({n: self.apart(n, "_lem") for n in DECLARED.findall(text) if "-" in n[1:]})
            self.modules.update({n: self.apart(n, "_case") for n in ALIAS.findall(text) if "-" in n[1:]})

    def apart(self, name, end):
        """A name with lines for dashes, and with an end where a definition has that name."""
        new = name.replace("-", "_")
        return new + end if new in self.definitions else new

    def of_kit(self, text):
        """The names that a file has from the kit, which stay."""
        own = lambda path: path.startswith("Rattle.") and path.split(".")[1] in self.crates
        return {n for p, ns in USE.findall(text) if not own(p) for n in re.split(r"[,\s]+", ns)}


def joined(text, path):
    """Whether a file declares or imports the lemma that port.py has joined to its definition."""
    crate, module, name = JOINED
    return path.endswith(f"{crate}/proofs/{module}.antt") or f"{crate}.proofs.{module}.{{{name}}}" in text


def turned(text, path, names, is_law):
    """A file's text in the new spelling; in a comment only names that can be no words."""
    kit = names.of_kit(text)
    is_joined = joined(text, path)

    def one(match):
        name, before = match.group(0), match.string[: match.start()]
        if name in kit:
            return name
        if is_joined and name == JOINED[2] and not before.endswith((".numbers.", "c.")):
            return name + "_lem"
        if CAMEL.match(name):
            return snake(name)
        if not is_law or before.lstrip().startswith("--"):
            return name
        is_module = before.endswith(" as ") or match.string[match.end() :].startswith(".")
        first, second = (names.modules, names.dashed) if is_module else (names.dashed, names.modules)
        return first.get(name) or second.get(name, name)

    return "".join(NAME.sub(one, line) for line in text.splitlines(keepends=True))


def page(text, names, known):
    """A page's text: names in code spans that files declare in the new spelling."""

    def name(match):
        old = match.group(0)
        new = names.dashed.get(old) or snake(old)
        return new if new in known else old.replace("-", "_") if old.replace("-", "_") in known else old

    return re.sub(r"`[^`\n]+`", lambda span: NAME.sub(name, span.group(0)), text)


def main():
    """Turns all files of the folder that it is run in."""
    crates = [c for c in pathlib.Path("crates").iterdir() if c.is_dir()]
    names = Names(crates)
    for f in names.files + [f for c in sorted(crates) for f in sorted((c / "src").rglob("*.rt"))]:
        text = f.read_text()
        f.write_text(turned(text, str(f), names, f.suffix == ".antt"))
    known = {n for f in names.files for n in DECLARED.findall(f.read_text())}
    for f in [pathlib.Path("README.md"), *sorted(pathlib.Path("docs").glob("*.md"))]:
        f.write_text(page(f.read_text(), names, known))


if __name__ == "__main__":
    main()
