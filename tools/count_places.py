#!/usr/bin/env python3
"""Counts the places in the sources that an older language left: docs/DESIGN-PASS.md has what became of them.

usage: tools/count_places.py [--list] [COMMIT]

Reads crates/*/src and crates/*/proofs as they stand, or as they stood at COMMIT. It goes by text alone, so what it
finds is a place to look at; with --list it names each.
"""

import collections
import re
import subprocess
import sys
from pathlib import Path

FUNCTION = re.compile(r"^( *)((?:pub(?:\(crate\))? )?(?:extern \"C\" )?fn (\w+)(?:<[^>]*>)?\(([^)]*)\)(?: -> ([^\n{]+))?)", re.M)
IMPL = re.compile(r"^impl(?:<[^>]*>)? (?:.+ for )?(.+) \{$", re.M)
ENUM = re.compile(r"^pub enum (\w+) \{\n(.*?)^\}", re.M | re.S)
STRUCT = re.compile(r"^(?:pub )?struct (\w+) \{\n(.*?)^\}", re.M | re.S)
TOKEN = re.compile(r"[A-Za-z_]\w*|\d\w*|b?\"[^\"]*\"|b?'[^']*'|[^\s\w]")
KEYWORDS = set("as break else false fn for if in let loop match mut return self true while".split())
NUMBERS = {"u8", "u16", "u32", "u64", "usize", "i32"}
# The fewest tokens of a body that is compared with others.
SHORTEST = 12


def texts(commit, part, ending):
    """Each file of a part of the crates, by its path."""
    if not commit:
        return {str(p): p.read_text() for p in sorted(Path("crates").glob("*/%s/**/*%s" % (part, ending)))}
    names = subprocess.run(["git", "ls-tree", "-r", "--name-only", commit, "crates"], capture_output=True, text=True, check=True)
    found = [n for n in names.stdout.split("\n") if n.split("/")[2:3] == [part] and n.endswith(ending)]
    show = lambda n: subprocess.run(["git", "show", "%s:%s" % (commit, n)], capture_output=True, text=True, check=True).stdout
    return {name: show(name) for name in found}


def bare(text):
    """A source without its comments and clauses' imports."""
    return "\n".join("" if re.match(r"\s*//|ghost use", line) else line for line in text.split("\n"))


class Function:
    """A function with its parameters, its result and its body."""

    def __init__(self, path, text, match):
        self.place = "%s %s" % (path, match[3])
        above = IMPL.findall(text[:match.start()])
        self.impl = above[-1] if match[1] and above else ""
        self.parameters = [p.strip().replace("mut ", "") for p in match[4].split(",") if p.strip()]
        self.result = (match[5] or "").strip()
        begin = text.find("\n%s{" % match[1], match.end() - 1)
        opened = text.find("{", match.end() - 1)
        one_line = text[opened - 1] == " " and "\n" not in text[match.end():opened] if opened >= 0 else False
        begin = opened if one_line else begin + 1 + len(match[1])
        end = text.find("\n%s}" % match[1], begin)
        self.body = text[begin + 1:end] if begin > 0 and end > 0 else ""

    def shape(self):
        """The body with one name for all names, and one number for all numbers."""
        words = TOKEN.findall(self.body)
        return [w if w in KEYWORDS or not re.match(r"\w|b?[\"']", w) else ("0" if w[0].isdigit() else "x") for w in words]


def functions(sources):
    return [Function(p, t, m) for p, t in sources.items() for m in FUNCTION.finditer(t)]


def lines_with(sources, pattern):
    return ["%s:%d" % (p, n) for p, t in sources.items() for n, line in enumerate(t.split("\n"), 1) if re.search(pattern, line)]


def option_shaped(sources):
    found = []
    for path, text in sources.items():
        for name, body in ENUM.findall(text):
            variants = re.findall(r"^    (\w+)(\([^\n]*\))?(?: = \d+)?,$", body, re.M)
            bare_ones = [v for v, held in variants if not held]
            if set(bare_ones) & {"None", "Nothing"} or (len(variants) == 2 and len(bare_ones) == 1):
                found.append("%s %s" % (path, name))
    return found


def with_parameter(all_functions, names):
    return [f.place for f in all_functions if any(re.match(r"(%s): u8$" % names, p) for p in f.parameters)]


def twins(all_functions):
    groups = collections.defaultdict(list)
    for f in all_functions:
        if len(f.shape()) >= SHORTEST:
            groups[" ".join(f.shape())].append(f.place)
    return [" ~ ".join(places) for places in groups.values() if len(places) > 1]


def conversions(all_functions):
    found = []
    for f in all_functions:
        held = f.parameters[0].split(": ")[-1] if len(f.parameters) == 1 and not f.place.endswith(" from") else ""
        held = f.impl if held in ("self", "&self") else held
        plain = f.result and "&" not in held and f.result not in ("bool", "Self", held) and "Result" not in f.result
        if held and plain and not (held in NUMBERS and f.result in NUMBERS):
            found.append(f.place)
    return found


def number_tested(f):
    tests = r"\.number\(\) [=!<]=? |\bn == 0|0 < n\b" if ".number()" in f.body else r"\brefusal == 0"
    return re.search(tests, f.body)


def together(all_functions):
    pairs = collections.defaultdict(list)
    for f in all_functions:
        for pair in zip(f.parameters, f.parameters[1:]):
            if all(":" in p for p in pair):
                pairs[pair].append(f.place)
    return ["%s, %s: %d functions" % (*pair, len(places)) for pair, places in pairs.items() if len(places) > 2]


def repeated(sources):
    said = collections.Counter(c for t in sources.values() for c in re.findall(r"^ *(requires.*)$", t, re.M))
    return ["%s: %d functions" % (clause, n) for clause, n in said.items() if n > 2]


def indexed(all_functions):
    return [f.place for f in all_functions for i in re.findall(r"for (\w+) in 0\.\.", f.body) if "[%s]" % i in f.body]


def places(sources, answers):
    """The places of each point by what they are."""
    held = functions(sources)
    return [
        (1, "enums with a bare variant beside one that holds a value", option_shaped(sources)),
        (1, "structs with a refusal beside other values", [
            "%s %s" % (p, n) for p, t in sources.items() for n, b in STRUCT.findall(t) if re.search(r"refusal: .*Refusal", b)]),
        (1, "functions that take a kind or a refusal as a number", with_parameter(held, "kind|refusal")),
        (1, "functions that test a refusal's number", [f.place for f in held if number_tested(f)]),
        (1, "functions that answer io::Result<bool>", [f.place for f in held if f.result == "io::Result<bool>"]),
        (2, "groups of functions of one shape", twins(held)),
        (3, "while loops", lines_with(sources, r"^\s*while ")),
        (3, "for loops over an index", indexed(held)),
        (4, "functions from one type to another", conversions(held)),
        (5, "requires of three functions or more", repeated(sources)),
        (5, "pairs of parameters in three functions or more", together(held)),
        (6, "functions with a buffer and a place or a length", [
            f.place for f in held if re.search(r"\[u8\], \w+: usize|\[u8\],\n\s+\w+: usize", ", ".join(f.parameters))]),
        (7, "functions that take a number of what to do", with_parameter(held, "way|what")),
        (8, "answers", [a for t in answers.values() for a in re.findall(r"^pub (\S+) : goal\.", t, re.M)]),
    ]


def main():
    arguments = [a for a in sys.argv[1:] if a != "--list"]
    if len(arguments) > 1 or any(a.startswith("-") for a in arguments):
        print(__doc__.split("\n\n")[1], file=sys.stderr)
        return 2
    commit = arguments[0] if arguments else ""
    sources = {p: bare(t) for p, t in texts(commit, "src", ".rt").items()}
    answers = {p: t for p, t in texts(commit, "proofs", ".antt").items() if p.endswith("/Answers.antt")}
    for point, what, found in places(sources, answers):
        print("%d  %4d  %s" % (point, len(found), what))
        if "--list" in sys.argv and point < 8:
            print("".join("         %s\n" % place for place in found), end="")
    return 0


if __name__ == "__main__":
    sys.exit(main())
