"""The pages in docs lead where they say: each rule to its definition, code and test, each law to its file.

Behind the rules of a part of docs/RULES.md stands a table with a row for each.
A cell names what carries the rule: `name`, `name` in [place](file), several of
them apart by a semicolon. A wrong program is its link alone. Where there is
nothing to name stands a dash with the reason in brackets. The tables of
docs/LAWS.md name their laws in the same way.
"""

import os
import re
import sys
from pathlib import Path

from names import defined

RULES = Path("docs/RULES.md")
LAWS = Path("docs/LAWS.md")
HEADS = {RULES: "| Rule | Definition | Code | Test |", LAWS: "| Law | Where |"}
SOURCES = ("*/specs/*.antt", "*/src/*.rt", "*/proofs/**/*.antt", "*/must-fail/*.edit", "*/wrong/*.edit")

RULE = re.compile(r"(\d+\.\d+) \S")
ENTRY = re.compile(r"(?:(`[\w-]+`(?:(?:, | and | or )`[\w-]+`)*) in )?\[([\w/]+)\]\(([\w./-]+)\)")
CELL = re.compile(r"- \([^()]+\)|{0}(?:; {0})*".format(ENTRY.pattern))
LINK = re.compile(r"\[[^\]]*\]\(([^)\s]+)\)")
PATH = re.compile(r"`((?:benches|bindings|crates|docs|examples|harness|include|tests|tools)/[\w./-]+)`")
LIST = r"{0}(?:(?:, | and | to ){0})*"
CITED = re.compile(r"\brules? (%s)" % LIST.format(r"\d+\.\d+"))
BRACKETED = re.compile(r"\((%s)\)" % LIST.format(r"\d+\.\d+"))
SECTIONS = re.compile(r"\bsections? (%s)\b(?!\.\d)" % LIST.format(r"\d+"))


def pages():
    return [Path("README.md"), *sorted(Path("docs").glob("**/*.md"))]


def lines(file):
    """The lines of a file with their numbers; on a page those of an example count as empty."""
    example = False
    for number, line in enumerate(file.read_text(encoding="utf-8").splitlines(), 1):
        fence = file.suffix == ".md" and line.startswith("```")
        example ^= fence
        yield number, "" if example or fence else line


def parts(page):
    """The lines of a page from each heading to the next."""
    part = []
    for number, line in lines(page):
        if line.startswith("#"):
            yield part
            part = []
        part.append((number, line))
    yield part


def rows(page, part):
    """The cells of each row below the head that the page's tables have."""
    inside = False
    for number, line in part:
        inside = line.startswith("|") and (inside or line == HEADS[page])
        if inside and line != HEADS[page] and not line.startswith("|---"):
            yield number, [cell.strip() for cell in line.strip("|").split("|")]


def target(page, where):
    """The file that a link leads to, from the root."""
    return Path(os.path.normpath(page.parent / where))


def every(cited):
    """The numbers in a list such as "4.1, 4.6 and 5.5 to 5.7", those in between among them."""
    for first, last in re.findall(r"([\d.]+)(?: to ([\d.]+))?", cited):
        head, dot, begin = first.rpartition(".")
        end = last.rpartition(".")[2] if last else begin
        yield first
        yield from ("%s%s%d" % (head, dot, n) for n in range(int(begin) + 1, int(end)))
        yield from [last] if last else []


def cited_in(file):
    """The rules and the sections that a source or a page cites, each with its line; a page's sections are its own."""
    patterns = [CITED] if file.suffix == ".md" else [CITED, SECTIONS]
    patterns += [BRACKETED] if file.name in ("RULES.md", "DECISIONS.md") else []
    for number, line in lines(file):
        for pattern in patterns:
            for cited in pattern.findall(line):
                yield from ((number, rule) for rule in every(cited))


def order_faults(part):
    """Rules of a part without a row, rows without a rule, and rows that stand twice or out of order."""
    rules = [(number, RULE.match(line).group(1)) for number, line in part if RULE.match(line)]
    found = [(number, cells[0]) for number, cells in rows(RULES, part)]
    wanted, named = [rule for _, rule in rules], [rule for _, rule in found]
    for number, rule in rules:
        if rule not in named:
            yield number, "rule %s has no row in the table of its part" % rule
    for number, rule in found:
        if rule not in wanted:
            yield number, "there is a row for %s and no such rule in this part" % rule
    if set(named) == set(wanted) and named != wanted:
        yield found[0][0], "the table does not have each rule once, in the order of the rules"


def cell_faults(page, cell):
    """What is wrong with a cell's form, which is names in their files, wrong programs, or a dash with a reason."""
    if not CELL.fullmatch(cell):
        return ["this cell cannot be read: %s" % cell]
    bare = [entry for entry in ENTRY.finditer(cell) if not entry.group(1) and not entry.group(3).endswith(".edit")]
    return ["nothing is named in %s" % target(page, entry.group(3)) for entry in bare]


def uncited(rule, cell):
    """Whether a cell links files of which none cites the rule or its section."""
    files = [file for file in (target(RULES, entry.group(3)) for entry in ENTRY.finditer(cell)) if file.is_file()]
    cited = {number for file in files for _, number in cited_in(file)}
    return bool(files) and not cited & {rule, rule.split(".")[0]}


def table_faults(page):
    """What is wrong in the tables of a page."""
    for part in parts(page):
        if page == RULES:
            yield from order_faults(part)
        for number, cells in rows(page, part):
            if len(cells) != HEADS[page].count("|") - 1:
                yield number, "the row has %d cells" % len(cells)
            yield from ((number, fault) for cell in cells[1:] for fault in cell_faults(page, cell))
            if page == RULES and any(uncited(cells[0], cell) for cell in cells[1:3]):
                yield number, "of the files for its definition or its code none cites rule %s" % cells[0]


def verdicts(file, text, names):
    """What is wrong with a file that a link leads to for the names in it, or for each name what is wrong, or None."""
    if not file.is_file():
        return ["%s is not there" % file]
    if not set(text.split("/")) <= set(file.with_suffix("").parts):
        return ["the link to %s is called %s" % (file, text)]
    known = defined(file)
    wanted = re.findall(r"`([\w-]+)`", names)
    return [None if name in known else "%s does not define %s" % (file, name) for name in wanted]


def named():
    """Each name that a page gives in a file, and each wrong program, with its place and what is wrong with it."""
    for page in pages():
        for number, line in lines(page):
            for names, text, where in ENTRY.findall(line):
                if names or where.endswith(".edit"):
                    yield from ((page, number, fault) for fault in verdicts(target(page, where), text, names))


def citations(rules):
    """Each rule or section that a source or a page cites, with its place and what is wrong with it."""
    known = rules | {rule.split(".")[0] for rule in rules}
    sources = sorted(file for source in SOURCES for file in Path("crates").glob(source))
    for file in sources + pages():
        for number, rule in cited_in(file):
            yield file, number, None if rule in known else "there is no rule or section %s" % rule


def anchors(page):
    """What a link may name in a page: its headings, as a web view of the repository writes them."""
    titles = (line.lstrip("#").strip().lower() for _, line in lines(page) if line.startswith("#"))
    return {re.sub(r"[^\w\- ]", "", title).replace(" ", "-") for title in titles}


def astray(page, link):
    """What is wrong with a link of a page, or None."""
    where, _, anchor = link.partition("#")
    file = target(page, where) if where else page
    if not file.exists() or file.parts[0] == "..":
        return "the link to %s leads nowhere" % where
    return "%s has no heading %s" % (file, anchor) if anchor and anchor not in anchors(file) else None


def links():
    """Each link of the pages into the repository and each path that they name, with its place and what is wrong."""
    for page in pages():
        for number, line in lines(page):
            for link in LINK.findall(re.sub(r"`[^`]*`", "", line)):
                if not re.match(r"[a-z]+:", link):
                    yield page, number, astray(page, link)
            for path in PATH.findall(line):
                yield page, number, None if Path(path).exists() else "%s is not there" % path


def main():
    rules = {RULE.match(line).group(1) for _, line in lines(RULES) if RULE.match(line)}
    laws = [row for part in parts(LAWS) for row in rows(LAWS, part)]
    looked = [list(named()), list(citations(rules)), list(links())]
    found = [(page, number, fault) for page in HEADS for number, fault in table_faults(page)]
    found += [place for places in looked for place in places if place[2]]
    for file, number, fault in found:
        print("%s:%d: %s" % (file, number, fault))
    counts = len(rules), len(laws), *(len(places) for places in looked)
    print("%d rules, %d rows of laws, %d names, %d citations of a rule and %d links were looked at" % counts)
    return 1 if found or not all(counts) else 0


if __name__ == "__main__":
    sys.exit(main())
