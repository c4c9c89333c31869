"""Each wrong program is refused for its reason: the edits in crates/NAME/wrong, over what rt has just proved.

usage: python3 tests/wrong_programs.py [--alone] [--again] [--rt] [--jobs N] [--edits FOLDER] [NAME | NAME/LABEL ..]

An edit has the form of rt's must-fail edits and is applied to a copy of its crate. First `rt check` proves the crate as
it stands, and those below it; what is refused after that is refused for its edit. The prover then takes each module
that the edit leaves as it was from what that check kept in crates/NAME/out, and checks the others.

A function's proof rests on its own body and on what the contracts of others say, never on their bodies. So edits of
several functions' bodies are tried in one copy, at most one of a function, and each has to be refused in the proof that
it names. One that is not is tried alone; so are, from the start, edits of anything else, as definitions and laws.

The exit status is 1 where an edit is not refused, or not where it says, and 2 where something is missing.
"""

import argparse
import functools
import hashlib
import os
import re
import shutil
import subprocess
import sys
import tempfile
import time
from concurrent.futures import ThreadPoolExecutor
from pathlib import Path

import edits as texts
from edits import CRATES, PARTS, Bad
from refusals import errors, misplaced, unsaid

PLACE = Path("target/wrong")
SEALS = PLACE / "refused"
OWN = ("wrong_programs.py", "edits.py", "refusals.py")


class Missing(Exception):
    """Something that is needed is not there."""


# The prover

def kit():
    """The folder of the Rattle kit, as rt finds it."""
    rt = shutil.which("rt")
    if not rt:
        raise Missing("rt is missing")
    return Path(os.environ.get("RATTLE_HOME") or Path(rt).resolve().parent.parent).resolve()


def listing(crate):
    """What crates.txt says of a crate: words about its kind, and the crates that it names."""
    named = re.search(r"^%s\b([^:\n]*):([^#\n]*)" % crate, Path("crates.txt").read_text(encoding="utf-8"), re.MULTILINE)
    if not named:
        raise Missing("crates.txt does not list %s" % crate)
    return named.group(1).split(), named.group(2).split()


def dependencies(crate):
    return listing(crate)[1]


def check(crate, folder, kept):
    """Checks a library that lies in a folder, over what a check of it kept: the status, and what was said."""
    home = kit()
    words = [home / "bin/rattle", "check", "--crate-name", crate, "src/lib.rt"]
    words += ["--extern", "std=%s" % (home / "rlibs/std.rlib"), "-L", "dependency=%s" % (home / "rlibs")]
    for needed in dependencies(crate):
        own = CRATES / needed / "out/rlib" if (CRATES / needed / "src").is_dir() else home / "rlibs"
        words += ["--extern", "%s=%s" % (needed, own.resolve() / (needed + ".rlib"))]
        words += ["-L", "dependency=%s" % own.resolve()]
    words += ["--antt-project", home / "rattle/logic/antt-project.json", "--logic-built", home / "logic_built"]
    words += ["--jobs", "1", "--links", crate + "=", "--incremental", kept.resolve()]
    words += ["--crate-type", "staticlib"] if "staticlib" in listing(crate)[0] else []
    how = {"stdin": subprocess.DEVNULL, "stdout": subprocess.PIPE, "stderr": subprocess.STDOUT}
    done = subprocess.run(list(map(str, words)), cwd=folder, encoding="utf-8", errors="replace", **how)
    return done.returncode, done.stdout


def linked(folder, into):
    """The same files in another folder: what was proved by a second name, since the prover replaces such a file."""

    def given(one, other):
        (os.link if one.endswith(".oantt") else shutil.copy2)(one, other)

    shutil.copytree(folder, into, copy_function=given)


def base(crate):
    """Has rt prove a crate, and leaves what it kept of it where the edits' checks begin."""
    log = PLACE / (crate + ".log")
    log.parent.mkdir(parents=True, exist_ok=True)
    with open(log, "wb") as said:
        status = subprocess.run(["rt", "check"], cwd=CRATES / crate, stdout=said, stderr=subprocess.STDOUT).returncode
    told = log.read_text(encoding="utf-8", errors="replace")
    if status != 0 or not re.search(r"^logic=proved ", told, re.MULTILINE):
        raise Missing("%s is not proved without an edit: see %s" % (crate, log))
    shutil.rmtree(PLACE / crate, ignore_errors=True)
    linked(CRATES / crate / "out/incremental", PLACE / crate / "base")
    taken = re.search(r"^crate %s: modules (.*)$" % crate, told, re.MULTILINE)
    return "%s: proved without an edit, modules %s" % (crate, taken.group(1) if taken else "not told")


def tried(edits, label):
    """The prover's errors in a copy of a crate with some edits in it; what was said stays in a log."""
    crate = edits[0].crate
    kept = PLACE / crate / label
    with tempfile.TemporaryDirectory(prefix="wrong-") as room:
        texts.copy(edits, Path(room, crate))
        shutil.rmtree(kept, ignore_errors=True)
        linked(PLACE / crate / "base", kept)
        status, said = check(crate, Path(room, crate), kept)
    shutil.rmtree(kept)
    kept.with_suffix(".log").write_text(said, encoding="utf-8")
    if status == 0:
        raise Bad("NOT REFUSED: the crate is still proved")
    if status != 1 or not re.search(r"^logic=not-proved", said, re.MULTILINE):
        raise Bad("it does not reach the prover (exit %d): %s" % (status, said.partition("\n")[0]))
    return errors(crate, said)


# The edits

def alone(edit):
    """Why an edit is not refused for its reason, tried alone; or None."""
    began = time.monotonic()
    try:
        why = unsaid(edit.text) or misplaced(edit.text, tried([edit], edit.label))
    except Bad as bad:
        why = str(bad)
    print("%s: %s (%d s)" % (edit.name, why or "refused", time.monotonic() - began), flush=True)
    return why


def beside(edit, found):
    """Whether an edit, tried beside others, is refused for its reason by the proof that it names."""
    found = [(where, message) for where, message in found if where.rpartition(", ")[0] == edit.proof]
    # A proof may also rest on what another edit made fail, which shows nothing.
    return found and "was not admitted" not in found[0][1] and not (unsaid(edit.text) or misplaced(edit.text, found))


def together(edits, label):
    """Those of several edits that are to be tried alone."""
    began = time.monotonic()
    try:
        found = tried(edits, label)
    except Bad:
        found = []
    left = [edit for edit in edits if not beside(edit, found)]
    counts = len(edits) - len(left), len(edits)
    print("%s/%s: refused %d of %d (%d s)" % (edits[0].crate, label, *counts, time.monotonic() - began), flush=True)
    return left


def groups(edits):
    """Edits of bodies, no two in a group of the same function or for the same proof."""
    found = []
    for edit in edits:
        group = next((g for g in found if all(edit.body != e.body and edit.proof != e.proof for e in g)), None)
        if group is None:
            found.append([edit])
        else:
            group.append(edit)
    return [group for group in found if len(group) > 1]


def begun(edits, apart, pool):
    """Begins the checks of a crate's edits: of groups that are tried in one copy, and of each of the others alone."""
    batches = [] if apart else groups([e for e in edits if e.body])
    shared = [pool.submit(together, group, "together-%d" % n) for n, group in enumerate(batches, 1)]
    single = [e for e in edits if all(e not in group for group in batches)]
    return shared, {edit: pool.submit(alone, edit) for edit in single}


def judged(edits, jobs, apart):
    """Why each edit that fails does, and in how many checks all were tried."""
    crates = sorted({e.crate for e in edits}, key=lambda crate: len(dependencies(crate)))
    shared, single = [], {}
    with ThreadPoolExecutor(jobs) as pool:
        try:
            # A crate's edits are tried while rt proves the next.
            for crate in crates:
                print(base(crate), flush=True)
                batches, others = begun([e for e in edits if e.crate == crate], apart, pool)
                shared += batches
                single.update(others)
            again = [edit for batch in shared for edit in batch.result()]
            single.update((edit, pool.submit(alone, edit)) for edit in again)
            faults = {edit: attempt.result() for edit, attempt in single.items()}
        except BaseException:
            pool.shutdown(cancel_futures=True)
            raise
    for crate in crates:
        shutil.rmtree(PLACE / crate / "base")
    return {edit: why for edit, why in faults.items() if why}, len(shared) + len(faults)


# What was tried before

@functools.lru_cache(maxsize=None)
def ground(crate):
    """A digest of all that the verdicts on a crate's edits hang on: this test, the kit, the crate and those below it."""
    files = [Path(__file__).parent / own for own in OWN] + [kit() / "KIT-ID"]
    parts = [CRATES / name / part for name in (crate, *dependencies(crate)) for part in PARTS]
    files += sorted(file for part in parts for file in part.rglob("*") if file.is_file())
    digest = hashlib.sha256()
    for file in files:
        digest.update(b"%s\0%s\0" % (os.fsencode(file.name), file.read_bytes()))
    return digest.hexdigest()


def seal(edit):
    return hashlib.sha256("\0".join([ground(edit.crate), edit.name, edit.text]).encode()).hexdigest()


def sealed():
    """The seals of edits that were refused for their reason."""
    return set(SEALS.read_text().split()) if SEALS.is_file() else set()


def remember(edits):
    PLACE.mkdir(parents=True, exist_ok=True)
    SEALS.write_text("".join("%s\n" % seal for seal in sorted(sealed() | set(map(seal, edits)))))


# The call

def count(word):
    """A number of jobs."""
    if not word.isdecimal() or int(word) == 0:
        raise argparse.ArgumentTypeError("this is a number, 1 or more")
    return int(word)


def options():
    parser = argparse.ArgumentParser(description=__doc__.partition("\n")[0])
    parser.add_argument("--alone", action="store_true", help="try each edit in a copy of its own")
    parser.add_argument("--again", action="store_true", help="try those too that were refused before and have not changed")
    parser.add_argument("--rt", action="store_true", help="try rt's must-fail edits too")
    parser.add_argument("--jobs", type=count, default=os.cpu_count() or 1, help="checks at a time")
    parser.add_argument("--edits", metavar="FOLDER", help="the edits in FOLDER/NAME instead of those in crates/NAME/wrong")
    parser.add_argument("wanted", nargs="*", metavar="NAME", help="a crate, or NAME/LABEL, one edit of it")
    return parser.parse_args()


def listed(asked):
    """The edits that a call asks for."""
    top = Path(asked.edits) if asked.edits else CRATES
    folders = ["*"] if asked.edits else ["*/wrong", "*/must-fail"][: 1 + asked.rt]
    files = sorted(file for folder in folders for file in top.glob(folder + "/*"))
    strays = [file for file in files if not (file.is_file() and file.suffix == ".edit")]
    if strays:
        raise Missing("%s is no edit" % strays[0])
    edits = [texts.read(file.relative_to(top).parts[0], file) for file in files]
    twice = [e.name for at, e in enumerate(edits) if e.name in [other.name for other in edits[:at]]]
    if twice:
        raise Missing("two edits are called %s" % twice[0])
    for name in asked.wanted:
        if not any(name in (e.crate, e.name) for e in edits):
            raise Missing("there is no edit %s" % name)
    if not edits:
        raise Missing("no edit was found")
    return [e for e in edits if not asked.wanted or {e.crate, e.name} & set(asked.wanted)]


def main():
    began = time.monotonic()
    asked = options()
    edits = listed(asked)
    before = set() if asked.again or asked.alone or asked.edits or asked.wanted else sealed()
    todo = [e for e in edits if seal(e) not in before]
    if len(todo) < len(edits):
        print("%d wrong programs were refused before and have not changed" % (len(edits) - len(todo)))
    bad, checks = judged(todo, asked.jobs, asked.alone) if todo else ({}, 0)
    for edit in todo:
        if edit in bad:
            print("%s: %s" % (edit.name, bad[edit]))
    remember(e for e in todo if e not in bad and not asked.edits)
    counts = len(todo) - len(bad), len(todo), checks, time.monotonic() - began
    print("%d of %d wrong programs were refused for their reason, in %d checks, %d s" % counts)
    return 1 if bad else 0


if __name__ == "__main__":
    try:
        sys.exit(main())
    except Missing as why:
        print("wrong_programs: %s" % why, file=sys.stderr)
        sys.exit(2)
