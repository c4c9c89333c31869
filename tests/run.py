"""The command ./test: everything by which a change is judged, or some parts of it."""

import contextlib
import os
import re
import shutil
import signal
import subprocess
import sys
import tempfile
import threading
import time
from concurrent.futures import ThreadPoolExecutor
from pathlib import Path
from typing import NamedTuple

from parts import BEFORE_RT, PARTS, REFUSALS

HELP = """\
usage: ./test [quick | PART ..]

Without a word everything is tried: `rt ci` proves every crate, tries rt's must-fail edits and runs the programs, and
takes nothing from earlier runs but its own verdicts, on this machine, of the same files; then come all the parts below,
over what `rt all test` builds for them. A table says how long each took. The last line is rt's count, `N passed, 0
failed`, and it is printed only if all of it passed.

  quick   everything but `rt ci`, over what is built: rt proves again only what has changed, wrong programs are tried
          where they or their crates have changed since they were refused, and fewer random files and steps are compared
  PART    these parts alone, as quick has them

The parts:
{parts}

The exit status is 0 if all passed, 1 if something failed, and 2 where the call cannot be done. docs/TESTING.md says
what each part compares with what, and how long it takes.
"""
NEEDED = ("rt", "python3", "cargo", "gcc", "g++")
COUNT = re.compile(r"[1-9][0-9]* passed, 0 failed")
# The lines of rt ci that tell of a crate, of a must-fail edit and of a program, and of edits where all is well.
CRATE = re.compile(r"rt: \w+ (proved|NOT PROVED|is kept)\b")
EDIT = re.compile(r"rt: must-fail \S+: ")
PROGRAM = re.compile(r"rt: \w+ ran\b")
REFUSED = re.compile(r"rt: ok; .*\bmust-fail edits: ([0-9]+) refused\b")
PROCESSORS = os.cpu_count() or 1
# One part's output at a time.
SHOWING = threading.Lock()
# The process groups of what was begun and has not ended, and whether nothing more is to be begun.
RUNNING = set()
STOPPING = threading.Event()
# A signal can come to the thread that holds it.
BEGINNING = threading.RLock()


class Failed(Exception):
    """Something did not pass."""


# Calls and parts

def say(line):
    print("test: %s" % line, flush=True)


@contextlib.contextmanager
def begun(words, **options):
    """A command in a process group of its own, so that all of it can be ended."""
    with BEGINNING:
        if STOPPING.is_set():
            raise Failed("stopped")
        process = subprocess.Popen(words, stdin=subprocess.DEVNULL, start_new_session=True, **options)
        RUNNING.add(process.pid)
    with process:
        try:
            yield process
        finally:
            RUNNING.discard(process.pid)


def end_all():
    """Nothing that was begun outlives this."""
    with BEGINNING:
        STOPPING.set()
        for group in RUNNING:
            with contextlib.suppress(ProcessLookupError):
                os.killpg(group, signal.SIGKILL)


def called(call, **options):
    with begun(call.words, **options) as process:
        if process.wait() != 0:
            raise Failed(call.complaint)


def tried(part, whole, **options):
    """Makes the calls of a part: the seconds that they took."""
    began = time.monotonic()
    for call in part.whole if whole and part.whole else part.calls:
        called(call, **options)
    return time.monotonic() - began


def aside(part, whole):
    """A part beside others: what it printed is shown when it ends."""
    with tempfile.TemporaryFile() as out:
        try:
            return tried(part, whole, stdout=out, stderr=subprocess.STDOUT)
        finally:
            out.seek(0)
            with SHOWING:
                say(part.about)
                sys.stdout.buffer.write(out.read())
                sys.stdout.flush()


def tried_all(parts, whole=False):
    """The seconds of each part; those that do not fill the processors are tried side by side."""
    took = {}
    for part in parts:
        if part.wide or len(parts) == 1:
            say(part.about)
            took[part.name] = tried(part, whole)
    # One more than there are processors, since some parts mostly wait.
    with ThreadPoolExecutor(PROCESSORS + 1) as pool:
        begun = {part.name: pool.submit(aside, part, whole) for part in parts if part.name not in took}
        try:
            for name, done in begun.items():
                took[name] = done.result()
        except BaseException:
            pool.shutdown(cancel_futures=True)
            raise
    return took


# rt

class Line(NamedTuple):
    """A line of rt's, and when it came."""

    text: str
    time: float


def watched(*words):
    """Shows rt's output as it comes, but for its last line: all of its lines with their times, and the text of the last."""
    lines, held = [], b""
    with begun(["rt", *words], stdout=subprocess.PIPE, stderr=subprocess.STDOUT) as rt:
        for line in rt.stdout:
            sys.stdout.buffer.write(held)
            sys.stdout.flush()
            held = line
            lines.append(Line(line.decode("utf-8", "replace").rstrip("\n"), time.monotonic()))
    last = lines[-1].text if lines else ""
    if rt.wait() != 0:
        # A count is held back, but where rt could not even begin its last line says why.
        if not re.fullmatch(r"[0-9]+ passed, [0-9]+ failed", last):
            print(last, file=sys.stderr)
        raise Failed("rt %s failed" % " ".join(words))
    return lines, last


def telling(lines, what):
    return [line for line in lines if what.match(line.text)]


def judge_edits(lines):
    """rt ci passes over an edit that cannot be tried, and only counts it: here each has to be refused."""
    refused = sum(int(REFUSED.match(line.text)[1]) for line in telling(lines, REFUSED))
    edits = len(list(Path("crates").glob("*/must-fail/*.edit")))
    if refused != edits:
        raise Failed("rt ci refused %d of the %d must-fail edits" % (refused, edits))


def proved():
    """rt's verdict on all crates: its count, and the rows of its phases."""
    began = time.monotonic()
    lines, last = watched("ci")
    ended = time.monotonic()
    if not COUNT.fullmatch(last):
        raise Failed("rt ci did not end in a count of passes alone")
    judge_edits(lines)
    crates, edits, programs = (telling(lines, what) for what in (CRATE, EDIT, PROGRAM))
    # Programs are run behind all else.
    last_proof = max((line.time for line in crates + edits), default=ended)
    about = "%d crates, %d must-fail edits" % (len(crates), len(edits))
    rows = [Row("rt ci, proofs", last_proof - began, about)]
    return last, rows + [Row("rt ci, programs", ended - last_proof, "%d runs" % len(programs))]


def built():
    """What the tests stand on: rt keeps nothing of its verdict that other commands could take."""
    began = time.monotonic()
    print(watched("all", "test")[1], flush=True)
    return Row("rt all test", time.monotonic() - began)


# The table

class Row(NamedTuple):
    name: str
    seconds: float
    about: str = ""


def show(rows):
    """What took how long. A part that is tried beside others takes longer than it would alone."""
    say("seconds on %d processors:" % PROCESSORS)
    for row in rows:
        say("  %-24s%6d  %s" % (row.name, row.seconds, row.about))


def seconds(took):
    return ", ".join("%s %d" % pair for pair in took.items())


# The call

def everything(whole):
    """All parts, those that ask for nothing built before rt; the last line is that of rt's verdict, where it gave one."""
    began = time.monotonic()
    took = tried_all(PARTS[:BEFORE_RT], whole)
    last, rows = proved() if whole else (None, [])
    rows += [built()]
    if whole:
        called(REFUSALS)
    took.update(tried_all(PARTS[BEFORE_RT:], whole))
    wrong = took.pop("wrong")
    spent = time.monotonic() - began
    edits = Path("crates").glob("*/wrong/*.edit" if whole else "*/*/*.edit")
    rows += [Row("wrong programs", wrong, str(len(list(edits))))]
    rows += [Row("tests", spent - sum(row.seconds for row in rows), seconds(took))]
    show(rows + [Row("all", spent, "%d min %d s" % divmod(spent, 60))])
    print(last or "test: quick: all parts passed", flush=True)


def some(names):
    took = tried_all([part for part in PARTS if part.name in names])
    say("passed, in seconds: %s" % seconds(took))


def judged(words):
    """Tries what the words of a call ask for."""
    os.environ["CARGO_TARGET_DIR"] = os.path.abspath("harness/target")
    try:
        if not words or words == ["quick"]:
            everything(not words)
        else:
            some(words)
    finally:
        end_all()


def complaint(words):
    """Why a call cannot be done, or None."""
    if words != ["quick"]:
        for word in words:
            if word not in [part.name for part in PARTS]:
                return "there is no part %s: see ./test --help" % word
    for tool in NEEDED:
        if not shutil.which(tool):
            return "%s is missing: the tests need the Rattle kit's rt, python3, cargo, gcc and g++" % tool
    return None


def main(words):
    if words in (["--help"], ["-h"]):
        print(HELP.format(parts="\n".join("  %-11s %s" % (part.name, part.about) for part in PARTS)), end="")
        return 0
    why = complaint(words)
    if why:
        print("test: %s" % why, file=sys.stderr)
        return 2
    try:
        judged(words)
        return 0
    except Failed as why:
        print("test: %s" % why, file=sys.stderr)
        return 1


def stop(*_):
    """At once, since a thread may be waiting for what is under way."""
    end_all()
    sys.exit(1)


if __name__ == "__main__":
    for name in (signal.SIGINT, signal.SIGTERM, signal.SIGHUP):
        signal.signal(name, stop)
    sys.exit(main(sys.argv[1:]))
