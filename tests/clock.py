"""The command ./clock as a user meets it: what it prints, what it says of a bad call, and how its program is had.

Expected lines are README's first example, rule 9.6 and what is written here by hand. Where a program has to be slow,
to fail or to be built, a stand-in for it and for the Rattle kit takes its place in a copy of the command.
"""

import functools
import io
import os
import pty
import shutil
import signal
import subprocess
import sys
import tempfile
import time
import xml.etree.ElementTree
from pathlib import Path

ROOT = Path(__file__).resolve().parent.parent
sys.path.insert(0, str(ROOT / "tools"))

from scripts import programs

CLOCK = ROOT / "clock"
EXAMPLE = ROOT / "examples" / "read.script"
LINES = b"-- H\nAK H\n20 H\n19 H\n-- H\n"
# The same script in words.
TEXT = b"time 2006-12-20 18:19:20\nSTART 65 read-ack read-nak STOP\n"
# What is said of input that can be read and is a text neither by its name nor by its first word.
DOUBT = b"taken for a script file: it does not begin with a word of a text, nor does its name end in .text\n"
# Bytes that can be read, and the number that they are refused with as a script file (rule 9.4): 8 if they are over
# 16,384; else 4 if they are under 8; else 5, since bytes 4 and 5, the start byte count, are never 13h and 00h.
BLANK = {
    "newline": (b"\n", 4),
    "spaces": (b" " * 6, 4),
    "comment": (b"# crash log", 5),
    "long": (b" " * 20000, 8),
    "lines": (b"\n" * 16385, 8),
}
DOUBTFUL = {
    "eight spaces": (b" " * 8, 5),
    "as long as a file": (b"\n" * 16384, 5),
    "prose": (b"Power lost. START again.\n", 5),
    "a word that is none": (b"STRAT", 4),
    "a hex dump": (b"05 00 1B 00 13 00 08 00\n", 5),
}
# One crate is all that the stand-in for the repository proves.
BUILDS = b"clock: proving and building 1 crates, which takes some 40 s on two processors the first time\n"
# Nothing takes so many seconds unless it hangs.
PATIENCE = 120

# The facts of START and STOP on 19 zero bytes; the state plays no part here.
STATE = "00" * 61
FACTS = [
    f"start {STATE} - H",
    f"event 0 0 00 0 -- H opened -- {STATE} - - 00000000",
    f"event 1 1 00 0 -- H closed -- {STATE} - - 00000000",
    "end 2",
]


class Tries:
    """Counts what is not as it should be, and prints it."""

    def __init__(self, what):
        self.what, self.failed = what, 0

    def same(self, name, got, owed):
        if got != owed:
            self.failed += 1
            print(f"{self.what} failed on: {name}: {got!r} where {owed!r} is right")

    def complains(self, name, ended, says, status=2):
        """Nothing on standard output, and one line that says what is wrong."""
        left, out, err = ended
        self.same(name, (left, out, err.count(b"\n"), says in err), (status, b"", 1, True))
        if says not in err:
            print(f"  {err!r} does not say {says!r}")


def run(*words, given=b"", folder=None, clock=CLOCK, **options):
    done = subprocess.run([clock, *words], input=given, capture_output=True, cwd=folder, timeout=PATIENCE, **options)
    return done.returncode, done.stdout, done.stderr


def begun(*words, clock=CLOCK, **options):
    """A call that is left running, in a process group of its own; Ctrl-C counts even if this test ignores it."""
    pipes = {"stdin": subprocess.DEVNULL, "stdout": subprocess.PIPE, "stderr": subprocess.PIPE, **options}
    heed = functools.partial(signal.signal, signal.SIGINT, signal.SIG_DFL)
    return subprocess.Popen([clock, *words], start_new_session=True, preexec_fn=heed, **pipes)


def ended(process):
    out, err = process.communicate(timeout=PATIENCE)
    return process.returncode, out, err


def on_terminal(*words, **options):
    """Status and output of a call whose standard error is a terminal, what was shown there, and what is left of it."""
    ours, terminal = pty.openpty()
    process = begun(*words, stderr=terminal, **options)
    os.close(terminal)
    status, out, _ = ended(process)
    seen = b""
    try:
        while True:
            seen += os.read(ours, 4096)
    except OSError:
        # A terminal whose other end is closed has no end of file.
        os.close(ours)
    shown = [part.strip() for part in seen.split(b"\r") if part.strip()]
    return status, out, shown, last_line(seen)


def last_line(seen):
    """What stands in the last line of a terminal."""
    line, at = {}, 0
    for byte in seen.rpartition(b"\n")[2].decode("ascii"):
        at = 0 if byte == "\r" else at + 1
        line[at] = byte
    return "".join(line[at] for at in sorted(line) if at).strip()


class Clone:
    """A copy of the command, with a kit whose rt builds the programs that are given here as shell scripts."""

    # It is called in the crate's folder.
    RT = """\
        name=${PWD##*/}
        echo "$name" >>../../calls
        sleep 0.5
        mkdir -p out
        cp "../../programs/$name" out/
        """

    def __init__(self, folder, **programs):
        self.folder, self.clock = Path(folder), Path(folder) / "clock"
        shutil.copy(CLOCK, self.clock)
        shutil.copytree(ROOT / "tools", self.folder / "tools")
        self.put("crates.txt", "".join(f"{name}:\n" for name in programs))
        self.put("bin/rt", self.RT)
        for name, lines in programs.items():
            for part in ("src/main.rt", "specs/Specs.antt", "proofs/Proofs.antt"):
                self.put(f"crates/{name}/{part}", "")
            self.put(f"programs/{name}", lines)
        env = {**os.environ, "PATH": f"{self.folder / 'bin'}:{os.environ['PATH']}"}
        self.options = {"clock": self.clock, "env": env}

    def put(self, name, lines):
        path = self.folder / name
        path.parent.mkdir(parents=True, exist_ok=True)
        path.write_text(f"#!/bin/sh\n{lines}")
        path.chmod(0o755)

    def build(self):
        for program in (self.folder / "programs").iterdir():
            self.run("--words", program.name, clock=self.folder / "tools" / "program")
        return self

    def calls(self):
        """The programs that rt was asked for."""
        return (self.folder / "calls").read_text().split()

    def run(self, *words, **options):
        return run(*words, **{**self.options, **options})


def cloned(**programs):
    """Each in a folder that goes away."""
    folder = tempfile.TemporaryDirectory()
    clone = Clone(folder.name, **programs)
    clone.keep = folder
    return clone


# The program as it is

def try_files(tries, folder):
    example = EXAMPLE.read_bytes()
    contents = {"short": example[:7], "long": bytes(16385), "empty": b"", "two words": example, "two\nlines": example}
    for name, content in {**contents, "-dash": TEXT, "a.text": TEXT}.items():
        (folder / name).write_bytes(content)
    (folder / "link").symlink_to(CLOCK)
    tries.same("a file by name", run(EXAMPLE), (0, LINES, b""))
    tries.same("a command by a link", run(EXAMPLE, clock=folder / "link"), (0, LINES, b""))
    for name in ("two words", "two\nlines", "./-dash", "a.text"):
        tries.same(f"the file {name!r}", run(name, folder=folder), (0, LINES, b""))
    for name, number in {"short": 4, "long": 8, "empty": 4}.items():
        tries.same(f"the file {name!r}", run(name, folder=folder), (1, b"refused %d\n" % number, b""))
    tries.same("a name behind --", run("--", "-dash", folder=folder), (0, LINES, b""))
    for given in (example, TEXT):
        tries.same("standard input", run(given=given), (0, LINES, b""))
        tries.same("standard input by its name", run("-", given=given), (0, LINES, b""))
        tries.same("standard input behind --", run("--", "-", given=given), (0, LINES, b""))
    tries.same("nothing at all", run(), (1, b"refused 4\n", b""))


# Text or bytes

def try_ways(tries, what, number, *words, said=b"", **options):
    """A script that is refused, made in each way, and what is said of its reading."""
    line = b"refused %d" % number
    tries.same(what, run(*words, **options), (1, line + b"\n", said))
    status, out, err = run("--explain", *words, **options)
    tries.same(f"{what}, explained", (status, out[:11], out.count(b"\n"), err), (1, line + b": ", 1, said))
    status, out, err = run("--picture", *words, **options)
    tries.same(f"{what}, pictured", (status, out, err[: len(said)]), (1, b"", said))
    tries.same(f"{what}, why", b": no picture: " + line + b": " in err[len(said) :], True)


def try_blank(tries, folder):
    """Bytes without a word: a script file by its name, and no text beyond doubt without one."""
    for name, (content, number) in BLANK.items():
        (folder / f"{name}.script").write_bytes(content)
        try_ways(tries, f"{name}.script", number, f"{name}.script", folder=folder)
        doubt = b"clock: standard input: " + DOUBT
        try_ways(tries, f"{name} on standard input", number, given=content, said=doubt)
    for words, ending in ([], ".out"), (["--explain"], ".listing"), (["--picture"], ".svg"):
        status, out, err = run(*words, ".", folder=folder)
        told = [b": ".join(line.split(b": ")[:2]).decode() for line in out.splitlines()]
        owed = [f"{name}.script: refused {number}" for name, (_, number) in sorted(BLANK.items())]
        tries.same(f"blank scripts {words}", (status, told, err), (1, [*owed, "0 run, 5 refused, 0 failed"], b""))
        outputs = {path.name: path.read_bytes()[:9] for path in folder.iterdir() if path.name.endswith(ending)}
        refused = {f"{name}.script{ending}": b"refused %d" % number for name, (_, number) in BLANK.items()}
        tries.same(f"their outputs {words}", outputs, {} if ending == ".svg" else refused)


def try_content(tries, folder):
    """Standard input and other names: a text begins with a word of its own form, behind blank lines and comments."""
    for what, (content, number) in DOUBTFUL.items():
        tries.same(what, run(given=content), (1, b"refused %d\n" % number, b"clock: standard input: " + DOUBT))
    for content in (b"\xEF\xBB\xBF" + TEXT, b" \t\r\n# START\n\n" + TEXT, TEXT.upper().replace(b"\n", b"\r\n")):
        tries.same(f"{content}", run(given=content), (0, LINES, b""))
    for name in ("a.txt", "b.text.bak", "c.TEXT", "text"):
        (folder / name).write_bytes(TEXT)
        tries.same(f"the file {name}", run(name, folder=folder), (0, LINES, b""))
    (folder / "blank.txt").write_bytes(b"\n")
    tries.same("a blank file", run("blank.txt", folder=folder), (1, b"refused 4\n", b"clock: blank.txt: " + DOUBT))
    for given in (TEXT + b"\0", TEXT + b"\xFF"):
        tries.same("a text with a byte of none", run(given=given), (1, b"refused 5\n", b""))


def try_endings(tries, folder):
    """What a name says holds, whatever the bytes are."""
    (folder / "a.script").write_bytes(TEXT)
    try_ways(tries, "a text as a script file", 5, "a.script", folder=folder)
    (folder / "long.text").write_bytes(b"#" * 20000 + b"\n" + TEXT)
    tries.same("a long text", run("long.text", folder=folder), (0, LINES, b""))
    for content, lines in {b"\n": b"", b"# crash log": b"", b"64": b"NK H\n"}.items():
        (folder / "few.text").write_bytes(content)
        tries.same(f"the text {content}", run("few.text", folder=folder), (0, lines, b""))
    bad = {
        b"START\nSTOP\0": "line 2, column 5: control character 00h",
        # The hour, at byte 10; the whole is decoded before its first character is judged.
        EXAMPLE.read_bytes(): "line 1, column 11: the byte 98h is not UTF-8",
        b"": "line 1, column 1: the text is empty",
        b"#" * 1048577: "line 1, column 1048577: the text goes over 1048576 bytes",
    }
    for content, says in bad.items():
        (folder / "bad.text").write_bytes(content)
        tries.same(says, run("bad.text", folder=folder), (2, b"", f"clock: bad.text: {says}\n".encode()))


def piecewise(data, size):
    """The program's output where its input comes through a pipe in pieces."""
    program = subprocess.Popen([CLOCK], stdin=subprocess.PIPE, stdout=subprocess.PIPE)
    for at in range(0, len(data), size):
        program.stdin.write(data[at : at + size])
        program.stdin.flush()
        time.sleep(0.3)
    out, _ = program.communicate(timeout=PATIENCE)
    return out


def try_pipes(tries):
    tries.same("a pipe in pieces", piecewise(EXAMPLE.read_bytes(), 16), LINES)
    tries.same("a long pipe in pieces", piecewise(bytes(16385), 6000), b"refused 8\n")
    ours, pipe = os.pipe()
    os.write(pipe, bytes(16385))
    tries.same("a long pipe that stays open", ended(begun(stdin=ours)), (1, b"refused 8\n", b""))
    os.close(ours)
    os.close(pipe)


def try_long_texts(tries):
    """A text may be longer than a file, and where reading pauses a character may be cut."""
    for shift in range(2):
        comment = b"#" * (1 + shift) + "é".encode() * 10000 + b"\n"
        tries.same("a long text", run(given=comment + TEXT), (0, LINES, b""))
        endless = b"#" * (1 + shift) + "é".encode() * (1 << 19)
        tries.complains("a text that is too long", run(given=b"STOP" + endless), b"standard input: line 1, column ")
        doubt = b"clock: standard input: " + DOUBT
        tries.same("an endless comment", run(given=endless), (1, b"refused 8\n", doubt))
    tries.same("a long text with a NUL", run(given=b"#" * 16384 + b"\0" + TEXT), (1, b"refused 8\n", b""))


def try_bad_calls(tries, folder):
    (folder / "bad.text").write_bytes(b"START\nSTOP STRAT\n")
    bad = b"clock: bad.text: line 2, column 6: no such word: STRAT\n"
    tries.same("a bad text", run("bad.text", folder=folder), (2, b"", bad))
    tries.same("a bad text, explained", run("--explain", "bad.text", folder=folder), (2, b"", bad))
    tries.complains("a bad text on standard input", run(given=b"STOP STRAT"), b": standard input: line 1, column 6: ")
    tries.complains("no such file", run("missing", folder=folder), b"clock: missing: no such file")
    tries.complains("no such file of two lines", run("a\nb", folder=folder), rb"'a\nb'")
    tries.complains("no name", run(""), b"no such file")
    tries.complains("two files", run("short", "long", folder=folder), b"one file")
    tries.complains("two files behind --", run("--", "short", "long", folder=folder), b"one file")
    tries.complains("an unknown option", run("--fast", folder=folder), b"--fast")
    tries.complains("an option that is cut short", run("--expl", folder=folder), b"--expl:")
    tries.complains("two options", run("--explain", "--picture", EXAMPLE), b"--picture")
    tries.complains("no python3", run(EXAMPLE, env={"PATH": str(folder)}), b"clock: python3 is missing")
    if os.geteuid() == 0:
        print("tests/clock.py: an unreadable file is not tried: root can read all")
        return
    (folder / "closed").write_bytes(TEXT)
    (folder / "closed").chmod(0)
    tries.complains("an unreadable file", run("closed", folder=folder), b"clock: closed: Permission denied")


def try_help(tries):
    status, out, err = run("--help")
    tries.same("help", (status, out[:7], err), (0, b"usage: ", b""))
    for words in (["-h"], ["--explain", "--help", "missing"]):
        tries.same(f"help by {words}", run(*words), (0, out, b""))
    words = ("--explain", "--picture", "--help", "FILE", "FOLDER", "NAME.out", "refused", "status", "examples:")
    for word in (*words, "in .script", "in .text"):
        tries.same(f"help on {word}", word in out.decode(), True)
    tries.complains("help is no option behind --", run("--", "--help"), b"no such file")


def try_streams(tries, folder):
    """Standard input and output that are closed, full, a folder, or a pipe that nobody reads."""
    full = os.open("/dev/full", os.O_WRONLY)
    for mode in ([], ["--explain"], ["--picture"], ["--help"]):
        says = b"clock: standard output: No space left on device\n"
        tries.same(f"a full disk {mode}", ended(begun(*mode, EXAMPLE, stdout=full)), (2, None, says))
        ours, pipe = os.pipe()
        os.close(ours)
        tries.same(f"a pipe that nobody reads {mode}", ended(begun(*mode, EXAMPLE, stdout=pipe)), (141, None, b""))
        os.close(pipe)
    for closed, says in (("<&-", b"standard input is closed"), (">&-", b"standard output is closed")):
        tries.complains(says.decode(), run("-c", f'"$0" {closed}', CLOCK, clock="sh"), says)
    handle = os.open(folder, os.O_RDONLY)
    tries.same("nothing can be said", ended(begun("missing", stderr=full)), (2, b"", None))
    tries.complains("a folder as standard input", ended(begun(stdin=handle)), b"clock: standard input is a folder")
    os.close(handle)
    os.close(full)


# The facts

def try_explained(tries, folder):
    for given in (EXAMPLE.read_bytes(), TEXT):
        status, out, err = run("--explain", given=given)
        events, _, summary = out.partition(b"\n\n")
        tries.same("explained", (status, err), (0, b""))
        tries.same("explained lines", [line[:4] for line in events.split(b"\n")], LINES.split(b"\n")[:-1])
        tries.same("words behind each line", [line[4:6] for line in events.split(b"\n") if len(line) > 9], [b"  "] * 5)
        tries.same("a summary", summary.startswith(b"5 events"), True)
    (folder / "kind").write_bytes(bytes([2, 0, 27, 0, 19, 0, 8, 0]) + bytes(19) + bytes(4) + bytes([9, 0, 0, 0]))
    status, out, err = run("--explain", "kind", folder=folder)
    tries.same("explained, refused", (status, out[:18], err), (1, b"refused 2, event 1", b""))
    tries.same("one line", (out.count(b"\n"), len(out) > 30), (1, True))


def try_pictured(tries, folder):
    (folder / "a<b.text").write_bytes(TEXT)
    status, out, err = run("--picture", "a<b.text", folder=folder)
    tries.same("a picture", (status, err), (0, b""))
    picture = xml.etree.ElementTree.fromstring(out)
    tries.same("an SVG picture", picture.tag, "{http://www.w3.org/2000/svg}svg")
    tries.same("with its title", "a<b.text" in "".join(picture.itertext()), True)
    tries.same("the option behind the name", run("a<b.text", "--picture", folder=folder), (status, out, err))
    refused = run("--picture", given=b"\0")
    tries.complains("a refused script has no picture", refused, b"clock: standard input: no picture: refused 4", 1)


def try_yearly(tries):
    """The sheets' alarm for one hour of one day: it rings once, and INTAF, cleared while the hour lasts, stays 0."""
    script = ROOT / "examples" / "yearly.text"
    status, out, err = run("--explain", script)
    lines = out.decode().splitlines()
    said = ("the alarm rings at pulse ", "the pin goes low", "the pin goes high", "84h: stored at 0Fh")
    rings, falls, rises, cleared = ([at for at, line in enumerate(lines) if words in line] for words in said)
    tries.same("a yearly alarm", (status, err, len(rings), out.count(b"the alarm rings")), (0, b"", 1, 1))
    hour = "the time is 2008-08-08 20:00:00; the alarm rings "
    tries.same("its time", [hour in lines[at] for at in rings], [True])
    tries.same("the pin, low until INTAF is cleared", (falls, rises), (rings, cleared))
    # WRTC3, WRTC2 and RTCF.
    tries.same("0Fh later in the hour", [line[:2] for line in lines if "  read 0Fh" in line], ["85", "85"])
    picture = xml.etree.ElementTree.fromstring(run("--picture", script)[1])
    marks = [mark.get("d") for mark in picture.iter() if "alarm" in mark.get("class", "").split()]
    tries.same("its marks in the picture", "".join(marks).count("M"), 1)


# Stand-ins

def slow_facts():
    """The facts, with the first event after more than a second and the next one some time later."""
    waits = (0, 1.1, 0.3, 0)
    return "cat >/dev/null\n" + "".join(f"sleep {wait}\necho '{line}'\n" for wait, line in zip(waits, FACTS))


def try_progress(tries):
    clone = cloned(clock="sleep 1.2; echo done", explain=slow_facts()).build()
    status, out, shown, left = on_terminal("--explain", EXAMPLE, **clone.options)
    tries.same("explained on a terminal", (status, out[:4], left), (0, b"-- H", ""))
    tries.same("its progress", shown, [b"1 of 5 events", b"2 of 5 events"])
    tries.same("a plain run has no progress", on_terminal(EXAMPLE, **clone.options), (0, b"done\n", [], ""))
    tries.same("no progress elsewhere", clone.run("--explain", EXAMPLE)[2], b"")


def try_progress_line(tries):
    """It waits for its time, does not come too often, and covers what it has written."""
    terminal = io.StringIO()
    terminal.isatty = lambda: True
    with programs.Progress(terminal, after=60) as progress:
        progress.show("too early")
    tries.same("an early line", terminal.getvalue(), "")
    with programs.Progress(terminal, after=0) as progress:
        progress.show("first")
        progress.show("too soon")
        tries.same("a line", terminal.getvalue(), "\rfirst")
        time.sleep(progress.EVERY)
        progress.show("2nd")
    tries.same("lines", terminal.getvalue(), "\rfirst\r2nd  \r   \r")


def try_failing(tries):
    """Programs that stop, and facts that are none."""
    clone = cloned(clock="kill -SEGV $$", explain="echo nonsense").build()
    tries.complains("a program that is killed", clone.run(EXAMPLE), b"the program clock ended with status -11")
    tries.complains("no facts", clone.run("--explain", EXAMPLE), b"line 1 of the facts")
    clone = cloned(explain="\n".join(f"echo '{line}'" for line in FACTS[:2]) + "\nexit 3").build()
    tries.complains("half of the facts", clone.run("--picture", EXAMPLE), b"the program explain ended with status 3")
    (clone.folder / "tools" / "program").unlink()
    for name in (EXAMPLE, EXAMPLE.parent):
        says = b"clock: tools/program cannot be run: No such file or directory\n"
        tries.same(f"no tool to build with: {name}", clone.run(name), (2, b"", says))


def try_interrupt(tries):
    slow = "touch begun\nexec sleep 60"
    clone = cloned(clock=slow, explain=slow).build()
    for words in ([EXAMPLE], ["--explain", EXAMPLE]):
        process = begun(*words, cwd=clone.folder, **clone.options)
        wait_for(clone.folder / "begun")
        os.killpg(process.pid, signal.SIGINT)
        tries.same("Ctrl-C", ended(process), (130, b"", b""))
        (clone.folder / "begun").unlink()


def wait_for(path):
    late = time.monotonic() + PATIENCE
    while not path.exists() and time.monotonic() < late:
        time.sleep(0.02)


# How a program is had

def try_building(tries):
    clone = cloned(clock="cat >/dev/null; echo built")
    tries.complains("no build for a bad text", clone.run(given=b"STOP STRAT"), b"line 1, column 6")
    tries.same("the first run", clone.run(EXAMPLE), (0, b"built\n", BUILDS))
    tries.same("the second run", clone.run(EXAMPLE), (0, b"built\n", b""))
    os.utime(clone.folder / "crates/clock/src/main.rt", (time.time() + 1,) * 2)
    tries.same("a source that is newer", clone.run(EXAMPLE), (0, b"built\n", BUILDS))
    tries.same("built twice", clone.calls(), ["clock"] * 2)
    clone.put("bin/rt", "echo 'what is wrong'\necho 'clock: failed (1)'\nexit 1")
    os.utime(clone.folder / "crates/clock/src/main.rt", (time.time() + 2,) * 2)
    log = clone.folder / "target" / "clock.log"
    says = BUILDS + f"clock: failed (1)\nclock: rt all test failed in crates/clock: {log} has what it said\n".encode()
    tries.same("a proof that fails", clone.run(EXAMPLE), (2, b"", says))
    tries.same("its log", log.read_text(), "what is wrong\nclock: failed (1)\n")


def try_two_builds(tries):
    """Both run, one builds; without flock they are not kept apart."""
    if not shutil.which("flock"):
        print("tests/clock.py: two builds at a time are not tried: flock is missing")
        return
    clone = cloned(clock="cat >/dev/null; echo built")
    # Long enough for the other one to begin.
    clone.put("bin/rt", clone.RT.replace("sleep 0.5", "sleep 3"))
    both = [begun(EXAMPLE, **clone.options) for _ in range(2)]
    left = [ended(process) for process in both]
    tries.same("two at a time", [(status, out) for status, out, _ in left], [(0, b"built\n")] * 2)
    tries.same("one of them waits", sorted(b"another build is under way" in err for _, _, err in left), [False, True])
    tries.same("and one builds", clone.calls(), ["clock"])


def try_without_rt(tries):
    clone = cloned(clock="")
    tools = clone.folder / "only"
    tools.mkdir()
    (tools / "python3").symlink_to(sys.executable)
    for name in ("sh", "dirname", "readlink", "find", "uname"):
        (tools / name).symlink_to(shutil.which(name))
    tries.complains("no rt", clone.run(EXAMPLE, env={"PATH": str(tools)}), b"clock: rt is missing")


def try_settings(tries):
    """What the caller has set for Python changes nothing."""
    clone = cloned(clock="cat >/dev/null; echo run")
    clone.options["env"].update(PYTHONPATH=str(clone.folder / "shadow"))
    clone.put("shadow/scripts/__init__.py", "raise SystemExit(7)")
    clone.build()
    tries.same("the caller's settings", clone.run(EXAMPLE), (0, b"run\n", b""))


def try_model(tries):
    """The whole command against the independent model."""
    script = ROOT / "examples" / "boot.script"
    owed = run("answer", script, clock=ROOT / "harness" / "target" / "release" / "script")
    tries.same("the independent model", (owed[0], owed[2], len(owed[1].splitlines()) > 1), (0, b"", True))
    tries.same("the two models on examples/boot.script", run(script), owed)


def try_words(tries, folder):
    """The words of tools/program run the program from any folder."""
    tool = ROOT / "tools" / "program"
    status, out, err = run("--words", "clock", clock=tool, folder=folder)
    tries.same("words", (status, err), (0, b""))
    first, *others = out.decode().splitlines()
    elsewhere = {"given": EXAMPLE.read_bytes(), "folder": folder}
    tries.same("words elsewhere", run(*others, clock=first, **elsewhere), (0, LINES, b""))
    tries.same("the program itself", run("clock", clock=tool, **elsewhere), (0, LINES, b""))
    for bad in ([], ["--words"], ["clock", "clock"]):
        tries.complains(f"tools/program {bad}", run(*bad, clock=tool), b"usage: ")


def main():
    tries = Tries("./clock")
    with tempfile.TemporaryDirectory() as name:
        folder = Path(name)
        for group in (try_files, try_bad_calls, try_streams, try_explained, try_pictured, try_words):
            group(tries, folder)
    for group in (try_blank, try_content, try_endings):
        with tempfile.TemporaryDirectory() as name:
            group(tries, Path(name))
    groups = (try_yearly, try_model, try_pipes, try_long_texts, try_help, try_progress, try_progress_line)
    for group in (*groups, try_failing, try_interrupt, try_building, try_two_builds, try_without_rt, try_settings):
        group(tries)
    return 1 if tries.failed else 0


if __name__ == "__main__":
    sys.exit(main())
