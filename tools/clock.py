"""The command ./clock: the words of a call, and what is made of a script."""

import contextlib
import os
import re
import sys
from typing import Callable, NamedTuple

from scripts import facts, files, folder, picture, programs, text, words
from scripts.folder import Failed, Made
from scripts.outputs import shown

HELP = """\
usage: ./clock [--explain | --picture] [FILE | FOLDER]

Runs a script on the proved clock and prints a line for each event: what the wire answers, and the level of the
interrupt pin. A script is a script file, whose name ends in .script, or a text, whose name ends in .text. Without a
name, or with -, it is standard input. That, like a file of another name, is taken for a text if it begins with a word
of one, comments aside, and for a script file if not. A script that is refused prints "refused N" alone.

  --explain  prints each line with words behind it that say what the event did, and then a summary
  --picture  prints the run as an SVG picture instead
  --help     prints this text
  --         ends the options: what follows is a name

Of a folder every script is run whose name ends in .script or .text, those in folders within it left out. The output
of NAME goes to NAME.out beside it, with --explain to NAME.listing and with --picture to NAME.svg; a script that fails
has none, and stops no other. A summary tells which were refused and which failed.

The exit status, for one script as for a folder, is 0 if all were run, 1 if some were refused and 2 if some failed, or
if the call cannot be done.

examples:
  ./clock examples/read.script
  ./clock --explain examples/boot.text
  ./clock --picture examples/boot.text >boot.svg
  ./clock my-scripts

docs/SCRIPTS.md has the text form, docs/RULES.md the format of a file and the numbers of the refusals. The first run
proves and builds the program with the Rattle kit's rt, which takes some minutes.
"""
INTERRUPTED = 130
# As of a program that the end of its pipe has stopped.
PIPE_CLOSED = 141


class Complaint(Exception):
    """What keeps the call from being done, in one line."""


class Way(NamedTuple):
    """What is made of a script: by which program, how, and the ending of its file's name beside the script's."""

    crate: str
    make: Callable
    suffix: str


# What is made of a script

def answered(script, title, progress):
    output = programs.output("clock", script)
    refused = re.fullmatch(rb"refused ([0-9])\n", output)
    return Made(output, int(refused[1]) if refused else 0)


def watched(items, script, progress):
    """The facts as they come; the number of events is the file's first word (rule 9.1)."""
    events = int.from_bytes(script[:2], "little")
    for item in items:
        if isinstance(item, facts.Event):
            progress.show(f"{item.index + 1} of {events} events")
        yield item


def told(script, progress, tell):
    """What is told of the facts of a run."""
    with contextlib.closing(programs.lines("explain", script)) as lines:
        return tell(watched(facts.read(lines), script, progress)).encode()


def explained(script, title, progress):
    def listing(items):
        return "".join(f"{line}\n" for line in words.explained(items))

    try:
        return Made(told(script, progress, listing), 0)
    except facts.Refused as refused:
        return Made(f"{files.Refused(refused.number, refused.index)}\n".encode(), refused.number)


def pictured(script, title, progress):
    return Made(told(script, progress, lambda items: picture.drawn(items, title)), 0)


PLAIN = Way("clock", answered, ".out")
WAYS = {"--explain": Way("explain", explained, ".listing"), "--picture": Way("explain", pictured, ".svg")}


# Reading a script

def opened(name):
    if name != "-":
        return open(name, "rb")
    if sys.stdin is None:
        raise Complaint("standard input is closed")
    return contextlib.nullcontext(sys.stdin.buffer)


def by_content(name, file):
    """What no ending of a name tells: only what is a text beyond doubt is taken for one."""
    data = file.read(files.LONGEST + 1)
    if len(data) > files.LONGEST and text.characters(data, True):
        # A text may be longer than a file, and a long comment may stand before its first word.
        data += file.read(text.MOST_TEXT + 1 - len(data))
    more = len(data) > text.MOST_TEXT
    if text.is_text(data, more):
        return text.assembled(data)
    if text.characters(data, more):
        why = "it does not begin with a word of a text, nor does its name end in .text"
        say(f"{place(name)}: taken for a script file: {why}")
    return data[: files.LONGEST + 1]


def script_in(name, file):
    """The script file that is in a file, or that the text in it stands for; of long ones no more than tells."""
    if name.endswith(files.ENDING):
        return file.read(files.LONGEST + 1)
    if name.endswith(text.ENDING):
        return text.assembled(file.read(text.MOST_TEXT + 1))
    return by_content(name, file)


def read(name):
    try:
        with opened(name) as file:
            return script_in(name, file)
    except FileNotFoundError:
        raise Failed("no such file") from None
    except OSError as error:
        raise Failed(error.strerror) from error
    except text.TextError as error:
        raise Failed(str(error)) from error


def made(way, name, title, progress):
    """What is made of one script."""
    script = read(name)
    try:
        return way.make(script, title, progress)
    except OSError as error:
        raise Failed(f"the program {way.crate} cannot be run: {error.strerror}") from error
    except (programs.Stopped, facts.Broken) as error:
        raise Failed(str(error)) from error


# The call

def say(line):
    """Where nothing can be said, the exit status still tells."""
    if sys.stderr is not None:
        with contextlib.suppress(OSError):
            os.write(sys.stderr.fileno(), f"clock: {line}\n".encode())


def place(name):
    """Where a script is, as a part of a line."""
    return "standard input" if name == "-" else shown(name)


def put(output):
    """Writes to standard output, all of it."""
    try:
        sys.stdout.buffer.write(output)
        sys.stdout.buffer.flush()
    except OSError as error:
        # What is still held back would be tried again at the end.
        os.dup2(os.open(os.devnull, os.O_WRONLY), sys.stdout.fileno())
        if isinstance(error, BrokenPipeError):
            sys.exit(PIPE_CLOSED)
        raise Complaint(f"standard output: {error.strerror}") from error


def run_one(way, name):
    title = place(name) if name == "-" else shown(os.path.basename(name))
    try:
        with programs.Progress(sys.stderr) as progress:
            found = made(way, name, title, progress)
    except facts.Refused as refused:
        say(f"{place(name)}: no picture: {files.Refused(refused.number, refused.index)}")
        return 1
    except Failed as failed:
        raise Complaint(f"{place(name)}: {failed}") from failed
    put(found.output)
    return 1 if found.refusal else 0


def run_folder(way, name):
    try:
        names = folder.scripts(name)
    except OSError as error:
        raise Complaint(f"{shown(name)}: {error.strerror}") from error
    if not names:
        raise Complaint(f"no script in the folder: {shown(name)}: the names of scripts end in .script or .text")
    # Built before there are several that ask for it.
    programs.command(way.crate)

    def make(path):
        try:
            return made(way, path, shown(os.path.basename(path)), programs.Progress(None))
        except facts.Refused as refused:
            return Made(None, refused.number)

    with programs.Progress(sys.stderr, after=0) as progress:
        found = folder.results(make, name, names, way.suffix, progress)
    lines, status = folder.summary(found)
    put("".join(f"{line}\n" for line in lines).encode())
    return status


def asked(given):
    """The way and the name that a call asks for."""
    end = given.index("--") if "--" in given else len(given)
    options = {word for word in given[:end] if word.startswith("-") and word != "-"}
    names = [word for word in given[:end] if word not in options] + given[end + 1 :]
    unknown = sorted(options - set(WAYS))
    if unknown:
        raise Complaint(f"no such option: {shown(unknown[0])}: see ./clock --help")
    if len(options) > 1:
        raise Complaint("only one of --explain and --picture: see ./clock --help")
    if len(names) > 1:
        raise Complaint("one file or one folder at most: see ./clock --help")
    return WAYS[options.pop()] if options else PLAIN, names[0] if names else "-"


def call(given):
    if sys.stdout is None:
        raise Complaint("standard output is closed")
    if {"-h", "--help"} & set(given[: given.index("--") if "--" in given else None]):
        put(HELP.encode())
        return 0
    way, name = asked(given)
    return run_folder(way, name) if name != "-" and os.path.isdir(name) else run_one(way, name)


def main():
    try:
        return call(sys.argv[1:])
    except (Complaint, programs.NoTool) as complaint:
        say(complaint)
        return 2
    except programs.Missing:
        return 2
    except KeyboardInterrupt:
        return INTERRUPTED
    except Exception as error:
        # Python's own status for it is that of a refused script.
        say(repr(error))
        return 2


if __name__ == "__main__":
    sys.exit(main())
