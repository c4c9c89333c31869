"""The proved programs: had from tools/program, which proves and builds them, run, and waited for."""

import functools
import os
import signal
import subprocess
import time
from pathlib import Path

TOOL = Path(__file__).resolve().parent.parent / "program"


class Missing(Exception):
    """There is no program to run; tools/program has said why."""


class NoTool(Missing):
    """Not even tools/program can be run, and why, in one line."""


class Stopped(Exception):
    """A program ended otherwise than it should."""


@functools.lru_cache(maxsize=None)
def command(crate):
    """The words that run a crate's program, which is proved and built first where that is not done yet."""
    try:
        done = subprocess.run([TOOL, "--words", crate], stdin=subprocess.DEVNULL, stdout=subprocess.PIPE)
    except OSError as error:
        raise NoTool(f"tools/program cannot be run: {error.strerror}") from error
    judge(crate, done.returncode, Missing)
    return [os.fsdecode(word) for word in done.stdout.split(b"\n")[:-1]]


def judge(crate, status, failure=Stopped):
    """Stops at a program that did not end well."""
    if status == -signal.SIGINT:
        # Ctrl-C reaches this process too, and perhaps later.
        raise KeyboardInterrupt
    if status != 0:
        raise failure(f"the program {crate} ended with status {status}")


def output(crate, script):
    """All that a program prints for the script on its standard input."""
    done = subprocess.run(command(crate), input=script, stdout=subprocess.PIPE)
    judge(crate, done.returncode)
    return done.stdout


def lines(crate, script):
    """The lines that a program prints for the script on its standard input, as they come."""
    with subprocess.Popen(command(crate), stdin=subprocess.PIPE, stdout=subprocess.PIPE) as process:
        try:
            feed(process.stdin, script)
            for line in process.stdout:
                yield line.decode("ascii", "replace")
        except BaseException:
            # Nobody waits for the rest of its run.
            process.kill()
            raise
    judge(crate, process.returncode)


def feed(pipe, script):
    try:
        pipe.write(script)
        pipe.close()
    except BrokenPipeError:
        # The program has ended early, and its status tells.
        pass


class Progress:
    """A line on a terminal that says how far something is, after some seconds, and that is gone at the end."""

    EVERY = 0.1

    def __init__(self, stream, after=1.0):
        self.stream = stream if stream is not None and stream.isatty() else None
        self.due = time.monotonic() + after
        self.width = 0

    def __enter__(self):
        return self

    def __exit__(self, *_):
        if self.width:
            self.put("")
            self.put("")

    def show(self, words):
        now = time.monotonic()
        if self.stream is not None and now >= self.due:
            self.due = now + self.EVERY
            self.put(words)

    def put(self, words):
        """The last words are covered by the new ones, or by spaces."""
        print(f"\r{words.ljust(self.width)}", end="", file=self.stream, flush=True)
        self.width = len(words)
