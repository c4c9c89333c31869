"""Every script of a folder, some at a time, each with its output in a file beside it."""

import collections
import contextlib
import os
import threading
from concurrent.futures import ThreadPoolExecutor, as_completed
from typing import NamedTuple, Optional

from scripts import files, text, words
from scripts.outputs import shown, write

ENDINGS = (files.ENDING, text.ENDING)
# Of more refused scripts than this the summary tells how many each refusal has, and not their names.
MOST_NAMED = 20


class Failed(Exception):
    """Why a script has no output, in one line."""


class Made(NamedTuple):
    """What is made of a script: its output, if there is one, and the number that it is refused with, else 0."""

    output: Optional[bytes]
    refusal: int


class Result(NamedTuple):
    """What became of a script; the failure is empty if there is none."""

    name: str
    refusal: int
    failure: str


def scripts(folder):
    """The names of the scripts in a folder, in order. A link that leads nowhere counts, and will fail by its name."""
    names = [name for name in os.listdir(folder) if name.endswith(ENDINGS) and not name.startswith(".")]
    paths = {name: os.path.join(folder, name) for name in names}
    return sorted(name for name, path in paths.items() if os.path.isfile(path) or not os.path.exists(path))


def leave(path, output):
    """The output in its file; where there is none, no older file stays that could be taken for it."""
    try:
        if output is not None:
            write(path, output)
        elif os.path.lexists(path):
            os.unlink(path)
    except OSError as error:
        raise Failed(f"{shown(os.path.basename(path))}: {error.strerror}") from error


def done(make, path, suffix):
    """What became of one script, which never stops the others."""
    name = os.path.basename(path)
    try:
        made = make(path)
        leave(path + suffix, made.output)
        return Result(name, made.refusal, "")
    except Failed as failed:
        reason = str(failed)
    except Exception as error:
        reason = repr(error)
    with contextlib.suppress(OSError):
        os.unlink(path + suffix)
    if os.path.lexists(path + suffix):
        reason += f"; an older {shown(name + suffix)} stays"
    return Result(name, 0, reason)


def results(make, folder, names, suffix, progress):
    """What became of each script, in the order of names; as many run at a time as there are processors for them."""
    ending = threading.Event()

    def one(name):
        return None if ending.is_set() else done(make, os.path.join(folder, name), suffix)

    found = []
    with ThreadPoolExecutor(len(os.sched_getaffinity(0))) as pool:
        try:
            progress.show(f"0 of {len(names)} scripts")
            for future in as_completed([pool.submit(one, name) for name in names]):
                found.append(future.result())
                progress.show(f"{len(found)} of {len(names)} scripts")
        finally:
            # On Ctrl-C those that run come to their end, and no other begins.
            ending.set()
    return sorted(found)


def refused_lines(refused):
    if len(refused) <= MOST_NAMED:
        return [f"{shown(name)}: refused {number}: {files.MEANINGS[number]}" for name, number, _ in refused]
    counts = collections.Counter(number for _, number, _ in refused)
    many = {number: words.counted(count, "script") for number, count in sorted(counts.items())}
    return [f"{counted}: refused {number}: {files.MEANINGS[number]}" for number, counted in many.items()]


def summary(found):
    """The lines that tell what became of the scripts, and the exit status."""
    refused = [result for result in found if result.refusal]
    failed = [result for result in found if result.failure]
    lines = refused_lines(refused)
    lines += [f"{shown(name)}: failed: {reason}" for name, _, reason in failed]
    lines.append(f"{len(found) - len(refused) - len(failed)} run, {len(refused)} refused, {len(failed)} failed")
    return lines, 2 if failed else 1 if refused else 0
