"""./clock on a folder: every script run, each output in its place, one bad script never stopping the others.

What the stored files have to give was written by the independent model; all else is written here by hand.
"""

import collections
import os
import signal
import stat
import sys
import tempfile
import time
from pathlib import Path

import stored
from clock import BUILDS, CLOCK, LINES, ROOT, TEXT, Tries, begun, cloned, ended, on_terminal, run, wait_for

EXAMPLE = (ROOT / "examples" / "read.script").read_bytes()
UNDER_8 = b"refused 4: the file has under 8 bytes\n"
NOT_19 = (
    b"refused 5: the start bytes are not 19, or a section is not in the file, "
    b"or shares a byte with the header or the other\n"
)


def filled(folder, contents):
    for name, content in contents.items():
        (folder / name).write_bytes(content)


def found(folder, ending):
    """What the files with this ending hold."""
    return {path.name: path.read_bytes() for path in folder.iterdir() if path.name.endswith(ending) and path.is_file()}


def drafts(folder):
    return [path.name for path in folder.iterdir() if path.name.startswith(".clock-")]


# Folders of good and bad scripts

def try_mixed(tries, folder):
    """Everything that a folder can have, in one."""
    scripts = {"good.script": EXAMPLE, "good.text": TEXT, "two words.script": EXAMPLE}
    odd = {"a\nb.script": EXAMPLE, "-dash.script": EXAMPLE, "\u00e9.text": TEXT}
    # As long as a name may be, so that its output can have none.
    longest = "n" * 248 + ".script"
    bad = {"bad.text": b"START\nSTRAT\n", "empty.script": b"", "short.script": b"\0", "taken.script": EXAMPLE}
    # A name tells bytes from text, whatever is in the file.
    swapped = {"swapped.script": TEXT, "swapped.text": EXAMPLE}
    others = {".hidden.script": EXAMPLE, "other.txt": TEXT, "SHOUTED.SCRIPT": EXAMPLE, "script": EXAMPLE, ".text": TEXT}
    filled(folder, {**scripts, **odd, **bad, **swapped, **others, longest: EXAMPLE})
    filled(folder, {"good.script.out": b"old", "bad.text.out": b"old", "gone.script.out": b"old"})
    for name in ("within.script", "taken.script.out"):
        (folder / name).mkdir()
    (folder / "within.script" / "inner.script").write_bytes(EXAMPLE)
    os.mkfifo(folder / "pipe.script")
    (folder / "link.script").symlink_to("good.script")
    (folder / "lost.script").symlink_to("nowhere")
    summary = (
        b"empty.script: " + UNDER_8 + b"short.script: " + UNDER_8 + b"swapped.script: " + NOT_19
        + b"bad.text: failed: line 2, column 1: no such word: STRAT\n"
        + b"lost.script: failed: no such file\n"
        + f"{longest}: failed: {longest}.out: File name too long\n".encode()
        + b"swapped.text: failed: line 1, column 11: the byte 98h is not UTF-8\n"
        + b"taken.script: failed: taken.script.out: Is a directory; an older taken.script.out stays\n"
        + b"7 run, 3 refused, 5 failed\n"
    )
    tries.same("a mixed folder", run(folder), (2, summary, b""))
    run_ones = [*scripts, *odd, "link.script"]
    owed = {"empty.script.out": b"refused 4\n", "short.script.out": b"refused 4\n", "gone.script.out": b"old"}
    owed.update({f"{name}.out": LINES for name in run_ones}, **{"swapped.script.out": b"refused 5\n"})
    tries.same("its outputs", found(folder, ".out"), owed)
    tries.same("its drafts", drafts(folder), [])
    tries.same("folders within", os.listdir(folder / "within.script"), ["inner.script"])


def try_states(tries, folder):
    """The exit status, and the ways to name a folder."""
    tries.complains("a folder without scripts", run(folder), b"no script in the folder")
    filled(folder, {"a.script": EXAMPLE})
    all_run = (0, b"1 run, 0 refused, 0 failed\n", b"")
    for words in ([folder], ["."], [f"{folder}/"], ["--", "."]):
        (folder / "a.script.out").unlink(missing_ok=True)
        tries.same(f"a folder by {words}", run(*words, folder=folder), all_run)
        tries.same("its output", found(folder, ".out"), {"a.script.out": LINES})
    filled(folder, {"b.script": b"\0"})
    refused = (1, b"b.script: " + UNDER_8 + b"1 run, 1 refused, 0 failed\n", b"")
    tries.same("one refused", run(folder), refused)
    tries.complains("a folder beside a file", run(folder, folder / "a.script"), b"one file or one folder")
    with open("/dev/full", "wb") as full:
        status, _, err = ended(begun(folder, stdout=full))
    tries.same("a summary on a full disk", (status, err.count(b"\n")), (2, 1))


def try_rights(tries, folder):
    filled(folder, {"a.script": EXAMPLE, "b.script": EXAMPLE})
    run("-c", 'umask 027; exec "$0" .', CLOCK, clock="sh", folder=folder)
    tries.same("the caller's mask", stat.S_IMODE((folder / "a.script.out").stat().st_mode), 0o640)
    if os.geteuid() == 0:
        print("tests/folder.py: unreadable scripts and folders that cannot be written are not tried: root can do both")
        return
    (folder / "a.script").chmod(0)
    failed = (2, b"a.script: failed: Permission denied\n1 run, 0 refused, 1 failed\n", b"")
    tries.same("an unreadable script", (run(folder), sorted(found(folder, ".out"))), (failed, ["b.script.out"]))
    folder.chmod(0o555)
    stays = b"b.script: failed: b.script.out: Permission denied; an older b.script.out stays\n"
    failed = b"a.script: failed: Permission denied\n" + stays + b"0 run, 0 refused, 2 failed\n"
    tries.same("a folder that cannot be written", run(folder), (2, failed, b""))
    folder.chmod(0)
    tries.complains("an unreadable folder", run(folder), b"Permission denied")
    folder.chmod(0o755)


# The stored files

def owed():
    """What the program has to print for each stored file that was run with room enough."""
    some = [run for run in stored.runs() if run.refusal != 7]
    return {run.name: b"refused %d\n" % run.refusal if run.refusal else run.output[: 5 * run.count] for run in some}


def try_stored(tries, folder):
    """Some hundred scripts at once, held to the independent model."""
    lines = owed()
    filled(folder, {f"{name}.script": stored.data(name) for name in lines})
    refused = sum(output.startswith(b"refused") for output in lines.values())
    status, out, err = run(folder)
    tries.same("stored files", (len(lines) > 200, status, err), (True, 1, b""))
    tries.same("their outputs", found(folder, ".out"), {f"{name}.script.out": output for name, output in lines.items()})
    told = out.decode().splitlines()
    tries.same("their count", told[-1], f"{len(lines) - refused} run, {refused} refused, 0 failed")
    # So many are told by number.
    counts = collections.Counter(output.decode().strip() for output in lines.values() if output.startswith(b"refused"))
    by_number = [": ".join(line.split(": ")[:2]) for line in told[:-1]]
    tries.same("their numbers", by_number, [f"{counts[line]} scripts: {line}" for line in sorted(counts)])


# The facts

def try_explained(tries, folder):
    filled(folder, {"a.text": TEXT, "b.script": b"\0", "b.script.svg": b"old", "b.script.out": b"old"})
    summary = (1, b"b.script: " + UNDER_8 + b"1 run, 1 refused, 0 failed\n", b"")
    tries.same("a folder explained", run("--explain", folder), summary)
    listings = found(folder, ".listing")
    tries.same("its listings", sorted(listings), ["a.text.listing", "b.script.listing"])
    tries.same("as that of one file", listings["a.text.listing"], run("--explain", folder / "a.text")[1])
    tries.same("one that is refused", listings["b.script.listing"], UNDER_8)
    tries.same("a folder pictured", run("--picture", folder), summary)
    pictures = found(folder, ".svg")
    tries.same("no picture of a refused one", sorted(pictures), ["a.text.svg"])
    tries.same("as that of one file", pictures["a.text.svg"], run("--picture", folder / "a.text")[1])
    tries.same("other outputs stay", found(folder, ".out"), {"b.script.out": b"old"})


# Stand-ins, as in tests/clock.py

def try_failing(tries, folder):
    """A program that is built once for all, and stops on one script of seven bytes."""
    clone = cloned(clock='[ "$(wc -c)" != 7 ] || exit 3; echo done')
    filled(folder, {"a.script": EXAMPLE, "b.script": bytes(7), "c.script": EXAMPLE, "b.script.out": b"old"})
    summary = b"b.script: failed: the program clock ended with status 3\n2 run, 0 refused, 1 failed\n"
    tries.same("a program that stops", clone.run(folder), (2, summary, BUILDS))
    tries.same("the others", found(folder, ".out"), {"a.script.out": b"done\n", "c.script.out": b"done\n"})


def try_progress(tries, folder):
    clone = cloned(clock="cat >/dev/null; sleep 0.2; echo done").build()
    filled(folder, {f"{number}.script": EXAMPLE for number in range(6)})
    status, out, shown, left = on_terminal(folder, **clone.options)
    tries.same("a folder on a terminal", (status, out, left), (0, b"6 run, 0 refused, 0 failed\n", ""))
    tries.same("its progress", shown[0], b"0 of 6 scripts")
    tries.same("more of it", all(part in [b"%d of 6 scripts" % done for done in range(7)] for part in shown), True)
    tries.same("it goes on", len(shown) > 2, True)


def try_interrupt(tries, folder):
    """Ctrl-C reaches all processes of a terminal; a signal may reach the command alone."""
    clone = cloned(clock="cat >/dev/null; sleep 0.2; echo done").build()
    names = [f"{number:02}.script" for number in range(60)]
    for send in (os.killpg, os.kill):
        filled(folder, {**{name: EXAMPLE for name in names}, **{f"{name}.out": b"old" for name in names[1:]}})
        process = begun(folder, **clone.options)
        wait_for(folder / f"{names[0]}.out")
        time.sleep(0.5)
        send(process.pid, signal.SIGINT)
        tries.same("Ctrl-C", ended(process), (130, b"", b""))
        outputs = list(found(folder, ".out").values())
        tries.same("whole outputs", (len(outputs), set(outputs)), (len(names), {b"old", b"done\n"}))
        tries.same("no drafts", drafts(folder), [])
        (folder / f"{names[0]}.out").unlink()


def main():
    tries = Tries("./clock on a folder")
    groups = (try_mixed, try_states, try_rights, try_stored, try_explained, try_failing, try_progress, try_interrupt)
    for group in groups:
        with tempfile.TemporaryDirectory() as name:
            group(tries, Path(name))
    return 1 if tries.failed else 0


if __name__ == "__main__":
    sys.exit(main())
