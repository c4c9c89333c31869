"""What ./test and tools/program do with the words of a call, and what ./test makes of rt and of its parts.

./test is tried in a copy, where stand-ins take the place of rt, of the other tools and of the tests themselves.
"""

import os
import shutil
import subprocess
import sys
import tempfile
import time
from pathlib import Path

from clock import PATIENCE, ROOT, Tries, cloned, wait_for
from parts import PARTS, REFUSALS

# What rt ci prints for two libraries and a program, an edit of each library.
RT_LINES = """\
== one
library one
rt: one proved
rt: three proved
rt: two is kept: an earlier run on this machine proved the same files over the same libraries
rt: must-fail one/a.edit: refused, as it must be: proofs/F/Answers.antt:1:1: error
rt: must-fail two/b.edit: refused, as it must be
rt: three ran, and wrote what its file stdout has
rt: three ran (built by Rattle's own compiler), and wrote what its file stdout has
rt: ok; handles allowed: none; must-fail edits: 2 refused; every proof and must-fail edit was done in this run
5 passed, 0 failed
"""
BUILT = "3 of 3 crates ok"
OWN = ("test", "tests/run.py", "tests/parts.py")


def tests_of(*calls):
    """The tests that calls name."""
    return {word for call in calls for word in call.words if word.startswith("tests/")}


# All of them, those too that are called only behind rt ci.
TESTS = tests_of(REFUSALS, *(call for part in PARTS for call in part.calls + (part.whole or ())))


class Copy:
    """A copy of ./test among stand-ins, each of which notes its call; what is named here fails, or says other lines."""

    # rt ci ends with its lines and status, rt all test with that one line and, where it is said to fail, with 1.
    RT = """\
        case $1 in
        all) echo "%s"; exit %d ;;
        esac
        cat <<"TEXT"
%sTEXT
        exit %d
        """

    def __init__(self, folder, failing=(), rt=RT_LINES, rt_status=0, built_status=0):
        self.folder = Path(folder)
        for name in OWN:
            (self.folder / name).parent.mkdir(exist_ok=True)
            shutil.copy(ROOT / name, self.folder / name)
        for name in (*TESTS, "tools/program", "bin/cargo", "bin/gcc", "bin/g++"):
            self.put(name, "exit 1\n" if name in failing else "")
        self.put("bin/rt", self.RT % (BUILT, built_status, rt, rt_status))
        (self.folder / "bin" / "python3").symlink_to(sys.executable)
        self.path = "%s:%s" % (self.folder / "bin", os.environ["PATH"])
        self.put("target/mark", "")
        for name in ("one/must-fail/a.edit", "two/must-fail/b.edit", "one/wrong/c.edit"):
            self.put("crates/%s" % name, "")

    def put(self, name, lines):
        path = self.folder / name
        path.parent.mkdir(parents=True, exist_ok=True)
        python = name.endswith(".py")
        note = 'import sys\nopen("calls", "a").write("%s\\n")\n' if python else '#!/bin/sh\necho "%s $*" >>calls\n'
        lines = "sys.exit(1)\n" if python and lines else lines
        path.write_text(note % name + lines)
        path.chmod(0o755)

    def run(self, *words, path=None):
        """Status, output, errors, and the stand-ins that were called."""
        (self.folder / "calls").write_text("")
        env = {**os.environ, "PATH": path or self.path}
        done = subprocess.run([self.folder / "test", *words], capture_output=True, text=True, env=env, timeout=PATIENCE)
        return done.returncode, done.stdout, done.stderr, (self.folder / "calls").read_text().splitlines()


def copied(tries, name, *words, **options):
    with tempfile.TemporaryDirectory() as folder:
        copy = Copy(folder, **options)
        result = copy.run(*words)
        tries.same("%s leaves target alone" % name, (copy.folder / "target" / "mark").exists(), True)
        return result


# ./test

def try_words(tries):
    status, out, err, calls = copied(tries, "--help", "--help")
    named = [part.name for part in PARTS if "\n  %s " % part.name in out]
    tries.same("--help", (status, err, calls, named), (0, "", [], [part.name for part in PARTS]))
    for words in (["nonsense"], ["--hlep"], ["quick", "layout"], ["layout", "quick"], ["layout", "nonsense"], [""]):
        status, out, err, calls = copied(tries, str(words), *words)
        tries.same("./test %s" % words, (status, out, err.count("\n"), calls), (2, "", 1, []))
    status, out, err, calls = copied(tries, "parts", "pages", "figures")
    wanted = ["tests/promises.py", "tests/rules.py", "tests/figures.py"]
    tries.same("parts", (status, err, sorted(calls)), (0, "", sorted(wanted)))
    tries.same("their seconds", out.splitlines()[-1], "test: passed, in seconds: pages 0, figures 0")


def try_missing(tries):
    """Without a tool nothing is begun, and one line says which it is."""
    with tempfile.TemporaryDirectory() as folder:
        copy = Copy(folder)
        for name in ("sh", "dirname"):
            (copy.folder / "bin" / name).symlink_to(shutil.which(name))
        for tool in ("g++", "gcc", "cargo", "rt"):
            (copy.folder / "bin" / tool).unlink()
            status, out, err, calls = copy.run(path=str(copy.folder / "bin"))
            tries.same("without %s" % tool, (status, out, err.count("\n"), calls), (2, "", 1, []))
            tries.same("its name", err.startswith("test: %s is missing" % tool), True)


def try_whole(tries):
    """Everything: rt's lines, the table, and the count as the last line."""
    status, out, err, calls = copied(tries, "everything")
    tries.same("everything", (status, err), (0, ""))
    tries.same("rt's lines", RT_LINES.rpartition("5 passed")[0] in out, True)
    tries.same("the last line", out.splitlines()[-1], "5 passed, 0 failed")
    tries.same("the count stands there once", out.count("passed, 0 failed"), 1)
    rows = [line[8:32].strip() for line in out.splitlines()[-7:-1]]
    owed = ["rt ci, proofs", "rt ci, programs", "rt all test", "wrong programs", "tests", "all"]
    tries.same("the table", rows, owed)
    counts = [line[38:].strip() for line in out.splitlines()[-7:-3]]
    tries.same("how many of each", counts, ["3 crates, 2 must-fail edits", "2 runs", "", "1"])
    tries.same("rt", [call for call in calls if call.startswith("bin/rt")], ["bin/rt ci", "bin/rt all test"])
    tries.same("every test", TESTS - {call.split()[0] for call in calls}, set())


def try_quick(tries):
    status, out, err, calls = copied(tries, "quick", "quick")
    tries.same("quick", (status, err, BUILT in out), (0, "", True))
    tries.same("it gives no count", ("passed, 0 failed" in out, out.splitlines()[-1]), (False, "test: quick: all parts passed"))
    tries.same("rt again", [call for call in calls if call.startswith("bin/rt")], ["bin/rt all test"])


def try_failing(tries):
    """Whatever fails, no count is printed, and one line says what it is."""
    for name in sorted(TESTS | {"bin/cargo", "tools/program"}):
        status, out, err, _ = copied(tries, name, failing=(name,))
        tries.same(name, (status, "passed, 0 failed" in out, err[:6], err.count("\n")), (1, False, "test: ", 1))
    for name, lines, ends in (
        ("a crate that fails", RT_LINES.replace("5 passed, 0", "4 passed, 1"), 1),
        ("a bad edit", RT_LINES.replace("2 refused;", "1 refused, 1 bad;"), 0),
        ("an edit that is not told", RT_LINES.replace("; must-fail edits: 2 refused", ""), 0),
        ("no count", RT_LINES.replace("5 passed, 0 failed\n", ""), 0),
        ("a count of failures", RT_LINES.replace("5 passed, 0", "4 passed, 1"), 0),
        ("nothing at all", "", 0),
        ("no crate", "0 passed, 0 failed\n", 0),
    ):
        status, out, err, calls = copied(tries, name, rt=lines, rt_status=ends)
        tries.same(name, (status, " failed\n" in out, "tests/refusals.py" in calls), (1, False, False))
    status, out, err, _ = copied(tries, "what the tests stand on", built_status=1)
    owed = (1, False, BUILT + "\ntest: rt all test failed\n")
    tries.same("what the tests stand on", (status, " passed" in out, err), owed)
    status, _, err, _ = copied(tries, "a bad crates.txt", rt="rt: crates.txt: bad\n", rt_status=2)
    tries.same("why rt did not begin", (status, err), (1, "rt: crates.txt: bad\ntest: rt ci failed\n"))


def try_progress(tries):
    """A line of rt's is seen before rt has ended."""
    with tempfile.TemporaryDirectory() as folder:
        copy = Copy(folder)
        copy.put("bin/rt", "echo early\necho second\nwhile [ ! -e go ]; do sleep 0.1; done\nexit 1\n")
        env = {**os.environ, "PATH": copy.path}
        with subprocess.Popen([copy.folder / "test"], stdout=subprocess.PIPE, stderr=subprocess.DEVNULL, env=env) as process:
            seen = next((line for line in process.stdout if line == b"early\n"), None)
            tries.same("a line as it comes", (seen, process.poll()), (b"early\n", None))
            (copy.folder / "go").touch()


def try_stopped(tries):
    """A run that is stopped ends all that it has begun."""
    with tempfile.TemporaryDirectory() as folder:
        copy = Copy(folder)
        # A child that notes that it lives.
        copy.put("bin/rt", "(while :; do date +%N >beat; done) &\nwait\n")
        env = {**os.environ, "PATH": copy.path}
        process = subprocess.Popen([copy.folder / "test"], stdout=subprocess.DEVNULL, env=env)
        wait_for(copy.folder / "beat")
        process.terminate()
        tries.same("stopped", process.wait(timeout=PATIENCE), 1)
        beat = (copy.folder / "beat").read_text()
        time.sleep(0.3)
        tries.same("its child", (copy.folder / "beat").read_text(), beat)


def try_stopped_beside(tries):
    """Where parts are tried beside each other nothing more is begun, and nobody is waited for."""
    with tempfile.TemporaryDirectory() as folder:
        copy = Copy(folder)
        slow = 'import time\nopen("begun", "a").close()\ntime.sleep(20)\nopen("over", "w").close()\n'
        for name in (name for name in TESTS if name.endswith(".py")):
            (copy.folder / name).write_text(slow)
        # More than are begun at once.
        words = [part.name for part in PARTS if not part.wide]
        options = {"stdout": subprocess.DEVNULL, "stderr": subprocess.DEVNULL, "env": {**os.environ, "PATH": copy.path}}
        process = subprocess.Popen([copy.folder / "test", *words], **options)
        wait_for(copy.folder / "begun")
        began = time.monotonic()
        process.terminate()
        tries.same("stopped beside others", process.wait(timeout=PATIENCE), 1)
        tries.same("at once", (time.monotonic() - began < 10, (copy.folder / "over").exists()), (True, False))


# tools/program

def try_program(tries):
    clone = cloned(clock="cat >/dev/null; echo built")
    tool = clone.folder / "tools" / "program"
    before = sorted(clone.folder.rglob("*"))
    status, out, err = clone.run("--help", clock=tool)
    tries.same("tools/program --help", (status, out[:21], err), (0, b"usage: tools/program ", b""))
    tries.same("its programs", b"\nThe programs: clock.\n" in out, True)
    clone.put("crates/fields/src/lib.rt", "")
    before = sorted(clone.folder.rglob("*"))
    for name in ("../../x", "fields", "none", "", "clock/", "-x"):
        tries.complains("tools/program %s" % name, clone.run(name, clock=tool), b"the programs are clock\n")
        tries.complains("tools/program --words %s" % name, clone.run("--words", name, clock=tool), b"the programs are clock\n")
    tries.same("nothing is written", sorted(clone.folder.rglob("*")), before)


def try_how_far(tries):
    """Each crate that is proved is told as it comes, out of all that the program is made of."""
    clone = cloned(clock="cat >/dev/null; echo built")
    clone.put("crates.txt", "a:\nb: a # low\nother staticlib: b\nclock: a b json\n")
    waits = "rt: waiting for another rt to finish"
    far = f"echo 'rt: chose 2 at a time'\necho noise\necho '== a'\necho '{waits}'\necho '== b'\n"
    ends = "echo '== clock'\necho '== summary'\necho 'a: ok'\n"
    clone.put("bin/rt", far + "while [ ! -e ../../go ]; do sleep 0.1; done\n" + clone.RT + ends)
    pipes = {"stdin": subprocess.DEVNULL, "stdout": subprocess.PIPE, "stderr": subprocess.PIPE, "env": clone.options["env"]}
    with subprocess.Popen([clone.folder / "tools" / "program", "clock"], **pipes) as process:
        said = [process.stderr.readline() for _ in range(4)]
        time.sleep(0.2)
        tries.same("rt has not ended", process.poll(), None)
        (clone.folder / "go").touch()
        said += process.stderr.readlines()
        tries.same("the program's output", process.stdout.read(), b"built\n")
    first = b"clock: proving and building 3 crates, which takes some 120 s on two processors the first time\n"
    lines = ["clock: 1 of 3, a", waits, "clock: 2 of 3, b", "clock: 3 of 3, clock"]
    tries.same("how far it is", said, [first, *(f"{line}\n".encode() for line in lines)])


def main():
    tries = Tries("tests/calls.py")
    for group in (try_words, try_missing, try_whole, try_quick, try_failing, try_progress):
        group(tries)
    for group in (try_stopped, try_stopped_beside, try_program, try_how_far):
        group(tries)
    return 1 if tries.failed else 0


if __name__ == "__main__":
    sys.exit(main())
