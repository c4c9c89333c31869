"""The commands of README and docs/SCRIPTS.md print what stands behind them there, and the picture is what README says."""

import os
import re
import shutil
import subprocess
import sys
import tempfile
from pathlib import Path

PAGES = ("README.md", "docs/SCRIPTS.md")
# A block of commands, and the block of what they print, if it follows at once.
COMMANDS = re.compile(r"^```sh\n(.*?)^```\n(?:\n```\n(.*?)^```\n)?", re.MULTILINE | re.DOTALL)
# The other commands take minutes: ./test judges its own last line, and tests/boundary.py runs the board's.
OURS = ("./clock ", "tools/script ")


def printed(commands, folder):
    return subprocess.run(["sh", "-ec", commands], cwd=folder, capture_output=True, text=True)


def owed(page):
    """Each block of ours with what it has to print: the block behind it, or the file that the page has it write."""
    for commands, output in COMMANDS.findall(Path(page).read_text(encoding="utf-8")):
        if not all(line.startswith(OURS) for line in commands.splitlines()):
            continue
        written = re.fullmatch(r"(.+) >(docs/\S+)\n", commands)
        if written:
            yield written[1], Path(written[2]).read_text(encoding="utf-8")
        elif output:
            yield commands, output


def fault(page, commands, output, folder):
    """What is wrong with a block, or None."""
    done = printed(commands, folder)
    if done.returncode or done.stderr:
        return "%s: this ends with %d and says %r:\n%s" % (page, done.returncode, done.stderr, commands)
    return None if done.stdout == output else "%s: this prints something else:\n%s" % (page, commands)


def main():
    with tempfile.TemporaryDirectory() as folder:
        # What the commands write stays in this folder, which has all that they read.
        for entry in set(os.listdir(".")) - {"examples"}:
            os.symlink(Path(entry).resolve(), Path(folder) / entry)
        shutil.copytree("examples", Path(folder) / "examples")
        blocks = [(page, *block) for page in PAGES for block in owed(page)]
        faults = [said for said in (fault(*block, folder) for block in blocks) if said]
    for said in faults:
        print(said)
    untried = [page for page in PAGES if page not in {block[0] for block in blocks}]
    for page in untried:
        print("%s: no command was found" % page)
    print("%d blocks of commands were run" % len(blocks))
    return 1 if faults or untried else 0


if __name__ == "__main__":
    sys.exit(main())
