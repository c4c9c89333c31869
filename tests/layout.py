"""The layout of the sources: each stands as `rt fmt` writes it, which is run over copies of the crates."""

import shutil
import subprocess
import sys
import tempfile
from concurrent.futures import ThreadPoolExecutor
from pathlib import Path

CRATES = Path("crates")
PARTS = ("src", "specs", "proofs")


def faults(crate):
    """What rt fmt changes in a copy of a crate, or what keeps it from reading the crate."""
    with tempfile.TemporaryDirectory() as folder:
        for part in PARTS:
            if (CRATES / crate / part).is_dir():
                shutil.copytree(CRATES / crate / part, Path(folder) / part)
        options = {"cwd": folder, "stdin": subprocess.DEVNULL, "stdout": subprocess.PIPE, "stderr": subprocess.STDOUT}
        done = subprocess.run(["rt", "fmt"], text=True, **options)
    lines = done.stdout.splitlines()
    changed = [line.removeprefix("rt: formatted ") for line in lines if line.startswith("rt: formatted ")]
    if done.returncode and not changed:
        return ["crates/%s: rt fmt ended with %d: %s" % (crate, done.returncode, lines[-1] if lines else "")]
    return ["crates/%s/%s is not in rt's layout" % (crate, name) for name in changed]


def main():
    crates = sorted(path.parent.name for path in CRATES.glob("*/src"))
    with ThreadPoolExecutor() as pool:
        found = [fault for told in pool.map(faults, crates) for fault in told]
    for fault in found:
        print(fault)
    print("%d crates were laid out by rt fmt, %d files differ" % (len(crates), len(found)))
    return 1 if found else 0


if __name__ == "__main__":
    sys.exit(main())
