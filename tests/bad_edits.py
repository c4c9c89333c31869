"""tests/wrong_programs.py tells each edit that shows nothing: the edits in tests/bad_edits, all but one of them bad.

They are edits of `events`, the quickest crate to check, and one of `input`, which has an answer that misses its place.
Some are tried beside each other in one copy, where the good one must still pass; of the others one does not compile, so
that each is tried alone.
"""

import re
import subprocess
import sys

BESIDE = {
    "events/harmless": "NOT REFUSED",
    "events/elsewhere": "it was refused in events::kind::fault, returns-then-good, not in",
    "events/untold": "it gives no input that tells",
    "events/right": None,
}
ALONE = {
    "events/uncompiled": "it does not reach the prover",
    "events/misnamed": "a proof only misses its place",
    "input/misshapen": "a proof only misses its place",
    "events/unnamed": "it does not say where it is to be refused",
    "events/absent": "an 'old:' text is not in src/answer.rt just once",
    "events/twice": "an 'old:' text is not in src/refusal.rt just once",
    "events/outside": "a 'file:' line names no file of the crate",
    "events/empty": "it has no 'old:' and 'new:' pair",
}


def tried(*words):
    words = [sys.executable, "tests/wrong_programs.py", "--edits", "tests/bad_edits", *words]
    done = subprocess.run(words, stdout=subprocess.PIPE, stderr=subprocess.STDOUT, text=True)
    return done.returncode, done.stdout


def faults(owed):
    """What is not told as it should be of some edits that are tried in one call."""
    status, said = tried(*owed)
    # Behind the lines of the single checks stands one for each bad edit, and then the count.
    told = dict(re.findall(r"^(\w+/\w+): (.*[^)\n])$", said, re.MULTILINE))
    for label, why in owed.items():
        if (label in told) != (why is not None) or not told.get(label, "").startswith(why or ""):
            yield "%s: %s" % (label, told.get(label, "nothing is said of it"))
    good = list(owed.values()).count(None)
    if status != 1 or not re.search(r"^%d of %d wrong programs were refused" % (good, len(owed)), said, re.MULTILINE):
        yield "status %d for %d bad edits of %d:\n%s" % (status, len(owed) - good, len(owed), said)
    if good and "together-1: refused %d of %d" % (good, len(owed)) not in said:
        yield "they were not tried beside each other:\n%s" % said


def main():
    found = [fault for owed in (BESIDE, ALONE) for fault in faults(owed)]
    if tried("events/none")[0] != 2:
        found.append("an edit that there is not is no error")
    for fault in found:
        print(fault)
    print("%d bad edits were told" % (len(BESIDE) + len(ALONE) - 1) if not found else "bad edits are not told as they should be")
    return 1 if found else 0


if __name__ == "__main__":
    sys.exit(main())
