"""What is written: a file as a whole, and a name as a part of a line."""

import os
import tempfile

# A new file is open to whom the caller's other files are. There is no asking for the mask without setting it.
MASK = os.umask(0o077)
os.umask(MASK)


def shown(name):
    """A file's name as a part of one line."""
    return name if name and name.isprintable() else ascii(name)


def write(path, output):
    """Whole or not at all: whoever looks finds the old file or the new one."""
    handle, draft = tempfile.mkstemp(prefix=".clock-", dir=os.path.dirname(path))
    try:
        with open(handle, "wb") as file:
            os.fchmod(handle, 0o666 & ~MASK)
            file.write(output)
        os.replace(draft, path)
    except BaseException:
        os.unlink(draft)
        raise
