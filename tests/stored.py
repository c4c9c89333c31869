"""The stored script files, and what the independent model has written for a run of each (harness/README.md)."""

from pathlib import Path
from typing import NamedTuple

FILES = Path(__file__).resolve().parent / "files"


class Run(NamedTuple):
    """A file by its name, and what its run hands back into an output of some room."""

    name: str
    refusal: int
    index: int
    count: int
    output: bytes


def data(name):
    return (FILES / "data" / name).read_bytes()


def runs():
    """Each stored run, in order: the words that ask for it, and then what it owes."""
    words = (FILES / "args").read_text().split()
    with open(FILES / "runs", "rb") as stored:
        for name, room in zip(words[::2], words[1::2]):
            if stored.readline().decode() != f"{name} {room}\n":
                raise ValueError(f"{name} {room} has no place among the stored runs")
            refusal, index, count = map(int, stored.readline().split()[1::2])
            # The registers, which no script shows; then the output with 8 bytes behind it, and a newline.
            stored.readline()
            yield Run(name, refusal, index, count, stored.read(int(room) + 9)[: int(room)])
        if stored.read():
            raise ValueError("there are more stored runs than the words ask for")
