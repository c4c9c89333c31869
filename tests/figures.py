"""The calendar's figures, made anew with Python's datetime, are those that calendar_vectors is held to."""

import contextlib
import io
import sys
from pathlib import Path

import calendar_figures

STORED = Path("crates/calendar_vectors/stdout")


def main():
    made = io.StringIO()
    with contextlib.redirect_stdout(made):
        calendar_figures.print_dates()
        calendar_figures.print_month_ends()
        calendar_figures.print_patterns()
    pairs = zip(made.getvalue().splitlines(keepends=True), STORED.read_text().splitlines(keepends=True))
    for number, (line, stored) in enumerate(pairs, 1):
        if line != stored:
            print("%s:%d: datetime gives %s" % (STORED, number, line), end="")
    return 0 if made.getvalue() == STORED.read_text() else 1


if __name__ == "__main__":
    sys.exit(main())
