#!/usr/bin/env python3
"""Writes long random histories with the outputs that a run must give: rows of tests/rows.

tests/random/histories.py            writes the rows
tests/random/histories.py --check    tells where they differ, and writes nothing

What becomes of each record is told by plain searches through lists, written apart from the program and in another
language (tracked_history.py, translated_history.py). Nothing here reads what the program writes.
"""
from __future__ import annotations

import pathlib
import sys
from typing import Sequence

from tracked_history import tracked_history
from translated_history import translated_history

ROWS = pathlib.Path(__file__).resolve().parent.parent / "rows/histories.rows"
RECORDS = 2000
HEAD = "# Written by tests/random/histories.py, which predicts each outcome by plain searches of the history."


def rows() -> str:
    histories = (tracked_history(1, RECORDS), translated_history(1, RECORDS), translated_history(2, RECORDS))
    return HEAD + "\n" + "".join("\n" + "\n".join(one.lines) + "\n" for one in histories)


def main(words: Sequence[str]) -> int:
    if list(words) not in ([], ["--check"]):
        print(__doc__, file=sys.stderr)
        return 2
    if not words:
        ROWS.write_text(rows(), encoding="utf-8")
    elif ROWS.read_text(encoding="utf-8") != rows():
        print("tests/rows/histories.rows differs from what tests/random/histories.py writes")
        return 1
    return 0


if __name__ == "__main__":
    sys.exit(main(sys.argv[1:]))
