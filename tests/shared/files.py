"""Files that tests of the program share: what they hold, and where they lie."""
from __future__ import annotations

import contextlib
import difflib
import os
import tempfile
from dataclasses import dataclass
from typing import Iterator

import shim

TOP = os.path.dirname(os.path.dirname(os.path.dirname(os.path.abspath(__file__))))
ROWS = f"{TOP}/tests/rows"
# What a file that a run writes holds before it, which is more than most runs write.
OLD = b"old" * 400
# One byte more than a ruleset may have.
LONG = b" " * 1_048_577


def contents(path: str) -> bytes:
    with open(path, "rb") as file:
        return file.read()


def store(path: str, data: bytes) -> None:
    with open(path, "wb") as file:
        file.write(data)


def difference(wanted: str, given: str) -> str:
    """The lines that differ of two texts."""
    pair = (wanted.splitlines(True), given.splitlines(True))
    return "".join(difflib.unified_diff(*pair, "stored", "given", n=0))


@dataclass(frozen=True)
class Workplace:
    """A folder for files, in memory where that can be, and the path of the built shim.c."""

    folder: str
    shim: str


@contextlib.contextmanager
def workplace() -> Iterator[Workplace]:
    """A workplace that is gone afterwards. A file system in memory may be one that no code is loaded from, so the shim
    has a folder of its own."""
    memory = "/dev/shm" if os.path.isdir("/dev/shm") else None
    with tempfile.TemporaryDirectory(dir=memory) as folder, tempfile.TemporaryDirectory() as code:
        yield Workplace(folder, shim.built(code))
