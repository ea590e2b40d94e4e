"""Terminals for tests: opening them, and reading what is written to one, or to a pipe."""
from __future__ import annotations

import os
import pty
import tty
from dataclasses import dataclass

PIECE = 65_536


@dataclass(frozen=True)
class Ends:
    """The ends of a terminal or of a pipe: what is written to `far` comes out at `near`."""

    near: int
    far: int


def terminal() -> Ends:
    """A terminal that hands on each byte as it is."""
    near, far = pty.openpty()
    tty.setraw(far)
    return Ends(near, far)


def pipe() -> Ends:
    return Ends(*os.pipe())


def why_none() -> OSError | None:
    """Why no terminal can be opened here; None where one can."""
    try:
        ends = terminal()
    except OSError as error:
        return error
    os.close(ends.near)
    os.close(ends.far)
    return None


def all_of(near: int) -> bytes:
    """What is written to a pipe or a terminal until it is closed."""
    pieces = []
    while True:
        try:
            piece = os.read(near, PIECE)
        except OSError:  # the last end of a terminal that is written to is closed
            break
        if not piece:
            break
        pieces.append(piece)
    os.close(near)
    return b"".join(pieces)
