"""What is tried of a page, and how it came out."""
from __future__ import annotations

from typing import Iterable

from toolbox.commands import say


class Checks:
    """Counts what was tried; what isn't as it has to be is told at once."""

    def __init__(self) -> None:
        self.tried = self.failed = 0

    def same(self, what: str, found: object, wanted: object) -> None:
        """That something is what it has to be."""
        self.tried += 1
        if found != wanted:
            self.failed += 1
            say(f"{what}: {found!r}, not {wanted!r}")

    def none(self, what: str, lines: Iterable[str]) -> None:
        """That there is nothing to tell of."""
        self.tried += 1
        found = list(lines)
        if found:
            self.failed += 1
            for line in found[:10]:
                say(f"{what}: {line}")
            if len(found) > 10:
                say(f"{what}: and {len(found) - 10} more")
