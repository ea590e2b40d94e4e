"""How much a change of a ruleset matters."""
from __future__ import annotations

from enum import Enum


class Grade(Enum):
    """From what matters least to what matters most; the value is the word that is printed, and that `--at-most` takes.

    SAME: no packet fares otherwise. OUTCOME: packets fare as before, and something that isn't shown differs. GUESS: a
    packet may fare otherwise. REFUSED: it can't be written for nftrun."""

    SAME = "same"
    OUTCOME = "outcome"
    GUESS = "guess"
    REFUSED = "refused"

    @property
    def rank(self) -> int:
        """0 of the best."""
        return RANKS[self]


RANKS = {grade: rank for rank, grade in enumerate(Grade)}
WRITTEN = (Grade.SAME, Grade.OUTCOME, Grade.GUESS)  # with which a ruleset is written
