"""What the gate spends: scripts/minutes.txt, with the processor minutes of each crate."""
from __future__ import annotations

import re
from dataclasses import dataclass
from typing import Mapping

from sources import TOP

PAGE = TOP / "scripts" / "minutes.txt"
HEAD = "# Processor minutes of the gate, crate by crate: proofs, must-fail edits. Written by scripts/minutes.\n"


@dataclass(frozen=True)
class Minutes:
    """Of a crate."""

    proofs: float
    edits: float

    def __str__(self) -> str:
        return f"{self.proofs:.1f} + {self.edits:.1f}"


def stored_minutes() -> dict[str, Minutes]:
    """The minutes by the names of crates; none where there is no file."""
    text = PAGE.read_text(encoding="utf-8") if PAGE.exists() else ""
    rows = (line.split() for line in text.split("\n") if re.match("[a-z]", line))
    return {name: Minutes(float(proofs), float(edits)) for name, proofs, edits in rows}


def store_minutes(spent: Mapping[str, Minutes]) -> None:
    rows = (f"{name} {it.proofs:.1f} {it.edits:.1f}\n" for name, it in sorted(spent.items()))
    PAGE.write_text(HEAD + "".join(rows), encoding="utf-8")
