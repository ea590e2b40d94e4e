"""With which rulesets, packets and fitted rulesets `kernel/output.txt` of tests/tools/fit-ruleset was read in a kernel:
it is stored, and only root on Linux can read it again, so its second line tells what it is of.
"""
from __future__ import annotations

import hashlib
import pathlib

CASES = pathlib.Path(__file__).resolve().parents[1] / "tools/fit-ruleset"
KERNEL = CASES / "kernel"
RECORD = KERNEL / "output.txt"


def names() -> list[str]:
    """The rulesets, each of which has a stored case of its name: what fit-ruleset makes of it."""
    return sorted(it.stem for it in KERNEL.glob("*.nft"))


def second_line() -> str:
    """What the record has to tell that it is of, by the sum of all that it was read with."""
    read = [KERNEL / "box.txt", *(path for name in names() for path in (
        KERNEL / f"{name}.nft", KERNEL / f"{name}.txt", CASES / name / "output"))]
    told = hashlib.sha256(b"".join(hashlib.sha256(path.read_bytes()).digest() for path in read)).hexdigest()
    return f"{len(names())} rulesets, their packets and what fit-ruleset makes of them: {told[:16]}"
