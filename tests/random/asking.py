"""Asks `nftrun diff` of a pair of rulesets that is written by hand, and compares what it tells with what is wanted."""
from __future__ import annotations

import random
import subprocess
import tempfile

from drawn import BOX_TEXT
from hand_made import MadePair, faults, wanted_of
from near import StageDrawing
from told_diff import differences_in
from told_lines import Unread

FACTS = 300
DIFFER = 10


def told_wrong(program: str, pair: MadePair) -> list[str]:
    """What is told wrong of a pair."""
    wanted = wanted_of(pair)
    with tempfile.TemporaryDirectory() as folder:
        for name, content in (*pair.files.items(), ("box", BOX_TEXT)):
            with open(f"{folder}/{name}", "w", encoding="utf-8") as file:
                file.write(content)
        words = [program, "diff", *(["--assume", "assumed"] if pair.assumed else []), "old", "new", "box"]
        done = subprocess.run(words, cwd=folder, capture_output=True, text=True, check=False)
    if done.returncode != (DIFFER if wanted.classes else 0):
        return [f"status {done.returncode}: {done.stderr}{done.stdout}"]
    try:
        told = differences_in(done.stdout)
    except (Unread, IndexError, KeyError) as fault:
        return [f"not to be read: {fault!r}"]
    return list(faults(wanted, told, StageDrawing(random.Random(pair.name), False), FACTS))
