"""Rulesets of nft(8) with what they say in the language of nftrun, by hand (fitted.pairs), and what tools/fit-ruleset
makes of them."""
from __future__ import annotations

import pathlib
import re
import tempfile
from dataclasses import dataclass
from typing import Iterator

from drawn import BOX_TEXT
from fit.command import chosen_of, fit
from fit.network import Network
from told_diff import SAME

PAIRS = pathlib.Path(__file__).resolve().parent / "fitted.pairs"
BETWEEN, PARTS = re.compile("^== (.*)\n", re.M), re.compile("^-- (nft|plainly|ways|assumed|grade|told)\n", re.M)
TABLES = re.compile("^(?:table|add|define) ")
HEAD = "type filter hook forward priority 0; policy drop;"


@dataclass(frozen=True)
class FittedPair:
    """A ruleset of nft(8), what it says, how tools/fit-ruleset is asked and what it has to call its changes at worst,
    and what is to be told; and a ruleset that accepts all packets that are asked for."""

    name: str
    nft: str
    plainly: str
    grade: str
    ways: tuple[str, ...]
    told: str
    assumed: str | None


@dataclass(frozen=True)
class Result:
    """What tools/fit-ruleset writes, and the grade of its worst change."""

    text: str
    grade: str


def tables_of(text: str) -> str:
    """The text, or a table with a chain of these rules."""
    if TABLES.match(text):
        return text
    return f"table inet t {{\n chain forward {{\n  {HEAD}\n{text} }}\n}}\n"


def pairs_in(text: str) -> Iterator[FittedPair]:
    _, *parts = BETWEEN.split(text)
    for name, part in zip(parts[::2], parts[1::2]):
        _, *words = PARTS.split(part)
        texts = {word: it.rstrip("\n") + "\n" for word, it in zip(words[::2], words[1::2])}
        assumed = tables_of(texts["assumed"]) if "assumed" in texts else None
        yield FittedPair(name, tables_of(texts["nft"]), tables_of(texts["plainly"]), texts["grade"].strip(),
                         tuple(texts.get("ways", "").split()), texts.get("told", f"{SAME}\n"), assumed)


def fitted_pairs() -> list[FittedPair]:
    return list(pairs_in(PAIRS.read_text(encoding="ascii")))


def fitted(pair: FittedPair) -> Result:
    """What becomes of the ruleset."""
    with tempfile.TemporaryDirectory() as folder:
        rules, box = (pathlib.Path(folder, name) for name in ("rules.nft", "box.txt"))
        rules.write_text(pair.nft, encoding="ascii")
        box.write_text(BOX_TEXT, encoding="ascii")
        found = fit(str(rules), Network(str(box)), chosen_of(pair.ways))
        return Result(found.text, found.changes.worst().value)
