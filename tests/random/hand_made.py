"""Pairs of rulesets written by hand (hand_made.pairs), and what has to be told of them beside what is told."""
from __future__ import annotations

import pathlib
import re
from dataclasses import dataclass, replace
from typing import Iterator

from near import StageDrawing
from stages import BY_NAME
from told_diff import AsCame, Class, Differences, Outcome, differences_in
from told_lines import Lines

PAIRS = pathlib.Path(__file__).resolve().parent / "hand_made.pairs"
BETWEEN, PARTS = re.compile("^== (.*)\n", re.M), re.compile("^-- (old|new|assumed|told)\n", re.M)


@dataclass(frozen=True)
class MadePair:
    """A pair, what is to be told of it, and a ruleset of one chain that accepts all packets that are asked for."""

    name: str
    old: str
    new: str
    told: str
    assumed: str | None = None

    @property
    def files(self) -> dict[str, str]:
        """Its rulesets, by the names of their files."""
        files = {"old": self.old, "new": self.new}
        return files if self.assumed is None else {**files, "assumed": self.assumed}


def pairs_in(text: str) -> Iterator[MadePair]:
    """The pairs of a text."""
    _, *parts = BETWEEN.split(text)
    for name, part in zip(parts[::2], parts[1::2]):
        _, *words = PARTS.split(part)
        texts = dict(zip(words[::2], words[1::2]))
        yield MadePair(name, texts["old"], texts["new"], texts["told"].rstrip("\n") + "\n", texts.get("assumed"))


def plainly(outcome: Outcome) -> Outcome:
    """The outcome without marks that are as they came."""
    meta_mark = None if outcome.meta_mark == AsCame("packet") else outcome.meta_mark
    ct_mark = None if outcome.ct_mark == AsCame("connection") else outcome.ct_mark
    return replace(outcome, meta_mark=meta_mark, ct_mark=ct_mark)


def classes_of(told: Differences) -> dict[tuple[str, Outcome, Outcome], Class]:
    """The classes by their lines; packets of several with one line together."""
    found: dict[tuple[str, Outcome, Outcome], Class] = {}
    for one in told.classes:
        head = one.stage, plainly(one.old), plainly(one.new)
        packets = Lines() if head not in found else found[head].packets
        lines = [*packets.lines, *one.packets.lines]
        found[head] = replace(one, packets=Lines(lines, packets.is_whole and one.packets.is_whole))
    return found


def faults(wanted: Differences, told: Differences, drawing: StageDrawing, count: int) -> Iterator[str]:
    """What is told otherwise than wanted: classes, or packets of one, by so many facts near its lines."""
    yield from told.faults()
    classes, others = classes_of(wanted), classes_of(told)
    yield from (f"not told: {head}" for head in classes if head not in others)
    yield from (f"told: {head}" for head in others if head not in classes)
    for head in set(classes) & set(others):
        yield from packet_faults(classes[head], others[head], drawing, count)
    if not told.is_whole:
        yield "not all is told"


def packet_faults(wanted: Class, told: Class, drawing: StageDrawing, count: int) -> Iterator[str]:
    """The same of one class."""
    lines = [*wanted.packets.lines, *told.packets.lines]
    for _ in range(count):
        facts = drawing.told(BY_NAME[wanted.stage], drawing.one(*lines))
        met = facts.met()
        is_wanted, is_told = wanted.packets.has(met), told.packets.has(met)
        if is_wanted and not is_told and told.packets.is_whole:
            yield f"{wanted.stage}: not told: {facts}"
        if is_told and not is_wanted:
            yield f"{wanted.stage}: told: {facts}"


def made_pairs() -> list[MadePair]:
    return list(pairs_in(PAIRS.read_text(encoding="ascii")))


def wanted_of(pair: MadePair) -> Differences:
    return differences_in(pair.told)
