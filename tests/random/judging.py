"""What `nftrun diff` says of two rulesets beside what facts come to by either (stages.py): facts that differ stand in a
class that tells so, and no others stand in one."""
from __future__ import annotations

from dataclasses import dataclass
from typing import Iterator, Sequence

from facts import Facts
from near import StageDrawing, Way, ways_to
from reading import Met, Table
from rewriting import RulesetPair
from stages import BY_NAME, Pair, Ruleset, accepts
from told_diff import Class, Differences
from told_lines import Line

# How many facts are drawn for a stage at which nothing was changed and no class is told.
FEW = 3
FOR_EACH_LINE, MOST_TOLD = 6, 240


@dataclass(frozen=True)
class Judged:
    """What is wrong; how many facts were compared with what is told, how many of them differ; and how many differ and
    aren't told, where not all is. Of many facts (many.py) beside that how many classes are told, of how many a fact
    was there, and how many facts were taken by the plain reading too."""

    wrong: tuple[str, ...] = ()
    compared: int = 0
    differ: int = 0
    not_judged: int = 0
    classes: int = 0
    shown: int = 0
    plainly: int = 0

    def __add__(self, other: Judged) -> Judged:
        return Judged(*(getattr(self, name) + getattr(other, name) for name in self.__dataclass_fields__))


def has(one: Class, met: Met) -> bool:
    return one.packets.has(met)


def judged_facts(told: Differences, stage: str, pair: Pair, comes: bool = True) -> Judged:
    """What is told of a packet with these facts, beside what either ruleset does with it; whether it is assumed to
    come."""
    classes = [one for one in told.classes if one.stage == stage]
    met = pair.facts.met()
    holding = [one for one in classes if has(one, met)]
    if pair.old.is_like(pair.new) or not comes:
        what = f"both do {pair.new}" if comes else "it is assumed not to come"
        wrong = [f"{stage}: told {one.old}, now {one.new}, and {what}: {pair.facts}" for one in holding]
        return Judged(tuple(wrong), compared=1)
    if not holding:
        fitting = [one for one in classes if not one.packets.is_whole and not pair.faults(one)]
        if fitting or not told.is_whole:
            return Judged(not_judged=1)
        return Judged((f"{stage}: not told, and {pair.old}, now {pair.new}: {pair.facts}",), 1, 1)
    wrong = [f"{stage}: told {one.old}, now {one.new}, and it is {', '.join(faults)}: {pair.facts}"
             for one in holding for faults in [pair.faults(one)] if faults]
    if len(holding) > 1:
        wrong.append(f"{stage}: {len(holding)} classes have {pair.facts}")
    return Judged(tuple(wrong), 1, 1)


@dataclass(frozen=True)
class Judging:
    """Two rulesets, what was changed, and what is told of them."""

    old: Ruleset
    new: Ruleset
    pair: RulesetPair
    told: Differences
    drawing: StageDrawing
    assumed: Table | None

    def comes(self, facts: Facts) -> bool:
        """Whether a packet with these facts is assumed to come."""
        return self.assumed is None or accepts(self.assumed, facts)

    def judged(self, count: int) -> Judged:
        """All of it, by so many facts for each stage at which something may differ, and by as many near what is
        told."""
        return sum((self.judged_at(stage, count) for stage in BY_NAME), self.by_itself())

    def by_itself(self) -> Judged:
        """What is wrong of the answer without any facts."""
        wrong = self.told.faults()
        if self.pair.is_same and self.told.classes:
            heads = [f"{one.stage}: {one.old}, now {one.new}" for one in self.told.classes[:3]]
            wrong.append(f"they do the same, and are told to differ: {heads}")
        return Judged(tuple(wrong))

    def judged_at(self, stage: str, count: int) -> Judged:
        """What is told of a stage."""
        found = Judged()
        differing: list[Facts] = []
        for facts in self.facts_at(stage, count):
            one = self.judged_facts_at(stage, facts)
            differing += [facts] * (one.differ + one.not_judged)
            found += one
        for _ in range(count if differing else 0):
            facts = self.drawing.beside(BY_NAME[stage], self.drawing.one(*differing))
            one = self.judged_facts_at(stage, facts)
            differing += [facts] * (one.differ + one.not_judged)
            found += one
        return found

    def judged_facts_at(self, stage: str, facts: Facts) -> Judged:
        return judged_facts(self.told, stage, self.pair_at(stage, facts), self.comes(facts))

    def pair_at(self, stage: str, facts: Facts) -> Pair:
        return Pair(facts, self.old.result(stage, facts), self.new.result(stage, facts))

    def facts_at(self, stage: str, count: int) -> Iterator[Facts]:
        """Facts by chance, on the way to what was changed, and near what is told; beside those that differ there are
        more (judged_at)."""
        of = BY_NAME[stage]
        lines = self.lines_at(stage)
        ways = list(self.ways_at(stage))
        for _ in range(count if ways or lines else FEW):
            yield self.drawing.come(of)
        for _ in range(count if ways else 0):
            yield self.drawing.toward(of, self.drawing.one(*ways))
        for _ in range(min(max(count, FOR_EACH_LINE * len(lines)), MOST_TOLD) if lines else 0):
            yield self.drawing.told(of, self.drawing.one(*lines))

    def lines_at(self, stage: str) -> Sequence[Line]:
        return [line for one in self.told.classes if one.stage == stage for line in one.packets.lines]

    def ways_at(self, stage: str) -> Iterator[Way]:
        """The ways to rules that were changed, or to the chain of which the head was."""
        for ruleset in (self.old, self.new):
            ways = ways_to(ruleset, stage)
            for path, rules in self.pair.changed().items():
                if path in ways:
                    yield from ((*ways[path], rule) for rule in rules)
                    yield ways[path]


def judging(pair: RulesetPair, told: Differences, drawing: StageDrawing) -> Judging:
    old, new = (Ruleset([table.table for table in written]) for written in (pair.old, pair.new))
    return Judging(old, new, pair, told, drawing, pair.assumed.table if pair.assumed else None)
