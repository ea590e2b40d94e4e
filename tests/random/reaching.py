"""What `nftrun reach --sets` says of a ruleset beside what facts come to by the plain reading (facts.py)."""
from __future__ import annotations

import enum
import re
from dataclasses import dataclass, field
from typing import Iterator

from facts import Facts, Reached, come_to, takers, would_meet
from reading import Chain, Table
from told_lines import Line, Lines, Told, Where

MET = "met"
# Which rules take a rule's packets, eight at most; or that its own matches take none that come to its chain.
TAKEN = re.compile(r", taken by ((?:\d+ ?)+)(\.\.)?$")
MATCHES_NONE = ", matches none"


class Kind(enum.Enum):
    """What is told of facts: that they come to a rule, meet it, or come to the end of their base chain."""

    REACHED = "reached"
    MET = "met"
    ENDS = "ends"

    def has(self, where: Where, reached: Reached) -> bool:
        """Whether facts did."""
        if self is Kind.ENDS:
            return where[0] in reached.ended
        return where in (reached.rules if self is Kind.REACHED else reached.met)


@dataclass(frozen=True)
class ToldSet:
    """A set that is told of a rule, or of the end of a base chain."""

    lines: Lines
    where: Where
    word: Kind

    @property
    def name(self) -> str:
        return f"{self.where} {self.word.value}"


def sets_at(told: Told, chain: Chain) -> Iterator[ToldSet]:
    """The sets about packets that came to the base chain, as far as they are told whole."""
    for where in told.rules:
        if where[0].rsplit(" ", 1)[0] != chain.path.rsplit(" ", 1)[0]:
            continue
        for word, sets in ((Kind.REACHED, told.sets.reached), (Kind.MET, told.sets.met)):
            lines = sets.get(where, {}).get(chain.path, Lines())
            if lines.is_whole:
                yield ToldSet(lines, where, word)
    ends = told.sets.ends.get(chain.path, Lines())
    if ends.is_whole:
        yield ToldSet(ends, (chain.path, 0), Kind.ENDS)


def lines_at(told: Told, chain: Chain) -> list[Line]:
    """The lines of all sets about packets that came there."""
    sets = [of[chain.path] for by in (told.sets.reached, told.sets.met) for of in by.values() if chain.path in of]
    sets += [told.sets.ends[chain.path]] if chain.path in told.sets.ends else []
    return [line for one in sets for line in one.lines]


@dataclass(frozen=True)
class Tried:
    """What is wrong of a seed, how many facts were drawn, how many rules they met of those that can be met, and how
    many can't; how many sets are told, how many of them whole; how many facts were drawn from lines, how many of these
    stand in that line; how often facts were looked for in a set, and stood in it; and of many facts (many_reach.py) how
    many were taken by the plain reading too."""

    wrong: tuple[str, ...] = ()
    facts: int = 0
    met: int = 0
    can_be_met: int = 0
    never: int = 0
    sets: int = 0
    whole: int = 0
    from_lines: int = 0
    in_line: int = 0
    compared: int = 0
    inside: int = 0
    too_large: int = 0
    plainly: int = 0

    def __add__(self, other: Tried) -> Tried:
        return Tried(*(getattr(self, name) + getattr(other, name) for name in self.__dataclass_fields__))


@dataclass
class Comparison:
    """Facts beside the sets of a ruleset."""

    told: Told
    table: Table
    reached: Reached
    wrong: list[str] = field(default_factory=list)
    all: Reached = field(default_factory=Reached)
    tried: Tried = Tried()

    def take(self, chain: Chain, facts: Facts) -> None:
        """Compares what is told of the facts at a base chain with what they come to."""
        come_to(self.table, chain, facts, self.reached)
        self.all.take(self.reached)
        met = facts.met()
        inside = 0
        sets = list(sets_at(self.told, chain))
        for one in sets:
            stands, comes = one.lines.has(met), one.word.has(one.where, self.reached)
            inside += stands
            if stands != comes:
                self.wrong.append(f"{one.name}: {'told' if stands else 'not told'}, and by reading "
                                  f"{'so' if comes else 'not so'}: {facts}")
        self.wrong += self.wrong_takers(facts)
        self.tried += Tried(facts=1, compared=len(sets), inside=inside)

    def wrong_takers(self, facts: Facts) -> Iterator[str]:
        """Of rules that can't be met, and would be by the facts, who takes these and isn't told."""
        for chain in self.table.chains.values():
            if (chain.path, 1) not in self.reached.rules:
                continue
            for number, rule in enumerate(chain.rules, 1):
                where = chain.path, number
                answer = self.told.rules.get(where, MET)
                if answer != MET and would_meet(rule, where, facts):
                    taking = takers(where, self.reached.rules)
                    if not are_told(answer, taking):
                        yield f"{where}: rules {sorted(taking)} take facts that would meet it, told: {answer}: {facts}"


def are_told(answer: str, taking: set[int]) -> bool:
    """Whether an answer says that these rules take packets of its rule."""
    taken = TAKEN.search(answer)
    told = [int(number) for number in taken[1].split()] if taken else []
    least = told[-1] if taken and taken[2] else 0
    return not answer.endswith(MATCHES_NONE) and all(it in told or 0 < least < it for it in taking)
