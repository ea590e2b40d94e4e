"""Facts that can come to a stage of hooks, drawn where two rulesets may differ: of values that rules test, on the way
to rules that were changed, and in and beside lines that are told."""
from __future__ import annotations

from dataclasses import dataclass, replace
from typing import Iterator, Sequence

from facts import FIELDS, KNOWN, LEAST_LENGTH, MOST_LENGTH, PROTOCOLS, Facts, FactsDrawing
from reading import (
    Element, HasBits, HasOfMask, IsIn, IsPart, Lookup, Match, Part, Rule, SetMark, Span, Statement, Table, Translate,
    Verdict, VerdictMap,
)
from stages import Ruleset, Stage
from told_lines import Line
from tracking import TCP, State
from words import GREATEST, KINDS

Way = Sequence[Rule]  # rules that lead to a chain, from its base chain on


@dataclass(frozen=True)
class Target:
    """Values that a statement looks for: of each of its selectors one."""

    selectors: Sequence[str]
    element: Element


def targets(statement: Statement) -> Iterator[Target]:
    """The values that a statement looks for, one by one, where these aren't bits."""
    if isinstance(statement, Match):
        test = statement.test
        if isinstance(test, IsPart):
            yield Target(statement.selectors, (test.part,))
        elif isinstance(test, IsIn):
            yield from (Target(statement.selectors, element) for element in test.elements)
        return
    lookup = looked_up(statement)
    if lookup:
        yield from (Target((lookup.selector,), pair.element) for pair in lookup.pairs)


def looked_up(statement: Statement) -> Lookup | None:
    """The lookup of a statement that has one."""
    if isinstance(statement, VerdictMap):
        return statement.lookup
    found = statement.operand if isinstance(statement, SetMark) else None
    found = statement.address if isinstance(statement, Translate) else found
    return found if isinstance(found, Lookup) else None


class StageDrawing(FactsDrawing):
    """Draws facts that can come to a stage."""

    def come(self, stage: Stage, facts: Facts | None = None) -> Facts:
        """Any facts, or these as far as they can come there."""
        facts = facts or self.drawn(stage.head)
        return replace(facts, is_untracked=False, length=max(facts.length, LEAST_LENGTH),
                       state=State.NEW if stage.kind == "nat" else facts.state)

    def beside(self, stage: Stage, facts: Facts) -> Facts:
        """The facts with some fields, mostly one, of others."""
        other = self.drawn(stage.head)
        fields = [name for name in facts.__dataclass_fields__ if getattr(facts, name) != getattr(other, name)]
        some = self.dice.sample(fields, min(len(fields), self.one(1, 1, 1, 2)))
        return self.come(stage, replace(facts, **{name: getattr(other, name) for name in some}))

    def told(self, stage: Stage, line: Line) -> Facts:
        """Facts of a line, or just beside it."""
        facts = self.drawn(stage.head)
        missed = self.one(*line) if line and self.chance(40) else None
        for match in line:
            facts = self.with_match(self.with_connection(facts, match.selectors), match, match is missed)
        return self.come(stage, facts)

    def toward(self, stage: Stage, rules: Way) -> Facts:
        """Facts that meet most statements of these rules, taken one by one."""
        facts = self.drawn(stage.head)
        for rule in rules:
            for statement in rule.statements:
                facts = self.aimed(facts, statement)
        return self.come(stage, facts)

    def aimed(self, facts: Facts, statement: Statement) -> Facts:
        """The facts with values that the statement looks for, or of numbers the next to these."""
        if isinstance(statement, Match) and isinstance(statement.test, (HasBits, HasOfMask)):
            return self.with_match(self.with_connection(facts, statement.selectors), statement, self.chance(10))
        found = list(targets(statement))
        if not found:
            return facts
        for _ in range(6):
            aimed = facts
            target = self.one(*found)
            for selector, part in zip(target.selectors, target.element):
                aimed = self.with_part(aimed, selector, part)
            if not isinstance(statement, Match) or statement.take(aimed.met()) or self.chance(10):
                return aimed
        return facts

    def with_match(self, facts: Facts, match: Match, is_missed: bool) -> Facts:
        """The same; flags under a mask are set so at once."""
        if is_missed or not isinstance(match.test, HasOfMask) or match.operator == "!=":
            return super().with_match(facts, match, is_missed)
        return replace(facts, protocol=TCP, flags=facts.flags & ~match.test.mask & 255 | match.test.bits)

    def others(self, facts: Facts, selector: str) -> Iterator[Facts]:
        """The same; of flags not all."""
        if selector == "tcp flags":
            flags = [facts.flags ^ 1 << bit for bit in range(8)] + [self.flags() for _ in range(8)]
            return (replace(facts, flags=one) for one in flags)
        return super().others(facts, selector)

    def with_connection(self, facts: Facts, selectors: Sequence[str]) -> Facts:
        """The facts with a connection, where these selectors read of one."""
        reads = any(selector.startswith("ct ") and selector != "ct state" for selector in selectors)
        return replace(facts, state=self.one(*KNOWN)) if reads and facts.state not in (None, *KNOWN) else facts

    def with_part(self, facts: Facts, selector: str, part: Part) -> Facts:
        """The facts with a value of the part, or one just beside it."""
        facts = self.with_connection(facts, (selector,))
        family = selector.split(" ")[0]
        if family in PROTOCOLS:
            facts = replace(facts, protocol=self.one(*PROTOCOLS[family]))
        if selector in FIELDS and isinstance(part, Span):
            number = self.one(part.low, part.low, part.high, part.high, part.low - 1, part.high + 1)
            most = MOST_LENGTH if FIELDS[selector] == "length" else GREATEST[KINDS[selector]]
            return replace(facts, **{FIELDS[selector]: min(max(number, 0), most)})
        match = Match((selector,), "", IsIn("", [(part,)], ""), "")
        return self.with_match(facts, match, False) if selector not in FIELDS else facts


def ways_to(ruleset: Ruleset, stage: str) -> dict[str, Way]:
    """Of each chain that packets of a stage may come to, by its path, rules that lead there."""
    found: dict[str, Way] = {}
    for placed in ruleset.placed[stage]:
        follow(placed.table, placed.chain.name, (), found)
    return found


def follow(table: Table, name: str, way: Way, found: dict[str, Way]) -> None:
    """Notes how the chain is reached, and the chains that it leads to."""
    chain = table.chains[name]
    if chain.path in found:
        return
    found[chain.path] = way
    for rule in chain.rules:
        for called in called_by(rule):
            follow(table, called, (*way, rule), found)


def called_by(rule: Rule) -> Iterator[str]:
    """The chains that a rule jumps or goes to."""
    for statement in rule.statements:
        lookup = statement.lookup if isinstance(statement, VerdictMap) else None
        verdicts: list[object] = [pair.data for pair in lookup.pairs] if lookup else [statement]
        yield from (one.chain for one in verdicts if isinstance(one, Verdict) and one.chain)
