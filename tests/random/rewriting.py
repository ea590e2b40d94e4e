"""Drawn rulesets with a rule, a statement, or what a set or map has replaced, and their texts with them."""
from __future__ import annotations

import re
from dataclasses import dataclass, replace
from typing import Callable, Iterator, Sequence, Tuple, Union

from drawn import BITS, WORDS, Declared, WrittenChain, WrittenTable, dotted
from near import looked_up
from reading import (
    Chain, Element, HasBits, IsIn, IsPart, Lookup, Match, Name, Pair, Part, Rule, SetMark, Statement, Test, Translate,
    VerdictMap,
)
from words import KINDS

Written = Tuple[WrittenTable, ...]
Content = Union[Element, Pair]
Change = Callable[[Statement], Statement]
NAMED = re.compile("@([a-z0-9]+)$")
# The types whose values have words alone, and those that are told by them.
OF_WORDS = ("ct_state", "ct_status", "iface_index")


@dataclass(frozen=True)
class Place:
    """A rule: the numbers of its table, its chain, and its own, from 0."""

    table: int
    chain: int
    rule: int


# ---- places

def places(written: Written) -> list[Place]:
    """All rules."""
    return [Place(one, two, three) for one, table in enumerate(written) for two, chain in enumerate(table.chains)
            for three in range(len(chain.chain.rules))]


def chain_at(written: Written, place: Place) -> WrittenChain:
    return written[place.table].chains[place.chain]


def rule_at(written: Written, place: Place) -> Rule:
    return chain_at(written, place).chain.rules[place.rule]


def with_table(written: Written, number: int, table: WrittenTable) -> Written:
    return (*written[:number], table, *written[number + 1:])


def with_chain(written: Written, place: Place, chain: WrittenChain) -> Written:
    table = written[place.table]
    chains = [*table.chains[:place.chain], chain, *table.chains[place.chain + 1:]]
    return with_table(written, place.table, replace(table, chains=chains))


def with_rules(written: Written, place: Place, rules: Sequence[Rule]) -> Written:
    """With other rules of the place's chain."""
    old = chain_at(written, place)
    return with_chain(written, place, WrittenChain(Chain(old.chain.name, rules, old.chain.head), old.head))


def with_rule(written: Written, place: Place, *rules: Rule) -> Written:
    """With these rules in place of one, or none."""
    old = chain_at(written, place).chain.rules
    return with_rules(written, place, [*old[:place.rule], *rules, *old[place.rule + 1:]])


def with_statements(table: WrittenTable, change: Change) -> WrittenTable:
    """The table, each of whose statements is changed so."""
    chains = []
    for one in table.chains:
        rules = [Rule([change(statement) for statement in rule.statements]) for rule in one.chain.rules]
        rules = [old if list(old.statements) == new.statements else new for old, new in zip(one.chain.rules, rules)]
        chains.append(WrittenChain(Chain(one.chain.name, rules, one.chain.head), one.head))
    return replace(table, chains=chains)


def differing(old: Chain, new: Chain) -> Iterator[Rule]:
    """The rules of two chains between those that they begin and end with alike."""
    one, two = list(old.rules), list(new.rules)
    while one and two and one[0] == two[0]:
        del one[0], two[0]
    while one and two and one[-1] == two[-1]:
        del one[-1], two[-1]
    yield from (*one, *two)


@dataclass(frozen=True)
class RulesetPair:
    """Two rulesets, what was done between them, and whether they are known to do the same; and a ruleset of one filter
    chain, where only packets are asked for that it accepts."""

    old: Written
    new: Written
    whats: Sequence[str]
    is_same: bool
    assumed: WrittenTable | None = None

    def changed(self) -> dict[str, list[Rule]]:
        """The rules of either that the other hasn't at their place, by the paths of their chains; none of a chain of
        which the head alone differs."""
        found: dict[str, list[Rule]] = {}
        for old, new in zip(self.old, self.new):
            others = {one.chain.name: one for one in new.chains}
            for one in old.chains:
                other = others[one.chain.name]
                rules = list(differing(one.chain, other.chain))
                if rules or one.head != other.head:
                    found[f"{old.family} {old.name} {one.chain.name}"] = rules
        return found


def text_of(written: Written) -> str:
    return "".join(table.text for table in written)


# ---- texts

def part_text(kind: str, part: Part) -> str:
    """How a value, a range or a name is written."""
    if isinstance(part, Name):
        return f'"{part.name}*"' if part.is_beginning else f'"{part.name}"'
    if kind in OF_WORDS:
        return next(word for word, number in WORDS[kind].items() if number == part.low)
    low, high = ((dotted(it) if kind == "ipv4_addr" else str(it)) for it in (part.low, part.high))
    return low if low == high else f"{low}-{high}"


def element_text(kinds: Sequence[str], element: Element) -> str:
    return " . ".join(part_text(kind, part) for kind, part in zip(kinds, element))


def bits_text(kind: str, bits: int) -> str:
    return ",".join(word for word, bit in WORDS[kind].items() if bits & bit)


def match_of(selectors: Sequence[str], test: IsPart | IsIn | HasBits) -> Match:
    """A match, with its text."""
    kinds = [KINDS[selector] for selector in selectors]
    if isinstance(test, IsPart):
        text = part_text(kinds[0], test.part)
    elif isinstance(test, HasBits):
        text = bits_text(kinds[0], test.bits)
    else:
        text = "{ " + ", ".join(element_text(kinds, element) for element in test.elements) + " }"
    shown = f" {test.operator}" if test.operator else ""
    return Match(selectors, test.operator, test, f"{' . '.join(selectors)}{shown} {text}")


def is_of_bits(match: Match) -> bool:
    return KINDS[match.selectors[0]] in BITS


# ---- what sets and maps have

def name_of(statement: Statement) -> str | None:
    """The name of the set or map that a statement asks, if that has one."""
    found = NAMED.search(statement.text)
    return found[1] if found else None


def kinds_of(statement: Statement) -> Sequence[str]:
    """The types of the values that a statement looks for in a set or a map."""
    lookup = looked_up(statement)
    selectors = statement.selectors if isinstance(statement, Match) else [lookup.selector] if lookup else []
    return [KINDS[selector] for selector in selectors]


def contents(statement: Statement) -> Sequence[Content] | None:
    """What the set or map of a statement has, if it asks one."""
    if isinstance(statement, Match):
        return statement.test.elements if isinstance(statement.test, IsIn) else None
    lookup = looked_up(statement)
    return lookup.pairs if lookup else None


def content_text(kinds: Sequence[str], content: Content) -> str:
    return content.text if isinstance(content, Pair) else element_text(kinds, content)


def with_contents(statement: Statement, given: Sequence[Content]) -> Statement:
    """The statement with other contents of its set or map."""
    text = statement.text
    if not name_of(statement):
        kinds = kinds_of(statement)
        listed = ", ".join(content_text(kinds, one) for one in given)
        text = text[:text.index("{")] + "{ " + listed + " }"
    if isinstance(statement, Match):
        assert isinstance(statement.test, IsIn)
        test: Test = replace(statement.test, elements=[one for one in given if not isinstance(one, Pair)])
        return replace(statement, test=test, text=text)
    lookup = looked_up(statement)
    assert lookup and isinstance(statement, (VerdictMap, SetMark, Translate))
    other = Lookup(lookup.selector, [one for one in given if isinstance(one, Pair)])
    if isinstance(statement, VerdictMap):
        return VerdictMap(other, text)
    if isinstance(statement, SetMark):
        return replace(statement, operand=other, text=text)
    return replace(statement, address=other, text=text)


def with_named(table: WrittenTable, name: str, given: Sequence[Content], texts: Sequence[str]) -> WrittenTable:
    """The table with other contents of a set or map with a name."""
    def change(statement: Statement) -> Statement:
        return with_contents(statement, given) if name_of(statement) == name else statement

    declared = [one.with_texts(texts) if one.head.split(" ")[1] == name else one for one in table.declared]
    return replace(with_statements(table, change), declared=declared)


def declared_as(table: WrittenTable, name: str) -> Declared:
    return next(one for one in table.declared if one.head.split(" ")[1] == name)
