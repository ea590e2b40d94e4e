"""Which protocols packets may have where a rule reads them, by the matches on the way."""
from __future__ import annotations

from typing import TYPE_CHECKING, Iterator, Sequence

from .facts import TRANSPORTS, first_word
from .numbers import holds, range_of
from .tree import (
    Chain,
    Elements,
    Expression,
    Joined,
    Match,
    Named,
    NotFitted,
    Part,
    Selector,
    Statement,
    Table,
    Verdict,
    VerdictMap,
)

if TYPE_CHECKING:
    from .fitter import Fitter

PROTOCOL = ("meta l4proto", "ip protocol")
ALL = frozenset(range(256))


class Protocols:
    """Answers which protocols may come to a chain, and to a statement of a rule."""

    def __init__(self, fitter: Fitter) -> None:
        self.fitter = fitter
        self.known: dict[Chain, frozenset[int]] = {}

    def of_chain(self, table: Table, chain: Chain) -> frozenset[int]:
        """The protocols that rules which lead to a chain leave; all in a base chain, and where chains go in circles."""
        if chain.head is not None:
            return ALL
        if chain not in self.known:
            self.known[chain] = ALL  # for chains that lead to each other
            found: frozenset[int] = frozenset()
            for site in table.chains.values():
                for rule in site.rules:
                    for index, it in enumerate(rule.statements):
                        for left in self.led(table, it, chain.name):
                            found |= left & self.at(table, site, rule.statements, index)
            self.known[chain] = found
        return self.known[chain]

    def led(self, table: Table, it: Statement, name: str) -> Iterator[frozenset[int]]:
        """The protocols with which a statement leads to a chain, once for each way."""
        if isinstance(it.what, Verdict) and it.what.target == name:
            yield ALL
        if not isinstance(it.what, VerdictMap):
            return
        for element in self.fitter.sets.elements_of(table, it.what.map):
            if element.verdict.target == name:
                yield self.of_key(it.what.left, [element.key])

    def at(self, table: Table, chain: Chain, statements: Sequence[Statement], index: int) -> frozenset[int]:
        """The protocols of packets for which a statement of a rule decides something: by the matches before it, and
        by those right behind."""
        left = self.of_chain(table, chain)
        for number, it in enumerate(statements):
            if isinstance(it.what, Match):
                left &= self.of_match(table, it.what)
            elif number >= index:
                break
        return left

    def of_match(self, table: Table, match: Match) -> frozenset[int]:
        """The protocols that a match leaves; all where that isn't known."""
        right = self.listed(table, match.right)
        if isinstance(match.left, Joined):
            found = self.of_key(match.left, [])
            if match.operator in ("", "==") and isinstance(right, Elements):
                found &= self.of_key(match.left, [it.key for it in right.items])
            return found
        if not isinstance(match.left, Selector):
            return ALL
        if match.left.name in PROTOCOL and right is not None:
            return frozenset(it for it in ALL if self.is_left(it, match.operator, right))
        return self.of_key(match.left, [])

    @staticmethod
    def is_left(number: int, operator: str, right: Expression) -> bool:
        try:
            return holds(number, operator, right, "inet_proto") is not False
        except NotFitted:
            return True  # told where the match is fitted

    def of_key(self, left: Expression, keys: Sequence[tuple[Part, ...]]) -> frozenset[int]:
        """The protocols that selectors ask for by themselves, and by these keys where there are some."""
        parts = left.parts if isinstance(left, Joined) else (left,)
        found = ALL
        for index, it in enumerate(parts):
            if not isinstance(it, Selector):
                continue
            if first_word(it.name) in TRANSPORTS:
                found &= {TRANSPORTS[first_word(it.name)]}
            elif it.name in PROTOCOL and keys:
                found &= {number for key in keys if len(key) == len(parts) for number in numbers_of(key[index])}
        return found

    def listed(self, table: Table, right: Expression) -> Expression | None:
        """What a match compares with; the elements of a named set, None where rules add to it."""
        if not isinstance(right, Named):
            return right
        found = table.sets.get(right.name)
        if found is None or (table.family, table.name, right.name) in self.fitter.added_to:
            return None
        return Elements(tuple(self.fitter.sets.kept(found)))


def numbers_of(part: Part) -> range:
    try:
        ends = range_of(part, "inet_proto")
    except NotFitted:
        ends = None
    return range(256) if ends is None else range(ends[0], min(ends[1], 255) + 1)
