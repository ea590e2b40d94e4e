"""Changes of drawn rulesets, one by one, by chance: of most it isn't known whether they change what happens with some
packet."""
from __future__ import annotations

import re
from dataclasses import dataclass, replace
from typing import AbstractSet, Callable, Optional, Sequence

from drawn import NAT_WORDS, WORDS, Drawing, WrittenChain, dotted
from near import called_by, ways_to
from reading import (
    Chain, HasBits, IsPart, Match, Notrack, Pair, Part, Rule, SetMark, Span, Statement, Translate, Verdict, Word,
    shares,
)
from rewriting import (
    Content, Place, Written, chain_at, content_text, contents, declared_as, kinds_of, match_of, name_of, part_text,
    places, rule_at, with_chain, with_contents, with_named, with_rule, with_rules, with_table,
)
from stages import BY_NAME, Ruleset
from translating import Ports
from words import GREATEST, KINDS, RANGED

# Priorities at which stages begin and end, and those beside them.
BORDERS = (-201, -200, -199, -101, -100, -99, 99, 100, 101)
MOST_TRIES = 30
ENDS = (Word.ACCEPT, Word.DROP, Word.RETURN, Word.CONTINUE)


@dataclass(frozen=True)
class Changed:
    """A ruleset that was made of another, how, and whether it is known to do the same."""

    written: Written
    what: str
    is_same: bool = False


Change = Callable[[Written], Optional[Changed]]


def reached_in(written: Written) -> set[str]:
    """The paths of the chains that packets may come to."""
    ruleset = Ruleset([one.table for one in written])
    return {path for stage in BY_NAME for path in ways_to(ruleset, stage)}


class Mutating(Drawing):
    """Changes one thing of a ruleset; each change gives nothing where the ruleset has nothing of its kind."""

    # The chains that packets may come to, in which most is changed.
    reached: AbstractSet[str] = frozenset()

    def mutated(self, written: Written) -> Changed:
        """A ruleset with a change."""
        changes = [
            self.without_rule, self.moved, self.doubled, self.without_statement, self.bound, self.bits, self.content,
            self.content, self.content_of_named, self.verdict, self.verdict, self.mark, self.policy,
            self.policy, self.priority, *[self.nat_port] * 4]
        self.reached = reached_in(written)
        return self.first_of(changes, written)

    def nothing(self, written: Written) -> Changed:
        """A ruleset with a change of rules that does nothing."""
        return self.first_of([self.unreached, self.doubled_in_vain], written)

    def first_of(self, changes: Sequence[Change], written: Written) -> Changed:
        """By one of these changes, or as it was."""
        shuffled = list(changes)
        self.dice.shuffle(shuffled)
        found = (change(written) for change in shuffled)
        return next((one for one in found if one), Changed(written, "as it was", True))

    def place(self, written: Written) -> Place | None:
        """A rule, mostly one of a chain's first that packets may come to."""
        found = places(written)
        if self.chance(90):
            found = [it for it in found if chain_at(written, it).chain.path in self.reached] or found
        if not found:
            return None
        some = self.one(*found)
        number = self.below(len(chain_at(written, some).chain.rules))
        return replace(some, rule=min(some.rule, number))

    # ---- rules

    def without_rule(self, written: Written) -> Changed | None:
        place = self.place(written)
        return Changed(with_rule(written, place), "a rule removed") if place else None

    def moved(self, written: Written) -> Changed | None:
        place = self.place(written)
        rules = list(chain_at(written, place).chain.rules) if place else []
        if not place or len(rules) < 2:
            return None
        rule = rules.pop(place.rule)
        rules.insert(self.one(*(number for number in range(len(rules) + 1) if number != place.rule)), rule)
        return Changed(with_rules(written, place, rules), "a rule moved")

    def doubled(self, written: Written) -> Changed | None:
        place = self.place(written)
        if not place:
            return None
        rule = rule_at(written, place)
        return Changed(with_rule(written, place, rule, rule), "a rule doubled")

    def doubled_in_vain(self, written: Written) -> Changed | None:
        """A rule doubled that writes nothing and calls no chain."""
        found = [place for place in places(written) if not leads_on(rule_at(written, place))]
        if not found:
            return None
        place = self.one(*found)
        rule = rule_at(written, place)
        return Changed(with_rule(written, place, rule, rule), "a rule doubled that writes nothing", True)

    def unreached(self, written: Written) -> Changed | None:
        """A rule removed, or moved, of a chain that no packet comes to."""
        reached = reached_in(written)
        found = [place for place in places(written) if chain_at(written, place).chain.path not in reached]
        if not found:
            return None
        return Changed(with_rule(written, self.one(*found)), "a rule removed that no packet comes to", True)

    # ---- statements

    def by_statement(self, written: Written, change: Callable[[Statement], Statement | None],
                     what: str) -> Changed | None:
        """With a statement changed for which `change` gives something."""
        for _ in range(MOST_TRIES):
            place = self.place(written)
            if not place:
                return None
            statements = list(rule_at(written, place).statements)
            for number in self.dice.sample(range(len(statements)), len(statements)):
                other = change(statements[number])
                if other and other.text != statements[number].text:
                    statements[number] = other
                    return Changed(with_rule(written, place, Rule(statements)), what)
        return None

    def without_statement(self, written: Written) -> Changed | None:
        """A match or `notrack` removed of a rule that has more."""
        found = [(place, one) for place in places(written) for one in rule_at(written, place).statements
                 if isinstance(one, (Match, Notrack)) and len(rule_at(written, place).statements) > 1]
        if not found:
            return None
        place, gone = self.one(*found)
        left = [one for one in rule_at(written, place).statements if one is not gone]
        return Changed(with_rule(written, place, Rule(left)), "a statement removed") if left else None

    def bound(self, written: Written) -> Changed | None:
        """A value or a bound of a range that is one more or less."""
        def change(statement: Statement) -> Statement | None:
            if not isinstance(statement, Match) or not isinstance(statement.test, IsPart):
                return None
            part = self.beside(KINDS[statement.selectors[0]], statement.test.part, statement.operator[:1] not in "<>")
            return match_of(statement.selectors, IsPart(statement.operator, part)) if part else None

        return self.by_statement(written, change, "a bound changed by one")

    def beside(self, kind: str, part: Part, may_widen: bool = True) -> Span | None:
        """A value or a range of which one bound is one more or less."""
        if kind not in RANGED or not isinstance(part, Span):
            return None
        step, low, high = self.one(-1, 1), part.low, part.high
        if low == high and not (may_widen and self.chance(50)):
            low, high = low + step, high + step
        elif self.chance(50):
            low += step
        else:
            high += step
        return Span(low, high) if 0 <= low <= high <= GREATEST[kind] else None

    def bits(self, written: Written) -> Changed | None:
        """A state, a status or a flag more or less."""
        def change(statement: Statement) -> Statement | None:
            if not isinstance(statement, Match) or not isinstance(statement.test, HasBits):
                return None
            bits = statement.test.bits ^ self.one(*WORDS[KINDS[statement.selectors[0]]].values())
            return match_of(statement.selectors, HasBits(statement.operator, bits)) if bits else None

        return self.by_statement(written, change, "a bit changed")

    def verdict(self, written: Written) -> Changed | None:
        def change(statement: Statement) -> Statement | None:
            if not isinstance(statement, Verdict):
                return None
            return Verdict(self.one(*(word for word in ENDS if word is not statement.word)))

        return self.by_statement(written, change, "a verdict changed")

    def mark(self, written: Written) -> Changed | None:
        def change(statement: Statement) -> Statement | None:
            if not isinstance(statement, SetMark) or not isinstance(statement.operand, (int, str)):
                return None
            operand: int | str = self.below(48) if self.chance(50) else self.one("meta mark", "ct mark")
            return SetMark(statement.field, operand, f"{statement.field} set {operand}")

        return self.by_statement(written, change, "a mark changed")

    def nat_port(self, written: Written) -> Changed | None:
        """Another port, or another range of ports, of a NAT statement."""
        def change(statement: Statement) -> Statement | None:
            if not isinstance(statement, Translate) or not isinstance(statement.address, (int, type(None))):
                return None
            low = statement.ports.low % 65_535 + 1 if statement.ports else 1 + self.below(48)
            ranged = statement.word in ("snat", "masquerade") and low < 65_535
            ports = Ports(low, low + self.below(2)) if ranged else Ports(low, low)
            address = "" if statement.address is None else dotted(statement.address)
            shown = str(low) if ports.low == ports.high else f"{low}-{ports.high}"
            return replace(statement, ports=ports, text=f"{statement.word} to {address}:{shown}")

        return self.by_statement(written, change, "a NAT port changed")

    # ---- sets and maps

    def content(self, written: Written) -> Changed | None:
        """An element more, less, or another, of a set or map without a name."""
        def change(statement: Statement) -> Statement | None:
            found = contents(statement)
            if found is None or name_of(statement):
                return None
            varied = self.varied(kinds_of(statement), found)
            return with_contents(statement, varied) if varied else None

        return self.by_statement(written, change, "an element changed")

    def content_of_named(self, written: Written) -> Changed | None:
        """The same of one with a name."""
        found = [(place.table, one) for place in places(written) for one in rule_at(written, place).statements
                 if name_of(one)]
        if not found:
            return None
        number, statement = self.one(*found)
        name, old, kinds = name_of(statement) or "", contents(statement) or [], kinds_of(statement)
        varied = self.varied(kinds, old)
        if varied is None:
            return None
        texts = dict(zip(map(id, old), declared_as(written[number], name).texts))
        told = [texts.get(id(one)) or content_text(kinds, one) for one in varied]
        table = with_named(written[number], name, varied, told)
        return Changed(with_table(written, number, table), "an element of a declared set changed")

    def varied(self, kinds: Sequence[str], given: Sequence[Content]) -> list[Content] | None:
        """Contents of which one is added, removed, or has another bound or data."""
        found = list(given)
        drawn = self.below(3)
        if drawn == 0 and len(found) > 1:
            del found[self.below(len(found))]
            return found
        if drawn == 1 or not found:
            return self.with_one_more(kinds, found)
        number = self.below(len(found))
        other = self.other(kinds, found[number], found)
        left = [one for one in found if one is not found[number]]
        if not other or isinstance(other, Pair) and overlaps(other, left):
            return None
        found[number] = other
        return found

    def with_one_more(self, kinds: Sequence[str], found: list[Content]) -> list[Content] | None:
        """With an element more; a map's has the data of another."""
        element = self.element(tuple(kinds))
        parts = tuple(one.part for one in element)
        maps = [one for one in found if isinstance(one, Pair)]
        if not maps:
            return [*found, parts]
        like = self.one(*maps)
        one = Pair(parts, like.data, f"{element[0].text} : {data_text(like)}")
        return None if overlaps(one, found) else [*found, one]

    def other(self, kinds: Sequence[str], content: Content, among: Sequence[Content]) -> Content | None:
        """An element with another bound, or one of a map with the data of another."""
        if not isinstance(content, Pair):
            number = self.below(len(content))
            part = self.beside(kinds[number], content[number], may_widen=len(content) == 1)
            return (*content[:number], part, *content[number + 1:]) if part else None
        like = self.one(*(one for one in among if isinstance(one, Pair)))
        if like.data != content.data:
            return Pair(content.element, like.data, f"{content.text.rpartition(' : ')[0]} : {data_text(like)}")
        part = self.beside(kinds[0], content.element[0])
        return Pair((part,), content.data, f"{part_text(kinds[0], part)} : {data_text(content)}") if part else None

    # ---- base chains

    def base(self, written: Written) -> Place | None:
        found = [Place(one, two, 0) for one, table in enumerate(written) for two, chain in enumerate(table.chains)
                 if chain.chain.head and chain.chain.head.hook != "output"]
        return self.one(*found) if found else None

    def policy(self, written: Written) -> Changed | None:
        place = self.base(written)
        if not place:
            return None
        old = chain_at(written, place)
        assert old.chain.head
        policy = Word.ACCEPT if old.chain.head.policy is Word.DROP else Word.DROP
        text = re.sub(" policy [a-z]+;", "", old.head) + f" policy {policy.value};"
        chain = Chain(old.chain.name, old.chain.rules, replace(old.chain.head, policy=policy))
        return Changed(with_chain(written, place, WrittenChain(chain, text)), "a policy turned")

    def priority(self, written: Written) -> Changed | None:
        """One more or less, or where a stage begins or ends."""
        place = self.base(written)
        if not place:
            return None
        old = chain_at(written, place)
        head = old.chain.head
        assert head
        priority = self.one(head.priority - 1, head.priority + 1, *BORDERS)
        if head.kind == "nat" and (priority <= -200 or head.hook not in NAT_WORDS):
            return None
        text = re.sub("priority [^;]+;", f"priority {priority};", old.head)
        chain = Chain(old.chain.name, old.chain.rules, replace(head, priority=priority))
        return Changed(with_chain(written, place, WrittenChain(chain, text)), "a priority changed")


def leads_on(rule: Rule) -> bool:
    """Whether a rule writes a mark or may call a chain."""
    return any(isinstance(one, SetMark) for one in rule.statements) or any(called_by(rule))


def overlaps(one: Pair, others: Sequence[Content]) -> bool:
    """Whether an element of a map has a number of another."""
    return any(shares(one.element[0], it.element[0]) for it in others if isinstance(it, Pair))


def data_text(pair: Pair) -> str:
    return pair.text.rpartition(" : ")[2]
