"""Rulesets written in two ways that do the same with every packet: rules are planted in a drawn ruleset in either of
two forms, or its matches are spelled otherwise.

That they do the same follows from docs/SPEC.md, section 2, for each form; test-diff tries it by facts too.
"""
from __future__ import annotations

from dataclasses import dataclass, replace
from typing import Callable, Sequence

from drawn import FIRST, Declared, Drawing, WrittenChain, dotted
from mutating import Changed
from reading import (
    Chain, Counter, Element, HasBits, IsIn, IsPart, Lookup, Match, Pair, Rule, SetMark, Span, Statement, Translate,
    Verdict, VerdictMap, Word,
)
from rewriting import Place, Written, chain_at, match_of, part_text, with_rules, with_statements, with_table
from tracking import State
from words import KINDS, RANGED

# Selectors whose values are few numbers with ranges: some of each type, but of marks, which rules write, and lengths.
SOME = ("ip saddr", "ip daddr", "tcp dport", "udp sport", "th dport", "ip protocol", "ip ttl", "icmp type")
WITHOUT = (*(KINDS[selector] for selector in SOME), "mark", "ip length", "meta length")
SELECTORS = (*SOME, *(selector for selector, kind in KINDS.items() if kind in RANGED and kind not in WITHOUT))
ENDS = (Word.ACCEPT, Word.DROP, Word.RETURN)


@dataclass(frozen=True)
class Forms:
    """Rules in two forms, and what their table needs for either."""

    what: str
    old: Sequence[Rule]
    new: Sequence[Rule]
    chains: Sequence[WrittenChain] = ()
    declared: Sequence[Declared] = ()


def when(selector: str, span: Span, operator: str = "") -> Match:
    return match_of((selector,), IsPart(operator, span))


def among(selector: str, spans: Sequence[Span]) -> Match:
    return match_of((selector,), IsIn("", [(span,) for span in spans], "anonymous"))


def mapped(selector: str, word: str, pairs: Sequence[Pair]) -> str:
    """A selector and its map, as they are written."""
    return f"{selector} {word} {{ {', '.join(one.text for one in pairs)} }}"


class Refactoring(Drawing):
    """Draws two forms of rulesets."""

    def planted(self, written: Written) -> tuple[Written, Changed]:
        """The ruleset with rules in one form, and in the other."""
        place = self.place(written)
        kinds: list[Callable[[], Forms]] = [
            self.sorted, self.as_set, self.as_map, self.inlined, self.halves, self.shadowed, self.mark_map,
            self.written_twice, self.either_protocol, self.states, self.negated, self.implied]
        head = chain_at(written, place).chain.head
        if head and head.kind == "nat" and head.hook != "output":
            kinds += [self.nat_map_on(head.hook)] * 3
        forms = self.one(*kinds)()
        at = self.below(len(chain_at(written, place).chain.rules) + 1)
        flipped = self.chance(50)
        old, new = (self.with_forms(written, place, at, forms, rules) for rules in (forms.old, forms.new))
        return (new, Changed(old, forms.what, True)) if flipped else (old, Changed(new, forms.what, True))

    def place(self, written: Written) -> Place:
        """A chain, mostly a base chain."""
        found = [Place(one, two, 0) for one, table in enumerate(written) for two in range(len(table.chains))]
        bases = [place for place in found if chain_at(written, place).chain.head]
        return self.one(*(bases if bases and self.chance(75) else found))

    def with_forms(self, written: Written, place: Place, at: int, forms: Forms, rules: Sequence[Rule]) -> Written:
        old = chain_at(written, place).chain.rules
        planted = with_rules(written, place, [*old[:at], *rules, *old[at:]])
        table = planted[place.table]
        return with_table(planted, place.table, replace(
            table, chains=[*table.chains, *forms.chains], declared=[*table.declared, *forms.declared]))

    # ---- values

    def spans(self, selector: str, count: int) -> list[Span]:
        """Numbers and ranges of which no two meet, rising."""
        base = FIRST if KINDS[selector] == "ipv4_addr" else 0
        numbers = sorted(self.dice.sample(range(48), 2 * count))
        drawn = [Span(base + low, base + high) for low, high in zip(numbers[::2], numbers[1::2])]
        return [span if self.chance(50) else Span(span.low, span.low) for span in drawn]

    def end(self) -> Verdict:
        return Verdict(self.one(*ENDS))

    def shuffled(self, spans: Sequence[Span]) -> list[Span]:
        return self.dice.sample(spans, len(spans))

    # ---- forms

    def sorted(self) -> Forms:
        selector = self.one(*SELECTORS)
        rules = [Rule([when(selector, span), self.end()]) for span in self.spans(selector, 3 + self.below(3))]
        return Forms("disjoint rules sorted", [*rules[1:], rules[0]] if self.chance(30) else rules[::-1], rules)

    def as_set(self) -> Forms:
        selector, end = self.one(*SELECTORS), self.end()
        spans = self.spans(selector, 2 + self.below(4))
        match = among(selector, self.shuffled(spans))
        declared: list[Declared] = []
        if self.chance(50):
            texts = [part_text(KINDS[selector], span) for span in spans]
            lines = [f"typeof {selector}", "flags interval", f"elements = {{ {', '.join(texts)} }}"]
            declared = [Declared("set planted", lines, texts)]
            match = replace(match, text=f"{selector} @planted")
        return Forms("a list of rules as a set", [Rule([when(selector, span), end]) for span in spans],
                     [Rule([match, end])], declared=declared)

    def as_map(self) -> Forms:
        selector = self.one(*SELECTORS)
        rules: list[Rule] = []
        pairs: list[Pair] = []
        for span in self.spans(selector, 2 + self.below(4)):
            end = self.end()
            rules.append(Rule([when(selector, span), end]))
            pairs.append(Pair((span,), end, f"{part_text(KINDS[selector], span)} : {end.text}"))
        text = mapped(selector, "vmap", pairs)
        return Forms("a verdict map in place of rules", rules, [Rule([VerdictMap(Lookup(selector, pairs), text)])])

    def inlined(self) -> Forms:
        """A chain that returns nothing, in place of a jump to it. What the jump's match reads isn't written there."""
        outer, inner = self.dice.sample(SELECTORS, 2)
        match = when(outer, self.spans(outer, 1)[0])
        rules: list[Rule] = []
        for span in self.spans(inner, 1 + self.below(3)):
            mark = self.below(48)
            ends: list[Statement] = [Verdict(word) for word in (Word.ACCEPT, Word.DROP, Word.CONTINUE)]
            ends.append(SetMark("meta mark", mark, f"meta mark set {mark}"))
            rules.append(Rule([when(inner, span), Counter(0, 0, "counter"), self.one(*ends)]))
        jump = Rule([match, Verdict(Word.JUMP, "planted")])
        return Forms("a jump inlined", [jump], [Rule([match, *rule.statements]) for rule in rules],
                     [WrittenChain(Chain("planted", rules))])

    def halves(self) -> Forms:
        selector, end = self.one("ip saddr", "ip daddr"), self.end()
        length = self.one(27, 28, 29, 30)
        low = FIRST + (self.below(48) >> 32 - length << 32 - length)
        half = 2 ** (31 - length)
        both = [(low, length + 1, half), (low + half, length + 1, half), (low, length, 2 * half)]
        one, two, whole = (
            Match((selector,), "", IsPart("", Span(first, first + size - 1)), f"{selector} {dotted(first)}/{bits}")
            for first, bits, size in both)
        new = whole if self.chance(50) else when(selector, Span(low, low + 2 * half - 1))
        return Forms("a range in place of two prefixes", [Rule([one, end]), Rule([two, end])], [Rule([new, end])])

    def shadowed(self) -> Forms:
        selector, end = self.one(*SELECTORS), self.end()
        (span,) = self.spans(selector, 1)
        narrow = Span(span.low + (span.high - span.low) // 2, span.high)
        rule = Rule([when(selector, span), end])
        return Forms("an unreachable rule removed", [rule, Rule([when(selector, narrow), self.end()])], [rule])

    def mark_map(self) -> Forms:
        selector, field = self.one(*SELECTORS), self.one("meta mark", "ct mark")
        rules: list[Rule] = []
        pairs: list[Pair] = []
        for span in self.spans(selector, 2 + self.below(3)):
            mark = self.below(48)
            rules.append(Rule([when(selector, span), SetMark(field, mark, f"{field} set {mark}")]))
            pairs.append(Pair((span,), mark, f"{part_text(KINDS[selector], span)} : {mark}"))
        text = f"{field} set " + mapped(selector, "map", pairs)
        return Forms("a map of marks in place of rules", rules, [Rule([SetMark(field, Lookup(selector, pairs), text)])])

    def written_twice(self) -> Forms:
        selector, field = self.one(*SELECTORS), self.one("meta mark", "ct mark")
        match = when(selector, self.spans(selector, 1)[0])
        first, last = (SetMark(field, mark, f"{field} set {mark}") for mark in (self.below(48), self.below(48)))
        return Forms("a mark written once in place of twice", [Rule([match, first]), Rule([match, last])],
                     [Rule([match, last])])

    def either_protocol(self) -> Forms:
        end, side = self.end(), self.one("sport", "dport")
        (span,) = self.spans("th dport", 1)
        rules = [Rule([when(f"{word} {side}", span), end]) for word in ("tcp", "udp")]
        return Forms("th in place of tcp and udp", rules, [Rule([when(f"th {side}", span), end])])

    def states(self) -> Forms:
        states, end = self.dice.sample([state.value for state in State], 2), self.end()
        one, two, both = (match_of(("ct state",), HasBits("", bits)) for bits in (*states, sum(states)))
        return Forms("states in one rule", [Rule([one, end]), Rule([two, end])], [Rule([both, end])])

    def negated(self) -> Forms:
        selector, end = self.one("ip saddr", "ip daddr"), self.end()
        (span,) = self.spans(selector, 1)
        below, above = Span(0, span.low - 1), Span(span.high + 1, 2**32 - 1)
        return Forms("a negation in place of what is left", [Rule([when(selector, it), end]) for it in (above, below)],
                     [Rule([when(selector, span, "!="), end])])

    def implied(self) -> Forms:
        selector, number = self.one(("tcp sport", 6), ("udp dport", 17), ("icmp type", 1))
        match, end = when(selector, self.spans(selector, 1)[0]), self.end()
        protocol = when(self.one("ip protocol", "meta l4proto"), Span(number, number))
        return Forms("a protocol that a match implies left out", [Rule([protocol, match, end])], [Rule([match, end])])

    def nat_map_on(self, hook: str) -> Callable[[], Forms]:
        """A map of addresses in place of rules with NAT statements."""
        word = "dnat" if hook == "prerouting" else "snat"

        def forms() -> Forms:
            selector = self.one("ip saddr", "ip daddr", "th dport")
            rules: list[Rule] = []
            pairs: list[Pair] = []
            for span in self.spans(selector, 2 + self.below(3)):
                address = FIRST + self.one(17, 9, 41, 30)
                rules.append(Rule([when(selector, span),
                                   Translate(word, address, None, f"{word} to {dotted(address)}")]))
                pairs.append(Pair((span,), address, f"{part_text(KINDS[selector], span)} : {dotted(address)}"))
            text = f"{word} to " + mapped(selector, "map", pairs)
            return Forms("a map of addresses in place of rules", rules,
                         [Rule([Translate(word, Lookup(selector, pairs), None, text)])])

        return forms

    # ---- spelling

    def respelled(self, written: Written) -> Changed:
        """All matches spelled otherwise, where they can be."""
        tables = [with_statements(table, self.other_spelling) for table in written]
        return Changed(tuple(tables), "matches spelled otherwise", True)

    def other_spelling(self, statement: Statement) -> Statement:
        if not isinstance(statement, Match) or self.chance(30):
            return statement
        test, selectors = statement.test, statement.selectors
        if isinstance(test, IsPart) and test.operator in ("", "==", "!="):
            operator = "!=" if test.operator == "!=" else self.one("", "==")
            return match_of(selectors, IsIn(operator, [(part,) for part in self.split(test.part)], "anonymous")) \
                if isinstance(test.part, Span) else match_of(selectors, IsPart(operator, test.part))
        if isinstance(test, IsPart) and isinstance(test.part, Span) and test.operator in ("<=", ">="):
            return self.without_equal(selectors, test.operator, test.part.low)
        if isinstance(test, IsIn) and test.elements:
            elements: list[Element] = [other for one in test.elements for other in self.split_element(selectors, one)]
            operator = "!=" if test.operator == "!=" else self.one("", "==")
            return match_of(selectors, IsIn(operator, self.dice.sample(elements, len(elements)), "anonymous"))
        return statement

    def without_equal(self, selectors: Sequence[str], operator: str, number: int) -> Match:
        """An order without `=` that says the same, of a number that has one."""
        other = number + (1 if operator == "<=" else -1)
        if not 0 <= other <= 65_535 or KINDS[selectors[0]] not in ("inet_service", "ip length", "mark"):
            return match_of(selectors, IsPart(operator, Span(number, number)))
        return match_of(selectors, IsPart(operator[0], Span(other, other)))

    def split(self, span: Span) -> list[Span]:
        """The range as two that meet, or as it is."""
        if span.low == span.high or self.chance(30):
            return [span]
        middle = span.low + self.below(span.high - span.low)
        return [Span(span.low, middle), Span(middle + 1, span.high)]

    def split_element(self, selectors: Sequence[str], element: Element) -> list[Element]:
        (part, *others) = element
        if others or not isinstance(part, Span) or KINDS[selectors[0]] not in RANGED:
            return [element]
        return [(one,) for one in self.split(part)]
