"""Maps: verdicts by a key, and what else a map gives."""
from __future__ import annotations

from typing import Sequence

from .assumptions import ASSUMPTIONS
from .connections import IN_ANY_DIRECTION, INVALID, are_known, is_state
from .draft import Draft
from .exits import EXITS
from .facts import FIELD_WIDTHS, KNOWN, MARKS, TYPES, assumption_of
from .grades import Grade
from .joined import JoinedKeys, Then
from .matches import Matches, flag_names, rules_text, shown
from .numbers import constant_number, holds, spell_part, usual_element
from .ports import PORTS
from .sets import parts_are_plain, verdict_text
from .tree import (
    Anything,
    Calculation,
    Drawn,
    Element,
    Elements,
    Expression,
    Joined,
    Mapping,
    Missing,
    Named,
    NotFitted,
    Piece,
    Selector,
    Verdict,
)
from .unread import reason


class Maps:
    """Fits maps of verdicts, and looks into those of values."""

    def __init__(self, draft: Draft, matches: Matches, joined: JoinedKeys) -> None:
        self.draft, self.matches, self.joined = draft, matches, joined
        self.has_continue = False

    def mapping(self, mapping: Mapping, verdicts: bool) -> tuple[Sequence[Element], bool]:
        """The elements of a map, and whether nftrun has it as it stands."""
        elements: Sequence[Element]
        if isinstance(mapping, Elements):
            elements, plain = mapping.items, True
        else:
            found = self.draft.table.sets.get(mapping.name)
            if found is None or not found.is_map:
                raise Missing(f"there is no map {mapping.name}")
            sets = self.draft.fitter.sets
            elements, plain = sets.kept(found), sets.is_plain(found) and not sets.by_name(found)
            if (self.draft.table.family, self.draft.table.name, mapping.name) in self.draft.fitter.added_to:
                self.guess_of_map(mapping.name)
            self.matches.dynamic.fit_found(found, False)
        if any(isinstance(it.data, Verdict) != verdicts for it in elements):
            raise NotFitted("a verdict where a value is wanted, or the reverse")
        return elements, plain

    def guess_of_map(self, name: str) -> None:
        way = self.draft.way("dynamic")
        if way != "listed":
            raise NotFitted(f"which element of the map {name} it is can't be known: dynamic={way}")
        self.draft.guess("dynamic", way, "by what is listed")

    def tell_empty(self, mapping: Mapping) -> None:
        """A map that gives nothing: no packet passes."""
        found = self.draft.table.sets.get(mapping.name) if isinstance(mapping, Named) else None
        why = "the map is empty"
        if found is not None and found.elements:
            why = "the elements of the map have run out, as asked: timeout=gone"
        elif found is not None and (self.draft.table.family, self.draft.table.name, found.name) in (
            self.draft.fitter.added_to
        ):
            why = "the map lists nothing, and what rules add to it isn't kept"
        self.draft.tell(Grade.SAME, self.draft.never(), why)
        self.draft.die()

    # verdicts

    def fit_vmap(self, left: Expression, mapping: Mapping) -> None:
        if isinstance(left, Selector) and not self.matches.is_in_ipv4(left):
            return
        elements, plain = self.mapping(mapping, verdicts=True)
        for it in elements:
            if isinstance(it.verdict.target, str) and it.verdict.target not in self.draft.table.chains:
                raise Missing(f"there is no chain {it.verdict.target}")
            if isinstance(it.verdict.target, tuple):
                raise NotFitted("a chain in braces within a map")
        self.has_continue = any(it.verdict.word == "continue" for it in elements) and not self.draft.is_last()
        if self.has_continue:
            raise NotFitted("`continue` in a map with statements behind it")
        if isinstance(left, Joined):
            self.joined.choose(left, elements, self.ending)
        elif isinstance(left, Drawn):
            self.draw(left, elements, self.ending)
        elif isinstance(left, Calculation):
            self.choose_masked(left, elements)
        elif isinstance(left, Selector):
            self.choose(left, mapping, elements, plain)
        else:
            raise NotFitted("a statement that isn't known here")

    def choose(self, left: Selector, mapping: Mapping, elements: Sequence[Element], plain: bool) -> None:
        """A map of verdicts by one selector."""
        if left.name in PORTS:
            self.matches.ports.fit_vmap(
                elements, self.ending, lambda: self.choose_plain(left, mapping, elements, plain)
            )
        elif left.name in EXITS and self.choose_without_exit(elements):
            return
        elif left.name in TYPES:
            self.choose_plain(left, mapping, elements, plain)
        else:
            self.choose_known(left.name, elements)

    def ending(self, it: Element) -> list[Piece]:
        return [self.draft.piece(verdict_text(it.verdict), "end")]

    def choose_plain(self, left: Selector, mapping: Mapping, elements: Sequence[Element], plain: bool) -> None:
        parts = [it.key[0] for it in elements if not isinstance(it.key[0], Anything)]
        name, kind = self.matches.by_name(left.name, parts)
        if kind == "ct_status" or left.name == "ct state" and self.draft.chain.is_early:
            self.choose_otherwise(left.name, elements)
            return
        if any(len(it.key) != 1 for it in elements):
            raise NotFitted("keys of another number of parts")
        rest = [it for it in elements if isinstance(it.key[0], Anything)]
        named = [it for it in elements if it not in rest]
        if not isinstance(mapping, Elements) and plain and not rest:
            text = f"{shown(name)} vmap @{mapping.name}"
        elif not elements:
            self.tell_empty(mapping)
            return
        else:
            listed = ", ".join(f"{spell_part(it.key[0], kind)} : {verdict_text(it.verdict)}" for it in named)
            text = f"{shown(name)} vmap {{ {listed} }}"
        if rest:
            self.catch_all(shown(name), kind, named, rest[0], text)
            return
        words = not isinstance(mapping, Elements) or all(parts_are_plain(it.key, (kind,)) for it in elements)
        self.draft.put_spelled(text, [name], "end", plain=words and self.matches.stays(name))

    def choose_without_exit(self, elements: Sequence[Element]) -> bool:
        """By the output interface where there is none: Linux takes `*`. Answers whether that decided it."""
        exits = self.matches.exits
        rest = [it for it in elements if isinstance(it.key[0], Anything)]
        if not rest or not exits.match(True):
            return False
        self.draft.split([self.ending(it) for it in rest[:1]])
        return True

    def choose_otherwise(self, name: str, elements: Sequence[Element]) -> None:
        """What Linux compares otherwise: the whole of `ct status`, and `ct state` before connections are looked for."""
        rest = [it for it in elements if isinstance(it.key[0], Anything)]
        named = [it for it in elements if it not in rest]
        if name == "ct status":
            if not are_known(named):
                raise NotFitted("bits of ct status in a map that nftrun hasn't")
            self.draft.put(IN_ANY_DIRECTION)
            chosen, why = rest[:1], "Linux compares with the whole value, which has more bits wherever one is set"
        else:
            if self.draft.chain.is_late or self.draft.fitter.has_untracked:
                raise NotFitted("ct state in a map, before connections are looked for and behind that, or untracked")
            chosen = ([it for it in named if is_state(INVALID, it)] or rest)[:1]
            why = "before connections are looked for Linux reads ct state as invalid"
        self.draft.tell(Grade.SAME, verdict_text(chosen[0].verdict) if chosen else self.draft.never(), why)
        self.draft.split([self.ending(it) for it in chosen])

    def catch_all(self, name: str, kind: str, named: Sequence[Element], rest: Element, text: str) -> None:
        """`*` in a map is a rule behind it, for all that the map hasn't."""
        keys = ", ".join(spell_part(it.key[0], kind) for it in named)
        behind = (
            [self.draft.piece(f"{name} != {{ {keys} }}"), *self.ending(rest)]
            if named
            else [self.draft.piece(self.draft.always()), *self.ending(rest)]
        )
        ways = [[self.draft.piece(text, "end")], behind] if named else [behind]
        to = f"{rules_text(len(ways))}, the last one with {behind[0].text}"
        self.draft.tell(Grade.SAME, to, "nftrun has no `*` in maps")
        self.draft.split(ways, [name])

    def choose_known(self, name: str, elements: Sequence[Element]) -> None:
        """By what nftrun doesn't read: one element, as is known or assumed."""
        if name.startswith("fib "):
            self.choose_by_route(name, elements)
            return
        if name == "ct protocol":
            key = Selector("meta l4proto")
            self.matches.unread.match_protocol(
                "!=", lambda: self.choose_plain(key, Elements(tuple(elements)), elements, False)
            )
            return
        why_never = self.matches.unread.why_never(name)
        if why_never:
            self.draft.tell(Grade.SAME, self.draft.never(), why_never)
            self.draft.die()
            return
        fact, assumption = self.matches.unread.fact_of(name), assumption_of(name)
        self.matches.unread.keep_header(name)
        chosen = self.known_elements(name, elements) if fact is not None or name in FIELD_WIDTHS else []
        if fact is not None and not fact.assumption and not self.matches.unread.writers(name):
            self.draft.tell(Grade.SAME, verdict_text(chosen[0].verdict) if chosen else self.draft.never(), fact.why)
            if fact.needs:
                self.draft.put(fact.needs)
        else:
            assumption = fact.assumption or assumption if fact else assumption
            way = self.draft.way(assumption)
            is_usual = way == ASSUMPTIONS[assumption].ways[0]
            if not is_usual or fact is None and way == "hit":
                chosen = self.other_elements(name, elements, chosen)
            known = self.matches.unread.known(name, fact.why if fact else None)
            to = verdict_text(chosen[0].verdict) if chosen else self.draft.never()
            self.draft.guess(assumption, way, to, why=reason(assumption, way, known))
        self.draft.split([self.ending(it) for it in chosen])

    @staticmethod
    def known_elements(name: str, elements: Sequence[Element]) -> list[Element]:
        """The element that the usual value has, or most of the values of a field."""
        fact = KNOWN.get(name)
        if fact is not None:
            return [it for it in elements if holds(fact.value, "", it.key[0], "32", fact.words)][:1]
        return usual_element(elements, str(FIELD_WIDTHS[name]))[:1] if name in FIELD_WIDTHS else []

    @staticmethod
    def other_elements(name: str, elements: Sequence[Element], usual: Sequence[Element]) -> list[Element]:
        """The element that another value has."""
        fact = KNOWN.get(name)
        if fact is not None and fact.other is not None:
            return [it for it in elements if holds(fact.other, "", it.key[0], "32", fact.words)][:1]
        return [it for it in elements if it not in usual][:1]

    def choose_by_route(self, name: str, elements: Sequence[Element]) -> None:
        keys, result = name[4:].rsplit(" ", 1)
        parts = keys.split(" . ")
        fields = [it for it in parts if it in ("saddr", "daddr")]
        if result != "type" or len(parts) != 1 or not fields or self.draft.fitter.network is None:
            way = self.draft.way("fib")
            chosen = elements[:1] if way == "hit" else []
            self.draft.guess("fib", way, verdict_text(chosen[0].verdict) if chosen else self.draft.never())
            self.draft.split([self.ending(it) for it in chosen])
            return
        ways = []
        for it in elements:
            text = self.matches.type_text(fields[0], self.matches.type_words(it.key[0]), "", None)
            if text != self.draft.never():
                ways.append([self.draft.piece(text), *self.ending(it)])
        to = rules_text(len(ways)) if ways else self.draft.never()
        self.draft.tell(Grade.SAME, to, "the addresses of the box file")
        self.draft.split(ways)

    def choose_masked(self, left: Calculation, elements: Sequence[Element]) -> None:
        if left.operator != "&" or not isinstance(left.left, Selector):
            raise NotFitted("arithmetic before a map")
        name = left.left.name
        if name == "tcp flags":
            mask = flag_names(constant_number(left.right))
            ways = [
                [
                    self.draft.piece(f"tcp flags & ({mask}) == {flag_names(constant_number(it.key[0]))}"),
                    *self.ending(it),
                ]
                for it in elements
            ]
            self.draft.tell(Grade.SAME, rules_text(len(ways)), "a mask before a map")
            self.draft.split(ways)
            return
        values = self.draft.fitter.marks.values.get(name)
        if name not in MARKS or values is None:
            raise NotFitted("a mask before a map")
        bits = constant_number(left.right, {})
        found = [
            (mark, e.verdict)
            for mark in sorted(values)
            for e in elements
            if holds(mark & bits, "", e.key[0], "mark", {})
        ]
        why = f"of the marks that rules write ({', '.join(map(hex, sorted(values)))}) these; each mark begins at 0"
        text = (
            f"{name} vmap {{ {', '.join(f'{mark:#x} : {verdict_text(data)}' for mark, data in found)} }}"
            if found
            else self.draft.never()
        )
        self.draft.tell(Grade.SAME, text, why)
        if found:
            self.draft.put(text, "end", [name])
        else:
            self.draft.die()

    def draw(self, drawn: Drawn, elements: Sequence[Element], then: Then) -> None:
        """What numgen or a hash gives is assumed."""
        number, way = self.matches.number_drawn(drawn)
        chosen = [it for it in elements if holds(number, "", it.key[0], "32", {})][:1]
        pieces = then(chosen[0]) if chosen else [self.draft.piece(self.draft.never())]
        self.matches.unread.keep_key(drawn.over)
        self.matches.tell_drawn(way, pieces[-1].text)
        self.draft.lines = [line + pieces for line in self.draft.lines]
