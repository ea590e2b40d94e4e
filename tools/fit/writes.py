"""Statements that write: marks, and what nftrun doesn't write."""
from __future__ import annotations

from dataclasses import replace
from typing import Sequence

from toolbox.lexer import Kind

from .assumptions import ASSUMPTIONS
from .draft import Draft
from .facts import KNOWN, LEFT_OUT, MARKS, NEVER_IN_IPV4, TYPES, assumption_of, first_word
from .grades import Grade
from .joined import JoinedKeys
from .maps import Maps
from .matches import Matches, shown
from .numbers import RANGED, calculated, range_of, spell_part, width_of
from .sets import parts_are_plain
from .tree import (
    Anything,
    Calculation,
    Drawn,
    Element,
    Elements,
    Expression,
    Joined,
    Lookup,
    Mapping,
    Missing,
    Named,
    NotFitted,
    One,
    Part,
    Piece,
    Prefix,
    Range,
    Selector,
    Value,
)


OBJECTS = ("ct helper", "ct timeout", "ct expectation")  # what is set by name


class Writes:
    """Fits statements that set something."""

    def __init__(self, draft: Draft, matches: Matches, joined: JoinedKeys, maps: Maps) -> None:
        self.draft, self.matches, self.joined, self.maps = draft, matches, joined, maps

    def fit_set(self, left: Selector, operand: Expression) -> None:
        name = left.name
        if name in MARKS:
            self.set_mark(name, operand)
            return
        if first_word(name) in NEVER_IN_IPV4:
            self.matches.is_in_ipv4(left)
            return
        if name not in LEFT_OUT:
            raise NotFitted(f"`{name} set` writes what nftrun can't")
        if name in OBJECTS:
            self.find_objects(name, operand)
        grade, why = LEFT_OUT[name]
        if grade == Grade.GUESS:
            way = self.draft.way(why)
            self.draft.guess(why, way, "left out")
        elif name in self.draft.fitter.asked:
            self.leave_asked(name)
        else:
            self.draft.tell(grade, "left out", why)
        if not name.startswith("ct "):  # these do nothing where there is no connection
            self.draft.keep_tests(left)
        if isinstance(operand, Lookup):
            self.keep_lookup(operand)
        elif isinstance(operand, Selector):
            self.matches.unread.keep_key(operand)

    def find_objects(self, kind: str, operand: Expression) -> None:
        """Missing where the helper, timeout or expectation that is set isn't defined in the table."""
        parts = [operand]
        if isinstance(operand, Lookup):
            elements, _ = self.maps.mapping(operand.map, verdicts=False)
            parts = [part for it in elements for part in it.values]
        for part in parts:
            name = part.value.text.strip('"') if isinstance(part, One) else ""
            found = self.draft.table.objects.get(name)
            if name and (found is None or found.what != kind):
                raise Missing(f"there is no {kind} {name}")

    def leave_asked(self, name: str) -> None:
        """What isn't written, but asked for: the rules that ask for it are guessed."""
        fact = KNOWN.get(name)
        assumption = fact.assumption if fact and fact.assumption else "meta" if fact else assumption_of(name)
        way = self.draft.way(assumption)
        places = ", ".join(self.draft.fitter.asked[name])
        what = "what is set makes no difference" if way == ASSUMPTIONS[assumption].ways[0] else f"{assumption}={way}"
        self.draft.guess(assumption, way, "left out", why=f"assumed: {what} to the rules that ask for it ({places})")

    def keep_lookup(self, lookup: Lookup) -> None:
        """A value by a map ends the rule where the map hasn't the key; where nothing follows that is no matter."""
        if self.draft.is_last():
            return
        if isinstance(lookup.key, Drawn):
            self.matches.unread.keep_key(lookup.key.over)
            return
        if not isinstance(lookup.key, Selector) or lookup.key.name not in TYPES:
            raise NotFitted("a value by a map of what nftrun doesn't read, with statements behind it")
        self.matches.match_elements(lookup.key, "", self.draft.fitter.sets.elements_of(self.draft.table, lookup.map))

    # marks

    def set_mark(self, name: str, operand: Expression) -> None:
        if isinstance(operand, Lookup):
            self.set_by_map(name, operand)
        elif isinstance(operand, One) and operand.value.kind is Kind.NUMBER:
            self.draft.put_spelled(f"{name} set {spell_part(operand, 'mark')}", kind="mark")
        elif isinstance(operand, Selector) and operand.name in MARKS:
            self.draft.put_spelled(f"{name} set {operand.name}", [operand.name], "mark")
        elif isinstance(operand, Drawn):
            number, way = self.matches.number_drawn(operand)
            self.matches.unread.keep_key(operand.over)
            self.matches.tell_drawn(way, str(number))
            self.draft.put(f"{name} set {number}", "mark")
        elif isinstance(operand, Calculation):
            self.set_calculated(name, operand)
        else:
            raise NotFitted("a mark of what nftrun doesn't read")

    def set_calculated(self, name: str, operand: Calculation) -> None:
        used = list(dict.fromkeys(marks_in(operand)))
        if len(used) > 1:
            raise NotFitted("a mark of two marks")
        values = self.draft.fitter.marks.values[used[0]] if used else {0}
        if values is None:
            raise NotFitted("arithmetic with marks that are too many, or not known")
        results = {it: result(operand, it) for it in sorted(values)}
        if used:
            text = f"{name} set {used[0]} map {{ {', '.join(f'{a:#x} : {b:#x}' for a, b in results.items())} }}"
        else:
            text = f"{name} set {results[0]:#x}"
        self.draft.tell(Grade.SAME, text, "for each mark that rules write; each mark begins at 0")
        self.draft.put(text, "mark", used)

    def set_by_map(self, name: str, operand: Lookup) -> None:
        key = operand.key
        if isinstance(key, Selector) and not self.matches.is_in_ipv4(key):
            return
        elements, plain = self.maps.mapping(operand.map, verdicts=False)
        if not elements:
            self.maps.tell_empty(operand.map)
            return

        def setting(it: Element) -> list[Piece]:
            return [self.draft.piece(f"{name} set {spell_part(it.values[0], 'mark')}", "mark")]

        if isinstance(key, Joined):
            self.joined.choose(key, elements, setting)
        elif isinstance(key, Drawn):
            self.maps.draw(key, elements, setting)
        elif isinstance(key, Selector) and key.name in TYPES:
            selector = key
            self.matches.ports.fit_map(
                key, (), lambda: self.set_by_plain_map(name, selector, operand.map, elements, plain)
            )
        else:
            raise NotFitted("a mark by a map of what nftrun doesn't read")

    def set_by_plain_map(
        self, name: str, key: Selector, mapping: Mapping, elements: Sequence[Element], plain: bool
    ) -> None:
        text, words = self.lookup_text(key, mapping, elements, plain, "mark")
        self.draft.put_spelled(f"{name} set {text}", [key.name], "mark", plain=words)

    def lookup_text(
        self, key: Selector, mapping: Mapping, elements: Sequence[Element], plain: bool, data_kind: str
    ) -> tuple[str, bool]:
        """`KEY map ..`, and whether its words are nftrun's."""
        if key.name == "ct status" or key.name == "ct state" and self.draft.chain.is_early:
            raise NotFitted(f"a map of values by {key.name}, which Linux reads otherwise here")
        if any(len(it.key) != 1 or len(it.values) != 1 for it in elements):
            raise NotFitted("keys or data of another number of parts")
        name, kind = self.matches.by_name(key.name, [it.key[0] for it in elements])
        if isinstance(mapping, Named) and plain and elements:
            return f"{shown(name)} map @{mapping.name}", name == key.name
        elements = with_rest(elements, kind)
        listed = ", ".join(f"{spell_part(it.key[0], kind)} : {spell_part(it.values[0], data_kind)}" for it in elements)
        if not listed:
            raise NotFitted("a map that has no elements, or none that are kept")
        words = isinstance(mapping, Elements) and all(
            parts_are_plain(it.key, (kind,)) and parts_are_plain(it.values, (data_kind,)) for it in elements
        )
        return f"{shown(name)} map {{ {listed} }}", words and name == key.name


def with_rest(elements: Sequence[Element], kind: str) -> list[Element]:
    """The elements of a map, in which `*` has become the ranges of all numbers that no other one has."""
    rest = [it for it in elements if isinstance(it.key[0], Anything)]
    named = [it for it in elements if it not in rest]
    if not rest or not named:
        return list(elements)
    if kind not in RANGED and not kind.isdigit():
        raise NotFitted(f"`*` beside other elements in a map of {kind}")
    spans = sorted(span_of(it.key[0], kind) for it in named)
    out, at = named, 0
    for low, high in [*spans, (1 << width_of(kind), 0)]:
        if at < low:
            ends = [Value(Kind.NUMBER, str(it)) for it in (at, low - 1)]
            out.append(replace(rest[0], key=(One(ends[0]) if at == low - 1 else Range(*ends),)))
        at = max(at, high + 1)
    return out


def span_of(part: Part, kind: str) -> tuple[int, int]:
    found = range_of(part, kind)
    if found is None:
        raise NotFitted(f"a value that isn't of {kind}")
    return found


def result(operand: Expression, mark: int) -> int:
    """What a calculated mark is, for a mark that it is calculated of."""
    if isinstance(operand, Calculation):
        return calculated(operand.operator, result(operand.left, mark), result(operand.right, mark))
    if isinstance(operand, Selector):
        return mark
    found = range_of(operand, "mark") if isinstance(operand, (One, Range, Prefix, Anything)) else None
    if found is None:
        raise NotFitted("a value that isn't known")
    return found[0]


def marks_in(it: Expression) -> list[str]:
    if isinstance(it, Selector):
        if it.name not in MARKS:
            raise NotFitted("a mark of what nftrun doesn't read")
        return [it.name]
    return marks_in(it.left) + marks_in(it.right) if isinstance(it, Calculation) else []
