"""Sets that rules add to, and limits of elements: as Linux does, an element keeps the limit that it was made with, and
the limit of an element is asked wherever the element is found."""
from __future__ import annotations

from dataclasses import dataclass
from typing import Callable, Sequence

from .draft import Draft
from .facts import FIELD_WIDTHS, TYPES, WIDTHS
from .grades import Grade
from .scanner import place, spelled
from .tree import Bound, ChangeOfSet, Element, Expression, Joined, Match, Missing, Rule, Selector, Set

SIZE = 65535  # of a set that rules add to, where the text names none
BOUNDS = {"limit": "limit", "quota": "quota", "ct": "connections"}  # words of elements, and the guesses of these


@dataclass(frozen=True)
class Other:
    """Another statement that adds to the set; `comes_first` is whether it does so for each packet that comes here."""

    change: ChangeOfSet
    place: str
    comes_first: bool


def bounds_of(element: Element) -> list[Bound]:
    """The bounds that a listed element has of its own."""
    return [Bound(BOUNDS[it], "over" in element.extras, None) for it in element.extras if it in BOUNDS]


class Dynamic:
    """Fits the bounds of what is added to sets, and of what is found in them."""

    def __init__(self, draft: Draft) -> None:
        self.draft = draft

    def fit_bounds(self, change: ChangeOfSet, ask_for: Callable[[Sequence[Element]], None]) -> None:
        """The bounds that a statement asks: those of the element that is there already, else its own. `ask_for` asks
        whether the key is one of some elements."""
        found = self.draft.table.sets.get(change.name)
        bounds = change.bounds or (tuple(found.bounds) if found else ())
        others = [] if found is None or found.bounds else list(self.others(change))
        odd = [it for it in others if bool(it.change.bounds) != bool(bounds)]
        first = next((it for it in odd if it.comes_first), None)
        if first is not None:
            bounds = first.change.bounds
            why = f"the element is there already, by {first.place}, and keeps what it was made with"
            self.draft.tell(Grade.SAME, "with the bounds of that element" if bounds else "without bounds", why)
        elif odd and self.is_there(odd[0]):
            bounds = odd[0].change.bounds
        listed = [it for it in self.draft.fitter.sets.kept(found) if not bounds_of(it)] if found else []
        if found is None or found.bounds or not bounds or not listed or all(map(self.passes, bounds)):
            for bound in bounds:
                self.fit_bound(bound)
            return
        for bound in bounds:
            way = self.draft.way(bound.kind)
            why = self.draft.fitter.assumptions.why(bound.kind, way)
            self.draft.guess(
                bound.kind, way, "what is listed alone", why=f"what is listed has no bounds; of all else {why}"
            )
        ask_for(listed)

    def fit_room(self, change: ChangeOfSet, ask_for: Callable[[Sequence[Element]], None]) -> None:
        """Where a set is full, a rule that would add to it ends; `ask_for` asks whether the key is listed."""
        found = self.draft.table.sets.get(change.name)
        size = change.size or (found.size if found else None) or SIZE
        if self.draft.is_last() or self.is_over() or keys_of(change.key) <= size:
            return
        listed = self.draft.fitter.sets.kept(found) if found else []
        is_full = len(listed) >= size
        way = self.draft.way("room")
        if is_full:
            why = f"assumed: no element of {change.name}, which is full, runs out or is deleted; else Linux adds one"
            self.draft.guess("room", way, "what is listed alone", why=why)
            ask_for(listed)
        else:
            self.draft.guess("room", way, "always" if way == "free" else self.draft.never())
            if way == "full":
                self.draft.put(self.draft.never())

    def is_over(self) -> bool:
        """Whether the rule is assumed to have ended already."""
        return all(any(it.text == self.draft.never() for it in line) for line in self.draft.lines)

    def is_there(self, other: Other) -> bool:
        """Whether another rule is assumed to have added the element before."""
        way = self.draft.way("dynamic")
        why = f"assumed: {other.place} hasn't added the element before, which would keep what it was made with;"
        why += " --assume dynamic=hit takes the other"
        to = "with its own bounds" if way == "listed" else "with the bounds of the other rule"
        self.draft.guess("dynamic", way, to, why=why if way == "listed" else None)
        return way == "hit"

    def passes(self, bound: Bound) -> bool:
        """Whether packets pass a bound, as is assumed."""
        return (self.draft.way(bound.kind) == "under") != bool(bound.over)

    def others(self, change: ChangeOfSet) -> list[Other]:
        found = []
        for table, chain, rule in self.draft.fitter.rules():
            for index, it in enumerate(rule.statements):
                what = it.what
                if table is not self.draft.table or not isinstance(what, ChangeOfSet) or what is change:
                    continue
                if what.name == change.name and what.word != "delete":
                    is_before = chain is self.draft.chain and self.comes_before(rule, index)
                    first = is_before and what.key == change.key
                    found.append(Other(what, place(rule.token), first))
        return found

    def comes_before(self, rule: Rule, index: int) -> bool:
        """Whether a statement of an earlier rule of the chain sees each packet that comes here: its rule asks for
        nothing before it that this rule doesn't ask for too."""
        rules, ours = self.draft.chain.rules, self.draft.rule
        if rules.index(rule) >= rules.index(ours):
            return False
        asked = {spelled(it.tokens) for it in ours.statements[: self.draft.index] if isinstance(it.what, Match)}
        before = [it for it in rule.statements[:index] if isinstance(it.what, Match)]
        return len(before) == index and all(spelled(it.tokens) in asked for it in before)

    def fit_bound(self, bound: Bound) -> None:
        over = bound.over
        if bound.name is not None:
            found = self.draft.table.objects.get(bound.name)
            if found is None or found.what != bound.kind:
                raise Missing(f"there is no {bound.kind} {bound.name}")
            over = any(it.text == "over" for it in found.body)
        way = self.draft.way(bound.kind)
        passes = (way == "under") != bool(over)
        self.draft.guess(bound.kind, way, "always" if passes else self.draft.never())
        if not passes:
            self.draft.put(self.draft.never())  # what follows is told all the same

    def fit_found(self, found: Set, is_not: bool) -> None:
        """The bounds of elements that a match or a map finds: Linux asks them there too."""
        if is_not:
            return
        own = [bounds_of(it) for it in self.draft.fitter.sets.kept(found)]
        bounds = list(dict.fromkeys([*found.bounds, *(bound for it in own for bound in it)]))
        for bound in bounds:
            self.fit_bound(bound)


def keys_of(key: Expression) -> int:
    """How many values a key may have; of a selector whose width isn't known as many as of the widest."""
    parts = key.parts if isinstance(key, Joined) else (key,)
    return 1 << sum(width_of_selector(it.name) if isinstance(it, Selector) else max(WIDTHS.values()) for it in parts)


def width_of_selector(name: str) -> int:
    kind = TYPES.get(name, "")
    return int(kind) if kind.isdigit() else WIDTHS.get(kind) or FIELD_WIDTHS.get(name) or max(WIDTHS.values())
