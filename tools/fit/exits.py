"""`oifname` and `oif` where packets have no output interface yet: on prerouting and input Linux reads an empty name and
the index 0 there, so that `!=` holds; in nftrun no match holds."""
from __future__ import annotations

from typing import Sequence

from toolbox.lexer import Kind

from .draft import Draft
from .grades import Grade
from .numbers import holds
from .tree import Anything, Element, Elements, Expression, One, Part, Range

EXITS = ("meta oifname", "meta oif")
OF_EXITS = ("meta oiftype", "meta oifgroup", "meta oifkind")  # these have no value there on Linux either
WITHOUT = {"prerouting", "input"}


class Exits:
    """Decides matches of the output interface where there is none."""

    def __init__(self, draft: Draft) -> None:
        self.draft = draft

    @property
    def hooks(self) -> set[str]:
        return self.draft.chain.hooks - {"output"}

    def are_none(self) -> bool:
        """Whether no packet that comes here has an output interface."""
        return bool(self.hooks) and self.hooks <= WITHOUT

    def match(self, holds_there: bool) -> bool:
        """What a match becomes that holds on Linux without an output interface, or doesn't; answers whether that
        decided it."""
        if not holds_there or not self.hooks & WITHOUT:
            return False
        why = "on prerouting and input Linux reads an empty name, so it holds; no match of nftrun on it holds there"
        if self.are_none():
            self.draft.tell(Grade.SAME, self.draft.always(), why)
            self.draft.put(self.draft.always())
            return True
        way = self.draft.way("meta")
        why = "assumed: it isn't asked on prerouting and input, where Linux reads an empty name, so that it holds;"
        why += " --assume meta=hit takes the other"
        self.draft.guess("meta", way, "as it is" if way == "miss" else "always", why=why if way == "miss" else None)
        if way == "miss":
            return False
        self.draft.put(self.draft.always())
        return True


def holds_without(operator: str, right: Expression) -> bool:
    """Whether a match of `oifname` or `oif` holds on Linux where there is no output interface."""
    is_not = operator in ("!=", "!")
    if isinstance(right, Elements):
        return any(is_nothing(it.key[0]) for it in right.items) != is_not
    if isinstance(right, (One, Range, Anything)) and not is_number(right):
        return operator in ("<", "<=", "!=", "!")
    return holds(0, operator, right, "32", {}) is True


def is_number(part: Part) -> bool:
    return isinstance(part, Anything) or isinstance(part, One) and part.value.kind is Kind.NUMBER


def is_nothing(part: Part) -> bool:
    """Whether a part of a key stands for no interface too."""
    return is_number(part) and holds(0, "", part, "32", {}) is True


def keys_without(elements: Sequence[Element], places: Sequence[int]) -> bool:
    """Whether some of joined keys stands for no output interface at these places."""
    return any(all(is_nothing(it.key[index]) for index in places) for it in elements)
