"""What Linux reads of connections otherwise than nftrun: `ct state` before connections are looked for, and `ct status`
where the whole value is compared."""
from __future__ import annotations

from typing import Sequence

from toolbox.lexer import Kind

from .draft import Draft
from .facts import WORDS
from .grades import Grade
from .tree import Anything, Calculation, Element, Elements, Expression, Listed, NotFitted, One

INVALID, UNTRACKED = 1, 64  # what `ct state` is there, before and behind `notrack`
STATES = WORDS["ct_state"]
IN_ANY_DIRECTION = "ct direction { original, reply }"


def bits_of(right: Expression) -> list[str]:
    """The words of `a,b` or `a | b`."""
    if isinstance(right, Listed):
        return [word for it in right.items for word in bits_of(it)]
    if isinstance(right, Calculation) and right.operator == "|":
        return bits_of(right.left) + bits_of(right.right)
    if isinstance(right, One) and right.value.kind is Kind.WORD:
        return [right.value.text]
    raise NotFitted("a bit that isn't known")


def state_holds(value: int, operator: str, right: Expression) -> bool:
    """Whether a match of `ct state` holds on Linux for a state: a word asks for its bit, `==`, `!=` and lists compare
    the whole value."""
    if isinstance(right, Elements) and len(right.items) == 1 and operator != "!=":
        right, operator = right.items[0].key[0], ""
    if isinstance(right, Elements):
        found = any(is_state(value, it) for it in right.items)
        return found == (operator not in ("!=", "!"))
    words = bits_of(right)
    if any(it not in STATES for it in words):
        raise NotFitted("a state that isn't known")
    mask = sum(STATES[it] for it in dict.fromkeys(words))
    answers = {"": bool(value & mask), "!": not value & mask, "==": value == mask, "!=": value != mask}
    if operator not in answers:
        raise NotFitted(f"`ct state {operator}`")
    return answers[operator]


def is_state(value: int, element: Element) -> bool:
    """Whether an element of a list is a state."""
    part = element.key[0]
    return isinstance(part, Anything) or isinstance(part, One) and STATES.get(part.value.text) == value


def are_known(elements: Sequence[Element]) -> bool:
    """Whether all keys are bits of `ct status` that nftrun has."""
    parts = [it.key[0] for it in elements]
    return all(isinstance(it, One) and it.value.text in WORDS["ct_status"] for it in parts)


class Connections:
    """Fits what Linux compares otherwise."""

    def __init__(self, draft: Draft) -> None:
        self.draft = draft

    def match_early_state(self, operator: str, right: Expression) -> bool:
        """A match in a chain that runs before connections are looked for; answers whether that decided it."""
        chain = self.draft.chain
        answers = {state_holds(it, operator, right) for it in self.states()}
        if answers == {False} or chain.is_late and answers == {True, False}:
            return False
        if chain.is_late or len(answers) > 1:
            self.guess_state(state_holds(INVALID, operator, right))
            return not chain.is_late
        why = "before connections are looked for Linux reads ct state as invalid; no match of nftrun on it holds there"
        self.draft.tell(Grade.SAME, self.draft.always(), why)
        self.draft.put(self.draft.always())
        return True

    def states(self) -> list[int]:
        """What Linux may read there."""
        return [INVALID, UNTRACKED] if self.draft.fitter.has_untracked else [INVALID]

    def guess_state(self, answer: bool) -> None:
        """Some packets may be untracked, or come to the chain later: they aren't told apart here."""
        way = self.draft.way("ct")
        if self.draft.chain.is_late:
            why = "assumed: it isn't asked before connections are looked for, where Linux reads ct state as invalid"
            self.draft.guess("ct", way, "as it is" if way == "miss" else "as it is, as asked", why=why)
            return
        holds = answer if way == "miss" else not answer
        usual = "assumed: no packet that comes here is untracked; --assume ct=hit takes the other"
        to = "always" if holds else self.draft.never()
        self.draft.guess("ct", way, to, why=usual if way == "miss" else None)
        self.draft.put(self.draft.always() if holds else self.draft.never())

    def compare_status(self, operator: str) -> None:
        """A comparison with all of `ct status`, in which Linux has more bits than those that are named."""
        is_not = operator in ("!=", "!")
        why = "Linux compares with the whole value, which has more bits wherever one of these is set"
        self.draft.tell(Grade.SAME, IN_ANY_DIRECTION if is_not else self.draft.never(), why)
        if is_not:
            self.draft.put(IN_ANY_DIRECTION)
        else:
            self.draft.die()
