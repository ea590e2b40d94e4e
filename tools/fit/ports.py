"""`th sport` and `th dport`: nftrun reads ports of TCP and UDP alone, Linux the bytes of any protocol."""
from __future__ import annotations

from typing import Callable, List, Sequence, Tuple

from .assumptions import ASSUMPTIONS
from .draft import Draft
from .numbers import share, usual_element
from .protocols import ALL
from .tree import Element, Expression, Joined, NotFitted, Part, Piece, Selector

Key = Tuple[Part, ...]
PORTS = ("th sport", "th dport")
READ = {6, 17}  # the protocols of which nftrun reads them
OURS, OTHERS = "meta l4proto { tcp, udp }", "meta l4proto != { tcp, udp }"
USUAL = (
    "assumed: where th reads ports, packets of other protocols {have}; Linux reads the bytes of any protocol;"
    " --assume header=hit takes the other"
)


class OtherPorts:
    """Fits what reads `th` where packets of other protocols may come."""

    def __init__(self, draft: Draft) -> None:
        self.draft = draft

    def may_come(self, among: frozenset[int] = ALL) -> bool:
        """Whether the rule may meet packets of which Linux reads other bytes as ports, among some protocols."""
        draft = self.draft
        found = draft.fitter.protocols.at(draft.table, draft.chain, draft.rule.statements, draft.index)
        return bool(found & among - READ)

    def fit_match(self, operator: str, right: Expression | None, fit: Callable[[], None]) -> None:
        """A match that `fit` fits for TCP and UDP; `right` is None where it isn't known."""
        if self.may_come():
            self.decide(right is not None and most_hold(operator, right), fit, [[self.draft.piece(OTHERS)]])
        else:
            fit()

    def decide(self, usual: bool, fit: Callable[[], None], others: Sequence[List[Piece]]) -> None:
        """What other protocols do is guessed: `others` are the ways by which they pass, where they do."""
        way = self.draft.way("header")
        is_usual = way == ASSUMPTIONS["header"].ways[0]
        passes = usual if is_usual else not usual
        why = USUAL.format(have="mostly have such bytes" if usual else "haven't these bytes") if is_usual else None
        to = "also what is of other protocols" if passes else f"{OURS} in front"
        self.draft.guess("header", way, to, why=why)
        if passes:
            self.add_ways(fit, others)
        else:
            self.draft.put(OURS)
            fit()

    def add_ways(self, fit: Callable[[], None], others: Sequence[List[Piece]]) -> None:
        """The lines that `fit` makes, and behind them those of other protocols."""
        draft = self.draft
        draft.do_once()
        before = draft.lines
        draft.put(OURS)
        fit()
        lines = [] if draft.is_dead else draft.lines
        draft.is_dead = False
        draft.lines = lines + [line + list(way) for line in before for way in others]

    def fit_map(self, left: Expression, keys: Sequence[Key], fit: Callable[[], None]) -> None:
        """A map by one selector or joined keys: other protocols aren't in it, where it reads `th`."""
        parts = left.parts if isinstance(left, Joined) else (left,)
        reads = any(isinstance(it, Selector) and it.name in PORTS for it in parts)
        if not reads or not self.may_come(self.draft.fitter.protocols.of_key(left, keys)):
            fit()
            return
        way = self.draft.way("header")
        if way != ASSUMPTIONS["header"].ways[0]:
            raise NotFitted("what a map gives for the bytes of other protocols can't be known")
        self.draft.guess("header", way, f"{OURS} in front", why=USUAL.format(have="haven't these bytes"))
        self.draft.put(OURS)
        fit()

    def fit_vmap(
        self, elements: Sequence[Element], ending: Callable[[Element], List[Piece]], fit: Callable[[], None]
    ) -> None:
        """A map of verdicts: the element that most numbers have is that of other protocols."""
        if not self.may_come():
            fit()
            return
        usual = usual_element(elements, "inet_service")
        others = usual or list(elements)
        self.decide(bool(usual), fit, [[self.draft.piece(OTHERS), *ending(it)] for it in others[:1]])


def most_hold(operator: str, right: Expression) -> bool:
    """Whether a match of a port holds for more than half of all numbers."""
    return share(operator, right, "inet_service") > 0.5
