"""Priorities, and the order of chains that have the same one: Linux runs the one first that came last."""
from __future__ import annotations

import re
from dataclasses import dataclass
from typing import TYPE_CHECKING, Sequence

from .expressions import as_number
from .facts import PRIORITIES
from .grades import Grade
from .tree import Bound, NotFitted, Offload, Translation, selectors_in

if TYPE_CHECKING:
    from .fitter import Fitter
    from .tree import Chain, Rule, Table

EARLY = -200  # nftrun looks for connections behind these
STEPS = {"prerouting": -100, "postrouting": 100}  # where nftrun translates
LEAST, MOST = -(1 << 31), (1 << 31) - 1
HOOKS = ("prerouting", "input", "forward", "postrouting")


@dataclass(frozen=True)
class Band:
    """Priorities between which it makes no difference which one a chain has, but for the order."""

    low: int
    high: int


def bands_of(hook: str, is_nat: bool) -> list[Band]:
    """The bands of a hook, from the lowest: before the look-up for connections, before translation, behind it."""
    starts = [EARLY + 1] if hook == "prerouting" else []
    starts += [STEPS[hook]] if hook in STEPS and not is_nat else []
    lows = [LEAST, *starts]
    return [Band(low, high - 1) for low, high in zip(lows, [*starts, MOST + 1])]


class Order:
    """`shifted` has the chains whose priority changes, each with the new one."""

    def __init__(self, fitter: Fitter, chains: list[tuple[Table, Chain]]) -> None:
        self.fitter, self.chains = fitter, chains
        self.shifted: dict[Chain, int] = {}

    def number(self, chain: Chain) -> int:
        words = list(chain.base.priority)
        named = PRIORITIES.get(words[0]) if words else None
        text = "".join(words if named is None else words[1:]) or ("" if named is None else "0")
        if not re.fullmatch(r"[+-]?(0|[1-9][0-9]*|0x[0-9A-Fa-f]+)", text):
            raise NotFitted(f"the priority `{' '.join(words)}`")
        size = as_number(text.lstrip("+-"))
        number = (named or 0) + (-size if text.startswith("-") else size)
        if not LEAST <= number <= MOST:
            raise NotFitted(f"the priority `{' '.join(words)}` is outside of 32 bits")
        return number

    def is_early(self, chain: Chain) -> bool:
        """Whether a base chain is run before connections are looked for."""
        try:
            return chain.base.hook == "prerouting" and self.number(chain) <= EARLY and not self.is_behind(chain)
        except NotFitted:
            return False  # told where the chain is written

    def is_behind(self, chain: Chain) -> bool:
        """A chain at just the priority of the look-up: Linux runs the one first that came last, and the look-up comes
        with the first rule that needs it. Of one command the chains come before the rules."""
        if chain.base.hook != "prerouting" or self.number(chain) != EARLY:
            return False
        looked_up = [rule.moment for _, _, rule in self.fitter.rules() if needs_connections(rule)]
        return bool(looked_up) and chain.moment <= min(looked_up)

    def priority_text(self, chain: Chain) -> str:
        number = self.number(chain)
        if chain.base.type == "nat" and number <= EARLY:
            raise NotFitted("type nat at a priority of at most -200")
        if chain in self.shifted:
            return str(self.shifted[chain])
        words = chain.base.priority
        if words[0] in PRIORITIES:
            return " ".join(words)
        return "".join(words).removeprefix("+")

    # chains of one hook and one priority

    def settle(self) -> None:
        """Gives chains that Linux runs in another order priorities that differ, and their neighbours where these are
        in the way."""
        placed = self.placed()
        for hook in HOOKS:
            for is_nat in (False, True):
                here = [it for it in placed if it.base.hook == hook and (it.base.type == "nat") == is_nat]
                self.settle_hook(hook, is_nat, here)

    def settle_hook(self, hook: str, is_nat: bool, here: Sequence[Chain]) -> None:
        """`here` are the chains of a hook in the order of the fitted text."""
        came = [it for _, it in self.chains]
        bands = bands_of(hook, is_nat)
        band_of = {it: self.band(it, bands, came) for it in here}
        linux = sorted(here, key=lambda it: (bands.index(band_of[it]), self.number(it), -came.index(it)))
        numbers = [min(max(self.number(it), band_of[it].low), band_of[it].high) for it in linux]
        gaps = [
            int(self.number(one) != self.number(other) or here.index(one) > here.index(other))
            for one, other in zip(linux, linux[1:])
        ]
        numbers = spread_up([band_of[it] for it in linux], spread_down(numbers, gaps), gaps)
        for it, number in zip(linux, numbers):
            if number > band_of[it].high:
                self.fitter.changes.refuse(
                    it.token,
                    f"chain {it.name} at priority {self.number(it)}",
                    "there is no room for the order of Linux",
                )
            elif number != self.number(it):
                self.shifted[it] = number
        self.tell_of_groups(hook, linux, here)
        self.tell_of_others(linux, here, band_of)

    def band(self, chain: Chain, bands: Sequence[Band], came: Sequence[Chain]) -> Band:
        """Where Linux runs a chain: one of just the priority of translation, that came after the first chain of type
        nat, before it."""
        number = self.number(chain)
        at = next(index for index, it in enumerate(bands) if it.low <= number <= it.high)
        if self.is_behind(chain):
            return bands[at + 1]
        translating = [came.index(it) for table, it in self.chains if it.base.type == "nat" and table.family != "ip6"]
        if chain.base.type != "nat" and number == STEPS.get(chain.base.hook) and translating:
            return bands[at - 1] if came.index(chain) > translating[0] else bands[at]
        return bands[at]

    def placed(self) -> list[Chain]:
        """The base chains that nftrun runs and that do something, in the order of the fitted text."""
        found = []
        for table in self.fitter.tables.values():
            for chain in table.chains.values():
                if chain.head is None or chain.base.hook not in HOOKS or not (chain.rules or chain.policy == "drop"):
                    continue
                try:
                    self.number(chain)
                except NotFitted:
                    continue  # told where the chain is written
                if not (chain.base.type == "nat" and chain.base.hook == "input"):
                    found.append(chain)
        return found

    # what is told

    def groups(self, linux: Sequence[Chain], here: Sequence[Chain]) -> list[list[Chain]]:
        """The chains of one priority that Linux runs in another order than that of the text."""
        by_number: dict[int, list[Chain]] = {}
        for it in linux:
            by_number.setdefault(self.number(it), []).append(it)
        return [group for group in by_number.values() if [here.index(it) for it in group] != sorted(
            here.index(it) for it in group)]

    def tell_of_groups(self, hook: str, linux: Sequence[Chain], here: Sequence[Chain]) -> None:
        for group in self.groups(linux, here):
            names = ", ".join(it.name for it in group)
            self.fitter.changes.tell(
                group[-1].token,
                Grade.SAME,
                f"chains {names} of {hook} at priority {self.number(group[-1])}",
                ", ".join(f"{it.name} at {self.shifted.get(it, self.number(it))}" for it in group),
                "Linux runs the one first that came last, nftrun the one that is first in the text",
            )

    def tell_of_others(self, linux: Sequence[Chain], here: Sequence[Chain], band_of: dict[Chain, Band]) -> None:
        grouped = [it for group in self.groups(linux, here) for it in group]
        for it in linux:
            if it not in self.shifted or it in grouped:
                continue
            number = self.number(it)
            why = "its neighbours need the room: Linux runs them in another order than that of the text"
            if self.is_behind(it):
                why = "Linux runs it behind the look-up for connections, which rules ask for later; nftrun would before"
            elif not band_of[it].low <= number <= band_of[it].high:
                why = "Linux runs it before translation, as it came after a chain of type nat; nftrun would behind"
            what = f"chain {it.name} at priority {number}"
            self.fitter.changes.tell(it.token, Grade.SAME, what, f"at {self.shifted[it]}", why)


def needs_connections(rule: Rule) -> bool:
    """Whether a rule has Linux look for connections."""
    for it in rule.statements:
        if isinstance(it.what, (Translation, Offload)) or isinstance(it.what, Bound) and it.what.kind == "connections":
            return True
        if any(selector.name.startswith("ct ") for selector in selectors_in(it.what)):
            return True
    return False


def spread_down(numbers: Sequence[int], gaps: Sequence[int]) -> list[int]:
    """Priorities that put chains in order, each at most its own; a gap tells whether one and the next differ."""
    out = list(numbers)
    for index in range(len(out) - 2, -1, -1):
        out[index] = min(out[index], out[index + 1] - gaps[index])
    return out


def spread_up(bands: Sequence[Band], numbers: Sequence[int], gaps: Sequence[int]) -> list[int]:
    """The same, but none below its band: what has no room there goes up."""
    out = list(numbers)
    for index, band in enumerate(bands):
        out[index] = max(out[index], band.low)
        if index:
            out[index] = max(out[index], out[index - 1] + gaps[index - 1])
    return out
