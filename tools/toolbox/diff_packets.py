"""Which packets show what two rulesets do otherwise: of the histories that are tried (searching) those whose last
packet their runs end otherwise, by what a class of `nftrun diff` tells of both."""
from __future__ import annotations

import os
from dataclasses import dataclass
from typing import TYPE_CHECKING, Iterable, Iterator, Sequence

from toolbox.diffed import STAGES, Outcome, PacketClass
from toolbox.histories import Aim, Came, possible
from toolbox.passages import Order, Stage
from toolbox.reports import Decision, event_of
from toolbox.searching import Became, Search, Trial, grouped, run_over
from toolbox.told_sets import Facts, facts_of

if TYPE_CHECKING:
    from toolbox.boxes import Box
    from toolbox.passages import Network
    from toolbox.shaping import Sent

BEFORE_ALL = -(1 << 40)  # a priority that no base chain has


@dataclass(frozen=True)
class Pair:
    """What became of a record by both rulesets."""

    old: Became
    new: Became

    @property
    def is_alike(self) -> bool:
        """Whether it ended alike: for one cause, or by one interface with the same bytes."""
        return (self.old.outcome, self.old.frame) == (self.new.outcome, self.new.frame)

    def is_of(self, wanted: PacketClass) -> bool:
        """Whether both decided as the class tells."""
        return decides(wanted.old, self.old) and decides(wanted.new, self.new)


def decides(outcome: Outcome, became: Became) -> bool:
    """Whether the rule or the policy of an outcome decided."""
    if outcome.chain is None:
        return True
    return any(isinstance(one, Decision) and (one.chain, one.rule) == (outcome.chain, outcome.rule)
               for one in map(event_of, became.events))


@dataclass(frozen=True)
class Runs:
    """Runs of both rulesets over one capture, each in a folder of its own."""

    program: str
    old: str
    new: str
    box: str
    folder: str

    def over(self, capture: str) -> list[Pair]:
        """What becomes of each record."""
        both = []
        for name, rules in (("old", self.old), ("new", self.new)):
            folder = os.path.join(self.folder, name)
            os.makedirs(folder, exist_ok=True)
            both.append(run_over(self.program, rules, self.box, capture, folder))
        return [Pair(old, new) for old, new in zip(*both)]


def order_of(wanted: PacketClass) -> Order:
    """Where packets come to the stage of a class."""
    return int(Stage(STAGES.index(wanted.stage))), BEFORE_ALL, 0


def lines_of(wanted: PacketClass, box: Box) -> list[Facts]:
    """The facts of a class's packets, line by line, as far as the box has such packets."""
    return [facts for facts in (facts_of(line, box) for line in wanted.lines) if facts is not None]


class ClassSearch(Search[PacketClass]):
    """Tries histories for classes, as packets come there by one of the rulesets. `found` are those that show one, and
    `alike` the classes of which packets were decided so, and both runs ended alike."""

    def __init__(self, network: Network, runs: Runs, classes: Iterable[PacketClass], is_by_new: bool) -> None:
        super().__init__(network, runs.folder, classes)
        self.runs, self.is_by_new = runs, is_by_new
        self.found: dict[PacketClass, tuple[Sent, ...]] = {}
        self.alike: set[PacketClass] = set()

    def aims(self, wanted: PacketClass, first: int, last: int, turn: int) -> Iterator[Aim]:
        for facts in lines_of(wanted, self.network.box)[first:last]:
            yield Aim(order_of(wanted), facts, turn)

    def is_missing(self, wanted: PacketClass) -> bool:
        return wanted not in self.found

    def judged(self, capture: str, trials: Sequence[Trial[PacketClass]]) -> list[Came]:
        groups = grouped(self.runs.over(capture), trials)
        for trial, group in zip(trials, groups):
            self.note(trial, group)
        return [(group[-1].new if self.is_by_new else group[-1].old).came for group in groups]

    def note(self, trial: Trial[PacketClass], pairs: Sequence[Pair]) -> None:
        """Keeps the first history of a class whose last packet shows it, and no packet before differs."""
        if pairs[-1].is_of(trial.wanted) and all(pair.is_alike for pair in pairs[:-1]):
            if pairs[-1].is_alike:
                self.alike.add(trial.wanted)
            elif self.is_missing(trial.wanted):
                self.found[trial.wanted] = tuple(trial.sent)


@dataclass(frozen=True)
class Searched:
    """What was found of classes: histories that show them, and of all others why there is none."""

    found: dict[PacketClass, tuple[Sent, ...]]
    why_not: dict[PacketClass, str]


def search_classes(networks: Sequence[Network], runs: Runs, classes: Sequence[PacketClass]) -> Searched:
    """Looks for packets of all classes, as they come to its stage by the old ruleset, then by the new one."""
    found: dict[PacketClass, tuple[Sent, ...]] = {}
    alike: set[PacketClass] = set()
    for network, is_by_new in zip(networks, (False, True)):
        search = ClassSearch(network, runs, [one for one in classes if one not in found], is_by_new)
        search.search()
        found.update(search.found)
        alike |= search.alike
    return Searched(found, {one: why_not(networks, one, one in alike) for one in classes if one not in found})


def why_not(networks: Sequence[Network], wanted: PacketClass, is_alike: bool) -> str:
    """What is known of a class that no pair of runs has shown."""
    if is_alike:
        return "those tried end alike"
    order = order_of(wanted)
    if all(network.is_closed(order) for network in networks):
        return "dropped before"
    facts = lines_of(wanted, networks[0].box)
    if not wanted.more and not any(
            True for network in networks for one in facts for _ in possible(network, Aim(order, one))):
        return "only facts without a history"
    return "not found"
