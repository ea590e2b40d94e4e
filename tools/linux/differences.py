"""Where the kernel and nftrun differ: of each record outcome, leaving bytes and rules; of the whole run counters."""
from __future__ import annotations

import enum
from dataclasses import dataclass, replace
from typing import Iterable, Iterator, Sequence

from linux.seen import Fate, Said, Told
from toolbox.reports import THROUGH, Decision, RuleCounter
from toolbox.rulesets import TRANSLATIONS


class Kind(enum.Enum):
    """In what a record may differ."""

    OUTCOME = "outcome"
    BYTES = "bytes"
    RULES = "rules"


@dataclass(frozen=True)
class Difference:
    """A record that differs: what nftrun said, and what the kernel told."""

    number: int
    moment: int
    kinds: Sequence[Kind]
    said: Said
    told: Told

    @property
    def parting(self) -> tuple[Decision | None, Decision | None]:
        """The first decisions that differ, nftrun's and Linux's; one may be None."""
        ours, theirs = rules_of_nftrun(self.said), self.told.decisions
        for one, other in zip(ours, theirs):
            if one != other:
                return one, other
        rest = min(len(ours), len(theirs))
        return ours[rest] if len(ours) > rest else None, theirs[rest] if len(theirs) > rest else None


@dataclass(frozen=True)
class CounterDifference:
    """A counter of nftrun's report, and the kernel's of the same place, or None."""

    counter: RuleCounter
    other: RuleCounter | None


def kinds_of(said: Said, told: Told) -> list[Kind]:
    """In what one record differs."""
    kinds = []
    if outcome_of_nftrun(said) != outcome_of_linux(told):
        kinds.append(Kind.OUTCOME)
    elif said.leaves is not None and [said.leaves] != told.leaves:
        kinds.append(Kind.BYTES)
    if rules_of_nftrun(said) != told.decisions:
        kinds.append(Kind.RULES)
    return kinds


def outcome_of_nftrun(said: Said) -> str:
    """What drops a packet beside a rule isn't told by Linux, so all of it counts as one."""
    return said.outcome if said.outcome in (*THROUGH, Fate.RULE.value) else Fate.DROPPED.value


def outcome_of_linux(told: Told) -> str:
    fate = Fate.DROPPED if told.fate is Fate.UNSENT else told.fate
    word: str = fate.value
    return word


def rules_of_nftrun(said: Said) -> list[Decision]:
    """The decisions in Linux's words: it tells of a translation as of an accept."""
    return [replace(decision, verdict="accept") if decision.verdict in TRANSLATIONS else decision
            for decision in said.decisions]


def counter_differences(counters: Iterable[RuleCounter], others: Iterable[RuleCounter]) -> Iterator[CounterDifference]:
    """The counters that differ, by their place."""
    by_place = {(other.chain, other.rule, other.which): other for other in others}
    for counter in counters:
        other = by_place.get((counter.chain, counter.rule, counter.which))
        if other != counter:
            yield CounterDifference(counter, other)
