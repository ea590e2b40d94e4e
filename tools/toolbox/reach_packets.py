"""Which packets show that rules are met: those of the histories that are tried (searching) that a run shows to meet
rules."""
from __future__ import annotations

import os
from dataclasses import dataclass, replace
from typing import TYPE_CHECKING, Iterator, Sequence

from toolbox.histories import Aim, Came, possible
from toolbox.reports import Log, event_of
from toolbox.searching import Became, Search, Trial, grouped, run_over
from toolbox.told_sets import MET, Place, RuleAnswer

if TYPE_CHECKING:
    from toolbox.passages import Network
    from toolbox.rulesets import Rule, Ruleset
    from toolbox.shaping import Sent

MARK = "nftrun-reach"


@dataclass(frozen=True)
class Shown:
    """What a run shows of a record: the rules that it met, and what became of it."""

    met: frozenset[Place]
    became: Became


# ---- a ruleset that tells of all rules


def logging(ruleset: Ruleset) -> str:
    """The ruleset with a log at the end of each rule without a verdict: such a rule shows nothing of itself."""
    pieces, at, text = [], 0, ruleset.text
    for rule in ruleset.rules:
        if not rule.decides:
            end = end_of(rule)
            pieces += [text[at:end], f' log prefix "{mark_in(ruleset)}"']
            at = end
    return "".join([*pieces, text[at:]])


def mark_in(ruleset: Ruleset) -> str:
    """A prefix that no log of the ruleset has."""
    return next(mark for mark in (MARK + "-" * number for number in range(1000)) if f'"{mark}"' not in ruleset.text)


def end_of(rule: Rule) -> int:
    """Where the statements of a rule end in the text."""
    tokens = rule.tokens
    has_comment = len(tokens) > 2 and tokens[-2].text == "comment"
    return tokens[-3].end if has_comment else tokens[-1].end


# ---- runs


class Runs:
    """Runs of the ruleset over what is made, in a folder."""

    def __init__(self, program: str, ruleset: Ruleset, rules: str, box: str, folder: str) -> None:
        self.program, self.rules, self.box, self.folder = program, rules, box, folder
        self.mark = mark_in(ruleset).encode()
        self.logging = os.path.join(folder, "logging.nft")
        with open(self.logging, "w", encoding="utf-8", errors="surrogateescape", newline="") as file:
            file.write(logging(ruleset))

    def over(self, capture: str, rules: str | None = None) -> list[Shown]:
        """What a run over a capture shows of each record."""
        return [self.shown(one) for one in run_over(
            self.program, rules or self.logging, self.box, capture, self.folder)]

    def shown(self, became: Became) -> Shown:
        met, kept = set(), []
        for event in became.events:
            if event.startswith(b"log ") and event.endswith(b" " + self.mark):
                log = event_of(event)
                met.add((log.chain, log.rule or 0))
                continue
            kept.append(event)
            told = event_of(event)
            if not isinstance(told, Log) and told.rule is not None:
                met.add((told.chain, told.rule))
        return Shown(frozenset(met), replace(became, events=tuple(kept)))


# ---- the search


@dataclass(frozen=True)
class Kept:
    """A history, and the rules that its packets met."""

    sent: tuple[Sent, ...]
    met: frozenset[Place]


class RuleSearch(Search[Place]):
    """Tries histories for rules that are called met."""

    def __init__(self, network: Network, runs: Runs) -> None:
        super().__init__(network, runs.folder, (
            place for place, answer in network.told.rules.items() if answer.answer == MET))
        self.runs = runs
        # by rule the shortest history whose last packet met it
        self.best: dict[Place, Kept] = {}

    def aims(self, wanted: Place, first: int, last: int, turn: int) -> Iterator[Aim]:
        """Of each base chain that leads to the rule."""
        for base, lines in self.network.told.rules[wanted].met.lines.items():
            if base in self.network.order:
                for facts in lines[first:last]:
                    yield Aim(self.network.order[base], facts, turn)

    def is_missing(self, wanted: Place) -> bool:
        return wanted not in self.best

    def judged(self, capture: str, trials: Sequence[Trial[Place]]) -> list[Came]:
        groups = grouped(self.runs.over(capture), trials)
        for trial, group in zip(trials, groups):
            self.note(tuple(trial.sent), group)
        return [group[-1].became.came for group in groups]

    def note(self, sent: tuple[Sent, ...], shown: Sequence[Shown]) -> None:
        """Keeps a history whose last packet meets rules which none met before, or longer ones did."""
        kept = Kept(sent, frozenset(place for one in shown for place in one.met))
        for place in shown[-1].met:
            old = self.best.get(place)
            if old is None or len(kept.sent) < len(old.sent):
                self.best[place] = kept

    def kept(self) -> list[tuple[Sent, ...]]:
        """Histories that together meet all rules that any met, in the order of the rules."""
        groups: list[tuple[Sent, ...]] = []
        covered: set[Place] = set()
        for place in self.wanted:
            if place in self.best and place not in covered:
                groups.append(self.best[place].sent)
                covered |= self.best[place].met
        return groups


def why_not(network: Network, answer: RuleAnswer) -> str:
    """What is known of a rule that no run has shown to be met."""
    bases = [base for base in answer.met.lines if base in network.order]
    if answer.met.is_whole and all(network.is_closed(network.order[base]) for base in bases):
        return "dropped before"
    aims = (Aim(network.order[base], facts) for base in bases for facts in answer.met.lines[base])
    if answer.met.is_whole and not any(True for aim in aims for _ in possible(network, aim)):
        return "only facts without a history"
    return "not found"
