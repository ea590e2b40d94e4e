"""Which rules packets met, in a run and in Linux: both with a copy of the ruleset in which each rule counts."""
from __future__ import annotations

import os
from dataclasses import dataclass
from typing import TYPE_CHECKING, Iterable, Iterator, Mapping, Sequence

from linux.telling import end_of_statements
from toolbox.answering import NoAnswer
from toolbox.commands import read_text
from toolbox.language import NFT
from toolbox.reach import Answers, Meeting, RulePlace
from toolbox.rulesets import TRANSLATIONS, Ruleset, statement_tokens

if TYPE_CHECKING:
    from linux.question import Heard, Question
    from linux.seen import Said, Told
    from toolbox.reports import RuleCounter
    from toolbox.rulesets import Rule

ENDS = (*NFT.verdicts, *TRANSLATIONS)


@dataclass(frozen=True)
class RuleHits:
    """How many packets met a rule, as it was written, in each."""

    rule: Rule
    nftrun: int
    linux: int

    @property
    def who(self) -> str:
        """Who has packets that met it."""
        if self.nftrun and self.linux:
            return "both"
        return "nftrun alone" if self.nftrun else "Linux alone" if self.linux else "neither"


def has_map(rule: Rule) -> bool:
    """Whether a verdict map ends the rule: packets that come to it may find nothing there."""
    return "vmap" in rule.words


def place_of_counter(rule: Rule) -> int:
    """Where in the text a counter counts what comes to the last statement: before a verdict or a translation, else
    behind all."""
    ends = (token.start for token in statement_tokens(rule.tokens) if token.text in ENDS)
    return next(ends, end_of_statements(rule.tokens))


def counted(text: str) -> str:
    """The ruleset with such a counter in each rule that no verdict map ends."""
    pieces, last = [], 0
    for place in (place_of_counter(rule) for rule in Ruleset(text).rules if not has_map(rule)):
        pieces += [text[last:place], "counter " if text[place - 1].isspace() else " counter "]
        last = place
    return "".join(pieces) + text[last:]


def counted_copy(path: str, folder: str) -> str:
    """The path of such a copy of a ruleset, in a folder."""
    made = os.path.join(folder, "counted.nft")
    with open(made, "w", encoding="utf-8", errors="surrogateescape", newline="") as file:
        file.write(counted(read_text(path)))
    return made


def hits_of(question: Question, heard: Heard, ruleset: Ruleset) -> list[RuleHits]:
    """Of each rule of a ruleset what its counted copy, of which the question was, came to."""
    last = last_counters(question.run.counters), last_counters(heard.counters)
    decided = decided_by(question.run.said), decided_by(heard.told)
    return [RuleHits(rule, *(numbers.get(rule.place, 0) for numbers in (decided if has_map(rule) else last)))
            for rule in ruleset.rules]


def last_counters(counters: Iterable[RuleCounter]) -> Mapping[RulePlace, int]:
    """The packets of each rule's last counter."""
    return {(one.chain, one.rule): one.packets for one in sorted(counters, key=lambda one: one.which)}


def decided_by(records: Iterable[Said | Told]) -> Mapping[RulePlace, int]:
    """How often each rule is told of."""
    found: dict[RulePlace, int] = {}
    for record in records:
        for decision in record.decisions:
            place = decision.chain, decision.rule or 0
            found[place] = found.get(place, 0) + 1
    return found


def hit_lines(hits: Sequence[RuleHits], answers: Answers | NoAnswer) -> Iterator[str]:
    """How many rules were met, and each that wasn't met in both or of which `nftrun reach` says that none meets it."""
    numbers = {who: sum(one.who == who for one in hits) for who in ("both", "nftrun alone", "Linux alone", "neither")}
    yield "rules that packets met: " + ", ".join(
        f"{number} in {who}" for who, number in numbers.items())
    if isinstance(answers, NoAnswer):
        yield f"  what no packet can meet isn't known: {answers.why}"
    for one in hits:
        answer = answers.rules.get(one.rule.place) if isinstance(answers, Answers) else None
        if one.who != "both" or answer and answer.meeting is not Meeting.MET:
            told = f"; nftrun reach: {answer.text}" if answer else ""
            yield (f"  {one.who}: {one.rule.chain} {one.rule.number}  # {one.rule.text}: nftrun {one.nftrun}, "
                   f"Linux {one.linux}{told}")
