"""Of rules without hits whether a packet could have met them: by their text, and by what `nftrun reach` proves."""
from __future__ import annotations

import argparse
from dataclasses import dataclass
from typing import TYPE_CHECKING, Mapping

from toolbox.answering import NoAnswer
from toolbox.commands import Refused, say
from toolbox.never_met import OWN_PACKETS, never_met
from toolbox.program import find_program
from toolbox.reach import SECONDS, Answers, Meeting, RulePlace, ask

if TYPE_CHECKING:
    from toolbox.boxes import Box
    from toolbox.rulesets import Ruleset

COULD, NEVER = "a packet could meet it", "no packet can meet it"
MOST_SECONDS = 86_400


@dataclass(frozen=True)
class CouldMeet:
    """By a rule's place why no packet of a run can meet it; the rules that `nftrun reach` calls met; and in words why
    of all others nothing is known, or None."""

    never: Mapping[RulePlace, str]
    could: frozenset[RulePlace]
    unknown: str | None

    def remark(self, place: RulePlace) -> str | None:
        """What is known of a rule that no packet met, or None."""
        if place in self.never:
            reason = self.never[place]
            return reason if reason.startswith(NEVER) else f"{NEVER}: {reason}"
        return COULD if place in self.could else None

    def unknown_text(self) -> str | None:
        """That nothing is known of rules that no packet met, if so."""
        return f"whether a packet could meet them {self.unknown}" if self.unknown else None

    def print_unknown(self) -> None:
        """Says so in a line below the rules."""
        text = self.unknown_text()
        if text:
            say(f"  {text}")


def add_option(parser: argparse.ArgumentParser) -> None:
    """The option that says how long an answer may take."""
    parser.add_argument("--reach", metavar="SECONDS", type=seconds_of, default=SECONDS,
                        help="how long nftrun reach may take to answer which rules a packet could meet (%(default)s); "
                             "0: it isn't asked")


def seconds_of(text: str) -> int:
    """The seconds of an option."""
    if not text.isdecimal() or len(text) > len(str(MOST_SECONDS)) or int(text) > MOST_SECONDS:
        raise argparse.ArgumentTypeError(f"0 to {MOST_SECONDS} are wanted")
    return int(text)


def could_meet(ruleset: Ruleset, rules: str, box: Box | None, seconds: int) -> CouldMeet:
    """What is known of the rules of a ruleset, whose path is `rules`."""
    by_text, answers = never_met(ruleset, box), answered(rules, box, seconds)
    if isinstance(answers, NoAnswer):
        verb = "isn't known" if answers.was_asked else "wasn't asked"
        return CouldMeet(by_text, frozenset(), f"{verb}: {answers.why}")
    never, could = {}, set()
    for place, answer in answers.rules.items():
        if answer.meeting is not Meeting.MET:
            never[place] = by_text.get(place, f"{NEVER}: {answer.text}")
        elif OWN_PACKETS in by_text.get(place, ""):
            # for nftrun what comes by `lo` is a packet as any other
            never[place] = by_text[place]
        else:
            could.add(place)
    return CouldMeet(never, frozenset(could), None)


def answered(rules: str, box: Box | None, seconds: int) -> Answers | NoAnswer:
    """What the nftrun that the commands find answers, if it is asked."""
    if box is None:
        return NoAnswer("it wants the box file", was_asked=False)
    if seconds <= 0:
        return NoAnswer("--reach 0", was_asked=False)
    try:
        return ask(find_program(), rules, box.path, seconds)
    except Refused as refusal:
        return NoAnswer(str(refusal), was_asked=False)
