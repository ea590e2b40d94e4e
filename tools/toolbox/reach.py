"""Which rules packets can meet, as `nftrun reach` answers (docs/SPEC.md, 12)."""
from __future__ import annotations

import enum
from dataclasses import dataclass
from typing import Iterable, Mapping, Tuple

from toolbox.answering import NoAnswer, answer_to, unread
from toolbox.commands import DONE

# the chain of a rule, as "FAMILY TABLE CHAIN", and its number there
RulePlace = Tuple[str, int]
SECONDS = 10  # in which rulesets of 16,000 rules are answered
CANT_BE_MET = 8  # the status of `nftrun reach` where a rule can't be met


class Meeting(enum.Enum):
    """What can become of a rule, in the words of an answer."""

    MET = "met"
    NEVER_MATCHED = "reached, never matched"
    NEVER_REACHED = "never reached"


class Applying(enum.Enum):
    """What can become of a policy."""

    CAN = "can apply"
    NEVER = "never applies"


@dataclass(frozen=True)
class RuleAnswer:
    """What is answered of a rule; `more` is a text that follows, as `taken by 2 4`, or empty."""

    meeting: Meeting
    more: str

    @property
    def text(self) -> str:
        return f"{self.meeting.value}, {self.more}" if self.more else self.meeting.value


@dataclass(frozen=True)
class Answers:
    """What is answered of each rule, and of each policy by its chain; `are_all_met` is what the status says."""

    rules: Mapping[RulePlace, RuleAnswer]
    policies: Mapping[str, Applying]
    are_all_met: bool


def ask(program: str, rules: str, box: str, seconds: int | None = None) -> Answers | NoAnswer:
    """What a program answers of a ruleset and a box file, given by their paths; none behind so many seconds."""
    found = answer_to(program, ["reach", "--", rules, box], (DONE, CANT_BE_MET), seconds)
    if isinstance(found, NoAnswer):
        return found
    try:
        return answers_of(found.lines, found.status == DONE)
    except ValueError as fault:
        return unread("reach", fault)


def answers_of(lines: Iterable[str], are_all_met: bool) -> Answers:
    """Reads the lines of an answer; ValueError with the line that isn't one."""
    rules: dict[RulePlace, RuleAnswer] = {}
    policies: dict[str, Applying] = {}
    for line in lines:
        words = line.split(" ", 4)
        path = " ".join(words[1:4])
        number, _, answer = words[-1].partition(" ")
        meeting = next((one for one in Meeting if begins(answer, one.value)), None)
        applying = next((one for one in Applying if begins(words[-1], one.value)), None)
        if len(words) == 5 and words[0] == "rule" and number.isdecimal() and meeting:
            rules[path, int(number)] = RuleAnswer(meeting, answer[len(meeting.value):].removeprefix(", "))
        elif len(words) == 5 and words[0] == "policy" and applying:
            policies[path] = applying
        else:
            raise ValueError(line)
    return Answers(rules, policies, are_all_met)


def begins(text: str, answer: str) -> bool:
    """Whether a text is an answer, or one with more behind it."""
    return text == answer or text.startswith(f"{answer}, ")
