"""What two rulesets do otherwise with any packet at all, stage by stage of the hooks, as `nftrun diff` answers
(docs/SPEC.md, 11)."""
from __future__ import annotations

import re
from dataclasses import dataclass, replace
from typing import Sequence

from toolbox.answering import NoAnswer, answer_to, unread
from toolbox.commands import DONE, plural

SAME = "the same for every packet"
DIFFER = 10  # the status of `nftrun diff` where the rulesets differ
SECONDS = 60  # that compare and page leave for an answer
# in the order in which a packet comes there
STAGES = ("prerouting before conntrack", "prerouting before dstnat", "prerouting nat", "prerouting after dstnat",
          "input", "forward", "postrouting before srcnat", "postrouting nat", "postrouting after srcnat")
VERDICT = r"accept|drop|[sd]nat to \S+|masquerade(?: to \S+)?|redirect(?: to \S+)?"
BY = r"by rule ([0-9]+) of (\S+ \S+ \S+)|by the policy of (\S+ \S+ \S+)|without a chain"
WRITTEN = r" with (meta mark as the packet's came|ct mark as the connection's came|(?:meta|ct) mark \w+|notrack)"
OUTCOME = re.compile(f"({VERDICT}) (?:{BY})((?:{WRITTEN})*)")
WRITTEN_ONE = re.compile(WRITTEN)
MORE = re.compile(r"at least ([0-9]+) more")
INDENT = "  "


@dataclass(frozen=True)
class Outcome:
    """What a ruleset does with packets in a stage: its verdict, with what translation makes of them; the chain and the
    rule that gave it, None of a policy, and both where no base chain is there; and what it has written of marks where
    the other ruleset hasn't written the same."""

    verdict: str
    chain: str | None
    rule: int | None = None
    written: tuple[str, ...] = ()

    @property
    def text(self) -> str:
        """As `nftrun diff` has it."""
        by = f"by rule {self.rule} of {self.chain}" if self.rule else f"by the policy of {self.chain}"
        return " with ".join([f"{self.verdict} {by if self.chain else 'without a chain'}", *self.written])


@dataclass(frozen=True)
class PacketClass:
    """Packets with which two rulesets differ alike in a stage: sets of them as matches of nft(8), a line each, and how
    many more there are at least."""

    stage: str
    old: Outcome
    new: Outcome
    lines: tuple[str, ...] = ()
    more: int = 0

    @property
    def text(self) -> str:
        return f"{self.stage}: {self.old.text}, now {self.new.text}"


@dataclass(frozen=True)
class Diff:
    """All classes, those first that matter most; none where the rulesets do the same with every packet. `more` is how
    many sets further classes have at least that aren't told."""

    classes: tuple[PacketClass, ...] = ()
    more: int = 0

    @property
    def is_same(self) -> bool:
        return not self.classes


def ask(program: str, old: str, new: str, box: str, seconds: int | None = None,
        assume: str | None = None) -> Diff | NoAnswer:
    """What a program answers of two rulesets and a box file, given by their paths; none behind so many seconds. With
    `assume`, a ruleset, of the packets alone that its chain accepts."""
    options = ["--assume", assume] if assume is not None else []
    found = answer_to(program, ["diff", *options, "--", old, new, box], (DONE, DIFFER), seconds)
    if isinstance(found, NoAnswer):
        return found
    try:
        diff = diff_of(found.lines)
    except ValueError as fault:
        return unread("diff", fault)
    if diff.is_same != (found.status == DONE):
        told = plural(len(diff.classes), "class", "classes")
        return NoAnswer(f"nftrun diff: status {found.status} with {told}", status=found.status)
    return diff


def diff_of(lines: Sequence[str]) -> Diff:
    """Reads the lines of an answer; ValueError with the line that is none of one."""
    if list(lines) == [SAME]:
        return Diff()
    if not lines:
        raise ValueError("there is none")
    classes: list[PacketClass] = []
    more = 0
    for number, line in enumerate(lines, 1):
        told = MORE.fullmatch(line.removeprefix(INDENT))
        if line.startswith(INDENT):
            if not classes:
                raise ValueError(line)
            last = classes.pop()
            classes.append(replace(last, more=int(told[1])) if told
                           else replace(last, lines=(*last.lines, line.removeprefix(INDENT))))
        elif told and classes and number == len(lines):
            more = int(told[1])
        else:
            classes.append(class_of(line))
    return Diff(tuple(classes), more)


def class_of(line: str) -> PacketClass:
    """The class of a line, without its packets."""
    stage, _, outcomes = line.partition(": ")
    old, _, new = outcomes.partition(", now ")
    if stage not in STAGES:
        raise ValueError(line)
    try:
        return PacketClass(stage, outcome_of(old), outcome_of(new))
    except ValueError:
        raise ValueError(line) from None


def outcome_of(text: str) -> Outcome:
    """Reads an outcome; ValueError where it is none."""
    found = OUTCOME.fullmatch(text)
    if found is None:
        raise ValueError(text)
    verdict, rule, chain, policy, written = found.groups()[:5]
    return Outcome(verdict, chain or policy, int(rule) if rule else None, tuple(WRITTEN_ONE.findall(written)))
