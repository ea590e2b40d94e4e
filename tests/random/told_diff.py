"""What `nftrun diff` prints, read as classes of packets: where they come to, what either ruleset does with them, and
the packets as matches of reading.py (told_lines.py).

This judges the program, so it stands on the plain reading and not on tools/toolbox, which reads the same lines.
"""
from __future__ import annotations

import re
from dataclasses import dataclass
from typing import Optional, Sequence, Union

from told_lines import MORE, Lines, Unread

SAME = "the same for every packet"
MOST_LINES = 20
STAGES = (
    "prerouting before conntrack", "prerouting before dstnat", "prerouting nat", "prerouting after dstnat", "input",
    "forward", "postrouting before srcnat", "postrouting nat", "postrouting after srcnat",
)
PORT, ADDRESS = "[0-9]{1,5}", r"[0-9]{1,3}(?:\.[0-9]{1,3}){3}"
PORTS = f"{PORT}(?:-{PORT})?"
VERDICT = (f"accept|drop|snat to {ADDRESS}(?::{PORTS})?|dnat to {ADDRESS}(?::{PORT})?"
           f"|masquerade(?: to :{PORTS})?|redirect(?: to :{PORT})?")
PATH = r"(?:ip|inet) \S+ \S+"
BY = f"by rule [1-9][0-9]* of {PATH}|by the policy of {PATH}|without a chain"
MARK = "[0-9]+|0x[0-9a-f]+|as the packet's came|as the connection's came"
OUTCOME = re.compile(
    f"({VERDICT}) ({BY})(?: with meta mark ({MARK}))?(?: with ct mark ({MARK}))?( with notrack)?")
HEAD = re.compile(f"({'|'.join(STAGES)}): (.*), now (.*)")
TAIL = re.compile("at least [1-9][0-9]* more")


@dataclass(frozen=True)
class AsCame:
    """The mark that the packet or its connection came with."""

    of: str


Mark = Optional[Union[int, AsCame]]  # what is told of a mark, if anything is
MARKS = {"as the packet's came": AsCame("packet"), "as the connection's came": AsCame("connection")}


@dataclass(frozen=True)
class Outcome:
    """What one ruleset does: the verdict, what gave it, and what it has written."""

    verdict: str
    by: str
    meta_mark: Mark = None
    ct_mark: Mark = None
    has_notrack: bool = False

    @property
    def written(self) -> tuple[Mark, Mark, bool]:
        return self.meta_mark, self.ct_mark, self.has_notrack


@dataclass(frozen=True)
class Class:
    """Packets of a stage with which either ruleset does one thing."""

    stage: str
    old: Outcome
    new: Outcome
    packets: Lines

    @property
    def head(self) -> tuple[str, Outcome, Outcome]:
        return self.stage, self.old, self.new

    @property
    def rank(self) -> int:
        """How much it matters: what one drops first, then NAT, then marks."""
        if (self.old.verdict == "drop") != (self.new.verdict == "drop"):
            return 0
        return 1 if self.old.verdict != self.new.verdict else 2


@dataclass(frozen=True)
class Differences:
    """All that is printed: classes, none where the rulesets do the same; and whether they are all classes."""

    classes: Sequence[Class] = ()
    is_whole: bool = True

    def faults(self) -> list[str]:
        """What is wrong of the answer by itself."""
        ranks = [one.rank for one in self.classes]
        heads = [one.head for one in self.classes]
        wrong = ["classes that matter less stand before others"] if ranks != sorted(ranks) else []
        wrong += ["two classes have one line"] if len(set(heads)) != len(heads) else []
        for one in self.classes:
            told = f"{one.stage}: {one.old}, {one.new}"
            if not one.packets.lines:
                wrong.append(f"no packets are told: {told}")
            if len(one.packets.lines) > MOST_LINES:
                wrong.append(f"more than {MOST_LINES} lines: {told}")
            if one.rank == 2 and one.old.written == one.new.written:
                wrong.append(f"nothing that differs is told: {told}")
        return wrong


def differences_in(text: str) -> Differences:
    """What is printed."""
    lines = text.split("\n")
    if lines.pop() != "":
        raise Unread("the last line has no end")
    if lines == [SAME]:
        return Differences()
    is_whole = not (lines and TAIL.fullmatch(lines[-1]))
    if not is_whole:
        lines.pop()
    classes: list[Class] = []
    for line in lines:
        if line.startswith("  ") and classes:
            take(classes[-1].packets, line[2:])
        else:
            classes.append(class_of(line))
    if not classes:
        raise Unread("no class is told")
    return Differences(classes, is_whole)


def take(packets: Lines, text: str) -> None:
    """Takes a line of packets; behind that which tells how many more there are, there is none."""
    if not packets.is_whole or MORE.fullmatch(text) and not TAIL.fullmatch(text):
        raise Unread(text)
    packets.take(text)


def class_of(line: str) -> Class:
    """The class of a line that begins one, without packets yet."""
    head = HEAD.fullmatch(line)
    if not head:
        raise Unread(line)
    return Class(head[1], outcome_of(head[2]), outcome_of(head[3]), Lines())


def outcome_of(text: str) -> Outcome:
    found = OUTCOME.fullmatch(text)
    if not found:
        raise Unread(text)
    return Outcome(found[1], found[2], mark_of(found[3]), mark_of(found[4]), bool(found[5]))


def mark_of(text: str | None) -> Mark:
    return None if text is None else MARKS[text] if text in MARKS else int(text, 0)
