"""What two rulesets do otherwise with any packet at all, beside what a capture shows: the classes of `nftrun diff`
with both decisions as the operator's texts have them, or why nothing is known."""
from __future__ import annotations

from dataclasses import dataclass, replace
from typing import TYPE_CHECKING, Iterator

from toolbox.answering import NoAnswer
from toolbox.commands import Refused, plural
from toolbox.could_meet import seconds_of
from toolbox.diffed import SAME, SECONDS, Outcome, PacketClass, ask
from toolbox.differences import Told, told_of
from toolbox.program import find_program
from toolbox.reports import Decision
from toolbox.rulesets import read_ruleset

if TYPE_CHECKING:
    import argparse

    from toolbox.rulemap import RuleMap
    from toolbox.rulesets import Ruleset

MOST_CLASSES, MOST_LINES = 5, 3  # that are told in text
NOTHING_KNOWN = "nothing is known of all packets"


@dataclass(frozen=True)
class Version:
    """One of the two rulesets: its path, what it is called, and its map, if it was fitted."""

    path: str
    name: str
    origins: RuleMap | None = None


@dataclass(frozen=True)
class ToldClass:
    """A class, and what decides in it, as the operator's texts have that."""

    it: PacketClass
    old: Told
    new: Told

    @property
    def text(self) -> str:
        return f"{self.it.stage}: {worded(self.it.old, self.old)}, now {worded(self.it.new, self.new)}"

    def text_with_lines(self) -> str:
        """With the files and lines of both decisions, as far as they are written."""
        return (f"{self.it.stage}: {worded(self.it.old, self.old)}{place_text(self.old)}, "
                f"now {worded(self.it.new, self.new)}{place_text(self.new)}")

    def packets(self, most: int) -> list[str]:
        """At most so many of its sets of packets, and how many more there are at least."""
        rest = len(self.it.lines[most:]) + self.it.more
        several = f"{'at least ' if self.it.more else ''}{rest} more"
        return [*self.it.lines[:most], *([several] if rest else [])]


@dataclass(frozen=True)
class EveryPacket:
    """What is known of all packets: the classes, none where the rulesets do the same with each, and how many sets
    further classes have at least; or in words why nothing is known."""

    classes: tuple[ToldClass, ...] = ()
    more: int = 0
    unknown: str | None = None

    @property
    def is_same(self) -> bool:
        return self.unknown is None and not self.classes

    def text(self) -> str:
        """What is known, in a line."""
        if self.unknown is not None:
            return f"{NOTHING_KNOWN}: {self.unknown}"
        if self.is_same:
            return f"{SAME}: no capture is needed to know that"
        if self.more:
            return f"of all packets more than {plural(len(self.classes), 'class', 'classes')} differ"
        return "of all packets 1 class differs" if len(self.classes) == 1 else (
            f"of all packets {len(self.classes)} classes differ")

    def lines(self, with_lines: bool = False) -> Iterator[str]:
        """What is known, with the first of the classes and of their packets."""
        yield self.text() + (":" if self.classes else "")
        for one in self.classes[:MOST_CLASSES]:
            yield f"  {one.text_with_lines() if with_lines else one.text}"
            yield from (f"    {line}" for line in one.packets(MOST_LINES))
        if len(self.classes) > MOST_CLASSES or self.more:
            yield "  and more (nftrun diff lists them)"


def worded(outcome: Outcome, told: Told) -> str:
    """An outcome with the rule of the operator's text."""
    return replace(outcome, chain=told.chain, rule=told.number).text


def place_text(told: Told) -> str:
    return f" ({told.file}:{told.line})" if told.line else ""


def outcome_told(outcome: Outcome, ruleset: Ruleset, version: Version) -> Told:
    """What decides, as the operator's text has it."""
    if outcome.chain is None:
        return Told(None, None, outcome.verdict, "no chain")
    return told_of(Decision(outcome.chain, outcome.rule, outcome.verdict), ruleset, version.origins, version.name)


def every_packet(old: Version, new: Version, box: str, seconds: int) -> EveryPacket | None:
    """What the nftrun that the commands find says of two rulesets; None where it takes one of them, or the box file,
    for none: a run will tell that."""
    if seconds <= 0:
        return EveryPacket(unknown="--diff 0")
    try:
        answer = ask(find_program(), old.path, new.path, box, seconds)
    except Refused as refusal:
        return EveryPacket(unknown=str(refusal))
    if isinstance(answer, NoAnswer):
        return None if answer.is_rejected else EveryPacket(unknown=answer.why)
    if answer.is_same:
        return EveryPacket()
    rulesets = [read_ruleset(version.path) for version in (old, new)]
    return EveryPacket(tuple(ToldClass(one, outcome_told(one.old, rulesets[0], old),
                                       outcome_told(one.new, rulesets[1], new)) for one in answer.classes), answer.more)


def add_option(parser: argparse.ArgumentParser) -> None:
    """The option that says how long an answer may take."""
    parser.add_argument("--diff", metavar="SECONDS", type=seconds_of, default=SECONDS,
                        help="how long nftrun diff may take to answer what differs of all packets (%(default)s); "
                             "0: it isn't asked")


def told_json(told: Told) -> dict[str, int | str | None]:
    return {"chain": told.chain, "rule": told.number, "verdict": told.verdict, "text": told.text, "file": told.file,
            "line": told.line}


def class_json(number: int, one: ToldClass, fails: bool) -> dict[str, object]:
    """A line of JSON of a class."""
    return {"class": number, "stage": one.it.stage, "old": told_json(one.old), "old_written": one.it.old.written,
            "new": told_json(one.new), "new_written": one.it.new.written, "matches": one.it.lines,
            "more": one.it.more, "fails": fails}


def whole_json(known: EveryPacket) -> dict[str, object]:
    """What is known in all."""
    return {"same": None if known.unknown is not None else known.is_same, "classes": len(known.classes),
            "more": known.more, "unknown": known.unknown}
