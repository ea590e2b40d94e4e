"""A search for packets: histories are tried, many in one run, until for each thing that is wanted there is one that
shows it. What is wanted, with which facts, and what a run shows of it, is the part of others.

Each history stands apart from all others by more than the box's idle limits, so that what became of it alone becomes of
it among others, too.
"""
from __future__ import annotations

import os
from abc import ABC, abstractmethod
from dataclasses import dataclass, field
from itertools import islice
from typing import TYPE_CHECKING, Generic, Iterable, Iterator, Sequence, TypeVar

from toolbox.captures import LINK_LENGTHS, LINUX_SLL2, frames, write_header, write_record
from toolbox.commands import Refused
from toolbox.histories import Aim, Came, History, histories
from toolbox.passages import Network
from toolbox.program import run, run_child
from toolbox.reports import THROUGH, records_of, text_of
from toolbox.told_sets import told_of

if TYPE_CHECKING:
    from toolbox.boxes import Box
    from toolbox.rulesets import Ruleset
    from toolbox.shaping import Sent

MOST_RECORDS = 10_000  # of one run
MOST_ROUNDS = 6  # packets of one history
SECOND = 10**9
STEP = SECOND // 100  # between packets of one history
GREATEST_TIME = 1 << 32  # seconds, as records tell their moments
AFTER_LIMITS = 1  # seconds more than the greatest idle limit between histories
FACTS_TRIED = (3, 12, 40)  # of each place where packets are wanted, of each phase
TOLD = (0, 8)  # statuses of `nftrun reach` with answers

T = TypeVar("T")
W = TypeVar("W")  # what is wanted


@dataclass(frozen=True)
class Became:
    """What a run shows of a record: its events, its outcome, and the frame that left, if one did."""

    events: tuple[bytes, ...]
    outcome: str
    frame: bytes | None

    @property
    def came(self) -> Came:
        """As histories go on behind it."""
        packet = self.frame[LINK_LENGTHS[LINUX_SLL2]:] if self.frame is not None else None
        return Came(self.outcome in THROUGH, packet)


@dataclass
class Trial(Generic[W]):
    """A history on its way: that for which it is tried, and its packets so far."""

    wanted: W
    history: History
    sent: list[Sent] = field(default_factory=list)

    def go_on(self, came: Came | None) -> bool:
        """Makes the next packet; answers whether there is one."""
        try:
            self.sent.append(next(self.history) if came is None else self.history.send(came))
            return True
        except StopIteration:
            return False


# ---- what is run


def network_of(program: str, ruleset: Ruleset, rules: str, box: Box, folder: str) -> Network:
    """A ruleset, whose path is `rules`, with what the program says of its rules and their sets."""
    path = os.path.join(folder, "told")
    with open(path, "wb") as file:
        status, errors = run_child([program, "reach", "--sets", "--", rules, box.path], file.fileno())
    if status not in TOLD:
        raise Refused(f"{rules}: {errors or f'{program} ended with status {status}'}")
    with open(path, encoding="utf-8", errors="surrogateescape") as text:
        return Network(ruleset, told_of(text.read(), box), box)


def run_over(program: str, rules: str, box: str, capture: str, folder: str) -> list[Became]:
    """What a run over a capture shows of each record."""
    report, leaving = os.path.join(folder, "report"), os.path.join(folder, "out.pcap")
    run(program, rules, box, capture, leaving, report)
    left = frames(leaving)
    ended = ((events, text_of(outcome or b"")) for _, events, outcome in records_of(report))
    return [Became(tuple(events), outcome, next(left) if outcome == "passed" else None) for events, outcome in ended]


def gap_of(box: Box, histories_in: int) -> int:
    """Nanoseconds between histories: what was before is forgotten."""
    limit = max(box.idle.values()) + AFTER_LIMITS
    if limit * (histories_in + 1) > GREATEST_TIME:
        raise Refused("the box file's idle limits are too long for so many histories in one capture")
    return limit * SECOND


def write_capture(path: str, box: Box, groups: Sequence[Sequence[Sent]]) -> None:
    """A capture of histories, far apart."""
    gap = gap_of(box, len(groups))
    with open(path, "wb") as file:
        write_header(file)
        for number, group in enumerate(groups, 1):
            for place, sent in enumerate(group):
                write_record(file, number * gap + place * STEP, sent.record())


# ---- the search


class Search(ABC, Generic[W]):
    """Tries histories for all that is wanted, in a folder; `network` is the ruleset by which packets come there."""

    def __init__(self, network: Network, folder: str, wanted: Iterable[W]) -> None:
        self.network, self.folder, self.wanted = network, folder, list(wanted)

    @abstractmethod
    def aims(self, wanted: W, first: int, last: int, turn: int) -> Iterator[Aim]:
        """What is wanted of packets: the facts from `first` to `last` of those that are told."""

    @abstractmethod
    def is_missing(self, wanted: W) -> bool:
        """Whether no history shows it yet."""

    @abstractmethod
    def judged(self, capture: str, trials: Sequence[Trial[W]]) -> list[Came]:
        """Runs a capture of the histories, keeps what it shows, and gives what became of the last packet of each."""

    def missing(self) -> list[W]:
        return [one for one in self.wanted if self.is_missing(one)]

    def phase(self, first: int, last: int, turn: int) -> None:
        """Tries histories for each that isn't shown yet."""
        trials = self.trials(first, last, turn)
        while some := list(islice(trials, MOST_RECORDS // MOST_ROUNDS)):
            self.try_all(some)

    def trials(self, first: int, last: int, turn: int) -> Iterator[Trial[W]]:
        """Histories for what isn't shown when they are asked for."""
        for wanted in self.missing():
            if self.is_missing(wanted):
                for aim in self.aims(wanted, first, last, turn):
                    yield from (Trial(wanted, history) for history in histories(self.network, aim))

    def try_all(self, trials: Sequence[Trial[W]]) -> None:
        """Runs histories, packet by packet."""
        going = [trial for trial in trials if self.is_missing(trial.wanted) and trial.go_on(None)]
        for _ in range(MOST_ROUNDS):
            if not going:
                return
            capture = os.path.join(self.folder, "tried.pcap")
            write_capture(capture, self.network.box, [trial.sent for trial in going])
            came = self.judged(capture, going)
            going = [trial for trial, one in zip(going, came) if trial.go_on(one)]

    def search(self) -> None:
        """Tries more and more of the facts, and other packets with the first of them."""
        for first, last in zip((0, *FACTS_TRIED), FACTS_TRIED):
            self.phase(first, last, 0)
        for turn in (1, 2):
            self.phase(0, FACTS_TRIED[1], turn)


def grouped(of_records: Sequence[T], trials: Sequence[Trial[W]]) -> list[Sequence[T]]:
    """What there is of each record of a capture of the histories, history by history."""
    found, at = [], 0
    for trial in trials:
        found.append(of_records[at:at + len(trial.sent)])
        at += len(trial.sent)
    return found
