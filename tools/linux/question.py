"""What is asked of both, nftrun and a kernel, and what a kernel said."""
from __future__ import annotations

import argparse
from dataclasses import dataclass
from typing import Iterator, Mapping, Sequence

from linux.box import LabBox
from linux.frames import LARGEST_PACKET
from linux.nftrun import Run, run_of
from linux.seen import Told
from toolbox import program
from toolbox.captures import called, header_of, records
from toolbox.commands import Refused
from toolbox.reports import RuleCounter
from toolbox.rulesets import Ruleset, read_ruleset

MOST_BYTES = LARGEST_PACKET + 64  # of a record: behind them comes padding alone


@dataclass(frozen=True)
class Options:
    """What a command line of beside-linux says: the files, settings of Linux, how long it may take, and whether hits
    are compared rule by rule."""

    rules: str
    box: str
    capture: str
    alike: bool = False
    set: Sequence[str] = ()
    records: int = 4000
    seconds: int = 240
    wait: int = 40  # milliseconds
    hits: bool = False

    @classmethod
    def of(cls, words: argparse.Namespace) -> Options:
        return cls(**vars(words))


@dataclass(frozen=True)
class Record:
    """A record of the capture; its moment is in nanoseconds, and never earlier than the one before."""

    number: int
    moment: int
    data: bytes


@dataclass(frozen=True)
class Question:
    """One capture, a ruleset and a box, and what nftrun says of them."""

    options: Options
    box: LabBox
    ruleset: Ruleset
    link_type: int
    records: Sequence[Record]
    run: Run


@dataclass(frozen=True)
class Heard:
    """What a kernel said of each record and of its counters; `own_packets` is how many the box sent, `lost` whether it
    told more than was read, `limits` are its idle limits in seconds by their names."""

    told: Sequence[Told]
    counters: Sequence[RuleCounter]
    own_packets: int
    lost: bool
    limits: Mapping[str, int]
    with_ipv6: bool


def moments(path: str, most: int) -> Iterator[Record]:
    header, latest = header_of(path), 0
    for number, seconds, fraction, _, _, _, data in records(path, MOST_BYTES):
        if number > most:
            raise Refused(f"{called(path)}: over {most} records; cut it, or say --records")
        latest = max(latest, seconds * 10**9 + fraction * 10**9 // header.fractions)
        yield Record(number, latest, data)


def question_of(options: Options) -> Question:
    """What the options ask, with nftrun's run; refused where no record is there."""
    box, ruleset = LabBox(options.box), read_ruleset(options.rules)
    link_type, taken = header_of(options.capture).link_type, list(moments(options.capture, options.records))
    if not taken:
        raise Refused(f"{called(options.capture)}: nothing was compared: no whole record is in it")
    run = run_of(program.find_program(), options.rules, options.box, options.capture)
    return Question(options, box, ruleset, link_type, taken, run)
