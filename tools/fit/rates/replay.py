"""Runs a fitted ruleset and what Linux would keep by turns, until both agree.

Which packets come to a statement depends on the answers to those before. So a run with the marks at hand tells, by a
log in front of each statement, which records came where; what is kept is replayed over these, and gives marks for the
next run. A record's way depends on no later one: what a round finds up to the first mark that it changes is so, and
marks that no longer change are the only ones there are.
"""
from __future__ import annotations

import os
from dataclasses import dataclass
from typing import Dict, FrozenSet, Iterator, Mapping, Sequence

from toolbox import captures, program, reports
from toolbox.boxes import Box
from toolbox.packets import TCP, error_tuple_at, tuple_at
from toolbox.reports import THROUGH

from ..scanner import Refused
from .buckets import Arrival, Bucket, bucket_of
from .elements import DynamicSet, SetTerms
from .keys import Packet, key_of
from .known import Connections
from .marked import Marked, Source
from .subjects import AskedBound, Change, Probe, SetName

Marks = Dict[int, FrozenSet[int]]  # by records the numbers of the statements that don't do what is usual for them
MOST_ROUNDS = 200
FLAGS_AT = 13  # of a TCP header
LET_THROUGH = tuple(it.encode() for it in THROUGH)
LINK = captures.LINK_LENGTHS[captures.LINUX_SLL2]


@dataclass
class Told:
    """What is told of a statement: how many records came to it, and those for which it did what isn't usual."""

    came: int
    odd: list[int]


@dataclass(frozen=True)
class Settled:
    """The marks, by statements what is told of them, and after how many rounds; `notes` is what isn't exact."""

    marks: Marks
    told: Mapping[int, Told]
    rounds: int
    notes: Sequence[str]


class Kept:
    """What Linux keeps for all statements, from the capture's first record on."""

    def __init__(self, sets: Mapping[SetName, SetTerms], box: Box, begin: int) -> None:
        self.connections = Connections(box.idle)
        self.sets = {name: DynamicSet(terms, self.connections, begin) for name, terms in sets.items()}
        self.buckets: dict[int | SetName, Bucket] = {}

    def goes_on(self, probe: Probe, packet: Packet, arrival: Arrival) -> bool:
        """Whether a rule goes on behind the statement; what is kept changes."""
        ask = probe.ask
        if isinstance(ask, AskedBound):
            name = ask.name or probe.number
            if name not in self.buckets:
                self.buckets[name] = bucket_of(ask.terms, self.connections)
            return self.buckets[name].is_over(arrival) == ask.terms.over
        key = key_of(ask.key, packet)
        if key is None:
            raise Refused(f"{probe.place}: {probe.text}: a packet came that hasn't got the key; this is a fault of fit")
        found = self.sets[ask.found]
        if not isinstance(ask, Change):
            return found.look_up(key, arrival, ask.is_not)
        if ask.word == "delete":
            found.delete(key)
            return True
        return found.add(key, ask.timeout, ask.bounds, ask.refreshes, arrival)

    def notes(self) -> Iterator[str]:
        for name, it in self.sets.items():
            if it.was_full:
                yield f"{name.name} may be full: Linux counts what ran out or was deleted until it collects it"


@dataclass(frozen=True)
class Event:
    """A record that came to a statement."""

    probe: int


class Replay:
    """The rounds of one capture."""

    def __init__(self, probes: Sequence[Probe], sets: Mapping[SetName, SetTerms], source: Source, prefix: str) -> None:
        self.probes = {it.number: it for it in probes}
        self.sets, self.source, self.prefix = sets, source, prefix

    def settle(self, folder: str, text: str) -> Settled:
        """Rounds until the marks don't change; `text` is the fitted ruleset with a log before each statement."""
        path = program.find_program()
        marks: Marks = {}
        for number in range(1, MOST_ROUNDS + 1):
            marked = Marked(self.source, marks, list(self.probes.values()))
            files = marked.write(folder, text)
            left, report = os.path.join(folder, "left.pcap"), os.path.join(folder, "report.txt")
            program.run(path, files.rules, files.box, files.capture, left, report)
            found = Round(self, report, left).run()
            if found.marks == marks:
                found.refuse_twice(self.probes)
                marked.check_ways(report, left)
                return Settled(marks, found.told, number, list(found.kept.notes()))
            marks = found.marks
        raise Refused(f"{self.source.path}: marks of records still changed after {MOST_ROUNDS} rounds")


class Round:
    """One replay over what a run told; `marks` and `told` are what it found."""

    def __init__(self, replay: Replay, report: str, left: str) -> None:
        self.replay, self.report = replay, report
        self.kept = Kept(replay.sets, replay.source.box, replay.source.begin())
        self.leaving = (data for *_, data in captures.records(left))
        self.marks: Marks = {}
        self.told = {number: Told(0, []) for number in replay.probes}
        self.twice: list[tuple[int, int]] = []  # records and statements that they met with different answers

    def run(self) -> Round:
        told = reports.records_of(self.report)
        for record, (number, events, outcome) in zip(self.replay.source.records(), told):
            packet = record.packet
            left = None
            if outcome == b"passed":
                left = next(self.leaving)[LINK:]
            if packet is not None and (events or outcome in LET_THROUGH):
                self.take(number, record.moment, packet, [*self.events(events)])
                self.confirm(record.moment, packet, reports.text_of(outcome or b""), left)
        return self

    def events(self, events: Sequence[bytes]) -> Iterator[Event]:
        """The statements that a record came to, in order."""
        for event in events:
            if event.startswith(b"log "):
                log = reports.event_of(event)
                if isinstance(log, reports.Log) and log.prefix.startswith(self.replay.prefix + " "):
                    yield Event(int(log.prefix[len(self.replay.prefix):]))

    def take(self, number: int, moment: int, packet: Packet, events: Sequence[Event]) -> None:
        """The answers to a record; of a statement that it meets twice the first one."""
        arrival = self.arrival(moment, packet)
        answers: dict[int, bool] = {}
        for event in events:
            probe = self.replay.probes[event.probe]
            is_usual = self.kept.goes_on(probe, packet, arrival) == probe.usual
            if answers.setdefault(probe.number, is_usual) != is_usual:
                self.twice.append((number, probe.number))
        for which, is_usual in answers.items():
            self.told[which].came += 1
            if not is_usual:
                self.told[which].odd.append(number)
        odd = frozenset(which for which, is_usual in answers.items() if not is_usual)
        if odd:
            self.marks[number] = odd

    def arrival(self, moment: int, packet: Packet) -> Arrival:
        """The packet as bounds see it, with its connection."""
        about = error_tuple_at(packet.data, 0)
        if about is not None:
            found = self.kept.connections.of(about, moment)
            return Arrival(moment, packet.size, found.original if found else None, bool(found and found.is_assured))
        key = tuple_at(packet.data, 0)
        found = self.kept.connections.look_up(key, flags_of(packet), moment) if key is not None else None
        return Arrival(moment, packet.size, found.original if found else key, bool(found and found.is_assured))

    def confirm(self, moment: int, packet: Packet, outcome: str, left: bytes | None) -> None:
        key = tuple_at(packet.data, 0)
        if key is not None and outcome in THROUGH:
            self.kept.connections.confirm(key, tuple_at(left, 0) if left else None, flags_of(packet), moment)

    def refuse_twice(self, probes: Mapping[int, Probe]) -> None:
        """A record has one mark for each statement."""
        for number, which in self.twice[:1]:
            probe = probes[which]
            raise Refused(f"{probe.place}: {probe.text}: record {number} meets it twice, with different answers, which "
                          "marks of records can't say")


def flags_of(packet: Packet) -> int:
    return packet.data[packet.behind + FLAGS_AT] if packet.data[9] == TCP else 0
