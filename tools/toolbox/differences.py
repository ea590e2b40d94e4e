"""What two rulesets make of one capture otherwise: opened, blocked, rewritten only, in groups by cause."""
from __future__ import annotations

import filecmp
from array import array
from collections import Counter
from dataclasses import dataclass, replace
from enum import IntEnum
from typing import TYPE_CHECKING, Iterator, Sequence, Tuple

from toolbox.captures import LINK_LENGTHS, LINUX_SLL2, records
from toolbox.packets import (
    ECHOES, PORTED, PROTOCOL_NAMES, TCP, UDP, address_text, describe, inverse, service_kind, service_of, service_port,
    source_of, without_ports)
from toolbox.replay import NOT_SENT, Cut, Through
from toolbox.reports import Decision, event_of, events_of_some
from toolbox.rulesets import TRANSLATIONS, read_ruleset

if TYPE_CHECKING:
    from toolbox.flows import Flows
    from toolbox.replay import Replay
    from toolbox.rulemap import RuleMap
    from toolbox.rulesets import Ruleset

OPENED, BLOCKED, REWRITTEN, OTHERWISE = "opened", "blocked", "rewritten only", "dropped otherwise"


class Differs(IntEnum):
    """How a record differs, as a column has it. Of other ports what leaves differs in ports alone, as a tracker chooses
    them."""

    NOT = 0
    OPENED = 1
    BLOCKED = 2
    REWRITTEN = 3
    OTHERWISE = 4
    OTHER_PORTS = 5


KINDS: dict[int, str] = {
    Differs.OPENED: OPENED, Differs.BLOCKED: BLOCKED, Differs.REWRITTEN: REWRITTEN, Differs.OTHERWISE: OTHERWISE,
    Differs.OTHER_PORTS: REWRITTEN}
SAME_RULES = "translated by the same rules, to other ports, since other flows have them or leave them"
SAME_RULES_OTHER_MAPS = "the same rules, to another address or interface, as their maps or an earlier mapping have it"
OUT_LINK = LINK_LENGTHS[LINUX_SLL2]
DECIDE = ("accept", "drop", *TRANSLATIONS)
MOST_TOLD_APART = 10_000  # hosts and ports of a group
MOST_RANGES, MOST_IN_FILTER = 40, 20


@dataclass(frozen=True)
class Told:
    """A decision of a rule or policy; `number` is None of a policy, `chain` None where no rule decided. `file` and
    `line` are where it is written, if it is."""

    chain: str | None
    number: int | None
    verdict: str
    text: str
    file: str | None = None
    line: int | None = None


# What the rulesets made of a record: its events in each run, and how it ended in each
Made = Tuple[Tuple[bytes, ...], Tuple[bytes, ...], str, str]


class Sight:
    """What one ruleset makes of the records, read beside the capture. `name` is what the ruleset is called, where that
    isn't its path."""

    def __init__(self, replay: Replay, origins: RuleMap | None = None, name: str | None = None) -> None:
        self.replay, self.name = replay, name or replay.rules
        self.ruleset = read_ruleset(replay.rules)
        self.origins = origins  # the map of a fitted ruleset
        self.known: dict[bytes, Told | None] = {}

    def told(self, event: bytes) -> Told | None:
        """The decision that an event of the report is, or None where it decides nothing."""
        if event not in self.known:
            told, one = None, event_of(event)
            if isinstance(one, Decision) and (one.rule is None or one.verdict in DECIDE):
                told = self.of_rule(one)
            self.known[event] = told
        return self.known[event]

    def of_rule(self, one: Decision) -> Told:
        """A decision as the operator's text has it."""
        return told_of(one, self.ruleset, self.origins, self.name)

    def decisions(self, wanted: array[int]) -> Iterator[tuple[tuple[bytes, ...], str]]:
        """Of each wanted record in order its events, and how it ended."""
        for record, events in zip(wanted, events_of_some(self.replay.files.report, wanted)):
            yield tuple(events), self.replay.outcome(record)


def told_of(one: Decision, ruleset: Ruleset, origins: RuleMap | None, name: str) -> Told:
    """A decision as the operator's text has it; `name` is what the ruleset is called, `origins` its map, if it was
    fitted."""
    origin = origins and origins.origin(one.chain, one.rule)
    if origin:
        return Told(origin.chain, origin.rule, one.verdict, origin.text, origin.file, origin.line)
    text, line = ruleset.text_of(one.chain, one.rule), ruleset.line_of(one.chain, one.rule)
    return Told(one.chain, one.rule, one.verdict, text, name, line)


def differing(old: Replay, new: Replay) -> bytearray:
    """Of each record how the replays differ, one of Differs."""
    count = len(old.to) - 1
    what = bytearray(count + 1)
    if (old.outcomes == new.outcomes and old.to == new.to and old.names == new.names
            and filecmp.cmp(old.files.leaving, new.files.leaving, shallow=False)):
        return what
    old_places, new_places = through_places(old), through_places(new)
    as_new = same_outcomes(old, new)
    for record, left, leaves in zip(range(1, count + 1), old.leaving_packets(), new.leaving_packets()):
        if (left == leaves and as_new[old.outcomes[record]] == new.outcomes[record]
                and old.to[record] == new.to[record]):
            continue
        is_sent, is_sent_now = old.to[record] != NOT_SENT, new.to[record] != NOT_SENT
        before = is_sent and old_places[old.outcomes[record]]
        after = is_sent_now and new_places[new.outcomes[record]]
        if before and after:
            if left != leaves or before != after:
                has_other_ports = before == after and are_alike_but_ports(left, leaves)
                what[record] = Differs.OTHER_PORTS if has_other_ports else Differs.REWRITTEN
        elif after:
            what[record] = Differs.OPENED
        elif before:
            what[record] = Differs.BLOCKED
        elif is_sent != is_sent_now:
            what[record] = Differs.OTHERWISE
        elif is_sent and old.numbers[old.outcomes[record]] != new.numbers[new.outcomes[record]]:
            what[record] = Differs.OTHERWISE
    return what


def same_outcomes(old: Replay, new: Replay) -> list[int | None]:
    """By the number of an outcome of the old run that of the new one, or None where that doesn't have it."""
    return [new.names.get(name) for name in [b"", *sorted(old.names, key=lambda name: old.names[name])]]


def are_alike_but_ports(left: bytes | None, leaves: bytes | None) -> bool:
    """Whether two frames that left are by one interface, and one packet but for its ports."""
    return (left is not None and leaves is not None and left[:OUT_LINK] == leaves[:OUT_LINK]
            and without_ports(left[OUT_LINK:]) == without_ports(leaves[OUT_LINK:]))


def through_places(replay: Replay) -> list[int]:
    """By an outcome's number whether the packet went through, and how."""
    went_through = set(map(int, Through))
    return [number if number in went_through else 0 for number in range(len(replay.names) + 1)]


# Causes


def cause(kind: str, before: Sequence[Told], after: Sequence[Told], outcome_before: str,
          outcome_after: str) -> tuple[Told, Told]:
    """The old decision and the new one that a difference comes of."""
    if kind == OPENED:
        new, old = cause(BLOCKED, after, before, outcome_after, outcome_before)
        return old, new
    if kind == BLOCKED:
        return blocked_by(before, after, outcome_before, outcome_after)
    if kind == OTHERWISE:
        return stopped_by(before, outcome_before), stopped_by(after, outcome_after)
    gone, come = parted(before, after), parted(after, before)
    if not gone and not come and outcome_before == outcome_after:
        same = Told(None, None, outcome_after, SAME_RULES)
        return same, same
    return (gone[0] if gone else outcome(outcome_before)), (come[0] if come else outcome(outcome_after))


def stopped_by(decisions: Sequence[Told], ended: str) -> Told:
    """What dropped a packet: its last decision, if a rule did."""
    return decisions[-1] if decisions and ended == "rule" else outcome(ended)


def blocked_by(before: Sequence[Told], after: Sequence[Told], outcome_before: str,
               outcome_after: str) -> tuple[Told, Told]:
    """What let a packet through is the decision in the chain that now drops it, or else the first that isn't taken any
    more; that of a policy tells least."""
    stopped = stopped_by(after, outcome_after)
    gone = parted(before, after)
    let_through = ([one for one in gone if one.chain == stopped.chain]
                   or [one for one in gone if one.number is not None or one.verdict != "accept"]
                   or list(before[-1:]) or [outcome(outcome_before)])
    return let_through[0], stopped


def translations(decisions: Sequence[Told]) -> list[tuple[str | None, str, str]]:
    """Which rules translated, by their texts."""
    return [(one.chain, one.verdict, one.text) for one in decisions if one.verdict in TRANSLATIONS]


def parted(decisions: Sequence[Told], others: Sequence[Told]) -> list[Told]:
    """The decisions that the others don't have, by text: an inserted rule doesn't shift all."""
    there = {(one.chain, one.verdict, one.text) for one in others}
    return [one for one in decisions if (one.chain, one.verdict, one.text) not in there]


def outcome(name: str) -> Told:
    words = {"local": "addressed to this box, and let in", "not sent": "not sent: its flow was stopped before"}
    return Told(None, None, name, words.get(name, "no rule decides"))


# Groups


class Group:
    """The differences of one kind and cause: counts, the first record, and what a display filter needs."""

    def __init__(self, number: int, kind: str, old: Told, new: Told, first: tuple[int, str]) -> None:
        self.number, self.kind, self.old, self.new, self.first = number, kind, old, new, first
        self.packets = self.flows = self.not_sent = self.elsewhere = 0
        self.hosts: set[bytes] = set()
        self.ports: Counter[bytes] = Counter()
        self.ranges: list[list[int]] = []
        self.filtered: set[bytes] = set()  # services, on both sides of a translation

    def take(self, record: int, begins: bool, key: bytes | None) -> None:
        """Takes a record whose flow has the tuple `key`, as its first packet, or none."""
        self.packets += 1
        self.flows += begins
        if key is not None:
            if begins and len(self.hosts) < MOST_TOLD_APART:
                self.hosts.add(source_of(key))
            if begins and len(self.ports) < MOST_TOLD_APART:
                self.ports[service_of(key)] += 1
            if len(self.filtered) < MOST_TOLD_APART:
                self.filtered.add(service_of(key))
        if self.ranges and self.ranges[-1][1] == record - 1:
            self.ranges[-1][1] = record
        elif len(self.ranges) <= MOST_RANGES:
            self.ranges.append([record, record])

    @property
    def has_other_ports_alone(self) -> bool:
        """Whether all of it leaves by the same rules, and otherwise in nothing but ports."""
        return self.kind == REWRITTEN and self.old.chain is None and self.old.text == SAME_RULES

    def ports_text(self) -> list[tuple[str, int]]:
        """[("tcp 443", 12), ..], the most frequent first"""
        by_number = sorted(self.ports.items(), key=lambda one: (-one[1], one[0]))
        ports = ((port_text(service), number) for service, number in by_number)
        return [one for one in ports if one[0]]

    def display_filter(self) -> str:
        """A display filter of Wireshark: the records; of many the hosts and ports."""
        if len(self.ranges) <= MOST_RANGES:
            numbers = (f"{first}" if first == last else f"{first}..{last}" for first, last in self.ranges)
            return "frame.number in {" + ", ".join(numbers) + "}"
        pieces: list[str] = []
        for name, kind in (("tcp", TCP), ("udp", UDP)):
            ports = [str(service_port(one)) for one in sorted(self.filtered) if service_kind(one) == kind]
            if 0 < len(ports) <= MOST_IN_FILTER:
                pieces.append(f"{name}.port in {{{', '.join(ports)}}}")
        hosts = ", ".join(map(address_text, sorted(self.hosts)))
        whose = [f"ip.addr in {{{hosts}}}"] if len(self.hosts) <= MOST_IN_FILTER else []
        return " && ".join(whose + ([f"({' || '.join(pieces)})"] if pieces else [])) or "ip"


def port_text(service: bytes) -> str:
    """tcp 443"""
    kind = service_kind(service)
    if kind in PORTED:
        return f"{PROTOCOL_NAMES[kind]} {service_port(service)}"
    return "ping" if kind in ECHOES else f"protocol {kind}"


class Groups:
    """The groups of all differences. What isn't sent has its flow's group."""

    def __init__(self, flows: Flows, old: Sight, new: Sight, what: bytearray) -> None:
        self.flows_of, self.sights, self.what = flows, (old, new), what
        self.all: list[Group] = []
        self.by_key: dict[tuple[str, Told, Told], Group] = {}
        self.causes: dict[tuple[int, Made], tuple[Told, Told]] = {}
        self.flow_counts: Counter[str] = Counter()
        # of each flow its last group (from 1); by kind the flows that are in a group of it; what is in several groups
        self.last = array("I", bytes(4 * len(flows.all)))
        self.having: dict[str, set[int]] = {kind: set() for kind in KINDS.values()}
        self.several: set[tuple[int, int]] = set()

    def each(self) -> Iterator[tuple[int, bytes, Group]]:
        """Groups the differences, and gives each record as (record, its bytes, its group)."""
        if not any(self.what):
            return
        wanted = array("I", (record for record, kind in enumerate(self.what) if kind))
        decisions = zip(*(sight.decisions(wanted) for sight in self.sights))
        for record, _, _, _, _, _, data in records(self.flows_of.path, 160):
            if self.what[record]:
                (before, outcome_before), (after, outcome_after) = next(decisions)
                yield record, data, self.take(record, data, (before, after, outcome_before, outcome_after))

    def take(self, record: int, data: bytes, made: Made) -> Group:
        flow, kind = self.flows_of.of[record], KINDS[self.what[record]]
        unsent = [sight.replay for sight in self.sights if sight.replay.to[record] == NOT_SENT]
        group = self.all[self.last[flow] - 1] if unsent and self.last[flow] else None
        if group is None:
            key = kind, *self.cause_of(self.what[record], made)
            group = self.by_key.get(key)
        if group is None:
            at = self.flows_of.at
            group = Group(len(self.all) + 1, *key, (record, describe(data, at if len(data) >= at else None)))
            self.by_key[key] = group
            self.all.append(group)
        group.take(record, self.begins(flow, group), self.tuple_of(record))
        if not flow and len(data) >= self.flows_of.at + 20 and len(group.hosts) < MOST_TOLD_APART:
            group.hosts.add(data[self.flows_of.at + 12:self.flows_of.at + 16])
        group.not_sent += bool(unsent)
        group.elsewhere += any(one.cut[flow] == Cut.ELSEWHERE for one in unsent)
        return group

    def cause_of(self, what: int, made: Made) -> tuple[Told, Told]:
        key = what, made
        if key not in self.causes:
            before, after = (
                [told for told in map(sight.told, events) if told] for sight, events in zip(self.sights, made[:2]))
            found = cause(KINDS[what], before, after, *made[2:])
            if what == Differs.OTHER_PORTS and translations(before) == translations(after):
                found = (Told(None, None, made[3], SAME_RULES),) * 2
            elif found[0].text == SAME_RULES:
                found = (replace(found[0], text=SAME_RULES_OTHER_MAPS),) * 2
            self.causes[key] = found
        return self.causes[key]

    def begins(self, flow: int, group: Group) -> bool:
        """Whether the group hasn't had this flow; a record of none is a flow of its own."""
        having = self.having[group.kind]
        self.flow_counts[group.kind] += flow not in having
        if not flow:
            return True
        having.add(flow)
        before, self.last[flow] = self.last[flow], group.number
        if before in (0, group.number):
            return before == 0
        self.several.add((flow, before))
        known = (flow, group.number) in self.several
        self.several.add((flow, group.number))
        return not known

    def tuple_of(self, record: int) -> bytes | None:
        """The tuple of the flow's side 0, as this record has it."""
        flows = self.flows_of
        if not flows.of[record]:
            return None
        return inverse(flows.tuple_of(record)) if flows.is_reply[record] else flows.tuple_of(record)
