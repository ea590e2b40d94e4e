"""A run beside the outgoing copies in its capture: what Linux sent of each packet, and what its counters came to."""
from __future__ import annotations

from collections import Counter
from dataclasses import dataclass
from typing import Iterable, Iterator, Sequence

from linux.differences import CounterDifference, counter_differences
from toolbox.boxes import Box
from toolbox.captures import LINK_LENGTHS, LINUX_SLL2, SENT_BY_US, TO_US, called, header_of, packet_at, records
from toolbox.commands import Refused
from toolbox.packets import describe, identity, without_ports
from toolbox.reports import RuleCounter
from toolbox.rulesets import read_ruleset

AT = LINK_LENGTHS[LINUX_SLL2]
SMALLEST = AT + 28
MOST_DIGITS = 40  # of both numbers of a counter


@dataclass(frozen=True)
class Copy:
    """A packet without what stands behind it in the frame, and the index of its interface."""

    interface: bytes
    packet: bytes

    def without_ports(self) -> Copy:
        return Copy(self.interface, without_ports(self.packet))


@dataclass(frozen=True)
class Likeness:
    """How many packets left alike on both, whole and but for ports; and descriptions of those that have no like."""

    same: int
    but_ports: int
    ours: Sequence[str]
    theirs: Sequence[str]


def copy_of(data: bytes) -> Copy:
    length = int.from_bytes(data[AT + 2:AT + 4], "big")
    return Copy(data[4:8], data[AT:AT + length])


class Copies:
    """The outgoing copies by the interfaces of a box: `forwarded` are those of packets that came, in order; `own`
    counts those that none came for, which the box sent itself."""

    def __init__(self, capture: str, box: Box) -> None:
        if header_of(capture).link_type != LINUX_SLL2:
            raise Refused(f"{called(capture)}: a capture of another link type than LINUX_SLL2 has no outgoing copies")
        came: Counter[bytes] = Counter()
        indices = box.index_bytes()
        self.forwarded: list[Copy] = []
        self.own = 0
        for *_, data in records(capture):
            if packet_at(data, LINUX_SLL2) is None or data[4:8] not in indices or len(data) < SMALLEST:
                continue
            mark = identity(data, AT)
            if data[10] == TO_US:
                came[mark] += 1
            elif data[10] == SENT_BY_US and came[mark]:
                came[mark] -= 1
                self.forwarded.append(copy_of(data))
            elif data[10] == SENT_BY_US:
                self.own += 1
        if not self.forwarded:
            raise Refused(f"{called(capture)}: no outgoing copies of packets that came")


def likeness(forwarded: Sequence[Copy], leaving: str) -> Likeness:
    """What the box sent on beside what a run sends: the packets of the capture `leaving`."""
    ours = [copy_of(data) for *_, data in records(leaving)]
    same = sum((Counter(forwarded) & Counter(ours)).values())
    left, right = (Counter(one.without_ports() for one in copies) for copies in (forwarded, ours))
    but_ports = sum((left & right).values())
    return Likeness(same, but_ports, list(without_like(ours, left)), list(without_like(forwarded, right)))


def without_like(copies: Iterable[Copy], others: Counter[Copy]) -> Iterator[str]:
    rest = Counter(others)
    for one in copies:
        key = one.without_ports()
        if rest[key]:
            rest[key] -= 1
        else:
            yield describe(one.packet, 0)


def listed_counters(path: str) -> Iterator[RuleCounter]:
    """The counters of a ruleset as nft lists it, as a report has them."""
    for rule in read_ruleset(path).rules:
        words = [token.text for token in rule.tokens]
        starts = [place for place, word in enumerate(words[:-4])
                  if word == "counter" and words[place + 1] == "packets" and words[place + 3] == "bytes"]
        for which, place in enumerate(starts, 1):
            packets, size = words[place + 2], words[place + 4]
            if not packets.isdecimal() or not size.isdecimal() or len(packets + size) > MOST_DIGITS:
                raise Refused(f"{path}: line {rule.line}: a counter without numbers")
            yield RuleCounter(rule.chain, rule.number, which, int(packets), int(size))


def differing(counters: Sequence[RuleCounter], listing: str) -> list[CounterDifference]:
    """The counters of a report that nft lists otherwise, each with what that lists."""
    others = list(listed_counters(listing))
    if {(one.chain, one.rule, one.which) for one in others} != {(one.chain, one.rule, one.which) for one in counters}:
        raise Refused(f"{listing}: it has other counters than the rules of the run")
    return list(counter_differences(counters, others))
