"""What the router itself did with the packets of a capture, as its outgoing copies tell, and where a run isn't that
router: it sends them by another interface, or drops what the router sent on.

A box file has one table of routes, and a run no sets that packets fill. Where the router has more (`ip rule`, a second
uplink, a dynamic set), what a run says of these packets isn't what the router does, and nothing is known of them.
"""
from __future__ import annotations

from array import array
from collections import Counter
from dataclasses import dataclass, field
from typing import TYPE_CHECKING, Collection, Iterator, Tuple

from toolbox.captures import IPV4, LINK_LENGTHS, LINUX_SLL2, SENT_BY_US, TO_US, records
from toolbox.commands import plural
from toolbox.flows import MOST_ALIKE, MOST_READ, WINDOW, likeness
from toolbox.packets import NO_TUPLE, TCP, destination_of, error_tuple_at, identity, tuple_at
from toolbox.replay import NOT_SENT

if TYPE_CHECKING:
    from toolbox.boxes import Box
    from toolbox.flows import Flow, Flows
    from toolbox.replay import Replay

AT = LINK_LENGTHS[LINUX_SLL2]
TTL, DESTINATION = AT + 8, slice(AT + 16, AT + 20)
MOST_WAYS, MOST_RECORDS = 5, 5
SEVERAL_TABLES = ("policy routing (ip rule, a VRF, a second uplink), or a route that the box file lacks: it has one "
                  "table of routes, so these packets met other rules on the router")
LET_IN_OTHERWISE = ("a set that packets fill, other rules than these, an idle limit, or of UDP and ping a beginning "
                    "before the capture: the router let them through, and a run doesn't")


# A packet that entered, and whose copy may come: its record, and its bytes
Waiting = Tuple[int, bytes]


@dataclass(frozen=True)
class Hop:
    """Indices of interfaces: by which a packet came and left, and to which the box file's routes lead (0: to none)."""

    came_by: int
    left_by: int
    routed: int


class Copies:
    """Of each record that entered by an interface of the box file its outgoing copy (0: none), and how it went: 8 bytes
    a record. `unknown` counts packets that came by interfaces which the box file lacks, and were routed, by index."""

    def __init__(self, flows: Flows, box: Box) -> None:
        self.box, self.indices = box, box.index_bytes()
        self.of, self.place = (array("I", bytes(4 * (flows.count + 1))) for _ in range(2))
        self.hops: list[Hop] = []
        self.places: dict[tuple[bytes, bytes, int], int] = {}
        self.unknown: Counter[int] = Counter()
        self.routes: dict[bytes, int] = {}
        # by what forwarding leaves of a packet: those that wait for their copies
        self.young: dict[bytes, list[Waiting]] = {}
        self.old: dict[bytes, list[Waiting]] = {}
        # of several packets alike, by that and their tuples, how many left by each interface
        self.left: dict[bytes, dict[bytes, Counter[bytes]]] = {}
        if flows.link_type == LINUX_SLL2:
            self.read(flows.path)

    def read(self, path: str) -> None:
        for number, _, _, _, length, _, data in records(path, MOST_READ):
            if length < AT + 28 or data[:2] != IPV4:
                continue
            if data[10] == TO_US:
                self.enter(number, data)
            elif data[10] == SENT_BY_US:
                self.leave(number, data)
        self.young, self.old, self.left = {}, {}, {}

    def hop(self, record: int) -> Hop | None:
        """How the packet of a record went, or None where its copy isn't in the capture."""
        return self.hops[self.place[record]] if self.of[record] else None

    def record_of(self, copy: int) -> int | None:
        """The record that a copy is of, or None where the record is no such copy."""
        return self.of.index(copy) if copy in self.of else None

    def enter(self, number: int, data: bytes) -> None:
        mark = identity(data, AT)
        alike = self.young.pop(mark, None) or self.old.pop(mark, None)
        if alike and data[4:8] in self.indices:
            # what came by the port of a bridge, or below a VLAN, comes by an interface of the box now
            alike = [one for one in alike[-MOST_ALIKE:] if one[1][4:8] in self.indices]
        self.young[mark] = [*alike, (number, data)] if alike else [(number, data)]
        if len(self.young) > WINDOW:
            self.old, self.young, self.left = self.young, {}, {}

    def leave(self, number: int, data: bytes) -> None:
        """A copy: of the packets like it that wait, of the one that changed least."""
        mark = identity(data, AT)
        alike = self.young.pop(mark, None) or self.old.pop(mark, None)
        if not alike:
            return
        came, *rest = alike
        if rest or mark in self.left:
            key = key_of(data)
            if self.is_second_sight(mark, key, data[4:8]):
                self.young[mark] = alike
                return
            came = max(alike, key=lambda one: likeness(key_of(one[1]), key))
            if rest:
                self.young[mark] = [one for one in alike if one is not came]
        self.take(number, data, *came)

    def take(self, copy: int, data: bytes, record: int, came: bytes) -> None:
        """A packet as it came, and its copy."""
        if came[4:8] not in self.indices:
            if data[TTL] == came[TTL] - 1:
                self.unknown[number_of(came[4:8])] += 1
            return
        way = came[4:8], data[4:8], self.route(data[DESTINATION])
        place = self.places.get(way)
        if place is None:
            place = self.places[way] = len(self.hops)
            self.hops.append(Hop(number_of(way[0]), number_of(way[1]), way[2]))
        self.of[record], self.place[record] = copy, place

    def is_second_sight(self, mark: bytes, key: bytes, index: bytes) -> bool:
        """Whether a copy of one of several packets alike is that of one that left before, now at the device below: the
        port of a bridge, or what carries a VLAN."""
        counts = self.left.setdefault(mark, {}).setdefault(key, Counter())
        is_second = any(number > counts[index] for other, number in counts.items() if other != index)
        counts[index] += 1
        return is_second

    def route(self, address: bytes) -> int:
        """The index of the interface to which the box file's routes lead, or 0."""
        index = self.routes.get(address)
        if index is None:
            index = self.routes[address] = self.box.indices.get(self.box.route(address) or "", 0)
        return index


def key_of(data: bytes) -> bytes:
    return tuple_at(data, AT) or error_tuple_at(data, AT) or NO_TUPLE


def number_of(index: bytes) -> int:
    return int.from_bytes(index, "big")


@dataclass(frozen=True)
class Way:
    """How packets went on the router, and how they go in a run, by the names of interfaces. `routed` is the one by
    which the run sends them, or to which its routes lead, None where it has no route; `dropped` is the outcome of what
    the run doesn't send on. `is_run` tells whether there was a run, or the box file's routes alone are asked."""

    came_by: str
    left_by: str
    routed: str | None
    dropped: str | None
    is_run: bool

    @property
    def is_routed_otherwise(self) -> bool:
        return self.routed != self.left_by

    @property
    def reason(self) -> str:
        return SEVERAL_TABLES if self.is_routed_otherwise else LET_IN_OTHERWISE

    def text(self) -> str:
        """came by guest and left by wan2; the run drops them (rule), and its routes lead to wan"""
        lead = f"lead to {self.routed}" if self.routed else "lead nowhere"
        if not self.is_run:
            told = f"the box file's routes {lead}"
        elif self.dropped is None:
            told = f"the run sends them by {self.routed}"
        else:
            told = f"the run drops them ({self.dropped})" + (f", and its routes {lead}" if self.routed_apart() else "")
        return f"came by {self.came_by} and left by {self.left_by}; {told}"

    def routed_apart(self) -> bool:
        return self.is_routed_otherwise and self.dropped != "route"


@dataclass
class Astray:
    """The packets of one way, as they are found: how many, their flows, the first records."""

    packets: int = 0
    flows: set[int] = field(default_factory=set)
    first: list[int] = field(default_factory=list)

    def take(self, record: int, flow: int) -> None:
        self.packets += 1
        if flow:
            self.flows.add(flow)
        if len(self.first) < MOST_RECORDS:
            self.first.append(record)

    def count_text(self) -> str:
        """12 packets of 3 flows"""
        packets = plural(self.packets, "packet")
        return f"{packets} of {plural(len(self.flows), 'flow')}" if self.flows else packets

    def records_text(self) -> str:
        """records 1, 5, 9, .."""
        word = "record" if self.packets == 1 else "records"
        return f"{word} {', '.join(map(str, self.first))}" + (", .." if self.packets > len(self.first) else "")


@dataclass(frozen=True)
class Uncompared:
    """How much it is of which two rulesets can't be told apart by a run."""

    flows: int = 0
    records: int = 0

    def __bool__(self) -> bool:
        return bool(self.records)

    def text(self) -> str:
        flows = f"{plural(self.flows, 'flow')}, " if self.flows else ""
        return f"not compared: {flows}{plural(self.records, 'record')}: what the rulesets change for these isn't known"


class Router:
    """Where the router did otherwise than a run over the flows of its capture; without a run, than the box file's
    routes. `ways` has the packets of each way that differs, `flows` the flows that have some: what a run says of these
    isn't what the router does.

    Not among them is what a run drops for a reason that is told elsewhere: answers to ports that Linux chose, and flows
    whose beginning isn't in the capture. With `only` other records aren't looked at."""

    def __init__(self, flows: Flows, box: Box, replay: Replay | None = None, only: Collection[int] = (),
                 copies: Copies | None = None) -> None:
        self.of, self.box, self.replay, self.only = flows, box, replay, set(only)
        self.copies = copies or Copies(flows, box)
        self.ways: dict[Way, Astray] = {}
        self.moved = self.moved_flows() if self.copies.hops else {}
        self.earlier: dict[int, bool] = {}  # by flow whether it may have begun before the capture, if a run drops it
        began: dict[int, Way] = {}  # by flow the way with which it went astray
        for record, way in self.each():
            flow = flows.of[record]
            # what a run drops of a flow that is astray already comes of that
            if way.is_routed_otherwise or began.get(flow, way) == way and not self.is_explained(record, flow):
                self.ways.setdefault(way, Astray()).take(record, flow)
                if flow:
                    began.setdefault(flow, way)
        self.flows = set(began)

    def __bool__(self) -> bool:
        return bool(self.ways)

    def each(self) -> Iterator[tuple[int, Way]]:
        """Each record that the router sent on otherwise, with its way."""
        name, is_run = self.box.interface_name, self.replay is not None
        for record, hop, routed, dropped in self.sent_on():
            if (routed != hop.left_by or dropped is not None) and (not self.only or record in self.only):
                yield record, Way(
                    name(hop.came_by), name(hop.left_by), name(routed) if routed else None, dropped, is_run)

    def sent_on(self) -> Iterator[tuple[int, Hop, int, str | None]]:
        """Of each record that the router sent on the way, the interface by which the run sends it, or would, and the
        outcome where it doesn't."""
        copies, replay = self.copies, self.replay
        if not copies.hops:
            return
        if replay is None:
            for record in range(1, len(copies.of)):
                hop = copies.hop(record)
                if hop:
                    yield record, hop, hop.routed, None
            return
        for record, frame in enumerate(replay.leaving_packets(), 1):
            hop = copies.hop(record)
            if hop and replay.to[record] != NOT_SENT:
                if frame is not None:
                    yield record, hop, number_of(frame[4:8]), None
                else:
                    yield record, hop, hop.routed, replay.outcome(record)

    def moved_flows(self) -> dict[int, int]:
        """In a run of the capture as it is: the flows with answers that would have to go to other ports, with the first
        such record."""
        if self.replay is None or not self.replay.as_captured:
            return {}
        moved: dict[int, int] = {}
        for record, place in enumerate(self.replay.decide(False).to):
            if place:
                moved.setdefault(self.of.of[record], record)
        return moved

    def is_explained(self, record: int, flow: int) -> bool:
        """Whether it is told elsewhere why a run drops a record of the flow."""
        if not flow:
            return False
        if flow not in self.earlier:
            one = self.of.all[flow]
            is_midway = one.kind == TCP and not one.has_begun and not one.is_own
            self.earlier[flow] = is_midway or self.answers_earlier(one)
        return self.earlier[flow] or self.moved.get(flow, record + 1) <= record

    def answers_earlier(self, flow: Flow) -> bool:
        """Whether a flow begins with a packet to an address of the box that the router sent on all the same, so soon
        that the translation may have begun before the capture."""
        flows = self.of
        first = flows.first[flow.number]
        limit = self.box.limits()[flow.kind]
        return (flow.kind != TCP and destination_of(flows.tuple_of(first)) in self.box.addresses
                and flows.seconds(first) - flows.seconds(1) < limit)

    def told(self) -> list[tuple[Way, Astray]]:
        """The ways, that of most packets first."""
        return sorted(self.ways.items(), key=lambda one: (-one[1].packets, one[1].first))

    def lines(self) -> list[str]:
        """What a reader has to know before all else: a line for each way, and below it what may be the reason."""
        told = self.told()
        lines: list[str] = []
        for way, astray in told[:MOST_WAYS]:
            lines += [f"the run isn't the router: {astray.count_text()} {way.text()}: {astray.records_text()}",
                      f"    {way.reason}"]
        rest = sum(astray.packets for _, astray in told[MOST_WAYS:])
        return lines + ([f"    and {plural(rest, 'packet')} more that went otherwise"] if rest else [])

    def not_compared(self) -> Uncompared:
        """All records of the flows that have some, and those of no flow."""
        if not self.ways:
            return Uncompared()
        count = sum(flow in self.flows for flow in self.of.of) + sum(
            astray.packets for astray in self.ways.values() if not astray.flows)
        return Uncompared(len(self.flows), count)

    def ways_json(self) -> list[dict[str, object]]:
        """Each way as docs/JSON.md has it."""
        return [{"came_by": way.came_by, "left_by": way.left_by, "routed": way.routed, "dropped": way.dropped,
                 "packets": astray.packets, "flows": len(astray.flows), "first": astray.first}
                for way, astray in self.told()]
