"""Histories that lead a packet with wanted facts to a base chain: the packets that begin its connection, its answers,
and the packet itself, each made when a run has shown what became of those before.
"""
from __future__ import annotations

import struct
from dataclasses import dataclass, replace
from itertools import islice
from typing import Generator, Iterator, Sequence

from toolbox.number_sets import Numbers
from toolbox.packets import (
    ECHO_REPLY, ECHO_REQUEST, ICMP, ICMP_ERRORS, TCP, UDP, inverse, kind_of, numbered_parts, tuple_at)
from toolbox.passages import TRANSLATING, Effect, Ends, Known, Network, Order, Stage, Target, Wish, ways_to
from toolbox.shaping import QUOTED, Sent, Shaping, packed
from toolbox.told_sets import (
    ANYTHING, CT_MARK, DESTINATION, DESTINATION_PORT, DIRECTION, DNAT, ESTABLISHED, ICMP_TYPE, INPUT, INVALID,
    LENGTH, MARK, NEW, NO_STATE, ORIGINAL, OUTPUT, PROTOCOL, RELATED, REPLY, SEEN_REPLY, SNAT, SOURCE, SOURCE_PORT,
    STATE, STATUS, STATUSES, TTL, UNTRACKED, Facts)

Fact = Numbers.listed
ONE_ICMP, NO_ICMP = Fact([ICMP]), Numbers.between(0, 255) - Fact([ICMP])
ERRORS = Fact(ICMP_ERRORS)
ENDS = (SOURCE, DESTINATION, SOURCE_PORT, DESTINATION_PORT)
# what a connection has from its first packet to its last
OF_CONNECTION = (*ENDS, PROTOCOL, INPUT, OUTPUT)
BEFORE_INPUT: Order = (Stage.INPUT, -(1 << 40), 0)
BEFORE_FORWARD: Order = (Stage.FORWARD, -(1 << 40), 0)
AT_START: Order = (Stage.RAW, -(1 << 40), 0)
AT_END: Order = (Stage.AFTER_SOURCE_NAT, 1 << 40, 0)
# behind destination NAT, before source NAT
ROUTED = (BEFORE_FORWARD, BEFORE_INPUT)
TRACKED = (NEW, ESTABLISHED, RELATED)
OPENERS, TRIES = 2, 2  # how many of the ways are tried
LEAST_LENGTH = 20


@dataclass(frozen=True)
class Came:
    """What a run shows of a packet: whether it was accepted, and its bytes as it left, where it was forwarded."""

    accepted: bool
    left: bytes | None = None


# makes a packet, learns what became of it, makes the next
History = Generator[Sent, Came, None]


@dataclass(frozen=True)
class Aim:
    """Facts that are wanted at a base chain; which of several packets with them is made."""

    order: Order
    facts: Facts
    turn: int = 0

    @property
    def stage(self) -> int:
        return self.order[0]

    def paths(self) -> Sequence[bool | None]:
        """Whether packets that come there are forwarded, or whether that doesn't matter."""
        if self.stage <= Stage.AFTER_NAT:
            return (None,)
        return (self.stage != Stage.INPUT,)


# ---- facts that some history gives (docs/SPEC.md, 6.2)


def kinds_of(facts: Facts, icmp_types: Numbers) -> Iterator[Facts]:
    """The facts of each kind of packet that has a tuple: of ICMP with these types alone."""
    for protocols in (Fact([TCP]), Fact([UDP]), ONE_ICMP, NO_ICMP - Fact([TCP, UDP])):
        one = facts.within(PROTOCOL, protocols)
        if one and protocols == ONE_ICMP:
            one = one.within(ICMP_TYPE, icmp_types)
        if one:
            yield one


def possible(network: Network, aim: Aim) -> Iterator[Facts]:
    """The facts of an aim, one state each, as far as a history may give them."""
    states = (NO_STATE,) if aim.stage == Stage.RAW else (NEW, UNTRACKED, ESTABLISHED, INVALID, RELATED)
    there = routed_facts(network, aim)
    for state in states:
        one = there and there.within(STATE, Fact([state]))
        for of_kind in with_packets(one, state) if one else ():
            if can_be(network, aim, of_kind, state):
                yield of_kind


def routed_facts(network: Network, aim: Aim) -> Facts | None:
    """The facts of an aim with the destinations that the box's routes lead there."""
    if aim.stage <= Stage.AFTER_NAT:
        return aim.facts
    targets = network.own if aim.stage == Stage.INPUT else network.leaving_by(aim.facts.of(OUTPUT))
    return aim.facts.within(DESTINATION, targets)


def with_packets(facts: Facts, state: int) -> Iterator[Facts]:
    """Those that packets of this state have in their headers, and of their connection."""
    if state in (RELATED, INVALID):
        icmp = facts.within(PROTOCOL, ONE_ICMP)
        types = ERRORS if state == RELATED else Numbers.between(0, 255) - Fact([ECHO_REQUEST])
        found = icmp and icmp.within(ICMP_TYPE, types)
        if found:
            yield from directed(found, (REPLY, ORIGINAL)) if state == RELATED else (found,)
    elif state == NEW:
        yield from of_connections(facts, ORIGINAL, ECHO_REQUEST, unseen())
    elif state == ESTABLISHED:
        yield from of_connections(facts, REPLY, ECHO_REPLY, STATUSES - unseen())
        yield from of_connections(facts, ORIGINAL, ECHO_REQUEST, STATUSES - unseen())
    else:
        yield from kinds_of(facts, Numbers.between(0, 255))


def of_connections(facts: Facts, direction: int, icmp_type: int, statuses: Numbers) -> Iterator[Facts]:
    """Those of packets that belong to a connection, in this direction and with these statuses."""
    for one in kinds_of(facts, Fact([icmp_type])):
        for told in directed(one, (direction,)):
            seen = told.within(STATUS, statuses)
            if seen:
                yield seen


def unseen() -> Numbers:
    """Statuses without an answer."""
    return Fact(status for status in STATUSES if not status & SEEN_REPLY)


def directed(facts: Facts, directions: Sequence[int]) -> Iterator[Facts]:
    for direction in directions:
        one = facts.within(DIRECTION, Fact([direction]))
        if one:
            yield one


def can_be(network: Network, aim: Aim, facts: Facts, state: int) -> bool:
    """Whether the ruleset may write what is wanted, and the box may route it."""
    wants_mark = 0 not in facts.of(MARK)
    wants_ct_mark = state in TRACKED and 0 not in facts.of(CT_MARK)
    needed = [(wants_mark, Effect.SETS_MARK), (wants_ct_mark, Effect.SETS_CT_MARK),
              (state == UNTRACKED, Effect.UNTRACKS)]
    needed += [(needs in needs_of(facts), needs) for needs in TRANSLATING]
    if not facts.of(MARK) & network.marks or state in TRACKED and not facts.of(CT_MARK) & network.marks:
        return False
    if any(is_needed and effect not in network.effects for is_needed, effect in needed):
        return False
    if not facts.of(LENGTH) & Numbers.between(LEAST_LENGTH, 65535):
        return False
    if aim.stage >= Stage.FORWARD and not facts.of(TTL) & Numbers.between(1, 254):
        return False
    return True


def needs_of(facts: Facts) -> frozenset[Effect]:
    """The translations without which no packet has the status."""
    statuses = list(facts.of(STATUS))
    found = {Effect.TRANSLATES_SOURCE} if all(status & SNAT for status in statuses) else set()
    return frozenset(found | ({Effect.TRANSLATES_DESTINATION} if all(status & DNAT for status in statuses) else set()))


def forbidden_by(facts: Facts) -> frozenset[Effect]:
    """The translations with which no packet has the status."""
    statuses = list(facts.of(STATUS))
    found = {Effect.TRANSLATES_SOURCE} if not any(status & SNAT for status in statuses) else set()
    return frozenset(found | ({Effect.TRANSLATES_DESTINATION} if not any(status & DNAT for status in statuses)
                              else set()))


# ---- histories


def histories(network: Network, aim: Aim) -> Iterator[History]:
    """Histories that may lead a packet with the wanted facts there, the shortest first."""
    for facts in possible(network, aim):
        state = facts.of(STATE).least()
        one = replace(aim, facts=facts)
        if state in (NO_STATE, NEW, UNTRACKED, INVALID):
            yield from alone(network, one, state)
        if state == NEW and 0 not in facts.of(CT_MARK):
            yield again(network, one)
        if state == ESTABLISHED:
            yield answer(network, one) if REPLY in facts.of(DIRECTION) else behind_answer(network, one)
        if state == RELATED:
            yield about_sent(network, one) if REPLY in facts.of(DIRECTION) else about_answer(network, one)


def wish_of(facts: Facts, state: int) -> Wish:
    """What has to be done on the way of a first packet."""
    needs = set(needs_of(facts)) if state == NEW else set()
    forbids = forbidden_by(facts) if state == NEW else frozenset[Effect]()
    if 0 not in facts.of(MARK):
        needs.add(Effect.SETS_MARK)
    if state == NEW and 0 not in facts.of(CT_MARK):
        needs.add(Effect.SETS_CT_MARK)
    if state == UNTRACKED:
        needs.add(Effect.UNTRACKS)
    return Wish(ANYTHING, state, frozenset(needs), forbids)


def alone(network: Network, aim: Aim, state: int) -> Iterator[History]:
    """A packet without any before it."""
    wish = wish_of(aim.facts, state)
    states = (NEW, INVALID) if aim.stage == Stage.RAW else (state,)
    for forwards in aim.paths():
        for one in states:
            target = Target(aim.order, aim.facts, forwards)
            start = replace(wish, facts=Facts({STATE: Fact([one])}) if state != NO_STATE else ANYTHING)
            for way in some_ways(ways_to(network, target, start), TRIES, aim.turn):
                yield single(network, aim, way)
            if state != NO_STATE:
                break


def some_ways(ways: Iterator[Facts], count: int, turn: int) -> list[Facts]:
    """So many of the ways, others with another turn, as far as there are others."""
    return list(islice(ways, count * (turn + 1)))[-count:]


def single(network: Network, aim: Aim, way: Facts) -> History:
    # an error that is about no packet of a connection
    about = unrelated(way)
    made = Shaping(network, aim.turn).made(way, about)
    if made:
        yield made


def unrelated(facts: Facts) -> bytes:
    """A datagram that no connection has."""
    header = struct.pack(">BBHHHBBH", 0x45, 0, QUOTED, 0, 0, 60, UDP, 0)
    source, target = (facts.of(name).least() for name in (DESTINATION, SOURCE))
    return header + packed(source) + packed(target) + struct.pack(">HHHH", 9, 9, 8, 0)


def first_packets(network: Network, aim: Aim, wanted: Facts, order: Order, needs: frozenset[Effect],
                  forbids: frozenset[Effect] = frozenset()) -> Iterator[Sent]:
    """First packets of connections that come through to the end, with these facts at that place."""
    wish = Wish(Facts({STATE: Fact([NEW])}), NEW, needs, forbids)
    paths: Sequence[bool] = (True, False)
    if order[0] == Stage.INPUT:
        paths = (False,)
    elif order[0] >= Stage.FORWARD:
        paths = (True,)
    for one in kinds_of(wanted, Fact([ECHO_REQUEST])):
        for forwards in paths:
            target = Target(order, one, forwards, passes=True)
            for way in some_ways(ways_to(network, target, wish), OPENERS, aim.turn):
                made = Shaping(network, aim.turn).made(way)
                if made:
                    yield made


def swapped(facts: Facts) -> Facts:
    """The ends the other way round."""
    other = {SOURCE: DESTINATION, DESTINATION: SOURCE, SOURCE_PORT: DESTINATION_PORT, DESTINATION_PORT: SOURCE_PORT}
    return Facts({other.get(name, name): numbers for name, numbers in facts.fields.items()})


def ends_of(key: bytes) -> Ends:
    """The ends of a tuple; the identifier of an echo stands in a port's place."""
    source, target, source_port, target_port, kind = numbered_parts(key)
    protocol = ICMP if kind in (1, 255) else kind
    here = {SOURCE: Fact([int.from_bytes(source, "big")]), PROTOCOL: Fact([protocol])}
    there = {DESTINATION: Fact([int.from_bytes(target, "big")])}
    if protocol in (TCP, UDP) or kind == 1:
        here[SOURCE_PORT] = Fact([source_port])
    if protocol in (TCP, UDP) or kind == 255:
        there[DESTINATION_PORT] = Fact([target_port])
    return Ends(Facts(here), Facts(there))


def is_own(network: Network, facts: Facts) -> bool:
    return bool(facts.of(DESTINATION) & network.own)


@dataclass(frozen=True)
class Opened:
    """A connection that began: the tuple with which its first packet came, and that with which it left."""

    came: bytes
    left: bytes

    def of(self, direction: int) -> Known:
        """The ends of its packets of a direction."""
        if direction == ORIGINAL:
            return Known(ends_of(self.came), ends_of(self.left))
        return Known(ends_of(inverse(self.left)), ends_of(inverse(self.came)))


def opened_by(sent: Sent, came: Came) -> Opened | None:
    """The connection that a packet began, if it did."""
    first = tuple_at(sent.packet, 0)
    left = first if came.left is None else tuple_at(came.left, 0)
    return Opened(first, left) if came.accepted and first and left else None


def known_packet(network: Network, aim: Aim, known: Known, wanted: Facts, state: int, passes: bool = False,
                 about: bytes | None = None) -> Sent | None:
    """A packet of a connection with these facts at the place of the aim."""
    there = known.at(aim.stage)
    both = there and wanted.without(CT_MARK, STATUS) & there
    behind = known.leaves.destination
    forwards = not is_own(network, behind)
    if both is None or passes is False and aim.paths()[0] not in (None, forwards):
        return None
    wish = replace(wish_of(both, state), facts=Facts({STATE: Fact([state])}), known=known)
    target = Target(aim.order, both, forwards if passes else aim.paths()[0], passes)
    for way in ways_to(network, target, wish):
        made = Shaping(network, aim.turn).made(way, about)
        if made:
            return made
    return None


def openers(network: Network, aim: Aim, wanted: Facts, order: Order) -> Iterator[Sent]:
    """First packets for a history, with what the wanted facts ask of the connection."""
    facts = aim.facts
    needs = needs_of(facts) | ({Effect.SETS_CT_MARK} if 0 not in facts.of(CT_MARK) else frozenset())
    yield from first_packets(network, aim, wanted, order, needs, forbidden_by(facts))


def seen_as(aim: Aim) -> tuple[Order, ...]:
    """Where the ends of a connection's first packet are those that rules at the aim read of its answers."""
    if aim.stage <= Stage.DESTINATION_NAT:
        return (AT_END, BEFORE_INPUT)
    return (AT_START,) if aim.stage > Stage.SOURCE_NAT else ROUTED


def again(network: Network, aim: Aim) -> History:
    """A packet of a connection that wasn't answered yet, behind its first one."""
    for sent in openers(network, aim, aim.facts.only(*OF_CONNECTION), aim.order):
        opened = opened_by(sent, (yield sent))
        if opened:
            wanted = aim.facts
            made = known_packet(network, aim, opened.of(ORIGINAL), wanted, NEW)
            if made:
                yield made
        return


def answer(network: Network, aim: Aim) -> History:
    """An answer to a first packet."""
    wanted = swapped(aim.facts.only(*ENDS, PROTOCOL))
    for order in seen_as(aim):
        for sent in islice(openers(network, aim, wanted, order), 1):
            opened = opened_by(sent, (yield sent))
            if opened:
                made = known_packet(network, aim, opened.of(REPLY), aim.facts, ESTABLISHED)
                if made:
                    yield made
            return


def answer_through(network: Network, aim: Aim, opened: Opened) -> Sent | None:
    """Any answer that comes through to the end."""
    place = replace(aim, order=BEFORE_FORWARD, facts=ANYTHING)
    kinds = kinds_of(Facts({DIRECTION: Fact([REPLY]), STATE: Fact([ESTABLISHED])}), Fact([ECHO_REPLY]))
    known = opened.of(REPLY)
    for facts in kinds:
        made = known_packet(network, place, known, facts, ESTABLISHED, passes=True)
        if made:
            return made
    return None


def behind_answer(network: Network, aim: Aim) -> History:
    """A packet in direction original behind an answer."""
    for sent in islice(openers(network, aim, aim.facts.only(*OF_CONNECTION), aim.order), 1):
        opened = opened_by(sent, (yield sent))
        back = opened and answer_through(network, aim, opened)
        if opened and back and (yield back).accepted:
            made = known_packet(network, aim, opened.of(ORIGINAL), aim.facts, ESTABLISHED)
            if made:
                yield made


def error_about(network: Network, aim: Aim, datagram: bytes, known: Known) -> Sent | None:
    """An ICMP error about a datagram, to its sender."""
    return known_packet(network, aim, known, aim.facts, RELATED, about=datagram)


def to_sender(known: Known) -> Known:
    """The ends of an error about a packet: anybody may send it, to the sender of the packet."""
    came, leaves = (ends.destination.only(DESTINATION) for ends in (known.came, known.leaves))
    return Known(Ends(ANYTHING, came), Ends(ANYTHING, leaves))


def about_sent(network: Network, aim: Aim) -> History:
    """An error about the first packet of a connection."""
    target = aim.facts.of(DESTINATION)
    wanted = Facts({SOURCE: target})
    for sent in islice(openers(network, aim, wanted, BEFORE_FORWARD), 1):
        came = yield sent
        opened = opened_by(sent, came)
        if opened:
            made = error_about(network, aim, came.left or sent.packet, to_sender(opened.of(REPLY)))
            if made:
                yield made


def about_answer(network: Network, aim: Aim) -> History:
    """An error about an answer; where the box itself would have answered, about what it would have sent."""
    wanted = Facts({DESTINATION: aim.facts.of(DESTINATION)})
    for order in ROUTED:
        for sent in islice(openers(network, aim, wanted, order), 1):
            opened = opened_by(sent, (yield sent))
            if not opened:
                return
            back = answer_through(network, aim, opened)
            answered = (yield back).left if back else None
            datagram = answered or datagram_of(inverse(opened.came))
            made = error_about(network, aim, datagram, to_sender(opened.of(ORIGINAL)))
            if made:
                yield made
            return


def datagram_of(key: bytes) -> bytes:
    """The front of a datagram with this tuple."""
    source, target, source_port, target_port, kind = numbered_parts(key)
    protocol = ICMP if kind in (1, 255) else kind
    header = struct.pack(">BBHHHBBH", 0x45, 0, QUOTED, 0, 0, 63, protocol, 0) + source + target
    if protocol == ICMP:
        answers = kind_of(key) == 255
        return header + struct.pack(">BBHHH", ECHO_REPLY if answers else ECHO_REQUEST, 0, 0,
                                    target_port if answers else source_port, 1)
    return header + struct.pack(">HHHH", source_port, target_port, 8, 0)
