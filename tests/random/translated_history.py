"""Long random histories with NAT: what becomes of each record is told by a search through all connections that were
begun, with the mappings that they were begun with, by docs/SPEC.md, section 7. The ruleset is
tests/rows/translated.nft, which `aimed`, `asked` and `lets_through` tell in Python."""
from __future__ import annotations

import enum
from dataclasses import dataclass
from typing import Iterator, Sequence

from history_packets import (
    ACK, FIN, RST, SECOND, SYN, USUAL_TTL, Dice, End, Ends, History, Kind, Left, Load, Packet, address, is_closing,
    limit_of,
)
from ports import candidates

GATE, OUTER, OTHER_OUTER = map(address, ("192.168.1.1", "203.0.113.1", "203.0.113.2"))
NAMED, OTHER_NAME, SERVER = map(address, ("198.51.100.7", "203.0.113.200", "192.168.1.20"))
OUTSIDE_PORTS = (53, 123, 80, 54, 443, 5000, 5001, 6000, 8080, 9000)


class Outcome(enum.Enum):
    """How a packet ends."""

    LEFT = "left"
    LOCAL = "local"
    RULE = "rule"
    TTL = "ttl"
    NOPORT = "noport"
    CLASH = "clash"

    @property
    def keeps(self) -> bool:
        """Whether a packet that ends so counts for its connection."""
        return self in (Outcome.LEFT, Outcome.LOCAL)


@dataclass(frozen=True)
class Mapping:
    """An internal end and the external one that stands for it."""

    internal: End
    external: End


@dataclass(frozen=True)
class Asked:
    """The external address that a first packet is to have, and its ports."""

    address: int
    low: int
    high: int


class Connection:
    """Between which ends its first packet came, and between which it left; with the mapping that its source got, and
    that by which its destination was found."""

    def __init__(self, packet: Packet, ends: Ends, source: Mapping | None, dest: Mapping | None) -> None:
        self.protocol, self.came, self.left = packet.protocol, packet.ends, ends
        self.source, self.dest = source, dest
        self.flags = [packet.flags, 0]
        self.has_answer = self.is_ended = False
        self.last = packet.at

    def lives(self, now: int) -> bool:
        return not self.is_ended and now - self.last < limit_of(self.protocol, *self.flags)


@dataclass(frozen=True)
class Belonging:
    """The connection to which a packet belongs, and whether it comes back."""

    connection: Connection
    is_back: bool


class Translated:
    """What becomes of a packet: between which ends it goes."""

    def __init__(self, packet: Packet, connections: list[Connection]) -> None:
        self.packet, self.ends = packet, packet.ends
        self.live = [one for one in connections if one.lives(packet.at)]
        self.source: Mapping | None = None
        self.dest: Mapping | None = None
        self.is_established = False

    def mappings(self) -> Iterator[Mapping]:
        for one in self.live:
            if one.protocol == self.packet.protocol:
                yield from (it for it in (one.source, one.dest) if it)

    def behind(self, external: End) -> End | None:
        """The internal end that an external one stands for."""
        return next((one.internal for one in self.mappings() if one.external == external), None)

    def port_at(self, there: int) -> int | None:
        """The port of the packet's source at an external address, by a mapping that is held."""
        held = [one.external for one in self.mappings() if one.internal == self.ends.source]
        return next((external.port for external in held if external.address == there), None)

    def lead(self) -> Outcome:
        """Leads a packet whose destination is translated to its end, but for its source."""
        is_local = self.ends.destination.address in (GATE, OUTER, OTHER_OUTER)
        if not is_local and self.packet.ttl < 2:
            return Outcome.TTL
        if not self.lets_through(is_local):
            return Outcome.RULE
        return Outcome.LOCAL if is_local else Outcome.LEFT

    # What the rules of translated.nft tell.

    def lets_through(self, is_local: bool) -> bool:
        protocol, to = self.packet.protocol, self.ends.destination
        if is_local:
            return protocol == "udp"
        is_forwarded_to = to != self.packet.ends.destination and protocol != "tcp"
        is_to_server = protocol == "tcp" and to.port == 8080
        return self.is_established or self.packet.by == "lan" or is_forwarded_to or is_to_server

    def aimed(self) -> End | None:
        """Where the rules send the first packet of a connection."""
        to, by = self.ends.destination, self.packet.by
        if to.address == OTHER_NAME:
            return End(NAMED, to.port)
        if self.packet.protocol == "tcp" and by == "wan" and to.port == 80:
            return End(SERVER, 8080)
        if self.packet.protocol == "udp" and by == "lan" and to.port == 54:
            return End(GATE, 5354)
        return None

    def asked(self) -> Asked | None:
        """What the source is to become: by the rules, or else by the mapping at which the packet was led inside, unless
        it came from outside."""
        to = self.ends.destination
        if not to.is_inside:
            is_time = self.packet.protocol == "udp" and to.port == 123
            return Asked(OTHER_OUTER, 1020, 1027) if is_time else Asked(OUTER, 1, 65535)
        if self.dest and self.packet.by == "lan":
            return Asked(self.dest.external.address, 1, 65535)
        return None

    def port_for(self, asked: Asked) -> int | None:
        """The port for the source at an external address: the one that it has there; else the first that no end has."""
        held = self.port_at(asked.address)
        if held is not None:
            return held
        taken = {one.external for one in self.mappings()}
        ports = candidates(self.packet.protocol, self.ends.source.port, asked.low, asked.high)
        return next((port for port in ports if End(asked.address, port) not in taken), None)

    def is_taken(self) -> bool:
        """Whether a packet back would be one of another connection."""
        alike = [one for one in self.live if one.protocol == self.packet.protocol]
        is_echo = self.packet.protocol == "echo"
        return any(one.left == self.ends or (not is_echo and one.came == self.ends.back) for one in alike)

    def aim(self) -> None:
        """Leads the first packet of a connection to its destination."""
        aim, external = self.aimed(), self.ends.destination
        if aim is None and self.packet.protocol in ("udp", "tcp"):
            aim = self.behind(external)
            self.dest = Mapping(aim, external) if aim else None
        if aim:
            self.ends = Ends(self.ends.source, aim)

    def begin(self, connections: list[Connection]) -> Outcome:
        """How the first packet of a connection ends, which is behind the others if it begins it."""
        self.aim()
        outcome, asked = self.lead(), self.asked()
        if outcome is Outcome.LEFT and asked:
            port = self.port_for(asked)
            if port is None:
                return Outcome.NOPORT
            self.source = Mapping(self.ends.source, End(asked.address, port))
            self.ends = Ends(self.source.external, self.ends.destination)
        if not outcome.keeps:
            return outcome
        if self.is_taken():
            return Outcome.CLASH
        connections.append(Connection(self.packet, self.ends, self.source, self.dest))
        return outcome

    def within(self, of: Belonging) -> Outcome:
        """How a packet of the connection ends."""
        one = of.connection
        self.ends = one.came.back if of.is_back else one.left
        self.is_established = of.is_back or one.has_answer
        outcome = self.lead()
        if outcome.keeps:
            one.last = self.packet.at
            one.has_answer |= of.is_back
            one.flags[of.is_back] |= self.packet.flags
        return outcome

    def belonging(self) -> Belonging | None:
        packet = self.packet
        alike = [one for one in self.live if one.protocol == packet.protocol]
        for one in alike:
            if packet.kind is not Kind.ECHO_REPLY and one.came == packet.ends:
                return Belonging(one, False)
        for one in alike:
            if packet.kind is not Kind.ECHO_REQUEST and one.left == packet.ends.back:
                return Belonging(one, True)
        return None


@dataclass(frozen=True)
class Ended:
    """A record, how its packet ends, and between which ends it goes then."""

    packet: Packet
    outcome: Outcome
    ends: Ends


def translate(packet: Packet, connections: list[Connection]) -> Ended:
    """What becomes of a packet; what it begins is behind the connections that were begun."""
    going = Translated(packet, connections)
    found = going.belonging()
    if found and not found.is_back and packet.is_lone_syn and is_closing(*found.connection.flags):
        found.connection.is_ended, found = True, None
        going = Translated(packet, connections)
    if found:
        outcome = going.within(found)
    else:
        outcome = going.lead() if packet.kind is Kind.ECHO_REPLY else going.begin(connections)
    return Ended(packet, outcome, going.ends)


# ---- what is drawn

@dataclass(frozen=True)
class Drawn:
    """A packet to come: its interface, its ends, and what it carries."""

    by: str
    ends: Ends
    load: Load


def tcp(dice: Dice) -> Load:
    drawn = dice.roll(10)
    flags = SYN if drawn < 4 else SYN | ACK if drawn < 6 else ACK if drawn < 8 else FIN | ACK if drawn == 8 else RST
    return Load(Kind.TCP, flags)


def any_load(dice: Dice) -> Load:
    drawn = dice.roll(16)
    if 7 <= drawn < 13:
        return tcp(dice)
    return Load({13: Kind.ECHO_REQUEST, 14: Kind.GRE, 15: Kind.ECHO_REPLY}.get(drawn, Kind.UDP))


def answer_to(dice: Dice, kind: Kind) -> Load:
    if kind is Kind.TCP:
        return tcp(dice)
    return Load({Kind.ECHO_REQUEST: Kind.ECHO_REPLY, Kind.ECHO_REPLY: Kind.ECHO_REQUEST}.get(kind, kind))


def lately(dice: Dice, past: Sequence[Ended]) -> Drawn | None:
    """An answer to one of those that left lately, if the dice hit it."""
    place = len(past) - 1 - dice.roll(64)
    if place < 0 or past[place].outcome is not Outcome.LEFT:
        return None
    one = past[place]
    by = "lan" if one.ends.destination.is_inside else "wan"
    return Drawn(by, one.ends.back, answer_to(dice, one.packet.kind))


def inside(number: int) -> End:
    """One of 150 ends in lan, of ten ports at each of fifteen hosts."""
    return End(address("192.168.1.10") + number % 15, 5000 + number // 15 % 10)


def outside(number: int) -> End:
    """One of 150 ends behind wan, likewise."""
    return End(address("198.51.100.1") + number % 15, OUTSIDE_PORTS[number // 15 % 10])


def any_packet(dice: Dice) -> Drawn:
    """Outward, to a host of lan by its end outside, or to it directly."""
    most = 1 + dice.roll(150)
    place = dice.roll(most)
    inner = inside(place)
    outer = outside(place + dice.roll(3))
    external = End(OUTER, 5000 + dice.roll(20))
    drawn = dice.roll(16)
    if drawn < 6:
        by, ends = "lan", Ends(inner, outer)
    elif drawn < 8:
        by, ends = "lan", Ends(inside(place % 6), End(NAMED if drawn == 6 else OTHER_NAME, 53))
    elif drawn < 10:
        by, ends = "wan", Ends(outer, external)
    elif drawn < 13:
        by, ends = "lan", Ends(inner, external)
    elif drawn == 13:
        by, ends = "wan", Ends(outer, End(OTHER_OUTER, 1020 + dice.roll(8)))
    else:
        by, ends = "wan", Ends(outer, End(OUTER, 80) if drawn == 14 else inner)
    return Drawn(by, ends, any_load(dice))


def translated_history(seed: int, count: int) -> History:
    """About half of so many records answer one that left."""
    dice, second = Dice(seed), 0
    past: list[Ended] = []
    connections: list[Connection] = []
    for _ in range(count):
        second += dice.wait()
        answer = lately(dice, past) if dice.roll(8) < 5 else None
        drawn = answer or any_packet(dice)
        ttl = 1 if dice.roll(32) == 0 else USUAL_TTL
        past.append(translate(Packet(second * SECOND, drawn.by, drawn.load, drawn.ends, ttl), connections))
    left = [Left(place, one.ends) for place, one in enumerate(past) if one.outcome is Outcome.LEFT]
    counts = {outcome: sum(one.outcome is outcome for one in past) for outcome in Outcome}
    totals = {
        "local": counts[Outcome.LOCAL], "drop rule": counts[Outcome.RULE], "drop ttl": counts[Outcome.TTL],
        "drop noport": counts[Outcome.NOPORT], "drop clash": counts[Outcome.CLASH], "begun": len(connections),
        "live": sum(one.lives(second * SECOND) for one in connections),
    }
    check_is_eventful(totals, connections)
    name = f"translated by a search {seed}"
    return History(name, "translated.nft", "two_outside.txt", [one.packet for one in past], left, [], totals)


def check_is_eventful(totals: dict[str, int], connections: Sequence[Connection]) -> None:
    """More than nine records end in each way, and as many connections each get another port than their own, get one
    that another end had before, and go from lan to lan by way of an external end."""
    mapped = [(one, one.source) for one in connections if one.source]
    others = [one for _, one in mapped if one.internal.port != one.external.port]
    hairpins = [one for one, _ in mapped if one.dest and one.left.destination.is_inside]
    reused = 0
    for place, (one, source) in enumerate(mapped):
        earlier = [old for other, old in mapped[:place] if other.protocol == one.protocol]
        reused += any(old.external == source.external and old.internal != source.internal for old in earlier)
    for number in (*totals.values(), len(others), reused, len(hairpins)):
        assert number > 9, totals
