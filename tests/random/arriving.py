"""Captures drawn by chance, the same for the same seed. A run (reading.py) takes each record as it is drawn, so that
later ones may answer what left the box."""
from __future__ import annotations

import random
import struct
from dataclasses import dataclass

from drawn import BOX, Drawing, TableDrawing
from reading import Arrived, Run
from plain import with_checksum
from rows import datagram
from tracking import ECHO_REPLY, ECHO_REQUEST, ERRORS, ICMP, SECOND, TCP, UDP, End, Packet


@dataclass(frozen=True)
class Way:
    """Between which ends a packet goes, and with which protocol."""

    source: End
    destination: End
    protocol: int


@dataclass(frozen=True)
class Earlier:
    """A packet that others may follow, and how they may go."""

    way: Way
    packet: Packet


@dataclass(frozen=True)
class Next:
    """How a packet goes, and the packet that it is an error about, if it is one."""

    way: Way
    about: Packet | None = None


@dataclass(frozen=True)
class Drawn:
    """The run of a ruleset over a capture, and the ruleset's text."""

    run: Run
    text: str


class CaptureDrawing(Drawing):
    """Draws the records of a capture."""

    def end(self) -> End:
        return End(self.address(), self.port())

    def way(self) -> Way:
        """Any source, destination and protocol."""
        other = self.one(47, 50, 2, self.below(48), 255)
        protocol = self.one(*[TCP] * 4, *[UDP] * 3, *[ICMP] * 2, other, *[47] * self.has_few)
        source, destination = (self.address() if self.chance(97) else self.number("ipv4_addr") for _ in "ab")
        if self.chance(10):
            destination = self.one(*BOX.own)
        return Way(End(source, self.port()), End(destination, self.port()), protocol)

    def checksum(self) -> int:
        """One that is hardly right, of UDP also none."""
        return self.one(0, 65_535, self.below(65_536))

    def shown(self, about: Packet) -> bytes:
        """What an ICMP error shows of a packet: it whole or cut short."""
        behind = self.one(len(about.data), len(about.data), 18, 17, 8, 7, 0)
        return about.data[:about.start + behind]

    def echo(self, port: int, other: int, spare: bytes) -> bytes:
        """A message of ICMP, mostly an echo. The identifier is the port of the end that asks."""
        if self.has_few and self.chance(90):
            kinds = ECHO_REQUEST, ECHO_REPLY
        else:
            kinds = self.below(20), self.number("icmp_type")
        kind = self.one(ECHO_REQUEST, ECHO_REQUEST, ECHO_REPLY, *kinds)
        return with_checksum(struct.pack(">BBHHH", kind, 0, 0, other if kind == ECHO_REPLY else port, 1) + spare, 2)

    def packet(self, following: Next) -> Packet:
        """A packet that goes so, or an ICMP error about another."""
        way, about = following.way, following.about
        port, other = way.source.port or 0, way.destination.port or 0
        spare = bytes(self.below(28))
        if way.protocol == TCP:
            load = struct.pack(">HHIIBBHHH", port, other, 1, 0, 0x50, self.flags(), 1000, self.checksum(), 0) + spare
        elif way.protocol == UDP:
            load = struct.pack(">HHHH", port, other, 8 + len(spare), self.checksum()) + spare
        elif about:
            shown = self.shown(about)
            load = with_checksum(struct.pack(">BBHI", self.one(*ERRORS), 0, 0, 0) + shown, 2)
            about = about if len(shown) >= about.start + 8 else None
        else:
            load = self.echo(port, other, spare) if way.protocol == ICMP else spare
        ttl = 2 + self.below(46) if self.chance(93) else self.one(0, 1, 255)
        here, there = (end.address.to_bytes(4, "big") for end in (way.source, way.destination))
        data = datagram(way.protocol, here, there, load, ttl)
        return Packet(with_options(data, 1 + self.below(10)) if self.chance(5) else data, about)

    def wait(self) -> int:
        """How many nanoseconds pass before a record: few, and seldom as many as a connection may be idle, or one
        fewer."""
        if self.chance(95):
            return self.one(0, 1, SECOND, 2 * SECOND - 1)
        seconds = self.one(60, 120, 180, 240, 300) if self.has_few else self.one(60, 240, 300, 600)
        return seconds * SECOND - self.below(2)

    def follow(self, earlier: list[Earlier]) -> Next:
        """How a packet follows one of those earlier ones: either way, or about it. Where there are few addresses,
        another host may take the place of one."""
        one = self.one(*earlier)
        source, destination, protocol = one.way.source, one.way.destination, one.way.protocol
        if self.chance(50):
            source, destination = destination, source
        if self.has_few and self.chance(40):
            source, destination = self.one((self.end(), destination), (source, self.end()))
        if one.packet.icmp_type not in ERRORS and self.chance(15):
            return Next(Way(source, destination, ICMP), one.packet)
        return Next(Way(source, destination, protocol))

    def translated(self, packet: Packet, left: Packet) -> list[Earlier]:
        """What later packets may follow of one that was translated, several times as often as others: its ends as it
        left, and where its source is another one, those of a packet from some host to that."""
        assert packet.ends and left.ends, "what was translated has a tuple"
        source, destination = left.ends.source, left.ends.destination
        found = [Earlier(Way(source, destination, left.protocol), left)] * 4
        if source != packet.ends.source:
            found += [Earlier(Way(self.end(), source, left.protocol), left)] * 4
        return found

    def arrive(self, run: Run, count: int) -> None:
        """So many records for a run: most of their packets follow earlier ones, as they came or as they were
        translated."""
        when = 1000 * SECOND
        earlier: list[Earlier] = []
        for _ in range(count):
            when += self.wait()
            is_following = earlier and self.chance(80 if self.has_few else 65)
            following = self.follow(earlier) if is_following else Next(self.way())
            packet = self.packet(following)
            left = run.take(Arrived(when, self.one(*BOX.interfaces), packet))
            if not following.about:
                one = Earlier(following.way, packet)
                earlier.append(one)
                if left and left.ends != packet.ends:
                    earlier += [one, *self.translated(packet, left)]


def with_options(data: bytes, words: int) -> bytes:
    """The datagram with so many words of options that do nothing (RFC 791, section 3.1)."""
    header = struct.pack(">BBH", data[0] + words, data[1], len(data) + 4 * words) + data[4:10] + b"\0\0" + data[12:20]
    return with_checksum(header + b"\1" * 4 * words, 10) + data[20:]


def drawn(seed: int, packets: int) -> Drawn:
    """The run of a ruleset, which has taken so many records, or eight times as many where it translates, as that of
    each third seed does."""
    dice = random.Random(seed)
    is_translating = seed % 3 == 0
    tables = [TableDrawing(dice, name, is_translating).drawn() for name in dice.choice((("t",), ("t", "u")))]
    run = Run([one.table for one in tables], BOX)
    CaptureDrawing(dice, is_translating).arrive(run, 8 * packets if is_translating else packets)
    return Drawn(run, "".join(one.text for one in tables))
