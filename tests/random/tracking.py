"""Packets and connections, by a plain reading of docs/SPEC.md, section 6: a connection is found by a search through
all.

It judges runs, so it stands neither on tools/toolbox nor on what the program writes.
"""
from __future__ import annotations

import enum
from collections import Counter
from dataclasses import dataclass
from typing import Tuple

SECOND = 1_000_000_000
ICMP, TCP, UDP = 1, 6, 17
FIN, SYN, RST, ACK = 1, 2, 4, 16
ECHO_REPLY, ECHO_REQUEST = 0, 8
ERRORS = (3, 4, 5, 11, 12)
IDLE = {"udp": 300, "tcp": 240, "established": 7440, "echo-request": 60}
IDLE_OTHER = 600

Note = Tuple[object, ...]  # words of what a run had to do
Seen = Counter[Note]


class State(enum.Enum):
    """What `ct state` tells, with its bit."""

    INVALID = 1
    ESTABLISHED = 2
    RELATED = 4
    NEW = 8
    UNTRACKED = 64

    @property
    def word(self) -> str:
        return self.name.lower()


@dataclass(frozen=True)
class Kind:
    """The kind of a tuple: `tcp`, `udp`, `echo-request`, `echo-reply`, or `other` with a protocol."""

    word: str
    protocol: int

    @property
    def has_ports(self) -> bool:
        return self.word in ("tcp", "udp")

    @property
    def inverse(self) -> Kind:
        """The kind of what comes back."""
        return {OF_REQUESTS: OF_REPLIES, OF_REPLIES: OF_REQUESTS}.get(self, self)


OF_TCP, OF_UDP = Kind("tcp", TCP), Kind("udp", UDP)
OF_REQUESTS, OF_REPLIES = Kind("echo-request", ICMP), Kind("echo-reply", ICMP)


@dataclass(frozen=True)
class End:
    """An end: an address, and a port, or None where it has none."""

    address: int
    port: int | None


@dataclass(frozen=True)
class Ends:
    """A tuple (section 6.1)."""

    kind: Kind
    source: End
    destination: End

    @property
    def inverse(self) -> Ends:
        """That of what comes back."""
        return Ends(self.kind.inverse, self.destination, self.source)


@dataclass(frozen=True)
class Mapping:
    """An internal end and the external one that stands for it."""

    internal: End
    external: End


# ---- packets

class Packet:
    """A packet as it comes: its bytes, what stands in its headers, and the packet that an ICMP error shows."""

    def __init__(self, data: bytes, about: Packet | None = None) -> None:
        self.data, self.about = data, about
        self.ttl, self.protocol = data[8], data[9]
        self.length = int.from_bytes(data[2:4], "big")
        start = self.start
        source_port = destination_port = None
        if self.has_ports:
            source_port, destination_port = self.word_at(start), self.word_at(start + 2)
        self.source = End(int.from_bytes(data[12:16], "big"), source_port)
        self.destination = End(int.from_bytes(data[16:20], "big"), destination_port)
        self.flags = data[start + 13] if self.protocol == TCP else None
        self.icmp_type = data[start] if self.protocol == ICMP else None
        self.ends = self.read_ends()

    def word_at(self, place: int) -> int:
        return int.from_bytes(self.data[place:place + 2], "big")

    @property
    def start(self) -> int:
        """Where the header ends."""
        return self.data[0] % 16 * 4

    @property
    def has_ports(self) -> bool:
        return self.protocol in (TCP, UDP)

    def read_ends(self) -> Ends | None:
        """Its tuple (section 6.1), or nothing."""
        if self.has_ports:
            return Ends(OF_TCP if self.protocol == TCP else OF_UDP, self.source, self.destination)
        here, there = self.source.address, self.destination.address
        if self.protocol != ICMP:
            return Ends(Kind("other", self.protocol), End(here, 0), End(there, 0))
        identifier = self.word_at(self.start + 4)
        if self.icmp_type == ECHO_REQUEST:
            return Ends(OF_REQUESTS, End(here, identifier), End(there, 0))
        return Ends(OF_REPLIES, End(here, 0), End(there, identifier)) if self.icmp_type == ECHO_REPLY else None

    @property
    def is_lone_syn(self) -> bool:
        return self.flags is not None and self.flags & (SYN | ACK | FIN | RST) == SYN


# ---- connections

class Connection:
    """A connection: its tuples of both directions, the mappings that gave it its source and its destination, and what
    packets that counted left of themselves. While its first packet is translated, the reply tuple is the inverse of
    what that has become."""

    def __init__(self, original: Ends) -> None:
        self.original, self.reply = original, original.inverse
        self.of_source: Mapping | None = None
        self.of_destination: Mapping | None = None
        self.flags = [0, 0]
        self.has_reply = self.is_ended = False
        self.mark = self.last = 0

    @property
    def is_closing(self) -> bool:
        """FIN was seen in both directions, or RST in one."""
        there, back = self.flags
        return bool((there | back) & RST or there & back & FIN)

    @property
    def status(self) -> int:
        """The bits snat and dnat."""
        left = self.reply.inverse
        is_dnat = left.destination != self.original.destination
        return 16 * (left.source != self.original.source) + 32 * is_dnat

    def aim(self, destination: End) -> None:
        """Leads the first packet to that end."""
        left = self.reply.inverse
        self.reply = Ends(left.kind, left.source, destination).inverse

    def send_from(self, external: End) -> None:
        """Gives the first packet this source in place of its own."""
        left = self.reply.inverse
        self.of_source = Mapping(left.source, external)
        self.reply = Ends(left.kind, external, left.destination).inverse

    def lives(self, now: int) -> bool:
        there, back = self.flags
        word = self.original.kind.word
        if word == "tcp" and there & back & SYN and there & back & ACK and not self.is_closing:
            word = "established"
        return not self.is_ended and now - self.last < IDLE.get(word, IDLE_OTHER) * SECOND


class Belonging:
    """A packet's connection, and whether it goes in direction reply."""

    def __init__(self, connection: Connection, is_reply: bool = False) -> None:
        self.connection, self.is_reply = connection, is_reply

    @property
    def incoming(self) -> Ends:
        """The tuple with which packets of its direction come."""
        return self.connection.reply if self.is_reply else self.connection.original

    @property
    def outgoing(self) -> Ends:
        """The tuple with which they leave: the inverse of the other direction's."""
        return (self.connection.original if self.is_reply else self.connection.reply).inverse


class Tracking:
    """What rules may read of a packet's connection, behind the lookup (section 6.2)."""

    def __init__(self, state: State, of: Belonging | None = None) -> None:
        self.state, self.of = state, of
        self.mark = of.connection.mark if of else None
        self.direction = int(of.is_reply) if of else None

    @property
    def status(self) -> int | None:
        """Of a first packet as far as it is translated by now."""
        if not self.of:
            return None
        has_reply = self.of.connection.has_reply or self.of.is_reply and self.state is not State.RELATED
        return 2 * has_reply + self.of.connection.status


class Connections:
    """All connections that ever began."""

    def __init__(self, seen: Seen) -> None:
        self.all: list[Connection] = []
        self.seen = seen

    def live(self, now: int) -> list[Connection]:
        return [one for one in self.all if one.lives(now)]

    def mappings(self, kind: Kind, now: int | None = None) -> list[Mapping]:
        """The mappings of a kind that are live, or without a moment all that ever were."""
        found = [one for one in (self.all if now is None else self.live(now)) if one.original.kind == kind]
        return [it for one in found for it in (one.of_source, one.of_destination) if it]

    def belonging(self, ends: Ends, now: int) -> Belonging | None:
        """The live connection with the tuple."""
        live = self.live(now)
        for one in live:
            if one.original == ends:
                return Belonging(one)
        for one in live:
            if one.reply == ends:
                return Belonging(one, True)
        return None

    def look_up(self, packet: Packet, now: int) -> Tracking:
        if packet.about:
            # A reply to what the error shows would belong to the connection.
            shown = packet.about.ends
            related = self.belonging(shown.inverse, now) if shown else None
            return Tracking(State.RELATED, related) if related else Tracking(State.INVALID)
        if not packet.ends:
            return Tracking(State.INVALID)
        found = self.belonging(packet.ends, now)
        if found and not found.is_reply and packet.is_lone_syn and found.connection.is_closing:
            found.connection.is_ended, found = True, None
            self.seen["ended by a lone SYN",] += 1
        if found:
            is_answered = found.is_reply or found.connection.has_reply
            return Tracking(State.ESTABLISHED if is_answered else State.NEW, found)
        if packet.ends.kind == OF_REPLIES:
            return Tracking(State.INVALID)
        return Tracking(State.NEW, Belonging(Connection(packet.ends)))

    def clash(self, connection: Connection, now: int) -> bool:
        """Whether its replies would come with a tuple of another that lives."""
        others = [one for one in self.live(now) if one is not connection]
        return any(connection.reply in (one.original, one.reply) for one in others)

    def confirm(self, packet: Packet, ct: Tracking, now: int) -> None:
        """Counts a packet that is accepted for its connection, which may begin with it."""
        if ct.of is None or ct.mark is None or ct.state not in (State.NEW, State.ESTABLISHED):
            return
        connection = ct.of.connection
        if connection not in self.all:
            self.all.append(connection)
        connection.last, connection.mark = now, ct.mark
        connection.has_reply |= ct.of.is_reply
        connection.flags[ct.of.is_reply] |= packet.flags or 0
