"""Packets of long random histories, and how they are written as rows."""
from __future__ import annotations

import enum
from dataclasses import dataclass
from typing import Iterable, Sequence

SECOND = 1_000_000_000
FIN, SYN, RST, ACK = 1, 2, 4, 16
LETTERS = ((SYN, "S"), (FIN, "F"), (RST, "R"), (ACK, "A"))
USUAL_TTL = 64


class Kind(enum.Enum):
    """What a packet carries, by its word in rows."""

    UDP = "udp"
    TCP = "tcp"
    ECHO_REQUEST = "echo-request"
    ECHO_REPLY = "echo-reply"
    GRE = "other:47"

    @property
    def protocol(self) -> str:
        if self in (Kind.ECHO_REQUEST, Kind.ECHO_REPLY):
            return "echo"
        return "gre" if self is Kind.GRE else str(self.value)


BYTES = {Kind.UDP: 28, Kind.TCP: 40, Kind.ECHO_REQUEST: 28, Kind.ECHO_REPLY: 28, Kind.GRE: 20}


def address(text: str) -> int:
    a, b, c, d = map(int, text.split("."))
    return ((a * 256 + b) * 256 + c) * 256 + d


@dataclass(frozen=True)
class End:
    """An address and a port, 0 where it has none."""

    address: int
    port: int

    @property
    def is_inside(self) -> bool:
        """Whether lan leads to it."""
        return self.address // 256 == address("192.168.1.0") // 256

    @property
    def text(self) -> str:
        octets = ".".join(str(self.address >> shift & 255) for shift in (24, 16, 8, 0))
        return f"{octets}:{self.port}" if self.port else octets


@dataclass(frozen=True)
class Ends:
    """Where a packet comes from, and where it goes."""

    source: End
    destination: End

    @property
    def back(self) -> Ends:
        return Ends(self.destination, self.source)

    @property
    def text(self) -> str:
        return f"{self.source.text} > {self.destination.text}"


@dataclass(frozen=True)
class Load:
    """A kind, and control bits of TCP."""

    kind: Kind
    flags: int = 0


class Dice:
    """Numbers that look like thrown, the same in each run: the high halves of a linear congruential sequence."""

    def __init__(self, seed: int) -> None:
        self.state = seed

    def roll(self, sides: int) -> int:
        self.state = (self.state * 1_664_525 + 1_013_904_223) % 2**32
        return self.state // 65_536 % sides

    def wait(self) -> int:
        """How many seconds pass before a record: few, and seldom many."""
        drawn = self.roll(512)
        return 7200 if drawn == 0 else 60 if drawn < 5 else 240 if drawn < 9 else drawn % 3


class Packet:
    """A packet that comes by an interface."""

    def __init__(self, at: int, by: str, load: Load, ends: Ends, ttl: int) -> None:
        self.at, self.by, self.ttl = at, by, ttl
        self.kind, self.flags = load.kind, load.flags
        # The identifier of an echo is the port of the end that asks; other ends have no port.
        start, end = ends.source, ends.destination
        if self.kind in (Kind.ECHO_REPLY, Kind.GRE):
            start = End(start.address, 0)
        if self.kind in (Kind.ECHO_REQUEST, Kind.GRE):
            end = End(end.address, 0)
        self.ends = Ends(start, end)

    @property
    def protocol(self) -> str:
        return self.kind.protocol

    @property
    def is_lone_syn(self) -> bool:
        return self.flags & (SYN | ACK | FIN | RST) == SYN

    @property
    def line(self) -> str:
        """The line of a row."""
        seconds, nanoseconds = divmod(self.at, SECOND)
        moment = f"{seconds}.{nanoseconds:09}" if nanoseconds else str(seconds)
        letters = "".join(letter for bit, letter in LETTERS if self.flags & bit)
        load = f"tcp:{letters}" if self.kind is Kind.TCP else self.kind.value
        ttl = "" if self.ttl == USUAL_TTL else f" ttl {self.ttl}"
        return f"in {moment} {self.by} {load} {self.ends.text}{ttl}"


def limit_of(protocol: str, sent: int, answered: int) -> int:
    """For how long a connection may be idle, by the flags of its packets in both directions."""
    if protocol != "tcp":
        return {"udp": 300, "echo": 60, "gre": 600}[protocol] * SECOND
    both = sent & answered
    is_established = both & SYN and both & ACK and not is_closing(sent, answered)
    return (7440 if is_established else 240) * SECOND


def is_closing(sent: int, answered: int) -> bool:
    return bool((sent | answered) & RST or sent & answered & FIN)


@dataclass(frozen=True)
class Left:
    """A packet that leaves, by the place of its record, and its ends then."""

    place: int
    ends: Ends


@dataclass(frozen=True)
class History:
    """A history, the files that it is run with, and what the run has to give."""

    name: str
    rules: str
    box: str
    packets: Sequence[Packet]
    left: Iterable[Left]
    told: Iterable[str]
    totals: dict[str, int]

    @property
    def lines(self) -> list[str]:
        """The row."""
        lines = [f"row {self.name}", f"rules {self.rules}", f"box {self.box}"]
        lines += [packet.line for packet in self.packets]
        for one in self.left:
            is_same = one.ends == self.packets[one.place].ends
            lines.append(f"out {one.place}" if is_same else f"out {one.place} {one.ends.text}")
        lines += [f"line {line}" for line in self.told]
        return lines + [f"{name} {number}" for name, number in self.totals.items()]
