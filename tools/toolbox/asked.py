"""Which record is asked about: its number, or what is known of it: protocol, addresses, ports, time."""
from __future__ import annotations

import re
from dataclasses import dataclass
from datetime import datetime
from ipaddress import IPv4Network
from typing import TYPE_CHECKING, Iterator

from toolbox.captures import LINUX_SLL2, SENT_BY_US, packet_at, records
from toolbox.commands import Refused
from toolbox.packets import PORTED, PROTOCOL_NAMES, destination_port, kind_of, source_port, tuple_at

if TYPE_CHECKING:
    from toolbox.captures import Header

PROTOCOLS = {name: number for number, name in PROTOCOL_NAMES.items()}
CLOCK = re.compile(r"([0-9]{1,2}):([0-9]{2})(?::([0-9]{2})(?:\.[0-9]+)?)?")
EPOCH = re.compile(r"[0-9]{1,11}(?:\.[0-9]+)?")
A_DAY = 24 * 3600
MOST_READ = 160
LONGEST_NUMBER = 18  # digits of a record's number
WANTED = '"[tcp|udp|icmp] ADDRESS[:PORT] [> ADDRESS[:PORT]] [at TIME]"'


@dataclass(frozen=True)
class End:
    """An address, or a network, and a port; None: any."""

    network: IPv4Network | None
    port: int | None

    def is_of(self, address: bytes, port: int | None) -> bool:
        if self.port is not None and port != self.port:
            return False
        if self.network is None:
            return True
        return int.from_bytes(address, "big") & int(self.network.netmask) == int(self.network.network_address)


@dataclass(frozen=True)
class Moment:
    """A time of the day, or a moment, in seconds; a time of the day is that of the time zone here."""

    seconds: float
    is_of_day: bool

    def distance(self, moment: float) -> float:
        """How far a record's moment is from it."""
        if not self.is_of_day:
            return abs(moment - self.seconds)
        there = datetime.fromtimestamp(moment)
        apart = abs(there.hour * 3600 + there.minute * 60 + there.second + moment % 1 - self.seconds)
        return min(apart, A_DAY - apart)


@dataclass(frozen=True)
class Found:
    """A record that fits; `is_copy` is whether it is one of what the box sent."""

    record: int
    moment: float
    is_copy: bool


@dataclass(frozen=True)
class Asked:
    """A packet as it is known; without `target` the source may be either end."""

    text: str
    protocol: int | None
    source: End
    target: End | None
    moment: Moment | None

    def fits(self, data: bytes, at: int) -> bool:
        if len(data) < at + 20 or data[at] >> 4 != 4 or self.protocol not in (None, data[at + 9]):
            return False
        key = tuple_at(data, at)
        ports: tuple[int | None, int | None] = (None, None)
        if key is not None and kind_of(key) in PORTED:
            ports = source_port(key), destination_port(key)
        here, there = (data[at + 12:at + 16], ports[0]), (data[at + 16:at + 20], ports[1])
        if self.target is None:
            return self.source.is_of(*here) or self.source.is_of(*there)
        return self.source.is_of(*here) and self.target.is_of(*there)

    def found(self, path: str, header: Header) -> list[Found]:
        """The records that fit; copies of what the box sent only where nothing else does."""
        found = list(self.fitting(path, header))
        return [one for one in found if not one.is_copy] or found

    def fitting(self, path: str, header: Header) -> Iterator[Found]:
        link_type = header.link_type
        for number, seconds, fraction, _, _, _, data in records(path, MOST_READ):
            at = packet_at(data, link_type)
            if at is not None and self.fits(data, at):
                is_copy = link_type == LINUX_SLL2 and data[10] == SENT_BY_US
                yield Found(number, seconds + fraction / header.fractions, is_copy)


def asked_of(text: str) -> int | Asked:
    """The number of a record, or what is known of it."""
    word = text.strip()
    if re.fullmatch(r"[+-]?[0-9]+", word) and len(word) <= LONGEST_NUMBER:
        return int(word)
    words = word.split()
    moment = None
    if "at" in words:
        place = words.index("at")
        moment = moment_of(text, words[place + 1:])
        words = words[:place]
    protocol = PROTOCOLS.get(words[0]) if words else None
    if protocol is not None:
        words = words[1:]
    ends = " ".join(words).split(">")
    if not words or len(ends) > 2:
        raise Refused(f"{text}: a record's number is wanted, or {WANTED}")
    source, *target = [end_of(text, end.strip()) for end in ends]
    return Asked(text, protocol, source, target[0] if target else None, moment)


def end_of(text: str, word: str) -> End:
    """`198.51.100.7`, `198.51.100.0/24`, `198.51.100.7:53`, `any:53` or `any`."""
    address, colon, port = word.partition(":")
    try:
        number = None if not colon else int(port) if len(port) <= 5 else -1
        if number is not None and not 0 <= number <= 0xFFFF:
            raise ValueError
        return End(None if address == "any" else IPv4Network(address, strict=False), number)
    except ValueError:
        raise Refused(f"{text}: {word or 'nothing'}: ADDRESS[:PORT] is wanted, or any[:PORT]; {WANTED}") from None


def moment_of(text: str, words: list[str]) -> Moment:
    """`14:03`, `14:03:07`, `2026-01-31 14:03:07`, with `Z` behind it where it is of UTC, or seconds since 1970."""
    word = "T".join(words)
    clock = CLOCK.fullmatch(word)
    try:
        if clock:
            hours, minutes, seconds = (int(part or 0) for part in clock.groups())
            return Moment(hours * 3600 + minutes * 60 + seconds, True)
        if EPOCH.fullmatch(word):
            return Moment(float(word), False)
        return Moment(datetime.fromisoformat(word.replace("Z", "+00:00")).timestamp(), False)
    except (ValueError, OverflowError, OSError):
        known = "14:03:07, 2026-01-31T14:03:07 or 1769868187.5"
        raise Refused(f"{text}: at {word}: a time is wanted, as {known}") from None


def chosen_of(asked: Asked, found: list[Found], dropped: set[int]) -> Found:
    """Of what fits the nearest to the time; without one the first that was dropped, or else the first."""
    if asked.moment is not None:
        distance = asked.moment.distance
        return min(found, key=lambda one: distance(one.moment))
    return next((one for one in found if one.record in dropped), found[0])
