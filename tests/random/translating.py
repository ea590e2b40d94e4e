"""Translation, by a plain reading of docs/SPEC.md, section 7: where first packets of connections lead, the ports that
mappings get, and packets as they leave.

It judges runs, so it stands neither on tools/toolbox nor on what the program writes.
"""
from __future__ import annotations

import struct
from dataclasses import dataclass
from typing import TYPE_CHECKING, Callable

from ports import candidates
from plain import ones_sum
from tracking import OF_REPLIES, OF_REQUESTS, OF_UDP, Belonging, Connections, End, Ends, Kind, Mapping

if TYPE_CHECKING:
    from reading import Box, Met

# Of each kind that has one, where its checksum stands behind the header.
CHECKSUMS = {"tcp": 16, "udp": 6, "echo-request": 2, "echo-reply": 2}
# Of an error, whose checksum covers what it shows, the addresses alone are changed.
OF_ERRORS = Kind("error", 1)

Covered = Callable[[bytes], bytes]


@dataclass(frozen=True)
class Ports:
    """The ports that a rule names, from one to another."""

    low: int
    high: int


ALL_PORTS = Ports(1, 65_535)


@dataclass(frozen=True)
class Aim:
    """What a NAT statement asks for: its word, an address, or None where an interface gives it, and ports."""

    word: str
    address: int | None
    ports: Ports | None

    @property
    def text(self) -> str:
        """As the report tells it."""
        return self.word


# ---- mappings (sections 7.3 and 7.4)

def behind(external: End, mappings: list[Mapping]) -> End | None:
    """The internal end that an external one stands for."""
    return next((one.internal for one in mappings if one.external == external), None)


def port_for(kind: Kind, internal: End, address: int, ports: Ports | None, mappings: list[Mapping]) -> int | None:
    """The port that an internal end has or gets at an external address, where a rule names these or none; nothing where
    none is free."""
    for one in mappings:
        if one.internal == internal and one.external.address == address:
            return one.external.port
    protocol = "echo" if kind == OF_REQUESTS else kind.word
    taken = [one.external for one in mappings]
    asked = ports or ALL_PORTS
    found = candidates(protocol, internal.port or 0, asked.low, asked.high)
    return next((port for port in found if End(address, port) not in taken), None)


# ---- first packets (section 7.2)

class Translation:
    """What a box makes of the first packets of connections, by a NAT statement or without one."""

    def __init__(self, box: Box, connections: Connections) -> None:
        self.box, self.connections = box, connections

    def find_destination(self, met: Met, of: Belonging, statement: Aim | None, now: int) -> None:
        """By `dnat` or `redirect`, or else from outside: by the live mapping at the destination (section 7.5)."""
        ends = of.outgoing
        external = ends.destination
        if statement:
            port = statement.ports.low if statement.ports and met.has_ports else external.port
            address = self.box.first_address(met.input) if statement.address is None else statement.address
            of.connection.aim(End(address, port))
            met.note("aimed", ends.kind.word)
        elif met.has_ports:
            internal = behind(external, self.connections.mappings(ends.kind, now))
            if internal:
                of.connection.of_destination = Mapping(internal, external)
                of.connection.aim(internal)
                met.note("from outside")
                self.note_holders(met, ends.kind, Mapping(internal, external), now)

    def find_source(self, met: Met, of: Belonging, statement: Aim | None, now: int) -> bool:
        """By `snat` or `masquerade`; or else as a hairpin (section 7.6): where a mapping gave the destination, unless
        the packet came in by the interface of its external address. Whether the source has a port, if it is mapped."""
        mapping = of.connection.of_destination
        if statement:
            assert met.output, "on postrouting there is one"
            address = self.box.first_address(met.output) if statement.address is None else statement.address
            return self.map_source(met, of, address, statement.ports, now)
        if mapping and self.box.own.get(mapping.external.address) is not met.input:
            met.note("hairpin")
            return self.map_source(met, of, mapping.external.address, None, now)
        return True

    def map_source(self, met: Met, of: Belonging, address: int, ports: Ports | None, now: int) -> bool:
        """Whether the source has a port at an external address."""
        kind, internal = of.outgoing.kind, of.outgoing.source
        mappings = self.connections.mappings(kind, now)
        port = port_for(kind, internal, address, ports, mappings)
        if port is None:
            return False
        mapping = Mapping(internal, End(address, port))
        of.connection.send_from(mapping.external)
        is_held = mapping in mappings
        met.note("mapped", kind.word, "again" if is_held else "anew")
        met.note("port", "its own" if port == internal.port else "another")
        if is_held:
            self.note_holders(met, kind, mapping, now)
        elif behind(mapping.external, self.connections.mappings(kind)) not in (None, internal):
            met.note("port", "of a mapping before")
        return True

    def note_holders(self, met: Met, kind: Kind, mapping: Mapping, now: int) -> None:
        """Notes a mapping that lives by connections alone whose destination was found by it."""
        live = [one for one in self.connections.live(now) if one.original.kind == kind]
        if mapping not in [one.of_source for one in live]:
            met.note("held by destinations")


# ---- packets as they leave (sections 7.7 and 8)

def between(data: bytes, ends: Ends) -> bytes:
    """A datagram that goes between the ends of this tuple, or what an error shows of it; of other kinds it gets the
    addresses."""
    kind, source, destination = ends.kind, ends.source, ends.destination
    start = data[0] % 16 * 4
    changed = data[:12] + struct.pack(">II", source.address, destination.address) + data[20:]
    if kind.has_ports:
        changed = changed[:start] + struct.pack(">HH", source.port, destination.port) + changed[start + 4:]
    elif kind in (OF_REQUESTS, OF_REPLIES):
        # The identifier is the port of the end that asks.
        identifier = (source if kind == OF_REQUESTS else destination).port
        changed = changed[:start + 4] + struct.pack(">H", identifier) + changed[start + 6:]
    at = start + CHECKSUMS.get(kind.word, len(data))
    if at + 2 <= len(data):
        from_ends = 12 if kind.has_ports else 20  # the addresses, in the checksums of TCP and UDP alone
        changed = corrected(data, changed, at, lambda it: it[from_ends:20] + it[start:], kind == OF_UDP)
    return corrected(data, changed, 10, lambda it: it[:start])


def corrected(old: bytes, new: bytes, at: int, covered: Covered, is_udp: bool = False) -> bytes:
    """The new bytes, with the checksum at that place as wrong as it was: it covers what `covered` gives (RFC 1624)."""
    checksum = int.from_bytes(old[at:at + 2], "big")
    if covered(old) == covered(new) or is_udp and checksum == 0:
        return new
    # Words that are the same, also those of the checksum itself, add nothing.
    checksum = (checksum + ones_sum(covered(old)) - ones_sum(covered(new))) % 65_535
    return new[:at] + struct.pack(">H", checksum or (65_535 if is_udp else 0)) + new[at + 2:]


def showing(data: bytes, ends: Ends) -> bytes:
    """An ICMP error whose datagram has the ends that its sender knows."""
    start = data[0] % 16 * 4
    shown = between(data[start + 8:], ends)
    return corrected(data, data[:start + 8] + shown, start + 2, lambda it: it[start:])
