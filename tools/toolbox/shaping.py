"""Packets with the facts that are wanted as they come to the box."""
from __future__ import annotations

import struct
from dataclasses import dataclass
from typing import Sequence

from toolbox.captures import sll2_header
from toolbox.crafted import End, Options, icmp_message, ip_packet, tcp_segment, udp_datagram
from toolbox.number_sets import Numbers
from toolbox.packets import ACK, ECHO_REQUEST, ICMP, ICMP_ERRORS, SYN, TCP, UDP, put
from toolbox.passages import Network
from toolbox.told_sets import (
    DESTINATION, DESTINATION_PORT, FLAGS, ICMP_TYPE, INPUT, LENGTH, PROTOCOL, SOURCE, SOURCE_PORT, TTL, Facts)

QUOTED = 28  # bytes of the datagram in an ICMP error: its header, and 8 more (RFC 792)
# what packets have where the facts leave it open, the first that they leave
USUAL = {
    PROTOCOL: (TCP, UDP, ICMP, 47, 50), TTL: (64, 63, 128), SOURCE_PORT: (40000, 1024, 5000), DESTINATION_PORT: (
        8, 80, 443, 53, 7), ICMP_TYPE: (ECHO_REQUEST, 13),
}
# addresses of documentation (RFC 5737), and of private networks
ADDRESSES = [Numbers.between((a << 24) + (b << 16) + (c << 8) + 10, (a << 24) + (b << 16) + (c << 8) + 200)
             for a, b, c in ((198, 51, 100), (192, 0, 2), (203, 0, 113), (192, 168, 1), (10, 0, 0))]
HEADERS = {TCP: 40, UDP: 28, ICMP: 28}


@dataclass(frozen=True)
class Sent:
    """A packet that comes to the box: the index of the interface, and its bytes from the IPv4 header on."""

    interface: int
    packet: bytes

    def record(self) -> bytes:
        return sll2_header(self.interface) + self.packet


def packed(address: int) -> bytes:
    return address.to_bytes(4, "big")


def pick(numbers: Numbers, usual: Sequence[int], turn: int) -> int:
    """One of the numbers, usual ones first; with another turn another one."""
    fitting = [number for number in usual if number in numbers]
    if turn < len(fitting):
        return fitting[turn]
    return numbers.at((turn - len(fitting)) * 7) if numbers else 0


def pick_address(sets: Sequence[Numbers], turn: int) -> int:
    """An address of the first of the sets that has any, with a host's number."""
    for numbers in filter(None, sets):
        for known in ADDRESSES:
            if known & numbers:
                return (known & numbers).at(turn)
        low, high = max(numbers.ranges, key=lambda one: one[1] - one[0])
        return low + min(high - low, 10 + turn) if high - low > 1 else low + turn % (high - low + 1)
    return 0


class Shaping:
    """Makes packets of facts; `turn` has it make others."""

    def __init__(self, network: Network, turn: int = 0) -> None:
        self.network, self.turn = network, turn

    def inputs_of(self, facts: Facts) -> Numbers:
        """The interfaces by which a packet may come: those behind which its source may be, if there are any."""
        inputs = facts.of(INPUT) & self.network.interfaces
        behind = Numbers.listed(index for index in inputs
                                if self.network.routed.get(index, Numbers(())) & facts.of(SOURCE))
        return behind or inputs

    def source_of(self, facts: Facts, interface: int) -> int:
        wanted = facts.of(SOURCE)
        hosts = self.network.routed.get(interface, Numbers(())) - self.network.own
        return pick_address((wanted & hosts, wanted - self.network.own, wanted), self.turn)

    def destination_of(self, facts: Facts, source: int, interface: int) -> int:
        """One behind another interface than that by which the packet comes, if the facts leave that open."""
        wanted = facts.of(DESTINATION)
        unicast = Numbers.between(1 << 24, (224 << 24) - 1) - Numbers.between(127 << 24, (128 << 24) - 1)
        others = wanted - Numbers.listed([source])
        hosts = others & unicast - self.network.own
        beyond = hosts - self.network.routed.get(interface, Numbers(()))
        return pick_address((beyond, hosts, others, wanted), self.turn)

    def made(self, facts: Facts, about: bytes | None = None) -> Sent | None:
        """A packet with these facts, or None where no packet has them; `about` is what an ICMP error quotes."""
        inputs = self.inputs_of(facts)
        if not inputs:
            return None
        interface = inputs.at(self.turn)
        protocol = pick(facts.of(PROTOCOL), USUAL[PROTOCOL], 0)
        source = self.source_of(facts, interface)
        destination = self.destination_of(facts, source, interface)
        ports = [pick(facts.of(name) - Numbers.listed([0]) or facts.of(name), USUAL[name], self.turn)
                 for name in (SOURCE_PORT, DESTINATION_PORT)]
        here, there = (packed(source), ports[0]), (packed(destination), ports[1])
        length = self.length_of(facts, protocol, about)
        if length is None:
            return None
        load = self.load(facts, protocol, (here, there), length, about)
        ttl = pick(facts.of(TTL), USUAL[TTL], 0)
        return Sent(interface, ip_packet(here[0], there[0], protocol, load, Options({"ttl": ttl})))

    def length_of(self, facts: Facts, protocol: int, about: bytes | None) -> int | None:
        """The total length, the least that the headers allow."""
        least = HEADERS.get(protocol, 20)
        if about and protocol == ICMP and pick(facts.of(ICMP_TYPE), USUAL[ICMP_TYPE], 0) in ICMP_ERRORS:
            least += QUOTED
        fitting = facts.of(LENGTH) & Numbers.between(least, 65535)
        return fitting.least() if fitting else None

    def load(self, facts: Facts, protocol: int, ends: tuple[End, End], length: int, about: bytes | None) -> bytes:
        """What stands behind the header of IPv4."""
        here, there = ends
        if protocol == TCP:
            segment = bytearray(tcp_segment(here, there, Options({"bytes": length - 40})))
            put(segment, 12, bytes([0x50, pick(facts.of(FLAGS), (SYN, ACK, SYN | ACK), 0)]), [16])
            return bytes(segment)
        if protocol == UDP:
            return udp_datagram(here, there, Options({"bytes": length - 28}))
        if protocol == ICMP:
            kind = pick(facts.of(ICMP_TYPE), USUAL[ICMP_TYPE], 0)
            if kind in ICMP_ERRORS and about:
                return icmp_message(kind, 0, bytes(4) + about[:QUOTED] + bytes(length - 28 - QUOTED))
            number = ends[0][1] if kind == ECHO_REQUEST else ends[1][1]
            return icmp_message(kind, 0, struct.pack(">HH", number, 1) + bytes(length - 28))
        return bytes(length - 20)
