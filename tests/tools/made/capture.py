"""Captures whose answers are known by construction, by struct alone: apart from the code of the tools that are tried.

  python3 tests/tools/made/capture.py KIND >in.pcap

They fit tests/tools/rules/router.box.txt (2 lan 192.168.1.1/24, 3 wan 203.0.113.1, by which the router masquerades).

  forwarded   LINUX_SLL2: two hosts of lan ask a name server by wan, each with the copy that leaves, the answer, and the
              copy of that; records 1 to 8
  vlan        Ethernet: four frames with a tag of 802.1Q, each with an IPv4 packet
  offload     LINUX_SLL2: the packets of `forwarded` that enter, with an IPv4 header checksum of 0
  headers     the same as captured with a snap length: 28 bytes of each packet, which has 128
  answers     of `forwarded` what the name server says alone: records 3 and 7, for the router's own address
  empty       the 24 bytes of a header alone
"""
from __future__ import annotations

import struct
import sys
from dataclasses import dataclass
from typing import Iterator


@dataclass(frozen=True)
class End:
    """An address and a port."""

    address: str
    port: int

    def packed(self) -> bytes:
        return bytes(map(int, self.address.split(".")))


@dataclass(frozen=True)
class Sight:
    """A packet as it is seen: the second, the interface, whether it comes or leaves, and its bytes."""

    seconds: float
    interface: int
    way: int
    packet: bytes


HOSTS = (End("192.168.1.10", 5000), End("192.168.1.11", 6000))
ROUTER, SERVER = "203.0.113.1", End("198.51.100.7", 53)
LAN, WAN = 2, 3
COMES, LEAVES = 0, 4


def total(data: bytes) -> int:
    """The checksum of RFC 1071."""
    data += b"\0" * (len(data) % 2)
    words: int = sum(struct.unpack(f">{len(data) // 2}H", data))
    while words > 0xFFFF:
        words = (words & 0xFFFF) + (words >> 16)
    return ~words & 0xFFFF


def ip(source: End, destination: End, ttl: int, protocol: int, number: int, body: bytes) -> bytes:
    """An IPv4 packet with an identification, and a right checksum of its header."""
    head = struct.pack(">BBHHHBBH", 0x45, 0, 20 + len(body), number, 0, ttl, protocol, 0)
    head += source.packed() + destination.packed()
    return head[:10] + struct.pack(">H", total(head)) + head[12:] + body


def pseudo(source: End, destination: End, protocol: int, length: int) -> bytes:
    """What a transport checksum covers beside the segment."""
    return source.packed() + destination.packed() + struct.pack(">HH", protocol, length)


def udp(source: End, destination: End, ttl: int) -> bytes:
    """An IPv4 packet of UDP with 100 bytes of zero."""
    body = struct.pack(">HHHH", source.port, destination.port, 108, 0) + bytes(100)
    body = body[:6] + struct.pack(">H", total(pseudo(source, destination, 17, 108) + body)) + body[8:]
    return ip(source, destination, ttl, 17, 1, body)


def without_checksum(packet: bytes) -> bytes:
    """With 0 for the checksum of its header, as a card is handed it that fills it in."""
    return packet[:10] + bytes(2) + packet[12:]


def header(link_type: int) -> bytes:
    return struct.pack("<IHHIIII", 0xA1B23C4D, 2, 4, 0, 0, 262144, link_type)


def record(seconds: float, data: bytes, most: int | None = None) -> bytes:
    """A record, of whose bytes so many are kept; its moment is in microseconds."""
    whole, rest = divmod(round(seconds * 10**6), 10**6)
    kept = data[:most]
    return struct.pack("<IIII", whole, rest * 1000, len(kept), len(data)) + kept


def sll2(interface: int, kind: int) -> bytes:
    return struct.pack(">HHIHBB8x", 0x0800, 0, interface, 1, kind, 0)


def forwarded() -> Iterator[Sight]:
    for second, host in enumerate(HOSTS):
        outside, at = End(ROUTER, host.port), 10 + 4 * second
        yield Sight(at, LAN, COMES, udp(host, SERVER, 64))
        yield Sight(at + 1, WAN, LEAVES, udp(outside, SERVER, 63))
        yield Sight(at + 2, WAN, COMES, udp(SERVER, outside, 64))
        yield Sight(at + 3, LAN, LEAVES, udp(SERVER, host, 63))


def capture(kind: str) -> bytes:
    if kind == "empty":
        return header(276)
    if kind == "vlan":
        tag = bytes.fromhex("020000000001020000000002" "81000005" "0800")
        return header(1) + b"".join(record(10 + n, tag + udp(host, SERVER, 64)) for n, host in enumerate(HOSTS * 2))
    parts = [header(276)]
    for one in forwarded():
        link = sll2(one.interface, one.way)
        if kind == "forwarded":
            parts.append(record(one.seconds, link + one.packet))
        elif kind == "answers":
            if (one.interface, one.way) == (WAN, COMES):
                parts.append(record(one.seconds, link + one.packet))
        elif one.way == COMES:
            packet = without_checksum(one.packet) if kind == "offload" else one.packet
            parts.append(record(one.seconds, link + packet, 48 if kind == "headers" else None))
    return b"".join(parts)


if __name__ == "__main__":
    sys.stdout.buffer.write(capture(sys.argv[1]))
