"""Captures that mislead a run, each in one way, which is known by construction; by struct alone, as capture.py.

  python3 tests/tools/made/misleading.py KIND >in.pcap

Times are in seconds. All but `mirrored`, `repeated`, `uplink` and `server-side` fit tests/tools/rules/router.box.txt,
and `server-side` fits dmz.box.txt there.

  mirrored       Ethernet: each of 4 packets twice, 20 microseconds apart
  repeated       the same 4 packets, each again after 0.3 seconds, as hosts repeat what got no answer
  clock-forward  a host asks at 10, 11, 3612 and 3613; another one at 20, alone
  clock-quiet    the first host at 10 and 11, the other one at 3612
  clock-back     a host asks at 1000, 1001, 901 and 902
  clock-shaken   the same at 1000, 1001, 1000.999 and 1002
  to-the-box     a connection to port 22 of the router: SYN, ACK, 2 packets with data; the router's copies between
  no-address     4 packets come by an interface of index 7, and leave by wan; one more comes by it and goes nowhere
  let-in         SYN, SYN and ACK, ACK of a connection from outside to 192.168.1.20 port 443, each with its copy
  earlier        an answer to UDP port 61000 of the router, which leaves to a host inside, and what that one says then
  uplink         a packet of a host of lan leaves by an interface of index 9, its answer comes by that one
  server-side    what a web server of the DMZ says, each with its copy, and nothing of what it is asked
  table          a table of connections: at 1 to 5 a host begins one each second, at 4.5 and 5.5 another one, by UDP; at
                 303 the second host begins one more, by then the first two have expired
  full           as many connections as a run holds, 1,048,576, and three more: each host of lan uses all 65,535 ports
                 of UDP, so the 17th has 16, and the three
"""
from __future__ import annotations

import struct
import sys
from typing import Callable, Iterable, Iterator

from capture import (
    COMES, HOSTS, LAN, LEAVES, ROUTER, SERVER, WAN, End, Sight, header, ip, pseudo, record, sll2, total, udp)

OUTSIDE = End("198.51.100.9", 45000)
FIN, SYN, ACK, SYN_ACK, PUSH = 1, 2, 16, 18, 24
DMZ, UNKNOWN, UPLINK = 4, 7, 9  # interfaces
MOST_CONNECTIONS = 1048576


def tcp(source: End, destination: End, ttl: int, flags: int, sequence: int, number: int,
        acknowledged: int = 1) -> bytes:
    """An IPv4 packet of TCP, with 10 bytes of zero where it pushes data."""
    data = bytes(10) if flags == PUSH else b""
    body = struct.pack(">HHIIBBHHH", source.port, destination.port, sequence, acknowledged, 80, flags, 512, 0, 0) + data
    check = total(pseudo(source, destination, 6, len(body)) + body)
    return ip(source, destination, ttl, 6, number, body[:16] + struct.pack(">H", check) + body[18:])


def asked(seconds: float, host: End) -> Sight:
    """A question of a host."""
    return Sight(seconds, LAN, COMES, udp(host, SERVER, 64))


def asking(host: End, *moments: float) -> list[Sight]:
    return [asked(seconds, host) for seconds in moments]


def both(seconds: float, enters: int, leaves: int, came: bytes, left: bytes) -> list[Sight]:
    """A packet that comes, and its copy."""
    return [Sight(seconds, enters, COMES, came), Sight(seconds, leaves, LEAVES, left)]


def to_the_box() -> Iterator[Sight]:
    client, box = OUTSIDE, End(ROUTER, 22)
    yield Sight(1, WAN, COMES, tcp(client, box, 60, SYN, 1, 1))
    yield Sight(1.1, WAN, LEAVES, tcp(box, client, 64, SYN_ACK, 9, 1))
    for number, flags in ((2, ACK), (3, PUSH), (4, PUSH)):
        yield Sight(number, WAN, COMES, tcp(client, box, 60, flags, number, number))
    yield Sight(5, WAN, LEAVES, tcp(box, client, 64, ACK, 10, 2))


def no_address() -> Iterator[Sight]:
    for number in range(4):
        source, outside = End("10.9.0.2", 5000 + number), End(ROUTER, 5000 + number)
        yield from both(1 + number, UNKNOWN, WAN, udp(source, SERVER, 64), udp(outside, SERVER, 63))
    yield Sight(9, UNKNOWN, COMES, udp(End("10.9.0.2", 6000), SERVER, 64))


def let_in() -> Iterator[Sight]:
    inside = End("192.168.1.20", 443)
    for number, (flags, enters, leaves) in enumerate(((SYN, WAN, LAN), (SYN_ACK, LAN, WAN), (ACK, WAN, LAN)), 1):
        source, destination = (inside, OUTSIDE) if enters == LAN else (OUTSIDE, inside)
        sequence = number + 10 * (enters == LAN)
        yield from both(number, enters, leaves, tcp(source, destination, 64, flags, sequence, number),
                        tcp(source, destination, 63, flags, sequence, number))


def earlier() -> Iterator[Sight]:
    outside, inside = End(ROUTER, 61000), End("192.168.1.10", 4500)
    for seconds in (1, 3):
        yield from both(seconds, WAN, LAN, udp(SERVER, outside, 64), udp(SERVER, inside, 63))
        yield from both(seconds + 1, LAN, WAN, udp(inside, SERVER, 64), udp(outside, SERVER, 63))


def uplink() -> Iterator[Sight]:
    outside = End("192.0.2.1", HOSTS[0].port)
    yield from both(1, LAN, UPLINK, udp(HOSTS[0], SERVER, 64), udp(outside, SERVER, 63))
    yield from both(2, UPLINK, LAN, udp(SERVER, outside, 64), udp(SERVER, HOSTS[0], 63))


def server_side() -> Iterator[Sight]:
    server = End("192.0.2.10", 80)
    for number, flags in enumerate((SYN_ACK, PUSH, FIN | ACK), 1):
        came, left = (tcp(server, OUTSIDE, ttl, flags, number, number) for ttl in (64, 63))
        yield from both(number, DMZ, WAN, came, left)


def table() -> Iterator[Sight]:
    first, second = HOSTS
    for number, (seconds, host) in enumerate((
            (1, first), (2, first), (3, first), (4, first), (4.5, second), (5, first), (5.5, second), (303, second))):
        yield asked(seconds, End(host.address, first.port + number))


FIRST, OTHER = HOSTS
KINDS: dict[str, Callable[[], Iterable[Sight]]] = {
    "clock-forward": lambda: [*asking(FIRST, 10, 11), asked(20, OTHER), *asking(FIRST, 3612, 3613)],
    "clock-quiet": lambda: [*asking(FIRST, 10, 11), asked(3612, OTHER)],
    "clock-back": lambda: asking(FIRST, 1000, 1001, 901, 902),
    "clock-shaken": lambda: asking(FIRST, 1000, 1001, 1000.999, 1002),
    "to-the-box": to_the_box, "no-address": no_address, "let-in": let_in, "earlier": earlier, "uplink": uplink,
    "server-side": server_side,
    "table": table}


def full() -> Iterator[bytes]:
    """Its records, each of 28 bytes of IPv4 and UDP."""
    server = End(SERVER.address, SERVER.port)
    head = struct.pack("<IIII", 10, 0, 48, 48) + sll2(LAN, COMES)
    for number in range(MOST_CONNECTIONS + 3):
        host, port = divmod(number, 65535)
        if not port:
            start = ip(End(f"192.168.1.{10 + host}", 0), server, 64, 17, 0, bytes(8))[:20]
        yield head + start + struct.pack(">HHHH", port + 1, server.port, 8, 0)


def capture(kind: str) -> bytes:
    if kind == "full":
        return header(276) + b"".join(full())
    if kind in ("mirrored", "repeated"):
        frame = bytes.fromhex("020000000001" "020000000002" "0800")
        packets = [udp(End(FIRST.address, 5000 + number), SERVER, 64) for number in range(4)]
        again = 0.00002 if kind == "mirrored" else 0.3
        return header(1) + b"".join(record(10 + number + later, frame + packet)
                                    for number, packet in enumerate(packets) for later in (0, again))
    return header(276) + b"".join(record(one.seconds, sll2(one.interface, one.way) + one.packet)
                                  for one in KINDS[kind]())


if __name__ == "__main__":
    sys.stdout.buffer.write(capture(sys.argv[1]))
