"""The capture of a busy router on all interfaces, whose answer is known by construction; by struct, as capture.py.

  python3 tests/tools/made/busy.py >in.pcap

It fits tests/tools/rules/router.box.txt. 3,705 connections live at once, and their packets come interleaved: 2,000 of
TCP with 14 packets each, 7 in each direction, and 1,705 of UDP with a question and an answer. So 31,410 packets are
sent on, each with its copy: 62,820 records.

Each source port is used by 4 hosts of TCP, or 5 of UDP, which speak to one server. The first keeps it outside, as on
Linux; the others get one that the router draws: 1,500 and 1,364 connections, 2,864 in all, with 11,864 answers. Source
ports are 16 apart and those drawn lie above them all, so whoever takes the next free port takes none that Linux took.
"""
from __future__ import annotations

import struct
import sys
from dataclasses import dataclass
from typing import Iterator

from capture import COMES, LAN, LEAVES, ROUTER, WAN, End, header, sll2, total

TCP, UDP = 6, 17
TCP_PORTS, TCP_HOSTS, UDP_PORTS, UDP_HOSTS = 500, 4, 341, 5
FIRST_PORT, APART, FIRST_DRAWN = 20000, 16, 40000
SERVERS = tuple(f"198.51.100.{number}" for number in range(1, 8))
SYN, ACK, FIN, PUSH = 2, 16, 1, 8
# the packets of a connection: whether the host sends it, and its flags
TALK = ((True, SYN), (False, SYN | ACK), (True, ACK), (True, PUSH | ACK), (False, ACK), (False, PUSH | ACK),
        (True, ACK), (False, PUSH | ACK), (True, ACK), (False, PUSH | ACK), (True, ACK), (False, FIN | ACK),
        (True, FIN | ACK), (False, ACK))
QUESTION = ((True, 0), (False, 0))
BETWEEN = 20_000  # nanoseconds from one packet to the next


@dataclass(frozen=True)
class Connection:
    """A host, how it is seen outside, and whom it speaks to."""

    protocol: int
    host: End
    outside: End
    server: End


class Drawn:
    """Numbers by chance, the same ones each time (Numerical Recipes' linear generator)."""

    def __init__(self) -> None:
        self.state = 82

    def below(self, bound: int) -> int:
        self.state = (self.state * 1664525 + 1013904223) & 0xFFFFFFFF
        return (self.state >> 8) * bound >> 24


def connections(drawn: Drawn) -> Iterator[Connection]:
    for protocol, ports, hosts, service in ((TCP, TCP_PORTS, TCP_HOSTS, 80), (UDP, UDP_PORTS, UDP_HOSTS, 53)):
        taken: set[int] = set()
        for number in range(ports):
            server, port = End(SERVERS[number % len(SERVERS)], service), FIRST_PORT + APART * number
            for place in range(hosts):
                host = End(f"192.168.1.{10 + (number + 7 * place) % 40}", port)
                outside = port
                while place and (outside == port or outside in taken):
                    outside = FIRST_DRAWN + drawn.below(20000)
                taken.add(outside)
                yield Connection(protocol, host, End(ROUTER, outside), server)


def packet(protocol: int, source: End, destination: End, flags: int, number: int, ttl: int) -> bytes:
    """An IPv4 packet: of TCP with 10 bytes where it pushes data, of UDP with 20."""
    if protocol == TCP:
        data = bytes(10) if flags & PUSH else b""
        body = struct.pack(">HHIIBBHHH", source.port, destination.port, number, 1, 80, flags, 512, 0, 0) + data
        place = 16
    else:
        body = struct.pack(">HHHH", source.port, destination.port, 28, 0) + bytes(20)
        place = 6
    ends = source.packed() + destination.packed()
    check = total(ends + struct.pack(">HH", protocol, len(body)) + body)
    body = body[:place] + struct.pack(">H", check) + body[place + 2:]
    head = struct.pack(">BBHHHBBH", 69, 0, 20 + len(body), number & 0xFFFF, 0, ttl, protocol, 0) + ends
    return head[:10] + struct.pack(">H", total(head)) + head[12:] + body


def record(moment: int, data: bytes) -> bytes:
    seconds, rest = divmod(moment, 10**9)
    return struct.pack("<IIII", seconds, rest, len(data), len(data)) + data


def both(one: Connection, from_host: bool, flags: int, number: int, moment: int) -> bytes:
    """A packet as it comes, and its copy as it leaves."""
    inner, outer = (one.host, one.server), (one.outside, one.server)
    if not from_host:
        inner, outer = (inner[1], inner[0]), (outer[1], outer[0])
    came, left = (inner, outer) if from_host else (outer, inner)
    enters, leaves = (LAN, WAN) if from_host else (WAN, LAN)
    first = sll2(enters, COMES) + packet(one.protocol, *came, flags, number, 64)
    copy = sll2(leaves, LEAVES) + packet(one.protocol, *left, flags, number, 63)
    return record(moment, first) + record(moment + BETWEEN // 2, copy)


def records() -> Iterator[bytes]:
    drawn = Drawn()
    waiting = [(one, iter(TALK if one.protocol == TCP else QUESTION)) for one in connections(drawn)]
    # each has begun before the next one of its port does, as the first keeps it
    begun = [(one, rest, next(rest)) for one, rest in waiting]
    number = 0
    for one, _, (from_host, flags) in begun:
        number += 1
        yield both(one, from_host, flags, number, number * BETWEEN)
    while waiting:
        place = drawn.below(len(waiting))
        one, rest = waiting[place]
        step = next(rest, None)
        if step is None:
            waiting[place] = waiting[-1]
            waiting.pop()
            continue
        number += 1
        yield both(one, *step, number, number * BETWEEN)


if __name__ == "__main__":
    sys.stdout.buffer.write(header(276))
    for data in records():
        sys.stdout.buffer.write(data)
