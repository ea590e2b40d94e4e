"""Makes the capture that bench/tools measures on: a router that masquerades, as tcpdump -i any -y LINUX_SLL2 has it.

Each flow has five packets, each of which enters and leaves: ten records. Of ten flows seven are TCP with a handshake
and an end, two UDP, one is an echo. 28 begin each second, with source ports of Linux's usual range: where a port is
taken Linux chooses one by chance, and a run the next, so that answers to each fifth flow or so are what tools/align
sends elsewhere.
"""
from __future__ import annotations

import heapq
import random
from dataclasses import dataclass, field
from typing import Iterator

from toolbox.captures import SENT_BY_US, TO_US, sll2_header, write_header, write_record
from toolbox.crafted import End, Options, echo_message, ip_packet, tcp_segment, udp_datagram

LAN, WAN = 2, 3
BOX = """interface 2 lan 192.168.0.1/16
interface 3 wan 203.0.113.1/24
route 0.0.0.0/0 wan
default lan
"""
RULES = """table inet filter {
	chain input {
		type filter hook input priority filter; policy drop;
		icmp type echo-request accept
	}

	chain forward {
		type filter hook forward priority filter; policy drop;
		ct state established,related counter accept
		iifname "lan" tcp dport { 80, 443, 8080 } accept
		iifname "lan" meta l4proto { udp, icmp } accept
		log prefix "refused: "
	}
}

table ip nat {
	chain postrouting {
		type nat hook postrouting priority srcnat; policy accept;
		oifname "wan" masquerade
	}
}
"""
# what compare-rulesets compares with: one port closed
CLOSED = RULES.replace("443, ", "")
ROUTER = bytes((203, 0, 113, 1))
HOSTS, SERVERS, PORTS = 200, 40, 28_000
BYTES = 54  # of data in a packet that has some
RECORDS_OF_FLOW = 10
KINDS = ("tcp", "tcp", "udp", "tcp", "ping", "tcp", "tcp", "udp", "tcp", "tcp")  # of ten flows
FLAGS = ("syn", "syn ack", "psh ack", "psh fin ack", "fin ack")  # of the packets of TCP; each second one is a reply
STEPS = 5
BEGIN = 1_700_000_000 * 10**9
STEP = 60_000_000  # nanoseconds between two packets of a flow
APART = 36_000_000  # between the beginnings of two flows
SURE = 130_000_000_000  # after which Linux gives a port to another


class Ports:
    """What Linux chose outside: the host's own port, or where a flow has it, one by chance."""

    def __init__(self, chance: random.Random) -> None:
        self.chance = chance
        self.taken: dict[tuple[str, int, int], int] = {}

    def choose(self, kind: str, server: int, port: int, now: int) -> int:
        while self.taken.get((kind, server, port), -SURE) > now - SURE:
            port = self.chance.randrange(1024, 65536)
        self.taken[kind, server, port] = now
        return port


class Flow:
    """One flow, with its ends inside and outside."""

    def __init__(self, number: int, chance: random.Random, ports: Ports, now: int) -> None:
        self.kind = KINDS[number % 10]
        self.number = number
        host, server = chance.randrange(HOSTS), chance.randrange(SERVERS)
        own = chance.randrange(PORTS) + 32_768
        web = chance.choice((80, 443, 443, 8080))
        target = web if self.kind == "tcp" else 53
        self.inner: End = (bytes((192, 168, 1 + host // 100, 10 + host % 100)), own)
        self.server: End = (bytes((198, 51, 100, 10 + server)), target)
        self.outer: End = (ROUTER, ports.choose(self.kind, server << 16 | target, own, now))

    def packet(self, step: int, client: End, ttl: int) -> bytes:
        """The packet of a step, with the inner or the outer end at the client's place."""
        is_reply = step % 2 == 1
        source, destination = (self.server, client) if is_reply else (client, self.server)
        numbers = {"ttl": ttl, "ipid": self.number * 5 + step & 0xFFFF, "bytes": BYTES}
        if self.kind == "udp":
            options = Options(numbers)
            return ip_packet(source[0], destination[0], 17, udp_datagram(source, destination, options), options)
        if self.kind == "ping":
            message = echo_message("pong" if is_reply else "ping", Options({"id": client[1], "bytes": BYTES}))
            return ip_packet(source[0], destination[0], 1, message, Options(numbers))
        flags = frozenset(FLAGS[step].split())
        numbers["seq"] = self.number * 65_537 + step & 0xFFFFFFFF
        if "ack" in flags:
            numbers["acknum"] = self.number * 65_537 + 1 & 0xFFFFFFFF
        if "psh" not in flags:
            numbers["bytes"] = 0
        options = Options(numbers, flags)
        return ip_packet(source[0], destination[0], 6, tcp_segment(source, destination, options), options)

    def records(self, step: int) -> Iterator[bytes]:
        """What tcpdump sees of a step: the packet as it enters, and as it leaves."""
        is_reply = step % 2 == 1
        came, left = (self.outer, self.inner) if is_reply else (self.inner, self.outer)
        entering, leaving = (WAN, LAN) if is_reply else (LAN, WAN)
        yield sll2_header(entering, TO_US) + self.packet(step, came, 64)
        yield sll2_header(leaving, SENT_BY_US) + self.packet(step, left, 63)


@dataclass(order=True)
class Waiting:
    """A step of a flow that comes at a moment; of one moment the flow that began first."""

    moment: int
    number: int
    step: int
    flow: Flow = field(compare=False)


def write_capture(path: str, records: int) -> None:
    """Writes so many records, of a tenth as many flows."""
    chance, count, begun = random.Random(1), records // RECORDS_OF_FLOW, 0
    ports = Ports(chance)
    waiting: list[Waiting] = []
    with open(path, "wb") as file:
        write_header(file)
        while begun < count or waiting:
            if begun < count and (not waiting or begun * APART <= waiting[0].moment):
                flow = Flow(begun, chance, ports, begun * APART)
                heapq.heappush(waiting, Waiting(begun * APART, begun, 0, flow))
                begun += 1
            one = heapq.heappop(waiting)
            for place, data in enumerate(one.flow.records(one.step)):
                write_record(file, BEGIN + one.moment + 20_000 * place, data)
            if one.step < STEPS - 1:
                heapq.heappush(waiting, Waiting(one.moment + STEP, one.number, one.step + 1, one.flow))
