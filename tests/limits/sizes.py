"""Runs of the sizes that users have, for tests/limits/test-limits: large sets and maps, long rules, many tables,
connections and mappings.

What each has to give is worked out by plain means, rule by rule in the order of SPEC.md. It judges runs, so it stands
neither on tools/toolbox nor on what the program writes.
"""
from __future__ import annotations

import enum
import struct
from dataclasses import dataclass
from typing import Callable, Iterable, Iterator, Sequence

from plain import MICROSECONDS, OUT_HEADER, RAW_IP, TOTALS, file_header, record

HEADER = file_header(MICROSECONDS, 0xFFFF, RAW_IP)
BOX = "interface 2 lan 192.168.0.1/16\ninterface 3 wan 203.0.113.1/24\nroute 0.0.0.0/0 wan\ndefault lan\n"
LAN, WAN = 2, 3
TCP, UDP = 6, 17
FORWARD = "type filter hook forward priority 0;"
SERVER = 0xC6336407  # 198.51.100.7
EXTERNAL = 0xCB007101  # 203.0.113.1
# TCP's checksum in the packets that come, which needn't be right.
CHECK = 0x1234


@dataclass(frozen=True)
class Wanted:
    """What a run has to give."""

    status: int
    errors: str
    report: str
    sent: bytes


@dataclass(frozen=True)
class Trial:
    """A run, with more words for it, and what it has to give."""

    rules: str
    box: str
    capture: bytes
    wanted: Wanted
    words: Sequence[str] = ()


@dataclass(frozen=True)
class End:
    """An address and a port."""

    address: int
    port: int


def totals(**counts: int) -> str:
    """The lines of a report's end; all that aren't named are 0."""
    return "".join(f"{name} {counts.get(name.removeprefix('drop '), 0)}\n" for name in TOTALS)


def dotted(address: int) -> str:
    return ".".join(str(address >> shift & 255) for shift in (24, 16, 8, 0))


def halves(address: int) -> int:
    """The sum of the two words of an address."""
    return (address >> 16) + (address & 0xFFFF)


def packet(kind: int, source: End, to: End, ttl: int = 64, check: int = CHECK) -> bytes:
    """A packet of TCP (a SYN) or UDP without data; UDP's is without a checksum."""
    if kind == UDP:
        load = struct.pack(">HHHH", source.port, to.port, 8, 0)
    else:
        load = struct.pack(">HHIIBBHHH", source.port, to.port, 0, 0, 0x50, 2, 0, check, 0)
    words = 0x4500 + 20 + len(load) + (ttl << 8 | kind) + halves(source.address) + halves(to.address)
    whole = 0xFFFF - (words % 0xFFFF or 0xFFFF)
    header = struct.pack(">HHIBBHII", 0x4500, 20 + len(load), 0, ttl, kind, whole, source.address, to.address)
    return header + load


def udp(source: int, to: int = 53, ttl: int = 64) -> bytes:
    """UDP from port 5000 of this address to the server."""
    return packet(UDP, End(source, 5000), End(SERVER, to), ttl)


def came(content: bytes, second: int = 1) -> bytes:
    """The record of a packet as it comes."""
    return record(content, second)


def left(content: bytes, interface: int = WAN, second: int = 1) -> bytes:
    """The record of a packet that leaves by this interface."""
    return record(struct.pack("<IIHBBQ", 8, interface << 24, 0x100, 4, 0, 0) + content, second)


def passing(sources: Iterable[int]) -> bytes:
    """UDP from these addresses as it comes."""
    return HEADER + b"".join(came(udp(source)) for source in sources)


def passed(sources: Iterable[int]) -> bytes:
    """The same as it leaves, not translated."""
    return OUT_HEADER + b"".join(left(udp(source, ttl=63)) for source in sources)


def counted(chain: str, rule: int, packets: int, number: int = 1) -> str:
    """The line of a counter that began at 0, where each packet has 28 bytes."""
    return f"counter ip t {chain} {rule} {number} packets {packets} bytes {28 * packets}\n"


def set_of_many() -> Trial:
    """A set of as many elements as there may be, no two side by side, and a packet from each and from each between
    them."""
    count, first = 65_536, 0x0A000000
    elements = ",".join(dotted(first + 2 * (n * 40_503 % count)) for n in range(count))
    rules = f"table t {{ set s {{ type ipv4_addr; elements = {{ {elements} }} }} "
    rules += f"chain c {{ {FORWARD} ip saddr @s counter drop }} }}"
    told = counted("c", 1, count) + totals(records=2 * count, passed=count, rule=count, begun=count, live=count)
    sent = passed(range(first + 1, first + 2 * count, 2))
    return Trial(rules, BOX, passing(range(first, first + 2 * count)), Wanted(0, "", told, sent))


def verdict_maps() -> Iterator[Trial]:
    """A verdict map of 10,000 pairs to 1,000 chains, declared and written in its rule; a packet from each address of a
    pair and from each between them."""
    count, targets, first = 10_000, 1_000, 0x0A000000
    pairs = ",".join(f"{dotted(first + 2 * n)} : jump c{n % targets}" for n in range(count))
    chains = "".join(f"chain c{n} {{ counter {'drop' if n % 2 else 'accept'}; }}\n" for n in range(targets))
    told = "".join(counted(f"c{n}", 1, count // targets) for n in range(targets)) + counted("c", 2, count)
    dropped, others = count // 2, 2 * count - count // 2
    told += totals(records=2 * count, passed=others, rule=dropped, begun=others, live=others)
    sources = [n for n in range(first, first + 2 * count) if (n - first) % 4 != 2]
    named = f"map m {{ type ipv4_addr : verdict; elements = {{ {pairs} }} }}"
    for declared, reference in ((named, "@m"), ("", f"{{ {pairs} }}")):
        rules = f"table t {{ {declared}\n{chains} chain c {{ {FORWARD} ip saddr vmap {reference}; counter; }} }}"
        yield Trial(rules, BOX, passing(range(first, first + 2 * count)), Wanted(0, "", told, passed(sources)))


def marks_by_maps() -> Trial:
    """Marks of packets and connections by maps of 10,000 pairs, and then a verdict by each mark; a packet to each
    port."""
    count, marks, host = 10_000, 100, 0xC0A8010A
    by_port = ",".join(f"{port}:{port * 37 % marks}" for port in range(count))
    other = ",".join(f"{port}:{port // marks}" for port in range(count))
    chains = "".join(f"chain {name}{n} {{ counter; }}\n" for name in "ab" for n in range(marks))
    jumps = {name: ",".join(f"{n} : jump {name}{n}" for n in range(marks)) for name in "ab"}
    rules = f"table t {{ map m {{ type inet_service : mark; elements = {{ {by_port} }} }}\n"
    rules += f"{chains} chain c {{ {FORWARD}\n"
    rules += f"meta mark set udp dport map @m\nct mark set udp dport map {{ {other} }}\n"
    rules += f"meta mark vmap {{ {jumps['a']} }}\nct mark vmap {{ {jumps['b']} }} }} }}"
    # Ports beyond the maps' have a mark of 0 in the packet and in the connection.
    ports = range(count + 50)
    told = "".join(counted(f"{name}{n}", 1, count // marks + (0 if n else 50)) for name in "ab" for n in range(marks))
    told += totals(records=len(ports), passed=len(ports), begun=len(ports), live=len(ports))
    capture = HEADER + b"".join(came(udp(host, port)) for port in ports)
    sent = OUT_HEADER + b"".join(left(udp(host, port, 63)) for port in ports)
    return Trial(rules, BOX, capture, Wanted(0, "", told, sent))


def addresses_by_maps() -> Trial:
    """Destinations by a map of 20,000 ports, and sources by one of 20,000 addresses to 200; each answer comes back
    through both."""
    count, outside, first, servers, shared = 20_000, 200, 0x0A000000, 0xC6120000, 0xC6130000
    to = ",".join(f"{n}:{dotted(servers + n)}" for n in range(count))
    of = ",".join(f"{dotted(first + n)}:{dotted(shared + n % outside)}" for n in range(count))
    rules = f"table t {{ map m {{ type inet_service : ipv4_addr; elements = {{ {to} }} }}\n"
    rules += "chain p { type nat hook prerouting priority dstnat; dnat to udp dport map @m }\n"
    rules += f"chain s {{ type nat hook postrouting priority srcnat; snat to ip saddr map {{ {of} }} }} }}"
    capture, sent = [HEADER], [OUT_HEADER]
    for n in range(count):
        host, server, asked = End(first + n, 5000), End(servers + n, n), End(EXTERNAL, n)
        # All send from port 5000; the ones before have taken the even ports behind it.
        known = End(shared + n % outside, 5000 + 2 * (n // outside))
        capture += [came(packet(UDP, host, asked)), came(packet(UDP, server, known))]
        sent += [left(packet(UDP, known, server, 63)), left(packet(UDP, asked, host, 63))]
    # No map has this port: it is for the box.
    capture.append(came(packet(UDP, End(first, 5000), End(EXTERNAL, count))))
    told = totals(records=2 * count + 1, passed=2 * count, local=1, begun=count + 1, live=count + 1)
    return Trial(rules, BOX, b"".join(capture), Wanted(0, "", told, b"".join(sent)))


def long_rule() -> Trial:
    """A rule of 30,001 statements, in whose middle packets of one host come to an end."""
    count = 10_000
    statements = [f"counter packets {n} bytes {2 * n} meta mark set {n} meta mark {n}" for n in range(count)]
    statements.insert(count // 2, "ip saddr != 192.168.1.11")
    rules = f"table t {{ chain c {{ {FORWARD} policy drop; {' '.join(statements)} accept }} }}"
    come = [0xC0A8010A, 0xC0A8010B, 0xC0A8010C]
    told = ""
    for n in range(count):
        packets = 3 if n < count // 2 else 2
        told += f"counter ip t c 1 {n + 1} packets {n + packets} bytes {2 * n + 28 * packets}\n"
    told += totals(records=3, passed=2, rule=1, begun=2, live=2)
    return Trial(rules, BOX, passing(come), Wanted(0, "", told, passed(come[::2])))


class Stage(enum.IntEnum):
    """When base chains run, in their order."""

    RAW = 0
    EARLY = 1  # prerouting, before -100
    DESTINATION = 2
    PREROUTING = 3
    FORWARD = 4
    POSTROUTING = 5  # before source NAT
    SOURCE = 6
    LATE = 7


@dataclass(frozen=True)
class BaseChain:
    """A base chain of many_tables: a name, its type and hook, and the priority of the one in table n. Some are
    equal."""

    name: str
    kind: str
    priority: Callable[[int], int]


BASE_CHAINS = (
    BaseChain("p", "filter hook prerouting", lambda n: 4 * (37 * n % 100) - 300),
    BaseChain("d", "nat hook prerouting", lambda n: 11 * n % 7),
    BaseChain("f", "filter hook forward", lambda n: 29 * n % 50 - 20),
    BaseChain("s", "filter hook postrouting", lambda n: 4 * (13 * n % 100) - 100),
    BaseChain("m", "nat hook postrouting", lambda n: 3 * n % 100),
)
TABLES, TRANSLATING = 100, 50


@dataclass(frozen=True, order=True)
class Met:
    """A base chain in the order in which packets meet them."""

    stage: Stage
    priority: int
    table: int
    name: str

    @property
    def translates(self) -> bool:
        return (self.name, self.table) == ("m", TRANSLATING)


def stage(name: str, priority: int) -> Stage:
    """When base chains of this name and priority run."""
    if name == "p":
        return Stage.RAW if priority <= -200 else Stage.EARLY if priority < -100 else Stage.PREROUTING
    if name == "s":
        return Stage.POSTROUTING if priority < 100 else Stage.LATE
    return {"d": Stage.DESTINATION, "f": Stage.FORWARD, "m": Stage.SOURCE}[name]


def text_of_tables() -> str:
    """Tables with five base chains each. That of source NAT which translates is in the midst of those."""
    rules = ""
    for n in range(TABLES):
        rules += f"table ip t{n} {{ "
        for chain in BASE_CHAINS:
            rule = "counter snat to 203.0.113.9" if (chain.name, n) == ("m", TRANSLATING) else "counter"
            rules += f"chain {chain.name} {{ type {chain.kind} priority {chain.priority(n)}; {rule} }} "
        rules += "}\n"
    return rules


def many_tables() -> Trial:
    """A hundred tables with five base chains each, in whose order two packets of a connection meet them."""
    order = sorted(Met(stage(chain.name, chain.priority(n)), chain.priority(n), n, chain.name)
                   for n in range(TABLES) for chain in BASE_CHAINS)
    end = next(one for one in order if one.translates)
    met = {1: [one for one in order if one.stage is not Stage.SOURCE or one <= end],
           2: [one for one in order if one.stage not in (Stage.DESTINATION, Stage.SOURCE)]}
    told = ""
    for number, chains in met.items():
        for one in chains:
            told += f"trace {number} ip t{one.table} {one.name} " + ("1 snat\n" if one is end else "policy accept\n")
        told += f"trace {number} outcome passed\n"
    for n in range(TABLES):
        for chain in BASE_CHAINS:
            packets = sum((n, chain.name) == (one.table, one.name) for chains in met.values() for one in chains)
            told += f"counter ip t{n} {chain.name} 1 1 packets {packets} bytes {28 * packets}\n"
    told += totals(records=2, passed=2, begun=1, live=1)
    sent = OUT_HEADER + 2 * left(udp(0xCB007109, ttl=63))
    return Trial(text_of_tables(), BOX, passing(2 * [0xC0A8010A]), Wanted(0, "", told, sent), ["--trace"])


MASQUERADE = """table ip nat { chain post { type nat hook postrouting priority srcnat; oifname "wan" masquerade } }
table ip t { chain c { type filter hook forward priority 0; ct state new counter; ct state established counter } }
"""


def external_ports(ports: Iterable[int]) -> Iterator[int]:
    """The external port of each of these ports in turn, each of another internal endpoint: the first free one of its
    parity, from itself upward, then from the least. None is below 1024."""
    behind = list(range(65_538))

    def free_from(port: int) -> int:
        while behind[port] != port:
            behind[port] = behind[behind[port]]
            port = behind[port]
        return port

    for old in ports:
        port = free_from(old)
        if port > 65_535:
            port = free_from(1024 + old % 2)
        behind[port] = port + 2
        yield port


def corrected(old: End, new: End) -> int:
    """TCP's checksum where this address and port become others."""
    return (CHECK + halves(old.address) + old.port - halves(new.address) - new.port) % 0xFFFF


@dataclass(frozen=True)
class Conversation:
    """Of which protocol it is, an internal endpoint, what that is outside, and where it sends to."""

    kind: int
    inside: End
    outside: End
    peer: End


def conversations() -> Iterator[Conversation]:
    """60,000 endpoints of UDP and 40,000 of TCP to one server, three hosts to a port, and 20,000 further servers to
    which the first endpoint sends."""
    for kind, count, to in (UDP, 60_000, 53), (TCP, 40_000, 80):
        inside = [End(0xC0A80200 + n % 600, 1024 + 7_919 * n % 20_000) for n in range(count)]
        for end, port in zip(inside, external_ports(end.port for end in inside)):
            yield Conversation(kind, end, End(EXTERNAL, port), End(SERVER, to))
        if kind == UDP:
            first = inside[0]
            for n in range(20_000):
                yield Conversation(kind, first, End(EXTERNAL, first.port), End(0xC6120000 + n, 53))


def many_mappings() -> Trial:
    """120,000 connections with 100,000 mappings, each with an answer. When all have expired another host gets the first
    port."""
    there: list[bytes] = []
    back: list[bytes] = []
    there_out: list[bytes] = []
    back_out: list[bytes] = []
    for one in conversations():
        there.append(came(packet(one.kind, one.inside, one.peer)))
        there_out.append(left(packet(one.kind, one.outside, one.peer, 63, corrected(one.inside, one.outside))))
        back.append(came(packet(one.kind, one.peer, one.outside)))
        back_out.append(left(packet(one.kind, one.peer, one.inside, 63, corrected(one.outside, one.inside)), LAN))
    server = End(SERVER, 53)
    last, last_out = packet(UDP, End(0xC0A8C801, 1024), server), packet(UDP, End(EXTERNAL, 1024), server, 63)
    capture = b"".join([HEADER, *there, *back, came(last, 400)])
    sent = b"".join([OUT_HEADER, *there_out, *back_out, left(last_out, WAN, 400)])
    octets = 80_000 * 28 + 40_000 * 40
    told = f"counter ip t c 1 1 packets 120001 bytes {octets + 28}\n"
    told += f"counter ip t c 2 1 packets 120000 bytes {octets}\n"
    told += totals(records=240_001, passed=240_001, begun=120_001, live=1)
    return Trial(MASQUERADE, BOX, capture, Wanted(0, "", told, sent))


def runs_of_sizes() -> Iterator[Trial]:
    yield set_of_many()
    yield from verdict_maps()
    yield marks_by_maps()
    yield addresses_by_maps()
    yield long_rule()
    yield many_tables()
    yield many_mappings()
