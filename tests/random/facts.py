"""Facts that a packet may have where it comes to a base chain, drawn by chance, and the rules that they come to and
meet by a plain reading of docs/SPEC.md (reading.py): what test-reach compares with the answers of `nftrun reach`.

The facts of one draw need not come of any history: a run may never see them together.
"""
from __future__ import annotations

import struct
from dataclasses import dataclass, field, replace
from typing import AbstractSet, Iterator, Set, Tuple

from drawn import BITS, BOX, LAN, Drawing
from reading import Chain, Head, Interface, Match, Met, Rule, Table, Taken
from rows import datagram
from told_lines import Line, Where, bounds_of
from tracking import ICMP, TCP, UDP, Belonging, Connection, Ends, Kind, Packet, Seen, State, Tracking
from words import KINDS, want_each

Fields = Tuple[str, ...]

# Filter chains on prerouting of this priority or below run before the lookup.
RAW = -200
ROUTED = ("forward", "postrouting")
RUN = ("prerouting", "input", *ROUTED)
KNOWN = (State.NEW, State.ESTABLISHED, State.RELATED)
LEAST_LENGTH, MOST_LENGTH = 20, 65_535  # of an IPv4 packet: that of its header, and of its field


@dataclass
class Reached:
    """What facts came to: rules, those of which they met the last statement, and base chains at whose end they were."""

    rules: Set[Where] = field(default_factory=set)
    met: Set[Where] = field(default_factory=set)
    ended: Set[str] = field(default_factory=set)

    def take(self, other: Reached) -> None:
        """What others came to, too."""
        self.rules |= other.rules
        self.met |= other.met
        self.ended |= other.ended


class Told(Tracking):
    """What rules may read of a connection: whatever was drawn."""

    def __init__(self, state: State, of: Belonging | None, mark: int, status: int) -> None:
        super().__init__(state, of)
        self.mark = mark if of else None
        self.told = status if of else None

    @property
    def status(self) -> int | None:
        return self.told


@dataclass(frozen=True)
class Watched(Rule):
    """A rule that notes who comes to it, and who meets its last statement."""

    where: Where
    reached: Reached

    def verdict(self, met: Met) -> Taken | None:
        self.reached.rules.add(self.where)
        for left, statement in zip(range(len(self.statements), 0, -1), self.statements):
            answer = statement.take(met)
            if answer is False:
                return None
            if left == 1:
                self.reached.met.add(self.where)
            if not isinstance(answer, bool):
                return answer
        return None


def watch(table: Table, reached: Reached) -> None:
    """Has each rule of the table note what comes to it."""
    for chain in table.chains.values():
        chain.rules = [Watched(rule.statements, (chain.path, number), reached)
                       for number, rule in enumerate(chain.rules, 1)]


@dataclass(frozen=True)
class Facts:
    """What rules may read of a packet, by the selectors; a connection where `state` has one. Where the protocol has no
    ports, flags or types, these aren't read."""

    protocol: int
    source: int
    destination: int
    source_port: int
    destination_port: int
    flags: int
    icmp_type: int
    ttl: int
    length: int
    mark: int
    input: Interface
    output: Interface | None
    state: State | None
    is_reply: bool
    status: int
    ct_mark: int
    is_untracked: bool = False

    def packet(self) -> Packet:
        ports = struct.pack(">HH", self.source_port, self.destination_port)
        load = {
            TCP: ports + struct.pack(">IIBBHHH", 1, 0, 0x50, self.flags, 1000, 0, 0),
            UDP: ports + struct.pack(">HH", 8, 0),
            ICMP: struct.pack(">BBHI", self.icmp_type, 0, 0, 0),
        }.get(self.protocol, b"")
        here, there = (address.to_bytes(4, "big") for address in (self.source, self.destination))
        packet = Packet(datagram(self.protocol, here, there, load, self.ttl))
        packet.length = self.length
        return packet

    def met(self) -> Met:
        """The packet on its way, as it comes to a base chain."""
        packet = self.packet()
        met = Met(1, packet, self.input, Seen())
        met.mark, met.output, met.is_untracked = self.mark, self.output, self.is_untracked
        if self.state:
            ends = packet.ends or Ends(Kind("other", self.protocol), packet.source, packet.destination)
            of = Belonging(Connection(ends), self.is_reply) if self.state in KNOWN else None
            met.ct = Told(self.state, of, self.ct_mark, self.status)
        return met


PROTOCOL, STATE = "protocol", "state"
# The fields that selectors read: the last has the value, one before it tells whether there is any.
READS: dict[str, Fields] = {
    "ip saddr": ("source",), "ip daddr": ("destination",), "ip protocol": (PROTOCOL,), "meta l4proto": (PROTOCOL,),
    "ip ttl": ("ttl",), "ip length": ("length",), "meta length": ("length",), "meta mark": ("mark",),
    "meta nfproto": (), "iifname": ("input",), "iif": ("input",), "oifname": ("output",), "oif": ("output",),
    "ct state": (STATE,), "ct mark": (STATE, "ct_mark"), "ct direction": (STATE, "is_reply"),
    "ct status": (STATE, "status"), "tcp flags": (PROTOCOL, "flags"), "icmp type": (PROTOCOL, "icmp_type"),
    **{f"{family} sport": (PROTOCOL, "source_port") for family in ("tcp", "udp", "th")},
    **{f"{family} dport": (PROTOCOL, "destination_port") for family in ("tcp", "udp", "th")},
}
want_each("READS of tests/random/facts.py", READS)
ANY = Facts(TCP, 1, 2, 3, 4, 18, 8, 64, 40, 0, LAN, None, State.NEW, False, 0, 0)
# Of selectors of numbers the field that has it.
FIELDS = {selector: fields[-1] for selector, fields in READS.items()
          if fields and KINDS[selector] not in (*BITS, "ifname", "iface_index", "ct_dir")}
PROTOCOLS = {"tcp": (TCP,), "udp": (UDP,), "th": (TCP, UDP), "icmp": (ICMP,)}


class FactsDrawing(Drawing):
    """Draws facts, of values that rules test."""

    def drawn(self, head: Head) -> Facts:
        """Facts with which a packet can come to a base chain."""
        is_early = head.hook == "prerouting" and head.kind == "filter" and head.priority <= RAW
        state = None if is_early else State.NEW if head.kind == "nat" else self.one(*State)
        return Facts(
            self.one(TCP, TCP, UDP, UDP, ICMP, self.number("inet_proto")), self.address(), self.address(),
            self.port(), self.port(), self.flags(), self.number("icmp_type"), self.number("ip ttl"),
            self.number("ip length"), self.number("mark"), self.one(*BOX.interfaces.values()),
            self.one(*BOX.interfaces.values()) if head.hook in ROUTED else None, state, self.chance(50),
            sum(self.one(0, bit) for bit in (2, 16, 32)), self.number("mark"), is_early and self.chance(20))

    def like(self, line: Line, head: Head) -> Facts:
        """Facts of a line, as far as its matches are taken one by one; one of them is missed often, just beside a
        bound."""
        facts = self.drawn(head)
        missed = self.one(*line) if line and self.chance(40) else None
        for match in line:
            facts = self.with_match(facts, match, match is missed)
        # chains of type nat see first packets alone
        return replace(facts, state=State.NEW) if head.kind == "nat" else facts

    def with_match(self, facts: Facts, match: Match, is_missed: bool) -> Facts:
        """The facts, with a value that the match has at a bound or that lies beside one, or one of all words."""
        (selector,) = match.selectors
        family = selector.split(" ")[0]
        if family in PROTOCOLS and not (is_missed and self.chance(20)):
            facts = replace(facts, protocol=self.one(*PROTOCOLS[family]))
        choices = [replace(facts, **{FIELDS[selector]: number}) for number in bounds_of(match)] \
            if selector in FIELDS else list(self.others(facts, selector))
        fitting = [one for one in choices
                   if LEAST_LENGTH <= one.length <= MOST_LENGTH and bool(match.take(one.met())) != is_missed]
        return self.one(*fitting) if fitting else facts

    def others(self, facts: Facts, selector: str) -> Iterator[Facts]:
        """The facts with each of the values of a selector that has words alone."""
        interfaces = BOX.interfaces.values()
        if selector in ("iif", "iifname"):
            yield from (replace(facts, input=one) for one in interfaces)
        elif selector in ("oif", "oifname") and facts.output:
            yield from (replace(facts, output=one) for one in interfaces)
        elif selector == "ct state" and facts.state:
            yield from (replace(facts, state=one) for one in State)
        elif selector == "ct direction":
            yield from (replace(facts, is_reply=one) for one in (False, True))
        elif selector == "ct status":
            yield from (replace(facts, status=facts.status ^ bit) for bit in (0, 2, 16, 32))
        elif selector == "tcp flags":
            yield from (replace(facts, flags=facts.flags ^ bit) for bit in (0, *(1 << place for place in range(8))))
            yield from (replace(facts, flags=flags) for flags in range(256))


def would_meet(rule: Rule, where: Where, facts: Facts) -> bool:
    """Whether facts meet the last statement of a rule, taken by itself."""
    alone = Reached()
    Watched(rule.statements, where, alone).verdict(facts.met())
    return where in alone.met


def takers(where: Where, came: AbstractSet[Where]) -> set[int]:
    """The rules of the chain to which facts came, and not to the next, before this one."""
    path, number = where
    return {it for it in range(1, number) if (path, it) in came and (path, it + 1) not in came}


def come_to(table: Table, chain: Chain, facts: Facts, reached: Reached) -> None:
    """Takes the facts through a base chain of a watched table, which notes in `reached` what they come to."""
    reached.rules.clear()
    reached.met.clear()
    reached.ended.clear()
    if not chain.run(table, facts.met()):
        reached.ended.add(chain.path)


def base_chains(table: Table) -> list[Chain]:
    """Those that packets run through."""
    return [chain for chain in table.chains.values() if chain.head and chain.head.hook in RUN]
