"""What `nftrun reach --sets` says: of each rule whether packets can meet it, and which facts they have then.

A line of a set is a conjunction of matches of nft(8). As a match fails without a value, one of a field that only some
packets have (a port, a direction) tells that they have it.
"""
from __future__ import annotations

import re
from dataclasses import dataclass, field, replace
from ipaddress import IPv4Address
from typing import Callable, Iterator, Mapping, Tuple

from toolbox.boxes import Box
from toolbox.commands import Refused
from toolbox.language import NFT
from toolbox.lexer import Kind, Token, tokens_of
from toolbox.number_sets import Numbers
from toolbox.packets import ICMP, TCP, UDP

Place = Tuple[str, int]  # a chain as reports name it, and the number of a rule

MET, CAN_APPLY = "met", "can apply"
# the fields of facts, by the selectors that read them
INPUT, OUTPUT, STATE, DIRECTION, STATUS, CT_MARK = "iif", "oif", "ct state", "ct direction", "ct status", "ct mark"
PROTOCOL, SOURCE, DESTINATION, SOURCE_PORT, DESTINATION_PORT = "ip protocol", "ip saddr", "ip daddr", "sport", "dport"
FLAGS, ICMP_TYPE, LENGTH, TTL, MARK = "tcp flags", "icmp type", "ip length", "ip ttl", "meta mark"
NO_STATE, INVALID, ESTABLISHED, RELATED, NEW, UNTRACKED = 0, 1, 2, 4, 8, 64
STATES = Numbers.listed((NO_STATE, INVALID, ESTABLISHED, RELATED, NEW, UNTRACKED))
ORIGINAL, REPLY = 0, 1
SEEN_REPLY, SNAT, DNAT = 2, 16, 32
STATUSES = Numbers.listed(seen + source + target for seen in (0, 2) for source in (0, 16) for target in (0, 32))
PORTED, OF_CONNECTIONS = Numbers.listed((TCP, UDP)), Numbers.listed((ESTABLISHED, RELATED, NEW))
# selectors by the field that they read, and what else a value of them tells
INTERFACES = {"meta iif": INPUT, "meta iifname": INPUT, "meta oif": OUTPUT, "meta oifname": OUTPUT}
OTHER_NAMES = {
    "meta l4proto": PROTOCOL, "meta length": LENGTH, **INTERFACES,
    **{name: port for name in NFT.selectors for port in (SOURCE_PORT, DESTINATION_PORT) if name.endswith(f" {port}")},
}
# what a field may be: as its selectors are wide, where nothing else is known
DOMAINS: Mapping[str, Numbers] = {
    **{OTHER_NAMES.get(name, name): Numbers.between(0, (1 << one.width) - 1) for name, one in NFT.selectors.items()},
    STATE: STATES, STATUS: STATUSES, DIRECTION: Numbers.between(0, 1), LENGTH: Numbers.between(0, 65535),
    **{name: Numbers.between(1, (1 << 31) - 1) for name in (INPUT, OUTPUT)},
}
TELLS: Mapping[str, tuple[str, Numbers]] = {
    "tcp": (PROTOCOL, Numbers.listed([TCP])), "udp": (PROTOCOL, Numbers.listed([UDP])), "th": (PROTOCOL, PORTED),
    "icmp": (PROTOCOL, Numbers.listed([ICMP])),
    **{name: (STATE, OF_CONNECTIONS) for name in (DIRECTION, STATUS, CT_MARK)},
}
BITS = (STATE, STATUS, FLAGS)
OPERATORS = ("==", "!=", "<", ">", "<=", ">=")
FIRST_WORDS = {name.split(" ")[0] for name in NFT.selectors}
LINE = re.compile("(rule|policy) (\\S+ \\S+ \\S+)(?: ([0-9]+))? (.*)")
SET_LINE = re.compile("  (reached|met|ends) in (\\S+): (.*)")
MORE = re.compile("(?:at least )?([0-9]+) more")


@dataclass(frozen=True)
class Facts:
    """A set of facts that packets may have: for some fields which numbers. Other fields may be anything."""

    fields: Mapping[str, Numbers] = field(default_factory=dict)

    def of(self, name: str) -> Numbers:
        return self.fields.get(name, DOMAINS[name])

    def within(self, name: str, numbers: Numbers) -> Facts | None:
        """Those of the facts with one of the numbers in a field, or None where there are none."""
        common = numbers & self.of(name)
        return Facts({**self.fields, name: common}) if common else None

    def without(self, *names: str) -> Facts:
        """With anything in these fields."""
        return Facts({name: numbers for name, numbers in self.fields.items() if name not in names})

    def only(self, *names: str) -> Facts:
        """With anything in all other fields."""
        return Facts({name: numbers for name, numbers in self.fields.items() if name in names})

    def __and__(self, other: Facts) -> Facts | None:
        small, large = sorted((self.fields, other.fields), key=len)
        joined = dict(large)
        for name, numbers in small.items():
            if name in joined:
                numbers = numbers & joined[name]
            if not numbers:
                return None
            joined[name] = numbers
        return Facts(joined)


ANYTHING = Facts()


@dataclass(frozen=True)
class ToldSet:
    """Facts of packets that came to a base chain, a line each; `is_whole` where no line is left out."""

    lines: Mapping[str, tuple[Facts, ...]] = field(default_factory=dict)
    is_whole: bool = True

    def with_line(self, base: str, facts: Facts) -> ToldSet:
        return replace(self, lines={**self.lines, base: (*self.lines.get(base, ()), facts)})


@dataclass(frozen=True)
class RuleAnswer:
    """What is said of a rule, and the facts that come to it, and that meet it."""

    answer: str
    reached: ToldSet = ToldSet()
    met: ToldSet = ToldSet()


@dataclass(frozen=True)
class Told:
    """All that is said: of rules, and of base chains with the facts that come to their ends."""

    rules: Mapping[Place, RuleAnswer]
    ends: Mapping[str, ToldSet]


# Lines


def told_of(text: str, box: Box) -> Told:
    """What the lines of standard output say; base chains have their whole names, as FAMILY TABLE CHAIN."""
    rules: dict[Place, RuleAnswer] = {}
    ends: dict[str, ToldSet] = {}
    table, current = "", None
    for line in text.splitlines():
        head, of_set = LINE.fullmatch(line), SET_LINE.fullmatch(line)
        if head:
            table = head[2].rsplit(" ", 1)[0]
            current = (head[2], int(head[3] or 0))
            if head[1] == "rule":
                rules[current] = RuleAnswer(head[4])
            else:
                ends[head[2]] = ToldSet()
        elif of_set and current is not None:
            base = f"{table} {of_set[2]}"
            if of_set[1] == "ends":
                ends[base] = grown(ends.get(base, ToldSet()), base, of_set[3], box)
            else:
                before = rules[current]
                old = before.reached if of_set[1] == "reached" else before.met
                rules[current] = replace(before, **{of_set[1]: grown(old, base, of_set[3], box)})
        else:
            raise Refused(f"no line of nftrun reach --sets: {line}")
    return Told(rules, ends)


def grown(told: ToldSet, base: str, text: str, box: Box) -> ToldSet:
    """With one line more."""
    if MORE.fullmatch(text):
        return replace(told, is_whole=False)
    facts = facts_of(text, box)
    return told.with_line(base, facts) if facts else told


def facts_of(text: str, box: Box) -> Facts | None:
    """The facts of a line, or None where the box has no such packets, as by an interface that it lacks."""
    facts: Facts | None = ANYTHING
    if text == "any packet":
        return facts
    reader = Reader(text)
    while facts and not reader.is_done():
        for name, numbers in match_of(reader, box):
            facts = facts and facts.within(name, numbers)
    return facts


# Matches


class Reader:
    """The tokens of a line, from the front."""

    def __init__(self, text: str) -> None:
        self.text, self.tokens, self.at = text, tokens_of(text), 0

    def is_done(self) -> bool:
        return self.at == len(self.tokens)

    def seen(self) -> str:
        return "" if self.is_done() else self.tokens[self.at].text

    def take(self) -> Token:
        if self.is_done():
            raise self.refusal()
        self.at += 1
        return self.tokens[self.at - 1]

    def took(self, *texts: str) -> str | None:
        """The next text if it is one of these."""
        if self.seen() in texts and not self.is_done():
            return self.take().text
        return None

    def want(self, text: str) -> None:
        if self.took(text) is None:
            raise self.refusal()

    def refusal(self) -> Refused:
        return Refused(f"no facts of nftrun reach --sets: {self.text}")


def match_of(reader: Reader, box: Box) -> Iterator[tuple[str, Numbers]]:
    """What a match tells of fields."""
    name = reader.take().text
    if name in FIRST_WORDS:
        name = f"{name} {reader.take().text}"
    if name in NFT.without_meta:
        name = f"meta {name}"
    if name not in NFT.selectors:
        raise reader.refusal()
    field_name, tells = OTHER_NAMES.get(name, name), TELLS.get(name) or TELLS.get(name.partition(" ")[0])
    if tells:
        yield tells
    domain = DOMAINS[field_name] if field_name != STATE else STATES - Numbers.listed([NO_STATE])
    yield field_name, tested(reader, name, domain, values_of(name, box))


ValueOf = Callable[[Token], int]


def tested(reader: Reader, name: str, domain: Numbers, value: ValueOf) -> Numbers:
    """The numbers of the domain that the operator and the values behind it let pass."""
    if name == FLAGS and reader.took("&"):
        mask = bits_in_group(reader, value)
        is_other = reader.take().text == "!="
        wanted = bits_in_group(reader, value)
        return picked(domain, lambda number: (number & mask == wanted) != is_other)
    operator = reader.took(*OPERATORS) or ""
    if name in BITS and reader.seen() != "{":
        bits = bits_in_group(reader, value)
        if operator == "==":
            return picked(domain, lambda number: number == bits)
        return picked(domain, lambda number: (number & bits != 0) != (operator == "!="))
    ranges = list(ranges_of(reader, value))
    low, high = ranges[0]
    if operator in ("<", "<=", ">", ">="):
        orders = {"<": (0, low - 1), "<=": (0, low), ">": (high + 1, domain.ranges[-1][1]),
                  ">=": (high, domain.ranges[-1][1])}
        return domain & Numbers.of([orders[operator]])
    return domain - Numbers.of(ranges) if operator == "!=" else domain & Numbers.of(ranges)


def picked(domain: Numbers, test: Callable[[int], bool]) -> Numbers:
    return Numbers.listed(filter(test, domain))


def values_of(name: str, box: Box) -> ValueOf:
    """What reads a value of a selector."""
    words = box.indices if name in INTERFACES else NFT.words_of(name)
    missing = -1  # no packet's: an interface that the box lacks

    def value(token: Token) -> int:
        if token.kind is Kind.NUMBER:
            return int(token.text, 0)
        if token.kind is Kind.ADDRESS:
            return int(IPv4Address(token.text))
        text = token.text.strip('"')
        if words is box.indices:
            return words.get(text, missing)
        if text not in words:
            raise Refused(f"no value of {name}: {token.text}")
        return words[text]

    return value


def bits_in_group(reader: Reader, value: ValueOf) -> int:
    """The bits of a list, which may stand in parentheses."""
    is_group = reader.took("(")
    bits = value(reader.take())
    while reader.took(",", "|"):
        bits |= value(reader.take())
    if is_group:
        reader.want(")")
    return bits


def ranges_of(reader: Reader, value: ValueOf) -> Iterator[tuple[int, int]]:
    """The ranges of one element, or of a set of them."""
    if not reader.took("{"):
        yield range_of(reader, value)
        return
    while True:
        yield range_of(reader, value)
        if not reader.took(","):
            break
    reader.want("}")


def range_of(reader: Reader, value: ValueOf) -> tuple[int, int]:
    low = value(reader.take())
    if reader.took("-"):
        return low, value(reader.take())
    if reader.took("/"):
        host = (1 << 32 - int(reader.take().text)) - 1
        return low & ~host, low | host
    return low, low
