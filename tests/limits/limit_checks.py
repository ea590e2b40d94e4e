"""Rulesets and box files at each limit and one past, each with what its check has to print. All was worked out by
hand."""
from __future__ import annotations

import os
from dataclasses import dataclass
from typing import Iterator, Sequence

from sizes import FORWARD

HERE = os.path.dirname(os.path.abspath(__file__))
BOX = "interface 2 lan 192.168.1.1/24\ninterface 3 wan 203.0.113.1/24\nroute 0.0.0.0/0 wan\ndefault lan\n"
# How many bytes a text may have.
MOST_BYTES = 1_048_576


@dataclass(frozen=True)
class Check:
    """What the check of a text has to print: the code of its fault, how many tables, chains and rules a ruleset has, or
    that a box file is accepted."""

    told: str
    text: str


def chain(rules: str) -> str:
    return f"table t {{ chain c {{ {FORWARD} {rules}}} }}"


def jumping(jumps: int, others: str = "") -> str:
    """A chain that jumps, chains behind it that each jump to the next, and what else stands in the table."""
    chains = "".join(f"chain c{n} {{ jump c{n + 1} }} " for n in range(jumps))
    return f"table t {{ {chains}chain c{jumps} {{ goto end }} chain end {{ }} {others} }}"


def chains(count: int) -> str:
    return "table t { " + "".join(f"chain c{n} {{ accept; }}\n" for n in range(count)) + "}"


def paired(number: int, data: int, words: Sequence[str]) -> Iterator[str]:
    """Maps of 20,000 pairs, no two of which share a number, and of one more for this number; these words are their
    data."""
    pairs = ",".join(f"{3 * n}-{3 * n + 1} : {words[n % 2]}" for n in range(20_000)) + f",{number} : {words[data]}"
    kind = "mark" if words[0].isdigit() else "verdict"
    yield f"table t {{ map m {{ type mark : {kind}; elements = {{ {pairs} }} }} }}"
    yield f"table t {{ chain c {{ meta mark {'set meta mark map' if kind == 'mark' else 'vmap'} {{ {pairs} }} }} }}"


def marks(count: int) -> str:
    return f"table t {{ set s {{ type mark; elements = {{ {','.join('0' * count)} }} }} }}"


def lines(name: str) -> Iterator[str]:
    """The lines of a file of texts."""
    with open(f"{HERE}/{name}", encoding="utf-8") as file:
        yield from (line.rstrip("\n") for line in file if not line.startswith("#"))


def nearest() -> Iterator[Check]:
    """Those of nearest.txt."""
    for line in lines("nearest.txt"):
        told, _, rules = line.partition(" | ")
        yield Check(told, rules.replace("\\n", "\n"))


def of_jumps() -> Iterator[Check]:
    """At most 16 jumps, one inside the other; a map counts where it is used."""
    jumps = "map m { type mark : verdict; elements = { 1 : jump c0 } }"
    used = jumps + " chain c { meta mark vmap @m }"
    yield Check("1 18 17", jumping(16))
    yield Check("N05", jumping(17))
    yield Check("1 18 17", jumping(16, jumps))
    yield Check("1 18 17", jumping(15, used))
    yield Check("N05", jumping(16, used))


def of_counts() -> Iterator[Check]:
    """65,536 statements a packet; 16,384 rules, in one chain or each in its own; 65,536 elements; 127 bytes of a log's
    prefix; a text of 1 MiB."""
    yield Check("1 1 1", chain("counter " * 65_535))
    yield Check("N06", chain("counter " * 65_536))
    yield Check("1 1 16384", chain("log\n" * 16_384))
    yield Check("N15", chain("log\n" * 16_385))
    yield Check("1 16384 16384", chains(16_384))
    yield Check("N15", chains(16_385))
    yield Check("1 0 0", marks(65_536))
    yield Check("N15", marks(65_537))
    # Of 20,000 pairs the last shares a number with the first or with the one before.
    for fault, number, data in (None, 1, 0), ("N12", 1, 1), (None, 59_998, 1), ("N12", 59_998, 0), (None, 59_999, 0):
        for words in ("0", "1"), ("accept", "drop"):
            declared, written = paired(number, data, words)
            yield Check(fault or "1 0 0", declared)
            yield Check(fault or "1 1 1", written)
    yield Check("1 1 1", chain(f'log prefix "{"x" * 127}" '))
    yield Check("N09", chain(f'log prefix "{"x" * 128}" '))
    yield Check("0 0 0", "")
    yield Check("0 0 0", "\n" * MOST_BYTES)
    yield Check("E04", "$" * (MOST_BYTES + 1))
    yield Check("0 0 0", "#" + "x" * (MOST_BYTES - 1))
    yield Check("E04", "#" + "x" * MOST_BYTES)


def rulesets() -> Iterator[Check]:
    yield from nearest()
    yield from of_jumps()
    yield from of_counts()


def boxes() -> Iterator[Check]:
    """Box files."""
    for line in lines("boxes.txt"):
        told, mark, rest = line.split(" ", 2)
        text = rest.replace("\\n", "\n").replace("\\t", "\t").replace("\\r", "\r")
        yield Check(told, BOX + text if mark == "|" else text)
    yield Check("B1", "")
    # At most 64 lines of interfaces, 1,024 of routes, and 1,048,576 bytes. What stands twice comes before that, and a
    # line that is none before all.
    interfaces = "default e1\n" + "".join(f"interface {n} e{n} 10.0.0.{n}/8\n" for n in range(1, 65))
    yield Check("accepted", interfaces)
    yield Check("B4", interfaces + "interface 65 e65 10.0.0.65/8\n")
    yield Check("B2", interfaces + "interface 65 e65 10.0.0.64/8\n")
    yield Check("accepted", routes(1_024))
    yield Check("B4", routes(1_024) + "route 11.0.0.0/8 e1\n")
    yield Check("B4", routes(4_000))
    yield Check("B2", routes(4_000) + "route 10.0.0.0/32 e1\n")
    long = BOX + "#" * (MOST_BYTES - len(BOX))
    yield Check("accepted", long)
    yield Check("B4", long + "#")
    yield Check("B1", long + "#\ndefault lan\n")
    yield Check("B4", long + "#\nidle udp 0\n")


def routes(count: int) -> str:
    """A box with so many routes to addresses of their own."""
    written = "".join(f"route 10.0.{n // 256}.{n % 256}/32 e1\n" for n in range(count))
    return "interface 1 e1 192.168.1.1/24\ndefault e1\n" + written
