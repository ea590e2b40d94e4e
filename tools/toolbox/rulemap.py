"""Maps of rule numbers: from each rule of a fitted ruleset to the operator's own rule.

`fit-ruleset --map FILE` writes such a map, and the commands that print rules of a report read it. It is a file of JSON
lines. The first one tells what it is, and of which ruleset:

  {"rule-map": 1, "sha256": "SHA-256 of the fitted text, in hexadecimal", "rules": "rules.nft"}

Each further line is a fitted rule, `chain` and `rule` as reports name it, with the rule that it comes from:

  {"chain": "ip filter fwd", "rule": 4, "was-chain": "ip filter fwd", "was": 3, "file": "rules.nft", "line": 12,
   "text": "tcp dport telnet counter reject", "counters": [1]}

`was` counts the rules of the operator's chain from 1, as they were loaded. Several fitted rules may come from one.
`counters` has, for each counter of the fitted rule, which counter of the old rule it is; the packets of all fitted
counters of one old counter are to be added.
"""
from __future__ import annotations

import hashlib
import json
from dataclasses import dataclass
from typing import Iterable, Mapping, Sequence, Tuple

from toolbox.commands import Refused, printable
from toolbox.outputs import output

VERSION = 1
CounterPlace = Tuple[str, int, int]  # chain and rule, and which of its counters


@dataclass(frozen=True)
class Origin:
    """The operator's rule that a fitted one comes from, and which of its counters the fitted rule has."""

    chain: str
    rule: int
    file: str
    line: int
    text: str
    counters: tuple[int, ...]


class MapFault(Refused):
    """A map that can't be used; the text is one line."""


class RuleMap:
    """What one map tells: `origins` by (chain, rule), and whether it is of a given ruleset."""

    def __init__(self, digest: str, rules: str, origins: dict[tuple[str, int], Origin]) -> None:
        self.digest = digest
        self.rules = rules
        self.origins = origins

    def is_of(self, ruleset: bytes) -> bool:
        """Whether the map was written with this ruleset, given as bytes."""
        return digest_of(ruleset) == self.digest

    def origin(self, chain: str, rule: int | None) -> Origin | None:
        """The old rule of a fitted one, or None where there is none."""
        return None if rule is None else self.origins.get((chain, rule))

    def describe(self, chain: str, rule: int | None) -> str | None:
        """`rules.nft:12 ip filter fwd 3  # text`, or None where the rule isn't mapped."""
        origin = self.origin(chain, rule)
        if origin is None:
            return None
        return f"{printable(origin.file)}:{origin.line} {origin.chain} {origin.rule}  # {printable(origin.text)}"

    def sums(self, numbers: Mapping[tuple[str, int], int]) -> dict[tuple[str, int], int]:
        """Numbers by (chain, rule) of fitted rules, added for each old rule: a dict by (chain, rule)."""
        total: dict[tuple[str, int], int] = {}
        for place, number in numbers.items():
            origin = self.origins.get(place)
            if origin is not None:
                key = origin.chain, origin.rule
                total[key] = total.get(key, 0) + number
        return total

    def counter_sums(
            self, counters: Mapping[CounterPlace, tuple[int, int]]) -> dict[CounterPlace, tuple[int, int]]:
        """(packets, bytes) by (chain, rule, which counter of the rule), added for each old counter."""
        total: dict[CounterPlace, tuple[int, int]] = {}
        for (chain, rule, which), (packets, size) in counters.items():
            origin = self.origins.get((chain, rule))
            if origin is None or not 1 <= which <= len(origin.counters):
                continue
            key = origin.chain, origin.rule, origin.counters[which - 1]
            before = total.get(key, (0, 0))
            total[key] = before[0] + packets, before[1] + size
        return total


def digest_of(ruleset: bytes) -> str:
    return hashlib.sha256(ruleset).hexdigest()


def write(path: str, ruleset: bytes, rules: str, rows: Iterable[tuple[str, int, Origin]]) -> None:
    """Writes the map of a fitted ruleset (bytes); `rows` are (chain, rule, Origin)."""
    head = {"rule-map": VERSION, "sha256": digest_of(ruleset), "rules": rules}
    with output(path) as written, open(written, "w", encoding="ascii") as file:
        print(json.dumps(head), file=file)
        for chain, rule, origin in rows:
            row = {
                "chain": chain,
                "rule": rule,
                "was-chain": origin.chain,
                "was": origin.rule,
                "file": origin.file,
                "line": origin.line,
                "text": origin.text,
                "counters": list(origin.counters),
            }
            print(json.dumps(row), file=file)


def read(path: str) -> RuleMap:
    """The map in a file; MapFault where it is none."""
    try:
        with open(path, encoding="ascii") as file:
            lines = file.read().splitlines()
    except OSError as error:
        raise MapFault(f"{path}: {error.strerror}") from None
    except UnicodeDecodeError:
        raise MapFault(f"{path}: it is no map of rules") from None
    head = parsed(path, 1, lines[0] if lines else "")
    if not isinstance(head, dict) or head.get("rule-map") != VERSION:
        raise MapFault(f"{path}: it is no map of rules, or one of another version")
    origins = {}
    for number, line in enumerate(lines[1:], 2):
        place, origin = row_of(path, number, line)
        origins[place] = origin
    return RuleMap(str(head.get("sha256")), str(head.get("rules")), origins)


def parsed(path: str, number: int, line: str) -> object:
    try:
        return json.loads(line)
    except (ValueError, RecursionError):
        raise MapFault(f"{path}:{number}: it is no line of a map of rules") from None


def row_of(path: str, number: int, line: str) -> tuple[tuple[str, int], Origin]:
    row = parsed(path, number, line)
    try:
        if not isinstance(row, dict):
            raise ValueError
        texts = [row[name] for name in ("chain", "was-chain", "file", "text")]
        numbers = [row[name] for name in ("rule", "was", "line")]
        counters = row["counters"]
        if type(counters) is not list or not all(type(it) is int for it in (*numbers, *counters)):
            raise ValueError
        if not all(type(it) is str for it in texts):
            raise ValueError
        (chain, was_chain, file, text), (rule, was, file_line) = texts, numbers
        return (chain, rule), Origin(was_chain, was, file, file_line, text, tuple(counters))
    except (KeyError, TypeError, ValueError):
        raise MapFault(f"{path}:{number}: it is no line of a map of rules") from None


def map_of(paths: Sequence[str], ruleset: bytes) -> RuleMap | None:
    """Of the maps in several files the one of this ruleset (bytes), or None; MapFault where one can't be read."""
    found: RuleMap | None = None
    for path in paths:
        one = read(path)
        if one.is_of(ruleset):
            found = one
    return found
