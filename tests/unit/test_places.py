"""The lexer and the numbering of rules, against places that nftrun names: in stored texts of faults, and in the reports
of rows, which were worked out by hand."""
from __future__ import annotations

import re
import sys
import unittest
from dataclasses import dataclass
from typing import Iterator

from support import TOP
from toolbox.lexer import Token, tokens_of
from toolbox.reports import DECISION, Decision, event_of
from toolbox.rulesets import Rule, Ruleset

sys.path[:0] = [str(TOP / "tests/shared")]

import rows  # noqa: E402

FAULTS = TOP / "tests/rows/faults"
PLACED = re.compile(r"^(\w+\.nft):(\d+):(\d+): (\w+)(?: \(table (\w+ \w+), chain (\w+)(?:, rule (\d+))?\))?: ", re.M)
TRACED = re.compile(r"^trace \d+ (?!outcome)(.*)$", re.M)


@dataclass(frozen=True)
class Place:
    """Where nftrun has a fault: its text, line and column from 1, its code, and the rule where it names one."""

    name: str
    line: int
    column: int
    code: str
    chain: str | None
    rule: int | None


def places() -> Iterator[Place]:
    for name, line, column, code, table, chain, rule in PLACED.findall((FAULTS / "lines.txt").read_text("utf-8")):
        yield Place(name, int(line), int(column), code, f"{table} {chain}" if chain else None,
                    int(rule) if rule else None)


def column_of(token: Token) -> int:
    """Of bytes, from 1."""
    before = token.source.text[:token.start].rpartition("\n")[2]
    return len(before.encode()) + 1


class OfFaults(unittest.TestCase):
    """Each place at which a stored text has a fault."""

    def test_a_token_begins_there(self) -> None:
        seen = 0
        for place in places():
            with self.subTest(place=place):
                tokens = tokens_of((FAULTS / place.name).read_text("utf-8"))
                begins = [(one.line, column_of(one)) for one in tokens]
                is_end = place.line > tokens[-1].line  # behind the last token, where one is missing
                self.assertTrue(is_end or (place.line, place.column) in begins)
                seen += 1
        self.assertGreater(seen, 40)

    def test_the_rule_that_is_named_has_that_token(self) -> None:
        seen = 0
        for place in places():
            # (a counter that counts from no number is refused)
            if place.rule is None or place.chain is None or place.name == "E05_number.nft":
                continue
            with self.subTest(place=place):
                rule = Ruleset((FAULTS / place.name).read_text("utf-8")).rule(place.chain, place.rule)
                self.assertIsNotNone(rule)
                tokens = rule.tokens if rule else []
                self.assertIn((place.line, place.column), [(one.line, column_of(one)) for one in tokens])
                seen += 1
        self.assertGreater(seen, 20)


def is_said(rule: Rule, verdict: str) -> bool:
    """Whether a rule may decide so: by a word of its own, or by a map that is asked."""
    word = verdict.split()[0]
    return word in rule.words or "vmap" in rule.words


class OfRows(unittest.TestCase):
    """Each decision in the reports of rows."""

    def rulesets(self, row: rows.Row) -> Iterator[Ruleset]:
        for text in row.rulesets:
            yield Ruleset(text)
        if row.file:
            yield Ruleset((TOP / "tests/rows" / row.file).read_bytes().decode("utf-8", "surrogateescape"))

    def test_the_rule_that_is_named_decides_so(self) -> None:
        seen = 0
        for path in sorted((TOP / "tests/rows").glob("*.rows")):
            for row in rows.rows(str(path)):
                told = [it.encode() for it in TRACED.findall(row.report())]
                events = [event_of(it) for it in told if DECISION.fullmatch(it)]
                decisions = [one for one in events if isinstance(one, Decision)]
                for ruleset in self.rulesets(row) if decisions else ():
                    with self.subTest(path=path.name, row=row.name):
                        seen += sum(self.check(ruleset, one) for one in decisions)
        self.assertGreater(seen, 100)

    def check(self, ruleset: Ruleset, decision: Decision) -> bool:
        chain = ruleset.by_name.get(decision.chain)
        self.assertIsNotNone(chain, decision)
        if decision.rule is None:
            self.assertEqual(chain and chain.policy, decision.verdict)
            return True
        rule = ruleset.rule(decision.chain, decision.rule)
        self.assertIsNotNone(rule, decision)
        self.assertTrue(rule and is_said(rule, decision.verdict), (decision, rule and rule.text))
        return True


if __name__ == "__main__":
    unittest.main()
