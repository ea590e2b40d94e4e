"""What judges `nftrun diff` (tests/random): that it finds faults in answers, and none in right ones."""
from __future__ import annotations

import random
import re
import sys
import unittest
from dataclasses import replace
from typing import Sequence

from support import TOP

sys.path.insert(0, str(TOP / "tests/random"))

from drawn import WrittenChain, WrittenTable  # noqa: E402
from facts import ANY, Facts  # noqa: E402
from hand_made import MadePair, faults, made_pairs, wanted_of  # noqa: E402
from judging import Judged, judging  # noqa: E402
from near import StageDrawing  # noqa: E402
from pairs import paired  # noqa: E402
from reading import Chain, Head, IsPart, Match, Notrack, Rule, SetMark, Span, Statement  # noqa: E402
from reading import Translate, Verdict, Word  # noqa: E402
from rewriting import RulesetPair  # noqa: E402
from stages import BY_NAME, Pair, Result, Ruleset  # noqa: E402
from stand_in_diff import answer  # noqa: E402
from told_diff import Differences, class_of, differences_in  # noqa: E402
from translating import Ports  # noqa: E402

FORWARD = Head("forward", "filter", 0, Word.DROP)
SEEDS = range(1, 25)


def port(number: int) -> Match:
    return Match(("tcp dport",), "", IsPart("", Span(number, number)), f"tcp dport {number}")


def mark(number: int) -> SetMark:
    return SetMark("meta mark", number, f"meta mark set {number}")


def rules(*statements: Sequence[Statement]) -> list[Rule]:
    return [Rule(one) for one in statements]


def table(*chains: Chain) -> WrittenTable:
    return WrittenTable("ip", "t", [WrittenChain(one, "a head" if one.head else "") for one in chains], [])


def judged(old: WrittenTable, new: WrittenTable, told: str, is_same: bool = False) -> Judged:
    pair = RulesetPair((old,), (new,), ["a change"], is_same)
    return judging(pair, differences_in(told), StageDrawing(random.Random(1), False)).judged(60)


def facts(**fields: object) -> Facts:
    return replace(ANY, **{"mark": 3, "ct_mark": 4, **fields})  # type: ignore[arg-type]


class OfStages(unittest.TestCase):
    def test_chains_in_turn(self) -> None:
        ruleset = Ruleset([table(
            Chain("last", rules([mark(9), Verdict(Word.ACCEPT)]), Head("forward", "filter", 5, None)),
            Chain("first", rules([port(4), mark(8), Verdict(Word.ACCEPT)]), Head("forward", "filter", -5, Word.DROP)),
        ).table])
        self.assertEqual(ruleset.result("forward", facts()), Result("accept", "by rule 1 of ip t last", 9, 4, False))
        self.assertEqual(ruleset.result("forward", facts(protocol=17)),
                         Result("drop", "by the policy of ip t first", 3, 4, False))
        self.assertEqual(ruleset.result("input", facts()), Result("accept", "without a chain", 3, 4, False))

    def test_stages_by_priority(self) -> None:
        for hook, kind, priority, name in (
                ("prerouting", "filter", -200, "prerouting before conntrack"),
                ("prerouting", "filter", -199, "prerouting before dstnat"),
                ("prerouting", "filter", -101, "prerouting before dstnat"),
                ("prerouting", "nat", 300, "prerouting nat"),
                ("prerouting", "filter", -100, "prerouting after dstnat"), ("input", "filter", -300, "input"),
                ("postrouting", "filter", 99, "postrouting before srcnat"),
                ("postrouting", "nat", 0, "postrouting nat"),
                ("postrouting", "filter", 100, "postrouting after srcnat")):
            ruleset = Ruleset([table(Chain("c", [], Head(hook, kind, priority, Word.DROP))).table])
            drops = [stage for stage in BY_NAME if ruleset.result(stage, facts()).verdict == "drop"]
            self.assertEqual(drops, [name], (hook, kind, priority))

    def test_a_called_chain_and_nat(self) -> None:
        nat = Translate("snat", 0x01020304, Ports(5, 6), "snat to 1.2.3.4:5-6")
        ruleset = Ruleset([table(Chain("called", rules([port(4), nat])), Chain(
            "post", rules([Verdict(Word.JUMP, "called")]), Head("postrouting", "nat", 100, None))).table])
        self.assertEqual(ruleset.result("postrouting nat", facts()),
                         Result("snat to 1.2.3.4:5-6", "by rule 1 of ip t called", 3, 4, False))

    def test_notrack(self) -> None:
        head = Head("prerouting", "filter", -300, None)
        ruleset = Ruleset([table(Chain("raw", rules([Notrack()]), head)).table])
        early = facts(state=None)
        self.assertEqual(ruleset.result("prerouting before conntrack", early),
                         Result("accept", "by the policy of ip t raw", 3, None, True))


class OfMarks(unittest.TestCase):
    def faults(self, told: str, old: Result, new: Result, **fields: object) -> list[str]:
        return Pair(facts(**fields), old, new).faults(class_of(f"forward: {told}"))

    def test_marks(self) -> None:
        by = "by rule 1 of ip t c"
        five, came = Result("accept", by, 5, 4, False), Result("accept", by, 3, 4, False)
        told = f"accept {by} with meta mark 5, now accept {by}"
        self.assertEqual(self.faults(told, five, came), [])
        self.assertEqual(self.faults(f"{told} with meta mark as the packet's came", five, came), [])
        self.assertEqual(len(self.faults(told.replace("5", "6"), five, came)), 1)
        self.assertEqual(len(self.faults(told, came, five)), 1)
        self.assertEqual(len(self.faults(told.replace(" with meta mark 5", ""), five, came)), 1)

    def test_marks_of_connections(self) -> None:
        by = "by rule 1 of ip t c"
        three, came = Result("accept", by, 3, 3, False), Result("accept", by, 3, 4, False)
        told = f"accept {by}, now accept {by} with ct mark as the packet's came"
        self.assertEqual(self.faults(told, came, three), [])
        self.assertEqual(len(self.faults(told, came, came)), 1)
        # what is dropped is asked for what is told alone
        dropped = Result("drop", by, 8, 4, False)
        self.assertEqual(self.faults(f"drop {by}, now accept {by}", dropped, came), [])
        self.assertEqual(len(self.faults(f"drop {by} with meta mark 7, now accept {by}", dropped, came)), 1)

    def test_notrack(self) -> None:
        by = "by rule 1 of ip t c"
        old, new = Result("accept", by, 3, None, True), Result("accept", by, 3, None, False)
        told = f"accept {by} with notrack, now accept {by}"
        self.assertEqual(self.faults(told, old, new, state=None), [])
        self.assertEqual(len(self.faults(told, new, old, state=None)), 1)
        self.assertEqual(len(self.faults(f"accept {by}, now accept {by}", old, new, state=None)), 1)


class OfAnswers(unittest.TestCase):
    old = table(Chain("f", rules([port(22), Verdict(Word.ACCEPT)], [port(23), Verdict(Word.ACCEPT)]), FORWARD))
    new = table(Chain("f", rules([port(22), Verdict(Word.ACCEPT)]), FORWARD))
    right = "forward: accept by rule 2 of ip t f, now drop by the policy of ip t f\n  tcp dport 23\n"

    def test_a_right_answer(self) -> None:
        found = judged(self.old, self.new, self.right)
        self.assertEqual((found.wrong, found.not_judged), ((), 0))
        self.assertGreater(found.differ, 20)

    def test_wrong_answers(self) -> None:
        for told in ("the same for every packet\n", self.right.replace("23", "22-23"),
                     self.right.replace("23", "24"), self.right.replace("rule 2", "rule 1"),
                     self.right.replace("forward", "input"), self.right.replace("now drop", "now accept"),
                     self.right.replace("dport 23", 'dport 23 iifname "lan"'),
                     self.right.replace("dport 23", "dport 22\n  at least 1 more"), self.right + self.right,
                     self.right.replace("ip t f\n", "ip t f with meta mark 7\n")):
            self.assertTrue(judged(self.old, self.new, told).wrong, told)

    def test_what_is_left_out(self) -> None:
        some = self.right.replace("dport 23", 'dport 23 iifname "lan"\n  at least 1 more')
        for told in (some, some.replace("  at least 1 more\n", "") + "at least 1 more\n"):
            found = judged(self.old, self.new, told)
            self.assertEqual(found.wrong, ())
            self.assertGreater(found.not_judged, 0)

    def test_known_to_be_the_same(self) -> None:
        self.assertTrue(judged(self.old, self.new, self.right, is_same=True).wrong)
        self.assertEqual(judged(self.old, self.old, "the same for every packet\n", is_same=True).wrong, ())

    def test_drawn_pairs(self) -> None:
        """What stands in tells of facts that differ, and is found right; with another rule it isn't."""
        changed = 0
        for seed in SEEDS:
            pair = paired(seed)
            nothing = judging(pair, Differences(), StageDrawing(random.Random(seed), seed % 3 == 0))
            told = answer(nothing, 8)
            if told == "the same for every packet\n":
                continue
            drawing = StageDrawing(random.Random(-seed), seed % 3 == 0)
            self.assertEqual(judging(pair, differences_in(told), drawing).judged(6).wrong, (), seed)
            wrong = re.sub("rule [0-9]+ of", "rule 99 of", told).replace("by the policy of", "by rule 98 of")
            found = judging(pair, differences_in(wrong), drawing).judged(30)
            self.assertTrue(found.wrong, seed)
            changed += 1
        self.assertGreater(changed, 5)

    def test_pairs_known_to_be_the_same(self) -> None:
        """By no facts they differ."""
        for seed in range(100, 160):
            pair = paired(seed)
            if pair.is_same:
                drawing = StageDrawing(random.Random(seed), seed % 3 == 0)
                found = judging(pair, Differences(), drawing).judged(8)
                self.assertEqual((found.wrong, found.differ), ((), 0), (seed, pair.whats))


class OfHandMadePairs(unittest.TestCase):
    def faults(self, pair: MadePair, told: str) -> list[str]:
        drawing = StageDrawing(random.Random(1), False)
        return list(faults(wanted_of(pair), differences_in(told), drawing, 100))

    def test_all_are_read(self) -> None:
        pairs = made_pairs()
        same = [pair for pair in pairs if not wanted_of(pair).classes]
        self.assertGreater(len(same), 10)
        self.assertGreater(len(pairs) - len(same), 10)
        for pair in pairs:
            self.assertEqual(self.faults(pair, pair.told), [], pair.name)

    def test_other_answers(self) -> None:
        (pair,) = (one for one in made_pairs() if one.name == "a port closed")
        self.assertEqual(self.faults(pair, pair.told.replace("dport 23", "dport { 23 }")), [])
        for told in ("the same for every packet\n", pair.told.replace("dport 23", "dport 22-23"),
                     pair.told.replace("rule 1", "rule 2"), pair.told.replace("dport 23", "dport 24"),
                     pair.told + "at least 1 more\n"):
            self.assertTrue(self.faults(pair, told), told)


if __name__ == "__main__":
    unittest.main()
