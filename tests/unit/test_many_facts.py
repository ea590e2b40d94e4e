"""What takes many facts at once (tests/random: columns.py, walking.py, many.py, many_reach.py): each fact comes to the
same as by the plain reading, and faults in answers are found."""
from __future__ import annotations

import random
import sys
import unittest
from dataclasses import replace
from typing import Sequence

from support import TOP

sys.path.insert(0, str(TOP / "tests/random"))

from arriving import drawn  # noqa: E402
from columns import Columns, count, first, multiplied  # noqa: E402
from drawn import BOX, LAN, WrittenChain, WrittenTable  # noqa: E402
from facts import ANY, FIELDS, PROTOCOL, PROTOCOLS, READS, STATE, FactsDrawing, Reached  # noqa: E402
from facts import base_chains, come_to, watch  # noqa: E402
from judging import Judged, judging  # noqa: E402
from many import ManyJudging, accepted, result  # noqa: E402
from many_reach import ManyComparison  # noqa: E402
from near import StageDrawing  # noqa: E402
from pairs import paired  # noqa: E402
from reading import Chain, HasBits, Head, IsIn, IsPart, Lookup, Match, Notrack, Pair, Rule, SetMark, Span  # noqa: E402
from reading import SELECTORS, Counter, Met, Statement, Table, Translate, Verdict, VerdictMap, Word  # noqa: E402
from rewriting import RulesetPair  # noqa: E402
from stages import BY_NAME, Ruleset, accepts  # noqa: E402
from told_diff import differences_in  # noqa: E402
from told_lines import told_in  # noqa: E402
from tracking import TCP, Seen  # noqa: E402
from translating import Ports  # noqa: E402
from walking import Walk, done  # noqa: E402

FORWARD = Head("forward", "filter", 0, Word.DROP)
ACCEPT, DROP, RETURN = (Verdict(word) for word in (Word.ACCEPT, Word.DROP, Word.RETURN))
SEEDS = range(1, 7)


def when(selector: str, low: int, high: int, operator: str = "") -> Match:
    return Match((selector,), operator, IsPart(operator, Span(low, high)), f"{selector} {low}-{high}")


def set_mark(number: int, field: str = "meta mark") -> SetMark:
    return SetMark(field, number, f"{field} set {number}")


def to(word: Word, name: str) -> Verdict:
    return Verdict(word, name)


def chain(name: str, *rules: Sequence[Statement], head: Head | None = None) -> Chain:
    return Chain(name, [Rule(one) for one in rules], head)


def map_of(selector: str, *pairs: tuple[int, int, int | Verdict]) -> Lookup:
    return Lookup(selector, [Pair((Span(low, high),), data, "") for low, high, data in pairs])


def written(*chains: Chain) -> WrittenTable:
    return WrittenTable("ip", "t", [WrittenChain(one, "a head" if one.head else "") for one in chains], [])


def columns_for(stage: str, seed: int = 1, rows: int = 20) -> Columns:
    drawing = StageDrawing(random.Random(seed), seed % 3 == 0)
    return multiplied([drawing.come(BY_NAME[stage]) for _ in range(rows)], 8 * rows, drawing.dice)


class OfColumns(unittest.TestCase):
    def test_each_fact_has_one_value_of_each_field(self) -> None:
        columns = columns_for("forward")
        self.assertEqual(columns.size, 24 * 8)
        for name, column in columns.fields.items():
            self.assertEqual(sum(map(count, column.values())), columns.size, name)
            self.assertEqual(sum(column.values()), columns.all, name)

    def test_rows_stand_first_as_they_are(self) -> None:
        drawing = FactsDrawing(random.Random(5), False)
        rows = [drawing.drawn(FORWARD) for _ in range(8)]
        columns = multiplied(rows, 80, drawing.dice)
        self.assertEqual([columns.row(number) for number in range(8)], rows)
        self.assertGreater(len({str(columns.row(number)) for number in range(80)}), 40)

    def test_what_selectors_read(self) -> None:
        for stage in ("prerouting before conntrack", "postrouting nat", "forward"):
            columns = columns_for(stage)
            mets = [columns.row(number).met() for number in range(columns.size)]
            for selector, read in SELECTORS.items():
                for value, some in columns.values(selector).items():
                    self.assertTrue(some, selector)
                    for number, met in enumerate(mets):
                        self.assertEqual(read(met) == value, bool(some >> number & 1), (selector, value))

    def test_what_each_selector_reads_can_be_drawn(self) -> None:
        """But for what all packets have alike; and of each header with a field of its own the protocol."""
        drawing = FactsDrawing(random.Random(1), False)
        for selector, fields in READS.items():
            family = selector.split(" ")[0]
            facts = replace(ANY, protocol=PROTOCOLS.get(family, (TCP,))[0], output=LAN)
            numbered = [replace(facts, **{FIELDS[selector]: 7})] if selector in FIELDS else []
            others = [*numbered, *drawing.others(facts, selector)]
            values = {SELECTORS[selector](one.met()) for one in (facts, *others)}
            self.assertEqual(len(values) > 1, selector != "meta nfproto", selector)
            self.assertEqual(family in PROTOCOLS, fields[:-1] == (PROTOCOL,), selector)

    def test_packets_of_captures_differ_in_what_each_selector_reads(self) -> None:
        """But for what comes about on their way."""
        arrived = [one for seed in SEEDS for one in drawn(seed, 30).run.arrived]
        mets = [Met(1, one.packet, BOX.interfaces[one.interface], Seen()) for one in arrived]
        for selector, fields in READS.items():
            if fields and not {STATE, "mark", "output"}.intersection(fields):
                self.assertGreater(len({SELECTORS[selector](met) for met in mets} - {None}), 1, selector)

    def test_counting(self) -> None:
        self.assertEqual((count(0), count(0b1011), first(0b1000), first(1)), (0, 3, 3, 0))


class OfRulesets(unittest.TestCase):
    def compare(self, stage: str, *tables: Table, seed: int = 1) -> set[str]:
        """Compares each of many facts, and gives the verdicts that they came to."""
        ruleset, columns = Ruleset(tables), columns_for(stage, seed)
        found = done(ruleset, stage, columns)
        verdicts = set()
        for number in range(columns.size):
            plainly = ruleset.result(stage, columns.row(number))
            self.assertEqual(result(found, number), plainly, columns.row(number))
            verdicts.add(plainly.verdict)
        return verdicts

    def test_called_chains(self) -> None:
        leaf = chain("leaf", [when("ip ttl", 0, 10), RETURN], [when("ip ttl", 0, 20), DROP], [set_mark(77)])
        gone = chain("gone", [when("ip saddr", 0x0A000000, 0x0A00000C), ACCEPT], [set_mark(78), to(Word.JUMP, "leaf")])
        base = chain("f", [when("ip daddr", 0x0A000000, 0x0A000010), to(Word.JUMP, "leaf")],
                     [when("meta mark", 77, 77), to(Word.GOTO, "gone")], [when("ip ttl", 40, 50), RETURN],
                     [Verdict(Word.CONTINUE)], [when("ip protocol", 6, 6, "!="), ACCEPT], head=FORWARD)
        self.assertEqual(self.compare("forward", written(leaf, gone, base).table), {"accept", "drop"})

    def test_maps_and_marks(self) -> None:
        marks = map_of("ip ttl", (0, 9, 5), (10, 30, 6))
        verdicts = map_of("meta mark", (5, 5, ACCEPT), (6, 6, to(Word.JUMP, "c")), (7, 7, to(Word.GOTO, "c")))
        both = IsIn("", [(Span(6, 6), Span(6, 6))], "")
        called = chain("c", [SetMark("ct mark", "meta mark", "")],
                       [SetMark("meta mark", "ct mark", ""), Counter(0, 0, "")],
                       [Match(("ct mark", "ip protocol"), "", both, ""), DROP])
        base = chain("f", [SetMark("meta mark", marks, ""), when("ip protocol", 17, 17), set_mark(7)],
                     [VerdictMap(verdicts, "")], [set_mark(3, "ct mark"), when("ip length", 20, 50)],
                     [Match(("ct state",), "", HasBits("", 8), ""),
                      SetMark("meta mark", map_of("ct mark", (3, 3, 9)), "")],
                     [Match(("meta mark", "ct mark"), "!=", IsIn("!=", [(Span(9, 9), Span(3, 3))], ""), ""), ACCEPT],
                     head=FORWARD)
        self.assertEqual(self.compare("forward", written(called, base).table), {"accept", "drop"})

    def test_chains_in_turn(self) -> None:
        one = chain("one", [set_mark(8), when("ip ttl", 0, 20), ACCEPT], [when("tcp dport", 0, 20), DROP],
                    head=Head("forward", "filter", -5, None))
        two = chain("two", [when("meta mark", 8, 8), set_mark(9)], [when("udp dport", 0, 30), ACCEPT], head=FORWARD)
        self.assertEqual(self.compare("forward", written(two).table, written(one).table), {"accept", "drop"})
        self.assertEqual(self.compare("input", written(two).table), {"accept"})

    def test_translation_and_notrack(self) -> None:
        nat = Translate("snat", 0x0A000011, Ports(5, 6), "")
        mapped = Translate("snat", map_of("ip saddr", (0x0A000000, 0x0A000018, 0x0A000009)), None, "")
        called = chain("called", [when("ip protocol", 6, 17), nat], [mapped])
        masquerade = Translate("masquerade", None, None, "")
        base = chain("post", [to(Word.JUMP, "called")], [when("ip ttl", 0, 20), masquerade],
                     head=Head("postrouting", "nat", 100, None))
        verdicts = self.compare("postrouting nat", written(called, base).table)
        self.assertEqual(verdicts, {"accept", "masquerade", "snat to 10.0.0.17:5-6", "snat to 10.0.0.9"})
        raw = chain("raw", [when("ip ttl", 0, 20), Notrack()], head=Head("prerouting", "filter", -300, None))
        self.compare("prerouting before conntrack", written(raw).table)

    def test_drawn_rulesets(self) -> None:
        for seed in SEEDS:
            pair = paired(seed)
            for stage in BY_NAME:
                self.compare(stage, *(one.table for one in pair.new), seed=seed)
            if pair.assumed:
                columns, table = columns_for("forward", seed), pair.assumed.table
                some = accepted(table, columns)
                for number in range(columns.size):
                    self.assertEqual(bool(some >> number & 1), accepts(table, columns.row(number)), seed)


class OfDiff(unittest.TestCase):
    old = written(chain("f", [when("tcp dport", 22, 22), ACCEPT], [when("tcp dport", 23, 23), ACCEPT], head=FORWARD))
    new = written(chain("f", [when("tcp dport", 22, 22), ACCEPT], head=FORWARD))
    right = "forward: accept by rule 2 of ip t f, now drop by the policy of ip t f\n  tcp dport 23\n"

    def judged(self, old: WrittenTable, new: WrittenTable, told: str) -> Judged:
        pair = RulesetPair((old,), (new,), ["a change"], False)
        one = judging(pair, differences_in(told), StageDrawing(random.Random(1), False))
        return ManyJudging(one).judged(3000)

    def test_a_right_answer(self) -> None:
        found = self.judged(self.old, self.new, self.right)
        self.assertEqual((found.wrong, found.not_judged, found.classes, found.shown), ((), 0, 1, 1))
        self.assertGreater(found.differ, 200)
        self.assertGreater(found.plainly, 60)
        self.assertGreaterEqual(found.compared, 3000)

    def test_wrong_answers(self) -> None:
        for told in ("the same for every packet\n", self.right.replace("23", "22-23"),
                     self.right.replace("23", "24"), self.right.replace("rule 2", "rule 1"),
                     self.right.replace("forward", "input"), self.right.replace("now drop", "now accept"),
                     self.right.replace("dport 23", 'dport 23 iifname "lan"'),
                     self.right.replace("dport 23", "dport 22\n  at least 1 more"), self.right + self.right,
                     self.right.replace("ip t f\n", "ip t f with meta mark 7\n")):
            self.assertTrue(self.judged(self.old, self.new, told).wrong, told)

    def test_what_is_left_out(self) -> None:
        some = self.right.replace("dport 23", 'dport 23 iifname "lan"\n  at least 1 more')
        for told in (some, some.replace("  at least 1 more\n", "") + "at least 1 more\n"):
            found = self.judged(self.old, self.new, told)
            self.assertEqual(found.wrong, ())
            self.assertGreater(found.not_judged, 0)

    def test_marks(self) -> None:
        old, new = (written(chain("f", [when("ip ttl", 0, 9), set_mark(number), ACCEPT], head=FORWARD))
                    for number in (5, 6))
        by = "by rule 1 of ip t f"
        told = f"forward: accept {by} with meta mark 5, now accept {by} with meta mark 6\n  ip ttl 0-9\n"
        self.assertEqual(self.judged(old, new, told).wrong, ())
        for other in (told.replace("mark 5", "mark 7"), told.replace("mark 6", "mark as the packet's came"),
                      told.replace("meta mark 5", "ct mark 5"), told.replace(" with meta mark 6", " with notrack")):
            self.assertTrue(self.judged(old, new, other).wrong, other)

    def test_other_readings_are_told(self) -> None:
        """Where vectors and the plain reading differ, as of a match that answers otherwise when asked again."""
        class Fickle(IsPart):
            asked = 0

            def __call__(self, values: Sequence[object]) -> bool:
                Fickle.asked += 1
                return Fickle.asked % 2 == 0

        odd = Match(("ip ttl",), "", Fickle("", Span(0, 255)), "ip ttl")
        table = written(chain("f", [odd, ACCEPT], head=FORWARD))
        told = "the same for every packet\n"
        self.assertTrue(any("plainly" in one for one in self.judged(table, table, told).wrong))


class OfReach(unittest.TestCase):
    told = ("rule ip t f 1 met\n  reached in f: any packet\n  met in f: ip ttl 0-9\n"
            "rule ip t f 2 reached, never matched, taken by 1\n  reached in f: ip ttl 10-255\n"
            "rule ip t f 3 met\n  reached in f: ip ttl 10-255\n  met in f: ip ttl 10-20\n"
            "policy ip t f can apply\n  ends in f: ip ttl 21-255\n")

    def compared(self, told: str) -> ManyComparison:
        table = written(chain("f", [when("ip ttl", 0, 9), ACCEPT], [when("ip ttl", 3, 5), DROP],
                              [when("ip ttl", 10, 20), ACCEPT], head=FORWARD)).table
        reached = Reached()
        watch(table, reached)
        comparison = ManyComparison(told_in(told), table, reached)
        for one in base_chains(table):
            comparison.take(one, FactsDrawing(random.Random(1), False), 600)
        return comparison

    def test_a_right_answer(self) -> None:
        found = self.compared(self.told)
        self.assertEqual(found.wrong, [])
        self.assertGreaterEqual(found.tried.facts, 600)
        self.assertEqual(found.all.met, {("ip t f", 1), ("ip t f", 3)})

    def test_wrong_answers(self) -> None:
        for told in (self.told.replace("met in f: ip ttl 0-9", "met in f: ip ttl 0-8"),
                     self.told.replace("met in f: ip ttl 10-20", "met in f: ip ttl 10-21"),
                     self.told.replace("ends in f: ip ttl 21-255", "ends in f: ip ttl 22-255"),
                     self.told.replace("never matched, taken by 1", "never matched, matches none"),
                     self.told.replace("  reached in f: any packet", "  reached in f: ip ttl != 7")):
            self.assertTrue(self.compared(told).wrong, told)

    def test_drawn_tables(self) -> None:
        for seed in SEEDS:
            for one in paired(seed).old:
                self.compare(one.table, seed)

    def compare(self, table: Table, seed: int) -> None:
        """Compares what many facts come to in a table with what each comes to."""
        reached = Reached()
        watch(table, reached)
        for base in base_chains(table):
            assert base.head
            drawing = FactsDrawing(random.Random(seed), seed % 3 == 0)
            columns = multiplied([drawing.drawn(base.head) for _ in range(16)], 64, drawing.dice)
            walk = Walk(columns)
            ended = walk.chain(table, base, columns.all)
            for number in range(columns.size):
                come_to(table, base, columns.row(number), reached)
                rules, met = ({where for where, some in places.items() if some >> number & 1}
                              for places in (walk.reached, walk.met))
                ends = {base.path} if ended >> number & 1 else set()
                self.assertEqual(reached, Reached(rules, met, ends), (seed, base.path))


if __name__ == "__main__":
    unittest.main()
