"""The answers of `nftrun diff` as the judge reads them (tests/random/told_diff.py)."""
from __future__ import annotations

import sys
import unittest

from support import TOP

sys.path.insert(0, str(TOP / "tests/random"))

from told_diff import AsCame, Outcome, differences_in, outcome_of  # noqa: E402
from told_lines import Unread  # noqa: E402

ALL = """forward: drop by the policy of ip filter forward, now accept by rule 3 of ip filter forward
  iifname "wan" ip daddr 10.0.0.0/24 tcp dport { 22, 8080-8090 }
  ct state new
  at least 12 more
prerouting nat: accept by rule 1 of ip nat pre, now dnat to 10.0.0.5:80 by rule 1 of ip nat pre
  any packet
at least 3 more
"""
HEAD = "input: accept by rule 1 of ip f i, now drop without a chain\n"


class OfAnswers(unittest.TestCase):
    def test_all_of_it(self) -> None:
        told = differences_in(ALL)
        self.assertFalse(told.is_whole)
        one, two = told.classes
        self.assertEqual((one.stage, two.stage), ("forward", "prerouting nat"))
        self.assertEqual(one.old, Outcome("drop", "by the policy of ip filter forward"))
        self.assertEqual(two.new, Outcome("dnat to 10.0.0.5:80", "by rule 1 of ip nat pre"))
        self.assertEqual((one.packets.is_whole, two.packets.is_whole), (False, True))
        self.assertEqual((len(one.packets.lines), two.packets.lines), (2, [[]]))
        self.assertEqual((one.rank, two.rank), (0, 1))
        self.assertEqual(told.faults(), [])

    def test_the_same(self) -> None:
        told = differences_in("the same for every packet\n")
        self.assertEqual((told.classes, told.is_whole), ((), True))

    def test_outcomes(self) -> None:
        by = "by rule 12 of inet t c-1"
        for verdict in ("accept", "drop", "snat to 1.2.3.4", "snat to 1.2.3.4:5", "snat to 1.2.3.4:5-6",
                        "dnat to 1.2.3.4", "masquerade", "masquerade to :1024-2047", "redirect", "redirect to :3128"):
            self.assertEqual(outcome_of(f"{verdict} {by}"), Outcome(verdict, by))
        marked = "accept without a chain with meta mark 0x10 with ct mark as the packet's came with notrack"
        self.assertEqual(outcome_of(marked), Outcome("accept", "without a chain", 16, AsCame("packet"), True))
        self.assertEqual(outcome_of(f"accept {by} with ct mark 7"), Outcome("accept", by, None, 7))

    def test_other_forms_are_refused(self) -> None:
        for text in ("", "the same for every packet", "at least 3 more\n", "  any packet\n", HEAD + " any packet\n",
                     HEAD + "  2 more\n", HEAD + "  at least 1 more\n  any packet\n", HEAD + "  ip tos 3\n",
                     HEAD.replace("input", "output"), HEAD.replace("now ", ""), HEAD.replace("rule 1", "rule 0"),
                     HEAD.replace("drop", "redirect to :1-2"), HEAD.replace("drop", "return"),
                     HEAD.replace("ip f", "ip6 f"), "the same for every packet\n" + HEAD):
            with self.assertRaises((Unread, IndexError), msg=text):
                differences_in(text)

    def test_faults_of_an_answer(self) -> None:
        marks = "input: accept by rule 1 of ip f i with meta mark 1, now accept by rule 1 of ip f i\n  any packet\n"
        self.assertEqual(differences_in(marks).faults(), [])
        for text in (HEAD, marks + HEAD + "  any packet\n", HEAD + "  any packet\n" + HEAD + "  ip ttl 1\n",
                     HEAD + "  ip ttl 1\n" * 21, marks.replace(" with meta mark 1", "")):
            self.assertEqual(len(differences_in(text).faults()), 1, text)


if __name__ == "__main__":
    unittest.main()
