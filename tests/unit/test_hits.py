"""Which rules packets met, in a run and in Linux: the ruleset that counts, and what is told."""
from __future__ import annotations

import unittest
from unittest import mock

from support import FilesCase
from linux.hits import RuleHits, counted, counted_copy, hit_lines, hits_of
from toolbox.answering import NoAnswer
from toolbox.reach import Answers, Meeting, RuleAnswer
from toolbox.reports import Decision, RuleCounter
from toolbox.rulesets import Ruleset

IN = "ip f in"


def rules_of(*rules: str) -> str:
    return "table ip f {\n chain in {\n  type filter hook input priority 0\n  %s\n }\n}\n" % "\n  ".join(rules)


class Counted(FilesCase):
    def test_where_a_rule_counts(self) -> None:
        cases = {
            "tcp dport 22 accept": "tcp dport 22 counter accept", "drop": "counter drop",
            "counter tcp dport 22 counter packets 5 bytes 9 drop":
                "counter tcp dport 22 counter packets 5 bytes 9 counter drop",
            'iifname "lan"': 'iifname "lan" counter ', "meta mark set 1 # why": "meta mark set 1 counter  # why",
            'log prefix "drop " comment "accept"': 'log prefix "drop " counter  comment "accept"',
            'jump accept comment "drop"': 'counter jump accept comment "drop"', "iifname drop return":
                "iifname drop counter return", "icmp type redirect goto out": "icmp type redirect counter goto out",
            "dnat to tcp dport map { 1 : 1.2.3.4 }": "counter dnat to tcp dport map { 1 : 1.2.3.4 }",
            "tcp dport {1,2}accept": "tcp dport {1,2} counter accept"}
        with_map = "tcp dport vmap { 22 : accept }", "ct state vmap @states"
        self.assertEqual(counted(rules_of(*cases, *with_map)), rules_of(*cases.values(), *with_map))

    def test_copy(self) -> None:
        path = counted_copy(self.file("rules.nft", rules_of('log prefix "\udcff" accept').replace("\n", "\r\n")),
                            str(self.folder))
        self.assertIn(b'log prefix "\xff" counter accept\r\n', (self.folder / "counted.nft").read_bytes())
        self.assertEqual(path, str(self.folder / "counted.nft"))


class Hits(unittest.TestCase):
    def hits(self) -> list[RuleHits]:
        """Of four rules, the third of which has a counter of its own and the last a map."""
        ruleset = Ruleset(rules_of("drop", "accept", "counter tcp dport 1 drop", "tcp dport vmap { 1 : drop }"))
        ours = [RuleCounter(IN, 1, 1, 3, 90), RuleCounter(IN, 2, 1, 0, 0), RuleCounter(IN, 3, 1, 9, 90),
                RuleCounter(IN, 3, 2, 0, 0)]
        theirs = [*ours[:1], RuleCounter(IN, 2, 1, 2, 90), *ours[3:], *ours[2:3]]
        decided = mock.Mock(decisions=[Decision(IN, 4, "drop"), Decision(IN, None, "drop")])
        question = mock.Mock(run=mock.Mock(counters=ours, said=[decided, decided]))
        heard = mock.Mock(counters=theirs, told=[mock.Mock(decisions=[])])
        return hits_of(question, heard, ruleset)

    def test_hits(self) -> None:
        self.assertEqual([(one.nftrun, one.linux, one.who) for one in self.hits()], [
            (3, 3, "both"), (0, 2, "Linux alone"), (0, 0, "neither"), (2, 0, "nftrun alone")])

    def test_lines(self) -> None:
        answers = Answers({(IN, number): RuleAnswer(meeting, more) for number, meeting, more in (
            (1, Meeting.NEVER_REACHED, ""), (2, Meeting.MET, ""), (3, Meeting.NEVER_MATCHED, "taken by 1"),
            (4, Meeting.MET, ""))}, {}, False)
        head = "rules that packets met: 1 in both, 1 in nftrun alone, 1 in Linux alone, 1 in neither"
        self.assertEqual(list(hit_lines(self.hits(), answers)), [
            head, "  both: ip f in 1  # drop: nftrun 3, Linux 3; nftrun reach: never reached",
            "  Linux alone: ip f in 2  # accept: nftrun 0, Linux 2; nftrun reach: met",
            "  neither: ip f in 3  # counter tcp dport 1 drop: nftrun 0, Linux 0; nftrun reach: reached, never matched"
            ", taken by 1",
            "  nftrun alone: ip f in 4  # tcp dport vmap { 1 : drop }: nftrun 2, Linux 0; nftrun reach: met"])
        self.assertEqual(list(hit_lines(self.hits(), NoAnswer("too large")))[:3], [
            head, "  what no packet can meet isn't known: too large",
            "  Linux alone: ip f in 2  # accept: nftrun 0, Linux 2"])


if __name__ == "__main__":
    unittest.main()
