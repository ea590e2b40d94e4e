"""Rules and their numbers as text, against the places that nftrun names in stored reports."""
from __future__ import annotations

import unittest

import support
from toolbox.hits import Hits
from toolbox.never_met import never_met
from toolbox.reports import Summary
from toolbox.lexer import tokens_of
from toolbox.rulesets import Ruleset, priority_of, read_ruleset

TEXT = '''# first
table inet filter {
	set hosts { type ipv4_addr; elements = { 10.0.0.1, 10.0.0.2 } }
	chain input { type filter hook input priority filter - 10; policy drop;
		iifname "lo" accept comment "a; b { c"
		ip saddr @hosts tcp dport { 22,
			80 } counter packets 5 bytes 9 log prefix "ssh: " jump other
	}
	chain other { return; counter drop }
}
table raw { chain pre { type filter hook prerouting priority raw; tcp dport vmap { 1 : accept, 2 : drop } } }
'''


class Reading(unittest.TestCase):
    def setUp(self) -> None:
        self.ruleset = Ruleset(TEXT)

    def test_places_and_lines(self) -> None:
        self.assertEqual([(rule.place, rule.line) for rule in self.ruleset.rules], [
            (("inet filter input", 1), 5), (("inet filter input", 2), 6), (("inet filter other", 1), 9),
            (("inet filter other", 2), 9), (("ip raw pre", 1), 11)])

    def test_texts(self) -> None:
        self.assertEqual(self.ruleset.text_of("inet filter input", 1), 'iifname "lo" accept comment "a; b { c"')
        self.assertEqual(self.ruleset.text_of("inet filter other", 2), "counter drop")
        self.assertEqual(self.ruleset.text_of("inet filter other", None), "policy")
        self.assertEqual(self.ruleset.text_of("inet filter other", 9), "rule 9")

    def test_what_is_no_rule_or_statement(self) -> None:
        head = 'comment "of it"; type filter hook input priority 0'
        text = f"table ip t {{ chain log {{ }}; chain c {{ {head}; jump log; drop }} }}"
        first, second = Ruleset(text).rules
        self.assertEqual((first.place, first.text, first.logs), (("ip t c", 1), "jump log", False))
        self.assertEqual((second.place, second.text), (("ip t c", 2), "drop"))

    def test_heads(self) -> None:
        chain = self.ruleset.by_name["inet filter input"]
        self.assertEqual((chain.type, chain.hook, chain.priority, chain.policy), ("filter", "input", -10, "drop"))
        self.assertTrue(self.ruleset.by_name["ip raw pre"].is_early)
        self.assertIsNone(self.ruleset.by_name["inet filter other"].hook)

    def test_up_to_which_priority_chains_are_early(self) -> None:
        # connections are looked for at -200 (NF_IP_PRI_CONNTRACK); what stands there comes before
        for priority, is_early in ((-300, True), (-200, True), (-199, False), (-150, False)):
            text = f"table ip t {{ chain c {{ type filter hook prerouting priority {priority}; }} }}"
            self.assertEqual(Ruleset(text).by_name["ip t c"].is_early, is_early, priority)

    def test_what_rules_do(self) -> None:
        first, second, third, fourth, fifth = self.ruleset.rules
        self.assertEqual([rule.decides for rule in self.ruleset.rules], [True] * 5)
        self.assertEqual((second.logs, second.counter_starts), (True, [5]))
        self.assertEqual((first.logs, first.counter_starts, fourth.counter_starts), (False, [], [0]))
        self.assertIn("vmap", fifth.words)
        self.assertEqual(third.words, ["return"])

    def test_names_that_look_like_statements(self) -> None:
        rule = Ruleset("table ip t { chain c { iifname log icmp type redirect counter } }").rules[0]
        self.assertEqual((rule.logs, rule.decides, rule.counter_starts), (False, False, [0]))

    def test_chains_behind_named_verdict_maps(self) -> None:
        ruleset = Ruleset("""table ip t {
            map m { type inet_service : verdict; elements = { 1 : jump a, 2 : goto b } }
            map unused { type inet_service : verdict; elements = { 1 : jump c } }
            chain in { type filter hook input priority 0; tcp dport vmap @m }
            chain a { counter } chain b { jump d } chain c { counter } chain d { counter }
        }""")
        self.assertEqual([chain.name for chain in ruleset.targets(ruleset.rules[0])], ["ip t a", "ip t b"])
        self.assertEqual(set(ruleset.behind(ruleset.chains[0])), {"ip t in", "ip t a", "ip t b", "ip t d"})
        self.assertEqual(list(never_met(ruleset)), [("ip t c", 1)])

    def test_priorities(self) -> None:
        self.assertEqual(priority_of(["srcnat", "+", "5", ";"]), 105)
        self.assertEqual(priority_of(["-", "300"]), -300)

    def test_tokens_keep_all_but_blanks(self) -> None:
        text = "".join(token.text for token in tokens_of(TEXT))
        self.assertEqual(text.replace("\n", ""), "".join(
            line for line in TEXT.replace("# first", "").replace("\t", "").replace('"a; b { c"', "\0").replace(
                '"ssh: "', "\1").replace(" ", "").replace("\0", '"a; b { c"').replace("\1", '"ssh: "').split("\n")))


class AgainstReports(unittest.TestCase):
    """Each rule, counter and chain that a stored report of an example names is one of its ruleset."""

    def test_examples(self) -> None:
        seen = 0
        for folder in sorted((support.TOP / "examples").iterdir()):
            report, rules = folder / "report.txt", folder / "rules.nft"
            if not report.is_file() or not rules.is_file():
                continue
            summary = Summary(str(report))
            if not summary.counters and not summary.events:
                continue
            ruleset = read_ruleset(str(rules))
            Hits(summary).check_places(ruleset, str(rules), str(report))
            for chain, rule in ((event.chain, event.rule) for event in summary.events):
                self.assertIn(chain, ruleset.by_name)
                self.assertTrue(rule is None or ruleset.rule(chain, rule), (folder.name, chain, rule))
                seen += 1
        self.assertGreater(seen, 10)


class NeverMet(unittest.TestCase):
    def test_reasons(self) -> None:
        text = '''table inet t {
	chain in { type filter hook input priority 0; iifname "lo" accept; oifname "wan" drop; accept; drop; jump gone }
	chain out { type filter hook output priority 0; accept }
	chain lost { accept }
	chain pre { type filter hook prerouting priority raw; ct state new accept; iifname "none" goto gone }
	chain gone { drop }
}'''
        reasons = never_met(Ruleset(text))
        self.assertEqual({place: reason.split(":")[0] for place, reason in reasons.items()}, {
            ("inet t in", 1): "loopback", ("inet t in", 2): "`oifname` has no value in input",
            ("inet t in", 4): "behind line 2, which ends the chain for every packet",
            ("inet t in", 5): "behind line 2, which ends the chain for every packet",
            ("inet t out", 1): "a chain on output", ("inet t lost", 1): "no chain that is run leads here",
            ("inet t pre", 1): "`ct` has no value before connections are looked for"})


if __name__ == "__main__":
    unittest.main()
