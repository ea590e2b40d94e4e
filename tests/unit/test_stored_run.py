"""Whether a stored report is taken for the one of a run."""
from __future__ import annotations

import hashlib
import json
import unittest
from unittest import mock

from support import FilesCase
from toolbox.commands import Refused
from toolbox.could_meet import CouldMeet
from toolbox.hits import Hits
from toolbox.mapped import MappedRules
from toolbox.rulemap import Origin, RuleMap
from toolbox.rulesets import Ruleset
from toolbox.stored_run import check_same, has_digest, write_digest


class Digests(FilesCase):
    def setUp(self) -> None:
        super().setUp()
        self.files = [self.file(name, name) for name in ("report.txt", "rules.nft", "box.txt", "in.pcap")]

    def test_what_is_written(self) -> None:
        write_digest(*self.files)
        told = json.loads((self.folder / "report.txt.run").read_text())
        self.assertEqual(told, {"run": 1, **{
            name: hashlib.sha256(text).hexdigest() for name, text in (
                ("report", b"report.txt"), ("rules", b"rules.nft"), ("box", b"box.txt"), ("in", b"in.pcap"))}})

    def test_what_is_taken(self) -> None:
        report, rules, box, capture = self.files
        self.assertFalse(has_digest(*self.files))
        write_digest(*self.files)
        self.assertTrue(has_digest(*self.files))
        self.assertTrue(has_digest(report, rules, None, None))
        for place, name in enumerate(("report", "rules.nft", "box.txt", "in.pcap")):
            others = list(self.files)
            others[place] = self.file(f"other-{name}", "other")
            if place == 0:
                (self.folder / "other-report.run").write_bytes((self.folder / "report.txt.run").read_bytes())
            with self.assertRaisesRegex(Refused, "it isn't the report" if place == 0 else "it isn't what ran"):
                has_digest(*others)
        with self.assertRaisesRegex(Refused, "gone"):
            has_digest(report, str(self.folder / "gone"), box, capture)

    def test_what_is_no_digest(self) -> None:
        for text in ("", "[]", "{}", '{"run": 2}', "[" * 100_000, "\x1b"):
            self.file("report.txt.run", text)
            with self.assertRaisesRegex(Refused, "no digest of a run"):
                has_digest(*self.files)

    def test_the_same_report(self) -> None:
        report = self.file("a", "one\ntwo\n")
        check_same(report, self.file("b", "one\ntwo\n"), "rules.nft")
        for text, told in (("one\n", "line 2 is `two`, and a run gives nothing more"),
                           ("one\ntwo\nthree\n", "line 3 is nothing more, and a run gives `three`"),
                           ("one\nten\n", "line 2 is `two`, and a run gives `ten`")):
            with self.assertRaisesRegex(Refused, told):
                check_same(report, self.file("b", text), "rules.nft")


class Reasons(unittest.TestCase):
    def test_of_the_operators_rules(self) -> None:
        """A rule that became two, and one that another can't reach; and of another two one that could be met."""
        ruleset = Ruleset("table ip f { chain in { type filter hook input priority 0; "
                          "accept; drop; drop; accept; drop; } }")
        origins = {("ip f in", number): Origin("ip f in", was, "r.nft", was, "text", ())
                   for number, was in ((1, 1), (2, 2), (3, 2), (4, 3), (5, 3))}
        hits = mock.create_autospec(Hits, instance=True)
        hits.number.side_effect = lambda rule: 1 if rule.number == 1 else 0
        hits.decided, hits.logged, hits.counted = {("ip f in", 1): 1}, {}, {}
        hits.is_unmet.side_effect = lambda rule: rule.number != 1
        known = CouldMeet({("ip f in", 2): "behind line 1", ("ip f in", 3): "loopback", ("ip f in", 4): "taken"},
                          frozenset({("ip f in", 5)}), "isn't known: too large")
        mapped = MappedRules(RuleMap("", "r.nft", origins), ruleset, hits, known)
        with mock.patch("toolbox.mapped.say") as say, mock.patch("toolbox.could_meet.say", say):
            mapped.print_unmet()
        lines = [call.args[0] for call in say.call_args_list if call.args]
        self.assertIn("  r.nft:2: ip f in 2: text  (behind line 1; loopback)", lines)
        self.assertIn("  r.nft:3: ip f in 3: text  (as fitted, a packet could meet it)", lines)
        self.assertIn("  whether a packet could meet them isn't known: too large", lines)


if __name__ == "__main__":
    unittest.main()
