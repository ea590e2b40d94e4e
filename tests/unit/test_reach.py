"""What `nftrun reach` answers, and what is told of rules without hits by it."""
from __future__ import annotations

import argparse
import os
import sys
import unittest
from typing import Mapping
from unittest import mock

import support
from support import BOX, FilesCase
from toolbox.answering import NoAnswer
from toolbox.boxes import Box
from toolbox.could_meet import COULD, MOST_SECONDS, CouldMeet, add_option, could_meet
from toolbox.reach import Answers, Applying, Meeting, RuleAnswer, answers_of, ask
from toolbox.rulesets import Ruleset

sys.path[:0] = [str(support.TOP / "tools/html")]

from pages.both import UNMET, Text  # noqa: E402
from pages.change import noted_html  # noqa: E402
from toolbox.evidence import Change  # noqa: E402

IN = "inet f in"
TEXT = """table inet f {
 chain in { type filter hook input priority 0
  iif "lo" accept
  tcp dport 22 accept
  tcp dport 22 counter drop
  oifname "wan" drop
  meta mark set 1
 }
}
"""
LINES = """rule inet f in 1 met
rule inet f in 2 met
rule inet f in 3 reached, never matched, taken by 2
rule inet f in 4 reached, never matched, matches none
rule inet f in 5 met
policy inet f in can apply
"""
KNOWN = CouldMeet({(IN, 3): "no packet can meet it: never reached", (IN, 4): "loopback"}, frozenset({(IN, 2)}), None)


class Lines(unittest.TestCase):
    def test_each_answer(self) -> None:
        lines = ["rule ip f a 1 met", "rule ip f a 2 never reached", "rule ip f a 12 reached, never matched",
                 "rule ip f b 1 never reached, taken by 2 4", "rule ip f b 2 reached, never matched, matches none",
                 "policy ip f a can apply", "policy ip f b never applies"]
        told = answers_of(lines, False)
        self.assertEqual(told.rules, {
            ("ip f a", 1): RuleAnswer(Meeting.MET, ""), ("ip f a", 2): RuleAnswer(Meeting.NEVER_REACHED, ""),
            ("ip f a", 12): RuleAnswer(Meeting.NEVER_MATCHED, ""),
            ("ip f b", 1): RuleAnswer(Meeting.NEVER_REACHED, "taken by 2 4"),
            ("ip f b", 2): RuleAnswer(Meeting.NEVER_MATCHED, "matches none")})
        self.assertEqual(told.policies, {"ip f a": Applying.CAN, "ip f b": Applying.NEVER})
        self.assertEqual([one.text for one in told.rules.values()],
                         [line.split(" ", 5)[5] for line in lines if line.startswith("rule")])

    def test_what_is_no_answer(self) -> None:
        for line in ("", "rule", "rule ip f a 1", "rule ip f a 1 metal", "rule ip f a x met", "rule ip f a 1 can apply",
                     "policy ip f a met", "policy ip f a", "policy ip f a can apply.", "chain ip f a 1 met",
                     "rule ip f a \u00b2 met"):
            with self.assertRaises(ValueError, msg=line) as raised:
                answers_of([line], True)
            self.assertEqual(str(raised.exception), line)


class Asked(FilesCase):
    """Programs that answer, or don't."""

    def program(self, *lines: str) -> str:
        path = self.file("program", "\n".join(["#!/bin/sh", *lines]) + "\n")
        os.chmod(path, 0o755)
        return path

    def asked(self, *lines: str, seconds: int | None = None) -> Answers | NoAnswer:
        return ask(self.program(*lines), "-rules", "box", seconds)

    def test_answers(self) -> None:
        for status, are_all_met in ((0, True), (8, False)):
            told = self.asked('echo "rule ip f a 1 met"', f"exit {status}")
            self.assertEqual(told, Answers({("ip f a", 1): RuleAnswer(Meeting.MET, "")}, {}, are_all_met))

    def test_neither_rules_nor_chains(self) -> None:
        self.assertEqual(self.asked("exit 0"), Answers({}, {}, True))
        self.assertEqual(self.asked("echo"), NoAnswer("nftrun reach: a line that can't be read: "))

    def test_what_it_is_asked(self) -> None:
        told = self.asked('echo "rule ip f a 1 never reached, $*"', "exit 8")
        assert isinstance(told, Answers)
        self.assertEqual(told.rules["ip f a", 1].more, "reach -- -rules box")

    def test_no_answer(self) -> None:
        path = str(self.folder / "program")
        self.assertEqual(self.asked("echo error: unrecognized subcommand >&2", "echo usage >&2", "exit 2"),
                         NoAnswer(f"{path} has no `reach` (error: unrecognized subcommand)", was_asked=False, status=2))
        self.assertEqual(self.asked("echo nftrun: too large >&2", "exit 9"),
                         NoAnswer("nftrun reach: too large", status=9))
        self.assertEqual(self.asked("exit 6"), NoAnswer("nftrun reach: status 6", status=6))
        self.assertEqual(self.asked("echo nonsense"), NoAnswer("nftrun reach: a line that can't be read: nonsense"))
        self.assertEqual(self.asked("exec sleep 30", seconds=1), NoAnswer("nftrun reach took over 1 s"))
        self.assertEqual(ask(f"{path}.gone", "rules", "box"),
                         NoAnswer(f"{path}.gone: No such file or directory", was_asked=False))


class Known(FilesCase):
    def known(self, answer: str, status: int, seconds: int = 10) -> CouldMeet:
        """What is known of TEXT where a program answers so."""
        answers = self.file("answers", answer)
        program = self.file("program", f"#!/bin/sh\ncat {answers}\nexit {status}\n")
        os.chmod(program, 0o755)
        with mock.patch.dict(os.environ, {"NFTRUN": program}):
            box = Box(self.file("box.txt", f"interface 1 lo 127.0.0.1/8\n{BOX}"))
            return could_meet(Ruleset(TEXT), "rules.nft", box, seconds)

    def test_by_text_and_by_answer(self) -> None:
        known = self.known(LINES, 8)
        self.assertEqual(known.never, {
            (IN, 1): "loopback: packets of the box itself aren't in a run",
            (IN, 3): "no packet can meet it: reached, never matched, taken by 2",
            (IN, 4): "`oifname` has no value in input"})
        self.assertEqual((known.could, known.unknown, known.unknown_text()), ({(IN, 2), (IN, 5)}, None, None))
        self.assertEqual([known.remark((IN, number)) for number in (1, 2, 3, 9)], [
            "no packet can meet it: loopback: packets of the box itself aren't in a run", COULD,
            "no packet can meet it: reached, never matched, taken by 2", None])

    def test_an_answer_goes_before_the_text(self) -> None:
        """But for packets of the box itself: what by its text can't be met is told to be met."""
        known = self.known(LINES.replace("4 reached, never matched, matches none", "4 met"), 8)
        self.assertEqual(set(known.never), {(IN, 1), (IN, 3)})
        self.assertIn((IN, 4), known.could)

    def test_nothing_is_known(self) -> None:
        path = str(self.folder / "program")
        for answer, status, seconds, told in (
                ("", 9, 10, "isn't known: nftrun reach: status 9"),
                ("", 2, 10, f"wasn't asked: {path} has no `reach` ()"),
                (LINES, 8, 0, "wasn't asked: --reach 0")):
            known = self.known(answer, status, seconds)
            self.assertEqual((set(known.never), known.could), ({(IN, 1), (IN, 4)}, set()))
            self.assertEqual(known.unknown_text(), f"whether a packet could meet them {told}")
            self.assertIsNone(known.remark((IN, 3)))

    def test_without_box_or_program(self) -> None:
        known = could_meet(Ruleset(TEXT), "rules.nft", None, 10)
        self.assertEqual(known.unknown, "wasn't asked: it wants the box file")
        with mock.patch.dict(os.environ, {"NFTRUN": "", "PATH": "/nowhere"}), \
                mock.patch("toolbox.program.BUILT", "/nowhere/nftrun"):
            known = could_meet(Ruleset(TEXT), "rules.nft", Box(self.file("box.txt", BOX)), 10)
        self.assertEqual(known.unknown, "wasn't asked: nftrun isn't in PATH: set NFTRUN to its path")

    def test_option(self) -> None:
        parser = argparse.ArgumentParser(exit_on_error=False)
        add_option(parser)
        self.assertEqual(parser.parse_args([]).reach, 10)
        self.assertEqual(parser.parse_args(["--reach", "0"]).reach, 0)
        self.assertEqual(parser.parse_args(["--reach", str(MOST_SECONDS)]).reach, MOST_SECONDS)
        for words in ("-1", "x", "1.5", str(MOST_SECONDS + 1), "9" * 50):
            with self.assertRaises(argparse.ArgumentError):
                parser.parse_args([f"--reach={words}"])


class BothTexts(unittest.TestCase):
    """The remarks beside both texts of the page."""

    def text(self, hits: Mapping[int, int]) -> Text:
        ruleset = Ruleset(TEXT)
        side = mock.Mock(ruleset=ruleset, changes=[Change(ruleset.chains[0], rule) for rule in ruleset.rules])
        side.is_met.side_effect = lambda change: bool(hits.get(change.rule.number))
        side.text.side_effect = lambda change: change.rule.text
        counted = mock.Mock()
        counted.of.side_effect = lambda rule: hits.get(rule.number, 0)
        return Text(side, KNOWN, counted, "N")

    def test_doubts(self) -> None:
        doubts = self.text({5: 3}).doubts
        self.assertEqual(doubts, {3: UNMET, 4: f"{UNMET}; {COULD}", 5: "no packet can meet it: never reached",
                                  6: "no packet can meet it: loopback"})

    def test_counts(self) -> None:
        text = self.text({4: 7})
        told = {rule.number: text.rule_html(index, rule) for index, rule in enumerate(text.side.ruleset.rules)}
        self.assertIn(f'title="rule 2 of {IN}: 0 packets; {COULD}"', told[2])
        self.assertIn(">no run<", told[3])
        self.assertIn(f'title="rule 4 of {IN}: 7 packets"', told[4])
        self.assertIn(f'title="rule 5 of {IN}: 0 packets"', told[5])

    def test_changes_that_no_packet_met(self) -> None:
        noted = list(self.text({1: 1, 5: 3}).noted(False))
        self.assertEqual([one.remark for one in noted], [
            COULD, "no packet can meet it: never reached", "no packet can meet it: loopback"])
        told = noted_html("Title:", noted, ["whether a packet could meet them isn't known: why"])
        self.assertIn(f"</code></a> ({COULD})</li>", told)
        self.assertTrue(told.endswith("<p>Whether a packet could meet them isn&#x27;t known: why.</p></div>"), told)
        self.assertEqual(noted_html("Title:", [], ["why"]), "")


if __name__ == "__main__":
    unittest.main()
