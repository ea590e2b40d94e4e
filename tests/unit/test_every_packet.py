"""What is known of all packets, as compare tells it in its forms."""
from __future__ import annotations

import json
import os
import unittest
from unittest import mock

from support import FilesCase
from toolbox.annotations import github_lines, sarif
from toolbox.diffed import Outcome, PacketClass
from toolbox.differences import Told
from toolbox.every_packet import (
    EveryPacket, ToldClass, Version, class_json, every_packet, outcome_told, whole_json)
from toolbox.guard import AllowList, Guard, Kind, Seen, kinds_of
from toolbox.rulesets import read_ruleset

RULES = """table ip filter {
 chain forward { type filter hook forward priority 0; policy drop
  tcp dport 22 accept
  udp dport 53 accept
 }
}
"""
FORWARD = "ip filter forward"
ANSWER = """forward: drop by the policy of ip filter forward, now accept by rule 2 of ip filter forward
  udp dport 53
"""
OPENED = ToldClass(
    PacketClass("forward", Outcome("drop", FORWARD), Outcome("accept", FORWARD, 2),
                ("udp dport 53", "tcp dport 1", "tcp dport 2", "tcp dport 3"), 7),
    Told(FORWARD, None, "drop", "policy", "main:rules.nft", 2),
    Told(FORWARD, 2, "accept", "udp dport 53 accept", "rules.nft", 4))
MARKED = ToldClass(
    PacketClass("input", Outcome("accept", None), Outcome("accept", "ip filter in", 1, ("meta mark 5",)),
                ("any packet",)),
    Told(None, None, "accept", "no chain"), Told("ip filter in", 1, "accept", "meta mark set 5 accept", "rules.nft", 9))
UNKNOWN = EveryPacket(unknown="nftrun diff: too large")


class Known(FilesCase):
    def known(self, answer: str, status: int, seconds: int = 9) -> EveryPacket | None:
        """What is known where a program answers so."""
        answers = self.file("answers", answer)
        program = self.file("program", f"#!/bin/sh\ncat {answers}\nexit {status}\n")
        os.chmod(program, 0o755)
        old, new = (Version(self.file(name, RULES), f"main:{name}") for name in ("old.nft", "new.nft"))
        with mock.patch.dict(os.environ, {"NFTRUN": program}):
            return every_packet(old, new, "box.txt", seconds)

    def test_the_same(self) -> None:
        known = self.known("the same for every packet\n", 0)
        assert known is not None
        self.assertEqual((known, known.is_same), (EveryPacket(), True))
        self.assertEqual(list(known.lines()), ["the same for every packet: no capture is needed to know that"])

    def test_classes(self) -> None:
        known = self.known(ANSWER + "at least 4 more\n", 10)
        assert known is not None
        (one,) = known.classes
        self.assertEqual((one.new, known.more, known.is_same), (
            Told(FORWARD, 2, "accept", "udp dport 53 accept", "main:new.nft", 4), 4, False))
        self.assertEqual(list(known.lines(True)), [
            "of all packets more than 1 class differ:",
            "  forward: drop by the policy of ip filter forward (main:old.nft:2), now accept by rule 2 of ip filter "
            "forward (main:new.nft:4)", "    udp dport 53", "  and more (nftrun diff lists them)"])

    def test_nothing_is_known(self) -> None:
        self.assertEqual(self.known("", 9), EveryPacket(unknown="nftrun diff: status 9"))
        self.assertEqual(self.known(ANSWER, 10, 0), EveryPacket(unknown="--diff 0"))
        self.assertIsNone(self.known("", 1))
        self.assertEqual(list(UNKNOWN.lines()), ["nothing is known of all packets: nftrun diff: too large"])
        self.assertFalse(UNKNOWN.is_same)
        with mock.patch.dict(os.environ, {"NFTRUN": "", "PATH": "/nowhere"}), \
                mock.patch("toolbox.program.BUILT", "/nowhere/nftrun"):
            known = every_packet(Version("o", "o"), Version("n", "n"), "box.txt", 9)
        self.assertEqual(known, EveryPacket(unknown="nftrun isn't in PATH: set NFTRUN to its path"))

    def test_decisions_of_a_fitted_ruleset(self) -> None:
        origin = mock.Mock(chain="ip filter FORWARD", rule=7, text="udp dport domain accept", file="up.nft", line=30)
        origins = mock.Mock()
        origins.origin.side_effect = lambda chain, rule: origin if rule else None
        version = Version(self.file("new.nft", RULES), "new.nft", origins)
        ruleset = read_ruleset(version.path)
        told = outcome_told(OPENED.it.new, ruleset, version)
        self.assertEqual(told, Told("ip filter FORWARD", 7, "accept", "udp dport domain accept", "up.nft", 30))
        self.assertIn("now accept by rule 7 of ip filter FORWARD", ToldClass(OPENED.it, OPENED.old, told).text)
        self.assertEqual(outcome_told(OPENED.it.old, ruleset, version).line, 2)
        self.assertEqual(outcome_told(Outcome("accept", None), ruleset, version).chain, None)


class Forms(unittest.TestCase):
    def guard(self, words: str | None, known: EveryPacket, nothing: str | None = None, is_torn: bool = False) -> Guard:
        guard = Guard(kinds_of(words), AllowList(), known)
        guard.seen.append(Seen("in.pcap", (), (), (), nothing, nothing is not None, is_torn, 5, 0))
        return guard

    def test_text(self) -> None:
        lines = list(EveryPacket((OPENED, MARKED)).lines())
        self.assertEqual(lines, [
            "of all packets 2 classes differ:",
            "  forward: drop by the policy of ip filter forward, now accept by rule 2 of ip filter forward",
            "    udp dport 53", "    tcp dport 1", "    tcp dport 2", "    at least 8 more",
            "  input: accept without a chain, now accept by rule 1 of ip filter in with meta mark 5", "    any packet"])
        self.assertEqual(EveryPacket((OPENED,)).text(), "of all packets 1 class differs")
        many = list(EveryPacket((MARKED,) * 7).lines())
        self.assertEqual((many[0], len(many), many[-1]), (
            "of all packets 7 classes differ:", 12, "  and more (nftrun diff lists them)"))

    def test_json(self) -> None:
        told = json.loads(json.dumps(class_json(1, OPENED, True)))
        self.assertEqual((told["class"], told["stage"], told["new"]["rule"], told["old"]["rule"], told["more"]), (
            1, "forward", 2, None, 7))
        self.assertEqual((told["matches"][0], told["fails"]), ("udp dport 53", True))
        self.assertEqual(class_json(1, MARKED, False)["new_written"], ("meta mark 5",))
        self.assertEqual(whole_json(EveryPacket((OPENED,), 2)), {
            "same": False, "classes": 1, "more": 2, "unknown": None})
        self.assertEqual([whole_json(one)["same"] for one in (EveryPacket(), UNKNOWN)], [True, None])

    def test_statuses(self) -> None:
        same, differs = EveryPacket(), EveryPacket((OPENED,))
        for words, known, nothing, is_torn, status in (
                (None, differs, None, False, 0), ("class", differs, None, False, 1), ("class", same, None, False, 0),
                ("class", UNKNOWN, None, False, 2), (None, UNKNOWN, None, False, 0), (None, UNKNOWN, "why", False, 2),
                (None, differs, "why", False, 2), (None, same, "why", False, 0), (None, same, None, True, 7)):
            guard = self.guard(words, known, nothing, is_torn)
            self.assertEqual(guard.status(), status, (words, known, nothing))
        self.assertEqual(self.guard("class", differs).fails_on(), {Kind.CLASS: 1})
        self.assertEqual(self.guard("class", UNKNOWN).verdict(),
                         "nothing to fail on (class), nothing is known of all packets: nftrun diff: too large")

    def test_annotations(self) -> None:
        lines = list(github_lines(self.guard("class", EveryPacket((OPENED,))), "rules.nft"))
        self.assertEqual(lines, [
            "::error file=rules.nft,line=4,title=class::forward: drop by the policy of ip filter forward, now accept "
            "by rule 2 of ip filter forward: udp dport 53; tcp dport 1; tcp dport 2; tcp dport 3; at least 7 more"])
        for known, level in ((EveryPacket(), "notice"), (UNKNOWN, "error")):
            (line,) = github_lines(self.guard("class", known), "rules.nft")
            self.assertTrue(line.startswith(f"::{level} title=nftrun compare::"), line)
        lines = list(github_lines(self.guard(None, EveryPacket(), "no record"), "rules.nft"))
        self.assertEqual(lines[1:], ["::notice title=nftrun compare::nothing was compared: no record"])
        lines = list(github_lines(self.guard(None, EveryPacket((OPENED,) * 30)), "rules.nft"))
        self.assertEqual((len(lines), lines[-1]), (
            11, "::notice title=nftrun compare::of all packets 30 classes differ; nftrun diff lists them"))

    def test_sarif(self) -> None:
        told = json.loads(sarif(self.guard("class", EveryPacket((OPENED,))), "rules.nft", 1))["runs"][0]
        self.assertIn("class", [rule["id"] for rule in told["tool"]["driver"]["rules"]])
        (result,) = told["results"]
        self.assertEqual((result["ruleId"], result["locations"][0]["physicalLocation"]["region"]), (
            "class", {"startLine": 4}))


if __name__ == "__main__":
    unittest.main()
