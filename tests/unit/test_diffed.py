"""What `nftrun diff` answers, as it is read."""
from __future__ import annotations

import os
import unittest

from support import FilesCase
from toolbox.answering import NoAnswer
from toolbox.diffed import STAGES, Diff, Outcome, PacketClass, ask, class_of, diff_of, outcome_of

LINES = """forward: drop by the policy of ip filter forward, now accept by rule 3 of ip filter forward
  iifname "wan" ip daddr 10.0.0.0/24 tcp dport { 22, 8080-8090 }
  iifname "lan" ct state new
  at least 12 more
prerouting nat: accept by rule 1 of ip nat pre, now dnat to 10.0.0.5:80 by rule 1 of ip nat pre
  any packet
at least 3 more
""".splitlines()
FORWARD, NAT = "ip filter forward", "ip nat pre"
CLASSES = (
    PacketClass("forward", Outcome("drop", FORWARD), Outcome("accept", FORWARD, 3),
                ('iifname "wan" ip daddr 10.0.0.0/24 tcp dport { 22, 8080-8090 }', 'iifname "lan" ct state new'), 12),
    PacketClass("prerouting nat", Outcome("accept", NAT, 1), Outcome("dnat to 10.0.0.5:80", NAT, 1), ("any packet",)))
OUTCOMES = {
    "accept without a chain": Outcome("accept", None),
    "drop by rule 12 of inet f c.d": Outcome("drop", "inet f c.d", 12),
    "snat to 203.0.113.1 by rule 1 of ip t c": Outcome("snat to 203.0.113.1", "ip t c", 1),
    "snat to 203.0.113.1:1024-2048 by rule 1 of ip t c": Outcome("snat to 203.0.113.1:1024-2048", "ip t c", 1),
    "masquerade by rule 1 of ip t c": Outcome("masquerade", "ip t c", 1),
    "masquerade to :1024-2048 by rule 1 of ip t c": Outcome("masquerade to :1024-2048", "ip t c", 1),
    "redirect by rule 1 of ip t c": Outcome("redirect", "ip t c", 1),
    "redirect to :8080 by rule 1 of ip t c": Outcome("redirect to :8080", "ip t c", 1),
    "accept by the policy of ip with now with meta mark 5 with ct mark as the connection's came with notrack": Outcome(
        "accept", "ip with now", None, ("meta mark 5", "ct mark as the connection's came", "notrack")),
    "accept by rule 2 of ip t c with meta mark as the packet's came": Outcome(
        "accept", "ip t c", 2, ("meta mark as the packet's came",)),
}


class Lines(unittest.TestCase):
    def test_the_same(self) -> None:
        self.assertEqual(diff_of(["the same for every packet"]), Diff())
        self.assertTrue(Diff().is_same)

    def test_classes(self) -> None:
        diff = diff_of(LINES)
        self.assertEqual(diff, Diff(CLASSES, 3))
        self.assertFalse(diff.is_same)
        self.assertEqual(diff_of(LINES[:-1]).more, 0)

    def test_each_outcome(self) -> None:
        for text, outcome in OUTCOMES.items():
            self.assertEqual(outcome_of(text), outcome)
            self.assertEqual(outcome.text, text)

    def test_each_stage(self) -> None:
        for stage in STAGES:
            line = f"{stage}: drop by rule 1 of ip t c, now accept without a chain"
            self.assertEqual((class_of(line).stage, class_of(line).text), (stage, line))

    def test_what_is_no_answer(self) -> None:
        head = LINES[0]
        for lines in ([""], ["  any packet"], ["at least 3 more"], [head, "at least 3 more", head],
                      [head.replace("forward:", "output:")], [head.replace(", now", ", then")],
                      [head.replace("accept", "reject")], [head + " with mark 3"], [head, "the same for every packet"],
                      [head.replace("rule 3", "rule three")]):
            with self.assertRaises(ValueError, msg=lines) as raised:
                diff_of(lines)
            self.assertIn(str(raised.exception), lines)


class Asked(FilesCase):
    def asked(self, *lines: str, assume: str | None = None, seconds: int | None = None) -> Diff | NoAnswer:
        """What a program with these lines of shell answers."""
        path = self.file("program", "\n".join(["#!/bin/sh", *lines]) + "\n")
        os.chmod(path, 0o755)
        return ask(path, "-old", "new", "box", seconds, assume)

    def test_answers(self) -> None:
        path = self.file("answer", "\n".join(LINES) + "\n")
        self.assertEqual(self.asked(f"cat {path}", "exit 10"), Diff(CLASSES, 3))
        self.assertEqual(self.asked("echo the same for every packet"), Diff())

    def test_what_it_is_asked(self) -> None:
        for assume, told in ((None, "diff -- -old new box"), ("-f", "diff --assume -f -- -old new box")):
            self.assertEqual(self.asked('echo "nftrun: $*" >&2', "exit 6", assume=assume),
                             NoAnswer(f"nftrun diff: {told}", status=6))

    def test_no_answer(self) -> None:
        path = str(self.folder / "program")
        self.assertEqual(self.asked("echo error: unrecognized subcommand >&2", "exit 2"),
                         NoAnswer(f"{path} has no `diff` (error: unrecognized subcommand)", False, 2))
        large = self.asked("echo nftrun: too large >&2", "exit 9")
        self.assertEqual(large, NoAnswer("nftrun diff: too large", status=9))
        rejected = self.asked("echo nftrun: N06 >&2", "exit 1")
        assert isinstance(large, NoAnswer) and isinstance(rejected, NoAnswer)
        self.assertEqual([large.is_rejected, rejected.is_rejected], [False, True])
        self.assertEqual(self.asked("echo nonsense", "exit 10"),
                         NoAnswer("nftrun diff: a line that can't be read: nonsense"))
        self.assertEqual(self.asked("exit 0"), NoAnswer("nftrun diff: a line that can't be read: there is none"))
        self.assertEqual(self.asked("exec sleep 30", seconds=1), NoAnswer("nftrun diff took over 1 s"))

    def test_the_status_has_to_fit(self) -> None:
        self.assertEqual(self.asked("echo the same for every packet", "exit 10"),
                         NoAnswer("nftrun diff: status 10 with 0 classes", status=10))
        self.assertEqual(self.asked(f"echo '{LINES[0]}'"),
                         NoAnswer("nftrun diff: status 0 with 1 class", status=0))


if __name__ == "__main__":
    unittest.main()
