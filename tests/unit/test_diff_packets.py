"""Packets that show what two rulesets do otherwise: which histories are kept, and what is told of the others."""
from __future__ import annotations

import importlib.machinery
import importlib.util
import io
import sys
import unittest
from contextlib import redirect_stdout
from types import ModuleType
from typing import Callable, Dict
from unittest import mock

from support import BOX, LAN, LINK, TOP, WAN, FilesCase
from toolbox.boxes import Box
from toolbox.captures import SENT_BY_US, records, sll2_header
from toolbox.diff_packets import ClassSearch, Pair, Runs, Searched, decides, order_of, search_classes
from toolbox.diffed import STAGES, Diff, Outcome, PacketClass
from toolbox.packets import destination_port, tuple_at
from toolbox.passages import Network, Stage
from toolbox.rulesets import Ruleset
from toolbox.searching import Became, gap_of
from toolbox.shaping import Sent
from toolbox.told_sets import told_of

RULES = """table inet filter {
	chain forward { type filter hook forward priority 0; policy drop; ct state established accept; tcp dport 80 accept; }
}
"""
TOLD = """rule inet filter forward 1 met
  met in forward: ct state established
rule inet filter forward 2 met
  met in forward: tcp dport 80
policy inet filter forward can apply
  ends in forward: ip protocol != tcp
"""
FORWARD = "inet filter forward"
POLICY, RULE = Outcome("drop", FORWARD), Outcome("accept", FORWARD, 3)


def class_of(*lines: str, more: int = 0, old: Outcome = POLICY, new: Outcome = RULE) -> PacketClass:
    return PacketClass("forward", old, new, lines, more)


OPENED = class_of('iifname "wan" ip daddr 192.168.1.0/24 tcp dport 8443 ct state new')
ALIKE = class_of("udp dport 53 ct state new")
ANSWERS = class_of('iifname "wan" tcp sport 80 ct state established ct direction reply',
                   old=Outcome("accept", FORWARD, 1), new=POLICY)
NO_HISTORY = class_of("ip length 0")
MANY = class_of("ip length 0", more=5)


def event(outcome: Outcome) -> bytes:
    return f"{outcome.chain} {outcome.rule or 'policy'} {outcome.verdict}".encode()


def passes(became: Outcome, data: bytes) -> Became:
    out = sll2_header(LAN if data[7] == WAN else WAN, SENT_BY_US) + data[LINK:]
    return Became((event(became),), "passed", out)


def stops(became: Outcome) -> Became:
    return Became((event(became),), "rule", None)


def stand_in(_program: str, rules: str, _box: str, capture: str, _folder: str) -> list[Became]:
    """A run: the old ruleset lets answers from port 80 and what goes to port 80 pass, the new one no answer, and 8443,
    too; both drop what goes to port 53, by other rules."""
    found = []
    for *_, data in records(capture):
        key = tuple_at(data, LINK)
        source, target = (int.from_bytes(key[8:10], "big"), destination_port(key)) if key else (0, 0)
        if target == 80:
            found.append(passes(Outcome("accept", FORWARD, 2), data))
        elif source == 80 and rules == "old":
            found.append(passes(ANSWERS.old, data))
        elif target == 8443 and rules == "new":
            found.append(passes(RULE, data))
        else:
            found.append(stops(RULE if rules == "new" and target == 53 else POLICY))
    return found


def command() -> ModuleType:
    """The command, as a module."""
    loader = importlib.machinery.SourceFileLoader("diff_packets_command", str(TOP / "tools/diff-packets"))
    spec = importlib.util.spec_from_loader(loader.name, loader)
    assert spec is not None
    made = importlib.util.module_from_spec(spec)
    sys.modules[loader.name] = made  # where dataclasses look for it
    with mock.patch.object(sys, "dont_write_bytecode", True):
        loader.exec_module(made)
    return made


class Searching(FilesCase):
    def setUp(self) -> None:
        super().setUp()
        self.box = Box(self.file("box.txt", BOX))
        self.network = Network(Ruleset(RULES), told_of(TOLD, self.box), self.box)
        self.runs = Runs("nftrun", "old", "new", self.box.path, str(self.folder))
        patch = mock.patch("toolbox.diff_packets.run_over", stand_in)
        patch.start()
        self.addCleanup(patch.stop)

    def searched(self, *classes: PacketClass) -> Searched:
        return search_classes([self.network, self.network], self.runs, classes)

    def test_a_packet_of_a_new_connection(self) -> None:
        searched = self.searched(OPENED)
        self.assertEqual((list(searched.found), searched.why_not), ([OPENED], {}))
        (sent,) = searched.found[OPENED]
        key = tuple_at(sent.packet, 0)
        assert key is not None
        self.assertEqual((sent.interface, destination_port(key)), (WAN, 8443))

    def test_an_answer_stands_behind_its_question(self) -> None:
        question, answer = self.searched(ANSWERS).found[ANSWERS]
        self.assertEqual([one.interface for one in (question, answer)], [LAN, WAN])
        self.assertEqual(question.packet[12:16], answer.packet[16:20])

    def test_why_none_is_found(self) -> None:
        searched = self.searched(ALIKE, NO_HISTORY, MANY)
        self.assertEqual((searched.found, searched.why_not), ({}, {
            ALIKE: "those tried end alike", NO_HISTORY: "only facts without a history", MANY: "not found"}))

    def test_nothing_comes_there(self) -> None:
        closed = RULES.replace("chain forward", "chain raw { type filter hook prerouting priority raw; policy drop; }\n"
                               "\tchain forward")
        network = Network(Ruleset(closed), told_of(TOLD, self.box), self.box)
        self.assertEqual(search_classes([network, network], self.runs, [OPENED]).why_not, {OPENED: "dropped before"})

    def test_by_the_new_ruleset_too(self) -> None:
        """By the old one nothing comes there, and it is tried all the same where some base chain lets packets pass."""
        closed = Network(Ruleset(RULES.replace("chain forward", "chain raw { type filter hook prerouting priority raw; "
                                               "policy drop; }\n\tchain forward")), told_of(TOLD, self.box), self.box)
        searched = search_classes([closed, self.network], self.runs, [OPENED])
        self.assertEqual(list(searched.found), [OPENED])

    def test_no_packet_before_may_differ(self) -> None:
        search = ClassSearch(self.network, self.runs, [OPENED], False)
        shows, other = Pair(stops(POLICY), passes(RULE, bytes(LINK))), Pair(stops(POLICY), stops(POLICY))
        trial = mock.Mock(wanted=OPENED, sent=[Sent(WAN, b"")])
        for pairs, is_kept in (([shows, shows], False), ([other], False), ([other, shows], True)):
            search.note(trial, pairs)
            self.assertEqual(not search.is_missing(OPENED), is_kept)

    def test_who_decides(self) -> None:
        self.assertTrue(decides(POLICY, stops(POLICY)))
        self.assertFalse(decides(RULE, stops(POLICY)))
        self.assertFalse(decides(POLICY, Became((b"log inet filter forward 3 x",), "rule", None)))
        self.assertTrue(decides(Outcome("accept", None), Became((), "passed", b"")))

    def test_stages(self) -> None:
        for stage, number in zip(STAGES, Stage):
            self.assertEqual(order_of(PacketClass(stage, POLICY, RULE))[0], number)

    def test_histories_stand_apart(self) -> None:
        self.assertEqual(gap_of(self.box, 2), 7441 * 10**9)


class Telling(FilesCase):
    def setUp(self) -> None:
        super().setUp()
        self.box = Box(self.file("box.txt", BOX))
        self.command = command()

    def said(self, call: Callable[[], object]) -> list[str]:
        output = io.StringIO()
        with redirect_stdout(output):
            call()
        return output.getvalue().splitlines()

    def test_each_class(self) -> None:
        packet = bytes.fromhex("450000280000000040060000c6336464c0a8010a9c4020fb") + bytes(16)
        sent = (Sent(WAN, packet),)
        pairs = [Pair(stops(POLICY), passes(RULE, sll2_header(WAN) + packet))]
        searched = Searched({OPENED: sent}, {ALIKE: "those tried end alike"})
        lines = self.said(lambda: self.command.tell(Diff((OPENED, ALIKE), 2), searched, pairs, self.box))
        self.assertEqual(lines, [
            "forward: drop by the policy of inet filter forward, now accept by rule 3 of inet filter forward",
            "  record 1, tcp 198.51.100.100:40000 > 192.168.1.10:8443, by wan: rule, now passed by lan",
            "forward: drop by the policy of inet filter forward, now accept by rule 3 of inet filter forward",
            "  not shown: those tried end alike", "shown 1 of 2 classes, by 1 packet",
            "at least 2 sets of packets in further classes"])

    def test_what_a_last_run_does_not_show(self) -> None:
        searched: Dict[PacketClass, tuple[Sent, ...]] = {OPENED: (Sent(WAN, bytes(20)),)}
        lines = self.said(lambda: self.command.tell(
            Diff((OPENED,)), Searched(searched, {}), [Pair(stops(POLICY), stops(POLICY))], self.box))
        self.assertEqual(lines[1:], ["  not shown: not found", "shown 0 of 1 class, by 1 packet"])

    def test_a_history_of_two_classes_stands_once(self) -> None:
        one, other = (Sent(WAN, b"1"), Sent(LAN, b"2")), (Sent(WAN, b"3"),)
        groups, found = self.command.shown_records({OPENED: one, ALIKE: other, ANSWERS: one})
        self.assertEqual((groups, found), ([one, other], {OPENED: 2, ALIKE: 3, ANSWERS: 2}))

    def test_translation(self) -> None:
        came = bytes.fromhex("450000280000000040060000c6336464c0a8010a9c4020fb") + bytes(16)
        left = Became((), "passed", sll2_header(LAN, SENT_BY_US) + came[:19] + b"\x0b" + came[20:])
        self.assertEqual(self.command.ended(left, "tcp 198.51.100.100:40000 > 192.168.1.10:8443", self.box),
                         "passed as tcp 198.51.100.100:40000 > 192.168.1.11:8443 by lan")


if __name__ == "__main__":
    unittest.main()
