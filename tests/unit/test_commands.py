"""What commands tell of a run over a router's capture: JSON, why a packet was dropped, what misleads, differences."""
from __future__ import annotations

import json
import os
import pathlib
import tempfile
import unittest
from unittest import mock

from made_elsewhere import ROUTER, STATION
from support import BOX, FilesCase, masquerade
from toolbox.advice import advice
from toolbox.boxes import Box
from toolbox.checkup import Checkup
from toolbox.checkup_run import of_run
from toolbox.commands import Refused
from toolbox.differences import BLOCKED, Groups, Sight, differing
from toolbox.flows import Flows
from toolbox.json_lines import RecordTexts, packet_json, tuple_json
from toolbox.program import find_program, run
from toolbox.replay import Files, Replay
from toolbox.rulesets import Ruleset
from toolbox.why_record import Why

RULES = """table inet filter {
	chain input { type filter hook input priority 0; policy drop; }
	chain forward { type filter hook forward priority 0; policy drop; iifname "lan" accept; }
}
"""


class OfRun(FilesCase):
    """See test_flows for what the records are."""

    def setUp(self) -> None:
        super().setUp()
        self.capture_path = self.capture("in.pcap", ROUTER)
        self.box_path = self.file("box.txt", BOX)
        self.rules = self.file("rules.nft", RULES)
        self.box = Box(self.box_path)
        patched = mock.patch("toolbox.program.run", masquerade)
        patched.start()
        self.addCleanup(patched.stop)

    def replay(self, rules: str, as_captured: bool = True) -> Replay:
        flows = Flows(self.capture_path, self.box)
        return Replay("nftrun", rules, self.box_path, flows, Files(str(self.folder), rules[-8:]), cuts=True,
                      as_captured=as_captured)

    def why(self, record: int) -> Why:
        return Why(record, self.rules, self.box_path, self.capture_path, "nftrun", Files(str(self.folder), "why"))


class AsJson(OfRun):
    def test_lines(self) -> None:
        replay = self.replay(self.rules)
        texts = RecordTexts(replay.flows, self.box, Ruleset(RULES))
        lines = [json.loads(line) for line in texts.lines(replay.files.leaving, replay.files.report)]
        self.assertEqual(len(lines), 14)
        ends = {"protocol": "tcp", "saddr": "192.168.1.10", "daddr": "198.51.100.7", "sport": 40000, "dport": 443}
        self.assertEqual(lines[0], {
            "record": 1, "time": 100.0, "flow": 1, "direction": "original", "in": "lan", "before": ends, "events": [],
            "outcome": "passed", "out": "wan", "after": {**ends, "saddr": "203.0.113.1"}})
        self.assertEqual((lines[1]["outcome"], lines[1]["link"], lines[1]["flow"]), ("link", "copy", None))
        self.assertEqual(lines[2]["events"], [
            {"chain": "inet filter input", "rule": None, "verdict": "drop"}])
        self.assertEqual((lines[2]["direction"], lines[2]["outcome"], lines[2]["after"]), ("reply", "rule", None))
        self.assertEqual(lines[10]["before"]["about"], {
            "protocol": "udp", "saddr": "203.0.113.1", "daddr": "198.51.100.7", "sport": 61000, "dport": 53})
        self.assertIsNone(lines[12]["before"])

    def test_lines_with_few_texts_kept(self) -> None:
        replay = self.replay(self.rules)

        def lines() -> list[str]:
            texts = RecordTexts(replay.flows, self.box, Ruleset(RULES))
            return list(texts.lines(replay.files.leaving, replay.files.report))

        kept = lines()
        with mock.patch("toolbox.json_lines.MOST_CACHED", 1):
            self.assertEqual(lines(), kept)

    def test_parts(self) -> None:
        self.assertEqual(tuple_json(bytes(8) + b"\0\x05\0\0\x01"), {
            "protocol": "icmp", "saddr": "0.0.0.0", "daddr": "0.0.0.0", "type": 8, "id": 5})
        self.assertIsNone(packet_json(b"", None))


class Asking(OfRun):
    def test_an_answer_to_another_port(self) -> None:
        why = self.why(3)
        self.assertEqual(why.arrival(), [
            "tcp 198.51.100.7:443 > 203.0.113.1:50000, syn ack, 40 bytes, TTL 64", "came by wan"])
        self.assertEqual(why.way(), ["input       inet filter input policy     drop"])
        self.assertEqual((why.outcome, why.is_reply, why.translation()), ("rule", True, []))
        self.assertIn("nftrun align makes such a capture fit", advice(why)[0])
        self.assertEqual([line[:3] for line in why.flow_lines(20)], ["  1", "> 3", "  5"])

    def test_a_packet_that_passed(self) -> None:
        why = self.why(1)
        self.assertEqual(why.translation(), [
            "source 192.168.1.10:40000 became 203.0.113.1:40000", "as its connection, or a mapping, says"])
        self.assertEqual(why.result(1), "left by wan as tcp 203.0.113.1:40000 > 198.51.100.7:443")
        self.assertEqual(advice(why), ["nothing to do: OUT has the packet as it left"])
        self.assertEqual(why.way(), ["no rule saw it"])
        self.assertEqual(why.moment(), "100.000000000")

    def test_answers_to_the_box(self) -> None:
        self.assertIn("it answers a packet of the box itself", advice(self.why(8))[0])

    def test_copies_and_other_packets(self) -> None:
        self.assertIn("it is the outgoing copy", advice(self.why(2))[0])
        self.assertEqual(self.why(13).flow_lines(5), ["it is of no flow"])
        with self.assertRaisesRegex(Refused, "no record 15"):
            self.why(15)


class Misleading(OfRun):
    def test_findings(self) -> None:
        checkup = Checkup(self.capture_path, self.box)
        found = {one.name: one for one in checkup.findings()}
        self.assertEqual(set(found), {"answers to the box", "IPv6", "translated"})
        self.assertEqual((checkup.count, checkup.ip), (14, 13))
        self.assertTrue(found["answers to the box"].misleads)
        self.assertEqual(found["IPv6"].numbers, {"records": 1})

    def test_ports(self) -> None:
        found = list(of_run(self.replay(self.rules)))
        self.assertEqual([one.name for one in found], ["ports"])
        self.assertEqual(found[0].numbers, {"records": 2, "flows": 2})

    def test_a_station(self) -> None:
        found = [one.name for one in Checkup(self.capture("b", STATION), self.box).findings()]
        self.assertEqual(found, ["ARP", "translated"])


class Comparing(OfRun):
    def test_what_is_blocked(self) -> None:
        old, new = self.replay(self.rules, False), self.replay(self.file("drops-all.nft", RULES), False)
        what = differing(old, new)
        # 11 is the error about 9, which is dropped by either, but not sent where 9 was dropped
        self.assertEqual([record for record, kind in enumerate(what) if kind], [1, 3, 5, 9, 11, 14])
        groups = Groups(old.flows, Sight(old), Sight(new), what)
        told = list(groups.each())
        self.assertEqual({group.kind for _, _, group in told}, {BLOCKED})
        self.assertEqual(groups.flow_counts[BLOCKED], 3)
        first = groups.all[0]
        self.assertEqual((first.new.verdict, first.new.text, first.first[0]), ("drop", "policy", 1))
        self.assertEqual(first.hosts, {bytes((192, 168, 1, 10))})
        self.assertEqual(first.display_filter(), "frame.number in {1, 3, 5, 9, 11, 14}")
        self.assertEqual(first.ports_text(), [("udp 53", 2), ("tcp 443", 1)])

    def test_nothing_differs(self) -> None:
        old, new = self.replay(self.rules), self.replay(self.file("same.nft", RULES))
        self.assertEqual(set(differing(old, new)), {0})


class Program(unittest.TestCase):
    def test_finding(self) -> None:
        with mock.patch.dict("os.environ", {"NFTRUN": "/some/where"}):
            self.assertEqual(find_program(), "/some/where")

    def test_finding_in_path(self) -> None:
        with tempfile.TemporaryDirectory() as folder, mock.patch("toolbox.program.BUILT", "/nowhere/nftrun"):
            path = pathlib.Path(folder, "nftrun")
            path.write_text("#!/bin/sh\n", encoding="ascii")
            path.chmod(0o755)
            with mock.patch.dict("os.environ", {"NFTRUN": "", "PATH": folder}):
                self.assertEqual(find_program(), str(path))
                # tools/nftrun of this repository is no program
                with mock.patch("toolbox.program.FRONT", os.path.realpath(path)):
                    self.assertRaises(Refused, find_program)

    def test_refusals(self) -> None:
        for program, text in (("/nowhere/nftrun", "No such file"), ("false", "ended with status 1")):
            with self.assertRaisesRegex(Refused, text):
                run(program, "r", "b", "c", "l", "p")


if __name__ == "__main__":
    unittest.main()
