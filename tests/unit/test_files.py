"""Box files, reports, packets from words, hits, and differences of two rulesets."""
from __future__ import annotations

import unittest
from unittest import mock

from support import BOX, FilesCase
from toolbox import commands, crafted, packets, reports
from toolbox.boxes import Box
from toolbox.differences import BLOCKED, OPENED, REWRITTEN, Told, cause, port_text
from toolbox.hits import Hits
from toolbox.rulesets import Ruleset

REPORT = """trace 1 inet f input 1 accept
log 1 inet f input 1 seen
trace 1 outcome local
trace 2 inet f input policy drop
trace 2 outcome rule
trace 3 outcome passed
counter inet f input 1 1 packets 3 bytes 180
records 3
passed 1
local 1
drop rule 1
torn 0
"""


class Boxes(FilesCase):
    def test_lines(self) -> None:
        box = Box(self.file("box.txt", BOX + "idle udp 5 # short\n\n"))
        self.assertEqual((box.indices, box.names), ({"lan": 2, "wan": 3}, {2: "lan", 3: "wan"}))
        self.assertEqual(box.entering(), 2)
        self.assertEqual((box.limits()[17], box.limits()[6], box.limits()[1]), (5, 7440, 60))
        self.assertEqual(box.interface_name(9), "index 9")
        self.assertEqual(box.index_bytes(), {b"\0\0\0\2", b"\0\0\0\3"})

    def test_routes(self) -> None:
        box = Box(self.file("box.txt", BOX))
        self.assertEqual(box.route(bytes((192, 168, 1, 9))), "lan")
        self.assertEqual(box.route(bytes((8, 8, 8, 8))), "wan")
        self.assertIsNone(box.route(bytes((224, 0, 0, 1))))

    def test_refused(self) -> None:
        for line in ("interface 0 a 10.0.0.1/24", "route 10.0.0.0/33 a", "idle never 5", "what", "default"):
            with self.assertRaisesRegex(commands.Refused, "line 1"):
                Box(self.file("bad.txt", line + "\n"))


class Reports(FilesCase):
    def setUp(self) -> None:
        super().setUp()
        self.path = self.file("report.txt", REPORT)

    def test_summary(self) -> None:
        summary = reports.Summary(self.path)
        summary.check_whole()
        self.assertEqual(summary.decisions(), {
            reports.Decision("inet f input", 1, "accept"): 1, reports.Decision("inet f input", None, "drop"): 1})
        self.assertEqual(summary.logs(), {reports.Log("inet f input", 1, "seen"): 1})
        self.assertEqual(summary.counters, [reports.RuleCounter("inet f input", 1, 1, 3, 180)])
        self.assertEqual((summary.totals["records"], dict(summary.outcomes)), (3, {"local": 1, "rule": 1, "passed": 1}))

    def test_ending(self) -> None:
        """An ending is what the whole report tells, wherever the pieces end in which it is read from behind."""
        whole = reports.Summary(self.path)
        for chunk in (1, 7, 40, 1 << 20):
            with mock.patch("toolbox.reports.CHUNK", chunk):
                ending = reports.Ending(self.path)
                self.assertEqual((ending.counters, ending.totals), (whole.counters, whole.totals))

    def test_ending_of_few_lines(self) -> None:
        for text, totals in (("", {}), ("records 0\ntorn 0\n", {"records": 0, "torn": 0}),
                             ("records 3\ntor", {"records": 3}), ("trace 1 outcome pas", {}),
                             ("log 1 inet f input 1 a\nrecords 1\n", {"records": 1}),
                             ("trace 1 outcome passed\n", {})):
            self.assertEqual(reports.Ending(self.file("few.txt", text)).totals, totals)
        with self.assertRaisesRegex(commands.Refused, "a line behind its records is none of a report: what"):
            reports.Ending(self.file("few.txt", "trace 1 outcome passed\nwhat\n"))

    def test_records(self) -> None:
        found = list(reports.records_of(self.path))
        self.assertEqual([(number, len(events), outcome) for number, events, outcome in found], [
            (1, 2, b"local"), (2, 1, b"rule"), (3, 0, b"passed")])
        self.assertEqual([outcome for _, outcome in reports.traced_records(self.path)], [b"local", b"rule", b"passed"])
        names = {b"passed": 1}
        self.assertEqual(list(reports.outcomes_of(self.path, names))[1:], [names[b"local"], names[b"rule"], 1])
        self.assertEqual(list(reports.events_of_some(self.path, [2])), [[b"inet f input policy drop"]])

    def test_refused(self) -> None:
        for text in ("nothing of a report\n", "trace x outcome local\n"):
            with self.assertRaises(commands.Refused):
                list(reports.records_of(self.file("a", text))) or reports.Summary(self.file("b", text))
        with self.assertRaisesRegex(commands.Refused, "isn't whole"):
            reports.Summary(self.file("c", "records 1\n")).check_whole()
        with self.assertRaisesRegex(commands.Refused, "lacks outcomes"):
            reports.Summary(self.file("d", "records 1\ntorn 0\n")).check_whole()

    def test_hits(self) -> None:
        text = "table inet f { chain input { type filter hook input priority 0; counter accept; drop; counter } }"
        ruleset = Ruleset(text)
        hits = Hits(reports.Summary(self.path))
        self.assertEqual([hits.number(rule) for rule in ruleset.rules], [3, 0, 0])
        self.assertEqual([hits.is_unmet(rule) for rule in ruleset.rules], [False, True, False])
        with self.assertRaisesRegex(commands.Refused, "other counters"):
            hits.check_places(ruleset, "rules", "report")
        with self.assertRaisesRegex(commands.Refused, "a rule that rules hasn't"):
            hits.check_places(Ruleset("table inet f { }"), "rules", "report")


class Crafting(FilesCase):
    def test_packets(self) -> None:
        told = {
            "tcp 10.0.0.1:1 > 10.0.0.2:2 syn": "tcp 10.0.0.1:1 > 10.0.0.2:2",
            "udp 10.0.0.1:1 > 10.0.0.2:2 bytes 3": "udp 10.0.0.1:1 > 10.0.0.2:2",
            "ping 10.0.0.1 > 10.0.0.2 id 5": "icmp 10.0.0.1 > 10.0.0.2 echo-request id 5",
            "unreachable 10.0.0.3 > 10.0.0.1 about udp 10.0.0.1:1 > 10.0.0.2:2":
                "icmp 10.0.0.3 > 10.0.0.1 destination-unreachable code 0 about udp 10.0.0.1:1 > 10.0.0.2:2",
        }
        for words, text in told.items():
            packet, _ = crafted.read_packet(words.split())
            self.assertEqual(packets.describe(packet, 0), text)
            self.assertEqual(packets.checksum(packet[:20]), 0)

    def test_checksums_cover_the_addresses(self) -> None:
        for kind, protocol in (("tcp", 6), ("udp", 17)):
            words = f"{kind} 10.0.0.1:1 > 10.0.0.2:2 bytes 5"
            packet, _ = crafted.read_packet(words.split())
            rest = packet[20:]
            pseudo = packet[12:20] + bytes((0, protocol)) + len(rest).to_bytes(2, "big")
            self.assertEqual(packets.checksum(pseudo + rest), 0)

    def test_records(self) -> None:
        box = Box(self.file("box.txt", BOX))
        lines = ["# none", "udp 10.0.0.1:1 > 10.0.0.2:2 at 1.5 in wan", "ping 10.0.0.1 > 10.0.0.2 out lan"]
        found = list(crafted.crafted_records(lines, box))
        self.assertEqual([moment for moment, _ in found], [1_500_000_000] * 2)
        self.assertEqual([(data[7], data[10]) for _, data in found], [(3, 0), (2, 4)])
        self.assertEqual(crafted.link_type_of(None), 101)

    def test_refused(self) -> None:
        for words in (
            "tcp 10.0.0.1 > 10.0.0.2:2", "what 1 > 2", "udp 10.0.0.1:1 10.0.0.2:2 x", "ping 10.0.0.1 > 10.0.0.2 id",
            "udp 10.0.0.1:1 > 10.0.0.2:70000", "ping 10.0.0 > 10.0.0.2", "tcp 10.0.0.1:1 > 10.0.0.2:2 syn syn",
            "unreachable 10.0.0.3 > 10.0.0.1", "udp 10.0.0.1:1 > 10.0.0.2:2 at x", "udp 10.0.0.1:1 > 10.0.0.2:2 in lan",
        ):
            with self.assertRaises(commands.Refused, msg=words):
                list(crafted.crafted_records([words], None))


class Differences(unittest.TestCase):
    OLD, NEW = Told("inet f fwd", 3, "accept", "tcp dport 80 accept"), Told("inet f fwd", None, "drop", "policy")

    def test_causes(self) -> None:
        self.assertEqual(cause(BLOCKED, [self.OLD], [self.NEW], "passed", "rule"), (self.OLD, self.NEW))
        self.assertEqual(cause(OPENED, [self.NEW], [self.OLD], "rule", "passed"), (self.NEW, self.OLD))
        same = cause(REWRITTEN, [self.OLD], [self.OLD], "passed", "passed")
        self.assertEqual((same[0].chain, same[0].verdict), (None, "passed"))

    def test_ports(self) -> None:
        self.assertEqual(port_text(b"\x01\xbb\x06"), "tcp 443")
        self.assertEqual(port_text(b"\0\0\x01"), "ping")
        self.assertEqual(port_text(b"\0\0\x2f"), "protocol 47")


class Printing(unittest.TestCase):
    def test_what_steers_a_terminal(self) -> None:
        self.assertEqual(commands.printable("a\x1b[31m\tb\u202e\udc9b"), "a\\x1b[31m\tb\\u202e\\x9b")

    def test_plurals(self) -> None:
        self.assertEqual((commands.plural(1, "flow"), commands.plural(2, "reply", "replies")), ("1 flow", "2 replies"))


if __name__ == "__main__":
    unittest.main()
