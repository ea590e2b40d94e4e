"""What a run tells in all and of each packet in other formats: metrics by the grammar of Prometheus's text format, and
comments of pcapng, read by the figures of its draft."""
from __future__ import annotations

import io
import re
import struct
import unittest
from dataclasses import dataclass, field
from typing import Dict, Iterator, List

from made_elsewhere import PACKETS, ROUTER
from support import BOX, WAN, FilesCase, masquerade
from toolbox.annotated import Comments, write_annotated
from toolbox.boxes import Box
from toolbox.captures import SENT_BY_US, records, sll2_header, write_header, write_record
from toolbox.metrics import metrics_of
from toolbox.reports import Summary
from toolbox.rulesets import read_ruleset

RULES = """table inet filter {
	chain input {
		type filter hook input priority filter; policy drop;
		iifname "lan" log prefix "a\\b" counter accept
	}
}
"""
# By "Text format details" of prometheus.io/docs/instrumenting/exposition_formats: names, labels, values
NAME = r"[a-zA-Z_:][a-zA-Z0-9_:]*"
LABEL = r'([a-zA-Z_][a-zA-Z0-9_]*)="((?:[^"\\\n]|\\[\\"n])*)"'
SAMPLE = re.compile(rf"({NAME})(?:\{{({LABEL}(?:,{LABEL})*,?)\}})? ([-+]?[0-9]+(?:\.[0-9]+)?)")
HELP, TYPE = re.compile(rf"# HELP ({NAME}) ((?:[^\\]|\\[\\n])*)"), re.compile(rf"# TYPE ({NAME}) (gauge|counter)")


@dataclass
class Parsed:
    """A metric as a scraper reads it."""

    type: str = ""
    samples: Dict[tuple[tuple[str, str], ...], float] = field(default_factory=dict)


def scraped(text: str) -> dict[str, Parsed]:
    """The metrics of a text; what the format doesn't have, or has once alone, is no metric."""
    if not text.endswith("\n"):
        raise ValueError("the last line has no end")
    found: dict[str, Parsed] = {}
    last = ""
    for line in text[:-1].split("\n"):
        match = HELP.fullmatch(line) or TYPE.fullmatch(line) or SAMPLE.fullmatch(line)
        if match is None:
            raise ValueError(line)
        name = match[1]
        if name != last and name in found:
            raise ValueError(f"{name} stands in two groups")
        metric, last = found.setdefault(name, Parsed()), name
        if line.startswith("# TYPE"):
            if metric.type or metric.samples:
                raise ValueError(f"{name} has a second type, or one behind its samples")
            metric.type = match[2]
        elif not line.startswith("#"):
            labels = tuple((label, re.sub(r"\\(.)", unescaped, value))
                           for label, value in re.findall(LABEL, match[2] or ""))
            if labels in metric.samples or len(dict(labels)) < len(labels):
                raise ValueError(f"{line}: twice")
            metric.samples[labels] = float(line.rpartition(" ")[2])
    return found


def unescaped(match: re.Match[str]) -> str:
    return "\n" if match[1] == "n" else match[1]


class Metrics(FilesCase):
    def metrics(self, report: str) -> dict[str, Parsed]:
        summary = Summary(self.file("report.txt", report))
        return scraped("".join(f"{line}\n" for metric in metrics_of(summary) for line in metric.lines()))

    def test_totals(self) -> None:
        found = self.metrics('counter ip t c 3 2 packets 5 bytes 700\ncounter ip t "\\\x1b 1 1 packets 0 bytes 0\n'
                             "records 9\npassed 3\nlocal 1\ndrop rule 4\ndrop ttl 1\nbegun 6\nlive 2\ntorn 0\n")
        self.assertEqual({one.type for one in found.values()}, {"gauge"})
        value = {name: one.samples for name, one in found.items()}
        self.assertEqual(value["nftrun_records"], {(): 9})
        self.assertEqual(value["nftrun_complete"], {(): 1})
        self.assertEqual(value["nftrun_connections_begun"], {(): 6})
        self.assertEqual(value["nftrun_connections_live"], {(): 2})
        self.assertEqual(value["nftrun_outcome_records"], {
            (("outcome", name),): number for name, number in (("passed", 3), ("local", 1), ("rule", 4), ("ttl", 1))})
        rule = (("chain", "ip t c"), ("rule", "3"), ("counter", "2"))
        hostile = (("chain", 'ip t "\\\\x1b'), ("rule", "1"), ("counter", "1"))
        self.assertEqual(value["nftrun_rule_packets"], {rule: 5, hostile: 0})
        self.assertEqual(value["nftrun_rule_bytes"], {rule: 700, hostile: 0})

    def test_what_isnt_complete(self) -> None:
        self.assertEqual(self.metrics("records 9\ntorn 1\n")["nftrun_complete"].samples, {(): 0})
        self.assertEqual(list(self.metrics("trace 1 outcome rule\n")), ["nftrun_complete"])

    def test_the_grammar_refuses(self) -> None:
        for text in ("a 1", "a-b 1\n", 'a{b="c} 1\n', 'a{b="\\t"} 1\n', "a 1\na 1\n", "a 1\nb 1\na{c=\"d\"} 1\n",
                     "a 1\n# TYPE a gauge\n", "# TYPE a sum\n", "a one\n", 'a{b="c",b="d"} 1\n'):
            with self.assertRaises(ValueError, msg=text):
                scraped(text)


def packets_of(data: bytes) -> Iterator[tuple[bytes, List[str]]]:
    """The bytes and the comments of the enhanced packet blocks of a file, lowest byte first."""
    at = 0
    while at < len(data):
        kind, length = struct.unpack_from("<II", data, at)
        if kind == 6:
            size = struct.unpack_from("<I", data, at + 20)[0]
            place, end, comments = at + 28 + (size + 3) // 4 * 4, at + length - 4, []
            while place < end and data[place:place + 2] != b"\0\0":
                code, long = struct.unpack_from("<HH", data, place)
                if code == 1:
                    comments.append(data[place + 4:place + 4 + long].decode())
                place += 4 + (long + 3) // 4 * 4
            yield data[at + 28:at + 28 + size], comments
        at += length


class Commented(FilesCase):
    def test_comments(self) -> None:
        box, rules = self.file("box.txt", BOX), self.file("rules.nft", RULES)
        capture, leaving, report = (str(self.folder / name) for name in ("in.pcap", "out", "report"))
        self.capture("in.pcap", ROUTER)
        masquerade("", rules, box, capture, leaving, report)
        out = io.BytesIO()
        write_annotated(out, capture, Comments(Box(box), read_ruleset(rules)).texts(leaving, report))
        found = list(packets_of(out.getvalue()))
        self.assertEqual([data for data, _ in found], [one[6] for one in records(capture)])
        self.assertEqual(found[0][1], ["outcome passed, left by wan as tcp 203.0.113.1:40000 > 198.51.100.7:443"])
        self.assertEqual(found[1][1], ["outcome link"])
        self.assertEqual(found[7][1], ["outcome rule\ninet filter input policy drop"])

    def test_rules_and_hostile_names(self) -> None:
        box, rules = self.file("box.txt", BOX), self.file("rules.nft", RULES)
        leaving = self.folder / "out"
        with open(leaving, "wb") as file:
            write_header(file)
            write_record(file, 0, sll2_header(WAN, SENT_BY_US) + bytes.fromhex(PACKETS["UDP"]))
        report = self.file("report", b"log 1 inet filter input 1 a\xff\x1bb\ntrace 1 inet filter input 1 accept\n"
                                     b"trace 1 outcome passed\n")
        first = next(Comments(Box(box), read_ruleset(rules)).texts(str(leaving), report))
        text = 'iifname "lan" log prefix "a\\b" counter accept'
        self.assertEqual(first, (
            "outcome passed, left by wan as udp 192.168.1.10:5000 > 198.51.100.7:53\n"
            f"inet filter input 1 log a\\xff\\x1bb: {text}\ninet filter input 1 accept: {text}"))


if __name__ == "__main__":
    unittest.main()
