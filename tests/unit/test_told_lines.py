"""The lines of `nftrun reach --sets` as the judge reads them (tests/random/told_lines.py)."""
from __future__ import annotations

import sys
import unittest
from dataclasses import replace
from typing import Dict, Sequence, Tuple

from support import TOP

sys.path.insert(0, str(TOP / "tests/random"))

from drawn import WAN  # noqa: E402
from facts import ANY  # noqa: E402
from told_lines import Lines, Unread, bounds_of, line_of, told_in  # noqa: E402
from tracking import State  # noqa: E402

# a line, and fields of facts that stand in it, and of facts that don't
Case = Tuple[str, Dict[str, object], Dict[str, object]]


def stands(text: str, **fields: object) -> bool:
    """Whether facts stand in the line."""
    lines = Lines()
    lines.take(text)
    return lines.has(replace(ANY, **fields).met())


class OfLines(unittest.TestCase):
    def try_all(self, cases: Sequence[Case]) -> None:
        for text, here, elsewhere in cases:
            self.assertTrue(stands(text, **here), text)
            self.assertFalse(stands(text, **elsewhere), text)

    def test_any_packet(self) -> None:
        self.assertTrue(stands("any packet"))

    def test_numbers(self) -> None:
        self.try_all((
                ("ip saddr 10.0.0.0/8", {"source": 0x0AFFFFFF}, {"source": 0x0B000000}),
                ("ip daddr { 1.2.3.4, 1.2.3.6-1.2.3.9 }", {"destination": 0x01020306}, {"destination": 0x01020305}),
                ("ip daddr != 1.2.3.4", {"destination": 0x01020305}, {"destination": 0x01020304}),
                ("tcp dport { 22, 8080-8090 }", {"destination_port": 8090}, {"destination_port": 8091}),
                ("th sport 5", {"source_port": 5, "protocol": 17}, {"source_port": 5, "protocol": 1}),
                ("tcp dport != 5", {}, {"protocol": 17}), ("ip protocol != { tcp, udp }", {"protocol": 50}, {}),
                ("icmp type { echo-reply, 3-5 }", {"protocol": 1, "icmp_type": 5}, {"protocol": 1, "icmp_type": 6}),
                ("ip ttl 2-255", {"ttl": 2}, {"ttl": 1}), ("ip length 0", {"length": 0}, {"length": 1}),
                ("meta mark 0x10", {"mark": 16}, {"mark": 10}), ("ct mark 7", {"ct_mark": 7}, {"ct_mark": 8})))

    def test_words(self) -> None:
        self.try_all((
                ('iifname { "lan", "w" }', {}, {"input": WAN}), ('oifname "wan"', {"output": WAN}, {}),
                ("ct state new,invalid", {"state": State.INVALID}, {"state": State.RELATED}),
                ("ct direction reply", {"is_reply": True}, {"is_reply": True, "state": State.INVALID}),
                ("ct status snat", {"status": 48}, {"status": 34}),
                ("ct status != snat", {"status": 34}, {"status": 48}),
                ("tcp flags & (syn | ack) == syn", {"flags": 3}, {"flags": 18}),
                ("tcp flags & rst == 0", {"flags": 18}, {"flags": 4}),
                ("ip ttl 64 tcp dport 4", {}, {"ttl": 63}), ("ct mark != 7", {}, {"state": State.UNTRACKED})))

    def test_bounds(self) -> None:
        (match,) = line_of("ip ttl { 0-3, 255 }")
        self.assertEqual(bounds_of(match), [0, 3, 4, 254, 255])

    def test_other_forms_are_refused(self) -> None:
        for text in ("ip tos 3", "lan", "tcp dport { 5 6 }"):
            with self.assertRaises((Unread, IndexError), msg=text):
                line_of(text)
        with self.assertRaises(Unread):
            told_in("else\n")

    def test_all_of_it(self) -> None:
        told = told_in("rule ip t c 1 met\n  reached in b: any packet\n  met in b: ip ttl 1\n  met in b: 2 more\n"
                       "rule ip t c 2 never reached, taken by 1\npolicy ip t b can apply\n  ends in b: ip ttl 2\n")
        self.assertEqual(told.rules, {("ip t c", 1): "met", ("ip t c", 2): "never reached, taken by 1"})
        self.assertEqual(told.policies, {"ip t b": "can apply"})
        self.assertTrue(told.sets.reached["ip t c", 1]["ip t b"].is_whole)
        self.assertFalse(told.sets.met["ip t c", 1]["ip t b"].is_whole)
        self.assertEqual(len(told.sets.ends["ip t b"].lines), 1)


if __name__ == "__main__":
    unittest.main()
