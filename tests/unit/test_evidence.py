"""Whether a capture is whole, and which of two rulesets' differences packets met."""
from __future__ import annotations

import base64
import unittest

from made_elsewhere import ROUTER
from support import BOX, FilesCase
from toolbox.boxes import Box
from toolbox.checkup import Checkup
from toolbox.evidence import changes_of, torn_flows
from toolbox.flows import Flows
from toolbox.rulesets import Ruleset

OLD = """table inet f {
    set ports { type inet_service; elements = { 22 } }
    chain in { type filter hook input priority 0; policy drop;
        tcp dport @ports accept
        counter drop
        udp dport 53 accept comment "names"
    }
    chain out { type filter hook output priority 0; accept; }
}
"""


class Torn(FilesCase):
    def test_each_end(self) -> None:
        data, box = base64.b64decode(ROUTER), Box(self.file("box.txt", BOX))
        first = 24 + 16 + int.from_bytes(data[32:36], "little")
        for length, records in ((25, 0), (first - 1, 0), (first + 1, 1), (len(data) - 1, 13)):
            flows = Flows(self.file("in.pcap", data[:length]), box)
            self.assertEqual((flows.torn, flows.count), (True, records))
            self.assertIn(f"within record {records + 1},", torn_flows(flows) or "")
            self.assertIn("torn", [one.name for one in Checkup(flows.path, box).findings()])
        for length in (24, first, len(data)):
            self.assertIsNone(torn_flows(Flows(self.file("in.pcap", data[:length]), box)))


class Changed(unittest.TestCase):
    def changes(self, old: str, new: str) -> list[tuple[str, str | None]]:
        found = changes_of(Ruleset(OLD.replace(old, new)), Ruleset(OLD))
        return [(one.chain.name, one.rule.text if one.rule else None) for one in found]

    def test_no_change(self) -> None:
        for old, new in (("", ""), ("counter drop", "counter packets 4 bytes 9 drop"), (' comment "names"', ""),
                         ("@ports accept", "@ports   accept")):
            self.assertEqual(self.changes(old, new), [])

    def test_changes(self) -> None:
        self.assertEqual(self.changes("dport 53", "dport 54"), [("inet f in", 'udp dport 54 accept comment "names"')])
        self.assertEqual(self.changes("{ 22 }", "{ 22, 23 }"), [("inet f in", "tcp dport @ports accept")])
        self.assertEqual(self.changes("policy drop", "policy accept"), [("inet f in", None)])
        self.assertEqual(self.changes("hook output priority 0", "hook output priority 1"), [("inet f out", None)])
        self.assertEqual(self.changes("        counter drop\n", ""), [])
        self.assertEqual(self.changes("chain out {", "chain new { drop; } chain out {"), [("inet f new", "drop")])


if __name__ == "__main__":
    unittest.main()
