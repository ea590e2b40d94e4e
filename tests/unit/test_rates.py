"""Rates by a capture's clock: what Linux keeps of limits, quotas, sets and connections, worked out by hand; and the
marks of records that are written for nftrun."""
from __future__ import annotations

import pathlib
import re
import unittest
from typing import Sequence
from unittest import mock

from support import BOX, LAN, LINK, WAN, FilesCase, capture_of
from fit import command
from fit.rates import aliases, elements, keys, known, marked, replay, run, subjects, terms
from fit.rates.buckets import Arrival, CountedConnections, TokenBucket, UsedQuota
from fit.scanner import Refused
from fit.tree import NotFitted
from toolbox import captures, crafted
from toolbox.captures import ETHERNET, RAW_IP, TO_US, write_header, write_record
from toolbox.packets import ACK, FIN, RST, SYN, inverse

SECOND = 10**9
LIMITS = {"udp": 300, "established": 7440, "transitory": 240, "ask": 60, "other": 600}
CLIENT, SERVER = bytes((192, 168, 1, 10)), bytes((198, 51, 100, 7))


def at(seconds: float, size: int = 40, key: bytes | None = None, is_assured: bool = False) -> Arrival:
    return Arrival(round(seconds * SECOND), size, key, is_assured)


def tcp(port: int) -> bytes:
    """The tuple of a connection to port 22."""
    return CLIENT + SERVER + port.to_bytes(2, "big") + b"\0\x16\x06"


def packet(text: str) -> bytes:
    """A crafted packet without its link header."""
    return next(crafted.crafted_records([text], None))[1]


def limit(text: str) -> terms.Limit:
    found = terms.terms_of(text.split())
    assert isinstance(found, terms.Limit)
    return found


class Reading(unittest.TestCase):
    def test_limits(self) -> None:
        self.assertEqual(limit("limit rate 5 / minute"), terms.Limit(False, 5, 60, 5, None))
        self.assertEqual(limit("limit rate over 2 / day burst 9 packets"), terms.Limit(True, 2, 86400, 9, None))
        self.assertEqual(limit("limit rate until 10 kbytes/second"), terms.Limit(False, 10240, 1, 0, 1024))
        self.assertEqual(
            limit("limit rate 1 mbytes/hour burst 3 kbytes"), terms.Limit(False, 1048576, 3600, 3072, 1048576))

    def test_others(self) -> None:
        self.assertEqual(terms.terms_of("quota over 2 mbytes used 1 kbytes".split()), terms.Quota(True, 2097152, 1024))
        self.assertEqual(terms.terms_of("ct count over 3".split()), terms.Count(True, 3))
        asked = terms.asked_of("{ ip saddr timeout 1h30m limit rate 1 / second expires 500ms counter }".split())
        self.assertEqual((asked.timeout, asked.expires), (5400 * SECOND, SECOND // 2))
        self.assertEqual(asked.bounds, (terms.Limit(False, 1, 1, 5, None),))
        self.assertEqual(terms.nanoseconds("90"), 90 * SECOND)
        self.assertEqual(terms.nanoseconds("1w2d"), 9 * 86400 * SECOND)

    def test_what_isnt_known(self) -> None:
        for text in ("limit 5", "limit rate 5", "limit rate 5 / fortnight", "limit rate 0 / second", "quota 5 apples",
                     "ct state", "counter", "limit rate five / second"):
            with self.assertRaises(NotFitted, msg=text):
                terms.terms_of(text.split())
        with self.assertRaises(NotFitted):
            terms.nanoseconds("soon")


class Buckets(unittest.TestCase):
    def over(self, text: str, arrivals: Sequence[Arrival]) -> list[bool]:
        bucket = TokenBucket(limit(text))
        return [bucket.is_over(it) for it in arrivals]

    def test_packets(self) -> None:
        # 2/second, burst 2: a packet costs 0.5 s, and 1 s is the most. Left: 0.5, 0.1, (0.2), 0.2, (0.3), 0.5
        times = (10, 10.1, 10.2, 10.7, 10.8, 12.8)
        found = self.over("limit rate 2 / second burst 2 packets", [at(it) for it in times])
        self.assertEqual(found, [False, False, True, False, True, False])

    def test_just_enough(self) -> None:
        found = self.over("limit rate 1 / minute burst 1 packets", [at(0), at(59.999999999), at(60), at(120)])
        self.assertEqual(found, [False, True, False, False])

    def test_bytes(self) -> None:
        # 100 bytes/second, burst 50: 1.5 s at most. 100 bytes cost 1 s, 50 half of one. Left: 0.5, 0.1, (0.2), 0
        sizes = ((0, 100), (0.1, 50), (0.2, 100), (1, 100))
        found = self.over("limit rate 100 bytes/second burst 50 bytes", [at(*it) for it in sizes])
        self.assertEqual(found, [False, False, True, False])
        # without a burst a packet of more bytes than the rate never passes
        self.assertEqual(self.over("limit rate 100 bytes/second", [at(0, 101), at(9, 101), at(9, 100)]),
                         [True, True, False])

    def test_quota(self) -> None:
        quota = UsedQuota(terms.Quota(False, 100, 30))
        self.assertEqual([quota.is_over(at(0, it)) for it in (40, 30, 1, 1)], [False, False, True, True])


class Sets(unittest.TestCase):
    def made(self, size: int = 10, timeout: float | None = None, bounds: Sequence[terms.Terms] = (),
             listed: Sequence[elements.Listed] = ()) -> elements.DynamicSet:
        lasts = None if timeout is None else round(timeout * SECOND)
        head = elements.SetTerms(size, lasts, tuple(bounds), tuple(listed))
        return elements.DynamicSet(head, known.Connections(LIMITS), 0)

    def test_add_keeps_the_time(self) -> None:
        found = self.made(timeout=2)
        self.assertFalse(found.look_up((1,), at(0)))
        for moment in (0, 1, 1.9):
            self.assertTrue(found.add((1,), None, (), False, at(moment)))
        self.assertEqual([found.look_up((1,), at(it)) for it in (1.999999999, 2)], [True, False])

    def test_update_sets_it_anew(self) -> None:
        found = self.made(timeout=2)
        for moment, lasts in ((0, None), (1.5, None), (3, SECOND)):
            found.add((1,), lasts, (), True, at(moment))
        self.assertEqual([found.look_up((1,), at(it)) for it in (3.9, 4)], [True, False])

    def test_without_a_time_it_stays(self) -> None:
        found = self.made()
        found.add((1,), None, (), True, at(0))
        found.add((1,), SECOND, (), True, at(1))
        self.assertTrue(found.look_up((1,), at(10**6)))
        found.delete((1,))
        self.assertFalse(found.look_up((1,), at(10**6)))

    def test_bounds_of_elements(self) -> None:
        found, bounds = self.made(timeout=5), (limit("limit rate over 1 / second burst 1 packets"),)
        moments = ((1, 0), (1, 0.5), (2, 0.6), (1, 1.2))  # 1 s is the most, and a packet costs it
        self.assertEqual([found.add((it,), None, bounds, False, at(moment)) for it, moment in moments],
                         [False, True, False, False])
        # a look-up asks the bound too; the second element keeps none, since it was added without
        self.assertTrue(found.look_up((1,), at(1.3)))
        self.assertTrue(found.add((3,), None, (), False, at(2)))
        self.assertTrue(found.add((3,), None, bounds, False, at(2)))
        # at its end an element is made anew, with a full bucket
        self.assertFalse(found.add((1,), None, bounds, False, at(5)))

    def test_bounds_of_the_set(self) -> None:
        found = self.made(bounds=[terms.Quota(False, 50, 0)])
        self.assertEqual([found.add((1,), None, (), False, at(0, 30)) for _ in range(2)], [True, False])
        # where it isn't wanted, an element that is there stops the rule, whatever it bounds
        self.assertEqual([found.look_up((it,), at(1), is_not=True) for it in (1, 2)], [False, True])

    def test_listed(self) -> None:
        found = self.made(listed=[elements.Listed((1,), 3 * SECOND, ()), elements.Listed((2,), None, ())])
        self.assertEqual([found.look_up((it,), at(3)) for it in (1, 2)], [False, True])

    def test_full(self) -> None:
        found = self.made(size=2, timeout=1)
        self.assertEqual([found.add((it,), None, (), False, at(it / 10)) for it in (1, 2, 3, 1)],
                         [True, True, False, True])
        self.assertTrue(found.was_full)
        self.assertTrue(found.add((3,), None, (), False, at(1.1)))  # the first ran out


class Counted(unittest.TestCase):
    def test_dropped_ones_stay_until_the_next(self) -> None:
        connections = known.Connections(LIMITS)
        count = CountedConnections(terms.Count(True, 2), connections)
        self.assertFalse(count.is_over(at(0, key=tcp(1))))
        connections.confirm(tcp(1), tcp(1), SYN, 0)
        self.assertFalse(count.is_over(at(1, key=tcp(2))))
        connections.confirm(tcp(2), tcp(2), SYN, SECOND)
        self.assertTrue(count.is_over(at(2, key=tcp(3))))  # dropped, so it isn't confirmed
        self.assertTrue(count.is_over(at(3, key=tcp(1))))  # stops at its own, and the third is still there
        self.assertFalse(count.is_over(at(4, key=tcp(1), is_assured=True)))
        self.assertFalse(count.is_over(at(242, key=tcp(4))))  # both are gone behind 240 s
        # in one moment nothing is removed, and what isn't confirmed is added again
        self.assertFalse(count.is_over(at(242, key=tcp(4))))
        self.assertTrue(count.is_over(at(242, key=tcp(4))))
        self.assertFalse(count.is_over(at(243, key=tcp(4))))

    def test_closed(self) -> None:
        connections = known.Connections(LIMITS)
        count = CountedConnections(terms.Count(False, 1), connections)
        self.assertFalse(count.is_over(at(0, key=tcp(1))))
        connections.confirm(tcp(1), tcp(1), SYN, 0)
        self.assertTrue(count.is_over(at(1, key=tcp(2))))
        connections.look_up(tcp(1), RST, SECOND)
        self.assertFalse(count.is_over(at(2, key=tcp(2))))


class Connections(unittest.TestCase):
    def setUp(self) -> None:
        self.found, self.key = known.Connections(LIMITS), tcp(1)

    def pass_by(self, key: bytes, flags: int, seconds: float) -> None:
        moment = round(seconds * SECOND)
        self.found.look_up(key, flags, moment)
        self.found.confirm(key, key, flags, moment)

    def test_life(self) -> None:
        answer = inverse(self.key)
        self.pass_by(self.key, SYN, 0)
        self.assertEqual(self.found.state_of(self.key, 240 * SECOND - 1), known.State.LIVE)
        self.assertEqual(self.found.state_of(self.key, 240 * SECOND), known.State.GONE)
        self.pass_by(answer, SYN | ACK, 1)
        self.pass_by(self.key, ACK, 2)
        one = self.found.of(answer, 3 * SECOND)
        assert one is not None
        self.assertTrue(one.is_assured)
        self.assertEqual(self.found.state_of(self.key, 7441 * SECOND), known.State.LIVE)
        for key, flags, state in ((self.key, FIN | ACK, known.State.LIVE), (answer, FIN | ACK, known.State.LIVE),
                                  (self.key, ACK, known.State.CLOSED)):
            self.pass_by(key, flags, 4)
            self.assertEqual(self.found.state_of(self.key, 4 * SECOND), state)
        # a lone SYN ends it, and begins another
        self.assertIsNone(self.found.look_up(self.key, SYN, 5 * SECOND))
        self.assertEqual(self.found.state_of(self.key, 5 * SECOND), known.State.GONE)

    def test_through_translation(self) -> None:
        outside = bytes((203, 0, 113, 1)) + self.key[4:]
        self.found.confirm(self.key, outside, SYN, 0)
        one = self.found.of(inverse(outside), SECOND)
        self.assertEqual(one and one.original, self.key)
        self.assertIsNone(self.found.of(inverse(self.key), SECOND))

    def test_udp(self) -> None:
        key = self.key[:12] + b"\x11"
        self.pass_by(key, 0, 0)
        self.pass_by(inverse(key), 0, 1)
        one = self.found.of(key, SECOND)
        assert one is not None
        self.assertFalse(one.is_assured)
        self.pass_by(key, 0, 2.1)
        self.assertTrue(one.is_assured)

    def test_replies_alone_begin_none(self) -> None:
        pong = CLIENT + SERVER + b"\0\0\0\x01\xff"
        self.found.confirm(pong, pong, 0, 0)
        self.assertEqual(self.found.state_of(pong, 0), known.State.GONE)


class Keys(unittest.TestCase):
    def test_values(self) -> None:
        one = keys.Packet(packet("tcp 192.168.1.10:4000 > 198.51.100.7:22 syn"), LAN, "lan")
        parts = (keys.KeyPart("ip saddr", 0xFFFFFF00), keys.KeyPart("tcp dport", None), keys.KeyPart("meta iif", None),
                 keys.KeyPart("meta l4proto", None), keys.KeyPart("meta iifname", None))
        name = int.from_bytes(b"lan" + bytes(13), "big")
        self.assertEqual(keys.key_of(parts, one), (0xC0A80100, 22, LAN, 6, name))
        self.assertEqual(one.size, 40)
        self.assertIsNone(keys.key_of((keys.KeyPart("udp dport", None),), one))


FITTED = """table inet t {
	set inside {
		type ifname . inet_service
		elements = { "lan" . 22 comment "a", "wan" . 80 }
	}
	map by {
		elements = { "lan" : accept,
			"w*" : drop }
		type ifname : verdict
	}
	chain c {
		type filter hook forward priority 0; policy drop;
		iifname "lan" accept; iifname != "vpn" counter
		meta iif { 2, "wan" } oifname "lan" drop # lan
		iifname vmap @by
		ct mark set iifname map { "lan" : 1, "wan" : 2 }
		iifname . tcp dport { "lan" . 22, "wan" . 80 } jump c
		ip saddr 10.0.0.1 iifname @rate_1 log prefix "iifname lan" accept
	}
}
"""
NAMED = """table inet t {
	set inside {
		type ifname . inet_service
		elements = { "lan" . 22 comment "a", "m.1" . 22 comment "a", "m.2" . 22 comment "a", "wan" . 80 }
	}
	map by {
		elements = { "lan" : accept, "m.1" : accept, "m.2" : accept,
			"w*" : drop }
		type ifname : verdict
	}
	chain c {
		type filter hook forward priority 0; policy drop;
		iifname { "lan", "m.1", "m.2" } accept; iifname != "vpn" counter
		meta iif { 2, "m.1", "m.2", "wan" } oifname { "lan", "m.1", "m.2" } drop # lan
		iifname vmap @by
		ct mark set iifname map { "lan" : 1, "m.1" : 1, "m.2" : 1, "wan" : 2 }
		iifname . tcp dport { "lan" . 22, "m.1" . 22, "m.2" . 22, "wan" . 80 } jump c
		ip saddr 10.0.0.1 iifname @rate_1 log prefix "iifname lan" accept
	}
}
"""


class Aliases(unittest.TestCase):
    def test_all_lists(self) -> None:
        self.assertEqual(aliases.with_aliases(FITTED, {"lan": ["m.1", "m.2"]}, {2: "lan", 3: "wan"}), NAMED)
        self.assertEqual(aliases.with_aliases(FITTED, {}, {}), FITTED)

    def test_beginnings_of_names(self) -> None:
        found = aliases.with_aliases(FITTED, {"wan": ["m.1"]}, {2: "lan", 3: "wan"})
        self.assertIn('"w*" : drop, "m.1" : drop }', found)


def mark(number: int) -> frozenset[int]:
    return frozenset((number,))


class RatesCase(FilesCase):
    def work(self) -> str:
        """A folder for what is written on the way."""
        folder = self.folder / "work"
        folder.mkdir()
        return str(folder)


class Marking(RatesCase):
    def source(self, link_type: int, frames: Sequence[bytes]) -> marked.Source:
        with open(self.folder / "in.pcap", "wb") as file:
            write_header(file, link_type)
            for number, frame in enumerate(frames):
                write_record(file, number * SECOND, frame)
        return marked.Source(str(self.folder / "in.pcap"), self.file("box.txt", BOX))

    def test_links(self) -> None:
        data = packet("udp 192.168.1.10:1 > 198.51.100.7:53")
        frames = [bytes(12) + b"\x08\0" + data, b"\xff" * 12 + b"\x08\0" + data, b"\x01" + bytes(11) + b"\x86\xdd",
                  b"short"]
        found = [it.data for it in self.source(ETHERNET, frames).records()]
        self.assertEqual(found[0], captures.sll2_header(LAN, TO_US) + data)
        self.assertEqual(found[1], captures.sll2_header(LAN, captures.BROADCAST) + data)
        self.assertEqual(found[2][:2] + found[2][10:11], b"\x86\xdd" + bytes([captures.MULTICAST]))
        self.assertEqual(found[3], b"short")
        raw = next(self.source(RAW_IP, [data]).records())
        self.assertEqual(raw.data, captures.sll2_header(LAN) + data)
        self.assertEqual(raw.packet, keys.Packet(data, LAN, "lan"))

    def test_interfaces_that_stand_for_others(self) -> None:
        data = packet("udp 192.168.1.10:1 > 0.0.0.1:53")
        frames = [captures.sll2_header(index) + data for index in (LAN, WAN, 4, LAN, LAN)]
        source = self.source(captures.LINUX_SLL2, frames)
        one = marked.Marked(source, {1: mark(1), 2: mark(1), 3: mark(1), 5: mark(1)}, [])
        found = one.aliases('table ip t { chain c { iifname "mark*" oifname "0.0.0.2" } }')
        # 0.0.0.1 is where a packet goes, 0.0.0.2 stands in the ruleset, as mark* does; 4 is an index of the capture
        self.assertEqual([(it.name, it.index, it.address, it.stands_for) for it in found], [
            ("amarked.1", 5, "0.0.0.3", LAN), ("amarked.2", 6, "0.0.0.4", WAN)])
        files = one.write(self.work(), "table ip t {\n}\n")
        indices = [captures.interface_of(it, captures.LINUX_SLL2) for *_, it in captures.records(files.capture)]
        self.assertEqual(indices, [5, 6, 4, LAN, 5])

    def test_too_many_kinds(self) -> None:
        data = captures.sll2_header(LAN) + packet("udp 192.168.1.10:1 > 198.51.100.7:53")
        source = self.source(captures.LINUX_SLL2, [data] * 63)
        marked.Marked(source, {number: mark(number) for number in range(1, 63)}, []).aliases("")
        with self.assertRaisesRegex(Refused, "63 kinds of marks, and the box file has room for 62"):
            marked.Marked(source, {number: mark(number) for number in range(1, 64)}, []).aliases("")


RULES = """table ip t {
	chain f {
		type filter hook forward priority 0; policy accept;
		udp dport 1 limit rate 1/second burst 1 packets accept
		udp dport 1 limit rate 1/second burst 2 packets drop
	}
}
"""


class Rounds(RatesCase):
    """A stand-in for nftrun that runs RULES: it reads who is marked from what was written for it."""

    def run_rules(self, _program: str, rules: str, box: str, capture: str, leaving: str, report: str) -> bool:
        text, boxes = (pathlib.Path(it).read_text(encoding="utf-8") for it in (rules, box))
        names = {int(index): name for index, name in re.findall(r"interface (\d+) (\S+)", boxes)}
        rates = [set(re.findall(r'"([^"]+)"', found)) for found in re.findall(r"type ifname\n(.*?)\t}", text, re.S)]
        lines = []
        with open(leaving, "wb") as out, open(report, "w", encoding="ascii") as told:
            write_header(out)
            for number, *_, data in captures.records(capture):
                name = names[captures.interface_of(data, captures.LINUX_SLL2) or 0]
                lines.append(f"log {number} ip t f 1 rates 1")
                outcome = "passed"
                if name in rates[0]:
                    lines.append(f"log {number} ip t f 2 rates 2")
                    outcome = "passed" if name in rates[1] else "rule"
                lines.append(f"trace {number} outcome {outcome}")
                if outcome == "passed":
                    write_record(out, 0, data)
            told.write("\n".join(lines) + "\n")
        return False

    def test_until_they_agree(self) -> None:
        data = packet("udp 192.168.1.10:1 > 198.51.100.7:1")
        self.file("in.pcap", capture_of([(it, LAN, TO_US, data) for it in (0, 0.1, 0.2, 0.3, 1.2, 1.3)]))
        box, found = self.file("box.txt", BOX), subjects.Subjects({"lan": LAN, "wan": WAN})
        fitted = command.fit(self.file("rules.nft", RULES), None, subjects=found)
        with mock.patch("toolbox.program.run", self.run_rules), mock.patch(
                "toolbox.program.find_program", lambda: "nftrun"):
            given = run.rated(found, fitted.text, str(self.folder / "in.pcap"), box, self.work())
        # the first lets by what comes at 0 and 1.2; of the rest 0.1 and 0.2 are below the second, 0.3 is above, and at
        # 1.3 there is 1 s again
        self.assertEqual([it.partition("rules.nft:")[2] for it in given.lines], [
            "4: limit rate 1/second burst 1 packets: rate_1: 6 records come, and the rule stops for 4: 2 3 4 6",
            "5: limit rate 1/second burst 2 packets: rate_2: 4 records come, and the rule stops for 1: 4"])
        self.assertIn('type ifname\n\t\telements = { "marked.1", "marked.2" }', given.text)
        self.assertIn("udp dport 1 iifname != @rate_1 accept", given.text)
        indices = [captures.interface_of(it, captures.LINUX_SLL2) for *_, it in captures.records(given.files.capture)]
        self.assertEqual(indices, [LAN, 4, 4, 5, LAN, 4])
        self.assertEqual({len(it) for *_, it in captures.records(given.files.capture)}, {LINK + len(data)})

    def test_rounds_end(self) -> None:
        self.file("in.pcap", capture_of([(0, LAN, TO_US, packet("udp 192.168.1.10:1 > 198.51.100.7:1"))] * 9))
        box, found = self.file("box.txt", BOX), subjects.Subjects({"lan": LAN})
        fitted = command.fit(self.file("rules.nft", RULES), None, subjects=found)
        with mock.patch("toolbox.program.run", self.run_rules), mock.patch(
                "toolbox.program.find_program", lambda: "nftrun"), mock.patch.object(replay, "MOST_ROUNDS", 1):
            with self.assertRaisesRegex(Refused, "still changed after 1 rounds"):
                run.rated(found, fitted.text, str(self.folder / "in.pcap"), box, self.work())


if __name__ == "__main__":
    unittest.main()
