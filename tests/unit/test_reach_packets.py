"""Sets of numbers, what `nftrun reach --sets` tells, the ways back to the box, and packets made for facts."""
from __future__ import annotations

import unittest

from support import BOX, LAN, WAN, FilesCase
from toolbox.boxes import Box
from toolbox.commands import Refused
from toolbox.histories import Aim, possible
from toolbox.number_sets import Numbers
from toolbox.packets import destination_of, sums_up, tuple_at
from toolbox.passages import Effect, Network, Stage, Target, Wish, routed, stage_of, ways_to
from toolbox.reach_packets import logging, mark_in, why_not
from toolbox.rulesets import Ruleset
from toolbox.shaping import Shaping
from toolbox.told_sets import (
    ANYTHING, CT_MARK, DESTINATION, DESTINATION_PORT, DIRECTION, DOMAINS, FLAGS, ICMP_TYPE, INPUT, LENGTH, MARK, OUTPUT,
    PROTOCOL, SOURCE, SOURCE_PORT, STATE, STATUS, TTL, Facts, facts_of, told_of)

RULES = """table inet filter {
	chain raw { type filter hook prerouting priority raw; ip saddr 10.0.0.0/8 notrack }
	chain before { type filter hook prerouting priority mangle; iifname "lan" meta mark set 7 }
	chain dnat { type nat hook prerouting priority dstnat; tcp dport 80 dnat to 192.168.1.5:8080 }
	chain input { type filter hook input priority 0; policy drop; iifname "lan" accept comment "hosts" }
	chain forward { type filter hook forward priority 0; policy drop; meta mark 7 accept; tcp dport 8080 counter; }
}
"""
TOLD = """rule inet filter raw 1 met
  reached in raw: any packet
  met in raw: ip saddr 10.0.0.0/8
rule inet filter before 1 met
  met in before: iifname "lan"
rule inet filter dnat 1 met
  met in dnat: ct state new tcp dport 80
rule inet filter input 1 met
  met in input: iifname "lan"
rule inet filter forward 1 met
  met in forward: meta mark 7
rule inet filter forward 2 met
  met in forward: tcp dport 8080 meta mark != 7
policy inet filter raw can apply
  ends in raw: any packet
policy inet filter before can apply
  ends in before: any packet
policy inet filter dnat can apply
  ends in dnat: ct state new ip protocol != tcp
policy inet filter input can apply
  ends in input: iifname "wan"
policy inet filter forward can apply
  ends in forward: meta mark != 7
  ends in forward: 3 more
"""
PLACE = "inet filter forward"


def numbers(*listed: int) -> Numbers:
    return Numbers.listed(listed)


class OfNumbers(unittest.TestCase):
    def test_operations_are_those_of_sets(self) -> None:
        ranges: list[list[tuple[int, int]]] = [
            [], [(0, 3)], [(2, 2), (4, 6)], [(5, 9), (0, 1)], [(3, 4), (5, 5)], [(0, 9)]]
        some = [Numbers.of(one) for one in ranges]
        for left in some:
            for right in some:
                one, other = set(left), set(right)
                self.assertEqual(set(left & right), one & other)
                self.assertEqual(set(left | right), one | other)
                self.assertEqual(set(left - right), one - other)
                self.assertEqual((left & right).count(), len(one & other))

    def test_ranges_are_joined_and_in_order(self) -> None:
        self.assertEqual(Numbers.of([(5, 9), (0, 2), (3, 4), (20, 20), (30, 29)]).ranges, ((0, 9), (20, 20)))

    def test_places(self) -> None:
        some = Numbers.of([(3, 4), (8, 8)])
        self.assertEqual([some.at(place) for place in range(4)], [3, 4, 8, 3])
        self.assertTrue(8 in some and 5 not in some)
        self.assertEqual(some.raised(1).ranges, ((4, 5), (9, 9)))


class OfLines(FilesCase):
    def setUp(self) -> None:
        super().setUp()
        self.box = Box(self.file("box.txt", BOX))

    def fields(self, text: str) -> dict[str, tuple[tuple[int, int], ...]]:
        facts = facts_of(text, self.box)
        assert facts is not None
        return {name: found.ranges for name, found in facts.fields.items()}

    def test_any_packet(self) -> None:
        self.assertEqual(self.fields("any packet"), {})

    def test_a_conjunction(self) -> None:
        self.assertEqual(
            self.fields('iifname "lan" ct state new ip saddr 10.0.0.0/8 tcp dport { 22, 8080-8090 }'),
            {INPUT: ((2, 2),), STATE: ((8, 8),), SOURCE: ((10 << 24, (11 << 24) - 1),), PROTOCOL: ((6, 6),),
             DESTINATION_PORT: ((22, 22), (8080, 8090))})

    def test_addresses(self) -> None:
        self.assertEqual(self.fields("ip daddr { 0.0.0.1, 0.0.0.4-0.0.0.9, 128.0.0.0/1 }"),
                         {DESTINATION: ((1, 1), (4, 9), (1 << 31, (1 << 32) - 1))})
        self.assertEqual(self.fields("ip daddr != 0.0.0.0/1"), {DESTINATION: ((1 << 31, (1 << 32) - 1),)})

    def test_what_a_value_tells_beside(self) -> None:
        self.assertEqual(self.fields("th sport 5")[PROTOCOL], ((6, 6), (17, 17)))
        self.assertEqual(self.fields("udp dport != 5")[DESTINATION_PORT], ((0, 4), (6, 65535)))
        self.assertEqual(self.fields("ct direction reply"), {STATE: ((2, 2), (4, 4), (8, 8)), DIRECTION: ((1, 1),)})
        self.assertEqual(self.fields("ct mark != 0")[STATE], ((2, 2), (4, 4), (8, 8)))
        self.assertEqual(self.fields("icmp type { echo-reply, 3-5 }"), {
            PROTOCOL: ((1, 1),), ICMP_TYPE: ((0, 0), (3, 5))})

    def test_bits(self) -> None:
        self.assertEqual(self.fields("ct state established,related"), {STATE: ((2, 2), (4, 4))})
        self.assertEqual(self.fields("ct status snat ct status != dnat")[STATUS], ((16, 16), (18, 18)))
        flags = facts_of("tcp flags & (syn | ack) == syn", self.box)
        assert flags is not None
        self.assertEqual(set(flags.of(FLAGS)), {number for number in range(256) if number & 18 == 2})
        none = facts_of("tcp flags & (fin | syn) == 0", self.box)
        assert none is not None
        self.assertEqual(set(none.of(FLAGS)), {number for number in range(256) if not number & 3})
        one = facts_of("tcp flags & cwr == cwr", self.box)
        assert one is not None
        self.assertEqual(set(one.of(FLAGS)), set(range(128, 256)))

    def test_protocols(self) -> None:
        self.assertEqual(self.fields("ip protocol != { tcp, udp }"), {PROTOCOL: ((0, 5), (7, 16), (18, 255))})
        self.assertEqual(self.fields("meta l4proto { tcp, udp } th dport 53")[PROTOCOL], ((6, 6), (17, 17)))
        self.assertEqual(self.fields("ip protocol ipv6-icmp ip ttl 2-255 ip length 20 meta mark 7 ct mark 9"), {
            PROTOCOL: ((58, 58),), TTL: ((2, 255),), LENGTH: ((20, 20),), MARK: ((7, 7),), CT_MARK: ((9, 9),),
            STATE: ((2, 2), (4, 4), (8, 8))})

    def test_interfaces(self) -> None:
        self.assertEqual(self.fields('oifname { "lan", "wan" }'), {OUTPUT: ((2, 3),)})
        self.assertIsNone(facts_of('iifname "eth9"', self.box))
        self.assertIsNone(facts_of('iifname "lan" iifname "wan"', self.box))

    def test_other_forms_are_refused(self) -> None:
        for text in ("ip", "ip tos 3", "tcp dport", "tcp dport { 5", "ip protocol foo", "ct state fresh", "lan"):
            with self.assertRaises(Refused, msg=text):
                facts_of(text, self.box)

    def test_all_of_it(self) -> None:
        told = told_of(TOLD, self.box)
        self.assertEqual([answer.answer for answer in told.rules.values()], ["met"] * 6)
        self.assertEqual(told.rules[PLACE, 2].met.lines[PLACE][0].of(DESTINATION_PORT).ranges, ((8080, 8080),))
        self.assertTrue(told.rules[PLACE, 2].met.is_whole)
        self.assertFalse(told.ends[PLACE].is_whole)
        self.assertEqual(told.rules["inet filter raw", 1].reached.lines, {"inet filter raw": (ANYTHING,)})
        with self.assertRaises(Refused):
            told_of("something else\n", self.box)


class OfWays(FilesCase):
    def setUp(self) -> None:
        super().setUp()
        self.box = Box(self.file("box.txt", BOX))
        self.network = Network(Ruleset(RULES), told_of(TOLD, self.box), self.box)

    def ways(self, facts: Facts, needs: frozenset[Effect] = frozenset()) -> list[Facts]:
        target = Target(self.network.order[PLACE], facts, True)
        return list(ways_to(self.network, target, Wish(Facts({STATE: numbers(8)}), 8, needs)))

    def test_stages(self) -> None:
        self.assertEqual([stage_of(chain) for chain in Ruleset(RULES).chains], [
            Stage.RAW, Stage.BEFORE_NAT, Stage.DESTINATION_NAT, Stage.INPUT, Stage.FORWARD])

    def test_routes(self) -> None:
        by = routed(self.box)
        self.assertEqual(by[LAN].ranges, ((0xC0A80100, 0xC0A801FF),))
        self.assertEqual((by[LAN] | by[WAN]).ranges, ((0, (224 << 24) - 1),))

    def test_the_destination_before_translation_is_free(self) -> None:
        inside = Facts({DESTINATION: numbers(0xC0A80105), DESTINATION_PORT: numbers(8080), PROTOCOL: numbers(6)})
        found = self.ways(inside)
        self.assertTrue(found)
        self.assertEqual({way.of(DESTINATION_PORT).ranges for way in found}, {((80, 80),)})

    def test_a_mark_is_set_on_the_way(self) -> None:
        marked = Facts({MARK: numbers(7), PROTOCOL: numbers(17)})
        self.assertEqual(self.ways(marked), [])
        found = self.ways(marked, frozenset([Effect.SETS_MARK]))
        self.assertEqual({way.of(INPUT).ranges for way in found}, {((2, 2),)})

    def test_the_ttl_is_lowered(self) -> None:
        found = self.ways(Facts({TTL: numbers(1, 255), PROTOCOL: numbers(17)}))
        self.assertEqual({way.of(TTL).ranges for way in found}, {((2, 2),)})

    def test_facts_without_a_history(self) -> None:
        order = self.network.order[PLACE]
        for facts in (Facts({MARK: numbers(8)}), Facts({LENGTH: numbers(0)}), Facts({TTL: numbers(255)}),
                      Facts({STATE: numbers(1), PROTOCOL: numbers(6)}), Facts({STATUS: numbers(16)}),
                      Facts({STATE: numbers(8), DIRECTION: numbers(1)})):
            self.assertEqual(list(possible(self.network, Aim(order, facts))), [], facts)
        self.assertTrue(list(possible(self.network, Aim(order, Facts({MARK: numbers(7)})))))

    def test_why_a_rule_is_not_shown(self) -> None:
        closed = RULES.replace('raw; ip saddr 10.0.0.0/8 notrack', 'raw; policy drop; ip saddr 10.0.0.0/8 drop')
        network = Network(Ruleset(closed), told_of(TOLD, self.box), self.box)
        self.assertEqual(why_not(network, network.told.rules[PLACE, 2]), "dropped before")
        self.assertEqual(why_not(self.network, self.network.told.rules[PLACE, 2]), "not found")

    def test_packets_have_the_facts(self) -> None:
        facts = Facts({INPUT: numbers(2), PROTOCOL: numbers(6), LENGTH: Numbers.between(90, 95), FLAGS: numbers(0xC2),
                       DESTINATION: numbers(0x08080808), DESTINATION_PORT: numbers(80), TTL: numbers(3)})
        made = Shaping(self.network).made(facts)
        assert made is not None
        key = tuple_at(made.packet, 0)
        assert key is not None
        self.assertEqual((made.interface, len(made.packet), made.packet[8], made.packet[33]), (2, 90, 3, 0xC2))
        self.assertEqual(destination_of(key), bytes([8, 8, 8, 8]))
        self.assertTrue(sums_up(made.packet[:20]))
        pseudo = made.packet[12:20] + bytes([0, 6, 0, 70]) + made.packet[20:]
        self.assertTrue(sums_up(pseudo))

    def test_packets_are_made_for_each_field(self) -> None:
        """But for what comes about on the way, by rules and the packets before, and the family, which is one alone."""
        made = {INPUT, PROTOCOL, SOURCE, DESTINATION, SOURCE_PORT, DESTINATION_PORT, FLAGS, ICMP_TYPE, LENGTH, TTL}
        come_about = {OUTPUT, MARK, CT_MARK, STATE, DIRECTION, STATUS}
        self.assertEqual({*DOMAINS}, {*made, *come_about, "meta nfproto"})

    def test_no_packet_is_that_short(self) -> None:
        self.assertIsNone(Shaping(self.network).made(Facts({PROTOCOL: numbers(6), LENGTH: Numbers.between(0, 39)})))


class OfLogging(unittest.TestCase):
    def test_rules_without_a_verdict_log_at_their_ends(self) -> None:
        text = logging(Ruleset(RULES))
        self.assertIn('notrack log prefix "nftrun-reach" }', text)
        self.assertIn('counter log prefix "nftrun-reach"; }', text)
        self.assertIn('accept comment "hosts" }', text)
        self.assertEqual(text.count("nftrun-reach"), 3)

    def test_comments_stay_last(self) -> None:
        text = 'table ip t { chain c { type filter hook input priority 0; tcp dport 5 counter comment "c" } }\n'
        self.assertIn('counter log prefix "nftrun-reach" comment "c"', logging(Ruleset(text)))

    def test_the_prefix_is_no_others(self) -> None:
        self.assertEqual(mark_in(Ruleset('table ip t { chain c { log prefix "nftrun-reach" } }')), "nftrun-reach-")


if __name__ == "__main__":
    unittest.main()
