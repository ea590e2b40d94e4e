"""What the tools and tests know of the language of rulesets, against RFCs, IANA and netfilter."""
from __future__ import annotations

import unittest

import support  # noqa: F401
from fit.facts import FIELD_WIDTHS, KNOWN
from toolbox.language import NFT, Selector, ValueType
from words import GREATEST, KINDS, LANGUAGE, ORDERED, RANGED, SPOKEN, WORDS, shortest, want_each

# fields of RFC 791, 9293, 768 and 792; IANA's protocol numbers and services; RFC 792, 950 and 1256; RFC 9293 with RFC
# 3168; netfilter.h, nf_conntrack_common.h and nf_ip.h; nft describe
ASSIGNED = {
    "ipv4_addr": ValueType(32, {}),
    "inet_proto": ValueType(8, {
        "icmp": 1, "igmp": 2, "tcp": 6, "udp": 17, "gre": 47, "esp": 50, "ah": 51, "ipv6-icmp": 58, "sctp": 132}),
    "inet_service": ValueType(16, {"ssh": 22, "smtp": 25, "domain": 53, "http": 80, "ntp": 123, "https": 443}),
    "tcp_flag": ValueType(8, {
        "fin": 0x01, "syn": 0x02, "rst": 0x04, "psh": 0x08, "ack": 0x10, "urg": 0x20, "ecn": 0x40, "cwr": 0x80}),
    "icmp_type": ValueType(8, {
        "echo-reply": 0, "destination-unreachable": 3, "source-quench": 4, "redirect": 5, "echo-request": 8,
        "router-advertisement": 9, "router-solicitation": 10, "time-exceeded": 11, "parameter-problem": 12,
        "timestamp-request": 13, "timestamp-reply": 14, "info-request": 15, "info-reply": 16,
        "address-mask-request": 17, "address-mask-reply": 18}),
    "ifname": ValueType(128, {}),
    "iface_index": ValueType(32, {}),
    "mark": ValueType(32, {}),
    "nf_proto": ValueType(8, {"ipv4": 2, "ipv6": 10}),
    "ct_state": ValueType(32, {
        "invalid": 1 << 0, "established": 1 << 1, "related": 1 << 2, "new": 1 << 3, "untracked": 1 << 6}),
    "ct_dir": ValueType(8, {"original": 0, "reply": 1}),
    "ct_status": ValueType(32, {"seen-reply": 1 << 1, "snat": 1 << 4, "dnat": 1 << 5}),
}
# of selectors whose types have no name
WITHOUT_A_NAME = {"ip ttl": 8, "ip length": 16, "meta length": 32}


class LanguageTest(unittest.TestCase):
    """The file that is written from the crates."""

    def test_types_and_words_are_those_that_were_assigned(self) -> None:
        self.assertEqual(NFT.types, ASSIGNED)

    def test_a_selector_is_as_wide_as_its_type_or_field(self) -> None:
        for name, one in NFT.selectors.items():
            width = ASSIGNED[one.type].width if one.type else WITHOUT_A_NAME.get(name)
            self.assertEqual(one, Selector(one.type, width or 0), name)

    def test_what_is_read_is_no_guess_of_fit(self) -> None:
        self.assertEqual([name for name in (*KNOWN, *FIELD_WIDTHS) if name in NFT.selectors], [])

    def test_priorities_are_those_of_netfilter(self) -> None:
        self.assertEqual(NFT.priorities, {"raw": -300, "mangle": -150, "dstnat": -100, "filter": 0, "security": 50,
                                          "srcnat": 100})

    def test_words_of_a_type_without_words(self) -> None:
        self.assertEqual((NFT.words_of("ip saddr"), NFT.words_of("ip ttl")), ({}, {}))
        self.assertEqual(NFT.words_of("tcp dport")["https"], 443)


class OfTests(unittest.TestCase):
    """What tests over all selectors go by."""

    def test_it_is_what_the_tools_have(self) -> None:
        self.assertEqual(KINDS, {shortest(name): one.type or name for name, one in NFT.selectors.items()})
        self.assertEqual(WORDS, {name: one.words for name, one in NFT.types.items() if one.words})
        self.assertEqual((KINDS["iif"], KINDS["ip ttl"], GREATEST["ip ttl"], GREATEST["mark"]),
                         ("iface_index", "ip ttl", 255, 2**32 - 1))
        self.assertLessEqual({"dport", "echo-reply", "iface_index", "masquerade", "srcnat", "fib"}, set(SPOKEN))

    def test_what_is_read_is_supported(self) -> None:
        read = {word for selector in NFT.selectors for word in selector.split(" ")} | {*NFT.statements, *NFT.hooks}
        self.assertEqual(read.intersection(LANGUAGE["unsupported"]), set())

    def test_types_with_an_order_have_ranges(self) -> None:
        """docs/CHECK.md, N08."""
        self.assertEqual({*RANGED} - {*ORDERED}, {"inet_proto", "icmp_type"})
        self.assertEqual({*ORDERED}, {"ipv4_addr", "inet_service", "mark", *WITHOUT_A_NAME})

    def test_a_table_without_a_selector_is_told(self) -> None:
        want_each("all of them", KINDS)
        with self.assertRaises(SystemExit) as ended:
            want_each("a table", [*(it for it in KINDS if it not in ("ip ttl", "oif")), "ip tos"])
        self.assertEqual(ended.exception.code, "a table: no `ip ttl`, no `oif`, `ip tos`, which the language hasn't")


if __name__ == "__main__":
    unittest.main()
