"""The parts of fit: what many rules become, by the usual guesses and by the other ones, and what is refused."""
from __future__ import annotations

import re
import unittest
from typing import Mapping, Sequence

from support import BOX, FilesCase
from fit.assumptions import ASSUMPTIONS
from fit.command import Fitted, fit
from fit.grades import Grade
from fit.network import Network
from fit.order import Band, spread_down, spread_up
from fit.profile import takes
from fit.scanner import Refused

RULESET = """table ip t {
set hosts { type ipv4_addr; elements = { 10.0.0.1, 10.0.0.2 }; }
set ports { type inet_service; elements = { 53 }; }
set places { type ipv4_addr . inet_service; flags interval; elements = { 10.0.0.0/8 . 22, 10.1.2.3 . 1-600 }; }
set seen { type ipv4_addr; flags dynamic; elements = { 10.0.0.9 }; }
set links { type iface_index; elements = { "ppp0" }; }
set states { type ct_state; elements = { new }; }
set slow { type ipv4_addr; limit rate over 5/second; elements = { 10.0.0.7 }; }
map marks { type ipv4_addr : mark; elements = { 10.0.0.1 : 1, 10.0.0.2 : 2 }; }
map ends { type ipv4_addr : ipv4_addr . inet_service; elements = { 10.0.0.1 : 10.0.0.2 . 80 }; }
map verdicts { type ipv4_addr : verdict; elements = { 10.0.0.1 : drop, * : accept }; }
map none { type ipv4_addr : mark; }
ct helper ftp { type "ftp" protocol tcp; }
counter sum { packets 5 bytes 7; }
limit slowly { rate over 5/second; }
%(add)s
chain early { type filter hook prerouting priority raw; %(early)s
}
chain both { %(both)s
}
chain pre { type filter hook prerouting priority 5; jump both; %(pre)s
}
chain nat { type nat hook prerouting priority -100; %(nat)s
}
chain other { }
chain forward { type filter hook forward priority 0; jump both; %(forward)s
}
}
"""
TURNED = {name: it.ways[1] for name, it in ASSUMPTIONS.items() if it.ways[1] != "refuse" and name != "timeout"}
NEVER = "ip length 0"
OURS, OTHERS = "meta l4proto { tcp, udp }", "meta l4proto != { tcp, udp }"
TRACKED = "ct direction { original, reply }"


class PartsCase(FilesCase):
    """Fits one rule within a ruleset that has sets, maps and objects."""

    def fit(self, rule: str, chain: str = "forward", chosen: Mapping[str, str] | None = None) -> Fitted:
        # the operator's text; rules of one line stand each on a line of its own
        places = {name: "" for name in ("early", "both", "pre", "nat", "forward", "add")} | {chain: rule}
        path = self.file("rules.nft", RULESET % places)
        return fit(path, Network(self.file("box.txt", BOX)), chosen)

    def rules(self, rule: str, chain: str = "forward", chosen: Mapping[str, str] | None = None) -> list[str]:
        fitted = self.fit(rule, chain, chosen)
        self.assertEqual([it.why for it in fitted.changes.list if it.grade == Grade.REFUSED], [], rule)
        self.assertTrue(takes(fitted.text, "ruleset"), fitted.text)
        body = re.split(r"\n\t\}", fitted.text.split(f"chain {chain} {{\n")[1])[0]
        lines = [line.strip() for line in body.split("\n")]
        return [it for it in lines if not it.startswith("type ") and it != "jump both"]

    def check(self, table: Mapping[str, Sequence[str]], chain: str = "forward",
              chosen: Mapping[str, str] | None = None) -> None:
        for rule, wanted in table.items():
            with self.subTest(rule):
                self.assertEqual(self.rules(rule, chain, chosen), list(wanted))

    def check_refused(self, table: Mapping[str, str], chain: str = "forward") -> None:
        for rule, why in table.items():
            with self.subTest(rule):
                found = [it.why for it in self.fit(rule, chain).changes.list if it.grade == Grade.REFUSED]
                self.assertIn(why, " / ".join(found))

    def grade(self, rule: str, chain: str = "forward") -> Grade:
        return self.fit(rule, chain).changes.worst()


class Matching(PartsCase):
    def test_addresses(self) -> None:
        self.check({
            "ip saddr & 255.255.0.0 == 10.1.0.0 accept": ["ip saddr 10.1.0.0/16 accept"],
            "ip saddr & 255.255.0.0 != 10.1.0.0 accept": ["ip saddr != 10.1.0.0/16 accept"],
            "ip saddr & 255.255.0.0 == 10.1.1.0 accept": [NEVER],
            "ip saddr & 255.255.0.0 != 10.1.1.0 accept": ["accept"],
            "ip saddr 5 accept": ["ip saddr 0.0.0.5 accept"],
            "ip saddr > 10.0.0.1 accept": ["ip saddr > 10.0.0.1 accept"],
            "iif @links accept": ["iifname @links accept"],
            "ip protocol > 250 accept": ["ip protocol 251-255 accept"],
            "icmp type < 5 accept": ["icmp type 0-4 accept"],
            "meta mark != 5 | 2 accept": ["meta mark != 0x7 accept"],
            "meta mark & 3 == 7 accept": [NEVER],
        })
        self.check_refused({
            "ip saddr & 255.0.255.0 == 10.0.1.0 accept": "isn't a prefix",
            "ip daddr 10.0.0.0/33 drop": "`10.0.0.0/33` is no prefix",
            "tcp dport & 1 == 1 accept": "a mask of tcp dport",
            "ip protocol < 0 accept": "no value of inet_proto",
            "iif < 5 accept": "`<` with a value of iface_index",
            "ip ttl > 1-5": "`>` with a range",
            "meta nfproto 0-5 accept": "a range of nf_proto",
            "tcp dport 22-10 accept": "ends reversed",
            "tcp dport 70000 accept": "too large for inet_service",
            'iifname "a-name-of-an-interface" accept': "no name of an interface",
            "ip protocol != icmp-x": "no protocol that is known here",
            "ct state { 3 } accept": "has a word for",
        })

    def test_flags(self) -> None:
        self.check({
            "tcp flags != syn accept": ["tcp flags & 0xff != syn accept"],
            "tcp flags ! syn accept": ["tcp flags & (syn) == 0 accept"],
            "tcp flags < 2 accept": ["tcp flags { 0x0, 0x1 } accept"],
            "tcp flags > 300 accept": [NEVER + " accept"],
            "tcp flags & (syn | ack) { syn, ack } accept": [
                "tcp flags & (syn | ack) == syn accept", "tcp flags & (syn | ack) == ack accept"],
            "tcp flags & (syn | ack) != { syn, ack } accept": [
                "tcp flags & (syn | ack) != syn tcp flags & (syn | ack) != ack accept"],
            "tcp flags != syn / syn,ack accept": ["tcp flags != syn / syn,ack accept"],
        })
        self.check_refused({"tcp flags < syn / syn accept": "constant", "tcp flags nothing accept": "flags"})

    def test_states(self) -> None:
        self.check({
            "ct state & new == 0 accept": ["ct state != new accept"],
            "ct state & (new | established) != 0 accept": ["ct state new,established accept"],
            "ct state ! new,established accept": ["ct state != new ct state != established accept"],
            "ct state @states accept": ["ct state @states accept"],
            "ct status assured accept": [f"{TRACKED} {NEVER} accept"],
            "ct status dnat,assured accept": ["ct status dnat accept"],
            "ct status { assured, dnat } accept": [f"{TRACKED} {NEVER} accept"],
            "ct status == dnat accept": [NEVER],
            "ct status != { dnat, snat } accept": [f"{TRACKED} accept"],
            "ct status vmap { dnat : accept, * : drop }": [f"{TRACKED} drop"],
            "ct status & dnat != 0 accept": ["ct status dnat accept"],
            "ct l3proto ipv4 accept": [f"{TRACKED} accept"],
        })
        self.check_refused({"ct status vmap { assured : accept }": "bits of ct status", "ct state odd": "isn't known",
                            "ct state & 5 == 1 accept": "a bit that isn't known"})

    def test_states_before_connections_are_looked_for(self) -> None:
        self.check({
            "ct state new accept": ["ct state new accept"],
            "ct state != new accept": ["ip length != 0 accept"],
            "ct state { new, invalid } accept": ["ip length != 0 accept"],
            "ct state & new == 0 accept": ["ip length != 0 accept"],
            "ct state @states accept": ["ct state @states accept"],
            "ct state vmap { invalid : drop, * : accept }": ["drop"],
            "notrack ct state untracked accept": [f"notrack {NEVER} accept"],
            "notrack ct state invalid,untracked accept": ["notrack ip length != 0 accept"],
        }, "early")
        self.check({"notrack ct state untracked accept": ["notrack ip length != 0 accept"]}, "early", TURNED)
        self.check_refused({
            "ct state . ip saddr { new . 10.0.0.1 } accept": "before connections are looked for",
            "notrack ct state vmap { invalid : drop }": "untracked",
            "ct state odd": "isn't known",
            "ct state < new": "ct state <",
            "meta mark set ct state map { invalid : 1 }": "which Linux reads otherwise here",
        }, "early")

    def test_a_chain_before_and_behind_the_look_up(self) -> None:
        text = "table ip t {\nchain a { ct state invalid accept\n}\nchain b { type filter hook prerouting priority " \
               "raw; jump a\n}\nchain c { type filter hook forward priority 0; jump a\n}\n}\n"
        for way in ("miss", "hit"):
            fitted = fit(self.file("rules.nft", text), None, {"ct": way})
            self.assertEqual(fitted.changes.worst(), Grade.GUESS)
            self.assertIn("\t\tct state invalid accept\n", fitted.text)

    def test_where_there_is_no_output_interface(self) -> None:
        self.check({
            'oifname "lan" accept': ['oifname "lan" accept'],
            'oifname != "lan" accept': ["ip length != 0 accept"],
            'oifname vmap { "lan" : accept, * : drop }': ["ip length != 0 drop"],
            "oif != 0 accept": ["oif != 0 accept"],
            'iifname . oifname != { "lan" . "wan" } accept': ["ip length != 0 accept"],
            "meta oifgroup 0 accept": [NEVER],
        }, "pre")
        self.check({'oifname != "lan" accept': ['oifname != "lan" accept']}, "both")
        self.check({'oifname != "lan" accept': ["ip length != 0 accept"]}, "both", {"meta": "hit"})
        self.assertEqual(self.grade('oifname != "lan" accept', "both"), Grade.GUESS)
        self.assertEqual(self.grade('oifname != "lan" accept', "pre"), Grade.SAME)
        self.check_refused({'iifname . oif { "lan" . 0 } accept': "where there is none"}, "pre")

    def test_ports_of_other_protocols(self) -> None:
        self.check({
            "th dport 53 accept": [f"{OURS} th dport 53 accept"],
            "th dport != @ports accept": [f"{OURS} th dport != @ports accept", f"{OTHERS} accept"],
            "th dport 0-65535 accept": [f"{OURS} th dport 0-65535 accept", f"{OTHERS} accept"],
            "th dport < 1024 accept": [f"{OURS} th dport < 1024 accept"],
            "th dport vmap { 53 : accept, * : drop }": [
                f"{OURS} th dport vmap {{ 53 : accept }}", f"{OURS} th dport != {{ 53 }} drop", f"{OTHERS} drop"],
            "th dport vmap { 0-60000 : accept }": [f"{OURS} th dport vmap {{ 0-60000 : accept }}", f"{OTHERS} accept"],
            "th dport . ip saddr { 53 . 10.0.0.1 } accept": [
                f"{OURS} th dport . ip saddr {{ 53 . 10.0.0.1 }} accept"],
            "th dport . ip saddr { 0-65535 . 10.0.0.1 } accept": [
                f"{OURS} th dport 0-65535 ip saddr 10.0.0.1 accept", f"{OTHERS} ip saddr {{ 10.0.0.1 }} accept"],
            "udp length 8-100 th dport 53 accept": [f"meta l4proto udp {NEVER} th dport 53 accept"],
            "meta l4proto . th dport { tcp . 22 } accept": ["meta l4proto . th dport { tcp . 22 } accept"],
            "ip protocol vmap { tcp : jump other }": ["ip protocol vmap { tcp : jump other }"],
        })
        self.check({
            "th dport 53 accept": [f"{OURS} th dport 53 accept", f"{OTHERS} accept"],
            "th dport . ip saddr { 53 . 10.0.0.1 } accept": [
                f"{OURS} th dport . ip saddr {{ 53 . 10.0.0.1 }} accept", f"{OTHERS} ip saddr {{ 10.0.0.1 }} accept"],
            "th dport != 53 accept": [f"{OURS} th dport != 53 accept"],
        }, chosen={"header": "hit"})
        self.check_refused({"th dport . ip dscp { 53 . cs1 } accept": "beside th"})

    def test_protocols_by_the_chains_before(self) -> None:
        text = "table ip t {\nchain a { th dport 53 accept\n}\nchain b { type filter hook forward priority 0;\n%s\n" \
               "}\n}\n"
        for way, grade in (("meta l4proto { tcp, udp } jump a", Grade.SAME), ("jump a", Grade.GUESS),
                           ("ip protocol vmap { tcp : jump a, icmp : drop }", Grade.SAME),
                           ("ip protocol != icmp goto a", Grade.GUESS),
                           ("meta l4proto . ip ttl { udp . 5 } jump a", Grade.SAME)):
            fitted = fit(self.file("rules.nft", text % way), None)
            self.assertEqual(fitted.changes.worst(), grade, way)


class Unread(PartsCase):
    def test_fields(self) -> None:
        table = {
            "tcp window 0-65535 accept": ["meta l4proto tcp accept"],
            "tcp reserved > 15 accept": [f"meta l4proto tcp {NEVER}"],
            "tcp window > 5 accept": ["meta l4proto tcp accept"],
            "tcp window <= 5 accept": [f"meta l4proto tcp {NEVER} accept"],
            "tcp window vmap { 0-9 : drop, * : accept }": ["meta l4proto tcp accept"],
            "tcp option sack-perm exists accept": [f"meta l4proto tcp {NEVER} accept"],
            "tcp option sack-perm missing accept": ["accept"],
            "tcp option maxseg size != 5 accept": [f"meta l4proto tcp {NEVER} accept"],
            "ip frag-off & 0x1fff == 0 drop": ["drop"],
            "ip frag-off & 0x1fff != 0 drop": [NEVER],
            "ip dscp & 8 == 8 accept": [f"{NEVER} accept"],
            "rt classid 0 accept": ["accept"],
            "meta random < 5 accept": ["accept"],
            "meta random vmap { 0-9 : accept, 4294967295 : drop }": ["accept"],
            "ct packets vmap { 1 : accept, 2-1000 : drop }": [f"{TRACKED} accept"],
            "ct expiration < 30s accept": [f"{TRACKED} accept"],
            "ct protocol tcp accept": [f"{TRACKED} meta l4proto tcp accept"],
            "ct protocol vmap { tcp : accept }": [f"{TRACKED} meta l4proto vmap {{ tcp : accept }}"],
            "meta protocol vmap { ip : accept, ip6 : drop }": ["accept"],
        }
        self.check(table)
        self.check_refused({"meta protocol strange accept": "isn't known", "symhash mod 2 \"x\" accept": "isn't known"})

    def test_messages_that_have_a_field(self) -> None:
        """What nft 1.0.6 tests first (`nft --debug=netlink`)."""
        icmp, echoes = "meta l4proto icmp", "icmp type { echo-reply, echo-request }"
        self.check({
            "icmp id 0-65535 accept": [f"{icmp} {echoes} accept"],
            "icmp sequence 5 accept": [f"{icmp} {echoes} {NEVER} accept"],
            "icmp gateway != 1 accept": [f"{icmp} icmp type redirect accept"],
            "icmp mtu > 100 accept": [f"{icmp} icmp type destination-unreachable accept"],
            "icmp type echo-request icmp id != 7 accept": ["icmp type echo-request accept"],
            "icmp id . icmp sequence { 1 . 2 } accept": [f"{icmp} {echoes} {NEVER}"],
            "icmp id vmap { 0-65535 : accept }": [f"{icmp} {echoes} accept"],
            "icmp code 0 accept": [f"{icmp} accept"],
        })

    def test_what_has_no_value_before_routing(self) -> None:
        matches = ("rt classid 0", "rt nexthop != 10.0.0.1", "meta rtclassid 0", "rt ipsec missing")
        self.check({f"{it} accept": [NEVER] for it in matches}, "pre")
        self.check({"rt classid vmap { 0 : accept }": [NEVER], "meta skuid vmap { 0 : accept }": [NEVER],
                    "meta rtclassid . ip saddr { 0 . 10.0.0.1 } accept": [f"{NEVER} ip saddr {{ 10.0.0.1 }} accept"],
                    "meta oifgroup . ip saddr != { 5 . 10.0.0.1 } accept": [
                        f"{NEVER} ip saddr != {{ 10.0.0.1 }} accept"]}, "pre")
        self.assertEqual({self.grade(f"{it} accept", "pre") for it in matches}, {Grade.SAME})
        self.assertEqual(self.grade("rt classid 0 accept", "forward"), Grade.GUESS)

    def test_usual_values(self) -> None:
        self.check({
            "meta priority none accept": ["accept"],
            "meta priority root accept": [f"{NEVER} accept"],
            "meta sdif 0 accept": ["accept"],
            "tcp reserved 0 accept": ["meta l4proto tcp accept"],
            "tcp reserved 0-15 accept": ["meta l4proto tcp accept"],
            "tcp urgptr != 0 accept": [f"meta l4proto tcp {NEVER} accept"],
        })
        self.assertEqual(self.grade("tcp reserved 0-15 accept"), Grade.SAME)

    def test_turned(self) -> None:
        self.check({
            "tcp window > 5 accept": [f"meta l4proto tcp {NEVER} accept"],
            "meta random < 5 accept": [f"{NEVER} accept"],
            "meta random vmap { 0-9 : accept, 4294967295 : drop }": ["drop"],
            "meta cpu vmap { 0 : accept, 1 : drop }": ["drop"],
            "ct protocol tcp accept": [
                f"{TRACKED} ct state != related meta l4proto tcp accept", f"{TRACKED} ct state related accept"],
            "ct protocol != tcp accept": [f"{TRACKED} ct state != related meta l4proto != tcp accept"],
            "ct status dnat,assured accept": [f"{TRACKED} accept"],
            "ip saddr @seen accept": ["ip saddr @seen accept"],
            "numgen inc mod 2 vmap { 0 : accept, 1 : drop }": ["drop"],
        }, chosen=TURNED)

    def test_zones(self) -> None:
        zones = "ct zone set 5", "ct zone 5 accept", "ct zone vmap { 0 : accept }", "ct zone . ip ttl { 0 . 5 } accept"
        told = self.fit("\n".join(zones)).changes.list
        self.assertEqual([it.grade for it in told if it.what.startswith("ct zone")][:4], [Grade.GUESS] * 4)
        self.assertEqual(self.rules("ct zone . ip saddr { 0 . 10.0.0.1 } accept"), [
            f"{TRACKED} ip saddr {{ 10.0.0.1 }} accept"])

    def test_what_is_written_and_asked_for(self) -> None:
        lines = "ip dscp set cs1", "ip dscp cs1 accept", "meta nftrace set 1", "meta nftrace 1 accept", "ct label set 5"
        fitted = self.fit("\n".join(lines))
        told = [(it.grade, it.what) for it in fitted.changes.list if "sum" not in it.what and "ftp" not in it.what]
        self.assertIn((Grade.GUESS, "ip dscp set cs1"), told)
        self.assertIn((Grade.GUESS, "meta nftrace 1"), told)
        self.assertIn((Grade.OUTCOME, "ct label set 5"), told)
        self.assertEqual(self.grade("ip dscp set cs1"), Grade.OUTCOME)
        copied = "meta secmark set ct secmark\nct secmark set meta secmark"
        self.assertEqual(self.grade(copied), Grade.OUTCOME)
        self.assertEqual(self.grade(f"{copied}\nct secmark 5 accept"), Grade.GUESS)
        self.check({"meta secmark set ct secmark accept": [f"{TRACKED} accept"]})
        joined = self.fit("ip dscp set cs1\nip saddr . ip dscp { 10.0.0.1 . cs1 } accept")
        self.assertIn("rules.nft:26)", next(it.why for it in joined.changes.list if it.to == "without ip dscp"))


class Joining(PartsCase):
    def test_keys(self) -> None:
        self.check({
            "ip saddr . tcp dport != { 10.0.0.0/31 . 22 } accept": [
                "ip saddr . tcp dport != { 10.0.0.0 . 22, 10.0.0.1 . 22 } accept"],
            "ip saddr . tcp dport { * . 22 } accept": ["ip saddr 0.0.0.0-255.255.255.255 tcp dport 22 accept"],
            "ip saddr . ip6 daddr { 10.0.0.1 . ::1 } accept": [NEVER + " accept"],
            "ip saddr . ip dscp { 10.0.0.1 . cs0, 10.0.0.2 . cs1 } accept": ["ip saddr { 10.0.0.1 } accept"],
            "ip saddr . ip version { 10.0.0.1 . 4, 10.0.0.2 . 6 } accept": ["ip saddr { 10.0.0.1 } accept"],
            "ip saddr . ct protocol { 10.0.0.1 . tcp } accept": [
                f"{TRACKED} ip saddr . meta l4proto {{ 10.0.0.1 . tcp }} accept"],
            'ip saddr . iif { 10.0.0.1 . "ppp0" } accept': ['ip saddr 10.0.0.1 iifname "ppp0" accept'],
            'iifname . oifname { "lan" . "wan", "wan" . "lan" } accept': [
                'iifname "lan" oifname "wan" accept', 'iifname "wan" oifname "lan" accept'],
            "ip saddr . tcp dport vmap { 10.0.0.1 . 22 : accept, 10.0.0.2 . 23 : drop }": [
                "ip saddr . tcp dport { 10.0.0.1 . 22 } accept", "ip saddr . tcp dport { 10.0.0.2 . 23 } drop"],
            "ip saddr . ip6 daddr vmap { 10.0.0.1 . ::1 : accept }": [NEVER],
        })

    def test_refused(self) -> None:
        self.check_refused({
            "ip saddr . tcp dport @places accept": "overlap",
            "ip saddr . tcp dport != @places accept": "wide ranges",
            "ip saddr . tcp dport @nothing accept": "there is no set nothing",
            "ip saddr . tcp dport { 10.0.0.1 } accept": "another number of parts",
            "ip saddr . tcp dport < 5": "with joined keys",
            "ip saddr . ct status { 10.0.0.1 . dnat }": "bits that nftrun hasn't",
            "ip saddr . (tcp dport & 5) { 10.0.0.1 . 1 }": "arithmetic",
            "iifname . ip saddr { * . 10.0.0.1 } accept": "any interface",
            "ip saddr . tcp dport vmap { 10.0.0.0/8 . 22 : accept, 10.0.0.2 . 22 : drop }": "overlap",
            'iifname . oifname != { "lan" . "wan" } accept': "more than 128 bits",
        })


class Mapping_(PartsCase):
    def test_marks(self) -> None:
        self.check({
            "meta mark set ip saddr map @marks": ["meta mark set ip saddr map @marks"],
            "meta mark set ip saddr map @none counter": [NEVER + " counter"],
            "meta mark set ip saddr . tcp dport map { 10.0.0.1 . 22 : 1 }": [
                "ip saddr . tcp dport { 10.0.0.1 . 22 } meta mark set 1"],
            "meta mark set numgen inc mod 2 map { 0 : 1, 1 : 2 }": ["meta mark set 1"],
            "meta mark set 1 xor 3": ["meta mark set 0x2"],
            "meta mark set ct mark and 3": ["meta mark set ct mark map { 0x0 : 0x0 }"],
            "meta mark set jhash ip saddr mod 4": ["meta mark set 0"],
            "meta mark set ip6 saddr map { ::1 : 1 }": [NEVER],
            "meta mark set tcp dport map { 22 : 1, * : 2 }": [
                "meta mark set tcp dport map { 22 : 1, 0-21 : 2, 23-65535 : 2 }"],
            "meta mark set th dport map { 22 : 1 }": [f"{OURS} meta mark set th dport map {{ 22 : 1 }}"],
            "ip dscp set tcp dport map { 22 : cs2 } counter": ["tcp dport { 22 } counter"],
            "meta priority set numgen inc mod 2 map { 0 : 1 } counter": ["counter"],
            'ct helper set ip saddr map { 10.0.0.1 : "ftp" } counter': ["ip saddr { 10.0.0.1 } counter"],
            "ip6 hoplimit set 5": [NEVER],
            "ct zone set 5": ["ip length != 0"],
        })
        self.check_refused({
            "meta mark set ether saddr map { 02:00:00:00:00:01 : 1 }": "doesn't read",
            "meta mark set tcp sport": "doesn't read",
            "meta mark set 99999999999": "too large for mark",
            "ip dscp set ip dscp map { cs1 : cs2 } counter": "with statements behind it",
            "ip ttl set 5": "writes what nftrun can't",
            'ct helper set "none"': "there is no ct helper none",
            "meta mark set ip saddr map { 10.0.0.1 : drop }": "a verdict where a value is wanted",
            "meta mark set ip saddr map @missing": "there is no map missing",
            "meta mark set ct status map { dnat : 1 }": "which Linux reads otherwise here",
            'meta mark set iifname map { "lan" : 1, * : 2 }': "`*` beside other elements",
        })

    def test_verdicts(self) -> None:
        self.check({
            "ip saddr vmap @verdicts": ["ip saddr vmap { 10.0.0.1 : drop }", "ip saddr != { 10.0.0.1 } accept"],
            "ip saddr vmap { * : drop }": ["ip length != 0 drop"],
            "ip saddr vmap { }": [NEVER],
            "tcp flags & (syn | ack) vmap { syn : accept }": ["tcp flags & (syn | ack) == syn accept"],
            "meta mark & 3 vmap { 1 : accept }": [NEVER],
            "fib daddr type vmap { multicast : drop }": ["ip daddr { 224.0.0.0/4 } drop"],
            "fib daddr . iif type vmap { local : accept }": [NEVER],
            "ip6 saddr vmap { ::1 : accept }": [NEVER],
        })
        self.check_refused({
            "ip saddr vmap { 10.0.0.1 : continue } accept": "`continue` in a map",
            "ip saddr vmap { 10.0.0.1 : jump nowhere }": "there is no chain nowhere",
            "ip saddr vmap { 10.0.0.1 : jump { accept; } }": "braces",
            "tcp dport & 3 vmap { 1 : accept }": "a mask before a map",
            "tcp dport | 3 vmap { 1 : accept }": "arithmetic before a map",
            "ip saddr vmap { 10.0.0.1 : 5 }": "a verdict where a value is wanted",
        })

    def test_one_flag_in_braces(self) -> None:
        # nft takes them for the flag alone: without `!=` it is set, with it the flags are others than this one alone
        self.check({"tcp flags { syn } accept": ["tcp flags syn accept"],
                    "tcp flags != { syn } accept": ["tcp flags & 0xff != syn accept"]})

    def test_routes(self) -> None:
        self.check({
            "fib daddr type unicast accept": [
                "ip daddr != { 127.0.0.0/8, 192.168.1.1, 203.0.113.1, 255.255.255.255, 0.0.0.0/8, 192.168.1.255, "
                "203.0.113.255, 224.0.0.0/4 } accept"],
            "fib daddr type prohibit accept": [NEVER + " accept"],
            "fib daddr . iif type local accept": [
                'iifname "lan" ip daddr { 192.168.1.1 } accept', 'iifname "wan" ip daddr { 203.0.113.1 } accept'],
            'fib saddr oif "lan" accept': [NEVER + " accept"],
        })
        # a route leads back by the interface: the hosts of lan, without the box's own address, and all others by wan
        lan, wan = "192.168.1.0, 192.168.1.2-192.168.1.255", (
            "0.0.0.0-126.255.255.255, 128.0.0.0-192.168.0.255, 192.168.2.0-203.0.113.0, 203.0.113.2-255.255.255.255")
        for word, sign in (("exists", ""), ("missing", "!= ")):
            self.check({f"fib saddr . iif oif {word} drop": [
                f'iifname "lan" ip saddr {sign}{{ {lan} }} drop', f'iifname "wan" ip saddr {sign}{{ {wan} }} drop']})
        self.check_refused({"fib daddr type strange accept": "fib .. type strange"})

    def test_translation(self) -> None:
        self.check({
            "ip daddr 10.0.0.1 dnat to :80": ["ip daddr 10.0.0.1 dnat to 10.0.0.1:80"],
            "dnat to 10.0.0.1-10.0.0.5": ["dnat to 10.0.0.1"],
            "dnat to 10.0.0.0/30": ["dnat to 10.0.0.0"],
            "redirect to :80-90": ["redirect to :80"],
            "redirect to tcp dport map { 22 : 23 }": ["tcp dport 22 redirect to :23"],
            "dnat to ip saddr map @ends": ["ip saddr 10.0.0.1 dnat to 10.0.0.2:80"],
            "dnat to ip saddr map { }": [NEVER],
            "dnat to ip saddr . tcp dport map { 10.0.0.1 . 22 : 10.0.0.2 }": [
                "ip saddr . tcp dport { 10.0.0.1 . 22 } dnat to 10.0.0.2"],
            "dnat to numgen inc mod 2 map { 0 : 10.0.0.1, 1 : 10.0.0.2 }": ["dnat to 10.0.0.1"],
            "dnat to ip saddr map { 10.0.0.1 : 10.0.0.2 } : ip saddr map { 10.0.0.1 : 23 }": [
                "ip saddr 10.0.0.1 dnat to 10.0.0.2:23"],
            "dnat ip6 to ::1": [NEVER],
            "dnat ip prefix to ip saddr map { 10.0.0.0/31 : 10.1.0.0/31 }": [
                "dnat to ip saddr map { 10.0.0.0 : 10.1.0.0, 10.0.0.1 : 10.1.0.1 }"],
            "dnat to 10.0.0.1:5 random": ["dnat to 10.0.0.1:5"],
            "dnat to th dport map { 22 : 10.0.0.1 }": [f"{OURS} dnat to th dport map {{ 22 : 10.0.0.1 }}"],
        }, "nat")
        self.check({"dnat to 10.0.0.1-10.0.0.5": ["dnat to 10.0.0.5"]}, "nat", TURNED)
        self.check_refused({
            "dnat to :80": "doesn't ask for one address",
            "dnat to ether saddr map { 02:00:00:00:00:01 : 10.0.0.1 }": "doesn't read",
            "dnat to ip saddr map { 10.0.0.1 : 10.0.0.2 } : tcp dport map { 22 : 23 }": "two maps of two keys",
            "dnat ip prefix to ip saddr map { 10.0.0.0/30 : 10.1.0.0/29 }": "aren't of one length",
            "dnat ip prefix to 10.0.0.1": "but by a map of addresses",
            "dnat to 10.0.0.1:0": "from 1 to 65535",
        }, "nat")


class Effects(PartsCase):
    def test_bounds_and_sets(self) -> None:
        self.check({
            "ip saddr @slow drop": [f"{NEVER} ip saddr @slow drop"],
            "ip saddr != @slow drop": ["ip saddr != @slow drop"],
            "add @seen { ip saddr ct count over 5 } drop": ["ip saddr { 10.0.0.9 } drop"],
            "add @seen { ip saddr quota 5 bytes } accept": ["accept"],
            "add @seen { ip saddr }\nupdate @seen { ip saddr limit rate over 5/second } drop": [
                "ip length != 0", "drop"],
            "delete @seen { ip saddr } accept": ["accept"],
            "add @seen { ip6 saddr } accept": [NEVER],
            "meter m size 5 { ip saddr limit rate 5/second } accept": ["accept"],
            "set add ip saddr timeout 5s @seen accept": ["accept"],
            'limit name "slowly" drop': [NEVER + " drop"],
            "quota over 5 mbytes used 1 mbytes drop": [NEVER + " drop"],
            "limit rate 10 mbytes/second burst 5 mbytes accept": ["accept"],
        })
        self.check({
            "ip saddr @slow drop": ["ip saddr @slow drop"],
            "add @seen { ip saddr ct count over 5 } drop": ["drop"],
        }, chosen={"connections": "over", "limit": "over"})
        two = "ip ttl 5 add @seen { ip saddr limit rate over 5/second } accept\nadd @seen { ip saddr } counter drop"
        self.check({two: ["ip ttl 5 ip saddr { 10.0.0.9 } accept", "counter drop"]})
        self.check({two: ["ip ttl 5 accept", "ip saddr { 10.0.0.9 } counter drop"]}, chosen={"dynamic": "hit"})
        self.check_refused({"add @seen { ip saddr last } drop": "isn't understood", 'limit name "x"': "no limit x",
                            'limit name tcp dport map { 22 : "slowly" } drop': "limit by a map"})

    def test_full_sets(self) -> None:
        """Where a set is full, Linux ends the rule that would add to it."""
        self.check({
            "add @seen { ip saddr } drop": [f"{NEVER} drop"],
            "add @seen { ip saddr }": ["ip length != 0"],
            "meter m size 256 { ip protocol limit rate 5/second } accept": ["accept"],
            "meter m size 255 { ip protocol limit rate 5/second } accept": [f"{NEVER} accept"],
            "delete @seen { ip saddr } accept": ["accept"],
        }, chosen={"room": "full"})
        add = "set one { type ipv4_addr; size 1; flags dynamic; elements = { 10.0.0.5 }; }\n"
        add += "chain added { type filter hook forward priority 9; update @one { ip saddr } accept; }"
        told = self.fit(add, "add")
        self.assertIn("ip saddr { 10.0.0.5 } accept", told.text)
        self.assertEqual(self.grade("add @seen { ip saddr } drop"), Grade.GUESS)
        self.assertEqual(self.grade("add @seen { ip saddr }"), Grade.OUTCOME)
        self.assertEqual(self.grade("meter m size 256 { ip protocol } accept"), Grade.OUTCOME)

    def test_keys_without_a_value(self) -> None:
        self.check({
            "add @seen { meta skuid } accept": [NEVER],
            "add @seen { ip saddr . tcp option maxseg size } accept": [f"meta l4proto tcp {NEVER} accept"],
            "add @seen { ct helper } accept": [f"{TRACKED} {NEVER} accept"],
            "meta mark set jhash icmp id mod 1": [
                "meta l4proto icmp icmp type { echo-reply, echo-request } meta mark set 0"],
        })
        self.check({"add @seen { rt classid } accept": [NEVER], "add @seen { meta oifgroup } accept": [NEVER]}, "pre")
        self.check({"add @seen { ct helper } accept": [f"{TRACKED} accept"]}, chosen={"helper": "hit"})

    def test_others(self) -> None:
        self.check({
            'counter name "sum" accept': ["counter packets 5 bytes 7 accept"],
            'counter name tcp dport map { 22 : "sum" } accept': ["tcp dport { 22 } accept"],
            "last used never accept": ["accept"],
            'dup to 10.0.0.1 device "lan" accept': ["accept"],
            "reject with icmpx port-unreachable": ["drop"],
            "reject with icmpv6 type no-route": [NEVER],
            "reject with tcp reset": ["meta l4proto tcp drop"],
            "log prefix x level debug flags tcp sequence,options group 5 accept": ['log prefix "x" accept'],
            "queue flags bypass to 1-3": ["accept"],
            "accept drop": ["accept"],
            "tcp dport 22 continue accept": ["tcp dport 22 accept"],
            "accept # why": ["accept # why"],
        })
        self.check_refused({
            'counter name "nothing" accept': "there is no counter nothing",
            "tproxy to :5": "a program of the box",
            "jump nowhere": "there is no chain nowhere",
            "fwd to 5": "past routing",
            "reject with nothing": "isn't understood",
        })


class Ordering(FilesCase):
    def test_spreading(self) -> None:
        self.assertEqual(spread_down([0, 0, 0], [1, 1]), [-2, -1, 0])
        self.assertEqual(spread_down([-1, 0, 0], [1, 1]), [-2, -1, 0])
        self.assertEqual(spread_down([5, 5], [0]), [5, 5])
        band = Band(-1, 9)
        self.assertEqual(spread_up([band] * 3, [-2, -1, 0], [1, 1]), [-1, 0, 1])

    def test_no_room(self) -> None:
        chain = "chain c%d { type filter hook prerouting priority -150; counter; }\n"
        chains = "".join(chain % it for it in range(100))
        changes = fit(self.file("rules.nft", f"table ip t {{\n{chains}}}\n"), None).changes
        self.assertEqual(changes.worst(), Grade.REFUSED)
        self.assertIn("no room", [it for it in changes.list if it.grade == Grade.REFUSED][0].why)

    def test_just_at_the_look_up(self) -> None:
        text = "table ip t {\nchain a { type filter hook prerouting priority -200; %s\n}\n}\n"
        for rule, grade in (("ct state new accept", "-199"), ("ip ttl 5 accept", "-200")):
            fitted = fit(self.file("rules.nft", text % rule), None)
            self.assertIn(f"priority {grade};", fitted.text)
        for priority in ("4294967296", "filter + 2147483648", "9" * 5000):
            with self.subTest(priority):
                rules = f"table ip t {{\nchain a {{ type filter hook input priority {priority}; accept\n}}\n}}\n"
                self.assertEqual(fit(self.file("rules.nft", rules), None).changes.worst(), Grade.REFUSED)


class Commanding(FilesCase):
    def test_commands(self) -> None:
        text = fit(self.file("rules.nft", """flush ruleset
add table ip t
add chain ip t c { type filter hook forward priority 0; }
add rule ip t c tcp dport 22 accept
insert rule ip t c tcp dport 23 accept
add rule ip t c index 0 tcp dport 24 accept
add set ip t s { type ipv4_addr; size 9; policy memory; counter; }
add element ip t s { 10.0.0.1, 10.0.0.2 }
delete element ip t s { 10.0.0.2 }
add chain ip t gone
rename chain ip t gone left
delete chain ip t left
add counter ip t n { packets 1 bytes 2 }
delete counter ip t n
add table ip u
flush table ip u
delete table ip u
list ruleset
flush set ip t s
flush chain ip t c
add rule ip t c counter
"""), None).text
        self.assertIn("\t\tcounter\n", text)
        self.assertNotIn("dport", text)
        self.assertNotIn("10.0.0.1", text)

    def test_refused(self) -> None:
        head = "add table ip t\nadd chain ip t c\nadd set ip t s { type mark; }\n"
        for line in ("add rule ip t c position 5 accept", "add rule ip t c index 7 accept", "flush thing ip t",
                     "delete table handle 5", "delete thing ip t x", "rename chain ip t c c", "add thing ip t x",
                     "add element ip t s", "add rule ip t nothing accept", "delete element ip t s { tcp : 5 ) }",
                     "add set ip t z { type mark; size x; }", "add set ip t z { nonsense; }",
                     "add chain ip t z { type filter hook; }", "add chain ip t z { policy jump; }",
                     "table ip t { nonsense }", "add rule ip t c $x", "redefine", "add set ip t $ { }"):
            with self.subTest(line), self.assertRaises(Refused):
                fit(self.file("rules.nft", head + line + "\n"), None)


if __name__ == "__main__":
    unittest.main()
