"""Rulesets of nft(8) and what they have to become: tokens, expressions, statements, values, the box file, whole
texts."""
from __future__ import annotations

import unittest

from support import BOX, FilesCase
from fit import expressions, numbers, tree
from fit.assumptions import Assumptions, Guess
from fit.command import fit
from fit.expressions import ExpressionReader
from fit.grades import Grade
from fit.network import Network
from fit.profile import takes
from fit.scanner import Refused, scan, shown, slice_of, spelled
from fit.statements import RuleReader
from toolbox import rulemap
from toolbox.lexer import Kind, Source, Token


def tokens(text: str) -> list[Token]:
    return scan(Source("rules.nft", text))


def statements(text: str) -> list[tree.What]:
    found, _ = RuleReader(tokens(text)).rule()
    return [one.what for one in found]


def one(text: str) -> tree.One:
    kind = Kind.ADDRESS if "." in text else Kind.NUMBER if text.isdigit() else Kind.WORD
    return tree.One(tree.Value(kind, text))


class Scanning(unittest.TestCase):
    def test_kinds(self) -> None:
        text = 'ip saddr 10.0.0.1 2001:db8::1 02:00:00:00:00:01 5m "x" $y eth* 0x1f <<'
        found = [(it.kind, it.text) for it in tokens(text)]
        self.assertEqual(found, [
            (Kind.WORD, "ip"), (Kind.WORD, "saddr"), (Kind.ADDRESS, "10.0.0.1"), (Kind.SIX, "2001:db8::1"),
            (Kind.MAC, "02:00:00:00:00:01"), (Kind.TIME, "5m"), (Kind.STRING, '"x"'), (Kind.VARIABLE, "$y"),
            (Kind.WILD, "eth*"), (Kind.NUMBER, "0x1f"), (Kind.MARK, "<<")])

    def test_lines_and_places(self) -> None:
        found = tokens("a # b\n\\\n  c")
        self.assertEqual([(it.text, it.line) for it in found], [("a", 1), ("\n", 1), ("c", 3)])
        self.assertEqual(slice_of(tokens("tcp  dport 22")), "tcp  dport 22")
        self.assertEqual(shown(tokens("tcp  dport 22")), "tcp dport 22")
        self.assertEqual(spelled(tokens("tcp dport { 1 - 2 , 3 }")), "tcp dport { 1-2, 3 }")

    def test_what_begins_nothing(self) -> None:
        with self.assertRaisesRegex(Refused, "rules.nft:2: '~' begins nothing"):
            tokens("a\n~")


class Reading(unittest.TestCase):
    def test_statements(self) -> None:
        match = tree.Match(tree.Selector("tcp dport"), "", one("22"))
        self.assertEqual(statements("tcp dport 22 counter accept"), [
            match, tree.Counter(0, 0), tree.Verdict("accept", None)])
        self.assertEqual(statements('log prefix "a" level info'), [
            tree.Log((("prefix", ('"a"',)), ("level", ("info",))))])
        self.assertEqual(statements("limit rate over 5/second"), [tree.Bound("limit", True, None)])
        self.assertEqual(statements("ct count over 3 reject with tcp reset"), [
            tree.Bound("connections", True, None), tree.Reject(("tcp", "reset"))])
        self.assertEqual(statements("meta mark set 5 notrack queue num 1"), [
            tree.Setting(tree.Selector("meta mark"), one("5")), tree.Untracked(), tree.Queue()])
        self.assertEqual(statements("dnat ip to 10.0.0.1:80 random"), [
            tree.Translation("dnat", "ip", one("10.0.0.1"), one("80"), ("random",), False)])
        self.assertEqual(statements("update @seen { ip saddr timeout 1m limit rate 1/second }"), [
            tree.ChangeOfSet("update", "seen", tree.Selector("ip saddr"), None, (tree.Bound("limit", False, None),))])

    def test_expressions(self) -> None:
        self.assertEqual(ExpressionReader(tokens("1-5")).part(), tree.Range(one("1").value, one("5").value))
        self.assertEqual(ExpressionReader(tokens("10.0.0.0/8")).part(), tree.Prefix(one("10.0.0.0").value, 8))
        joined = ExpressionReader(tokens("ip saddr . tcp dport")).operand()
        self.assertEqual(joined, tree.Joined((tree.Selector("ip saddr"), tree.Selector("tcp dport"))))
        masked = ExpressionReader(tokens("meta mark and 0xff")).operand()
        mask = tree.One(tree.Value(Kind.NUMBER, "0xff"))
        self.assertEqual(masked, tree.Calculation("&", tree.Selector("meta mark"), mask))
        self.assertEqual([it.name for it in tree.selectors_in(joined)], ["ip saddr", "tcp dport"])

    def test_refused(self) -> None:
        for text in ("tcp nothing 5", "accept }", "synproxy", "numgen inc mod 0 1"):
            with self.assertRaises(tree.NotFitted, msg=text):
                statements(text)


class Values(unittest.TestCase):
    def test_numbers(self) -> None:
        prefix = tree.Prefix(one("10.0.0.0").value, 8)
        self.assertEqual(numbers.range_of(prefix, "ipv4_addr"), (10 << 24, (11 << 24) - 1))
        # 10.1.2.3/8 is the network that 10.1.2.3 is in
        of_host = tree.Prefix(one("10.1.2.3").value, 8)
        self.assertEqual(numbers.range_of(of_host, "ipv4_addr"), (10 << 24, (11 << 24) - 1))
        self.assertEqual(numbers.range_of(one("http"), "inet_service"), (80, 80))
        self.assertEqual(numbers.range_of(tree.Anything(), "inet_service"), (0, 65535))
        self.assertEqual(numbers.spell_part(tree.Range(one("1").value, one("3").value), "mark"), "1-3")
        self.assertEqual(numbers.calculated("<<", 3, 4), 48)
        self.assertEqual(numbers.bits_named(3, {"a": 1, "b": 2}), ["a", "b"])
        self.assertEqual(numbers.bits_named(7, {"a": 1, "b": 2}), ["0x7"])
        with self.assertRaisesRegex(tree.NotFitted, "leading zero"):
            expressions.as_number("010")

    def test_comparisons(self) -> None:
        five = one("5")
        wanted = {"": True, "==": True, "!=": False, "<": False, "<=": True, ">": False, ">=": True}
        for operator, holds in wanted.items():
            self.assertEqual(numbers.holds(5, operator, five, "32"), holds, operator)
        listed = tree.Elements((tree.Element((five,), None, ()), tree.Element((one("7"),), None, ())))
        self.assertEqual([numbers.holds(it, "", listed, "32") for it in (5, 6, 7)], [True, False, True])
        self.assertEqual(numbers.holds(6, "!=", listed, "32"), True)
        self.assertIsNone(numbers.holds(5, "", one("unknown"), "32"))

    def test_guesses(self) -> None:
        made = Assumptions({"limit": "over"}, Guess("a:1", "x", "queue"))
        self.assertEqual(made.way("limit", "a:1", "x"), "over")
        self.assertEqual(made.way("queue", "a:1", "x"), "drop")
        self.assertEqual(made.way("queue", "a:2", "x"), "accept")
        self.assertEqual(made.chosen_way("queue", "a:1", "x"), "drop")


class Boxes(FilesCase):
    def test_routes(self) -> None:
        network = Network(self.file("box.txt", BOX))
        self.assertEqual(network.names(), ["lan", "wan"])
        self.assertEqual(network.reached_by("lan"), ["192.168.1.0", "192.168.1.2-192.168.1.255"])
        self.assertEqual([str(it) for it in network.own("wan")], ["203.0.113.1/32"])
        with self.assertRaises(Refused):
            Network(self.file("bad.txt", "interface 2 lan 300.0.0.1/24\n"))


class Fitting(FilesCase):
    def fitted(self, rules: str, family: str = "ip", **known: str) -> list[str]:
        """The rules that some rules become, in a chain of forward."""
        head = f"table {family} t {{\n{known.get('sets', '')}\nchain c {{\ntype filter hook forward priority 0;\n"
        path = self.file("rules.nft", head + rules + "\n}\nchain other {\n}\n}\n")
        network = Network(self.file("box.txt", BOX))
        text = fit(path, network).text
        self.assertTrue(takes(text, "ruleset"), text)
        lines = [line.strip() for line in text.split("hook forward priority 0;")[1].split("\n")[1:]]
        return lines[:lines.index("}")]

    def test_what_stays(self) -> None:
        for rule in ("tcp dport { 22, 80-90 } accept", "ct state vmap { established : accept, invalid : drop }",
                     "ip saddr 10.0.0.0/8 counter drop", 'iifname "eth*" jump other', "meta mark set 5"):
            self.assertIn(rule, self.fitted(rule), rule)

    def test_what_nftrun_spells_otherwise(self) -> None:
        pairs = {
            "ip saddr & 255.0.0.0 == 10.0.0.0 drop": "ip saddr 10.0.0.0/8 drop",
            "reject": "drop",
            "limit rate 5/second accept": "accept",
            "limit rate over 5/second drop": "ip length 0 drop",
            "ip6 saddr ::1 accept": "ip length 0 accept",
            "tcp dport 22 accept comment \"a\"": 'tcp dport 22 accept comment "a"',
            "meta skuid 5 accept": "ip length 0",
            "fib daddr type multicast drop": "ip daddr { 224.0.0.0/4 } drop",
            "queue num 5": "accept",
            "ether saddr 02:00:00:00:00:01 accept": "ip length 0 accept",
            "numgen random mod 2 0 accept": "accept",
            "log level info prefix \"x\" drop": 'log prefix "x" drop',
        }
        for rule, wanted in pairs.items():
            self.assertEqual(self.fitted(rule)[-1], wanted, rule)

    def test_never_of_inet(self) -> None:
        self.assertEqual(self.fitted("ip6 saddr ::1 accept", "inet")[-1], "meta nfproto ipv6 accept")

    def test_several_rules_of_one(self) -> None:
        found = self.fitted("ip saddr . tcp dport { 10.0.0.0/8 . 22, 10.1.0.0/16 . 80 } accept")
        self.assertEqual(found, ["ip saddr 10.0.0.0/8 tcp dport 22 accept", "ip saddr 10.1.0.0/16 tcp dport 80 accept"])
        found = self.fitted("tcp dport vmap { 22 : accept, * : drop }")
        self.assertEqual(found, ["tcp dport vmap { 22 : accept }", "tcp dport != { 22 } drop"])

    def test_marks(self) -> None:
        found = self.fitted("meta mark set 0x12\nmeta mark & 0xf0 == 0x10 accept\nmeta mark set meta mark | 1")
        self.assertEqual(found[1], "meta mark { 0x12, 0x13 } accept")
        self.assertIn("0x12 : 0x13", found[2])
        found = self.fitted("meta mark set numgen inc mod 3 offset 4\nmeta mark & 6 == 6 accept")
        self.assertEqual(found[1], "meta mark { 0x6 } accept")

    def test_interfaces_by_index(self) -> None:
        self.assertEqual(self.fitted("iif lan accept")[-1], "iif lan accept")
        self.assertEqual(self.fitted("iif ppp0 accept")[-1], 'iifname "ppp0" accept')
        self.assertEqual(self.fitted("iif { 3, lan } accept")[-1], "iif { 3, lan } accept")

    def test_numbers_of_interfaces_without_names(self) -> None:
        """No name is known for a number beside a name that the box hasn't."""
        for rule in ("iif { 5, ppp0 } accept", "ip ttl . iif { 1 . 5, 2-3 . ppp0 } accept",
                     "iif vmap { 5 : accept, ppp0 : drop }"):
            path = self.file("rules.nft", f"table ip t {{\nchain c {{\n{rule}\n}}\n}}\n")
            changes = fit(path, Network(self.file("box.txt", BOX))).changes
            self.assertEqual([(one.grade, one.place) for one in changes.list if one.grade is Grade.REFUSED],
                             [(Grade.REFUSED, f"{path}:3")], rule)

    def test_definitions_and_sets(self) -> None:
        path = self.file("rules.nft", "define net = { 10.0.0.0/8, 10.1.2.3 }\ntable ip t {\nset s { type ipv4_addr; "
                         "flags interval; elements = $net; }\nchain c { type filter hook input priority 0; "
                         "ip saddr @s drop; }\n}\n")
        text = fit(path, None).text
        self.assertIn("elements = { 10.0.0.0/8,\n\t\t\t     10.1.2.3 }", text)
        self.assertIn("ip saddr @s drop", text)

    def test_a_named_counter_starts_once(self) -> None:
        # the sum of the counters that stand for it is what it was
        path = self.file("rules.nft", "table ip t {\ncounter web { packets 5 bytes 500 }\nchain c {\ntype filter hook "
                         "input priority 0;\ntcp dport 80 counter name web\ntcp dport 443 counter name web\n}\n}\n")
        found = [line.strip() for line in fit(path, None).text.split("\n") if "counter" in line]
        self.assertEqual(found, ["tcp dport 80 counter packets 5 bytes 500", "tcp dport 443 counter"])

    def test_what_cannot_be_fitted_is_told(self) -> None:
        head = "table ip t {\nchain c {\ntype filter hook input priority 0;\n"
        path = self.file("rules.nft", head + "synproxy mss 5\n}\n}\n")
        changes = fit(path, None).changes
        self.assertEqual((changes.worst(), changes.list[-1].place), (Grade.REFUSED, f"{path}:4"))

    def test_map_of_rules(self) -> None:
        rules = "table ip t {\nchain c {\ntype filter hook input priority 0;\nreject\n" \
                "ip saddr . tcp dport { 10.0.0.0/8 . 1, 10.1.0.0/16 . 2 } counter accept\n}\n}\n"
        fitted = fit(self.file("rules.nft", rules), None)
        self.assertEqual([(number, origin.rule, origin.line, origin.counters) for _, number, origin in fitted.rows], [
            (1, 1, 4, ()), (2, 2, 5, (1,)), (3, 2, 5, (1,))])
        path = str(self.folder / "map")
        rulemap.write(path, fitted.text.encode(), "rules.nft", fitted.rows)
        read = rulemap.read(path)
        self.assertTrue(read.is_of(fitted.text.encode()))
        self.assertEqual(read.sums({("ip t c", 2): 5, ("ip t c", 3): 6}), {("ip t c", 2): 11})
        self.assertEqual(read.counter_sums({("ip t c", 2, 1): (1, 60), ("ip t c", 3, 1): (2, 80)}),
                         {("ip t c", 2, 1): (3, 140)})
        with self.assertRaises(rulemap.MapFault):
            rulemap.read(self.file("bad", '{"rule-map": 1, "sha256": "", "rules": ""}\n{"chain": 5}\n'))


if __name__ == "__main__":
    unittest.main()
