"""Changes of drawn rulesets (tests/random/rewriting.py, mutating.py, refactoring.py): texts change with rules."""
from __future__ import annotations

import random
import re
import sys
import unittest

from support import TOP

sys.path.insert(0, str(TOP / "tests/random"))

from drawn import Declared, WrittenChain, WrittenTable  # noqa: E402
from mutating import Mutating  # noqa: E402
from near import called_by, targets, ways_to  # noqa: E402
from pairs import paired  # noqa: E402
from reading import Chain, Head, HasBits, IsIn, IsPart, Lookup, Name, Pair, Rule, Span, Verdict  # noqa: E402
from reading import Part, Translate, VerdictMap, Word  # noqa: E402
from refactoring import Refactoring  # noqa: E402
from rewriting import Place, differing, match_of, part_text, text_of, with_contents, with_named, with_rule  # noqa: E402
from stages import Ruleset  # noqa: E402

HEAD = Head("forward", "filter", 0, Word.DROP)
LINE = "type filter hook forward priority 0; policy drop;"
NAMED = IsIn("", [(Span(22, 22),)], "named")
PORTS = match_of(("tcp dport",), NAMED)
MAP = VerdictMap(Lookup("tcp sport", [Pair((Span(1, 1),), Verdict(Word.JUMP, "c"), "1 : jump c"),
                                      Pair((Span(2, 2),), Verdict(Word.DROP), "2 : drop")]),
                 "tcp sport vmap { 1 : jump c, 2 : drop }")


def written() -> WrittenTable:
    """A table with a declared set, a called chain and one that nothing calls."""
    ports = type(PORTS)(PORTS.selectors, "", NAMED, "tcp dport @s0")
    chains = [
        WrittenChain(Chain("c", [Rule([ports, Verdict(Word.ACCEPT)])])),
        WrittenChain(Chain("alone", [Rule([Verdict(Word.DROP)])])),
        WrittenChain(Chain("b", [Rule([MAP]), Rule([ports, Verdict(Word.DROP)])], HEAD), LINE)]
    declared = [Declared("set s0", ["type inet_service", "elements = { 22 }"], ["22"])]
    return WrittenTable("ip", "t", chains, declared)


class OfTexts(unittest.TestCase):
    def test_parts(self) -> None:
        cases: tuple[tuple[str, Part, str], ...] = (
                ("ipv4_addr", Span(0x0A000001, 0x0A000002), "10.0.0.1-10.0.0.2"), ("inet_service", Span(7, 7), "7"),
                ("ifname", Name("la", True), '"la*"'), ("ct_state", Span(8, 8), "new"),
                ("iface_index", Span(5, 5), "wan"))
        for kind, part, text in cases:
            self.assertEqual(part_text(kind, part), text)

    def test_matches(self) -> None:
        for match, text in (
                (match_of(("ip ttl",), IsPart("<", Span(4, 4))), "ip ttl < 4"),
                (match_of(("ct state",), HasBits("!=", 9)), "ct state != invalid,new"),
                (match_of(("iif", "meta mark"), IsIn("", [(Span(2, 2), Span(0, 0)), (Span(3, 3), Span(9, 9))], "")),
                 "iif . meta mark { lan . 0, lan0 . 9 }")):
            self.assertEqual(match.text, text)

    def test_contents(self) -> None:
        self.assertEqual(with_contents(PORTS, [(Span(1, 2),), (Span(9, 9),)]).text, "tcp dport { 1-2, 9 }")
        self.assertEqual(with_contents(MAP, MAP.lookup.pairs[1:]).text, "tcp sport vmap { 2 : drop }")
        nat = Translate("dnat", Lookup("ip saddr", [Pair((Span(1, 1),), 5, "0.0.0.1 : 0.0.0.5")]), None,
                        "dnat to ip saddr map { 0.0.0.1 : 0.0.0.5 }")
        self.assertEqual(with_contents(nat, []).text, "dnat to ip saddr map {  }")

    def test_a_named_set(self) -> None:
        table = with_named(written(), "s0", [(Span(22, 22),), (Span(23, 23),)], ["22", "23"])
        self.assertEqual(table.text.count("@s0"), 2)
        self.assertIn("elements = { 22, 23 }", table.text)
        for chain in (table.chains[0], table.chains[2]):
            (target, other) = targets(chain.chain.rules[-1].statements[0])
            self.assertEqual((target.element, other.element), ((Span(22, 22),), (Span(23, 23),)))
        self.assertNotIn("elements", with_named(table, "s0", [], []).text)

    def test_differing_rules(self) -> None:
        old = written()
        (new,) = with_rule((old,), Place(0, 2, 0))
        self.assertEqual(list(differing(old.chains[2].chain, new.chains[2].chain)), [old.chains[2].chain.rules[0]])
        self.assertEqual(list(differing(old.chains[0].chain, new.chains[0].chain)), [])
        self.assertEqual(text_of((new,)).count("vmap"), 0)


class OfWays(unittest.TestCase):
    def test_called_chains(self) -> None:
        table = written()
        self.assertEqual(list(called_by(table.chains[2].chain.rules[0])), ["c"])
        ways = ways_to(Ruleset([table.table]), "forward")
        self.assertEqual(set(ways), {"ip t b", "ip t c"})
        self.assertEqual(list(ways["ip t c"]), [table.chains[2].chain.rules[0]])
        self.assertEqual(ways_to(Ruleset([table.table]), "input"), {})


class OfChanges(unittest.TestCase):
    def test_what_is_changed(self) -> None:
        """Each change has another text, and tells of its rules."""
        seen: set[str] = set()
        for seed in range(1, 120):
            pair = paired(seed)
            seen |= set(pair.whats)
            if len(pair.whats) == 1 and pair.whats != ["as it was"]:
                self.assertNotEqual(text_of(pair.old), text_of(pair.new), (seed, pair.whats))
                self.assertTrue(pair.changed(), (seed, pair.whats))
        self.assertGreater(len(seen), 15, seen)

    def test_a_chain_that_nothing_reaches(self) -> None:
        table = written()
        changed = Mutating(random.Random(1), False).unreached((table,))
        assert changed
        self.assertTrue(changed.is_same)
        self.assertEqual(list(changed.written[0].chains[1].chain.rules), [])

    def test_heads(self) -> None:
        mutating = Mutating(random.Random(1), False)
        for _ in range(20):
            turned, moved = mutating.policy((written(),)), mutating.priority((written(),))
            assert turned and moved
            self.assertIn("priority 0; policy accept;", text_of(turned.written))
            head = moved.written[0].chains[2].chain.head
            assert head
            self.assertIn(f"hook forward priority {head.priority}; policy drop;", text_of(moved.written))

    def test_forms(self) -> None:
        """Rules in either form stand in a chain, beside what they need."""
        seen: dict[str, int] = {}
        refactoring = Refactoring(random.Random(1), False)
        for _ in range(150):
            old, changed = refactoring.planted((written(),))
            seen[changed.what] = seen.get(changed.what, 0) + 1
            self.assertTrue(changed.is_same)
            self.assertNotEqual(text_of(old), text_of(changed.written), changed.what)
            for text in (text_of(old), text_of(changed.written)):
                self.assertEqual(text.count("{"), text.count("}"))
                names = set(re.findall("(?:@|jump )(planted)", text))
                self.assertTrue(all(f"set {name}" in text or f"chain {name}" in text for name in names))
        self.assertEqual(len(seen), 12, seen)

    def test_spelling(self) -> None:
        changed = Refactoring(random.Random(4), False).respelled((written(),))
        self.assertEqual(text_of(changed.written).count("tcp dport"), 2)
        self.assertTrue(changed.is_same)


if __name__ == "__main__":
    unittest.main()
