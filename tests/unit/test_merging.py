"""The merges that nft prints, rulesets with them, and rulesets by hand beside what is fitted (tests/random)."""
from __future__ import annotations

import sys
import unittest

from support import TOP

sys.path.insert(0, str(TOP / "tests/random"))

from fitted import fitted, fitted_pairs, pairs_in  # noqa: E402
from mergeable import mergeable  # noqa: E402
from merging import Merge, Said, Span, merges_in, with_merges  # noqa: E402

TEXT = """table ip t {
\tchain f {
\t\tip saddr 10.0.0.1 accept
\t\tip saddr 10.0.0.2 accept; tcp dport 22 drop
\t\ttcp dport { 23,
\t\t24 } drop
\t}
}
"""
# As nft 1.0.6 prints it.
PRINTED = """Merging:
RULES:3:3-26: \t\tip saddr 10.0.0.1 accept
RULES:4:3-26: \t\tip saddr 10.0.0.2 accept; tcp dport 22 drop
into:
\tip saddr { 10.0.0.1, 10.0.0.2 } accept
Merging:
RULES:4:29-45: \t\tip saddr 10.0.0.2 accept; tcp dport 22 drop
RULES:5:3-6:9: \t\ttcp dport { 23,
into:
\ttcp dport { 22, { 23,
\t\t\t     24 } } drop
"""


class OfMerges(unittest.TestCase):
    def test_what_is_printed(self) -> None:
        self.assertEqual(list(merges_in(PRINTED)), [
            Merge([Span(2, 2, 26), Span(3, 2, 26)], "ip saddr { 10.0.0.1, 10.0.0.2 } accept")])

    def test_lists_over_several_lines(self) -> None:
        (merge,) = merges_in(PRINTED.split("accept\n", 4)[-1].replace("5:3-6:9", "5:3-9"))
        self.assertEqual(merge.text.split(), "tcp dport { 22, { 23, 24 } } drop".split())

    def test_faults_end_the_text(self) -> None:
        (merge,) = merges_in(PRINTED.split("Merging:\nRULES:4:29")[0] + "RULES:3:3-26: Error: conflicting intervals\n")
        self.assertEqual(merge.text, "ip saddr { 10.0.0.1, 10.0.0.2 } accept")

    def test_rulesets_with_merges(self) -> None:
        lines = with_merges(TEXT, list(merges_in(PRINTED))).split("\n")
        self.assertEqual(lines[2:4], ["\t\tip saddr { 10.0.0.1, 10.0.0.2 } accept", "\t\t; tcp dport 22 drop"])
        self.assertEqual(with_merges(TEXT, []), TEXT)

    def test_faulty_lines(self) -> None:
        said = Said("RULES:26:25-27: Error: Interface does not exist\n\t\tip\nRULES:7:3-26: \t\tip saddr\n", False)
        self.assertEqual(said.faulty(), {25})

    def test_drawn_rulesets(self) -> None:
        self.assertEqual(mergeable(3), mergeable(3))
        self.assertEqual(len({mergeable(seed) for seed in range(20)}), 20)


class OfFittedPairs(unittest.TestCase):
    def test_one(self) -> None:
        (pair,) = pairs_in("# a\n== a name\n-- nft\ntcp dport ge 5 accept\n-- plainly\nadd table ip t\n"
                           "-- ways\nlimit=over\n-- grade\nsame\n\n")
        self.assertEqual((pair.name, pair.grade, pair.ways, pair.told, pair.assumed),
                         ("a name", "same", ("limit=over",), "the same for every packet\n", None))
        self.assertIn("policy drop;\ntcp dport ge 5 accept\n }\n}\n", pair.nft)
        self.assertEqual(pair.plainly, "add table ip t\n")

    def test_grades(self) -> None:
        pairs = fitted_pairs()
        self.assertEqual(len({pair.name for pair in pairs}), len(pairs))
        for pair in pairs:
            self.assertEqual(fitted(pair).grade, pair.grade, pair.name)


if __name__ == "__main__":
    unittest.main()
