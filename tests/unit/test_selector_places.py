"""Places that name selectors, their types or the fields of facts one by one, beside the language: what lacks one, or
has one too many, is told by a sentence. The recipe "Add a selector" of docs/lists/RECIPES.md leads here.
"""
from __future__ import annotations

import re
import unittest
from typing import Collection, Iterator

from support import TOP
from fit import numbers
from fit.facts import FIELDS, KNOWN, META
from rows import rows
from toolbox.language import NFT
from toolbox.lexer import tokens_of
from words import KINDS, ORDERED, RANGED, WORDS, shortest

CODES = "crates/explanations/src/table.rt"
ADVICE = "crates/advice/src/unread.rt"
SELECTORS = "crates/nft_tree/src/selector.rt"
EXAMPLES = "crates/definition_examples/src/semantics.rt"
OF_EXAMPLES = "crates/definition_examples/specs/SemanticsExamples.antt"
COMPARED, OF_ORDERS = "crates/rule_types/src/compared_types.rt", "crates/rules_advice/src/type_advice.rt"
NAMED_TYPES = "crates/rules_advice/src/types.rt"
KEYWORDS_OF, PROTOCOLS = "crates/nft_expressions/src/selector_words.rt", "crates/nft_differences/src/protocols.rt"
FACTS, FACT_WORDS = "crates/fact_sets/src/fact_field.rt", "crates/set_texts/src/words.rt"
NUMBERS, FIT = "tools/fit/numbers.py", "docs/FIT.md"

# selectors that examples name by the matches that are theirs alone
OWN_MATCHES = {"TcpFlags": "tree.any_flag", "CtState": "examples.state", "CtStatus": "examples.status"}
# types with words, by whether nft(8) has more than the language: no; yes, and NUMBERS has them; yes, and fit refuses
ALL_OF_NFT = ("tcp_flag", "icmp_type", "nf_proto", "ct_state", "ct_dir")
MORE_IN_FIT = ("inet_service", "inet_proto")
REFUSED = ("ct_status",)

KEYWORDS: dict[str, set[str]] = {}
for header, keyword in map(str.split, NFT.selectors):
    KEYWORDS.setdefault(header, set()).add(keyword)
BEGIN_MATCHES = {*KEYWORDS, *NFT.without_meta}


def text_of(path: str) -> str:
    return (TOP / path).read_text(encoding="utf-8")


def found(pattern: str, path: str) -> str:
    """What a pattern finds in a file."""
    match = re.search(pattern, text_of(path), re.M | re.S)
    if match is None:
        raise AssertionError(f"{path}: nothing is written as {pattern}")
    return match[1]


def variants(name: str, path: str) -> list[str]:
    return re.findall(r"^    (\w+),", found(rf"^pub enum {name} \{{\n(.*?)^\}}", path), re.M)


def listed(text: str) -> list[str]:
    """The words of a list with commas and `and`."""
    return re.findall(r"[\w-]+", re.sub(r"\band\b", "", text))


class PlacesCase(unittest.TestCase):
    def want(self, where: str, wanted: Collection[str], given: Collection[str]) -> None:
        """Those that are wanted are there, and no others; what else a test wants is told, too."""
        told = [f"no `{it}`" for it in wanted if it not in given]
        told += [f"`{it}`, which has to go" for it in given if it not in wanted]
        with self.subTest():
            if told:
                self.fail(f"{where}: {', '.join(told)}")


class OfTypes(PlacesCase):
    """What tells the types without a name, with an order, and with ranges."""

    def test_what_n08_is(self) -> None:
        paragraph = " ".join(found(r'code: "N08",.*?paragraph: "(.*?)",\n', CODES).split())
        self.want(f"{CODES}, N08, types without a name", [it for it in KINDS if KINDS[it] == it],
                  re.findall("`([^`]+)`", paragraph.partition("one without a name (")[2].partition(")")[0]))
        ordered, _, behind = paragraph.partition("range of another type than ")[2].partition(" or one without a name")
        self.want(f"{CODES}, N08, types with an order", [it for it in ORDERED if it in NFT.types], listed(ordered))
        self.want(f"{CODES}, N08, types with ranges alone", [it for it in RANGED if it not in ORDERED],
                  listed(behind.partition("ranges also of ")[2].partition(")")[0]))

    def test_what_is_advised_of_orders(self) -> None:
        named = dict(re.findall(r"^pub const (\w+): ComparedType = ComparedType::Named\(ValueType::(\w+)\);$",
                                text_of(NAMED_TYPES), re.M))
        advised = re.findall(r"\b[A-Z]{2,}\b", found("has_order = matches!(.*?);$", OF_ORDERS))
        self.want(f"{OF_ORDERS}, has_order",
                  re.findall(r"ValueType::(\w+)", found(r"^fn is_ordered\((.*?)^\}", COMPARED)),
                  [named[it] for it in advised])

    def test_what_fit_compares(self) -> None:
        self.want(f"{NUMBERS}, ORDERED", [it for it in ORDERED if it in NFT.types], numbers.ORDERED)
        self.want(f"{NUMBERS}, RANGED", [it for it in RANGED if it in NFT.types], numbers.RANGED)

    def test_whether_nft_has_more_words(self) -> None:
        self.want("ALL_OF_NFT, MORE_IN_FIT or REFUSED of tests/unit/test_selector_places.py", WORDS,
                  (*ALL_OF_NFT, *MORE_IN_FIT, *REFUSED))


class OfAdvice(PlacesCase):
    """What is told of words that aren't read."""

    def test_fields_of_headers(self) -> None:
        arms = re.findall(r'"([\w-]+)" => \(\s*"([^"]*)",\s*"Of `([\w-]+)`, ([^"]*?) (?:is|are) read: [^"]*",?\s*\)',
                          found(r"^fn field_of\((.*?)^\}", ADVICE))
        more = [it for it in KEYWORDS if not KEYWORDS[it].issuperset(FIELDS[it])]  # in nft(8)
        self.want(f"{ADVICE}, headers of field_of", more, [header for header, *_ in arms])
        for header, unread, named, read in arms:
            self.assertEqual(header, named, ADVICE)
            wanted = KEYWORDS[header].difference(NFT.without_meta)
            self.want(f"{ADVICE}, what is read of {header}", wanted, listed(read.replace(" and the interfaces", "")))
            self.want(f"{ADVICE}, what isn't read of {header}", set(unread.split()) - KEYWORDS[header], unread.split())

    def test_types(self) -> None:
        unread = found(r'^const UNREAD_TYPES: &str =\s*"([^"]*)"', ADVICE).split()
        unread += re.findall(r'\("type", "([\w-]+)"\)', text_of(ADVICE))
        self.want(f"{ADVICE}, types that aren't read", set(unread).difference(NFT.types), unread)

    def test_what_begins_no_match(self) -> None:
        unread = found(r'^const UNREAD_MATCHES: &str =\s*"([^"]*)"', ADVICE).split()
        there = found(r"^fn there\((.*?)^\}", ADVICE)
        arms = re.findall(r'^        true if (?:lists\(|word == )"([^"]*)"', there, re.M)
        self.assertLess(5, len(arms))
        unread += " ".join(arms).split()
        self.want(f"{ADVICE}, what isn't read in a rule", set(unread) - BEGIN_MATCHES, unread)

    def test_what_stands_behind_a_header(self) -> None:
        pairs = [f"{before} {word}" for before, word in re.findall(r'\("([\w-]+)", "([\w-]+)"\)', text_of(ADVICE))]
        self.assertLess(5, len(pairs))
        self.want(f"{ADVICE}, what isn't read behind a header", set(pairs).difference(NFT.selectors), pairs)


class OfHeaders(PlacesCase):
    def test_of_which_header_selectors_are(self) -> None:
        """Arms for all others take those that aren't named."""
        for header, arm in (("IP", "match self.network"), ("TCP", r"Some\(TCP\)"), ("UDP", r"Some\(UDP\)"),
                            ("ICMP", r"Some\(ICMP\)")):
            self.want(f"{PROTOCOLS}, selectors of {header}",
                      re.findall(r"Selector::(\w+)", found(rf"^pub\(crate\) static IN_{header}: (.*?);$", KEYWORDS_OF)),
                      re.findall(r"Selector::(\w+)", found(rf"((?:Selector::\w+[\s|]*)+)=> {arm}", PROTOCOLS)))


class OfExamples(PlacesCase):
    def test_examples_of_what_rules_mean(self) -> None:
        text = text_of(EXAMPLES) + text_of(OF_EXAMPLES)
        named = set(re.findall(r"\bselectors\.(\w+)", text)) | {
            it for it, match in OWN_MATCHES.items() if f"{match} " in text}
        self.want(f"{EXAMPLES}, selectors", variants("Selector", SELECTORS), named)

    def test_rows(self) -> None:
        self.want("the rules of tests/rows/*.rows", list(KINDS), set(self.in_rows()))

    @staticmethod
    def in_rows() -> Iterator[str]:
        """The selectors of the rows' rulesets, but for those that are written there."""
        for row in (it for path in sorted(TOP.glob("tests/rows/*.rows")) for it in rows(str(path))):
            for text in (*row.rulesets, *([text_of(f"tests/rows/{row.file}")] if row.file else [])):
                words = [token.text for token in tokens_of(text)]
                for one, two, three in zip(words, words[1:], words[2:]):
                    if three != "set":
                        yield from (it for it in (one, shortest(f"{one} {two}")) if it in KINDS)


class OfFacts(PlacesCase):
    """What has each field of facts."""

    def test_all_of_them(self) -> None:
        fields = found(r"pub const ALL: .*?= \[\n(.*?)\];", FACTS)
        self.want(f"{FACTS}, ALL", variants("FactField", FACTS), re.findall(r"FactField::(\w+)", fields))

    def test_their_words(self) -> None:
        self.want(FACT_WORDS, variants("FactField", FACTS), set(re.findall(r"FactField::(\w+)", text_of(FACT_WORDS))))


def selectors_in(cell: str) -> Iterator[str]:
    """The selectors that a cell of FIT lists; a field stands without its header behind another of this, or in meta."""
    header = ""
    for words in map(str.split, re.findall("`([^`]+)`", cell)):
        if words[0] in FIELDS and len(words) > 1:
            header = words[0]
            yield " ".join(words)
        elif words[0] in FIELDS.get(header, ()):
            yield " ".join((header, *words))
        elif words[0] in META:
            yield " ".join(("meta", *words))


class OfFit(PlacesCase):
    """What docs/FIT.md says of matches."""

    def setUp(self) -> None:
        self.cells = re.findall(r"^\| (.*?) \| ", found(r"^\*\*Matches\*\*\n(.*?)^\*\*", FIT), re.M)

    def test_what_is_known_of_selectors_stands_there(self) -> None:
        named = {it for cell in self.cells for it in selectors_in(cell)}
        begun = tuple(it[:-2] for it in named if it.endswith(" .."))
        self.want(FIT, KNOWN, [it for it in KNOWN if it in named or it.startswith(begun)])

    def test_what_is_read_is_no_guess(self) -> None:
        """A cell that lists selectors, and says no more of them than that there are other such."""
        lists = [it for it in self.cells if re.fullmatch("`[^`]+`(, (`[^`]+`|[a-z ]+))*", it)]
        guessed = [it for cell in lists for it in selectors_in(cell)]
        guessed += re.findall(r"^rules\.nft:\d+: (\S+ \S+).*?: \w+=\w+ or ", text_of(FIT), re.M)
        self.assertLess(20, len(guessed))
        self.want(f"{FIT}, guesses", set(guessed).difference(NFT.selectors), guessed)


if __name__ == "__main__":
    unittest.main()
