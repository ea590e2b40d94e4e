"""The lexer over texts whose tokens are known, since they are put together of them (docs/SPEC.md, 1.1), and over any
text."""
from __future__ import annotations

import random
import unittest
from dataclasses import dataclass

import support  # noqa: F401
from toolbox.lexer import Kind, tokens_of

SEED, TEXTS, LENGTH = 1, 300, 40
# what separates tokens and is none, and how many lines it has
BLANKS = {" ": 0, "\t": 0, " \r ": 0, "\\\n": 1, "\\\n \\\n": 2}
PUNCTUATION = "{ } ( ) , ; : . / - + = @ & | == != <= >= < >".split()
WORDS = ("accept", "_", "a-b.c/d", "x0", "deadbeef", "fe80", "s", "ms", "table")
NUMBERS = ("0", "80", "0x0", "0xBeEf", "18446744073709551615")
ADDRESSES = ("0.0.0.0", "192.168.1.10", "255.255.255.255")
STRINGS = ('""', '"eth0"', '"a # b; { c"', '"\u00e9 \\"')


@dataclass(frozen=True)
class Wanted:
    """A token that has to be found, and where."""

    kind: Kind
    text: str
    line: int
    start: int


def drawn(chance: random.Random) -> tuple[str, list[Wanted]]:
    """A text, and its tokens."""
    text, line = "", 1
    wanted: list[Wanted] = []
    for _ in range(LENGTH):
        kind, spellings = chance.choice((
            (Kind.WORD, WORDS), (Kind.NUMBER, NUMBERS), (Kind.ADDRESS, ADDRESSES), (Kind.STRING, STRINGS),
            (Kind.MARK, PUNCTUATION), (Kind.NEWLINE, ("\n",))))
        spelling = chance.choice(spellings)
        wanted.append(Wanted(kind, spelling, line, len(text)))
        text += spelling
        line += kind is Kind.NEWLINE
        if chance.random() < 0.1:
            text += " # a comment: 1 { \" ;"
            wanted.append(Wanted(Kind.NEWLINE, "\n", line, len(text)))
            text, line = text + "\n", line + 1
        blank = chance.choice(list(BLANKS))
        text, line = text + blank, line + BLANKS[blank]
    return text, wanted


class Lexing(unittest.TestCase):
    def test_texts_of_known_tokens(self) -> None:
        chance = random.Random(SEED)
        for _ in range(TEXTS):
            text, wanted = drawn(chance)
            found = [Wanted(one.kind, one.text, one.line, one.start) for one in tokens_of(text)]
            self.assertEqual(found, wanted, text)

    def test_any_text_is_its_tokens_and_what_is_between(self) -> None:
        chance = random.Random(SEED)
        for _ in range(TEXTS):
            text = "".join(chance.choice('ab1:.x"#\\\n\t *$@{};-/0f\u00e9\0') for _ in range(LENGTH))
            at = 0
            for one in tokens_of(text):
                self.assertEqual(text[one.start:one.end], one.text)
                between = text[at:one.start].replace("\\\n", "")
                self.assertTrue(not between.strip(" \t\r") or between.strip(" \t\r").startswith("#"), (text, between))
                self.assertEqual(one.line, 1 + text.count("\n", 0, one.start))
                at = one.end

    def test_tokens_separate_by_themselves(self) -> None:
        self.assertEqual([one.text for one in tokens_of("80accept")], ["80", "accept"])
        self.assertEqual([one.text for one in tokens_of("0x")], ["0", "x"])
        self.assertEqual([one.text for one in tokens_of("10.0.0.1-10.0.0.9")], ["10.0.0.1", "-", "10.0.0.9"])
        self.assertEqual([one.text for one in tokens_of("a<=b")], ["a", "<=", "b"])

    def test_what_begins_no_token(self) -> None:
        for text in ('"open', "\u00e9", "\\"):
            self.assertEqual(tokens_of(text)[0].kind, Kind.UNKNOWN, text)

    def test_what_nft_has_beside(self) -> None:
        kinds = {"fe80::1": Kind.SIX, "02:00:00:00:01:02": Kind.MAC, "1h30m": Kind.TIME, "eth*": Kind.WILD,
                 "$net": Kind.VARIABLE}
        self.assertEqual({text: [one.kind for one in tokens_of(text)] for text in kinds},
                         {text: [kind] for text, kind in kinds.items()})
        self.assertEqual([one.text for one in tokens_of("22:8080:1")], ["22", ":", "8080", ":", "1"])

    def test_what_stands_before_a_token(self) -> None:
        text = "a b\n c,d # e\nf\\\ng"
        parted = [one.text for one in tokens_of(text) if one.is_parted and one.kind is not Kind.NEWLINE]
        self.assertEqual(parted, ["b", "c", "f", "g"])


if __name__ == "__main__":
    unittest.main()
