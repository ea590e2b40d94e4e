"""What `nftrun reach --sets` prints, read as the matches of reading.py: a line of a set is a conjunction of matches of
nft(8) (docs/SPEC.md, 1.3 and 2.3).

This judges the program, so it stands on the plain reading and not on tools/toolbox, which reads the same lines.
"""
from __future__ import annotations

import re
from dataclasses import dataclass, field
from functools import lru_cache
from typing import Dict, Iterator, Sequence, Tuple

from reading import Element, HasBits, HasOfMask, IsIn, Match, Met, Name, Part, Span, Test
from words import GREATEST, KINDS, WORDS

Where = Tuple[str, int]  # a chain's path, and the number of a rule
Line = Sequence[Match]

MORE = re.compile("(?:at least )?[0-9]+ more")
HEAD = re.compile("(rule|policy) (\\S+ \\S+ \\S+)(?: ([0-9]+))? (.*)")
OF_SET = re.compile("  (reached|met|ends) in (\\S+): (.*)")
TOKENS = re.compile('"[^"]*"|[{}(),|&]|==|!=|[^\\s{}(),|&"]+')
OF_BITS = ("ct state", "ct status", "tcp flags")


class Unread(Exception):
    """A line of another form than is promised."""


@dataclass
class Lines:
    """The lines of a set, about packets that came to one base chain; whether all are told."""

    lines: list[Line] = field(default_factory=list)
    is_whole: bool = True

    def take(self, text: str) -> None:
        if MORE.fullmatch(text):
            self.is_whole = False
        else:
            self.lines.append(line_of(text))

    def has(self, met: Met) -> bool:
        return any(all(match.take(met) for match in line) for line in self.lines)


SetsOf = Dict[str, Lines]  # by the path of the base chain


@dataclass
class Sets:
    """What is told of sets: of those that come to a rule and that meet it, and of those that come to the end of a base
    chain. What has no line of a kind isn't there."""

    reached: dict[Where, SetsOf] = field(default_factory=dict)
    met: dict[Where, SetsOf] = field(default_factory=dict)
    ends: SetsOf = field(default_factory=dict)


@dataclass
class Told:
    """All that the program prints."""

    rules: dict[Where, str] = field(default_factory=dict)
    policies: dict[str, str] = field(default_factory=dict)
    sets: Sets = field(default_factory=Sets)


def told_in(text: str) -> Told:
    """What is printed."""
    told = Told()
    where: Where = "", 0
    for line in text.splitlines():
        head, of_set = HEAD.fullmatch(line), OF_SET.fullmatch(line)
        if head:
            where = head[2], int(head[3] or 0)
            if head[1] == "rule":
                told.rules[where] = head[4]
            else:
                told.policies[head[2]] = head[4]
        elif of_set:
            base = f"{where[0].rsplit(' ', 1)[0]} {of_set[2]}"
            lines_of(told.sets, of_set[1], where, base).take(of_set[3])
        else:
            raise Unread(line)
    return told


def lines_of(sets: Sets, word: str, where: Where, base: str) -> Lines:
    """The lines of the set that the word names, for one more of them."""
    if word == "ends":
        return sets.ends.setdefault(base, Lines())
    return (sets.reached if word == "reached" else sets.met).setdefault(where, {}).setdefault(base, Lines())


@lru_cache(maxsize=4096)  # sets of rules one behind another have many lines in common
def line_of(text: str) -> Line:
    """The matches of a line."""
    if text == "any packet":
        return []
    tokens = TOKENS.findall(text)
    matches: list[Match] = []
    while tokens:
        matches.append(match_from(tokens))
    return matches


def match_from(tokens: list[str]) -> Match:
    """The first match, whose tokens are taken away."""
    selector = tokens.pop(0)
    if selector not in KINDS:
        selector = f"{selector} {tokens.pop(0)}" if tokens else selector
    if selector not in KINDS:
        raise Unread(selector)
    if selector == "tcp flags" and tokens[:1] == ["&"]:
        return masked(tokens)
    operator = tokens.pop(0) if tokens[:1] in (["=="], ["!="]) else ""
    test: Test
    if selector in OF_BITS:
        test = HasBits(operator, sum(WORDS[KINDS[selector]][word] for word in listed(tokens, ",")))
    else:
        elements = tuple(elements_from(tokens, selector))
        test = IsIn(operator, elements, "told")
    return Match((selector,), operator, test, selector)


def masked(tokens: list[str]) -> Match:
    """`& (syn | ack) == syn`"""
    tokens.pop(0)
    mask = flags_of(tokens)
    operator = tokens.pop(0)
    return Match(("tcp flags",), operator, HasOfMask(operator, mask, flags_of(tokens)), "tcp flags")


def flags_of(tokens: list[str]) -> int:
    """The bits of a group, whose tokens are taken away."""
    if tokens[:1] == ["("]:
        tokens.pop(0)
        words = listed(tokens, "|")
        tokens.pop(0)
    else:
        words = [tokens.pop(0)]
    return sum(0 if word == "0" else WORDS["tcp_flag"][word] for word in words)


def listed(tokens: list[str], mark: str) -> list[str]:
    """The words with this mark between them, which are taken away."""
    words = [tokens.pop(0)]
    while tokens[:1] == [mark]:
        tokens.pop(0)
        words.append(tokens.pop(0))
    return words


def elements_from(tokens: list[str], selector: str) -> Iterator[Element]:
    """The element, or those of a set, taken away."""
    if tokens[0] != "{":
        yield (part_of(tokens.pop(0), selector),)
        return
    tokens.pop(0)
    for word in listed(tokens, ","):
        yield (part_of(word, selector),)
    if tokens.pop(0) != "}":
        raise Unread(selector)


@lru_cache(maxsize=65_536)
def part_of(word: str, selector: str) -> Part:
    """A value, a range or a prefix."""
    if word.startswith('"'):
        return Name(word.strip('"'), False)
    number = number_of(word, selector)
    if number is not None:
        return Span(number, number)
    if "/" in word:
        address, _, length = word.partition("/")
        low = whole_number(address, selector)
        return Span(low, low + 2 ** (32 - int(length)) - 1)
    first, _, last = word.partition("-")
    return Span(whole_number(first, selector), whole_number(last, selector))


def whole_number(word: str, selector: str) -> int:
    number = number_of(word, selector)
    if number is None:
        raise Unread(f"{selector} {word}")
    return number


def number_of(word: str, selector: str) -> int | None:
    """The number of a word, or None of what is none alone."""
    known = WORDS.get(KINDS[selector], {})
    if word in known:
        return known[word]
    if re.fullmatch("[0-9]+|0x[0-9a-f]+", word):
        return int(word, 0)
    parts = word.split(".")
    if len(parts) == 4 and all(part.isdigit() for part in parts):
        return sum(int(part) << shift for part, shift in zip(parts, (24, 16, 8, 0)))
    return None


def bounds_of(match: Match) -> list[int]:
    """The numbers at the bounds of what a match tests, and just beside them; none of names and bits."""
    (selector,) = match.selectors
    if not isinstance(match.test, IsIn):
        return []
    spans = [part for element in match.test.elements for part in element if isinstance(part, Span)]
    near = {number for span in spans for number in (span.low - 1, span.low, span.high, span.high + 1)}
    return sorted(number for number in near if 0 <= number <= GREATEST[KINDS[selector]])
