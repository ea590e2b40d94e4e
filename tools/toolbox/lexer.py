"""The tokens of nft(8), with their places in a text.

nftrun's own tokens (docs/SPEC.md, 1.1) are among them, each spelled as there. What nft(8) has beside these are
addresses of IPv6 and of Ethernet, durations, names that end in `*`, and variables.
"""
from __future__ import annotations

import enum
import re
from dataclasses import dataclass
from ipaddress import IPv6Address
from typing import Iterator


@dataclass(frozen=True)
class Source:
    """A file, or what stands for one."""

    name: str
    text: str


class Kind(enum.Enum):
    """What a token is; the values are the names of its groups in SCANNER."""

    NEWLINE = "newline"
    STRING = "string"
    MAC = "mac"
    SIX = "six"  # an address of IPv6
    ADDRESS = "address"
    TIME = "time"
    NUMBER = "number"
    WORD = "word"
    WILD = "wild"  # a name that ends in `*`
    VARIABLE = "variable"
    MARK = "mark"
    UNKNOWN = "other"  # a character that begins no token
    END = "end"  # no token of a text: what readers find behind the last one


@dataclass(frozen=True)
class Token:
    """`start` and `end` are places in the text of `source`; negative where it doesn't stand there."""

    kind: Kind
    text: str
    source: Source
    line: int
    start: int
    end: int

    @property
    def is_parted(self) -> bool:
        """Whether a blank or a newline stands before it."""
        return self.start > 0 and self.source.text[self.start - 1] in BLANKS


BLANKS = " \t\r\n"
WORD = r"[A-Za-z_][A-Za-z0-9_./-]*"
DURATION = r"(?:[0-9]+w)?(?:[0-9]+d)?(?:[0-9]+h)?(?:[0-9]+m(?!s))?(?:[0-9]+s)?(?:[0-9]+ms)?"
SCANNER = re.compile(
    rf"""(?P<blank>[ \t\r]+|\\\r?\n|\#[^\n]*)
      | (?P<newline>\n)
      | (?P<string>"[^"\n]*"\*?)
      | (?P<mac>(?:[0-9A-Fa-f]{{1,2}}:){{5}}[0-9A-Fa-f]{{1,2}}(?![0-9A-Fa-f:]))
      | (?P<six>(?:[0-9A-Fa-f]{{0,4}}:){{2,7}}(?:[0-9]+(?:\.[0-9]+){{3}}|[0-9A-Fa-f]{{0,4}}))
      | (?P<address>[0-9]+(?:\.[0-9]+){{3}}(?![0-9.]))
      | (?P<time>(?=(?:[0-9]+(?:w|d|h|m|s|ms))+(?![A-Za-z0-9_])){DURATION})
      | (?P<number>0x[0-9A-Fa-f]+|[0-9]+)
      | (?P<word>{WORD}(?![A-Za-z0-9_./*-]))
      | (?P<wild>{WORD}\*)
      | (?P<variable>\$[A-Za-z_][A-Za-z0-9_./-]*)
      | (?P<mark>==|!=|<=|>=|<<|>>|[{{}}(),;:./\-+=@&|<>!^*\[\]])
      | (?P<other>.)""",
    re.VERBOSE | re.DOTALL,
)
NOT_SIX = re.compile(rf"(?P<number>0x[0-9A-Fa-f]+|[0-9]+)|(?P<word>{WORD})|(?P<mark>:)")
KINDS = {kind.value: kind for kind in Kind}


def is_six(text: str) -> bool:
    try:
        IPv6Address(text)
        return True
    except ValueError:
        return False


def tokens_of(text: str) -> list[Token]:
    """All tokens of a text that stands in no file."""
    return list(tokens_in(Source("", text)))


def tokens_in(source: Source) -> Iterator[Token]:
    """All tokens of a text but blanks, in order."""
    at, line, text = 0, 1, source.text
    for found in matches_in(text):
        begin, at, group = at, found.end(), found.lastgroup or ""
        if group != "blank":
            yield Token(KINDS[group], found[0], source, line, begin, at)
        if group == "newline" or group == "blank" and text[at - 1] == "\n":
            line += 1


def matches_in(text: str) -> Iterator[re.Match[str]]:
    """What follows one another in a text; what only looks like an address of IPv6, as `22:8080:`, is a number, a word
    or a mark."""
    at, size = 0, len(text)
    while at < size:
        for found in SCANNER.finditer(text, at):
            if found.lastgroup == "six" and not is_six(found[0]):
                other = NOT_SIX.match(text, found.start())
                found = other or found
                yield found
                at = found.end()
                break
            yield found
        else:
            return
