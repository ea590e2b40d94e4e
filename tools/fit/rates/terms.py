"""What `limit`, `quota`, `ct count` and the times of sets ask, read from their words."""
from __future__ import annotations

import re
from dataclasses import dataclass
from typing import Sequence, Union

from ..expressions import as_number
from ..tree import NotFitted

SECOND = 10**9  # nanoseconds
UNITS = {"second": 1, "minute": 60, "hour": 3600, "day": 86400, "week": 604800}
BYTES = {"bytes": 1, "kbytes": 1 << 10, "mbytes": 1 << 20}
USUAL_BURST = 5  # packets, nft(8), "Limit statement"; of bytes none
PARTS_OF_TIME = re.compile("([0-9]+)(ms|w|d|h|m|s)")
NANOSECONDS = {"w": 604800 * SECOND, "d": 86400 * SECOND, "h": 3600 * SECOND, "m": 60 * SECOND, "s": SECOND,
               "ms": SECOND // 1000}
BEGINS = ("limit", "quota", "ct")


@dataclass(frozen=True)
class Limit:
    """`limit rate [over] RATE/UNIT [burst BURST]`; `size` is how many bytes the unit of the rate has, or None where it
    counts packets."""

    over: bool
    rate: int
    seconds: int
    burst: int
    size: int | None


@dataclass(frozen=True)
class Quota:
    """`quota [over] SIZE [used USED]`, in bytes."""

    over: bool
    size: int
    used: int


@dataclass(frozen=True)
class Count:
    """`ct count [over] MOST`"""

    over: bool
    most: int


Terms = Union[Limit, Quota, Count]


@dataclass(frozen=True)
class Asked:
    """What stands behind a key, or in the head of a set: the bounds, and the times in nanoseconds."""

    bounds: tuple[Terms, ...]
    timeout: int | None
    expires: int | None


def nanoseconds(text: str) -> int:
    """A time as nft(8) writes it: `1h30m`; a number alone is seconds."""
    if text.isdigit():
        return as_number(text) * SECOND
    parts = PARTS_OF_TIME.findall(text)
    if "".join(map("".join, parts)) != text:
        raise NotFitted(f"`{text}` is no time")
    return sum(int(number) * NANOSECONDS[unit] for number, unit in parts)


class Words:
    """Reads from a list of words, from `at` on."""

    def __init__(self, words: Sequence[str]) -> None:
        self.words, self.at = [part for it in words for part in split(it)], 0

    def peek(self) -> str:
        return self.words[self.at] if self.at < len(self.words) else ""

    def take(self) -> str:
        word = self.peek()
        self.at += 1
        return word

    def skip(self, *words: str) -> bool:
        if self.peek() in words:
            self.at += 1
            return True
        return False

    def number(self) -> int:
        word = self.take()
        if not re.fullmatch("0x[0-9A-Fa-f]+|[0-9]+", word):
            raise NotFitted(f"`{word}` is no number")
        return as_number(word)

    def over(self) -> bool:
        return not self.skip("until") and self.skip("over")

    def limit(self) -> Limit:
        if not self.skip("rate"):
            raise NotFitted("a limit without a rate")
        over, rate = self.over(), self.number()
        size = BYTES[self.take()] if self.peek() in BYTES else None
        unit = self.take() if self.skip("/") else ""
        if unit not in UNITS or not rate:
            raise NotFitted("a rate that isn't known")
        burst = USUAL_BURST if size is None else 0
        if self.skip("burst"):
            burst = self.number()
            burst *= BYTES.get(self.take(), 1)
        return Limit(over, rate * (size or 1), UNITS[unit], burst, size)

    def size(self) -> int:
        number, unit = self.number(), self.take()
        if unit not in BYTES:
            raise NotFitted(f"`{unit}` is no unit of bytes")
        return number * BYTES[unit]

    def quota(self) -> Quota:
        over, size = self.over(), self.size()
        return Quota(over, size, self.size() if self.skip("used") else 0)

    def count(self) -> Count:
        if not self.skip("count"):
            raise NotFitted("what is counted isn't known")
        return Count(self.over(), self.number())


def split(word: str) -> list[str]:
    """`kbytes/second` is one word of nft(8)."""
    return re.split("(/)", word) if re.fullmatch("[a-z]+/[a-z]+", word) else [word]


def terms_of(words: Sequence[str]) -> Terms:
    """A bound alone, as a rule has it, from its first word on."""
    reader = Words(words)
    return bound_of(reader, reader.take())


def bound_of(reader: Words, word: str) -> Terms:
    if word == "limit":
        return reader.limit()
    if word == "quota":
        return reader.quota()
    if word == "ct":
        return reader.count()
    raise NotFitted(f"`{word}` bounds nothing")


def asked_of(words: Sequence[str]) -> Asked:
    """All that stands behind a key."""
    reader = Words(words)
    bounds: list[Terms] = []
    timeout = expires = None
    while reader.peek():
        word = reader.take()
        if word in BEGINS:
            bounds.append(bound_of(reader, word))
        elif word == "timeout":
            timeout = nanoseconds(reader.take())
        elif word == "expires":
            expires = nanoseconds(reader.take())
    return Asked(tuple(bounds), timeout, expires)
