"""What docs/SPEC.md has of the words of the language: the tables of section 1.3, which are written, and the words of
1.4 and selectors of 2.1, which have to be the same.
"""
from __future__ import annotations

import re
from dataclasses import dataclass
from itertools import groupby
from typing import Iterable, Iterator, Mapping, Sequence

SPEC = "docs/SPEC.md"
SELECTOR_HEAD, WORDS_HEAD = "| selector | type, width in bits |", "| type | words and their numbers |"
UNSUPPORTED_SECTION, VALUES_SECTION = "1.4", "2.1"


class Unread(Exception):
    """A source or a page that has another form than is read here; the text says which."""


@dataclass(frozen=True)
class ValueType:
    """A type: the bits of its values, whether these have an order and ranges, and its words."""

    width: int
    is_ordered: bool
    has_ranges: bool
    words: Mapping[str, int]


@dataclass(frozen=True)
class Selector:
    """What a selector reads: of which type, if that has a name, and how many bits."""

    type: str | None
    width: int


def shortest(selector: str, without_meta: Iterable[str]) -> str:
    """A selector without a `meta` that may be left out."""
    word = selector.removeprefix("meta ")
    return word if word in without_meta else selector


def quoted(words: Iterable[str]) -> str:
    return ", ".join(f"`{word}`" for word in words)


def selector_rows(selectors: Mapping[str, Selector], without_meta: Sequence[str]) -> Iterator[str]:
    """A row for selectors of one type that follow one another."""
    for one, names in groupby(selectors, key=lambda name: selectors[name]):
        words = [shortest(name, without_meta) for name in names]
        also = ", each also after `meta`" if words[0] in without_meta else ""
        yield f"| {quoted(words)}{also} | {one.type or 'without a name'}, {one.width} |"


def word_rows(types: Mapping[str, ValueType]) -> Iterator[str]:
    """A row for each type that has words."""
    for name, one in types.items():
        if one.words:
            yield f"| {name} | {', '.join(f'{word} {number}' for word, number in one.words.items())} |"


def with_table(spec: str, head: str, rows: Iterable[str]) -> str:
    """The text with these rows in its table of this head."""
    before, found, behind = spec.partition(f"{head}\n|---|---|\n")
    if not found:
        raise Unread(f"{SPEC} has no table {head}")
    return before + found + "".join(f"{row}\n" for row in rows) + re.sub(r"\A(\|.*\n)*", "", behind)


def section(spec: str, number: str) -> str:
    """The text of a section of two numbers."""
    return spec.partition(f"\n### {number} ")[2].partition("\n##")[0]


def different(where: str, wanted: Iterable[str], given: Sequence[str]) -> Iterator[str]:
    """What is missing, stands there twice, or has to go."""
    known = list(wanted)
    yield from (f"{SPEC}, section {where}: no `{word}`" for word in known if word not in given)
    yield from (f"{SPEC}, section {where}: `{word}`, which isn't one" for word in given if word not in known)
    yield from (f"{SPEC}, section {where}: `{word}` twice" for word in known if given.count(word) > 1)


def faults(spec: str, selectors: Iterable[str], unsupported: Iterable[str]) -> Iterator[str]:
    """Where the text has other words or selectors, these as short as they are written, than those of the language."""
    items = re.findall(r"^- .*", section(spec, UNSUPPORTED_SECTION), re.M)
    words = [word for item in items for those in re.findall("`([^`]+)`", item) for word in those.split()]
    yield from different(UNSUPPORTED_SECTION, unsupported, words)
    rows = re.findall(r"^\|([^|]*)\|", section(spec, VALUES_SECTION), re.M)
    yield from different(VALUES_SECTION, selectors, [name for row in rows for name in re.findall("`([^`]+)`", row)])
