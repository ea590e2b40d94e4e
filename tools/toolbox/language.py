"""The language of rulesets: its words, types, selectors and priorities, as the program has them.

They stand in language.json beside this file, which scripts/language writes from the sources of the crates.
"""
from __future__ import annotations

import json
import pathlib
from dataclasses import dataclass
from typing import Any, Mapping


@dataclass(frozen=True)
class ValueType:
    """A type of values: how many bits they have, and its words with their numbers."""

    width: int
    words: Mapping[str, int]


@dataclass(frozen=True)
class Selector:
    """What a selector reads: of which type, or None where that has no name, and how many bits."""

    type: str | None
    width: int

    @property
    def type_name(self) -> str:
        """The name of its type, or its width where it has none."""
        return self.type or str(self.width)


@dataclass(frozen=True)
class Language:
    """All of it. Selectors are written with their header, as `ip saddr`; `without_meta` may be written without it."""

    verdicts: tuple[str, ...]
    statements: tuple[str, ...]
    hooks: tuple[str, ...]
    priorities: Mapping[str, int]
    types: Mapping[str, ValueType]
    selectors: Mapping[str, Selector]
    without_meta: tuple[str, ...]
    longest_key: int  # bits of a concatenation

    @classmethod
    def of(cls, data: Mapping[str, Any]) -> Language:
        return cls(
            tuple(data["verdicts"]), tuple(data["statements"]), tuple(data["hooks"]), data["priorities"],
            {name: ValueType(one["width"], one["words"]) for name, one in data["types"].items()},
            {name: Selector(**one) for name, one in data["selectors"].items()},
            tuple(data["without_meta"]), data["longest_key"])

    def words_of(self, selector: str) -> Mapping[str, int]:
        """The words of a selector's values."""
        name = self.selectors[selector].type
        return self.types[name].words if name else {}


NFT = Language.of(json.loads(pathlib.Path(__file__).with_name("language.json").read_text(encoding="ascii")))
