"""The selectors, types and words of the language, by which tests over all of them go, so that a new one is in each:
tools/toolbox/language.json, which scripts/language writes from the sources of the crates.

A wrong one would be taken for right here: tests/unit/test_language.py has them as RFCs, IANA and netfilter gave them.
"""
from __future__ import annotations

import json
import sys
from typing import Iterable

from files import TOP, contents

LANGUAGE = json.loads(contents(f"{TOP}/tools/toolbox/language.json"))


def shortest(selector: str) -> str:
    """A selector without a `meta` that may be left out."""
    word = selector.removeprefix("meta ")
    return word if word in LANGUAGE["without_meta"] else selector


# Of each selector the type of its values; those whose types have no name stand for themselves.
KINDS: dict[str, str] = {shortest(it): one["type"] or shortest(it) for it, one in LANGUAGE["selectors"].items()}
# Of each type its greatest number, and its words, if it has any.
GREATEST: dict[str, int] = {KINDS[shortest(it)]: 2 ** one["width"] - 1 for it, one in LANGUAGE["selectors"].items()}
WORDS: dict[str, dict[str, int]] = {name: one["words"] for name, one in LANGUAGE["types"].items() if one["words"]}
# The types that have an order, and those that have ranges.
ORDERED, RANGED = (tuple(kind for kind in GREATEST if kind in KINDS or LANGUAGE["types"][kind][what])
                   for what in ("is_ordered", "has_ranges"))

# All words that rulesets have of selectors, types, statements, hooks and priorities, and those that aren't supported.
SPOKEN = sorted({
    *(word for selector in LANGUAGE["selectors"] for word in selector.split(" ")), *LANGUAGE["types"],
    *(word for known in WORDS.values() for word in known),
    *(word for of in ("verdicts", "statements", "hooks", "priorities", "unsupported") for word in LANGUAGE[of])})


def want_each(where: str, selectors: Iterable[str]) -> None:
    """Ends the program, by a line that names them, where a table hasn't each selector, or has others."""
    given = set(selectors)
    told = [f"no `{it}`" for it in KINDS if it not in given]
    told += [f"`{it}`, which the language hasn't" for it in sorted(given) if it not in KINDS]
    if told:
        sys.exit(f"{where}: {', '.join(told)}")
