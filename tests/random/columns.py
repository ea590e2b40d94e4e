"""Many facts at once, by columns: for each value that a field has, a vector of the facts that have it. A vector is a
number, of whose bits each is a fact.

Few facts are drawn one by one, and multiplied by changing single fields (multiplied). What a selector reads is asked of
reading.py, of one packet for each combination of values in the fields that it reads.
"""
from __future__ import annotations

import random
from dataclasses import dataclass, field, replace
from functools import lru_cache
from typing import Dict, Hashable, Mapping, Sequence, TypeVar, Union

from facts import ANY, READS, Facts, Fields
from reading import SELECTORS, Value

Vector = int
Values = Dict[Union[Value, None], Vector]
K = TypeVar("K")

IN_BYTE = 8
FREE = 4  # of so many copies of all facts the fields of one are drawn each by itself
CHANGED = 3  # of the others' fields each is changed by the chance of one to two by this power


def note(vectors: dict[K, Vector], key: K, some: Vector) -> None:
    """Adds facts to the vector of a key."""
    if some:
        vectors[key] = vectors.get(key, 0) | some


@lru_cache(maxsize=None)
def read_of(names: Fields, values: Sequence[Hashable]) -> Mapping[str, Value | None]:
    """What the selectors that read these fields read of a packet with such values there."""
    met = replace(ANY, **dict(zip(names, values))).met()
    return {selector: SELECTORS[selector](met) for selector, of in READS.items() if of == names}


@dataclass(frozen=True)
class Columns:
    """So many facts, by their fields: of each the values with their vectors."""

    size: int
    fields: Mapping[str, Mapping[Hashable, Vector]]
    read: Dict[str, Values] = field(default_factory=dict)

    @property
    def all(self) -> Vector:
        return (1 << self.size) - 1

    def row(self, number: int) -> Facts:
        """One of the facts."""
        return replace(ANY, **{name: next(value for value, some in column.items() if some >> number & 1)
                               for name, column in self.fields.items()})

    def values(self, selector: str) -> Values:
        """What a selector reads of the facts as they came; of those of which it reads nothing, None."""
        if selector not in self.read:
            names = READS[selector]
            found: list[tuple[tuple[Hashable, ...], Vector]] = [((), self.all)]
            for name in names:
                found = [((*values, value), both) for values, some in found
                         for value, others in self.fields[name].items() for both in [some & others] if both]
            self.read[selector] = {}
            for values, some in found:
                note(self.read[selector], read_of(names, values)[selector], some)
        return self.read[selector]

    def untracked(self) -> Vector:
        """The facts that came untracked, before the lookup."""
        return self.fields["is_untracked"].get(True, 0)


def first(some: Vector) -> int:
    """The number of the first of some facts."""
    return (some & -some).bit_length() - 1


def count(some: Vector) -> int:
    """How many facts they are."""
    return bin(some).count("1")


class Multiplying:
    """Copies of facts, in which some fields are those of others."""

    def __init__(self, rows: Sequence[Facts], copies: int, dice: random.Random) -> None:
        lacking = -len(rows) % IN_BYTE
        self.rows = [*rows, *(dice.choice(rows) for _ in range(lacking))]
        self.copies, self.dice = copies, dice
        self.size = len(self.rows) * copies
        # The first copy stays as it is; in the last each field is drawn by itself.
        self.behind_first = (1 << self.size) - (1 << len(self.rows))
        self.free = (1 << self.size) - (1 << (copies - copies // FREE) * len(self.rows))

    def columns(self) -> Columns:
        names = self.rows[0].__dataclass_fields__
        return Columns(self.size, {name: self.column(name) for name in names})

    def column(self, name: str) -> dict[Hashable, Vector]:
        """A field of all copies: as it was, or where it is changed that of another row."""
        changed = self.some() & self.behind_first | self.free
        turns = [self.dice.randrange(len(self.rows)) for _ in range(self.copies)]
        found: dict[Hashable, Vector] = {}
        for value, some in self.values_of(name).items():
            there = self.repeated(some) & ~changed | self.turned(some, turns) & changed
            note(found, value, there)
        return found

    def values_of(self, name: str) -> dict[Hashable, Vector]:
        """A field of the rows, once."""
        found: dict[Hashable, Vector] = {}
        for number, row in enumerate(self.rows):
            value = getattr(row, name)
            found[value] = found.get(value, 0) | 1 << number
        return found

    def some(self) -> Vector:
        """Some of the copies, by chance."""
        found = self.dice.getrandbits(self.size)
        for _ in range(CHANGED - 1):
            found &= self.dice.getrandbits(self.size)
        return found

    def repeated(self, some: Vector) -> Vector:
        return int.from_bytes(some.to_bytes(len(self.rows) // IN_BYTE, "little") * self.copies, "little")

    def turned(self, some: Vector, turns: Sequence[int]) -> Vector:
        """The rows once for each turn, each time beginning with another."""
        count = len(self.rows)
        below = (1 << count) - 1
        twice = some | some << count
        octets = ((twice >> turn & below).to_bytes(count // IN_BYTE, "little") for turn in turns)
        return int.from_bytes(b"".join(octets), "little")


def multiplied(rows: Sequence[Facts], least: int, dice: random.Random) -> Columns:
    """At least so many facts made of these. First they stand as they are; further copies have about two fields in
    seventeen changed, and a part of them all, so that each field is drawn by itself."""
    return Multiplying(rows, max(1, -(-least // len(rows))), dice).columns()
