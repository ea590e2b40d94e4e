"""What the page counts and numbers while it reads a run."""
from __future__ import annotations

from collections import Counter
from dataclasses import dataclass, field
from typing import Dict, Generic, TypeVar

from toolbox.packets import inverse

One = TypeVar("One")


@dataclass(frozen=True)
class Step:
    """One step of a record's way: the base chain that was run, the decision's own chain and rule (0: policy), and the
    verdict."""

    base: str
    chain: str
    rule: int
    verdict: str


class Table(Generic[One]):
    """Gives things numbers, in the order of their coming."""

    def __init__(self, *first: One) -> None:
        self.numbers: Dict[One, int] = {}
        self.all: list[One] = []
        for one in first:
            self.number(one)

    def number(self, one: One) -> int:
        found = self.numbers.get(one)
        if found is None:
            found = self.numbers[one] = len(self.all)
            self.all.append(one)
        return found


@dataclass
class Sender:
    """Whose packets were dropped: the first of them, how many, by cause."""

    first: int
    packets: int = 0
    causes: Counter[str] = field(default_factory=Counter)


class Columns:
    """A row for each record that is kept; numbers alone."""

    NAMES = ("time", "path", "outcome", "before", "after", "entering", "leaving", "ttl", "ttl_after", "length", "flags",
             "state", "connection", "side")

    def __init__(self) -> None:
        self.rows: dict[str, list[int]] = {name: [] for name in self.NAMES}

    def add(self, **values: int) -> None:
        for name in self.NAMES:
            self.rows[name].append(values[name])


@dataclass(frozen=True)
class Place:
    """Of a record the number of its connection (0: none), and its side: 0 is the one that began."""

    connection: int
    side: int


NOWHERE = Place(0, 0)


class Connections:
    """Which records are one connection: by tuples as they come and as they leave. A record that is new again, where its
    connection was answered, begins another."""

    def __init__(self) -> None:
        self.by_tuple: dict[bytes, Place] = {}
        self.answered: set[int] = set()
        self.count = 0

    def take(self, key: bytes | None, is_error: bool, state: str | None, left: bytes | None) -> Place:
        """Where a record with the tuple `key` is, which left with the tuple `left`."""
        if key is None or state in ("invalid", "untracked"):
            return NOWHERE
        found = self.by_tuple.get(key)
        if found and state == "new" and not is_error and found.connection in self.answered:
            found = None
        if found is None:
            if is_error:
                return NOWHERE
            self.count += 1
            found = self.by_tuple[key] = Place(self.count, 0)
            if not state or left is None:
                self.by_tuple[inverse(key)] = Place(self.count, 1)
        if left is not None and not is_error:
            self.by_tuple[inverse(left)] = Place(found.connection, 1 - found.side)
        if found.side and not is_error:
            self.answered.add(found.connection)
        return found
