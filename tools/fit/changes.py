"""What was changed: each change with its place, what it was, what it became, how much that matters, and why."""
from __future__ import annotations

from dataclasses import dataclass
from typing import Iterator

from toolbox.lexer import Token

from .grades import Grade
from .scanner import place


@dataclass(frozen=True)
class Change:
    place: str
    grade: Grade
    what: str
    to: str
    why: str


class Changes:
    """All changes in the order in which they were made, and warnings of what stays, as (place, text)."""

    def __init__(self) -> None:
        self.list: list[Change] = []
        self.warnings: list[tuple[str, str]] = []
        self.told: set[tuple[Grade, str, str]] = set()

    def tell(self, token: Token, grade: Grade, what: str, to: str, why: str) -> None:
        self.list.append(Change(place(token), grade, what, to, why))

    def tell_once(self, token: Token, grade: Grade, what: str, to: str, why: str) -> None:
        """Once for a ruleset, as it is the same everywhere."""
        if (grade, what, to) not in self.told:
            self.told.add((grade, what, to))
            self.tell(token, grade, what, to, why)

    def refuse(self, token: Token, what: str, why: str) -> None:
        self.tell(token, Grade.REFUSED, what, "", why)

    def warn(self, token: Token, text: str) -> None:
        if (place(token), text) not in self.warnings:
            self.warnings.append((place(token), text))

    def take(self, others: Changes) -> None:
        self.list += others.list
        for one in others.warnings:
            if one not in self.warnings:
                self.warnings.append(one)

    def worst(self) -> Grade:
        return max((it.grade for it in self.list), key=lambda grade: grade.rank, default=Grade.SAME)

    def in_order(self) -> list[Change]:
        """By file and line, as far as these go."""
        files = list(dict.fromkeys(file_and_line(it.place)[0] for it in self.list))
        return sorted(self.list, key=lambda it: (files.index(file_and_line(it.place)[0]), file_and_line(it.place)[1]))

    def lines(self) -> Iterator[str]:
        for it in self.in_order():
            to = f" -> {it.to}" if it.to else ""
            yield f"{it.place}: {it.grade.value}: {it.what}{to} ({it.why})"
        for where, text in self.warnings:
            yield f"{where}: warning: {text}"


def file_and_line(where: str) -> tuple[str, int]:
    file, _, line = where.rpartition(":")
    return file, int(line) if line.isdigit() else 0
