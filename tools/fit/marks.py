"""Which marks there may be: 0, with which each begins, and what rules write, until nothing new comes."""
from __future__ import annotations

from typing import TYPE_CHECKING

from .facts import MARKS
from .numbers import calculated, range_of
from .tree import Calculation, Drawn, Elements, Expression, Lookup, Mapping, NotFitted, One, Selector, Setting, Table

if TYPE_CHECKING:
    from .fitter import Fitter

MOST = 512  # of marks that are followed


class Marks:
    """`values` of each kind of mark: a set of numbers, or None where they are too many or not known."""

    def __init__(self, fitter: Fitter) -> None:
        self.fitter = fitter
        self.values: dict[str, set[int] | None] = {name: {0} for name in MARKS}
        self.writes = [
            (table, it.what.left.name, it.what.operand)
            for table, _, rule in fitter.rules()
            for it in rule.statements
            if isinstance(it.what, Setting) and it.what.left.name in MARKS
        ]
        while self.grow():
            pass

    def grow(self) -> bool:
        before = {name: None if it is None else set(it) for name, it in self.values.items()}
        for table, name, operand in self.writes:
            found, known = self.evaluate(table, operand), self.values[name]
            if found is None or known is None or len(known | found) > MOST:
                self.values[name] = None
            else:
                self.values[name] = known | found
        return self.values != before

    def evaluate(self, table: Table, it: Expression) -> set[int] | None:
        """The numbers that an operand may have, or None."""
        try:
            return self.numbers(table, it)
        except NotFitted:
            return None  # told where the rule is fitted

    def numbers(self, table: Table, it: Expression) -> set[int] | None:
        if isinstance(it, Selector):
            return self.values.get(it.name)
        if isinstance(it, One):
            found = range_of(it, "mark")
            return None if found is None else {found[0]}
        if isinstance(it, Drawn):
            return {it.offset, it.offset + it.modulus - 1}
        if isinstance(it, Calculation):
            left, right = self.evaluate(table, it.left), self.evaluate(table, it.right)
            if left is None or right is None or len(left) * len(right) > MOST * MOST:
                return None
            return {calculated(it.operator, a, b) for a in left for b in right}
        if isinstance(it, Lookup):
            return self.data_of(table, it.map)
        return None

    def data_of(self, table: Table, mapping: Mapping) -> set[int] | None:
        if isinstance(mapping, Elements):
            elements = list(mapping.items)
        else:
            elements = table.sets[mapping.name].elements if mapping.name in table.sets else []
        found = set()
        for element in elements:
            data = element.data
            number = None
            if isinstance(data, tuple) and len(data) == 1 and isinstance(data[0], One):
                number = range_of(data[0], "mark")
            if number is None:
                return None
            found.add(number[0])
        return found

    def may_change(self, name: str) -> bool:
        return len(self.values[name] or (0, 1)) > 1
