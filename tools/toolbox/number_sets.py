"""Sets of numbers, as the ranges that they have."""
from __future__ import annotations

from dataclasses import dataclass
from typing import Iterable, Iterator, Tuple

Range = Tuple[int, int]  # the least and the greatest number


@dataclass(frozen=True)
class Numbers:
    """A set of numbers: its ranges in order, with others between any two of them."""

    ranges: tuple[Range, ...]

    @classmethod
    def of(cls, ranges: Iterable[Range]) -> Numbers:
        """What any of these ranges has."""
        joined: list[Range] = []
        for low, high in sorted(one for one in ranges if one[0] <= one[1]):
            if joined and low <= joined[-1][1] + 1:
                joined[-1] = joined[-1][0], max(joined[-1][1], high)
            else:
                joined.append((low, high))
        return cls(tuple(joined))

    @classmethod
    def listed(cls, numbers: Iterable[int]) -> Numbers:
        return cls.of((number, number) for number in numbers)

    @classmethod
    def between(cls, low: int, high: int) -> Numbers:
        return cls.of([(low, high)])

    def __bool__(self) -> bool:
        return bool(self.ranges)

    def __contains__(self, number: int) -> bool:
        return any(low <= number <= high for low, high in self.ranges)

    def __and__(self, other: Numbers) -> Numbers:
        common: list[Range] = []
        left, right = 0, 0
        while left < len(self.ranges) and right < len(other.ranges):
            (low, high), (other_low, other_high) = self.ranges[left], other.ranges[right]
            if max(low, other_low) <= min(high, other_high):
                common.append((max(low, other_low), min(high, other_high)))
            if high < other_high:
                left += 1
            else:
                right += 1
        return Numbers(tuple(common))

    def __or__(self, other: Numbers) -> Numbers:
        return Numbers.of((*self.ranges, *other.ranges))

    def __sub__(self, other: Numbers) -> Numbers:
        left: list[Range] = []
        for low, high in self.ranges:
            for other_low, other_high in other.ranges:
                if other_high < low or other_low > high:
                    continue
                left.append((low, other_low - 1))
                low = other_high + 1
            left.append((low, high))
        return Numbers.of(left)

    def raised(self, by: int) -> Numbers:
        """Each of them so much greater."""
        return Numbers(tuple((low + by, high + by) for low, high in self.ranges))

    def least(self) -> int:
        """The least; there has to be one."""
        return self.ranges[0][0]

    def count(self) -> int:
        return sum(high - low + 1 for low, high in self.ranges)

    def at(self, place: int) -> int:
        """The number at a place from 0, in their order; behind the last one it begins anew."""
        place %= self.count()
        for low, high in self.ranges:
            if place <= high - low:
                return low + place
            place -= high - low + 1
        raise IndexError(place)

    def __iter__(self) -> Iterator[int]:
        for low, high in self.ranges:
            yield from range(low, high + 1)
