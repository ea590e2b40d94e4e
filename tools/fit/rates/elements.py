"""Sets that rules add to, as Linux keeps them: nft_dynset.c, nft_lookup.c and nft_set_hash.c of Linux 6.18."""
from __future__ import annotations

from dataclasses import dataclass, field
from typing import Sequence, Tuple

from .buckets import Arrival, Bucket, bucket_of
from .known import Connections
from .terms import Terms

Key = Tuple[int, ...]
USUAL_SIZE = 65535  # of a set that rules add to, where none is given


@dataclass
class Held:
    """An element: when it runs out, or None, and the bounds that it was made with, each with whether it is `over`."""

    ends: int | None
    bounds: list[HeldBound] = field(default_factory=list)

    def is_there(self, moment: int) -> bool:
        """At the moment of its end an element is gone."""
        return self.ends is None or moment < self.ends

    def passes(self, arrival: Arrival) -> bool:
        """Asks the bounds in turn; the first that stops the rule is the last that counts the packet."""
        return all(it.bucket.is_over(arrival) == it.over for it in self.bounds)


@dataclass(frozen=True)
class HeldBound:
    """What an element keeps of a bound; `over` is whether a packet goes on where it is over."""

    bucket: Bucket
    over: bool


@dataclass(frozen=True)
class Listed:
    """An element that the set lists: in how many nanoseconds it runs out, or None, and its own bounds."""

    key: Key
    expires: int | None
    bounds: tuple[Terms, ...]


@dataclass(frozen=True)
class SetTerms:
    """What the head of a set says, and what it lists."""

    size: int
    timeout: int | None
    bounds: tuple[Terms, ...]
    listed: tuple[Listed, ...] = ()


class DynamicSet:
    """The elements of a set as time goes; `begin` is the moment from which those that it lists run out."""

    def __init__(self, terms: SetTerms, connections: Connections, begin: int) -> None:
        self.terms, self.connections = terms, connections
        self.held: dict[Key, Held] = {}
        self.was_full, self.deleted = False, 0  # whether the size may have decided anything
        for it in terms.listed:
            ends = None if it.expires is None else begin + it.expires
            self.held[it.key] = Held(ends, self.made(it.bounds or terms.bounds))

    def made(self, bounds: Sequence[Terms]) -> list[HeldBound]:
        return [HeldBound(bucket_of(it, self.connections), it.over) for it in bounds]

    def find(self, key: Key, moment: int) -> Held | None:
        found = self.held.get(key)
        return found if found is not None and found.is_there(moment) else None

    def look_up(self, key: Key, arrival: Arrival, is_not: bool = False) -> bool:
        """`KEY @set`: whether the element is there, and its bounds let the packet by. `KEY != @set` asks no bounds."""
        found = self.find(key, arrival.moment)
        return found is None if is_not else found is not None and found.passes(arrival)

    def add(self, key: Key, timeout: int | None, bounds: Sequence[Terms], refreshes: bool, arrival: Arrival) -> bool:
        """`add` and `update`: whether the rule goes on. Only `update` sets the time of an element anew that is there;
        both ask its bounds, which are those that it was made with. Where the set is full a new one stops the rule."""
        lasts = timeout or self.terms.timeout
        found = self.find(key, arrival.moment)
        if found is None:
            if self.is_full(arrival.moment):
                return False
            self.held.pop(key, None)
            found = self.held[key] = Held(
                arrival.moment + lasts if lasts else None, self.made(bounds or self.terms.bounds))
        elif refreshes and found.ends is not None and lasts:
            found.ends = arrival.moment + lasts
        return found.passes(arrival)

    def is_full(self, moment: int) -> bool:
        """Linux counts what ran out or was deleted as well, until it is collected; here it is collected at once."""
        self.was_full |= len(self.held) + self.deleted >= self.terms.size
        if len(self.held) < self.terms.size:
            return False
        for key in [key for key, it in self.held.items() if not it.is_there(moment)]:
            del self.held[key]
        return len(self.held) >= self.terms.size

    def delete(self, key: Key) -> None:
        self.deleted += self.held.pop(key, None) is not None
