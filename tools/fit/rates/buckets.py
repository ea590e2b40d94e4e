"""What Linux keeps of a `limit`, a `quota` and a `ct count`, and what a packet meets there.

Each is named with the file of Linux (net/netfilter) that has it, and was tried on Linux 6.18 by
tests/tools/fit-ruleset/rates-kernel. What a `ct count` does with assured connections comes from such trials alone, not
from a reading of these files; another kernel may do otherwise.
"""
from __future__ import annotations

from dataclasses import dataclass
from typing import Protocol

from .known import Connections, State
from .terms import SECOND, Count, Limit, Quota, Terms


@dataclass(frozen=True)
class Arrival:
    """A packet that comes to a statement: its moment in nanoseconds, its total length, and the original tuple of its
    connection, or its own where it has none, None where it has no tuple; and whether that connection is assured."""

    moment: int
    size: int
    key: bytes | None
    is_assured: bool = False


class Bucket(Protocol):
    """What is kept of a bound."""

    def is_over(self, arrival: Arrival) -> bool:
        """Whether the packet is over the bound; it is counted."""


class TokenBucket:
    """nft_limit.c: tokens are nanoseconds, and come as time goes. A packet costs unit / rate, or for bytes
    unit * length / rate, both rounded down; it takes its cost where there is so much, else nothing.

    There are at most burst * unit / rate (packets), (rate + burst) * unit / rate (bytes), and so many at first.
    """

    def __init__(self, terms: Limit) -> None:
        self.terms, self.unit = terms, terms.seconds * SECOND
        if terms.size is None:
            self.most = self.unit // terms.rate * terms.burst
        else:
            self.most = self.unit * (terms.rate + terms.burst) // terms.rate
        self.tokens, self.last = self.most, 0

    def is_over(self, arrival: Arrival) -> bool:
        cost = self.unit // self.terms.rate
        if self.terms.size is not None:
            cost = self.unit * arrival.size // self.terms.rate
        self.tokens = min(self.tokens + arrival.moment - self.last, self.most)
        self.last = arrival.moment
        if cost > self.tokens:
            return True
        self.tokens -= cost
        return False


class UsedQuota:
    """nft_quota.c: each packet adds its length, also those that are over."""

    def __init__(self, terms: Quota) -> None:
        self.terms, self.used = terms, terms.used

    def is_over(self, arrival: Arrival) -> bool:
        self.used += arrival.size
        return self.used > self.terms.size


class CountedConnections:
    """nft_connlimit.c, nf_conncount.c: a list of tuples, in the order in which they came.

    A packet has those removed whose connection is gone (or never came to be, since its packet was dropped) or closed.
    One of an assured connection adds nothing (as tried on Linux 6.18). Any other stops at its own where that is there,
    and else adds it: so the tuple of a packet that was over stands in the list until the next new connection comes.
    Nothing is removed twice in one tick of the kernel; here that is in one moment, as where a packet comes to the list
    again.
    """

    def __init__(self, terms: Count, connections: Connections) -> None:
        self.terms, self.connections = terms, connections
        self.tuples: list[bytes] = []
        self.cleared: int | None = None  # the moment of the last removal

    def is_over(self, arrival: Arrival) -> bool:
        has_own = arrival.is_assured or arrival.key is None
        if arrival.moment != self.cleared:
            has_own = self.clear(arrival) or has_own
        if arrival.key is not None and not has_own:
            self.tuples.append(arrival.key)
        return len(self.tuples) > self.terms.most

    def clear(self, arrival: Arrival) -> bool:
        """Removes what is over, up to the packet's own tuple; whether that was found."""
        kept: list[bytes] = []
        for place, key in enumerate(self.tuples):
            state = self.connections.state_of(key, arrival.moment)
            if key == arrival.key and not arrival.is_assured and state is not State.GONE:
                self.tuples = kept + self.tuples[place:]
                return True
            if state is State.LIVE:
                kept.append(key)
        self.tuples, self.cleared = kept, arrival.moment
        return False


def bucket_of(terms: Terms, connections: Connections) -> Bucket:
    """A bound at its beginning: as it is when the ruleset is loaded, or the element made."""
    if isinstance(terms, Limit):
        return TokenBucket(terms)
    if isinstance(terms, Quota):
        return UsedQuota(terms)
    return CountedConnections(terms, connections)
