"""The connections of a run, as docs/SPEC.md, section 6, has them: which are live, and which are closed. They are told
by what becomes of each record, and by what leaves."""
from __future__ import annotations

import enum
from typing import Mapping

from toolbox.packets import ACK, ANSWER, ECHOES, FIN, RST, SYN, TCP, UDP, inverse, kind_of

from .terms import SECOND

LONE = SYN | ACK | FIN | RST
STREAM = 2 * SECOND


class State(enum.Enum):
    """What is known of the connection that began with a tuple."""

    LIVE = enum.auto()
    CLOSED = enum.auto()
    GONE = enum.auto()


class Connection:
    """`original` and `reply` are its tuples, `flags` those of TCP that were counted, by whether the packet had the
    original tuple. `seen` has those of dropped packets too: Linux follows TCP before any rule."""

    def __init__(self, original: bytes, reply: bytes, moment: int) -> None:
        self.original, self.reply = original, reply
        self.begun = self.moment = moment
        self.flags, self.seen = {True: 0, False: 0}, {True: 0, False: 0}
        self.is_closed = self.is_assured = self.is_replied = False

    def see(self, key: bytes, flags: int, moment: int) -> None:
        """A packet, before any rule. Closed (TIME_WAIT, CLOSE) is what was reset, or where both ends said FIN and an
        ACK is behind these. Assured is TCP once SYN and ACK were seen in each direction, or a reply where no SYN was,
        and UDP that goes both ways for more than two seconds (nf_conntrack_proto_tcp.c, nf_conntrack_proto_udp.c)."""
        is_last = self.seen[True] & self.seen[False] & FIN and flags & ACK and not flags & (FIN | SYN)
        self.seen[key == self.original] |= flags
        self.is_replied |= key != self.original
        self.is_closed |= bool(is_last or flags & RST)
        kind = kind_of(self.original)
        if kind == TCP:
            begun = (self.seen[True] | self.seen[False]) & SYN
            self.is_assured |= is_established(self.seen) if begun else self.is_replied
        elif kind == UDP:
            self.is_assured |= self.is_replied and moment - self.begun > STREAM

    def take(self, key: bytes, flags: int, moment: int) -> None:
        """A packet that counts."""
        self.moment = moment
        self.flags[key == self.original] |= flags

    def is_closing(self) -> bool:
        """Section 6.4: FIN in both directions, or RST in one."""
        return bool(self.flags[True] & self.flags[False] & FIN or (self.flags[True] | self.flags[False]) & RST)

    def kind(self) -> str:
        """The kind of its idle limit."""
        kind = kind_of(self.original)
        if kind == TCP:
            return "established" if is_established(self.flags) and not self.is_closing() else "transitory"
        return "udp" if kind == UDP else "ask" if kind in ECHOES else "other"


def is_established(flags: Mapping[bool, int]) -> bool:
    """Whether SYN and ACK were both seen in each direction."""
    both = flags[True] & flags[False]
    return bool(both & SYN and both & ACK)


class Connections:
    """All connections by their tuples; `limits` are the idle limits in seconds by kind."""

    def __init__(self, limits: Mapping[str, int]) -> None:
        self.limits = limits
        self.by_original: dict[bytes, Connection] = {}
        self.by_reply: dict[bytes, Connection] = {}

    def live(self, table: Mapping[bytes, Connection], key: bytes, moment: int) -> Connection | None:
        """The connection that has the tuple there, while less than its limit has passed."""
        found = table.get(key)
        if found is None or moment - found.moment >= self.limits[found.kind()] * SECOND:
            return None
        return found

    def of(self, key: bytes, moment: int) -> Connection | None:
        """The live connection that a tuple belongs to."""
        return self.live(self.by_original, key, moment) or self.live(self.by_reply, key, moment)

    def look_up(self, key: bytes, flags: int, moment: int) -> Connection | None:
        """The lookup of section 6.2: a lone SYN of the original direction ends a closing connection."""
        found = self.of(key, moment)
        if found and kind_of(key) == TCP and flags & LONE == SYN and key == found.original and found.is_closing():
            self.forget(found)
            return None
        if found:
            found.see(key, flags, moment)
        return found

    def forget(self, found: Connection) -> None:
        for table, key in ((self.by_original, found.original), (self.by_reply, found.reply)):
            if table.get(key) is found:
                del table[key]

    def confirm(self, key: bytes, left: bytes | None, flags: int, moment: int) -> None:
        """A packet that was let through: it refreshes its connection, or begins one. `left` is the tuple with which it
        left, None where it stayed in the box."""
        found = self.of(key, moment)
        if found is None:
            if kind_of(key) == ANSWER:
                return
            old = self.by_original.get(key)
            if old is not None:
                self.forget(old)
            found = Connection(key, inverse(left or key), moment)
            found.see(key, flags, moment)
            self.by_original[key], self.by_reply[found.reply] = found, found
        found.take(key, flags, moment)

    def state_of(self, key: bytes, moment: int) -> State:
        """What is known of the connection that began with this tuple."""
        found = self.live(self.by_original, key, moment)
        if found is None:
            return State.GONE
        return State.CLOSED if found.is_closed else State.LIVE
