"""How full the table of connections got in a run (docs/SPEC.md, 6.2 to 6.5): the most that lived at once, when, and
which hosts began them; and whose packets found no room in it."""
from __future__ import annotations

import heapq
from collections import Counter
from dataclasses import dataclass
from itertools import islice
from typing import TYPE_CHECKING, Iterator

from toolbox.captures import LINK_LENGTHS, LINUX_SLL2, header_of, records
from toolbox.flows import ERROR, MOST_READ
from toolbox.packets import ACK, ANSWER, FIN, KIND, RST, SYN, TCP, inverse, kind_of, source_of, tuple_at
from toolbox.replay import Through

if TYPE_CHECKING:
    from toolbox.boxes import Box
    from toolbox.replay import Replay

AT = LINK_LENGTHS[LINUX_SLL2]
NANOSECONDS = 10**9
# what a first packet is dropped for where it finds no port, no room, or its answers belong to another connection
THROUGH = frozenset(map(int, Through))
NO_ROOM = ("noport", "full", "clash")


class Connection:
    """A connection of the run; `ends` is the moment at which it expires, `asked` and `answered` what each direction
    showed of TCP."""

    __slots__ = "key", "reply", "ends", "asked", "answered"

    def __init__(self, key: bytes, reply: bytes) -> None:
        self.key, self.reply = key, reply
        self.ends = self.asked = self.answered = 0

    def is_closing(self) -> bool:
        return bool(self.asked & self.answered & FIN or (self.asked | self.answered) & RST)

    def is_established(self) -> bool:
        return self.asked & self.answered & (SYN | ACK) == SYN | ACK


@dataclass(frozen=True)
class Fullness:
    """The most connections that lived at once, the record at which they did, and its moment in nanoseconds."""

    most: int
    record: int
    moment: int


class Table:
    """The connections of a run, as its packets begin, keep and end them. `begun` is how many there were, `live` how
    many live in the end, `hosts` these by the address that began them, `since` how many more these are than when they
    were most, which `most` tells."""

    def __init__(self, replay: Replay, box: Box) -> None:
        self.replay, self.box = replay, box
        self.limits, self.transitory = box.limits(), box.idle["transitory"]
        self.found: dict[bytes, Connection] = {}  # by both tuples
        self.expiring: list[tuple[int, int, Connection]] = []
        self.hosts: Counter[bytes] = Counter()
        self.since: Counter[bytes] = Counter()
        self.live = self.begun = self.latest = 0
        self.most = Fullness(0, 0, 0)
        self.read()

    def read(self) -> None:
        flows, at, expiring, error = self.replay.flows, self.replay.flows.at, self.expiring, int(ERROR)
        unit = NANOSECONDS // header_of(flows.path).fractions
        columns = (islice(numbers, 1, None) for numbers in (flows.of, flows.part))
        for (record, seconds, fraction, _, _, _, data), frame, flow, part in zip(
                records(flows.path, MOST_READ), self.replay.leaving_packets(), *columns):
            moment = seconds * NANOSECONDS + fraction * unit
            if moment > self.latest:
                self.latest = moment
            if expiring and expiring[0][0] <= self.latest:
                self.expire()
            if flow and part != error:
                key = flows.tuple_of(record)
                is_tcp = key[KIND] == TCP  # not by a call: it is asked of each packet
                self.take(record, key, data[at + 4 * (data[at] & 15) + 13] if is_tcp else 0, frame)

    def take(self, record: int, key: bytes, flags: int, frame: bytes | None) -> None:
        """A packet that was looked up, and the frame that left: it ends a connection, and if it went through, keeps or
        begins one."""
        one, flags = self.found.get(key), flags & (FIN | SYN | RST | ACK)
        if one is not None and flags == SYN and one.key == key and one.is_closing():
            self.end(one)
            one = None
        if self.replay.outcomes[record] not in THROUGH or one is None and kind_of(key) == ANSWER:
            return
        if one is None:
            one = self.begin(record, key, inverse(frame and tuple_at(frame, AT) or key))
        if one.key == key:
            one.asked |= flags
        else:
            one.answered |= flags
        before, one.ends = one.ends, self.latest + self.limit(one) * NANOSECONDS
        if not before or one.ends < before:
            heapq.heappush(self.expiring, (one.ends, record, one))

    def begin(self, record: int, key: bytes, reply: bytes) -> Connection:
        one = self.found[reply] = self.found[key] = Connection(key, reply)
        self.live, self.begun = self.live + 1, self.begun + 1
        self.count(key, 1)
        if self.live > self.most.most:
            self.most = Fullness(self.live, record, self.latest)
            self.since.clear()
        return one

    def count(self, key: bytes, number: int) -> None:
        """Counts so many connections more for the host that begins those of a tuple."""
        host = source_of(key)
        self.hosts[host] += number
        self.since[host] += number

    def limit(self, one: Connection) -> int:
        kind = one.key[KIND]
        if kind == TCP and (one.is_closing() or not one.is_established()):
            return self.transitory
        return self.limits[kind]

    def expire(self) -> None:
        """Ends what was idle for its limit; what had packets since waits on."""
        while self.expiring and self.expiring[0][0] <= self.latest:
            _, record, one = heapq.heappop(self.expiring)
            if self.found.get(one.key) is not one:
                continue
            if one.ends <= self.latest:
                self.end(one)
            else:
                heapq.heappush(self.expiring, (one.ends, record, one))

    def end(self, one: Connection) -> None:
        for key in (one.key, one.reply):
            if self.found.get(key) is one:
                del self.found[key]
        self.live -= 1
        self.count(one.key, -1)


def fullest(replay: Replay, box: Box) -> tuple[Table, Counter[bytes]]:
    """The table after the run, and the hosts whose connections lived when they were most."""
    table = Table(replay, box)
    return table, table.hosts - table.since


def without_room(replay: Replay) -> Iterator[tuple[str, Counter[bytes]]]:
    """Of each cause of NO_ROOM that occurs its packets by their source address."""
    flows, by_cause = replay.flows, {cause: Counter[bytes]() for cause in NO_ROOM}
    causes = {number: name for number, name in replay.numbers.items() if name in NO_ROOM}
    if not causes:
        return
    for record, outcome in enumerate(replay.outcomes):
        if outcome in causes and flows.of[record]:
            by_cause[causes[outcome]][source_of(flows.tuple_of(record))] += 1
    yield from ((cause, senders) for cause, senders in by_cause.items() if senders)
