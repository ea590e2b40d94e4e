"""What is wrong with the records of a capture as such, so that a run misleads: header checksums that a card fills in
later, packets that a switch mirrors twice, a clock that is set while the capture runs."""
from __future__ import annotations

from dataclasses import dataclass
from typing import TYPE_CHECKING, Iterator, Tuple

from toolbox.packets import inverse, kind_of, sums_up

if TYPE_CHECKING:
    from toolbox.boxes import Box
    from toolbox.captures import Header
    from toolbox.flows import Flows

# a flow goes on behind a jump if one end is heard twice in so many seconds before it, and twice behind it: what comes
# now and then in a quiet hour doesn't
NEAR = 10
FEW_HEARD = 1 << 16  # tuples from which on those are forgotten that weren't heard for so long
STEP_BACK = 1  # seconds: less is two processors that capture at once
AT_ONCE = 10  # of a second: the part within which a switch mirrors a packet again, and no host repeats it
WINDOW = 4096  # how many packets may come between the two
SHARE, LEAST = 4, 2  # so many of all (one of four) are seen twice where a switch does it, and so many at least

# The moments at which a tuple was heard before last, and last
Heard = Tuple[int, int]


@dataclass(frozen=True)
class Jump:
    """The clock goes forward at a record, by more seconds than the idle limit of flows that go on behind it."""

    record: int
    seconds: int
    flows: int


@dataclass(frozen=True)
class Step:
    """The clock goes back at a record, by so many seconds."""

    record: int
    seconds: int


class Clock:
    """The moments of records: `earlier` counts those with an earlier time than one before, `back` is the widest of
    these steps if it is one of the clock, `jumps` are the steps forward that end what goes on."""

    def __init__(self, flows: Flows, box: Box, header: Header) -> None:
        self.flows, self.unit, self.limits = flows, header.fractions, box.limits()
        self.least, self.never = min(box.idle.values()) * self.unit, -2 * NEAR * self.unit
        self.latest = self.earlier = 0
        self.back: Step | None = None
        self.jumps: list[Jump] = []
        self.heard: dict[bytes, Heard] = {}
        self.sweep_at = FEW_HEARD
        self.jump: Jump | None = None
        self.until = 0
        self.before: set[bytes] = set()  # what was heard twice just before the last jump
        self.goes_on: set[bytes] = set()  # of that what was heard twice behind it

    def take(self, record: int, moment: int) -> None:
        """Takes the records in order."""
        if moment < self.latest:
            self.earlier += 1
            seconds = (self.latest - moment) // self.unit
            if seconds >= STEP_BACK and (self.back is None or seconds > self.back.seconds):
                self.back = Step(record, seconds)
        elif self.latest and moment - self.latest >= self.least:
            self.end_jump()
            self.jump, self.until = Jump(record, (moment - self.latest) // self.unit, 0), moment + NEAR * self.unit
            begin = self.latest - NEAR * self.unit
            self.before = {key for key, (earlier, _) in self.heard.items() if earlier >= begin}
            self.heard.clear()
        self.latest = max(moment, self.latest)
        if self.flows.of[record] and not self.flows.is_error(record):
            self.hear(self.flows.tuple_of(record))

    def hear(self, key: bytes) -> None:
        last = self.heard.get(key)
        self.heard[key] = (last[1] if last else self.never, self.latest)
        if len(self.heard) > self.sweep_at:
            begin = self.latest - NEAR * self.unit
            self.heard = {one: moments for one, moments in self.heard.items() if moments[1] >= begin}
            self.sweep_at = max(FEW_HEARD, 2 * len(self.heard))
        if self.jump is None:
            return
        if self.latest > self.until:
            self.end_jump()
        elif last and key in self.before and self.jump.seconds >= self.limits[kind_of(key)]:
            self.goes_on.add(min(key, inverse(key)))

    def end_jump(self) -> None:
        """Keeps the last jump if something went on behind it."""
        if self.jump is not None and self.goes_on:
            self.jumps.append(Jump(self.jump.record, self.jump.seconds, len(self.goes_on)))
        self.jump = None
        self.goes_on = set()


class Mirror:
    """Packets that were seen twice on one interface, all bytes the same, and at once."""

    def __init__(self, header: Header) -> None:
        self.within = header.fractions // AT_ONCE
        self.packets = self.twice = 0
        self.young: dict[bytes, int] = {}
        self.old: dict[bytes, int] = {}

    def take(self, packet: bytes, moment: int) -> None:
        """Takes a packet with what tells its interface before it."""
        self.packets += 1
        before = self.young.get(packet, self.old.get(packet))
        if before is not None and 0 <= moment - before < self.within:
            self.twice += 1
        self.young[packet] = moment
        if len(self.young) > WINDOW:
            self.young, self.old = {}, self.young

    def doubles(self) -> int:
        """How many packets were seen again, where that is no chance."""
        return self.twice if self.twice >= LEAST and SHARE * self.twice >= self.packets else 0


def has_wrong_checksum(data: bytes, at: int) -> bool:
    """Whether an IPv4 header that is whole has another checksum than it should."""
    end = at + 4 * (data[at] & 15)
    return end >= at + 20 and len(data) >= end and not sums_up(data[at:end])


def jumps_of(clock: Clock) -> Iterator[Jump]:
    """The jumps of a clock, when all records were taken."""
    clock.end_jump()
    yield from clock.jumps
