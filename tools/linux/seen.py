"""What becomes of a record: by nftrun's report, and by what is seen of it in the kernel."""
from __future__ import annotations

import enum
from dataclasses import dataclass

from linux.frames import Sending
from toolbox.reports import Decision


class Fate(enum.Enum):
    """What became of a packet in the kernel; `DROPPED` is by no rule."""

    PASSED = "passed"
    LOCAL = "local"
    RULE = "rule"
    DROPPED = "dropped"
    UNSENT = "unsent"


class Place(enum.Enum):
    """The last place that a packet was seen at."""

    NOWHERE = ""
    BEFORE = "before prerouting"
    PREROUTING = "prerouting"
    INPUT = "input"
    BEHIND_INPUT = "behind input"
    FORWARD = "forward"
    POSTROUTING = "postrouting"
    BEHIND = "behind postrouting"

    @property
    def is_input(self) -> bool:
        return self in (Place.INPUT, Place.BEHIND_INPUT)

    @property
    def in_words(self) -> str:
        return self.value if self in (Place.BEFORE, Place.BEHIND_INPUT, Place.BEHIND) else f"in {self.value}"


@dataclass(frozen=True)
class Packet:
    """A packet that leaves, with the index of its interface."""

    interface: int
    data: bytes


@dataclass(frozen=True)
class Said:
    """What nftrun says of a record; `outcome` is the report's word, `leaves` what is sent on."""

    outcome: str
    state: str | None
    decisions: list[Decision]
    leaves: Packet | None


@dataclass(frozen=True)
class Told:
    """What is seen of a record in the kernel: the last place, its ct state where that was seen, what was sent on, and
    what the box sent of its own."""

    sending: Sending
    fate: Fate
    where: Place
    state: str | None
    decisions: list[Decision]
    leaves: list[Packet]
    made: list[Packet]
