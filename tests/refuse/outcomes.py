"""What a run leaves whose calls are refused: the calls of a row's run on its devices, and what they gave each of
them."""
from __future__ import annotations

import enum
import errno
import itertools
import re
from dataclasses import dataclass, replace
from typing import Iterable, Mapping, Sequence

from rows import Row


@dataclass(frozen=True)
class Told:
    """An exit status, and what stands on standard error."""

    status: int
    line: bytes


MEMORY, DEVICE = Told(6, b"nftrun: memory\n"), Told(5, b"nftrun: device\n")
# How a row ends as its file says.
ENDS = {"done": Told(0, b""), "capture torn": Told(7, b"nftrun: capture torn\n")}


class Device(enum.Enum):
    """The devices of a run."""

    IN = "IN"
    OUT = "OUT"
    REPORT = "report"


@dataclass(frozen=True)
class Access:
    """The name of a call on a device, its byte (tests/shared/shim.c), and how a call fails; 0 is a write that takes no
    byte."""

    call: str
    byte: str
    errors: Sequence[int]


DEVICES: Mapping[Device, Access] = {
    Device.IN: Access("read", "c", (errno.EIO, errno.EINTR)),
    Device.OUT: Access("write", "d", (errno.EIO, errno.EINTR, 0)),
    Device.REPORT: Access("write", "1", (errno.EIO, errno.EINTR, 0)),
}


@dataclass(frozen=True)
class Call:
    """A call on a device, and the bytes that it takes."""

    device: Device
    data: bytes


@dataclass(frozen=True)
class Outcome:
    """What a run leaves: what it told, the report, OUT, and the bytes of the calls that were refused."""

    told: Told
    report: bytes
    sent: bytes
    refused: bytes

    def same(self, other: Outcome) -> bool:
        """Whether it is the same but for what was refused."""
        return replace(self, refused=b"") == replace(other, refused=b"")

    def difference(self, wanted: Outcome) -> str:
        """What of it isn't as wanted, or nothing."""
        pairs = ((name, value, getattr(wanted, name)) for name, value in vars(self).items())
        return "; ".join(f"{name} is {value!r:.999}, not {other!r}" for name, value, other in pairs if value != other)


def frames(capture: bytes) -> list[bytes]:
    """The header of a capture with little-endian numbers, and its whole records."""
    found, at = [capture[:24]], 24
    while at + 16 <= len(capture):
        end = at + 16 + int.from_bytes(capture[at + 8:at + 12], "little")
        if end > len(capture):
            break
        found.append(capture[at:end])
        at = end
    return found


def lines_of(report: str, number: int) -> bytes:
    """What a report tells of the record of this number while the run goes on."""
    is_told = re.compile(rf"(log|trace) {number} ").match
    return "".join(line for line in report.splitlines(True) if is_told(line)).encode()


def pieces(device: Device, data: bytes, most: int) -> list[Call]:
    """The calls that take data, so many bytes at most."""
    return [Call(device, data[at:at + most]) for at in range(0, len(data), most)]


def calls_of(row: Row, most: int) -> list[Call]:
    """The calls of a row's run on IN, OUT and the report in their order, which take so many bytes at most.

    What IN's header and its records give is written before the next read, and the totals behind the end of IN, which
    one more read sees. The packets that leave have to be those of the first records.
    """
    capture, report, leaving = row.capture(), row.report(), frames(row.sent())
    came_in = frames(capture)
    ends = list(itertools.accumulate(len(frame) for frame in came_in))
    lines = [lines_of(report, number) for number in range(len(came_in))]
    calls: list[Call] = []
    for at in range(0, len(capture) + most, most):
        calls.append(Call(Device.IN, capture[at:at + most]))
        whole = [number for number, end in enumerate(ends) if at < end <= at + most]
        sent = b"".join(leaving[number] for number in whole if number < len(leaving))
        calls += pieces(Device.OUT, sent, most)
        calls += pieces(Device.REPORT, b"".join(lines[number] for number in whole), most)
    return calls + pieces(Device.REPORT, report.encode()[sum(map(len, lines)):], most)


def taken(calls: Iterable[Call], device: Device) -> bytes:
    """The bytes that these calls gave the device."""
    return b"".join(call.data for call in calls if call.device is device)


def left_by(row: Row, calls: Sequence[Call], at: int) -> Outcome:
    """The outcome of a row's run whose call there is refused; behind the last call none is."""
    report, sent = taken(calls[:at], Device.REPORT), taken(calls[:at], Device.OUT)
    if at == len(calls):
        return Outcome(ENDS[row.status], report, sent, b"")
    return Outcome(DEVICE, report, sent, DEVICES[calls[at].device].byte.encode())
