"""Captures by a plain reading of their headers: where records stand, how a capture ends, and whether OUT is one.

It judges the program, so it stands neither on tools/toolbox nor on what the program writes.
"""
from __future__ import annotations

import struct
from dataclasses import dataclass

from plain import LINKS, OUT_HEADER, SNAPLEN, UNITS, checksum


@dataclass(frozen=True)
class Place:
    """Where a record of a capture stands, with its header."""

    start: int
    stop: int


@dataclass(frozen=True)
class Reading:
    """How many whole records a capture has, and how it ends: done, torn, or the code with which it is refused."""

    count: int
    ending: str


def placed(data: bytes) -> list[Place]:
    """Where the records of a capture stand, in either byte order."""
    order = ">" if data[:2] == b"\xa1\xb2" else "<"
    at = 24
    places: list[Place] = []
    while at + 16 <= len(data):
        length: int = struct.unpack_from(order + "I", data, at + 8)[0]
        stop = at + 16 + length
        if length > SNAPLEN or stop > len(data):
            break
        places.append(Place(at, stop))
        at = stop
    return places


def order_of(capture: bytes) -> str | None:
    """The byte order of a capture, if its first bytes are those of one."""
    orders = (order for order in "<>" if struct.unpack_from(order + "I", capture)[0] in UNITS)
    return next(orders, None)


def read_capture(capture: bytes) -> Reading:
    if len(capture) < 24:
        return Reading(0, "P5")
    order = order_of(capture)
    if order is None:
        return Reading(0, "P1")
    if struct.unpack_from(order + "HH", capture, 4) != (2, 4):
        return Reading(0, "P2")
    # The high half of the field tells of the frame check sequence.
    if struct.unpack_from(order + "I", capture, 20)[0] % 65_536 not in LINKS:
        return Reading(0, "P3")
    return read_records(capture, order)


def read_records(capture: bytes, order: str) -> Reading:
    """The same of a capture whose header is right."""
    unit = UNITS[struct.unpack_from(order + "I", capture)[0]]
    at, count = 24, 0
    while at < len(capture):
        if at + 16 > len(capture):
            return Reading(count, "torn")
        _, fraction, length, _ = struct.unpack_from(order + "IIII", capture, at)
        if fraction >= unit or length > SNAPLEN:
            return Reading(count, "P4")
        at += 16 + length
        if at > len(capture):
            return Reading(count, "torn")
        count += 1
    return Reading(count, "done")


def fault_of_out(sent: bytes, passed: int) -> str | None:
    """Why what was sent is no capture of so many packets, or nothing."""
    if sent[:24] != OUT_HEADER:
        return "OUT has another header"
    at, last, count = 24, (0, 0), 0
    while at < len(sent):
        if at + 56 > len(sent):
            return "OUT ends in a record"
        seconds, fraction, length, original = struct.unpack_from("<IIII", sent, at)
        packet = sent[at + 36:at + 16 + length]
        size = packet[0] % 16 * 4
        if fraction >= 10**9 or (seconds, fraction) < last or at + 16 + length > len(sent) or original != length:
            return f"OUT's record {count + 1}"
        if struct.unpack_from(">H", packet, 2)[0] != len(packet) or checksum(packet[:size]) != 0:
            return f"OUT's packet {count + 1}"
        last = (seconds, fraction)
        at += 16 + length
        count += 1
    return None if count == passed else f"OUT has {count} packets of {passed}"
