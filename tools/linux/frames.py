"""How a record is put on a cable: by which interface it enters, in which frame, or why Linux wouldn't get it."""
from __future__ import annotations

from dataclasses import dataclass
from typing import Mapping

from linux.namespaces import LOOPBACK, station
from toolbox.boxes import Box
from toolbox.captures import (
    BROADCAST, ETHERNET, IPV4, IPV6, LINK_LENGTHS, LINUX_SLL2, MULTICAST, OTHER_STATION, SENT_BY_US, TO_US)

EVERY_STATION = b"\xff" * 6
LARGEST_PACKET = 65535
BY_LOOPBACK = "it went by lo, by which the box talks to itself"


@dataclass(frozen=True)
class Frame:
    """What is sent: by which interface's cable, and all of its bytes."""

    interface: int
    data: bytes


@dataclass(frozen=True)
class Sending:
    """What is sent for a record, with the packet in it; where `frame` is None nothing is, and `why` says why."""

    frame: Frame | None
    packet: bytes
    why: str | None


@dataclass(frozen=True)
class Cables:
    """Which cable each interface has, by its index, and whether packets of IPv6 may go by them."""

    numbers: Mapping[int, int]
    with_ipv6: bool


def nothing(why: str) -> Sending:
    return Sending(None, b"", why)


def group_of(station_bytes: bytes) -> int:
    """For whom a frame of Ethernet is, as LINUX_SLL2 tells it."""
    if not station_bytes[0] & 1:
        return TO_US
    return BROADCAST if station_bytes == EVERY_STATION else MULTICAST


def sending_of(data: bytes, link_type: int, box: Box, cables: Cables) -> Sending:
    """What to send for a record's bytes."""
    length = LINK_LENGTHS[link_type]
    if len(data) < length:
        return nothing("the record ends within its link header")
    interface, protocol, to = box.entering(), IPV4, TO_US
    if link_type == ETHERNET:
        protocol, to = data[12:14], group_of(data[:6])
    elif link_type == LINUX_SLL2:
        protocol, interface, to = data[:2], int.from_bytes(data[4:8], "big"), data[10]
    packet = data[length:length + LARGEST_PACKET]
    if protocol not in (IPV4, IPV6):
        return nothing("it carries no IP")
    if protocol == IPV6 and not cables.with_ipv6:
        return nothing("it carries IPv6, and no table of family inet is there to see it")
    if interface is None or interface not in box.names:
        return nothing("it entered by an interface that the box file lacks")
    if box.names[interface] == LOOPBACK:
        return nothing(BY_LOOPBACK)
    if to == SENT_BY_US:
        return nothing("the box sent it")
    if not packet:
        return nothing("it is empty")
    cable = cables.numbers[interface]
    return Sending(Frame(interface, address_of(to, cable) + station(1, cable) + protocol + packet), packet, None)


def address_of(to: int, cable: int) -> bytes:
    """The station that the frame is for."""
    if to == BROADCAST:
        return EVERY_STATION
    if to == MULTICAST:
        return bytes((1, 0, 0x5E, 0, 0, 1))
    return station(2 if to == OTHER_STATION else 0, cable)
