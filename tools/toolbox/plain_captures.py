"""Packets with nothing special about them, and captures of them, by numbers: what generators and measurements share.

What judges runs by itself stands on tests/shared/plain.py instead: tests/random/reading.py and rows.py below it,
tests/limits, the fuzzer.
"""
from __future__ import annotations

import struct

from toolbox.captures import RAW_IP
from toolbox.packets import checksum

USUAL = struct.Struct(">BBHHHBBHII")  # a header of IPv4 without options (RFC 791, section 3.1)


def ip_header(
    length: int, protocol: int, source: int, destination: int, ttl: int = 64, identification: int = 0
) -> bytes:
    """The header of a packet that has `length` bytes in all; addresses are numbers."""
    blank = USUAL.pack(0x45, 0, length, identification, 0, ttl, protocol, 0, source, destination)
    return blank[:10] + struct.pack(">H", checksum(blank)) + blank[12:]


def file_header(link_type: int = RAW_IP) -> bytes:
    """Of a capture with microseconds, lowest byte first."""
    return struct.pack("<IHHIIII", 0xA1B2C3D4, 2, 4, 0, 0, 0xFFFF, link_type)


def record(data: bytes, seconds: int = 0, fraction: int = 0) -> bytes:
    """A record of a capture, which isn't cut."""
    return struct.pack("<IIII", seconds, fraction, len(data), len(data)) + data
