"""Captures, checksums and the totals of reports, for all that judges runs: rows.py here and
tests/random/reading.py above it, tests/limits and the fuzzer.

It stands neither on tools/toolbox nor on what the program writes, so that one mistake isn't made on both sides. What
generators and measurements share is tools/toolbox/plain_captures.py.
"""
from __future__ import annotations

import struct

MICROSECONDS, NANOSECONDS = 0xA1B2C3D4, 0xA1B23C4D  # what a capture begins with, by its units
UNITS = {MICROSECONDS: 1_000_000, NANOSECONDS: 1_000_000_000}
ETHERNET, RAW_IP, LINUX_SLL2 = LINKS = 1, 101, 276
SNAPLEN = 262_144
CAUSES = """link interface notip short version hlen length truncated checksum fragment transport
rule route ttl noport full clash"""
TOTALS = ["records", "passed", "local", *(f"drop {cause}" for cause in CAUSES.split()), "begun", "live", "torn"]


# ---- captures

def file_header(magic: int, snaplen: int, link_type: int) -> bytes:
    """Of a capture, lowest byte first, version 2.4."""
    return struct.pack("<IHHIIII", magic, 2, 4, 0, 0, snaplen, link_type)


def record(content: bytes, seconds: int, fraction: int = 0) -> bytes:
    """A record that isn't cut."""
    return struct.pack("<IIII", seconds, fraction, len(content), len(content)) + content


# of a capture that is read, and of OUT
IN_HEADER = file_header(NANOSECONDS, 65_535, LINUX_SLL2)
OUT_HEADER = file_header(NANOSECONDS, SNAPLEN, LINUX_SLL2)


# ---- checksums

def ones_sum(data: bytes) -> int:
    """The ones' complement sum of the words (RFC 1071)."""
    data += b"\0" * (len(data) % 2)
    total: int = sum(struct.unpack(f">{len(data) // 2}H", data))
    while total > 0xFFFF:
        total = (total & 0xFFFF) + (total >> 16)
    return total


def checksum(data: bytes) -> int:
    """What makes the sum of the words right."""
    return 0xFFFF - ones_sum(data)


def with_checksum(data: bytes, at: int, covered: bytes = b"") -> bytes:
    """The data with its checksum, which covers this too, at that place."""
    return data[:at] + struct.pack(">H", checksum(covered + data)) + data[at + 2:]
