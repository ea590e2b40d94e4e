"""Blocks of pcapng by hand, as the figures of draft-ietf-opsawg-pcapng have them, in either byte order."""
from __future__ import annotations

import struct
from dataclasses import dataclass


@dataclass(frozen=True)
class Writer:
    """Writes the numbers of blocks in an order, as `struct` has it."""

    order: str = "<"

    def block(self, kind: int, body: bytes) -> bytes:
        body += bytes(-len(body) % 4)
        length = self.numbers("I", 12 + len(body))
        return self.numbers("I", kind) + length + body + length

    def numbers(self, form: str, *values: int) -> bytes:
        return struct.pack(self.order + form, *values)

    def options(self, *options: tuple[int, bytes]) -> bytes:
        told = b"".join(self.numbers("HH", code, len(value)) + value + bytes(-len(value) % 4)
                        for code, value in options)
        return told + bytes(4) if options else b""

    def section(self, major: int = 1) -> bytes:
        return self.block(0x0A0D0D0A, self.numbers("IHHq", 0x1A2B3C4D, major, 0, -1))

    def interface(self, link_type: int, *options: tuple[int, bytes], snaplen: int = 0) -> bytes:
        return self.block(1, self.numbers("HHI", link_type, 0, snaplen) + self.options(*options))

    def packet(self, interface: int, ticks: int, data: bytes, *options: tuple[int, bytes]) -> bytes:
        head = self.numbers("5I", interface, ticks >> 32, ticks & 0xFFFFFFFF, len(data), len(data))
        return self.block(6, head + data + bytes(-len(data) % 4) + self.options(*options))

    def old_packet(self, interface: int, ticks: int, data: bytes) -> bytes:
        head = self.numbers("HHIIII", interface, 9, ticks >> 32, ticks & 0xFFFFFFFF, len(data), 2000)
        return self.block(2, head + data)

    def simple_packet(self, original: int, data: bytes) -> bytes:
        return self.block(3, self.numbers("I", original) + data)

    def name(self, name: str) -> tuple[int, bytes]:
        return 2, name.encode()

    def resolution(self, value: int) -> tuple[int, bytes]:
        return 9, bytes([value])

    def offset(self, seconds: int) -> tuple[int, bytes]:
        return 14, self.numbers("q", seconds)

    def flags(self, value: int) -> tuple[int, bytes]:
        return 2, self.numbers("I", value)


# of flags: entered, left, entered for another station
INBOUND, OUTBOUND, PROMISCUOUS = 1, 2, 1 | 4 << 2
