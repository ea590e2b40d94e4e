"""pcapng files (draft-ietf-opsawg-pcapng): their packets in order, streamed, each with its interface, its moment and
what tells its direction; and writing one with a comment to each packet."""
from __future__ import annotations

import os
import struct
from dataclasses import dataclass
from typing import BinaryIO, Dict, Iterator, List

from toolbox.captures import SNAPLEN
from toolbox.commands import Refused

# Blocks; all others are skipped
SECTION, INTERFACE, OLD_PACKET, SIMPLE_PACKET, PACKET = 0x0A0D0D0A, 1, 2, 3, 6
# reads the same in both byte orders
BEGINNING = struct.pack("<I", SECTION)
ORDER_MAGIC, MAJOR_VERSION = 0x1A2B3C4D, 1
# Options of any block, of a section, of an interface, of a packet
END, COMMENT = 0, 1
USER_APPLICATION = 4
NAME, RESOLUTION, OFFSET = 2, 9, 14
FLAGS = 2
# The bits of FLAGS
DIRECTION, INBOUND, OUTBOUND = 3, 1, 2
RECEPTION, RECEPTION_AT = 7, 2
MULTICAST_RECEIVED, BROADCAST_RECEIVED, PROMISCUOUS = 2, 3, 4

NANOSECONDS = 10**9
LARGEST_BLOCK = 16 << 20  # of those that are read; Wireshark takes no larger ones
LONGEST_OPTION = 0xFFFF
BLOCK_HEADER, BLOCK_END = 8, 4
MICROSECONDS = 6  # the resolution where an interface tells none: a power of ten


@dataclass(frozen=True)
class Interface:
    """One of those that a section tells of; `units` make a second of its timestamps, which begin at second `offset`."""

    section: int
    number: int
    link_type: int
    snaplen: int
    name: str | None
    units: int
    offset: int


@dataclass(frozen=True)
class Packet:
    """A packet, with its moment in the units of its interface (None: the block has no time), and its flags."""

    interface: Interface
    ticks: int | None
    original: int
    data: bytes
    flags: int

    def nanoseconds(self) -> int | None:
        """Its moment; what is less than a nanosecond is cut."""
        if self.ticks is None:
            return None
        return self.interface.offset * NANOSECONDS + self.ticks * NANOSECONDS // self.interface.units

    def is_cut(self) -> bool:
        """Whether its moment has less than a nanosecond."""
        return self.ticks is not None and self.ticks * NANOSECONDS % self.interface.units != 0


@dataclass(frozen=True)
class Block:
    """A block that is read: its type, where it stands in the file, and what is between its two lengths."""

    kind: int
    at: int
    body: bytes


class Reader:
    """The packets of a file. `torn` tells, when all were read, whether the file ends within a block."""

    def __init__(self, path: str, name: str) -> None:
        self.path, self.name = path, name
        self.order, self.section = "<", 0
        self.interfaces: List[Interface] = []
        self.torn = False

    def packets(self) -> Iterator[Packet]:
        with open(self.path, "rb") as file:
            for block in self.blocks(file, os.path.getsize(self.path)):
                if block.kind == INTERFACE:
                    self.interfaces.append(self.interface_of(block))
                elif block.kind == PACKET:
                    yield self.packet_of(block, "5I")
                elif block.kind == OLD_PACKET:
                    yield self.packet_of(block, "HHIIII")
                elif block.kind == SIMPLE_PACKET:
                    yield self.simple_packet_of(block)

    def blocks(self, file: BinaryIO, size: int) -> Iterator[Block]:
        """The blocks that are read; a section begins with others' numbers and interfaces."""
        at = 0
        while at < size:
            head = file.read(BLOCK_HEADER)
            if head[:4] == BEGINNING and not self.begin_section(file.read(6), at):
                return
            if len(head) < BLOCK_HEADER:
                self.torn = True
                return
            kind, length = struct.unpack(self.order + "II", head)
            if length < BLOCK_HEADER + BLOCK_END or length % 4:
                raise self.damaged(at, f"a block of {length} bytes")
            if at + length > size:
                self.torn = True
                return
            if kind not in (INTERFACE, OLD_PACKET, SIMPLE_PACKET, PACKET):
                file.seek(at + length - BLOCK_END)
                self.check_end(at, length, file.read(BLOCK_END))
            elif length > LARGEST_BLOCK:
                raise self.damaged(at, f"a block of {length} bytes")
            else:
                body = file.read(length - BLOCK_HEADER)
                self.check_end(at, length, body[-BLOCK_END:])
                yield Block(kind, at, body[:-BLOCK_END])
            at += length

    def check_end(self, at: int, length: int, end: bytes) -> None:
        """Refuses a block that tells another length at its end."""
        if end != struct.pack(self.order + "I", length):
            raise self.damaged(at, "a block that tells two lengths")

    def begin_section(self, head: bytes, at: int) -> bool:
        """Takes the byte order of a section, whose body begins so; answers whether that is whole."""
        if len(head) < 6:
            self.torn = True
            return False
        order = next((one for one in "<>" if struct.pack(one + "I", ORDER_MAGIC) == head[:4]), None)
        if order is None:
            raise self.damaged(at, "a section without a byte order")
        version = struct.unpack(order + "H", head[4:])[0]
        if version != MAJOR_VERSION:
            raise self.damaged(at, f"a section of version {version}")
        self.order, self.section, self.interfaces = order, self.section + 1, []
        return True

    def damaged(self, at: int, what: str) -> Refused:
        return Refused(f"{self.name}: {what} at byte {at}: the file is damaged there, or no pcapng that can be read")

    def options(self, block: Block, at: int) -> Dict[int, bytes]:
        """The options of a block that begin at a place of its body; of several alike the first."""
        found: Dict[int, bytes] = {}
        body = block.body
        while at + 4 <= len(body):
            code, length = struct.unpack_from(self.order + "HH", body, at)
            if code == END:
                break
            if at + 4 + length > len(body):
                raise self.damaged(block.at, "an option that goes beyond its block")
            found.setdefault(code, body[at + 4:at + 4 + length])
            at += 4 + length + -length % 4
        return found

    def interface_of(self, block: Block) -> Interface:
        if len(block.body) < 8:
            raise self.damaged(block.at, "a description of an interface that is too short")
        link_type, _, snaplen = struct.unpack_from(self.order + "HHI", block.body)
        options = self.options(block, 8)
        name, resolution, offset = (options.get(code) for code in (NAME, RESOLUTION, OFFSET))
        if resolution is not None and len(resolution) != 1 or offset is not None and len(offset) != 8:
            raise self.damaged(block.at, "an interface whose times can't be read")
        power = resolution[0] if resolution else MICROSECONDS
        return Interface(
            self.section, len(self.interfaces), link_type, snaplen,
            None if name is None else name.decode("utf-8", "surrogateescape").rstrip("\0"),
            2 ** (power & 0x7F) if power & 0x80 else 10 ** power,
            struct.unpack(self.order + "q", offset)[0] if offset else 0)

    def interface(self, block: Block, number: int) -> Interface:
        if number >= len(self.interfaces):
            raise self.damaged(block.at, f"a packet of interface {number}, of which nothing was told")
        return self.interfaces[number]

    def data_of(self, block: Block, at: int, length: int) -> bytes:
        if length > SNAPLEN or at + length > len(block.body):
            raise self.damaged(block.at, f"a packet that claims {length} bytes")
        return block.body[at:at + length]

    def packet_of(self, block: Block, form: str) -> Packet:
        """An enhanced packet, or an old one, which counts lost packets behind its interface."""
        begin = struct.calcsize(self.order + form)
        if len(block.body) < begin:
            raise self.damaged(block.at, "a packet that is too short")
        number, *_, high, low, length, original = struct.unpack_from(self.order + form, block.body)
        data = self.data_of(block, begin, length)
        behind, told = begin + length + -length % 4, 0
        if behind < len(block.body):
            flags = self.options(block, behind).get(FLAGS, bytes(4))
            if len(flags) != 4:
                raise self.damaged(block.at, "a packet whose flags can't be read")
            told = struct.unpack(self.order + "I", flags)[0]
        return Packet(self.interface(block, number), high << 32 | low, original, data, told)

    def simple_packet_of(self, block: Block) -> Packet:
        """A packet of the first interface, without a time, cut at that one's snap length."""
        if len(block.body) < 4:
            raise self.damaged(block.at, "a packet that is too short")
        original = struct.unpack_from(self.order + "I", block.body)[0]
        interface = self.interface(block, 0)
        length = min(original, interface.snaplen or original)
        return Packet(interface, None, original, self.data_of(block, 4, length), 0)


# Writing, lowest byte first and with nanoseconds


def write_block(file: BinaryIO, kind: int, body: bytes) -> None:
    body += bytes(-len(body) % 4)
    length = struct.pack("<I", BLOCK_HEADER + len(body) + BLOCK_END)
    file.write(struct.pack("<I", kind) + length + body + length)


def option(code: int, value: bytes) -> bytes:
    return struct.pack("<HH", code, len(value)) + value + bytes(-len(value) % 4)


def write_beginning(file: BinaryIO, application: str, link_type: int) -> None:
    """A section by an application, with one interface, whose name isn't known."""
    ends = option(END, b"")
    told = option(USER_APPLICATION, application.encode())
    write_block(file, SECTION, struct.pack("<IHHq", ORDER_MAGIC, MAJOR_VERSION, 0, -1) + told + ends)
    resolution = option(RESOLUTION, bytes([9]))
    write_block(file, INTERFACE, struct.pack("<HHI", link_type, 0, SNAPLEN) + resolution + ends)


def write_packet(file: BinaryIO, nanoseconds: int, original: int, data: bytes, comment: str) -> None:
    """A packet of that interface, with a comment, which is UTF-8; one that is too long for an option is cut."""
    text = comment.encode("utf-8", "replace")[:LONGEST_OPTION].decode("utf-8", "ignore").encode()
    head = struct.pack("<5I", 0, nanoseconds >> 32, nanoseconds & 0xFFFFFFFF, len(data), original)
    write_block(file, PACKET, head + data + bytes(-len(data) % 4) + option(COMMENT, text) + option(END, b""))
