"""Classic libpcap files (docs/CAPTURES.md), streamed: reading their records, and writing LINUX_SLL2."""
from __future__ import annotations

import os
import struct
from dataclasses import dataclass
from typing import BinaryIO, Callable, Dict, Iterator, List, Tuple, cast

from toolbox.commands import Refused

MICROSECONDS_MAGIC, NANOSECONDS_MAGIC = 0xA1B2C3D4, 0xA1B23C4D
# the first bytes of a capture, with the order of its numbers and how many fractions make a second
MAGICS = {
    struct.pack(order + "I", magic): (order, fractions)
    for order in "<>"
    for magic, fractions in ((MICROSECONDS_MAGIC, 10**6), (NANOSECONDS_MAGIC, 10**9))
}
ETHERNET, RAW_IP, LINUX_SLL2 = 1, 101, 276
LINK_NAMES = {ETHERNET: "Ethernet", RAW_IP: "raw IP", LINUX_SLL2: "LINUX_SLL2"}
LINK_LENGTHS = {ETHERNET: 14, RAW_IP: 0, LINUX_SLL2: 20}
# where the protocol stands in a link header
PROTOCOL_AT = {ETHERNET: 12, RAW_IP: None, LINUX_SLL2: 0}
IPV4, IPV6 = b"\x08\x00", b"\x86\xdd"
# packet types of LINUX_SLL2, in byte 10: sent to us, broadcast, multicast, to another station, sent by us
TO_US, BROADCAST, MULTICAST, OTHER_STATION, SENT_BY_US = range(5)

FILE_HEADER, RECORD_HEADER = 24, 16
LENGTH = 2  # its place in a record's header
SNAPLEN = 262144
# Stands in the header's field `sigfigs`, which readers ignore: answers were sent to nftrun's ports.
ALIGNED_MARK = int.from_bytes(b"alig", "big")
CHUNK = 1 << 16

# Tuples, since a capture has millions of them: seconds, fraction, length and original length of a record; what `pieces`
# and `records` tell of some records and of one.
RecordHeader = Tuple[int, int, int, int]
Piece = Tuple[bytes, int, List[int], List[RecordHeader]]
Record = Tuple[int, int, int, int, int, int, bytes]


# What the operator calls a capture that was made of another one, by its path
_called: Dict[str, str] = {}


def call(path: str, name: str) -> None:
    """Has messages call a capture so."""
    _called[path] = name


def called(path: str) -> str:
    """What messages call a capture: the file that the operator named, where this one was made of it."""
    return _called.get(path, path)


@dataclass(frozen=True)
class Header:
    """What the header of a capture says: the order of its numbers, as `struct` has it, how many fractions make a
    second, and whether `mark_aligned` was here."""

    order: str
    fractions: int
    link_type: int
    snaplen: int
    aligned: bool


def header_of(path: str) -> Header:
    """The header of a capture; refused is what nftrun wouldn't read."""
    try:
        with open(path, "rb") as file:
            data = file.read(FILE_HEADER)
    except OSError as error:
        raise Refused(f"{path}: {error.strerror}") from None
    if data[:4] not in MAGICS or len(data) < FILE_HEADER:
        raise Refused(f"{called(path)}: no capture of libpcap or pcapng (docs/CAPTURES.md tells how to make one)")
    order, fractions = MAGICS[data[:4]]
    _, sigfigs, snaplen, link_type = struct.unpack_from(order + "4I", data, 8)
    if link_type & 0xFFFF not in LINK_LENGTHS:
        raise Refused(f"{called(path)}: link type {link_type & 0xFFFF}, which nftrun doesn't read")
    return Header(order, fractions, link_type & 0xFFFF, snaplen, sigfigs == ALIGNED_MARK)


def pieces(path: str) -> Iterator[Piece]:
    """The whole records in order, some at a time: a piece of the file, where its first byte stands in the file, where
    the bytes of its records begin in the piece, and the records' headers (seconds, fraction, length, original length).
    A record that is torn at the end isn't among them."""
    unpack = cast("Callable[[bytes, int], RecordHeader]", struct.Struct(header_of(path).order + "4I").unpack_from)
    with open(path, "rb") as file:
        file.seek(FILE_HEADER)
        base, number, rest = FILE_HEADER, 0, b""
        while more := file.read(CHUNK):
            piece = rest + more
            starts: list[int] = []
            headers: list[RecordHeader] = []
            at = 0
            last, size, length = len(piece) - RECORD_HEADER, len(piece), 0
            while at <= last:
                header = unpack(piece, at)
                length = header[2]
                end = at + RECORD_HEADER + length
                if end > size or length > SNAPLEN:
                    break
                starts.append(at + RECORD_HEADER)
                headers.append(header)
                at = end
            number += len(starts)
            yield piece, base, starts, headers
            if length > SNAPLEN:
                raise Refused(
                    f"{called(path)}: record {number + 1} claims {length} bytes: the file is damaged there")
            base, rest = base + at, piece[at:]


def records(path: str, most: int = SNAPLEN) -> Iterator[Record]:
    """The whole records in order, each as (number, seconds, fraction, offset, length, original length, data): `offset`
    is where its bytes begin in the file, and `data` has the first `most` of them."""
    number = 0
    for piece, base, starts, headers in pieces(path):
        for start, (seconds, fraction, length, original) in zip(starts, headers):
            number += 1
            yield (number, seconds, fraction, base + start, length, original,
                   piece[start:start + (length if length <= most else most)])


def frames(path: str, most: int = SNAPLEN) -> Iterator[bytes]:
    """The first `most` bytes of each whole record in order, and nothing else of them: `records` takes twice as long."""
    for piece, _, starts, headers in pieces(path):
        for start, header in zip(starts, headers):
            length = header[LENGTH]
            yield piece[start:start + (length if length <= most else most)]


def is_torn(path: str, end: int) -> bool:
    """Whether a capture ends within a record: it has bytes behind its last whole one, which ends at `end`."""
    return os.path.getsize(path) > end


def packet_at(data: bytes, link_type: int) -> int | None:
    """Where an IPv4 packet begins in a record's bytes, or None where the link header tells of none."""
    protocol = PROTOCOL_AT[link_type]
    if protocol is not None and data[protocol:protocol + 2] != IPV4:
        return None
    return LINK_LENGTHS[link_type] if len(data) > LINK_LENGTHS[link_type] else None


def interface_of(data: bytes, link_type: int) -> int | None:
    """The index of the interface that the link header tells, or None."""
    return int.from_bytes(data[4:8], "big") if link_type == LINUX_SLL2 and len(data) >= 8 else None


# Writing


def write_header(file: BinaryIO, link_type: int = LINUX_SLL2) -> None:
    """A header with nanoseconds, lowest byte first."""
    file.write(struct.pack("<IHHIIII", NANOSECONDS_MAGIC, 2, 4, 0, 0, SNAPLEN, link_type))


def write_record(file: BinaryIO, nanoseconds: int, data: bytes) -> None:
    """A record behind `write_header`, with its moment in nanoseconds."""
    seconds, fraction = divmod(nanoseconds, 10**9)
    file.write(struct.pack("<IIII", seconds, fraction, len(data), len(data)) + data)


def sll2_header(interface: int, packet_type: int = TO_US) -> bytes:
    """A link header of LINUX_SLL2: IPv4, the interface's index, Ethernet, the packet type, no address."""
    return struct.pack(">HHIHBB8x", 0x0800, 0, interface, 1, packet_type, 0)


def mark_aligned(path: str) -> None:
    """Writes into the header of a capture that its answers go to nftrun's ports."""
    order = header_of(path).order
    with open(path, "r+b") as file:
        file.seek(12)
        file.write(struct.pack(order + "I", ALIGNED_MARK))
