"""Packets from words, as nftrun packet takes them: its help says which."""
from __future__ import annotations

import ipaddress
import re
import struct
from dataclasses import dataclass, field
from typing import TYPE_CHECKING, Iterable, Iterator, Mapping, Sequence, Tuple

from toolbox.captures import LINUX_SLL2, RAW_IP, SENT_BY_US, TO_US, sll2_header
from toolbox.commands import Refused
from toolbox.packets import ACK, FIN, ICMP, PSH, RST, SYN, TCP, UDP, URG, checksum

if TYPE_CHECKING:
    from toolbox.boxes import Box

FLAGS = {"fin": FIN, "syn": SYN, "rst": RST, "psh": PSH, "ack": ACK, "urg": URG}
ECHO_TYPES = {"ping": 8, "pong": 0}
ERROR_TYPES = {"unreachable": 3, "exceeded": 11}
# what may stand behind the addresses, of any packet and of some kinds
ANY_OPTIONS = {"in", "out", "at", "ttl", "ipid"}
OPTIONS = {
    "tcp": {"bytes", "seq", "acknum", *FLAGS},
    "udp": {"bytes"},
    "ping": {"bytes", "id"},
    "pong": {"bytes", "id"},
    "unreachable": {"code"},
    "exceeded": {"code"},
}
# so many bytes fill a packet of 65535 with the headers of IP and TCP
LARGEST = {"ttl": 255, "ipid": 65535, "bytes": 65495, "id": 65535, "code": 255, "seq": 0xFFFFFFFF, "acknum": 0xFFFFFFFF}

End = Tuple[bytes, int]  # an address and a port


@dataclass(frozen=True)
class Options:
    """What stands behind the addresses of a packet: numbers by their words, flags of TCP, the interface by which it
    comes or leaves, and its moment in nanoseconds."""

    numbers: Mapping[str, int] = field(default_factory=dict)
    flags: frozenset[str] = frozenset()
    comes_by: str | None = None
    leaves_by: str | None = None
    moment: int | None = None

    def number(self, name: str, usual: int) -> int:
        return self.numbers.get(name, usual)

    def placed(self) -> Iterator[str]:
        """The words that tell where and when, which none of a packet within another may be."""
        for word, value in (("in", self.comes_by), ("out", self.leaves_by), ("at", self.moment)):
            if value is not None:
                yield word


# Words of a line


def read_number(text: str, largest: int) -> int:
    if not re.fullmatch("[0-9]{1,10}", text) or int(text) > largest:
        raise Refused(f"`{text}`: a number from 0 to {largest} is wanted")
    return int(text)


def read_address(text: str) -> bytes:
    try:
        return ipaddress.IPv4Address(text).packed
    except ValueError:
        raise Refused(f"`{text}`: an address is wanted") from None


def read_endpoint(kind: str, text: str) -> End:
    """The address and the port, which is 0 where the kind has no ports."""
    if kind not in ("tcp", "udp"):
        return read_address(text), 0
    address, colon, port = text.partition(":")
    if not colon:
        raise Refused(f"`{text}`: an address, a colon and a port are wanted")
    return read_address(address), read_number(port, 65535)


def read_time(text: str) -> int:
    """Nanoseconds."""
    match = re.fullmatch(r"([0-9]{1,10})(?:\.([0-9]{1,9}))?", text)
    if not match or int(match[1]) >= 1 << 32:
        raise Refused(f"`{text}`: seconds are wanted, with nine digits at most behind the point")
    return int(match[1]) * 10**9 + int((match[2] or "").ljust(9, "0"))


def read_options(kind: str, words: Sequence[str]) -> Options:
    """What stands behind the addresses."""
    numbers: dict[str, int] = {}
    texts: dict[str, str] = {}
    flags: set[str] = set()
    rest = iter(words)
    for name in rest:
        if name not in ANY_OPTIONS | OPTIONS[kind]:
            raise Refused(f"`{name}`: no word of a {kind} packet")
        if name in flags or name in numbers or name in texts:
            raise Refused(f"`{name}`: stands there twice")
        if name in FLAGS:
            flags.add(name)
            continue
        value = next(rest, None)
        if value is None:
            raise Refused(f"`{name}`: its value is missing")
        if name in ("in", "out"):
            texts[name] = value
        else:
            numbers[name] = read_time(value) if name == "at" else read_number(value, LARGEST[name])
    moment = numbers.pop("at", None)
    return Options(numbers, frozenset(flags), texts.get("in"), texts.get("out"), moment)


# Bytes of a packet


def with_word(data: bytes, offset: int, value: int) -> bytes:
    """With another number in the two bytes at a place, as a checksum."""
    return data[:offset] + struct.pack(">H", value) + data[offset + 2:]


def pseudo_header(source: bytes, destination: bytes, protocol: int, length: int) -> bytes:
    return source + destination + struct.pack(">BBH", 0, protocol, length)


def tcp_segment(source: End, destination: End, options: Options) -> bytes:
    (source_address, source_port), (destination_address, destination_port) = source, destination
    flags = sum(bit for name, bit in FLAGS.items() if name in options.flags)
    acknowledged = options.number("acknum", 1 if "ack" in options.flags else 0)
    header_words, window = 5 << 4, 65535
    sequence = options.number("seq", 1)
    segment = struct.pack(
        ">HHIIBBHHH", source_port, destination_port, sequence, acknowledged, header_words, flags, window, 0, 0
    ) + bytes(options.number("bytes", 0))
    pseudo = pseudo_header(source_address, destination_address, TCP, len(segment))
    return with_word(segment, 16, checksum(pseudo + segment))


def udp_datagram(source: End, destination: End, options: Options) -> bytes:
    (source_address, source_port), (destination_address, destination_port) = source, destination
    length = 8 + options.number("bytes", 0)
    datagram = struct.pack(">HHHH", source_port, destination_port, length, 0) + bytes(length - 8)
    pseudo = pseudo_header(source_address, destination_address, UDP, length)
    # 0 would say that there is no checksum
    return with_word(datagram, 6, checksum(pseudo + datagram) or 0xFFFF)


def icmp_message(message_type: int, code: int, rest: bytes) -> bytes:
    message = struct.pack(">BBH", message_type, code, 0) + rest
    return with_word(message, 2, checksum(message))


def echo_message(kind: str, options: Options) -> bytes:
    rest = struct.pack(">HH", options.number("id", 1), 1) + bytes(options.number("bytes", 0))
    return icmp_message(ECHO_TYPES[kind], 0, rest)


def error_message(kind: str, options: Options, about: bytes) -> bytes:
    """An error with the header of the packet that it is about, and 8 bytes more (RFC 792)."""
    return icmp_message(ERROR_TYPES[kind], options.number("code", 0), bytes(4) + about[:28])


def ip_packet(source: bytes, destination: bytes, protocol: int, payload: bytes, options: Options) -> bytes:
    header = struct.pack(
        ">BBHHHBBH", 0x45, 0, 20 + len(payload), options.number("ipid", 0), 0, options.number("ttl", 64), protocol, 0)
    header += source + destination
    return with_word(header, 10, checksum(header)) + payload


def about_packet(words: Sequence[str]) -> bytes:
    if words[0] in ERROR_TYPES:
        raise Refused(f"`{words[0]}`: no error is about another")
    packet, options = read_packet(words)
    for name in options.placed():
        raise Refused(f"`{name}`: stands before `about`")
    return packet


def read_packet(words: Sequence[str]) -> tuple[bytes, Options]:
    """The packet that the words tell, and its options."""
    kind = words[0]
    if kind not in OPTIONS:
        raise Refused(f"`{kind}`: one of {', '.join(OPTIONS)} is wanted")
    if len(words) < 4 or words[2] != ">":
        raise Refused("a source, `>` and a destination are wanted")
    source, destination = read_endpoint(kind, words[1]), read_endpoint(kind, words[3])
    end = words.index("about") if kind in ERROR_TYPES and "about" in words else len(words)
    options, about = read_options(kind, words[4:end]), words[end + 1:]
    if kind == "tcp":
        protocol, payload = TCP, tcp_segment(source, destination, options)
    elif kind == "udp":
        protocol, payload = UDP, udp_datagram(source, destination, options)
    elif kind in ECHO_TYPES:
        protocol, payload = ICMP, echo_message(kind, options)
    elif about:
        protocol, payload = ICMP, error_message(kind, options, about_packet(about))
    else:
        raise Refused("`about` and another packet are wanted")
    return ip_packet(source[0], destination[0], protocol, payload, options), options


# Records


def link_type_of(box: Box | None) -> int:
    return RAW_IP if box is None else LINUX_SLL2


def link_header(box: Box | None, options: Options) -> bytes:
    """The link header that tells the interface; none without a box file."""
    leaves = options.leaves_by is not None
    if box is None:
        if leaves or options.comes_by is not None:
            word = "in" if options.comes_by is not None else "out"
            raise Refused(f"`{word}` wants --box BOX, which tells the interface's index")
        return b""
    if leaves and options.comes_by is not None:
        raise Refused("`out`: a packet has `in` or `out`")
    name = options.leaves_by or options.comes_by or box.default
    if name is None or name not in box.indices:
        raise Refused(f"`{name}`: the box file has no such interface")
    return sll2_header(box.indices[name], SENT_BY_US if leaves else TO_US)


def crafted_records(lines: Iterable[str], box: Box | None) -> Iterator[tuple[int, bytes]]:
    """Of each line with a packet its moment in nanoseconds and the record's bytes."""
    time = 0
    for line in lines:
        words = line.partition("#")[0].split()
        if not words:
            continue
        try:
            packet, options = read_packet(words)
            header = link_header(box, options)
        except Refused as refusal:
            raise Refused(f"{' '.join(words)}: {refusal}") from None
        time = time if options.moment is None else options.moment
        yield time, header + packet
