"""IPv4 packets: their tuples, what translation leaves of them, other ends for them, and words for them.

A tuple is 13 bytes: source and destination address, source and destination port, as they stand in a packet, and the
kind. The kind is the protocol's number, but 1 for an echo request and 255 (which is reserved) for an echo reply; an
echo's identifier stands in a port's place, as conntrack has it. An end is 6 bytes, address and port; a service 3 bytes,
port and kind. They are bytes, since a capture has 10^6 of them; what makes them and takes them apart stands here alone.
"""
from __future__ import annotations

import struct
from operator import itemgetter
from typing import Callable, Sequence, Union, cast

Bytes = Union[bytes, bytearray]
ICMP, TCP, UDP = 1, 6, 17
PORTED = (TCP, UDP)
NOT_WHOLE = 0x3FFF  # of flags and offset: what is set in a fragment
# of a packet with a usual header: version and header length, flags and offset, protocol, both addresses and ports
usual_parts = cast("Callable[[bytes, int], tuple[int, int, int, bytes]]", struct.Struct(">B5xHxB2x12s").unpack_from)
ASK, ANSWER = ECHOES = 1, 255  # kinds that are no protocol's number
ASK_BYTE, ANSWER_BYTE, TCP_BYTE, UDP_BYTE = bytes([ASK]), bytes([ANSWER]), bytes([TCP]), bytes([UDP])
PORT_BYTES = {TCP: TCP_BYTE, UDP: UDP_BYTE}
# a tuple's parts: source, destination, source port, destination port, kind
PARTS = struct.Struct("4s4s2s2sB")
parts_of = cast("Callable[[bytes], tuple[bytes, bytes, bytes, bytes, int]]", PARTS.unpack)
joined_parts: Callable[[bytes, bytes, bytes, bytes, int], bytes] = PARTS.pack
# the same with its ports as numbers
numbered_parts = cast("Callable[[bytes], tuple[bytes, bytes, int, int, int]]", struct.Struct(">4s4sHHB").unpack)
# one part of a tuple: getters, since they are asked of each record, and a function of Python takes longer
KIND = 12
kind_of = cast("Callable[[bytes], int]", itemgetter(KIND))
source_of = cast("Callable[[bytes], bytes]", itemgetter(slice(0, 4)))
destination_of = cast("Callable[[bytes], bytes]", itemgetter(slice(4, 8)))
service_of = cast("Callable[[bytes], bytes]", itemgetter(slice(10, 13)))  # to which it goes
NO_TUPLE = bytes(PARTS.size)
USUAL_HEADER = 0x45  # version 4, without options
ECHO_REPLY, ECHO_REQUEST = 0, 8
ICMP_ERRORS = frozenset((3, 4, 5, 11, 12))
ICMP_ERROR_BYTES = frozenset(bytes([kind]) for kind in ICMP_ERRORS)
FIN, SYN, RST, PSH, ACK, URG = 1, 2, 4, 8, 16, 32
NO_PORT = b"\0\0"
PROTOCOL_NAMES = {ICMP: "icmp", TCP: "tcp", UDP: "udp"}
ICMP_NAMES = {0: "echo-reply", 3: "destination-unreachable", 4: "source-quench", 5: "redirect", 8: "echo-request",
              11: "time-exceeded", 12: "parameter-problem", 13: "timestamp-request", 14: "timestamp-reply"}


def tuple_at(data: bytes, at: int, cut: bool = False) -> bytes | None:
    """The tuple of the IPv4 packet that begins at `at`; None where it has none (a fragment, an ICMP error, a header
    that doesn't fit). `cut` allows a transport header of 8 bytes."""
    size = len(data)
    if size >= at + 34:
        version, fragment, protocol, ends = usual_parts(data, at)
        if version == USUAL_HEADER and protocol in PORT_BYTES and not fragment & NOT_WHOLE:
            return ends + PORT_BYTES[protocol]
    if size < at + 24 or data[at] >> 4 != 4 or data[at + 6] & 0x3F or data[at + 7]:
        return None
    protocol, behind = data[at + 9], at + 4 * (data[at] & 15)
    if size < behind + (14 if protocol == TCP else 8) and not (cut and size >= behind + 8):
        return None
    if protocol == TCP or protocol == UDP:
        return data[at + 12:at + 20] + data[behind:behind + 4] + data[at + 9:at + 10]
    if protocol != ICMP:
        return data[at + 12:at + 20] + NO_PORT + NO_PORT + data[at + 9:at + 10]
    if data[behind] == ECHO_REQUEST:
        return data[at + 12:at + 20] + data[behind + 4:behind + 6] + NO_PORT + ASK_BYTE
    if data[behind] == ECHO_REPLY:
        return data[at + 12:at + 20] + NO_PORT + data[behind + 4:behind + 6] + ANSWER_BYTE
    return None


def sent_tuples(piece: bytes, starts: Sequence[int], at: int, most: int) -> list[bytes | None]:
    """The tuples of the IPv4 packets that stand `at` bytes behind `starts`; None where one has none, or is no packet.
    None of them is a fragment. Of each `most` bytes are looked at."""
    protocol, ends = at + 9, at + 12
    return [
        piece[start + ends:start + ends + 12] + piece[start + protocol:start + protocol + 1]
        if piece[start + at] == USUAL_HEADER and piece[start + protocol] in PORTED
        else tuple_at(piece[start:start + most], at) for start in starts]


def error_tuple_at(data: bytes, at: int) -> bytes | None:
    """Of an ICMP error the tuple of the answer to the datagram in it; None of other packets."""
    if len(data) < at + 24 or data[at] >> 4 != 4 or data[at + 9] != ICMP or data[at + 6] & 0x3F or data[at + 7]:
        return None
    behind = at + 4 * (data[at] & 15)
    if len(data) < behind + 36 or data[behind] not in ICMP_ERRORS:
        return None
    # the datagram is cut, so its own length isn't asked
    inner = tuple_at(data, behind + 8, cut=True)
    return inner and inverse(inner)


def inverse_kind(kind: int) -> int:
    return {ASK: ANSWER, ANSWER: ASK}.get(kind, kind)


def inverse(key: bytes) -> bytes:
    """The tuple of what answers."""
    source, destination, source_port, destination_port, kind = parts_of(key)
    return joined_parts(destination, source, destination_port, source_port,
                        kind if kind != ASK and kind != ANSWER else inverse_kind(kind))


def source_end(key: bytes) -> bytes:
    return key[:4] + key[8:10]


def destination_end(key: bytes) -> bytes:
    return key[4:8] + key[10:12]


def source_port(key: bytes) -> int:
    return int.from_bytes(key[8:10], "big")


def destination_port(key: bytes) -> int:
    return int.from_bytes(key[10:12], "big")


def identifier_of(key: bytes) -> int:
    """Of an echo."""
    return source_port(key) if kind_of(key) == ASK else destination_port(key)


def address_of(end: bytes) -> bytes:
    return end[:4]


def port_of(end: bytes) -> int:
    return int.from_bytes(end[4:6], "big")


def service_port(service: bytes) -> int:
    return int.from_bytes(service[:2], "big")


def service_kind(service: bytes) -> int:
    return service[2]


def identity(data: bytes, at: int) -> bytes:
    """What translation and forwarding leave of a packet, to know it again in its outgoing copy: length, identification,
    and of the transport what isn't a port or a checksum; of the datagram in an ICMP error its header up to the
    checksum."""
    protocol, behind = data[at + 9], at + 4 * (data[at] & 15)
    if protocol == TCP:
        return data[at + 2:at + 6] + data[behind + 4:behind + 16]
    if protocol == UDP:
        return data[at + 2:at + 6] + data[behind + 4:behind + 6] + data[behind + 8:behind + 40]
    if protocol == ICMP:
        end = behind + (18 if data[behind:behind + 1] in ICMP_ERROR_BYTES else 40)
        return data[at + 2:at + 6] + data[behind:behind + 2] + data[behind + 6:end]
    return data[at + 2:at + 6] + data[behind:behind + 40]


def without_ports(whole: bytes) -> bytes:
    """An IPv4 packet without ports, identifiers of echoes and checksums, also in the datagram of an ICMP error: what
    two boxes that chose other ports have in common."""
    packet = bytearray(whole[:int.from_bytes(whole[2:4], "big")])
    if len(packet) >= 20:
        blank_ports(packet, 0)
        if error_tuple_at(packet, 0):
            blank_ports(packet, 4 * (packet[0] & 15) + 8)
    return bytes(packet)


def blank_ports(packet: bytearray, at: int) -> None:
    """Makes zero the ports, or the identifier, and the checksums of the packet that begins at `at`."""
    behind = at + 4 * (packet[at] & 15)
    places = [(at + 10, 2)]
    if not int.from_bytes(packet[at + 6:at + 8], "big") & 0x1FFF:
        kinds = {TCP: ((0, 4), (16, 2)), UDP: ((0, 4), (6, 2)), ICMP: ((2, 2),)}
        places += [(behind + place, length) for place, length in kinds.get(packet[at + 9], ())]
        if packet[at + 9] == ICMP and packet[behind:behind + 1] in (bytes([ECHO_REPLY]), bytes([ECHO_REQUEST])):
            places.append((behind + 4, 2))
    for place, length in places:
        if place + length <= len(packet):
            packet[place:place + length] = bytes(length)


# Checksums


def checksum(data: bytes) -> int:
    """The complement of the ones' complement sum of the 16-bit words (RFC 1071)."""
    if len(data) % 2:
        data += b"\0"
    total: int = sum(struct.unpack(f">{len(data) // 2}H", data))
    while total >> 16:
        total = (total & 0xFFFF) + (total >> 16)
    return total ^ 0xFFFF


def sums_up(data: bytes) -> bool:
    """Whether words, of which one is the checksum over the others and one isn't 0, have the checksum 0."""
    # 65,536 is 1 modulo 65,535, so the words' sum is that of the whole as one number
    return int.from_bytes(data, "big") % 0xFFFF == 0


def corrected(check: Bytes, old: Bytes, new: Bytes) -> bytes:
    """The checksum over words that change from `old` to `new` (RFC 1624): a wrong one stays as wrong as it was."""
    # by whole numbers, as in `sums_up`
    total = (int.from_bytes(check, "big") + int.from_bytes(old, "big") - int.from_bytes(new, "big")) % 0xFFFF
    return total.to_bytes(2, "big")


def checksum_place(packet: bytearray, at: int, behind: int) -> int | None:
    """Where the transport's checksum stands, or None where there is none."""
    place = {TCP: behind + 16, UDP: behind + 6, ICMP: behind + 2}.get(packet[at + 9])
    if place is None or place + 2 > len(packet) or packet[at + 9] == UDP and packet[place:place + 2] == NO_PORT:
        return None
    return place


# Another destination for a packet


def put(packet: bytearray, place: int, new: bytes, checksums: Sequence[int]) -> None:
    """Writes `new` at `place`, which is even, and corrects the checksums at `checksums`."""
    old = bytes(packet[place:place + len(new)])
    packet[place:place + len(new)] = new
    for check in checksums:
        packet[check:check + 2] = corrected(packet[check:check + 2], old, new)


def change_end(packet: bytearray, at: int, behind: int, address_place: int, port_place: int, end: bytes) -> None:
    """Makes `end` the address and the port that stand at these places, with all checksums over them."""
    protocol, check = packet[at + 9], checksum_place(packet, at, behind)
    address = bytes(packet[address_place:address_place + 4])
    packet[address_place:address_place + 4] = end[:4]
    packet[at + 10:at + 12] = corrected(packet[at + 10:at + 12], address, end[:4])
    if protocol in (TCP, UDP):
        port = bytes(packet[port_place:port_place + 2])
        packet[port_place:port_place + 2] = end[4:]
        if check:
            new = corrected(packet[check:check + 2], address + port, end)
            # 0 would say that there is none
            packet[check:check + 2] = b"\xff\xff" if protocol == UDP and new == NO_PORT else new
    elif protocol == ICMP and packet[behind] in (ECHO_REPLY, ECHO_REQUEST):
        put(packet, behind + 4, end[4:], [check] if check else [])


def with_destination(whole: bytes, end: bytes) -> bytes:
    """The IPv4 packet with `end` as its destination. Of an ICMP error the source of the datagram in it becomes `end`,
    and the error's own destination where it was the same address."""
    packet = bytearray(whole)
    behind = 4 * (packet[0] & 15)
    if packet[9] != ICMP or packet[behind] not in ICMP_ERRORS:
        change_end(packet, 0, behind, 16, behind + 2, end)
        return bytes(packet)
    inner = behind + 8
    inner_behind = inner + 4 * (packet[inner] & 15)
    goes_to_sender = packet[16:20] == packet[inner + 12:inner + 16]
    before = bytes(packet[inner:])
    change_end(packet, inner, inner_behind, inner + 12, inner_behind, end)
    after = bytes(packet[inner:])
    padding = bytes(len(before) % 2)
    packet[behind + 2:behind + 4] = corrected(packet[behind + 2:behind + 4], before + padding, after + padding)
    if goes_to_sender:
        put(packet, 16, end[:4], [10])
    return bytes(packet)


# Words


def address_text(address: bytes) -> str:
    return ".".join(map(str, address))


def end_text(end: bytes) -> str:
    """203.0.113.1:5000"""
    return f"{address_text(address_of(end))}:{port_of(end)}"


def tuple_text(key: bytes) -> str:
    """udp 192.168.1.10:5000 > 198.51.100.7:53"""
    kind = kind_of(key)
    if kind in PORTED:
        return f"{PROTOCOL_NAMES[kind]} {end_text(source_end(key))} > {end_text(destination_end(key))}"
    addresses = f"{address_text(source_of(key))} > {address_text(destination_of(key))}"
    if kind in ECHOES:
        return f"icmp {addresses} {'echo-request' if kind == ASK else 'echo-reply'} id {identifier_of(key)}"
    return f"protocol {kind} {addresses}"


def describe(data: bytes, at: int | None) -> str:
    """The packet in words: its tuple, or what else can be said of it."""
    if at is None or len(data) < at + 20 or data[at] >> 4 != 4:
        return "no IPv4 packet"
    found = tuple_at(data, at)
    if found:
        return tuple_text(found)
    addresses = f"{address_text(data[at + 12:at + 16])} > {address_text(data[at + 16:at + 20])}"
    if data[at + 6] & 0x3F or data[at + 7]:
        return f"fragment {addresses}"
    behind = at + 4 * (data[at] & 15)
    if data[at + 9] != ICMP or len(data) < behind + 2:
        return f"{PROTOCOL_NAMES.get(data[at + 9], f'protocol {data[at + 9]}')} {addresses}"
    about = error_tuple_at(data, at)
    name = ICMP_NAMES.get(data[behind], f"type {data[behind]}")
    told = f" about {tuple_text(inverse(about))}" if about else ""
    return f"icmp {addresses} {name} code {data[behind + 1]}{told}"


def flags_text(flags: int) -> str:
    """syn ack"""
    names = (("syn", SYN), ("ack", ACK), ("fin", FIN), ("rst", RST), ("psh", PSH), ("urg", URG))
    return " ".join(name for name, bit in names if flags & bit) or "no flags"
