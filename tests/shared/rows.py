"""Reads rows, runs with what they have to give, and builds the captures that they speak of. tests/rows/README.md has
their notation.

It judges runs, so it stands neither on tools/toolbox nor on what the program writes.
"""
from __future__ import annotations

import enum
import re
import struct
from dataclasses import dataclass, replace
from typing import Iterable, Iterator, Sequence, Union

from plain import IN_HEADER, OUT_HEADER, TOTALS, with_checksum

SECOND = 1_000_000_000
INDEX = {"lan": 2, "wan": 3}
BITS = {"F": 1, "S": 2, "R": 4, "P": 8, "A": 16, "U": 32}
LAN = bytes((192, 168, 1))  # what leaves by `lan` begins so


class Unreadable(Exception):
    """A line, or a word of it, that has no meaning."""


# ---- words

def number(word: str, most: int) -> int:
    if not re.fullmatch("[0-9]+", word) or int(word) > most:
        raise Unreadable
    return int(word)


def numbers(word: str, most: int) -> range:
    """Those of `NUMBER` or `FIRST-LAST`."""
    first, dash, last = word.partition("-")
    found = range(number(first, most), number(last if dash else first, most) + 1)
    if not found:
        raise Unreadable
    return found


def hexadecimal(digits: str) -> bytes:
    if not re.fullmatch("([0-9a-f]{2})*", digits):
        raise Unreadable
    return bytes.fromhex(digits)


@dataclass(frozen=True)
class Endpoint:
    """An address and a port, 0 where there is none."""

    address: bytes
    port: int = 0


@dataclass(frozen=True)
class Endpoints:
    """A source and a destination."""

    source: Endpoint
    destination: Endpoint


class Words:
    """The words of a line from one on."""

    def __init__(self, text: str) -> None:
        self.rest = text.split()

    def next(self) -> str:
        if not self.rest:
            raise Unreadable
        return self.rest.pop(0)

    def takes(self, word: str) -> bool:
        """Whether that is the next word, which is taken then."""
        is_next = self.rest[:1] == [word]
        if is_next:
            self.next()
        return is_next

    def end(self) -> None:
        if self.rest:
            raise Unreadable

    def digits(self) -> bytes:
        """The bytes of one or more words of hexadecimal digits."""
        data = hexadecimal(self.next())
        while self.rest and re.fullmatch("[0-9a-f]+", self.rest[0]):
            data += hexadecimal(self.next())
        return data

    def interface(self) -> int:
        """The index of `lan`, `wan` or an index."""
        word = self.next()
        return INDEX[word] if word in INDEX else number(word, 2**32 - 1)

    def last(self) -> str:
        """The next word, which is the last."""
        word = self.next()
        self.end()
        return word

    def endpoint(self) -> Endpoint:
        word, _, port = self.next().partition(":")
        octets = word.split(".")
        if len(octets) != 4:
            raise Unreadable
        return Endpoint(bytes(number(octet, 255) for octet in octets), number(port or "0", 65_535))

    def endpoints(self) -> Endpoints:
        """`ENDPOINT > ENDPOINT`"""
        source = self.endpoint()
        if self.next() != ">":
            raise Unreadable
        return Endpoints(source, self.endpoint())


# ---- packets

def datagram(protocol: int, source: bytes, destination: bytes, load: bytes, ttl: int = 64) -> bytes:
    """An IPv4 datagram with a header of 20 bytes (RFC 791, section 3.1)."""
    header = struct.pack(">BBHHHBBH4s4s", 0x45, 0, 20 + len(load), 0, 0, ttl, protocol, 0, source, destination)
    return with_checksum(header, 10) + load


class Carried(enum.Enum):
    """What a packet carries, by its word."""

    UDP = "udp"
    TCP = "tcp"
    ECHO_REQUEST = "echo-request"
    ECHO_REPLY = "echo-reply"
    ERROR = "error"
    OTHER = "other"


@dataclass(frozen=True)
class Payload:
    """What a packet carries, with its control bits, its type of ICMP or its protocol."""

    carried: Carried
    value: int = 0

    @staticmethod
    def read(word: str) -> Payload:
        """`udp`, `tcp:FLAGS`, `echo-request`, `echo-reply`, `error:TYPE` or `other:PROTOCOL`."""
        kind, colon, value = word.partition(":")
        if not colon and kind in ("udp", "echo-request", "echo-reply"):
            return Payload(Carried(kind), 8 if kind == "echo-request" else 0)
        if kind == "tcp" and colon and set(value) <= set(BITS):
            return Payload(Carried.TCP, sum(BITS[letter] for letter in set(value)))
        if kind in ("error", "other"):
            return Payload(Carried(kind), number(value, 255))
        raise Unreadable


@dataclass(frozen=True)
class Packet:
    """A packet: its payload, its endpoints, its TTL, what an ICMP error is about and how many bytes of that it keeps,
    and the data of a protocol that none other names."""

    payload: Payload
    endpoints: Endpoints
    ttl: int = 64
    about: Packet | None = None
    kept: int | None = None
    data: bytes = b""

    @staticmethod
    def read(words: Words) -> Packet:
        """`PAYLOAD ENDPOINT > ENDPOINT [ttl NUMBER]`, then `[about PAYLOAD ENDPOINT > ENDPOINT [kept BYTES]]` or
        `[carries DIGITS ..]`"""
        packet = Packet(Payload.read(words.next()), words.endpoints())
        if words.takes("ttl"):
            packet = replace(packet, ttl=number(words.next(), 255))
        if words.takes("about"):
            about = Packet(Payload.read(words.next()), words.endpoints(), 1)
            kept = number(words.next(), 65_535) if words.takes("kept") else None
            return replace(packet, about=about, kept=kept)
        if packet.payload.carried is Carried.OTHER and words.takes("carries"):
            return replace(packet, data=words.digits())
        return packet

    @property
    def destination(self) -> bytes:
        return self.endpoints.destination.address

    def of_length(self, length: int) -> Packet:
        """The packet with so much data: what it has, and zeros behind it."""
        return Packet(self.payload, self.endpoints, self.ttl, data=self.data[:length].ljust(length, b"\0"))

    def forwarded(self, endpoints: Endpoints | None, about: Endpoints | None) -> Packet:
        """As it leaves, with new endpoints where there are any."""
        inner = self.about
        if inner and about:
            inner = Packet(inner.payload, about, inner.ttl)
        return replace(self, endpoints=endpoints or self.endpoints, ttl=max(self.ttl - 1, 0), about=inner)

    def octets(self, behind: bytes = b"") -> bytes:
        """Its bytes with right checksums. A protocol without ports or an identifier carries what is `behind`."""
        behind = self.data or behind
        if self.about:
            behind = self.about.octets(b"\0" * 8)[:self.kept]
        source, destination = self.endpoints.source, self.endpoints.destination
        protocol, load = self.load(behind)
        return datagram(protocol, source.address, destination.address, load, self.ttl)

    def load(self, behind: bytes) -> tuple[int, bytes]:
        """The protocol, and what stands behind the header."""
        source, destination = self.endpoints.source, self.endpoints.destination
        carried, value = self.payload.carried, self.payload.value
        ports = struct.pack(">HH", source.port, destination.port)
        if carried is Carried.UDP:
            pseudo = source.address + destination.address + struct.pack(">BBH", 0, 17, 8)
            load = with_checksum(ports + struct.pack(">HH", 8, 0), 6, pseudo)
            # 0 would mean that there is no checksum (RFC 768).
            return 17, load[:6] + (load[6:] if any(load[6:]) else b"\xff\xff")
        if carried is Carried.TCP:
            pseudo = source.address + destination.address + struct.pack(">BBH", 0, 6, 20)
            load = ports + struct.pack(">IIBBHHH", 1, 0, 0x50, value, 1000, 0, 0)
            return 6, with_checksum(load, 16, pseudo)
        if carried is Carried.OTHER:
            return value, behind
        if carried is Carried.ERROR:
            return 1, with_checksum(struct.pack(">BBHI", value, 0, 0, 0) + behind, 2)
        # The identifier is the requesting endpoint's port.
        identifier = source.port if carried is Carried.ECHO_REQUEST else destination.port
        return 1, with_checksum(struct.pack(">BBHHH", value, 0, 0, identifier, 1), 2)


@dataclass(frozen=True)
class Bytes:
    """A packet by its bytes, which may be no packet."""

    data: bytes

    @property
    def destination(self) -> bytes:
        return self.data[16:20]

    def forwarded(self, _endpoints: Endpoints | None, _about: Endpoints | None) -> Bytes:
        """As it leaves: with another TTL and checksum, and without what is behind its end."""
        header, end = self.data[0] % 16 * 4, int.from_bytes(self.data[2:4], "big")
        lowered = self.data[:8] + bytes([self.data[8] - 1, self.data[9], 0, 0]) + self.data[12:header]
        return Bytes(with_checksum(lowered, 10) + self.data[header:end])

    def octets(self) -> bytes:
        return self.data


# ---- records

@dataclass(frozen=True)
class Record:
    """A record: seconds, nanoseconds, the interface that it came by, its packet, if it is one, and what stands behind
    that."""

    seconds: int
    nanoseconds: int
    interface: int
    packet: Union[Packet, Bytes, None]
    padding: bytes = b""

    @staticmethod
    def at(when: int, interface: int, packet: Union[Packet, Bytes]) -> Record:
        """A record at so many nanoseconds."""
        return Record(*divmod(when, SECOND), interface, packet)

    def behind_header(self, link: bytes, data: bytes) -> bytes:
        return struct.pack("<IIII", self.seconds, self.nanoseconds, 20 + len(data), 20 + len(data)) + link + data

    def octets(self) -> bytes:
        """As it was captured."""
        # (IPv6 is no packet of the box's.)
        protocol, data = (0x0800, self.packet.octets()) if self.packet else (0x86DD, b"")
        link = struct.pack(">HHIHBB8s", protocol, 0, self.interface, 1, 0, 6, bytes.fromhex("0200000000010000"))
        return self.behind_header(link, data + self.padding)

    def leaves(self, endpoints: Endpoints | None = None, about: Endpoints | None = None,
               by: int | None = None) -> bytes:
        """As it leaves: by this interface, or else by `lan` for 192.168.1.0/24 and by `wan` for all others."""
        if self.packet is None:
            raise Unreadable
        packet = self.packet.forwarded(endpoints, about)
        if by is None:
            by = INDEX["lan" if packet.destination[:3] == LAN else "wan"]
        return self.behind_header(struct.pack(">HHIHBB8s", 0x0800, 0, by, 1, 4, 0, b""), packet.octets())


def moment(word: str) -> tuple[int, int]:
    """The seconds and nanoseconds of a time: seconds, or seconds, a dot and nine digits."""
    seconds, dot, rest = word.partition(".")
    if dot and len(rest) != 9:
        raise Unreadable
    return number(seconds, 2**32 - 1), number(rest or "0", 2**32 - 1)


def packets(words: Words) -> list[Union[Packet, Bytes, None]]:
    """Those of `none`, `bytes DIGITS ..` or `PACKET [long LENGTHS]`."""
    if words.takes("none"):
        return [None]
    if words.takes("bytes"):
        return [Bytes(words.digits())]
    packet = Packet.read(words)
    if packet.data and words.takes("long"):
        return [packet.of_length(length) for length in numbers(words.next(), 65_515)]
    return [packet]


def come(words: Words) -> list[Record]:
    """The records of `TIME INTERFACE PACKETS [padded DIGITS]`; what has no packet or only bytes isn't padded."""
    when, interface = moment(words.next()), words.interface()
    found = packets(words)
    is_padded = isinstance(found[0], Packet) and words.takes("padded")
    padding = words.digits() if is_padded else b""
    words.end()
    return [Record(*when, interface, packet, padding) for packet in found]


def came(text: str) -> bytes:
    """The record of `TIME INTERFACE PACKET`."""
    return come(Words(text))[0].octets()


# ---- rows

@dataclass(frozen=True)
class Output:
    """A record that leaves, by its index, and what is other than it came."""

    index: int
    endpoints: Endpoints | None
    about: Endpoints | None
    by: int | None


@dataclass(frozen=True)
class Change:
    """Bytes of IN that are put in place of others."""

    offset: int
    data: bytes


class Row:
    """A run and what it has to give."""

    def __init__(self, name: str) -> None:
        self.name, self.box = name, "box.txt"
        self.header: bytes | None = None
        self.records: list[Record] = []
        self.captured = b""
        self.outputs: list[Output] = []
        self.written = b""
        self.leaving: list[bytes] = []
        # What no row has of the one before it.
        self.file: str | None = None
        self.rulesets: list[str] = []
        self.trace = False
        self.pace: int | None = None
        self.reads: int | None = None
        self.size: int | None = None
        self.status, self.ending = "done", "status"
        self.changes: list[Change] = []
        self.lines = ""
        self.totals: dict[str, int] = {}
        self.given: set[str] = set()

    def follow(self, word: str, name: str) -> Row:
        """A row with the same records, and with the same output where the word is `again`."""
        row = Row(name)
        row.box, row.header, row.captured, row.leaving = self.box, self.header, self.captured, list(self.leaving)
        row.records = list(self.records)
        if word == "again":
            row.outputs, row.written = list(self.outputs), self.written
        return row

    def take(self, line: str) -> None:
        """Takes a line, or raises `Unreadable`."""
        word, _, rest = line.partition(" ")
        if word in ("nft", "in", "out", "put"):
            self.take_capture(word, rest)
        elif word in ("line", "outcome"):
            told = f"trace {len(self.records)} outcome {Words(rest).last()}" if word == "outcome" else rest
            self.lines += told + "\n"
        elif word in ("leaves", "captured", "written"):
            self.take_bytes(word, hexadecimal(rest))
        elif word == "passes":
            self.pass_on(rest.split())
        elif line.strip():
            self.take_setting(word, rest, line)

    def take_capture(self, word: str, rest: str) -> None:
        """Takes a ruleset, records, an output or a change."""
        if word == "nft":
            self.rulesets.append(rest)
        elif word == "in":
            self.records += come(Words(rest))
        elif word == "out":
            self.take_output(Words(rest))
        else:
            self.take_change(Words(rest))

    def take_bytes(self, word: str, data: bytes) -> None:
        if word == "leaves":
            self.leaving.append(data)
        elif word == "captured":
            self.captured += data
        else:
            self.written += data

    def take_output(self, words: Words) -> None:
        """`INDEXES [ENDPOINT > ENDPOINT [about ENDPOINT > ENDPOINT]] [by INTERFACE]`"""
        indexes = numbers(words.next(), len(self.records) - 1)
        endpoints = words.endpoints() if words.rest and words.rest[0] != "by" else None
        about = words.endpoints() if words.takes("about") else None
        interface = words.interface() if words.takes("by") else None
        words.end()
        for index in indexes:
            packet = self.records[index].packet
            if not packet or endpoints and isinstance(packet, Bytes):
                raise Unreadable
            self.outputs.append(Output(index, endpoints, about, interface))

    def take_change(self, words: Words) -> None:
        """`OFFSET DIGITS`"""
        self.changes.append(Change(number(words.next(), 2**31), hexadecimal(words.last())))

    def pass_on(self, words: Iterable[str]) -> None:
        for word in words:
            self.written += self.leaving[number(word, len(self.leaving) - 1)]

    def take_setting(self, word: str, rest: str, line: str) -> None:
        """Takes a setting, the status or a total: each stands once."""
        if word in ("status", "broken", "refused"):
            self.once("status")
            self.status, self.ending = rest, word
        elif word == "header":
            header = hexadecimal(rest)
            self.once(word)
            self.header = header
        elif word in ("rules", "box", "trace", "size", "pace", "reads"):
            self.once(word)
            self.set(word, rest.split())
        else:
            name, _, value = line.rpartition(" ")
            if name not in TOTALS:
                raise Unreadable
            count = number(value, 2**64 - 1)
            self.once(name)
            self.totals[name] = count

    def set(self, word: str, values: Sequence[str]) -> None:
        """Sets what the word names."""
        if len(values) != (0 if word == "trace" else 1):
            raise Unreadable
        if word == "trace":
            self.trace = True
        elif word == "rules":
            self.file = values[0]
        elif word == "box":
            self.box = values[0]
        elif word == "size":
            self.size = number(values[0], 2**31)
        elif word == "pace":
            self.pace = number(values[0], 2**31)
        else:
            self.reads = number(values[0], 2**31)

    def once(self, name: str) -> None:
        if name in self.given:
            raise Unreadable
        self.given.add(name)

    def capture(self, most: int | None = None) -> bytes:
        """IN, with so many records at most."""
        header = IN_HEADER if self.header is None else self.header
        whole = header + b"".join(record.octets() for record in self.records[:most]) + self.captured
        for change in self.changes:
            whole = whole[:change.offset] + change.data + whole[change.offset + len(change.data):]
        return whole if self.size is None else whole[:self.size].ljust(self.size, b"x")

    def sent(self) -> bytes:
        """What OUT has to hold."""
        if self.ending == "refused":
            return b""
        left = (self.records[one.index].leaves(one.endpoints, one.about, one.by) for one in self.outputs)
        return OUT_HEADER + b"".join(left) + self.written

    def report(self) -> str:
        """The report that has to be printed."""
        if self.ending != "status":
            return self.lines
        counts = {"records": len(self.records), "passed": len(self.outputs), **self.totals}
        return self.lines + "".join(f"{name} {counts.get(name, 0)}\n" for name in TOTALS)


def rows(path: str, lost: list[str] | None = None) -> Iterator[Row]:
    """The rows of a file. Lines that can't be read are added to `lost`, or end the reading where there is no such
    list."""
    row: Row | None = None
    with open(path, encoding="utf-8") as file:
        lines = file.read().split("\n")
    for line in lines:
        word, _, name = line.partition(" ")
        if word in ("row", "again", "anew"):
            if row:
                yield row
            row = row.follow(word, name) if row and word != "row" else Row(name)
        elif line and not line.startswith("#"):
            try:
                if not row:
                    raise Unreadable
                row.take(line)
            except Unreadable:
                if lost is None:
                    raise SystemExit(f"{path}: can't be read: {line}") from None
                lost.append(line)
    if row:
        yield row
