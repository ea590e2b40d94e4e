"""Captures as people have them (docs/CAPTURES.md): pcapng, and what gzip made smaller. A classic libpcap file is made
of one, which commands read in its place, as nftrun does; messages name the one that the operator has.

The records stay, all of them and in their order. Where several interfaces of Ethernet or raw IP are in a file, or one
that isn't the box file's `default`, their link headers become LINUX_SLL2, which tells the interface and the direction;
of these the address that an Ethernet frame goes to is lost, which says to nftrun whether it is a group's, and that is
kept. What can't be told so is refused.
"""
from __future__ import annotations

import contextlib
import os
import struct
import zlib
from collections import Counter
from dataclasses import dataclass
from typing import BinaryIO, Dict, Iterator

from toolbox import pcapng
from toolbox.boxes import Box
from toolbox.captures import (
    BROADCAST, ETHERNET, FILE_HEADER, IPV4, LINK_LENGTHS, LINK_NAMES, LINUX_SLL2, MICROSECONDS_MAGIC, MULTICAST,
    NANOSECONDS_MAGIC, OTHER_STATION, RAW_IP, SENT_BY_US, SNAPLEN, TO_US, call, pieces)
from toolbox.commands import Refused, plural, warn
from toolbox.program import workspace

GZIP = b"\x1f\x8b"
WITH_GZIP_HEADER = 31  # of zlib: the largest window, and a header of gzip
CHUNK = 1 << 20
IPV6 = b"\x86\xdd"
GROUP_BIT, ALL_STATIONS = 1, b"\xff" * 6
# Hardware types of ARP, as LINUX_SLL2 has them
OF_ETHERNET, OF_NOTHING = 1, 0xFFFE
LAST_MOMENT = (1 << 32) * pcapng.NANOSECONDS
TORN_END = b"\0"  # no header of a record


@contextlib.contextmanager
def classic(path: str, box: str | None) -> Iterator[str]:
    """The path of a classic libpcap file with the records of a capture: the capture where that is one, or is of no
    format that is known here; else one that is made of it, and gone in the end."""
    beginning = first_bytes(path)
    if not beginning.startswith((GZIP, pcapng.BEGINNING)):
        yield path
        return
    with workspace() as folder:
        unpacked, made, is_cut = path, os.path.join(folder, "in.pcap"), False
        call(made, path)
        if beginning.startswith(GZIP):
            unpacked = os.path.join(folder, "unpacked")
            is_cut = unpack(path, unpacked)
        if first_bytes(unpacked).startswith(pcapng.BEGINNING):
            Conversion(unpacked, path, Box(box) if box else None, is_cut).write(made)
        else:
            os.rename(unpacked, made)
            if is_cut:
                tear(made)
        yield made


def first_bytes(path: str) -> bytes:
    try:
        with open(path, "rb") as file:
            return file.read(4)
    except OSError as error:
        raise Refused(f"{path}: {error.strerror}") from None


# gzip


def unpack(path: str, target: str) -> bool:
    """Writes what a file of gzip has in it, one member or several; answers whether the file ends within one."""
    with open(path, "rb") as file, open(target, "wb") as out:
        rest = file.read(CHUNK)
        while rest:
            member = zlib.decompressobj(WITH_GZIP_HEADER)
            while not member.eof:
                if not rest and not (rest := file.read(CHUNK)):
                    return True
                try:
                    out.write(member.decompress(rest, CHUNK))
                except zlib.error as error:
                    raise Refused(f"{path}: no gzip that can be read ({error})") from None
                rest = member.unconsumed_tail
            # zeros may fill the end
            rest = (member.unused_data or file.read(CHUNK)).lstrip(b"\0")
    return False


def tear(path: str) -> None:
    """Has a classic file that broke off end within a record, where it doesn't by itself."""
    if os.path.getsize(path) < FILE_HEADER:
        return
    end = FILE_HEADER
    for _, base, starts, headers in pieces(path):
        if starts:
            end = base + starts[-1] + headers[-1][2]
    if end == os.path.getsize(path):
        with open(path, "ab") as file:
            file.write(TORN_END)


# pcapng


@dataclass(frozen=True)
class Identity:
    """Which interface a packet came by, as far as that is known: its name where the box file has that; else its section
    and its number there."""

    name: str | None
    section: int
    number: int
    link_type: int


@dataclass
class Source:
    """What was seen of an interface: how many packets, of how many the direction isn't told, and how many weren't for
    the box."""

    interface: pcapng.Interface
    packets: int = 0
    undirected: int = 0
    aside: int = 0


@dataclass(frozen=True)
class Target:
    """How the classic file is written: its link type, how many fractions make a second, and the indices of interfaces
    whose packets get a header of LINUX_SLL2."""

    link_type: int
    fractions: int
    indices: Dict[Identity, int]


class Conversion:
    """A pcapng file, looked through once, and written in a second pass. `name` is what messages call it; a file that
    `is_cut` broke off though no block of it did."""

    def __init__(self, path: str, name: str, box: Box | None, is_cut: bool = False) -> None:
        self.path, self.name, self.box, self.is_cut = path, name, box, is_cut
        self.sources: Dict[Identity, Source] = {}
        self.identities: Dict[int, Identity] = {}  # by section and number
        self.without_time = self.shortened = 0
        reader = pcapng.Reader(path, name)
        for number, packet in enumerate(reader.packets(), 1):
            self.take(number, packet)
        self.torn = reader.torn or is_cut
        self.check_links()
        self.target = self.target_of()

    def take(self, number: int, packet: pcapng.Packet) -> None:
        moment = packet.nanoseconds()
        if moment is None:
            self.without_time += 1
        elif not 0 <= moment < LAST_MOMENT:
            raise Refused(f"{self.name}: record {number} isn't of the years 1970 to 2105, which a capture can tell")
        elif packet.interface.units > pcapng.NANOSECONDS or pcapng.NANOSECONDS % packet.interface.units:
            self.shortened += packet.is_cut()
        identity = self.identity(packet.interface)
        source = self.sources.get(identity)
        if source is None:
            source = self.sources[identity] = Source(packet.interface)
        source.packets += 1
        if not packet.flags:
            source.undirected += 1
        else:
            source.undirected += not packet.flags & pcapng.DIRECTION
            source.aside += kind_of(packet) in (SENT_BY_US, OTHER_STATION)

    def identity(self, interface: pcapng.Interface) -> Identity:
        """Which interface it is; asked of each packet, so it is found once."""
        place = interface.section << 32 | interface.number
        found = self.identities.get(place)
        if found is None:
            found = self.identities[place] = self.new_identity(interface)
        return found

    def new_identity(self, interface: pcapng.Interface) -> Identity:
        if self.box is not None and interface.name in self.box.indices:
            return Identity(interface.name, 0, 0, interface.link_type)
        return Identity(None, interface.section, interface.number, interface.link_type)

    def check_links(self) -> None:
        unread = Counter[int]()
        for source in self.sources.values():
            if source.interface.link_type not in LINK_LENGTHS:
                unread[source.interface.link_type] += source.packets
        for link_type, packets in unread.items():
            rest = "" if len(self.sources) == 1 else f", of {plural(packets, 'record')}"
            raise Refused(f"{self.name}: link type {link_type}{rest}, which nftrun doesn't read")

    def target_of(self) -> Target:
        """What the records become; refused where that would mislead a run."""
        fractions = 10**6
        if any(10**6 % source.interface.units for source in self.sources.values()):
            fractions = pcapng.NANOSECONDS
        bare = {one: source for one, source in self.sources.items() if source.interface.link_type != LINUX_SLL2}
        if not bare:
            return Target(LINUX_SLL2, fractions, {})
        indices = {identity: self.index_of(identity) for identity in bare}
        if len(self.sources) > 1:
            for identity, source in bare.items():
                self.check_several(source, indices[identity])
        else:
            (identity, source), = bare.items()
            entering = None if self.box is None else self.box.entering()
            if not source.aside and indices[identity] in (None, entering):
                return Target(source.interface.link_type, fractions, {})
            if indices[identity] is None:
                indices[identity] = self.default_of(source, entering)
        return Target(LINUX_SLL2, fractions, {one: index for one, index in indices.items() if index is not None})

    def index_of(self, identity: Identity) -> int | None:
        """The index that the box file has for an interface's name, or None."""
        return None if self.box is None or identity.name is None else self.box.indices[identity.name]

    def check_several(self, source: Source, index: int | None) -> None:
        interface = source.interface
        words = f"{self.name}: records of several interfaces, of which {interface_text(interface)}"
        if index is None:
            raise Refused(f"{words} is none of {'a box file' if self.box is None else self.box.path}: by which "
                          "interface they came can't be told (docs/CAPTURES.md)")
        if source.undirected:
            raise Refused(f"{words} has {plural(source.undirected, 'record')} without a direction (epb_flags): which "
                          "of them entered isn't known (docs/CAPTURES.md)")

    def default_of(self, source: Source, entering: int | None) -> int:
        if entering is None:
            raise Refused(f"{self.name}: {plural(source.aside, 'record')} of {interface_text(source.interface)} that "
                          "the box sent, or that weren't for it, and no box file with a `default`: the direction can't "
                          "be told (docs/CAPTURES.md)")
        return entering

    def write(self, path: str) -> None:
        """Writes the classic file, and tells what isn't as it was."""
        if self.without_time:
            warn(f"{self.name}: {plural(self.without_time, 'record')} without a time: they get that of the one before")
        if self.shortened:
            warn(f"{self.name}: {plural(self.shortened, 'time')} cut to nanoseconds")
        with open(path, "wb") as out:
            magic = MICROSECONDS_MAGIC if self.target.fractions == 10**6 else NANOSECONDS_MAGIC
            out.write(struct.pack("<IHHIIII", magic, 2, 4, 0, 0, SNAPLEN, self.target.link_type))
            self.write_records(out)
            if self.torn:
                out.write(TORN_END)

    def write_records(self, out: BinaryIO) -> None:
        fractions, indices, latest = self.target.fractions, self.target.indices, 0
        for number, packet in enumerate(pcapng.Reader(self.path, self.name).packets(), 1):
            moment = packet.nanoseconds()
            latest = latest if moment is None else moment
            seconds, rest = divmod(latest, pcapng.NANOSECONDS)
            index = indices.get(self.identity(packet.interface)) if indices else None
            data = packet.data if index is None else with_interface(packet, index)
            original = max(packet.original + len(data) - len(packet.data), len(data))
            if len(data) > SNAPLEN:
                raise Refused(f"{self.name}: record {number} has {len(data)} bytes with its interface, over {SNAPLEN}")
            out.write(struct.pack("<4I", seconds, rest * fractions // pcapng.NANOSECONDS, len(data),
                                  min(original, 0xFFFFFFFF)))
            out.write(data)


def interface_text(interface: pcapng.Interface) -> str:
    link = LINK_NAMES.get(interface.link_type, f"link type {interface.link_type}")
    return f"interface {interface.number} ({interface.name or 'without a name'}, {link})"


def kind_of(packet: pcapng.Packet) -> int:
    """The packet type of LINUX_SLL2: as the flags tell, or else the group bit of Ethernet."""
    flags = packet.flags
    reception = flags >> pcapng.RECEPTION_AT & pcapng.RECEPTION
    if flags & pcapng.DIRECTION == pcapng.OUTBOUND:
        return SENT_BY_US
    if reception == pcapng.PROMISCUOUS:
        return OTHER_STATION
    if packet.interface.link_type == ETHERNET and packet.data[:1] and packet.data[0] & GROUP_BIT:
        return BROADCAST if packet.data[:6] == ALL_STATIONS else MULTICAST
    return {pcapng.MULTICAST_RECEIVED: MULTICAST, pcapng.BROADCAST_RECEIVED: BROADCAST}.get(reception, TO_US)


def with_interface(packet: pcapng.Packet, index: int) -> bytes:
    """A record of Ethernet or raw IP as one of LINUX_SLL2. A frame that is too short for a header stays so."""
    data, kind = packet.data, kind_of(packet)
    if packet.interface.link_type == RAW_IP:
        protocol = IPV6 if data[:1] and data[0] >> 4 == 6 else IPV4
        return protocol + struct.pack(">HIHBB8x", 0, index, OF_NOTHING, kind, 0) + data
    if len(data) < LINK_LENGTHS[ETHERNET]:
        return data
    head = struct.pack(">HIHBB", 0, index, OF_ETHERNET, kind, 6)
    return data[12:14] + head + data[6:12] + bytes(2) + data[14:]
