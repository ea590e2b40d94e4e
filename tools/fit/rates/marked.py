"""Marks of records. All that a ruleset of nftrun reads of a record and that isn't the packet is the interface by which
it came. So a marked record comes by another one, that stands for it: the marked capture (LINUX_SLL2) tells its index,
the marked box file has it with an address that no packet has, and the fitted ruleset names it beside the real one."""
from __future__ import annotations

import os
import re
import string
from dataclasses import dataclass
from functools import cached_property
from ipaddress import IPv4Address
from typing import Iterator, Mapping, Sequence

from toolbox import captures, reports
from toolbox.boxes import Box
from toolbox.captures import BROADCAST, ETHERNET, LINUX_SLL2, MULTICAST, RAW_IP, TO_US
from toolbox.commands import read_bytes

from ..scanner import Refused
from .aliases import with_aliases
from .keys import Packet
from .subjects import Probe

MOST_LINES = 64  # of interfaces in a box file (B4)
ADDRESSES = int(IPv4Address("0.0.0.0"))  # no packet goes to a host of this network (RFC 1122, 3.2.1.3)
LINK = captures.LINK_LENGTHS[LINUX_SLL2]
LEAST_HEADER = 20
ALL_ONES = b"\xff" * 6


@dataclass(frozen=True)
class Record:
    """A record of the capture: its own time and its moment (docs/SPEC.md, 4.1) in nanoseconds, its bytes with a link
    header of LINUX_SLL2, and the packet where it carries one."""

    time: int
    moment: int
    data: bytes
    packet: Packet | None


@dataclass(frozen=True)
class Files:
    """The paths of what nftrun is run on."""

    rules: str
    box: str
    capture: str


class Source:
    """The operator's capture and box file."""

    def __init__(self, path: str, box: str) -> None:
        self.path, self.box_path = path, box
        self.header, self.box = captures.header_of(path), Box(box)
        self.entering = self.box.entering() or 0

    def records(self) -> Iterator[Record]:
        moment, per_fraction = 0, 10**9 // self.header.fractions
        for _, seconds, fraction, _, _, _, data in captures.records(self.path):
            time = seconds * 10**9 + fraction * per_fraction
            moment = max(moment, time)
            linked = self.linked(data)
            yield Record(time, moment, linked, self.packet(linked))

    def begin(self) -> int:
        """The first moment."""
        return next((it.moment for it in self.records()), 0)

    def linked(self, data: bytes) -> bytes:
        """A record's bytes with a header of LINUX_SLL2, that nftrun judges as the one that it had."""
        kind = self.header.link_type
        if kind == LINUX_SLL2:
            return data
        if kind == RAW_IP:
            return captures.sll2_header(self.entering) + data
        if len(data) < captures.LINK_LENGTHS[ETHERNET]:
            return data
        group = BROADCAST if data[:6] == ALL_ONES else MULTICAST
        header = captures.sll2_header(self.entering, group if data[0] & 1 else TO_US)
        return data[12:14] + header[2:] + data[14:]

    def packet(self, linked: bytes) -> Packet | None:
        """The packet that rules may see, by the interface that the header tells."""
        data = linked[LINK:]
        index = captures.interface_of(linked, LINUX_SLL2)
        if linked[:2] != captures.IPV4 or len(data) < LEAST_HEADER or index not in self.box.names:
            return None
        return Packet(data, index, self.box.names[index])

    @cached_property
    def taken(self) -> tuple[set[int], set[int]]:
        """The indices that the capture tells, and the numbers of the addresses that its packets go to."""
        indices, addresses = set(self.box.names), {int.from_bytes(it, "big") for it in self.box.addresses}
        for record in self.records():
            indices.add(captures.interface_of(record.data, LINUX_SLL2) or 0)
            if record.packet is not None:
                addresses.add(int.from_bytes(record.packet.data[16:20], "big"))
        return indices, addresses

    def interface_lines(self) -> int:
        return len(re.findall(rb"(?m)^[ \t]*interface[ \t]", read_bytes(self.box_path)))


@dataclass(frozen=True)
class Alias:
    """An interface that stands for another one, of records with one set of marks."""

    name: str
    index: int
    address: str
    stands_for: int
    marks: frozenset[int]


class Marked:
    """Rounds and results with the marks at hand."""

    def __init__(self, source: Source, marks: Mapping[int, frozenset[int]], probes: Sequence[Probe]) -> None:
        self.source, self.marks, self.probes = source, marks, probes

    @cached_property
    def kinds(self) -> list[tuple[int, frozenset[int]]]:
        """The real interfaces and sets of marks that records have, as they come."""
        found: dict[tuple[int, frozenset[int]], None] = {}
        for number, record in enumerate(self.source.records(), 1):
            if number in self.marks and record.packet is not None:
                found[record.packet.index, self.marks[number]] = None
        return list(found)

    def aliases(self, text: str) -> list[Alias]:
        """An interface for each kind of marked records; `text` is the fitted ruleset."""
        free = MOST_LINES - self.source.interface_lines()
        if len(self.kinds) > free:
            raise Refused(f"{self.source.path}: its records have {len(self.kinds)} kinds of marks, and the box file "
                          f"has room for {max(free, 0)} (it takes {MOST_LINES} lines of interfaces)")
        indices, addresses = self.source.taken
        prefix = free_prefix(text, self.source.box)
        found: list[Alias] = []
        index, address = max(indices) + 1 if max(indices) < 1 << 30 else 1, ADDRESSES + 1
        for number, (real, marks) in enumerate(self.kinds, 1):
            while index in indices:
                index += 1
            while address in addresses or str(IPv4Address(address)) in text:
                address += 1
            found.append(Alias(f"{prefix}{number}", index, str(IPv4Address(address)), real, marks))
            index, address = index + 1, address + 1
        return found

    def rules(self, text: str, found: Sequence[Alias]) -> str:
        """The fitted ruleset with the names of those interfaces."""
        names: dict[str, list[str]] = {}
        for it in found:
            names.setdefault(self.source.box.names[it.stands_for], []).append(it.name)
        text = with_aliases(text, names, self.source.box.names)
        for probe in self.probes:
            listed = ", ".join(f'"{it.name}"' for it in found if probe.number in it.marks)
            head = f"\tset {probe.set_name} {{\n\t\ttype ifname\n"
            if listed:
                text = text.replace(head, f"{head}\t\telements = {{ {listed} }}\n")
        return text

    def box(self, found: Sequence[Alias]) -> bytes:
        lines = [f"interface {it.index} {it.name} {it.address}/32  # {self.source.box.names[it.stands_for]}, marked "
                 + " ".join(map(str, sorted(it.marks))) for it in found]
        return read_bytes(self.source.box_path).rstrip(b"\n") + b"\n" + "".join(f"{it}\n" for it in lines).encode()

    def write_capture(self, path: str, found: Sequence[Alias]) -> None:
        indices = {(it.stands_for, it.marks): it.index for it in found}
        with open(path, "wb") as file:
            captures.write_header(file)
            for number, record in enumerate(self.source.records(), 1):
                data = record.data
                if len(data) > captures.SNAPLEN:
                    raise Refused(f"{self.source.path}: record {number} leaves no room for a mark")
                if number in self.marks and record.packet is not None:
                    index = indices[record.packet.index, self.marks[number]]
                    data = data[:4] + index.to_bytes(4, "big") + data[8:]
                captures.write_record(file, record.time, data)
        if self.source.header.aligned:
            captures.mark_aligned(path)

    def write(self, folder: str, text: str) -> Files:
        """Writes ruleset, box file and capture into a folder."""
        files = Files(*(os.path.join(folder, name) for name in ("fitted.nft", "box.txt", "in.pcap")))
        found = self.aliases(text)
        with open(files.rules, "wb") as file:
            file.write(self.rules(text, found).encode("utf-8", "surrogateescape"))
        with open(files.box, "wb") as file:
            file.write(self.box(found))
        self.write_capture(files.capture, found)
        return files

    def check_ways(self, report: str, left: str) -> None:
        """Refuses where nftrun takes a marked record otherwise than it would by the real interface: `redirect` takes
        the address of the interface (docs/SPEC.md, 7.2), and hairpin asks whose address it is (7.6)."""
        leaving = (data for *_, data in captures.records(left))
        for record, (number, events, outcome) in zip(self.source.records(), reports.records_of(report)):
            out = next(leaving)[LINK:] if outcome == b"passed" else None
            packet = record.packet
            if number not in self.marks or packet is None:
                continue
            redirected = any(it.endswith(b" redirect") and not it.startswith(b"log ") for it in events)
            goes_to = packet.data[16:20]
            is_own = self.source.box.addresses.get(goes_to) == packet.index
            turned = out[12:16] == goes_to if out is not None else outcome in (b"noport", b"clash")
            if redirected or is_own and turned:
                raise Refused(f"{self.source.path}: record {number} wants a mark, and goes by the address of its "
                              "interface (redirect, hairpin), which a marked record hasn't")


def free_prefix(text: str, box: Box) -> str:
    """The beginning of names that no rule and no interface has, and that no rule's `name*` covers."""
    begun = [it.rstrip("*") for it in re.findall(r'"([^"\n]*\*)"', text)]
    for first in ("", *string.ascii_letters):
        prefix = f"{first}marked."
        if prefix not in text and not any(it.startswith(prefix) for it in box.indices) and not any(
                it and (prefix.startswith(it) or it.startswith(prefix)) for it in begun):
            return prefix
    raise Refused("no names are left for interfaces that stand for marked records")
