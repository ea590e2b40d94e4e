"""What in a capture and a box file misleads a run, found in one pass over the records, beside the flows."""
from __future__ import annotations

from collections import Counter
from dataclasses import dataclass
from typing import TYPE_CHECKING, Iterator, Mapping

from toolbox.captures import (
    BROADCAST, LINUX_SLL2, MULTICAST, OTHER_STATION, PROTOCOL_AT, TO_US, header_of, packet_at, records)
from toolbox.commands import plural, read_text
from toolbox.flows import MOST_READ, Flows
from toolbox.packets import TCP, address_text, identity
from toolbox.wire import Clock, Mirror, has_wrong_checksum, jumps_of

if TYPE_CHECKING:
    from toolbox.boxes import Box

ETHER_TYPES = {b"\x86\xdd": "IPv6", b"\x08\x06": "ARP", b"\x81\x00": "VLAN tags", b"\x88\xa8": "VLAN tags",
               b"\x88\x64": "PPPoE"}
NOT_IP_ADVICE = {"IPv6": ": a table of family inet counts IPv4 alone here",
                 "VLAN tags": ": capture at the interface of the VLAN, or on all of them (-i any -y LINUX_SLL2)",
                 "PPPoE": ": capture at the interface ppp.., or on all of them (-i any -y LINUX_SLL2)"}
LONGEST_PACKET = 1500  # bytes that fit into a frame of Ethernet
MISLEADING_NOT_IP = ("VLAN tags",)
WINDOW = 4096  # how many packets may come between two sights of one
MOST_LISTED = 5
FEW_FLOWS = 10


@dataclass(frozen=True)
class Finding:
    """`misleads` tells whether a run differs by it from what the box did; `numbers` are for scripts."""

    name: str
    misleads: bool
    text: str
    advice: str
    numbers: Mapping[str, object]


class Checkup:
    """The counts of one pass over the records."""

    def __init__(self, capture: str, box: Box) -> None:
        self.capture, self.box, self.header = capture, box, header_of(capture)
        self.link_type = self.header.link_type
        self.flows = Flows(capture, box)
        self.not_ip: Counter[str] = Counter()
        self.lacking: Counter[int] = Counter()
        self.own_sources: Counter[bytes] = Counter()
        self.types: Counter[int] = Counter()
        self.cut = self.joined = self.fragments = self.by_loopback = self.unsummed = 0
        self.clock, self.mirror = Clock(self.flows, box, self.header), Mirror(self.header)
        # entering packets by identity that were seen on interfaces that the box file lacks alone, so far
        self.elsewhere: dict[bytes, int] = {}
        self.elsewhere_before: dict[bytes, int] = {}
        self.alone: Counter[int] = Counter()
        # entering packets with the interface of the box file, and how many entered by two such, by both
        self.entered: dict[bytes, bytes] = {}
        self.entered_before: dict[bytes, bytes] = {}
        self.twice: Counter[tuple[bytes, bytes]] = Counter()
        self.ip = self.count = 0
        self.protocol_at, self.indices = PROTOCOL_AT[self.link_type], box.index_bytes()
        self.read()

    def read(self) -> None:
        for self.count, seconds, fraction, _, length, original, data in records(self.capture, MOST_READ):
            moment = seconds * self.header.fractions + fraction
            self.clock.take(self.count, moment)
            self.cut += length < original
            at = packet_at(data, self.link_type)
            if at is None or len(data) < at + 20 or data[at] >> 4 != 4:
                self.take_other(data, at)
            else:
                self.take_packet(data, at, moment)
        for mark in (*self.elsewhere_before.values(), *self.elsewhere.values()):
            self.alone[mark] += 1

    def take_other(self, data: bytes, at: int | None) -> None:
        """A record without an IPv4 packet."""
        if at is not None:
            self.not_ip["IPv6" if len(data) > at and data[at] >> 4 == 6 else "damaged"] += 1
        elif self.protocol_at is None or len(data) < self.protocol_at + 2:
            self.not_ip["damaged"] += 1
        else:
            kind = data[self.protocol_at:self.protocol_at + 2]
            self.not_ip[ETHER_TYPES.get(kind, f"EtherType {kind.hex()}")] += 1

    def take_packet(self, data: bytes, at: int, moment: int) -> None:
        self.ip += 1
        self.fragments += bool(data[at + 6] & 0x3F or data[at + 7])
        if self.link_type == LINUX_SLL2 and not self.take_interface(data, at):
            return
        self.unsummed += has_wrong_checksum(data, at)
        self.mirror.take(data[4:8] + data[at:] if self.link_type == LINUX_SLL2 else data[at:], moment)
        if data[at + 12:at + 16] in self.box.addresses:
            if self.link_type == LINUX_SLL2 and self.box.names.get(int.from_bytes(data[4:8], "big")) == "lo":
                self.by_loopback += 1
            else:
                self.own_sources[data[at + 12:at + 16]] += 1
        self.joined += int.from_bytes(data[at + 2:at + 4], "big") > LONGEST_PACKET

    def take_interface(self, data: bytes, at: int) -> bool:
        """Counts a packet by its interface and type; answers whether it enters the box."""
        self.types[data[10]] += 1
        if data[4:8] in self.indices:
            if data[10] == TO_US and len(data) >= at + 28:
                if self.elsewhere or self.elsewhere_before:
                    mark = identity(data, at)
                    self.elsewhere.pop(mark, None)
                    self.elsewhere_before.pop(mark, None)
                self.take_entering(data[at + 2:at + 28], data[4:8])
            return data[10] == TO_US
        index = int.from_bytes(data[4:8], "big")
        self.lacking[index] += 1
        if data[10] in (TO_US, OTHER_STATION) and len(data) >= at + 28:
            self.elsewhere[identity(data, at)] = index
            if len(self.elsewhere) > WINDOW:
                for gone in self.elsewhere_before.values():
                    self.alone[gone] += 1
                self.elsewhere, self.elsewhere_before = {}, self.elsewhere
        return False

    def take_entering(self, mark: bytes, index: bytes) -> None:
        """A packet that enters by an interface of the box, known by the first bytes of its headers: perhaps it was seen
        at another one just before."""
        before = self.entered.get(mark) or self.entered_before.get(mark)
        if before and before != index:
            self.twice[before, index] += 1
        self.entered[mark] = index
        if len(self.entered) > WINDOW:
            self.entered, self.entered_before = {}, self.entered

    # What was found

    def findings(self, routed: Mapping[int, int] | None = None) -> list[Finding]:
        """All findings, those that mislead a run first. `routed` has the interfaces that the box file lacks, and from
        which the box routed packets, with how many."""
        found = [*self.of_file(), *self.of_clock(), *self.of_unknown(routed or {}), *self.of_interfaces(routed or {}),
                 *self.of_sights(), *self.of_packets(), *self.of_other_packets(), *self.of_flows()]
        return sorted(found, key=lambda one: not one.misleads)

    def of_file(self) -> Iterator[Finding]:
        if self.cut:
            yield Finding("snap length", True,
                          f"{plural(self.cut, 'record')} cut by the snap length ({self.header.snaplen})",
                          "they are dropped for `truncated`: capture with tcpdump -s 0", {"records": self.cut})
        if self.flows.torn and not self.count:
            yield Finding("torn", True, "the file ends within its first record",
                          "nothing in it can be replayed: a run ends with status 7", {})
        elif self.flows.torn:
            yield Finding("torn", True, "the file ends within a record",
                          "a run takes the whole records before it, and ends with status 7", {})
        elif not self.count:
            yield Finding("empty", True, "no record is in it",
                          "a run of it says nothing of any rule: look at what tcpdump said, and at its filter", {})
        if self.header.aligned:
            yield Finding("aligned", False, "answers were sent to the ports that nftrun chose (nftrun align)",
                          "replay it with the rules with which it was aligned", {})

    def of_clock(self) -> Iterator[Finding]:
        clock = self.clock
        if clock.back is not None:
            seconds = plural(clock.back.seconds, "second")
            yield Finding("clock back", True, f"the clock goes back by {seconds} at record {clock.back.record}",
                          f"{plural(clock.earlier, 'record')} with an earlier time than one before: a run takes the "
                          "greatest time so far, so nothing expires until the clock is there again",
                          {"record": clock.back.record, "seconds": clock.back.seconds, "records": clock.earlier})
        elif clock.earlier:
            yield Finding("time", False, f"{plural(clock.earlier, 'record')} with an earlier time than the one before",
                          "a run takes the order of the file, and the greatest time so far",
                          {"records": clock.earlier})
        for jump in jumps_of(clock):
            yield Finding("clock forward", True, f"the clock goes forward by {plural(jump.seconds, 'second')} at "
                          f"record {jump.record}, and {plural(jump.flows, 'flow')} heard before and behind it expired",
                          "by `idle` in the box file; on the router they lived on, if its clock was set then (NTP, a "
                          "machine that slept)",
                          {"record": jump.record, "seconds": jump.seconds, "flows": jump.flows})

    def of_unknown(self, routed: Mapping[int, int]) -> Iterator[Finding]:
        """Interfaces of the box that the box file doesn't say, or can't."""
        for index, packets in sorted(routed.items()):
            yield Finding("unknown interface", True, f"{plural(packets, 'packet')} came by index {index}, which the "
                          "box file lacks, and the router sent them on",
                          "they are dropped for `interface`: add it (ip -o -4 addr); an interface without an IPv4 "
                          "address of its own a box file can't say", {"packets": packets, "index": index})
        left_out = [line.partition("# left out:")[2].strip() for line in read_text(self.box.path).splitlines()
                    if line.startswith("# left out:")]
        addresses = [line for line in left_out if line.partition(" ")[0].rstrip(":").isdecimal()]
        for name, misleads, lines in (("interfaces left out", True, addresses),
                                      ("routes left out", False, [one for one in left_out if one not in addresses])):
            if lines:
                text = "; ".join(" ".join(line.split()[:6]) for line in lines[:MOST_LISTED])
                yield Finding(name, misleads, f"{plural(len(lines), 'line')} of ip that the box file can't say: {text}"
                              + ("; .." if len(lines) > MOST_LISTED else ""),
                              "what goes by these isn't replayed as it went (docs/BOX.md)", {"lines": len(lines)})

    def of_interfaces(self, routed: Mapping[int, int]) -> Iterator[Finding]:
        lacking = sum(self.lacking.values())
        ports = {index: number for index, number in self.alone.items() if index not in routed}
        if lacking:
            listed = ", ".join(f"index {index}: {number}" for index, number in self.lacking.most_common(MOST_LISTED))
            rest = ", .." if len(self.lacking) > MOST_LISTED else ""
            yield Finding(
                "interfaces", bool(ports),
                f"{plural(lacking, 'record')} of interfaces that the box file lacks ({listed}{rest})",
                "they are dropped for `interface` or `link`: right for bridge ports and devices below a VLAN; else add "
                "the interface (nftrun box-from-ip)", {"records": lacking, "by_index": dict(self.lacking)})
        alone = sum(ports.values())
        if alone:
            yield Finding(
                "bridge", True, f"{plural(alone, 'packet')} entered by interfaces that the box file lacks (index "
                f"{', '.join(map(str, sorted(ports)[:MOST_LISTED]))}) and seen on none that it has",
                "bridged from port to port, if these are bridge ports: with net.bridge.bridge-nf-call-iptables=1 Linux "
                "shows them to prerouting, forward and postrouting; a run doesn't (docs/CAPTURES.md)",
                {"packets": alone})

    def of_sights(self) -> Iterator[Finding]:
        """Packets that were seen twice."""
        for (first, second), number in sorted(self.twice.items()):
            names = [self.box.interface_name(int.from_bytes(index, "big")) for index in (first, second)]
            yield Finding(
                "twice", True, f"{plural(number, 'packet')} seen to enter by {names[0]} and again by {names[1]}",
                "they are replayed twice: one is the port of a bridge, or below a VLAN, and has an address of its own; "
                "leave out that sight (docs/CAPTURES.md)", {"packets": number, "interfaces": names})
        doubles = self.mirror.doubles()
        if doubles:
            yield Finding("mirrored", True, f"{doubles} of {plural(self.mirror.packets, 'packet')} seen twice on one "
                          "interface, all bytes the same", "a port that mirrors (SPAN) both sides of a link: they are "
                          "replayed twice, and counted twice; mirror one direction, or drop them by editcap -d",
                          {"packets": doubles})

    def of_packets(self) -> Iterator[Finding]:
        own = sum(self.own_sources.values())
        if own:
            addresses = ", ".join(address_text(address) for address, _ in self.own_sources.most_common(MOST_LISTED))
            yield Finding("own source", True,
                          f"{plural(own, 'record')} from the box's own addresses ({addresses}) taken as entering",
                          "captured without -Q in: what the box sent is replayed as if it came. Capture with tcpdump "
                          "-Q in, or on all interfaces with -i any -y LINUX_SLL2", {"records": own})
        if self.by_loopback:
            yield Finding("loopback", True, f"{plural(self.by_loopback, 'record')} of the box's own by lo",
                          "they are replayed as if they came from outside: capture with 'not ifindex 1'",
                          {"records": self.by_loopback})
        if self.fragments:
            yield Finding("fragments", True, plural(self.fragments, "fragment"),
                          "dropped for `fragment`; Linux puts them together where connections are tracked",
                          {"records": self.fragments})
        if self.unsummed:
            yield Finding("checksums", True,
                          f"{plural(self.unsummed, 'packet')} with a wrong checksum in the IP header",
                          "dropped for `checksum`: a card computes it later (offload): capture at another place, or "
                          "turn that off (ethtool -K DEV tx off)", {"packets": self.unsummed})

    def of_other_packets(self) -> Iterator[Finding]:
        if self.joined:
            yield Finding("joined", False, f"{plural(self.joined, 'packet')} longer than {LONGEST_PACKET} bytes",
                          "joined by the card or the kernel (GRO, LRO): counters count them as the box does",
                          {"packets": self.joined})
        for name, number in self.not_ip.most_common():
            share = 100 * number / self.count
            yield Finding(name, name in MISLEADING_NOT_IP or name == "IPv6" and share >= 1,
                          f"{plural(number, 'record')} of {name}, {share:.1f} % of all",
                          f"no rule sees them{NOT_IP_ADVICE.get(name, '')}", {"records": number})
        for kinds, name in (((OTHER_STATION,), "frames for other stations"),
                            ((BROADCAST, MULTICAST), "broadcasts and multicasts")):
            number = sum(self.types[kind] for kind in kinds)
            if number:
                yield Finding(name, False, f"{number} {name}", "dropped for `link`: no rule sees them",
                              {"records": number})

    def of_flows(self) -> Iterator[Finding]:
        flows = self.flows
        own = len(flows.answers_to_box())
        if own:
            yield Finding(
                "answers to the box", True, f"{plural(own, 'record')} with answers to packets of the box itself",
                "on Linux they are established; here they are new, since a run has no packets of the box, and input "
                "drops them, or a mapping leads them inside: nftrun align takes them out", {"records": own})
        midway = flows.without_beginning()
        if midway:
            yield Finding("no beginning", True, f"{plural(midway, 'TCP flow')} without a SYN in the capture",
                          "they began before it: new at their first packet here, established on Linux",
                          {"flows": midway})
        yield from self.of_answers()
        yield from self.of_copies()

    def of_answers(self) -> Iterator[Finding]:
        flows = self.flows
        begun = [flow for flow in flows.some() if flow.kind == TCP and flow.has_begun]
        unanswered = sum(not flows.answered[flow.number] for flow in begun)
        if len(begun) >= FEW_FLOWS and unanswered > 0.9 * len(begun):
            yield Finding("one direction", True, f"{unanswered} of {plural(len(begun), 'TCP flow')} without any answer",
                          "the other direction isn't in the capture, or isn't taken: capture on all interfaces "
                          "(-i any -y LINUX_SLL2)", {"flows": unanswered})

    def of_copies(self) -> Iterator[Finding]:
        flows = self.flows
        translated = flows.translated()
        if self.link_type == LINUX_SLL2 and not flows.copies:
            yield Finding("no copies", False, "no outgoing copies in the capture",
                          "what Linux chose isn't known, so it can't be aligned: capture without -Q in", {})
        elif translated and not flows.aligned:
            yield Finding("translated", False, f"{plural(translated, 'flow')} translated by Linux",
                          "it may have chosen other ports than a run does: nftrun doctor BOX IN RULES tells, and "
                          "nftrun align mends", {"flows": translated})
