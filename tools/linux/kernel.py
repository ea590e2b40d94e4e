"""Sends the records of a capture through the kernel's nf_tables, one by one, and watches what becomes of each."""
from __future__ import annotations

import json
import select
import struct
import time
from dataclasses import dataclass
from typing import Any, Dict, Iterable

from linux.frames import Cables, Sending, sending_of
from linux.namespaces import Lab, command, write_setting
from linux.netlink import Connections, Event, Traces
from linux.seen import Fate, Packet, Place, Told
from linux.telling import PROBE, STATES
from toolbox.boxes import Box
from toolbox.captures import IPV4, IPV6
from toolbox.commands import Refused
from toolbox.reports import Decision, RuleCounter

FIRST, LAST = -2147483648, 2147483646
ETHERNET_HEADER, OUTGOING = 14, 4
# so long it is waited behind what decided, for what the box says of its own
GRACE = 0.002
# so many times the usual is waited for a packet that is under way
PATIENCE = 5
FRAME_ROOM = 1 << 17
# the chains below by which a packet was seen, the last ones first
PLACES = {"post9": Place.BEHIND, "forward9": Place.POSTROUTING, "forward0": Place.FORWARD, "in9": Place.BEHIND_INPUT,
          "in0": Place.INPUT, "pre": Place.PREROUTING}

Entry = Dict[str, Any]  # of what nft lists as JSON


@dataclass(frozen=True)
class Handle:
    """How the kernel names a rule."""

    chain: str
    number: int


@dataclass(frozen=True)
class Clock:
    """A moment of the capture, in nanoseconds, and the kernel's at which time was passed up to it."""

    capture: int
    kernel: float


def probe_text(with_states: bool) -> str:
    """Chains that see each packet first and last in every hook, and change nothing."""
    states = "\n".join(f"  ct state {state} continue" for state in STATES) if with_states else ""
    return f"""table inet {PROBE} {{
 chain pre {{ type filter hook prerouting priority {FIRST};
  iifname != "lo" meta nftrace set 1
 }}
 chain states {{ type filter hook prerouting priority -199;
{states}
 }}
 chain in0 {{ type filter hook input priority {FIRST}; }}
 chain in9 {{ type filter hook input priority {LAST}; }}
 chain forward0 {{ type filter hook forward priority {FIRST}; }}
 chain forward9 {{ type filter hook forward priority {LAST}; }}
 chain post9 {{ type filter hook postrouting priority {LAST}; }}
 chain own {{ type filter hook output priority {FIRST};
  meta nfproto ipv6 drop
  ip protocol igmp drop
  counter
 }}
}}
"""


class Rules:
    """The ruleset as the kernel has it: numbers of rules by their handles, and counters at the end."""

    def __init__(self, path: str) -> None:
        command("nft", "-f", path)
        listing = self.listing()
        self.numbers: dict[Handle, int] = {}
        self.own_packets = 0
        counts: dict[str, int] = {}
        text = json.dumps(listing)
        # connections are kept by Linux only where something asks for them
        self.tracks = '"ct"' in text or '"type": "nat"' in text or '"notrack"' in text
        for rule in rules_in(listing):
            chain = name_of_chain(rule)
            counts[chain] = counts.get(chain, 0) + 1
            self.numbers[Handle(chain, rule["handle"])] = counts[chain]
        if any(entry.get("table", {}).get("name") == PROBE for entry in listing):
            raise Refused(f"the ruleset has a table {PROBE}, which this command wants for itself")
        command("nft", "-f", "-", text=probe_text(self.tracks))
        probes = [rule for rule in rules_in(self.listing()) if name_of_chain(rule) == f"inet {PROBE} states"]
        self.states: dict[int, str] = {rule["handle"]: state for rule, state in zip(probes, STATES)}

    @staticmethod
    def listing() -> list[Entry]:
        listed: list[Entry] = json.loads(command("nft", "-j", "-a", "list", "ruleset"))["nftables"]
        return listed

    def decision_of(self, event: Event) -> Decision:
        chain = f"{event.family} {event.table} {event.chain}"
        rule = None if event.rule is None else self.numbers.get(Handle(chain, event.rule), event.rule)
        return Decision(chain, rule, event.verdict)

    def counters(self) -> list[RuleCounter]:
        """As the report of nftrun has them; those of the text's own rules. `own_packets` is how many the box sent."""
        counters: list[RuleCounter] = []
        counts: dict[str, int] = {}
        for rule in rules_in(self.listing()):
            chain = name_of_chain(rule)
            here = [expression["counter"] for expression in rule["expr"]
                    if isinstance(expression, dict) and isinstance(expression.get("counter"), dict)]
            if rule["table"] == PROBE:
                self.own_packets = sum((counter["packets"] for counter in here), self.own_packets)
                continue
            counts[chain] = counts.get(chain, 0) + 1
            for which, counter in enumerate(here, 1):
                counters.append(RuleCounter(chain, counts[chain], which, counter["packets"], counter["bytes"]))
        return counters


def rules_in(listing: Iterable[Entry]) -> list[Entry]:
    return [entry["rule"] for entry in listing if "rule" in entry]


def name_of_chain(rule: Entry) -> str:
    return f"{rule['family']} {rule['table']} {rule['chain']}"


class Replay:
    """One capture's way through the kernel; the process is in the router's namespace."""

    def __init__(self, lab: Lab, rules_path: str, wait: float) -> None:
        self.lab, self.wait = lab, wait
        self.reach = Cables(lab.numbers, lab.with_ipv6)
        self.rules = Rules(rules_path)
        self.traces = Traces()
        self.connections = Connections() if self.rules.tracks else None
        self.clock: Clock | None = None
        self.take_frames([])

    def close(self) -> None:
        self.traces.close()
        if self.connections:
            self.connections.close()

    def keep_time(self, moment: int) -> None:
        """Has connections age as the capture's time passes, to a second."""
        now = time.monotonic()
        if self.clock is None:
            self.clock = Clock(moment, now)
        ahead = (moment - self.clock.capture) / 1e9 - (now - self.clock.kernel)
        whole = int(ahead)
        if whole and self.connections:
            self.connections.pass_time(whole)
            self.clock = Clock(self.clock.capture + whole * 10**9, self.clock.kernel)

    def send(self, moment: int, data: bytes, link_type: int) -> Told:
        """What becomes of one record."""
        self.keep_time(moment)
        sending = sending_of(data, link_type, self.lab.box, self.reach)
        if sending.frame is None:
            return Told(sending, Fate.UNSENT, Place.NOWHERE, None, [], [], [])
        try:
            self.lab.cables[sending.frame.interface].send(sending.frame.data)
        except OSError as error:
            raise Refused(f"a packet of {len(sending.packet)} bytes can't be sent: {error.strerror}") from None
        return self.watch(sending)

    def watch(self, sending: Sending) -> Told:
        """Waits until it is decided what becomes of a packet, and shortly for what the box says of its own."""
        events: list[Event] = []
        frames: list[Packet] = []
        decided, begun = False, time.monotonic()
        end, last_end = begun + self.wait, begun + PATIENCE * self.wait
        while True:
            left = end - time.monotonic()
            if left > 0:
                select.select([self.traces, *self.lab.cables.values()], [], [], left)
            events += self.traces.read()
            self.take_frames(frames)
            if not decided and is_decided(events, frames):
                decided, end = True, time.monotonic() + GRACE
            elif left <= 0:
                if decided or not is_under_way(events) or time.monotonic() >= last_end:
                    return self.told(sending, events, frames)
                end = min(last_end, time.monotonic() + self.wait)

    def take_frames(self, frames: list[Packet]) -> None:
        """What left by the cables by now."""
        for index, cable in self.lab.cables.items():
            while True:
                try:
                    frame, address = cable.recvfrom(FRAME_ROOM)
                except BlockingIOError:
                    break
                if address[2] != OUTGOING and frame[12:14] in (IPV4, IPV6):
                    frames.append(Packet(index, without_padding(frame[ETHERNET_HEADER:])))

    def told(self, sending: Sending, events: list[Event], frames: list[Packet]) -> Told:
        probes = [event for event in events if event.table == PROBE]
        seen = {event.chain for event in probes}
        decisions = [self.rules.decision_of(event) for event in events if event.table != PROBE]
        states = [self.rules.states[event.rule] for event in probes
                  if event.rule is not None and event.rule in self.rules.states and event.chain == "states"]
        last = [event.header for event in probes if event.chain == "post9" and event.header]
        leaves = [frame for frame in frames if "post9" in seen and (not last or is_of(frame.data, last))]
        made = [frame for frame in frames if frame not in leaves]
        is_dropped = any(decision.verdict == "drop" for decision in decisions)
        return Told(sending, fate_of(bool(leaves), "in9" in seen, is_dropped), where_of(seen),
                    states[0] if states else None, decisions, leaves, made)


def fate_of(leaves: bool, came_in: bool, is_dropped: bool) -> Fate:
    if leaves:
        return Fate.PASSED
    if is_dropped:
        return Fate.RULE
    return Fate.LOCAL if came_in else Fate.DROPPED


def is_of(packet: bytes, headers: Iterable[bytes]) -> bool:
    """Whether a packet has one of the headers that postrouting saw; its own checksum was written later perhaps."""
    return any(packet[:10] == header[:10] and packet[12:20] == header[12:20] for header in headers)


def is_decided(events: Iterable[Event], frames: list[Packet]) -> bool:
    if any(event.verdict == "drop" for event in events):
        return True
    seen = {event.chain for event in events if event.table == PROBE}
    return "in9" in seen or ("post9" in seen and bool(frames))


def is_under_way(events: Iterable[Event]) -> bool:
    """Whether more has to come: nothing was seen yet, or the packet went through postrouting and hasn't left. A machine
    that is busy may be slow."""
    seen = {event.chain for event in events if event.table == PROBE}
    return not seen or "post9" in seen


def where_of(seen: set[str]) -> Place:
    """The last place that a packet was seen at, by the chains that saw it."""
    return next((place for chain, place in PLACES.items() if chain in seen), Place.BEFORE)


def without_padding(packet: bytes) -> bytes:
    if packet[:1] and packet[0] >> 4 == 4 and len(packet) >= 4:
        length: int = struct.unpack_from(">H", packet, 2)[0]
        return packet[:length]
    return packet


def set_limits(box: Box) -> None:
    """Has Linux keep connections just as long as the box file says, and look at no sequence numbers and checksums."""
    idle = box.idle
    limits = {
        "udp_timeout": idle["udp"], "udp_timeout_stream": idle["udp"], "icmp_timeout": idle["ask"],
        "generic_timeout": idle["other"], "gre_timeout": idle["other"], "gre_timeout_stream": idle["other"],
        "tcp_timeout_established": idle["established"], "tcp_timeout_unacknowledged": idle["established"],
        "tcp_timeout_max_retrans": idle["established"],
    }
    for phase in ("syn_sent", "syn_recv", "last_ack", "time_wait", "close"):
        limits[f"tcp_timeout_{phase}"] = idle["transitory"]
    # a connection of which one end has sent FIN is still established here
    for phase in ("fin_wait", "close_wait"):
        limits[f"tcp_timeout_{phase}"] = idle["established"]
    for name, seconds in limits.items():
        write_setting(f"netfilter/nf_conntrack_{name}", seconds)
    write_setting("netfilter/nf_conntrack_tcp_be_liberal", 1)
    write_setting("netfilter/nf_conntrack_checksum", 0)
