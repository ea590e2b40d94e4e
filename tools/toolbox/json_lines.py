"""Records as lines of JSON: what came, what left, and the rules on the way."""
from __future__ import annotations

import json
from itertools import islice
from typing import TYPE_CHECKING, Callable, Dict, Iterator, Tuple, TypeVar

from toolbox.captures import (
    BROADCAST, LENGTH, LINK_LENGTHS, LINUX_SLL2, MULTICAST, OTHER_STATION, SENT_BY_US, header_of, packet_at, pieces,
    records)
from toolbox.flows import ERROR, MOST_READ
from toolbox.packets import (
    ASK, ECHO_REPLY, ECHO_REQUEST, ECHOES, ICMP, KIND, PORTED, PROTOCOL_NAMES, TCP, UDP, address_text, destination_of,
    destination_port, error_tuple_at, identifier_of, inverse, kind_of, numbered_parts, sent_tuples, source_of,
    source_port, tuple_at)
from toolbox.reports import Log, event_of, text_of, traced_records

if TYPE_CHECKING:
    from toolbox.boxes import Box
    from toolbox.flows import Flows
    from toolbox.rulesets import Ruleset

DIRECTIONS = ('"original"', '"reply"')
MOST_CACHED = 1 << 14  # of 10^5 flows few are active at a time; texts take some 250 bytes each
# what a record of LINUX_SLL2 is that was dropped for `link`, by its packet type
LINK_KINDS = {bytes([kind]): f', "link": "{word}"' for kind, word in (
    (BROADCAST, "group"), (MULTICAST, "group"), (OTHER_STATION, "other station"), (SENT_BY_US, "copy"))}
OUT_LINK = LINK_LENGTHS[LINUX_SLL2]
NOT_LEFT = "null", "null"  # where a packet left, and as what


Known = TypeVar("Known")
Told = Dict[str, object]  # what becomes an object of JSON
Echo = Tuple[bytes, int]  # the tuple of an echo, and its code


class Cache(Dict[Known, str]):
    """Texts by what they are of: makes those that it lacks, and begins anew when it is full."""

    def __init__(self, make: Callable[[Known], str]) -> None:
        super().__init__()
        self.make = make

    def __missing__(self, key: Known) -> str:
        if len(self) >= MOST_CACHED:
            self.clear()
        value = self[key] = self.make(key)
        return value


def event_json(event: bytes, ruleset: Ruleset | None = None) -> Told:
    """An event of a report, with the text of its rule where the ruleset is known."""
    one = event_of(event)
    told: Told = {"chain": one.chain, "rule": one.rule}
    if isinstance(one, Log):
        told["log"] = one.prefix
    else:
        told["verdict"] = one.verdict
    if ruleset is not None and one.rule is not None:
        told["text"] = ruleset.text_of(one.chain, one.rule)
    return told


def events_cache(ruleset: Ruleset | None = None) -> Cache[bytes]:
    """The JSON of events, by their bytes, each with a newline behind it."""
    return Cache(lambda events: json.dumps([event_json(event, ruleset) for event in events.split(b"\n")[:-1]]))


def tuple_json(key: bytes) -> Told:
    """The parts of a tuple."""
    kind = kind_of(key)
    told: Told = {"protocol": PROTOCOL_NAMES.get(kind, str(kind)), "saddr": address_text(source_of(key)),
                  "daddr": address_text(destination_of(key))}
    if kind in PORTED:
        told["sport"], told["dport"] = source_port(key), destination_port(key)
    elif kind in ECHOES:
        told["protocol"] = "icmp"
        told["type"] = ECHO_REQUEST if kind == ASK else ECHO_REPLY
        told["id"] = identifier_of(key)
    return told


def packet_json(data: bytes, at: int | None) -> Told | None:
    """The ends of an IPv4 packet of any kind, or None."""
    if at is None or len(data) < at + 20 or data[at] >> 4 != 4:
        return None
    protocol, behind = data[at + 9], at + 4 * (data[at] & 15)
    told: Told = {"protocol": PROTOCOL_NAMES.get(protocol, str(protocol)),
                  "saddr": address_text(data[at + 12:at + 16]), "daddr": address_text(data[at + 16:at + 20])}
    if data[at + 6] & 0x1F or data[at + 7]:
        told["fragment"] = True
    elif protocol in (TCP, UDP) and len(data) >= behind + 4:
        told["sport"] = int.from_bytes(data[behind:behind + 2], "big")
        told["dport"] = int.from_bytes(data[behind + 2:behind + 4], "big")
    elif protocol == ICMP and len(data) >= behind + 8:
        told["type"], told["code"] = data[behind], data[behind + 1]
        about = error_tuple_at(data, at)
        if about:
            told["about"] = tuple_json(inverse(about))
        elif data[behind] in (ECHO_REPLY, ECHO_REQUEST):
            told["id"] = int.from_bytes(data[behind + 4:behind + 6], "big")
    return told


class PacketTexts:
    """The JSON of packets. That of TCP and UDP is kept by their tuple, that of an echo by its tuple and code."""

    def __init__(self) -> None:
        self.kept: Cache[bytes] = Cache(self.ports_text)
        self.echoes: Cache[Echo] = Cache(self.echo_text)
        self.addresses: Cache[bytes] = Cache(address_text)

    def ports_text(self, key: bytes) -> str:
        source, destination, sport, dport, kind = numbered_parts(key)
        return (f'{{"protocol": "{PROTOCOL_NAMES[kind]}", "saddr": "{self.addresses[source]}", '
                f'"daddr": "{self.addresses[destination]}", "sport": {sport}, "dport": {dport}}}')

    def came_text(self, key: bytes) -> str:
        """The text of a packet of TCP or UDP, by its tuple; nothing of others, of which the tuple doesn't tell all."""
        return self.ports_text(key) if key[KIND] in PORTED else ""

    def echo_text(self, echo: Echo) -> str:
        key, code = echo
        source, destination, asker, answerer, kind = numbered_parts(key)
        told, identifier = (ECHO_REQUEST, asker) if kind == ASK else (ECHO_REPLY, answerer)
        return (f'{{"protocol": "icmp", "saddr": "{self.addresses[source]}", "daddr": "{self.addresses[destination]}", '
                f'"type": {told}, "code": {code}, "id": {identifier}}}')

    def text(self, data: bytes, at: int | None) -> str:
        key = None if at is None else tuple_at(data, at)
        if key is None or at is None:
            return json.dumps(packet_json(data, at))
        kind = key[KIND]
        if kind in PORTED:
            return self.kept[key]
        if kind in ECHOES and data[at + 9] == ICMP:
            return self.echoes[key, data[at + 4 * (data[at] & 15) + 1]]
        return json.dumps(packet_json(data, at))


class RecordTexts:
    """The line of each record of a run."""

    def __init__(self, flows: Flows, box: Box, ruleset: Ruleset) -> None:
        self.flows, self.header = flows, header_of(flows.path)
        self.events, self.packets = events_cache(ruleset), PacketTexts()
        # of entering packets, by the place of their tuple; nothing of those that aren't of TCP or UDP
        self.came: Cache[int] = Cache(lambda place: self.packets.came_text(flows.tuples[place]))
        names = {index.to_bytes(4, "big"): name for index, name in box.names.items()}
        self.names: Cache[bytes] = Cache(lambda index: json.dumps(names.get(index, int.from_bytes(index, "big"))))
        self.outcomes: Cache[bytes] = Cache(lambda outcome: json.dumps(text_of(outcome)))
        self.default = json.dumps(box.default)

    def lines(self, leaving: str, report: str) -> Iterator[str]:
        """The lines in order, by the packets that left and the report."""
        flows, link_type, pad = self.flows, self.header.link_type, f"0{len(str(self.header.fractions)) - 1}"
        packet_text, names, came, told, outcomes = self.packets.text, self.names, self.came, self.events, self.outcomes
        is_sll2, directions, default, left = link_type == LINUX_SLL2, DIRECTIONS, self.default, self.left(leaving)
        columns = (islice(numbers, 1, None) for numbers in (flows.of, flows.is_reply, flows.part, flows.seen))
        for (number, seconds, fraction, _, _, _, data), (events, outcome), flow, is_reply, part, place in zip(
                records(flows.path, MOST_READ), traced_records(report), *columns):
            came_by = names[data[4:8]] if is_sll2 else default
            before = came[place] if flow and part != ERROR else ""
            if not before:
                before = packet_text(data, packet_at(data, link_type))
            left_by, after = next(left) if outcome == b"passed" else NOT_LEFT
            ended = outcomes[outcome]
            if is_sll2 and outcome == b"link":
                ended += LINK_KINDS.get(data[10:11], "")
            yield (f'{{"record": {number}, "time": {seconds}.{fraction:{pad}}, "flow": {flow or "null"}, '
                   f'"direction": {directions[is_reply] if flow else "null"}, "in": {came_by}, "before": {before}, '
                   f'"events": {told[events] if events else "[]"}, "outcome": {ended}, "out": {left_by}, '
                   f'"after": {after}}}\n')

    def left(self, leaving: str) -> Iterator[tuple[str, str]]:
        """Of each packet that left, the interface and the packet."""
        names, packets, kept, ported = self.names, self.packets, self.packets.kept, PORTED
        for piece, _, starts, headers in pieces(leaving):
            for start, key, header in zip(starts, sent_tuples(piece, starts, OUT_LINK, MOST_READ), headers):
                if key is not None and key[KIND] in ported:
                    after = kept[key]
                else:
                    after = packets.text(piece[start:start + min(header[LENGTH], MOST_READ)], OUT_LINK)
                yield names[piece[start + 4:start + 8]], after
