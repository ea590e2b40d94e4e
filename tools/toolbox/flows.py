"""Which records of a capture are one flow: both directions, through translation, with the ICMP errors about them.

A flow is learned from the capture alone: by the tuples of its packets and their inverses, by the box's own outgoing
copies (which tell what Linux made of a tuple), by the numbers of a TCP handshake, and where a capture has no copies, by
what a first run made of it (`Flows.join`). Side 0 is that of the flow's first record, its original direction.
"""
from __future__ import annotations

import os
from array import array
from enum import IntEnum
from typing import TYPE_CHECKING, Mapping, NamedTuple

from toolbox.captures import (
    ETHERNET, FILE_HEADER, IPV4, LINK_LENGTHS, LINUX_SLL2, PROTOCOL_AT, RECORD_HEADER, SENT_BY_US, TO_US, header_of,
    is_torn, pieces)
from toolbox.packets import (
    ACK, FIN, KIND, NO_TUPLE, RST, SYN, TCP, destination_end, error_tuple_at, identity, inverse, kind_of, source_end,
    source_of, source_port, tuple_at)

if TYPE_CHECKING:
    from toolbox.boxes import Box


class Part(IntEnum):
    """What a record is to its flow. An opener comes before any answer to it; a SYN and ACK answers its SYN; an error is
    one of ICMP about it."""

    OTHER = 0
    OPENER = 1
    SYN_ACK = 2
    ERROR = 3


# of the columns, which hold plain numbers; a name of the module is found faster than one of an enum
OTHER, OPENER, SYN_ACK, ERROR = Part.OTHER, Part.OPENER, Part.SYN_ACK, Part.ERROR

# of the flags of TCP: those that begin and end a connection, and those of the answer to its beginning
SHOWN, ANSWERING = FIN | SYN | RST | ACK, SYN | ACK
MOST_READ = 160  # bytes of a record that are looked at: all headers, also those within an ICMP error
WINDOW = 4096  # how many packets may come between one and its outgoing copy
MOST_ALIKE = 15  # packets of one identity that wait for their copies
# seconds for which Linux keeps any connection that had a packet, unless a SYN takes the port of one that is over
SURELY_KEPT = 10
FORGOTTEN = 30  # seconds after which Linux forgets the first kinds of connections


class Direction:
    """One side of a flow. `is_known`: it is known how its packets leave."""

    __slots__ = "flow", "is_known"
    is_reply = False

    def __init__(self, flow: Flow) -> None:
        self.flow, self.is_known = flow, False

    @property
    def other(self) -> Direction:
        return self.flow.reply

    def seen_from(self, is_reply: bool | int) -> Direction:
        """This side of its flow for what is original to it, else the other."""
        return self.other if is_reply else self


class Reply(Direction):
    """The side that answers."""

    __slots__ = ()
    is_reply = True

    @property
    def other(self) -> Direction:
        return self.flow.original


class Flow:
    """A flow. `kind` is that of its tuples. Which of its records are its first ones stands in columns of `Flows`.

    `has_begun`: its beginning is in the capture. `is_translated`, `is_learned`: what Linux made of its tuple is
    another, is known. `saw_syn_ack`, `answered_midway`: of TCP, whether an answer came to a SYN, or to a flow without
    one. `is_own`: the box began it itself. `is_joined`: its records are another flow's. `last` is its last second."""

    __slots__ = ("number", "kind", "last", "original", "reply", "has_begun", "is_translated", "is_learned",
                 "saw_syn_ack", "answered_midway", "is_own", "is_joined")

    def __init__(self, number: int, kind: int, last: int) -> None:
        self.number, self.kind, self.last = number, kind, last
        self.original, self.reply = Direction(self), Reply(self)
        self.has_begun = self.is_translated = self.is_learned = self.saw_syn_ack = False
        self.answered_midway = self.is_own = self.is_joined = False


class Waiting(NamedTuple):
    """A packet whose copy may come: its side of a flow (none of an error about none), its tuple and its record."""

    direction: Direction | None
    key: bytes
    record: int


class Begun(NamedTuple):
    """A SYN: the flow that it began, and its tuple."""

    flow: Flow
    key: bytes


class Flows:
    """The flows of a capture, `all`, by their numbers (from 1; the first stands for none), and of each record its
    flow's number, side, part, tuple and place in the file. A capture has 10^6 records and more, so what is known of
    records stands in columns with one meaning each, 14 to 18 bytes a record.

    `of`, `is_reply`, `part`, `seen` and `offset` go by the record's number (from 1). `seen` is the place of the
    record's tuple in `tuples`; of an ICMP error the tuple of the answer to the datagram in it. `first`, `answered` and
    `acked` go by the flow's number, and are records, 0 where there is none: its first one, the first answer, the
    client's first behind a SYN and ACK; a number takes 4 bytes there, and 40 in an object. `copies` and `own` count
    outgoing copies, and those that no packet came for: the box's own. `torn` tells whether the capture ends within a
    record."""

    def __init__(self, path: str, box: Box, use_copies: bool = True) -> None:
        header = header_of(path)
        self.path, self.link_type, self.aligned, self.order = path, header.link_type, header.aligned, header.order
        self.at = LINK_LENGTHS[header.link_type]
        self.of, self.seen, self.offset = array("I", [0]), array("I", [0]), array(places_of(path), [0])
        self.is_reply, self.part = bytearray(1), bytearray(1)
        self.tuples = [NO_TUPLE]
        self.all = [Flow(0, 0, 0)]
        self.first, self.answered, self.acked = array("I", [0]), array("I", [0]), array("I", [0])
        self.copies = self.own = 0
        self.end = FILE_HEADER  # of the last whole record, in the file
        # an aligned capture still has the ports that Linux chose in its copies
        Reader(self, box, use_copies and not header.aligned).read()
        self.count = len(self.of) - 1
        self.torn = is_torn(path, self.end)

    def number(self) -> int:
        """The greatest number of a flow; `join` leaves some without records."""
        return len(self.all) - 1

    def some(self) -> list[Flow]:
        """The flows that have records."""
        return [flow for flow in self.all[1:] if not flow.is_joined]

    def learned(self) -> int:
        """Of how many flows it is known what Linux made of their tuples."""
        return sum(flow.is_learned for flow in self.all)

    def translated(self) -> int:
        return sum(flow.is_translated for flow in self.all)

    def begun_by_box(self) -> int:
        return sum(flow.is_own for flow in self.all)

    def is_error(self, record: int) -> bool:
        """Whether a record is an ICMP error about its flow."""
        return self.part[record] == ERROR

    def without_beginning(self) -> int:
        """How many flows of TCP have no SYN in the capture, those aside that the box began."""
        return sum(flow.kind == TCP and not flow.has_begun and not flow.is_own for flow in self.some())

    def tuple_of(self, record: int) -> bytes:
        """The tuple of a record of a flow."""
        return self.tuples[self.seen[record]]

    def seconds(self, record: int) -> int:
        """The second of a record's moment."""
        with open(self.path, "rb") as file:
            file.seek(self.offset[record] - RECORD_HEADER)
            return int.from_bytes(file.read(4), "little" if self.order == "<" else "big")

    def answers_to_box(self) -> list[int]:
        """The records that answer packets of the box's own, which aren't in a run."""
        return [record for record, flow in enumerate(self.of) if self.all[flow].is_own]

    def join(self, joined: Mapping[int, Direction], errors: Mapping[int, Direction] | None = None) -> None:
        """Makes one of two flows each: `joined` has by a flow's number the side of the other that its original one is.
        `errors` has of records with ICMP errors the side to which they belong."""
        of, part = self.of, self.part
        for record, direction in dict(errors or {}).items():
            part[record] = ERROR
            self.put(record, direction)
        for flow in joined:
            self.all[flow].is_joined = True
        for record in range(1, self.count + 1):
            original = joined.get(of[record])
            if original is None:
                continue
            direction = original.seen_from(self.is_reply[record])
            if direction.is_reply and part[record] != ERROR:
                part[record] = OTHER
            self.put(record, direction)
        for record in range(1, self.count + 1):
            if part[record] == OPENER and 0 < self.answered[of[record]] <= record:
                part[record] = OTHER  # what comes behind the answer opens nothing

    def put(self, record: int, direction: Direction) -> None:
        """Makes a record one of this side."""
        self.of[record], self.is_reply[record] = direction.flow.number, direction.is_reply
        if direction.is_reply:
            self.answer(direction.flow, record)

    def answer(self, flow: Flow, record: int) -> None:
        """Takes a record that turned out to be of the reply direction for an answer, if it is the first."""
        if not 0 < self.answered[flow.number] <= record:
            self.answered[flow.number] = record


class Reader:
    """Finds the flows of a capture in one pass; what it keeps for that is gone when it is done."""

    def __init__(self, flows: Flows, box: Box, use_copies: bool) -> None:
        self.flows, self.at = flows, flows.at
        self.use_copies = use_copies and flows.link_type == LINUX_SLL2
        self.limits, self.indices = box.limits(), box.index_bytes()
        self.find: dict[bytes, int] = {}  # by tuple its place in `tuples`
        self.left: dict[bytes, Direction] = {}  # by tuple of a copy the side that left so
        self.owner: list[Direction | None] = [None]  # by that place the side whose tuple it is
        self.young: dict[bytes, tuple[Waiting, ...]] = {}
        self.old: dict[bytes, tuple[Waiting, ...]] = {}  # by identity: packets whose copies may come, as `young`
        self.waiting = 0
        self.syns: dict[int, Begun] = {}  # by the number that acknowledges them, as `old_syns`
        self.old_syns: dict[int, Begun] = {}
        self.acknowledged: dict[int, int] = {}  # by a flow that begins with a SYN and ACK what that acknowledges
        self.begun_with = array("q", [-1])  # by a flow the number of its SYN, or -1
        self.answered, self.acked = flows.answered, flows.acked
        self.sweep_at = 1 << 16

    def read(self) -> None:
        flows, number, smallest, latest = self.flows, 0, self.at + 28, 0
        of, is_reply, part, seen = flows.of, flows.is_reply, flows.part, flows.seen
        indices, enter, leave = self.indices, self.enter, self.leave
        protocol_at, is_sll2, is_ethernet = (
            PROTOCOL_AT[flows.link_type], flows.link_type == LINUX_SLL2, flows.link_type == ETHERNET)
        for piece, base, starts, headers in pieces(flows.path):
            for numbers in (of, is_reply, part, seen):
                numbers.extend(bytes(len(starts)))
            flows.offset.extend([base + start for start in starts])
            if starts:
                flows.end = base + starts[-1] + headers[-1][2]
            for start, (seconds, _, length, _) in zip(starts, headers):
                number += 1
                if seconds > latest:
                    latest = seconds
                data = piece[start:start + (length if length < MOST_READ else MOST_READ)]
                if length < smallest or protocol_at is not None and data[protocol_at:protocol_at + 2] != IPV4:
                    continue
                if is_sll2:
                    packet_type = data[10] if data[4:8] in indices else None
                    if packet_type == SENT_BY_US:
                        leave(number, latest, data)
                    if packet_type != TO_US:
                        continue
                elif is_ethernet and data[0] & 1:
                    continue
                came, part[number], seen[number] = enter(number, latest, data)
                if came is not None:
                    of[number], is_reply[number] = came.flow.number, came.is_reply

    def place_of(self, key: bytes, direction: Direction | None) -> int:
        """The place of a tuple, which from now on is that of this side."""
        place = self.find.get(key)
        if place is None:
            place = self.find[key] = len(self.owner)
            self.flows.tuples.append(key)
            self.owner.append(direction)
        else:
            self.owner[place] = direction
        return place

    # Packets that enter

    def enter(self, number: int, seconds: int, data: bytes) -> tuple[Direction | None, int, int]:
        """The side of a flow of an entering packet, what it is to that, and its tuple's place."""
        key = tuple_at(data, self.at)
        if key is None:
            return self.enter_error(number, data)
        kind = key[KIND]  # not by a call: it is asked of each packet
        is_tcp, flags = kind == TCP, 0
        if is_tcp:
            at = self.at
            flags = data[at + 4 * (data[at] & 15) + 13] & SHOWN
        place = self.find.get(key)
        came = (self.owner[place] if place else None) or self.by_inverse(key)
        if came and (flags == SYN or seconds - came.flow.last >= self.limits[kind]):
            came = self.still(came, seconds, key, flags, data)
        if flags & ANSWERING == ANSWERING:
            came = self.by_handshake(came, key, data)
        if came is None:
            came = self.begin(number, seconds, key, flags, data)
            place = self.find[key]
        elif place is None or self.owner[place] is not came:
            place = self.place_of(key, came)
        flow = came.flow
        if self.use_copies and (not came.is_known or seconds - flow.last >= SURELY_KEPT):
            self.wait(data, Waiting(came, key, number))
        flow.last = seconds
        if (self.acked if is_tcp else self.answered)[flow.number]:
            return came, 0, place
        return came, (self.part_of_tcp(number, came, flags) if is_tcp else self.part_of_other(number, came)), place

    def by_inverse(self, key: bytes) -> Direction | None:
        """The side of a tuple that comes for the first time, by its inverse."""
        place = self.find.get(inverse(key))
        owner = self.owner[place] if place else None
        return owner and owner.other

    def still(self, came: Direction, seconds: int, key: bytes, flags: int, data: bytes) -> Direction | None:
        """The side of a packet of a known tuple, or None if it is the first of another flow: a lone SYN of another
        number, or one that comes when the flow has expired."""
        if seconds - came.flow.last >= self.limits[kind_of(key)]:
            return None
        if flags == SYN and self.begun_with[came.flow.number] != sequence_of(data, self.at):
            return None
        return came

    def wait(self, data: bytes, entry: Waiting) -> None:
        """Has a packet wait for its copy."""
        mark, young = identity(data, self.at), self.young
        # packets all alike mustn't cost more and more
        young[mark] = young[mark][-MOST_ALIKE:] + (entry,) if mark in young else (entry,)
        self.waiting += 1
        if self.waiting > WINDOW:
            self.old, self.young, self.waiting = young, {}, 0

    def part_of_tcp(self, number: int, came: Direction, flags: int) -> int:
        flow, is_reply = came.flow, came.is_reply
        if not flow.has_begun:
            return self.part_midway(number, came, flags)
        if not is_reply and flags == SYN:
            return OTHER if self.answered[flow.number] else OPENER
        if not self.answered[flow.number]:
            self.answered[flow.number] = number
        if is_reply and flags & ANSWERING == ANSWERING:
            flow.saw_syn_ack = True
            return SYN_ACK
        if not is_reply and flow.saw_syn_ack:
            self.acked[flow.number] = number
        return OTHER

    def part_midway(self, number: int, came: Direction, flags: int) -> int:
        """Of a flow whose SYN isn't in the capture: it was there before, unless the other end answers with RST at once,
        as it does to a scan."""
        flow = came.flow
        if flow.answered_midway:
            return OTHER
        if not came.is_reply:
            return OPENER
        if flags & RST:
            flow.has_begun = True
            self.answered[flow.number] = number
        flow.answered_midway = True
        return OTHER

    def part_of_other(self, number: int, came: Direction) -> int:
        if not came.is_reply:
            return OPENER
        self.answered[came.flow.number] = number
        return OTHER

    def enter_error(self, number: int, data: bytes) -> tuple[Direction | None, int, int]:
        """An ICMP error belongs to the flow of the datagram in it, on the side that answers that."""
        key = error_tuple_at(data, self.at)
        if key is None:
            return None, OTHER, 0
        place = self.find.get(key)
        about = (self.owner[place] if place else None) or self.by_inverse(key)
        if place is None:
            place = self.place_of(key, about)
        if self.use_copies:
            self.wait(data, Waiting(about, key, number))
        # where it is about none, a run may tell to which flow it belongs
        if about and about.is_reply and not self.answered[about.flow.number]:
            self.answered[about.flow.number] = number
        return about, ERROR, place

    def begin(self, number: int, seconds: int, key: bytes, flags: int, data: bytes) -> Direction:
        """Begins a flow; whatever had its tuple, or the inverse, hasn't any longer."""
        begun_with = sequence_of(data, self.at) if flags == SYN else -1
        flow = self.new_flow(kind_of(key), number, seconds, begun_with)
        flow.has_begun = flow.kind != TCP or flags == SYN
        place = self.find.get(key)
        before = self.owner[place] if place else None
        if before:
            before.flow.original.is_known = before.flow.reply.is_known = False
        self.find.pop(inverse(key), None)
        self.place_of(key, flow.original)
        if flags & ANSWERING == ANSWERING:
            self.acknowledged[flow.number] = sequence_of(data, self.at, 8)
        if flags == SYN:
            self.syns[begun_with + 1 & 0xFFFFFFFF] = Begun(flow, key)
            if len(self.syns) > WINDOW:
                self.old_syns, self.syns = self.syns, {}
        if len(self.find) > self.sweep_at:
            self.sweep(seconds)
        return flow.original

    def new_flow(self, kind: int, first: int, seconds: int, begun_with: int) -> Flow:
        flows = self.flows
        flow = Flow(len(flows.all), kind, seconds)
        flows.all.append(flow)
        flows.first.append(first)
        self.answered.append(0)
        self.acked.append(0)
        self.begun_with.append(begun_with)
        return flow

    def by_handshake(self, came: Direction | None, key: bytes, data: bytes) -> Direction | None:
        """The side of a SYN and ACK: of its tuple (None if that isn't known), or if that one began with another SYN, by
        the SYN that it acknowledges, if one end is the same. None if it answers another SYN than the flow of its
        tuple."""
        acknowledged = sequence_of(data, self.at, 8)
        if came and acknowledged == self.begun_with[came.flow.number] + 1 & 0xFFFFFFFF:
            return came
        begun = self.syns.get(acknowledged) or self.old_syns.get(acknowledged)
        if begun and has_common_end(begun.key, key):
            begun.flow.is_translated = begun.flow.is_learned = True
            return begun.flow.reply
        if came and self.acknowledged.get(came.flow.number, acknowledged) == acknowledged:
            return came
        return None

    # Copies of what the box sent

    def leave(self, number: int, seconds: int, data: bytes) -> None:
        """An outgoing copy: what Linux made of a packet that came, or a packet of the box's own."""
        flows = self.flows
        flows.copies += 1
        if not self.use_copies:
            return
        key = tuple_at(data, self.at)
        if key is None:
            self.leave_error(data)
            return
        before = self.left.get(key)
        if (before and before.is_known and seconds - before.flow.last < SURELY_KEPT
                and not is_lone_syn(data, self.at, key)):
            return  # a packet of this side has left so before, and Linux gave its port to no other since
        came = self.take_waiting(identity(data, self.at), key)
        if came is not None:
            self.learn(key, seconds, came)
            return
        flows.own += 1
        self.leave_own(number, seconds, key, data)

    def leave_own(self, number: int, seconds: int, key: bytes, data: bytes) -> None:
        """A copy that no packet came for: the box's own question or answer."""
        place, answers = self.find.get(key), self.by_inverse(key)
        owner = self.owner[place] if place else None
        if owner and owner.flow.is_own and (answers is None or answers.flow is owner.flow):
            owner.flow.last = seconds
        elif answers and not self.is_taken_over(key, seconds, data):
            # an answer of the box itself
            if answers.is_reply and not self.answered[answers.flow.number]:
                self.answered[answers.flow.number] = number
        elif answers or place is None:
            # a question of the box's own: the answers to it begin nothing
            flow = self.begin(number, seconds, key, 0, data).flow
            flow.is_own, flow.has_begun = True, False
            self.left.pop(key, None)

    def is_taken_over(self, key: bytes, seconds: int, data: bytes) -> bool:
        """Whether the box itself sends with a tuple that another flow left with, which Linux has forgotten since."""
        before = self.left.get(key)
        if not before:
            return False
        if kind_of(key) == TCP:
            begun_with = self.begun_with[before.flow.number]
            return is_lone_syn(data, self.at, key) and begun_with != sequence_of(data, self.at)
        return seconds - before.flow.last >= FORGOTTEN

    def leave_error(self, data: bytes) -> None:
        """A copy of an ICMP error: the box's own, if none like it came."""
        key = error_tuple_at(data, self.at)
        if key is not None and self.take_waiting(identity(data, self.at), key) is None:
            self.flows.own += 1

    def learn(self, key: bytes, seconds: int, came: Waiting) -> None:
        """A packet left with the tuple `key`: what answers it belongs to its flow."""
        direction = came.direction
        if direction is None:
            return
        inverted = inverse(key)
        if key != came.key:
            direction = self.adopted(direction, came, seconds, inverted)
            direction.flow.is_translated = True
        direction.flow.is_learned = True
        self.place_of(inverted, direction.other)
        direction.is_known = True
        self.left[key] = direction

    def take_waiting(self, mark: bytes, key: bytes) -> Waiting | None:
        """The packet that came as this copy's: of several alike the one that changed least."""
        window = self.young if mark in self.young else self.old
        alike = window.pop(mark, None)
        if alike is None:
            return None
        if len(alike) == 1:
            return alike[0]
        came = max(alike, key=lambda one: likeness(one.key, key))
        window[mark] = tuple(one for one in alike if one is not came)
        return came

    def adopted(self, direction: Direction, came: Waiting, seconds: int, inverted: bytes) -> Direction:
        """The side of a translated packet: that of `inverted`, if such a one lives, the packet seemed to begin another,
        since the copy that would have told was lost, and it isn't known how packets of that side come: else Linux gave
        the port of one flow to another."""
        flows, flow, place = self.flows, direction.flow, self.find.get(inverted)
        other = self.owner[place] if place else None
        if (not other or other.flow is flow or flows.first[flow.number] != came.record
                or self.begun_with[flow.number] >= 0
                or other.flow.is_own or other.other.is_known
                or seconds - other.flow.last >= self.limits[kind_of(inverted)]):
            return direction
        side, record = other.other, came.record
        self.place_of(came.key, side)
        flows.of[record], flows.is_reply[record], flows.part[record] = side.flow.number, side.is_reply, OTHER
        side.flow.last = seconds
        if side.is_reply and not self.answered[side.flow.number]:
            self.answered[side.flow.number] = record
        return side

    def sweep(self, seconds: int) -> None:
        """Forgets the tuples of what has expired."""
        limits, lasts = self.limits, [one.flow.last if one else 0 for one in self.owner]
        self.find = {key: place for key, place in self.find.items() if seconds - lasts[place] < limits[kind_of(key)]}
        self.left = {key: one for key, one in self.left.items() if seconds - one.flow.last < limits[kind_of(key)]}
        self.sweep_at = max(1 << 16, 2 * len(self.find))


def places_of(path: str) -> str:
    """The type of numbers that places in this file have in an array."""
    return "I" if os.path.getsize(path) >> 32 == 0 else "Q"


def sequence_of(data: bytes, at: int, place: int = 4) -> int:
    """The sequence number of TCP; 8 bytes behind its beginning stands the acknowledgement number."""
    behind = at + 4 * (data[at] & 15) + place
    return int.from_bytes(data[behind:behind + 4], "big")


def is_lone_syn(data: bytes, at: int, key: bytes) -> bool:
    """Whether a packet, whose tuple this is, begins a connection of TCP."""
    return key[KIND] == TCP and data[at + 4 * (data[at] & 15) + 13] & SHOWN == SYN


def has_common_end(asked: bytes, answer: bytes) -> bool:
    """Whether a tuple of an answer has an end of the question's: only the other one is translated."""
    return destination_end(asked) == source_end(answer) or source_end(asked) == destination_end(answer)


def likeness(came: bytes, left: bytes) -> float:
    """How much of a tuple stayed: the destination, the source, at least its port."""
    same_port = source_port(came) == source_port(left)
    same_destination = destination_end(came) == destination_end(left)
    return same_destination + (source_of(came) == source_of(left) and same_port) + same_port / 2
