"""A ruleset over a capture as it would have been: answers go to the ends that this ruleset chose, and what a host
wouldn't have sent, since nothing answered it, isn't sent. Nor are answers to the box's own packets: a run doesn't have
these.

Each round runs nftrun and decides anew, for each record, where it goes; the rounds end when one decides as the round
before. A decision rests on earlier records alone, so each round settles one more at least, and there is one end.
"""
from __future__ import annotations

import os
import shutil
import struct
from array import array
from enum import IntEnum
from itertools import islice
from typing import TYPE_CHECKING, Iterator, List, Optional, Tuple

from toolbox import program
from toolbox.captures import LINK_LENGTHS, LINUX_SLL2, OTHER_STATION, RAW_IP, called, frames, header_of, pieces
from toolbox.commands import Refused
from toolbox.flows import ERROR, OPENER, OTHER, SYN_ACK
from toolbox.packets import TCP, destination_end, inverse, sent_tuples, source_end, with_destination
from toolbox.reports import outcomes_of

if TYPE_CHECKING:
    from toolbox.flows import Direction, Flow, Flows

# Where a record goes: as it came, to an end (its place in `ends`, from 1), or nowhere
AS_CAPTURED, NOT_SENT = 0, 0xFFFFFFFF
OUT_LINK = LINK_LENGTHS[LINUX_SLL2]
MOST_ROUNDS = 12
# of the original side and of the reply, by the flow's number, a tuple
Tuples = Tuple[List[Optional[bytes]], List[Optional[bytes]]]
MOST_CHANGED = 2048  # bytes of a record within which its headers stand, or the whole datagram of an ICMP error


class Through(IntEnum):
    """What became of a packet that nothing dropped, as `outcomes` has it. Causes of drops have the numbers behind
    these, as they come."""

    PASSED = 1
    LOCAL = 2

    @property
    def word(self) -> bytes:
        """As a report has it."""
        return self.name.lower().encode()


# of columns, which hold plain numbers; a name of the module is found faster than one of an enum
PASSED, LOCAL = Through.PASSED, Through.LOCAL


class Cut(IntEnum):
    """Why a flow's later records aren't sent: what begins it didn't go through; another host would answer."""

    NOT = 0
    STOPPED = 1
    ELSEWHERE = 2


class Files:
    """Where the runs of one ruleset put their files, in a folder that is gone in the end."""

    def __init__(self, folder: str, name: str) -> None:
        self.report = os.path.join(folder, name + ".report.txt")
        self.leaving = os.path.join(folder, name + ".out.pcap")
        self.replayed = os.path.join(folder, name + ".in.pcap")


class Replay:
    """One ruleset over the flows of a capture. With `cuts` what follows on a first packet that didn't go through isn't
    sent, but for flows that are `spared`. `like` is another replay that is likely to end near, to begin with. With
    `as_captured` there is one run, of the capture as it is.

    Afterwards `to` and `ends` tell where each record goes, `cut` of each flow why it was cut, `outcomes` and `names`
    how each record ended; `files` has the last report and what left."""

    def __init__(self, path: str, rules: str, box: str, flows: Flows, files: Files, cuts: bool,
                 spared: bytearray | None = None, like: Replay | None = None, as_captured: bool = False) -> None:
        self.program, self.rules, self.box, self.flows, self.files = path, rules, box, flows, files
        self.cuts, self.spared, self.as_captured = cuts, spared, as_captured
        self.names = {one.word: int(one) for one in Through}
        self.to: array[int] = like.to if like else array("I", bytes(4 * (flows.count + 1)))
        self.ends: Ends = like.ends if like else Ends()
        self.cut = bytearray(flows.number() + 1)
        self.rounds, self.settled = 0, as_captured
        self.plan: Plan = like.plan if like else Plan(flows, files)
        if as_captured:
            self.run()
            if not flows.copies or flows.aligned:
                self.join(self.decide(False))
        while not self.settled and self.rounds < MOST_ROUNDS:
            self.rounds += 1
            self.run()
            # answers that don't go to this ruleset's ends yet are dropped, which is no reason to cut
            self.take(cuts and (self.rounds > 1 or like is not None))
        self.numbers: dict[int, str] = {number: name.decode() for name, number in self.names.items()}

    def run(self) -> None:
        capture = self.written() if any(self.to) else self.flows.path
        program.run(self.program, self.rules, self.box, capture, self.files.leaving, self.files.report)
        self.outcomes = outcomes_of(self.files.report, self.names)
        if len(self.outcomes) != self.flows.count + 1:
            raise Refused(f"{called(self.flows.path)} has {self.flows.count} records, and the report on {self.rules} "
                          f"{len(self.outcomes) - 1}")

    def decide(self, cuts: bool) -> Decisions:
        decisions = Decisions(self, cuts)
        try:
            decisions.make()
        except StopIteration:
            raise Refused(f"the run of {self.rules}: more records passed than packets left") from None
        return decisions

    def join(self, decisions: Decisions) -> bool:
        """Joins the flows that a run shows to be one; answers whether there are any."""
        if decisions.joined or decisions.joined_errors:
            self.flows.join(decisions.joined, decisions.joined_errors)
            return True
        return False

    def take(self, with_cuts: bool) -> None:
        """Decides after a round, and settles if the decisions are those of the round before."""
        decisions = self.decide(with_cuts)
        joins = self.join(decisions)
        if joins or self.cuts and not with_cuts and not any(decisions.to):
            decisions = self.decide(self.cuts)
        self.settled = decisions.to == self.to
        self.to, self.cut = decisions.to, decisions.cut

    def outcome(self, record: int) -> str:
        """How a record ended; "not sent" where the host wouldn't have sent it."""
        return "not sent" if self.to[record] == NOT_SENT else self.numbers[self.outcomes[record]]

    def leaving_packets(self) -> Iterator[bytes | None]:
        """Of each record in order (from 1) the frame that left, or None."""
        leaving, passed = frames(self.files.leaving), int(PASSED)
        for outcome in islice(self.outcomes, 1, None):
            yield next(leaving) if outcome == passed else None

    def redirected(self) -> list[int]:
        """The records that go to another end than they came with."""
        return [record for record, place in enumerate(self.to) if place not in (AS_CAPTURED, NOT_SENT)]

    def written(self) -> str:
        """The path of the capture as it would have been."""
        return self.plan.write(self.to, self.ends)


class Ends:
    """The ends to which answers are sent, by number from 1; each keeps its number for all rounds."""

    def __init__(self) -> None:
        self.ends: list[bytes] = []
        self.numbers: dict[bytes, int] = {}

    def __getitem__(self, number: int) -> bytes:
        return self.ends[number - 1]

    def number(self, end: bytes) -> int:
        number = self.numbers.get(end)
        if number is None:
            self.ends.append(end)
            number = self.numbers[end] = len(self.ends)
        return number


class Plan:
    """The capture as it would have been, in a file. What isn't sent becomes a record of the same length and time that
    no rule sees, so that numbers stay."""

    def __init__(self, flows: Flows, files: Files) -> None:
        self.flows, self.path = flows, files.replayed
        self.to: array[int] | None = None
        self.lengths = struct.Struct(header_of(flows.path).order + "I")

    def write(self, to: array[int], ends: Ends) -> str:
        """Writes what differs from what was written before, and answers the file's path."""
        if self.to is None:
            shutil.copyfile(self.flows.path, self.path)
            self.to = array("I", bytes(4 * len(to)))
        if to != self.to:
            with open(self.flows.path, "rb") as source, open(self.path, "r+b", buffering=0) as target:
                for record, (place, before) in enumerate(zip(to, self.to)):
                    if place != before:
                        self.write_record(record, place, ends, source.fileno(), target.fileno())
            self.to = to
        return self.path

    def write_record(self, record: int, place: int, ends: Ends, source: int, target: int) -> None:
        flows = self.flows
        offset = flows.offset[record]
        if place == NOT_SENT:
            silence(target, offset, flows.link_type)
            return
        head = os.pread(source, MOST_CHANGED, offset - 8)
        data = head[8:8 + self.lengths.unpack_from(head)[0]]
        if place != AS_CAPTURED:
            data = data[:flows.at] + with_destination(data[flows.at:], ends[place])
        os.pwrite(target, data, offset)


def silence(file: int, offset: int, link_type: int) -> None:
    """Makes a record one that no rule sees, for `link`, `version` or `notip`."""
    if link_type == LINUX_SLL2:
        os.pwrite(file, bytes([OTHER_STATION]), offset + 10)
    elif link_type == RAW_IP:
        os.pwrite(file, b"\0", offset)
    else:
        os.pwrite(file, b"\0\0", offset + 12)


def left_tuples(path: str) -> Iterator[bytes | None]:
    """The tuple of each packet that a run sent, or None. A run sends no fragments."""
    for piece, _, starts, _ in pieces(path):
        yield from sent_tuples(piece, starts, OUT_LINK, OUT_LINK + 108)


class Decisions:
    """Where each record goes after a round, by the outcomes and what left."""

    def __init__(self, replay: Replay, cuts: bool) -> None:
        flows = self.flows = replay.flows
        self.outcomes, self.left = replay.outcomes, left_tuples(replay.files.leaving)
        self.cuts, self.spared, self.takes_out = cuts, replay.spared, not replay.as_captured
        self.to, self.ends = array("I", bytes(4 * (flows.count + 1))), replay.ends
        count = len(flows.all)
        self.cut = bytearray(count)
        # whose opener passed, whose opener was delivered to the box, whose SYN and ACK went through
        self.passed, self.delivered, self.acknowledged = bytearray(count), bytearray(count), bytearray(count)
        self.fine = bytearray(count)  # whose beginning went through: it is cut no more
        # of the original side and the reply, by flow: the tuple with which its packets have to come, the one with which
        # they last left
        self.choice: Tuples = ([None] * count, [None] * count)
        self.left_as: Tuples = ([None] * count, [None] * count)
        # without copies a run tells which later flow is the other side of an earlier one
        self.joins = not (flows.copies and not flows.aligned or replay.spared)
        self.expected: dict[bytes, Direction] = {}
        self.joined: dict[int, Direction] = {}  # by flow the side of an earlier one that its original side is
        self.joined_errors: dict[int, Direction] = {}  # by record

    def make(self) -> None:
        flows, next_left, cuts, joins = self.flows, self.left.__next__, self.cuts, self.joins
        seen, tuples, all_flows, first = flows.seen, flows.tuples, flows.all, flows.first
        to, choice, left_as, fine = self.to, self.choice, self.left_as, self.fine
        takes_out, passed = self.takes_out, int(PASSED)
        error, opener, other = int(ERROR), int(OPENER), int(OTHER)
        columns = zip(flows.of, flows.is_reply, flows.part, self.outcomes)
        for record, (number, side, part, outcome) in enumerate(columns):
            left = next_left() if outcome == passed else None
            if not number:
                if part and joins:
                    self.look_for_error(record)
                continue
            flow = all_flows[number]
            # an opener comes before any answer, so it is never cut
            if takes_out and flow.is_own or cuts and not fine[number] and part != opener and (
                    flow.has_begun and self.is_cut(record, flow)):
                to[record] = NOT_SENT
                continue
            if part != other and part != error:
                self.note_opening(number, part, outcome)
            wanted = choice[side][number]
            if wanted is not None:
                came = tuples[seen[record]]
                if came != wanted and not self.send_to(record, flow, side, came, wanted):
                    continue
            elif side and cuts and self.is_answered_by_box(record, flow):
                continue
            if part == error:
                continue
            if joins and first[number] == record:
                self.look_for_join(record, number)
            if left is not None and left_as[side][number] != left:
                self.learn(record, flow, side, left)

    def note_opening(self, flow: int, part: int, outcome: int) -> None:
        """Notes that a packet which opens a flow, or the SYN and ACK that answers it, went through."""
        if part == SYN_ACK:
            self.acknowledged[flow] |= outcome in (PASSED, LOCAL)
        elif outcome == PASSED:
            self.passed[flow] = True
        elif outcome == LOCAL:
            self.delivered[flow] = True

    def is_cut(self, record: int, flow: Flow) -> bool:
        """Whether a record isn't sent, since what comes before it in its flow didn't go through."""
        number = flow.number
        if self.spared and self.spared[number]:
            return False
        if self.cut[number]:
            return True
        answered, acked = self.flows.answered[number], self.flows.acked[number]
        if answered and record >= answered and not (self.passed[number] or self.delivered[number]):
            self.cut[number] = Cut.STOPPED
        elif acked and record >= acked and flow.saw_syn_ack and not self.acknowledged[number]:
            self.cut[number] = Cut.STOPPED
        else:
            last = acked if flow.kind == TCP else answered
            self.fine[number] = 0 < last <= record
        return bool(self.cut[number])

    def send_to(self, record: int, flow: Flow, side: int, came: bytes, wanted: bytes) -> bool:
        """Sends a record to the end that the ruleset chose; not where it comes from another host than the ruleset sent
        the flow to: that one's answers aren't known. Answers whether it is sent."""
        if source_end(came) != source_end(wanted):
            if self.cuts and side and flow.has_begun:
                self.goes_elsewhere(record, flow.number)
                return False
            return True
        self.to[record] = self.ends.number(destination_end(wanted))
        return True

    def is_answered_by_box(self, record: int, flow: Flow) -> bool:
        """Whether the ruleset delivers a flow of TCP to the box itself, whose answers aren't known."""
        if not self.delivered[flow.number] or self.passed[flow.number] or flow.kind != TCP or not flow.has_begun:
            return False
        self.goes_elsewhere(record, flow.number)
        return True

    def goes_elsewhere(self, record: int, flow: int) -> None:
        self.cut[flow], self.fine[flow], self.to[record] = Cut.ELSEWHERE, 0, NOT_SENT

    def look_for_join(self, record: int, flow: int) -> None:
        """Whether this flow is the other side of an earlier one, as what left of that one tells."""
        expected = self.expected.pop(self.flows.tuple_of(record), None)
        if expected is None:
            return
        direction = self.joined_direction(expected)
        if direction.flow.number != flow:
            self.joined[flow] = direction

    def look_for_error(self, record: int) -> None:
        """Whether an ICMP error of no flow is about what left of one."""
        expected = self.expected.get(self.flows.tuple_of(record))
        if expected is not None:
            self.joined_errors[record] = self.joined_direction(expected)

    def joined_direction(self, direction: Direction) -> Direction:
        """The side that this one is, if its flow is joined to another."""
        original = self.joined.get(direction.flow.number)
        return direction if original is None else original.seen_from(direction.is_reply)

    def learn(self, record: int, flow: Flow, side: int, left: bytes) -> None:
        """What left, as the tuple `left`, tells with which one the other side's packets have to come."""
        number = flow.number
        self.left_as[side][number] = left
        if flow.is_translated or left != self.flows.tuple_of(record):
            answer = inverse(left)
            self.choice[1 - side][number] = answer
            # side 0 is known by how it came; what comes so again may begin another flow. Of one that is joined to an
            # earlier one, its side 0 may be the other side
            joined = self.joined.get(number)
            if self.joins and bool(side) == (joined is not None and joined.is_reply):
                self.expected[answer] = flow.original if side else flow.reply
