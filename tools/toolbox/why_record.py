"""One record of a run: how it came, the rules on its way, what translation made of it, and its flow."""
from __future__ import annotations

import struct
from typing import TYPE_CHECKING

from toolbox.asked import Asked, chosen_of
from toolbox.boxes import Box
from toolbox.captures import (
    LINK_LENGTHS, LINUX_SLL2, RECORD_HEADER, SENT_BY_US, called, header_of, interface_of, packet_at, records)
from toolbox.commands import Refused
from toolbox.flows import Flows
from toolbox.packets import (
    TCP, describe, destination_end, end_text, flags_text, inverse, kind_of, source_end, tuple_at)
from toolbox.replay import AS_CAPTURED, Replay
from toolbox.reports import THROUGH, Decision, event_of, events_of_some
from toolbox.router import Router
from toolbox.rulesets import TRANSLATIONS, read_ruleset

if TYPE_CHECKING:
    from toolbox.asked import Found
    from toolbox.replay import Files

OUT_LINK = LINK_LENGTHS[LINUX_SLL2]


class Why:
    """What is known of one record after a run of the capture as it is. `record` is its number, or what is known of
    it; `fitting` are then the records that fit, and `dropped` those of them that the run drops."""

    def __init__(self, record: int | Asked, rules: str, box: str, capture: str, program: str, files: Files) -> None:
        self.capture = capture
        self.ruleset, self.box, self.header = read_ruleset(rules), Box(box), header_of(capture)
        self.link_type = self.header.link_type
        self.flows = Flows(capture, self.box)
        self.fitting: list[Found] = []
        self.dropped: set[int] = set()
        if isinstance(record, Asked):
            self.fitting = record.found(capture, self.header)
            if not self.fitting:
                raise Refused(f"{called(capture)}: no record fits {record.text}")
        elif not 1 <= record <= self.flows.count:
            raise Refused(f"{called(capture)} has {self.flows.count} records, and no record {record}")
        self.replay = Replay(program, rules, box, self.flows, files, cuts=False, as_captured=True)
        if isinstance(record, Asked):
            self.dropped = {one.record for one in self.fitting
                            if not one.is_copy and self.replay.outcome(one.record) not in THROUGH}
            record = chosen_of(record, self.fitting, self.dropped).record
        self.record = record
        self.read_record()
        self.read_events()
        self.flow = self.flows.of[record]
        self.is_reply, self.is_error = bool(self.flows.is_reply[record]), self.flows.is_error(record)
        self.members = [record]
        if self.flow:
            self.members = [number for number, flow in enumerate(self.flows.of) if flow == self.flow]
        self.read_frames()
        first = self.flows.first[self.flow] if self.flow else record
        self.first_outcome = self.replay.outcome(first)
        decisions = self.replay.decide(False)
        # of the original side and the reply, by flow, the tuple with which its last packet left
        self.left_as = decisions.left_as
        place = decisions.to[record]
        # the end to which an answer has to go in this run, where it isn't the one in the capture
        self.wanted = None if place == AS_CAPTURED else decisions.ends[place]

    def read_record(self) -> None:
        """The bytes of the record, its moment, and how it came."""
        with open(self.capture, "rb") as file:
            file.seek(self.flows.offset[self.record] - RECORD_HEADER)
            head = file.read(RECORD_HEADER)
            self.seconds, self.fraction, length = struct.unpack_from(self.header.order + "3I", head)
            self.data = file.read(length)
        self.at = packet_at(self.data, self.link_type)
        self.key = None if self.at is None else tuple_at(self.data, self.at)
        index = interface_of(self.data, self.link_type) if self.link_type == LINUX_SLL2 else self.box.entering()
        self.came_by = self.box.interface_name(index)

    def read_events(self) -> None:
        events = next(events_of_some(self.replay.files.report, [self.record]))
        self.outcome = self.replay.outcome(self.record)
        self.events = [event_of(event) for event in events]
        self.decisions = [event for event in self.events if isinstance(event, Decision)]

    def read_frames(self) -> None:
        """What left of the flow's records, by number."""
        wanted = set(self.members)
        self.left = {number: frame for number, frame in enumerate(self.replay.leaving_packets(), 1) if number in wanted}
        frame = self.left.get(self.record)
        self.key_left = None if frame is None else tuple_at(frame, OUT_LINK)

    def router(self) -> Router:
        """What the router did otherwise with the packets of this flow; of a copy, with those of the flow that left so.
        """
        router = Router(self.flows, self.box, self.replay, self.members)
        came = router.copies.record_of(self.record)
        if came is None:
            return router
        flow = self.flows.of[came]
        members = [number for number, of in enumerate(self.flows.of) if flow and of == flow] or [came]
        return Router(self.flows, self.box, self.replay, members, router.copies)

    def behind_mapping(self) -> bytes | None:
        """The inner end that has this packet's destination as its external one in this run, or None."""
        if self.key is None:
            return None
        outside = destination_end(self.key)
        left_as, _ = self.left_as
        for flow, left in zip(self.flows.all, left_as):
            if left and kind_of(left) == kind_of(self.key) and source_end(left) == outside:
                inside = source_end(self.flows.tuple_of(self.flows.first[flow.number]))
                return inside if inside != outside else None
        return None

    def answered_flow(self) -> tuple[int, int] | None:
        """An earlier flow that this packet would answer, with how many seconds had gone since its last record; or
        None."""
        lefts = ((flow, left) for flow, sides in enumerate(zip(*self.left_as)) for left in sides)
        for flow, left in lefts:
            if left and flow != self.flow and inverse(left) == self.key:
                last = max((number for number, of in enumerate(self.flows.of[:self.record]) if of == flow), default=0)
                return (flow, self.seconds - self.flows.seconds(last)) if last else None
        return None

    def moment(self, seconds: int | None = None, fraction: int | None = None) -> str:
        digits = len(str(self.header.fractions)) - 1
        rest = self.fraction if fraction is None else fraction
        return f"{self.seconds if seconds is None else seconds}.{rest:0{digits}}"

    # In words, each part as lines

    def arrival(self) -> list[str]:
        came = describe(self.data, self.at)
        if self.at is None or len(self.data) < self.at + 20:
            return [f"{came}, {len(self.data)} bytes"]
        flags = ""
        if self.key is not None and kind_of(self.key) == TCP:
            flags = f", {flags_text(self.data[self.at + 4 * (self.data[self.at] & 15) + 13])}"
        length = int.from_bytes(self.data[self.at + 2:self.at + 4], "big")
        is_copy = self.link_type == LINUX_SLL2 and self.data[10] == SENT_BY_US
        return [f"{came}{flags}, {length} bytes, TTL {self.data[self.at + 8]}",
                f"{'sent' if is_copy else 'came'} by {self.came_by}"]

    def way(self) -> list[str]:
        """A line for each decision and log: hook, rule, verdict, text."""
        lines, hook = [], ""
        for event in self.events:
            chain = self.ruleset.by_name.get(event.chain)
            if chain is not None and chain.hook:
                hook = chain.hook
            rule = self.ruleset.rule(event.chain, event.rule)
            what = event.verdict if isinstance(event, Decision) else "log"
            place = f"{event.chain} {'policy' if event.rule is None else event.rule}"
            text = f"  line {rule.line}: {rule.text}" if rule else ""
            lines.append(f"{hook:<11} {place:<28} {what:<11}{text}".rstrip())
        return lines or ["no rule saw it"]

    def translation(self) -> list[str]:
        if self.key is None or self.key_left is None:
            return []
        by = [event.verdict for event in self.decisions if event.verdict in TRANSLATIONS]
        lines = []
        for name, end in (("source", source_end), ("destination", destination_end)):
            if end(self.key) != end(self.key_left):
                lines.append(f"{name} {end_text(end(self.key))} became {end_text(end(self.key_left))}")
        if lines:
            lines.append(f"by {' and '.join(by)}" if by else "as its connection, or a mapping, says")
        return lines

    def result(self, number: int) -> str:
        """Where a record went."""
        frame = self.left.get(number)
        if frame is None:
            return self.replay.outcome(number)
        return f"left by {self.box.interface_name(interface_of(frame, LINUX_SLL2))} as {describe(frame, OUT_LINK)}"

    def flow_lines(self, most: int | None) -> list[str]:
        """The flow's records, those near this one if there are more than `most`."""
        if not self.flow:
            return ["it is of no flow"]
        place = self.members.index(self.record)
        begin = 0 if most is None else max(0, min(place - most // 2, len(self.members) - most))
        shown = self.members[begin:None if most is None else begin + most]
        chosen, lines = set(shown), []
        for number, seconds, fraction, _, _, _, data in records(self.capture, 160):
            if number in chosen:
                lines.append(self.member_line(number, self.moment(seconds, fraction), data))
            if number >= shown[-1]:
                break
        rest = len(self.members) - len(shown)
        return lines + ([f"and {rest} more (--all)"] if rest else [])

    def member_line(self, number: int, moment: str, data: bytes) -> str:
        about = "error about " if self.flows.is_error(number) else ""
        direction = about + ("reply" if self.flows.is_reply[number] else "original")
        at = packet_at(data, self.link_type)
        key = None if at is None else tuple_at(data, at)
        flags = ""
        if at is not None and key is not None and kind_of(key) == TCP:
            flags = f" {flags_text(data[at + 4 * (data[at] & 15) + 13])}"
        mark = ">" if number == self.record else " "
        return f"{mark} {number} at {moment}, {direction}: {describe(data, at)}{flags}; {self.result(number)}"
