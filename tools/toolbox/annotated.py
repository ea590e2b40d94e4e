"""A capture with what a run made of each packet as its comment, which Wireshark and tshark show."""
from __future__ import annotations

from typing import TYPE_CHECKING, BinaryIO, Iterator

from toolbox.captures import LINK_LENGTHS, LINUX_SLL2, header_of, interface_of, records
from toolbox.commands import printable
from toolbox.json_lines import Cache
from toolbox.packets import describe
from toolbox.pcapng import NANOSECONDS, write_beginning, write_packet
from toolbox.reports import Log, event_of, text_of, traced_records

if TYPE_CHECKING:
    from toolbox.boxes import Box
    from toolbox.rulesets import Ruleset

APPLICATION = "nftrun"


class Comments:
    """The comment of each record, in lines: its outcome and how it left, then the rules on its way, with their texts.
    """

    def __init__(self, box: Box, ruleset: Ruleset) -> None:
        self.box, self.ruleset = box, ruleset
        self.events: Cache[bytes] = Cache(self.events_text)

    def events_text(self, events: bytes) -> str:
        return "".join(f"\n{self.event_text(event)}" for event in events.split(b"\n")[:-1])

    def event_text(self, event: bytes) -> str:
        one = event_of(event)
        place = f"{one.chain} {'policy' if one.rule is None else one.rule}"
        what = f"log {one.prefix}" if isinstance(one, Log) else one.verdict
        text = "" if one.rule is None else f": {self.ruleset.text_of(one.chain, one.rule)}"
        return printable(f"{place} {what}{text}")

    def texts(self, leaving: str, report: str) -> Iterator[str]:
        """The comments in order, by the packets that left and the report."""
        frames = (record[6] for record in records(leaving))
        for events, outcome in traced_records(report):
            left = f", {self.left_text(next(frames))}" if outcome == b"passed" else ""
            yield f"outcome {printable(text_of(outcome))}{left}{self.events[events]}"

    def left_text(self, frame: bytes) -> str:
        """How a packet left."""
        name = printable(self.box.interface_name(interface_of(frame, LINUX_SLL2)))
        return f"left by {name} as {describe(frame, LINK_LENGTHS[LINUX_SLL2])}"


def write_annotated(out: BinaryIO, capture: str, comments: Iterator[str]) -> None:
    """The whole records of a capture as pcapng, each with its comment."""
    header = header_of(capture)
    write_beginning(out, APPLICATION, header.link_type)
    unit = NANOSECONDS // header.fractions
    for (_, seconds, fraction, _, _, original, data), comment in zip(records(capture), comments):
        write_packet(out, seconds * NANOSECONDS + fraction * unit, original, data, comment)
