"""What nftrun says of each record: outcome, what leaves, which rules held, and the ct state; the last two by a second
run, of a ruleset that tells of them."""
from __future__ import annotations

import os
from dataclasses import dataclass
from typing import Iterable, Iterator, Sequence

from linux.seen import Packet, Said
from linux.telling import Seen, telling, told_records
from toolbox import program
from toolbox.captures import LINK_LENGTHS, LINUX_SLL2, interface_of, records
from toolbox.commands import Refused, read_text
from toolbox.reports import RuleCounter, Summary, records_of, text_of


@dataclass(frozen=True)
class Run:
    """Both runs over one capture; `said` has an entry for each record, `counters` those of the report."""

    torn: bool
    counters: Sequence[RuleCounter]
    said: Sequence[Said]


def run_of(path: str, rules: str, box: str, capture: str) -> Run:
    """The runs of the program at a path."""
    with program.workspace() as folder:
        leaving, report = os.path.join(folder, "out.pcap"), os.path.join(folder, "report")
        torn = program.run(path, rules, box, capture, leaving, report)
        counters = Summary(report).counters
        outcomes = [text_of(outcome or b"") for _, _, outcome in records_of(report)]
        told = second_run(path, rules, box, capture, folder) or list(told_records(report))
        return Run(torn, counters, list(joined(outcomes, told, leaving)))


def second_run(path: str, rules: str, box: str, capture: str, folder: str) -> list[Seen] | None:
    """For each record its state and decisions; None where the ruleset has no room for the logs."""
    text, report = os.path.join(folder, "telling.nft"), os.path.join(folder, "telling")
    with open(text, "w", encoding="utf-8", errors="surrogateescape", newline="") as file:
        file.write(telling(read_text(rules)))
    try:
        program.run(path, text, box, capture, os.path.join(folder, "telling.pcap"), report)
    except Refused:
        return None
    return list(told_records(report))


def joined(outcomes: Iterable[str], told: Iterable[Seen], leaving: str) -> Iterator[Said]:
    """The records, each with the packet that left."""
    left = records(leaving)
    for outcome, seen in zip(outcomes, told):
        leaves = None
        if outcome == "passed":
            data = next(left)[-1]
            leaves = Packet(interface_of(data, LINUX_SLL2) or 0, data[LINK_LENGTHS[LINUX_SLL2]:])
        yield Said(outcome, seen.state, seen.decisions, leaves)
