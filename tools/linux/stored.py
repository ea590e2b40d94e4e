"""What a kernel said of a capture, as JSON: so that comparing and explaining are tried without one."""
from __future__ import annotations

import json
from dataclasses import astuple
from typing import Iterable

from linux.frames import Cables, sending_of
from linux.question import Heard, Question
from linux.seen import Fate, Packet, Place, Told
from toolbox.reports import Decision, RuleCounter


def packets_text(packets: Iterable[Packet]) -> list[list[object]]:
    return [[packet.interface, packet.data.hex()] for packet in packets]


def packets_of(texts: Iterable[tuple[int, str]]) -> list[Packet]:
    return [Packet(interface, bytes.fromhex(text)) for interface, text in texts]


def write(path: str, heard: Heard) -> None:
    """Stores what the kernel said in a run."""
    records = [[told.fate.value, told.where.value, told.state, [astuple(one) for one in told.decisions],
                packets_text(told.leaves), packets_text(told.made)] for told in heard.told]
    data = {"limits": heard.limits, "own": heard.own_packets, "with_ipv6": heard.with_ipv6,
            "counters": [astuple(one) for one in heard.counters], "records": records}
    with open(path, "w", encoding="ascii") as file:
        json.dump(data, file, separators=(",", ":"))
        file.write("\n")


def take(path: str, question: Question) -> Heard:
    """What was stored, in place of a kernel's words to the same question."""
    with open(path, encoding="ascii") as file:
        data = json.load(file)
    box = question.box
    cables = Cables({index: number for number, index in enumerate(box.names, 1)}, data["with_ipv6"])
    told = []
    for record, (fate, where, state, decisions, leaves, made) in zip(question.records, data["records"]):
        sending = sending_of(record.data, question.link_type, box, cables)
        told.append(Told(sending, Fate(fate), Place(where), state, [Decision(*one) for one in decisions],
                         packets_of(leaves), packets_of(made)))
    counters = [RuleCounter(*counter) for counter in data["counters"]]
    return Heard(told, counters, data["own"], False, data["limits"], data["with_ipv6"])
