"""What a page shows of a run: each record with its way, rules with their hits, drops, senders, connections."""
from __future__ import annotations

import os
from array import array
from collections import Counter
from dataclasses import dataclass
from typing import TYPE_CHECKING, Iterator, Sequence, Tuple

from linux.telling import HELD, Seen, telling, told_records
from pages.tables import NOWHERE, Columns, Connections, Sender, Step, Table
from toolbox import program
from toolbox.captures import (
    IPV4, LINK_LENGTHS, LINUX_SLL2, PROTOCOL_AT, SENT_BY_US, Record, header_of, interface_of, records)
from toolbox.commands import Refused, read_text
from toolbox.packets import TCP, address_text, describe, error_tuple_at, kind_of, tuple_at
from toolbox.replay import AS_CAPTURED, NOT_SENT
from toolbox.reports import THROUGH, Decision, Summary, event_of, records_of, text_of

if TYPE_CHECKING:
    from toolbox.boxes import Box
    from toolbox.replay import Replay
    from toolbox.rulesets import Rule, Ruleset

MOST_BYTES = 256  # of a record that are looked at: all headers, also those within an ICMP error
MOST_SENDERS_KEPT = 100_000
UNSENT = "not sent"  # what becomes of a record that its host wouldn't have sent
# the second sight of a packet, as it leaves: dropped for `link`, and no drop of the box
COPY = "outgoing copy"
# what is no drop
AFTER_ALL = (*THROUGH, UNSENT, COPY)
OUT_AT = LINK_LENGTHS[LINUX_SLL2]
ETHERTYPES = {b"\x08\x06": "ARP", b"\x86\xdd": "IPv6", b"\x81\x00": "a frame with a VLAN tag",
              b"\x88\xa8": "a frame with VLAN tags"}
# causes of drops before any rule
BEFORE = ("link", "interface", "notip", "short", "version", "hlen", "length", "truncated", "checksum", "fragment",
          "transport")

# the chain of a rule, and its number there; 0 is the policy
RulePlace = Tuple[str, int]


def telling_run(path: str, rules: str, box: str, capture: str, folder: str, name: str) -> str | None:
    """The path of the report of a run that also tells of states and of rules that decide nothing; None where the
    ruleset has no room for it."""
    text, report = os.path.join(folder, f"{name}.nft"), os.path.join(folder, name)
    with open(text, "w", encoding="utf-8", errors="surrogateescape", newline="") as file:
        file.write(telling(read_text(rules)))
    try:
        program.run(path, text, box, capture, os.path.join(folder, f"{name}.pcap"), report)
    except Refused:
        return None
    return report


@dataclass(frozen=True)
class RuleHits:
    """How many packets each rule held for; `tells` is whether rules that decide nothing are counted, too."""

    held: Counter[RulePlace]
    logged: Counter[RulePlace]
    tells: bool

    def of(self, rule: Rule, counted: Sequence[int] = ()) -> int | None:
        """Of a rule whose counters counted so much; None where a report can't tell."""
        if self.tells or rule.decides:
            return self.held[rule.place]
        if rule.logs:
            return self.logged[rule.place]
        return max(counted, default=None)


def hits_of(path: str, replay: Replay, folder: str) -> RuleHits:
    """The hits of a ruleset that was replayed, in all."""
    plain = Summary(replay.files.report)
    capture = replay.written() if any(replay.to) else replay.flows.path
    report = telling_run(path, replay.rules, replay.box, capture, folder, "telling-before")
    told = Summary(report) if report else plain
    tells = told is not plain and told.totals == plain.totals and told.counters == plain.counters
    held: Counter[RulePlace] = Counter()
    for decision, many in (told if tells else plain).decisions().items():
        held[decision.chain, decision.rule or 0] += many
    logged: Counter[RulePlace] = Counter()
    for log, many in plain.logs().items():
        logged[log.chain, log.rule] += many
    if tells:
        for log, many in told.logs().items():
            if log.prefix == HELD:
                held[log.chain, log.rule] += many
    return RuleHits(held, logged, tells)


class Model:
    """All of it. `most` bounds how many records are kept one by one; numbers are of all.

    `replay` is the capture as it would have been with this ruleset (toolbox.replay), where it is compared with another:
    answers go to the ports that the ruleset chose, and some records aren't sent."""

    def __init__(self, rules: str, box: Box, capture: str, ruleset: Ruleset, most: int,
                 replay: Replay | None = None) -> None:
        self.box, self.ruleset, self.most = box, ruleset, most
        self.header = header_of(capture)
        self.goes_to = replay.to if replay and any(replay.to) else None
        self.replayed = replay.written() if replay and self.goes_to else None
        self.captured: dict[int, str] = {}  # of a record that was replayed to another end its packet as captured
        self.strings, self.paths = Table(""), Table[Tuple[int, ...]]()
        self.steps, self.outcomes, self.states = Table[Step](), Table[str](), Table("")
        self.columns, self.connections = Columns(), Connections()
        self.hits: Counter[RulePlace] = Counter()
        self.logs: Counter[RulePlace] = Counter()
        self.causes: Counter[str] = Counter()
        self.dropped_in: Counter[tuple[str, str]] = Counter()
        self.senders: dict[bytes, Sender] = {}
        self.first = self.last = 0
        self.drop_moments, self.drop_causes, self.cause_numbers = array("q"), bytearray(), Table[str]()
        self.count, self.tells, self.torn = 0, False, False
        self.known_steps: dict[tuple[Decision, ...], tuple[Step, ...]] = {}
        with program.workspace() as folder:
            self.run(rules, box.path, capture, folder)

    @property
    def span(self) -> int:
        """Nanoseconds from the first record to the last."""
        return self.last - self.first

    @property
    def dropped(self) -> int:
        """How many packets the box dropped."""
        return self.count - sum(self.causes[outcome] for outcome in AFTER_ALL)

    def run(self, rules: str, box: str, capture: str, folder: str) -> None:
        path, given = program.find_program(), self.replayed or capture
        leaving, report = os.path.join(folder, "out.pcap"), os.path.join(folder, "report")
        self.torn = program.run(path, rules, box, given, leaving, report)
        self.summary = Summary(report)
        self.summary.check_whole()
        told = self.told(path, rules, box, given, folder)
        left = records(leaving, MOST_BYTES)
        rows = zip(records(given, MOST_BYTES), records(capture, MOST_BYTES), records_of(report), told or plain(report))
        for record, as_captured, (_, events, ended), seen in rows:
            frame = next(left)[-1] if ended == b"passed" else None
            self.take_logs(events)
            outcome, place = text_of(ended or b""), self.goes_to[record[0]] if self.goes_to else AS_CAPTURED
            if place == NOT_SENT:
                record, outcome = as_captured, UNSENT
            elif place != AS_CAPTURED and record[0] <= self.most:
                self.captured[record[0]] = self.words(as_captured[-1], self.packet_at(as_captured[-1]))
            self.take(record, outcome, seen, frame)

    def take_logs(self, events: Sequence[bytes]) -> None:
        for event in events:
            if event.startswith(b"log "):
                one = event_of(event)
                self.logs[one.chain, one.rule or 0] += 1

    def told(self, path: str, rules: str, box: str, capture: str, folder: str) -> Iterator[Seen] | None:
        """What a second run tells of states and of rules that decide nothing; None where the ruleset has no room for
        it, or it doesn't end alike."""
        report = telling_run(path, rules, box, capture, folder, "telling")
        summary = Summary(report) if report else None
        self.tells = (summary is not None and summary.totals == self.summary.totals
                      and summary.counters == self.summary.counters)
        return told_records(report) if report and self.tells else None

    def rule_hits(self) -> RuleHits:
        return RuleHits(self.hits, self.logs, self.tells)

    def take(self, record: Record, outcome: str, seen: Seen, frame: bytes | None) -> None:
        number, seconds, fraction, _, _, _, data = record
        self.count = number
        if outcome == "link" and self.header.link_type == LINUX_SLL2 and data[10:11] == bytes([SENT_BY_US]):
            outcome = COPY
        moment = max(self.last, seconds * 10**9 + fraction * 10**9 // self.header.fractions)
        if number == 1:
            self.first = self.last = moment
        steps = self.steps_of(seen.decisions)
        self.causes[outcome] += 1
        self.dropped_in[stage_of(outcome, steps), outcome] += 1
        for step in steps:
            self.hits[step.chain, step.rule] += 1
        at = self.packet_at(data)
        if outcome not in AFTER_ALL:
            self.drop_moments.append(moment)
            self.drop_causes.append(self.cause_numbers.number(outcome))
            self.take_sender(number, data, at, outcome)
        if number <= self.most:
            self.keep(record, moment, outcome, seen.state, steps, at, frame)
        self.last = moment

    def packet_at(self, data: bytes) -> int | None:
        protocol = PROTOCOL_AT[self.header.link_type]
        at = LINK_LENGTHS[self.header.link_type]
        is_ipv4 = protocol is None or data[protocol:protocol + 2] == IPV4
        return at if is_ipv4 and len(data) >= at + 20 and data[at] >> 4 == 4 else None

    def steps_of(self, decisions: Sequence[Decision]) -> tuple[Step, ...]:
        """The decisions with the base chain that led to each."""
        key = tuple(decisions)
        found = self.known_steps.get(key)
        if found is None:
            found = self.known_steps[key] = tuple(self.read_steps(key))
        return found

    def read_steps(self, decisions: tuple[Decision, ...]) -> Iterator[Step]:
        base = None
        for decision in decisions:
            chain = self.ruleset.by_name.get(decision.chain)
            if chain is not None and chain.hook:
                base = decision.chain
            yield Step(base or decision.chain, decision.chain, decision.rule or 0, decision.verdict)

    def take_sender(self, number: int, data: bytes, at: int | None, outcome: str) -> None:
        if at is None:
            return
        source = data[at + 12:at + 16]
        if source not in self.senders:
            if len(self.senders) >= MOST_SENDERS_KEPT:
                return
            self.senders[source] = Sender(number)
        sender = self.senders[source]
        sender.packets += 1
        sender.causes[outcome] += 1

    def keep(self, record: Record, moment: int, outcome: str, state: str | None, steps: tuple[Step, ...],
             at: int | None, frame: bytes | None) -> None:
        """Keeps a record with its columns."""
        data, length = record[-1], record[4]
        key = tuple_at(data, at) if at is not None else None
        error = error_tuple_at(data, at) if at is not None and not key else None
        left = tuple_at(frame, OUT_AT) if frame else None
        is_seen = outcome not in BEFORE and outcome not in AFTER_ALL[2:]
        place = self.connections.take(key or error, bool(error), state, left) if is_seen else NOWHERE
        self.columns.add(
            time=moment - self.last, path=self.paths.number(tuple(map(self.steps.number, steps))),
            outcome=self.outcomes.number(outcome), before=self.strings.number(self.words(data, at)),
            after=self.strings.number(describe(frame, OUT_AT)) if frame else 0,
            entering=self.entering(data) or 0, leaving=interface_of(frame, LINUX_SLL2) or 0 if frame else 0,
            ttl=data[at + 8] if at is not None else -1, ttl_after=frame[OUT_AT + 8] if frame else -1,
            length=int.from_bytes(data[at + 2:at + 4], "big") if at is not None else length,
            flags=flags_of(data, at, key), state=self.states.number(state or ""), connection=place.connection,
            side=place.side)

    def words(self, data: bytes, at: int | None) -> str:
        if at is not None:
            return describe(data, at)
        protocol = PROTOCOL_AT[self.header.link_type]
        return ETHERTYPES.get(data[protocol:protocol + 2] if protocol is not None else b"", "no IPv4 packet")

    def entering(self, data: bytes) -> int | None:
        told = interface_of(data, self.header.link_type)
        return self.box.entering() if told is None else told

    def top_senders(self, most: int) -> list[tuple[str, Sender]]:
        """Addresses and what is known of them, most packets first."""
        ordered = sorted(self.senders.items(), key=lambda one: (-one[1].packets, one[1].first))
        return [(address_text(address), sender) for address, sender in ordered[:most]]


def flags_of(data: bytes, at: int | None, key: bytes | None) -> int:
    """The flags of a packet of TCP that has the tuple `key`; -1 of others."""
    if at is None or key is None or kind_of(key) != TCP:
        return -1
    return data[at + 4 * (data[at] & 15) + 13]


def plain(report: str) -> Iterator[Seen]:
    """Of each record no state, and its decisions as the report has them."""
    for _, events, _ in records_of(report):
        yield Seen(None, [one for one in map(event_of, events) if isinstance(one, Decision)])


def stage_of(outcome: str, steps: Sequence[Step]) -> str:
    """Where on its way a record ended."""
    if outcome in BEFORE:
        return "before"
    if outcome in ("route", "ttl") or outcome in AFTER_ALL:
        return outcome
    return steps[-1].base if steps else ""
