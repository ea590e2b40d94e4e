"""Reports of nftrun run --trace (docs/SPEC.md, 9), streamed."""
from __future__ import annotations

import os
import re
from collections import Counter
from dataclasses import dataclass
from typing import BinaryIO, Dict, Iterable, Iterator

from toolbox.commands import Refused

CHUNK = 1 << 20
LONGEST = 1 << 20  # bytes of a line: names and prefixes of rules are far shorter
MOST_DIGITS = 20
# a record of a trace: the lines of its events, its number, its outcome
TRACED = re.compile(rb"^((?:(?:trace|log) .*\n)*?)trace ([0-9]+) outcome (\w+)\n", re.MULTILINE)
OUTCOME = re.compile(rb"\ntrace [0-9]+ outcome (\w+)")
EVENT = re.compile(rb"^(trace|log) [0-9]+ (.*)$", re.MULTILINE)
# no number of a report has more than 20 digits
TOTAL = re.compile(rb"[a-z]+(?: [a-z]+)? [0-9]{1,20}")
COUNTER = re.compile(
    rb"counter (\S+ \S+ \S+) ([0-9]{1,20}) ([0-9]{1,20}) packets ([0-9]{1,20}) bytes ([0-9]{1,20})")
DECISION = re.compile(rb"(\S+ \S+ \S+) ([0-9]{1,20}|policy) (.+)", re.DOTALL)
LOGGED = re.compile(rb"(\S+ \S+ \S+) ([0-9]{1,20})(?: (.*))?", re.DOTALL)

# what became of a packet that nothing dropped
THROUGH = ("passed", "local")


@dataclass(frozen=True)
class Decision:
    """What a rule decided; `rule` is None where the policy decides. `chain` is "FAMILY TABLE CHAIN", here and below."""

    chain: str
    rule: int | None
    verdict: str


@dataclass(frozen=True)
class Log:
    """What a log statement said."""

    chain: str
    rule: int
    prefix: str


@dataclass(frozen=True)
class RuleCounter:
    """A counter of a rule, `which` of them from 1, with what it counted."""

    chain: str
    rule: int
    which: int
    packets: int
    bytes: int


def text_of(data: bytes) -> str:
    return data.decode("utf-8", "surrogateescape")


def records_of(path: str) -> Iterator[tuple[int, list[bytes], bytes | None]]:
    """Each record of a report, as (number, events, outcome). Events are what stands behind `trace N `, and `log ` with
    what stands behind `log N `, all as bytes; `event_of` reads them. Without a trace there are records only where
    something was logged, and the outcome is None; a report that broke off gives what is whole."""
    current = b""
    events: list[bytes] = []
    with open(path, "rb") as file:
        for line in file:
            is_trace = line.startswith(b"trace ")
            if line[-1:] != b"\n" or not is_trace and not line.startswith(b"log "):
                break
            number, _, what = line[6 if is_trace else 4:-1].partition(b" ")
            if is_trace and what.startswith(b"outcome "):
                yield number_of(number), events, what[8:]
                events = []
                continue
            if events and number != current:
                yield number_of(current), events, None
                events = []
            current = number
            events.append(what if is_trace else b"log " + what)
    if events:
        yield number_of(current), events, None


def traced_records(path: str) -> Iterator[tuple[bytes, bytes]]:
    """Each record of a whole report with a trace, as (events, outcome): `events` is what `records_of` has of them, each
    with a newline behind it."""
    rest = b"\n"
    with open(path, "rb") as file:
        while chunk := file.read(CHUNK):
            text = rest + chunk
            found = TRACED.findall(text, 1)
            if found:
                _, number, outcome = found[-1]
                text = text[text.rfind(b"\ntrace %s outcome %s\n" % (number, outcome)) + 1:]
                text = text[text.index(b"\n"):]
            rest = text
            for lines, number, outcome in found:
                if b"log " in lines:
                    yield b"".join(event_in(line) + b"\n" for line in lines.split(b"\n")[:-1]), outcome
                else:
                    yield lines and lines.replace(b"trace " + number + b" ", b""), outcome


def number_of(word: bytes) -> int:
    if not word.isdigit() or len(word) > MOST_DIGITS:
        raise Refused(f"no line of a report: record {text_of(word)}")
    return int(word)


def event_of(event: bytes) -> Decision | Log:
    """A Decision or a Log."""
    is_log = event.startswith(b"log ")
    parts = (LOGGED if is_log else DECISION).fullmatch(event[4:] if is_log else event)
    if parts is None:
        raise Refused(f"no line of a report: {text_of(event)}")
    chain, rule, rest = parts.groups()
    if is_log:
        return Log(text_of(chain), int(rule), text_of(rest or b""))
    return Decision(text_of(chain), None if rule == b"policy" else int(rule), text_of(rest))


class Numbers(Dict[bytes, int]):
    """Numbers from 1 for names, as they come."""

    def __missing__(self, name: bytes) -> int:
        number = self[name] = len(self) + 1
        return number


def outcomes_of(path: str, names: dict[bytes, int]) -> bytearray:
    """Of each record (from 1) the number of its outcome in `names`, which grows: a byte a record."""
    numbers, outcomes, rest = Numbers(names), bytearray(1), b"\n"
    with open(path, "rb") as file:
        while chunk := file.read(CHUNK):
            whole = rest + chunk
            end = whole.rfind(b"\n")
            outcomes += bytes(map(numbers.__getitem__, OUTCOME.findall(whole, 0, end)))
            rest = whole[end:]
    names.update(numbers)
    return outcomes


def events_of_some(path: str, wanted: Iterable[int]) -> Iterator[list[bytes]]:
    """The events of each wanted record, whose numbers rise, as `records_of` has them. The report is whole and has a
    trace; what stands between is passed over."""
    with open(path, "rb") as file:
        report = Passages(file)
        for number in wanted:
            if number - 1 > report.number:
                report.take(number - 1, passes_over=True)
            yield [event_in(line) for line in report.take(number).split(b"\n")[:-1]]


class Passages:
    """A report from its front, of which `text` is kept: behind its first newline stands what comes behind record
    `number`."""

    def __init__(self, file: BinaryIO) -> None:
        self.file, self.text, self.at, self.number = file, b"\n", 0, 0

    def take(self, number: int, passes_over: bool = False) -> bytes:
        """What stands before a record's outcome, and goes behind that. What is passed over isn't kept, nor given."""
        head = b"\ntrace %d outcome " % number
        while (found := self.text.find(head, self.at)) < 0 or (end := self.text.find(b"\n", found + 1)) < 0:
            more = self.file.read(CHUNK)
            if not more:
                raise Refused(f"no report with a trace: it lacks the outcome of record {number}")
            kept = self.text.rfind(b"\n", self.at) if passes_over else self.at
            self.text, self.at = self.text[kept:] + more, 0
        begin, self.at, self.number = self.at + 1, end, number
        return b"" if passes_over else self.text[begin:found + 1]


def event_in(line: bytes) -> bytes:
    """What stands behind `trace N ` or `log N `."""
    word, _, rest = line.partition(b" ")
    what = rest.partition(b" ")[2]
    return b"log " + what if word == b"log" else what


class Totals:
    """The counters and totals of a report. `name` is what messages call it."""

    def __init__(self, name: str) -> None:
        self.name = name
        self.counters: list[RuleCounter] = []
        self.totals: dict[str, int] = {}

    def take_total(self, line: bytes, which: str) -> None:
        """Takes a line of one; `which` line of the report it is."""
        parts = COUNTER.fullmatch(line)
        if parts:
            self.counters.append(RuleCounter(text_of(parts[1]), *map(int, parts.groups()[1:])))
        elif TOTAL.fullmatch(line):
            name, _, total = text_of(line).rpartition(" ")
            self.totals[name] = int(total)
        else:
            raise Refused(f"{self.name}: {which} is none of a report: {text_of(line)}")


class Ending(Totals):
    """The counters and totals of a report that nftrun wrote, as what stands behind its records has them. Nothing
    else is read of it: there are some 50 bytes and more for each record."""

    def __init__(self, path: str) -> None:
        super().__init__(path)
        for line in behind_records(path).split(b"\n")[:-1]:
            self.take_total(line, "a line behind its records")


def behind_records(path: str) -> bytes:
    """What stands behind the records of a report."""
    text, read, last = b"", 0, -1
    with open(path, "rb") as file:
        size = file.seek(0, os.SEEK_END)
        while last < 0 and read < size:
            read = min(size, 2 * read + CHUNK)
            file.seek(size - read)
            text = (b"\n" if read == size else b"") + file.read()
            last = max(text.rfind(b"\ntrace "), text.rfind(b"\nlog "))
    return text[last + 1:].partition(b"\n")[2]


class Summary(Totals):
    """What a report tells in all: how often each event, each outcome; its counters and totals. `name` is what messages
    call the report."""

    def __init__(self, path: str, name: str | None = None) -> None:
        super().__init__(name or path)
        # what stands behind `trace N ` or `log N `, with that word
        self.counted: Counter[tuple[bytes, bytes]] = Counter()
        rest, lines = b"", 0
        try:
            with open(path, "rb") as file:
                while chunk := file.read(CHUNK):
                    rest += chunk
                    end = rest.rfind(b"\n") + 1
                    self.take_lines(rest[:end], lines)
                    lines += rest.count(b"\n", 0, end)
                    rest = rest[end:]
                    if len(rest) > LONGEST:
                        raise Refused(f"{self.name}: line {lines + 1} is none of a report: it has over {LONGEST} bytes")
        except OSError as error:
            raise Refused(f"{path}: {error.strerror}") from None
        self.events: Counter[Decision | Log] = Counter()
        self.outcomes: Counter[str] = Counter()
        for (word, what), number in self.counted.items():
            if word == b"trace" and what.startswith(b"outcome "):
                self.outcomes[text_of(what[8:])] += number
            else:
                self.events[event_of(b"log " + what if word == b"log" else what)] += number

    def take_lines(self, lines: bytes, number: int) -> None:
        """Takes whole lines, of which the first is line `number` + 1 of the report."""
        events = EVENT.findall(lines)
        self.counted.update(events)
        if len(events) == lines.count(b"\n"):
            return
        for line in lines.split(b"\n")[:-1]:
            number += 1
            if not EVENT.fullmatch(line):
                self.take_total(line, f"line {number}")

    def check_whole(self) -> None:
        """Refuses a report that broke off, or that was made without --trace."""
        if "torn" not in self.totals or "records" not in self.totals:
            raise Refused(f"{self.name}: the report isn't whole: it has no line `torn`")
        if sum(self.outcomes.values()) != self.totals["records"]:
            raise Refused(f"{self.name}: the report lacks outcomes: run nftrun with --trace")

    def decisions(self) -> dict[Decision, int]:
        """Each decision with how often it was taken."""
        return {event: number for event, number in self.events.items() if isinstance(event, Decision)}

    def logs(self) -> dict[Log, int]:
        return {event: number for event, number in self.events.items() if isinstance(event, Log)}
