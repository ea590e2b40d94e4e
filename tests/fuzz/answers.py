"""What the answer of a run over damaged inputs has to be."""
from __future__ import annotations

import re
from dataclasses import dataclass

from captures import Reading, fault_of_out, placed, read_capture
from damage import MOST, Case
from plain import TOTALS

LINES = {
    0: r"",
    1: r"nftrun: rules (?:E0[1-6]|N0[1-9]|N1[0-5])\n",
    3: r"nftrun: box B[1-5]\n",
    4: r"nftrun: capture P[1-57]\n",
    7: r"nftrun: capture torn\n",
}
REPORT = re.compile(
    r"(?:log \d+ (?:ip|inet) \S+ \S+ \d+(?: [^\n]*)?|trace \d+ (?:(?:ip|inet) \S+ \S+ (?:\d+|policy) [a-z]+(?: \S+)?"
    r"|outcome [a-z]+)|counter (?:ip|inet) \S+ \S+ \d+ \d+ packets \d+ bytes \d+)"
)
MOST_SECONDS = 10


@dataclass(frozen=True)
class Answer:
    """What a run gives: its status, or minus the signal that ended it; standard error; the report; OUT; and the
    seconds of processors and the bytes of memory that it took, 0 where these weren't seen."""

    status: int
    line: str
    report: str
    sent: bytes
    spent: float
    memory: int

    @property
    def kind(self) -> str:
        return self.line.strip() or "done"

    @property
    def is_refused(self) -> bool:
        """Whether a text was refused."""
        return self.status in (1, 3)


@dataclass(frozen=True)
class Totals:
    """The totals of a report, and why it isn't a whole one, or nothing."""

    counts: dict[str, int]
    fault: str | None


def totals_of(report: str, torn: int) -> Totals:
    """Those of a report, each line of which has a known form."""
    lines = report.split("\n")
    if lines.pop() != "" or len(lines) < len(TOTALS):
        return Totals({}, "a report without its totals")
    counts: dict[str, int] = {}
    for name, line in zip(TOTALS, lines[-len(TOTALS):]):
        found = re.fullmatch(name + r" (\d+)", line)
        if not found:
            return Totals({}, f"{line!r} in place of {name}")
        counts[name] = int(found.group(1))
    told = sum(counts[name] for name in TOTALS[1:-3])
    if told != counts["records"] or counts["live"] > counts["begun"] or counts["torn"] != torn:
        return Totals(counts, "totals that don't add up")
    unknown = (line for line in lines[:-len(TOTALS)] if not REPORT.fullmatch(line))
    fault = next((f"an unknown line {line!r}" for line in unknown), None)
    return Totals(counts, fault)


def capture_fault(answer: Answer, reading: Reading) -> str | None:
    """Why a run over accepted texts can't be so, by a plain reading of its capture, or nothing."""
    endings = {"done": (0, ""), "torn": (7, "nftrun: capture torn\n")}
    wanted = endings.get(reading.ending, (4, f"nftrun: capture {reading.ending}\n"))
    if (answer.status, answer.line) != wanted:
        return f"the capture has {reading.count} records and ends with {reading.ending}"
    if answer.status == 4 and reading.ending != "P4":
        is_written = answer.report or answer.sent
        return "something is written though the header is refused" if is_written else None
    if answer.status == 4:
        return fault_of_out(answer.sent, len(placed(answer.sent)))
    totals = totals_of(answer.report, int(answer.status == 7))
    if not totals.fault and totals.counts["records"] != reading.count:
        return f"the capture has {reading.count} records"
    return totals.fault or fault_of_out(answer.sent, totals.counts["passed"])


def run_fault(case: Case, answer: Answer) -> str | None:
    """Why a run's answer can't be, or nothing."""
    if answer.is_refused and (answer.report or answer.sent):
        return "something is written though a text is refused"
    is_long = len(case.rules) > MOST
    if is_long and answer.line != "nftrun: rules E04\n" or not is_long and "E04" in answer.line:
        return "E04 at another length"
    return None if answer.is_refused else capture_fault(answer, read_capture(case.capture))


def check_fault(answer: Answer) -> str | None:
    """Why a check's answer can't be, or nothing."""
    if answer.status not in (0, 1, 3):
        return "no answer to a check"
    if bool(answer.status) == bool(answer.report):
        return "a line for a refused text, or none for an accepted one"
    if not answer.status and not re.fullmatch(r"accepted tables \d+ chains \d+ rules \d+\n", answer.report):
        return "another line"
    return None


def fault_of(case: Case, answer: Answer, is_check: bool) -> str | None:
    """Why an answer can't be, or nothing."""
    if answer.status < 0:
        return f"it ended by signal {-answer.status}"
    if answer.status not in LINES or not re.fullmatch(LINES[answer.status], answer.line):
        return "no answer that README.md has"
    if answer.spent > MOST_SECONDS:
        return f"it took more than {MOST_SECONDS} s"
    if answer.memory > 8 * 2**20 + 64 * (len(case.rules) + len(case.box)) + 24 * len(case.capture):
        return f"it took {answer.memory >> 20} MiB"
    return check_fault(answer) if is_check else run_fault(case, answer)
