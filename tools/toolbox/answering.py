"""Questions that the program answers of rulesets alone, for all packets: what comes back, or why nothing does."""
from __future__ import annotations

import subprocess
import tempfile
from dataclasses import dataclass
from typing import Collection, Sequence

from toolbox.commands import Refused
from toolbox.program import run_child

# statuses of the program: a ruleset or a box file is rejected, it lacks the question, its sets get too large
REJECTED, USAGE, TOO_LARGE = (1, 3), 2, 9
PREFIX = "nftrun: "  # of its lines on standard error


@dataclass(frozen=True)
class NoAnswer:
    """Why there is no answer; `was_asked` is False where the program lacks the question, `status` is the program's,
    where it ended by itself."""

    why: str
    was_asked: bool = True
    status: int | None = None

    @property
    def is_rejected(self) -> bool:
        """Whether the program took the ruleset or the box file for none."""
        return self.status in REJECTED


@dataclass(frozen=True)
class Answer:
    """The status of a program, and the lines that it printed."""

    status: int
    lines: Sequence[str]


def answer_to(program: str, words: Sequence[str], statuses: Collection[int],
              seconds: float | None = None) -> Answer | NoAnswer:
    """What a program answers to words, the first of which is the question: its lines, where it ends with one of these
    statuses; nothing behind so many seconds."""
    question = words[0]
    with tempfile.TemporaryFile() as output:
        try:
            status, errors = run_child([program, *words], output.fileno(), seconds)
        except subprocess.TimeoutExpired:
            return NoAnswer(f"nftrun {question} took over {seconds} s")
        except Refused as refusal:
            return NoAnswer(str(refusal), was_asked=False)
        output.seek(0)
        text = output.read().decode("utf-8", "surrogateescape")
    first = errors.partition("\n")[0]
    if status == USAGE:
        return NoAnswer(f"{program} has no `{question}` ({first})", was_asked=False, status=status)
    if status not in statuses:
        why = first.removeprefix(PREFIX) or f"status {status}"
        return NoAnswer(f"nftrun {question}: {why}", status=status)
    return Answer(status, text.removesuffix("\n").split("\n") if text else ())


def unread(question: str, fault: ValueError) -> NoAnswer:
    """That an answer has a line that can't be read."""
    return NoAnswer(f"nftrun {question}: a line that can't be read: {fault}")
