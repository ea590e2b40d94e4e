"""Reads the rows of tests/calls, and tells which calls of the system each call of the program on its host is."""
from __future__ import annotations

import enum
import errno
import re
from dataclasses import dataclass
from typing import Iterable, Mapping, Sequence

# A call on the host, and the calls of the system that it makes, in their order, as tests/shared/shim.c notes them: `|`
# stands between those of which each may come, `+` behind what is made once or more, `?` behind what is made on a
# terminal alone. The words are in memory, and a ruleset is judged there.
SYSTEM = (
    ("words|judge .+|(?:reach|diff) .+ in vain", ""),
    ("read (.+)", r"open \1, read \1+"),
    ("open (.+)", r"open \1, size \1?"),
    ("identify (.+)", r"stat \1"),
    ("draw keys", "keys"),
    ("create (.+)", r"create \1"),
    ("run .+ to a file.*", "read in|write out|write file+"),
    ("run .+", "read in|write out|write 1+"),
    ("announce .+|(?:reach|diff) .+|show .+|explain help", "write 1+"),
    ("tell .+|explain usage: .+|warn of .+", "write 2+"),
    ("clarify check .+|list faults", "stat rules, open rules, read rules+, stat box, open box, read box+, write 2+"),
    ("clarify run .+", "stat in, open in, read in+, write 2+"),
    ("remark on (.+)", r"stat \1, stat box, open box, read box+, open \1, read \1+, write 2+, stat rules, open rules, "
     r"read rules+, keys, open \1, read \1+, write 2+"),
)


class Often(enum.Enum):
    """How often a call of the system is made, by what stands behind its pattern."""

    ONCE = ""
    MANY = "+"
    ON_TERMINAL = "?"


@dataclass(frozen=True)
class Step:
    """One of these calls of the system: the lines that may be noted of it."""

    notes: Sequence[str]
    often: Often

    @staticmethod
    def read(text: str, paths: Mapping[str, str]) -> Step:
        often = Often(text[-1]) if text[-1] in "+?" else Often.ONCE
        return Step([noted(note, paths) for note in text.rstrip("+?").split("|")], often)

    def pattern(self, often: str | None = None) -> str:
        """A pattern of the lines that are noted of it."""
        notes = "|".join(map(re.escape, self.notes))
        return f"(?:(?:{notes})\n){self.often.value if often is None else often}"


@dataclass(frozen=True)
class Failing:
    """A call that fails, by its number, the call of the system by which it does (None: memory), and the error."""

    number: int
    note: str | None
    error: int


def noted(note: str, paths: Mapping[str, str]) -> str:
    """The line of a call, with the path of the file that it names."""
    kind, space, name = note.partition(" ")
    return kind + space + paths.get(name, name)


def steps(call: str, paths: Mapping[str, str]) -> list[Step]:
    """The calls of the system that a call on the host makes."""
    for form, made in SYSTEM:
        match = re.fullmatch(form, call)
        if match:
            return [Step.read(step, paths) for step in match.expand(made).split(", ") if step]
    raise SystemExit(f"tests/calls: there is no call {call}")


def notes_of(calls: Iterable[str]) -> list[str]:
    """The lines of the calls of the system that are made in these calls on the host, each once for each of them."""
    return [note for call in calls for step in steps(call, {}) for note in step.notes]


def stopped(made: Iterable[Step], note: str | None) -> str:
    """A pattern of what is noted where these steps end as this call of the system fails, or a request for memory
    (None)."""
    text = ""
    for step in made:
        if note is not None and note in step.notes:
            return text + step.pattern("*" if step.often is Often.MANY else "{0}") + re.escape(note) + "\n"
        text += step.pattern("*" if note is None else None)
    return text


def pattern(calls: Sequence[str], paths: Mapping[str, str], failing: Failing | None = None) -> str:
    """A pattern of what is noted of these calls on the host, with the paths of their files, where these differ from
    their names."""
    text = ""
    for number, call in enumerate(calls):
        made = steps(call, paths)
        if failing and failing.number == number:
            text += stopped(made, failing.note)
        else:
            text += "".join(step.pattern() for step in made)
    return text


def refusal(calls: Sequence[str], failing: Failing) -> dict[str, str]:
    """What has tests/shared/shim.c refuse a call of the system, or memory, within a call on the host."""
    before = notes_of(calls[:failing.number])
    if failing.note is None:
        # A request for memory is told by how many files were opened before it.
        opened = sum(made.startswith(("open ", "create ")) for made in before)
        return {"REFUSE_CALL": "memory", "REFUSE_ALL": "1", "REFUSE_ONLY": "-abcde"[opened]}
    at = before.count(failing.note) + 1
    return {"REFUSE_CALL": failing.note, "REFUSE_AT": str(at), "REFUSE_ERRNO": str(failing.error)}


def ways(call: str, error: int) -> Sequence[str | None]:
    """The calls of the system by which a call on the host may fail with this error; None stands for memory."""
    found = [note for step in steps(call, {}) if step.often is not Often.ON_TERMINAL for note in step.notes]
    if error == errno.ENOMEM and (call.startswith("run ") or not found):
        # A run takes any failed call for one of its devices.
        return [None]
    return found


@dataclass(frozen=True)
class Pair:
    """Two paths that are one file, or one terminal."""

    one: str
    other: str

    @staticmethod
    def read(text: str) -> Pair:
        one, other = text.split()
        return Pair(one, other)

    @property
    def paths(self) -> tuple[str, str]:
        return self.one, self.other


Lists = Mapping[str, Sequence[str]]


class Row:
    """Arguments, what happens on the host, the calls that are made on it, and the exit status."""

    def __init__(self, name: str, words: Sequence[str] = (), calls: Sequence[str] = (),
                 status: int | None = None) -> None:
        self.name = name
        self.words, self.calls, self.status = list(words), list(calls), status
        self.capture, self.is_refused, self.is_on_terminal = "whole", False, False
        self.same: Pair | None = None
        self.terminal: Pair | None = None
        self.absent: str | None = None
        self.fails_at: int | None = None
        self.error = 0

    def take(self, word: str, rest: str, lists: Lists) -> None:
        """Takes a line, or raises `ValueError`."""
        if word == "words":
            self.words = rest.split()
        elif word == "call":
            self.calls.append(rest)
        elif word == "first":
            count, name = rest.split()
            self.calls += [lists[name][number] for number in range(int(count))]
        elif word == "status":
            self.status = int(rest)
        else:
            self.take_event(word, rest)

    def take_event(self, word: str, rest: str) -> None:
        """Takes what happens on the host."""
        if word == "fails":
            number, name = rest.split()
            self.fails_at, self.error = int(number), getattr(errno, name)
        elif word == "same":
            self.same = Pair.read(rest)
        elif word == "terminal":
            self.terminal = Pair.read(rest)
        elif word == "capture":
            self.capture = rest
        elif word == "absent":
            self.absent = rest
        elif (word, rest) == ("refused", ""):
            self.is_refused = True
        elif (word, rest) == ("errors", "terminal"):
            self.is_on_terminal = True
        else:
            raise ValueError

    def failing(self) -> Failing | None:
        """The call that fails, by the first call of the system in it."""
        if self.fails_at is None:
            return None
        return Failing(self.fails_at, ways(self.calls[self.fails_at], self.error)[0], self.error)


@dataclass(frozen=True)
class Calls:
    """The lists of calls of a file, by their names, and its rows."""

    lists: Lists
    rows: Sequence[Row]


@dataclass(frozen=True)
class Answer:
    """A line `QUESTION => ANSWER`."""

    question: str
    answer: str


def lines(path: str) -> list[str]:
    """The lines of a file that are neither empty nor comments."""
    with open(path, encoding="utf-8") as file:
        return [line for line in file.read().split("\n") if line and not line.startswith("#")]


def read(path: str) -> Calls:
    lists: dict[str, list[str]] = {}
    rows: list[Row] = []
    row: Row | None = None
    calls: list[str] = []
    for line in lines(path):
        word, _, rest = line.partition(" ")
        try:
            if word == "list":
                row, calls = None, lists.setdefault(rest, [])
            elif word == "row":
                row = Row(rest)
                rows.append(row)
            elif row:
                row.take(word, rest, lists)
            elif word == "call":
                calls.append(rest)
            else:
                raise ValueError
        except (ValueError, LookupError, AttributeError):
            raise SystemExit(f"{path}: can't be read: {line}") from None
    return Calls(lists, rows)


def answers(path: str) -> list[Answer]:
    """The lines `QUESTION => ANSWER` of a file."""
    found = []
    for line in lines(path):
        question, arrow, answer = line.partition("=> ")
        if not arrow:
            raise SystemExit(f"{path}: can't be read: {line}")
        found.append(Answer(question.strip(), answer))
    return found


def texts(path: str) -> dict[str, str]:
    """The texts of a file, each below a line `== NAME`."""
    found: dict[str, str] = {}
    name = ""
    for line in lines(path):
        if line.startswith("== "):
            name = line.removeprefix("== ")
            found[name] = ""
        else:
            found[name] += f"{line}\n"
    return found
