"""The cases in which calls are refused: rows, examples, checks and texts."""
from __future__ import annotations

import glob
import os
import sys
from dataclasses import dataclass, field
from typing import Iterator, Mapping, Sequence

from files import ROWS, TOP, contents
from outcomes import ENDS
from plain import IN_HEADER
from rows import Row, came, rows

# Rows of the gate by their files, all of a file where none is named.
FEW: Mapping[str, Sequence[str]] = {"devices.rows": (), "errors.rows": ("an error to the source",)}
# More rows of translation, and of reports.
NAMED: Mapping[str, Sequence[str]] = {
    "translation.rows": (
        "replies 1", "replies 2", "chosen 3", "chosen 4", "hairpins 1", "clashes 1", "without ports 1"),
    "reports.rows": (),
    "notrack.rows": ("nothing is known of an untracked packet",),
}
EXAMPLES = ("first", "rules", "trace", "connections", "nat", "errors")
# What goes through tests/refuse/refuse.nft: translated, answered, logged, counted, dropped, untranslated again.
THROUGH = (
    "0 lan udp 192.168.1.10:5000 > 198.51.100.7:53",
    "1 wan udp 198.51.100.7:53 > 203.0.113.1:5000",
    "2 lan tcp:S 192.168.1.10:40000 > 198.51.100.9:22",
    "3 lan tcp:S 192.168.1.40:40000 > 198.51.100.9:80",
    "4 lan udp 192.168.1.70:5000 > 198.51.100.7:53",
    "5 lan echo-request 192.168.1.30:7 > 198.51.100.7",
    "6 wan echo-reply 198.51.100.7 > 203.0.113.9:7",
    "7 wan tcp:S 198.51.100.9:50000 > 203.0.113.1:8080",
    "8 wan error:3 198.51.100.1 > 203.0.113.1 about udp 203.0.113.1:5000 > 198.51.100.7:53",
    "400 lan udp 192.168.1.10:5000 > 198.51.100.7:53",
)


@dataclass(frozen=True)
class Case:
    """Words of the program, the files that they name, its status where that is told, and its row where each call is
    judged."""

    name: str
    words: Sequence[str]
    files: Mapping[str, bytes] = field(default_factory=dict)
    status: int | None = None
    row: Row | None = None

    @property
    def is_run(self) -> bool:
        return "in" in self.files

    @property
    def is_help(self) -> bool:
        return not self.files


@dataclass(frozen=True)
class Inputs:
    """The inputs of a run."""

    rules: bytes
    box: bytes
    capture: bytes

    @property
    def files(self) -> dict[str, bytes]:
        return {"rules": self.rules, "box": self.box, "in": self.capture}


def run_case(name: str, inputs: Inputs, trace: bool, status: int | None = None, row: Row | None = None) -> Case:
    words = ["run", *(["--trace"] if trace else []), "rules", "box", "in", "out"]
    return Case(name, words, inputs.files, status, row)


def check_names() -> None:
    """Ends the program where a row is named that isn't there, so that no case falls away unnoticed."""
    for wanted in (FEW, NAMED):
        for name, named in wanted.items():
            there = {row.name for row in rows(f"{ROWS}/{name}")}
            missing = set(named) - there
            if missing or not there:
                sys.exit(f"tests/refuse/test-refuse: {name} has no row {', '.join(sorted(missing))}")


def is_named(names: Mapping[str, Sequence[str]], file: str, row: Row) -> bool:
    """Whether the names have the row, or its file without naming rows."""
    return file in names and (not names[file] or row.name in names[file])


def cases_of(row: Row, name: str, is_few: bool = False) -> Iterator[Case]:
    box = contents(f"{ROWS}/{row.box}")
    texts = [text.encode() for text in row.rulesets]
    if row.file:
        texts.append(contents(f"{ROWS}/{row.file}"))
    for text in texts or [b""]:
        inputs = Inputs(text, box, row.capture())
        if is_few:
            yield run_case(name, inputs, row.trace, ENDS[row.status].status, row)
        else:
            yield run_case(name, inputs, row.trace)


def few() -> Iterator[Case]:
    """The cases of the gate."""
    for name in FEW:
        for row in rows(f"{ROWS}/{name}"):
            if is_named(FEW, name, row):
                yield from cases_of(row, f"{name}: {row.name}", is_few=True)
    capture = IN_HEADER + b"".join(came(text) for text in THROUGH)
    inputs = Inputs(contents(f"{TOP}/tests/refuse/refuse.nft"), contents(f"{ROWS}/box.txt"), capture)
    yield run_case("tests/refuse/refuse.nft", inputs, True, 0)


def of_examples() -> Iterator[Case]:
    for name in EXAMPLES:
        rules, box, capture = (
            contents(f"{TOP}/examples/{name}/{file}") for file in ("rules.nft", "box.txt", "in.pcap"))
        yield run_case(f"examples/{name}", Inputs(rules, box, capture), True)


def of_rows(every_row: bool) -> Iterator[Case]:
    """Those of rows that the gate hasn't."""
    for file in sorted(glob.glob(f"{ROWS}/*.rows")):
        name = os.path.basename(file)
        for row in rows(file):
            if not is_named(FEW, name, row) and (every_row or is_named(NAMED, name, row)):
                yield from cases_of(row, f"{name}: {row.name}")


def of_checks(box: bytes) -> Iterator[Case]:
    words = ["check", "rules", "box"]
    for path in sorted(glob.glob(f"{TOP}/examples/check/*.nft") + [f"{TOP}/examples/language/rules.nft"]):
        yield Case(f"check of {os.path.basename(path)}", words, {"rules": contents(path), "box": box})
    for path in sorted(glob.glob(f"{TOP}/examples/check/B*.txt")):
        yield Case(f"check on {os.path.basename(path)}", words, {"rules": b"", "box": contents(path)})


def cases(every_row: bool) -> Iterator[Case]:
    """All cases, and of every row where these are asked for."""
    yield from few()
    box = contents(f"{ROWS}/box.txt")
    plain = contents(f"{ROWS}/torn.pcap")[:68]
    yield run_case("a torn header", Inputs(b"", box, plain[:10]), False)
    yield run_case("a refused record", Inputs(b"", box, plain + b"\0" * 11 + b"\xff" + b"\0" * 4), True)
    yield from of_examples()
    yield from of_rows(every_row)
    yield from of_checks(box)
    accepted = contents(f"{TOP}/tests/calls/accepted.nft")
    yield Case("what can be met", ["reach", "rules", "box"], {"rules": accepted, "box": box})
    unmet = contents(f"{ROWS}/unmet.nft")
    yield Case("which packets meet rules", ["reach", "--sets", "rules", "box"], {"rules": unmet, "box": box})
    yield Case("no words", [])
    yield Case("help", ["run", "--help"])
    yield Case("no file", ["check", "rules", "none"], {"rules": b""})
    yield Case("OUT is IN", ["run", "rules", "box", "in", "in"], Inputs(b"", box, plain).files)
