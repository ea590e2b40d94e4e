"""What tests/calls has, and how a program's answers are compared with it."""
from __future__ import annotations

import re
from typing import Mapping, Sequence

import calls
from files import ROWS, TOP, contents
from rows import rows
from sandbox import Given, Sandbox

DATA = f"{TOP}/tests/calls"


class Data:
    """What tests/calls has."""

    def __init__(self) -> None:
        found = calls.read(f"{DATA}/calls.txt")
        self.lists, self.rows = found.lists, found.rows
        self.texts = calls.texts(f"{DATA}/texts.txt")
        self.words, self.statuses = calls.answers(f"{DATA}/words.txt"), calls.answers(f"{DATA}/statuses.txt")
        self.runs = {row.name: row for row in rows(f"{DATA}/runs.rows")}
        self.accepted, self.refused = contents(f"{DATA}/accepted.nft"), contents(f"{ROWS}/faults/N06.nft")
        self.box = contents(f"{ROWS}/box.txt")
        self.codes = contents(f"{TOP}/docs/CHECK.md").decode()

    def text_of_code(self, code: str) -> str:
        """What `explain` prints of a code."""
        found = re.search(
            rf"^### {code}\n\n\*\*(.*)\*\*\n\n((?:.|\n)*?)\n\n(?:Example: |#)", self.codes, re.MULTILINE)
        if not found:
            raise SystemExit(f"docs/CHECK.md has no {code}")
        return "{}: {}\n\n{}\n".format(code, *found.groups())


class Judge:
    """Compares what a program gives with what is wanted, and keeps the names of what differs."""

    def __init__(self, sandbox: Sandbox, data: Data) -> None:
        self.sandbox, self.data = sandbox, data
        self.name = ""
        self.failed: set[str] = set()

    def fail(self, why: str) -> None:
        self.failed.add(self.name)
        print(f"{self.name}: {why}", flush=True)

    def equal(self, what: str, wanted: object, given: object) -> None:
        if wanted != given:
            self.fail(f"{what}: wanted is\n{wanted!r}\nand there is\n{given!r}")

    def same(self, what: str, wanted: bytes, given: bytes, is_whole: bool) -> None:
        """Compares bytes, with a beginning of what is wanted where the run failed."""
        if is_whole:
            self.equal(what, wanted, given)
        elif not wanted.startswith(given):
            self.fail(f"{what}: wanted is a beginning of\n{wanted!r}\nand there is\n{given!r}")

    def compare_notes(self, wanted: Sequence[str], given: Given, paths: Mapping[str, str] | None = None,
                      failing: calls.Failing | None = None) -> None:
        """Compares with the calls that are wanted on the host."""
        if not re.fullmatch(calls.pattern(wanted, paths or {}, failing), given.notes):
            names = "\n".join(wanted)
            self.fail(f"calls: wanted are\n{names}\nand there are\n{given.notes}")

    def compare_message(self, wanted: str, errors: str) -> None:
        """Compares clap's message, which may go over several lines, and behind which it tells of the usage and of
        help."""
        message, _, rest = errors.partition("\n\n")
        self.equal("the message", f"error: {wanted}", " ".join(message.split()))
        if not rest.endswith("For more information, try '--help'.\n"):
            self.fail(f"the message doesn't tell of help: {errors!r}")
