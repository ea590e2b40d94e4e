"""Texts and captures with what `--explain`, `--all` and `check --nft` tell of them."""
from __future__ import annotations

import re
import shutil
from dataclasses import dataclass
from typing import Callable, Iterator

from files import LONG, ROWS, contents, difference
from programs import Program

FAULTS = f"{ROWS}/faults"


@dataclass(frozen=True)
class Part:
    """A part of a file, below a line `== NAME`."""

    name: str
    text: str


@dataclass(frozen=True)
class Text:
    """A ruleset or a box file by its name, which is told."""

    name: str
    data: bytes


@dataclass(frozen=True)
class Checked:
    """The exit status of a check, and what it prints on either output."""

    status: int
    told: str


Fault = Callable[[str, str], None]  # takes the name of a trial, and what is wrong


def parts(file: str) -> Iterator[Part]:
    """The parts of a file of tests/rows."""
    _, *found = re.split("^== (.*)\n", contents(f"{ROWS}/{file}").decode(), flags=re.MULTILINE)
    for name, text in zip(found[::2], found[1::2]):
        yield Part(name, text.removesuffix("\n"))


class Texts:
    """The trials of a program's words about texts; what is wrong goes to `fail`."""

    def __init__(self, program: Program, fail: Fault) -> None:
        self.program, self.fail = program, fail

    def check(self, words: list[str], rules: Text, box: Text) -> Checked:
        for text in (rules, box):
            self.program.store(text.name, text.data)
        given = self.program.call(["check", *words, rules.name, box.name])
        return Checked(given.status, given.errors + given.printed)

    def try_fault(self, part: Part) -> None:
        given = self.place_in(part.name) if part.name.endswith(".pcap") else self.diagnostics(part.name)
        if given.removesuffix("\n") != part.text:
            self.fail(part.name, "other diagnostics\n" + difference(part.text, given))

    def diagnostics(self, name: str) -> str:
        """What `--explain` and `--all` print of a ruleset, or of a box file."""
        text = Text(name, LONG if name == "long.nft" else contents(f"{FAULTS}/{name}"))
        is_rules = name.endswith(".nft")
        rules = text if is_rules else Text("whole.nft", contents(f"{FAULTS}/whole.nft"))
        box = Text("box.txt", contents(f"{FAULTS}/box.txt")) if is_rules else text
        return self.check(["--explain", "--all"], rules, box).told

    def place_in(self, name: str) -> str:
        """What `--explain` prints of a capture."""
        for path in ("none.nft", "box.txt", f"faults/{name}"):
            shutil.copy(f"{ROWS}/{path}", self.program.folder)
        return self.program.call(["run", "--explain", "none.nft", "box.txt", name, "out"]).errors

    def try_mistake(self, part: Part) -> None:
        """Compares what is told of a ruleset with a mistake; mended it has to be accepted."""
        rules, _, rest = part.text.partition("\n-- told\n")
        wanted, _, mended = rest.partition("\n-- mended\n")
        box = Text("box.txt", contents(f"{FAULTS}/box.txt"))
        given = self.check(["--explain"], Text("rules.nft", rules.encode()), box).told.removesuffix("\n")
        if given != wanted:
            self.fail(part.name, "told is\n" + difference(wanted, given))
        checked = self.check([], Text("rules.nft", mended.encode()), box)
        if checked.status:
            self.fail(part.name, f"mended it is {checked.told}")

    def try_warned(self, part: Part) -> None:
        """Compares the warnings of a ruleset, which has to be accepted."""
        rules, _, foot = part.text.partition("\n-- ")
        wanted = foot.partition("\n")[2]
        self.program.store("rules", (rules.replace("<CR>", "\r") + "\n").encode())
        self.program.store("box", contents(f"{ROWS}/box.txt"))
        given = self.program.call(["check", "--nft", "rules", "box"])
        if given.status:
            self.fail(part.name, f"refused: {given.errors}")
        elif given.errors.rstrip() != wanted.rstrip():
            self.fail(part.name, "told is\n" + difference(wanted, given.errors))
