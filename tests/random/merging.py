"""The merges of rules that `nft -o` proposes of a ruleset, and the ruleset with them. nft(8) is asked in a network
namespace of its own with the interfaces of a box file (as a user with unshare -r, or root); nothing is loaded."""
from __future__ import annotations

import itertools
import re
import shlex
import subprocess
import tempfile
from dataclasses import dataclass
from typing import Iterator, Sequence

MOST_ROUNDS = 12
PLACE = re.compile(r"[^:]*:([0-9]+):([0-9]+)-([0-9]+): (?!Error)")
FAULT = re.compile(r"[^:\s]*:([0-9]+):[-0-9:]+: Error")
NO_MERGE = re.compile("^nft: |: Error")  # an assertion that fails, a fault
INTERFACE = re.compile(r"^interface ([0-9]+) (\S+)", re.M)


@dataclass(frozen=True)
class Span:
    """The part of a line that a rule has: the line from 0, and its columns."""

    line: int
    begin: int
    end: int


@dataclass(frozen=True)
class Merge:
    """Rules that stand one behind another, and the rule that is to stand for them."""

    rules: Sequence[Span]
    text: str


@dataclass(frozen=True)
class Said:
    """What nft prints, and whether it takes the ruleset."""

    text: str
    is_taken: bool

    def faulty(self) -> set[int]:
        """The lines that it finds at fault, from 0."""
        return {int(found[1]) - 1 for found in map(FAULT.match, self.text.split("\n")) if found}


def nft(text: str, box: str, options: str) -> Said:
    """What nft says of a ruleset."""
    with tempfile.NamedTemporaryFile("w", suffix=".nft", encoding="utf-8") as file:
        file.write(text)
        file.flush()
        links = [f"ip link add name {shlex.quote(name)} index {index} type bridge"
                 for index, name in dict(INTERFACE.findall(box)).items()]
        words = "\n".join([*links, f"exec stdbuf -o0 nft {options} -f {shlex.quote(file.name)} 2>&1"])
        done = subprocess.run(["unshare", "-rn", "sh", "-c", words], stdout=subprocess.PIPE,
                              stderr=subprocess.DEVNULL, check=False)
        return Said(done.stdout.decode(errors="replace").replace(file.name, "RULES"), done.returncode == 0)


def proposed(text: str, box: str) -> list[Merge]:
    """The merges that nft proposes."""
    return list(merges_in(nft(text, box, "-c -o").text))


def merges_in(said: str) -> Iterator[Merge]:
    """The merges that nft prints. One whose rules go over several lines has fewer places than rules, and is left
    out."""
    for part in said.split("Merging:\n")[1:]:
        rules, _, merged = part.partition("into:\n\t")
        lines = [line for line in rules.split("\n") if line.startswith("RULES:")]
        places = [found for found in map(PLACE.match, lines) if found]
        text = " ".join(itertools.takewhile(lambda line: not NO_MERGE.search(line), merged.split("\n"))).strip()
        if text and len(places) == len(lines) > 1:
            yield Merge([Span(int(it[1]) - 1, int(it[2]) - 1, int(it[3])) for it in places], text)


def with_merges(text: str, merges: Sequence[Merge]) -> str:
    """The ruleset with these merges."""
    lines = text.split("\n")
    changes = [(span, merge.text if number == 0 else "") for merge in merges for number, span in enumerate(merge.rules)]
    # The last of a line first, so that columns before it stay as they are.
    for span, new in sorted(changes, key=lambda it: (it[0].line, it[0].begin), reverse=True):
        line = lines[span.line]
        lines[span.line] = line[:span.begin] + new + line[span.end:]
    return "\n".join(lines)


def taken_part(text: str, box: str) -> str | None:
    """The ruleset without the lines that nft refuses, if it takes that."""
    for _ in range(MOST_ROUNDS):
        said = nft(text, box, "-c")
        if said.is_taken:
            return text
        lines = text.split("\n")
        text = "\n".join("" if number in said.faulty() else line for number, line in enumerate(lines))
    return None
