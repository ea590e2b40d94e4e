"""What `--help` of a word says, taken apart: that of the program has clap's layout, those of tools/ have argparse's."""
from __future__ import annotations

import os
import re
import subprocess
from dataclasses import dataclass
from pathlib import Path

from release.words import PROGRAM_WORDS, TOOLS, Tool

HEADING = re.compile(r"(Commands|Arguments|Options|positional arguments|optional arguments|options):")
OPTION = re.compile(r" {2,8}(?:-\w(?: \S+)?, )?(--[a-z][a-z-]*)(?:[ =]<?([A-Z{][^\s>]*)>?)?(?: {2,}(\S.*))?")
ARGUMENT = re.compile(r" {2,4}<?([A-Z]+)>?(?: {2,}(\S.*))?")
ANY_OPTION = re.compile(r"(?<![\w-])--[a-z][a-z-]*")
CHOICES = re.compile(r"\{([^}]*)\}")
# What the texts of the program tell of options that its list doesn't have.
IN_PROSE = {
    "--explain": "say behind a code what it means and where the fault is",
    "--no-explain": "explain nothing, on a terminal either",
    "--nft": "warn of what nft refuses or Linux means otherwise",
}


@dataclass(frozen=True)
class Named:
    """An option with what it takes, or an argument, and what is said of it."""

    name: str
    takes: str
    text: str


@dataclass(frozen=True)
class Help:
    """The help of a word: usage, paragraphs before and behind the lists, arguments, and options with --help last."""

    word: str
    usage: str
    paragraphs: tuple[str, ...]
    arguments: tuple[Named, ...]
    options: tuple[Named, ...]
    ending: tuple[str, ...]

    @property
    def summary(self) -> str:
        """The first sentence, as a clause: no full stop, a small letter at its head."""
        first = " ".join(self.paragraphs[0].split()).rstrip(".") if self.paragraphs else self.word
        sentence = re.split(r"(?<=[a-z])[.:] ", first)[0]
        return sentence[:1].lower() + sentence[1:]


def told(command: list[str]) -> str:
    """What a command prints, in a width that doesn't depend on the terminal."""
    known = {**os.environ, "COLUMNS": "100", "LC_ALL": "C.UTF-8", "PYTHONDONTWRITEBYTECODE": "1"}
    done = subprocess.run(command, env=known, stdin=subprocess.DEVNULL, stdout=subprocess.PIPE, text=True, check=True)
    return done.stdout


def paragraphs_of(lines: list[str]) -> tuple[str, ...]:
    return tuple(it.strip("\n") for it in re.split(r"\n[ \t]*\n", "\n".join(lines)) if it.strip())


def parts_of(text: str) -> tuple[str, list[str], dict[str, list[str]], list[str]]:
    """Usage, lines before the lists, the lines of each list by its heading, and the lines behind the last."""
    usage, before, behind = "", list[str](), list[str]()
    lists: dict[str, list[str]] = {}
    at: list[str] | None = None
    in_usage = False
    for line in text.splitlines():
        heading = HEADING.fullmatch(line)
        if line.lower().startswith("usage: "):
            usage, in_usage = line[7:].strip(), True
        elif in_usage and line.startswith(" "):
            usage += " " + line.strip()
        elif heading:
            at = lists.setdefault(heading[1], [])
        elif at is not None and line and not line.startswith(" "):
            behind.append(line)
            at = behind
        else:
            (before if at is None else at).append(line)
        in_usage = in_usage and bool(line)
    return usage, before, lists, behind


def listed(lines: list[str], form: re.Pattern[str], has_value: bool) -> list[Named]:
    """What stands in a list, each with the lines of its text put together."""
    found: list[Named] = []
    for line in lines:
        match = form.fullmatch(line.rstrip())
        if match:
            takes, text = (match[2] or "", match[3] or "") if has_value else ("", match[2] or "")
            found.append(Named(match[1], takes, text))
        elif line.strip() and found:
            last = found.pop()
            found.append(Named(last.name, last.takes, f"{last.text} {line.strip()}".strip()))
    return found


def parsed(word: str, text: str) -> Help:
    usage, before, lists, behind = parts_of(text)
    options, arguments = list[Named](), list[Named]()
    for heading, lines in lists.items():
        if heading.lower().endswith("options"):
            options += listed(lines, OPTION, True)
        elif heading != "optional arguments" and heading != "Commands":
            arguments += listed(lines, ARGUMENT, False)
    if "optional arguments" in lists:  # argparse of Python 3.9
        options += listed(lists["optional arguments"], OPTION, True)
    known = {it.name for it in options}
    for name in dict.fromkeys(ANY_OPTION.findall("\n".join(behind))):
        if name in IN_PROSE and name not in known:
            options.append(Named(name, "", IN_PROSE[name]))
    options.sort(key=lambda it: it.name == "--help")
    if "--help" not in {it.name for it in options}:
        options.append(Named("--help", "", "show this help"))
    return Help(word, usage, paragraphs_of(before), tuple(arguments), tuple(options), paragraphs_of(behind))


def of_tool(front: Path, tool: Tool) -> Help:
    return parsed(tool.word, told([str(front), tool.word, "--help"]))


def of_program(program: Path, word: str) -> Help:
    return parsed(word, told([str(program), word, "--help"]))


def of_all(front: Path, program: Path) -> tuple[Help, ...]:
    """The helps of all words, those of the program first. `front` is tools/nftrun."""
    return tuple(of_program(program, word) for word in PROGRAM_WORDS) + tuple(of_tool(front, tool) for tool in TOOLS)
