"""Each status of each command: in its help, in tools/README.md, and tried by a stored case; and each field of JSON that
a stored case has, in docs/JSON.md."""
from __future__ import annotations

import json
import os
import re
import subprocess
import unittest
from typing import Iterator

from support import TOP

# by the word behind nftrun; the file in tools/ has the same name but for two
STATUSES = {
    "align": {0, 1, 2, 7}, "annotate": {0, 1, 2, 7}, "beside-copies": {0, 1, 2, 7}, "beside-linux": {0, 1, 2, 3},
    "box-from-ip": {0, 2}, "compare": {0, 1, 2, 7}, "convert": {0, 2, 7}, "diff-packets": {0, 2, 10},
    "doctor": {0, 1, 2}, "fit": {0, 1, 2}, "packet": {0, 2}, "page": {0, 2, 7}, "reach-packets": {0, 2, 10},
    "report-to-json": {0, 2, 7}, "start": {0, 1, 2, 7}, "why": {0, 1, 2, 7}}
FILES = {"compare": "compare-rulesets", "fit": "fit-ruleset"}
CASES = TOP / "tests/tools"
README = (TOP / "tools/README.md").read_text(encoding="utf-8")
# a number that stands for a status: behind it comes what it means
MEANT = re.compile(r"(?<![\w.-])(10|[0-9])(?=[ .;:,\n])")
OWN_PLACES = ("totals", "ports", "fails", "by_host")  # objects whose fields are names of other things


def outputs(tool: str) -> list[str]:
    paths = (CASES / tool).glob("*/output")
    return [path.read_text(encoding="utf-8", errors="replace") for path in paths]


def tried(tool: str) -> set[int]:
    """The statuses that the stored outputs of a command tell; one that tells none in its last line ended with 0."""
    found: set[int] = set()
    for text in outputs(tool):
        found.update(map(int, re.findall(r"(?m)^(?:.*: )?status (\d+)$", text)))
        if not re.search(r"(?m)^status \d+\n\Z", text):
            found.add(0)
    return found


class Statuses(unittest.TestCase):
    def test_front(self) -> None:
        self.assertEqual(sorted(STATUSES), sorted(set(re.findall(r"(?m)^  ([a-z-]+) +[A-Z]", self.words()))))

    def words(self) -> str:
        text = (TOP / "tools/nftrun").read_text(encoding="utf-8")
        return text[text.index("Commands around it"):text.index("docs/ and examples/")]

    def test_help(self) -> None:
        for word, statuses in STATUSES.items():
            told = subprocess.run(
                [str(TOP / "tools/nftrun"), word, "--help"], env={**os.environ, "COLUMNS": "100"}, text=True,
                stdout=subprocess.PIPE, check=True).stdout
            paragraph = re.search(r"(?s)(?:The status is|Status:?) 0.*?(?:\n\n|\Z)", told)
            self.assertIsNotNone(paragraph, word)
            text = re.sub(r"\b[0-9]+ rounds|(?s:\ndocs/FIT.*)", "", paragraph[0] if paragraph else "")
            self.assertEqual(set(map(int, MEANT.findall(text))), statuses, word)

    def test_readme(self) -> None:
        rows = re.findall(r"(?m)^\| ([0-9]{1,2}) \| (.*) \| (.*) \|$", README[README.index("## Statuses"):])
        told = {int(status): set(STATUSES) if of == "all" else set(re.findall(r"`([a-z-]+)`", of)) & set(STATUSES)
                for status, _, of in rows}
        told[7] -= {"doctor"}  # has it among what misleads
        wanted = {status: {word for word, known in STATUSES.items() if status in known} for status in told}
        self.assertEqual(told, wanted)
        self.assertEqual(set(told), set().union(*STATUSES.values()))

    def test_cases(self) -> None:
        for word, statuses in STATUSES.items():
            self.assertLessEqual(statuses, tried(FILES.get(word, word)), word)


def fields(told: object) -> Iterator[str]:
    """The names of all fields of a value of JSON, those aside that name something else."""
    if isinstance(told, dict):
        for name, value in told.items():
            yield name
            if name not in OWN_PLACES:
                yield from fields(value)
    elif isinstance(told, list):
        for value in told:
            yield from fields(value)


def parsed(line: str) -> object:
    """A line of JSON; None of one that a case prints in part."""
    try:
        value: object = json.loads(line)
        return value
    except ValueError:
        return None


class Documented(unittest.TestCase):
    def test_fields(self) -> None:
        page = (TOP / "docs/JSON.md").read_text(encoding="utf-8")
        named = set(re.findall(r"`([a-z_-]+)`", page))
        for tool in ("compare-rulesets", "report-to-json", "doctor", "fit-ruleset"):
            lines = [line for text in outputs(tool) for line in text.splitlines() if line.startswith('{"')]
            found = {name for line in lines for name in fields(parsed(line))}
            self.assertTrue(found or tool == "fit-ruleset", tool)
            self.assertLessEqual(found, named, tool)


if __name__ == "__main__":
    unittest.main()
