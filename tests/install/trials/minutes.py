"""README's first ten minutes and its change, word by word, from what was installed."""
from __future__ import annotations

import os
import re
import time
from pathlib import Path

from release.layout import SHARE
from trials.trial import Trial, run

HEADINGS = ("## First ten minutes", "## One change, from edit to load")
BLOCK = re.compile(r"```sh\n(.*?)```", re.S)
# A line of the block says behind `# prints` how a line of its output begins.
PRINTS = re.compile(r"# prints (.*)$")
# What commands end with where something differs: the status, and the line on standard error.
DIFFERS = {"nftrun compare": (1, ""), "nftrun diff": (10, "nftrun: the rulesets differ")}


def lines_of(readme: str) -> list[str]:
    sections = [readme.split(it, 1)[1].split("\n## ", 1)[0] for it in HEADINGS if it in readme]
    blocks = [block for section in sections for block in BLOCK.findall(section)]
    return [line for block in blocks for line in block.splitlines() if line.strip()]


def is_right(line: str, status: int, errors: str) -> bool:
    """Whether a line of the block ended as it is to."""
    word = " ".join(line.split()[:2])
    return (status, errors.strip()) in ((0, ""), DIFFERS.get(word, (0, "")))


def is_printed(line: str, output: str) -> bool:
    """Whether it printed what stands behind it."""
    wanted = PRINTS.search(line)
    return not wanted or any(it.startswith(wanted[1]) for it in output.splitlines())


def test_minutes(trial: Trial, prefix: Path) -> None:
    """Does what README says in an empty folder, with /usr where the prefix is."""
    lines = lines_of((prefix / SHARE / "README.md").read_text(encoding="utf-8"))
    trial.expect(len(lines) >= 5, f'README has no commands in "{HEADINGS[0]}"')
    folder = trial.folder / "ten-minutes"
    folder.mkdir()
    began = time.monotonic()
    path = f"{prefix / 'bin'}:{os.environ.get('PATH', '')}"
    for line in lines:
        ended = run(["sh", "-c", line.replace("/usr/share/doc/nftrun", str(prefix / SHARE))], folder, PATH=path)
        trial.expect(is_right(line, ended.status, ended.err),
                     f"README: {line}: status {ended.status}, {ended.err.strip()}")
        trial.expect(is_printed(line, ended.out), f"README: {line}: prints {ended.out[:80]!r}")
    print(f"install: README's first ten minutes, {len(lines)} lines, in {time.monotonic() - began:.1f} s")
