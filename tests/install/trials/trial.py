"""Where faults are told, and how commands are run."""
from __future__ import annotations

import os
import shutil
import subprocess
from dataclasses import dataclass, field
from pathlib import Path


@dataclass(frozen=True)
class Ended:
    """How a command ended: its status and what it printed on each stream."""

    status: int
    out: str
    err: str


@dataclass(frozen=True)
class Trial:
    """A run of the tests: the repository, a folder of their own, what failed, and what couldn't be tried."""

    top: Path
    folder: Path
    faults: list[str] = field(default_factory=list)
    skipped: list[str] = field(default_factory=list)

    def expect(self, holds: bool, fault: str) -> None:
        if not holds:
            self.faults.append(fault)
            print(f"install: {fault}")

    def same(self, what: str, wanted: set[str], given: set[str]) -> None:
        """Expects two sets to be equal, and tells what one of them alone has."""
        lacks, more = sorted(wanted - given), sorted(given - wanted)
        self.expect(not lacks, f"{what} lacks {' '.join(lacks)}")
        self.expect(not more, f"{what} has {' '.join(more)}, which isn't there")

    def has(self, tool: str, what: str) -> bool:
        """Whether a tool is on this machine; where it isn't, that is told at the end."""
        if shutil.which(tool):
            return True
        self.skipped.append(f"no {tool}: {what} wasn't tried")
        return False


def run(command: list[str], at: Path | None = None, **known: str) -> Ended:
    """Runs a command with no input, in a width that doesn't depend on the terminal."""
    settings = {**os.environ, "COLUMNS": "100", "LC_ALL": "C.UTF-8", **known}
    done = subprocess.run(command, cwd=at, env=settings, stdin=subprocess.DEVNULL, capture_output=True, check=False)
    return Ended(done.returncode, done.stdout.decode(errors="replace"), done.stderr.decode(errors="replace"))
