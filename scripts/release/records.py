"""What is recorded of a build, beside the program in the file PROGRAM.build.

    version 1.0.0
    commit 0123.. (or: 0123.. with changes)
    kit rattle-kit-13b logic dac8208d650f15bf
    proofs checked
    sha256 HEX

scripts/build and the gate write it when all proofs are through. It says nothing of a file with another sha256. Who can
write the program can write its record: it guards against a mistake, not against a forger.
"""
from __future__ import annotations

import hashlib
import subprocess
from dataclasses import dataclass, replace
from pathlib import Path

PROVED, UNPROVED = "checked", "not checked"
# What the program is built from, for whether a tree has changes.
SOURCES = ("crates", "crates.txt", "HANDLES", "VERSION")


@dataclass(frozen=True)
class Record:
    """A build. `built` is the sha256 of the file that was proved, where the one at hand is that file stripped."""

    version: str
    commit: str
    kit: str
    proofs: str
    sha256: str
    built: str = ""

    @property
    def is_proved(self) -> bool:
        return self.proofs == PROVED

    def text(self) -> str:
        lines = [f"version {self.version}", f"commit {self.commit}", f"kit {self.kit}", f"proofs {self.proofs}"]
        lines.append(f"sha256 {self.sha256}")
        if self.built:
            lines.append(f"built {self.built}")
        return "".join(f"{line}\n" for line in lines)

    def stripped(self, program: bytes) -> Record:
        """The record of the same build without its symbols."""
        return replace(self, sha256=sha256_of(program), built=self.sha256)


def sha256_of(content: bytes) -> str:
    return hashlib.sha256(content).hexdigest()


def beside(program: Path) -> Path:
    return program.with_name(program.name + ".build")


def output_of(*command: str) -> str:
    """What a command prints, or nothing where it can't be run or fails."""
    try:
        return subprocess.run(command, capture_output=True, text=True, check=True).stdout.strip()
    except (OSError, subprocess.CalledProcessError):
        return ""


def version_of(top: Path) -> str:
    return (top / "VERSION").read_text(encoding="utf-8").strip()


def commit_of(top: Path) -> str:
    """The commit of a tree, with a remark where its sources aren't those of the commit."""
    commit = output_of("git", "-C", str(top), "rev-parse", "HEAD")
    changed = output_of("git", "-C", str(top), "status", "--porcelain", "--", *SOURCES)
    return (commit or "unknown") + (" with changes" if changed else "")


def proved(top: Path, program: Path, commit: str) -> Record:
    """The record of a program of which all proofs were checked, made from a commit."""
    kit = output_of("rt", "version") or "unknown"
    return Record(version_of(top), commit, kit, PROVED, sha256_of(program.read_bytes()))


def read(program: Path) -> Record | None:
    """The record beside a program; None where there is none, it isn't whole, or it is of another file."""
    try:
        lines = beside(program).read_text(encoding="utf-8").splitlines()
    except (OSError, UnicodeDecodeError):
        return None
    said = dict(line.split(" ", 1) for line in lines if " " in line)
    if not {"version", "commit", "kit", "proofs", "sha256"} <= set(said):
        return None
    if said["sha256"] != sha256_of(program.read_bytes()):
        return None
    return Record(said["version"], said["commit"], said["kit"], said["proofs"], said["sha256"], said.get("built", ""))


def unproved(top: Path, program: Path) -> Record:
    """The record of a program that nothing says was proved: it needn't have been built from the tree at hand."""
    return Record(version_of(top), "unknown", "unknown", UNPROVED, sha256_of(program.read_bytes()))
