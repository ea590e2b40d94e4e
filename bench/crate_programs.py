"""Builds the programs of bench/programs, which time single crates: each is proved over copies of the crates that it
stands on, in a folder of its own. There their files end in `.txt`, since the gate reads each .rt file as one of a crate
that crates.txt names."""
from __future__ import annotations

import pathlib
import shutil
import subprocess
import sys
from typing import Sequence

TOP = pathlib.Path(__file__).resolve().parent.parent
PROGRAMS = TOP / "bench/programs"


def lines_of(path: pathlib.Path) -> dict[str, list[str]]:
    """The crates that each crate of a crates.txt stands on."""
    named = [line.partition(":") for line in path.read_text(encoding="ascii").splitlines() if not line.startswith("#")]
    return {name: below.split() for name, colon, below in named if colon}


def needed(name: str, known: dict[str, list[str]]) -> list[str]:
    """A crate behind all that it stands on. A library of the kit has no line."""
    found: list[str] = []
    for below in known[name]:
        found += [one for one in (needed(below, known) if below in known else []) if one not in found]
    return [*found, name]


def copy_program(name: str, folder: pathlib.Path) -> None:
    """Copies a program's files, under the names that the toolchain wants."""
    for path in (PROGRAMS / name).rglob("*.txt"):
        place = folder / path.relative_to(PROGRAMS / name).with_suffix("")
        place.parent.mkdir(parents=True, exist_ok=True)
        shutil.copyfile(path, place)


def make_workspace(name: str, folder: pathlib.Path) -> None:
    """Copies a program and the crates that it stands on."""
    known = lines_of(TOP / "crates.txt")
    known[name] = lines_of(PROGRAMS / "programs.txt")[name]
    subprocess.run(["git", "-C", str(folder), "init", "-q"], check=True)
    crates = needed(name, known)
    for crate in crates:
        if crate == name:
            copy_program(name, folder / "crates" / crate)
        else:
            shutil.copytree(TOP / "crates" / crate, folder / "crates" / crate, ignore=shutil.ignore_patterns("out"))
    text = "".join(f"{crate}: {' '.join(known[crate])}\n" for crate in crates)
    (folder / "crates.txt").write_text(text, encoding="ascii")


def build(name: str, folder: pathlib.Path, words: Sequence[str] = ()) -> pathlib.Path:
    """Proves and builds a program in an empty folder, runs it once with these words, and gives its path; ends with what
    the toolchain told where that fails."""
    make_workspace(name, folder)
    behind = ["--", *words] if words else []
    done = subprocess.run(["rt", "run", *behind], cwd=folder / "crates" / name, stdout=subprocess.PIPE,
                          stderr=subprocess.STDOUT, text=True, check=False)
    if done.returncode:
        sys.exit(done.stdout)
    return folder / "crates" / name / "out" / name
