"""Puts files below a prefix, with a list of them, and takes away what the list has."""
from __future__ import annotations

import shutil
from pathlib import Path

from release.layout import LIBEXEC, Entry, Refused

LIST = f"{LIBEXEC}/installed"
# Where builds before the first version had their list: paths below the prefix.
OLDER = "lib/nftrun/installed"


def below(destination: Path, prefix: str) -> Path:
    return destination / prefix.lstrip("/")


def missing(folder: Path) -> list[Path]:
    """A folder and those above it that aren't there, the outermost first."""
    found: list[Path] = []
    while not folder.exists():
        found.append(folder)
        folder = folder.parent
    return found[::-1]


def put(entries: list[Entry], destination: Path, prefix: str) -> list[str]:
    """Writes the files, and answers the lines of the list: folders that were made, then files."""
    made: list[Path] = []
    for entry in entries:
        target = below(destination, prefix) / entry.path
        for folder in missing(target.parent):
            folder.mkdir()
            folder.chmod(0o755)
            made.append(folder)
        target.unlink(missing_ok=True)
        target.write_bytes(entry.content)
        target.chmod(entry.mode)
    lines = [f"folder {folder.relative_to(destination)}" for folder in made]
    return [*lines, *(f"file {below(Path(), prefix) / entry.path}" for entry in entries)]


def install(entries: list[Entry], destination: Path, prefix: str) -> None:
    """Installs, instead of what was installed there before."""
    remove_older(below(destination, prefix))
    listed = below(destination, prefix) / LIST
    if listed.exists():
        remove(destination, prefix)
    lines = put(entries, destination, prefix)
    listed.write_text("".join(f"{line}\n" for line in lines), encoding="utf-8")
    listed.chmod(0o644)


def remove_older(prefix: Path) -> None:
    """Takes away what a build before the first version installed: a command in bin for each tool."""
    if (prefix / OLDER).exists():
        for path in (prefix / OLDER).read_text(encoding="utf-8").splitlines():
            (prefix / path).unlink(missing_ok=True)
        shutil.rmtree(prefix / "lib/nftrun")


def remove(destination: Path, prefix: str) -> None:
    """Takes away what was installed, and the folders that were made for it where nothing else is in them."""
    listed = below(destination, prefix) / LIST
    if not listed.exists():
        raise Refused(f"nothing is installed in {below(destination, prefix)}")
    lines = [line.split(" ", 1) for line in listed.read_text(encoding="utf-8").splitlines()]
    for kind, path in lines:
        if kind == "file":
            (destination / path).unlink(missing_ok=True)
    listed.unlink()
    for cache in below(destination, prefix).joinpath(LIBEXEC).rglob("__pycache__"):
        shutil.rmtree(cache)
    for kind, path in reversed(lines):
        folder = destination / path
        if kind == "folder" and folder.is_dir() and not any(folder.iterdir()):
            folder.rmdir()
