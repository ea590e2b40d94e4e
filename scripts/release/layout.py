"""Which files lie where below a prefix: `nftrun` in bin, the program and the commands in libexec, pages in share."""
from __future__ import annotations

import gzip
import os
import posixpath
import re
import subprocess
import tempfile
import time
from dataclasses import dataclass, replace
from pathlib import Path

from release import completion, helps, manual, records, words

# The documents that the program, the commands and the man pages name, and those that these link to for who uses them.
DOCUMENTS = (
    "BOX", "CAPTURES", "CHECK", "FAULTS", "FIT", "GLOSSARY", "HOSTILE", "JSON", "LINUX", "NFT", "PAGE", "PERFORMANCE",
    "PROVED", "REVIEW", "SPEC")
PAGES = ("README.md", "CHANGELOG.md", "tools/README.md", *(f"docs/{name}.md" for name in DOCUMENTS))
LINK = re.compile(r"\[([^\]]*)\]\(([^)#\s]+)(#[^)]*)?\)")
LIBEXEC, SHARE = "libexec/nftrun", "share/doc/nftrun"
# Where zsh looks for what was installed by hand, and on Debian for what packages have.
ZSH, ZSH_OF_PACKAGES = "share/zsh/site-functions", "share/zsh/vendor-completions"


class Refused(Exception):
    """What can't be installed or packed; the text says why, in one line."""


@dataclass(frozen=True)
class Entry:
    """A file: its path below the prefix, what it holds, its permissions."""

    path: str
    content: bytes
    mode: int


@dataclass(frozen=True)
class Release:
    """What is released: the repository, the program, and the record of its build."""

    top: Path
    program: Path
    record: records.Record


def release_of(top: Path, program: Path, unproved: bool) -> Release:
    """The release of a program. One without a record of its proofs is refused, unless `unproved` is asked for."""
    if not os.access(program, os.X_OK) or not program.is_file():
        raise Refused(f"{program}: no program; scripts/build makes it, and --program names another")
    record = records.read(program)
    if record and record.is_proved:
        if record.version != records.version_of(top):
            raise Refused(f"{program}: version {record.version}, and this tree has {records.version_of(top)}")
        return Release(top, program, record)
    if not unproved:
        name = records.beside(program).name
        raise Refused(f"{program}: nothing says that it was proved (no {name} of it); --unproved takes it")
    return Release(top, program, records.unproved(top, program))


def epoch_of(top: Path) -> int:
    """The time that everything carries: SOURCE_DATE_EPOCH, else that of the commit."""
    given = os.environ.get("SOURCE_DATE_EPOCH") or records.output_of("git", "-C", str(top), "log", "-1", "--format=%ct")
    return int(given or 0)


def stripped(program: Path) -> bytes:
    """The program without symbols and without what compilers note of themselves."""
    with tempfile.TemporaryDirectory() as folder:
        target = Path(folder) / "nftrun"
        command = ["strip", "--strip-all", "--remove-section=.comment", "--remove-section=.note", "-o", str(target)]
        try:
            subprocess.run([*command, str(program)], check=True)
        except (OSError, subprocess.CalledProcessError) as error:
            raise Refused(f"{program}: strip failed ({error})") from None
        return target.read_bytes()


def packed(text: str) -> bytes:
    return gzip.compress(text.encode(), 9, mtime=0)


def linked(page: str, text: str, pages: set[str]) -> str:
    """A page whose links lead to what is released alone; of another link the words stay."""
    def kept(match: re.Match[str]) -> str:
        target = posixpath.normpath(posixpath.join(posixpath.dirname(page), match[2]))
        is_here = "://" in match[2] or target in pages or any(it.startswith(f"{target}/") for it in pages)
        return match[0] if is_here else match[1]

    return LINK.sub(kept, text)


def examples(top: Path) -> list[str]:
    """The files of the examples that have a capture."""
    folders = sorted(path.parent for path in (top / "examples").glob("*/in.pcap"))
    return [str(path.relative_to(top)) for folder in folders for path in sorted(folder.iterdir())]


def documents(top: Path) -> list[Entry]:
    names = [*(it for it in PAGES if (top / it).exists()), *examples(top)]
    entries = []
    for name in names:
        content = (top / name).read_bytes()
        if name.endswith(".md"):
            content = linked(name, content.decode(), set(names)).encode()
        entries.append(Entry(f"{SHARE}/{name}", content, 0o644))
    return entries


def manuals(top: Path, helped: tuple[helps.Help, ...], version: str, date: str) -> list[Entry]:
    own = (top / "docs/nftrun.1").read_text(encoding="utf-8")
    own = re.sub(r"(?m)^\.TH NFTRUN 1 \S+ \"nftrun [^\"]*\"", f'.TH NFTRUN 1 {date} "nftrun {version}"', own)
    entries = [Entry("share/man/man1/nftrun.1.gz", packed(own), 0o644)]
    for it in helped:
        if it.word not in words.PROGRAM_WORDS:
            text = manual.page(it, version, date)
            entries.append(Entry(f"share/man/man1/nftrun-{it.word}.1.gz", packed(text), 0o644))
    return entries


def completions(top: Path, helped: tuple[helps.Help, ...]) -> list[Entry]:
    codes = completion.codes_of(top)
    return [
        Entry("share/bash-completion/completions/nftrun", completion.for_bash(helped, codes).encode(), 0o644),
        Entry(f"{ZSH}/_nftrun", completion.for_zsh(helped, codes).encode(), 0o644),
        Entry("share/fish/vendor_completions.d/nftrun.fish", completion.for_fish(helped, codes).encode(), 0o644),
    ]


def commands(top: Path) -> list[Entry]:
    folder = top / "tools"
    entries = [Entry("bin/nftrun", (folder / "nftrun").read_bytes(), 0o755)]
    for path in words.needed(folder):
        mode = 0o755 if os.access(path, os.X_OK) else 0o644
        entries.append(Entry(f"{LIBEXEC}/tools/{path.relative_to(folder)}", path.read_bytes(), mode))
    return entries


def of_package(entries: list[Entry]) -> list[Entry]:
    """The same files where a package of Debian has them."""
    return [replace(it, path=it.path.replace(ZSH, ZSH_OF_PACKAGES)) for it in entries]


def entries_of(release: Release) -> list[Entry]:
    """All files of a release, in the order of their paths."""
    top, program = release.top, stripped(release.program)
    record = release.record.stripped(program)
    date = time.strftime("%Y-%m-%d", time.gmtime(epoch_of(top)))
    helped = helps.of_all(top / "tools/nftrun", release.program)
    entries = [
        Entry(f"{LIBEXEC}/nftrun", program, 0o755),
        Entry(f"{LIBEXEC}/nftrun.build", record.text().encode(), 0o644),
        *commands(top),
        *documents(top),
        *manuals(top, helped, record.version, date),
        *completions(top, helped),
    ]
    return sorted(entries, key=lambda it: it.path)
