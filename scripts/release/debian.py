"""The package for Debian, put together by Debian's own tools."""
from __future__ import annotations

import gzip
import hashlib
import os
import re
import shutil
import subprocess
import tempfile
import textwrap
import time
from dataclasses import dataclass
from pathlib import Path

from release import installing, records
from release.layout import LIBEXEC, SHARE, Entry, Refused, Release

# e_machine of ELF, and Debian's name of it
MACHINES = {0x3E: "amd64", 0xB7: "arm64", 0xF3: "riscv64", 0x28: "armhf", 0x15: "ppc64el", 0x16: "s390x"}
SECTION = re.compile(r"(?m)^## (\S+), (\d{4}-\d\d-\d\d)$")
LICENCES = ("LICENSE", "COPYING")
SUMMARY = "show what each packet of a capture would meet in a ruleset of nft(8)"
DESCRIPTION = """\
 nftrun replays a capture through an nftables ruleset before it is loaded, with
 connection tracking and address translation, writes the packets that leave,
 and reports what each packet met. Commands around it tell why a packet was
 dropped, what another ruleset would change, and which rules were met.
"""


@dataclass(frozen=True)
class Maintainer:
    """Who answers for the package: DEBFULLNAME and DEBEMAIL, else who made the commit."""

    name: str
    address: str

    @property
    def text(self) -> str:
        return f"{self.name} <{self.address}>"


def maintainer_of(top: Path) -> Maintainer:
    told = records.output_of("git", "-C", str(top), "log", "-1", "--format=%cn%n%ce").splitlines()
    committer = told if len(told) == 2 else ["", ""]
    name = os.environ.get("DEBFULLNAME") or committer[0]
    address = os.environ.get("DEBEMAIL") or committer[1]
    if not name or not address:
        raise Refused("who maintains the package? Set DEBFULLNAME and DEBEMAIL")
    return Maintainer(name, address)


def architecture_of(program: bytes) -> str:
    """Debian's name of the machine that a program is for."""
    machine = int.from_bytes(program[18:20], "little" if program[5:6] == b"\x01" else "big")
    if program[:4] != b"\x7fELF" or machine not in MACHINES:
        raise Refused("the program isn't one of ELF for a machine that Debian has")
    return MACHINES[machine]


def version_of(record: records.Record) -> str:
    """A package of an unproved program comes before the version's own, which replaces it."""
    return record.version if record.is_proved else f"{record.version}~unproved"


def changelog(top: Path, version: str, maintainer: Maintainer) -> str:
    """CHANGELOG.md in Debian's form; its first version is that of the package."""
    text = (top / "CHANGELOG.md").read_text(encoding="utf-8")
    parts = SECTION.split(text)[1:]
    entries = []
    for n, (number, date, body) in enumerate(zip(parts[::3], parts[1::3], parts[2::3])):
        lines = [f"nftrun ({number if n else version}) unstable; urgency=medium", ""]
        for item in re.findall(r"(?m)^- (.*(?:\n  .*)*)", body):
            lines += textwrap.wrap(" ".join(item.split()), 76, initial_indent="  * ", subsequent_indent="    ")
        day = time.strptime(date, "%Y-%m-%d")
        lines += ["", f" -- {maintainer.text}  {time.strftime('%a, %d %b %Y', day)} 00:00:00 +0000", ""]
        entries.append("\n".join(lines))
    return "\n".join(entries)


def libraries(program: bytes, folder: Path) -> str:
    """What packages the program's libraries are in, by dpkg-shlibdeps."""
    (folder / "debian").mkdir(parents=True)
    (folder / "debian/control").write_text("Source: nftrun\n\nPackage: nftrun\nArchitecture: any\n", encoding="utf-8")
    (folder / "nftrun").write_bytes(program)
    done = subprocess.run(
        ["dpkg-shlibdeps", "-O", "nftrun"], cwd=folder, capture_output=True, text=True, check=False)
    if done.returncode:
        raise Refused(f"dpkg-shlibdeps: {done.stderr.strip()}")
    found = re.search(r"(?m)^shlibs:Depends=(.*)$", done.stdout)
    return found[1] if found else ""


def control(release: Release, program: bytes, maintainer: Maintainer, needs: str, size: int) -> str:
    depends = ", ".join(it for it in (needs, "python3 (>= 3.9)") if it)
    remark = "" if release.record.is_proved else " .\n This program was built without its proofs.\n"
    return (
        f"Package: nftrun\nVersion: {version_of(release.record)}\nArchitecture: {architecture_of(program)}\n"
        f"Maintainer: {maintainer.text}\nInstalled-Size: {size}\nDepends: {depends}\n"
        "Suggests: iproute2, nftables, tcpdump\nSection: net\nPriority: optional\n"
        f"Description: {SUMMARY}\n{DESCRIPTION}{remark}")


def with_own_files(release: Release, entries: list[Entry], maintainer: Maintainer) -> list[Entry]:
    """The files of a package: Debian's changelog, and the licence where the repository has one."""
    text = changelog(release.top, version_of(release.record), maintainer)
    own = [Entry(f"{SHARE}/changelog.gz", gzip.compress(text.encode(), 9, mtime=0), 0o644)]
    for name in LICENCES:
        if (release.top / name).exists():
            own.append(Entry(f"{SHARE}/copyright", (release.top / name).read_bytes(), 0o644))
            break
    return sorted([*entries, *own], key=lambda it: it.path)


def program_of(entries: list[Entry]) -> bytes:
    return next(it.content for it in entries if it.path == f"{LIBEXEC}/nftrun")


def sums(entries: list[Entry]) -> str:
    return "".join(f"{hashlib.md5(it.content).hexdigest()}  usr/{it.path}\n" for it in entries)


def set_times(tree: Path, at: int) -> None:
    for path in sorted(tree.rglob("*"), reverse=True):
        os.utime(path, (at, at))
    os.utime(tree, (at, at))


def package(release: Release, entries: list[Entry], at: int) -> bytes:
    """The bytes of the .deb with these files below /usr."""
    for tool in ("dpkg-deb", "dpkg-shlibdeps"):
        if not shutil.which(tool):
            raise Refused(f"no {tool}: a .deb is made on Debian, with the package dpkg-dev")
    maintainer = maintainer_of(release.top)
    files = with_own_files(release, entries, maintainer)
    program = program_of(files)
    with tempfile.TemporaryDirectory() as folder:
        tree, made = Path(folder) / "tree", Path(folder) / "made.deb"
        installing.put(files, tree, "/usr")
        size = sum((len(it.content) + 1023) // 1024 for it in files)
        (tree / "DEBIAN").mkdir()
        needs = libraries(program, Path(folder) / "needs")
        (tree / "DEBIAN/control").write_text(control(release, program, maintainer, needs, size), encoding="utf-8")
        (tree / "DEBIAN/md5sums").write_text(sums(files), encoding="utf-8")
        for path in (tree, tree / "DEBIAN", *(tree / "DEBIAN").iterdir()):
            path.chmod(0o755 if path.is_dir() else 0o644)
        set_times(tree, at)
        command = ["dpkg-deb", "--root-owner-group", "-Zxz", "--threads-max=1", "--build", str(tree), str(made)]
        known = {**os.environ, "SOURCE_DATE_EPOCH": str(at)}
        done = subprocess.run(command, env=known, capture_output=True, text=True, check=False)
        if done.returncode:
            raise Refused(f"dpkg-deb: {done.stderr.strip()}")
        return made.read_bytes()
