"""Installing below a prefix and a DESTDIR, what is refused, and removing."""
from __future__ import annotations

import re
import shutil
from pathlib import Path

from release import records
from release.layout import LIBEXEC, SHARE
from trials.trial import Ended, Trial, run

# What no release has: tests, and what only developers of nftrun run.
FOREIGN = re.compile(r"(^|/)(test|check|record)-|/cases/|\.edit$|\.antt$|\.rt$|__pycache__")
DOCUMENT = re.compile(r"\bdocs/([A-Z]+\.md)")


def copied(trial: Trial, program: Path, name: str) -> Path:
    """A copy of the program in a folder of its own."""
    folder = trial.folder / name
    folder.mkdir()
    return Path(shutil.copy(program, folder / "nftrun"))


def proved(trial: Trial, program: Path) -> Path:
    """A copy of the program with the record that a proved build writes."""
    copy = copied(trial, program, "proved")
    done = run([str(trial.top / "scripts/record-proved"), str(copy), "0123456789abcdef0123456789abcdef01234567"])
    trial.expect(done.status == 0 and records.beside(copy).exists(), "scripts/record-proved writes no record")
    return copy


def install(trial: Trial, program: Path, *options: str, destination: str = "/") -> Ended:
    return run([str(trial.top / "scripts/install"), "--program", str(program), *options], DESTDIR=destination)


def test_refusals(trial: Trial, program: Path, right: Path) -> None:
    """A program without a record, or with that of another file, counts as unproved."""
    prefix = trial.folder / "refused"
    bare, other = copied(trial, program, "bare"), copied(trial, program, "other")
    text = records.beside(right).read_text(encoding="utf-8")
    records.beside(other).write_text(re.sub("(?m)^sha256 .", "sha256 g", text), encoding="utf-8")
    for it in (bare, other):
        for script, last in (("install", ["--prefix", str(prefix)]), ("package", [str(trial.folder)])):
            ended = run([str(trial.top / "scripts" / script), "--program", str(it), *last])
            trial.expect(ended.status == 1 and "--unproved" in ended.err, f"{script} takes an unproved program ({it})")
    trial.expect(not prefix.exists(), "a refused program leaves something")
    ended = install(trial, bare, "--unproved", "--prefix", str(prefix))
    trial.expect(ended.status == 0 and "without proofs" in ended.out, f"--unproved fails: {ended.err}")
    told = run([str(prefix / "bin/nftrun"), "--version"]).out.splitlines()
    unproved = ["commit unknown", "kit unknown", "without proofs"]
    trial.expect(told[1:] == unproved, f"nftrun --version tells of an unproved program {told[1:]}")
    test_front(trial, bare, right)


def test_front(trial: Trial, bare: Path, right: Path) -> None:
    """What the repository's own front tells of a program as `rt try` makes it, and of one with its record."""
    for program, last in ((bare, "without proofs: no record of its build"), (right, "proofs checked")):
        told = run([str(trial.top / "tools/nftrun"), "--version"], NFTRUN=str(program)).out.splitlines()
        trial.expect(told[-1:] == [last], f"nftrun --version tells of {program.parent.name} {told[-1:]}")


def test_version(trial: Trial, prefix: Path) -> None:
    told = run([str(prefix / "bin/nftrun"), "--version"]).out.splitlines()
    version = records.version_of(trial.top)
    trial.expect(told[:1] == [f"nftrun {version}"], f"the program is {told[:1]}, and VERSION {version}")
    trial.expect(told[1:2] == ["commit 0123456789abcdef0123456789abcdef01234567"], "nftrun --version tells no commit")
    trial.expect(told[3:] == ["proofs checked"], "nftrun --version doesn't tell of the proofs")
    with (prefix / LIBEXEC / "nftrun").open("ab") as file:
        file.write(b"\n")
    told = run([str(prefix / "bin/nftrun"), "--version"]).out.splitlines()
    trial.expect(told[1:] == ["without proofs: no record of its build"], "a changed program passes for proved")


def test_files(trial: Trial, prefix: Path) -> None:
    """What is there, and whether the documents that are named are."""
    names = sorted(str(path.relative_to(prefix)) for path in prefix.rglob("*") if path.is_file())
    trial.expect([it for it in names if it.startswith("bin/")] == ["bin/nftrun"], "bin has more than nftrun")
    trial.expect(not any(map(FOREIGN.search, names)), f"not for users: {[it for it in names if FOREIGN.search(it)]}")
    texts = [prefix / name for name in names if name.startswith((f"{LIBEXEC}/", f"{SHARE}/docs"))]
    named = {it for path in texts for it in DOCUMENT.findall(path.read_bytes().decode(errors="replace"))}
    trial.same("what is installed of docs", named, named & {path.name for path in (prefix / SHARE / "docs").iterdir()})
    for page in (prefix / SHARE).rglob("*.md"):
        for target in re.findall(r"\]\(([^)#\s]+)", page.read_text(encoding="utf-8")):
            there = "://" in target or (page.parent / target).exists()
            trial.expect(there, f"{page.relative_to(prefix)} leads to {target}, which isn't installed")


def test_removal(trial: Trial, destination: Path, prefix: str) -> None:
    ended = run([str(trial.top / "scripts/install"), "--remove", "--prefix", prefix, "--destdir", str(destination)])
    trial.expect(ended.status == 0, f"removing fails: {ended.err}")
    left = sorted(str(path) for path in destination.rglob("*"))
    trial.expect(left == [str(destination / "kept")], f"left by removing: {left}")
    ended = run([str(trial.top / "scripts/install"), "--remove", "--prefix", prefix, "--destdir", str(destination)])
    trial.expect(ended.status == 1, "removing twice is no fault")


def installed(trial: Trial, program: Path, destination: Path, prefix: str) -> Path:
    """Installs below a DESTDIR in which one foreign file lies; answers where the prefix is then."""
    destination.mkdir()
    (destination / "kept").write_text("not ours\n", encoding="utf-8")
    ended = install(trial, program, "--prefix", prefix, destination=str(destination))
    trial.expect(ended.status == 0, f"scripts/install fails: {ended.err}")
    return destination / prefix.lstrip("/")
