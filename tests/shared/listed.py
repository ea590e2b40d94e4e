"""All tests that aren't Rattle: their names, what they try, where they run, and the words that each is called with.

The gate (scripts/test) and `tests/run` go by this list alone.
"""
from __future__ import annotations

import enum
import os
import pathlib
import subprocess
import time
from dataclasses import dataclass
from typing import Sequence

TOP = pathlib.Path(__file__).resolve().parent.parent.parent
CACHE = pathlib.Path(os.environ.get("XDG_CACHE_HOME") or pathlib.Path.home() / ".cache")
# What the gate builds, and scripts/build.
BUILT = tuple(folder / "crates/nftrun/out/nftrun"
              for folder in (TOP, pathlib.Path(os.environ.get("NFTRUN_BUILD") or CACHE / "nftrun-build")))


class Place(enum.Enum):
    """Where a test runs."""

    PROGRAMS = "gate"  # on the programs that the gate has built
    PAGES = "gate, pages"  # on the repository alone
    WITHIN = "gate, within python"
    BY_HAND = "by hand"


class Wanted(enum.Enum):
    """The programs that a test is given."""

    NONE = 0
    ONE = 1
    EACH = 2  # that of Rattle's own compiler too, where that compiled it
    WHERE_BUILT = 3  # it does without


@dataclass(frozen=True)
class Option:
    """An option with the path of a further program, below the top of the repository."""

    name: str
    path: str


@dataclass(frozen=True)
class Test:
    """A test: its file below tests/, and what stands behind that in a call."""

    name: str
    file: str
    place: Place
    about: str
    wanted: Wanted = Wanted.ONE
    words: tuple[str, ...] = ()
    options: tuple[Option, ...] = ()


CRATE_TESTS = "crates/crate_tests/out/crate_tests_tests"  # the tests of that crate, built

TESTS = (
    Test("rows", "rows/test-rows", Place.PROGRAMS, "whole runs; what is told of faults (--only TEXT: these)",
         Wanted.EACH, options=(Option("--lists", CRATE_TESTS),)),
    Test("calls", "calls/test-calls", Place.PROGRAMS, "what each task reads, creates and prints, in order",
         Wanted.EACH),
    Test("refuse", "refuse/test-refuse", Place.PROGRAMS, "memory, opens, reads and writes refused in turn", Wanted.EACH,
         ("--few",), (Option("--tests", CRATE_TESTS),)),
    Test("full-table", "limits/test-full-table", Place.PROGRAMS, "1,048,576 connections, all ports taken"),
    Test("limits", "limits/test-limits", Place.PROGRAMS, "each limit and one past; sizes that users have"),
    Test("random", "random/test-random", Place.PROGRAMS, "random rulesets beside a plain reading (--seeds N: one)"),
    Test("reach", "random/test-reach", Place.PROGRAMS, "which rules packets can meet, beside random facts (--many N)"),
    Test("diff", "random/test-diff", Place.PROGRAMS, "pairs of random rulesets, beside random facts (--many N)"),
    Test("same", "random/test-same", Place.PROGRAMS, "pairs of rulesets by hand, many the same (--only TEXT: these)"),
    Test("fitted", "random/test-fitted", Place.PROGRAMS,
         "fitted rulesets beside what they say, by hand (--only TEXT: these)"),
    Test("examples", "test-examples", Place.PROGRAMS, "the reports and captures of examples/"),
    Test("explain", "test-explain", Place.PROGRAMS, "what --explain prints of examples/check"),
    Test("progress", "test-progress", Place.PROGRAMS, "the progress that a terminal shows"),
    Test("terminal", "test-terminal", Place.PROGRAMS, "colours and escapes on a terminal"),
    Test("install", "install/test-install", Place.PROGRAMS, "installing, README's ten minutes, packing, removing"),
    Test("page", "page/test-page", Place.PROGRAMS, "the page in Chromium, where that is (--look RULES BOX IN)"),
    Test("rulesets", "fuzz/fuzz-rulesets", Place.PROGRAMS, "damaged rulesets, fitted and checked (--runs N)",
         words=("--runs", "200")),
    Test("python", "test-python", Place.PROGRAMS, "types, style and reach of the Python; unit tests, tools",
         Wanted.WHERE_BUILT),
    Test("unit", "unit/run-unit", Place.WITHIN, "functions of the tools and tests (-k NAME: one)", Wanted.NONE),
    Test("tools", "tools/test-tools", Place.WITHIN, "what each command prints (--only TEXT: these)",
         Wanted.WHERE_BUILT),
    Test("docs", "test-docs", Place.PAGES, "links, paths and lengths of documents; written pages",
         Wanted.NONE),
    Test("surface", "test-surface", Place.PAGES, "what scripts read of sources", Wanted.NONE),
    Test("histories", "random/histories.py", Place.PAGES, "histories.rows is as it is written", Wanted.NONE,
         ("--check",)),
    Test("merges", "random/test-merges", Place.BY_HAND, "what nft -o merges is told the same (--seeds N, RULES)"),
    Test("fuzz", "fuzz/fuzz-program", Place.BY_HAND, "damaged rulesets, box files and captures (--runs N)"),
    Test("fuzz-tools", "fuzz/fuzz-tools", Place.BY_HAND, "damaged inputs of all commands (--runs N)",
         Wanted.NONE),
    Test("fresh-root", "install/test-fresh-root", Place.BY_HAND, "a package on a fresh Debian (root, network)",
         Wanted.NONE),
    Test("linux-sections", "linux/check-sections", Place.BY_HAND, "docs/LINUX.md beside this kernel (root)",
         Wanted.NONE),
    Test("linux-reach", "linux/check-reach", Place.BY_HAND, "which rules packets can meet, beside this kernel (root)",
         Wanted.NONE),
    Test("linux-warnings", "linux/check-warnings", Place.BY_HAND, "rulesets that nft refuses, by nft (root)",
         Wanted.NONE),
    Test("linux-fit", "tools/fit-ruleset/kernel/compare", Place.BY_HAND, "fitted rulesets beside this kernel (root)",
         Wanted.NONE),
)
BY_NAME = {test.name: test for test in TESTS}


def built() -> pathlib.Path:
    """The program that stands: the gate's, else that of scripts/build."""
    return next((path for path in BUILT if path.exists()), BUILT[-1])


def programs(program: pathlib.Path) -> list[pathlib.Path]:
    """A program, and that of Rattle's own compiler beside it where there is one."""
    other = program.with_name(f"{program.name}.by-rattle")
    return [program, other] if other.exists() else [program]


def call_of(test: Test, program: pathlib.Path, more: Sequence[str] = ()) -> list[str]:
    """The words of a call; `more` stand at its end. An option is left out where its program isn't built."""
    words = [str(TOP / "tests" / test.file)]
    if test.wanted is not Wanted.NONE and (program.exists() or test.wanted is not Wanted.WHERE_BUILT):
        words += map(str, programs(program) if test.wanted is Wanted.EACH else [program])
    words += test.words
    for option in test.options:
        if (TOP / option.path).exists():
            words += [option.name, str(TOP / option.path)]
    return [*words, *more]


def lacks_program(test: Test, program: pathlib.Path) -> bool:
    """Whether a test wants the program where there is none."""
    return test.wanted in (Wanted.ONE, Wanted.EACH) and not program.exists()


def not_built(test: Test) -> list[str]:
    """The paths of a test's options that aren't there."""
    return [option.path for option in test.options if not (TOP / option.path).exists()]


def run(test: Test, program: pathlib.Path, more: Sequence[str] = ()) -> bool:
    """Runs a test at the top of the repository, tells of one that fails, and gives whether it passed."""
    begin = time.monotonic()
    status = subprocess.run(call_of(test, program, more), cwd=TOP, check=False).returncode
    if status:
        print(f"FAILED: {test.name}, status {status}, after {time.monotonic() - begin:.0f} s: tests/{test.file}",
              flush=True)
    return not status


def run_all(place: Place, program: pathlib.Path) -> bool:
    """Runs all tests of a place of the gate, each of which wants all that it is listed with."""
    passed = True
    for test in TESTS:
        if test.place is place:
            lost = [str(program)] if lacks_program(test, program) else not_built(test)
            for path in lost:
                print(f"FAILED: {test.name} wants {path}, which isn't built", flush=True)
            passed = not lost and run(test, program) and passed
    return passed


def listing() -> str:
    """A line for each test."""
    return "".join(f"{test.name:<16}{test.place.value:<21}{test.about}\n" for test in TESTS)
