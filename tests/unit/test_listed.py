"""The list of all tests: it names each file that tries something, and runs what it says."""
from __future__ import annotations

import contextlib
import io
import os
import pathlib
import re
import subprocess
from typing import Sequence
from unittest import mock

from support import TOP, FilesCase

import listed
from listed import TESTS, Option, Place, Test, Wanted, call_of, lacks_program, not_built, run, run_all

# what tries something, by the beginning of its name
TRIES = re.compile(r"(test|fuzz|check|run)-")


def ended(*words: str) -> tuple[int, str]:
    """The status of tests/run, and what it prints."""
    done = subprocess.run([str(TOP / "tests/run"), *words], stdout=subprocess.PIPE, stderr=subprocess.STDOUT, text=True,
                          check=False)
    return done.returncode, done.stdout


class Names(FilesCase):
    """What the list has."""

    def test_each_file_is_listed_once(self) -> None:
        inside = [path for path in (TOP / "tests").rglob("*") if path.is_file() and TRIES.match(path.name)]
        files = [test.file for test in TESTS]
        self.assertEqual(sorted(files), sorted(set(files)))
        self.assertEqual(set(), {str(path.relative_to(TOP / "tests")) for path in inside} - set(files))
        for file in files:
            self.assertTrue(os.access(TOP / "tests" / file, os.X_OK), file)

    def test_tests_stand_below_tests(self) -> None:
        """Nothing else has a folder of cases or rows, or a file that tries something."""
        names = subprocess.run(["git", "ls-files", "bench", "examples", "scripts", "tools"], cwd=TOP,
                               stdout=subprocess.PIPE, text=True, check=True).stdout.splitlines()
        self.assertGreater(len(names), 100)
        elsewhere = [name for name in names if TRIES.match(pathlib.Path(name).name)
                     or {"cases", "rows", "calls"} & set(pathlib.Path(name).parts)]
        self.assertEqual([], elsewhere)

    def test_names(self) -> None:
        self.assertEqual(len(TESTS), len(listed.BY_NAME))
        status, told = ended("--list")
        self.assertEqual(0, status)
        self.assertEqual([test.name for test in TESTS], [line.split()[0] for line in told.splitlines()])

    def test_the_gate_goes_by_the_list(self) -> None:
        text = (TOP / "scripts/test").read_text(encoding="utf-8")
        calls = [line for line in text.splitlines() if "tests/" in line and not line.lstrip().startswith("#")]
        self.assertEqual(["--gate", "--pages"], re.findall(r"tests/run .*?(--gate|--pages)", "\n".join(calls)))
        self.assertEqual(2, len(calls))

    def test_unknown(self) -> None:
        self.assertEqual((2, "tests/run: there is no test row; rows\n"), ended("row"))
        self.assertEqual((2, "tests/run: rows wants /nowhere, which isn't there: scripts/build makes it\n"),
                         ended("--program", "/nowhere", "rows"))


class Runs(FilesCase):
    """What a call has, and what comes of its status."""

    def script(self, status: int) -> str:
        """A test that notes its words and ends with this status."""
        path = self.file(f"script{status}", f'#!/bin/sh\nprintf "%s\\n" "$@" >"{self.folder}/words"\nexit {status}\n')
        os.chmod(path, 0o755)
        return path

    def one(self, status: int, *options: Option, wanted: Wanted = Wanted.ONE, words: Sequence[str] = ()) -> Test:
        return Test(f"ends-{status}", self.script(status), Place.PROGRAMS, "", wanted, tuple(words), options)

    def noted(self) -> list[str]:
        return (self.folder / "words").read_text(encoding="utf-8").splitlines()

    def test_words(self) -> None:
        program = pathlib.Path(self.file("nftrun", ""))
        other = self.file("nftrun.by-rattle", "")
        built, lost = Option("--lists", self.file("crate_tests", "")), Option("--tests", f"{self.folder}/nothing")
        test = self.one(0, built, lost, wanted=Wanted.EACH, words=["--few"])
        self.assertTrue(run(test, program, ["--only", "x"]))
        self.assertEqual([str(program), other, "--few", "--lists", built.path, "--only", "x"], self.noted())
        self.assertEqual([lost.path], not_built(test))
        self.assertEqual([str(program)], call_of(self.one(0), program)[1:])
        self.assertEqual([], call_of(self.one(0, wanted=Wanted.NONE), program)[1:])

    def test_program_that_is_missing(self) -> None:
        nowhere = self.folder / "nowhere"
        self.assertTrue(lacks_program(self.one(0), nowhere))
        self.assertFalse(lacks_program(self.one(0, wanted=Wanted.NONE), nowhere))
        self.assertFalse(lacks_program(self.one(0, wanted=Wanted.WHERE_BUILT), nowhere))
        self.assertEqual([], call_of(self.one(0, wanted=Wanted.WHERE_BUILT), nowhere)[1:])

    def test_all(self) -> None:
        """All run, also behind one that failed; without a program that is listed it fails."""
        program = pathlib.Path(self.file("nftrun", ""))
        lacking = self.one(0, Option("--lists", f"{self.folder}/nothing"))
        by_hand = Test("by hand", self.script(3), Place.BY_HAND, "")
        for tests, passes, told in (
                ((self.one(0), by_hand), True, ""), ((self.one(1), self.one(0)), False, "FAILED: ends-1, status 1"),
                ((lacking,), False, f"FAILED: ends-0 wants {self.folder}/nothing, which isn't built")):
            with mock.patch.object(listed, "TESTS", tests), contextlib.redirect_stdout(io.StringIO()) as printed:
                self.assertEqual(passes, run_all(Place.PROGRAMS, program))
            self.assertTrue(printed.getvalue().startswith(told), printed.getvalue())
        self.assertEqual([str(program)], self.noted())
