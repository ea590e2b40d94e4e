"""A program that is called in folders, one for each thread."""
from __future__ import annotations

import re
import subprocess
import tempfile
import threading
from dataclasses import dataclass, replace
from typing import Mapping, Sequence

from files import contents, store


@dataclass(frozen=True)
class Called:
    """The exit status, standard output and standard error of a call."""

    status: int
    printed: str
    errors: str


class Own(threading.local):
    """What a thread has for itself."""

    folder = ""


class Program:
    """A program, and a folder in which each thread that calls it has one of its own."""

    def __init__(self, path: str, shim: str, place: str) -> None:
        self.path, self.shim, self.place = path, shim, place
        self.own = Own()

    @property
    def folder(self) -> str:
        if not self.own.folder:
            self.own.folder = tempfile.mkdtemp(dir=self.place)
        return self.own.folder

    def store(self, name: str, data: bytes) -> None:
        store(f"{self.folder}/{name}", data)

    def contents(self, name: str) -> bytes:
        return contents(f"{self.folder}/{name}")

    def call(self, words: Sequence[str], setting: Mapping[str, str] | None = None) -> Called:
        done = subprocess.run(
            [self.path, *words], cwd=self.folder, env=setting or {}, stdin=subprocess.DEVNULL, capture_output=True,
            close_fds=False, check=False)
        return Called(done.returncode, done.stdout.decode("utf-8", "replace"), done.stderr.decode("utf-8", "replace"))


class ListRuns(Program):
    """The tests of crates/crate_tests, by the one that runs what it is called with over the list tracker. Behind what
    that prints a test tells how it ended: that it passed, or with which status it didn't."""

    TEST = "list_runs::runs_as_nftrun"
    PASSED = "\ntest result: ok\n"
    ENDED = re.compile(r"the test failed: its result gives status ([0-9]+)\n\Z")

    def call(self, words: Sequence[str], setting: Mapping[str, str] | None = None) -> Called:
        called = super().call([self.TEST, *words], setting)
        called = replace(called, printed=called.printed.removesuffix(self.PASSED))
        ended = self.ENDED.search(called.errors)
        return replace(called, status=int(ended[1]), errors=called.errors[:ended.start()]) if ended else called
