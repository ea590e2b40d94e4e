"""What a call of the tests of crates/crate_tests gives, by the one that runs over the list tracker."""
from __future__ import annotations

import os
import sys

import support
from support import FilesCase

sys.path.insert(0, str(support.TOP / "tests/rows"))

from programs import Called, ListRuns  # noqa: E402


class Lists(FilesCase):
    def called(self, *lines: str) -> Called:
        path = self.file("tests", "\n".join(["#!/bin/sh", *lines]) + "\n")
        os.chmod(path, 0o755)
        return ListRuns(path, "", str(self.folder)).call(["run", "rules"])

    def test_status(self) -> None:
        told = "echo nftrun: torn >&2", 'echo "the test failed: its result gives status 7" >&2', "exit 101"
        self.assertEqual(self.called('echo "$*"', *told),
                         Called(7, "list_runs::runs_as_nftrun run rules\n", "nftrun: torn\n"))
        self.assertEqual(self.called("echo passed 1", "echo", "echo test result: ok"), Called(0, "passed 1\n", ""))
        self.assertEqual(self.called("echo test result: ok"), Called(0, "test result: ok\n", ""))

    def test_other_failures(self) -> None:
        """A test that is refused or aborts keeps the status of the tests and what they tell."""
        ended = "the test failed: its result gives status"
        for told in ("panicked", ended, f"{ended} 7."):
            self.assertEqual(self.called(f"echo '{told}' >&2", "exit 101"), Called(101, "", f"{told}\n"))
