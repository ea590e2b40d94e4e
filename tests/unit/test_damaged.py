"""Damaged inputs over all tools: a small share of what tests/fuzz/fuzz-tools tries."""
from __future__ import annotations

import os
import unittest
from unittest import mock

from damaged import CALLS, Trials
from support import FilesCase

RUNS = 200


class Damaged(FilesCase):
    def test_all_tools(self) -> None:
        with mock.patch.dict(os.environ, {"NFTRUN": "/nowhere/nftrun"}):
            trials = Trials(self.folder, 7)
            for number in range(RUNS):
                call = CALLS[number % len(CALLS)]
                with self.subTest(number=number, tool=call.tool, words=call.words):
                    self.assertEqual(trials.one(call, False), [])


if __name__ == "__main__":
    unittest.main()
