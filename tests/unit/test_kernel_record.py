"""The stored comparison of fitted rulesets in a kernel is of the rulesets, packets and fits that are there."""
from __future__ import annotations

import unittest

from support import TOP
from kernel_record import RECORD, second_line


class OfTheKernel(unittest.TestCase):
    def test_it_was_read_with_what_is_there(self) -> None:
        again = f"{RECORD.relative_to(TOP)}: read it again, as root: compare beside it"
        self.assertEqual(RECORD.read_text(encoding="utf-8").splitlines()[1], second_line(), again)


if __name__ == "__main__":
    unittest.main()
