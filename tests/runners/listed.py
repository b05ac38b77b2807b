"""Tests that each runner of the folder is run by `make test`.

    python3 -m tests.runners.listed
"""
from __future__ import annotations

import unittest

from tests import suite
from tests.runners.running import TOP, main

FOLDER = TOP / "tests" / "runners"


class Listed(unittest.TestCase):
    """The runners of the folder and those that are run."""

    def test_runners(self) -> None:
        """Each module is run once, or is shared by runners; and each name has its module."""
        listed = [*suite.SIDE_BY_SIDE, *suite.ALONE, *suite.SHARED]
        there = {file.stem for file in FOLDER.glob("*.py")} - {"__init__"}
        self.assertEqual(sorted(listed), sorted(there))


if __name__ == "__main__":
    main()
