"""Tests the Python package in python/paver on the program, beside the plain paver in tests/reference.

    python3 -m tests.runners.test_python [-k WORD]

What the program does not have yet, and plots where matplotlib is not installed, is skipped by name. Each of the modules
that are listed here is a runner of its own.
"""
from __future__ import annotations

import unittest

from tests.runners import (
    package_answers, package_around, package_checks, package_misuse, package_parts, package_pavings, package_refusals,
    package_stages, package_tools, package_users,
)
from tests.runners.running import main

MODULES = (package_checks, package_pavings, package_tools, package_misuse, package_refusals, package_users, package_parts,
           package_stages, package_around, package_answers)


def load_tests(loader: unittest.TestLoader, _found: unittest.TestSuite, _pattern: str | None) -> unittest.TestSuite:
    return unittest.TestSuite(map(loader.loadTestsFromModule, MODULES))


if __name__ == "__main__":
    main()
