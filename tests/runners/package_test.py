"""What the tests of the Python package share: its examples, its commands, and calls that have to raise."""
from __future__ import annotations

import contextlib
import io
import os
import shutil
import unittest
from pathlib import Path
from typing import Any, Callable, Iterator

from paver import __main__ as commands
from paver import program
from tests.runners.running import TOP


def example(name: str) -> Path:
    return TOP / "examples" / f"{name}.mbx"


def options_of(words: list[str]) -> dict[str, Any]:
    return {name[2:]: value for name, value in zip(words[::2], words[1::2])}


def command(*words: Any) -> tuple[int, str, str]:
    """The status, standard output and standard error of a command of the package."""
    out, err = io.StringIO(), io.StringIO()
    with contextlib.redirect_stdout(out), contextlib.redirect_stderr(err):
        status = commands.main([str(word) for word in words])
    return status, out.getvalue(), err.getvalue()


@contextlib.contextmanager
def at(folder: str | Path) -> Iterator[None]:
    """Works in a folder for a while."""
    before = os.getcwd()
    os.chdir(folder)
    try:
        yield
    finally:
        os.chdir(before)


class PackageTest(unittest.TestCase):
    """A test of the package, by the program that PAVER names."""

    def assert_raised(self, expected: type[BaseException], work: Callable[..., Any], /, **place: Any) -> None:
        """That a call raises an exception with these places."""
        with self.assertRaises(expected) as raised:
            work()
        self.assertEqual({name: getattr(raised.exception, name) for name in place}, place)

    def needs(self, name: str) -> None:
        """Skips the test where the program has no such command."""
        if not program.has(name):
            self.skipTest(f"the program has no `{name}` yet")

    def needs_tool(self, name: str) -> None:
        if shutil.which(name) is None:
            self.skipTest(f"there is no {name} here")
