"""What runners share that stand between the program and the kernel, by a shared object that is loaded before the program."""
from __future__ import annotations

import errno
import os
import shutil
import subprocess
import tempfile
import unittest
from pathlib import Path
from typing import Any

from tests.runners.running import Answered, FolderTest

NO_FILTER = 98  # the status that says that the kernel can't trap calls


def shared_object(case: type[unittest.TestCase], source: str) -> Path:
    """A C file of this folder, made into a shared object for the tests of a class. They are skipped where nothing makes it."""
    compiler = shutil.which("cc")
    if not compiler:
        raise unittest.SkipTest("there is no C compiler here")
    made = tempfile.TemporaryDirectory()
    case.addClassCleanup(made.cleanup)
    shim = Path(made.name) / "loaded.so"
    done = subprocess.run([compiler, "-O1", "-shared", "-fPIC", str(Path(__file__).with_name(source)), "-o", str(shim)],
                          capture_output=True, text=True, check=False)
    if done.returncode:
        raise unittest.SkipTest(f"{source} can't be made here: {done.stderr.splitlines()[:1]}")
    return shim


class TrapTest(FolderTest):
    """A test in which system calls of the program fail, kill it or sleep: trap_calls.c says how."""

    shim: Path

    @classmethod
    def setUpClass(cls) -> None:
        """Makes the shared object, and sees that the kernel takes its filter."""
        cls.shim = shared_object(cls, "trap_calls.c")
        words = {"LD_PRELOAD": str(cls.shim), "TRAP_CALLS": "close"}
        if subprocess.run(["/bin/true"], env=words, check=False).returncode == NO_FILTER:
            raise unittest.SkipTest("the kernel traps no calls here")

    def trapped(self, words: list[str], calls: str, how: dict[str, Any] | None = None, **trap: int | str) -> Answered:
        """The program's answer where these calls are trapped; how is for the call itself."""
        environment = {"LD_PRELOAD": str(self.shim), "TRAP_CALLS": calls,
                       **{f"TRAP_{name.upper()}": str(value) for name, value in trap.items()}}
        return self.answered(*words, env=environment, **(how or {}))

    def calls_of(self, words: list[str], calls: str) -> tuple[Answered, list[str]]:
        """The program's answer, and the kinds of its calls in their order."""
        with tempfile.TemporaryDirectory() as aside:
            log = Path(aside) / "log"
            answer = self.trapped(words, calls, log=str(log))
            return answer, log.read_text().split()


def error_number(name: str) -> int:
    """The number of an error."""
    return int(getattr(errno, name))


def on_processors(count: int) -> dict[str, Any]:
    """What has a call run on so many processors at the most."""
    chosen = sorted(os.sched_getaffinity(0))[:count]
    return {"preexec_fn": lambda: os.sched_setaffinity(0, chosen)}
