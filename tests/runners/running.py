"""What the runners share: tests with a folder of their own in which the program is called, and a last line that counts.

    python3 -m tests.runners.NAME [-k WORD]     the tests of a runner; its last line is 'N passed, M failed'
    python3 -m unittest tests.runners.NAME      the same by unittest's own runner

at the top of the repository, with `python` on PYTHONPATH. Words of the environment: PAVER is the program (./paver where it
isn't set), ONLY a word of the names of the rows of a table that are tried, COUNT how many cases are made, SEED from which seed.
"""
from __future__ import annotations

import copy
import io
import os
import random
import resource
import subprocess
import sys
import tempfile
import time
import traceback
import unittest
from pathlib import Path
from typing import Any, Iterable, Iterator

TOP = Path(__file__).resolve().parents[2]
PROGRAM = os.path.abspath(os.environ.get("PAVER") or TOP / "paver")
os.environ["PAVER"] = PROGRAM  # for the package, and for what it starts

Answered = tuple[int, bytes, bytes]  # the status of a call, its standard output and its standard error

SECONDS = 300  # of one call
SLOW = 20  # seconds of a test that is told
SHOWN, WIDTH = 10, 1500  # faults of a test that are shown, and the bytes of each


def made_cases(count: int) -> tuple[int, int]:
    """How many cases are made, this many where COUNT isn't set, and their seed."""
    return int(os.environ.get("COUNT") or count), int(os.environ.get("SEED") or 1)


def rows(table: Iterable[Any]) -> Iterator[Any]:
    """The rows of a table whose first word has the word ONLY in it."""
    only = os.environ.get("ONLY", "")
    return (row for row in table if only in str(row[0] if isinstance(row, (tuple, list)) else row))


def run(folder: str | Path, *words: Any, **how: Any) -> subprocess.CompletedProcess[bytes]:
    """Calls the program in a folder, with no standard input, and takes what it prints."""
    how = {"stdin": subprocess.DEVNULL, "stdout": subprocess.PIPE, "stderr": subprocess.PIPE, "timeout": SECONDS} | how
    return subprocess.run([PROGRAM, *words], cwd=folder, check=False, **how)


class Moments:
    """Random moments of a call, to end it at. How long a call takes is learnt from the calls themselves, as it changes with all
    else that the machine does: nine of ten are ended before they come to their end."""

    def __init__(self, source: random.Random, seconds: float = 0.01) -> None:
        self.source, self.seconds = source, seconds

    def wait(self) -> None:
        """Until such a moment, from the call's beginning on."""
        time.sleep(self.source.random() * self.seconds)

    def learn(self, is_ended_early: bool) -> None:
        """Takes what became of the call after that."""
        self.seconds *= 1.04 if is_ended_early else 0.7


def wait_until_it_works(child: subprocess.Popen[Any], seconds: float = 0.03) -> None:
    """Waits until a call has had so much of the processor, however late the machine lets it begin."""
    ticks = seconds * os.sysconf("SC_CLK_TCK")
    place = Path(f"/proc/{child.pid}/stat")
    until = time.monotonic() + SECONDS
    while sum(map(int, place.read_text().rpartition(")")[2].split()[11:13])) < ticks and time.monotonic() < until:
        time.sleep(0.001)


def processor_seconds() -> float:
    """What the calls that ended have taken of the processor, whatever else the machine does."""
    usage = resource.getrusage(resource.RUSAGE_CHILDREN)
    return usage.ru_utime + usage.ru_stime


class FolderTest(unittest.TestCase):
    """A test with a fresh folder of its own."""

    program = PROGRAM

    def setUp(self) -> None:
        made = tempfile.TemporaryDirectory()
        self.addCleanup(made.cleanup)
        self.path = Path(made.name)

    def elsewhere(self, path: str | Path, program: str | Path | None = None) -> Any:
        """The same test in another folder, or by another copy of the program."""
        other = copy.copy(self)
        other.path, other.program = Path(path), str(program or self.program)
        return other

    def put(self, name: str, data: bytes) -> None:
        (self.path / name).write_bytes(data)

    def get(self, name: str) -> bytes:
        return (self.path / name).read_bytes()

    def files(self) -> dict[str, bytes]:
        return {path.name: path.read_bytes() for path in self.path.iterdir() if path.is_file()}

    def call(self, *words: Any, **how: Any) -> subprocess.CompletedProcess[bytes]:
        """The program's answer in the folder."""
        how = {"stdin": subprocess.DEVNULL, "stdout": subprocess.PIPE, "stderr": subprocess.PIPE, "timeout": SECONDS} | how
        return subprocess.run([self.program, *words], cwd=self.path, check=False, **how)

    def answered(self, *words: Any, **how: Any) -> Answered:
        """The status of a call, its standard output and its standard error."""
        done = self.call(*words, **how)
        return done.returncode, done.stdout, done.stderr


class Checks(unittest.TestResult):
    """Counts checks: the subtests of a test, or the test itself where it has none; tells what failed, was skipped or slow."""

    def __init__(self) -> None:
        super().__init__()
        self.passed = self.failed = self.subtests = self.shown = 0
        self.begun = 0.0

    def startTest(self, test: unittest.TestCase) -> None:
        super().startTest(test)
        self.subtests = self.shown = 0
        self.begun = time.monotonic()

    def stopTest(self, test: unittest.TestCase) -> None:
        super().stopTest(test)
        if time.monotonic() - self.begun > SLOW:
            print(f"{name_of(test)}: took {time.monotonic() - self.begun:.0f} s", flush=True)

    def addSubTest(self, test: unittest.TestCase, subtest: unittest.TestCase, err: Any) -> None:
        self.subtests += 1
        if err is None:
            self.passed += 1
        else:
            self.fault(subtest, err)

    def addSuccess(self, test: unittest.TestCase) -> None:
        self.passed += not self.subtests

    def addFailure(self, test: unittest.TestCase, err: Any) -> None:
        self.fault(test, err)

    def addError(self, test: unittest.TestCase, err: Any) -> None:
        self.fault(test, err)

    def addSkip(self, test: unittest.TestCase, reason: str) -> None:
        super().addSkip(test, reason)
        print(f"skipped: {name_of(test)}: {reason}", flush=True)

    def fault(self, test: unittest.TestCase, err: Any) -> None:
        """Counts what failed, and shows it with the lines of the test that led there."""
        self.failed += 1
        self.shown += 1
        if self.shown <= SHOWN:
            kind, value, trail = err
            places = [place for place in traceback.extract_tb(trail) if f"{os.sep}unittest{os.sep}" not in place.filename]
            lines = ", ".join(f"{Path(place.filename).name} {place.lineno}" for place in places[-4:])
            print(f"FAILED {name_of(test)} ({lines}):\n  {kind.__name__}: {value}"[:WIDTH], flush=True)

    def wasSuccessful(self) -> bool:
        return not self.failed and bool(self.passed or self.skipped)


def name_of(test: unittest.TestCase) -> str:
    """The name of a test in its class, with the words of a subtest."""
    return str(test).replace("__main__.", "")[:WIDTH // 5]


class Runner:
    """Runs tests, and ends with the line that counts them."""

    def __init__(self, **_words: Any) -> None:
        pass

    def run(self, tests: unittest.TestSuite | unittest.TestCase) -> Checks:
        checks = Checks()
        tests(checks)
        print(f"{checks.passed} passed, {checks.failed} failed", flush=True)
        return checks


def main() -> None:
    """Runs the tests of the module that is run, by unittest's words, and ends with its status."""
    if isinstance(sys.stdout, io.TextIOWrapper):
        sys.stdout.reconfigure(errors="backslashreplace")
    unittest.main(testRunner=Runner)
