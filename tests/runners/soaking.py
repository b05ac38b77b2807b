"""Runs the soak for some seconds: it ends when its hours are over or when it is told to, leaves nothing behind, and tells what
failed with the words that repeat it.

    python3 -m tests.runners.soaking [-k WORD]
"""
from __future__ import annotations

import os
import re
import signal
import subprocess
import sys
import time
from typing import Any

from tests.runners.running import SECONDS, TOP, FolderTest, main

TURN = re.compile(r"COUNT=(\d+) SEED=(\d+) python3 -m tests\.runners\.(\w+)")
FEW = ["--seed", "1", "fuzz_options", "schedules"]


class Soaking(FolderTest):
    """The soak as a program."""

    def begun(self, *words: str, program: str | None = None) -> subprocess.Popen[str]:
        """A soak whose temporary files lie in the test's folder."""
        (self.path / "temporary").mkdir(exist_ok=True)
        environment = {**os.environ, "TMPDIR": str(self.path / "temporary"), "PAVER": program or self.program}
        told: dict[str, Any] = {"stdin": subprocess.DEVNULL, "stdout": subprocess.PIPE, "stderr": subprocess.STDOUT}
        return subprocess.Popen([sys.executable, "-m", "tests.soak", *words], cwd=TOP, env=environment, text=True, **told)

    def ended(self, child: subprocess.Popen[str]) -> tuple[int, str]:
        """The status of a soak and what it printed; it left no file."""
        printed = child.communicate(timeout=SECONDS)[0]
        self.assertEqual(list((self.path / "temporary").iterdir()), [])
        return child.returncode, printed

    def test_it_ends_after_its_hours(self) -> None:
        status, printed = self.ended(self.begun("--hours", "0.002", "--log", str(self.path / "log"), *FEW))
        self.assertEqual((status, (self.path / "log").read_text()), (0, printed))
        self.assertRegex(printed.splitlines()[-1], r"^\d+ passed, 0 failed$")
        self.assertTrue(TURN.search(printed), printed)

    def test_it_ends_when_it_is_told_to(self) -> None:
        child = self.begun("--hours", "100", "--jobs", "2", *FEW)
        time.sleep(1)
        child.send_signal(signal.SIGTERM)
        status, printed = self.ended(child)
        self.assertEqual(status, 0, printed)
        self.assertRegex(printed.splitlines()[-1], r"^\d+ passed, 0 failed$")

    def test_what_fails_is_told(self) -> None:
        """A program that calls everything honest."""
        self.put("false", b"#!/bin/sh\necho honest\n")
        (self.path / "false").chmod(0o755)
        status, printed = self.ended(self.begun("--hours", "0.002", "--seed", "1", "fuzz_options",
                                                program=str(self.path / "false")))
        self.assertEqual(status, 1, printed)
        self.assertNotIn(", 0 failed", printed.splitlines()[-1])
        count, seed, runner = TURN.search(printed).groups()
        again = subprocess.run([sys.executable, "-m", f"tests.runners.{runner}"], cwd=TOP, stdin=subprocess.DEVNULL, text=True,
                               env={**os.environ, "PAVER": str(self.path / "false"), "COUNT": count, "SEED": seed},
                               capture_output=True, check=False)
        self.assertEqual(again.returncode, 1, again)

    def test_words(self) -> None:
        for words in (["--hours", "0"], ["--hours", "1", "nothing"], []):
            self.assertEqual(self.ended(self.begun(*words))[0], 2, words)


if __name__ == "__main__":
    main()
