"""Runs each example by one worker and by several, stored and printed, and compares what they write byte for byte.

    [COUNT=1 ONLY=EXAMPLE] python3 -m tests.runners.workers

runs each example so many times by 2, 4 and 16 workers; `COUNT=50` is for a long look. A run that its budget ends settles
exactly the budget, and its file is a paving that `audit` calls honest; a done run has one worker's bytes, on its standard
output too.
"""
from __future__ import annotations

from collections.abc import Sequence
from pathlib import Path

from tests.data.examples import EXAMPLES
from tests.runners.running import TOP, FolderTest, made_cases, main, rows

BUDGET = "150"


def settings(words: Sequence[str]) -> list[str]:
    """The words of a run that are settings of its file."""
    return [word for k in range(0, len(words), 2) if words[k] not in ("--boxes", "--workers", "--out")
            for word in words[k:k + 2]]


class Workers(FolderTest):
    """Runs by one worker and by several."""

    def test_examples(self) -> None:
        times, _ = made_cases(1)
        for name, words in rows(EXAMPLES):
            with self.subTest(name):
                system = TOP / "examples" / f"{name}.mbx"
                self.compare(system, words, times)
                self.cut_short(system, settings(words))

    def compare(self, system: Path, words: list[str], times: int) -> None:
        """Several workers answer, store and print what one does."""
        alone = self.call("run", system, *words, "--workers", "1", "--out", "one")
        printed = self.call("run", system, *words, "--workers", "1").stdout
        for workers in ("2", "4", "16"):
            for _ in range(times):
                more = self.call("run", system, *words, "--workers", workers, "--out", "more")
                self.assertEqual((more.returncode, more.stderr), (alone.returncode, b""), workers)
                self.assertEqual(more.stdout.split()[:2], alone.stdout.split()[:2], workers)
                if alone.returncode == 0:
                    self.assertTrue(self.get("more") == self.get("one"), f"{workers} workers store another file")
            if alone.returncode == 0:
                lines = self.call("run", system, *words, "--workers", workers).stdout
                self.assertTrue(lines == printed, f"{workers} workers print other lines")

    def cut_short(self, system: Path, kept: list[str]) -> None:
        """A run that its budget ends, by four workers, and one that goes on from there to the end."""
        part = self.call("run", system, *kept, "--boxes", BUDGET, "--workers", "4", "--out", "part")
        if part.returncode == 1:
            self.assertTrue(part.stdout.startswith(b"settled " + BUDGET.encode() + b" "), part.stdout)
        self.assertEqual(self.call("audit", system, "part", *kept).stdout, b"honest\n")
        whole = [self.call(*command, *kept, "--boxes", "99000", "--workers", "4", "--out", out)
                 for command, out in ((("run", system), "whole"), (("resume", system, "part"), "resumed"))]
        if whole[0].returncode == 0:
            self.assertEqual(whole[1].returncode, 0, whole[1].stderr)
            self.assertTrue(self.get("whole") == self.get("resumed"), "what was resumed is another file")


if __name__ == "__main__":
    main()
