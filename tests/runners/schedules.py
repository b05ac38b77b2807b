"""Runs commands by several workers whose threads sleep at random: before each call of the kernel for a lock, a park, a yield
or memory, and between any two instructions, so within steals too. On all processors, on two and on one.

    [COUNT=12 SEED=1] python3 -m tests.runners.schedules

Systems, settings and budgets are made. One worker to whom nothing happens says what has to come: where a run is done, the
same bytes, printed and stored; where its budget ends it, as many nodes, whose file is honest.
"""
from __future__ import annotations

import random
from typing import Any

from tests.runners.campaigns import stock
from tests.runners.fuzz_systems import Systems
from tests.runners.outside import RING
from tests.runners.running import Answered, made_cases, main
from tests.runners.trapping import TrapTest, on_processors

CALLS = "futex,sched_yield,mmap,munmap,mprotect,madvise,brk,clock_nanosleep,write,read"
WORKERS = [2, 3, 4, 7, 16]
BUDGETS = [1, 7, 40, 300, 3000]
FINE = {"eps": "0.03125", "depth": 60, "bisect": "largest", "contract": "prop(8)"}


class Schedules(TrapTest):
    """Commands by several workers in schedules that nobody else would make."""

    def setUp(self) -> None:
        super().setUp()
        self.count, seed = made_cases(12)
        self.source = random.Random(seed)
        self.systems = Systems(self.source)

    def test_made_systems(self) -> None:
        for _ in range(self.count):
            for left in self.path.iterdir():
                left.unlink()
            self.choose()
            with self.subTest(text=self.get("s"), options=self.options, budget=self.budget):
                self.compare()

    def choose(self) -> None:
        """A system, its settings, a form and a budget; a ring at times, of which all workers have a share."""
        text, settings = RING, dict(FINE)
        if self.source.random() < 0.7:
            made, _, count = self.systems.system()
            text, settings = made.encode(), self.systems.settings(count)
        self.put("s", text)
        self.options = [f"--{name}={value}" for name, value in settings.items()]
        if self.source.random() < 0.25:
            self.options.append("--form=centered")
        self.budget = self.source.choice(BUDGETS)

    def compare(self) -> None:
        boxes = f"--boxes={self.budget}"
        alone = ["--workers=1", boxes, *self.options]
        printed = self.answered("run", "s", *alone)
        stored = self.answered("run", "s", *alone, "--out=one")
        self.assertIn(stored[0], (0, 1), stored)
        for _ in range(2):
            self.is_as(printed, self.slept("run", "s", boxes))
            self.is_as(stored, self.slept("run", "s", boxes, "--out=more"))
            if stored[0] == 0:
                self.assertTrue(self.get("more") == self.get("one"), "several workers store another file")
            self.assertEqual(self.slept("audit", "s", "more"), (0, b"honest\n", b""))
        self.goes_on(boxes)

    def goes_on(self, boxes: str) -> None:
        """A run that its budget ended goes on by several to what one comes to; a campaign keeps what it came to."""
        alone = self.answered("resume", "s", "one", "--workers=1", "--boxes=5000", *self.options, "--out=whole")
        more = self.slept("resume", "s", "more", "--boxes=5000", "--out=again")
        kept = self.slept("campaign", "s", "--keep=k", boxes, "--rounds=3")
        self.assertEqual((more[0], more[2]), (alone[0], b""), more)
        if alone[0] == 0:
            self.assertTrue(self.get("again") == self.get("whole"), "several workers come to another end")
        self.assertIn((kept[0], kept[2]), ((0, b""), (1, b"")), kept)
        sound, _, rows = stock(self.path, "k")
        self.assertTrue(sound)
        self.assertEqual(kept[1].split()[:2], [b"settled", b"%d" % len(rows)])

    def slept(self, *words: str) -> Answered:
        """A call by several workers that sleep."""
        processors = self.source.choice([1, 2, 2, 4])
        how: dict[str, Any] = on_processors(processors)
        several = f"--workers={self.source.choice(WORKERS)}"
        return self.trapped([*words, several, *self.options], CALLS, how, sleep=self.source.randrange(1, 1 << 40))

    def is_as(self, wanted: Answered, given: Answered) -> None:
        """The same answer; as many settled nodes where leaves are open."""
        if wanted[0] == 1:
            self.assertEqual((given[0], given[1].split()[:2], given[2]), (1, wanted[1].split()[:2], b""))
        else:
            self.assertEqual(given, wanted)


if __name__ == "__main__":
    main()
