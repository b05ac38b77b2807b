"""Runs campaigns of the real binary with the n-th allocation refused, and with all from the n-th on, for a sample of the
first n, the last and every seventh between.

    [ONLY=COMMAND] [COUNT=N] [SEED=S] python3 -m tests.runners.campaign_allocations

The answer has to be status 7 with its line, or the very answer of a call that is refused nothing. Stock sqlite3 has to
find the database sound, with the rows of whole rounds, and of all of them where the answer is the right one; no other
file may change. Needs a C compiler, and is skipped where there is none.
"""
from __future__ import annotations

from tests.runners.allocations import Command, CommandsTest, RefusingTest
from tests.runners.campaigns import ROWS, Row, identity_of, is_stage, make, stock
from tests.runners.paving_files import QUARTER
from tests.runners.running import Answered, main

ENDINGS = ["", "-wal", "-shm", "-journal"]
FIRST, LAST = 600, 150


def campaign(status: int, rounds: int, boxes: int, workers: int, name: str = "new") -> Command:
    words = ["campaign", "r", *QUARTER, "--keep", name, "--rounds", str(rounds), "--boxes", str(boxes)]
    return status, [*words, "--workers", str(workers)], name


COMMANDS = {
    "a round by one": campaign(1, 1, 1, 1),
    "rounds by one": campaign(0, 5, 1, 1),
    "rounds by four": campaign(0, 3, 2, 4),
    "one round by four": campaign(0, 1, 100, 4),
    "a campaign gone on with": campaign(0, 4, 1, 1, "begun"),
    "a campaign of others": campaign(4, 1, 1, 1, "others"),
    "too large": campaign(8, 100, 1001, 1),
}


class KeptTest(CommandsTest):
    """A test over the databases that the listed campaigns begin, or go on with."""

    def prepare(self) -> None:
        super().prepare()
        self.begun = {"begun": (ROWS[:1], identity_of()), "others": (ROWS[:1], bytes(32))}
        for name in self.begun:
            self.remove(name)

    def remove(self, stored: str) -> None:
        """The database as the call finds it."""
        for ending in ENDINGS:
            (self.path / f"{stored}{ending}").unlink(missing_ok=True)
        if stored in self.begun:
            make(self.path / stored, *self.begun[stored])

    def others(self, files: dict[str, bytes], stored: str) -> dict[str, bytes]:
        return {name: text for name, text in files.items() if name not in [stored + ending for ending in ENDINGS]}

    def judge_rows(self, words: list[str], how: str, stored: str) -> list[Row]:
        """The rows of a database that stock sqlite3 finds sound: those of whole rounds, and no fewer than before the call."""
        sound, rows = self.rows(stored)
        self.assertTrue(sound, how)
        boxes = int(words[words.index("--boxes") + 1])
        self.assertTrue(is_stage(rows, set(ROWS), 1 if stored in self.begun else boxes), (how, rows))
        if stored in self.begun:
            self.assertLessEqual(set(self.begun[stored][0]), set(rows), how)
        return rows

    def rows(self, stored: str) -> tuple[bool, list[Row]]:
        if not (self.path / stored).exists():
            return True, []
        sound, _, rows = stock(self.path, stored)
        return sound, rows

    def whole(self, status: int, words: list[str], stored: str) -> list[Row]:
        """The rows that a call keeps to which nothing happens."""
        self.remove(stored)
        self.call(*words)
        rows = self.rows(stored)[1]
        if status == 0:
            self.assertEqual(rows, ROWS, "where nothing happens")
        self.remove(stored)
        return rows


class CampaignAllocations(KeptTest, RefusingTest):
    """Campaigns with allocations refused."""

    def test_campaigns(self) -> None:
        self.try_all(COMMANDS)

    def refused(self, count: int) -> list[int]:
        return [n for n in range(1, count + 1) if n <= FIRST or n % 7 == 0 or n > count - LAST]

    def judge(self, words: list[str], how: str, got: Answered, wanted: Answered, before: dict[str, bytes], stored: str,
              new: bytes | None) -> None:
        """As of any command; the database is sound, and has the rows of whole rounds, of all where the answer is right."""
        self.judge_answer(how, got, wanted)
        self.assertEqual(self.others(self.files(), stored), self.others(before, stored), how)
        rows = self.judge_rows(words, how, stored)
        if got[0] != 7:
            self.assertEqual(rows, self.wanted_rows, how)

    def try_command(self, status: int, words: list[str], stored: str) -> None:
        self.wanted_rows = self.whole(status, words, stored)
        super().try_command(status, words, stored)


if __name__ == "__main__":
    main()
