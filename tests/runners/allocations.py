"""Runs each command of the real binary with its n-th allocation refused, and with all from the n-th on, for a sample of n.

    [ONLY=COMMAND] [COUNT=N] [SEED=S] python3 -m tests.runners.allocations

COUNT is how many n are tried of each command, and every one where it is as large as all allocations (`make fuzz`).

The answer has to be status 7 with its line, or the very answer of a call that is refused nothing; no other file may change,
and a file that is stored is whole. Needs a C compiler, and is skipped where there is none.
"""
from __future__ import annotations

import random
import tempfile
from collections.abc import Sequence
from pathlib import Path

from tests.data.cases import HALF_LINE, RECIPROCAL, system
from tests.runners.paving_files import A, B, QUARTER, TWO_DISCS, file_of
from tests.runners.running import Answered, FolderTest, made_cases, main, rows
from tests.runners.trapping import shared_object

SAMPLE = 24  # allocations of a command that are refused, where COUNT doesn't say how many

# By these the lines are so many that several workers make them.
Command = tuple[int, list[str], str]  # the status where nothing is refused, the words, and the file that is stored or ""
FINE = ["--eps", "0.0078125"]
HALF_SQUARE = system("x in [0,2], y in [0,2]", "x <= 1")
SOLID = system("x in [-2,2], y in [-2,2]", "x^2 + y^2 <= 2; x * y >= 0")


def by(workers: int, words: list[str], stored: str = "") -> Command:
    """The status of a command with so many workers, its words, and the file that it stores."""
    return 0, [*words, *QUARTER, "--workers", str(workers), *(["--out", stored] if stored else [])], stored


def commands() -> dict[str, Command]:
    """The status of each where nothing is refused, its words, and the file that it stores."""
    return {
        "check": (0, ["check", "s"], ""),
        "check of a refused text": (3, ["check", "bad"], ""),
        "a half line": (0, ["run", "h"], ""),
        "a quotient": (0, ["run", "r", *QUARTER], ""),
        "run by one": by(1, ["run", "s", "--boxes", "400"]),
        "run by four": by(4, ["run", "s", "--boxes", "400"]),
        "two discs by two": (0, ["run", "d", "--workers", "2"], ""),
        "run out by one": by(1, ["run", "s"], "new"),
        "run out by four": by(4, ["run", "s"], "new"),
        "run-centered by one": by(1, ["run-centered", "s"]),
        "run-centered by four": by(4, ["run-centered", "s"]),
        "run-centered out": by(4, ["run-centered", "s"], "new"),
        "resume by one": by(1, ["resume", "r", "part", "--boxes", "4"], "new"),
        "resume by four": by(4, ["resume", "r", "part", "--boxes", "4"], "new"),
        "many lines by four": (0, ["resume", "s", "many", *FINE, "--workers", "4"], ""),
        "many lines out by four": (0, ["resume", "s", "many", *FINE, "--workers", "4", "--out", "new"], "new"),
        "merge": (1, ["merge", "r", "part", "other", *QUARTER, "--out", "new"], "new"),
        "merge to the whole": (0, ["merge", "r", "A", "B", *QUARTER, "--out", "new"], "new"),
        "merge of two that disagree": (9, ["merge", "r", "other", "foul", *QUARTER], ""),
        "audit": (0, ["audit", "r", "whole", *QUARTER], ""),
        "audit that differs": (9, ["audit", "r", "foul", *QUARTER], ""),
        "audit-centered": (0, ["audit-centered", "s", "centered", *QUARTER], ""),
        "a bad file": (4, ["audit", "r", "bad", *QUARTER], ""),
        "no file": (11, ["run", "no"], ""),
        "svg": (0, ["svg", "s", "plane", *QUARTER, "--x", "x", "--y", "y"], ""),
        "svg of a half": (0, ["svg", "q", "half", "--x", "x", "--y", "y"], ""),
        "sample": (0, ["sample", "--seed", "1", "--count", "2"], ""),
        "least": (0, ["least", "s", *QUARTER, "--boxes", "400", "--of", "x+y*y"], ""),
        "least with no end": (1, ["least", "s", *QUARTER, "--boxes", "3", "--of", "x+y*y"], ""),
        "a refused expression": (2, ["least", "s", "--of", "x+"], ""),
        "words": (2, ["run", "s", "--eps"], ""),
        "a contract": (2, ["run", "s", "--contract", "union(hc4(0),prop(3),q)"], ""),
    }


def sample_of(numbers: Sequence[int]) -> list[int]:
    """As many of these as COUNT says, in order; the last is always among them."""
    most, seed = made_cases(SAMPLE)
    if most >= len(numbers):
        return list(numbers)
    return sorted({*random.Random(seed).sample(numbers, most), *numbers[-1:]})


class CommandsTest(FolderTest):
    """A test over the files that the listed commands read."""

    def try_all(self, listed: dict[str, Command]) -> None:
        """Each command in a folder of its own."""
        for name, command in rows(listed.items()):
            with self.subTest(name), tempfile.TemporaryDirectory() as made:
                folder = self.elsewhere(made)
                folder.prepare()
                folder.try_command(*command)

    def prepare(self) -> None:
        for name, text in (("s", SOLID), ("r", RECIPROCAL), ("d", TWO_DISCS), ("h", HALF_LINE), ("q", HALF_SQUARE),
                           ("A", file_of(1, A)), ("B", file_of(1, B)),
                           ("bad", b"Variables x in [0,4]; Constraints x <= ; end\n")):
            self.put(name, text)
        for name, budget in (("part", "1"), ("other", "2"), ("whole", "100")):
            self.call("run", "r", *QUARTER, "--boxes", budget, "--out", name)
        self.call("run", "s", *QUARTER, "--out", "plane")
        self.call("run", "q", "--out", "half")
        self.call("run", "s", *FINE, "--out", "many")
        self.call("run-centered", "s", *QUARTER, "--out", "centered")
        head = self.get("whole").split(b"\n")[:2]
        self.put("foul", b"\n".join([*head, b"I = =", b""]))

    def try_command(self, status: int, words: list[str], stored: str) -> None:
        """Tries a command that ends with this status, and stores a file."""
        raise NotImplementedError

    def remove(self, stored: str) -> None:
        if stored:
            (self.path / stored).unlink(missing_ok=True)


class RefusingTest(CommandsTest):
    """A test in which allocations of the program are refused, and counted in a file beside its folder."""
    shim: Path
    counted: Path

    @classmethod
    def setUpClass(cls) -> None:
        """Builds the shared object that refuses allocations."""
        cls.shim = shared_object(cls, "refuse_allocation.c")
        cls.counted = cls.shim.with_name("count")

    def refusing(self, words: list[str], **refuse: int) -> Answered:
        environment = {"LD_PRELOAD": str(self.shim), "REFUSE_COUNT": str(self.counted),
                       **{name.upper(): str(value) for name, value in refuse.items()}}
        return self.answered(*words, env=environment)

    def try_command(self, status: int, words: list[str], stored: str) -> None:
        before = self.files()
        wanted = self.refusing(words)
        count, after = int(self.counted.read_text()), self.files()
        new = after.get(stored)
        self.assertEqual(wanted[0], status, wanted[2])
        self.assertTrue(new or not stored, f"{stored} is not stored")
        for how in ("refuse", "refuse_from"):
            for n in sample_of(self.refused(count)):
                self.remove(stored)
                got = self.refusing(words, **{how: n})
                self.judge(words, f"{how} {n}", got, wanted, before, stored, new)

    def refused(self, count: int) -> Sequence[int]:
        """Which of so many allocations may be refused."""
        return range(1, count + 1)

    def judge(self, words: list[str], how: str, got: Answered, wanted: Answered, before: dict[str, bytes], stored: str,
              new: bytes | None) -> None:
        """Want of memory with its line and a front of the output, or the very answer; files as before, the stored one whole."""
        self.judge_answer(how, got, wanted)
        now = self.files()
        self.assertEqual({name: text for name, text in now.items() if name != stored},
                         {name: text for name, text in before.items() if name != stored}, how)
        if stored:
            self.assertIn(now.get(stored), (new,) if got[0] == wanted[0] else (new, None), how)

    def judge_answer(self, how: str, got: Answered, wanted: Answered) -> None:
        status, out, err = got
        if status == 7:
            self.assertTrue(wanted[1].startswith(out), (how, out[:80]))
            # where the line finds no memory, nothing more is written
            self.assertIn(err, (b"want of memory\n", b""), how)
        else:
            self.assertEqual(got, wanted, how)


class Allocations(RefusingTest):
    """Each command with its n-th allocation refused."""

    def judge(self, words: list[str], how: str, got: Answered, wanted: Answered, before: dict[str, bytes], stored: str,
              new: bytes | None) -> None:
        """Besides, with status 7 those alone have printed something that print nodes."""
        super().judge(words, how, got, wanted, before, stored, new)
        if got[0] == 7 and (stored or words[0] not in ("run", "run-centered", "resume", "merge")):
            self.assertEqual(got[1], b"", (words, how))

    def test_commands(self) -> None:
        self.try_all(commands())


if __name__ == "__main__":
    main()
