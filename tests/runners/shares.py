"""Shares the open leaves of a paving out to several calls and joins what they store, and lets runs go by levels: the bytes are
those of one run, and where a budget ends they are the reference's.

    [ONLY=SYSTEM] python3 -m tests.runners.shares [-k WORD]
"""
from __future__ import annotations

import random
from fractions import Fraction
from typing import Any

from tests.data.cases import RECIPROCAL, USAGE
from tests.data.examples import EXAMPLES
from tests.data.reader_cases import canonical
from tests.reference import files, minibex
from tests.reference.commands import Call, answer
from tests.runners.running import TOP, FolderTest, main, rows

RING = (TOP / "examples" / "ring.mbx").read_bytes()
# Systems, their settings in words and for the reference, and after how many nodes they are shared out among how many.
SHARED_OUT = [("reciprocal", RECIPROCAL, {"eps": Fraction(1, 4)}, 2, (1, 2, 3)), ("ring", RING, {}, 40, (1, 3, 16)),
              ("ring", RING, {"eps": Fraction(1, 32)}, 100, (4, 1000000))]
LEVELS = [("reciprocal", RECIPROCAL, {"eps": Fraction(1, 64)}), ("ring", RING, {})]
# Spellings of a share, and of an order, that are refused; of a share that are taken.
NO_SHARES = ["2/2", "3/2", "0/0", "0/1000001", "1/", "/2", "1", "", "0/1/2", "0//1", "+0/1", "-0/1", "0/+1", " 0/1", "0/1 ",
             "0x0/1", "00000000000/1", "0/00000000001", "a/b", "0\\1", "0/1/", "0,1"]
NO_ORDERS = ["", "levels", "Level", "breadth", "level "]
GOOD_SHARES = ["0/1", "000/0000000001", "999999/1000000", "0000000000/1"]
PASS = 4  # levels
ENOUGH = ["--boxes", "90000"]


class Deal(FolderTest):
    """A folder with a system and the settings by which it is paved."""

    system: str
    words: list[str]
    reference: Call

    def begin(self, name: str, text: bytes, settings: dict[str, Any]) -> None:
        self.put(name, text)
        self.system, self.words = name, [word for key, value in settings.items() for word in (f"--{key}", str(float(value)))]
        self.reference = Call(minibex.read(text.decode()), canonical(text.decode()), **settings)

    def wants(self, status: int, command: str, names: list[str], *words: str, out: str | None = None) -> None:
        """Stores what a command makes of files; it ends with this status."""
        done = self.call(command, self.system, *names, *self.words, *words, *(["--out", out] if out else []))
        self.assertEqual(done.returncode, status, (command, names, words, done.stderr))

    def answers(self, wanted: tuple[Any, ...], command: str, names: list[str], *words: str) -> None:
        """The status, what is printed and what is stored are the reference's."""
        given = self.answered(command, self.system, *names, *self.words, *words, "--out", "answer")
        self.assertEqual(given, wanted[:3], (command, names, words))
        self.assertTrue(self.get("answer") == wanted[3], f"{command} {names} {words}: another file")

    def refused(self, command: str, names: list[str], *words: str) -> None:
        given = self.answered(command, self.system, *names, *words)
        self.assertEqual(given, (2, b"", USAGE), (command, names, words))

    def same(self, name: str, other: str) -> None:
        self.assertTrue(self.get(name) == self.get(other), f"{name} and {other} are not the same")

    def tree(self, name: str) -> Any:
        return self.reference.read(name, self.get(name))

    def join_by_eights(self, names: list[str]) -> str:
        """The name of the file to which these join, eight at a time; a join may have open leaves on its way."""
        joins = 0
        while len(names) > 1:
            eight, names, joins = names[:8], names[8:], joins + 1
            done = self.call("merge", self.system, *eight, *self.words, "--out", f"join{joins}")
            self.assertIn(done.returncode, (0, 1), (eight, done.stderr))
            names.append(f"join{joins}")
        return names[0]


class Shares(Deal):
    """Shares of the open leaves."""

    def test_shares_join_to_what_one_run_stores(self) -> None:
        """In any order, several times, and where some are stopped and gone on with."""
        draws = random.Random(1)
        for name, text, settings, first, parts in rows(SHARED_OUT):
            with self.subTest(name, first=first):
                self.begin(name, text, settings)
                self.wants(0, "run", [], "--workers", "1", out="whole")
                self.wants(1, "run", [], "--boxes", str(first), out="first")
                for of in parts:
                    numbers = list(range(min(of, 20)))
                    draws.shuffle(numbers)
                    for number in numbers:
                        self.wants(0, "resume", ["first"], "--share", f"{number}/{of}", out=f"part{number}")
                    joined = self.join_by_eights([f"part{number}" for number in [*numbers, *numbers[:3]]])
                    if of <= 20:
                        self.same(joined, "whole")

    def test_stopped_shares_are_gone_on_with(self) -> None:
        """A share that its budget ends is dealt out again as shares of what it left, or is gone on with by its number."""
        self.begin("ring", RING, {})
        self.wants(0, "run", [], out="whole")
        self.wants(1, "run", [], "--boxes", "40", out="first")
        self.wants(1, "resume", ["first"], "--share", "0/2", "--boxes", "30", out="some")
        self.wants(0, "resume", ["first"], "--share", "1/2", out="other")
        for number in range(3):
            self.wants(0, "resume", ["some", "other"], "--share", f"{number}/3", out=f"again{number}")
        self.wants(0, "merge", ["again2", "some", "again0", "other", "again1", "first"], out="joined")
        self.same("joined", "whole")

    def test_each_share_is_the_references(self) -> None:
        """Status, summary and file, with the budgets one below what is needed, exactly that, and one above."""
        for name, text, settings, first, parts in rows(SHARED_OUT):
            self.begin(name, text, settings)
            self.wants(1, "run", [], "--workers", "1", "--boxes", str(first), out="first")
            for of in parts:
                for number in sorted({0, 1, of - 1} & set(range(of))):
                    with self.subTest(name, first=first, share=f"{number}/{of}"):
                        self.compare_share(number, of)

    def compare_share(self, number: int, of: int) -> None:
        """A share of the open leaves of `first`, by each of the budgets."""
        opening = self.tree("first")
        whole, _ = files.go_on_with_share(self.reference.settler, opening, 10 ** 6, number, of)
        needed = files.settled(whole) - files.settled(opening)
        for budget in sorted({1, needed - 1, needed, needed + 1} - {0, -1}):
            wanted = answer(lambda: self.reference.resume([("first", self.get("first"))], budget, "o", share=(number, of)))
            self.answers(wanted, "resume", ["first"], "--share", f"{number}/{of}", "--boxes", str(budget), "--workers", "3")

    def test_a_share_without_leaves_is_done(self) -> None:
        """Numbers count from 0: of two open leaves share 0 of 3 has the first one, and share 2 none."""
        self.begin("reciprocal", RECIPROCAL, {"eps": Fraction(1, 4)})
        self.wants(1, "run", [], "--boxes", "1", out="first")
        self.wants(0, "resume", ["first"], "--share", "2/3", "--boxes", "1", out="none")
        self.same("none", "first")
        for number, wanted in ((0, ["0", "00", "01"]), (1, ["1"])):
            self.wants(0, "resume", ["first"], "--share", f"{number}/3", out="part")
            new = sorted(set(files.settled_paths(self.tree("part"))) - {""})
            self.assertEqual(new, wanted, f"share {number} of 3")
        self.wants(0, "run", [], out="whole")
        self.wants(0, "resume", ["whole"], "--share", "0/1", "--boxes", "1", out="again")
        self.same("again", "whole")

    def test_spellings(self) -> None:
        """A number that is not below the other one, more than a million, and any other spelling are refused."""
        self.begin("reciprocal", RECIPROCAL, {})
        self.wants(0, "run", [], out="whole")
        for text in rows(NO_SHARES):
            with self.subTest(share=text):
                self.refused("resume", ["whole"], f"--share={text}")
        for text in rows(GOOD_SHARES):
            with self.subTest(share=text):
                self.wants(0, "resume", ["whole"], f"--share={text}")
        for text in rows(NO_ORDERS):
            with self.subTest(order=text):
                self.refused("run", [], f"--order={text}")

    def test_other_words_are_refused(self) -> None:
        """A share that is given twice, or goes by levels, and commands that have no shares or no order."""
        self.begin("reciprocal", RECIPROCAL, {})
        self.wants(0, "run", [], out="whole")
        self.refused("resume", ["whole"], "--share", "0/1", "--share", "0/1")
        self.refused("resume", ["whole"], "--share", "0/1", "--order", "level")
        self.wants(0, "resume", ["whole"], "--share", "0/1", "--order", "depth")
        self.refused("run", [], "--share", "0/1")
        self.refused("merge", ["whole"], "--share", "0/1")
        self.refused("campaign", [], "--share", "0/1", "--keep", "k")
        for command in ("merge", "audit"):
            self.refused(command, ["whole"], "--order", "level")
        self.refused("least", [], "--of", "x", "--order", "level")

    def test_a_tree_may_grow_to_its_limit(self) -> None:
        """The budget of a share counts against the limit as any does."""
        self.begin("reciprocal", RECIPROCAL, {"eps": Fraction(1, 4)})
        self.wants(1, "run", [], "--boxes", "1", out="first")
        self.wants(0, "resume", ["first"], "--share", "0/2", "--boxes", "99999")
        done = self.call("resume", self.system, "first", *self.words, "--share", "0/2", "--boxes", "100000")
        self.assertEqual((done.returncode, done.stderr), (8, b"tree limit: 1 settled\n"))


class Levels(Deal):
    """Runs by levels."""

    def test_completed_levels_are_the_same_bytes(self) -> None:
        """By one worker and by four, as a run, from what a budget left, and as a campaign."""
        for name, words in rows(EXAMPLES):
            if name not in ("ring", "torus", "planar_arm"):
                continue
            with self.subTest(name):
                self.put(name, (TOP / "examples" / f"{name}.mbx").read_bytes())
                pairs = [words[k:k + 2] for k in range(0, len(words), 2)]
                self.system, self.words = name, [word for pair in pairs if pair[0] != "--boxes" for word in pair]
                self.wants(0, "run", [], *ENOUGH, out="whole")
                for workers in ("1", "4"):
                    self.wants(0, "run", [], *ENOUGH, "--order", "level", "--workers", workers, out="level")
                    self.same("level", "whole")
                self.wants(1, "run", [], "--order", "level", "--boxes", "150", out="first")
                self.wants(0, "resume", ["first"], *ENOUGH, "--order", "level", out="rest")
                self.same("rest", "whole")

    def test_each_level_is_the_references(self) -> None:
        """Status, summary and file by each budget, and the lengths of paths."""
        for name, text, settings in rows(LEVELS):
            self.begin(name, text, settings)
            for budget in (1, 2, 3, 7, 15, 16, 31, 40, 100, 255, 256, 300, 400):
                with self.subTest(name, budget=budget):
                    wanted = answer(lambda: self.reference.run(budget, "o", order="level"))
                    self.answers(wanted, "run", [], "--boxes", str(budget), "--order", "level", "--workers", "4")
                    self.check_levels(self.tree("answer"), set())
            self.wants(1, "run", [], "--boxes", "3", out="first")
            opening = set(files.settled_paths(self.tree("first")))
            for budget in (1, 5, 20, 90):
                with self.subTest(name, budget=budget, opening=3):
                    wanted = answer(lambda: self.reference.resume([("first", self.get("first"))], budget, "o", order="level"))
                    self.answers(wanted, "resume", ["first"], "--boxes", str(budget), "--order", "level")
                    self.check_levels(self.tree("answer"), opening)

    def check_levels(self, tree: Any, opening: set[str]) -> None:
        """With a leaf open, no open leaf is shorter than 4 (j - 1) steps and no new node longer than 4 j - 1, for the pass j in
        which the budget ended."""
        left = [len(path) for path in files.open_paths(tree)]
        longest = max(len(path) for path in files.settled_paths(tree) if path not in opening)
        if left:
            self.assertGreaterEqual(min(left), PASS * (longest // PASS), f"a new node at {longest}")

    def test_campaigns_go_by_levels_from_what_is_kept(self) -> None:
        """Each round begins with its first pass; what is kept is what rounds of the reference make."""
        self.begin("ring", RING, {})
        tree: Any = ("O",)
        for _ in range(3):
            done = self.call("campaign", self.system, "--keep", "k", "--boxes", "60", "--order", "level", *self.words)
            tree = files.go_on_by_levels(self.reference.settler, tree, 60)
            self.assertEqual(done.stdout, (files.summary(tree) + "\n").encode(), (done.returncode, done.stderr))
        self.wants(0, "campaign", [], "--keep", "k", "--order", "level")


if __name__ == "__main__":
    main()
