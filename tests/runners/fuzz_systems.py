"""Compares what the commands make of made systems, settings and budgets with what the reference makes of them.

    [COUNT=40 SEED=1] python3 -m tests.runners.fuzz_systems

Each system is paved by one worker, whose leaves come in preorder, and by several, whose bytes are the same where the run is
done; what is stored is audited by both, gone on with, kept by a campaign, searched for a least value, and drawn.
A call that differs is printed with both answers.
"""
from __future__ import annotations

import random
import sys
from collections.abc import Sequence
from fractions import Fraction
from typing import Any

from tests.data.reader_cases import canonical
from tests.generators.pictures import picture
from tests.reference import least, minibex
from tests.reference.commands import Call, answer
from tests.reference.numbers import DOWN, from_fraction, is_finite
from tests.runners.fuzz_words import Programs
from tests.runners.running import FolderTest, made_cases, main

PLAIN = ["0", "1", "2", "3", "0.1", "0.5", "1.5", "0.3333", "7", "10"]
ODD = ["1e-3", "1e3", "2.5e-10", "1e15", "1e30", "1e36", "1e-36", "1e-20", "123456789012345678901234567890",
       "0.1234567890123456789"]
SETTLING = ["run", "run-centered", "resume", "campaign"]
LEVELS = ["0", "1", "-1", "0.5", "-0.1", "2", "-0", "1e3", "-1e-36", "0.3333"]
SETTINGS: dict[str, list[Any]] = {
    "eps": ["0.125", "0", "1", "0.5", "1e-36", "1e36", "0.1", "3", "1e-5"], "depth": [1, 2, 3, 4, 5, 6, 8, 60, 200],
    "bisect": ["largest", "round"]}


class Systems:
    """Makes systems of a few variables, expressions over them, and settings."""

    def __init__(self, source: random.Random) -> None:
        self.source = source

    def number(self) -> str:
        return self.source.choice(PLAIN if self.source.random() < 0.7 else PLAIN + ODD)

    def expression(self, depth: int, names: Sequence[str]) -> str:
        kind, pick = self.source.randrange(12 if depth > 0 else 2), self.source.choice
        if kind < 2:
            return pick(names) if kind else self.number()
        inner = self.expression(depth - 1, names)
        if kind < 4:
            return f"{pick(['abs', 'sqr']) if kind == 3 else '-'}({inner})"
        if kind == 5:
            return f"({inner})^{pick([0, 1, 2, 3, 4, 5, 7, 8, 31, 32])}"
        sign = pick(["min", "max"] if kind == 4 else "//**+-")
        other = self.expression(depth - 1, names)
        return f"{sign}({inner}, {other})" if kind == 4 else f"({inner}) {sign} ({other})"

    def domain(self) -> str:
        low, high = sorted((self.source.choice(["", "-"]) + self.number() for _ in range(2)), key=Fraction)
        kinds = ["", f" in [-oo, {high}]", f" in [{low}, oo]", f" in [{low}, {low}]"]
        return self.source.choice(kinds) if self.source.random() < 0.25 else f" in [{low}, {high}]"

    def system(self) -> tuple[str, list[str], int]:
        """A text, the names of its variables, and the number of its constraints."""
        names = [f"x{i}" for i in range(self.source.choice([1, 1, 2, 2, 2, 3, 4]))]
        count = self.source.choice([1, 1, 2, 3])
        constraints = [f"{self.expression(self.source.randrange(4), names)} {self.source.choice(['=', '<=', '>=', '<', '>'])} "
                       f"{self.expression(self.source.randrange(3), names)}" for _ in range(count)]
        variables = ", ".join(name + self.domain() for name in names)
        return f"Variables {variables};\nConstraints {'; '.join(constraints)}; end\n", names, count

    def settings(self, count: int) -> dict[str, Any]:
        found = {name: self.source.choice(values) for name, values in SETTINGS.items()}
        programs = Programs(self.source, count, [1, 2, 3])
        found["contract"] = "prop(8)" if self.source.random() < 0.5 else programs.good(self.source.randrange(3))
        return found


class Comparison:
    """A system, its settings and a budget: the program's answers beside the reference's."""

    def __init__(self, folder: FolderTest, source: random.Random, made: tuple[str, list[str], int], settings: dict[str, Any],
                 budget: int, centered: bool) -> None:
        self.folder, self.source = folder, source
        self.settings, self.budget, self.centered = settings, budget, centered
        self.text, self.names, _ = made
        self.system = minibex.read(self.text)
        self.known = Call(self.system, canonical(self.text), centered, eps=Fraction(settings["eps"]), depth=settings["depth"],
                          bisector=settings["bisect"], contract=settings["contract"])
        for left in folder.path.iterdir():
            left.unlink()
        folder.put("s", self.text.encode())

    def name(self, command: str) -> str:
        return f"{command}-centered" if self.centered else command

    def is_as(self, wanted: Sequence[Any], *words: str) -> None:
        """The call has this answer; where leaves are open, several workers settle as many nodes as one."""
        options = (f"--{name}={value}" for name, value in self.settings.items())
        given = self.folder.answered(*words, *options)
        good = given == tuple(wanted[:3])
        if wanted[0] == 1 and words[0] in SETTLING and "--workers=1" not in words:
            good = (given[0], given[1].split()[:2], given[2]) == (1, wanted[1].split()[:2], b"")
        with self.folder.subTest(words=words, settings=self.settings, text=self.text):
            self.folder.assertTrue(good, f"{given} in place of {wanted[:3]}")

    def paved(self) -> bytes:
        """By one worker and by several, and stored; what is stored is honest by both."""
        boxes = f"--boxes={self.budget}"
        self.is_as(self.known.run(self.budget, None), self.name("run"), "s", boxes, "--workers=1")
        wanted = self.known.run(self.budget, "p")
        self.is_as(wanted, self.name("run"), "s", boxes, f"--workers={self.source.choice([2, 3, 16])}", "--out=p")
        stored = self.folder.get("p")
        if wanted[0] == 0:
            with self.folder.subTest(file_of=self.text):
                self.folder.assertEqual(stored, wanted[3])
        self.is_as(answer(lambda: self.known.audit("p", stored)), self.name("audit"), "s", "p")
        self.is_as((0, b"honest\n", b""), self.name("audit"), "s", "p")
        return stored

    def gone_on_with(self, stored: bytes) -> None:
        more = self.source.choice([1, 7, 30])
        self.is_as(answer(lambda: self.known.resume([("p", stored)], more, None)), "resume", "s", "p", f"--boxes={more}")
        self.is_as(answer(lambda: self.known.merge([("p", stored)] * 2, None)), "merge", "s", "p", "p")
        self.is_as(self.known.run(3 * self.budget, "k"), "campaign", "s", "--keep=k", f"--boxes={self.budget}", "--rounds=3")

    def searched(self) -> None:
        text = Systems(self.source).expression(self.source.randrange(4), self.names)
        lower, found, _, done = least.least(self.known.settler, least.expression(self.system, text), self.budget)
        lines = "".join(line + "\n" for line in least.printed(lower, found))
        self.is_as((0 if done else 1, lines.encode(), b""), "least", "s", f"--of={text}", f"--boxes={self.budget}")

    def drawn(self, stored: bytes) -> None:
        root = self.known.settler.root
        bounded = [i for i, ends in enumerate(root) if all(map(is_finite, ends))]
        if len(bounded) < 2:
            return
        x, y = self.source.sample(bounded, 2)
        levels = [self.source.choice(LEVELS) for _ in range(len(root) - 2)]
        numbers = [from_fraction(Fraction(text), DOWN) for text in levels]
        text = picture(self.known.read("p", stored), root, x, y, numbers)
        at = [f"--at={','.join(levels)}"] if levels else []
        self.is_as((0, text.encode(), b""), "svg", "s", "p", f"--x={self.names[x]}", f"--y={self.names[y]}", *at)

    def all(self) -> None:
        stored = self.paved()
        if not self.centered:
            self.gone_on_with(stored)
            self.searched()
            self.drawn(stored)


class FuzzSystems(FolderTest):
    """Commands on made systems beside the reference."""

    def test_systems(self) -> None:
        deepest = sys.getrecursionlimit()
        self.addCleanup(sys.setrecursionlimit, deepest)
        sys.setrecursionlimit(max(deepest, 20_000))
        count, seed = made_cases(40)
        source = random.Random(seed)
        systems = Systems(source)
        for _ in range(count):
            made = systems.system()
            budget = source.choice([1, 2, 3, 5, 10, 25, 40])
            Comparison(self, source, made, systems.settings(made[2]), budget, source.random() < 0.3).all()


if __name__ == "__main__":
    main()
