"""Calls the real binary with made words, contractor texts and objectives, good and broken.

    [COUNT=600 SEED=1] python3 -m tests.runners.fuzz_words

A contractor text and an objective have to be refused at the byte that the reference says, or else to answer what the
reference does. Good words of each command, in any order and with either spelling of an option, have to answer what the
same call answers in its plain form; words with a limit and a form what the reference does; words with one thing wrong
end with the usage line. A call that differs is printed with both answers.
"""
from __future__ import annotations

import random
import sys
from collections.abc import Callable, Iterable, Iterator, Sequence
from fractions import Fraction
from typing import Any

from paver import commands
from tests.data.cases import USAGE, system
from tests.reference import least, minibex
from tests.reference.commands import Call, answer
from tests.reference.faults import first_expression_fault
from tests.reference.kinds import Answer
from tests.reference.programs import refused_at
from tests.runners.fuzz_reader import Maker
from tests.runners.paving_files import call
from tests.runners.running import Answered, FolderTest, made_cases, main

CONSTRAINTS = 3
SYSTEM = system("x in [0,4], y in [0,4]", "x + y <= 4; x >= 1; y^2 <= x")
NAMES = ["hc4", "prop", "fix", "compose", "union", "qinter"]
PIECES = ["(", ")", ",", "0", "1", "2", "3", "64", "65", "256", "257", "00", "01", "-1", "1.0", " ", "\n", "hc", "hc4x",
          "Prop", "8a", "\u00e9", "((", "()", ",,", "9" * 30] + NAMES


class Programs:
    """Makes contractor texts for a system of so many constraints, with lists of these lengths."""

    def __init__(self, source: random.Random, constraints: int, lengths: Sequence[int]) -> None:
        self.source, self.constraints, self.lengths = source, constraints, lengths

    def good(self, depth: int) -> str:
        kind = self.source.choice(NAMES if depth else NAMES[:2])
        if kind == "hc4":
            return f"hc4({self.source.randrange(self.constraints)})"
        if kind == "prop":
            return f"prop({self.source.choice([1, 2, 8, 64])})"
        if kind == "fix":
            return f"fix({self.source.choice([1, 3, 64])},{self.good(depth - 1)})"
        parts = [self.good(depth - 1) for _ in range(self.source.choice(self.lengths))]
        head = f"{self.source.randint(1, len(parts))}," if kind == "qinter" else ""
        return f"{kind}({head}{','.join(parts)})"

    def broken(self, text: str) -> str:
        for _ in range(self.source.choice([1, 1, 2])):
            at = self.source.randrange(len(text) + 1)
            to = min(len(text), at + self.source.choice([0, 0, 1, 1, 2, 6]))
            text = text[:at] + self.source.choice(PIECES + [""]) + text[to:]
        return text[:self.source.randrange(len(text) + 1)] if self.source.random() < 0.1 else text

    def limits(self) -> Iterator[str]:
        for count in (255, 256, 257, 400):
            yield "union(" + ",".join(["hc4(0)"] * (count - 1)) + ")"
            yield "fix(1," * (count - 1) + "hc4(0)" + ")" * (count - 1)
            yield f"qinter({count}," + ",".join(["hc4(0)"] * 200) + ")"
        for bytes_ in (4095, 4096, 4097, 5000):
            yield "prop(8)" + ")" * (bytes_ - 7)
            yield "(" * bytes_

    def texts(self, count: int) -> Iterator[str]:
        yield from self.limits()
        for _ in range(count):
            text = self.good(self.source.randrange(4))
            yield text if self.source.random() < 0.2 else self.broken(text)


# The least and the most paving files of a command, the options that it wants, and those that it may have.
PAVINGS = {"SYSTEM": (0, 0), "SYSTEM PAVING": (1, 1), "SYSTEM PAVING..": (1, 8)}
COMMANDS = {name: (PAVINGS[told.files], [*told.needs], [option for option in told.options if option not in (*told.needs, "at")])
            for name, told in commands.COMMANDS.items() if told.files}


class Words:
    """Makes the words of a call, as options with their values and in their plain form. The budget is always enough, since
    several workers settle other leaves each time where it isn't."""

    VALUES = {"eps": ["0.5", "1", "2", "1e0", "0.25", "100"], "depth": ["1", "5", "60", "200", "0000000007"],
              "bisect": ["largest", "round"], "contract": ["prop(8)", "prop(1)", "hc4(0)", "union(hc4(0),hc4(1))"],
              "workers": ["1", "2", "16"], "boxes": ["5000", "20000", "100000"], "out": ["o"], "x": ["x"], "y": ["y"],
              "limit": ["100000", "100001", "0000250000"], "form": ["plain", "centered"],
              "of": ["x+y", "-x*y", "sqr(x-1)"], "keep": ["k"], "rounds": ["1", "2", "100", "0000000003"],
              "order": ["depth", "level"], "share": ["0/1", "1/3", "0000000002/0001000000"]}
    BAD = {"eps": ["", "-1", "+1", "x", "1e", "0x1", "1 ", " 1", ".5", "1e37", "oo", "1/2"],
           "depth": ["0", "201", "-1", "", "1.0", "00000000001", "x", "4294967297"],
           "bisect": ["", "Largest", "rounds", "both"], "workers": ["0", "17", "", "1e0", "-2"],
           "boxes": ["0", "100001", "", "99999999999", "1_000"], "form": ["", "Plain", "both", "centred"],
           "limit": ["0", "99999", "100000001", "", "99999999999", "1e5", "-1", "100_000"],
           "out": ["s", "/dev/stdout", "/dev/fd/1", "/proc/self/fd/1"],
           "rounds": ["0", "101", "", "-1", "+1", "1.0"], "order": ["", "Depth", "levels", "breadth"],
           "share": ["", "1", "1/1", "2/1", "0/0", "0/1000001", "-1/2", "0/1/1", "/1", "0/", "00000000000/1", "0 /1"]}

    def __init__(self, source: random.Random) -> None:
        self.source = source

    def spelled(self, name: str, value: str) -> list[str]:
        if value.startswith("-") or self.source.random() < 0.5:
            return [f"--{name}={value}"]
        return [f"--{name}", value]

    def options(self, wanted: Iterable[str], others: Sequence[str]) -> dict[str, str]:
        chosen = self.source.sample(sorted(others), self.source.randrange(min(5, len(others) + 1)))
        found = {name: self.source.choice(self.VALUES[name]) for name in [*wanted, *chosen]}
        if "limit" in found and "boxes" in found and self.source.random() < 0.5:
            found["boxes"] = found["limit"]  # the greatest budget follows the limit
        return found

    def positional(self, pavings: tuple[int, int]) -> list[list[str]]:
        return [["s"], *([self.source.choice("pq")] for _ in range(self.source.randint(pavings[0], min(3, pavings[1]))))]

    def shuffled(self, groups: Sequence[list[str]], places: Sequence[list[str]] = ()) -> list[str]:
        """The groups in any order, the places in their own among them."""
        order: list[list[str] | None] = [*[None] * len(places), *groups]
        self.source.shuffle(order)
        rest = iter(places)
        return [word for group in order for word in (next(rest) if group is None else group)]

    def good(self) -> tuple[list[str], list[str]]:
        """Words of a good call, and the same in its plain form."""
        command = self.source.choice(["run", *COMMANDS])
        pavings, wanted, others = COMMANDS[command]
        options, places = self.options(wanted, others), self.positional(pavings)
        groups = [self.spelled(name, value) for name, value in options.items()]
        words = self.shuffled(groups, places)
        if self.source.random() < 0.2:
            words = self.shuffled(groups) + ["--", *(word for place in places for word in place)]
        plain = [f"--{name}={options[name]}" for name in sorted(options)]
        return [command, *words], [command, *(word for place in places for word in place), *plain]

    def bad(self) -> list[str]:
        """Words of a good call with one thing wrong."""
        command = self.source.choice(["run", *COMMANDS])
        pavings, wanted, others = COMMANDS[command]
        options, places = self.options(wanted, others), self.positional(pavings)
        known = [*wanted, *others]
        kind = self.source.choice([0, 1, 2, 3, 4, 5, 6, 7, 8] if known else [2, 3, 5, 6, 8])
        judged = [name for name in known if name in self.BAD]
        if kind == 0 and judged:
            name = self.source.choice(judged)
            options.pop(name, None)
            value = self.source.choice(self.BAD[name])
            if name == "boxes" and "limit" in options:
                value = str(int(options["limit"]) + 1)
            wrong = [f"--{name}={value}"]
            return [command, *self.shuffled([*self.groups(options), wrong], places)]
        if kind in (0, 1) and known:
            name = self.source.choice(known)
            options.pop(name, None)
            twice = [self.spelled(name, self.source.choice(self.VALUES[name])) for _ in range(2)]
            return [command, *self.shuffled(self.groups(options) + twice, places)]
        if kind == 2:
            odd = self.source.choice(["--verbose", "--e=1", "-e", "--Eps=1", "--z=a", "--round=1", "--help", "--seed=1",
                                      "--eps1=2", "--version", "-h"])
            return [command, *self.shuffled(self.groups(options) + [[odd]], places)]
        if kind == 3:
            places = self.source.choice([places[:pavings[0]], [["s"], *[["p"]] * (pavings[1] + 1)]])
            return [command, *self.shuffled(self.groups(options), places)]
        if kind == 4:
            return [command, *self.shuffled(self.groups(options), places), f"--{self.source.choice(known)}"]
        if kind == 5:
            names = ["Run", "runs", "", "ru", "--run", "help", "run ", "run-", "run_centered", "audits"]
            return [self.source.choice(names), *self.shuffled(self.groups(options), places)]
        if kind == 6:
            return [command, *self.shuffled(self.groups(options), places), "--", *["--eps=1"] * 9]
        foreign = sorted(set(self.VALUES) - set(known))
        if kind == 7 and wanted:
            options.pop(self.source.choice(wanted))
        elif foreign:
            name = self.source.choice(foreign)
            options[name] = self.VALUES[name][0]
        return [command, *self.shuffled(self.groups(options), places)]

    def groups(self, options: dict[str, str]) -> list[list[str]]:
        return [self.spelled(name, value) for name, value in options.items()]

    def bytes_that_are_no_text(self) -> list[bytes]:
        words = [word.encode() for word in self.good()[0]]
        at = self.source.randrange(1, len(words) + 1)
        return words[:at] + [self.source.choice([b"\xff", b"--eps=\xc3", b"s\x80"])] + words[at:]


READ = minibex.read(SYSTEM.decode())


def known(**settings: Any) -> Call:
    return call(SYSTEM, **{"eps": Fraction(1, 8)} | settings)


def objectives(source: random.Random, count: int) -> Iterator[str]:
    """Texts of expressions over two variables, and what is left of them when a piece is exchanged."""
    maker = Maker(source)
    yield from ("", "x", "y+", "(" * 101 + "x", "x" + "+1" * 1000, "x" + "+1" * 1001, "x^33", "z", "x y", "x;", "x<=1")
    for _ in range(count):
        text = maker.expression(3, ["x", "y"])
        yield text if source.random() < 0.3 else maker.broken(text)


class FuzzWords(FolderTest):
    """Calls with made words, each beside the reference's or its plain form."""

    def setUp(self) -> None:
        super().setUp()
        deepest = sys.getrecursionlimit()
        self.addCleanup(sys.setrecursionlimit, deepest)
        sys.setrecursionlimit(max(deepest, 20_000))
        self.count, seed = made_cases(600)
        self.source, self.wide = random.Random(seed), known(eps=Fraction(4)).settler
        self.put("s", SYSTEM)
        for paving, budget in (("p", 3), ("q", 9)):
            self.put(paving, known().run(budget, "o")[3] or b"")

    def answer(self, words: Sequence[str] | Sequence[bytes]) -> Answered:
        """The answer of a call that finds no campaign."""
        for kept in self.path.glob("k*"):
            kept.unlink()
        return self.answered(*words)

    def is_as(self, wanted: Answered, words: Sequence[str] | Sequence[bytes]) -> None:
        with self.subTest(words=words):
            self.assertEqual(self.answer(words), wanted)

    def program_text(self, text: str) -> None:
        place = refused_at(text.encode(), CONSTRAINTS)
        wanted = known(contract=text).run(1, None)[:3] if place is None else (
            2, b"", f"contract: refused at byte {place}\n".encode())
        self.is_as(wanted, ["run", "s", "--boxes=1", "--eps=0.125", f"--contract={text}"])

    def least(self, text: str) -> Answered:
        lower, found, _, done = least.least(self.wide, least.expression(READ, text), 1)
        lines = "".join(line + "\n" for line in least.printed(lower, found))
        return 0 if done else 1, lines.encode(), b""

    def objective(self, text: str) -> None:
        fault = first_expression_fault(text.encode(), ["x", "y"])
        wanted = self.least(text) if fault is None else (2, b"", "objective: byte {}: {}\n".format(*fault).encode())
        self.is_as(wanted, ["least", "s", "--boxes=1", "--eps=4", f"--of={text}"])

    def limited(self) -> None:
        """Words with a limit, a form, an order or a share, beside the reference's answer."""
        source = self.source
        limit, centered = source.choice([100_000, 100_001, 100_003, 100_009, 250_000]), source.random() < 0.5
        said = known(eps=Fraction(1), centered=centered, limit=limit)
        paving = source.choice("lc")
        named = [(paving, (self.path / paving).read_bytes())]
        boxes = source.choice([5, limit - 3, limit - 1, limit])
        words = [f"--limit={limit}", f"--form={'centered' if centered else 'plain'}", "--eps=1"]
        budget, order = [f"--boxes={boxes}", "--workers=1"], source.choice(["depth", "level"])
        number, of = source.choice([(0, 1), (0, 2), (1, 2), (2, 3), (0, 1_000_000)])
        calls: list[tuple[str, Callable[[], Answer], list[str], list[str]]] = [
            ("run", lambda: said.run(boxes, None, order), [*budget, f"--order={order}"], []),
            ("resume", lambda: said.resume(named, boxes, None, order), [*budget, f"--order={order}"], [paving]),
            ("resume", lambda: said.resume(named, boxes, None, share=(number, of)), [*budget, f"--share={number}/{of}"],
             [paving]),
            ("merge", lambda: said.merge(named, None), [], [paving]),
            ("audit", lambda: said.audit(*named[0]), [], [paving])]
        command, work, more, places = source.choice(calls)
        self.is_as(answer(work)[:3], [command, *source.sample(words + more, len(words + more)), "s", *places])

    def test_contractor_texts(self) -> None:
        for text in Programs(self.source, CONSTRAINTS, [1, 2, 3, 5]).texts(self.count // 4):
            self.program_text(text)

    def test_objectives(self) -> None:
        for text in objectives(self.source, self.count // 4):
            self.objective(text)

    def test_limits_and_forms(self) -> None:
        for paving, centered in (("l", False), ("c", True)):
            self.put(paving, known(eps=Fraction(1), centered=centered).run(3, "o")[3] or b"")
        for _ in range(self.count // 6):
            self.limited()

    def test_good_words(self) -> None:
        words = Words(self.source)
        for _ in range(self.count // 4):
            made, plain = words.good()
            self.is_as(self.answer(plain), made)

    def test_bad_words(self) -> None:
        words = Words(self.source)
        for _ in range(self.count // 4):
            self.is_as((2, b"", USAGE), words.bad())
        for _ in range(10):
            self.is_as((2, b"", USAGE), words.bytes_that_are_no_text())


if __name__ == "__main__":
    main()
