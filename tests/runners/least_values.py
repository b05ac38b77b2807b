"""Asks the real binary for least values that are known, and looks at its answers by exact fractions.

    [ONLY=WORD] python3 -m tests.runners.least_values

asks for the systems whose texts contain ONLY. Each one's least value was worked out by hand, and lies between both
printed bounds. No rational member that is drawn has a value below the lower bound. A printed point is a member at which the
expression is defined, and its value is at most the upper bound. Lines and status are those of the plain paver. The examples
are asked with growing budgets, as the gallery shows them.
"""
from __future__ import annotations

import os
from collections.abc import Sequence
from fractions import Fraction

from tests.data.examples import LEAST, least_answers
from tests.generators.least_vectors import GROUPS, HUGE, NONE, UNBOUNDED, Known, members
from tests.reference import least, minibex
from tests.reference.kinds import Expression, Value
from tests.reference.numbers import NEG_INF, POS_INF, as_fraction, is_finite
from tests.reference.paver import Settler
from tests.runners.running import TOP, FolderTest, main, rows, run
from tests.runners.soundness import end

DRAWN = 2000  # points of one system; those that are members are looked at
MEMBERS = 10_000  # so many of all systems at least


def is_above(number: Value, value_there: Fraction | int) -> bool:
    """Whether a number of the format is above a value."""
    return number == POS_INF or is_finite(number) and value_there < as_fraction(number)


def read(text: bytes) -> tuple[Value, tuple[Value, list[Value]] | None]:
    """The bounds of printed lines: the lower one, and the upper one with its point, or None."""
    lines = [line.split(" ") for line in text.decode().splitlines()]
    lower = end(lines[0][1])
    if lines[1] == ["upper", "none"]:
        return lower, None
    return lower, (end(lines[1][1]), [end(word) for word in lines[2][1:]])


class LeastValues(FolderTest):
    """Searches for least values, their bounds and points."""

    def test_known(self) -> None:
        cases = [case for group in GROUPS.values() for case in group]
        looked = 0
        for name, case in rows((f"{case[1]}: {case[2]}", case) for case in cases):
            with self.subTest(name):
                looked += self.check_case(*case)
        print(f"{looked} members looked at")
        if not os.environ.get("ONLY"):
            self.assertGreaterEqual(looked, MEMBERS)

    def test_examples(self) -> None:
        answers = least_answers()
        for title, name, words in rows((" ".join([name, *words]), name, words) for name, words in LEAST):
            with self.subTest(title):
                answer = run(TOP, "least", TOP / "examples" / f"{name}.mbx", *words)
                given = " ".join([str(answer.returncode), *answer.stdout.decode().split()])
                self.assertEqual((given, answer.stderr), (answers[name, tuple(words)], b""))

    def check_case(self, domains: str, constraints: str, of: str, budget: int, known: Known) -> int:
        """The answer to a case; gives how many members were looked at."""
        text = f"Variables {domains}; Constraints {constraints}; end"
        system = minibex.read(text)
        e = least.expression(system, of)
        self.put("s", text.encode())
        answer = self.answered("least", "s", f"--of={of}", f"--boxes={budget}")
        lower, found, _, done = least.least(Settler(system), e, budget)
        wanted = "".join(f"{line}\n" for line in least.printed(lower, found)).encode()
        self.assertEqual(answer, (0 if done else 1, wanted, b""))
        lower, found = read(answer[1])
        self.check_known(lower, found, known)
        if found is not None:
            self.check_point(system, e, *found)
        return self.check_members(system, e, lower)

    def check_known(self, lower: Value, found: tuple[Value, list[Value]] | None, known: Known) -> None:
        """The known least value lies between the bounds."""
        if known == NONE:
            self.assertIsNone(found, "no member has a value")
        elif known == UNBOUNDED:
            self.assertEqual(lower, NEG_INF, "there is no lower bound")
        elif known == HUGE:
            self.assertTrue(found is None or found[0] == POS_INF, "an upper bound below all values")
        else:
            value = Fraction(known)
            self.assertFalse(is_above(lower, value), "the least value is below the lower bound")
            self.assertFalse(found is not None and found[0] != POS_INF and as_fraction(found[0]) < value,
                             "the upper bound is below the least value")

    def check_point(self, system: minibex.System, e: Expression, upper: Value, point: Sequence[Value]) -> None:
        """The point is a member with a value that is at most the upper bound."""
        there = [as_fraction(n) for n in point]
        self.assertTrue(all(minibex.holds(c, there) for c in system.constraints), "the point is no member")
        found = minibex.value(e, there)
        self.assertIsNotNone(found, "the expression has no value at the point")
        self.assertTrue(upper == POS_INF or found is not None and found <= as_fraction(upper),
                        "the point's value is above the upper bound")

    def check_members(self, system: minibex.System, e: Expression, lower: Value) -> int:
        """No drawn member lies below the lower bound; gives how many were looked at."""
        looked = 0
        for point in members(system, DRAWN):
            looked += 1
            found = minibex.value(e, point)
            self.assertFalse(found is not None and is_above(lower, found), f"the value at {point} is below the lower bound")
        return looked


if __name__ == "__main__":
    main()
