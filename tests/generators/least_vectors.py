#!/usr/bin/env python3
"""Writes the table of least values: systems whose least value is known, and what a search tells of it.

The known value was worked out by hand. What the search tells comes from the reference paver. Here it
is looked at that the known value lies between both bounds, and that no member that is drawn has a
value below the lower one.

Writes crates/test_values/src/table.rt.
"""
from __future__ import annotations

import random
from fractions import Fraction
from typing import Any, Union

from tests.generators.case_table import write
from tests.reference import least, minibex
from tests.reference.kinds import Expression, Value
from tests.reference.numbers import NEG_INF, POS_INF, as_fraction, is_finite, spelling
from tests.reference.paver import Settler

Known = Union[int, Fraction, str]  # the least value, or what there is in its place
Answer = Any  # what a search found, as least.least gives it

NONE, UNBOUNDED, HUGE = "Nowhere", "Unbounded", "Huge"
X4, X10 = "x in [-4,4]", "x in [-10,10]"
XY = "x in [-4,4], y in [-4,4]"

GROUPS: dict[str, list[tuple[Any, ...]]] = {
    "QUADRATICS": [
        ("x in [0,4]", "x <= 1", "2*x+1", 40, 1),
        (X4, "x >= -3", "x^2", 40, 0),
        (X4, "x >= 1", "x^2", 40, 1),
        (X10, "x <= 2", "(x-3)^2", 40, 1),
        (XY, "x+y >= 2", "x^2+y^2", 200, 2),
        ("x in [-8,8], y in [-8,8]", "x^2+y^2 <= 25", "3*x+4*y", 300, -25),
        (XY, "x^2+y^2 <= 4", "x", 200, -2),
        ("x in [0,4]", "x <= 4", "x^2-2*x", 40, -1),
        ("x in [-10,10], y in [-10,10]", "x <= 10", "x^2-4*x+y^2+6*y", 60, -13),
        (X4, "abs(x) <= 2", "x^4-2*x^2", 60, -1),
        (XY, "x = 1; y >= x", "x^2+y", 40, 2),
    ],
    "PRODUCTS": [
        ("x in [1,3], y in [1,3]", "x+y <= 4", "x*y", 100, 1),
        ("x in [-2,3], y in [-2,3]", "x <= 3", "x*y", 40, -6),
        ("x in [0,2], y in [0,2], z in [0,2]", "x+y+z >= 5", "x*y*z", 120, 4),
        ("x in [0,5]", "x >= 1; x <= 4", "x*(5-x)", 40, 4),
        ("x in [-2,2], y in [-2,2]", "x^2+y^2 <= 2", "x*y", 200, -1),
        ("x in [-2,2], y in [-2,2]", "x*y = 1; x >= 0", "x+y", 200, 2),
        ("x in [-1,2]", "x <= 2", "max(x,-x)", 40, 0),
        ("x in [0,4]", "x >= 0", "abs(x-1)+abs(x-2)", 60, 1),
        (XY, "x+y >= 2", "max(x,y)", 150, 1),
        (XY, "x >= y; y >= 1", "min(x,y+2)", 60, 1),
    ],
    "QUOTIENTS": [
        ("x in [1,4]", "x >= 1", "1/x", 20, Fraction(1, 4)),
        ("x in [-1,1]", "x >= -1", "1/x", 20, UNBOUNDED),
        ("x in [0,4]", "x >= 0", "1/x", 20, Fraction(1, 4)),
        ("x in [-4,-1]", "x <= -1", "1/x", 20, -1),
        ("x in [1,2], y in [1,2]", "x+y <= 4", "x/y", 30, Fraction(1, 2)),
        ("x in [1,8]", "x >= 1", "(x^2+4)/x", 60, 4),
        ("x in [-2,2]", "x >= -2", "x/(x^2+1)", 60, Fraction(-1, 2)),
        ("x in [0,2]", "x >= 1", "1/(x-1)", 20, 1),
        ("x in [0,2]", "x <= 2", "1/(x-1)", 20, UNBOUNDED),
        ("x in [0,1]", "x >= 0", "x/x", 20, 1),
        ("x in [-1,1]", "x >= -1", "1/(x^2-4)", 20, Fraction(-1, 3)),
        ("x in [0,1]", "1/x >= 2", "x+1/x", 30, Fraction(5, 2)),
    ],
    "UNBOUNDED_SETS": [
        ("x", "x >= 0", "x", 20, 0),
        ("x", "x >= 0", "-x", 20, UNBOUNDED),
        ("x", "x^2 >= 1", "x^2", 40, 1),
        ("x, y", "x >= y; y >= 1", "x+y", 60, 2),
        ("x", "x <= 3", "abs(x)", 40, 0),
        ("x", "x >= 2", "1/x", 40, 0),
        ("x", "x >= (2^25)^4", "x^6", 10, HUGE),
        ("x in [0,1e31]", "x >= (2^25)^4; x <= 2*(2^25)^4", "x^6", 10, HUGE),
        ("x, y", "x*y >= 4; x >= 1", "x+y", 60, 4),
    ],
    "EMPTY_AND_UNDEFINED": [
        ("x in [0,1]", "x*x = 2", "x", 10, NONE),
        ("x in [0,1], y in [0,1]", "x+y >= 3", "x*y", 10, NONE),
        ("x in [0,1]", "x < 0", "x^2", 10, NONE),
        ("x in [0,1]", "x <= 1", "1/0", 10, NONE),
        ("x in [0,4]", "x <= 0", "1/x", 10, NONE),
        ("x in [0,4]", "x <= 4", "1/(x-x)", 10, NONE),
        ("x in [-1,1], y in [-1,1]", "x^2+y^2 <= -1", "x/y", 10, NONE),
        ("x in [-4,4]", "x^2 = 2; x <= 0", "x^2", 60, 2),
    ],
}


def members(system: minibex.System, count: int, spread: Fraction = Fraction(40)) -> list[list[Fraction]]:
    """Rational members, drawn from the domains."""
    source, found = random.Random(7), []
    for _ in range(count):
        point = []
        for lo, hi in system.domains:
            lo, hi = (Fraction(end) if abs(end) != POS_INF else spread * (1 if end > 0 else -1) for end in (lo, hi))
            d = source.choice((1, 3, 8, 64, 1000))
            point.append(lo + (hi - lo) * Fraction(source.randint(0, 12 * d), 12 * d))
        if all(minibex.holds(c, point) for c in system.constraints):
            found.append(point)
    return found


def looked_at(text: str, system: minibex.System, e: Expression, known: Known, answer: Answer) -> None:
    lower, found = answer[0], answer[1]
    for point in members(system, 10_000):
        v = minibex.value(e, point)
        assert v is None or not is_finite(lower) and lower < 0 or as_fraction(lower) <= v, (text, point)
    if isinstance(known, (int, Fraction)):
        assert lower == NEG_INF or as_fraction(lower) <= known, text
        assert found is None or found[0] == POS_INF or known <= as_fraction(found[0]), text
    if known == NONE:
        assert found is None, text
    if known == UNBOUNDED:
        assert lower == NEG_INF, text
    if known == HUGE:
        assert found[0] == POS_INF, text


def told(lower: Value, found: tuple[Value, list[Value]] | None, settled: int, done: bool) -> str:
    """What a search found, as a line of words."""
    words = ["lower", spelling(lower)]
    if found is not None:
        words += ["upper", spelling(found[0]), "point", *map(spelling, found[1])]
    return " ".join([*words, "settled", str(settled), "done" if done else "open"])


def row(text: str, of: str, budget: int, known: Known, answer: Answer) -> str:
    if isinstance(known, (int, Fraction)):
        known = f"At({Fraction(known).numerator}, {Fraction(known).denominator})"
    fields = [f'"{text}"', f'"{of}"', str(budget), known, f'"{told(*answer)}"']
    return "    (\n" + "".join(f"        {field},\n" for field in fields) + "    ),"


def worked(domains: str, constraints: str, of: str, budget: int, known: Known) -> tuple[str, str, int, Known, Answer]:
    text = f"Variables {domains}; Constraints {constraints}; end"
    system = minibex.read(text)
    e = least.expression(system, of)
    answer = least.least(Settler(system), e, budget)
    looked_at(text, system, e, known, answer)
    return text, of, budget, known, answer


HEADING = """//! Systems with known least values. Written by tests/generators/least_vectors.py: change them there.
use crate::values::Case;
use crate::values::Known::{At, Huge, Nowhere, Unbounded};
"""

if __name__ == "__main__":
    groups = {name: [worked(*case) for case in cases] for name, cases in GROUPS.items()}
    write("test_values", HEADING, groups, row)
