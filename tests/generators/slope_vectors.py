#!/usr/bin/env python3
"""Cases of slopes and centered forms, on boxes of two variables, and of boxes settled by them, worked out by the plain paver of
tests/reference, which computes on whole numbers and shares nothing with the program.

Writes crates/test_ranges/src/table.rt.
"""
from __future__ import annotations

from fractions import Fraction

from tests.generators.case_table import ends, table, write
from tests.reference import minibex
from tests.reference.kinds import Box, Interval
from tests.reference.numbers import DOWN, UP, as_fraction, is_finite
from tests.reference.paver import Constraint, bound
from tests.reference.slopes import Centered, CenteredSettler, gap, ranged

# x, y, constraint: ten cases a group
GROUPS = {
    "SUMS_AND_PRODUCTS": [
        ("[0,1]", "[0,1]", "x - x <= 0"),
        ("[0,4]", "[1,3]", "x + y - x >= 2"),
        ("[-1,3]", "[2,5]", "x * y - y * x = 0"),
        ("[1,2]", "[1,2]", "x * y - x - y <= 0"),
        ("[0.1,0.3]", "[0.1,0.7]", "x * (y - x) + x * x = 1"),
        ("[-2,2]", "[-2,2]", "x * x - y * y >= x - y"),
        ("[3,3]", "[1,1]", "x * y - 3 <= 0"),
        ("[1,1.25]", "[2,2.25]", "x * y * x * y - 7 = x"),
        ("[-1,0]", "[0,1]", "-x * y + x <= 2 * x * y"),
        ("[1e9,1000000001]", "[-1e9,0]", "x * y - y * x <= 0.1"),
    ],
    "QUOTIENTS": [
        ("[1,2]", "[1,2]", "x / y - x = 0"),
        ("[1,2]", "[1,2]", "x / x <= 1"),
        ("[1,2]", "[-3,-2]", "x / y + y / x >= 0"),
        ("[0.5,0.75]", "[1,3]", "(x + y) / (x - y - 3) <= 0.1"),
        ("[-2,-1]", "[4,5]", "(x * y) / (y * y) - x / y = 0"),
        ("[1,2]", "[-1,1]", "x / y <= 1"),
        ("[1,2]", "[0,1]", "x / y >= 1"),
        ("[1,2]", "[0,0]", "x / y >= 1"),
        ("[0,0]", "[-1,1]", "x / y = 0"),
        ("[1,2]", "[3,4]", "1 / x - 1 / y - (y - x) / (x * y) = 0"),
    ],
    "POWERS": [
        ("[-2,3]", "[0,1]", "x^0 - y^0 = 0"),
        ("[-2,3]", "[0,1]", "x^1 - x + y^1 <= 1"),
        ("[-1,3]", "[0,1]", "x^2 - x * x <= y"),
        ("[1,2]", "[1,2]", "x^2 - 2 * x * y + y^2 >= 0"),
        ("[-1,2]", "[0,1]", "x^3 - x <= y^3"),
        ("[0.9,1.1]", "[0.1,0.3]", "x^4 - x^3 + y^2 = 0.25"),
        ("[-1.5,-1]", "[2,3]", "x^5 + y^5 - x^4 * y >= 0"),
        ("[-0.5,0.5]", "[-0.5,0.5]", "(x + y)^5 - x^5 = y"),
        ("[1,1.001]", "[1,1.001]", "x^32 - y^32 <= 0"),
        ("[-3,-2]", "[0.3,0.4]", "(x * y)^4 - (x + 1)^2 = 1"),
    ],
    "SIZES_AND_CHOICES": [
        ("[1,2]", "[0,1]", "abs(x) - x <= 0"),
        ("[-2,-1]", "[0,1]", "abs(x) + x <= 0"),
        ("[-1,2]", "[0,1]", "abs(x) - x <= y"),
        ("[-1,1]", "[-1,1]", "abs(x - y) - abs(y - x) = 0"),
        ("[0,1]", "[2,3]", "min(x, y) - x <= 0"),
        ("[2,3]", "[0,1]", "min(x, y) - y <= 0"),
        ("[0,2]", "[1,3]", "min(x, y) - x <= 0"),
        ("[0,1]", "[1,3]", "max(x, y) - y <= 0"),
        ("[1,3]", "[0,1]", "max(x, y) - x <= 0"),
        ("[0,2]", "[1,3]", "max(x, y) + min(x, y) - x - y = 0"),
    ],
    "ENDS": [
        ("[0,+oo]", "[0,1]", "x - x <= 0"),
        ("[0,1]", "[-oo,+oo]", "x * y - y * x <= 0"),
        ("[-oo,0]", "[1,2]", "x / y <= 0"),
        ("[0,1e9]", "[0,1]", "x^32 - x^32 * y <= 0"),
        ("[0,1]", "[0,1e30]", "y^5 * y^5 - x <= 0"),
        ("[0,0]", "[0,0]", "x * y + x = y"),
        ("[0.1,0.1]", "[0.3,0.3]", "x + x + x = y"),
        ("[-1,1]", "[2,4]", "(x - x) / y <= 0"),
        ("[1,2]", "[1,2]", "(x - x) / (y - y + 1) = 0"),
        ("[1,2]", "[1,2]", "y / (x - x + 0.5) = 0"),
    ],
    "SYSTEMS": [
        ("[0,1]", "[0,1]", "x^2 + 3 * x * y - y + 0.5 - x * y >= 0"),
        ("[0.25,0.5]", "[0.25,0.5]", "x^3 * y + 2 * x^2 - y * x + y^2 - 0.3 = 0"),
        ("[1,1.5]", "[-0.5,0]", "(x^2 + y^2)^2 - 2 * (x^2 - y^2) <= 0"),
        ("[-0.1,0.1]", "[-0.1,0.1]", "x * (1 - x) * (1 + x) - y * (1 - y) * (1 + y) = 0"),
        ("[2,2.5]", "[3,3.5]", "(x - 2) * (y - 3) / (x * y - 1) >= x - y"),
        ("[0,2]", "[0,2]", "min(x * y, x + y) - max(x - y, x * x) <= 1"),
        ("[0.3,0.7]", "[0.1,0.9]", "abs(x - 0.5) * abs(y - 0.5) - (x - 0.5) * (y - 0.5) <= 0"),
        ("[1,3]", "[1,3]", "x / (x + y) + y / (x + y) = 1"),
        ("[0.4,0.6]", "[0.4,0.6]", "(1 - x)^3 + 3 * x * (1 - x)^2 * y + x^3 > 0.2"),
        ("[-4,-3]", "[-2,-1]", "x^2 * y^2 - (x * y)^2 < 1"),
    ],
}

# x, constraints, program, depth left: what the box is settled as
SETTLED = [
    ("[0,1]", "x - x <= 0", "prop(8)", 60),
    ("[0,1]", "x - x = 0.25", "hc4(0)", 60),
    ("[0,1]", "x - x <= -0.25", "hc4(0)", 60),
    ("[0,1]", "x - x < 0", "hc4(0)", 60),
    ("[0,1]", "x - x >= 0", "hc4(0)", 60),
    ("[0,1]", "x - x > 0", "hc4(0)", 60),
    ("[0,1]", "x * x - x <= 2", "hc4(0)", 60),
    ("[0,1]", "x - x = 0; x - x = 1", "compose(hc4(0),hc4(1))", 60),
    ("[0,1]", "x - x = 0; x - x = 1", "union(hc4(0),hc4(1))", 60),
    ("[0,1]", "x - x = 0; x - x = 1", "union(hc4(1),hc4(1))", 60),
    ("[0,1]", "x - x = 0; x - x = 1; x - x = 0.5", "qinter(2,hc4(0),hc4(1),hc4(2))", 60),
    ("[0,1]", "x - x = 0; x - x = 1; x >= 0", "qinter(2,hc4(0),hc4(1),hc4(2))", 60),
    ("[0,1]", "x - x = 0; x - x = 1; x >= 0", "qinter(3,hc4(0),hc4(1),hc4(2))", 60),
    ("[0,1]", "x - x = 0; x - x = 1", "fix(3,hc4(1))", 60),
    ("[0,1]", "x - x = 0; x >= 0.5", "prop(2)", 60),
    ("[0,1]", "x * x - x <= -0.125", "hc4(0)", 60),
    ("[0,1]", "x * x - x <= -0.125", "hc4(0)", 0),
    ("[0.1,0.1]", "x * x - x <= -0.09", "hc4(0)", 60),
    ("[0,+oo]", "x - x <= 0", "hc4(0)", 60),
    ("[2,3]", "x / x = 1", "hc4(0)", 60),
]


def held(value: Fraction, interval: Interval) -> bool:
    low, high = interval
    return not (is_finite(low) and value < as_fraction(low)) and not (is_finite(high) and value > as_fraction(high))


def check(constraint: Constraint, box: Box, found: tuple[Interval, bool] | None) -> None:
    """The values at some rational points lie in what was found."""
    steps = [Fraction(k, 7) for k in range(8)]
    if not all(is_finite(end) for x in box for end in x):
        return
    for p in steps:
        for q in steps:
            point = [as_fraction(x[0]) + t * (as_fraction(x[1]) - as_fraction(x[0])) for x, t in zip(box, (p, q))]
            value = minibex.value(gap(constraint), point)
            assert value is None or (found is not None and held(value, found[0])), (constraint, point)


def asked(x: str, y: str, text: str) -> tuple[str, Constraint, Box]:
    """The text of a system, its constraint and its box."""
    system = f"Variables x in {x}, y in {y}; Constraints {text}; End"
    read = minibex.read(system)
    return system, Constraint(read.constraints[0]), [(bound(low, DOWN), bound(high, UP)) for low, high in read.domains]


def slope_row(i: int, x: str, y: str, text: str) -> str:
    """The slope for variable i; None where an end is infinite or a divisor's interval holds 0."""
    system, constraint, box = asked(x, y, text)
    found = ranged(constraint, box)
    if found is None or not found[1] or not all(is_finite(end) for z in box for end in z):
        return f'    ("{system}", {i}, None),'
    return f'    ("{system}", {i}, Some({ends(Centered(constraint, box).slope(gap(constraint), i))})),'


def row(x: str, y: str, text: str) -> str:
    system, constraint, box = asked(x, y, text)
    found = ranged(constraint, box)
    check(constraint, box, found)
    answer = "None" if found is None else f"Some({ends(found[0])})"
    return f'    ("{system}", {answer}),'


def settled_row(x: str, text: str, program: str, depth_left: int) -> str:
    system = f"Variables x in {x}; Constraints {text}; End"
    settler = CenteredSettler(minibex.read(system), eps=Fraction(0), contract=program)
    outcome = settler.settle(settler.root, depth_left, 0)
    answer = {"X": lambda: "Removed", "I": lambda: f"Inner({ends(outcome[1][0])})",
              "S": lambda: f"Small({ends(outcome[1][0])})", "C": lambda: f"Cut({ends(outcome[1][0])})"}[outcome[0]]()
    return f'    ("{system}", "{program}", {depth_left}, {answer}),'


HEADING = (
    "//! Cases of slopes and centered forms. Written by tests/generators/slope_vectors.py: change them there.\n"
    "use crate::ranges::Case;\n"
    "use crate::settled::As::{Cut, Inner, Removed, Small};\n"
    "use crate::settled::Settled;\n"
    "use crate::slopes::Slope;\n"
)


def main() -> None:
    cases = [case for group in GROUPS.values() for case in group]
    slopes = table("SLOPES", "Slope", [slope_row(k % 2, *case) for k, case in enumerate(cases)])
    settled = table("SETTLED", "Settled", [settled_row(*case) for case in SETTLED])
    write("test_ranges", HEADING, GROUPS, row, slopes, settled)


if __name__ == "__main__":
    main()
