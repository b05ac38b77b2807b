"""How an expression bends in one variable while the others stay: free of it, affine, convex or concave; None where that isn't
seen from its operations alone.

An expression that is convex in each of some variables by itself is greatest, over a box of these, at a vertex: along one
variable after the other the greatest value lies at an end of its interval.
"""
from __future__ import annotations

from fractions import Fraction
from typing import Optional, Tuple

from .canonical import Constraint, Step, Steps

FREE, AFFINE, CONVEX, CONCAVE = "free", "affine", "convex", "concave"
TURNED = {FREE: FREE, AFFINE: AFFINE, CONVEX: CONCAVE, CONCAVE: CONVEX, None: None}
UPWARD = (FREE, AFFINE, CONVEX)
DOWNWARD = (FREE, AFFINE, CONCAVE)
Bend = Tuple[Optional[str], Optional[Fraction]]  # with the value of a constant


def bend_of(steps: Steps, variable: int) -> str | None:
    """The bend of an expression (see canonical.py) in a variable."""
    stack: list[Bend] = []
    for step in steps:
        kind = step[0]
        if kind == "const":
            stack.append((FREE, step[1]))
        elif kind == "var":
            stack.append((AFFINE if step[1] == variable else FREE, None))
        elif kind in ("neg", "abs", "^"):
            stack.append(of_one(step, stack.pop()))
        else:
            right, left = stack.pop(), stack.pop()
            stack.append(of_two(kind, left, right))
    return stack[0][0]


def of_one(step: Step, base: Bend) -> Bend:
    bend, value = base
    kind = step[0]
    if bend == FREE:
        known = None if value is None else -value if kind == "neg" else abs(value) if kind == "abs" else value ** step[1]
        return FREE, known
    if kind == "neg":
        return TURNED[bend], None
    if kind == "abs":
        return (CONVEX if bend == AFFINE else None), None
    n = step[1]
    if n == 0:
        return FREE, Fraction(1)
    if n == 1:
        return bend, None
    return (CONVEX if bend == AFFINE and n % 2 == 0 else None), None


def of_two(kind: str, left: Bend, right: Bend) -> Bend:
    (a, x), (b, y) = left, right
    if kind == "max":
        return (FREE if (a, b) == (FREE, FREE) else CONVEX if a in UPWARD and b in UPWARD else None), None
    if kind == "min":
        return (FREE if (a, b) == (FREE, FREE) else CONCAVE if a in DOWNWARD and b in DOWNWARD else None), None
    if kind in ("+", "-"):
        known = None if x is None or y is None else x + y if kind == "+" else x - y
        return summed(a, b if kind == "+" else TURNED[b]), known
    if kind == "*":
        known = None if x is None or y is None else x * y
        return scaled(b, x) if a == FREE and b != FREE else (FREE, known) if a == b == FREE else \
            scaled(a, y) if b == FREE else (None, None)
    if b != FREE:
        return None, None
    if a == FREE:
        return FREE, (x / y if x is not None and y else None)
    return scaled(a, 1 / y if y else None)


def summed(a: str | None, b: str | None) -> str | None:
    kinds = {a, b} - {FREE}
    if None in kinds or kinds == {CONVEX, CONCAVE}:
        return None
    return (kinds - {AFFINE} or kinds or {FREE}).pop()


def scaled(bend: str | None, factor: Fraction | None) -> Bend:
    """A product with a factor in which the variable doesn't stand; its value is known where it is a constant."""
    if bend == AFFINE or factor is not None and factor >= 0:
        return bend, None
    return (TURNED[bend] if factor is not None else None), None


def at_vertices(constraint: Constraint, variable: int) -> bool:
    """Whether a constraint holds on the whole interval of a variable where it holds at both ends, whatever the others are."""
    low, high = (constraint.left, constraint.right) if constraint.relation in ("<=", "<") else (
        constraint.right, constraint.left)
    return bend_of([*low, *high, ("-",)], variable) in UPWARD
