"""Centered forms by rational slopes, and settling by them, straight from their definitions, slow and plain."""
from typing import Any

from . import intervals as iv
from .kinds import Box, Expression, Interval, Outcome, Program, Value
from .minibex import System
from .numbers import UNIT, is_finite, middle
from .paver import FORWARD, Constraint, Empty, Settler

ZERO, ONE, EITHER = (0, 0), (UNIT, UNIT), (-UNIT, UNIT)


def centre(x: Interval) -> Value:
    """The middle of an interval, or its lower end where it has none."""
    cut = middle(*x)
    return x[0] if cut is None else cut


class Centered:
    """An expression's parts on one box with finite ends, where no divisor's interval holds 0."""

    def __init__(self, constraint: Constraint, box: Box) -> None:
        self.constraint, self.box = constraint, box
        self.centre = [(centre(x), centre(x)) for x in box]

    def whole(self, e: Expression) -> Interval:
        return self.constraint.forward(e, self.box)[0]

    def at_centre(self, e: Expression) -> Interval:
        kind = e[0]
        if kind == "const":
            return self.whole(e)
        if kind == "var":
            return self.centre[e[1]]
        if kind in ("neg", "abs", "^"):
            x = self.at_centre(e[1])
            found = {"neg": lambda: iv.opposite(x), "abs": lambda: iv.absolute(x), "^": lambda: iv.raised(x, e[2])}[kind]()
        else:
            x, y = self.at_centre(e[1]), self.at_centre(e[2])
            found = iv.quotient(x, y) if kind == "/" else FORWARD[kind](x, y)
        return iv.meet(found, self.whole(e))

    def powers(self, f: Any, c: Any, n: int) -> Any:
        """The sum of f^k c^(n-1-k) over k from 0 to n-1, in this order."""
        terms = [iv.times(iv.raised(f, k), iv.raised(c, n - 1 - k)) for k in range(n)]
        total = terms[0]
        for term in terms[1:]:
            total = iv.plus(total, term)
        return total

    def slope(self, e: Expression, i: int) -> Interval:
        kind = e[0]
        if kind == "const":
            return ZERO
        if kind == "var":
            return ONE if e[1] == i else ZERO
        s, f = self.slope(e[1], i), self.whole(e[1])
        if kind == "neg":
            return iv.opposite(s)
        if kind == "abs":
            return s if f[0] >= 0 else iv.opposite(s) if f[1] <= 0 else iv.times(EITHER, s)
        if kind == "^":
            return ZERO if e[2] == 0 else iv.times(self.powers(f, self.at_centre(e[1]), e[2]), s)
        t, g = self.slope(e[2], i), self.whole(e[2])
        if kind in "+-":
            return FORWARD[kind](s, t)
        if kind == "*":
            return iv.plus(iv.times(f, t), iv.times(self.at_centre(e[2]), s))
        if kind == "/":
            by = iv.quotient(self.at_centre(e[1]), self.at_centre(e[2]))
            return iv.quotient(iv.minus(s, iv.times(by, t)), g)
        first, second = (f, g) if kind == "min" else (g, f)
        if first[1] <= second[0]:
            return s
        if second[1] <= first[0]:
            return t
        return iv.hull(s, t)

    def linear(self, e: Expression) -> Any:
        total = self.at_centre(e)
        for i, x in enumerate(self.box):
            total = iv.plus(total, iv.times(self.slope(e, i), iv.minus(x, self.centre[i])))
        return total


def gap(constraint: Constraint) -> Any:
    """The left side minus the right one."""
    return ("-", constraint.left, constraint.right)


def ranged(constraint: Constraint, box: Box) -> Any:
    """The centered form of left - right, and whether no divisor's interval holds 0; None where it is empty."""
    try:
        whole, total = constraint.forward(gap(constraint), box)
    except Empty:
        return None
    if not total or not all(is_finite(end) for x in box for end in x):
        return whole, total
    return iv.meet(whole, Centered(constraint, box).linear(gap(constraint))), total


def is_none(constraint: Constraint, box: Box) -> bool:
    found = ranged(constraint, box)
    if found is None:
        return True
    lo, hi = found[0]
    return {"<=": lo > 0, "<": lo >= 0, ">=": hi < 0, ">": hi <= 0, "=": not lo <= 0 <= hi}[constraint.relation]


def is_sure(constraint: Constraint, box: Box) -> bool:
    found = ranged(constraint, box)
    if found is None or not found[1]:
        return False
    lo, hi = found[0]
    return {"<=": hi <= 0, "<": hi < 0, ">=": lo >= 0, ">": lo > 0, "=": lo == hi == 0}[constraint.relation]


class CenteredConstraint(Constraint):
    """A constraint that counts as sure by either test."""

    def sure(self, box: Box) -> bool:
        return super().sure(box) or is_sure(self, box)


class CenteredSettler(Settler):
    def __init__(self, system: System, **settings: Any) -> None:
        super().__init__(system, **settings)
        self.constraints = [CenteredConstraint(c) for c in system.constraints]

    def none(self, program: Program, box: Box) -> bool:
        kind = program[0]
        if kind == "hc4":
            return is_none(self.constraints[program[1]], box)
        if kind == "prop":
            return any(is_none(c, box) for c in self.constraints)
        parts = [self.none(p, box) for p in program[-1]]
        return {"compose": any(parts), "fix": any(parts), "union": all(parts),
                "qinter": kind == "qinter" and sum(parts) > len(parts) - program[1]}[kind]

    def settle(self, box: Box, depth_left: int, length: int) -> Outcome:
        to = self.contract(self.program, box)
        if to is not None and self.none(self.program, to):
            return ("X",)
        return super().settle(box, depth_left, length)
