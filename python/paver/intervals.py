"""Intervals of exact fractions, and of expressions their values and slopes on a box.

An interval is a pair (low, high) of Fractions. Long fractions are rounded outward to keep them short.
"""
from __future__ import annotations

from collections.abc import Sequence
from fractions import Fraction
from typing import Tuple

from .canonical import Step, Steps

Interval = Tuple[Fraction, Fraction]
BITS = 400  # of the numerators and denominators that are kept


class Undefined(Exception):
    """A divisor's interval holds 0."""


def short(x: Interval) -> Interval:
    """The interval, or one around it whose ends have few bits."""
    low, high = x
    if max(low.denominator.bit_length(), high.denominator.bit_length()) <= BITS:
        return x
    scale = 1 << BITS
    return Fraction(low.numerator * scale // low.denominator, scale), \
        Fraction(-(-high.numerator * scale // high.denominator), scale)


def point(value: Fraction) -> Interval:
    return value, value


def plus(x: Interval, y: Interval) -> Interval:
    return x[0] + y[0], x[1] + y[1]


def minus(x: Interval, y: Interval) -> Interval:
    return x[0] - y[1], x[1] - y[0]


def opposite(x: Interval) -> Interval:
    return -x[1], -x[0]


def times(x: Interval, y: Interval) -> Interval:
    products = [a * b for a in x for b in y]
    return short((min(products), max(products)))


def over(x: Interval, y: Interval) -> Interval:
    if y[0] <= 0 <= y[1]:
        raise Undefined
    return times(x, (1 / y[1], 1 / y[0]))


def power(x: Interval, n: int) -> Interval:
    if n == 0:
        return point(Fraction(1))
    low, high = x[0] ** n, x[1] ** n
    if n % 2 == 1:
        return short((low, high))
    return short((Fraction(0) if x[0] <= 0 <= x[1] else min(low, high), max(low, high)))


def hull(x: Interval, y: Interval) -> Interval:
    return min(x[0], y[0]), max(x[1], y[1])


def meet(x: Interval, y: Interval) -> Interval | None:
    """The common part, or None."""
    low, high = max(x[0], y[0]), min(x[1], y[1])
    return (low, high) if low <= high else None


def absolute(x: Interval) -> Interval:
    if x[0] >= 0:
        return x
    return opposite(x) if x[1] <= 0 else (Fraction(0), max(-x[0], x[1]))


class Dual:
    """The values of an expression on a box, and the slopes that it can have there in each variable."""

    def __init__(self, values: Interval, slopes: Sequence[Interval]) -> None:
        self.values, self.slopes = values, slopes

    def scaled(self, factor: Interval) -> list[Interval]:
        return [times(slope, factor) for slope in self.slopes]


def chosen(kind: str, x: Dual, y: Dual) -> Dual:
    """min or max: where the order of the arguments is open, the slopes of both are possible."""
    first, second = (x, y) if kind == "min" else (y, x)  # first is taken where x lies below y
    work = min if kind == "min" else max
    values = work(x.values[0], y.values[0]), work(x.values[1], y.values[1])
    if x.values[1] <= y.values[0]:
        return Dual(values, first.slopes)
    if y.values[1] <= x.values[0]:
        return Dual(values, second.slopes)
    return Dual(values, [hull(a, b) for a, b in zip(x.slopes, y.slopes)])


def of_one(step: Step, x: Dual) -> Dual:
    kind = step[0]
    if kind == "neg":
        return Dual(opposite(x.values), [opposite(s) for s in x.slopes])
    if kind == "^":
        n = step[1]
        if n == 0:
            return Dual(point(Fraction(1)), x.scaled(point(Fraction(0))))
        return Dual(power(x.values, n), x.scaled(times(point(Fraction(n)), power(x.values, n - 1))))
    low, high = x.values
    turn = (Fraction(1 if low >= 0 else -1), Fraction(-1 if high <= 0 else 1))
    return Dual(absolute(x.values), x.scaled(turn))


def of_two(kind: str, x: Dual, y: Dual) -> Dual:
    if kind in ("min", "max"):
        return chosen(kind, x, y)
    if kind in "+-":
        work = plus if kind == "+" else minus
        return Dual(work(x.values, y.values), [work(a, b) for a, b in zip(x.slopes, y.slopes)])
    if kind == "*":
        pairs = zip(x.scaled(y.values), y.scaled(x.values))
        return Dual(times(x.values, y.values), [plus(a, b) for a, b in pairs])
    values = over(x.values, y.values)
    return Dual(values, [over(minus(a, b), y.values) for a, b in zip(x.slopes, y.scaled(values))])


def on_box(steps: Steps, box: Sequence[Interval]) -> Dual:
    """The Dual of an expression (see canonical.py) on a box; Undefined where a divisor's interval holds 0."""
    zero, stack = [point(Fraction(0))] * len(box), []
    for step in steps:
        kind = step[0]
        if kind == "const":
            stack.append(Dual(point(step[1]), zero))
        elif kind == "var":
            slopes = list(zero)
            slopes[step[1]] = point(Fraction(1))
            stack.append(Dual(box[step[1]], slopes))
        elif kind in ("neg", "abs", "^"):
            stack.append(of_one(step, stack.pop()))
        else:
            y, x = stack.pop(), stack.pop()
            stack.append(of_two(kind, x, y))
    return stack[0]


def widest(box: Sequence[Interval]) -> Fraction:
    return max(high - low for low, high in box)
