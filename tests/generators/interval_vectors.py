#!/usr/bin/env python3
"""Cases of interval operations, by exact fractions. Writes crates/test_numbers/src/interval/vectors.rt.

An end is a Fraction, or -inf or +inf. The tables are those of interval arithmetic with outward rounding to the numbers
m * 2^e with |m| < 2^62 and e from -512 to 450.
"""
from __future__ import annotations

import math
import random
from fractions import Fraction
from typing import Tuple, Union

from tests.generators.case_table import CRATES, table

INF = math.inf
TOP = Fraction((2**62 - 1) * 2**450)
LEAST = Fraction(1, 2**512)

Number = Union[Fraction, float]  # a float where it is infinite
Interval = Tuple[Number, Number]


def grid_below(x: Number) -> Number:
    """The greatest number that is at most x."""
    if x > TOP:
        return TOP
    if x < -TOP:
        return -INF
    if x < 0:
        return -grid_above(-x)
    units = x * 2**512
    whole = units.numerator // units.denominator
    shift = max(0, whole.bit_length() - 62)
    return Fraction((whole >> shift) << shift, 2**512)


def grid_above(x: Number) -> Number:
    """The least number that is at least x."""
    if x > TOP:
        return INF
    if x < -TOP:
        return -TOP
    if x < 0:
        return -grid_below(-x)
    units = x * 2**512
    whole = -(-units.numerator // units.denominator)
    shift = max(0, whole.bit_length() - 62)
    whole = -(-whole >> shift) << shift
    return Fraction(whole, 2**512)


def rounded(x: Number, side: int) -> Number:
    return grid_below(x) if side < 0 else grid_above(x)


def sign(x: Number) -> int:
    return (x > 0) - (x < 0)


def infinite(x: Number) -> bool:
    return x in (INF, -INF)


def add(a: Number, b: Number, side: int) -> Number:
    if infinite(a) and infinite(b) and a != b:
        return INF if side > 0 else -INF
    if infinite(a) or infinite(b):
        return a if infinite(a) else b
    return rounded(a + b, side)


def mul(a: Number, b: Number, side: int) -> Number:
    if a == 0 or b == 0:
        return Fraction(0)
    if infinite(a) or infinite(b):
        return sign(a) * sign(b) * INF
    return rounded(a * b, side)


def div(a: Number, b: Number, side: int) -> Number:
    if infinite(b):
        return Fraction(0)
    if infinite(a):
        return a * sign(b)
    return rounded(a / b, side)


def power(a: Number, n: int, side: int) -> Number:
    if n == 0:
        return Fraction(1)
    result = a
    for _ in range(n - 1):
        result = mul(result, a, side)
    return result


DOWN, UP = -1, 1


def plus(x: Interval, y: Interval) -> Interval:
    return (add(x[0], y[0], DOWN), add(x[1], y[1], UP))


def minus(x: Interval, y: Interval) -> Interval:
    return (add(x[0], -y[1], DOWN), add(x[1], -y[0], UP))


def times(x: Interval, y: Interval) -> Interval:
    pairs = [(a, b) for a in x for b in y]
    return (min(mul(a, b, DOWN) for a, b in pairs), max(mul(a, b, UP) for a, b in pairs))


def opposite(x: Interval) -> Interval:
    return (-x[1], -x[0])


def size(x: Interval) -> Interval:
    if x[0] >= 0:
        return x
    if x[1] <= 0:
        return opposite(x)
    return (Fraction(0), max(-x[0], x[1]))


def least(x: Interval, y: Interval) -> Interval:
    return (min(x[0], y[0]), min(x[1], y[1]))


def greatest(x: Interval, y: Interval) -> Interval:
    return (max(x[0], y[0]), max(x[1], y[1]))


def raised(x: Interval, n: int) -> Interval:
    a, b = x
    if n == 0:
        return (Fraction(1), Fraction(1))
    if n % 2 == 1:
        low = power(a, n, DOWN) if a >= 0 else -power(-a, n, UP)
        high = power(b, n, UP) if b >= 0 else -power(-b, n, DOWN)
        return (low, high)
    if a >= 0:
        return (power(a, n, DOWN), power(b, n, UP))
    if b <= 0:
        return (power(-b, n, DOWN), power(-a, n, UP))
    return (Fraction(0), max(power(-a, n, UP), power(b, n, UP)))


def quotient(x: Interval, y: Interval) -> Interval | None:
    a, b = x
    c, d = y
    everything = (-INF, INF)
    if c == 0 and d == 0:
        return None
    if not c <= 0 <= d:
        pairs = [(p, q) for p in x for q in y]
        return (min(div(p, q, DOWN) for p, q in pairs), max(div(p, q, UP) for p, q in pairs))
    if a == 0 and b == 0:
        return (Fraction(0), Fraction(0))
    if c < 0 < d:
        return everything
    if c == 0:
        if a >= 0:
            return (div(a, d, DOWN), INF)
        if b <= 0:
            return (-INF, div(b, d, UP))
    else:
        if a >= 0:
            return (-INF, div(a, c, UP))
        if b <= 0:
            return (div(b, c, DOWN), INF)
    return everything


def meet(x: Interval, y: Interval) -> Interval | None:
    low, high = max(x[0], y[0]), min(x[1], y[1])
    return (low, high) if low <= high else None


def hull(x: Interval, y: Interval) -> Interval:
    return (min(x[0], y[0]), max(x[1], y[1]))


def spelled(x: Number) -> str:
    """The canonical mantissa and exponent; the exponent 999 stands for an infinite end."""
    if infinite(x):
        return f"({sign(x)}, 999)"
    units = x * 2**512
    whole = int(units)
    assert whole == units
    if whole == 0:
        return "(0, 0)"
    exponent = (whole & -whole).bit_length() - 1
    return f"({whole >> exponent}, {exponent - 512})"


def pair(x: Interval) -> str:
    return f"({spelled(x[0])}, {spelled(x[1])})"


def answer(x: Interval | None) -> str:
    return "None" if x is None else f"Some({pair(x)})"


ENDS = [Fraction(0), Fraction(1), Fraction(-1), Fraction(4), Fraction(-3), Fraction(1, 2), Fraction(-5, 4),
        grid_below(Fraction(1, 3)), -grid_above(Fraction(7, 10)), TOP, -TOP, LEAST, -LEAST, Fraction(2**40 + 1), INF, -INF]


def intervals() -> list[Interval]:
    result = []
    for a in ENDS:
        for b in ENDS:
            if a <= b and a != INF and b != -INF:
                result.append((a, b))
    return result


BINARY = {"Add": plus, "Sub": minus, "Mul": times, "Min": least, "Max": greatest, "Hull": hull, "Quotient": quotient,
          "Meet": meet}


def cases() -> list[tuple[str, int, Interval, Interval]]:
    chance = random.Random(20)
    pool = intervals()
    found: list[tuple[str, int, Interval, Interval]] = [
        ("Quotient", 0, (Fraction(1), Fraction(2)), (Fraction(0), Fraction(4))),
        ("Quotient", 0, (Fraction(0), Fraction(0)), (Fraction(-1), Fraction(1))),
        ("Quotient", 0, (Fraction(1), Fraction(1)), (Fraction(0), Fraction(0)))]
    counts = [("Add", 30), ("Sub", 30), ("Mul", 60), ("Min", 15), ("Max", 15), ("Hull", 15), ("Quotient", 70), ("Meet", 25)]
    for name, count in counts:
        for _ in range(count):
            found.append((name, 0, chance.choice(pool), chance.choice(pool)))
    for _ in range(15):
        found.append(("Neg", 0, chance.choice(pool), (Fraction(0), Fraction(0))))
        found.append(("Abs", 0, chance.choice(pool), (Fraction(0), Fraction(0))))
    for n in [0, 1, 2, 3, 4, 5, 32]:
        for _ in range(6):
            found.append(("Pow", n, chance.choice(pool), (Fraction(0), Fraction(0))))
    return found


def result_of(name: str, n: int, x: Interval, y: Interval) -> Interval | None:
    if name == "Neg":
        return opposite(x)
    if name == "Abs":
        return size(x)
    if name == "Pow":
        return raised(x, n)
    return BINARY[name](x, y)


HEADING = """//! Cases of interval operations. Written by tests/generators/interval_vectors.py: change them there.
use crate::interval::Ends;
use crate::interval::Operation::{self, Abs, Add, Hull, Max, Meet, Min, Mul, Neg, Pow, Quotient, Sub};

"""


def main() -> None:
    rows = [f"    ({name}, {n}, {pair(x)}, {pair(y)}, {answer(result_of(name, n, x, y))})," for name, n, x, y in cases()]
    text = HEADING + table("CASES", "(Operation, u8, Ends, Ends, Option<Ends>)", rows, "super")
    (CRATES / "test_numbers/src/interval/vectors.rt").write_text(text)


if __name__ == "__main__":
    main()
