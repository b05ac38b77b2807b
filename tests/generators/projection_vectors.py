#!/usr/bin/env python3
"""Cases of projections, by exact fractions. Writes crates/test_numbers/src/project/vectors.rt.

The rules are those of interval_vectors.py, and roots are found by bisection over all numbers from 0 on: a lower root is
the greatest number whose power, rounded up, is at most the given one; an upper root is the least number whose power,
rounded down, is at least the given one.
"""
from __future__ import annotations

import random
from collections.abc import Callable
from fractions import Fraction
from typing import Optional, Tuple

from tests.generators.case_table import CRATES, table
from tests.generators.interval_vectors import (
    DOWN, INF, UP, Interval, Number, answer, hull, intervals, meet, minus, opposite, pair, plus, power, quotient, times)

Pair = Tuple[Interval, Interval]  # what is left of both arguments
RANKS = 962 * 2**61 + 2**62


def number_at(rank: int) -> Fraction:
    """The numbers from 0 on in their order, without gaps."""
    if rank < 2**62:
        return Fraction(rank, 2**512)
    exponent, rest = divmod(rank - 2**61, 2**61)
    return Fraction((2**61 + rest) << exponent, 2**512)


def first_rank(test: Callable[[Fraction], bool]) -> int:
    """The least rank that passes a test which holds from some rank on."""
    low, high = 0, RANKS
    while low < high:
        middle = (low + high) // 2
        if test(number_at(middle)):
            high = middle
        else:
            low = middle + 1
    return low


def root(z: Number, n: int, side: int) -> Number:
    if side < 0:
        return number_at(first_rank(lambda r: power(r, n, UP) > z) - 1)
    if z == INF:
        return INF
    rank = first_rank(lambda r: power(r, n, DOWN) >= z)
    return INF if rank == RANKS else number_at(rank)


def narrowed(x: Interval | None, second: Callable[[Interval], Optional[Interval]]) -> Pair | None:
    if x is None:
        return None
    y = second(x)
    return None if y is None else (x, y)


def met(x: Interval | None, y: Interval | None) -> Interval | None:
    return None if x is None or y is None else meet(x, y)


def has_zero(x: Interval) -> bool:
    return x[0] <= 0 <= x[1]


def factor(z: Interval, y: Interval) -> Interval | None:
    return (-INF, INF) if has_zero(z) and has_zero(y) else quotient(z, y)


def back_add(z: Interval, x: Interval, y: Interval) -> Pair | None:
    return narrowed(meet(x, minus(z, y)), lambda u: meet(y, minus(z, u)))


def back_sub(z: Interval, x: Interval, y: Interval) -> Pair | None:
    return narrowed(meet(x, plus(z, y)), lambda u: meet(y, minus(u, z)))


def back_mul(z: Interval, x: Interval, y: Interval) -> Pair | None:
    return narrowed(met(x, factor(z, y)), lambda u: met(y, factor(z, u)))


def back_div(z: Interval, x: Interval, y: Interval) -> Pair | None:
    if y == (0, 0):
        return None
    return narrowed(meet(x, times(z, y)), lambda u: met(y, factor(u, z)))


def back_min(z: Interval, x: Interval, y: Interval) -> Pair | None:
    def side(other: Interval) -> Interval:
        return z if other[0] > z[1] else (z[0], INF)
    return narrowed(meet(x, side(y)), lambda u: meet(y, side(u)))


def back_max(z: Interval, x: Interval, y: Interval) -> Pair | None:
    def side(other: Interval) -> Interval:
        return z if other[1] < z[0] else (-INF, z[1])
    return narrowed(meet(x, side(y)), lambda u: meet(y, side(u)))


def either(a: Interval | None, b: Interval | None) -> Interval | None:
    if a is None or b is None:
        return a or b
    return hull(a, b)


def back_neg(z: Interval, x: Interval) -> Interval | None:
    return meet(x, opposite(z))


def back_abs(z: Interval, x: Interval) -> Interval | None:
    w = meet(z, (Fraction(0), INF))
    return None if w is None else either(meet(x, w), meet(x, opposite(w)))


def back_pow(z: Interval, x: Interval, n: int) -> Interval | None:
    if n == 0:
        return x if z[0] <= 1 <= z[1] else None
    if n % 2 == 1:
        low = -INF if z[0] == -INF else root(z[0], n, DOWN) if z[0] >= 0 else -root(-z[0], n, UP)
        high = root(z[1], n, UP) if z[1] >= 0 else -root(-z[1], n, DOWN)
        return meet(x, (low, high))
    w = meet(z, (Fraction(0), INF))
    if w is None:
        return None
    s, r = root(w[0], n, DOWN), root(w[1], n, UP)
    return either(meet(x, (s, r)), meet(x, (-r, -s)))


PAIRS = {"Add": back_add, "Sub": back_sub, "Mul": back_mul, "Div": back_div, "Min": back_min, "Max": back_max}


def both(answer_pair: Pair | None) -> str:
    if answer_pair is None:
        return "None"
    return f"Some(({pair(answer_pair[0])}, {pair(answer_pair[1])}))"


HEADING = """//! Cases of projections. Written by tests/generators/projection_vectors.py: change them there.
use crate::project::Ends;
use crate::project::Pairs::{self, Add, Div, Max, Min, Mul, Sub};
use crate::project::Singles::{self, Abs, Neg, Pow};

"""


def main() -> None:
    chance = random.Random(4)
    pool = intervals()
    wide: list[Interval] = [(Fraction(a), Fraction(b)) for a in range(-6, 7) for b in range(a, 10)]

    def pick() -> Interval:
        return chance.choice(pool if chance.random() < 0.5 else wide)

    zero, one, two, four, five = (Fraction(k) for k in (0, 1, 2, 4, 5))
    pairs: list[tuple[str, Interval, Interval, Interval]] = [("Div", (one, two), (zero, one), (zero, zero))]
    for name, count in [("Add", 20), ("Sub", 20), ("Mul", 35), ("Div", 35), ("Min", 15), ("Max", 15)]:
        for _ in range(count):
            pairs.append((name, pick(), pick(), pick()))
    singles: list[tuple[str, int, Interval, Interval]] = [("Pow", 2, (four, Fraction(9)), (Fraction(-3), five))]
    for _ in range(12):
        singles.append(("Neg", 0, pick(), pick()))
        singles.append(("Abs", 0, pick(), pick()))
    for n in [0, 1, 2, 2, 3, 4, 5, 32]:
        for _ in range(5):
            singles.append(("Pow", n, pick(), pick()))
    first = [f"    ({name}, {pair(z)}, {pair(x)}, {pair(y)}, {both(PAIRS[name](z, x, y))})," for name, z, x, y in pairs]
    second = []
    for name, n, z, x in singles:
        found = back_pow(z, x, n) if name == "Pow" else back_neg(z, x) if name == "Neg" else back_abs(z, x)
        second.append(f"    ({name}, {n}, {pair(z)}, {pair(x)}, {answer(found)}),")
    tables = [table("PAIRS", "(Pairs, Ends, Ends, Ends, Option<(Ends, Ends)>)", first, "super"),
              table("SINGLES", "(Singles, u8, Ends, Ends, Option<Ends>)", second, "super")]
    (CRATES / "test_numbers/src/project/vectors.rt").write_text(HEADING + "\n".join(tables))


if __name__ == "__main__":
    main()
