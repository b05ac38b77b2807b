"""Interval operations and projections by their written tables. An interval is a pair (lo, hi)."""
from typing import Callable

from .kinds import Interval, Parts
from .numbers import DOWN, UP, NEG_INF, POS_INF, UNIT, add, div, mul, negated, power, root, sub

ALL = (NEG_INF, POS_INF)
ZERO = (0, 0)


def plus(x: Interval, y: Interval) -> Interval:
    return add(x[0], y[0], DOWN), add(x[1], y[1], UP)


def minus(x: Interval, y: Interval) -> Interval:
    return sub(x[0], y[1], DOWN), sub(x[1], y[0], UP)


def times(x: Interval, y: Interval) -> Interval:
    pairs = [(a, c) for a in x for c in y]
    return min(mul(a, c, DOWN) for a, c in pairs), max(mul(a, c, UP) for a, c in pairs)


def opposite(x: Interval) -> Interval:
    return negated(x[1]), negated(x[0])


def absolute(x: Interval) -> Interval:
    if x[0] >= 0:
        return x
    if x[1] <= 0:
        return opposite(x)
    return 0, max(negated(x[0]), x[1])


def least(x: Interval, y: Interval) -> Interval:
    return min(x[0], y[0]), min(x[1], y[1])


def greatest(x: Interval, y: Interval) -> Interval:
    return max(x[0], y[0]), max(x[1], y[1])


def raised(x: Interval, n: int) -> Interval:
    a, b = x
    if n == 0:
        return UNIT, UNIT
    if n % 2 == 1:
        lower = power(a, n, DOWN) if a >= 0 else negated(power(negated(a), n, UP))
        upper = power(b, n, UP) if b >= 0 else negated(power(negated(b), n, DOWN))
        return lower, upper
    if a >= 0:
        return power(a, n, DOWN), power(b, n, UP)
    if b <= 0:
        return power(negated(b), n, DOWN), power(negated(a), n, UP)
    return 0, max(power(negated(a), n, UP), power(b, n, UP))


def quotient(x: Interval, y: Interval) -> Interval:
    (a, b), (c, d) = x, y
    if y == ZERO:
        return None
    if not c <= 0 <= d:
        pairs = [(p, q) for p in x for q in y]
        return min(div(p, q, DOWN) for p, q in pairs), max(div(p, q, UP) for p, q in pairs)
    if x == ZERO:
        return ZERO
    if c < 0 < d or a < 0 < b:
        return ALL
    if c == 0:
        return (div(a, d, DOWN), POS_INF) if a >= 0 else (NEG_INF, div(b, d, UP))
    return (NEG_INF, div(a, c, UP)) if a >= 0 else (div(b, c, DOWN), POS_INF)


def meet(x: Interval, y: Interval) -> Interval:
    if x is None or y is None:
        return None
    lo, hi = max(x[0], y[0]), min(x[1], y[1])
    return (lo, hi) if lo <= hi else None


def hull(x: Interval, y: Interval) -> Interval:
    if x is None or y is None:
        return x if y is None else y
    return min(x[0], y[0]), max(x[1], y[1])


def factor(z: Interval, y: Interval) -> Interval:
    return ALL if meet(z, ZERO) and meet(y, ZERO) else quotient(z, y)


def both(x: Interval, second: Callable[[Interval], Interval]) -> Parts:
    """(x, second(x)), or None where either is empty."""
    if x is None:
        return None
    y = second(x)
    return None if y is None else (x, y)


def back_add(z: Interval, x: Interval, y: Interval) -> Parts:
    return both(meet(x, minus(z, y)), lambda x1: meet(y, minus(z, x1)))


def back_sub(z: Interval, x: Interval, y: Interval) -> Parts:
    return both(meet(x, plus(z, y)), lambda x1: meet(y, minus(x1, z)))


def back_mul(z: Interval, x: Interval, y: Interval) -> Parts:
    return both(meet(x, factor(z, y)), lambda x1: meet(y, factor(z, x1)))


def back_div(z: Interval, x: Interval, y: Interval) -> Parts:
    if y == ZERO:
        return None
    return both(meet(x, times(z, y)), lambda x1: meet(y, factor(x1, z)))


def back_min(z: Interval, x: Interval, y: Interval) -> Parts:
    above = (z[0], POS_INF)
    return both(meet(x, z if y[0] > z[1] else above), lambda x1: meet(y, z if x1[0] > z[1] else above))


def back_max(z: Interval, x: Interval, y: Interval) -> Parts:
    below = (NEG_INF, z[1])
    return both(meet(x, z if y[1] < z[0] else below), lambda x1: meet(y, z if x1[1] < z[0] else below))


def back_neg(z: Interval, x: Interval) -> Interval:
    return meet(x, opposite(z))


def back_abs(z: Interval, x: Interval) -> Interval:
    w = meet(z, (0, POS_INF))
    return None if w is None else hull(meet(x, w), meet(x, opposite(w)))


def back_pow(z: Interval, x: Interval, n: int) -> Interval:
    if n == 0:
        return x if z[0] <= UNIT <= z[1] else None
    if n % 2 == 1:
        if z[0] >= 0:
            low = root(z[0], n, DOWN)
        else:
            low = NEG_INF if z[0] == NEG_INF else negated(root(negated(z[0]), n, UP))
        high = root(z[1], n, UP) if z[1] >= 0 else negated(root(negated(z[1]), n, DOWN))
        return meet(x, (low, high))
    w = meet(z, (0, POS_INF))
    if w is None:
        return None
    s, r = root(w[0], n, DOWN), root(w[1], n, UP)
    return hull(meet(x, (s, r)), meet(x, (negated(r), negated(s))))
