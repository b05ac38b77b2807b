"""Dyadic numbers with 62-bit mantissas, rounded outward, straight from their definition.

A finite number is the whole number that is its value times 2^512. The two infinite ends are the floats
-inf and +inf. Nothing here is shared with the program: it is what the program's answers are compared with.
"""
from fractions import Fraction

from .kinds import Value

SCALE = 512
UNIT = 1 << SCALE
TOP = ((1 << 62) - 1) << 962
NEG_INF, POS_INF = float("-inf"), float("inf")
DOWN, UP = "down", "up"


def is_finite(a: Value) -> bool:
    return isinstance(a, int)


def sign(a: Value) -> int:
    return (a > 0) - (a < 0)


def to_grid(whole: int, exact: bool, side: str) -> Value:
    """The grid number next to floor(value) = whole, where exact says whether whole is the value itself."""
    if whole < 0:  # -value lies in (-whole - 1, -whole]; mirror it
        mirrored = to_grid(-whole if exact else -whole - 1, exact, UP if side is DOWN else DOWN)
        return negated(mirrored)
    shift = max(0, whole.bit_length() - 62)
    below = (whole >> shift) << shift
    exact = exact and below == whole
    if side is DOWN:
        return min(below, TOP)
    above = below if exact else below + (1 << shift)
    return above if above <= TOP else POS_INF


def ratio(p: int, q: int, side: str) -> Value:
    """The rational p/q, given as a number times 2^512 over 1, rounded: floor first, then the grid."""
    whole, rest = divmod(p, q)
    return to_grid(whole, rest == 0, side)


def from_fraction(value: Fraction, side: str) -> Value:
    return ratio(value.numerator << SCALE, value.denominator, side)


def as_fraction(a: Value) -> Fraction:
    return Fraction(a, UNIT)


def negated(a: Value) -> Value:
    return -a


def add(a: Value, b: Value, side: str) -> Value:
    if is_finite(a) and is_finite(b):
        return to_grid(a + b, True, side)
    if not is_finite(a) and not is_finite(b) and a != b:
        return NEG_INF if side is DOWN else POS_INF
    return b if is_finite(a) else a


def sub(a: Value, b: Value, side: str) -> Value:
    return add(a, negated(b), side)


def mul(a: Value, b: Value, side: str) -> Value:
    if a == 0 or b == 0:
        return 0
    if is_finite(a) and is_finite(b):
        return ratio(a * b, UNIT, side)
    return POS_INF if sign(a) == sign(b) else NEG_INF


def div(a: Value, b: Value, side: str) -> Value:
    if not is_finite(b):
        return 0
    if not is_finite(a):
        return a if b > 0 else negated(a)
    return ratio(a << SCALE, b, side) if b > 0 else ratio(-a << SCALE, -b, side)


def power(a: Value, n: int, side: str) -> Value:
    if n == 0:
        return UNIT
    result = a
    for _ in range(n - 1):
        result = mul(result, a, side)
    return result


def is_grid(n: int) -> bool:
    n = abs(n)
    while n and n % 2 == 0 and n >= 1 << 62:
        n //= 2
    return n < 1 << 62


def by_rank(rank: int) -> Value:
    """The numbers from 0 on, in order and without gaps: rank 0 is 0."""
    if rank < 1 << 62:
        return rank
    exponent, mantissa = divmod(rank - (1 << 61), 1 << 61)
    return (mantissa + (1 << 61)) << exponent


RANKS = 962 * (1 << 61) + (1 << 62)  # of the numbers from 0 to the greatest


def root(z: Value, n: int, side: str) -> Value:
    """Down: the greatest finite r with r^n, rounded up, at most z. Up: the least with r^n, rounded down, at least z."""
    if side is UP and z == POS_INF:
        return POS_INF
    low, high = 0, RANKS - 1
    if side is DOWN:
        while low < high:
            mid = (low + high + 1) // 2
            low, high = (mid, high) if power(by_rank(mid), n, UP) <= z else (low, mid - 1)
    else:
        while low < high:
            mid = (low + high) // 2
            low, high = (low, mid) if power(by_rank(mid), n, DOWN) >= z else (mid + 1, high)
    return by_rank(low)


def spelling(a: Value) -> str:
    if not is_finite(a):
        return "+oo" if a > 0 else "-oo"
    if a == 0:
        return "0:0"
    trailing = (a & -a).bit_length() - 1
    return f"{a >> trailing}:{trailing - SCALE}"


def middle(lo: Value, hi: Value) -> Value:
    """The cut of the bisection of [lo, hi], which may be unbounded; None where there is none."""
    if not is_finite(lo) and not is_finite(hi):
        return 0
    if not is_finite(lo):
        cut = 0 if hi > 0 else to_grid(2 * hi - UNIT, True, DOWN)
        return cut if is_finite(cut) and cut < hi else None
    if not is_finite(hi):
        cut = 0 if lo < 0 else to_grid(2 * lo + UNIT, True, UP)
        return cut if is_finite(cut) and cut > lo else None
    cut = ratio(lo + hi, 2, DOWN)
    cut = cut if cut > lo else ratio(lo + hi, 2, UP)
    return cut if lo < cut < hi else None
