"""Arithmetic cases of pv_num, worked out with exact integers and fractions.

Run `python3 -m tests.generators.number_vectors` at the top of the repository: it writes crates/test_numbers/src/num/vectors.rt.
A number is a whole number N of units of 2^-512 that is m * 2^k with m < 2^62 and k <= 962, or an infinite end.
"""
from __future__ import annotations

import random
from collections.abc import Iterator
from fractions import Fraction
from typing import Tuple, Union

from tests.generators.case_table import CRATES, table

UNIT = 1 << 512
TOP = ((1 << 62) - 1) << 962
LOW, HIGH = "-oo", "+oo"

Value = Union[int, str]  # a whole number of units, or an infinite end
Parts = Tuple[int, int]  # a mantissa and its exponent


def floor_grid(q: Fraction) -> int:
    """The greatest format number that is at most q, for q from 0 on."""
    n = q.numerator // q.denominator
    if n >= TOP:
        return TOP
    cut = max(n.bit_length() - 62, 0)
    return (n >> cut) << cut


def ceil_grid(q: Fraction) -> Value:
    """The least format number that is at least q, for q from 0 on, or +oo."""
    low = floor_grid(q)
    if low == q:
        return low
    cut = max(low.bit_length() - 62, 0)
    step = low + (1 << cut)
    return HIGH if step > TOP else step


def rounded(q: Fraction, side: str) -> Value:
    if q >= 0:
        return floor_grid(q) if side == "Down" else ceil_grid(q)
    other = ceil_grid(-q) if side == "Down" else floor_grid(-q)
    return LOW if isinstance(other, str) else -other


def sign(x: Value) -> int:
    if isinstance(x, str):
        return -1 if x == LOW else 1
    return (x > 0) - (x < 0)


def infinite(s: int) -> Value:
    return 0 if s == 0 else (HIGH if s > 0 else LOW)


def add(a: Value, b: Value, side: str) -> Value:
    if isinstance(a, str) or isinstance(b, str):
        ends = {x for x in (a, b) if isinstance(x, str)}
        if len(ends) == 2:
            return LOW if side == "Down" else HIGH
        return ends.pop()
    return rounded(Fraction(a + b), side)


def mul(a: Value, b: Value, side: str) -> Value:
    if isinstance(a, str) or isinstance(b, str):
        return infinite(sign(a) * sign(b))
    return rounded(Fraction(a * b, UNIT), side)


def div(a: Value, b: Value, side: str) -> Value:
    if isinstance(b, str):
        return 0
    if isinstance(a, str):
        return infinite(sign(a) * sign(b))
    return rounded(Fraction(a * UNIT, b), side)


def parts(x: Value) -> tuple[int, int]:
    """The canonical mantissa and exponent; the exponent 999 stands for an infinite end."""
    if isinstance(x, str):
        return (sign(x), 999)
    if x == 0:
        return (0, 0)
    e = (x & -x).bit_length() - 1
    return (x >> e, e - 512)


def number(m: int, e: int) -> int:
    k = e + 512
    return m << k if k >= 0 else m >> -k


FIXED: list[Value] = [
    0, 1, -1, UNIT, -UNIT, 3 * UNIT, -7 * UNIT, TOP, -TOP, LOW, HIGH, number(1, -1), number(1, 62),
    number((1 << 62) - 1, 0), number(-((1 << 62) - 1), 0), number((1 << 61) + 1, -512), number(10, 0)]


def some(rng: random.Random) -> int:
    m = rng.getrandbits(rng.choice([1, 5, 20, 40, 61, 62]))
    e = rng.choice([-512, -511, -450, -200, -62, -61, -10, 0, 0, 5, 61, 200, 400, 449, 450])
    return number(rng.choice([1, -1]) * m, e)


def near(rng: random.Random, a: Value) -> int:
    """A number close to a in size, so that sums cancel or meet a tie."""
    if isinstance(a, str) or a == 0:
        return some(rng)
    k = max(abs(a).bit_length() - 62, 0)
    m = (abs(a) >> k) + rng.choice([-1, 0, 1, 2])
    m = min(max(m, 1), (1 << 62) - 1)
    k = min(max(k + rng.choice([-66, -65, -64, -63, -2, -1, 0, 1]), 0), 962)
    return rng.choice([1, -1]) * (m << k)


def pairs(rng: random.Random) -> Iterator[tuple[Value, Value]]:
    for i, a in enumerate(FIXED):
        for b in (a, FIXED[(5 * i + 3) % len(FIXED)], TOP, LOW, HIGH):
            yield a, b
    for _ in range(60):
        first = some(rng)
        yield first, rng.choice([some(rng), near(rng, first)])


# Products below the least number, and sums past the greatest mantissa and the greatest number, rounded to both sides.
ROUNDED = [("Mul", 1, 1), ("Add", TOP, TOP), ("Add", number((1 << 62) - 1, 0), UNIT),
           ("Add", number((1 << 62) - 1, 0), number(1, 1))]


def cases() -> Iterator[tuple[str, Parts, Parts, str, Parts]]:
    rng = random.Random(20091)
    for i, (a, b) in enumerate(pairs(rng)):
        side = "Down" if i % 2 == 0 else "Up"
        for name, op in (("Add", add), ("Mul", mul), ("Div", div)):
            if name == "Div" and b == 0:
                continue
            yield name, parts(a), parts(b), side, parts(op(a, b, side))
    for name, a, b in ROUNDED:
        for side in ("Down", "Up"):
            yield name, parts(a), parts(b), side, parts((mul if name == "Mul" else add)(a, b, side))


HEADING = """//! Cases of exact arithmetic. Written by tests/generators/number_vectors.py: change them there.
use crate::num::Operation::{self, Add, Div, Mul};
use crate::num::Spelled;
use pv_num::End::{self, Down, Up};

"""


def main() -> None:
    rows = [f"    ({name}, {a}, {b}, {side}, {want})," for name, a, b, side, want in cases()]
    text = HEADING + table("CASES", "(Operation, Spelled, Spelled, End, Spelled)", rows, "super")
    (CRATES / "test_numbers/src/num/vectors.rt").write_text(text)


if __name__ == "__main__":
    main()
