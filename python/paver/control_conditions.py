"""Conditions of stability as polynomials that are above 0. A polynomial of s or z is the list of its coefficients, from that of
power 0 on, each itself a polynomial in gains and parameters; its leading one is above 0, if nothing else is said.

Sources: Lienard and Chipart's criterion: F. R. Gantmacher, The Theory of Matrices, volume 2, chapter XV, section 13. Complex
polynomials: section 18 there; that the forms are the leading minors of Bezout's matrix: M. G. Krein and M. A. Naimark, 1936.
Roots in the unit circle: E. I. Jury, Inners and Stability of Dynamic Systems, 1974. Interval polynomials: V. L. Kharitonov,
1978; edges: A. C. Bartlett, C. V. Hollot, H. Lin, 1988.
"""
from __future__ import annotations

from fractions import Fraction
from math import comb
from typing import Iterator, Sequence, Tuple

from .polynomials import ONE, ZERO, Polynomial, constant, determinant, sum_of, variable

Coefficients = Sequence[Polynomial]
Condition = Tuple[str, Polynomial]  # where it comes from, and what is above 0
SINE = "sine of the sector's half angle"  # a name that no text has


def hurwitz(a: Coefficients) -> Iterator[Condition]:
    """All roots have real parts below 0, by Lienard and Chipart: the coefficients, and every other Hurwitz determinant."""
    n = len(a) - 1
    for k in range(n):
        yield f"the coefficient of power {k}", a[k]
    yield from hurwitz_determinants(a)


def hurwitz_determinants(a: Coefficients) -> Iterator[Condition]:
    """The determinants of order n - 1, n - 3, .. from 2 on, the small ones first."""
    n = len(a) - 1
    for order in range(2 + (n - 1) % 2, n, 2):
        rows = [[at(a, n - 1 - 2 * j + i) for j in range(order)] for i in range(order)]
        yield f"Hurwitz's determinant of order {order}", determinant(rows)


def at(a: Coefficients, k: int) -> Polynomial:
    return a[k] if 0 <= k < len(a) else ZERO


def jury(a: Coefficients) -> Iterator[Condition]:
    """All roots have absolute values below 1, by Jury: the values at 1 and -1, and the inner determinants of two matrices."""
    n = len(a) - 1
    if n == 0:
        return
    yield "the value at z = 1", sum_of(a)
    yield "the value at z = -1, times (-1)^n", sum_of([c if (n - k) % 2 == 0 else -c for k, c in enumerate(a)])
    for order in range(2 - (n - 1) % 2, n, 2):
        for sign in (1, -1):
            yield f"Jury's inner determinant of order {order}, {'+' if sign > 0 else '-'}", determinant(inner(a, order, sign))


def inner(a: Coefficients, order: int, sign: int) -> list[list[Polynomial]]:
    """The middle of that order of Jury's triangle of high coefficients plus or minus the one of low coefficients."""
    n = len(a) - 1
    cut = (n - 1 - order) // 2
    rows = range(cut, cut + order)
    return [[at(a, n - (j - i) if j >= i else -1) + constant(sign) * at(a, i + j - (n - 2) if i + j >= n - 2 else -1)
             for j in rows] for i in rows]


def moved(a: Coefficients, rate: Fraction) -> list[Polynomial]:
    """The polynomial of s - rate: its roots lie left of 0 where those of s lie left of -rate."""
    return [sum_of([constant(comb(j, k) * (-rate) ** (j - k)) * a[j] for j in range(k, len(a))]) for k in range(len(a))]


def stretched(a: Coefficients, radius: Fraction) -> list[Polynomial]:
    """The polynomial of radius times z: its roots lie in the unit circle where those of z lie in that of the radius."""
    return [constant(radius ** k) * c for k, c in enumerate(a)]


def powers_on_ray(n: int, cosine: Fraction) -> list[Tuple[Polynomial, Polynomial]]:
    """Real and imaginary parts of the powers of cosine + i sine, the sine as a variable whose square is replaced."""
    real, imaginary = ONE, ZERO  # imaginary is divided by the sine
    found = []
    for _ in range(n + 1):
        found.append((real, imaginary * variable(SINE)))
        real, imaginary = (constant(cosine) * real - constant(1 - cosine ** 2) * imaginary,
                           real + constant(cosine) * imaginary)
    return found


def damped(a: Coefficients, ratio: Fraction) -> Iterator[Condition]:
    """All roots have a damping of more than ratio: they lie in the sector around the negative axis whose half angle has this
    cosine. So the roots of p(s u), u at the angle between the sector's side and the imaginary axis, lie left of 0, and Bezout's
    matrix of this complex polynomial has leading minors above 0. As p is real, the other side asks for the same."""
    n = len(a) - 1
    real, imaginary = [], []  # of p(i z u), i u = -ratio + i sine being on the sector's upper side
    for c, (x, y) in zip(a, powers_on_ray(n, -ratio)):
        real.append(c * x)
        imaginary.append(c * y)
    for order in range(1, n + 1):
        rows = [[without_sine(bezout(imaginary, real, n - 1 - i, n - 1 - j), ratio) for j in range(order)]
                for i in range(order)]
        yield f"the leading minor of order {order} for the sector", rows_determinant(rows, ratio)


def bezout(a: Coefficients, b: Coefficients, i: int, j: int) -> Polynomial:
    """The entry at x^i y^j of (a(x) b(y) - a(y) b(x)) / (x - y)."""
    found = ZERO
    for k in range(min(i, j) + 1):
        found = found + at(a, i + j + 1 - k) * at(b, k) - at(a, k) * at(b, i + j + 1 - k)
    return found


def without_sine(p: Polynomial, ratio: Fraction) -> Polynomial:
    """With the square of the sine replaced."""
    parts = p.in_powers_of(SINE)
    square = constant(1 - ratio ** 2)
    even = sum_of([part * square ** (k // 2) for k, part in enumerate(parts) if k % 2 == 0])
    odd = sum_of([part * square ** (k // 2) for k, part in enumerate(parts) if k % 2])
    return even + odd * variable(SINE)


def rows_determinant(rows: Sequence[Sequence[Polynomial]], ratio: Fraction) -> Polynomial:
    """Its sine has even powers alone, or stands before it as a factor that is above 0."""
    found = without_sine(determinant(rows), ratio)
    parts = found.in_powers_of(SINE)
    if len(parts) > 1 and parts[0]:
        raise AssertionError("a minor with both powers of the sine")
    return parts[-1]


def on_axis(a: Coefficients, axis: Polynomial) -> Tuple[Polynomial, Polynomial]:
    """Real and imaginary part at s = i w, w a polynomial of its own."""
    parts = [ZERO, ZERO]
    for k, c in enumerate(a):
        term = c * axis ** k
        parts[k % 2] = parts[k % 2] + (term if k % 4 < 2 else -term)
    return parts[0], parts[1]


def by_half_angle(a: Coefficients, degree: int) -> list[Polynomial]:
    """The polynomial of v at z = (1 + v)/(1 - v), times (1 - v)^degree: at v = i t, t the tangent of half the angle, z goes
    round the unit circle."""
    found = [ZERO] * (degree + 1)
    for k, c in enumerate(a):
        for i in range(k + 1):
            for j in range(degree - k + 1):
                found[i + j] = found[i + j] + constant(comb(k, i) * comb(degree - k, j) * (-1) ** j) * c
    return found


def kharitonov(low: Coefficients, high: Coefficients) -> Iterator[Tuple[str, list[Polynomial]]]:
    """The four polynomials of an interval polynomial: low low high high and so on, from power 0 on."""
    for pattern in ("llhh", "hhll", "lhhl", "hllh"):
        yield pattern, [(low if pattern[k % 4] == "l" else high)[k] for k in range(len(low))]
