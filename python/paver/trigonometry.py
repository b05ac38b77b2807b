"""Polynomials over rational numbers in lengths and in cosines and sines of angles, where sin^2 = 1 - cos^2.

In `cos q` and `sin q` stand for one angle each; a polynomial's form is the only one in which no sine has a power above 1, so
two that are equal on all circles have equal terms. Public source: the reduction modulo c^2 + s^2 - 1 is that of Groebner bases.
"""
from __future__ import annotations

import math
from fractions import Fraction
from typing import Dict, FrozenSet, Iterable, List, Mapping, Sequence, Tuple, Union

from .numbers import minibex
from .polynomials import Monomial, Polynomial

COSINE, SINE = "cos ", "sin "


class Trigonometric(Polynomial):
    """Of its monomials none has a power of a sine above 1."""
    __slots__ = ()
    most_terms = None

    @staticmethod
    def products(first: Monomial, second: Monomial) -> List[Tuple[Monomial, int]]:
        """The product of two monomials, with no sine's power above 1, as monomials with signs."""
        powers: Dict[str, int] = dict(first)
        for name, power in second:
            powers[name] = powers.get(name, 0) + power
        found: List[Tuple[Dict[str, int], int]] = [(powers, 1)]
        for name in [name for name, power in powers.items() if power > 1 and name.startswith(SINE)]:
            cosine = COSINE + name[len(SINE):]
            for item, sign in list(found):  # each sine has power 2 here, as neither factor has one above 1
                del item[name]
                found.append(({**item, cosine: item.get(cosine, 0) + 2}, -sign))
        return [(tuple(sorted(item.items())), sign) for item, sign in found]

    def derived(self, name: str, angle: bool) -> Trigonometric:
        """The derivative by a length, or by the angle of this name."""
        found = number(0)
        for key, value in self.terms.items():
            for at, (factor, power) in enumerate(key):
                rest = Trigonometric({(*key[:at], *([(factor, power - 1)] if power > 1 else []), *key[at + 1:]): value * power})
                if angle and factor == COSINE + name:
                    found += rest * -symbol(SINE + name)
                elif angle and factor == SINE + name:
                    found += rest * symbol(COSINE + name)
                elif not angle and factor == name:
                    found += rest
        return found


def number(value: Union[int, Fraction]) -> Trigonometric:
    return Trigonometric({(): Fraction(value)})


def symbol(name: str) -> Trigonometric:
    return Trigonometric({((name, 1),): Fraction(1)})


def total(parts: Iterable[Trigonometric]) -> Trigonometric:
    found = number(0)
    for part in parts:
        found += part
    return found


def determinant(rows: Sequence[Sequence[Trigonometric]]) -> Trigonometric:
    """By the first row."""
    if not rows:
        return number(1)
    found = number(0)
    for k, entry in enumerate(rows[0]):
        if entry.terms:
            minor = entry * determinant([[*row[:k], *row[k + 1:]] for row in rows[1:]])
            found = found - minor if k % 2 else found + minor
    return found


# ---- fixed angles

def rational_turn(degrees: Fraction, places: int) -> Tuple[Fraction, Fraction, bool]:
    """The cosine and sine of an angle by a rational point of the circle, and whether it is that angle's own, as that of each
    multiple of 90 degrees is. Else its angle is within 10^-places radians: the tangent t of half the rest, which is at most
    45 degrees, is rounded, and the point is ((1 - t^2)/(1 + t^2), 2 t/(1 + t^2))."""
    quarters = round(degrees / 90)
    rest = degrees - 90 * quarters
    t = Fraction(round(math.tan(math.radians(float(rest)) / 2) * 10 ** places), 10 ** places)
    c, s = (1 - t * t) / (1 + t * t), 2 * t / (1 + t * t)
    for _ in range(quarters % 4):
        c, s = -s, c
    return c, s, rest == 0


# ---- texts

Terms = List[Tuple[bool, str]]  # whether a term is subtracted, and its text


def number_text(value: Fraction) -> str:
    """A number not below 0 as the profile takes it, as a decimal or a quotient; ValueError where it has too many digits."""
    text = minibex(value)
    if text is None:
        above, below = minibex(value.numerator), minibex(value.denominator)
        if above is None or below is None:
            raise ValueError(f"the number {float(value):.9g} has more digits than 37")
        text = f"{above}/{below}"
    return text


def terms_of(p: Trigonometric, order: Sequence[FrozenSet[str]], spelled: Mapping[str, str]) -> Terms:
    """The terms of a nested sum: the first group of names that occurs is put outside, so that later ones are named once."""
    value = p.number
    if value is not None:
        return [(value < 0, number_text(abs(value)))]
    names = p.names
    group = next(group for group in order if group & names)
    parts: Dict[Monomial, Dict[Monomial, Fraction]] = {}
    for key, coefficient in p.terms.items():
        outer = tuple(item for item in key if item[0] in group)
        parts.setdefault(outer, {})[tuple(item for item in key if item[0] not in group)] = coefficient
    found: Terms = []
    for outer, rest in sorted(parts.items(), key=lambda item: (not item[0], item[0])):
        inner = terms_of(Trigonometric(rest), order, spelled)
        factor = "*".join(spelled[name] + (f"^{power}" if power > 1 else "") for name, power in outer)
        if not outer:
            found += inner
        elif len(inner) == 1:
            negative, text = inner[0]
            found.append((negative, factor if text == "1" else f"{text}*{factor}"))
        else:
            found.append((False, f"{factor}*({joined(inner)})"))
    return found


def joined(terms: Terms) -> str:
    first, *rest = terms
    return ("-" if first[0] else "") + first[1] + "".join((" - " if negative else " + ") + text for negative, text in rest)


def expression(p: Trigonometric, order: Sequence[FrozenSet[str]], spelled: Mapping[str, str]) -> str:
    """A polynomial as Minibex writes it; each name has its text in `spelled` and stands in one group of `order`."""
    return joined(terms_of(p, order, spelled))
