"""Polynomials in named variables with exact coefficients, quotients of them, and how Minibex writes them."""
from __future__ import annotations

from collections.abc import Iterable, Mapping, Sequence
from dataclasses import dataclass
from fractions import Fraction
from typing import ClassVar, Dict, Optional, Tuple, TypeVar, Union

from . import intervals as iv
from .numbers import minibex

Monomial = Tuple[Tuple[str, int], ...]  # names in order, each with its power from 1
Number = Union[int, Fraction]
Kind = TypeVar("Kind", bound="Polynomial")
MOST_TERMS = 1500  # of one polynomial on the way


class TooLong(ValueError):
    """A polynomial with more terms than can be written."""


class Polynomial:
    """A sum of monomials with coefficients other than 0. A kind of polynomials whose variables obey a law says in `products`
    what comes of two monomials."""
    __slots__ = ("terms",)
    most_terms: ClassVar[Optional[int]] = MOST_TERMS

    def __init__(self, terms: Mapping[Monomial, Fraction]) -> None:
        self.terms: Dict[Monomial, Fraction] = {m: c for m, c in terms.items() if c}
        if self.most_terms is not None and len(self.terms) > self.most_terms:
            raise TooLong(f"a polynomial of more than {self.most_terms} terms")

    @staticmethod
    def products(first: Monomial, second: Monomial) -> Sequence[Tuple[Monomial, int]]:
        """The product of two monomials as monomials with signs."""
        return ((joined(first, second), 1),)

    def __add__(self: Kind, other: Kind) -> Kind:
        found = dict(self.terms)
        for monomial, coefficient in other.terms.items():
            found[monomial] = found.get(monomial, Fraction(0)) + coefficient
        return type(self)(found)

    def __neg__(self: Kind) -> Kind:
        return type(self)({m: -c for m, c in self.terms.items()})

    def __sub__(self: Kind, other: Kind) -> Kind:
        return self + -other

    def __mul__(self: Kind, other: Kind) -> Kind:
        found: Dict[Monomial, Fraction] = {}
        for first, a in self.terms.items():
            for second, b in other.terms.items():
                for monomial, sign in self.products(first, second):
                    found[monomial] = found.get(monomial, Fraction(0)) + sign * a * b
        return type(self)(found)

    def __pow__(self: Kind, exponent: int) -> Kind:
        found = type(self)({(): Fraction(1)})
        for _ in range(exponent):
            found = found * self
        return found

    def __eq__(self, other: object) -> bool:
        return isinstance(other, Polynomial) and self.terms == other.terms

    def __hash__(self) -> int:
        return hash(frozenset(self.terms.items()))

    def __bool__(self) -> bool:
        return bool(self.terms)

    @property
    def names(self) -> set[str]:
        return {name for monomial in self.terms for name, _ in monomial}

    @property
    def number(self) -> Optional[Fraction]:
        """Its value if it has no variables, else None."""
        return None if self.names else self.terms.get((), Fraction(0))

    def degree(self, name: str) -> int:
        return max((dict(monomial).get(name, 0) for monomial in self.terms), default=0)

    def in_powers_of(self, name: str) -> list[Polynomial]:
        """The coefficients of the powers of a variable, from that of power 0 on."""
        parts: list[Dict[Monomial, Fraction]] = [{} for _ in range(self.degree(name) + 1)]
        for monomial, coefficient in self.terms.items():
            rest = tuple(pair for pair in monomial if pair[0] != name)
            parts[dict(monomial).get(name, 0)][rest] = coefficient
        return [Polynomial(part) for part in parts]

    def substituted(self, values: Mapping[str, Polynomial]) -> Polynomial:
        """With other polynomials in the place of some variables."""
        found = ZERO
        for monomial, coefficient in self.terms.items():
            term = constant(coefficient)
            for name, power in monomial:
                term = term * (values[name] if name in values else variable(name)) ** power
            found = found + term
        return found

    def value(self, point: Mapping[str, Number]) -> Fraction:
        values = (c * product(Fraction(point[name]) ** power for name, power in m) for m, c in self.terms.items())
        return sum(values, Fraction(0))

    def bounds(self, box: Mapping[str, iv.Interval]) -> iv.Interval:
        """An interval that holds its values on a box, by its monomials."""
        found = iv.point(Fraction(0))
        for monomial, coefficient in self.terms.items():
            term = iv.point(coefficient)
            for name, power in monomial:
                term = iv.times(term, iv.power(box[name], power))
            found = iv.plus(found, term)
        return found

    def derivative(self, name: str) -> Polynomial:
        return sum_of([constant(k) * part * variable(name) ** (k - 1)
                       for k, part in enumerate(self.in_powers_of(name)) if k])


def product(numbers: Iterable[Fraction]) -> Fraction:
    found = Fraction(1)
    for number in numbers:
        found *= number
    return found


def joined(first: Monomial, second: Monomial) -> Monomial:
    if not first or not second:
        return first or second
    powers = dict(first)
    for name, power in second:
        powers[name] = powers.get(name, 0) + power
    return tuple(sorted(powers.items()))


def constant(value: Number) -> Polynomial:
    return Polynomial({(): Fraction(value)})


def variable(name: str) -> Polynomial:
    return Polynomial({((name, 1),): Fraction(1)})


ZERO, ONE = constant(0), constant(1)


def sum_of(parts: Iterable[Polynomial]) -> Polynomial:
    found = ZERO
    for part in parts:
        found = found + part
    return found


def determinant(rows: Sequence[Sequence[Polynomial]]) -> Polynomial:
    """By Laplace's expansion along rows; each minor of the last rows is worked out once."""
    known: Dict[Tuple[int, ...], Polynomial] = {(): ONE}

    def minor(columns: Tuple[int, ...]) -> Polynomial:
        if columns not in known:
            row = rows[len(rows) - len(columns)]
            found = ZERO
            for i, column in enumerate(columns):
                if row[column]:
                    part = row[column] * minor(columns[:i] + columns[i + 1:])
                    found = found - part if i % 2 else found + part
            known[columns] = found
        return known[columns]

    return minor(tuple(range(len(rows))))


@dataclass(frozen=True)
class Quotient:
    """A numerator over a product of factors. Factors are kept apart so that sums have no more of them than they need; nothing
    is cancelled between numerator and factors."""
    numerator: Polynomial
    factors: Tuple[Polynomial, ...] = ()

    @property
    def denominator(self) -> Polynomial:
        found = ONE
        for factor in self.factors:
            found = found * factor
        return found

    def __add__(self, other: Quotient) -> Quotient:
        mine, theirs = list(self.factors), []
        for factor in other.factors:
            if factor in mine:
                mine.remove(factor)
            else:
                theirs.append(factor)
        first = Quotient(self.numerator, tuple(theirs)).times_factors()
        second = Quotient(other.numerator, tuple(mine)).times_factors()
        return Quotient(first + second, (*self.factors, *theirs))

    def times_factors(self) -> Polynomial:
        return self.numerator * self.denominator

    def __neg__(self) -> Quotient:
        return Quotient(-self.numerator, self.factors)

    def __mul__(self, other: Quotient) -> Quotient:
        return Quotient(self.numerator * other.numerator, (*self.factors, *other.factors))

    def inverse(self) -> Quotient:
        """One over it; ZeroDivisionError if it is 0."""
        number = self.numerator.number
        if number == 0:
            raise ZeroDivisionError
        if number is not None:
            return Quotient(self.denominator * constant(1 / number))
        return Quotient(self.denominator, (self.numerator,))

    def __pow__(self, exponent: int) -> Quotient:
        found = Quotient(ONE)
        for _ in range(exponent):
            found = found * self
        return found


def number_text(value: Fraction) -> str:
    """A number from 0 on as Minibex writes it, as a quotient if it has no short decimal form."""
    found = minibex(value)
    if found is not None and (value.denominator == 1 or len(found) <= 12):
        return found
    top = whole_text(value.numerator)
    return top if value.denominator == 1 else f"{top}/{whole_text(value.denominator)}"


def whole_text(value: int) -> str:
    """A whole number; one of too many digits for a number of Minibex as its parts of 30 digits."""
    found = minibex(Fraction(value))
    if found is not None:
        return found
    first, last = divmod(value, 10 ** 30)
    return f"({whole_text(first)}*1e30 + {last})"


def written(p: Polynomial, calls: Mapping[str, str]) -> str:
    """A polynomial as Minibex writes it, with other texts in the place of some names: short ones as a sum of monomials, long
    ones nested by the name that stands in most terms."""
    if len(p.terms) <= 6:
        return sum_text(p, calls)
    counts = {name: sum(any(n == name for n, _ in m) for m in p.terms) for name in sorted(p.names)}
    name = max(counts, key=lambda n: counts[n])
    if counts[name] < 2:
        return sum_text(p, calls)
    inner: Dict[Monomial, Fraction] = {}
    rest: Dict[Monomial, Fraction] = {}
    for monomial, coefficient in p.terms.items():
        powers = dict(monomial)
        if name in powers:
            powers[name] -= 1
            inner[tuple((n, k) for n, k in sorted(powers.items()) if k)] = coefficient
        else:
            rest[monomial] = coefficient
    head = f"{calls.get(name, name)}*({written(Polynomial(inner), calls)})"
    if not rest:
        return head
    tail = written(Polynomial(rest), calls)
    return f"{head} - {tail[1:]}" if tail.startswith("-") else f"{head} + {tail}"


def sum_text(p: Polynomial, calls: Mapping[str, str]) -> str:
    """The sum of its monomials, the highest first."""
    found = ""
    for monomial, coefficient in sorted(p.terms.items(), key=lambda term: (-sum(k for _, k in term[0]), term[0])):
        factors = [calls.get(name, name) + (f"^{power}" if power > 1 else "") for name, power in monomial]
        if abs(coefficient) != 1 or not factors:
            factors.insert(0, number_text(abs(coefficient)))
        term = "*".join(factors)
        sign = "-" if coefficient < 0 else "+"
        found = f"{found} {sign} {term}" if found else ("-" if coefficient < 0 else "") + term
    return found or "0"
