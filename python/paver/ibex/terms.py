"""Scalar terms of the profile, their values where they are constant, and their texts.

A term is ("number", Fraction), ("constant", name, Fraction), ("name", name), ("neg", a), (sign, a, b) for + - * /,
("^", a, n) with n from 0 to 32, or ("call", function, arguments).
"""
from __future__ import annotations

from collections.abc import Callable, Sequence
from fractions import Fraction
from operator import add, mul, neg, sub, truediv
from typing import Any, Tuple

from ..numbers import Exact, minibex, wide
from .refusals import Refusal, Work

MOST_POWER = 32
MOST_STEPS = 200_000  # of writing and working out terms; a text of the profile has at most 65,536 bytes
WORK = [Work(MOST_STEPS)]  # of the file that is translated
RANK = {"+": 1, "-": 1, "*": 2, "/": 2, "neg": 3, "^": 4}
CALLS: dict[str, Callable[..., Fraction]] = {"abs": abs, "sqr": lambda x: x * x, "min": min, "max": max}
SIGNS: dict[str, Callable[..., Fraction]] = {"neg": neg, "+": add, "-": sub, "*": mul, "/": truediv}

Term = Tuple[Any, ...]


def number(value: Exact | int) -> Term:
    return ("number", Fraction(value))


def value_of(term: Term) -> Fraction | None:
    """The value of a constant term; None of every other, and where a divisor is 0."""
    kind = term[0]
    if kind == "number":
        return term[1]
    if kind == "constant":
        return term[2]
    if kind == "name" or has_names(term):
        return None
    parts = [value_of(part) for part in (term[2] if kind == "call" else term[1:] if kind != "^" else term[1:2])]
    if None in parts or (kind == "call" and term[1] not in CALLS) or (kind == "/" and parts[1] == 0):
        return None
    if kind == "call":
        return CALLS[term[1]](*parts)
    if kind == "^":
        return parts[0] ** term[2]
    return SIGNS[kind](*parts)


def raised(base: Term, n: int) -> Term:
    """A term for base^n: a power above 32 is a power of a power where n has a divisor, else a product."""
    if n < 0:
        return ("/", number(1), raised(base, -n))
    if n <= MOST_POWER:
        return ("^", base, n)
    for divisor in range(MOST_POWER, 1, -1):
        if n % divisor == 0:
            return ("^", raised(base, n // divisor), divisor)
    return ("*", base, raised(base, n - 1))


def text_of(term: Term, line: int) -> str:
    """The term in Minibex with few parentheses; Refusal where a number is too long."""
    return written(term, line)[0]


def written(term: Term, line: int) -> tuple[str, int]:
    WORK[0].step(line)
    kind = term[0]
    if kind == "number":
        return number_text(term[1], line)
    if kind in ("constant", "name"):
        return term[1], 5
    if kind == "call":
        return f"{term[1]}({', '.join(text_of(a, line) for a in term[2])})", 5
    if kind == "neg":
        return f"-{wrapped(term[1], 3, line)}", 3
    if kind == "^":
        return f"{wrapped(term[1], 5, line)}^{term[2]}", 4
    rank = RANK[kind]
    left, right = wrapped(term[1], rank, line), wrapped(term[2], rank + 1, line)
    if right.startswith("-"):
        right = f"({right})"
    return f"{left} {kind} {right}" if rank == 1 else f"{left}{kind}{right}", rank


def wrapped(term: Term, rank: int, line: int) -> str:
    text, own = written(term, line)
    return text if own >= rank else f"({text})"


def number_text(value: Fraction, line: int) -> tuple[str, int]:
    text = minibex(value)
    if text is not None:
        return text, 5 if value >= 0 else 3
    above, below = minibex(value.numerator), minibex(value.denominator)
    if above is None or below is None:
        raise Refusal(line, f"the number {wide(value)}, which has more than 37 digits", "round it")
    return f"{above}/{below}", 2


def has_names(term: Term) -> bool:
    """Whether a term depends on a variable or parameter. A part that stands in several places is looked at once."""
    waiting, seen = [term], set()
    while waiting:
        part = waiting.pop()
        kind = part[0]
        if kind == "name":
            return True
        if kind in ("number", "constant") or id(part) in seen:
            continue
        seen.add(id(part))
        waiting += part[2] if kind == "call" else part[1:] if kind != "^" else part[1:2]
    return False


class Array:
    """Rows and columns of terms, row by row; a scalar has one of each."""

    def __init__(self, rows: int, columns: int, terms: list[Term]) -> None:
        self.rows, self.columns, self.terms = rows, columns, terms

    @property
    def shape(self) -> tuple[int, int]:
        return self.rows, self.columns

    @property
    def is_scalar(self) -> bool:
        return self.shape == (1, 1)

    def row(self, i: int) -> list[Term]:
        return self.terms[i * self.columns:(i + 1) * self.columns]

    def transposed(self) -> Array:
        return Array(self.columns, self.rows, [self.terms[i * self.columns + j] for j in range(self.columns)
                                               for i in range(self.rows)])

    def each(self, work: Callable[[Term], Term]) -> Array:
        return Array(self.rows, self.columns, [work(term) for term in self.terms])


def scalar(term: Term) -> Array:
    return Array(1, 1, [term])


def product(a: Array, b: Array, line: int) -> Array:
    """The product of arrays: scalar times array, or of matrices."""
    if a.is_scalar:
        return b.each(lambda term: ("*", a.terms[0], term))
    if b.is_scalar:
        return a.each(lambda term: ("*", term, b.terms[0]))
    if a.columns != b.rows:
        raise Refusal(line, f"a product of {a.rows} x {a.columns} and {b.rows} x {b.columns} entries",
                      "transpose one by `'`, or write the entries out")
    columns = [b.terms[j::b.columns] for j in range(b.columns)]
    return Array(a.rows, b.columns, [summed([("*", x, y) for x, y in zip(a.row(i), column)])
                                     for i in range(a.rows) for column in columns])


def summed(terms: Sequence[Term]) -> Term:
    total = terms[0]
    for term in terms[1:]:
        total = ("+", total, term)
    return total


def by_entries(sign: str, a: Array, b: Array, line: int) -> Array:
    if a.is_scalar and not b.is_scalar:
        a = Array(b.rows, b.columns, a.terms * len(b.terms))
    if b.is_scalar and not a.is_scalar:
        b = Array(a.rows, a.columns, b.terms * len(a.terms))
    if a.shape != b.shape:
        raise Refusal(line, f"`{sign}` between {a.rows} x {a.columns} and {b.rows} x {b.columns} entries",
                      "give both sides one shape, or write the entries out")
    return Array(a.rows, a.columns, [(sign, x, y) for x, y in zip(a.terms, b.terms)])
