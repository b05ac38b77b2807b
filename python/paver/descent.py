"""A point of a system's set at which an expression is low, found in floats: a hint alone, which nothing rests on.

Gradient projection: a step down along the constraints that are active, and back into the set by Gauss-Newton steps.
"""
from __future__ import annotations

import math
import operator
import random
from collections.abc import Callable, Sequence
from fractions import Fraction
from time import process_time
from typing import Any, List

from .canonical import Constraint, Step, Steps, System

Point = List[float]
SPAN = 10.0  # of a start where a domain has no end
TINY = 1e-13
STEPS, TURNS, STARTS = 400, 25, 6
WORK: dict[str, Callable[[float, float], float]] = {  # signs of one argument have it twice
    "+": operator.add, "-": operator.sub, "*": operator.mul, "/": operator.truediv, "^": operator.pow, "min": min, "max": max,
    "neg": lambda x, _: -x, "abs": lambda x, _: abs(x)}


class Terms:
    """Expressions as one function of floats: a list of operations on numbers that are known by then, none worked out twice."""

    def __init__(self, expressions: Sequence[Steps], variables: int) -> None:
        self.constants: Point = []
        self.operations: list[tuple[Callable[..., float], int, int]] = []
        self.results: list[int] = []
        self._known: dict[tuple[Any, ...], int] = {("var", k): k for k in range(variables)}
        constants = {float_of(step[1]): None for steps in expressions for step in steps if step[0] == "const"}
        powers = {float(step[1]): None for steps in expressions for step in steps if step[0] == "^"}
        for value in dict.fromkeys((*constants, *powers)):
            self._known["const", value] = variables + len(self.constants)
            self.constants.append(value)
        self.size = variables + len(self.constants)
        for steps in expressions:
            stack: list[int] = []
            for step in steps:
                stack.append(self._placed(step, stack))
            self.results.append(stack[0])

    def _placed(self, step: Step, stack: list[int]) -> int:
        """The place of a step's number, whose arguments are taken from the stack."""
        kind = step[0]
        if kind == "var":
            return self._known[kind, step[1]]
        if kind == "const":
            return self._known[kind, float_of(step[1])]
        second = stack.pop()
        first = second
        if kind == "^":
            second = self._known["const", float(step[1])]
        elif kind not in ("neg", "abs"):
            first = stack.pop()
        key = (kind, first, second)
        if key not in self._known:
            self._known[key] = self.size + len(self.operations)
            self.operations.append((WORK[kind], first, second))
        return self._known[key]

    def at(self, x: Point) -> list[float]:
        """The expressions' values at a point; ZeroDivisionError or OverflowError where one has none."""
        found = [*x, *self.constants]
        add = found.append
        for work, first, second in self.operations:
            add(work(found[first], found[second]))
        return [found[place] for place in self.results]


def float_of(value: Fraction) -> float:
    try:
        return value.numerator / value.denominator
    except OverflowError:
        return 1e300 if value > 0 else -1e300


def slack_of(c: Constraint) -> list[Steps]:
    """Expressions that are at most 0 where the constraint holds."""
    below, above = [*c.left, *c.right, ("-",)], [*c.right, *c.left, ("-",)]
    return {"<=": [below], "<": [below], ">=": [above], ">": [above], "=": [below, above]}[c.relation]


class Field:
    """An objective and a system's constraints as one function of floats: the objective's value, then for each constraint a
    number that is at most 0 where it holds. Domains are constraints, too."""

    def __init__(self, system: System, objective: Steps, domains: Sequence[tuple[float, float]]) -> None:
        self.domains = list(domains)
        expressions = [objective, *(slack for c in system.constraints for slack in slack_of(c))]
        self.values = Terms(expressions, len(self.domains)).at

    def at(self, x: Point) -> list[float] | None:
        try:
            found = self.values(x)
        except (ZeroDivisionError, OverflowError):
            return None
        for value, (low, high) in zip(x, self.domains):
            found += [low - value] * (low > -math.inf) + [value - high] * (high < math.inf)
        return found if all(math.isfinite(value) for value in found) else None

    def slopes(self, x: Point) -> list[list[float]] | None:
        """For each number of `at` its differences by each variable."""
        columns = []
        for k, value in enumerate(x):
            step = 1e-7 * max(1.0, abs(value))
            first, second = (self.at([*x[:k], value + s, *x[k + 1:]]) for s in (step, -step))
            if first is None or second is None:
                return None
            columns.append([(a - b) / (2 * step) for a, b in zip(first, second)])
        return [list(row) for row in zip(*columns)]


def solved(rows: list[list[float]], right: list[float]) -> list[float] | None:
    """The solution of a small square system."""
    size, work = len(rows), [[*row, value] for row, value in zip(rows, right)]
    for i in range(size):
        best = max(range(i, size), key=lambda k: abs(work[k][i]))
        if abs(work[best][i]) < 1e-300:
            return None
        work[i], work[best] = work[best], work[i]
        for k in range(size):
            if k != i:
                share = work[k][i] / work[i][i]
                work[k] = [a - share * b for a, b in zip(work[k], work[i])]
    return [row[size] / row[i] for i, row in enumerate(work)]


def multipliers(rows: list[list[float]], right: list[float]) -> list[float] | None:
    """The least squares of J J' m = right; a little is added to the diagonal, so that dependent rows do no harm."""
    products = [[sum(map(float.__mul__, a, b)) for b in rows] for a in rows]
    most = max((products[i][i] for i in range(len(rows))), default=0.0) or 1.0
    for i in range(len(rows)):
        products[i][i] += 1e-12 * most
    return solved(products, right)


def moved(x: Point, rows: list[list[float]], factors: Sequence[float]) -> Point:
    return [value + sum(f * row[k] for f, row in zip(factors, rows)) for k, value in enumerate(x)]


def restored(field: Field, x: Point, margin: float) -> Point | None:
    """A point near x at which every constraint holds by the margin, or nearly; None where no step leads there."""
    for _ in range(TURNS):
        values = field.at(x)
        if values is None:
            return None
        bad = [i for i, value in enumerate(values[1:], 1) if value > -margin / 2]
        if not bad:
            return x
        slopes = field.slopes(x)
        if slopes is None:
            return None
        rows = [slopes[i] for i in bad]
        factors = multipliers(rows, [-values[i] - margin for i in bad])
        if factors is None:
            return None
        x = moved(x, rows, factors)
    return None


def direction(field: Field, x: Point, near: float) -> Point | None:
    """The way down along the constraints that are active."""
    values, slopes = field.at(x), field.slopes(x)
    if values is None or slopes is None:
        return None
    active = [i for i, value in enumerate(values[1:], 1) if value > -near]
    while True:
        rows = [slopes[i] for i in active]
        factors = multipliers(rows, [-sum(map(float.__mul__, row, slopes[0])) for row in rows]) if rows else []
        if factors is None:
            return None
        leaving = [i for i, factor in zip(active, factors) if factor < -1e-9]
        if not leaving:
            break
        active.remove(min(zip(factors, active))[1])
    return [-a for a in moved(slopes[0], rows, factors)]


def improved(field: Field, x: Point, margin: float, enough: float, until: float) -> Point:
    """A point of the set with a lower value, from one of the set; it ends where ten steps win no more than `enough`."""
    values, step, before = field.at(x), 0.1, math.inf
    for turn in range(STEPS):
        if values is None:
            return x
        if turn % 10 == 0:
            if before - values[0] < enough:
                return x
            before = values[0]
        way = direction(field, x, 4 * margin + TINY)
        length = math.sqrt(sum(a * a for a in way)) if way else 0.0
        if way is None or length < 1e-9 or process_time() > until:
            return x
        while step * length > TINY:
            there = restored(field, [a + step * b for a, b in zip(x, way)], margin)
            found = field.at(there) if there else None
            if there and found is not None and found[0] < values[0] - 1e-4 * step * length * length:
                x, values, step = there, found, step * 3
                break
            step /= 4
        else:
            return x
    return x


def starts(domains: Sequence[tuple[float, float]], count: int) -> list[Point]:
    """The middle of the box, and points that are drawn in it, the same each time."""
    finite = [(max(low, min(high, 0) - SPAN), min(high, max(low, 0) + SPAN)) for low, high in domains]
    source = random.Random(1)
    return [[(low + high) / 2 for low, high in finite],
            *([source.uniform(low, high) for low, high in finite] for _ in range(count - 1))]


def low_point(field: Field, seconds: float, enough: float, begin: Sequence[Point] = (), margin: float = 1e-9
              ) -> Point | None:
    """The best point of several descents, from these points or from some of the box; None where none ended in the set."""
    best, value, until = None, math.inf, process_time() + seconds
    for x in begin or starts(field.domains, STARTS):
        there = restored(field, list(x), margin)
        if there is None:
            continue
        there = improved(field, there, margin, enough, until)
        found = field.at(there)
        if found is not None and found[0] < value:
            best, value = there, found[0]
        if process_time() > until:
            break
    return best
