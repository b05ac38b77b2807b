"""What the expressions of a file mean: arrays of scalar terms."""
from __future__ import annotations

import math
from collections.abc import Iterable, Sequence
from fractions import Fraction
from typing import Tuple

from .. import minibex as profile
from ..numbers import Exact, wide
from . import terms
from .refusals import INSTEAD, Overrun, Refusal, Work, refused_word
from .syntax import Expression, Local, Parameter
from .terms import Array, Term, scalar

ARGUMENTS = {"abs": 1, "sqr": 1}
MOST_PARAMETERS = 12
MOST_TURNS = 10000  # of one loop or sum, and of a power
MOST_ENTRIES = 10000  # of one array
MOST_STEPS = 50_000  # of working out expressions and turns of loops, in one file
SQUARE_ROOT = ("is the variable {name} with {name}^2 = its argument: an equation, so no box is inner, and where the root is no "
               "rational number nothing is promised of it. Widened, as {name}^2 >= e - d; {name}^2 <= e + d, a removed box has "
               "no real solution in its interior; squared by hand, sqrt(a) <= b is a <= b^2; a >= 0; b >= 0")


Ends = Tuple[Exact, Exact]
Domain = Tuple[str, Exact, Exact, int]  # a variable, its ends and its line


class IntervalConstant:
    """low and high are exact values, Fractions or ±math.inf."""

    def __init__(self, low: Exact, high: Exact) -> None:
        self.low, self.high = low, high


class Scope:
    """What names mean: constants, variables and functions of the file, and the loops and parameters around."""

    def __init__(self, declared: Iterable[str] = ()) -> None:
        self.names: dict[str, Array | IntervalConstant] = {}
        self.functions: dict[str, Function] = {}
        self.declared, self.taken = set(declared), set(profile.RESERVED)
        self.variables: list[Domain] = []
        self.variable_names: set[str] = set()
        self.extra: list[Domain] = []  # of the variables that stand for intervals and roots
        self.intervals: dict[str, str] = {}  # the variable of an interval's name
        self.roots: dict[str, str] = {}  # the variable of the root of an argument's text
        self.more: list[tuple[int, str]] = []  # constraints by their lines
        self.kept: list[str] = []  # the texts of functions
        self.notes: list[str] = []
        self.keeping, self.work = False, Work(MOST_STEPS)

    def fresh(self, wanted: str, own: str | None = None) -> str:
        """A name that is not taken, near the wanted one: own is the declared name that may be taken."""
        name = wanted
        while name in self.taken or (name in self.declared and name != own):
            name += "_"
        self.taken.add(name)
        return name

    def without_variables(self) -> Scope:
        """The scope of a function's body."""
        bare = Scope.__new__(Scope)
        bare.__dict__.update(self.__dict__)
        bare.names = {name: value for name, value in self.names.items() if name not in self.variable_names}
        return bare


class Evaluator:
    def __init__(self, scope: Scope, local: dict[str, Array] | None = None) -> None:
        self.scope, self.local = scope, local or {}

    def within(self, name: str, value: Array) -> Evaluator:
        return Evaluator(self.scope, {**self.local, name: value})

    # ---- constants

    def number(self, e: Expression) -> Fraction:
        """The exact value of a constant scalar expression; Refusal of every other."""
        term = self.scalar(e)
        value = terms.value_of(term)
        if value is None:
            raise Refusal(e[1], "a value that is not constant here", "a number, or an expression of constants")
        return value

    def whole(self, e: Expression) -> int:
        value = self.number(e)
        if value.denominator != 1:
            raise Refusal(e[1], f"{value} as a whole number", "a whole number")
        return int(value)

    def turns(self, line: int, low: Expression, high: Expression) -> range:
        """The numbers that an index runs through."""
        first, last = self.whole(low), self.whole(high)
        if last - first > MOST_TURNS:
            raise Refusal(line, f"a loop of {last - first + 1} turns", f"at most {MOST_TURNS} turns")
        for _ in range(first, last + 1):
            self.scope.work.step(line)
        return range(first, last + 1)

    def end(self, e: Expression) -> Exact:
        """A bound: an exact value, which may be infinite."""
        if e[0] == "oo":
            return math.inf
        if e[0] == "neg" and e[2][0] == "oo":
            return -math.inf
        return self.number(e)

    def interval(self, e: Expression) -> Ends | None:
        """The two ends of an interval literal or constant, or None where e is neither."""
        if e[0] == "interval":
            low, high = self.end(e[2]), self.end(e[3])
            if low > high or low == math.inf or high == -math.inf:
                raise Refusal(e[1], "an empty interval", "a lower end that is not above the upper one")
            return low, high
        if e[0] == "name":
            found = self.local.get(e[2], self.scope.names.get(e[2]))
            if isinstance(found, IntervalConstant):
                return found.low, found.high
        return None

    def scalar(self, e: Expression) -> Term:
        found = self.value(e)
        if not found.is_scalar:
            raise Refusal(e[1], f"{found.rows} x {found.columns} entries where one is needed", "an index")
        return found.terms[0]

    # ---- expressions

    def value(self, e: Expression) -> Array:
        """The Array of an expression."""
        self.scope.work.step(e[1])
        kind = e[0]
        if kind in ("+", "-"):
            return terms.by_entries(kind, self.value(e[2]), self.value(e[3]), e[1])
        if kind == "*":
            return terms.product(self.value(e[2]), self.value(e[3]), e[1])
        if kind == "/":
            divisor = self.scalar(e[3])
            return self.value(e[2]).each(lambda term: ("/", term, divisor))
        work = {"number": self.literal, "name": self.named, "apply": self.applied, "at": self.indexed,
                "neg": self.negated, "transpose": lambda e: self.value(e[2]).transposed(), "^": self.power,
                "list": self.listed, "interval": self.chosen, "sum": self.summed}.get(kind)
        if work is None:
            form = {"oo": "`oo` in an expression", "all": "`:` alone", "span": "a span of indices"}[kind]
            raise Refusal(e[1], form, "a number or an index")
        return work(e)

    def literal(self, e: Expression) -> Array:
        return scalar(terms.number(e[2]))

    def negated(self, e: Expression) -> Array:
        return self.value(e[2]).each(lambda term: terms.number(-term[1]) if term[0] == "number" else ("neg", term))

    def named(self, e: Expression) -> Array:
        name = e[2]
        found = self.local.get(name, self.scope.names.get(name))
        if isinstance(found, IntervalConstant):
            return self.chosen(e)
        if found is not None:
            return found
        if name in INSTEAD:
            raise refused_word(e[1], name)
        raise Refusal(e[1], f"the name `{name}`, which is not declared", "a declaration of it")

    def chosen(self, e: Expression) -> Array:
        """An interval in an expression is a new variable: the constraint is met where it is for some value of it."""
        ends = self.interval(e)
        assert ends is not None
        low, high = ends
        if low == high:
            return scalar(terms.number(low))
        known = e[2] if e[0] == "name" else None
        if known in self.scope.intervals:
            return scalar(("name", self.scope.intervals[known]))
        name = self.scope.fresh(known or f"interval_{len(self.scope.extra) + 1}", known)
        self.scope.extra.append((name, low, high, e[1]))
        if known:
            self.scope.intervals[known] = name
        self.scope.notes.append(f"line {e[1]}: the interval is the variable {name}, with one value for all constraints")
        return scalar(("name", name))

    def power(self, e: Expression) -> Array:
        base, n = self.scalar(e[2]), self.number_of_exponent(e)
        if abs(n) > MOST_TURNS:
            raise Refusal(e[1], f"the exponent {wide(n)}", f"one up to {MOST_TURNS}")
        if n.denominator != 1:
            raise Refusal(e[1], f"the exponent {n}, which is no whole number", INSTEAD["root"])
        return scalar(terms.raised(base, int(n)))

    def number_of_exponent(self, e: Expression) -> Fraction:
        try:
            return self.number(e[3])
        except Overrun:
            raise
        except Refusal as fault:
            raise Refusal(e[1], "an exponent that is not constant", "a constant whole exponent, or a variable for the "
                          "whole power") from fault

    def summed(self, e: Expression) -> Array:
        _, line, name, low, high, body = e
        total: Array | None = None
        for k in self.turns(line, low, high):
            part = self.within(name, scalar(terms.number(k))).value(body)
            total = part if total is None else terms.by_entries("+", total, part, line)
        return scalar(terms.number(0)) if total is None else total

    def listed(self, e: Expression) -> Array:
        """`(a, b)` is a row, `(a; b)` a column; a list of rows, or of columns, is a matrix."""
        _, line, separator, entries = e
        parts = [self.value(entry) for entry in entries]
        if all(part.is_scalar for part in parts):
            found = [part.terms[0] for part in parts]
            return Array(1, len(found), found) if separator == "," else Array(len(found), 1, found)
        if len({part.shape for part in parts}) > 1:
            raise Refusal(line, "a list of entries of several shapes", "one shape")
        if parts[0].rows == 1:
            return Array(len(parts), parts[0].columns, [term for part in parts for term in part.terms])
        if parts[0].columns == 1:
            found = [term for part in parts for term in part.terms]
            return Array(len(parts), parts[0].rows, found).transposed()
        raise Refusal(line, "an array of matrices", "names for its entries")

    # ---- indices and calls

    def indexed(self, e: Expression) -> Array:
        _, line, base, indices, first = e
        if base[0] == "at" and first == 0 and len(indices) == 1 and base[4] == 0 and len(base[3]) == 1:
            return self.picked(self.value(base[2]), [base[3][0], indices[0]], 0, line)
        return self.picked(self.value(base), indices, first, line)

    def picked(self, array: Array, indices: Sequence[Expression], first: int, line: int) -> Array:
        if len(indices) == 1 and array.rows == 1 and array.columns > 1:
            indices = [("number", line, Fraction(first)), *indices]
        if len(indices) == 1:
            indices = [*indices, ("all", line)]
        if len(indices) != 2:
            raise Refusal(line, f"{len(indices)} indices", "one or two")
        rows = self.places(indices[0], array.rows, first, line)
        columns = self.places(indices[1], array.columns, first, line)
        return Array(len(rows), len(columns), [array.row(i)[j] for i in rows for j in columns])

    def places(self, index: Expression, count: int, first: int, line: int) -> list[int]:
        """The places, from 0, that an index names."""
        if index[0] == "all":
            return list(range(count))
        low = self.whole(index[2] if index[0] == "span" else index)
        high = self.whole(index[3]) if index[0] == "span" else low
        if low < first or high >= count + first or high < low:
            raise Refusal(line, f"the index {low if low == high else f'{low}:{high}'}",
                          f"one from {first} to {count + first - 1}: `x(i)` counts from 1, `x[i]` from 0")
        return list(range(low - first, high - first + 1))

    def applied(self, e: Expression) -> Array:
        _, line, name, arguments = e
        if name in self.local or name in self.scope.names:
            return self.picked(self.named(("name", line, name)), arguments, 1, line)
        if name in INSTEAD and (name != "sqrt" or len(arguments) != 1 or self.scope.keeping):
            raise refused_word(line, name)
        found = [self.value(argument) for argument in arguments]
        if name == "sqrt":
            return found[0].each(lambda term: self.rooted(term, line))
        if name in ("min", "max") and len(found) >= 2:
            nested = self.scalar(arguments[-1])
            for argument in reversed(arguments[:-1]):
                nested = ("call", name, (self.scalar(argument), nested))
            return scalar(nested)
        if ARGUMENTS.get(name) == len(found):
            return found[0].each(lambda term: ("call", name, (term,)))
        if name not in self.scope.functions:
            raise Refusal(line, f"the function `{name}` of {len(found)}", "its definition by + - * / ^ abs sqr min max")
        return self.called(line, name, found)

    def rooted(self, term: Term, line: int) -> Term:
        """A square root is a new variable with an equation; of a square of a number it is that number."""
        value = terms.value_of(term)
        if value is not None and value >= 0:
            root = Fraction(math.isqrt(value.numerator), math.isqrt(value.denominator))
            if root * root == value:
                return terms.number(root)
        text = terms.text_of(term, line)
        if text not in self.scope.roots:
            name = self.scope.fresh(f"sqrt_{1 + len(self.scope.roots)}")
            self.scope.extra.append((name, Fraction(0), math.inf, line))
            self.scope.more.append((line, f"{name}^2 = {text}"))
            self.scope.roots[text] = name
            self.scope.notes.append(f"line {line}: sqrt {SQUARE_ROOT.format(name=name)}")
        return ("name", self.scope.roots[text])

    def under_root(self, e: Expression) -> Term | None:
        """The argument of an expression that is the square root of one that is not constant; None of every other."""
        if e[0] != "apply" or e[2] != "sqrt" or len(e[3]) != 1 or self.scope.keeping:
            return None
        if "sqrt" in self.local or "sqrt" in self.scope.names or "sqrt" in self.scope.functions:
            return None
        argument = self.value(e[3][0])
        return argument.terms[0] if argument.is_scalar and terms.value_of(argument.terms[0]) is None else None

    def called(self, line: int, name: str, arguments: Sequence[Array]) -> Array:
        function = self.scope.functions[name]
        if len(arguments) != len(function.parameters):
            raise Refusal(line, f"{len(arguments)} arguments of `{name}`", f"{len(function.parameters)}")
        if all(argument.is_scalar for argument in arguments) and function.is_kept(self):
            return scalar(("call", function.kept_name, tuple(argument.terms[0] for argument in arguments)))
        return function.body_for(self, arguments)


class Function:
    """A function of the file: it is kept as one where its parameters and value are scalars, and else written out."""

    def __init__(self, name: str, line: int, parameters: Sequence[Parameter], local: Sequence[Local], body: Expression) -> None:
        self.name, self.line, self.parameters, self.local, self.body = name, line, parameters, local, body
        self.kept_name: str | None = None
        self.tried = False

    def body_for(self, evaluator: Evaluator, arguments: Sequence[Array]) -> Array:
        """The body with arguments in place of the parameters. No variable and no loop is known there."""
        inner = Evaluator(evaluator.scope.without_variables(), {})
        for (name, dims), argument in zip(self.parameters, arguments):
            shape = shape_of(inner, dims)
            if argument.shape != shape and argument.transposed().shape != shape:
                raise Refusal(self.line, f"an argument of {argument.rows} x {argument.columns} entries for `{name}`",
                              f"one of {shape[0]} x {shape[1]}")
            inner.local[name] = argument if argument.shape == shape else argument.transposed()
        for _, name, e in self.local:
            inner.local[name] = inner.value(e)
        return inner.value(self.body)

    def is_kept(self, evaluator: Evaluator) -> bool:
        """Whether it is kept; its text is worked out once."""
        if not self.tried:
            self.tried = True
            self.keep(evaluator)
        return self.kept_name is not None

    def keep(self, evaluator: Evaluator) -> None:
        if len(self.parameters) > MOST_PARAMETERS or any(dims for _, dims in self.parameters):
            return
        names: list[str] = []
        for name, _ in self.parameters:
            while name in profile.RESERVED or name in evaluator.scope.functions or name in names:
                name += "_"
            names.append(name)
        evaluator.scope.keeping = True
        try:
            body = self.body_for(evaluator, [scalar(("name", name)) for name in names])
            if not body.is_scalar:
                return
            text = terms.text_of(body.terms[0], self.line)
        except Overrun:
            raise
        except Refusal:
            return
        finally:
            evaluator.scope.keeping = False
        self.kept_name = evaluator.scope.fresh(self.name, self.name)
        evaluator.scope.kept.append(f"function {self.kept_name}({', '.join(names)})\n  return {text};\nend")


def shape_of(evaluator: Evaluator, dims: Sequence[Expression]) -> tuple[int, int]:
    """Rows and columns of a declaration: x[n] is a column."""
    sizes = [evaluator.whole(e) for e in dims]
    if len(sizes) > 2 or any(size < 1 for size in sizes):
        raise Refusal(dims[0][1], "an array of that shape", "one or two indices, each at least 1")
    if math.prod(sizes) > MOST_ENTRIES:
        raise Refusal(dims[0][1], "an array of so many entries", f"at most {MOST_ENTRIES}, of which 12 variables")
    return (sizes + [1, 1])[0], (sizes + [1, 1])[1]
