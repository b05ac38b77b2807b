"""Writes the profile's text of a file in IBEX's Minibex: vectors become variables, loops are written out."""
from __future__ import annotations

import math
from collections.abc import Callable, Sequence
from fractions import Fraction

from ..numbers import Exact, minibex
from . import terms
from .evaluate import Ends, Evaluator, Function, IntervalConstant, Scope, shape_of
from .refusals import Overrun, Refusal, Work
from .syntax import Constraint, Expression, Local, Parameter, read
from .terms import Array, Term, scalar

GREATEST = 10 ** 37 - 1  # of the whole numbers of the profile
TURNED = {"=": "=", "<=": ">=", ">=": "<=", "<": ">", ">": "<"}
MOST = {"variables": 12, "constraints": 64, "functions": 64, "bytes": 65536}


class Translation:
    """text is the profile's text, or None where something was refused; refusals are those, in the order of their
    lines; notes say what was changed and is worth a look."""

    def __init__(self, text: str | None, refusals: list[Refusal], notes: list[str]) -> None:
        self.text, self.refusals, self.notes = text, refusals, notes


class Translator:
    def __init__(self, text: str) -> None:
        self.file = file = read(text)
        self.scope = Scope(name for name, *_ in file.constants + file.variables + file.functions)
        self.evaluator = Evaluator(self.scope)
        self.refusals = list(self.file.refusals)
        self.constants: list[tuple[str, Fraction]] = []
        self.constraints: list[tuple[int, str]] = []

    def guarded(self, work: Callable[..., None], *arguments: object) -> None:
        try:
            work(*arguments)
        except Overrun:
            raise
        except Refusal as refusal:
            self.refusals.append(refusal)

    def translated(self) -> Translation:
        file = self.file
        for constant in file.constants:
            self.guarded(self.constant, *constant)
        for variable in file.variables:
            self.guarded(self.variable, *variable)
        for function in file.functions:
            self.guarded(self.function, *function)
        for constraint in file.constraints:
            self.guarded(self.constraint, self.evaluator, constraint)
        self.constraints += self.scope.more
        if not self.constraints and not self.refusals:
            self.refusals.append(Refusal(1, "a system without constraints", "at least one constraint"))
        if not self.scope.variables and not self.refusals:
            self.refusals.append(Refusal(1, "a system without variables", "at least one variable"))
        self.limits()
        notes = list(dict.fromkeys(self.scope.notes))
        if self.refusals:
            return Translation(None, sorted(self.unique(), key=lambda refusal: refusal.line), notes)
        return Translation(self.text(notes), [], notes)

    def unique(self) -> list[Refusal]:
        return list({(refusal.line, refusal.form): refusal for refusal in self.refusals}.values())

    # ---- declarations

    def new(self, name: str, line: int) -> None:
        if name in self.scope.names or name in self.scope.functions:
            raise Refusal(line, f"a second declaration of `{name}`", "another name")

    def function(self, name: str, line: int, parameters: Sequence[Parameter], local: Sequence[Local], body: Expression) -> None:
        self.new(name, line)
        self.scope.functions[name] = Function(name, line, parameters, local, body)

    def constant(self, name: str, line: int, dims: Sequence[Expression], e: Expression) -> None:
        self.new(name, line)
        ends = self.evaluator.interval(e)
        if ends is not None:
            self.scope.names[name] = scalar(terms.number(ends[0])) if ends[0] == ends[1] else IntervalConstant(*ends)
            return
        array = self.evaluator.value(e)
        values = known_values(array)
        if values is None:
            raise Refusal(line, f"the constant `{name}`", "a number, or an interval")
        shape = shape_of(self.evaluator, dims) if dims else array.shape
        if len(values) != shape[0] * shape[1]:
            raise Refusal(line, f"{len(values)} entries of `{name}`", f"{shape[0]} x {shape[1]} entries")
        if shape != (1, 1) or minibex(values[0]) is None:
            self.scope.names[name] = Array(*shape, [terms.number(value) for value in values])
            return
        written = self.scope.fresh(name, name)
        self.constants.append((written, values[0]))
        self.scope.names[name] = scalar(("constant", written, values[0]))

    def variable(self, name: str, line: int, dims: Sequence[Expression], domain: Expression | None) -> None:
        self.new(name, line)
        shape = shape_of(self.evaluator, dims)
        count = shape[0] * shape[1]
        domains = self.domains(domain, count, line)
        names = []
        for k in range(count):
            row, column = divmod(k, shape[1])
            ending = f"_{row + 1}" + (f"_{column + 1}" if len(dims) == 2 else "") if dims else ""
            names.append(self.scope.fresh(name + ending, None if dims else name))
        for written, (low, high) in zip(names, domains):
            self.scope.variables.append((written, low, high, line))
        self.scope.names[name] = Array(*shape, [("name", written) for written in names])
        self.scope.variable_names.add(name)

    def domains(self, domain: Expression | None, count: int, line: int) -> list[Ends]:
        if domain is None:
            return [(-math.inf, math.inf)] * count
        ends = self.evaluator.interval(domain)
        if ends is not None:
            return [ends] * count
        if domain[0] == "list":
            found = [pair for entry in domain[3] for pair in self.domains(entry, 1, line)]
            if len(found) == count:
                return found
            raise Refusal(line, f"{len(found)} domains for {count} entries", "one for each, or one for all")
        if count > 1 and domain[0] == "name":
            values = known_values(self.evaluator.value(domain))
            if values is None:
                raise Refusal(line, f"`{domain[2]}` as a set", "an interval, or constants")
            if len(values) == count:
                return [(value, value) for value in values]
        value = self.evaluator.number(domain)
        return [(value, value)] * count

    # ---- constraints

    def constraint(self, evaluator: Evaluator, c: Constraint) -> None:
        kind, line = c[0], c[1]
        if kind == "for":
            for k in evaluator.turns(line, c[3], c[4]):
                for inner in c[5]:
                    self.guarded(self.constraint, evaluator.within(c[2], scalar(terms.number(k))), inner)
        elif kind == "member":
            self.member(evaluator, line, c[2], c[3])
        else:
            for left, relation, right in zip(c[2][::2], c[2][1::2], c[2][2::2]):
                self.related(evaluator, line, left, relation, right)

    def related(self, evaluator: Evaluator, line: int, left: Expression, relation: str, right: Expression) -> None:
        sides = evaluator.interval(left), evaluator.interval(right)
        if relation == "=" and sides[1] is not None and sides[0] is None:
            self.member(evaluator, line, left, right)
            return
        if relation == "=" and sides[0] is not None and sides[1] is None:
            self.member(evaluator, line, right, left)
            return
        if self.squared(evaluator, line, left, relation, right):
            return
        pairs = terms.by_entries(relation, evaluator.value(left), evaluator.value(right), line)
        for _, a, b in pairs.terms:
            self.constraints.append((line, f"{terms.text_of(a, line)} {relation} {terms.text_of(b, line)}"))

    def squared(self, evaluator: Evaluator, line: int, left: Expression, relation: str, right: Expression) -> bool:
        """Writes a relation with a square root alone on one side squared; False where none stands so. A variable for the root
        would be bound by an equation, which leaves no inner box."""
        root, other = left, right
        argument = evaluator.under_root(left)
        if argument is None:
            root, other, relation = right, left, TURNED[relation]
            argument = evaluator.under_root(right)
        if argument is None:
            return False
        bound = evaluator.value(other)
        if not bound.is_scalar:
            return False
        self.constraints += [(line, text) for text in squares(argument, relation, bound.terms[0], line)]
        self.scope.notes.append(f"line {line}: the relation with the square root alone on one side is written squared")
        return True

    def member(self, evaluator: Evaluator, line: int, e: Expression, domain: Expression) -> None:
        array = evaluator.value(e)
        for term, (low, high) in zip(array.terms, self.domains(domain, len(array.terms), line)):
            text = terms.text_of(term, line)
            if low == high:
                self.constraints.append((line, f"{text} = {terms.text_of(terms.number(low), line)}"))
                continue
            if low > -math.inf:
                self.constraints.append((line, f"{text} >= {terms.text_of(terms.number(low), line)}"))
            if high < math.inf:
                self.constraints.append((line, f"{text} <= {terms.text_of(terms.number(high), line)}"))

    # ---- the text

    def limits(self) -> None:
        variables = len(self.scope.variables) + len(self.scope.extra)
        if variables > MOST["variables"]:
            name, _, _, line = (self.scope.variables + self.scope.extra)[MOST["variables"]]
            self.refusals.append(Refusal(line, f"{variables} variables, from `{name}` on",
                                         f"at most {MOST['variables']}: fix some, or eliminate them by hand"))
        if len(self.constraints) > MOST["constraints"]:
            self.refusals.append(Refusal(self.constraints[MOST["constraints"]][0], f"{len(self.constraints)} constraints",
                                         f"at most {MOST['constraints']}: join some by min and max: a <= 0 and b <= 0 "
                                         "is max(a, b) <= 0"))

    def bound(self, value: Exact, up: bool, line: int, name: str) -> str:
        if isinstance(value, float):
            return "oo" if value > 0 else "-oo"
        text = minibex(value)
        if text is None:
            text = outward(value, up)
            self.scope.notes.append(f"line {line}: the {'upper' if up else 'lower'} bound of {name} is rounded outward")
        return text

    def text(self, notes: list[str]) -> str:
        lines = []
        if self.constants:
            lines.append("Constants")
            lines += [f"  {name} = {minibex(value)};" for name, value in self.constants]
        lines += self.scope.kept
        lines.append("Variables")
        for name, low, high, line in self.scope.variables + self.scope.extra:
            ends = "" if (low, high) == (-math.inf, math.inf) else \
                f" in [{self.bound(low, False, line, name)}, {self.bound(high, True, line, name)}]"
            lines.append(f"  {name}{ends};")
        lines.append("Constraints")
        lines += [f"  {text};" for _, text in self.constraints]
        notes += [note for note in self.scope.notes if note not in notes]
        head = ["// Written by `python3 -m paver from-ibex`.", *(f"// {note}" for note in notes)]
        return "\n".join([*head, *lines, "end"]) + "\n"


def squares(argument: Term, relation: str, bound: Term, line: int) -> list[str]:
    """The constraints that say how the root of an argument is related to a bound, without the root."""
    a, b, square = (terms.text_of(term, line) for term in (argument, bound, ("^", bound, 2)))
    value, least = terms.value_of(bound), ">" if relation == "<" else ">="
    if relation in ("<=", "<", "="):
        side = [] if relation == "=" else [f"{a} >= 0"]
        known = value is not None and (value > 0 or value == 0 and least == ">=")
        return [f"{a} {relation} {square}", *side, *([] if known else [f"{b} {least} 0"])]
    if value is not None:
        return [f"{a} {relation} {square}"] if value >= 0 else [f"{a} >= 0"]
    rest, turned = (terms.text_of(term, line) for term in (("-", argument, ("^", bound, 2)), ("neg", bound)))
    return [f"max({rest}, {turned}) {relation} 0", f"{a} >= 0"]


def known_values(array: Array) -> list[Fraction] | None:
    """The values of an array's terms, or None where one is not constant."""
    values = [value for value in map(terms.value_of, array.terms) if value is not None]
    return values if len(values) == len(array.terms) else None


def outward(value: Fraction, up: bool) -> str:
    """A number of few digits next to a value on its side; an infinite end, or the greatest number, beyond all numbers."""
    if abs(value) > GREATEST:
        return ("-" if value < 0 else "") + ("oo" if (value > 0) == up else str(GREATEST))
    places = 30
    scaled, rest = divmod(value.numerator * 10 ** places, value.denominator)
    found = minibex(Fraction(scaled + (1 if up and rest else 0), 10 ** places))
    return found or str(math.ceil(value) if up else math.floor(value))


def translate(text: str) -> Translation:
    """The Translation of a file's text."""
    terms.WORK[0] = Work(terms.MOST_STEPS)
    try:
        found = Translator(text).translated()
    except Refusal as refusal:
        return Translation(None, [refusal], [])
    except RecursionError:
        deep = Refusal(1, "an expression or a function that goes too deep", "fewer nested parentheses, and no function that "
                       "calls itself")
        return Translation(None, [deep], [])
    if found.text is not None and len(found.text) > MOST["bytes"]:
        long = Refusal(1, f"a text of {len(found.text)} bytes once it is written out", f"at most {MOST['bytes']}")
        return Translation(None, [long], found.notes)
    return found
