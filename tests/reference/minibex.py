"""A reader of good Minibex texts, by recursive descent, and the exact value of an expression at a rational point.

It knows no limits and names no faults: an assertion fails where a text is not in the profile.
Expressions are tuples: ("const", Fraction), ("var", i), (operation, left, right), ("neg", e), ("abs", e), ("^", e, n).
"""
from __future__ import annotations

import re
from collections.abc import Callable, Collection, Mapping, Sequence
from fractions import Fraction
from typing import TypeVar

from .kinds import Bound, Expression, Relation

TOKEN = re.compile(
    r"(?P<blank>[ \t\r\n]+|//[^\n]*|/\*.*?(?:\*/|\Z))|(?P<name>[A-Za-z_][A-Za-z0-9_]*)"
    r"|(?P<number>[0-9]+(?:\.[0-9]*)?(?:[eE][+-]?[0-9]+)?)|(?P<sign><=|>=|[<>=+*/^()\[\],;-])", re.S)


def tokens(text: str) -> list[str]:
    found, at = [], 0
    while at < len(text):
        match = TOKEN.match(text, at)
        assert match, f"no token at byte {at}"
        if match.lastgroup != "blank":
            found.append(match.group())
        at = match.end()
    return found + ["<end>"]


Number = TypeVar("Number", Fraction, Bound)
Scope = Mapping[str, Expression]


class System:
    def __init__(self) -> None:
        self.names: list[str] = []
        self.domains: list[tuple[Bound, Bound]] = []
        self.constraints: list[Relation] = []


class Reader:
    def __init__(self, text: str) -> None:
        self.tokens, self.at = tokens(text), 0
        self.constants: dict[str, Fraction] = {}
        self.functions: dict[str, Expression] = {}
        self.system = System()

    def peek(self) -> str:
        return self.tokens[self.at]

    def next(self) -> str:
        self.at += 1
        return self.tokens[self.at - 1]

    def take(self, *words: str) -> str | None:
        if self.peek() in words:
            return self.next()
        return None

    def expect(self, *words: str) -> str:
        assert self.peek() in words, f"token {self.at}: {self.peek()!r} in place of {words}"
        return self.next()

    def read(self) -> System:
        if self.take("Constants", "constants"):
            self.listed(self.constant, ("function", "Function", "variables", "Variables"))
        self.read_functions()
        self.expect("Variables", "variables")
        self.listed(self.variable, ("function", "Function", "constraints", "Constraints"))
        self.read_functions()
        self.expect("Constraints", "constraints")
        scope = {name: ("var", i) for i, name in enumerate(self.system.names)}
        self.constraint(scope)
        while self.take(";") and self.peek() not in ("End", "end"):
            self.constraint(scope)
        self.expect("End", "end")
        self.expect("<end>")
        return self.system

    def listed(self, item: Callable[[], None], stops: Collection[str]) -> None:
        item()
        while self.take(",", ";") and self.peek() not in stops:
            item()

    def constant(self) -> None:
        name = self.next()
        self.expect("=")
        self.constants[name] = self.signed(lambda: Fraction(self.next()))

    def signed(self, value: Callable[[], Number]) -> Number:
        return -value() if self.take("-") else (self.take("+"), value())[1]

    def bound(self) -> Bound:
        def value() -> Bound:
            word = self.next()
            if word == "oo":
                return float("inf")
            return self.constants[word] if word in self.constants else Fraction(word)
        return self.signed(value)

    def variable(self) -> None:
        self.system.names.append(self.next())
        domain: tuple[Bound, Bound] = (float("-inf"), float("inf"))
        if self.take("in"):
            self.expect("[")
            low = self.bound()
            self.expect(",")
            domain = (low, self.bound())
            self.expect("]")
        self.system.domains.append(domain)

    def read_functions(self) -> None:
        while self.take("Function", "function"):
            name = self.next()
            self.expect("(")
            parameters = [self.next()]
            while self.take(","):
                parameters.append(self.next())
            self.expect(")")
            self.expect("Return", "return")
            body = self.expression({p: ("parameter", i) for i, p in enumerate(parameters)})
            self.take(";")
            self.expect("End", "end")
            self.take(";")
            self.functions[name] = body

    def constraint(self, scope: Scope) -> None:
        left = self.expression(scope)
        relation = self.expect("=", "<=", ">=", "<", ">")
        self.system.constraints.append((relation, left, self.expression(scope)))

    def expression(self, scope: Scope) -> Expression:
        left = self.term(scope)
        while sign := self.take("+", "-"):
            left = (sign, left, self.term(scope))
        return left

    def term(self, scope: Scope) -> Expression:
        left = self.factor(scope)
        while sign := self.take("*", "/"):
            left = (sign, left, self.factor(scope))
        return left

    def factor(self, scope: Scope) -> Expression:
        if self.take("-"):
            return ("neg", self.factor(scope))
        if self.take("+"):
            return self.factor(scope)
        base = self.primary(scope)
        return ("^", base, int(self.next())) if self.take("^") else base

    def arguments(self, scope: Scope) -> list[Expression]:
        self.expect("(")
        found = [self.expression(scope)]
        while self.take(","):
            found.append(self.expression(scope))
        self.expect(")")
        return found

    def primary(self, scope: Scope) -> Expression:
        if self.peek() == "(":
            return self.arguments(scope)[0]
        word = self.next()
        if word[0].isdigit():
            return ("const", Fraction(word))
        if word == "sqr":
            return ("^", self.arguments(scope)[0], 2)
        if word in ("abs", "min", "max"):
            return (word, *self.arguments(scope))
        if word in scope:
            return scope[word]
        if word in self.constants:
            return ("const", self.constants[word])
        return replaced(self.functions[word], self.arguments(scope))


def replaced(body: Expression, arguments: Sequence[Expression]) -> Expression:
    if body[0] == "parameter":
        return arguments[body[1]]
    return tuple(replaced(part, arguments) if isinstance(part, tuple) else part for part in body)


def read(text: str) -> System:
    return Reader(text).read()


def value(e: Expression, point: Sequence[Fraction]) -> Fraction | None:
    """The value at a point, a list of fractions; None where it is undefined."""
    kind = e[0]
    if kind == "const":
        return e[1]
    if kind == "var":
        return point[e[1]]
    found = [value(part, point) for part in e[1:] if isinstance(part, tuple)]
    parts = [part for part in found if part is not None]
    if len(parts) < len(found):
        return None
    if kind == "/":
        return parts[0] / parts[1] if parts[1] else None
    return {"+": lambda: parts[0] + parts[1], "-": lambda: parts[0] - parts[1], "*": lambda: parts[0] * parts[1],
            "min": lambda: min(parts), "max": lambda: max(parts), "neg": lambda: -parts[0],
            "abs": lambda: abs(parts[0]), "^": lambda: parts[0] ** e[2]}[kind]()


def holds(constraint: Relation, point: Sequence[Fraction]) -> bool:
    relation, left, right = constraint
    a, b = value(left, point), value(right, point)
    if a is None or b is None:
        return False
    return {"=": a == b, "<=": a <= b, ">=": a >= b, "<": a < b, ">": a > b}[relation]
