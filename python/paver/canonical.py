"""A system as the program understood it: what `paver check` prints, read.

An expression is a list of steps in postfix order: ("const", Fraction), ("var", i), ("^", n), or an operation's sign
alone, as ("+",) or ("neg",).
"""
from __future__ import annotations

import re
from fractions import Fraction
from typing import Any, List, Optional, Sequence, Tuple

from .numbers import counted, decimal

Step = Tuple[Any, ...]
Steps = List[Step]

PRECEDENCE = {"+": 1, "-": 1, "*": 2, "/": 2, "neg": 2, "^": 3}


class Constraint:
    """relation is =, <=, >=, < or >; left and right are expressions."""

    def __init__(self, relation: str, left: Steps, right: Steps) -> None:
        self.relation, self.left, self.right = relation, left, right

    def infix(self, names: Sequence[str]) -> str:
        """The constraint as Minibex writes it, with these names for the variables."""
        return f"{infix(self.left, names)} {self.relation} {infix(self.right, names)}"


class System:
    """names of the variables; root, the search box as texts, low and high end of each variable in turn;
    constraints in order; text is the canonical text."""

    def __init__(self, names: List[str], root: Tuple[str, ...], constraints: List[Constraint], text: str) -> None:
        self.names, self.root, self.constraints, self.text = names, root, constraints, text

    @classmethod
    def from_text(cls, text: str) -> System:
        """Reads the canonical text; ValueError where it is none."""
        lines = text.splitlines()
        try:
            count = int(lines[0].split(" ")[1])
            variables = [line.split(" ") for line in lines[1:1 + count]]
            constraints = [read_constraint(line) for line in lines[2 + count:]]
            names = [words[0] for words in variables]
            root = tuple(end for words in variables for end in words[1:3])
        except (IndexError, ValueError) as fault:
            raise ValueError("this is no canonical text") from fault
        return cls(names, root, constraints, text)

    def variable(self, name: str) -> int:
        """The number of the variable of a name; ValueError where there is none."""
        if name not in self.names:
            raise ValueError(f"there is no variable {name!r}")
        return self.names.index(name)

    def identity(self, *, eps: Any = None, depth: Any = None, bisect: Optional[str] = None, contract: Optional[str] = None,
                 form: Optional[str] = None, centered: bool = False) -> str:
        """The digits of the second line of a file that the program stores of this system under these settings; with
        centered of one that run-centered stores."""
        from .identity import identity_of
        form = "centered" if centered else form
        return identity_of(self, {"eps": eps, "depth": depth, "bisect": bisect, "contract": contract, "form": form})

    def __repr__(self) -> str:
        return f"<system in {', '.join(self.names)}: {counted(len(self.constraints), 'constraint')}>"


def read_constraint(line: str) -> Constraint:
    relation, _, rest = line.partition(" ")
    words = re.findall(r"[()]|[^\s()]+", rest)
    left, at = read_expression(words, 0)
    right, at = read_expression(words, at)
    if at != len(words):
        raise ValueError("words after the right side")
    return Constraint(relation, left, right)


def read_expression(words: Sequence[str], at: int) -> Tuple[Steps, int]:
    """The expression that begins at a word, and where the next one begins; without recursion, as trees can be deep."""
    steps: Steps = []
    waiting: List[str] = []
    while True:
        word = words[at]
        at += 1
        if word == "(":
            waiting.append(words[at])
            at += 1
        elif word == ")":
            operation = waiting.pop()
            if operation != "^":
                steps.append((operation,))
        elif waiting and waiting[-1] == "^" and word.isdigit():
            steps.append(("^", int(word)))
        elif word.startswith("v"):
            steps.append(("var", int(word[1:])))
        else:
            steps.append(("const", Fraction(word)))
        if not waiting:
            return steps, at


def infix(steps: Steps, names: Sequence[str]) -> str:
    """An expression as Minibex writes it, with few parentheses."""
    stack = []
    for step in steps:
        kind = step[0]
        if kind == "const":
            stack.append(constant_text(step[1]))
        elif kind == "var":
            stack.append((names[step[1]], 4))
        elif kind == "^":
            base, rank = stack.pop()
            stack.append((f"{base}^{step[1]}" if rank == 4 else f"({base})^{step[1]}", 3))
        elif kind == "neg":
            inner, rank = stack.pop()
            stack.append((f"-{inner}" if rank >= 3 else f"-({inner})", 2))
        elif kind == "abs":
            stack.append((f"abs({stack.pop()[0]})", 4))
        else:
            right, left = stack.pop(), stack.pop()
            stack.append(joined(kind, left, right))
    return stack[0][0]


def joined(kind: str, left: Tuple[str, int], right: Tuple[str, int]) -> Tuple[str, int]:
    if kind in ("min", "max"):
        return f"{kind}({left[0]}, {right[0]})", 4
    rank = PRECEDENCE[kind]
    first = left[0] if left[1] >= rank else f"({left[0]})"
    second = right[0] if right[1] > rank and not right[0].startswith("-") else f"({right[0]})"
    blank = " " if rank == 1 else ""
    return f"{first}{blank}{kind}{blank}{second}", rank


def constant_text(value: Fraction) -> Tuple[str, int]:
    text = decimal(value)
    if text is None or len(text) > 12:
        return f"{value.numerator}/{value.denominator}" if value.denominator != 1 else str(value), 2
    return text, 4 if value >= 0 else 2


def value(steps: Steps, point: Sequence[Fraction]) -> Optional[Fraction]:
    """The exact value at a point of rational numbers; None where it is undefined."""
    stack: List[Any] = []
    for step in steps:
        kind = step[0]
        if kind == "const":
            stack.append(step[1])
        elif kind == "var":
            stack.append(point[step[1]])
        elif kind in ("^", "neg", "abs"):
            x = stack.pop()
            stack.append(x ** step[1] if kind == "^" else -x if kind == "neg" else abs(x))
        else:
            y, x = stack.pop(), stack.pop()
            if kind == "/" and y == 0:
                return None
            stack.append(x + y if kind == "+" else x - y if kind == "-" else x * y if kind == "*" else
                         x / y if kind == "/" else min(x, y) if kind == "min" else max(x, y))
    found: Fraction = stack[0]
    return found


def holds(c: Constraint, point: Sequence[Fraction]) -> bool:
    """Whether both sides have values at a point, and the constraint holds there."""
    left, right = value(c.left, point), value(c.right, point)
    if left is None or right is None:
        return False
    return {"=": left == right, "<=": left <= right, "<": left < right, ">=": left >= right, ">": left > right}[c.relation]
