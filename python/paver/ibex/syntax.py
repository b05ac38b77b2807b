"""The syntax of Minibex as IBEX takes it, read into tuples that begin with their kind and line.

Expressions: ("number", line, Fraction), ("oo", line), ("name", line, name), ("apply", line, name, arguments),
("at", line, expression, indices, first) with the index that counts as the first, ("all", line) for a lone `:`,
("span", line, low, high), ("neg", line, e), ("transpose", line, e), (sign, line, a, b) for + - * / ^,
("list", line, separator, entries), ("interval", line, low, high), ("sum", line, name, low, high, body).
Constraints: ("chain", line, [e, relation, e, ..]), ("member", line, e, set), ("for", line, name, low, high, constraints).
"""
from __future__ import annotations

import re
from collections.abc import Callable
from fractions import Fraction
from typing import Any, List, NamedTuple, NoReturn, Optional, Tuple, TypeVar

from .refusals import INSTEAD, Refusal, refused_word

TOKEN = re.compile(
    r"(?P<blank>[ \t\r\n]+|//[^\n]*|/\*.*?(?:\*/|\Z))|(?P<name>[A-Za-z_][A-Za-z0-9_]*)"
    r"|(?P<number>(?:[0-9]+(?:\.[0-9]*)?|\.[0-9]+)(?:[eE][+-]?[0-9]+)?)|(?P<sign><=|>=|!=|<>|:=|[<>=+*/^()\[\],;:'{}-])"
    r"|(?P<bad>.)", re.S)
BLOCKS = {"constants", "variables", "constraints", "function", "return", "end", "minimize", "maximize"}
MOST_DIGITS = 1000  # of a number, with its exponent
RELATIONS = ("=", "<=", ">=", "<", ">")

Expression = Tuple[Any, ...]
Constraint = Tuple[Any, ...]
Parameter = Tuple[str, List[Expression]]  # its name, and how many entries it has
Local = Tuple[int, str, Expression]  # an assignment in a function: its line, the name and the value
Found = TypeVar("Found")


class Constant(NamedTuple):
    """A declared constant; dims are the expressions in brackets behind its name."""
    name: str
    line: int
    dims: List[Expression]
    value: Expression


class Variable(NamedTuple):
    """A declared variable."""
    name: str
    line: int
    dims: List[Expression]
    domain: Optional[Expression]


class Definition(NamedTuple):
    """A declared function."""
    name: str
    line: int
    parameters: List[Parameter]
    local: List[Local]
    body: Expression


class Token:
    def __init__(self, kind: str, text: str, line: int) -> None:
        self.kind, self.text, self.line = kind, text, line
        self.block = text.lower() if kind == "name" and text.lower() in BLOCKS else None


def tokens(text: str) -> list[Token]:
    found, at, line = [], 0, 1
    while at < len(text):
        match = TOKEN.match(text, at)
        if match is None or match.lastgroup is None:
            raise ValueError(f"no token at byte {at}")
        if match.lastgroup != "blank":
            found.append(Token(match.lastgroup, match.group(), line))
        line += match.group().count("\n")
        at = match.end()
    return found + [Token("end", "the end of the text", line)]


def exact_value(token: Token) -> Fraction:
    """The exact value of a number; Refusal where it is so long that it would take room and time and be refused all the same."""
    exponent = token.text.lower().partition("e")[2].lstrip("+-0")
    if len(token.text) > MOST_DIGITS or len(exponent) > 3:
        shown = token.text if len(token.text) <= 20 else f"{token.text[:20]}.."
        raise Refusal(token.line, f"the number {shown}", "at most 37 digits, and powers of ten from -36 to 36")
    return Fraction(token.text)


class File:
    """What a file declares, each in its order, and the refusals of what could not be read."""

    def __init__(self) -> None:
        self.constants: list[Constant] = []
        self.variables: list[Variable] = []
        self.functions: list[Definition] = []
        self.constraints: list[Constraint] = []
        self.refusals: list[Refusal] = []


class Reader:
    def __init__(self, text: str) -> None:
        self.tokens, self.at, self.file = tokens(text), 0, File()

    @property
    def token(self) -> Token:
        return self.tokens[self.at]

    def meets(self, *texts: str) -> bool:
        return self.token.kind in ("sign", "name") and self.token.text in texts

    def step(self) -> Token:
        self.at += 1
        return self.tokens[self.at - 1]

    def take(self, *texts: str) -> Token | None:
        return self.step() if self.meets(*texts) else None

    def expect(self, *texts: str) -> Token:
        return self.take(*texts) or self.fail(" or ".join(f"`{text}`" for text in texts))

    def fail(self, wanted: str) -> NoReturn:
        token = self.token
        raise Refusal(token.line, f"`{token.text}`", f"here {wanted} is expected, as far as this reader knows Minibex")

    def name(self) -> str:
        if self.token.kind != "name" or self.token.block:
            self.fail("a name")
        return self.step().text

    # ---- blocks

    def read(self) -> File:
        """The File. A refused entry is noted, and reading goes on behind the next `;`."""
        while self.token.kind != "end":
            block = self.token.block
            if block == "constants":
                self.entries(self.constant)
            elif block == "variables":
                self.entries(self.variable)
            elif block == "function":
                self.guarded(self.function)
            elif block in ("minimize", "maximize"):
                self.file.refusals.append(refused_word(self.token.line, self.token.text))
                self.step()
                self.skip()
            elif block == "constraints":
                self.step()
                self.file.constraints += self.constraints()
                self.take_end()
            else:
                self.guarded(self.no_block)
        return self.file

    def no_block(self) -> None:
        self.fail("a block: constants, variables, function or constraints")

    def guarded(self, work: Callable[[], Found]) -> Found | None:
        before = self.at
        try:
            return work()
        except Refusal as refusal:
            self.file.refusals.append(refusal)
            self.skip()
            if self.at == before and self.token.kind != "end":
                self.step()
            return None

    def skip(self) -> None:
        """Goes behind the next `;`, or to the next block."""
        while self.token.kind != "end" and not self.token.block:
            if self.step().text == ";":
                return

    def entries(self, entry: Callable[[], None]) -> None:
        self.step()
        while self.token.kind != "end" and not self.token.block:
            self.guarded(entry)
            while self.take(",", ";"):
                pass

    def dims(self) -> list[Expression]:
        found = []
        while self.take("["):
            found.append(self.expression())
            self.expect("]")
        return found

    def constant(self) -> None:
        line, name, dims = self.token.line, self.name(), self.dims()
        self.expect("=", "in")
        self.file.constants.append(Constant(name, line, dims, self.expression()))

    def variable(self) -> None:
        line, name, dims = self.token.line, self.name(), self.dims()
        domain = self.expression() if self.take("in") else None
        if self.token.text in INSTEAD and self.token.kind == "name":
            raise refused_word(self.token.line, self.token.text)
        self.file.variables.append(Variable(name, line, dims, domain))
        if not self.meets(",", ";") and not self.token.block and self.token.kind != "end":
            self.fail("`,` or `;`")

    def function(self) -> None:
        line = self.step().line
        name = self.name()
        self.expect("(")
        parameters = [(self.name(), self.dims())]
        while self.take(","):
            parameters.append((self.name(), self.dims()))
        self.expect(")")
        local: list[Local] = []
        while self.token.block != "return":
            at, assigned = self.token.line, self.name()
            self.expect("=")
            local.append((at, assigned, self.expression()))
            self.take(";")
        self.step()
        body = self.expression()
        self.take(";")
        self.take_end()
        self.file.functions.append(Definition(name, line, parameters, local, body))

    def take_end(self) -> None:
        if self.token.block != "end":
            self.fail("`end`")
        self.step()
        self.take(";")

    # ---- constraints

    def constraints(self) -> list[Constraint]:
        found = []
        while self.token.block not in BLOCKS and self.token.kind != "end":
            if self.take(";"):
                continue
            constraint = self.guarded(self.loop if self.meets("for") else self.constraint)
            if constraint:
                found.append(constraint)
        return found

    def loop(self) -> Constraint:
        line = self.step().line
        name, low, high = self.range()
        self.take(";", "do")
        body = self.constraints()
        self.take_end()
        return ("for", line, name, low, high, body)

    def range(self) -> tuple[str, Expression, Expression]:
        name = self.name()
        self.expect("=")
        low = self.sum()
        self.expect(":")
        return name, low, self.sum()

    def constraint(self) -> Constraint:
        line = self.token.line
        chain: list[Expression | str] = [self.expression()]
        if self.take("in"):
            return ("member", line, chain[0], self.expression())
        while self.meets(*RELATIONS):
            chain.append(self.step().text)
            chain.append(self.expression())
        if len(chain) == 1:
            self.fail("a relation or `in`")
        if not self.meets(";") and not self.token.block:
            self.fail("`;`")
        return ("chain", line, chain)

    # ---- expressions

    def expression(self) -> Expression:
        return self.sum()

    def sum(self) -> Expression:
        left = self.product()
        while self.meets("+", "-"):
            sign = self.step()
            left = (sign.text, sign.line, left, self.product())
        return left

    def product(self) -> Expression:
        left = self.factor()
        while self.meets("*", "/"):
            sign = self.step()
            left = (sign.text, sign.line, left, self.factor())
        return left

    def factor(self) -> Expression:
        if self.meets("+", "-"):
            sign = self.step()
            inner = self.factor()
            return ("neg", sign.line, inner) if sign.text == "-" else inner
        base = self.postfix()
        if self.meets("^"):
            line = self.step().line
            return ("^", line, base, self.exponent())
        return base

    def exponent(self) -> Expression:
        if self.meets("-", "+"):
            sign = self.step()
            inner = self.exponent()
            return ("neg", sign.line, inner) if sign.text == "-" else inner
        return self.postfix()

    def postfix(self) -> Expression:
        found = self.primary()
        while True:
            if self.meets("'"):
                found = ("transpose", self.step().line, found)
            elif self.meets("[") and found[0] in ("name", "at"):
                line = self.step().line
                found = ("at", line, found, [self.index()], 0)
                self.expect("]")
            elif self.meets("(") and found[0] in ("at", "apply"):
                line = self.step().line
                found = ("at", line, found, self.indices(), 1)
            else:
                return found

    def indices(self) -> list[Expression]:
        found = [self.index()]
        while self.take(","):
            found.append(self.index())
        self.expect(")")
        return found

    def index(self) -> Expression:
        if self.meets(":"):
            return ("all", self.step().line)
        low = self.expression()
        if self.meets(":"):
            return ("span", self.step().line, low, self.expression())
        return low

    def primary(self) -> Expression:
        token = self.token
        if token.kind == "number":
            return ("number", token.line, exact_value(self.step()))
        if self.meets("("):
            return self.group()
        if self.meets("["):
            self.step()
            low = self.expression()
            self.expect(",", ";")
            high = self.expression()
            self.expect("]")
            return ("interval", token.line, low, high)
        if self.meets("oo"):
            return ("oo", self.step().line)
        if self.meets("sum"):
            return self.summed()
        if token.kind != "name" or token.block:
            self.fail("an expression")
        self.step()
        if self.take("("):
            return ("apply", token.line, token.text, self.indices())
        return ("name", token.line, token.text)

    def summed(self) -> Expression:
        line = self.step().line
        self.expect("(")
        name, low, high = self.range()
        self.expect(",")
        body = self.expression()
        self.expect(")")
        return ("sum", line, name, low, high, body)

    def group(self) -> Expression:
        line = self.step().line
        entries = [self.expression()]
        separator = None
        while self.meets(",", ";"):
            if separator not in (None, self.token.text):
                self.fail(f"`{separator}`")
            separator = self.step().text
            entries.append(self.expression())
        self.expect(")")
        return entries[0] if separator is None else ("list", line, separator, entries)


def read(text: str) -> File:
    """The File of a text."""
    return Reader(text).read()
