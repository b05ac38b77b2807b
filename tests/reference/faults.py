"""Where a Minibex text is refused, and why: a recursive descent that stops at the first token with which no good
text goes on. Written from the description of the profile alone, in another shape than the program's reader.

    first_fault(text) is None for a system, else (byte, cause).
"""
from __future__ import annotations

import re
import sys
from collections.abc import Callable, Collection, Iterable, Sequence
from fractions import Fraction
from typing import NoReturn

from .kinds import Bound

TOKEN = re.compile(
    rb"(?P<blank>[ \t\r\n]+|//[^\n]*|/\*.*?(?:\*/|\Z))|(?P<name>[A-Za-z_][A-Za-z0-9_]*)"
    rb"|(?P<number>[0-9]+(?:\.[0-9]*)?(?:[eE][+-]?[0-9]+)?)|(?P<sign><=|>=|[<>=+*/^()\[\],;-])", re.S)
BLOCKS = ["Constants", "Variables", "Constraints", "Function", "Return", "End"]
WORDS = {spelling: block for block in BLOCKS for spelling in (block, block[0].lower() + block[1:])}
FUNCTION_WORDS = {"abs": 1, "sqr": 1, "min": 2, "max": 2}
OUTSIDE = set("""sqrt root exp log ln cos sin tan acos asin atan atan2 cosh sinh tanh acosh asinh atanh sign pi for sum
Minimize minimize""".split())
RESERVED = set(WORDS) | set(FUNCTION_WORDS) | {"in", "oo"} | OUTSIDE
RELATIONS = ("=", "<=", ">=", "<", ">")


sys.set_int_max_str_digits(0)


class Fault(Exception):
    """The first fault of a text: its byte and its cause."""

    def __init__(self, byte: int, cause: str) -> None:
        super().__init__(byte, cause)
        self.byte, self.cause = byte, cause


class Token:
    def __init__(self, kind: str, text: str, at: int) -> None:
        self.kind, self.text, self.at = kind, text, at
        self.word = WORDS.get(text, text)

    def is_free_name(self) -> bool:
        return self.kind == "name" and self.text not in RESERVED


def tokens(text: bytes) -> list[Token]:
    found, at = [], 0
    while at < len(text):
        match = TOKEN.match(text, at)
        if match is None:
            found.append(Token("bad", text[at:at + 1].decode("latin-1"), at))
            at += 1
            continue
        if match.lastgroup != "blank":
            found.append(Token(match.lastgroup or "", match.group().decode(), at))
        at = match.end()
    return found + [Token("end", "<end>", len(text))]


def is_too_wide(number: str) -> bool:
    mantissa, _, exponent = number.lower().partition("e")
    whole, _, part = mantissa.partition(".")
    power = int(exponent or "0") - len(part)
    digits = (whole + part).lstrip("0") or "0"
    return not -36 <= power <= 36 or len(digits) + max(power, 0) > 37


class Size:
    """Nodes of an expanded expression, and how deep it is; of a parameter, by what is put in its place."""

    def __init__(self, nodes: int, depth: int) -> None:
        self.nodes, self.depth = min(nodes, 10**9), min(depth, 10**9)


Sizes = Sequence[Callable[[], Size]]  # of a function's arguments
Measure = Callable[[Sizes], Size]  # the size of an expression, once those of the parameters in it are known


def joined(*parts: Size) -> Size:
    return Size(1 + sum(p.nodes for p in parts), 1 + max(p.depth for p in parts))


class Reader:
    def __init__(self, text: bytes) -> None:
        self.tokens, self.at = tokens(text), 0
        self.constants: dict[str, Fraction] = {}
        self.variables: list[str] = []
        self.functions: dict[str, tuple[int, Measure]] = {}  # how many parameters each has, and the size of its body
        self.parameters: list[str] = []
        self.in_body, self.own_name = False, ""
        self.level = self.operations = self.constraints = self.nodes = 0
        self.late: Fault | None = None
        self.late_size: Fault | None = None

    # ---- tokens and refusals

    @property
    def token(self) -> Token:
        return self.tokens[self.at]

    def refuse(self, cause: str = "Unexpected") -> NoReturn:
        token = self.token
        if token.kind == "bad":
            cause = "BadByte"
        elif token.kind == "number" and is_too_wide(token.text):
            cause = "NumberTooWide"
        elif token.text in OUTSIDE:
            cause = "NotInProfile"
        elif token.kind == "end":
            cause = "EndOfText"
        raise Fault(token.at, cause)

    def step(self) -> Token:
        self.at += 1
        return self.tokens[self.at - 1]

    def meets(self, *words: str) -> bool:
        return self.token.kind in ("name", "sign") and self.token.word in words

    def take(self, *words: str) -> Token | None:
        return self.step() if self.meets(*words) else None

    def expect(self, *words: str) -> Token:
        return self.take(*words) or self.refuse()

    def number(self) -> Fraction:
        if self.token.kind != "number" or is_too_wide(self.token.text):
            self.refuse()
        return Fraction(self.step().text)

    # ---- declarations

    def declared(self, taken: Collection[str]) -> str:
        if self.token.text in taken and self.token.kind == "name":
            self.refuse("DuplicateName")
        if not self.token.is_free_name():
            self.refuse()
        return self.step().text

    def names(self) -> set[str]:
        return {*self.constants, *self.variables, *self.functions}

    def system(self) -> None:
        if self.take("Constants"):
            self.constant()
            while self.take(",", ";") and self.token.kind == "name" and not self.meets("Function", "Variables"):
                self.constant()
        self.function_blocks()
        self.expect("Variables")
        self.variable()
        while self.take(",", ";") and self.token.kind == "name" and not self.meets("Function", "Constraints"):
            self.variable()
        self.function_blocks()
        self.expect("Constraints")
        self.constraint()
        while self.take(";") and not self.meets("End"):
            self.constraint()
        self.expect("End")
        if self.token.kind != "end":
            self.refuse()

    def constant(self) -> None:
        name = self.declared(self.names())
        self.expect("=")
        sign = self.take("+", "-")
        value = self.number()
        self.constants[name] = -value if sign and sign.text == "-" else value

    def variable(self) -> None:
        if len(self.variables) == 12 and self.token.is_free_name():
            self.refuse("TooManyVariables")
        self.variables.append(self.declared(self.names()))
        if self.take("in"):
            opening = self.expect("[")
            low = self.bound()
            self.expect(",")
            high = self.bound()
            self.expect("]")
            infinity = float("inf")
            if (low > high or low == infinity or high == -infinity) and self.late is None:
                self.late = Fault(opening.at, "BadBounds")

    def bound(self) -> Bound:
        sign = self.take("+", "-")
        if self.take("oo"):
            value: Bound = float("inf")
        elif self.token.text in self.constants:
            value = self.constants[self.step().text]
        elif self.token.is_free_name():
            self.refuse("UnknownName")
        else:
            value = self.number()
        return -value if sign and sign.text == "-" else value

    def function_blocks(self) -> None:
        while self.meets("Function"):
            if len(self.functions) == 64:
                self.refuse("TooManyFunctions")
            self.step()
            self.function()

    def function(self) -> None:
        name = self.declared(self.names())
        self.expect("(")
        self.parameters, self.own_name = [], name
        self.parameters.append(self.declared({name, *self.functions}))
        while not self.take(")"):
            if len(self.parameters) == 12 or not self.take(","):
                self.refuse()
            self.parameters.append(self.declared({name, *self.functions, *self.parameters}))
        self.expect("Return")
        self.in_body, self.operations = True, 0
        body = self.expression()
        self.in_body = False
        self.take(";")
        self.expect("End")
        self.take(";")
        self.functions[name] = (len(self.parameters), body)

    # ---- expressions: each call gives a function from the parameters' sizes to a Size

    def constraint(self) -> None:
        token = self.token
        self.operations = 0
        if self.constraints == 64 and self.begins_expression():
            self.refuse("TooManyConstraints")
        left = self.expression()
        self.expect(*RELATIONS)
        right = self.expression()
        self.constraints += 1
        sizes = left([]), right([])
        self.nodes += sum(size.nodes for size in sizes)
        if (self.nodes > 65536 or max(size.depth for size in sizes) > 2000) and self.late_size is None:
            self.late_size = Fault(token.at, "TooLarge")

    def begins_expression(self) -> bool:
        token = self.token
        if token.kind == "number":
            return not is_too_wide(token.text)
        return self.meets("+", "-", "(") or token.text in FUNCTION_WORDS or token.is_free_name()

    def operation(self) -> Token:
        if self.operations == 1000:
            self.refuse("TooDeep")
        self.operations += 1
        return self.step()

    def expression(self) -> Measure:
        left = self.term()
        while self.meets("+", "-"):
            self.operation()
            left = self.pair(left, self.term())
        return left

    def term(self) -> Measure:
        left = self.factor()
        while self.meets("*", "/"):
            self.operation()
            left = self.pair(left, self.factor())
        return left

    @staticmethod
    def pair(left: Measure, right: Measure) -> Measure:
        return lambda sizes: joined(left(sizes), right(sizes))

    def factor(self) -> Measure:
        signs = 0
        while self.meets("+", "-"):
            signs += self.operation().text == "-"
        base = self.primary()
        if self.meets("^"):
            self.operation()
            self.exponent()
            base = (lambda inner: lambda sizes: joined(inner(sizes)))(base)
        if signs == 0:
            return base

        def signed(sizes: Sizes) -> Size:
            size = base(sizes)
            return Size(size.nodes + signs, size.depth + signs)

        return signed

    def exponent(self) -> None:
        token = self.token
        if token.kind != "number" or is_too_wide(token.text) or not token.text.isdigit() or int(token.text) > 32:
            self.refuse("BadExponent")
        self.step()

    def opened(self) -> None:
        if not self.meets("("):
            self.refuse()
        if self.level == 100:
            self.refuse("TooDeep")
        self.level += 1
        self.step()

    def primary(self) -> Measure:
        token = self.token
        if token.kind == "number":
            self.number()
            return lambda sizes: Size(1, 1)
        if self.meets("("):
            self.opened()
            inner = self.expression()
            self.expect(")")
            self.level -= 1
            return inner
        if token.text in FUNCTION_WORDS:
            arguments = self.arguments(FUNCTION_WORDS[token.text])
            return lambda sizes: joined(*(argument(sizes) for argument in arguments))
        if not token.is_free_name():
            self.refuse()
        return self.named(token.text)

    def named(self, name: str) -> Measure:
        if self.in_body and name in self.parameters:
            at = self.parameters.index(name)
            self.step()
            return lambda sizes: sizes[at]()
        if name in self.constants or (name in self.variables and not self.in_body):
            self.step()
            return lambda sizes: Size(1, 1)
        if name in self.functions:
            count, body = self.functions[name]
            arguments = self.arguments(count)
            return lambda sizes: body([once(argument, sizes) for argument in arguments])
        return self.refuse("UnknownName")

    def arguments(self, count: int) -> list[Measure]:
        if self.level == 100 and self.operations < 1000:
            self.refuse()
        self.operation()
        self.opened()
        found = [self.expression()]
        for _ in range(count - 1):
            self.expect(",")
            found.append(self.expression())
        self.expect(")")
        self.level -= 1
        return found


def once(argument: Measure, sizes: Sizes) -> Callable[[], Size]:
    """The size of an argument, worked out when it is first used."""
    known: list[Size] = []

    def size() -> Size:
        if not known:
            known.append(argument(sizes))
        return known[0]

    return size


def first_fault(text: bytes) -> tuple[int, str] | None:
    if len(text) > 65536:
        return 65536, "TextTooLong"
    reader = Reader(text)
    try:
        reader.system()
    except Fault as fault:
        return fault.byte, fault.cause
    late = reader.late or reader.late_size
    return (late.byte, late.cause) if late else None


def first_expression_fault(text: bytes, variables: Iterable[str]) -> tuple[int, str] | None:
    """The same for the text of an expression over these variables."""
    if len(text) > 65536:
        return 65536, "TextTooLong"
    reader = Reader(text)
    reader.variables = list(variables)
    try:
        reader.expression()
        if reader.token.kind != "end":
            reader.refuse()
    except Fault as fault:
        return fault.byte, fault.cause
    return None


def line_of(text: bytes) -> str | None:
    """The line that the program has to print for a refused text, or None."""
    found = first_fault(text)
    if found is None:
        return None
    byte, cause = found
    before = text[:byte]
    line, column = before.count(b"\n") + 1, byte - (before.rfind(b"\n") + 1) + 1
    return f"system: line {line} column {column} byte {byte}: {cause}"
