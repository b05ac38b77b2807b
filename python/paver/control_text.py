"""Reads a control question: a plant, a controller, the domains of their gains and parameters, and what is asked of the loop."""
from __future__ import annotations

from collections.abc import Sequence
from dataclasses import dataclass, field
from fractions import Fraction
from typing import Dict, NoReturn, Optional, Tuple

from .intervals import Interval
from .minibex import RESERVED, Token, tokens
from .polynomials import Quotient, TooLong, constant, variable

ASKS = {"stable": "", "shift": "rate", "radius": "radius", "damping": "ratio", "S": "most", "T": "most",
        "phase_margin": "degrees", "gain_margin": "factor"}
BANDS = ("S", "T", "phase_margin")  # what is asked for frequencies in a band
KEPT = {"gain", "uncertain", "for", "w", "s", "z", *ASKS}
MOST_POWER, MOST_DEEP = 8, 50


class ControlRefused(ValueError):
    """A control question that is refused at .row and .column, both from 1, with .cause."""

    def __init__(self, row: int, column: int, cause: str) -> None:
        super().__init__(f"line {row} column {column}: {cause}")
        self.row, self.column, self.cause = row, column, cause


@dataclass
class Ask:
    """One thing that is asked, its number if it has one, its band of frequencies if it has one, and its line."""
    kind: str
    number: Fraction
    band: Optional[Interval]
    row: int
    text: str


@dataclass
class Question:
    """gains and uncertain: names with their intervals, in their order. Each definition has its quotient and its line."""
    gains: Dict[str, Interval] = field(default_factory=dict)
    uncertain: Dict[str, Interval] = field(default_factory=dict)
    definitions: Dict[str, Quotient] = field(default_factory=dict)
    lines: Dict[str, Tuple[int, str]] = field(default_factory=dict)
    asks: list[Ask] = field(default_factory=list)

    @property
    def box(self) -> Dict[str, Interval]:
        return {**self.gains, **self.uncertain}


class Line:
    """The tokens of one line, and how far they are read."""

    def __init__(self, row: int, text: str, question: Question) -> None:
        self.row, self.text, self.question, self.at = row, text, question, 0
        self.depth = 0  # of parentheses
        self.words: Sequence[Token] = tokens(text)

    @property
    def next(self) -> Token:
        return self.words[self.at]

    def refuse(self, cause: str, at: Optional[Token] = None) -> NoReturn:
        raise ControlRefused(self.row, (at or self.next).at + 1, cause)

    def takes(self, text: str) -> bool:
        """Steps over a word if it is the next one."""
        if self.next.text != text or self.next.kind == "end":
            return False
        self.at += 1
        return True

    def need(self, text: str) -> None:
        if not self.takes(text):
            self.refuse(f"`{text}` is expected")

    def number(self) -> Fraction:
        sign = -1 if self.takes("-") else 1
        if self.next.kind != "number":
            self.refuse("a number is expected")
        self.at += 1
        value = Fraction(self.words[self.at - 1].text)
        if self.takes("/"):
            below = self.number()
            if not below:
                self.refuse("a division by 0", self.words[self.at - 1])
            value /= below
        return sign * value

    def interval(self) -> Interval:
        start = self.next
        self.need("[")
        low = self.number()
        self.need(",")
        high = self.number()
        self.need("]")
        if low > high:
            self.refuse("an interval from low to high is expected", start)
        return low, high

    def ends(self) -> None:
        self.takes(";")
        if self.next.kind != "end":
            self.refuse("the line's end is expected")

    def sum(self) -> Quotient:
        sign = -1 if self.takes("-") else 1
        found = self.product() if sign > 0 else -self.product()
        while self.next.text in ("+", "-"):
            minus = self.takes("-") or not self.takes("+")
            term = self.product()
            found = found + (-term if minus else term)
        return found

    def product(self) -> Quotient:
        found = self.power()
        while self.next.text in ("*", "/"):
            if self.takes("*"):
                found = found * self.power()
            else:
                self.at += 1
                start = self.next
                below = self.power()
                if not below.numerator:
                    self.refuse("a division by 0", start)
                found = found * below.inverse()
        return found

    def power(self) -> Quotient:
        base = self.atom()
        if not self.takes("^"):
            return base
        start = self.next
        exponent = self.number()
        if exponent.denominator != 1 or not 0 <= exponent <= MOST_POWER:
            self.refuse(f"a whole exponent from 0 to {MOST_POWER} is expected", start)
        return base ** int(exponent)

    def atom(self) -> Quotient:
        token = self.next
        if token.kind == "number":
            self.at += 1
            return Quotient(constant(Fraction(token.text)))
        if self.takes("("):
            self.depth += 1
            if self.depth > MOST_DEEP:
                self.refuse(f"more than {MOST_DEEP} nested parentheses", token)
            found = self.sum()
            self.need(")")
            self.depth -= 1
            return found
        if token.kind != "name":
            self.refuse("a number, a name or `(` is expected")
        self.at += 1
        if token.text in self.question.definitions:
            return self.question.definitions[token.text]
        if token.text in self.question.box or token.text in ("s", "z"):
            return Quotient(variable(token.text))
        self.refuse(f"`{token.text}` is no gain, parameter or definition above this line", token)

    def new_name(self) -> str:
        token = self.next
        if not token.is_free_name or token.text in KEPT:
            self.refuse("a name that has no meaning of its own is expected")
        if token.text in self.question.box or token.text in self.question.definitions:
            self.refuse(f"`{token.text}` is defined above")
        self.at += 1
        return token.text

    def ask(self) -> Ask:
        kind = self.next.text
        self.at += 1
        number, band = Fraction(0), None
        if kind in ("S", "T"):
            self.need("<=")
        start = self.next
        if ASKS[kind]:
            number = self.number()
        fits = {"shift": number >= 0, "radius": number > 0, "damping": 0 < number < 1, "gain_margin": number > 1,
                "S": number > 0, "T": number > 0, "phase_margin": 0 < number < 180}
        if not fits.get(kind, True):
            self.refuse(f"this is no {ASKS[kind]} that can be asked for", start)
        if kind in BANDS:
            for word in ("for", "w", "in"):
                self.need(word)
            start, band = self.next, self.interval()
            if band[0] < 0:
                self.refuse("a band of frequencies begins at 0 or above", start)
        return Ask(kind, number, band, self.row, self.text.strip())


def read(text: str) -> Question:
    """The question of a text; ControlRefused at the place where it can't be read."""
    question = Question()
    for row, whole in enumerate(text.splitlines(), 1):
        line = Line(row, whole.partition("#")[0].partition("//")[0].rstrip(), question)
        if line.next.kind == "end":
            continue
        try:
            read_line(line, question)
        except TooLong as fault:
            line.refuse(f"{fault}")
    return question


def read_line(line: Line, question: Question) -> None:
    word = line.next.text
    if word in ("gain", "uncertain"):
        line.at += 1
        name = line.new_name()
        line.need("in")
        (question.gains if word == "gain" else question.uncertain)[name] = line.interval()
    elif word in ASKS:
        question.asks.append(line.ask())
    else:
        name = line.new_name()
        line.need("=")
        question.definitions[name] = line.sum()
        question.lines[name] = (line.row, line.text.strip())
    line.ends()
