"""What the profile's grammar, and that of contractor texts, would take at a place where a text is refused."""
from __future__ import annotations

import re
from collections.abc import Callable, Collection, Iterable, Sequence
from typing import NoReturn

from . import minibex
from .minibex import Token

RELATIONS = ("=", "<=", ">=", "<", ">")
OPERATORS = "an operator"
MOST_PARAMETERS = 12


class Stop(Exception):
    """The token that can't stand there."""


class Reader:
    """Reads tokens in order and notes, for the token it stands at, all that it would have taken."""

    def __init__(self, tokens: Sequence[Token], last: int) -> None:
        self.tokens, self.last, self.at = tokens, last, 0
        self.noted_at = -1
        self.noted: list[str] = []

    @property
    def token(self) -> Token:
        return self.tokens[self.at]

    def note(self, label: str) -> None:
        if self.noted_at != self.at:
            self.noted_at, self.noted = self.at, []
        if label not in self.noted:
            self.noted.append(label)

    def step(self) -> Token:
        if self.token.at >= self.last:
            raise Stop
        self.at += 1
        return self.tokens[self.at - 1]

    def take(self, word: str, label: str | None = None) -> Token | None:
        """The token where it is the word; else None, and the word is noted. At the refused token all is noted."""
        self.note(label or f"`{word}`")
        if self.token.at < self.last and self.token.word == word and self.token.kind in ("name", "sign"):
            return self.step()
        return None

    def expect(self, word: str, label: str | None = None) -> Token:
        return self.take(word, label) or self.stop()

    def kind(self, kind: str, label: str) -> Token | None:
        self.note(label)
        if self.token.at < self.last and self.token.kind == kind:
            return self.step()
        return None

    def stop(self) -> NoReturn:
        raise Stop


def listed(names: Iterable[str], most: int = 8) -> str:
    names = list(names)
    return ", ".join(names[:most]) + (" .." if len(names) > most else "")


class System(Reader):
    """The grammar of systems."""

    def __init__(self, text: str, last: int) -> None:
        super().__init__(minibex.tokens(text), last)
        self.constants: list[str] = []
        self.variables: list[str] = []
        self.functions: dict[str, int] = {}
        self.known: list[str] = []

    def run(self) -> list[str]:
        """What is expected at the refused token, as a list of phrases."""
        try:
            self.system()
        except Stop:
            pass
        return self.noted if self.noted_at == self.at else []

    def system(self) -> NoReturn:
        if self.take("Constants"):
            self.entries(self.constant, ("Function", "Variables"))
        self.function_blocks()
        self.expect("Variables")
        self.entries(self.variable, ("Function", "Constraints"))
        self.function_blocks()
        self.expect("Constraints")
        self.known = [*self.variables, *self.constants]
        self.constraint()
        while self.take(";") and not self.take("End", "`end`"):
            self.constraint()
        if self.tokens[self.at - 1].word != "End":
            self.expect("End", "`end`")
        self.note("the end of the text")
        self.stop()

    def entries(self, entry: Callable[[], None], stops: Collection[str]) -> None:
        entry()
        while self.take(",") or self.take(";"):
            if self.token.at < self.last and self.token.word in stops:
                return
            entry()

    def new_name(self, what: str) -> str:
        self.note(f"a new name for {what}")
        if self.token.at < self.last and self.token.is_free_name:
            return self.step().text
        return self.stop()

    def constant(self) -> None:
        self.constants.append(self.new_name("a constant"))
        self.expect("=")
        self.sign()
        self.kind("number", "a number") or self.stop()

    def sign(self) -> Token | None:
        return self.take("-", "a sign") or self.take("+", "a sign")

    def variable(self) -> None:
        self.variables.append(self.new_name("a variable"))
        if self.take("in", "`in [low, high]`"):
            self.expect("[")
            self.bound()
            self.expect(",")
            self.bound()
            self.expect("]")

    def bound(self) -> None:
        self.sign()
        if self.kind("number", "a number") or self.take("oo"):
            return
        if self.constants:
            self.note(f"a constant ({listed(self.constants)})")
        if self.token.at >= self.last or self.token.text not in self.constants:
            self.stop()
        self.step()

    def function_blocks(self) -> None:
        while self.take("Function", "`function`"):
            name = self.new_name("the function")
            self.expect("(")
            parameters = [self.new_name("a parameter")]
            while len(parameters) < MOST_PARAMETERS and self.take(","):
                parameters.append(self.new_name("a parameter"))
            full = len(parameters) == MOST_PARAMETERS
            self.expect(")", "`)` (a function has at most 12 parameters)" if full else None)
            self.expect("Return", "`return`")
            self.known = [*parameters, *self.constants]
            self.expression()
            self.take(";")
            self.expect("End", "`end`")
            self.take(";")
            self.functions[name] = len(parameters)

    # ---- expressions

    def constraint(self) -> None:
        self.expression()
        if not any(self.take(relation, "a relation (= <= >= < >)") for relation in RELATIONS):
            self.stop()
        self.expression()

    def expression(self) -> None:
        self.term()
        while any(self.take(sign, OPERATORS) for sign in "+-"):
            self.term()

    def term(self) -> None:
        self.factor()
        while any(self.take(sign, OPERATORS) for sign in "*/"):
            self.factor()

    def factor(self) -> None:
        if self.sign():
            self.factor()
            return
        self.primary()
        if self.take("^", OPERATORS):
            self.kind("number", "a whole exponent from 0 to 32, in digits alone") or self.stop()

    def primary(self) -> None:
        if self.kind("number", "a number"):
            return
        if self.take("("):
            self.expression()
            self.expect(")")
            return
        self.note(f"a name ({listed(self.known)})")
        self.note(f"a function ({listed([*self.functions, *minibex.FUNCTIONS])})")
        name = self.token.text
        counts = {**minibex.FUNCTIONS, **self.functions}
        if self.token.at < self.last and name in self.known:
            self.step()
        elif self.token.at < self.last and name in counts:
            self.step()
            self.arguments(counts[name], name)
        else:
            self.stop()

    def arguments(self, count: int, name: str) -> None:
        self.expect("(")
        self.expression()
        for _ in range(count - 1):
            self.expect(",", f"`,` (`{name}` takes {count} arguments)")
            self.expression()
        self.expect(")")


PROGRAM_TOKEN = re.compile(r"(?P<name>[a-z][a-z0-9]*)|(?P<number>[0-9]+)|(?P<sign>[(),])|(?P<bad>.)", re.S)


class Program(Reader):
    """The grammar of contractor texts."""

    def __init__(self, text: str, last: int, constraints: int) -> None:
        found = [Token(m.lastgroup or "", m.group(), m.start()) for m in PROGRAM_TOKEN.finditer(text)]
        super().__init__([*found, Token("end", "", len(text))], last)
        self.constraints = constraints

    def run(self) -> list[str]:
        try:
            self.program()
            self.note("the end of the text")
        except Stop:
            pass
        return self.noted if self.noted_at == self.at else []

    def program(self) -> None:
        for name in ("hc4", "prop", "compose", "union", "qinter", "fix"):
            if self.take(name):
                self.expect("(")
                self.body(name)
                return
        self.stop()

    def body(self, name: str) -> None:
        least = 0
        if name == "hc4":
            self.number(f"a constraint's number from 0 to {self.constraints - 1}" if self.constraints else "a number")
        elif name in ("prop", "fix"):
            self.number("a number of turns from 1 to 64")
        elif name == "qinter":
            least = int(self.number("how many have to agree, from 1 to the number of programs that follow").text)
        if name in ("qinter", "fix"):
            self.expect(",")
        if name not in ("hc4", "prop"):
            self.programs(name in ("compose", "union", "qinter"), least)
        self.expect(")")

    def programs(self, many: bool, least: int) -> None:
        self.program()
        count = 1
        while many and self.take(",", f"`,` and another program, as {least} have to agree" if count < least else "`,`"):
            self.program()
            count += 1
        if count < least:
            self.stop()

    def number(self, label: str) -> Token:
        return self.kind("number", label + ", without a leading zero") or self.stop()


def at_system(text: str, byte: int) -> list[str]:
    """What a system's text could have at a byte: phrases; none where this reader can't tell."""
    return System(text, byte).run()


def at_program(text: str, byte: int, constraints: int) -> list[str]:
    """The same for a contractor text."""
    return Program(text, byte, constraints).run()
