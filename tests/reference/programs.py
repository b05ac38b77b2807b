"""Contractor texts: the first place that is refused."""
from __future__ import annotations

import re
from collections.abc import Callable
from typing import List, Optional, Tuple

MOST_BYTES = 4096
MOST_PROGRAMS = 256
TOKEN = re.compile(rb"[a-z][a-z0-9]*|[0-9]+|.", re.DOTALL)


class Refused(Exception):
    """The byte of the first token that is not allowed."""


class Reader:
    def __init__(self, text: bytes, constraints: int) -> None:
        self.constraints, self.programs = constraints, 0
        self.tokens: List[Tuple[int, Optional[bytes]]] = [(found.start(), found.group()) for found in TOKEN.finditer(text)]
        self.tokens.append((len(text), None))

    def next(self, allowed: Callable[[bytes], bool]) -> bytes:
        """The next token, where it is allowed."""
        place, token = self.tokens[0]
        if token is None or not allowed(token):
            raise Refused(place)
        del self.tokens[0]
        return token

    def exactly(self, *tokens: bytes) -> bytes:
        return self.next(lambda token: token in tokens)

    def number(self, low: int, high: int) -> int:
        def fits(token: bytes) -> bool:
            return token.isdigit() and (token == b"0" or token[:1] != b"0") and low <= int(token) <= high
        return int(self.next(fits))

    def program(self) -> None:
        names = (b"hc4", b"compose", b"union", b"qinter", b"fix", b"prop")
        name = self.next(lambda token: token in names and self.programs < MOST_PROGRAMS)
        self.programs += 1
        self.exactly(b"(")
        if name == b"hc4":
            self.number(0, self.constraints - 1)
            self.exactly(b")")
        elif name == b"prop":
            self.number(1, 64)
            self.exactly(b")")
        elif name == b"fix":
            self.number(1, 64)
            self.exactly(b",")
            self.program()
            self.exactly(b")")
        elif name == b"qinter":
            least = self.number(1, 256)
            self.exactly(b",")
            self.list(least)
        else:
            self.list(1)

    def list(self, least: int) -> None:
        """At least so many programs with commas between them, and a closing parenthesis."""
        self.program()
        count = 1
        while self.exactly(b",", *([b")"] if count >= least else [])) == b",":
            self.program()
            count += 1


def refused_at(text: bytes, constraints: int) -> int | None:
    """The byte at which a contractor text is refused for a system of so many constraints; None where it is good."""
    if len(text) > MOST_BYTES:
        return MOST_BYTES
    reader = Reader(text, constraints)
    try:
        reader.program()
        place, token = reader.tokens[0]
    except Refused as refused:
        return refused.args[0]
    return None if token is None else place
