"""A good system's text in parts, so that it can be written anew: its variables, and each constraint by its two sides."""
from __future__ import annotations

from collections.abc import Iterable, Mapping
from dataclasses import dataclass
from fractions import Fraction
from pathlib import Path

from .minibex import Token, tokens

RELATIONS = ("=", "<=", ">=", "<", ">")
ENCODING = "latin-1"  # every byte is one character, so places are bytes


@dataclass
class Side:
    """An expression of a text as its tokens."""
    text: str
    tokens: list[Token]

    def written(self, instead: Mapping[str, str] | None = None) -> str:
        """Its text, with other texts in the place of some names."""
        found, at = [], self.tokens[0].at
        for token in self.tokens:
            found.append(self.text[at:token.at])
            found.append((instead or {}).get(token.text, token.text) if token.kind == "name" else token.text)
            at = token.at + len(token.text)
        return "".join(found)

    def names(self) -> set[str]:
        return {token.text for token in self.tokens if token.kind == "name"}


@dataclass
class Related:
    """A constraint of a text."""
    left: Side
    relation: str
    right: Side

    def written(self, instead: Mapping[str, str] | None = None) -> str:
        return f"{self.left.written(instead)} {self.relation} {self.right.written(instead)}"

    def difference(self, instead: Mapping[str, str] | None = None) -> str:
        """Left less right, without the right side where it is 0."""
        left, right = self.left.written(instead), self.right.written(instead)
        if right.strip() == "0":
            return left
        return f"{left} - {right if len(self.right.tokens) == 1 else f'({right})'}"


class SystemText:
    """The parts of a text that the program takes: `before` the variables, the variables' names with the texts of their
    bounds (None where there is no domain), what stands `between` them and the constraints, and the constraints."""

    def __init__(self, text: str) -> None:
        self.text, words = text, tokens(text)
        at = next(i for i, token in enumerate(words) if token.word == "Variables")
        self.before = text[:words[at].at]
        self.constants = constants_of(words[:at])
        self.variables: dict[str, tuple[str, str] | None] = {}
        at += 1
        while words[at].is_free_name:
            at = self._variable(words, at)
        start = next(i for i in range(at, len(words)) if words[i].word == "Constraints")
        self.between = text[words[at].at:words[start].at]
        self.constraints = list(self._constraints(words[start + 1:]))

    @classmethod
    def read(cls, path: str | Path) -> SystemText:
        return cls(Path(path).read_bytes().decode(ENCODING))

    def _variable(self, words: list[Token], at: int) -> int:
        name, at = words[at].text, at + 1
        self.variables[name] = None
        if words[at].text == "in":
            comma = next(i for i in range(at, len(words)) if words[i].text == ",")
            close = next(i for i in range(comma, len(words)) if words[i].text == "]")
            self.variables[name] = (text_of(words[at + 2:comma]), text_of(words[comma + 1:close]))
            at = close + 1
        return at + 1 if words[at].text in (",", ";") else at

    def _constraints(self, words: list[Token]) -> Iterable[Related]:
        begun, relation, depth = 0, None, 0
        for i, token in enumerate(words):
            depth += (token.text == "(") - (token.text == ")")
            if depth == 0 and token.text in RELATIONS:
                relation = i
            elif depth == 0 and (token.text == ";" or token.word == "End"):
                if relation is not None:
                    yield Related(Side(self.text, words[begun:relation]), words[relation].text,
                                  Side(self.text, words[relation + 1:i]))
                if token.word == "End":
                    return
                begun, relation = i + 1, None

    def bounds(self, name: str) -> tuple[Fraction | float, Fraction | float]:
        """The two ends of a variable's domain as they are written, exactly; an infinite one is a float."""
        domain = self.variables[name] or ("-oo", "oo")
        return self._bound(domain[0]), self._bound(domain[1])

    def _bound(self, word: str) -> Fraction | float:
        sign, word = (-1 if word.startswith("-") else 1), word.lstrip("+-")
        if word == "oo":
            return sign * float("inf")
        return sign * (self.constants[word] if word in self.constants else Fraction(word))

    def written(self, constraints: Iterable[str], variables: Mapping[str, tuple[str, str] | None] | None = None) -> str:
        """The text with these constraints, and with these variables where they are given."""
        known = self.variables if variables is None else variables
        entries = [name if ends is None else f"{name} in [{ends[0]}, {ends[1]}]" for name, ends in known.items()]
        lines = [f"  {text};" for text in constraints]
        between = self.between.strip()
        return "\n".join([f"{self.before}Variables", f"  {', '.join(entries)};", *([between] if between else []),
                          "Constraints", *lines, "end", ""])


def text_of(words: list[Token]) -> str:
    return "".join(token.text for token in words)


def constants_of(words: list[Token]) -> dict[str, Fraction]:
    """The constants that stand before the variables, by their names: a name, `=`, and a number with an optional sign."""
    found: dict[str, Fraction] = {}
    at = 1 if words and words[0].word == "Constants" else len(words)
    while at + 2 < len(words) and words[at].is_free_name:
        name, at = words[at].text, at + 2
        sign = -1 if words[at].text == "-" else 1
        at += words[at].text in ("+", "-")
        found[name] = sign * Fraction(words[at].text)
        at += 1
        at += at < len(words) and words[at].text in (",", ";")
    return found
