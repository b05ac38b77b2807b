"""What to write in place of forms that other languages have, found by the text around a refused place."""
from __future__ import annotations

import re
from typing import Optional

from .minibex import FUNCTIONS, tokens

RELATIONS = ("=", "<=", ">=", "<", ">")
WHOLE = {
    "TooManyVariables": "Fix some variables to numbers, put the expression of one that an equation gives in its place (a "
                        "function may hold it), or take one value at a time: a paving for each.",
    "TooManyConstraints": "Join some: a <= 0 and b <= 0 is max(a, b) <= 0.",
}


def hint_at(text: str, byte: int, cause: str) -> Optional[str]:
    """A sentence on what was meant at a refused byte of a text of single-byte characters; None where nothing is known."""
    before, here = text[:byte].rstrip(" \t\r\n"), text[byte:]
    if cause in WHOLE:
        return WHOLE[cause]
    if here.startswith("=") and before.endswith(("=", "<", ">", "!")) or here.startswith(("!=", "<>")):
        return of_relation(before[-1:] + here[:1] if here.startswith("=") else here[:2])
    if here.startswith(">") and before.endswith("<"):
        return of_relation("<>")
    if here.startswith("*") and before.endswith("*"):
        return "A power is written `x^2`: `**` is none here."
    if re.match(r"\.[0-9]", here):
        number = re.match(r"\.[0-9]+", here)
        return f"A number begins with a digit: `0{number.group() if number else ''}`."
    if cause == "BadExponent":
        return of_exponent(here)
    if any(here.startswith(sign) for sign in RELATIONS) and has_relation(text, byte):
        return "A constraint has one relation: `a <= e <= b` is written `a <= e; e <= b`."
    if here.startswith(","):
        return of_comma(text, byte)
    return None


def of_relation(sign: str) -> Optional[str]:
    """The sentence on a relation that the profile does not have."""
    if sign == "==":
        return "Equality is written `=`: `==` is none here."
    if sign in ("!=", "<>"):
        return "`a != b` is written `abs(a - b) > 0`: all but a thin set, so it seldom narrows anything."
    return None


def of_exponent(here: str) -> str:
    """The sentence on an exponent."""
    match = re.match(r"-\s*([0-9]+)", here)
    if match:
        return f"A power below 0 is a quotient: `x^-{match.group(1)}` is written `1/x^{match.group(1)}`."
    if re.match(r"[0-9]*\.[0-9]|\(", here):
        return "A root is a variable r with r^n = x (and r >= 0 where n is even); `x^(n)` is written `x^n`."
    return "An exponent is a whole number in digits; a product says the same as a power of a variable's value."


def has_relation(text: str, byte: int) -> bool:
    """Whether the constraint of a byte has a relation before it."""
    found = False
    for token in tokens(text[:byte]):
        if token.word in (";", "Constraints"):
            found = False
        elif token.kind == "sign" and token.text in RELATIONS:
            found = True
    return found


def of_comma(text: str, byte: int) -> Optional[str]:
    """The sentence on one argument too many of min or max."""
    waiting = []
    last = ""
    for token in tokens(text[:byte]):
        if token.text == "(":
            waiting.append(last)
        elif token.text == ")" and waiting:
            waiting.pop()
        last = token.text
    name = waiting[-1] if waiting else ""
    if FUNCTIONS.get(name) == 2:
        return f"`{name}` takes 2 arguments: `{name}(a, b, c)` is written `{name}(a, {name}(b, c))`."
    return None
