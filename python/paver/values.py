"""Bounds of the least value of an expression over the solution set, as the program finds them."""
from __future__ import annotations

from dataclasses import dataclass
from fractions import Fraction
from typing import Any, Optional, Tuple

from . import errors, numbers
from .numbers import Exact
from .options import COMMANDS
from .program import PathName, asked, option_words


@dataclass
class Bounds:
    """What `least` answered. No rational point of the set at which the expression is defined has a value below
    `lower`, a Fraction, or an infinite float: math.inf where the expression has no value on the set. Where the search
    found a point of the set, `point` has its Fractions, and its value is at most `upper`; else both are None."""
    status: int
    text: str
    lower: Exact
    upper: Optional[Exact] = None
    point: Optional[Tuple[Fraction, ...]] = None

    @property
    def complete(self) -> bool:
        """Whether no open leaf is left in which the expression may be as low as at the point."""
        return self.status == 0


def bounds_of(status: int, text: str) -> Bounds:
    """The bounds that the printed lines tell; ProgramFault where they are no such lines."""
    try:
        lines = [line.split(" ") for line in text.rstrip("\n").split("\n")]
        words = {line[0]: [numbers.exact(word) for word in line[1:] if word != "none"] for line in lines}
        (lower,), uppers = words.pop("lower"), words.pop("upper")
        if not uppers and not words:
            return Bounds(status, text, lower)
        (upper,), point = uppers, words["point"]
        return Bounds(status, text, lower, upper, tuple(Fraction(value) for value in point))
    except (KeyError, TypeError, ValueError, OverflowError) as fault:
        raise errors.ProgramFault(status, f"least answered {text!r}") from fault


def least(system: PathName, of: str, *, eps: Any = None, depth: Any = None, bisect: Optional[str] = None,
          contract: Optional[str] = None, boxes: Any = None, limit: Any = None, program: Optional[str] = None,
          timeout: Optional[float] = None) -> Bounds:
    """The bounds of the least value of an expression over a system's set. ObjectiveRefused, with .byte and .cause, where the
    program takes the expression's text for none."""
    given = dict(eps=eps, depth=depth, bisect=bisect, contract=contract, boxes=boxes, limit=limit, of=of)
    return bounds_of(*asked(["least", *option_words(given, COMMANDS["least"]), "--", system], program, timeout))
