"""Equations widened: `f = 0` becomes `f >= -D; f <= D`, so that what is removed speaks of real points, too.

Each real point of the search box at which all equations hold, the other constraints hold with `<` and `>`, and every
divisor differs from 0, lies in a box that the widened system's paving keeps: near it, by continuity, are rational points that
the widened constraints let through, and no removed part holds one of these.
"""
from __future__ import annotations

import contextlib
import re
import tempfile
from collections.abc import Iterator, Sequence
from fractions import Fraction
from pathlib import Path
from typing import Any, Union

from . import numbers
from .canonical import System
from .program import check, run
from .texts import ENCODING, SystemText

Width = Union[str, int, float, Fraction]
MOST_CONSTRAINTS = 64
USUAL = Fraction(1, 10 ** 9)  # for `roots`: below every eps in use, and far above the rounding


def width_of(by: Width) -> str:
    """The number D in words. ValueError where it is none above 0 that a text can hold."""
    try:
        value = Fraction(repr(by)) if isinstance(by, float) else Fraction(by)
    except (ValueError, ZeroDivisionError, OverflowError) as fault:
        raise ValueError(f"--widen {by}: a number above 0 as 1e-9 is expected") from fault
    text = numbers.minibex(value)
    if value <= 0 or text is None:
        raise ValueError(f"--widen {by}: a number above 0 with at most 36 decimal places is expected")
    return text


def widened(text: str, by: Width) -> str:
    """A system's text with each equation widened by D to two inequalities. ValueError where the text had more than 64
    constraints then. The text is one that the program takes."""
    source, width, found = SystemText(text), width_of(by), []
    for constraint in source.constraints:
        if constraint.relation == "=":
            found += [f"{constraint.difference()} >= -{width}", f"{constraint.difference()} <= {width}"]
        else:
            found.append(constraint.written())
    if len(found) == len(source.constraints):
        return text
    if len(found) > MOST_CONSTRAINTS:
        raise ValueError(f"{len(found)} constraints with each equation written as two: {MOST_CONSTRAINTS} are taken. Join some "
                         "by max: `f >= -D; f <= D` is `abs(f) <= D`")
    return source.written(found)


def widened_contract(contract: str, relations: Sequence[str]) -> str:
    """A contractor text for the widened system: `hc4(i)` of an equation becomes both of its inequalities."""
    places, at = {}, 0
    for i, relation in enumerate(relations):
        places[i] = f"compose(hc4({at}),hc4({at + 1}))" if relation == "=" else f"hc4({at})"
        at += 2 if relation == "=" else 1
    return re.sub(r"hc4\((\d+)\)", lambda found: places.get(int(found[1]), found[0]), contract)


@contextlib.contextmanager
def widened_file(system: str | Path, by: Width | None, options: dict[str, Any] | None = None, program: str | None = None
                 ) -> Iterator[tuple[Path, dict[str, Any]]]:
    """The path of a file of the widened system, and the options of its run, in which the contractor text counts the new
    constraints. Without `by` both are as they were given."""
    options = dict(options or {})
    if by is None:
        yield Path(system), options
        return
    known = check(system, program=program)  # a refused system is refused in its own words
    if options.get("contract"):
        run(system, boxes=1, contract=options["contract"], program=program)  # so is a contractor text
        options["contract"] = widened_contract(options["contract"], [c.relation for c in known.constraints])
    with tempfile.TemporaryDirectory() as folder:
        path = Path(folder) / "widened.mbx"
        path.write_bytes(widened(Path(system).read_bytes().decode(ENCODING), by).encode(ENCODING))
        yield path, options


def roots_width(system: System, paving: str | None, by: Width | None) -> Width | None:
    """By how much `roots` widens the equations that it has paved: by USUAL, where nothing is said and a run of its own is
    paved; None for not at all, as with 0."""
    if by is None:
        equations = sum(c.relation == "=" for c in system.constraints)
        return USUAL if paving is None and len(system.constraints) + equations <= MOST_CONSTRAINTS else None
    return None if by in ("0", 0) else by


def claim_of_roots(by: Width | None) -> str:
    """What the paving says of roots that are in no cluster."""
    if by is None:
        return ("The paving is of the equations as they stand: outside the clusters there is no rational root, and of "
                "irrational ones nothing is said (--widen 1e-9).")
    return (f"The paving is of the equations widened by {float(Fraction(by)):g}: each real root in the search box at which "
            "the other constraints hold strictly lies in a cluster.")
