"""The words and the printed lines of `least --levels`."""
from __future__ import annotations

import argparse
import math
import signal
import sys
from collections.abc import Iterator, Mapping
from fractions import Fraction
from typing import Any

from . import errors, explain
from .levels import BOXES, ENDINGS, Levels, least_by_levels
from .levels_kept import Proof
from .numbers import as_float, counted, decimal

ALONE = ("within", "try_points", "keep", "seconds")  # options that belong to --levels
FIXED = ("eps", "depth", "bisect")  # options that levels choose by themselves
ENDED = (signal.SIGINT, signal.SIGTERM)


def add_options(command: argparse.ArgumentParser) -> None:
    command.add_argument("--levels", action="store_true", help="by runs of the system with `OF <= c`: bounds close together")
    command.add_argument("--within", metavar="D", help="with --levels: how near the bounds shall be (0.001)")
    command.add_argument("--try", dest="try_points", metavar="x=1,y=0.5", action="append",
                         help="with --levels: a point that may be in the set")
    command.add_argument("--keep", metavar="FOLDER", help="with --levels: stores the runs that prove the bounds")
    command.add_argument("--seconds", help="with --levels: the most time (60)")
    command.add_argument("--widen", metavar="D", help="equations f = 0 become f >= -D; f <= D")


def refuse_words(arguments: argparse.Namespace) -> None:
    """ValueError where options are given that have no meaning together."""
    unfit = FIXED if arguments.levels else ALONE
    given = [name for name in unfit if getattr(arguments, name, None) is not None]
    if given:
        name = given[0].replace("_points", "")
        raise ValueError(f"--{name} isn't taken with --levels, which chooses it" if arguments.levels else
                         f"--{name} is taken with --levels alone")


def point_of(word: str) -> dict[str, Fraction]:
    """The numbers of a word as x=1,y=0.5 by their names."""
    found: dict[str, Fraction] = {}
    for part in word.split(","):
        name, _, number = part.partition("=")
        try:
            found[name.strip()] = Fraction(number)
        except (ValueError, ZeroDivisionError) as fault:
            raise ValueError(f"--try {word}: variables and their numbers are expected, as --try x=1,y=0.5") from fault
    return found


def number_of(name: str, word: str) -> Fraction:
    try:
        return Fraction(word)
    except (ValueError, ZeroDivisionError) as fault:
        raise ValueError(f"--{name} {word}: a number as 0.001 is expected") from fault


def lines_of(found: Levels, of: str) -> Iterator[str]:
    """The printed lines: the bounds, the point, the two runs."""
    yield f"lower {exactly(found.lower)}"
    yield "upper none" if found.upper is None else f"upper {exactly(found.upper)}"
    for name, value in zip(found.names, found.point or ()):
        yield f"  {name} = {exactly(value)}"
    yield from (f"{name} bound by {told(proof, of)}" for name, proof in sorted(found.proofs.items()))
    gap = f"gap {exactly(found.gap)} " if found.gap < math.inf else ""
    yield f"{gap}after {counted(found.calls, 'call')}: {ENDINGS.get(found.ended, found.ended)}"


def exactly(value: Fraction | float) -> str:
    if isinstance(value, float):
        return "+oo" if value > 0 else "-oo"
    return decimal(value) or f"{value.numerator}/{value.denominator}"


def told(proof: Proof, of: str) -> str:
    what = "the system" if proof.level is None else f"the system with `{of} <= {exactly(proof.level)}`"
    kept = "an inner box" if proof.counts["inner"] else "nothing kept"
    return f"`{proof.command}` of {what}: {counted(proof.counts['settled'], 'node')}, {kept}"


def progress(found: Levels) -> None:
    upper = "none" if found.upper is None else f"{as_float(found.upper, True):.9g}"
    lower = as_float(found.lower, False)
    print(f"least value above {lower:.9g}, at most {upper}, {counted(found.calls, 'call')}", file=sys.stderr, flush=True)


def raise_interrupt(_number: int, _frame: object) -> None:
    raise KeyboardInterrupt


def work(arguments: argparse.Namespace) -> int:
    """Prints bounds of the least value by levels. Status 1 where they are not as near as asked."""
    options: Mapping[str, Any] = {
        "within": number_of("within", arguments.within or "0.001"),
        "seconds": float(number_of("seconds", arguments.seconds or "60")),
        "tries": [point_of(word) for word in arguments.try_points or ()], "widen": arguments.widen, "keep": arguments.keep,
        "contract": arguments.contract, "limit": arguments.limit, "program": arguments.program,
        **({"boxes": int(arguments.boxes)} if arguments.boxes else {})}
    before = {number: signal.signal(number, raise_interrupt) for number in ENDED}
    try:
        found = least_by_levels(arguments.system, arguments.of, tell=progress, **options)
    except errors.ObjectiveRefused as fault:
        lines = explain.of_refused_objective(arguments.of, fault)
        print("\n".join(lines[:2]), file=sys.stderr)
        return 2
    except KeyboardInterrupt:
        print("paver: interrupted before anything was asked", file=sys.stderr)
        return 1
    finally:
        for number, handler in before.items():
            signal.signal(number, handler)
    print("\n".join(lines_of(found, arguments.of)))
    if found.ended == BOXES and found.upper is None and arguments.widen is None:
        print("note: no point was found: where the system has equations, --widen D lets near ones through", file=sys.stderr)
    return 0 if found.complete else 1
