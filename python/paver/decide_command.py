"""The words and the printed lines of `decide` and `report`."""
from __future__ import annotations

import argparse
import sys
from collections.abc import Iterable, Mapping
from decimal import ROUND_CEILING, ROUND_FLOOR, Context, Decimal
from fractions import Fraction
from typing import Callable, List, Tuple

from .cover import Name
from .decide import TRIES, Decisions, Pairs, decide
from .numbers import decimal, printable
from .paving import Paving

PavingOf = Callable[[argparse.Namespace], Tuple[Paving, List[str]]]
DIGITS = 6
LONGEST = 24  # signs of a coordinate that is printed as it is
NOTHING = "no inner box has a volume: no point has a tolerance that is proved. Take a smaller eps; an equation leaves none"


def add_options(command: argparse.ArgumentParser) -> None:
    """The words of both commands behind the system and the paving."""
    command.add_argument("--scale", action="append", metavar="NAME=LENGTH",
                         help="the length in which a variable's moves are measured, else its width in the search box")
    command.add_argument("--tries", type=int, default=TRIES, help=f"points that are measured ({TRIES})")


def scales_of(words: Iterable[str]) -> dict[Name, Fraction]:
    """The lengths that words as kp=0.5 give for variables; ValueError where one is no such word, or a name comes twice."""
    found: dict[Name, Fraction] = {}
    for word in words:
        name, equals, number = word.partition("=")
        try:
            if not equals or name in found:
                raise ValueError
            found[name] = Fraction(number)
        except (ValueError, ZeroDivisionError):
            raise ValueError(f"--scale {word}: a variable, once, and its length are expected, as --scale kp=0.5") from None
    return found


def digits(value: Fraction, up: bool) -> str:
    """A number in six digits, rounded to its side."""
    context = Context(prec=DIGITS, rounding=ROUND_CEILING if up else ROUND_FLOOR)
    found = context.divide(Decimal(value.numerator), Decimal(value.denominator))
    return f"{found.normalize(context):f}" if -5 < found.adjusted() < 15 or not found else f"{found}"


def within(pair: tuple[Fraction, Fraction]) -> str:
    """An interval rounded inward, so that what is said of it is proved."""
    return f"[{digits(pair[0], True)}, {digits(pair[1], False)}]"


def spelled(value: Fraction, exactly: bool) -> str:
    """A coordinate of a decision: its decimals where it has few, else six digits, or with exactly the fraction."""
    text = decimal(value)
    return str(value) if exactly else text if text is not None and len(text) <= LONGEST else digits(value, False)


def boxes_in_words(found: Decisions, box: Pairs, exactly: bool) -> list[str]:
    """Of each variable its name and its interval."""
    return [f"{name} in " + (f"[{pair[0]}, {pair[1]}]" if exactly else within(pair)) for name, pair in zip(found.names, box)]


def lines_of(found: Decisions, exactly: bool = False) -> list[str]:
    """What `decide` prints."""
    tolerance, ball, largest = found.tolerance, found.ball, found.largest
    if tolerance is None or ball is None or largest is None:
        return [NOTHING + "."]
    share, most = digits(tolerance.share, False), digits(tolerance.most, True)
    lines = [f"greatest tolerance: all variables may move at once by {share} of their scales, and no point allows above {most}"]
    for name, x, move, scale in zip(found.names, tolerance.point, tolerance.moves, found.scales):
        shown = str(move) if exactly else digits(move, False)
        lines.append(f"  {name} = {spelled(x, exactly)} +- {shown}, scale {spelled(scale, exactly)}")
    radius, most = digits(ball.radius, False), digits(ball.most, True)
    lines.append(f"largest ball: radius {radius} in scales, and around no point one above {most}")
    for name, x, reach in zip(found.names, ball.point, ball.reaches):
        lines.append(f"  {name} = {spelled(x, exactly)}, reaching {reach if exactly else digits(reach, False)}")
    lines.append(f"largest box found: volume {digits(largest.volume, False)} in scales")
    for text, x in zip(boxes_in_words(found, largest.box, exactly), largest.point):
        lines.append(f"  {text}, centre {spelled(x, exactly)}")
    lines.append("each rational point of the ball and of both boxes is in the set: inner boxes of the paving cover them")
    return lines


def decide_command(arguments: argparse.Namespace, paving_of: PavingOf) -> int:
    """Prints the point whose variables may move farthest and stay proved, the largest proved ball, and a largest proved box.
    Status 1 where there is none."""
    scales = scales_of(arguments.scale or [])
    paving, warnings = paving_of(arguments)
    found = decide(paving, scales, arguments.tries)
    print("\n".join(lines_of(found, arguments.exactly)))
    for sentence in warnings:
        print(f"note: {printable(sentence)}", file=sys.stderr)
    return 1 if found.tolerance is None else 0


def report_command(arguments: argparse.Namespace, options: Mapping[str, str]) -> int:
    """Prints one page of HTML on a stored paving, for a design review."""
    from .report import report
    sys.stdout.write(report(arguments.system, arguments.paving, scale=scales_of(arguments.scale or []), tries=arguments.tries,
                            program=arguments.program, strict=arguments.strict, **options))
    return 0
