"""The values that an expression can have on a box, in exact fractions, and what that says of a constraint.

It is the natural interval extension, as in the program, without the program's rounding; with slopes it is met with the mean
value form. It is tested and not proved.
"""
from __future__ import annotations

from collections.abc import Sequence

from . import intervals as iv
from .canonical import Constraint, Steps, value
from .intervals import Interval

TWO = {"+": iv.plus, "-": iv.minus, "*": iv.times, "/": iv.over,
       "min": lambda x, y: (min(x[0], y[0]), min(x[1], y[1])), "max": lambda x, y: (max(x[0], y[0]), max(x[1], y[1]))}


def range_of(steps: Steps, box: Sequence[Interval]) -> Interval:
    """The values of an expression on a box of finite ends; Undefined where a divisor's interval holds 0."""
    stack: list[Interval] = []
    for step in steps:
        kind = step[0]
        if kind == "const":
            stack.append(iv.point(step[1]))
        elif kind == "var":
            stack.append(box[step[1]])
        elif kind == "neg":
            stack.append(iv.opposite(stack.pop()))
        elif kind == "abs":
            stack.append(iv.absolute(stack.pop()))
        elif kind == "^":
            stack.append(iv.power(stack.pop(), step[1]))
        else:
            right, left = stack.pop(), stack.pop()
            stack.append(TWO[kind](left, right))
    return stack[0]


def mean_value(steps: Steps, box: Sequence[Interval]) -> Interval:
    """The value at the centre, and the slopes times how far the box reaches from there."""
    centre = [(low + high) / 2 for low, high in box]
    there = value(steps, centre)
    if there is None:
        raise iv.Undefined
    found = iv.point(there)
    for slope, (low, high) in zip(iv.on_box(steps, box).slopes, box):
        half = (high - low) / 2
        found = iv.plus(found, iv.times(slope, (-half, half)))
    return found


def decided(c: Constraint, box: Sequence[Interval], slopes: bool = False) -> bool | None:
    """Whether a constraint holds at each rational point of a box (True), at none (False), or neither is seen (None)."""
    steps = [*c.left, *c.right, ("-",)]
    try:
        low, high = range_of(steps, box)
        if slopes:
            first, last = mean_value(steps, box)
            low, high = max(low, first), min(high, last)
    except iv.Undefined:
        return None
    if c.relation == "=":
        return True if low == high == 0 else False if low > 0 or high < 0 else None
    if c.relation in (">", ">="):
        low, high = -high, -low
    if c.relation in ("<", ">"):
        return True if high < 0 else False if low >= 0 else None
    return True if high <= 0 else False if low > 0 else None
