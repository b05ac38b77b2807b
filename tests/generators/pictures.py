#!/usr/bin/env python3
"""Cases of pictures: pavings, slices of them, and their SVG texts, worked out on exact fractions straight from what a
slice, a rectangle and a pixel are. Of tests/reference only the rounding of fractions and the lines of pavings serve;
nothing is shared with the program.

Writes crates/test_pictures/src/table.rt.
"""
from __future__ import annotations

import random
from collections.abc import Iterator, Sequence
from fractions import Fraction
from math import floor
from typing import Tuple

from tests.generators.case_table import ends, spelled, write
from tests.reference import files
from tests.reference.kinds import Box, Interval, Tree, Value
from tests.reference.numbers import DOWN, TOP, UP, as_fraction, from_fraction, is_finite
from tests.reference.paver import halves

FILLS = {"X": "#cfd8dc", "I": "#43a047", "S": "#fdd835", "O": "#ffffff"}
Case = Tuple[Box, Tree, int, int, Sequence[Value]]
HEAD = '<svg xmlns="http://www.w3.org/2000/svg" width="1000" height="1000" viewBox="0 0 1000 1000">\n'


def rounded(value: Fraction, side: str) -> Fraction | None:
    """A fraction rounded to a number, as a fraction again; None for an infinite end."""
    number = from_fraction(value, side)
    return as_fraction(number) if is_finite(number) else None


def below(value: Fraction) -> Fraction:
    """A fraction from 0 on rounded down, which is finite."""
    return as_fraction(from_fraction(value, DOWN))


def lower_pixel(axis: Interval, v: Value) -> int:
    """How many pixels from the lower end on end at or below a number, by steps that are each rounded down."""
    lo, hi, v = as_fraction(axis[0]), as_fraction(axis[1]), as_fraction(v)
    if v == hi:
        return 1000
    length = rounded(hi - lo, UP)
    share = Fraction(0) if length is None else below(below(v - lo) / length)
    return floor(below(share * 1000))


def upper_pixel(axis: Interval, v: Value) -> int:
    """How many pixels from the lower end on begin below a number: by the same steps from the upper end down."""
    lo, hi = axis
    return 1000 - lower_pixel((-hi, -lo), -v)


def side(kind: str, axis: Interval, part: Interval) -> tuple[int, int]:
    """The first pixel of a part of an axis, and the first behind it."""
    if axis[0] == axis[1]:
        return 0, 1
    if kind in "XI":
        first, past = upper_pixel(axis, part[0]), lower_pixel(axis, part[1])
        assert first >= exact(axis, part[0]) and past <= exact(axis, part[1])
        return first, past
    first = min(lower_pixel(axis, part[0]), 999)
    past = max(upper_pixel(axis, part[1]), first + 1)
    assert first <= exact(axis, part[0]) and past >= exact(axis, part[1])
    return first, past


def exact(axis: Interval, v: Value) -> Fraction:
    """Where a number lies on an axis with a length, in pixels."""
    lo, hi, v = as_fraction(axis[0]), as_fraction(axis[1]), as_fraction(v)
    return 1000 * (v - lo) / (hi - lo)


def rectangles(tree: Tree, box: Box, x: int, y: int, at: Sequence[Value]) -> Iterator[tuple[Box, str]]:
    """Pairs of a box and a class, by recursion on the tree."""
    def is_seen(b: Box) -> bool:
        others = [b[i] for i in range(len(b)) if i not in (x, y)]
        assert len(others) == len(at)
        return all(lo <= n <= hi for (lo, hi), n in zip(others, at))

    kind = tree[0]
    if not is_seen(box):
        return
    if kind in "OX":
        yield box, kind
        return
    to = tree[1]
    if not is_seen(to) or to[x] != box[x] or to[y] != box[y]:
        yield box, "X"
    if kind == "C":
        for child, half in zip(tree[4:], halves(*tree[1:4])):
            yield from rectangles(child, half, x, y, at)
    elif is_seen(to):
        yield to, kind


def picture(tree: Tree, root: Box, x: int, y: int, at: Sequence[Value]) -> str:
    text = HEAD
    for box, kind in rectangles(tree, root, x, y, at):
        (left, right), (bottom, top) = (side(kind, root[i], box[i]) for i in (x, y))
        if right <= left or top <= bottom:
            continue
        text += f'<rect x="{left}" y="{1000 - top}" width="{right - left}" height="{top - bottom}" fill="{FILLS[kind]}"/>\n'
    return text + "</svg>\n"


def end(value: Fraction | int) -> Value:
    return from_fraction(Fraction(value), DOWN)


def boxed(*ends: tuple[Fraction | int, Fraction | int]) -> Box:
    return [(end(lo), end(hi)) for lo, hi in ends]


def part_of(chance: random.Random, interval: Interval) -> Interval:
    """The interval, or a part of it with ends on a grid of sevenths of its length."""
    lo, hi = interval
    if chance.random() < 0.6:
        return interval
    cuts = sorted(chance.sample(range(8), 2))
    return tuple(min(max(from_fraction(as_fraction(lo + (hi - lo) * k // 7), DOWN), lo), hi) for k in cuts)


def grown(chance: random.Random, box: Box, cuts: int) -> Tree:
    """A tree over a box with at most so many cuts on a path."""
    kind = chance.choice("OXISCCCC" if cuts else "OXIS")
    if kind in "OX":
        return (kind,)
    to = [part_of(chance, x) for x in box]
    wide = [i for i, (lo, hi) in enumerate(to) if lo < end_between(lo, hi) < hi]
    if kind != "C" or not wide:
        return ("I" if kind == "C" else kind, to)
    variable = chance.choice(wide)
    at = end_between(*to[variable])
    low, high = halves(to, variable, at)
    return ("C", to, variable, at, grown(chance, low, cuts - 1), grown(chance, high, cuts - 1))


def end_between(lo: Value, hi: Value) -> Value:
    return from_fraction(as_fraction(lo) / 3 + 2 * as_fraction(hi) / 3, DOWN)


def cut_numbers(tree: Tree, place: int) -> list[Value]:
    if tree[0] != "C":
        return []
    here = [tree[3]] if tree[2] == place else []
    return here + cut_numbers(tree[4], place) + cut_numbers(tree[5], place)


def on_faces(chance: random.Random, tree: Tree, root: Box, x: int, y: int) -> Iterator[Value]:
    """A number for each other place: where it is cut there, or an end, or some number between."""
    for i, (lo, hi) in enumerate(root):
        if i not in (x, y):
            yield chance.choice(cut_numbers(tree, i) or [lo, hi, end_between(lo, hi)])


def by_chance(seed: int, root: Box, x: int, y: int, cuts: int) -> Case:
    """A case with some five to ten nodes and at least three rectangles."""
    chance = random.Random(seed)
    while True:
        tree = grown(chance, root, cuts)
        at = list(on_faces(chance, tree, root, x, y))
        if 5 <= len(list(files.lines(tree, root, 1))) <= 10 and len(list(rectangles(tree, root, x, y, at))) >= 3:
            return root, tree, x, y, at


SQUARE = boxed((0, 2), (0, 2))
THIRD = [(0, from_fraction(Fraction(1, 3), DOWN)), (from_fraction(Fraction(-1, 7), DOWN), from_fraction(Fraction(2, 3), UP))]
POINTS = boxed((3, 3), (-1, -1))
FLAT = boxed((Fraction(1, 2), Fraction(1, 2)), (-3, 5))
NEGATIVE = boxed((-1000, -10), (-7, Fraction(-1, 1024)))
HUGE = [(-TOP, TOP), (TOP // 2 + 1 - (TOP // 2 + 1) % (1 << 962), TOP)]
TINY = [(-1, 1), (1, 8)]
CUBE = boxed((0, 1), (-1, 1), (Fraction(-3, 4), 5))
TWELVE = boxed(*[(-k, 2 * k + 1) for k in range(12)])

GROUPS: dict[str, list[Case]] = {
    "PLAIN": [
        (SQUARE, ("I", boxed((0, 1), (0, 2))), 0, 1, []),
        (SQUARE, ("I", boxed((0, 1), (0, 2))), 1, 0, []),
        (boxed((0, 1), (0, 1)), ("X",), 0, 1, []),
        (boxed((0, 1), (0, 1)), ("O",), 0, 1, []),
        (SQUARE, ("S", SQUARE), 0, 1, []),
        (SQUARE, ("C", SQUARE, 1, end(1), ("S", boxed((0, 1), (0, 1))), ("O",)), 0, 1, []),
        (CUBE, ("X",), 0, 2, [end(2)]),
        (CUBE, ("X",), 2, 0, [end(1)]),
        (CUBE, ("I", boxed((0, 1), (-1, 1), (1, 2))), 0, 1, [end(3)]),
        (CUBE, ("S", boxed((0, Fraction(1, 2)), (-1, 1), (1, 2))), 0, 1, [end(2)]),
    ],
    "AXES": [
        (POINTS, ("S", POINTS), 0, 1, []), (HUGE, ("O",), 0, 1, []), by_chance(1, THIRD, 0, 1, 3),
        by_chance(2, THIRD, 1, 0, 4), by_chance(3, FLAT, 0, 1, 4), by_chance(4, FLAT, 1, 0, 4),
        by_chance(5, NEGATIVE, 0, 1, 4), by_chance(6, HUGE, 0, 1, 4), by_chance(7, HUGE, 1, 0, 4),
        by_chance(8, TINY, 0, 1, 3),
    ],
    "SLICES": [
        by_chance(9, CUBE, 0, 1, 4), by_chance(10, CUBE, 2, 0, 4), by_chance(11, CUBE, 1, 2, 5),
        by_chance(12, CUBE, 2, 1, 5), by_chance(13, TWELVE, 3, 11, 4), by_chance(14, TWELVE, 11, 1, 4),
        by_chance(15, TWELVE, 5, 4, 4),
    ],
}


def text(value: str) -> str:
    return '"' + value.replace('"', '\\"').replace("\n", "\\n") + '"'


def row(root: Box, tree: Tree, x: int, y: int, at: Sequence[Value]) -> str:
    lines = "".join(line + "\n" for line in files.lines(tree, root, 1))
    body = picture(tree, root, x, y, at).removeprefix(HEAD).removesuffix("</svg>\n")
    return (f"Case {{ root: &[{', '.join(map(ends, root))}], lines: {text(lines)}, x: {x}, y: {y}, "
            f"at: &[{', '.join(map(spelled, at))}], rectangles: {text(body)} }},")


HEADING = """//! Cases of slices and their pictures. Written by tests/generators/pictures.py: change them there.
use crate::pictures::Case;
"""

if __name__ == "__main__":
    write("test_pictures", HEADING, GROUPS, row)
