"""Conditions that a robot's links keep clear of discs, balls and boxes, exactly, for links that are segments with a radius.

A segment from P to Q keeps R from a centre C where both ends do, and the foot of the perpendicular from C lies beyond an end
or the line itself keeps R. A segment and a box have no common inner point where one of these axes separates them: those of the
box, and those square to the segment and to one of these (the separating axis theorem). Boxes are widened by the links' radius
on each side: their corners stay square.
"""
from __future__ import annotations

from fractions import Fraction
from functools import reduce
from itertools import combinations
from typing import Iterator, List, Sequence, Tuple

from .robot_file import Obstacle
from .robot_sheet import Sheet
from .trigonometry import Trigonometric, number, number_text, total

AXES = "xyz"
Point = Sequence[Trigonometric]


def clearances(sheet: Sheet, lines: Sequence[Sequence[Point]]) -> None:
    """Asks that each of these lines of points keeps clear of all obstacles; points of the plane have two coordinates."""
    for obstacle in sheet.robot.obstacles:
        what = f"{obstacle.kind} of line {obstacle.line}"
        axes = [AXES.index(axis) for axis in obstacle.centre]
        found: List[Tuple[str, str]] = []
        for line in lines:
            if max(axes) >= len(line[0]):
                sheet.refuse("a robot of the plane has no z", obstacle.line)
            points = [[point[axis] for axis in axes] for point in line]
            found += of_box(sheet, obstacle, points) if obstacle.kind == "box" else of_ball(sheet, obstacle, points)
        for place, text in found:
            sheet.ask(f"{place} keeps clear of the {what}", text)


def of_ball(sheet: Sheet, obstacle: Obstacle, points: Sequence[Point]) -> Iterator[Tuple[str, str]]:
    centre = [number(value) for value in obstacle.centre.values()]
    least = (obstacle.radius + sheet.robot.radius) ** 2
    for k, point in enumerate(points):
        away = [a - b for a, b in zip(point, centre)]
        if all(part.number is not None for part in away):
            if (total(part * part for part in away).number or 0) < least:
                sheet.refuse(f"the {obstacle.kind} reaches a point of the robot that never moves", obstacle.line)
            continue
        yield f"point {k}", " + ".join(f"sqr({sheet.text(part)})" for part in away if part.terms) + f" >= {number_text(least)}"
    for k, (first, second) in enumerate(zip(points, points[1:])):
        u, w = [b - a for a, b in zip(first, second)], [b - a for a, b in zip(first, centre)]
        if not any(part.terms for part in u):  # a point, in these axes
            continue
        square, along = total(part * part for part in u), total(a * b for a, b in zip(u, w))
        crosses = " + ".join(f"sqr({sheet.text(u[i] * w[k] - u[k] * w[i])})" for i, k in combinations(range(len(u)), 2))
        yield (f"segment {k} to {k + 1}", f"max(max(-({sheet.text(along)}), {sheet.text(along - square)}), "
               f"{crosses} - {number_text(least)}*({sheet.text(square)})) >= 0")


def of_box(sheet: Sheet, obstacle: Obstacle, points: Sequence[Point]) -> Iterator[Tuple[str, str]]:
    half = [value + sheet.robot.radius for value in obstacle.half.values()]
    centre = list(obstacle.centre.values())
    for k, (first, second) in enumerate(zip(points, points[1:])):
        u = [b - a for a, b in zip(first, second)]
        w = [number(b) - a for a, b in zip(first, centre)]
        away: List[str] = []
        for i, middle in enumerate(centre):
            low, high = (sorted_text(sheet, first[i], second[i], word) for word in ("min", "max"))
            away += [f"{low} - {signed(middle + half[i])}", f"{signed(middle - half[i])} - {high}"]
        for i, j in combinations(range(len(u)), 2):
            if u[i].terms or u[j].terms:
                away.append(f"abs({sheet.text(u[i] * w[j] - u[j] * w[i])}) - {number_text(half[j])}*abs({sheet.text(u[i])})"
                            f" - {number_text(half[i])}*abs({sheet.text(u[j])})")
        yield f"segment {k} to {k + 1}", reduce(lambda text, part: f"max({text}, {part})", away) + " >= 0"


def sorted_text(sheet: Sheet, a: Trigonometric, b: Trigonometric, word: str) -> str:
    return f"({sheet.text(a)})" if a == b else f"{word}({sheet.text(a)}, {sheet.text(b)})"


def signed(value: Fraction) -> str:
    return number_text(value) if value >= 0 else f"(-{number_text(-value)})"
