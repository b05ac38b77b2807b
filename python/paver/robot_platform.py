"""A planar platform on legs: corners, closures and lines of force as polynomials.

Source of the determinant: Merlet, Parallel Robots: a pose is singular where the lines along which the legs hold the platform
meet in one point or are parallel.
"""
from __future__ import annotations

from fractions import Fraction
from typing import List, Mapping, Tuple

from .robot_file import Leg
from .robot_sheet import Sheet, Turn
from .trigonometry import Trigonometric, determinant, number, total

Point = Tuple[Trigonometric, Trigonometric]


class Platform:
    """pose fixes x, y and phi where it is not empty."""

    def __init__(self, sheet: Sheet, pose: Mapping[str, Fraction]) -> None:
        self.sheet, self.legs = sheet, sheet.robot.legs
        self.is_point = len({leg.corner for leg in self.legs}) == 1
        reach = sum((leg_reach(leg) + max(map(abs, (*leg.base, *leg.corner))) for leg in self.legs), Fraction(0))
        self.x, self.y = (number(pose[axis]) if pose else sheet.length(axis, -reach, reach) for axis in "xy")
        c, s = number(1), number(0)
        if not self.is_point:
            c, s = sheet.angle(pose["phi"]) if pose else sheet.moving(Turn("phi", sheet.robot.turn, "the platform's turn"))
        self.arms = [(u * c - v * s, u * s + v * c) for leg in self.legs for u, v in [pair(leg.corner)]]
        self.corners = [(self.x + a, self.y + b) for a, b in self.arms]
        self.elbows: List[Point] = []

    def with_elbows(self) -> None:
        """Takes the first joints of RRR legs as variables; of an RPR leg the foot stands in the elbow's place."""
        if self.elbows:
            return
        for leg in self.legs:
            base = pair(leg.base)
            if leg.links:
                c, s = self.sheet.moving(Turn(leg.name, leg.qlim, f"the first joint of leg {leg.name}"))
                base = base[0] + number(leg.links[0]) * c, base[1] + number(leg.links[0]) * s
            self.elbows.append(base)
        for leg, elbow, corner in zip(self.legs, self.elbows, self.corners):
            if leg.links:
                self.sheet.ask(f"closure: the second link of leg {leg.name} reaches its corner",
                               f"{self.square(elbow, corner)} = {self.sheet.text(number(leg.links[1] ** 2))}")

    def square(self, first: Point, second: Point) -> str:
        return " + ".join(f"sqr({self.sheet.text(b - a)})" for a, b in zip(first, second))

    def reaches(self) -> None:
        """Each leg can reach its corner: its length lies between its shortest and its longest."""
        for leg, corner in zip(self.legs, self.corners):
            low, high = leg_ends(leg)
            for relation, end in ((">=", low), ("<=", high)):
                if relation == "<=" or end > 0:
                    self.sheet.ask(f"leg {leg.name}: its length is {relation} {float(end):.9g}",
                                   f"{self.square(pair(leg.base), corner)} {relation} {self.sheet.text(number(end ** 2))}")

    def length_squares(self) -> List[Trigonometric]:
        """Of each leg the square of the distance from its foot to its corner."""
        return [total((b - a) * (b - a) for a, b in zip(pair(leg.base), corner))
                for leg, corner in zip(self.legs, self.corners)]

    def determinant(self) -> Trigonometric:
        """Of the lines of force, each by its direction and, where the platform turns, its moment about the centre."""
        self.with_elbows()
        if len(self.legs) != 2 + (not self.is_point):
            self.sheet.refuse(f"{len(self.legs)} legs: a determinant is asked of {2 + (not self.is_point)}")
        rows = []
        for elbow, corner, (a, b) in zip(self.elbows, self.corners, self.arms):
            dx, dy = corner[0] - elbow[0], corner[1] - elbow[1]
            rows.append([dx, dy] + ([] if self.is_point else [a * dy - b * dx]))
        return determinant(rows)

    def lines(self) -> List[List[Point]]:
        """Each leg's points, from its foot to its corner."""
        self.with_elbows()
        return [[pair(leg.base), *([elbow] if leg.links else []), corner]
                for leg, elbow, corner in zip(self.legs, self.elbows, self.corners)]


def pair(ends: Tuple[Fraction, Fraction]) -> Point:
    return number(ends[0]), number(ends[1])


def leg_ends(leg: Leg) -> Tuple[Fraction, Fraction]:
    """The shortest and the longest distance from a leg's foot to its corner."""
    if leg.links:
        return abs(leg.links[0] - leg.links[1]), leg.links[0] + leg.links[1]
    assert leg.qlim
    return leg.qlim


def leg_reach(leg: Leg) -> Fraction:
    return leg_ends(leg)[1]
