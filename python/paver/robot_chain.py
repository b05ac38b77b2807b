"""The kinematics of a serial chain as polynomials in the cosines and sines of its joints.

Source of the frames: Denavit and Hartenberg 1955; `modified` as Craig, Introduction to Robotics, has them.
"""
from __future__ import annotations

from dataclasses import dataclass
from fractions import Fraction
from itertools import combinations
from typing import Dict, List, Sequence, Tuple

from .robot_file import Joint
from .robot_sheet import Sheet, Turn, operations
from .trigonometry import Trigonometric, determinant, number, total

Vector = List[Trigonometric]
AXES = "xyz"


@dataclass
class Frame:
    """A turn, by its rows, and then a shift: a point v goes to turn v + shift."""
    turn: List[Vector]
    shift: Vector

    def __mul__(self, other: Frame) -> Frame:
        columns = list(zip(*other.turn))
        return Frame([[dot(row, column) for column in columns] for row in self.turn],
                     added(self.turned(other.shift), self.shift))

    def turned(self, v: Sequence[Trigonometric]) -> Vector:
        return [dot(row, v) for row in self.turn]

    def turned_back(self, v: Sequence[Trigonometric]) -> Vector:
        return [dot(column, v) for column in zip(*self.turn)]


def dot(u: Sequence[Trigonometric], v: Sequence[Trigonometric]) -> Trigonometric:
    return total(a * b for a, b in zip(u, v) if a.terms and b.terms)


def added(u: Sequence[Trigonometric], v: Sequence[Trigonometric]) -> Vector:
    return [a + b for a, b in zip(u, v)]


def less(u: Sequence[Trigonometric], v: Sequence[Trigonometric]) -> Vector:
    return [a - b for a, b in zip(u, v)]


def numbers(*values: Fraction) -> Vector:
    return [number(value) for value in values]


ONE = [[number(int(i == k)) for k in range(3)] for i in range(3)]
ZERO = [number(0) for _ in range(3)]


def shifted(*values: Trigonometric) -> Frame:
    return Frame(ONE, list(values))


def about_z(c: Trigonometric, s: Trigonometric) -> Frame:
    return Frame([[c, -s, number(0)], [s, c, number(0)], [number(0), number(0), number(1)]], ZERO)


def about_x(c: Trigonometric, s: Trigonometric) -> Frame:
    return Frame([[number(1), number(0), number(0)], [number(0), c, -s], [number(0), s, c]], ZERO)


def about_y(c: Trigonometric, s: Trigonometric) -> Frame:
    return Frame([[c, number(0), s], [number(0), number(1), number(0)], [-s, number(0), c]], ZERO)


class Chain:
    """The frames of a chain's joints, the base's first and the tool's last; `points` are the ends of its links in the base's
    axes."""

    def __init__(self, sheet: Sheet) -> None:
        self.sheet, self.joints, robot = sheet, sheet.robot.joints, sheet.robot
        base = shifted(*numbers(*(robot.base.get(axis, Fraction(0)) for axis in AXES)))
        tool = shifted(*numbers(*(robot.tool.get(axis, Fraction(0)) for axis in AXES)))
        steps = [self.steps(joint) for joint in self.joints]
        self.frames = [product(part) for part in steps]
        self.before = [base]  # up to a joint
        for frame in self.frames:
            self.before.append(self.before[-1] * frame)
        self.behind = [tool]  # from a joint to the tool, the last joint first
        for frame in reversed(self.frames):
            self.behind.insert(0, frame * self.behind[0])
        self.whole = self.before[-1] * tool
        self.points = ends_of(base, [step for part in steps for step in part] + [tool])

    def steps(self, joint: Joint) -> List[Frame]:
        c, s = self.sheet.angle(joint.theta, joint.line)
        d = number(joint.d)
        if joint.prismatic:
            assert joint.qlim
            d += self.sheet.length(joint.name, *joint.qlim)
        else:
            a, b = self.sheet.moving(Turn(joint.name, joint.qlim, f"joint {joint.name}"))
            c, s = a * c - b * s, b * c + a * s
        across = [shifted(number(joint.a), number(0), number(0)), about_x(*self.sheet.angle(joint.alpha, joint.line))]
        along = [about_z(c, s), shifted(number(0), number(0), d)]
        return [*across[::-1], *along] if self.sheet.robot.modified else [*along, *across]

    @property
    def moving(self) -> List[int]:
        """The coordinates of the tool's point that are not one number."""
        return [k for k in range(3) if self.whole.shift[k].number is None]

    @property
    def is_planar(self) -> bool:
        """Whether the tool's axis z stays that of the base, or its opposite."""
        return not self.whole.turn[2][0].terms and not self.whole.turn[2][1].terms

    # ---- closures

    def closure(self, k: int, target: Vector) -> List[Tuple[Trigonometric, Trigonometric]]:
        """The tool's point is the target, both seen from behind the first k joints: pairs of sides."""
        before = self.before[k]
        return list(zip(self.behind[k].shift, before.turned_back(less(target, before.shift))))

    def turn_closure(self, k: int, target: List[Vector], columns: Sequence[int]) -> List[Tuple[Trigonometric, Trigonometric]]:
        """The same of the tool's axes."""
        found = []
        for column in columns:
            wanted = self.before[k].turned_back([row[column] for row in target])
            found += list(zip((row[column] for row in self.behind[k].turn), wanted))
        return found

    def best_closure(self, target: Vector) -> int:
        """The place to cut the chain at that takes the fewest operations."""
        def cost(k: int) -> int:
            return sum(operations(expression_of(self.sheet, side)) for pair in self.closure(k, target) for side in pair)
        return min(range(len(self.joints)), key=cost)

    # ---- singular poses

    def minors(self, coordinates: Sequence[str]) -> List[Tuple[List[str], Trigonometric]]:
        """The determinants of the Jacobian of these coordinates, by as many of the joints that move them as there are
        coordinates, with the names of these joints."""
        columns: Dict[str, Vector] = {}
        for i, joint in enumerate(self.joints):
            axis = self.before[i + self.sheet.robot.modified].turn[2][2]
            column = [(number(0) if joint.prismatic else axis) if name == "phi" else
                      self.whole.shift[AXES.index(name)].derived(joint.name, not joint.prismatic) for name in coordinates]
            if any(entry.terms for entry in column):
                columns[joint.name] = column
        return [(list(names), determinant([[columns[name][row] for name in names] for row in range(len(coordinates))]))
                for names in combinations(columns, len(coordinates))]


def expression_of(sheet: Sheet, p: Trigonometric) -> str:
    """A polynomial's text without taking note of its names."""
    used = set(sheet.used)
    text = sheet.text(p)
    sheet.used = used
    return text


def product(frames: Sequence[Frame]) -> Frame:
    found = Frame(ONE, ZERO)
    for frame in frames:
        found = found * frame
    return found


def ends_of(base: Frame, steps: Sequence[Frame]) -> List[Vector]:
    """The points at which the chain's line has its ends and corners."""
    found, here = [base.shift], base
    for step in steps:
        here = here * step
        if any(part.terms for part in step.shift):
            found.append(here.shift)
    return found


def turn_of(sheet: Sheet, roll: Fraction, pitch: Fraction, yaw: Fraction) -> List[Vector]:
    """The rows of Rz(yaw) Ry(pitch) Rx(roll), the order `zyx` of the robotics toolbox."""
    return product([about_z(*sheet.angle(yaw)), about_y(*sheet.angle(pitch)), about_x(*sheet.angle(roll))]).turn


