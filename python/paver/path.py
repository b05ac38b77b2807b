"""A way between two points of a paving through inner boxes alone, as exact points; or that there is none, and why."""
from __future__ import annotations

import enum
from dataclasses import dataclass, field
from fractions import Fraction
from typing import TYPE_CHECKING, List, Sequence, Set

from .box import Box
from .numbers import counted, decimal
from .passages import FLAT, Passages, distance, passages_of, touching
from .straight import (
    Point, Portal, WholePortal, crossed, exactly, fewer, in_units, inside, passes, portal_in_units, pulled, unit_of,
)

if TYPE_CHECKING:
    from .cover import Cover, Writer
    from .cover import Point as Given


class Verdict(enum.Enum):
    """What is said of two points."""
    PATH = "path"  # a way lies in inner boxes
    NONE = "none"  # none lies in inner boxes, and undecided ones may lead there
    SEPARATED = "separated"  # kept boxes fall into parts, and the points lie in two of them, or one lies in none


class PathFault(ValueError):
    """A path that does not lie in its boxes: a fault of the package, or a path that was changed."""


@dataclass
class Path:
    """The answer on two points. points are the path's, exactly, or none; boxes are of each segment the inner boxes that it lies
    in, in turn, where two that follow each other share a face or more; start_in and goal_in are the classes of the boxes that
    hold the two points."""
    verdict: Verdict
    start: Point
    goal: Point
    start_in: Set[str]
    goal_in: Set[str]
    points: List[Point] = field(default_factory=list)
    boxes: List[List[Box]] = field(default_factory=list)
    names: List[str] = field(default_factory=list)
    fixed: int = 0

    @property
    def length(self) -> float:
        """How long it is, as a float; 0 where there is none."""
        floats = [[float(x) for x in point] for point in self.points]
        return sum(map(distance, floats, floats[1:]))

    def check(self) -> None:
        """PathFault where a segment leaves its boxes, or two boxes that follow each other share less than a face: exactly."""
        if len(self.boxes) != max(0, len(self.points) - 1):
            raise PathFault("a segment has no boxes")
        exact = [[portal_of(box) for box in some] for some in self.boxes]
        finite = [abs(end) for some in exact for portal in some for pair in portal for end in pair if isinstance(end, Fraction)]
        reach = 1 + max([*finite, *(abs(x) for point in self.points for x in point)], default=Fraction(0))
        exact = [[bounded(portal, reach) for portal in some] for some in exact]
        unit = unit_of([*self.points, *(pair for some in exact for portal in some for pair in portal)])
        points = [in_units(point, unit) for point in self.points]
        pieces = [[portal_in_units(portal, unit) for portal in some] for some in exact]
        chain = [portal for some in pieces for portal in some]
        for first, second in zip(chain, chain[1:]):
            shared = crossed(first, second)
            if any(low > high for low, high in shared) or sum(low == high for low, high in shared) > FLAT + self.fixed:
                raise PathFault("two boxes that follow each other share no face")
        for k, some in enumerate(pieces):
            if not (some and holds(some[0], points[k]) and holds(some[-1], points[k + 1])
                    and passes(points[k], points[k + 1], list(map(crossed, some, some[1:])))):
                raise PathFault(f"segment {k + 1} leaves its inner boxes")

    def rows(self) -> List[List[str]]:
        """The points as texts: exact decimals, and fractions where there is none. It is checked before."""
        self.check()
        return [[decimal(x) or str(x) for x in point] for point in self.points]

    def write_csv(self, file: Writer) -> None:
        """Writes a point a row, exactly, to an open text file; the head alone where there is no path."""
        file.write("".join([",".join(row) + "\n" for row in [self.names, *self.rows()]]))

    def __repr__(self) -> str:
        if self.verdict is not Verdict.PATH:
            return f"<{self.verdict.value}: no path>"
        return f"<path of {counted(len(self.points), 'point')}, length {self.length:.6g}>"


def portal_of(box: Box) -> Portal:
    """The exact ends of a box."""
    return [(low, high) for low, high in box.exact]  # type: ignore[misc]


def bounded(portal: Portal, reach: Fraction) -> Portal:
    """What of a portal lies within the reach of 0: an infinite end ends there."""
    return [(max(low, -reach), min(high, reach)) for low, high in portal]


def holds(portal: WholePortal, point: Sequence[int]) -> bool:
    return all(low <= x <= high for x, (low, high) in zip(point, portal))


def path(paving: Cover, start: Given, goal: Given) -> Path:
    """A short path from one point to another through the inner boxes of a paving. Points are numbers in the order of the
    variables, or a dict of names; they are taken exactly, floats as what they are. ValueError where one lies outside the
    search box, or the search box is not known.

    The boxes are those of a short way through the middles of the faces that two share; within them the path is pulled
    straight. So it is short, and need not be the shortest."""
    first, second = point_of(paving, start), point_of(paving, goal)
    answer = Path(Verdict.NONE, first, second, paving.where(first), paving.where(second), names=paving.names_known())
    for point, classes in ((first, answer.start_in), (second, answer.goal_in)):
        if "outside" in classes:
            shown = ", ".join(f"{name} = {x}" for name, x in zip(answer.names, point))
            raise ValueError(f"the point {shown} lies outside the search box: of what is there nothing is said")
    if "inner" in answer.start_in and "inner" in answer.goal_in:
        graph = passages_of(paving, [first, second])
        answer.fixed = graph.flat - FLAT
        floats = [[float(x) for x in point] for point in (first, second)]
        way = graph.way(floats[0], floats[1], graph.holding(first), graph.holding(second))
        if way is not None:
            answer.verdict = Verdict.PATH
            draw(answer, [graph.box(number, paving.names) for number in way], graph)
            answer.check()
            return answer
    if not touching([part.tree for part in paving.roots()], first, second):
        answer.verdict = Verdict.SEPARATED
    return answer


def point_of(paving: Cover, given: Given) -> Point:
    """The exact numbers of a point; ValueError where one is infinite, or they are too few or too many."""
    found: List[Fraction] = []
    for x in paving.point_of(given):
        if isinstance(x, float):
            raise ValueError(f"a point has {x}: a finite number is expected")
        found.append(x)
    return tuple(found)


def draw(answer: Path, boxes: Sequence[Box], graph: Passages) -> None:
    """Gives an answer the points of a path through boxes, and for each segment its boxes."""
    reach = Fraction(graph.reach)
    shared = [bounded(crossed(portal_of(first), portal_of(second)), reach) for first, second in zip(boxes, boxes[1:])]
    sides = list(map(inside, shared))
    bends = pulled([float(x) for x in answer.start], [float(x) for x in answer.goal], sides)
    points = [answer.start, *exactly(bends, shared, sides), answer.goal]
    kept = fewer(points, shared, [k for k, _ in bends])
    answer.points = [points[k] for k in kept]
    answer.boxes = [list(boxes[i:j]) for i, j in zip(kept, kept[1:])]


def point_of_words(text: str, option: str) -> Given:
    """The point of words as `x=0.5,y=1/3`, or `0.5,1/3` in the order of the variables; ValueError where they are none."""
    named: dict[str, Fraction] = {}
    plain: List[Fraction] = []
    for word in text.split(","):
        name, equals, number = word.rpartition("=")
        try:
            value = Fraction(number.strip())
        except (ValueError, ZeroDivisionError):
            cause = f"{word.strip()!r} is no number, and no variable with its number, as x=0.5"
            raise ValueError(f"{option} {text}: {cause}") from None
        if not equals:
            plain.append(value)
        elif name.strip() in named:
            raise ValueError(f"{option} {text}: {name.strip()} has two values")
        else:
            named[name.strip()] = value
    if named and plain:
        raise ValueError(f"{option} {text}: some numbers have a variable's name, and some have none")
    return named if named else plain
