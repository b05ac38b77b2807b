"""The roots of a square system: the clusters of a paving's undecided boxes, each tested by Krawczyk's step.

The step works in exact fractions, so its answers rest on this code alone: it is tested, and not proved as the program
is. Let f be the differences of the sides of the equations, X a box, m its middle, A the slopes of f on X and Y a
matrix near the inverse of A's middle. Every root in X lies in K = m - Y f(m) + (1 - Y A)(X - m). Where K misses X there
is none; where K lies within X's inner part there is exactly one.
"""
from __future__ import annotations

from dataclasses import dataclass
from fractions import Fraction
from typing import List, Optional, Sequence, Tuple

from . import intervals as iv
from .box import Box, Exact, Number, Pair
from .canonical import Constraint, System, value
from .cover import Cover
from .intervals import Interval

TESTED = "this step is tested and not proved, as the paving is"
ONE, NONE, UNDECIDED = "one root, here", "none", "undecided"
TURNS = 60
FINE = Fraction(1, 1 << 100)


class NotSquare(ValueError):
    """The system has not as many equations as variables."""


@dataclass
class Root:
    """verdict is "one root, here", "none" or "undecided"; box has Fractions for ends: for one root it holds the root,
    else it is the cluster's hull; within is the box that holds no other root; boxes is how many the cluster has;
    remark says what else is to be known, or is empty."""
    verdict: str
    box: Tuple[Pair, ...]
    boxes: int
    remark: str = ""
    within: Optional[Tuple[Pair, ...]] = None

    @property
    def middle(self) -> Tuple[Exact, ...]:
        """The middle of the box, in Fractions."""
        return tuple((low + high) / 2 for low, high in self.box)


class Equations:
    """The equations and the other constraints of a system, and its search box as pairs of exact values."""

    def __init__(self, system: System, root: Sequence[Pair]) -> None:
        self.equations = [c for c in system.constraints if c.relation == "="]
        self.others = [c for c in system.constraints if c.relation != "="]
        self.root = root
        if len(self.equations) != len(system.names):
            raise NotSquare(f"{len(self.equations)} equations in {len(system.names)} variables: roots are tested where "
                            "there are as many equations as variables")

    def at(self, point: Sequence[Fraction]) -> Optional[List[Fraction]]:
        """The exact values of f at a point; None where one is undefined."""
        found = []
        for equation in self.equations:
            left, right = value(equation.left, point), value(equation.right, point)
            if left is None or right is None:
                return None
            found.append(left - right)
        return found

    def on(self, box: Sequence[Interval]) -> List[iv.Dual]:
        """f's values and slopes on a box."""
        pairs = [(iv.on_box(e.left, box), iv.on_box(e.right, box)) for e in self.equations]
        return [iv.of_two("-", left, right) for left, right in pairs]


def inverse(rows: Sequence[Sequence[Fraction]]) -> Optional[List[List[Fraction]]]:
    """The exact inverse of a matrix of Fractions; None where it has none."""
    size = len(rows)
    work = [list(row) + [Fraction(int(i == j)) for j in range(size)] for i, row in enumerate(rows)]
    for i in range(size):
        best = max(range(i, size), key=lambda k: abs(work[k][i]))
        if work[best][i] == 0:
            return None
        work[i], work[best] = work[best], work[i]
        head = work[i][i]
        work[i] = [entry / head for entry in work[i]]
        for k in range(size):
            if k != i and work[k][i] != 0:
                share = work[k][i]
                work[k] = [a - share * b for a, b in zip(work[k], work[i])]
    return [row[size:] for row in work]


def near(entry: Fraction) -> Fraction:
    """A fraction with few bits near one: the matrix Y may be any."""
    return Fraction(round(entry * (1 << 80)), 1 << 80)


def middle_of(low: Fraction, high: Fraction) -> Fraction:
    """A number with few bits near the middle of a place: it has to lie within, as the slopes hold there alone."""
    middle = (low + high) / 2
    return near(middle) if low <= near(middle) <= high else middle


def krawczyk(equations: Equations, box: Sequence[Interval]) -> Optional[List[Interval]]:
    """K on a box; None where it can't be worked out; Undefined where a divisor's interval holds 0."""
    duals = equations.on(box)
    middle = [middle_of(low, high) for low, high in box]
    preconditioner = inverse([[near((s[0] + s[1]) / 2) for s in dual.slopes] for dual in duals])
    values = equations.at(middle)
    if preconditioner is None or values is None:
        return None
    preconditioner = [[near(entry) for entry in row] for row in preconditioner]
    found = []
    for i, row in enumerate(preconditioner):
        centre = middle[i] - sum(entry * v for entry, v in zip(row, values))
        place = iv.point(centre)
        for j in range(len(box)):
            share = iv.point(Fraction(int(i == j)))
            for entry, dual in zip(row, duals):
                share = iv.minus(share, iv.times(iv.point(entry), dual.slopes[j]))
            place = iv.plus(place, iv.times(share, iv.minus(box[j], iv.point(middle[j]))))
        found.append(iv.short(place))
    return found


def is_inside(inner: Sequence[Interval], outer: Sequence[Interval]) -> bool:
    return all(b[0] < a[0] and a[1] < b[1] for a, b in zip(inner, outer))


def is_missed(equations: Equations, box: Sequence[Interval]) -> bool:
    """Whether f has no root in a box by its values alone."""
    return any(not dual.values[0] <= 0 <= dual.values[1] for dual in equations.on(box))


def inflated(box: Sequence[Interval]) -> List[Interval]:
    """A somewhat larger box, so that a root on the edge lies within."""
    margin = iv.widest(box) / 8 + Fraction(1, 1 << 60)
    return [(low - margin, high + margin) for low, high in box]


def tested(equations: Equations, hull: Sequence[Interval]) -> Tuple[str, Sequence[Interval], Optional[Sequence[Interval]]]:
    """The verdict on a box, with the box that holds the root and the box that holds no other: what is undecided keeps
    its hull, which may have become smaller."""
    box = list(hull)
    try:
        if is_missed(equations, box):
            return NONE, hull, None
        wide = inflated(box)
        for _ in range(TURNS):
            image = krawczyk(equations, wide)
            if image is None:
                return UNDECIDED, hull, None
            if is_inside(image, wide):
                return ONE, refined(equations, image), wide
            smaller = meet_all(image, wide)
            if smaller is None or meet_all(smaller, box) is None:
                return NONE, hull, None
            if iv.widest(smaller) > iv.widest(wide) * Fraction(15, 16):
                return UNDECIDED, hull, None
            wide = inflated(smaller)
    except iv.Undefined:
        pass
    return UNDECIDED, hull, None


def refined(equations: Equations, box: Sequence[Interval]) -> Sequence[Interval]:
    """A narrow box around the one root of a box."""
    for _ in range(TURNS):
        if iv.widest(box) <= FINE:
            break
        image = krawczyk(equations, box)
        smaller = image and meet_all(image, box)
        if not smaller or iv.widest(smaller) > iv.widest(box) / 2:
            break
        box = smaller
    return box


def meet_all(first: Sequence[Interval], second: Sequence[Interval]) -> Optional[List[Interval]]:
    """The common part of two boxes, or None."""
    found = []
    for a, b in zip(first, second):
        common = iv.meet(a, b)
        if common is None:
            return None
        found.append(common)
    return found


def held(constraint: Constraint, box: Sequence[Interval]) -> Optional[bool]:
    """Whether a constraint holds everywhere on a box (True), nowhere (False), or neither is known (None)."""
    left, right = iv.on_box(constraint.left, box).values, iv.on_box(constraint.right, box).values
    if constraint.relation in (">", ">="):
        left, right = right, left
    if constraint.relation in ("<", ">"):
        return True if left[1] < right[0] else False if left[0] >= right[1] else None
    return True if left[1] <= right[0] else False if left[0] > right[1] else None


def judged(equations: Equations, boxes: Sequence[Sequence[Interval]], hull: Sequence[Interval]) -> Root:
    """The Root of a cluster."""
    count = len(boxes)
    verdict, where, within = tested(equations, hull)
    if verdict == UNDECIDED and count > 1:
        left = [box for box in boxes if tested(equations, box)[0] != NONE]
        if not left:
            return Root(NONE, tuple(hull), count)
        if len(left) < count:
            hull = [(min(b[k][0] for b in left), max(b[k][1] for b in left)) for k in range(len(hull))]
            verdict, where, within = tested(equations, hull)
    if verdict != ONE or within is None:
        return Root(verdict, tuple(hull), count)
    if all(meet_all(where, box) is None for box in boxes):
        return Root(NONE, tuple(hull), count, "the root nearby lies in no box of this cluster")
    return with_constraints(equations, Root(ONE, tuple(where), count, within=tuple(within)), where)


def with_constraints(equations: Equations, root: Root, box: Sequence[Interval]) -> Root:
    """The other constraints and the search box have their say on one root, which lies in a box."""
    for constraint in equations.others:
        try:
            answer = held(constraint, box)
        except iv.Undefined:
            answer = None
        if answer is False:
            return Root(NONE, root.box, root.boxes, "the equations have one root here, and an inequality refuses it")
        if answer is None:
            return Root(UNDECIDED, root.box, root.boxes, "the equations have one root here; an inequality is undecided")
    if any(low < edge[0] or edge[1] < high for (low, high), edge in zip(root.box, equations.root)):
        root.remark = "on the edge of the search box: it may lie just outside"
    return root


def finite(box: Sequence[Pair]) -> Optional[List[Interval]]:
    """A box, or None where an end is infinite."""
    found: List[Interval] = []
    for low, high in box:
        if isinstance(low, float) or isinstance(high, float):
            return None
        found.append((low, high))
    return found


def find_roots(system: System, paving: Cover, gap: Number = 0) -> List[Root]:
    """A Root for each cluster of the paving's boxes that are not removed. The system is what program.check gave.
    NotSquare where it has not as many equations as variables; ValueError where a kept box is unbounded."""
    equations = Equations(system, Box("open", system.root).exact)
    found = []
    for cluster in paving.clusters(gap):
        hull = finite(cluster.hull)
        if hull is None:
            found.append(Root(UNDECIDED, cluster.hull, len(cluster.boxes), "unbounded: give the variables domains"))
            continue
        boxes = [finite(box.exact) for box in cluster.boxes]
        root = judged(equations, [box for box in boxes if box is not None], hull)
        if root.verdict != ONE or not any(is_same(root, other) for other in found):
            found.append(root)
    return found


def is_same(root: Root, other: Root) -> bool:
    """Whether two clusters have one root: that of the one lies in the box where the other has no second."""
    if other.verdict != ONE or other.within is None:
        return False
    return all(b[0] <= a[0] and a[1] <= b[1] for a, b in zip(root.box, other.within))
