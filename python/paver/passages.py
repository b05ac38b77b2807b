"""Which inner boxes share a face, and a short way from one to another: A* over the boxes, with straight pieces over many of
them that are tried where a box is reached (Lazy Theta*: Nash, Koenig and Tovey, AAAI 2010)."""
from __future__ import annotations

import math
from array import array
from bisect import bisect_left
from heapq import heappop, heappush
from itertools import accumulate
from typing import TYPE_CHECKING, Collection, List, Optional, Sequence, Tuple

from .box import Box, Exact
from .clusters import Forest, scales_of
from .faces import neighbours
from .numbers import nextafter
from .tree import Tree, columns_of_ends, without_collection

if TYPE_CHECKING:
    from .cover import Cover

FloatPoint = Sequence[float]
NEW = -2  # before a box that is not reached
FARTHEST = 100  # boxes that a straight piece is followed back over
FLAT = 1  # places in which two boxes may meet in one number alone: more is an edge or a corner


def distance(first: FloatPoint, second: FloatPoint) -> float:
    """How far apart two points are."""
    return math.dist(first, second)


class Passages:
    """The inner boxes of some trees, numbered in preorder, as a graph: two are neighbours where they meet in a face or more.
    `fixed` are the variables whose domain is one number, which are no places to move in; `reach` stands for infinite ends, and
    is beyond all finite ones."""

    def __init__(self, trees: Sequence[Tree], fixed: Collection[int], reach: float) -> None:
        self.trees, self.flat, self.reach = trees, FLAT + len(fixed), reach
        self.nodes: List[Tuple[int, int]] = [(t, k) for t, tree in enumerate(trees) for k in tree.leaves("I")]
        places = [k for k in range(trees[0].dims) if k not in fixed]
        self.first_near, self.near = neighbours(trees, self.columns(), places, self.flat)
        self.lows, self.highs = self.sides()

    def columns(self) -> List[List[int]]:
        """The ends of all boxes as whole numbers that are in order, a column an end."""
        found: List[List[int]] = [[] for _ in range(2 * self.trees[0].dims)]
        for tree, scale in zip(self.trees, scales_of(self.trees)):
            for whole, column in zip(found, columns_of_ends(tree.ends_of("I"))):
                whole += column if scale is None else map(scale.__getitem__, column)
        return found

    def sides(self) -> Tuple[List[array[float]], List[array[float]]]:
        """The lower and the upper ends of all boxes as floats, an array a variable."""
        columns: List[array[float]] = [array("d") for _ in range(2 * self.trees[0].dims)]
        for tree in self.trees:
            sides = [tree.table.floats(up) for up in (False, True)]
            if tree.table.has_infinite:
                sides = [[min(max(end, -self.reach), self.reach) for end in side] for side in sides]
            for k, column in enumerate(columns_of_ends(tree.ends_of("I"))):
                columns[k].extend(map(sides[k % 2].__getitem__, column))
        return columns[::2], columns[1::2]

    def holding(self, point: Sequence[Exact]) -> List[int]:
        """The inner boxes that hold a point."""
        return [bisect_left(self.nodes, node) for node in leaves_holding(self.trees, point, "I")]

    def box(self, number: int, names: Optional[Sequence[str]]) -> Box:
        """An inner box by its number."""
        t, k = self.nodes[number]
        ends = self.trees[t].tos[k]
        assert ends is not None
        return Box.of("inner", self.trees[t].table, ends, names)

    def way(self, start: FloatPoint, goal: FloatPoint, begin: Sequence[int], end: Collection[int]) -> Optional[List[int]]:
        """The boxes of a short way from a point in the boxes `begin` to one in the boxes `end`; None where there is no way.
        Boxes are entered in the middles of shared faces, or nearest to the straight piece to the goal, and distances are
        measured along straight pieces over many boxes."""
        low_high, near, first_near, ends = list(zip(self.lows, self.highs)), self.near, self.first_near, set(end)
        least = array("d", [float("inf")]) * len(self.nodes)
        tracks = Tracks(self.lows, self.highs, len(self.nodes))
        heap: List[Tuple[float, float, int, int, FloatPoint, bool]] = [
            (distance(start, goal), 0.0, a, -1, start, True) for a in begin]
        while heap:
            _, far, a, last, point, is_sure = heappop(heap)
            if tracks.before[a] != NEW:
                continue
            if not is_sure and not tracks.sees(last, point):
                far = tracks.far[last] + distance(tracks.point(last), point)
                heappush(heap, (far + distance(point, goal), far, a, last, point, True))
                continue
            tracks.enter(a, last, point, far)
            if a in ends:
                return tracks.back(a)
            anchor = tracks.anchor[a]
            seen_from, gone = tracks.point(anchor), tracks.far[anchor]
            sides = [(low, high, low[a], high[a]) for low, high in low_high]
            for b in near[first_near[a]:first_near[a + 1]]:
                if tracks.before[b] != NEW:
                    continue
                shared = [(x if x > low[b] else low[b], y if y < high[b] else high[b]) for low, high, x, y in sides]
                middle = [(low + high) / 2 for low, high in shared]
                for entry in (middle, nearest_to_line(seen_from, goal, shared)):
                    far = gone + distance(seen_from, entry)
                    whole = far + distance(entry, goal)
                    if whole < least[b]:
                        least[b] = whole
                        heappush(heap, (whole, far, b, a, entry, anchor == a))
        return None


def nearest_to_line(first: FloatPoint, second: FloatPoint, shared: Sequence[Tuple[float, float]]) -> FloatPoint:
    """A point of shared ends near the straight piece between two points: the one where it crosses the face, moved inside."""
    share = 0.5
    for (low, high), x, y in zip(shared, first, second):
        if low == high and x != y:
            share = min(max((low - x) / (y - x), 0.0), 1.0)
    return [min(max(x + share * (y - x), low), high) for (low, high), x, y in zip(shared, first, second)]


class Tracks:
    """How boxes were reached: of each the box before it, the point of entry, the distance there, and the anchor: the box from
    whose point of entry the straight piece begins that leads to this one's."""

    def __init__(self, lows: Sequence[array[float]], highs: Sequence[array[float]], count: int) -> None:
        self.sides, self.dims = list(zip(lows, highs)), len(lows)
        self.before, self.anchor = array("q", [NEW]) * count, array("q", [NEW]) * count
        self.far, self.points = array("d", [0.0]) * count, array("d", [0.0]) * (count * len(lows))

    def point(self, a: int) -> FloatPoint:
        """Where a box was entered."""
        return self.points[a * self.dims:(a + 1) * self.dims]

    def enter(self, a: int, last: int, point: FloatPoint, far: float) -> None:
        """Notes that a box is reached from the last one, by a straight piece from that one's anchor where it is as long."""
        self.before[a], self.far[a] = last, far
        self.points[a * self.dims:(a + 1) * self.dims] = array("d", point)
        if last < 0 or far >= self.far[last] + distance(self.point(last), point):
            self.anchor[a] = a if last < 0 else last
        else:
            self.anchor[a] = self.anchor[last]

    def sees(self, last: int, point: FloatPoint) -> bool:
        """Whether the straight piece from the anchor of a box to a point on its face goes through the faces between."""
        anchor, a = self.anchor[last], last
        start = self.point(anchor)
        for _ in range(FARTHEST):
            if a == anchor:
                return True
            before, begun, ended = self.before[a], 0.0, 1.0
            for (low, high), x, y in zip(self.sides, start, point):
                least = low[a] if low[a] > low[before] else low[before]
                most = high[a] if high[a] < high[before] else high[before]
                if x == y:
                    if not least <= x <= most:
                        return False
                    continue
                enter, leave = (least - x) / (y - x), (most - x) / (y - x)
                begun, ended = max(begun, min(enter, leave)), min(ended, max(enter, leave))
            if begun > ended:
                return False
            a = before
        return False

    def back(self, last: int) -> List[int]:
        """The boxes from the first one to the last."""
        found = [last]
        while self.before[found[-1]] >= 0:
            found.append(self.before[found[-1]])
        return found[::-1]


def leaves_holding(trees: Sequence[Tree], point: Sequence[Exact], letters: str) -> List[Tuple[int, int]]:
    """The kept leaves of some letters whose boxes hold a point: the numbers of their tree and their node."""
    found = []
    for t, tree in enumerate(trees):
        places = {k: tree.table.place(value) for k, value in enumerate(point)}
        for node in tree.seen(places):
            ends = tree.cover_of(node) if tree.kinds[node] in letters else None
            if ends is not None and all(ends[2 * k] <= place <= ends[2 * k + 1] for k, place in places.items()):
                found.append((t, node))
    return found


def touching(trees: Sequence[Tree], first: Sequence[Exact], second: Sequence[Exact]) -> bool:
    """Whether kept boxes that touch, be it in a corner, lead from one point to another."""
    with without_collection():
        forest = Forest(trees, "ISO", 0)
        forest.grow()
        starts = [0, *accumulate([len(tree.kinds) for tree in trees])]
        heads = [{forest.head(starts[t] + k) for t, k in leaves_holding(trees, point, "ISO")} for point in (first, second)]
    return bool(heads[0] & heads[1])


def passages_of(cover: Cover, points: Sequence[Sequence[Exact]]) -> Passages:
    """The graph of a paving's inner boxes, for ways between some points."""
    trees = [paving.tree for paving in cover.roots()]
    roots = [Box("open", root).exact for root in cover.search_boxes()]
    fixed = [k for k in range(cover.dims or 0) if all(root[k] == roots[0][k] and root[k][0] == root[k][1] for root in roots)]
    last = [end for tree in trees for floats in [tree.table.floats(True)] for end in (*floats[:2], *floats[-2:])]
    finite = [abs(end) for end in last if abs(end) != float("inf")]
    reach = max([*finite, *(abs(float(x)) for point in points for x in point)], default=0.0)
    with without_collection():
        return Passages(trees, fixed, nextafter(2 * reach + 2, float("inf")))
