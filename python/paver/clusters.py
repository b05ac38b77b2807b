"""Groups of boxes that touch. The tree of the paving is used: parts that lie apart are passed over as a whole, and so are parts
that are in one group already."""
from __future__ import annotations

from fractions import Fraction
from typing import TYPE_CHECKING, Callable, Dict, List, Optional, Sequence, Tuple

from .box import Box, Cluster, Exact
from .tree import Ends, Tree, without_collection

if TYPE_CHECKING:
    from .cover import Cover

MIXED = -1  # in place of the one leaf that stands for all of a part


class Forest:
    """The nodes of some trees, one tree after the other: of each the ends around what it keeps, its halves, and a leaf of the
    group in which all its leaves are, as far as that is so."""

    def __init__(self, trees: Sequence[Tree], letters: str, gap: Exact) -> None:
        self.ends: List[Optional[Ends]] = []
        self.halves: List[Optional[Tuple[int, int]]] = []
        self.one: List[int] = []
        self.roots: List[int] = []
        self.gap, self.parent = 0, []  # type: int, List[int]
        self.parted: Callable[[Ends, Ends, int], bool] = apart
        scales = self.scales(trees, gap)
        for tree, scale in zip(trees, scales):
            self.add(tree, letters, scale)
        self.parent = list(range(len(self.ends)))

    def scales(self, trees: Sequence[Tree], gap: Exact) -> List[Optional[List[int]]]:
        """The whole numbers that are compared in place of ends: with one tree and no gap the ends themselves."""
        scaled = Fraction(gap) * (1 << max(tree.table.shift for tree in trees))
        self.gap = scaled.numerator // scaled.denominator
        return scales_of(trees, bool(gap))

    def add(self, tree: Tree, letters: str, scale: Optional[List[int]]) -> None:
        """Adds the nodes of a tree."""
        first = len(self.ends)
        self.roots += [first + k for k in tree.starts]
        for k, kind in enumerate(tree.kinds):
            ends = None
            if kind in letters:
                ends = tree.cover_of(k)
                if scale is not None and ends is not None:
                    ends = tuple([scale[end] for end in ends])
            self.ends.append(ends)
            self.halves.append((first + k + 1, first + tree.high[k]) if kind == "C" else None)
        self.one += range(first, len(self.ends))

    def around(self, low: int, high: int) -> Optional[Ends]:
        """The ends around two halves."""
        first, second = self.ends[low], self.ends[high]
        if first is None or second is None:
            return first or second
        if len(first) == 4:
            (a, b, c, d), (e, f, g, h) = first, second
            return a if a < e else e, b if b > f else f, c if c < g else g, d if d > h else h
        pairs = enumerate(zip(first, second))
        return tuple([(a if a < b else b) if k % 2 == 0 else (a if a > b else b) for k, (a, b) in pairs])

    def head(self, leaf: int) -> int:
        """The leaf that stands for a leaf's group."""
        parent = self.parent
        above = parent[leaf]
        while above != leaf:
            parent[leaf] = leaf = parent[above]
            above = parent[leaf]
        return leaf

    def are_one(self, first: int, second: int) -> bool:
        """Whether two leaves, or MIXED, are known to be of one group."""
        if first == MIXED or second == MIXED:
            return False
        return self.parent[first] == self.parent[second] or self.head(first) == self.head(second)

    def join(self, first: int, second: int) -> None:
        """Makes one group of two."""
        first, second = self.head(first), self.head(second)
        if first != second:
            self.parent[max(first, second)] = min(first, second)

    def grow(self) -> None:
        """Joins all leaves that touch: within each part from the last node to the first, then between the trees."""
        for k in range(len(self.ends) - 1, -1, -1):
            halves = self.halves[k]
            if halves is None:
                continue
            low, high = halves
            self.ends[k] = self.around(low, high)
            if self.ends[low] is not None and self.ends[high] is not None:
                self.touch(low, high)
            self.one[k] = self.leaf_of(low, high)
        for i, first in enumerate(self.roots):
            for second in self.roots[i + 1:]:
                if self.ends[first] is not None and self.ends[second] is not None:
                    self.touch(first, second)

    def leaf_of(self, low: int, high: int) -> int:
        """A leaf for all of two halves, or MIXED."""
        if self.ends[low] is None or self.ends[high] is None:
            return self.one[high if self.ends[low] is None else low]
        return self.one[low] if self.are_one(self.one[low], self.one[high]) else MIXED

    def touch(self, first: int, second: int) -> None:
        """Joins the leaves of two parts that touch; pairs of parts are taken apart from the larger one on."""
        ends, halves, one, gap, parted = self.ends, self.halves, self.one, self.gap, self.parted
        pairs = [(first, second)]
        while pairs:
            a, b = pairs.pop()
            left, right = ends[a], ends[b]
            if left is None or right is None or parted(left, right, gap) or self.are_one(one[a], one[b]):
                continue
            in_a, in_b = halves[a], halves[b]
            if in_a is None and in_b is None:
                self.join(a, b)
            elif in_b is None or in_a is not None and size(left) >= size(right):
                assert in_a is not None
                pairs += ((in_a[0], b), (in_a[1], b))
            else:
                pairs += ((a, in_b[0]), (a, in_b[1]))


def scales_of(trees: Sequence[Tree], measured: bool = False) -> List[Optional[List[int]]]:
    """The whole numbers that stand for the ends of each tree and are compared with those of the others; None for the ends
    themselves, where there is one tree and nothing is measured."""
    if not measured and len(trees) == 1:
        return [None]
    shift = max(tree.table.shift for tree in trees)
    return [[value << shift - tree.table.shift for value in tree.table.values] for tree in trees]


def apart(first: Ends, second: Ends, gap: int) -> bool:
    """Whether two boxes are further apart than the gap in some place."""
    if len(first) == 4:  # the usual case, without a loop
        (a, b, c, d), (e, f, g, h) = first, second
        return a - f > gap or e - b > gap or c - h > gap or g - d > gap
    for k in range(0, len(first), 2):
        if first[k] - second[k + 1] > gap or second[k] - first[k + 1] > gap:
            return True
    return False


def size(ends: Ends) -> int:
    """The widest place of ends."""
    if len(ends) == 4:
        a, b, c, d = ends
        return b - a if b - a > d - c else d - c
    return max([ends[k + 1] - ends[k] for k in range(0, len(ends), 2)])


def clusters_of(cover: Cover, gap: Exact, kinds: Sequence[str]) -> List[Cluster]:
    """The clusters in the order of their first boxes."""
    if "removed" in kinds:
        raise ValueError("clusters are of inner, small and open boxes")
    from .cover import LETTERS, NAMED
    if gap < 0:
        raise ValueError("a gap below 0")
    trees = [paving.tree for paving in cover.roots()]
    if any(paving.root is None and "O" in paving.tree.kinds[:1] for paving in cover.roots()):
        raise ValueError("this needs the search box: give root= or system=")
    with without_collection():
        forest = Forest(trees, "".join(LETTERS[kind] for kind in kinds), gap)
        forest.grow()
        found: Dict[int, List[Box]] = {}
        first = 0
        for tree in trees:
            for k, kind in enumerate(tree.kinds, first):
                if kind != "C" and forest.ends[k] is not None:
                    ends = tree.cover_of(k - first)
                    assert ends is not None
                    found.setdefault(forest.head(k), []).append(Box.of(NAMED[kind], tree.table, ends, cover.names))
            first += len(tree.kinds)
        return [Cluster(boxes) for boxes in found.values()]
