"""Which boxes share a face. In a plane these are found by their ends; else by the tree, as groups of boxes that touch are."""
from __future__ import annotations

from array import array
from collections import defaultdict
from itertools import accumulate
from typing import Dict, List, Sequence, Tuple

from .clusters import Forest
from .tree import Ends, Tree

Columns = Sequence[Sequence[int]]  # of each variable the lower ends of all boxes, then the upper ones


def neighbours(trees: Sequence[Tree], columns: Columns, places: Sequence[int], flat: int) -> Tuple[List[int], List[int]]:
    """Where the neighbours of each inner box begin, and all neighbours, those of one box after those of another. Places are the
    variables whose domain is more than one number; flat is in how many places neighbours may meet in one number alone."""
    count = len(columns[0])
    if len(places) == 2 and not any(is_flat(columns, k) for k in places):
        keys = [key for k, other in (places, places[::-1]) for key in across(columns, k, other)]
    else:
        keys = Faces(trees, flat).keys(count)
    keys += [key % count * count + key // count for key in keys]
    keys.sort()
    degrees = [0] * (count + 1)
    for key in keys:
        degrees[key // count + 1] += 1
    return list(accumulate(degrees)), [key % count for key in keys]


def is_flat(columns: Columns, k: int) -> bool:
    """Whether some box has one number alone of a variable."""
    return any(low == high for low, high in zip(columns[2 * k], columns[2 * k + 1]))


def by_end(column: Sequence[int]) -> Dict[int, List[int]]:
    """The numbers of the boxes that have each end."""
    found: Dict[int, List[int]] = defaultdict(list)
    for number, end in enumerate(column):
        found[end].append(number)
    return found


def across(columns: Columns, k: int, other: int) -> List[int]:
    """The pairs of boxes of a plane of which one ends where the other begins, in variable k, as whole numbers."""
    lows, highs = columns[2 * other], columns[2 * other + 1]
    begin, found = by_end(columns[2 * k]), []
    for end, left in by_end(columns[2 * k + 1]).items():
        if end in begin:
            found += in_line(left, begin[end], lows, highs)
    return found


def in_line(left: List[int], right: List[int], lows: Sequence[int], highs: Sequence[int]) -> List[int]:
    """The pairs of a left and a right box that overlap in one variable, in which no two of a side do, as whole numbers."""
    left, right = sorted(left, key=lows.__getitem__), sorted(right, key=lows.__getitem__)
    found, i, j, most, last, count = [], 0, 0, len(left), len(right), len(lows)
    while i < most and j < last:
        a, b = left[i], right[j]
        if lows[a] < highs[b] and lows[b] < highs[a]:
            found.append(a * count + b)
        if highs[a] < highs[b]:
            i += 1
        else:
            j += 1
    return found


def share_no_face(first: Ends, second: Ends, flat: int) -> bool:
    """Whether two boxes are apart, or meet in one number alone in more than so many places."""
    if len(first) == 4:  # the usual case, without a loop
        (a, b, c, d), (e, f, g, h) = first, second
        low, high, bottom, top = (a if a > e else e), (b if b < f else f), (c if c > g else g), (d if d < h else h)
        return low > high or bottom > top or (low == high) + (bottom == top) > flat
    count = 0
    for k in range(0, len(first), 2):
        low = first[k] if first[k] > second[k] else second[k]
        high = first[k + 1] if first[k + 1] < second[k + 1] else second[k + 1]
        if low >= high:
            count += 1
            if low > high or count > flat:
                return True
    return False


class Faces(Forest):
    """The pairs of inner boxes of some trees that share a face or more."""

    def __init__(self, trees: Sequence[Tree], flat: int) -> None:
        super().__init__(trees, "I", 0)
        self.trees, self.flat = trees, flat
        self.parted = self.share_no_face  # parts that meet in less than a face have no pair of neighbours
        self.firsts, self.seconds = array("q"), array("q")
        self.grow()

    def share_no_face(self, first: Ends, second: Ends, _gap: int) -> bool:
        """Whether two parts have no neighbours."""
        return share_no_face(first, second, self.flat)

    def are_one(self, first: int, second: int) -> bool:
        """Nothing is passed over here, as each pair of neighbours is wanted."""
        return False

    def join(self, first: int, second: int) -> None:
        """Notes two leaves that share a face."""
        self.firsts.append(first)
        self.seconds.append(second)

    def keys(self, count: int) -> List[int]:
        """The pairs as whole numbers, by the numbers of the boxes."""
        number_of, number = array("q", bytes(8 * len(self.ends))), 0
        for k, kind in enumerate("".join([tree.kinds for tree in self.trees])):
            if kind == "I":
                number_of[k], number = number, number + 1
        return [number_of[a] * count + number_of[b] for a, b in zip(self.firsts, self.seconds)]
