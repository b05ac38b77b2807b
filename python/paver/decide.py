"""Decisions from a paving: the point that may move farthest and stay proved, the largest ball and a largest box that are proved.

A box is proved where inner leaves, which may be several, cover it: then each of its rational points is in the set. Lengths are
measured in scales, one a variable: its width in the search box, or what is given. All of it is exact: whole numbers of the
paving's unit, and places among its ends. The searches for the greatest tolerance and for the largest ball are branch and bound
over the point: as the distance to the nearest part that is not proved changes by no more than the point moves (a Lipschitz
function of constant 1), its value at a cell's centre and the cell's radius bound it on the cell (Piyavskii and Shubert, 1972).
Distances are the greatest scaled coordinate for the one, and Euclid's of scaled coordinates for the other. The package is tested
and not proved; what is said rests on the paving's inner boxes.
"""
from __future__ import annotations

import math
from dataclasses import dataclass
from fractions import Fraction
from functools import reduce
from heapq import heappop, heappush, nlargest
from operator import mul, sub
from typing import Dict, Iterable, List, Mapping, Optional, Sequence, Tuple

from .box import Number, exact_number
from .cover import Cover, Name
from .tree import Ends, Tree, without_collection

FINER = 24  # bits of a point's unit below the paving's
CANDIDATES = 32  # inner leaves from which a search begins
TRIES = 4000  # points that are measured
NEAR = Fraction(1, 100)  # how near its bound a tolerance has to come, as a part of the bound
Pairs = Tuple[Tuple[Fraction, Fraction], ...]
Place = float  # where a number stands among the ends of a paving: see Table.place


@dataclass(frozen=True)
class Tolerance:
    """A point whose variables may all move at once, by `share` of their scales each, up or down: `box` is proved. No point of
    the search box has a share above `most`; `moves` are the lengths themselves."""
    point: Tuple[Fraction, ...]
    share: Fraction
    most: Fraction
    moves: Tuple[Fraction, ...]
    box: Pairs


@dataclass(frozen=True)
class Ball:
    """A point around which a ball is proved: all points with the sum of ((x - point) / scale)^2 at most radius^2. None around a
    point of the search box has a radius above `most`; `reaches` says how far it goes in each variable."""
    point: Tuple[Fraction, ...]
    radius: Fraction
    most: Fraction
    reaches: Tuple[Fraction, ...]


@dataclass(frozen=True)
class Largest:
    """A proved box that no larger proved box holds, its centre, and its volume in scales: a part of the search box where the
    scales are its widths. It is the largest that was found; another may be larger."""
    point: Tuple[Fraction, ...]
    box: Pairs
    volume: Fraction


@dataclass(frozen=True)
class Decisions:
    """What decide found, with the variables' names and scales. All decisions are None where no inner box has a volume."""
    names: Tuple[str, ...]
    scales: Tuple[Fraction, ...]
    tolerance: Optional[Tolerance]
    ball: Optional[Ball]
    largest: Optional[Largest]


class Ground:
    """A tree whose inner leaves are proved ground. Variables whose search box is one point are left out of all lengths."""

    def __init__(self, tree: Tree, scales: Sequence[Fraction], unproved: Optional[List[Optional[Ends]]] = None) -> None:
        root = tree.boxes[0]
        assert root is not None
        self.tree, self.root = tree, root
        self.free = [k for k in range(tree.dims) if root[2 * k] < root[2 * k + 1]]
        common = reduce(lambda a, b: a * b // math.gcd(a, b), (scales[k].numerator for k in self.free), 1)
        self.weights = [int(common / scales[k]) if k in self.free else 0 for k in range(tree.dims)]
        self.unit = 1 << tree.table.shift + FINER  # of a point
        self.whole = common * self.unit  # one scale, in the unit of distances
        self.values = tree.table.values
        self.unproved = unproved_parts(tree) if unproved is None else unproved

    def distance(self, point: Sequence[int], ends: Ends) -> int:
        """How far a point is from a box: the greatest of its scaled coordinates' distances."""
        found, values = 0, self.values
        for k in self.free:
            x = point[k]
            far = max((values[ends[2 * k]] << FINER) - x, x - (values[ends[2 * k + 1]] << FINER)) * self.weights[k]
            if far > found:
                found = far
        return found

    def room(self, point: Sequence[int]) -> int:
        """How far a point is from the nearest part of positive volume that is not proved; 0 where none is proved around it.
        A point may be of fractions too."""
        return self.nearest(point, max(0, self._within(point)))

    def nearest(self, point: Sequence[int], best: int) -> int:
        """The least distance, in the form of `distance`, from a point to a part that is not proved; `best` if none is less."""
        tree, unproved = self.tree, self.unproved
        waiting = [(0, 0)] if unproved[0] else []
        while waiting:
            far, k = waiting.pop()
            if far >= best:
                continue
            box, to = tree.boxes[k], tree.tos[k]
            assert box is not None
            if tree.kinds[k] not in "CI" or to is None:
                best = far
                continue
            if to is not box:
                best = min([best, *(self.distance(point, part) for part in cut_off(box, to))])
            if tree.kinds[k] == "C":  # the nearer half last, which is looked at first
                parts = [(self.distance(point, part), half) for half in tree.halves(k) for part in [unproved[half]] if part]
                waiting += sorted(parts, reverse=True)
        return best

    def _within(self, point: Sequence[int]) -> int:
        """How far a point is from the faces of the search box, beyond which nothing is known; negative outside."""
        return min(min(point[k] - (self.values[self.root[2 * k]] << FINER),
                       (self.values[self.root[2 * k + 1]] << FINER) - point[k]) * self.weights[k] for k in self.free)

    def places_of(self, box: Pairs) -> List[Place]:
        """Where a box's ends stand among the ends of the paving."""
        return [self.tree.table.place(end) for pair in box for end in pair]

    def covered(self, places: Sequence[Place]) -> bool:
        """Whether inner leaves cover a box, which has a width in each variable that is not one point in the search box."""
        tree, waiting = self.tree, [0]
        if any(places[2 * k] < self.root[2 * k] or places[2 * k + 1] > self.root[2 * k + 1] for k in range(tree.dims)):
            return False
        while waiting:
            k = waiting.pop()
            box, to = tree.boxes[k], tree.tos[k]
            assert box is not None
            part = self.unproved[k]
            if part is None or not self._overlaps(places, part):
                continue
            if tree.kinds[k] not in "CI" or to is None:
                return False
            if any(max(places[i], box[i]) < to[i] or min(places[i + 1], box[i + 1]) > to[i + 1] for i in range(0, len(to), 2)):
                return False
            if tree.kinds[k] == "C":
                waiting += tree.halves(k)
        return True

    def _overlaps(self, places: Sequence[Place], box: Sequence[Place], but: int = -1) -> bool:
        """Whether two boxes have more than faces in common, in all free variables but one."""
        for k in self.free:
            if k != but and (places[2 * k] >= box[2 * k + 1] or places[2 * k + 1] <= box[2 * k]):
                return False
        return True

    def reach(self, places: Sequence[Place], k: int, up: bool) -> int:
        """The farthest end to which one face of a covered box can be pushed, so that it stays covered."""
        tree, waiting, side = self.tree, [0], 2 * k + up
        best, sign = self.root[side], 1 if up else -1
        face = places[side]
        while waiting:
            node = waiting.pop()
            box, to, around = tree.boxes[node], tree.tos[node], self.unproved[node]
            assert box is not None
            # all lies beyond what is known to block, or behind the face, or beside the box
            if around is None or sign * (around[2 * k + 1 - up] - best) >= 0 or sign * (around[side] - face) <= 0 \
                    or not self._overlaps(places, around, k):
                continue
            if tree.kinds[node] == "C":  # the nearer half last, which is looked at first
                is_high_first = up or tree.variables[node] != k
                waiting += tree.halves(node) if is_high_first else tree.halves(node)[::-1]
            for part in cut_off(box, to) if tree.kinds[node] in "CI" and to is not None else [box]:
                near = part[2 * k + 1 - up]
                if sign * (near - face) >= 0 and sign * (near - best) < 0 and self._overlaps(places, part, k):
                    best = near
        return best

    def exact(self, point: Sequence[int]) -> Tuple[Fraction, ...]:
        """A point as fractions."""
        return tuple(Fraction(x) / self.unit for x in point)

    def around(self, point: Sequence[Fraction], moves: Sequence[Fraction]) -> Pairs:
        """The box of all points that differ from one by no more than the moves."""
        return tuple((x - move, x + move) for x, move in zip(point, moves))

    def radius(self, sides: Sequence[int]) -> int:
        """How far a point of a cell is from its centre at most, from the halves of its sides."""
        return max(map(mul, sides, self.weights))

    def improved(self, point: List[int]) -> Tuple[int, List[int]]:
        """The room of a point, or of one nearby that has more: each variable in turn is put into the middle of where it may go."""
        room = self.room(point)
        for _ in range(4):
            if not room:
                break
            other = list(point)
            for k in self.free:
                moves = [Fraction(room, self.weights[j] * self.unit) if self.weights[j] else Fraction(0)
                         for j in range(len(point))]
                places = self.places_of(self.around(self.exact(other), moves))
                if not self.covered(places):
                    break
                low, high = (self.values[self.reach(places, k, up)] for up in (False, True))
                other[k] = (low + high) << FINER - 1
            better = self.room(other)
            if better <= room:
                break
            room, point = better, other
        return room, point


class RoundGround(Ground):
    """The same in Euclid's distance of scaled coordinates; `distance` gives its square, and what is not whole is rounded to the
    safe side."""

    def distance(self, point: Sequence[int], ends: Ends) -> int:
        """The square of how far a point is from a box."""
        found, values = 0, self.values
        for k in self.free:
            x = point[k]
            far = max((values[ends[2 * k]] << FINER) - x, x - (values[ends[2 * k + 1]] << FINER)) * self.weights[k]
            if far > 0:
                found += far * far
        return found

    def room(self, point: Sequence[int]) -> int:
        """As of a Ground, rounded down."""
        square = self.nearest(point, max(0, self._within(point)) ** 2)
        return math.isqrt(square.numerator // square.denominator)

    def radius(self, sides: Sequence[int]) -> int:
        """As of a Ground, rounded up; with the unit by which the room of the centre was rounded down."""
        return math.isqrt(sum(side * side for side in map(mul, sides, self.weights))) + 2

    def improved(self, point: List[int]) -> Tuple[int, List[int]]:
        """The room of a point, or of one nearby that has more: steps along each variable, halved where none leads up."""
        room = self.room(point)
        step = room >> 1
        while room and step > room >> 8:
            best, at = room, point
            for k in self.free:
                for move in (step // self.weights[k], -(step // self.weights[k])):
                    other = [*point[:k], point[k] + move, *point[k + 1:]]
                    found = self.room(other)
                    if found > best:
                        best, at = found, other
            if best == room:
                step >>= 1
            room, point = best, at
        return room, point

    def clear(self, point: Sequence[int], radius: int) -> bool:
        """Whether inner leaves fill a ball: looked at anew, leaf by leaf."""
        tree, square, waiting = self.tree, radius * radius, [0]
        if self._within(point) < radius:
            return False
        while waiting:
            k = waiting.pop()
            box, to = tree.boxes[k], tree.tos[k]
            assert box is not None
            if self.distance(point, box) >= square:
                continue
            if tree.kinds[k] not in "CI" or to is None or any(self.distance(point, part) < square for part in cut_off(box, to)):
                return False
            if tree.kinds[k] == "C":
                waiting += tree.halves(k)
        return True


def unproved_parts(tree: Tree) -> List[Optional[Ends]]:
    """Of each node the ends around all of its box that inner leaves don't fill; None where they fill it. So what lies along a
    face of the set is passed over as a whole."""
    found: List[Optional[Ends]] = [None] * len(tree.kinds)
    with without_collection():
        for k in range(len(tree.kinds) - 1, -1, -1):
            kind, box, to = tree.kinds[k], tree.boxes[k], tree.tos[k]
            if kind not in "CI":
                found[k] = box
                continue
            one = around_both(found[k + 1], found[tree.high[k]]) if kind == "C" else None
            if to is not box and to is not None and box is not None:
                for part in cut_off(box, to):
                    one = around_both(one, part)
            found[k] = one
    return found


def around_both(one: Optional[Ends], other: Optional[Ends]) -> Optional[Ends]:
    """The ends around two boxes; one of them where the other is None."""
    if one is None or other is None:
        return one or other
    if len(one) == 4:  # the usual case, without a loop
        (a, b, c, d), (e, f, g, h) = one, other
        return a if a < e else e, b if b > f else f, c if c < g else g, d if d > h else h
    return tuple([max(x, y) if i & 1 else min(x, y) for i, (x, y) in enumerate(zip(one, other))])


def cut_off(box: Ends, to: Ends) -> Iterable[Ends]:
    """The parts of a box beyond the faces of what it was contracted to, each as wide as the box in the other variables."""
    for i in range(0, len(box), 2):
        if box[i] < to[i]:
            yield (*box[:i + 1], to[i], *box[i + 2:])
        if to[i + 1] < box[i + 1]:
            yield (*box[:i], to[i + 1], *box[i + 1:])


def decide(paving: Cover, scale: Optional[Mapping[Name, Number]] = None, tries: int = TRIES) -> Decisions:
    """The point with the greatest tolerance, the largest proved ball and a largest proved box of one paving. scale gives lengths
    for some variables by their names, in place of their widths in the search box. After `tries` measured points (at least 1) the
    searches for the first two end; their bounds hold all the same. ValueError for scales that are not positive, several search
    boxes, a variable without a bounded domain, or where the search box is not known."""
    if len(paving.roots()) != 1:
        raise ValueError("decide takes one paving of one search box")
    if isinstance(tries, bool) or not isinstance(tries, int) or tries < 1:
        raise ValueError(f"{tries!r} tries: a whole number from 1 on is expected")
    paving.need_root()
    tree, scales = paving.tree, scales_of(paving, scale or {})
    names = tuple(paving.names_known())
    ground = Ground(tree, scales)
    leaves = [ends for ends in tree.ends_of("I") if all(ends[2 * k] < ends[2 * k + 1] for k in ground.free)]
    if not leaves or not ground.free:
        return Decisions(names, scales, None, None, None)
    tolerance = greatest_tolerance(ground, leaves, scales, tries)
    ball = largest_ball(RoundGround(tree, scales, ground.unproved), leaves, scales, tries)
    return Decisions(names, scales, tolerance, ball, largest_box(ground, leaves, scales, tolerance))


def scales_of(paving: Cover, given: Mapping[Name, Number]) -> Tuple[Fraction, ...]:
    """The scales of all variables in order."""
    table, root = paving.tree.table, paving.tree.boxes[0]
    assert root is not None
    found: List[Fraction] = []
    chosen: Dict[int, Number] = {paving.variable(name): value for name, value in given.items()}
    for k in range(paving.dims or 0):
        low, high = table.exact(root[2 * k]), table.exact(root[2 * k + 1])
        if isinstance(low, float) or isinstance(high, float):
            raise ValueError(f"{paving.name_of(k)} has no bounded domain: a box around a point needs one")
        wanted = exact_number(chosen[k]) if k in chosen else high - low or Fraction(1)
        if isinstance(wanted, float) or wanted <= 0:
            raise ValueError(f"the scale {chosen[k]} of {paving.name_of(k)}: a number above 0 is expected")
        found.append(wanted)
    return tuple(found)


def narrowest(ground: Ground, ends: Ends) -> int:
    """The least of a box's scaled widths, in units."""
    return min((ground.values[ends[2 * k + 1]] - ground.values[ends[2 * k]]) * ground.weights[k] for k in ground.free)


def scaled_volume(ground: Ground, ends: Ends) -> int:
    """The volume of a box over the free variables, in units."""
    return math.prod([ground.values[ends[2 * k + 1]] - ground.values[ends[2 * k]] for k in ground.free])


def middle(ground: Ground, ends: Ends) -> List[int]:
    """The centre of a box, in units."""
    return [(ground.values[ends[i]] + ground.values[ends[i + 1]]) << FINER - 1 for i in range(0, len(ends), 2)]


def greatest_room(ground: Ground, leaves: Sequence[Ends], scales: Sequence[Fraction], tries: int
                  ) -> Tuple[Tuple[Fraction, ...], Fraction, Fraction]:
    """The point with the most room that was found, in few decimals, its room and a bound above that of all points, in scales:
    by branch and bound, begun at the centres of leaves that are wide in all variables."""
    first = nlargest(min(CANDIDATES, tries), leaves, key=lambda ends: narrowest(ground, ends))
    begun = max((ground.improved(middle(ground, ends)) for ends in first), key=lambda pair: pair[0])
    lows = [ground.values[min(ends[2 * k] for ends in leaves)] << FINER for k in range(ground.tree.dims)]
    highs = [ground.values[max(ends[2 * k + 1] for ends in leaves)] << FINER for k in range(ground.tree.dims)]
    best, point, most = branched(ground, begun, (lows, highs), tries)
    shorter = few_digits(ground, point, best, scales)
    room = ground.room([x * ground.unit for x in shorter])  # type: ignore[misc]
    return shorter, Fraction(room) / ground.whole, Fraction(most) / ground.whole


def reaches(ground: Ground, share: Fraction, scales: Sequence[Fraction]) -> Tuple[Fraction, ...]:
    """A share of the scales as lengths: 0 of variables whose search box is one point."""
    return tuple(share * scales[k] if k in ground.free else Fraction(0) for k in range(ground.tree.dims))


def greatest_tolerance(ground: Ground, leaves: Sequence[Ends], scales: Sequence[Fraction], tries: int) -> Tolerance:
    """The point whose variables may move farthest all at once, with its box."""
    point, share, most = greatest_room(ground, leaves, scales, tries)
    moves = reaches(ground, share, scales)
    box = ground.around(point, moves)
    if not ground.covered(ground.places_of(box)):
        raise AssertionError("a tolerance whose box is not covered by inner leaves")
    return Tolerance(point, share, most, moves, box)


def largest_ball(ground: RoundGround, leaves: Sequence[Ends], scales: Sequence[Fraction], tries: int) -> Ball:
    """The centre of the largest ball in scaled coordinates."""
    point, radius, most = greatest_room(ground, leaves, scales, tries)
    if not ground.clear([x * ground.unit for x in point], int(radius * ground.whole)):  # type: ignore[misc]
        raise AssertionError("a largest ball that is not covered by inner leaves")
    return Ball(point, radius, most, reaches(ground, radius, scales))


def branched(ground: Ground, begun: Tuple[int, List[int]], cell: Tuple[List[int], List[int]], tries: int
             ) -> Tuple[int, List[int], int]:
    """The greatest room that was found, its point, and a bound above the room of all points of a cell."""
    best, point = begun
    count, waiting, made = 0, [], 0

    def add(lows: List[int], highs: List[int], above: int) -> None:
        nonlocal best, point, made
        centre = [low + high >> 1 for low, high in zip(lows, highs)]
        room = ground.room(centre)
        if room > best:
            best, point = max((room, centre), ground.improved(centre), key=lambda pair: pair[0])
        made += 1
        heappush(waiting, (-min(above, room + ground.radius(list(map(sub, highs, centre)))), made, lows, highs))

    add(*cell, ground.whole * (1 << 40))
    while count < tries and -waiting[0][0] * (1 - NEAR) > best:
        bound, _, lows, highs = heappop(waiting)
        k = max(ground.free, key=lambda k: (highs[k] - lows[k]) * ground.weights[k])
        at = lows[k] + highs[k] >> 1
        add(lows, [*highs[:k], at, *highs[k + 1:]], -bound)
        add([*lows[:k], at, *lows[k + 1:]], highs, -bound)
        count += 2
    return best, point, max(best, -waiting[0][0])


def few_digits(ground: Ground, point: Sequence[int], room: int, scales: Sequence[Fraction]) -> Tuple[Fraction, ...]:
    """A point of few decimals near another, that loses a hundredth of its room at most."""
    found = list(ground.exact(point))
    for k in ground.free:
        step, most = Fraction(1), Fraction(room) / ground.whole * scales[k] / 50
        while step > most:
            step /= 10
        while step * 10 <= most:
            step *= 10
        found[k] = round(found[k] / step) * step
    return tuple(found)


def largest_box(ground: Ground, leaves: Sequence[Ends], scales: Sequence[Fraction], tolerance: Tolerance) -> Largest:
    """The largest of the boxes that grow from the largest leaves and from the box of the tolerance, their faces pushed out one
    after the other: so no larger proved box holds one of them."""
    seeds: List[Sequence[Place]] = list(nlargest(CANDIDATES, leaves, key=lambda ends: scaled_volume(ground, ends)))
    seeds.append(ground.places_of(tolerance.box))
    orders = [ground.free, ground.free[::-1]] if len(ground.free) > 1 else [ground.free]
    grown = [grown_from(ground, seed, order) for seed in seeds for order in orders]
    best = max(grown, key=lambda ends: scaled_volume(ground, ends))
    if not ground.covered(best):
        raise AssertionError("a largest box that is not covered by inner leaves")
    ends = [Fraction(ground.values[end], 1 << ground.tree.table.shift) for end in best]
    box = tuple(zip(ends[::2], ends[1::2]))
    volume = math.prod([(box[k][1] - box[k][0]) / scales[k] for k in ground.free], start=Fraction(1))
    return Largest(tuple((low + high) / 2 for low, high in box), box, volume)


def grown_from(ground: Ground, seed: Sequence[Place], order: Sequence[int]) -> Ends:
    """A covered box whose faces were pushed out as far as they go, those of one variable after those of another."""
    places = list(seed)
    for k in order:
        places[2 * k], places[2 * k + 1] = ground.reach(places, k, False), ground.reach(places, k, True)
    return tuple(map(int, places))
