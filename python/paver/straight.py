"""A way through given boxes, one after the other, pulled straight: first in floats, then as exact points.

Two boxes that follow each other share a portal, a box itself. A way has a point in each portal, and as a box is convex, each
piece from portal to portal lies in one box, wherever the points are. So floats only choose, and never decide what is true."""
from __future__ import annotations

import math
from fractions import Fraction
from typing import Iterable, List, Sequence, Tuple, TypeVar

from .passages import FloatPoint, distance

Point = Tuple[Fraction, ...]
Portal = Sequence[Tuple[Fraction, Fraction]]
WholePortal = Sequence[Tuple[int, int]]  # its ends as so many units
Number = TypeVar("Number", int, Fraction)
Sides = Tuple[List[float], List[float]]  # the lower and the upper ends of a portal
Bend = Tuple[int, FloatPoint]  # the number of a portal, and a point in it
MARGIN = 1024  # a bend stays this part of a portal's width from its ends, so that rounding keeps straight pieces within
DIGITS = 4  # decimal digits of a point beyond the least width of a portal
ROUNDS, SWEEPS = 40, 30
CLOSE = 1e-13  # of the way's extent: less is a fault of floats


def crossed(first: Sequence[Tuple[Number, Number]], second: Sequence[Tuple[Number, Number]]) -> List[Tuple[Number, Number]]:
    """What two boxes that touch share."""
    return [(max(a, c), min(b, d)) for (a, b), (c, d) in zip(first, second)]


def inside(portal: Portal) -> Sides:
    """The ends of a portal less a margin, as floats."""
    lows, highs = [], []
    for low, high in portal:
        margin = (high - low) / MARGIN
        lows.append(float(low + margin))
        highs.append(max(lows[-1], float(high - margin)))
    return lows, highs


def turn(first: FloatPoint, second: FloatPoint, sides: Sides) -> FloatPoint:
    """A point of a portal by which the way from one point to another is short. Places in which it is held divide the others
    as the two distances do there, as a mirror's point does; a place that comes to an end is held, too."""
    lows, highs = sides
    found = list(lows)
    held = [k for k in range(len(lows)) if lows[k] == highs[k]]
    free = [k for k in range(len(lows)) if lows[k] < highs[k]]
    while free:
        before = math.hypot(*[first[k] - found[k] for k in held])
        after = math.hypot(*[second[k] - found[k] for k in held])
        share = before / (before + after) if before + after else 0.5
        stopped = []
        for k in free:
            x = first[k] + share * (second[k] - first[k])
            found[k] = min(max(x, lows[k]), highs[k])
            if found[k] != x:
                stopped.append(k)
        if not stopped:
            break
        held += stopped
        free = [k for k in free if k not in stopped]
    return found


def off(first: FloatPoint, second: FloatPoint, point: FloatPoint) -> float:
    """How far a point is from the segment between two others."""
    along = [b - a for a, b in zip(first, second)]
    square = sum([d * d for d in along])
    share = sum([d * (x - a) for d, x, a in zip(along, point, first)]) / square if square else 0.0
    share = min(max(share, 0.0), 1.0)
    return distance(point, [a + share * d for a, d in zip(first, along)])


def with_missing(bends: Sequence[Bend], portals: Sequence[Sides], close: float) -> List[Bend]:
    """The bends, and those between them at portals that straight pieces miss: the one that is missed by most comes first."""
    found = [bends[-1]]
    waiting = list(zip(bends, bends[1:]))
    while waiting:
        (i, first), (j, second) = waiting.pop()
        most, worst = close, None
        for k in range(i + 1, j):
            point = turn(first, second, portals[k - 1])
            far = off(first, second, point)
            if far > most:
                most, worst = far, (k, point)
        if worst is None:
            found.append((i, first))
        else:
            waiting += [((i, first), worst), (worst, (j, second))]
    return found[::-1]


def pulled(start: FloatPoint, goal: FloatPoint, portals: Sequence[Sides]) -> List[Bend]:
    """The bends of a way from start to goal through all portals in turn, with both: start is number 0, portal k number k + 1.
    Bends are added where a straight piece misses a portal, moved, and left out where the way is straight, until all stays."""
    bends: List[Bend] = [(0, start), (len(portals) + 1, goal)]
    extent = max([1e-300, *(abs(end) for sides in portals for side in sides for end in side)])
    close = CLOSE * extent
    for _ in range(ROUNDS):
        grown = with_missing(bends, portals, close)
        is_whole = len(grown) == len(bends)
        bends = grown
        most = relaxed(bends, portals, close)
        straight = [bends[0]]
        for bend, after in zip(bends[1:-1], bends[2:]):
            if off(straight[-1][1], after[1], bend[1]) > close:
                straight.append(bend)
        straight.append(bends[-1])
        if is_whole and len(straight) == len(bends) and most <= close:
            break
        bends = straight
    return with_missing(bends, portals, close)


def relaxed(bends: List[Bend], portals: Sequence[Sides], close: float) -> float:
    """Moves each bend in turn to where the way between its neighbours is short, until all stay: how far they moved last."""
    most = 0.0
    for _ in range(SWEEPS):
        most = 0.0
        for i in range(1, len(bends) - 1):
            k, old = bends[i]
            new = turn(bends[i - 1][1], bends[i + 1][1], portals[k - 1])
            most = max(most, distance(old, new))
            bends[i] = k, new
        if most <= close:
            break
    return most


def exactly(bends: Sequence[Bend], portals: Sequence[Portal], sides: Sequence[Sides]) -> List[Point]:
    """A point of each portal near the way of these bends, in few decimal digits if the portal's ends let it."""
    widths = [high - low for portal in portals for low, high in portal if low < high]
    least = min(widths, default=Fraction(1))
    power = 10 ** max(0, DIGITS - math.floor(math.log10(least.numerator) - math.log10(least.denominator)))
    found = []
    for (i, first), (j, second) in zip(bends, bends[1:]):
        for k in range(i + 1, j + (j <= len(portals))):
            near = second if k == j else turn(first, second, sides[k - 1])
            rounded = [Fraction(round(Fraction(x) * power), power) for x in near]
            found.append(tuple([min(max(x, low), high) for x, (low, high) in zip(rounded, portals[k - 1])]))
    return found


def unit_of(points: Iterable[Sequence[Fraction]]) -> int:
    """The least number with which all numbers of points are whole."""
    unit = 1
    for denominator in {x.denominator for point in points for x in point}:
        unit *= denominator // math.gcd(unit, denominator)
    return unit


def in_units(point: Sequence[Fraction], unit: int) -> List[int]:
    """The numbers of a point as so many units, which are whole."""
    return [x.numerator * (unit // x.denominator) for x in point]


def portal_in_units(portal: Portal, unit: int) -> WholePortal:
    """The ends of a portal as so many units."""
    return [(low.numerator * (unit // low.denominator), high.numerator * (unit // high.denominator)) for low, high in portal]


def passes(first: Sequence[int], second: Sequence[int], portals: Sequence[WholePortal]) -> bool:
    """Whether a straight piece goes through portals in turn: then each part of it lies in the box between two of them. All
    numbers are whole, and shares of the piece are compared by products."""
    along = [b - a for a, b in zip(first, second)]
    begun, begun_of = 0, 1  # the share of the piece that is behind
    for portal in portals:
        last, last_of = 1, 1
        for a, d, (low, high) in zip(first, along, portal):
            if d == 0:
                if not low <= a <= high:
                    return False
                continue
            enter, leave, d = (low - a, high - a, d) if d > 0 else (a - high, a - low, -d)
            if enter * begun_of > begun * d:
                begun, begun_of = enter, d
            if leave * last_of < last * d:
                last, last_of = leave, d
        if begun * last_of > last * begun_of:
            return False
    return True


def fewer(points: Sequence[Point], portals: Sequence[Portal], bends: Sequence[int]) -> List[int]:
    """The numbers of points that are enough, the first and the last one among them: pieces between them pass all portals. A
    piece is tried to the next bends first, then to half as far."""
    unit = unit_of([*points, *(pair for portal in portals for pair in portal)])
    wholes, gates = [in_units(point, unit) for point in points], [portal_in_units(portal, unit) for portal in portals]
    found, last = [0], len(points) - 1
    while found[-1] < last:
        i = found[-1]
        ahead = [k for k in bends if k > i][:3][::-1]
        far = ahead[0] if ahead else last
        while far > i + 1:
            ahead.append(far)
            far = i + (far - i) // 2
        found.append(next((j for j in ahead if passes(wholes[i], wholes[j], gates[i:j - 1])), i + 1))
    return found
