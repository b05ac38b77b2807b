"""Checks a printed paving at random rational points by exact fractions: every sampled point of an inner box is a
member of the set, and none of a removed part is."""
from __future__ import annotations

import random
from collections.abc import Iterable, Iterator, Sequence
from fractions import Fraction

from tests.data.examples import settings_of
from tests.reference import minibex, paver
from tests.reference.kinds import Box, Interval, Value
from tests.reference.numbers import NEG_INF, POS_INF, UNIT

POINTS = 4000  # of one paving
FAR = 1 << 540  # how far a point goes where a box has no end


def end(text: str) -> Value:
    if text in ("-oo", "+oo"):
        return NEG_INF if text == "-oo" else POS_INF
    mantissa, exponent = text.split(":")
    return int(mantissa) << (int(exponent) + 512)


def ends(words: Iterable[str]) -> list[Interval]:
    values = [end(word) for word in words]
    return list(zip(values[::2], values[1::2]))


def parts(lines: Iterable[str], root: Box) -> Iterator[tuple[str, Box, Box]]:
    """Each box of which something is claimed: ("inner", to, None), or ("removed", box, to) for what is not in to."""
    waiting = [root]
    for line in lines:
        kind, *words = line.split()
        box = waiting.pop()
        if kind == "X":
            yield "removed", box, None
            continue
        if kind == "O":
            continue
        to = ends(words[2:] if kind == "C" else words)
        if to != box:
            yield "removed", box, to
        if kind == "I":
            yield "inner", to, None
        if kind == "C":
            waiting += reversed(paver.halves(to, int(words[0]), end(words[1])))


def point_of(box: Box, source: random.Random) -> list[Fraction]:
    point = []
    for lo, hi in box:
        low = max(lo, -FAR) if hi > -FAR else hi - FAR
        high = min(hi, FAR) if low < FAR else low + FAR
        share = Fraction(source.randrange(0, 1 << 20), 1 << 20) if source.random() < 0.9 else source.randrange(2)
        point.append((low + (high - low) * share) / Fraction(UNIT))
    return point


def is_in(point: Sequence[Fraction], box: Box) -> bool:
    return all((lo == NEG_INF or lo <= x * UNIT) and (hi == POS_INF or x * UNIT <= hi) for x, (lo, hi) in zip(point, box))


def faults_of_paving(text: str, words: Sequence[str], printed: str) -> list[str]:
    settings, _ = settings_of(words)
    system = minibex.read(text)
    settler = paver.Settler(system, **settings)
    source = random.Random(20261126)
    claims = list(parts(printed.splitlines()[1:], settler.root))
    if not claims:
        return ["nothing is claimed in this paving"]
    faults = []
    for _ in range(POINTS):
        kind, box, left = source.choice(claims)
        point = point_of(box, source)
        if left is not None and is_in(point, left):
            continue
        member = settler.member(settler.program, [minibex.holds(c, point) for c in system.constraints])
        if member != (kind == "inner"):
            faults.append(f"the point {point} of a box that is {kind} is {'' if member else 'not '}in the set")
    return faults[:3]
