"""By which constraints the small and open boxes of a paving are undecided, and which of them are the greatest.

Each constraint alone is looked at by its values on the box, in exact fractions: what the program's test by intervals sees,
without its rounding. So a box of `run-centered` may be decided by a constraint that is named here.
"""
from __future__ import annotations

import heapq
import math
from collections.abc import Callable, Iterator
from dataclasses import dataclass, field
from fractions import Fraction
from operator import itemgetter
from time import monotonic

from .canonical import System
from .cover import Box, kept_ends
from .numbers import INFINITE, SCALE, wide
from .paving import Parts, Paving
from .ranges import decided
from .tree import Ends, Table

KINDS = ("small", "open")
MOST, SECONDS, SHOWN = 1000, 2.0, 3


@dataclass
class Undecided:
    """`boxes` has the greatest boxes with the numbers of the constraints that are undecided there, `counts` how many boxes
    each constraint leaves undecided, `alone` on how many of them no other does; `total` is how many boxes there are."""
    total: int
    boxes: list[tuple[Box, list[int]]] = field(default_factory=list)
    counts: dict[int, int] = field(default_factory=dict)
    alone: dict[int, int] = field(default_factory=dict)
    unbounded: int = 0


def sizes_of(table: Table) -> Callable[[tuple[str, Ends]], int]:
    """What gives the volume of ends in a table for a comparison, in grid forms; a place that is one point counts as narrow."""
    values, up = table.values, SCALE - table.shift

    def size(leaf: tuple[str, Ends]) -> int:
        ends = leaf[1]
        widths = [values[ends[k + 1]] - values[ends[k]] for k in range(0, len(ends), 2)]
        return math.prod([max(1, min(w << up, INFINITE)) for w in widths])

    return size


def greatest(paving: Paving | Parts, most: int) -> list[Box]:
    """The small and open boxes of the greatest volumes, the greatest first and then in preorder."""
    found: list[tuple[int, Box]] = []
    for piece in paving.pieces():
        size = sizes_of(piece.tree.table)
        leaves = heapq.nlargest(most, kept_ends(piece, KINDS), key=size)
        found += [(size(leaf), Box.of(leaf[0], piece.tree.table, leaf[1], paving.names)) for leaf in leaves]
    return [box for _, box in heapq.nlargest(most, found, key=itemgetter(0))]


def undecided(paving: Paving | Parts, system: System, most: int = MOST, seconds: float = SECONDS) -> Undecided:
    """Looks at the greatest small and open boxes, until that many were looked at or the time for that is used up."""
    found = Undecided(sum(paving.counts()[kind] for kind in KINDS))
    boxes = greatest(paving, most)
    until = monotonic() + seconds
    for box in boxes:
        if monotonic() > until:
            break
        pairs = box.exact
        if any(isinstance(end, float) for pair in pairs for end in pair):
            found.unbounded += 1
            continue
        bounded = [(Fraction(low), Fraction(high)) for low, high in pairs]
        numbers = [i for i, c in enumerate(system.constraints) if decided(c, bounded) is None]
        found.boxes.append((box, numbers))
        for i in numbers:
            found.counts[i] = found.counts.get(i, 0) + 1
            found.alone[i] = found.alone.get(i, 0) + (len(numbers) == 1)
    return found


def lines_of(found: Undecided, system: System) -> Iterator[str]:
    """What `summary` prints of it."""
    if not found.total:
        return
    looked = len(found.boxes)
    which = f"all {looked}" if looked == found.total else f"the greatest {looked} of {found.total}"
    yield f"undecided, looking at {which} small and open boxes:"
    for i, count in sorted(found.counts.items(), key=lambda pair: (-pair[1], pair[0])):
        alone = f", on {found.alone[i]} alone" if found.alone[i] else ""
        yield f"  constraint {i} on {count}{alone}: {system.constraints[i].infix(system.names)}"
    free = sum(not numbers for _, numbers in found.boxes)
    if free:
        yield f"  no constraint by itself on {free}: each is decided there but for the rounding, or by the contractor text"
    if found.unbounded:
        yield f"  {found.unbounded} boxes are unbounded: give their variables domains"
    for box, numbers in found.boxes[:SHOWN]:
        yield f"  great: {box!r}, width {wide(box.width)}, by {', '.join(map(str, numbers)) or 'none'}"


def report(paving: Paving | Parts, system: System) -> None:
    """Prints the lines."""
    print("\n".join(lines_of(undecided(paving, system), system)))
