"""The least value of an expression over a set, straight from its definition, slow and plain.

Every step looks at all leaves in preorder again: which open leaf is settled next, and which of the
points of inner leaves is the best so far. What a leaf tells of the expression is worked out once.
"""
from typing import Any, Iterator, List, Tuple

from . import minibex
from .kinds import Box, Expression, Interval, Value
from .numbers import POS_INF, is_finite, middle, spelling
from .paver import Constraint, Empty, halves

ANY = Constraint(("=", (), ()))


def forward(e: Expression, box: Box) -> Any:
    """The interval of e on the box and whether it is total; None where it is empty."""
    try:
        return ANY.forward(e, box)
    except Empty:
        return None


def low(e: Expression, box: Box) -> Value:
    found = forward(e, box)
    return None if found is None else found[0][0]


def centre(x: Interval) -> Value:
    cut = middle(*x) if is_finite(x[0]) and is_finite(x[1]) else None
    return next(n for n in (cut, x[0], x[1], 0) if n is not None and is_finite(n))


def candidates(to: Box) -> Iterator[List[Value]]:
    """The low point, the centre and the high point."""
    centres = [centre(x) for x in to]
    yield [x[0] if is_finite(x[0]) else c for x, c in zip(to, centres)]
    yield centres
    yield [x[1] if is_finite(x[1]) else c for x, c in zip(to, centres)]


def counting(e: Expression, to: Box) -> Iterator[Tuple[Value, List[Value]]]:
    """The bound and the point of each candidate that counts, in their order."""
    for point in candidates(to):
        at = forward(e, [(n, n) for n in point])
        if at is not None and at[1]:
            yield at[0][1], point


class Leaf:
    """An open leaf ("O"), or what an inner ("I") or small ("S") one kept of its box, with what it tells of e."""

    def __init__(self, e: Expression, kind: str, box: Box, length: int) -> None:
        self.kind, self.box, self.length = kind, box, length
        self.low = low(e, box)
        self.points = list(counting(e, box)) if kind == "I" else []


def best(leaves: Any) -> Any:
    """The first counting point of least bound with that bound; None where no point counts."""
    return min((pair for leaf in leaves for pair in leaf.points), key=lambda pair: pair[0], default=None)


def next_leaf(leaves: Any, upper: Value) -> Any:
    admitted = (i for i, leaf in enumerate(leaves)
                if leaf.kind == "O" and leaf.low is not None and leaf.low <= upper)
    return next(admitted, None)


def settled_leaves(settler: Any, e: Expression, leaf: Any) -> Any:
    """The leaves that settling an open one leaves in its place."""
    outcome = settler.settle(leaf.box, max(0, settler.depth - leaf.length), leaf.length)
    if outcome[0] == "C":
        return [Leaf(e, "O", half, leaf.length + 1) for half in halves(*outcome[1:])]
    return [] if outcome[0] == "X" else [Leaf(e, outcome[0], outcome[1], leaf.length)]


def least(settler: Any, e: Expression, budget: int) -> Any:
    """(lower, (upper, point) or None, settled, done)"""
    leaves, settled = [Leaf(e, "O", settler.root, 0)], 0
    while True:
        found = best(leaves)
        i = next_leaf(leaves, POS_INF if found is None else found[0])
        if i is None or settled == budget:
            break
        leaves[i:i + 1] = settled_leaves(settler, e, leaves[i])
        settled += 1
    return min((leaf.low for leaf in leaves if leaf.low is not None), default=POS_INF), found, settled, i is None


def expression(system: Any, text: str) -> Expression:
    """The expression of a text over a system's variables."""
    return minibex.Reader(text).expression({name: ("var", i) for i, name in enumerate(system.names)})


def printed(lower: Value, found: Any) -> List[str]:
    """The lines that `least` prints."""
    if found is None:
        return [f"lower {spelling(lower)}", "upper none"]
    return [f"lower {spelling(lower)}", f"upper {spelling(found[0])}", " ".join(["point", *map(spelling, found[1])])]
