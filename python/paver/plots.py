"""Plots of two variables, with matplotlib where it is installed. What is drawn is worked out without it."""
from __future__ import annotations

from typing import TYPE_CHECKING, Any, Dict, Iterable, Iterator, List, Mapping, Optional, Sequence, Tuple

from .box import Box, Number, hull_of
from .cover import KEPT, KINDS, LETTERS, Name, kept_ends, kinds_of
from .numbers import as_float
from .tree import without_collection

if TYPE_CHECKING:
    from .cover import Cover

FILL = {"removed": "#cfd8dc", "inner": "#43a047", "small": "#fdd835", "open": "#ffffff"}
PAINTED = ("removed", "open", "small", "inner")  # in this order: inner boxes lie on top
Pair = Tuple[float, float]
Rectangle = Tuple[Pair, Pair]
Shown = Tuple[str, Pair, Pair]


class PlotsMissing(ImportError):
    """matplotlib is not installed."""


def two_variables(cover: Cover, x: Name, y: Name) -> Tuple[int, int]:
    """The numbers of two variables; ValueError where they are one."""
    first, second = cover.variable(x), cover.variable(y)
    if first == second:
        raise ValueError(f"a picture takes two variables, and both are {cover.name_of(first)}")
    return first, second


def rectangles(cover: Cover, x: Name, y: Name, at: Optional[Mapping[Name, Number]] = None,
               kinds: Sequence[str] = ()) -> Iterator[Shown]:
    """What a slice shows: (class, (x low, x high), (y low, y high)) as floats that are rounded outward, of each box
    that is seen where the other variables have the values of the dict `at`. Every other variable needs a value within the
    search box. With kinds the boxes of these classes alone are shown."""
    values = {cover.variable(name): value for name, value in (at or {}).items()}
    first, second = two_variables(cover, x, y)
    others = set(range(cover.dims or 0)) - {first, second}
    if set(values) != others:
        missing = ", ".join(cover.name_of(k) for k in sorted(others ^ set(values)))
        raise ValueError(f"a slice takes two variables and a value (at) for each other one, and no more: look at {missing}; "
                         "a projection takes two variables alone")
    wanted = kinds_of(kinds) or KINDS
    if not others and "removed" not in wanted:
        return (shown for paving in cover.pieces() for shown in kept_rectangles(paving, wanted, first, second))
    seen = cover.slice({k: value for k, value in values.items()}, wanted)
    return ((box.kind, floats[first], floats[second]) for box in seen for floats in [box.floats])


def kept_rectangles(paving: Cover, kinds: Sequence[str], x: int, y: int) -> Iterator[Shown]:
    """The kept boxes of one paving in two variables, in order."""
    lows, highs = paving.tree.table.floats(False), paving.tree.table.floats(True)
    a, b, c, d = 2 * x, 2 * x + 1, 2 * y, 2 * y + 1
    return ((kind, (lows[ends[a]], highs[ends[b]]), (lows[ends[c]], highs[ends[d]])) for kind, ends in kept_ends(paving, kinds))


def projection(cover: Cover, x: Name, y: Name, kinds: Sequence[str] = KEPT) -> Iterator[Shown]:
    """What the projection on two variables shows: the same of each kept box, inner ones last, so that they lie on top.
    With a point in the shadow of an inner box some values of the other variables are in the set, with one in no shadow
    none are."""
    first, second = two_variables(cover, x, y)
    wanted = sorted(kinds_of(kinds), key=PAINTED.index)
    return (shadow for kind in wanted for paving in cover.roots() for shadow in shadows_of(paving, kind, first, second))


def shadows_of(paving: Cover, kind: str, x: int, y: int) -> Iterator[Shown]:
    """The distinct shadows of one paving's boxes of a class."""
    if kind == "removed":
        yield from dict.fromkeys((kind, box.floats[x], box.floats[y]) for box in paving.boxes(kind))
        return
    table = paving.tree.table
    seen = dict.fromkeys([(ends[2 * x], ends[2 * x + 1], ends[2 * y], ends[2 * y + 1])
                          for ends in paving.tree.ends_of(LETTERS[kind]) if ends is not None])
    lows, highs = table.floats(False), table.floats(True)
    for a, b, c, d in seen:
        yield kind, (lows[a], highs[b]), (lows[c], highs[d])


def axes_of(cover: Cover, x: Name, y: Name, near: bool = False) -> Tuple[Pair, Pair]:
    """The ends of the two axes: those of the search box; of what is kept where that box is unknown, or with near."""
    first, second = cover.variable(x), cover.variable(y)
    known = cover.boxes_known() and not near
    hull = hull_of(Box("open", paving.root) for paving in cover.roots() if paving.root) if known else cover.hull()
    if hull is None:
        raise ValueError("nothing is kept to draw" if near else "nothing is kept, and the search box is not known")
    return ((as_float(hull[first][0], False), as_float(hull[first][1], True)),
            (as_float(hull[second][0], False), as_float(hull[second][1], True)))


def finite(rectangles: Sequence[Rectangle], axes: Sequence[Pair]) -> Sequence[Rectangle]:
    """Rectangles whose infinite ends are moved to the edge of the picture."""
    (left, right), (bottom, top) = axes
    if all(left <= a and b <= right and bottom <= c and d <= top for (a, b), (c, d) in rectangles):
        return rectangles
    return [((max(a, left), min(b, right)), (max(c, bottom), min(d, top))) for (a, b), (c, d) in rectangles]


def drawing() -> Tuple[Any, Any, Any]:
    """What is used of matplotlib."""
    try:
        import matplotlib.pyplot as pyplot  # type: ignore[import]
        from matplotlib.collections import PolyCollection  # type: ignore[import]
        from matplotlib.patches import Patch  # type: ignore[import]
    except ImportError as fault:
        raise PlotsMissing("plots need matplotlib: python3 -m pip install matplotlib") from fault
    return pyplot, PolyCollection, Patch


def draw(cover: Cover, x: Name, y: Name, shown: Iterator[Shown], ax: Any, title: Optional[str], equal: bool,
         near: bool) -> Any:
    """Draws rectangles into axes: one collection a class."""
    pyplot, collection, patch = drawing()
    axes = finite_axes(axes_of(cover, x, y, near))
    groups = grouped(shown)
    ax = ax or pyplot.gca()
    with without_collection():
        for kind, pairs in groups.items():
            style = {"facecolors": FILL[kind], "edgecolors": "#90a4ae", "linewidths": 0.3}
            ax.add_collection(collection(corners_of(finite(pairs, axes)), **style), autolim=False)
    ax.set_facecolor(FILL["removed"])
    ax.set_xlim(*axes[0])
    ax.set_ylim(*axes[1])
    ax.set_xlabel(cover.name_of(cover.variable(x)))
    ax.set_ylabel(cover.name_of(cover.variable(y)))
    if equal:
        ax.set_aspect("equal")
    if title:
        ax.set_title(title)
    classes = [patch(facecolor=color, edgecolor="#90a4ae", label=kind) for kind, color in FILL.items()]
    ax.legend(handles=classes, loc="upper left", bbox_to_anchor=(1.02, 1), borderaxespad=0)  # beside the picture
    return ax


def corners_of(rectangles: Sequence[Rectangle]) -> Any:
    """The four corners of each rectangle as one array, of which matplotlib makes a path in a quarter of the time."""
    import numpy
    ends = numpy.array(rectangles, dtype=float)
    return numpy.stack([ends[:, 0, [0, 1, 1, 0]], ends[:, 1, [0, 0, 1, 1]]], axis=2)


def finite_axes(axes: Sequence[Pair]) -> List[Pair]:
    """Axes for a picture: an infinite end becomes ten beyond the other end or beyond 0."""
    low_high = []
    for low, high in axes:
        low = low if low > float("-inf") else min(high if high < float("inf") else 0, 0) - 10
        high = high if high < float("inf") else max(low, 0) + 10
        low_high.append((low, high))
    return low_high


def grouped(shown: Iterable[Shown]) -> Dict[str, List[Rectangle]]:
    """The rectangles of each class, in the order in which the classes are painted."""
    found: Dict[str, List[Rectangle]] = {kind: [] for kind in PAINTED}
    with without_collection():
        for kind, x, y in shown:
            found[kind].append((x, y))
    return {kind: pairs for kind, pairs in found.items() if pairs}


def plot(cover: Cover, x: Name = 0, y: Name = 1, at: Optional[Mapping[Name, Number]] = None, ax: Any = None,
         title: Optional[str] = None, equal: bool = True, near: bool = False) -> Any:
    """Draws a slice into matplotlib axes (the current ones where none are given) and gives them. Inner boxes are
    green, small ones yellow, open leaves white, removed parts grey. Scales are equal unless equal is False; with near
    the axes end where what is kept ends. The legend lies beside the axes: savefig takes it with bbox_inches="tight".
    ValueError where a value of `at` lies outside the search box; PlotsMissing without matplotlib."""
    return draw(cover, x, y, rectangles(cover, x, y, at, KEPT), ax, title, equal, near)


def plot_projection(cover: Cover, x: Name = 0, y: Name = 1, ax: Any = None, title: Optional[str] = None, equal: bool = True,
                    near: bool = False) -> Any:
    """Draws the projection of what is kept on two variables: green says that some values of the other variables are in
    the set, grey that none are."""
    return draw(cover, x, y, projection(cover, x, y), ax, title, equal, near)
