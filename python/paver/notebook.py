"""What a cell of a notebook shows of a paving: a picture of bounded size, and a summary."""
from __future__ import annotations

from html import escape
from typing import TYPE_CHECKING, Any, Dict, Iterable, List, Optional, Sequence

from .numbers import as_float
from .picture import SIZE, picture_of
from .plots import FILL, PAINTED, Shown, axes_of, finite_axes, grouped, projection

if TYPE_CHECKING:
    from .cover import Cover
    from .tree import Tree

MOST = 6000  # rectangles of a picture


def svg_of(cover: Cover) -> Optional[str]:
    """The picture on the first two variables, in more than two the projection; None where there is nothing to draw. What is
    smaller than some pixels is drawn as one undecided rectangle, so that the picture stays small."""
    if (cover.dims or 0) < 2 or not cover.boxes_known():
        return None
    pixels = 1.0
    shown = grouped(coarse(cover, pixels))
    while sum(map(len, shown.values())) > MOST:
        pixels *= 1.5
        shown = grouped(coarse(cover, pixels))
    return picture_of(cover, (0, 1), shown)


def coarse(cover: Cover, pixels: float) -> Iterable[Shown]:
    """The rectangles of the projection on the first two variables, where what is kept in a part smaller than this is drawn as
    one small box around it. Of few boxes each is drawn as it is."""
    counts = cover.counts()
    if counts["inner"] + counts["small"] + counts["open"] <= MOST:
        return projection(cover, 0, 1)
    axes = finite_axes(axes_of(cover, 0, 1))
    least = [pixels * (high - low) / SIZE for low, high in axes]
    return dict.fromkeys(rectangle for paving in cover.roots() for rectangle in coarse_of(paving, least))


def coarse_of(paving: Cover, least: Sequence[float]) -> List[Shown]:
    """The same of one paving."""
    tree, found = paving.tree, []
    lows, highs = tree.table.floats(False), tree.table.floats(True)
    kept, waiting = kept_below(tree), list(tree.starts)
    while waiting:
        k = waiting.pop()
        kind, ends = tree.kinds[k], tree.boxes[k] if tree.kinds[k] in "XO" else tree.tos[k]
        if not kept[k] or ends is None:
            continue
        x, y = (lows[ends[0]], highs[ends[1]]), (lows[ends[2]], highs[ends[3]])
        if kind == "C" and (x[1] - x[0] > least[0] or y[1] - y[0] > least[1]):
            waiting += (tree.high[k], k + 1)
        else:
            found.append(({"I": "inner", "O": "open"}.get(kind, "small"), x, y))
    return found


def kept_below(tree: Tree) -> List[bool]:
    """Whether something is kept at or below each node."""
    found = [kind in "ISO" for kind in tree.kinds]
    for k in range(len(found) - 1, -1, -1):
        if tree.kinds[k] == "C":
            found[k] = found[k + 1] or found[tree.high[k]]
    return found


def html_of(cover: Cover, title: str, sentences: Sequence[str] = ()) -> str:
    """A summary and the picture."""
    rows = [summary_row(cover, kind, count) for kind, count in cover.counts().items() if kind in FILL]
    table = "<table><tr><th>class</th><th>boxes</th><th>volume</th></tr>" + "".join(rows) + "</table>"
    notes = "".join(f"<p>{escape(sentence)}</p>" for sentence in sentences)
    return f"<div><p>{escape(title)}</p>{table}{notes}{svg_of(cover) or ''}</div>"


def summary_row(cover: Cover, kind: str, count: int) -> str:
    """The row of a class."""
    volumes: Dict[str, Any] = cover.volumes() if cover.boxes_known() else {}
    volume = f"{as_float(volumes[kind], False):.6g}" if volumes else ""
    return f"<tr><td>{kind}</td><td>{count}</td><td>{volume}</td></tr>"


__all__ = ["PAINTED", "html_of", "svg_of"]
