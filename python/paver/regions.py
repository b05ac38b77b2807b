"""A box in regions, from boxes that lie on it: where none lies, where one that refutes covers, and the rest."""
from __future__ import annotations

from collections.abc import Callable, Iterator, Sequence
from typing import Any, NamedTuple, Tuple

Ends = Tuple[int, ...]  # low and high end of each place in turn, in grid form: see numbers.py


class Item(NamedTuple):
    """A box, and what may refute all of it; None where nothing does."""
    ends: Ends
    refuter: Any = None


def meets(item: Ends, cell: Ends) -> bool:
    """Whether a box meets a cell in more than a face; a cell that is one point in a place is met there by its number."""
    for k in range(0, len(cell), 2):
        low, high = cell[k], cell[k + 1]
        if low == high:
            if not item[k] <= low <= item[k + 1]:
                return False
        elif item[k] >= high or item[k + 1] <= low:
            return False
    return True


def covers(item: Ends, cell: Ends) -> bool:
    return all(item[k] <= cell[k] and cell[k + 1] <= item[k + 1] for k in range(0, len(cell), 2))


def cut_of(cell: Ends, items: Sequence[Item]) -> tuple[int, int] | None:
    """A place and a number of a face of some item that lies within the cell: the middle one of the place with the most."""
    best: tuple[int, list[int]] | None = None
    for k in range(0, len(cell), 2):
        faces = [end for item in items for end in item.ends[k:k + 2] if cell[k] < end < cell[k + 1]]
        if faces and (best is None or len(faces) > len(best[1])):
            best = k, faces
    return None if best is None else (best[0], sorted(best[1])[len(best[1]) // 2])


def halves_of(cell: Ends, place: int, at: int) -> tuple[Ends, Ends]:
    return cell[:place + 1] + (at,) + cell[place + 2:], cell[:place] + (at,) + cell[place + 1:]


def regions(root: Ends, items: Sequence[Item], witness_of: Callable[[Ends, Any], Any]) -> Iterator[tuple[str, Ends, Any]]:
    """The cells of a box, which meet in faces at most: ("sure", cell, None) where no item lies, ("refuted", cell, witness),
    and ("rest", cell, None)."""
    waiting = [(root, [item for item in items if meets(item.ends, root)])]
    while waiting:
        cell, near = waiting.pop()
        if not near:
            yield "sure", cell, None
            continue
        covering = [item for item in near if covers(item.ends, cell)]
        found = (witness_of(cell, item.refuter) for item in covering if item.refuter is not None)
        witness = next((one for one in found if one is not None), None)
        if witness is not None:
            yield "refuted", cell, witness
            continue
        if covering:  # nothing is sure here, so what may refute a part alone matters
            near = [item for item in near if item.refuter is not None and item not in covering]
        cut = cut_of(cell, near)
        if cut is None:
            yield "rest", cell, None
            continue
        for half in reversed(halves_of(cell, *cut)):
            waiting.append((half, [item for item in near if meets(item.ends, half)] + covering[:1]))
