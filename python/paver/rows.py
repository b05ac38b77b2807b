"""Boxes as rows: of CSV texts, numpy arrays and pandas frames."""
from __future__ import annotations

from typing import TYPE_CHECKING, Any, Iterator, List, Sequence

from .cover import KINDS, kept_ends
from .tree import columns_of_ends

if TYPE_CHECKING:
    from .cover import Cover


def columns_of(cover: Cover) -> List[str]:
    """The names of the columns: the class, and each variable's two ends."""
    return ["class", *(f"{name}_{side}" for name in cover.names_known() for side in ("low", "high"))]


def csv_rows(cover: Cover, kinds: Sequence[str], exactly: bool) -> Iterator[str]:
    """The lines of a CSV file. No word of them needs quotes: names are letters, digits and `_`."""
    yield ",".join(columns_of(cover)) + "\n"
    for paving in cover.pieces():
        if "removed" in (kinds or KINDS) or exactly:
            for box in paving.boxes(*kinds):
                pairs = box.exact if exactly else box.floats
                yield ",".join([box.kind, *[str(end) if exactly else repr(end) for pair in pairs for end in pair]]) + "\n"
            continue
        yield from kept_rows(paving, kinds)


def kept_rows(paving: Cover, kinds: Sequence[str]) -> Iterator[str]:
    """The lines of the kept boxes of one paving, whose numbers are spelled a column at a time."""
    found, spelled = kept_ends(paving, kinds), paving.tree.table.spelled
    columns = enumerate(columns_of_ends([ends for _, ends in found]))
    words = [map(spelled(k % 2 == 1).__getitem__, column) for k, column in columns]
    return map("{}\n".format, map(",".join, zip([kind for kind, _ in found], *words)))


def numpy_of(cover: Cover, kinds: Sequence[str], exactly: bool) -> Any:
    """An array of shape (boxes, variables, 2)."""
    import numpy
    dims = cover.dims or 0
    if exactly:
        found = numpy.empty((sum(1 for _ in cover.boxes(*kinds)), dims, 2), dtype=object)
        for k, box in enumerate(cover.boxes(*kinds)):
            found[k] = box.exact
        return found
    arrays = [floats_of(paving, kinds, dims) for paving in cover.pieces()]
    return numpy.concatenate(arrays) if arrays else numpy.empty((0, dims, 2))


def floats_of(paving: Cover, kinds: Sequence[str], dims: int) -> Any:
    """The array of one paving, in floats that are rounded outward."""
    import numpy
    if "removed" in kinds:
        return numpy.array([box.floats for box in paving.boxes(*kinds)], dtype=float).reshape(-1, dims, 2)
    table = paving.tree.table
    ends = numpy.array([ends for _, ends in kept_ends(paving, kinds)], dtype=numpy.int64).reshape(-1, dims, 2)
    sides = [numpy.array(table.floats(up), dtype=float) for up in (False, True)]
    return numpy.stack([side[ends[:, :, k]] for k, side in enumerate(sides)], axis=2)


def frame_of(cover: Cover, kinds: Sequence[str], exactly: bool) -> Any:
    """A pandas DataFrame with a row a box and the columns of the CSV."""
    import pandas  # type: ignore[import]
    array = numpy_of(cover, kinds, exactly)
    classes = [kind for paving in cover.pieces() for kind in classes_of(paving, kinds)]
    frame = pandas.DataFrame(array.reshape(len(classes), -1), columns=columns_of(cover)[1:])
    frame.insert(0, "class", pandas.Categorical(classes, categories=list(KINDS)))
    return frame


def classes_of(paving: Cover, kinds: Sequence[str]) -> List[str]:
    """The class of each box, in order."""
    if "removed" in kinds:
        return [box.kind for box in paving.boxes(*kinds)]
    return [kind for kind, _ in kept_ends(paving, kinds)]
