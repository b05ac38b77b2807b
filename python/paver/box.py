"""Boxes of a class with exact ends, and groups of them."""
from __future__ import annotations

import math
import numbers as abstract
from decimal import Decimal
from fractions import Fraction
from typing import Any, Dict, Iterable, Iterator, List, Optional, Sequence, Tuple, Union

from .numbers import INFINITE, SCALE, counted, exact, exact_of_grid, float_of, grid, width
from .tree import Ends, Table, columns_of_ends

Exact = Union[Fraction, float]
Number = Union[int, float, Fraction, Decimal, str]
Pair = Tuple[Exact, Exact]


def exact_number(value: Any) -> Exact:
    """A number of any kind as a Fraction, a float as what it is exactly; infinite floats stay. ValueError where it is none."""
    if type(value) is Fraction:
        return value
    if isinstance(value, bool) or not isinstance(value, (abstract.Number, Decimal, str)):
        raise ValueError(f"{value!r} is no number")
    try:
        number = value if isinstance(value, (Fraction, int, str, Decimal)) else \
            value if isinstance(value, abstract.Rational) else float(value)  # type: ignore[arg-type]
        if isinstance(number, float) and math.isinf(number):
            return number
        return Fraction(number)
    except (ValueError, TypeError, ZeroDivisionError, OverflowError) as fault:
        raise ValueError(f"{value!r} is no number") from fault


class Box:
    """A box of a class: words are the texts of its ends, low and high in turn. box[0], or box["x"] where names are known, is
    the pair of exact ends of a variable; `point in box` asks whether a point lies in the closed box. Boxes are equal where
    their classes and ends are."""
    __slots__ = ("kind", "names", "_words", "_table", "_ends")

    def __init__(self, kind: str, words: Iterable[str], names: Optional[Sequence[str]] = None) -> None:
        self.kind, self.names = kind, names
        self._words: Optional[Tuple[str, ...]] = tuple(words)
        self._table: Optional[Table] = None
        self._ends: Ends = ()

    @classmethod
    def of(cls, kind: str, table: Table, ends: Ends, names: Optional[Sequence[str]] = None) -> Box:
        """A box by the places of its ends in a table of numbers."""
        box = cls.__new__(cls)
        box.kind, box.names, box._words, box._table, box._ends = kind, names, None, table, ends
        return box

    @property
    def words(self) -> Tuple[str, ...]:
        """The texts of the ends."""
        if self._words is None:
            assert self._table is not None
            words = self._table.words
            self._words = tuple([words[end] for end in self._ends])
        return self._words

    @property
    def exact(self) -> Tuple[Pair, ...]:
        """Pairs of Fractions; an infinite end is ±math.inf."""
        values = list(map(exact, self.words)) if self._table is None else list(map(self._table.exact, self._ends))
        return tuple(zip(values[::2], values[1::2]))

    @property
    def floats(self) -> Tuple[Tuple[float, float], ...]:
        """Pairs of floats, rounded outward."""
        if self._table is None:
            values = [float_of(word, k % 2 == 1) for k, word in enumerate(self.words)]
            return tuple(zip(values[::2], values[1::2]))
        lows, highs, ends = self._table.floats(False), self._table.floats(True), self._ends
        return tuple([(lows[ends[k]], highs[ends[k + 1]]) for k in range(0, len(ends), 2)])

    @property
    def grid(self) -> Tuple[Tuple[int, int], ...]:
        """Pairs of grid forms: see numbers.py."""
        values = [grid(word) for word in self.words]
        return tuple(zip(values[::2], values[1::2]))

    @property
    def width(self) -> Exact:
        """The exact width of its widest place."""
        return exact_of_grid(max(width(*pair) for pair in self.grid))

    @property
    def volume(self) -> Exact:
        """The exact volume; 0 where a place is one point, even beside an infinite one."""
        widths = [width(*pair) for pair in self.grid]
        if 0 in widths:
            return Fraction(0)
        if INFINITE in widths:
            return math.inf
        return Fraction(math.prod(widths), 1 << (SCALE * len(widths)))

    @property
    def centre(self) -> Tuple[Fraction, ...]:
        """The middle of each place, exactly; ValueError where one is unbounded."""
        found: List[Fraction] = []
        for low, high in self.exact:
            if isinstance(low, float) or isinstance(high, float):
                raise ValueError("an unbounded box has no centre")
            found.append((low + high) / 2)
        return tuple(found)

    def holds(self, point: Sequence[Number]) -> bool:
        """Whether a point lies in the closed box; ValueError where it has another number of variables."""
        exact_point = [x if type(x) is Fraction else exact_number(x) for x in point]
        if len(exact_point) != len(self):
            raise ValueError(f"a point of {len(exact_point)} numbers, where the box has {len(self)} variables")
        return all(low <= x <= high for x, (low, high) in zip(exact_point, self.exact))

    def __contains__(self, point: Sequence[Number]) -> bool:
        return self.holds(point)

    def __len__(self) -> int:
        return len(self._ends if self._words is None else self._words) // 2

    def __getitem__(self, variable: Union[int, str]) -> Pair:
        if isinstance(variable, str):
            if not self.names or variable not in self.names:
                raise KeyError(variable)
            variable = list(self.names).index(variable)
        return self.exact[variable]

    def __iter__(self) -> Iterator[Pair]:
        return iter(self.exact)

    def __eq__(self, other: object) -> bool:
        return isinstance(other, Box) and self.kind == other.kind and self.words == other.words

    def __hash__(self) -> int:
        return hash((self.kind, self.words))

    def __repr__(self) -> str:
        return f"<{self.kind} {' x '.join(f'[{low:.6g}, {high:.6g}]' for low, high in self.floats)}>"


class Cluster:
    """Boxes that touch: .boxes, and their .hull as pairs of Fractions."""

    def __init__(self, boxes: Sequence[Box]) -> None:
        self.boxes = list(boxes)
        hull = hull_of(self.boxes)
        assert hull is not None
        self.hull: Tuple[Pair, ...] = hull

    def __len__(self) -> int:
        return len(self.boxes)

    def __repr__(self) -> str:
        boxes = counted(len(self.boxes), "box", "boxes")
        return f"<cluster of {boxes} in {' x '.join(f'[{float(a):.6g}, {float(b):.6g}]' for a, b in self.hull)}>"


def hull_of(boxes: Iterable[Box]) -> Optional[Tuple[Pair, ...]]:
    """The least box around some, as pairs of exact values; None where there are none. Boxes of one table of numbers are
    compared by the places of their ends there."""
    groups: Dict[int, Tuple[Table, List[Ends]]] = {}
    found: List[Sequence[str]] = []
    for box in boxes:
        if box._table is None:
            found.append(box.words)
        else:
            groups.setdefault(id(box._table), (box._table, []))[1].append(box._ends)
    for table, group in groups.values():
        columns = enumerate(columns_of_ends(group))
        found.append([table.words[max(column) if k % 2 else min(column)] for k, column in columns])
    columns_of_grids = [[grid(word) for word in column] for column in zip(*found)]
    pairs = zip(columns_of_grids[::2], columns_of_grids[1::2])
    return tuple((exact_of_grid(min(lows)), exact_of_grid(max(highs))) for lows, highs in pairs) if found else None
