"""What can be asked of a paving, or of several that are put together: boxes, counts, volumes, hull, clusters."""
from __future__ import annotations

import math
from collections import namedtuple
from fractions import Fraction
from itertools import islice
from typing import (
    TYPE_CHECKING, Any, Dict, Iterable, Iterator, List, Mapping, Optional, Protocol, Sequence, Set, TextIO, Tuple, Union)

from .box import Box, Cluster, Exact, Number, exact_number, hull_of
from .numbers import INFINITE, as_float, wide
from .tree import Ends, Leaves, Tree, columns_of_ends

if TYPE_CHECKING:
    from .path import Path

KEPT = ("inner", "small", "open")
KINDS = (*KEPT, "removed")
LETTERS = {"inner": "I", "small": "S", "open": "O", "removed": "X"}
NAMED = {letter: kind for kind, letter in LETTERS.items()}
Node = namedtuple("Node", "kind box to variable")
Node.__doc__ = """A node: its class (or "cut"), its box and what it was contracted to, as texts; the variable of a cut."""
Name = Union[str, int]
Pairs = Tuple[Tuple[Exact, Exact], ...]
Point = Union[Sequence[Number], Mapping[str, Number]]


class Writer(Protocol):
    """What rows can be written to."""

    def write(self, text: str, /) -> object:
        """Takes a text."""


def kinds_of(names: Iterable[str]) -> Tuple[str, ...]:
    """The classes of these names; ValueError where one is none."""
    found = tuple(names)
    for name in found:
        if name not in KINDS:
            raise ValueError(f"there is no class {name!r}: {', '.join(KINDS)} are")
    return found


def slabs(box: Ends, to: Ends) -> Iterator[Ends]:
    """The parts of a box outside a box within it, as boxes that meet in their faces at most: two for each place."""
    rest = list(box)
    for k in range(0, len(box), 2):
        if rest[k] != to[k]:
            yield tuple(rest[:k + 1]) + (to[k],) + tuple(rest[k + 2:])
        if rest[k + 1] != to[k + 1]:
            yield tuple(rest[:k]) + (to[k + 1],) + tuple(rest[k + 1:])
        rest[k:k + 2] = to[k:k + 2]


class Cover:
    """The questions. A subclass has counts, roots, dims and names, and a tree, or boxes of its own; its answers are kept once
    they are worked out. A question that needs numbers reads and checks them all first: PavingError names the first line that
    is wrong."""
    names: Optional[List[str]]
    dims: Optional[int]

    root: Optional[Tuple[str, ...]] = None

    @property
    def _kept(self) -> Dict[Any, Any]:
        found: Dict[Any, Any] = self.__dict__.setdefault("_answers", {})
        return found

    @property
    def tree(self) -> Tree:
        """The nodes as flat lists: of a cover that has boxes of its own, these beside each other."""
        if "tree" not in self._kept:
            self._kept["tree"] = Leaves([(LETTERS[box.kind], box.words) for box in self.boxes()], self.dims or 0)
        found: Tree = self._kept["tree"]
        return found

    def need_root(self) -> None:
        """ValueError where the search box is not known."""
        if self.root is None:
            raise ValueError("this needs the search box: give root= or system=")

    def roots(self) -> Sequence[Cover]:
        """The pavings of which this one is made, or itself where it is made of none."""
        raise NotImplementedError

    def counts(self) -> Dict[str, int]:
        """How many nodes are settled, cut, removed, inner, small and open."""
        raise NotImplementedError

    def pieces(self) -> Iterable[Cover]:
        """The same, or where they are too large to be held at once their nodes in pieces, for questions that take one node
        after the other."""
        return self.roots()

    def search_boxes(self) -> List[Tuple[str, ...]]:
        """The search boxes that are known, as texts."""
        return [paving.root for paving in self.roots() if paving.root is not None]

    def boxes_known(self) -> bool:
        """Whether the search box is known."""
        return all(paving.root is not None for paving in self.roots())

    def nodes(self) -> Iterator[Node]:
        """Each node in preorder, of one paving after the other."""
        for paving in self.pieces():
            tree, variable = paving.tree, None
            words = tree.table.words
            for k, kind in enumerate(tree.kinds):
                box, to = tree.boxes[k], tree.tos[k]
                variable = tree.variables[k] if kind == "C" else None
                yield Node(NAMED.get(kind, "cut"), None if box is None else tuple([words[end] for end in box]),
                           None if to is None else tuple([words[end] for end in to]), variable)

    def boxes(self, *kinds: str) -> Iterator[Box]:
        """The boxes of some classes in preorder; with no class named, of all four. A removed node gives its whole box; what was
        cut off on the way to a node's ends is removed too, in boxes that meet in faces at most."""
        wanted = set(kinds_of(kinds) or KINDS)
        return self._boxes(wanted)

    def _boxes(self, wanted: Set[str]) -> Iterator[Box]:
        letters = {LETTERS[kind] for kind in wanted}
        for paving in self.pieces():
            tree, names = paving.tree, self.names
            table, removed = tree.table, "removed" in wanted
            if removed:
                paving.need_root()
            for kind, box, to in zip(tree.kinds, tree.boxes, tree.tos):
                if removed and box is not None:
                    if kind == "X":
                        yield Box.of("removed", table, box, names)
                    elif to is not None and to is not box:
                        for part in slabs(box, to):
                            yield Box.of("removed", table, part, names)
                if kind in letters and kind != "X":
                    ends = box if kind == "O" else to
                    if ends is not None:
                        yield Box.of(NAMED[kind], table, ends, names)
                    else:
                        paving.need_root()

    def inner(self) -> Iterator[Box]:
        """The boxes in which every rational point is in the set."""
        return self.boxes("inner")

    def small(self) -> Iterator[Box]:
        """The undecided boxes."""
        return self.boxes("small")

    def open(self) -> Iterator[Box]:
        """The boxes of the open leaves, of which nothing is said."""
        return self.boxes("open")

    def removed(self) -> Iterator[Box]:
        """The boxes in which no rational point is in the set."""
        return self.boxes("removed")

    def volumes(self) -> Dict[str, Exact]:
        """The exact volume of each class, and together that of the search box."""
        if "volumes" not in self._kept:
            found = [volumes_of(paving) for paving in self.roots()]
            self._kept["volumes"] = {kind: sum((each[kind] for each in found), Fraction(0)) for kind in KINDS}
        return dict(self._kept["volumes"])

    def hull(self, *kinds: str) -> Optional[Pairs]:
        """The least box around what is kept (inner, small, open), or around some classes; None where nothing is."""
        wanted = kinds_of(kinds) or KEPT
        key = ("hull", frozenset(wanted))
        if key not in self._kept:
            found = [hull for paving in self.pieces() for hull in [hull_in(paving, wanted)] if hull is not None]
            self._kept[key] = joined(found)
        hull: Optional[Pairs] = self._kept[key]
        return hull

    def floats_of_hull(self, *kinds: str) -> Optional[Tuple[Tuple[float, float], ...]]:
        """The hull as pairs of floats, rounded outward; None where nothing is kept."""
        found = self.hull(*kinds)
        return None if found is None else tuple((as_float(low, False), as_float(high, True)) for low, high in found)

    def widest(self, kind: str = "small") -> Optional[Box]:
        """The widest box of a class, the first among equals; None where there is none."""
        kinds_of([kind])
        key = ("widest", kind)
        if key not in self._kept:
            best: Optional[Box] = None
            most: Exact = Fraction(-1)
            for box in self.greatest(1, kind):
                if box.width > most:
                    best, most = box, box.width
            self._kept[key] = best
        widest: Optional[Box] = self._kept[key]
        return widest

    def greatest(self, count: int, *kinds: str) -> List[Box]:
        """The widest boxes of some classes (small ones, where none is named), the widest first and then in preorder."""
        from heapq import nlargest
        wanted, found = kinds_of(kinds) or ("small",), []
        for paving in self.pieces():
            if "removed" in wanted:
                found += nlargest(count, paving.boxes(*wanted), key=lambda box: box.width)
                continue
            table = paving.tree.table
            best = nlargest(count, kept_ends(paving, wanted), key=lambda pair: width_in(table.values, pair[1]))
            found += [Box.of(kind, table, ends, self.names) for kind, ends in best]
        return sorted(found, key=lambda box: -box.width)[:count]

    def clusters(self, *words: Union[str, Number, Sequence[str]], gap: Number = 0, kinds: Sequence[str] = ()) -> List[Cluster]:
        """The boxes of some classes (of what is kept, where none is named) in groups that touch: two touch where they are at
        most gap apart in each place. Words are classes, as for boxes; the gap may be among them."""
        from .clusters import clusters_of
        gaps = [word for word in words if not isinstance(word, str) and not isinstance(word, Sequence)]
        named = [kind for word in words if isinstance(word, Sequence) for kind in ([word] if isinstance(word, str) else word)]
        if len(gaps) > 1:
            raise ValueError("clusters take one gap")
        key = ("clusters", exact_number(gaps[0] if gaps else gap), kinds_of([*named, *kinds]) or KEPT)
        if key not in self._kept:
            self._kept[key] = clusters_of(self, key[1], key[2])
        return list(self._kept[key])

    def path(self, start: Point, goal: Point) -> Path:
        """A short way from one point to another through inner boxes alone, as exact points, or that there is none: see
        path.py."""
        from .path import path
        return path(self, start, goal)

    def point_of(self, point: Point) -> List[Exact]:
        """The exact numbers of a point in the order of the variables: numbers in this order, or a dict of names. ValueError
        where there are more or fewer than variables."""
        if isinstance(point, Mapping):
            numbers = {self.variable(name): exact_number(value) for name, value in point.items()}
            missing = [self.name_of(k) for k in range(self.dims or 0) if k not in numbers]
            if missing:
                raise ValueError(f"the point has no value for {', '.join(missing)}")
            return [numbers[k] for k in range(self.dims or 0)]
        found = [exact_number(value) for value in point]
        if len(found) != self.dims:
            raise ValueError(f"a point of {len(found)} numbers, where the paving has {self.dims} variables")
        return found

    def where(self, point: Point, *kinds: str) -> Set[str]:
        """The classes of all boxes that hold a point, ends included, or `outside` where it lies outside the search box; of some
        classes alone where they are named. Floats are taken exactly."""
        wanted, exact, found = kinds_of(kinds), self.point_of(point), set()
        for paving in self.pieces():
            paving.need_root()
            found |= classes_at(paving.tree, [paving.tree.table.place(x) for x in exact])
        if wanted:
            return found & set(wanted)
        return found or {"outside"}

    def variable(self, name: Name) -> int:
        """The number of a variable, given by its name or number; ValueError where there is none."""
        if isinstance(name, int) and not isinstance(name, bool):
            if not 0 <= name < (self.dims or 0):
                raise ValueError(f"there is no variable {name}")
            return name
        if self.names is None or name not in self.names:
            known = f": {', '.join(self.names)} are" if self.names else ""
            raise ValueError(f"there is no variable {name!r}{known}")
        return list(self.names).index(str(name))

    def name_of(self, variable: int) -> str:
        """The name of a variable, given by its number; v0, v1, .. where names are not known."""
        return self.names[variable] if self.names else f"v{variable}"

    def names_known(self) -> List[str]:
        """The names of all variables."""
        return [self.name_of(k) for k in range(self.dims or 0)]

    def slice(self, at: Mapping[Name, Number], kinds: Sequence[str] = ()) -> Iterator[Box]:
        """The boxes seen where some variables have given values: at is a dict of names and exact values. ValueError where a
        value lies outside the search box: of what is there nothing is said."""
        wanted = set(kinds_of(kinds) or KINDS)
        fixed = {self.variable(name): exact_number(value) for name, value in at.items()}
        self.need_within(fixed)
        return self._sliced(fixed, wanted)

    def _sliced(self, fixed: Dict[int, Exact], wanted: Set[str]) -> Iterator[Box]:
        for paving in self.pieces():
            tree, table = paving.tree, paving.tree.table
            places = {k: table.place(value) for k, value in fixed.items()}

            def is_seen(ends: Ends, places: Dict[int, float] = places) -> bool:
                return all(ends[2 * k] <= place <= ends[2 * k + 1] for k, place in places.items())

            for k in tree.seen(places):
                kind, box, to = tree.kinds[k], tree.boxes[k], tree.tos[k]
                if "removed" in wanted and box is not None:
                    parts = [box] if kind == "X" else [] if to is None or to is box else slabs(box, to)
                    yield from (Box.of("removed", table, part, self.names) for part in parts if is_seen(part))
                if kind in "ISO" and NAMED[kind] in wanted:
                    ends = box if kind == "O" else to
                    if ends is not None and is_seen(ends):
                        yield Box.of(NAMED[kind], table, ends, self.names)

    def need_within(self, fixed: Mapping[int, Exact]) -> None:
        """ValueError where a value of a variable lies outside the search box."""
        known = [Box("open", root).exact for root in self.search_boxes()]
        for k, value in fixed.items():
            if known and not any(root[k][0] <= value <= root[k][1] for root in known):
                low, high = min(root[k][0] for root in known), max(root[k][1] for root in known)
                raise ValueError(f"{self.name_of(k)} = {shown(value)} lies outside the search box, whose ends are {shown(low)} "
                                 f"and {shown(high)}: of what is there nothing is said")

    # ---- rows

    def write_csv(self, file: Writer, kinds: Sequence[str] = KEPT, exactly: bool = False) -> None:
        """Writes a box a row to an open text file: its class, then its ends as floats that are rounded outward, or with exactly
        as fractions p/q."""
        from .rows import csv_rows
        rows = csv_rows(self, kinds_of(kinds), exactly)
        while True:
            some = list(islice(rows, 10000))
            if not some:
                return
            file.write("".join(some))

    def numpy(self, *kinds: str, exactly: bool = False) -> Any:
        """The boxes of some classes (of what is kept, where none is named) as a numpy array of shape (boxes, variables, 2):
        floats rounded outward, or with exactly objects that are Fractions. ImportError without numpy."""
        from .rows import numpy_of
        return numpy_of(self, kinds_of(kinds) or KEPT, exactly)

    def frame(self, *kinds: str, exactly: bool = False) -> Any:
        """The same as a pandas DataFrame with the columns of write_csv. ImportError without pandas."""
        from .rows import frame_of
        return frame_of(self, kinds_of(kinds) or KEPT, exactly)

    # ---- notebooks

    def _repr_svg_(self) -> Optional[str]:
        from .notebook import svg_of
        return svg_of(self)

    def _repr_html_(self) -> str:
        from .notebook import html_of
        return html_of(self, self._title())

    def _title(self) -> str:
        return repr(self)


def shown(value: Exact) -> str:
    """An exact value in few characters for people."""
    if isinstance(value, float) or value.denominator == 1 and abs(value) < 10 ** 12:
        return str(value)
    return wide(value)


def kept_ends(paving: Cover, wanted: Sequence[str]) -> List[Tuple[str, Ends]]:
    """The class and ends of each kept box of one paving, in preorder. Where the root's box is not known, it is none."""
    tree, letters = paving.tree, {LETTERS[kind] for kind in wanted}
    return [(NAMED[kind], ends) for kind, box, to in zip(tree.kinds, tree.boxes, tree.tos) if kind in letters
            for ends in [box if kind == "O" else to] if ends is not None]


def width_in(values: Sequence[int], ends: Ends) -> int:
    """The width of the widest place of ends, as a whole number; infinite ones are wider than every other."""
    widest = max([values[ends[k + 1]] - values[ends[k]] for k in range(0, len(ends), 2)])
    return min(widest, INFINITE >> 1)


def volumes_of(paving: Cover) -> Dict[str, Exact]:
    """The volumes of one paving: what is removed is what the kept boxes leave of the search box, as its parts meet in faces
    alone; where an end is infinite each part is measured by itself."""
    paving.need_root()
    tree, dims = paving.tree, paving.dims or 0
    if tree.table.has_infinite or isinstance(tree, Leaves):
        found: Dict[str, Exact] = dict.fromkeys(KINDS, Fraction(0))
        for box in paving.boxes():
            found[box.kind] += box.volume
        return found
    kept, root = kept_volumes(tree), tree.boxes[0]
    assert root is not None
    whole = Fraction(volume_sum(tree.table.values, [root], dims), 1 << tree.table.shift * dims)
    return {**kept, "removed": whole - sum(kept.values())}


def kept_volumes(tree: Tree) -> Dict[str, Fraction]:
    """The volumes of what is kept of bounded nodes."""
    unit = 1 << tree.table.shift * tree.dims
    return {kind: Fraction(volume_sum(tree.table.values, tree.ends_of(LETTERS[kind]), tree.dims), unit) for kind in KEPT}


def volume_sum(values: Sequence[int], boxes: Sequence[Ends], dims: int) -> int:
    """The sum of the volumes of boxes, in units."""
    if dims == 2:
        return sum([(values[b] - values[a]) * (values[d] - values[c]) for a, b, c, d in boxes])
    if dims == 3:
        return sum([(values[b] - values[a]) * (values[d] - values[c]) * (values[f] - values[e]) for a, b, c, d, e, f in boxes])
    places = range(0, 2 * dims, 2)
    return sum([math.prod([values[ends[k + 1]] - values[ends[k]] for k in places]) for ends in boxes])


def hull_in(paving: Cover, wanted: Sequence[str]) -> Optional[Pairs]:
    """The hull of some classes of one paving."""
    if "removed" in wanted:
        return hull_of(paving.boxes(*wanted))
    boxes = [ends for kind in wanted for ends in paving.tree.ends_of(LETTERS[kind]) if ends is not None]
    if not boxes:
        return None
    exact, columns = paving.tree.table.exact, columns_of_ends(boxes)
    return tuple((exact(min(columns[k])), exact(max(columns[k + 1]))) for k in range(0, len(columns), 2))


def joined(hulls: Sequence[Pairs]) -> Optional[Pairs]:
    """The least box around hulls."""
    if not hulls:
        return None
    return tuple((min(pair[0] for pair in place), max(pair[1] for pair in place)) for place in zip(*hulls))


def classes_at(tree: Tree, point: Sequence[float]) -> Set[str]:
    """The classes of the boxes of a tree that hold a point, given by its places among the ends."""
    found: Set[str] = set()
    places, waiting = range(len(point)), list(tree.starts)
    while waiting:
        k = waiting.pop()
        box, kind, to = tree.boxes[k], tree.kinds[k], tree.tos[k]
        assert box is not None
        if any(point[i] < box[2 * i] or point[i] > box[2 * i + 1] for i in places):
            continue
        if to is None:
            found.add(NAMED[kind])
            continue
        if to is not box and not reaches(point, box, to, found):
            continue
        if kind == "C":
            waiting += tree.halves(k)
        else:
            found.add(NAMED[kind])
    return found


def reaches(point: Sequence[float], box: Ends, to: Ends, found: Set[str]) -> bool:
    """Whether a point of a box lies in what it was contracted to; `removed` is found where it lies in a part cut off."""
    for k, place in enumerate(point):
        low, high = to[2 * k], to[2 * k + 1]
        if place <= low != box[2 * k] or place >= high != box[2 * k + 1]:
            found.add("removed")
        if not low <= place <= high:
            return False
    return True


__all__ = ["Box", "Cluster", "Cover", "KEPT", "KINDS", "Node", "TextIO", "hull_of", "slabs"]
