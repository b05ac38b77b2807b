"""For which values of two variables is some value of the others in the set, and for which is none?

Kept boxes are closed, and with the removed parts they fill the search box. So a rational point of the plane within the shadow
of an inner box has a value of the other variables with which it is in the set. One in the shadow of no kept box has none in the
search box: removed parts cover all its fibre. Of every other point nothing is said.

The plane is cut in two, at ends of shadows, until each cell is of one kind, as Overmars and Yap measure unions of boxes (New
upper bounds in Klee's measure problem, SIAM J. Comput. 20, 1991). Ends are compared by their places among the paving's numbers,
so that nothing is rounded.
"""
from __future__ import annotations

import csv
from dataclasses import dataclass
from itertools import islice
from typing import TYPE_CHECKING, Any, Dict, Iterator, List, Optional, Set, TextIO, Tuple

from .canonical import System
from .cover import KEPT, LETTERS, Name
from .numbers import Exact, as_float
from .paving import Paving
from .plots import two_variables
from .tree import Table, without_collection

if TYPE_CHECKING:
    from .cover import Cover

SHOWN = {"some": "inner", "none": "removed", "rest": "small"}  # the kinds by the classes of the plane's paving
Shadow = Tuple[int, int, int, int]  # the places of both ends of x, then of y
Cut = Tuple[int, int]  # a variable of the plane, 0 or 1, and the place where it is cut
SAMPLE = 8  # shadows that are looked at to find a cut
FEW = 4  # shadows whose hull is cut off first
PEELED = 100  # cuts above a cell below which no hull is cut off, so that the way to a cell stays below the limit of 200


@dataclass
class Cell:
    """A part of the plane with the shadows that meet it, clipped to it. is_covered says that a kept box covers it."""
    box: Shadow
    inner: Set[Shadow]
    others: Set[Shadow]
    is_covered: bool
    depth: int

    def letter(self) -> Optional[str]:
        """I where some value is in the set, X where none is, S where nothing is said; None where it has to be cut."""
        if self.box in self.inner:
            return "I"
        if self.is_covered or self.box in self.others:
            self.is_covered, self.others = True, set()
        if self.inner:
            return None
        return "S" if self.is_covered else None if self.others else "X"

    def faces(self, shadows: List[Shadow], variable: int) -> List[int]:
        """The distinct ends of shadows strictly within the cell, in order."""
        low, high = self.box[2 * variable], self.box[2 * variable + 1]
        found = {shadow[2 * variable] for shadow in shadows} | {shadow[2 * variable + 1] for shadow in shadows}
        return sorted(end for end in found if low < end < high)

    def cut(self) -> Cut:
        """Where the cell is cut: at the hull of a few shadows, where it is less than the cell, else at a middle end."""
        count = len(self.inner) + len(self.others)
        if count <= FEW and self.depth < PEELED:
            edge = self.edge([*self.inner, *self.others])
            if edge is not None:
                return edge
        some = [*islice(self.inner, SAMPLE // 2), *islice(self.others, SAMPLE // 2)]
        faces = [self.faces(some, variable) for variable in (0, 1)] if self.depth < PEELED else [[], []]
        if not faces[0] and not faces[1]:
            faces = [self.faces([*self.inner, *self.others], variable) for variable in (0, 1)]
        variable = 0 if len(faces[0]) >= len(faces[1]) else 1
        return variable, faces[variable][len(faces[variable]) // 2]

    def edge(self, shadows: List[Shadow]) -> Optional[Cut]:
        """An end of the shadows' hull strictly within the cell."""
        left, right, bottom, top = self.box
        lows_x, highs_x, lows_y, highs_y = zip(*shadows)
        for variable, end, low, high in ((0, min(lows_x), left, right), (0, max(highs_x), left, right),
                                         (1, min(lows_y), bottom, top), (1, max(highs_y), bottom, top)):
            if low < end < high:
                return variable, end
        return None

    def halves(self, cut: Cut) -> Tuple[Cell, Cell]:
        """The high and the low half."""
        left, right, bottom, top = self.box
        variable, at = cut
        boxes = ((at, right, bottom, top), (left, at, bottom, top)) if variable == 0 else \
            ((left, right, at, top), (left, right, bottom, at))
        upper, lower = [(self.box_side(self.inner, variable, at, up), self.box_side(self.others, variable, at, up))
                        for up in (True, False)]
        return (Cell(boxes[0], *upper, self.is_covered, self.depth + 1),
                Cell(boxes[1], *lower, self.is_covered, self.depth + 1))

    @staticmethod
    def box_side(shadows: Set[Shadow], variable: int, at: int, up: bool) -> Set[Shadow]:
        """The shadows on one side of a cut, clipped there. One that lies in the cut alone is on no side."""
        if variable == 0 and up:
            return {shadow if shadow[0] >= at else (at, *shadow[1:]) for shadow in shadows if shadow[1] > at}
        if variable == 0:
            return {shadow if shadow[1] <= at else (shadow[0], at, *shadow[2:]) for shadow in shadows if shadow[0] < at}
        if up:
            return {shadow if shadow[2] >= at else (*shadow[:2], at, shadow[3]) for shadow in shadows if shadow[3] > at}
        return {shadow if shadow[3] <= at else (*shadow[:3], at) for shadow in shadows if shadow[2] < at}


def lines_of(whole: Cell, words: List[str]) -> List[str]:
    """The nodes of the plane's paving as lines of a stored one, in preorder. Halves that are both I, or both S, are one."""
    kinds: List[str] = []
    cuts: List[Optional[Cut]] = []
    waiting = [whole]
    while waiting:
        cell = waiting.pop()
        letter = cell.letter()
        if letter is None:
            cut = cell.cut()
            kinds.append("C")
            cuts.append(cut)
            waiting += cell.halves(cut)
            continue
        kinds.append(letter)
        cuts.append(None)
        while letter != "X" and kinds[-3:] == ["C", letter, letter]:  # not X: a shadow may lie in the cut
            del kinds[-2:], cuts[-2:]
            kinds[-1], cuts[-1] = letter, None
    return ["X" if kind == "X" else f"{kind} = = = =" if cut is None else f"C {cut[0]} {words[cut[1]]} = = = ="
            for kind, cut in zip(kinds, cuts)]


def shadows_of(cover: Cover, table: Table, x: int, y: int, kind: str) -> Set[Shadow]:
    """The distinct shadows of a class of boxes, by the places of their ends in a table."""
    found: Set[Shadow] = set()
    for paving in cover.pieces():
        paving.need_root()
        ends = paving.tree.ends_of(LETTERS[kind])
        shadows = {(box[2 * x], box[2 * x + 1], box[2 * y], box[2 * y + 1]) for box in ends}
        if paving.tree.table is not table:
            places = [table.rank[word] for word in paving.tree.table.words]
            shadows = {(places[a], places[b], places[c], places[d]) for a, b, c, d in shadows}
        found |= shadows
    return found


def table_of(cover: Cover) -> Table:
    """The numbers of a paving, or of all pavings that a cover is made of."""
    if len(cover.roots()) == 1 and cover.roots()[0] is cover:
        return cover.tree.table
    words = {word for paving in cover.pieces() for word in paving.tree.table.words}
    return Table({*words, *(word for root in cover.search_boxes() for word in root)})


def meets(shadow: Shadow, box: Shadow) -> bool:
    """Whether a shadow in the plane's box meets it in more than a face."""
    return all(box[k] == box[k + 1] or (shadow[k] < box[k + 1] and shadow[k + 1] > box[k]) for k in (0, 2))


@dataclass
class Projection:
    """The plane of two variables in boxes that meet in faces at most, as a `paving` of it: its inner boxes are `some`, its
    removed ones `none` and its small ones `rest`. Each rational point of a `some` box, faces and all, has rational values of
    the other variables with which it is in the set. No rational point inside a `none` box, off its faces, has such in the
    search box. Of the rest nothing is said."""
    paving: Paving

    @property
    def names(self) -> List[str]:
        """The names of both variables."""
        return self.paving.names_known()

    def counts(self) -> Dict[str, int]:
        """How many boxes of each kind there are."""
        return {kind: self.paving.counts()[shown] for kind, shown in SHOWN.items()}

    def areas(self) -> Dict[str, Exact]:
        """The exact area of each kind."""
        return {kind: self.paving.volumes()[shown] for kind, shown in SHOWN.items()}

    def boxes(self, kind: str) -> Iterator[Any]:
        """The boxes of a kind, `some`, `none` or `rest`; ValueError where it is no such word."""
        if kind not in SHOWN:
            raise ValueError(f"there is no kind {kind!r}: {', '.join(SHOWN)} are")
        return self.paving.boxes(SHOWN[kind])

    def where(self, point: Any) -> Set[str]:
        """The kinds of all boxes that hold a point of the plane, ends included, or `outside`."""
        found = self.paving.where(point)
        return {kind for kind, shown in SHOWN.items() if shown in found} or found

    def rows(self, kind: str, exactly: bool = False) -> Iterator[List[Any]]:
        """The four ends of each box of a kind: fractions, or floats that are rounded inward, of the rest outward, so that what
        is said stays true. A box that holds no float then is left out."""
        outward = kind == "rest"
        for box in self.boxes(kind):
            if exactly:
                yield [end for pair in box.exact for end in pair]
                continue
            ends = list(box.floats[0] + box.floats[1]) if outward else \
                [as_float(end, side == 0) for pair in box.exact for side, end in enumerate(pair)]
            if ends[0] <= ends[1] and ends[2] <= ends[3]:
                yield ends

    def write_csv(self, file: TextIO, exactly: bool = False) -> None:
        """Writes a box a row: its kind, then its ends: see rows."""
        writer = csv.writer(file, lineterminator="\n")
        writer.writerow(["kind", *(f"{name}_{side}" for name in self.names for side in ("low", "high"))])
        for kind in SHOWN:
            writer.writerows([kind, *(str(end) if exactly else repr(end) for end in ends)] for ends in self.rows(kind, exactly))

    def numpy(self, kind: str, exactly: bool = False) -> Any:
        """The boxes of a kind as an array of shape (boxes, 2, 2): see rows. ImportError without numpy."""
        import numpy
        found = list(self.rows(kind, exactly))
        return numpy.array(found, dtype=object if exactly else float).reshape(len(found), 2, 2)

    def svg(self, title: Optional[str] = None, equal: bool = False) -> str:
        """A picture: some green, none grey, the rest yellow."""
        from .picture import svg
        text = svg(self.paving, 0, 1, title=title, equal=equal)
        for kind, shown in SHOWN.items():
            text = text.replace(f">{shown}</text>", f">{kind}</text>")
        return text.replace(">open</text>", "></text>")

    def page(self, title: str = "projection", source: str = "") -> Any:
        """The page of `view` on the plane, in which `some` is told as inner, `none` as removed and `rest` as small."""
        from .view import page_of_text
        root = self.paving.root or ()
        ends = [f"{name} {root[2 * k]} {root[2 * k + 1]}" for k, name in enumerate(self.names)]
        return page_of_text("\n".join(["vars 2", *ends, "ctrs 0", ""]), [self.paving], title, source)

    def __repr__(self) -> str:
        counts = ", ".join(f"{count} {kind}" for kind, count in self.counts().items())
        return f"<projection onto {', '.join(self.names)}: {counts}>"


def project(cover: Cover, x: Name, y: Name) -> Projection:
    """The projection of a paving's set on two of its variables. ValueError where they are one, there is no such variable, or
    the search box is not known."""
    first, second = two_variables(cover, x, y)
    roots = cover.search_boxes()
    if len(roots) != 1:
        raise ValueError("this needs one search box: give root= or system=, and parts of a search box one by one")
    with without_collection():
        table = table_of(cover)
        words = tuple(roots[0][2 * k + side] for k in (first, second) for side in (0, 1))
        box: Shadow = (table.rank[words[0]], table.rank[words[1]], table.rank[words[2]], table.rank[words[3]])
        inner, *others = [{shadow for shadow in shadows_of(cover, table, first, second, kind) if meets(shadow, box)}
                          for kind in KEPT]
        whole = Cell(box, inner, set().union(*others) - inner, False, 0)
        names = [cover.name_of(first), cover.name_of(second)]
        return Projection(Paving(lines_of(whole, table.words), 2, None, None, words, names))


def sentences(system: System, names: List[str]) -> List[str]:
    """What an equation makes of a projection; no sentence where the system has none."""
    numbers = [str(i) for i, c in enumerate(system.constraints) if c.relation == "="]
    if not numbers:
        return []
    which = f"constraint {numbers[0]} is an equation" if len(numbers) == 1 else \
        f"constraints {', '.join(numbers)} are equations"
    return [f"{which}: as a rule no box is proved to be in the set, so for no {', '.join(names)} a value of the others is "
            "proved, and `none` speaks of rational points alone. Write f = 0 as f >= -D; f <= D (--widen D): then `some` "
            "speaks of the wider set, and inside a `none` box no real point has real values of the others with f = 0."]
