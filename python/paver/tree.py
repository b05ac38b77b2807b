"""A paving's nodes as flat lists, made in one pass that reads and checks every number.

An end of a box is a whole number: its place among the distinct numbers of the paving, in order. So ends are compared as
small whole numbers, and boxes, fractions and floats are made where they are asked for.
"""
from __future__ import annotations

import gc
import math
from bisect import bisect_left, bisect_right
from contextlib import contextmanager
from fractions import Fraction
from functools import cached_property
from itertools import chain, repeat
from operator import eq, le, sub
from typing import Collection, Dict, Iterable, Iterator, List, Optional, Sequence, Tuple, Union

from .errors import PavingError
from .numbers import INFINITE, nextafter, parts_of

Ends = Tuple[int, ...]
Waiting = Tuple[Ends, int, int]  # a node that is to come: its box, the number of the cut node above it, and the steps to it
Exact = Union[Fraction, float]
DEEPEST = 200  # steps of the longest way to a node
CHUNK = 50000  # lines whose numbers are collected at a time
FOLLOW = "lines follow the whole tree"
CLASSES = {"X": "removed", "I": "inner", "S": "small", "O": "open", "C": "cut"}


@contextmanager
def without_collection() -> Iterator[None]:
    """Without the search for garbage in circles, which costs as much as all else where millions of small tuples are made."""
    was = gc.isenabled()
    gc.disable()
    try:
        yield
    finally:
        if was:
            gc.enable()


class Table:
    """The distinct numbers of a paving in order: their texts, and their values times 2^shift as whole numbers."""

    def __init__(self, words: Collection[str]) -> None:
        found, mantissas, exponents = parts_of(words)  # the line that has another word is refused
        shift = self.shift = max(0, -min(exponents, default=0))
        values = [mantissa << exponent + shift if -INFINITE < mantissa < INFINITE else mantissa
                  for mantissa, exponent in zip(mantissas, exponents)]
        order = sorted(range(len(values)), key=values.__getitem__)
        self.words: List[str] = list(map(found.__getitem__, order))
        self.values: List[int] = list(map(values.__getitem__, order))
        self.rank: Dict[str, int] = dict(zip(self.words, range(len(self.words))))
        self._exact: Dict[int, Exact] = {}
        self._spelled: List[Optional[List[str]]] = [None, None]

    @property
    def has_infinite(self) -> bool:
        """Whether an end is infinite."""
        return bool(self.values) and (self.values[0] == -INFINITE or self.values[-1] == INFINITE)

    def exact(self, end: int) -> Exact:
        """The exact value of an end: a Fraction, or an infinite float."""
        found = self._exact.get(end)
        if found is None:
            value = self.values[end]
            found = infinite(value) if abs(value) >= INFINITE else Fraction(value, 1 << self.shift)
            self._exact[end] = found
        return found

    def floats(self, up: bool) -> List[float]:
        """All numbers as floats that are rounded to one side."""
        return self._both_sides[up]

    @cached_property
    def _both_sides(self) -> Tuple[List[float], List[float]]:
        """All numbers as floats that are rounded down, and up."""
        try:
            nearest = list(map(float, self.values))
        except OverflowError:  # an infinite end, or more than a float holds before it is scaled
            sides = [[float_near(value, self.shift, up) for value in self.values] for up in (False, True)]
            return sides[0], sides[1]
        beyond = list(map(sub, map(int, nearest), self.values))
        near = list(map(math.ldexp, nearest, repeat(-self.shift)))
        return ([nextafter(x, -math.inf) if far > 0 else x for x, far in zip(near, beyond)],
                [nextafter(x, math.inf) if far < 0 else x for x, far in zip(near, beyond)])

    def spelled(self, up: bool) -> List[str]:
        """The texts of these floats."""
        made = self._spelled[up]
        if made is None:
            made = self._spelled[up] = list(map(repr, self.floats(up)))
        return made

    def place(self, value: Exact) -> float:
        """Where an exact value stands among the ends: that of the end it equals, else half a place below the next end."""
        if isinstance(value, float):
            return -0.5 if value < 0 else len(self.values) - 0.5
        whole, rest = divmod(value.numerator << self.shift, value.denominator)
        at = bisect_left(self.values, whole)
        if not rest and at < len(self.values) and self.values[at] == whole:
            return at
        return bisect_right(self.values, whole) - 0.5


def infinite(value: int) -> float:
    """The infinite float on the side of a whole number."""
    return math.inf if value > 0 else -math.inf


def float_near(value: int, shift: int, up: bool) -> float:
    """value / 2^shift as a float that is rounded to its side."""
    if abs(value) >= INFINITE:
        return infinite(value)
    extra = max(0, abs(value).bit_length() - 1000)  # so that the whole number fits a float
    if extra:
        short, rest = value >> extra, value & ((1 << extra) - 1)
        value, shift = short + (1 if up and rest else 0), shift - extra
    found = float(value)
    if (found < value) if up else (found > value):
        found = nextafter(found, math.inf if up else -math.inf)
    return math.ldexp(found, -shift)


class Tree:
    """Of each node, in preorder, its letter in kinds, its box, what it was contracted to (None of removed and open nodes),
    and of a cut node its variable and the number of its high half; its low half is the next node. Only the box of a root
    that is not known is None."""
    starts: Sequence[int] = (0,)  # the nodes that are below no other

    def __init__(self, lines: Sequence[str], second: bool, root: Optional[Sequence[str]], dims: int, first_row: int) -> None:
        self.kinds = "".join([line[:1] for line in lines])
        self.dims = dims
        self.boxes: List[Optional[Ends]] = []
        self.tos: List[Optional[Ends]] = []
        self.high: List[int] = [0] * len(lines)
        self.variables: List[int] = [0] * len(lines)
        with without_collection():
            self.table = Table(words_of(lines, root or ()))
            self._read(lines, second, None if root is None else self._ends_of(root), 0, [], first_row)

    def _ends_of(self, words: Iterable[str]) -> Ends:
        """The places of a box's ends."""
        return tuple([self.table.rank[word] for word in words])

    def _read(self, lines: Sequence[str], second: bool, box: Optional[Ends], depth: int, waiting: List[Waiting],
              first_row: int) -> List[Waiting]:
        """Reads nodes from the one of this box and depth on; those that wait come behind it, the last one first. What still
        waits then."""
        reader, k, last = LineReader(self.table, second, self.dims), 0, len(lines) - 1
        add_box, add_to, add_waiting, rank = self.boxes.append, self.tos.append, waiting.append, self.table.rank
        same, numbers, high, variables = reader.same if second else None, reader.numbers, self.high, self.variables
        try:
            for k, (kind, line) in enumerate(zip(self.kinds, lines)):
                add_box(box)
                if kind == "C":
                    _, number, word, rest = line.split(" ", 3)
                    variable, at, to = numbers[number], rank[word], box if rest == same else reader.ends(rest, box)
                    place = 2 * variable
                    if not to[place] < at < to[place + 1]:  # type: ignore[index]
                        raise ValueError("a cut that is not between the ends")
                    if depth == DEEPEST:
                        raise ValueError(f"a cut at a way of {DEEPEST} steps")
                    add_to(to)
                    variables[k], depth = variable, depth + 1
                    box, upper = cut_at(to, place, at)  # type: ignore[arg-type]
                    add_waiting((upper, k, depth))
                    continue
                add_to(None if kind in "XO" else box if line[2:] == same else reader.ends(line[2:], box))
                if waiting:
                    box, parent, depth = waiting.pop()
                    high[parent] = k + 1
                elif k < last:
                    raise PavingError(first_row + k + 1, FOLLOW)
                else:
                    return []
        except PavingError:
            raise
        except (KeyError, ValueError) as fault:
            raise refused(first_row + k, fault) from fault
        assert box is not None
        return [*waiting, (box, len(self.high) - 1, depth)]

    def halves(self, k: int) -> Sequence[int]:
        """The numbers of a cut node's halves, the high one first."""
        return self.high[k], k + 1

    def cover_of(self, k: int) -> Optional[Ends]:
        """The box that a kept leaf stands for: of an open one its whole box."""
        return self.boxes[k] if self.kinds[k] == "O" else self.tos[k]

    def leaves(self, letters: str) -> Iterator[int]:
        """The numbers of the nodes of some letters, in order."""
        return (k for k, kind in enumerate(self.kinds) if kind in letters)

    def ends_of(self, letter: str) -> List[Ends]:
        """The boxes of all leaves of a letter (I, S or O), in order."""
        source = self.boxes if letter == "O" else self.tos
        if letter not in self._ends:
            pairs = zip(self.kinds, source) if letter in self.kinds else ()
            self._ends[letter] = [ends for kind, ends in pairs if kind == letter]  # type: ignore[misc]
        return self._ends[letter]

    @cached_property
    def _ends(self) -> Dict[str, List[Ends]]:
        """The boxes of the letters that were asked for."""
        return {}

    def seen(self, places: Dict[int, float]) -> Iterator[int]:
        """The numbers of the nodes, in preorder, whose boxes hold these places of some variables."""
        waiting, checks = list(reversed(self.starts)), [(2 * k, place) for k, place in places.items()]
        while waiting:
            k = waiting.pop()
            box = self.boxes[k]
            if box is not None and any(place < box[at] or place > box[at + 1] for at, place in checks):
                continue
            yield k
            if self.kinds[k] == "C":
                waiting += self.halves(k)


class Segment(Tree):
    """Some nodes of a tree, one after the other in preorder, as a forest. waiting are the nodes that come behind them, the next
    one last: the texts of their boxes' ends, and how many steps lead there."""

    def __init__(self, lines: Sequence[str], waiting: Sequence[Tuple[Sequence[str], int]], dims: int, first_row: int) -> None:
        self.kinds, self.dims, self.boxes, self.tos = "".join([line[:1] for line in lines]), dims, [], []
        count = len(lines)
        self.high, self.variables = [0] * (count + len(waiting)), [0] * count
        with without_collection():
            self.table = Table(words_of(lines, [word for words, _ in waiting for word in words]))
            before = [(self._ends_of(words), count + k, depth) for k, (words, depth) in enumerate(waiting)]
            box, _, depth = before.pop()
            rest = self._read(lines, True, box, depth, before, first_row)
        self.starts = [0, *sorted(k for k in self.high[count:] if 0 < k < count)]
        self.waiting = [(tuple([self.table.words[end] for end in ends]), depth) for ends, _, depth in rest]

    def halves(self, k: int) -> Sequence[int]:
        """The numbers of those halves of a cut node that are among these nodes."""
        return [half for half in (self.high[k], k + 1) if 0 < half < len(self.kinds)]


class Leaves(Tree):
    """Boxes beside each other, as leaves of no tree: (letter, texts of ends) each."""

    def __init__(self, leaves: Sequence[Tuple[str, Sequence[str]]], dims: int) -> None:
        self.table = Table({word for _, words in leaves for word in words})
        self.kinds, self.dims = "".join([letter for letter, _ in leaves]), dims
        self.boxes = [tuple([self.table.rank[word] for word in words]) for _, words in leaves]
        self.tos = [ends if letter in "IS" else None for ends, (letter, _) in zip(self.boxes, leaves)]
        self.high = self.variables = [0] * len(leaves)
        self.starts = range(len(leaves))


def columns_of_ends(boxes: Sequence[Ends]) -> List[List[int]]:
    """The first ends of all boxes, the second ones, and so on."""
    ends = list(chain.from_iterable(boxes))
    count = len(boxes[0]) if boxes else 0
    return [ends[k::count] for k in range(count)]


def cut_at(ends: Ends, place: int, at: int) -> Tuple[Ends, Ends]:
    """The ends of the low and of the high half, where they are cut at a place."""
    if len(ends) == 4:  # the usual case, without slices
        a, b, c, d = ends
        return ((a, b, c, at), (a, b, at, d)) if place else ((a, at, c, d), (at, b, c, d))
    return (*ends[:place + 1], at, *ends[place + 2:]), (*ends[:place], at, *ends[place + 1:])


def refused(row: int, fault: Exception) -> PavingError:
    """The error on a line whose reading ended so."""
    if isinstance(fault, KeyError):
        return PavingError(row, f"{str(fault.args[0])[:40]!r} is no number of a paving, or no variable")
    return PavingError(row, str(fault))


def words_of(lines: Sequence[str], more: Iterable[str]) -> Dict[str, None]:
    """The distinct words of lines, but for `=`, in the order in which they come: so they lie in memory, and what goes over a
    million of them takes a third less time than in a set's order."""
    found = dict.fromkeys(more)
    for k in range(0, len(lines), CHUNK):
        found.update(dict.fromkeys(" ".join(lines[k:k + CHUNK]).replace(" =", "").split(" ")))
    return found


class LineReader:
    """Reads the numbers of node lines, and compares them with the nodes' boxes. KeyError names a word that is none; ValueError
    says what else is wrong."""

    def __init__(self, table: Table, second: bool, dims: int) -> None:
        self.rank, self.second = table.rank, second
        self.same = " ".join(["="] * (2 * dims))
        self.numbers = {str(k): k for k in range(dims)}
        self.infinite = table.has_infinite
        self.top, self.bottom = table.rank.get("+oo"), table.rank.get("-oo")

    def ends(self, rest: str, box: Optional[Ends]) -> Ends:
        """The ends that a line tells of a node with a box."""
        rank = self.rank
        if self.second:
            assert box is not None  # its root box is known: see Paving
            if rest == self.same:
                return box
            words = rest.split(" ")
            to = tuple([old if word == "=" else rank[word] for word, old in zip(words, box)])
            if sum(map(eq, to, box)) != words.count("="):
                raise ValueError("a number that equals the box's end, where `=` stands for it")
        else:
            to = tuple([rank[word] for word in rest.split(" ")])
            if to == box:
                return box
        self.compare(to, to if box is None else box)
        return to

    def compare(self, to: Ends, box: Ends) -> None:
        """ValueError where these are no ends of a box within the box."""
        if len(to) == 4:  # the usual case, without slices
            is_within = box[0] <= to[0] <= to[1] <= box[1] and box[2] <= to[2] <= to[3] <= box[3]
        else:
            lows, highs = to[::2], to[1::2]
            is_within = all(map(le, box[::2], lows)) and all(map(le, lows, highs)) and all(map(le, highs, box[1::2]))
        if not is_within:
            raise ValueError("ends that are not in the node's box")
        if self.infinite and (self.top in to[::2] or self.bottom in to[1::2]):
            raise ValueError("a box at infinity")
