"""A paving in few bytes, for the page that view.py writes.

The tree is sent as it is stored: of each node its kind, and the ends that differ from its box. Numbers stay exact, as
mantissa and exponent; the page makes two floats of each, whose sum is the number, since a mantissa has 62 bits. So no
position is rounded before it is compared, and a node takes some 10 to 25 bytes of the file.

Columns, little-endian, deflated together: mantissas (8 bytes a number), changed ends (4 bytes a node: bit k says that
end k differs), exponents (2 bytes a number), codes (1 byte a node: 0 removed, 1 inner, 2 small, 3 open, 4 + v a cut of
variable v). The first numbers are the ends of the search box; then a cut has its place, and each node its changed ends.
"""
from __future__ import annotations

import base64
import math
import sys
import zlib
from array import array
from collections.abc import Sequence
from fractions import Fraction
from typing import List, Tuple

from .errors import PavingError
from .numbers import INFINITE, SCALE, Exact, NumberError, grid, width
from .paving import Paving

INFINITE_EXPONENT = 32767
CODES = {"X": 0, "I": 1, "S": 2, "O": 3}
FIRST_CUT = 4
Ends = Tuple[List[str], List[int]]  # of a box: their texts and their grid forms


class Columns:
    """The columns as they grow. Each number is compared with the box that it stands in."""

    def __init__(self) -> None:
        self.mantissas, self.exponents = array("q"), array("h")
        self.changed, self.codes = array("I"), array("B")
        self.sizes = dict.fromkeys("ISO", 0)

    def number(self, word: str) -> int:
        """Adds a number and gives its grid form."""
        value = grid(word)
        if abs(value) == INFINITE:
            self.mantissas.append(1 if value > 0 else -1)
            self.exponents.append(INFINITE_EXPONENT)
        else:
            mantissa, _, exponent = word.partition(":")
            self.mantissas.append(int(mantissa))
            self.exponents.append(int(exponent))
        return value

    def ends(self, words: Sequence[str], box: Ends, same: str | None) -> Ends:
        """Adds the ends that differ from a box, given as grid forms with their texts, and gives the box of the ends."""
        if same and words.count(same) == len(words):
            self.changed.append(0)
            return box
        texts, values = list(box[0]), list(box[1])
        changed = 0
        for k, word in enumerate(words):
            if word == same or word == texts[k]:
                if word != same and same:
                    raise NumberError("an end that equals the box's is written `=`")
                continue
            value, old = self.number(word), values[k]
            if (value <= old if k % 2 == 0 else value >= old):
                raise NumberError("an end lies outside the node's box")
            texts[k], values[k] = word, value
            changed |= 1 << k
        if changed and any(low > high for low, high in zip(values[::2], values[1::2])):
            raise NumberError("a lower end lies above its upper end")
        self.changed.append(changed)
        return texts, values

    def cut(self, words: Sequence[str], box: Ends, same: str | None) -> tuple[Ends, Ends]:
        """Adds a cut node and gives its halves' boxes, the low one last."""
        variable = int(words[1])
        value = self.number(words[2])
        texts, values = self.ends(words[3:], box, same)
        place = 2 * variable
        if not words[1] == str(variable) or not 0 <= place < len(texts):
            raise NumberError("a cut of no variable")
        if not values[place] < value < values[place + 1]:
            raise NumberError("a cut outside the box")
        self.codes.append(FIRST_CUT + variable)
        low, high = (list(texts), list(values)), (texts, values)
        low[0][place + 1], low[1][place + 1] = words[2], value
        high[0][place], high[1][place] = words[2], value
        return high, low

    def leaf(self, words: Sequence[str], box: Ends, same: str | None) -> None:
        """Adds a leaf, and its size where it is kept."""
        kind = words[0]
        self.codes.append(CODES[kind])
        if len(words) == 1:
            self.changed.append(0)
        else:
            box = self.ends(words[1:], box, same)
        if kind != "X":
            self.sizes[kind] += math.prod(map(width, box[1][::2], box[1][1::2]))

    def bytes(self) -> bytes:
        """All columns in one string of bytes."""
        parts = []
        for column in (self.mantissas, self.changed, self.exponents, self.codes):
            if sys.byteorder == "big":
                column.byteswap()
            parts.append(column.tobytes())
        return b"".join(parts)


def columns_of(paving: Paving) -> Columns:
    """The columns of a paving whose search box is known; PavingError at the first line that is no node of its box."""
    if paving.root is None:
        raise ValueError("the search box is not known: read the paving with system=")
    columns, same = Columns(), "=" if paving.version == 2 else None
    waiting = [(list(paving.root), [columns.number(word) for word in paving.root])]
    for row, line in enumerate(paving.lines, paving.first_row):
        box, words = waiting.pop(), line.split(" ")
        try:
            if words[0] == "C":
                waiting += columns.cut(words, box, same)
                continue
            columns.leaf(words, box, same)
        except ValueError as fault:
            raise PavingError(row, str(fault)) from fault
    return columns


def volumes_of(paving: Paving, columns: Columns) -> dict[str, Exact]:
    """The exact volume of each kind, as Cover.volumes has them: what is not kept of a finite search box is removed."""
    ends = [grid(word) for word in paving.root or ()]
    if any(abs(end) == INFINITE for end in ends):
        return paving.volumes()
    sizes = {"inner": columns.sizes["I"], "small": columns.sizes["S"], "open": columns.sizes["O"]}
    sizes["removed"] = math.prod(map(width, ends[::2], ends[1::2])) - sum(sizes.values())
    return {kind: Fraction(size, 1 << SCALE * (len(ends) // 2)) for kind, size in sizes.items()}


def packed(paving: Paving) -> tuple[str, int, int, dict[str, Exact]]:
    """The text of a paving's columns, deflated and in base64; the counts of its nodes and of its numbers; its volumes."""
    columns = columns_of(paving)
    text = base64.b64encode(zlib.compress(columns.bytes(), 6)).decode("ascii")
    return text, len(columns.codes), len(columns.mantissas), volumes_of(paving, columns)
