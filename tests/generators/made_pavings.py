"""Pavings that are made by chance, in the form of stored files: trees whose numbers are right, of no system's set.

Boxes are pairs of whole numbers times 2^-SHIFT; cuts are in the middle or anywhere, and some nodes are contracted to ends
with many bits.
"""
from __future__ import annotations

import random
from collections.abc import Iterable, Sequence
from typing import Any

SHIFT = 60
KINDS = "XISSO"


def spelled(value: int) -> str:
    """The text of value·2^-SHIFT."""
    if value == 0:
        return "0:0"
    trailing = (value & -value).bit_length() - 1
    return f"{value >> trailing}:{trailing - SHIFT}"


def contracted(chance: random.Random, box: Sequence[int]) -> list[int]:
    """A box within a box, some of whose ends are moved."""
    to = list(box)
    for place in range(0, len(box), 2):
        low, high = to[place], to[place + 1]
        if chance.random() < 0.5:
            to[place] = low = chance.randint(low, high)
        if chance.random() < 0.5:
            to[place + 1] = chance.randint(low, high)
    return to


def words_of(box: Iterable[int], to: Iterable[int]) -> str:
    return " ".join("=" if old == new else spelled(new) for old, new in zip(box, to))


def place_of_cut(chance: random.Random, to: Sequence[int], any_place: bool) -> tuple[int, int] | None:
    """The place of the widest variable and where it is cut; None where it is too narrow."""
    place = max(range(0, len(to), 2), key=lambda place: to[place + 1] - to[place])
    low, high = to[place], to[place + 1]
    if high - low < 2:
        return None
    return place, chance.randint(low + 1, high - 1) if any_place else (low + high) // 2


def made_lines(seed: int, ends: Iterable[int], depth: int, leaf: float = 0.0, contract: float = 0.2, any_place: bool = True
               ) -> list[str]:
    """The node lines of a paving in preorder, of a box with whole ends: cut down to the depth, but for some leaves before."""
    chance = random.Random(seed)
    waiting, lines = [([end << SHIFT for end in ends], 0)], []
    while waiting:
        box, steps = waiting.pop()
        to = contracted(chance, box) if chance.random() < contract else box
        cut = place_of_cut(chance, to, any_place) if steps < depth and chance.random() >= leaf else None
        if cut is None:
            kind = chance.choice(KINDS)
            lines.append(kind if kind in "XO" else f"{kind} {words_of(box, to)}")
            continue
        place, at = cut
        lines.append(f"C {place // 2} {spelled(at)} {words_of(box, to)}")
        low, high = list(to), list(to)
        low[place + 1] = high[place] = at
        waiting += [(high, steps + 1), (low, steps + 1)]
    return lines


def made_text(*made: Any, **how: Any) -> str:
    """The text of a stored file of such a paving."""
    return "".join(f"{line}\n" for line in ("paving 2", f"identity {'0' * 64}", *made_lines(*made, **how)))


def canonical(ends: Sequence[int]) -> str:
    """The canonical text of a system over a box with whole ends."""
    names = "xyzuvw"[:len(ends) // 2]
    rows = [f"{name} {spelled(low << SHIFT)} {spelled(high << SHIFT)}" for name, low, high in
            zip(names, ends[::2], ends[1::2])]
    return "".join(f"{line}\n" for line in (f"vars {len(names)}", *rows, "ctrs 1", "<= v0 1/1"))


def grid_text(levels: int, half: int, seed: int = 1) -> str:
    """The text of a paving of [-half, half]^2, half a power of two: cut in the middle down to 2^levels leaves of one size,
    of kinds by chance."""
    chance, leaves = random.Random(seed), ["X", "I = = = =", "S = = = =", "O"]
    kinds = iter(chance.choices(leaves, k=1 << levels))
    lines, waiting = [], [(0, -half << SHIFT, half << SHIFT, -half << SHIFT, half << SHIFT)]
    known: dict[int, str] = {}
    while waiting:
        level, a, b, c, d = waiting.pop()
        if level == levels:
            lines.append(next(kinds))
            continue
        at = (a + b if level % 2 == 0 else c + d) >> 1
        text = known.get(at)
        if text is None:
            text = known[at] = spelled(at)
        if level % 2 == 0:
            lines.append(f"C 0 {text} = = = =")
            waiting += ((level + 1, at, b, c, d), (level + 1, a, at, c, d))
        else:
            lines.append(f"C 1 {text} = = = =")
            waiting += ((level + 1, a, b, at, d), (level + 1, a, b, c, at))
    return "\n".join(("paving 2", f"identity {'0' * 64}", *lines, ""))
