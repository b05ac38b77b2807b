"""Pixels of the page that shows pavings, beside exact fractions: what each one may say, and for two variables what it has to.

Places are whole numbers times 2^-512, as numbers.grid has them; those of pixels are exact too, since the page tells the two
floats of an axis' anchor, its scale and its offset.
"""
from __future__ import annotations

import random
from collections.abc import Iterable, Sequence
from fractions import Fraction
from pathlib import Path
from typing import Any

import paver
from paver.numbers import SCALE
from paver.view import page_of_text
from tests.generators.made_pavings import canonical, made_text
from tests.runners.browser import Browser

Pair = tuple[Fraction, Fraction]
Span = tuple[int, int]  # in steps of the grid
NEAR = Fraction(1, 1 << 16)  # of a pixel: what lies this near may be taken as touching
READ = """(() => { const { x, y } = paverView.axes, tell = (a) => [a.high, a.low, a.scale, a.offset];
  return [tell(x), tell(y), paverView.panes[0].width, paverView.panes[0].height]; })()"""


def gridded(value: Fraction) -> int:
    """An exact value as a whole number of the grid's steps."""
    scaled = value * (1 << SCALE)
    assert scaled.denominator == 1, value
    return scaled.numerator


class Window:
    """The pixels of a page: where they lie, and their colours as names of classes."""

    def __init__(self, browser: Browser) -> None:
        self.browser = browser
        palette = browser.value("paverView.palette")
        self.names = {tuple(int(palette[name][k:k + 2], 16) for k in (1, 3, 5)): name
                      for name in ("removed", "inner", "undecided", "open", "outside", "hatch")}
        self.names = {colour: "open" if name == "hatch" else name for colour, name in self.names.items()}
        self.read()

    def read(self) -> None:
        self.x, self.y, self.width, self.height = self.browser.value(READ)

    def ends(self, axis: Sequence[Any], first: int, sign: int, fine: int = 1) -> Pair:
        """The ends of a pixel along an axis, or of a part of one."""
        high, low, scale, offset = axis
        anchor, step = Fraction(high) + Fraction(low), Fraction(scale) / fine
        a, b = anchor + sign * (offset * fine + first) * step, anchor + sign * (offset * fine + first + 1) * step
        return min(a, b), max(a, b)

    def part(self, column: int, row: int, fine: int = 1) -> tuple[Pair, Pair]:
        """The exact place of a pixel: ((x low, x high), (y low, y high))."""
        return self.ends(self.x, column, 1, fine), self.ends(self.y, row, -1, fine)

    def classes(self, places: Iterable[Sequence[int]]) -> list[str]:
        """The class of each pixel, by the colour that stands on the canvas."""
        colours = self.browser.value(f"""(() => {{
          const pane = paverView.panes[0], copy = new OffscreenCanvas(pane.width, pane.height);
          const context = copy.getContext("2d", {{ willReadFrequently: true }});
          context.drawImage(pane.cells, 0, 0);
          const data = context.getImageData(0, 0, pane.width, pane.height).data;
          return {[4 * (row * self.width + column) for column, row in places]}.map((at) => [...data.subarray(at, at + 3)]);
        }})()""")
        return [self.names[tuple(colour)] for colour in colours]


class Scene:
    """The parts of a paving over two variables, as pairs of places: of a slice where a level is given, else of all."""

    def __init__(self, paving: paver.Paving, level: Fraction | None = None) -> None:
        self.root = [(low, high) for low, high in paver.Box("open", paving.root or ()).grid[:2]]
        self.parts = []
        for box in paving.boxes():
            ends = box.grid
            if level is None or all(low <= level * (1 << SCALE) <= high for low, high in ends[2:]):
                self.parts.append((box.kind, ends[0], ends[1]))

    def touching(self, x: Span, y: Span) -> set[str]:
        """The kinds of parts that touch a place, `outside` where it reaches beyond the search box."""
        found = {kind for kind, a, b in self.parts if a[0] <= x[1] and x[0] <= a[1] and b[0] <= y[1] and y[0] <= b[1]}
        inside = all(low <= side[0] and side[1] <= high for (low, high), side in zip(self.root, (x, y)))
        return found if inside else found | {"outside"}

    def covered(self, x: Span, y: Span) -> bool:
        """Whether shadows of inner boxes cover a place: each cell between their ends lies in one."""
        near = [(a, b) for kind, a, b in self.parts if kind == "inner" and a[0] <= x[1] and x[0] <= a[1]
                and b[0] <= y[1] and y[0] <= b[1]]
        across = sorted({end for a, _ in near for end in a if x[0] < end < x[1]} | set(x))
        up = sorted({end for _, b in near for end in b if y[0] < end < y[1]} | set(y))
        return all(any(a[0] <= p and q <= a[1] and b[0] <= r and s <= b[1] for a, b in near)
                   for p, q in zip(across, across[1:]) for r, s in zip(up, up[1:]))


ALLOWED = {"inner": {"inner"}, "removed": {"removed", "outside"}, "open": {"open", "removed", "outside"},
           "outside": {"outside"}}


def spans(part: tuple[Pair, Pair]) -> tuple[Span, Span]:
    """A place in the grid's steps."""
    (a, b), (c, d) = part
    return (gridded(a), gridded(b)), (gridded(c), gridded(d))


def widened(side: Pair) -> Pair:
    low, high = side
    return low - (high - low) * NEAR, high + (high - low) * NEAR


def fault_of_slice(scene: Scene, part: tuple[Pair, Pair], seen: str, must: bool = True) -> str | None:
    """What is wrong with a pixel of a slice; None where nothing is."""
    x, y = spans(part)
    if seen in ALLOWED and not scene.touching(x, y) <= ALLOWED[seen]:
        return f"{seen}, and it touches {scene.touching(x, y)}"
    if must:
        near = scene.touching(*spans((widened(part[0]), widened(part[1]))))
        wanted = {"small": "undecided"}.get(min(near), min(near)) if len(near) == 1 else None
        if wanted and seen != wanted:
            return f"{seen} in place of {wanted}"
    return None


def fault_of_projection(scene: Scene, part: tuple[Pair, Pair], seen: str) -> str | None:
    """The same for a pixel of a projection."""
    x, y = spans(part)
    touching = scene.touching(x, y)
    if seen == "inner" and not ("outside" not in touching and scene.covered(x, y)):
        return "inner, and inner boxes do not cover it"
    if seen in ("removed", "outside") and touching & {"inner", "small", "open"}:
        return f"{seen}, and it touches {touching}"
    if seen == "open" and touching & {"inner", "small"}:
        return f"open, and it touches {touching}"
    return None


class Made:
    """A made paving with its page."""

    def __init__(self, seed: int, dims: int, depth: int, folder: Path, **how: Any) -> None:
        ends = [-2, 2] * dims
        system = paver.System.from_text(canonical(ends))
        self.paving = paver.Paving.from_text(made_text(seed, ends, depth, **how), system=system, identity=None)
        self.page = folder / f"made-{seed}-{dims}.html"
        page_of_text(system.text, [self.paving], "made").save(self.page)


def place_to_look(chance: random.Random, paving: paver.Paving) -> tuple[list[Fraction], Fraction]:
    """A point near the corner of a box, and a width around it in which the corner is seen off the middle."""
    boxes = list(paving.boxes())
    box, width = chance.choice(boxes).exact, Fraction(1, 1 << chance.choice((0, 1, 3, 6, 12, 25, 45, 52, 58)))
    aside = [width * Fraction(chance.randrange(-100, 100), 256) for _ in range(2)]
    return [Fraction(chance.choice(side)) + far for side, far in zip(box, aside)], width


def compared(browser: Browser, chance: random.Random, made: Made, zooms: int, pixels: int, level: Fraction | None = None,
             projection: bool = False) -> tuple[list[str], dict[str, int]]:
    """The faults of random pixels at random zooms, and how often each class was seen."""
    browser.open(made.page)
    mode = "projection" if projection else "slice"
    browser.value(f"paverView.mode = '{mode}'; paverView.isEqual = {chance.choice(('true', 'false'))}; paverView.levels[2] = "
                  f"paverView.levels[2] && coordinate(parsed('{level or 0}')); paverView.redraw()")
    scene, faults = Scene(made.paving, level), []
    seen: dict[str, int] = {}
    for zoom in range(zooms):
        if zoom:
            point, width = place_to_look(chance, made.paving)
            browser.value("paverView.goTo([{}], [rational(1n, {}n), rational(1n, {}n)])".format(
                ", ".join(f"rational({p.numerator}n, {p.denominator}n)" for p in point), *[width.denominator] * 2))
        browser.drawn()
        window = Window(browser)
        places = [(chance.randrange(window.width), chance.randrange(window.height)) for _ in range(pixels)]
        for place, name in zip(places, window.classes(places)):
            seen[name] = seen.get(name, 0) + 1
            part = window.part(*place)
            fault = fault_of_projection(scene, part, name) if projection else fault_of_slice(scene, part, name, level is None)
            faults += [f"{made.page.name} zoom {zoom} pixel {place}: {fault}"] * bool(fault)
    return faults, seen
