"""Pictures as SVG 1.1 with stock Python alone: axes, numbers, names, equal scales."""
from __future__ import annotations

import math
from html import escape
from typing import TYPE_CHECKING, Dict, Iterable, Iterator, List, Mapping, Optional, Sequence, Tuple

from .box import Number
from .cover import KEPT, Name
from .numbers import printable
from .plots import FILL, Pair, Rectangle, axes_of, finite, finite_axes, grouped, projection, rectangles

if TYPE_CHECKING:
    from .cover import Cover

SIZE, MARGIN, BELOW = 600, 60, 90
EDGE = "#90a4ae"
MOST_OUTLINES = 5000  # of a class: of more boxes the union is drawn, to half a pixel
FINE = 2  # parts of a pixel there


class Frame:
    """Where values are drawn: the longer axis is SIZE long; scales are equal unless equal is False."""

    def __init__(self, axes: Sequence[Pair], equal: bool) -> None:
        self.axes = axes
        widths = [high - low or 1.0 for low, high in axes]
        scales = [SIZE / width for width in widths]
        self.scales = [min(scales)] * 2 if equal else scales
        self.sizes = [width * scale for width, scale in zip(widths, self.scales)]

    def x(self, value: float) -> float:
        return MARGIN + (value - self.axes[0][0]) * self.scales[0]

    def y(self, value: float) -> float:
        return MARGIN / 2 + (self.axes[1][1] - value) * self.scales[1]


def short(value: float) -> str:
    """A pixel in few characters."""
    return f"{value:.1f}".rstrip("0").rstrip(".")


def ticks(low: float, high: float) -> List[float]:
    """Numbers of few digits between two ends, 3 to 8 of them."""
    step = 10.0 ** math.floor(math.log10(high - low)) if high > low else 1.0
    while (high - low) / step > 8:
        step *= 2
    while (high - low) / step < 3:
        step /= 2
    first = math.ceil(low / step)
    return [k * step for k in range(first, math.floor(high / step) + 1)]


def path_of(pairs: Iterable[Sequence[Pair]], frame: Frame) -> str:
    """The outlines of rectangles as one path."""
    parts = []
    for (a, b), (c, d) in pairs:
        left, right, top, bottom = frame.x(a), frame.x(b), frame.y(d), frame.y(c)
        parts.append(f"M{short(left)} {short(top)}H{short(right)}V{short(bottom)}H{short(left)}z")
    return "".join(parts)


def path_of_union(pairs: Iterable[Sequence[Pair]], frame: Frame) -> str:
    """The union of rectangles as one path of fewer, whose ends are rounded to half a pixel; each has a width at least."""
    columns = [0] * (FINE * math.ceil(MARGIN + frame.sizes[0]) + FINE)  # of each the rows that are covered, a bit each
    x, y = frame.x, frame.y
    for first, end, top, bottom in {(round(FINE * x(a)), round(FINE * x(b)), round(FINE * y(d)), round(FINE * y(c)))
                                    for (a, b), (c, d) in pairs}:
        rows = (1 << max(bottom, top + 1)) - (1 << top)
        for column in range(first, max(end, first + 1)):
            columns[column] |= rows
    parts: List[str] = []
    begun: Dict[Tuple[int, int], int] = {}
    for column, covered in enumerate([*columns, 0]):
        now = set(runs_of(covered))
        for top, bottom in [run for run in begun if run not in now]:
            left, high, right, low = (short(place / FINE) for place in (begun.pop((top, bottom)), top, column, bottom))
            parts.append(f"M{left} {high}H{right}V{low}H{left}z")
        for run in now:
            begun.setdefault(run, column)
    return "".join(parts)


def runs_of(bits: int) -> Iterator[Tuple[int, int]]:
    """The first and the end of each run of ones, from the lowest on."""
    at = 0
    while bits:
        zeros = (bits & -bits).bit_length() - 1
        bits, at = bits >> zeros, at + zeros
        ones = (~bits & (bits + 1)).bit_length() - 1
        yield at, at + ones
        bits, at = bits >> ones, at + ones


def axis_lines(frame: Frame, names: Sequence[str]) -> Iterator[str]:
    """The ticks, numbers and names of both axes."""
    left, bottom = MARGIN, MARGIN / 2 + frame.sizes[1]
    for value in ticks(*frame.axes[0]):
        x = short(frame.x(value))
        yield f'<path d="M{x} {short(bottom)}v5" stroke="#000"/>'
        yield f'<text x="{x}" y="{short(bottom + 20)}" text-anchor="middle">{value:g}</text>'
    for value in ticks(*frame.axes[1]):
        y = frame.y(value)
        yield f'<path d="M{left} {short(y)}h-5" stroke="#000"/>'
        yield f'<text x="{left - 9}" y="{short(y + 4)}" text-anchor="end">{value:g}</text>'
    middle = MARGIN / 2 + frame.sizes[1] / 2
    centre = short(left + frame.sizes[0] / 2)
    yield f'<text x="{centre}" y="{short(bottom + 38)}" text-anchor="middle">{escape(names[0])}</text>'
    yield f'<text x="14" y="{short(middle)}" text-anchor="middle" transform="rotate(-90 14 {short(middle)})">' \
          f"{escape(names[1])}</text>"


def legend(frame: Frame) -> Iterator[str]:
    at, y = MARGIN, MARGIN / 2 + frame.sizes[1] + 50
    for kind, color in FILL.items():
        yield f'<rect x="{at}" y="{short(y)}" width="12" height="12" fill="{color}" stroke="{EDGE}"/>'
        yield f'<text x="{at + 17}" y="{short(y + 11)}">{kind}</text>'
        at += 95


def svg(cover: Cover, x: Name = 0, y: Name = 1, at: Optional[Mapping[Name, Number]] = None, project: bool = False,
        title: Optional[str] = None, equal: bool = True, near: bool = False) -> str:
    """The text of a picture: a slice with the values of the dict `at` for the other variables, or the projection on two.
    What no kept box covers, or in a projection the shadow of none, is removed. Inner boxes lie on top, then small and open
    ones. With near the axes end where what is kept ends. Of more than 5,000 boxes of a class their union is drawn, without the
    edges within. ValueError where a value of `at` lies outside the search box."""
    shown = grouped(projection(cover, x, y) if project else rectangles(cover, x, y, at, KEPT))
    return picture_of(cover, (x, y), shown, title, equal, near)


def picture_of(cover: Cover, variables: Tuple[Name, Name], shown: Mapping[str, Sequence[Rectangle]],
               title: Optional[str] = None, equal: bool = True, near: bool = False) -> str:
    """The text of a picture of rectangles, by class in the order in which they are painted."""
    frame = Frame(finite_axes(axes_of(cover, *variables, near)), equal)
    width, height = MARGIN * 1.5 + frame.sizes[0], MARGIN / 2 + frame.sizes[1] + BELOW
    lines = [f'<svg xmlns="http://www.w3.org/2000/svg" width="{short(width)}" height="{short(height)}" '
             f'viewBox="0 0 {short(width)} {short(height)}" font-family="sans-serif" font-size="13">']
    if title:
        lines.append(f"<title>{escape(printable(title))}</title>")
    lines.append('<rect width="100%" height="100%" fill="#fff"/>')
    outline = path_of([frame.axes], frame)
    lines.append(f'<path d="{outline}" fill="{FILL["removed"]}" stroke="none"/>')
    for kind, pairs in shown.items():
        outlines = path_of if len(pairs) <= MOST_OUTLINES else path_of_union
        drawn = outlines(finite(pairs, frame.axes), frame)
        lines.append(f'<path d="{drawn}" fill="{FILL[kind]}" stroke="{EDGE}" stroke-width="0.4"/>')
    lines.append(f'<path d="{outline}" fill="none" stroke="#000"/>')
    names = [cover.name_of(cover.variable(k)) for k in variables]
    lines += [*axis_lines(frame, names), *legend(frame), "</svg>"]
    return "\n".join(lines) + "\n"
