"""Compares pixels of pictures of `paver svg` with what exact fractions say of the points in them.

    [ONLY=EXAMPLE] python3 -m tests.runners.rendered

The rectangles of a picture are whole pixels, so that they are painted here one after another; where there is an
rsvg-convert, it renders the picture too and has to paint the same.
"""
from __future__ import annotations

import random
import re
import shutil
import struct
import subprocess
import zlib
from collections.abc import Iterator, Mapping, Sequence
from fractions import Fraction
from pathlib import Path
from typing import Any

import paver as package
from paver.box import Exact, Pair
from tests.runners.running import TOP, FolderTest, main, rows

FILL = {"removed": (0xCF, 0xD8, 0xDC), "inner": (0x43, 0xA0, 0x47), "small": (0xFD, 0xD8, 0x35)}
Colour = tuple[int, ...]  # red, green and blue
BARE: Colour = (0, 0, 0)
RECTANGLE = re.compile(r'<rect x="(\d+)" y="(\d+)" width="(\d+)" height="(\d+)" fill="#(..)(..)(..)"/>')
SIDE, PIXELS, CELLS = 1000, 1000, 300
CIRCLE = b"Variables x in [-2,2], y in [-2,2]; Constraints x^2 + y^2 = 1; end"
# A system, its words, its axes, and the numbers of its other variables. The cells of the circle are smaller than a pixel.
PICTURES = [
    ("circle", ["--eps", "0.002"], ("x", "y"), {}),
    ("ring", ["--eps", "0.25"], ("x", "y"), {}),
    ("pi_gains", ["--eps", "0.125"], ("kp", "ki"), {}),
    ("torus", ["--eps", "0.125", "--boxes", "100000"], ("x", "y"), {"z": "0.3125"}),
    ("torus", ["--eps", "0.125", "--boxes", "100000"], ("z", "x"), {"y": "-1.5"}),
]


def pixels_of(png: bytes) -> list[list[Colour]]:
    """Rows of (red, green, blue) of a PNG file of 8 bits a channel that is not interlaced."""
    at, data = 8, b""
    while at < len(png):
        length, kind = struct.unpack(">I4s", png[at:at + 8])
        part = png[at + 8:at + 8 + length]
        if kind == b"IHDR":
            width, height, depth, colour = struct.unpack(">IIBB", part[:10])
            if depth != 8 or colour not in (2, 6) or part[12]:
                raise ValueError("a PNG file of another kind")
        elif kind == b"IDAT":
            data += part
        at += 12 + length
    size = 3 if colour == 2 else 4
    return rows_of(zlib.decompress(data), width * size, height, size)


def rows_of(data: bytes, stride: int, height: int, size: int) -> list[list[Colour]]:
    rows, before = [], bytearray(stride)
    for y in range(height):
        start = y * (stride + 1)
        line = unfiltered(data[start], bytearray(data[start + 1:start + 1 + stride]), before, size)
        rows.append([tuple(line[x:x + 3]) for x in range(0, stride, size)])
        before = line
    return rows


def unfiltered(how: int, line: bytearray, before: bytearray, size: int) -> bytearray:
    """A line of a PNG file without its filter."""
    for x in range(len(line)):
        left = line[x - size] if x >= size else 0
        corner = before[x - size] if x >= size else 0
        up = before[x]
        guess = left + up - corner
        paeth = min((left, up, corner), key=lambda value: abs(guess - value))
        line[x] = (line[x] + (0, left, up, (left + up) // 2, paeth)[how]) & 255
    return line


def painted(text: str) -> list[list[Colour]]:
    """Rows of (red, green, blue) of a picture's text; what no rectangle covers is black."""
    rows = [[BARE] * SIDE for _ in range(SIDE)]
    for found in RECTANGLE.finditer(text):
        x, y, width, height = map(int, found.groups()[:4])
        assert width > 0 and height > 0 and x + width <= SIDE and y + height <= SIDE, found[0]
        for row in rows[y:y + height]:
            row[x:x + width] = [tuple(int(part, 16) for part in found.groups()[4:])] * width
    return rows


class Plane:
    """The kept boxes of a slice, in pixels of the picture, to the right and down."""

    def __init__(self, paving: Read, names: list[str], axes: Sequence[str], at: Mapping[str, str]) -> None:
        places = [names.index(name) for name in axes]
        numbers = {names.index(name): Fraction(text) for name, text in at.items()}
        root = [(Fraction(low), Fraction(high)) for low, high in paving.root_exact]
        (left, right), (bottom, top) = (root[place] for place in places)
        self.left, self.wide, self.bottom, self.high = left, right - left, bottom, top - bottom
        self.kept = {kind: [self.in_pixels(*(box[place] for place in places)) for box in (found.exact for found in boxes())
                            if all(box[place][0] <= number <= box[place][1] for place, number in numbers.items())]
                     for kind, boxes in (("inner", paving.inner), ("small", paving.small))}

    def in_pixels(self, x: Pair, y: Pair) -> tuple[Exact, ...]:
        """From the left, to the right, from the top, to the bottom."""
        across = (SIDE * (end - self.left) / self.wide for end in x)
        down = (SIDE - SIDE * (end - self.bottom) / self.high for end in reversed(y))
        return (*across, *down)

    def touches(self, kind: str, column: int, row: int, around: int = 0) -> bool:
        """Whether a kept box and a pixel, with some pixels around it, have more than edges in common."""
        return any(left < column + 1 + around and column - around < right and top < row + 1 + around and row - around < bottom
                   for left, right, top, bottom in self.kept[kind])

    def fills(self, column: int, row: int, around: int = 0) -> bool:
        """Whether an inner box holds all of a pixel, with some pixels around it."""
        return any(left <= column - around and column + 1 + around <= right
                   and top <= row - around and row + 1 + around <= bottom for left, right, top, bottom in self.kept["inner"])

    def is_right(self, column: int, row: int, colour: Colour) -> bool:
        """Whether a pixel says nothing but the truth, and as much as it can but at the distance of a pixel."""
        if colour == FILL["small"]:
            return self.touches("small", column, row, around=1)
        if self.touches("small", column, row):
            return False
        if colour == FILL["inner"]:
            return self.fills(column, row)
        return colour in (FILL["removed"], BARE) and not self.fills(column, row, around=1)

    def cells(self) -> Iterator[tuple[int, int]]:
        """The pixel of the corner of each small box."""
        for left, _, top, _ in self.kept["small"]:
            yield min(int(left), SIDE - 1), min(int(top), SIDE - 1)


class Read:
    """A stored paving with the exact search box."""

    def __init__(self, path: Path, system: package.System, settings: Mapping[str, Any]) -> None:
        self.paving = package.Paving.read(path, system=system, **settings)
        ends = [package.numbers.exact(text) for text in self.paving.root or ()]
        self.root_exact = list(zip(ends[::2], ends[1::2]))
        self.inner, self.small = self.paving.inner, self.paving.small


class Rendered(FolderTest):
    """Pixels of pictures, painted here and by a renderer."""

    def test_pictures(self) -> None:
        for name, words, axes, at in rows(PICTURES):
            with self.subTest(name, axes=axes):
                self.compare(name, words, axes, at)

    def compare(self, name: str, words: list[str], axes: Sequence[str], at: Mapping[str, str]) -> None:
        system, stored = TOP / "examples" / f"{name}.mbx", self.path / "stored"
        if name == "circle":
            system = self.path / "circle.mbx"
            system.write_bytes(CIRCLE)
        self.assertEqual(self.call("run", system, *words, "--out", stored).returncode, 0)
        settings = [word for k in range(0, len(words), 2) if words[k] != "--boxes" for word in words[k:k + 2]]
        others = [f"--at={','.join(at.values())}"] if at else []
        drawn = self.call("svg", system, stored, *settings, "--x", axes[0], "--y", axes[1], *others).stdout
        pixels, chance = painted(drawn.decode()), random.Random(1)
        known = package.check(system)
        given = {word[2:]: value for word, value in zip(settings[::2], settings[1::2])}
        plane = Plane(Read(stored, known, given), list(known.names), axes, at)
        cells = list(plane.cells())
        chosen = [(chance.randrange(SIDE), chance.randrange(SIDE)) for _ in range(PIXELS)]
        for column, row in chosen + chance.sample(cells, min(CELLS, len(cells))):
            self.assertTrue(plane.is_right(column, row, pixels[row][column]), (column, row, pixels[row][column]))
        for column, row in cells:
            self.assertEqual(pixels[row][column], FILL["small"], (column, row, "a small box is hidden"))
        if shutil.which("rsvg-convert"):
            self.put("drawn.svg", drawn)
            png = subprocess.run(["rsvg-convert", "drawn.svg"], cwd=self.path, capture_output=True, check=True).stdout
            self.assertEqual(pixels_of(png), pixels)


if __name__ == "__main__":
    main()
