"""Checks of the package as its users have it: README's calls with their answers, notebooks, boxes, arrays, types, and times."""
from __future__ import annotations

import doctest
import io
import os
import random
import re
import shutil
import subprocess
import sys
import tempfile
import time
from collections.abc import Iterator
from fractions import Fraction
from pathlib import Path
from typing import Any

import paver
from paver import notebook, numbers
from paver.box import hull_of
from paver.cover import Cover
from tests.runners.package_test import PackageTest, at, example
from tests.runners.running import SECONDS, TOP, main

TRIANGLE = "Variables x in [0,4], y in [0,4]; Constraints x + y <= 3; end"


class Squares(Cover):
    """A cover with boxes of its own."""
    names, dims, root = ["x", "y"], 2, ("0:0", "1:2", "0:0", "1:2")

    def boxes(self, *kinds: str) -> Iterator[paver.Box]:
        made = [("inner", ("0:0", "1:0", "0:0", "1:0")), ("small", ("1:0", "1:1", "0:0", "1:0")),
                ("removed", ("1:1", "1:2", "0:0", "1:2"))]
        return (paver.Box(kind, words) for kind, words in made if not kinds or kind in kinds)

    def roots(self) -> list[Squares]:
        return [self]

    def counts(self) -> dict[str, int]:
        return {"settled": 3, "cut": 0, "removed": 1, "inner": 1, "small": 1, "open": 0}


ARRAYS = """
import numpy, paver, io
from fractions import Fraction
paving = paver.run("examples/ring.mbx", eps=0.5).paving()
for kinds in ((), ("inner",), ("small", "inner"), ("removed",)):
    array, exact = paving.numpy(*kinds), paving.numpy(*kinds, exactly=True)
    boxes = list(paving.boxes(*(kinds or ("inner", "small", "open"))))
    assert array.shape == exact.shape == (len(boxes), 2, 2) and array.dtype == float
    assert [tuple(map(tuple, row)) for row in array.tolist()] == [box.floats for box in boxes]
    assert [tuple(map(tuple, row)) for row in exact] == [box.exact for box in boxes]
    assert all(Fraction(a) <= b for a, b in zip(array[:, :, 0].flat, exact[:, :, 0].flat))
    assert all(Fraction(a) >= b for a, b in zip(array[:, :, 1].flat, exact[:, :, 1].flat))
settings = {"eps": numpy.float64(0.5), "boxes": numpy.int64(9000)}
assert paver.run("examples/ring.mbx", **settings).text == paver.run("examples/ring.mbx", eps=0.5).text
assert paving.where(numpy.array([1.5, 0.0])) == paving.where((1.5, 0)) != {"outside"}
"""
FRAMES = """
import io, pandas, paver
paving = paver.run("examples/ring.mbx", eps=0.5).paving()
file = io.StringIO()
paving.write_csv(file)
written = pandas.read_csv(io.StringIO(file.getvalue()), float_precision="round_trip")
frame = paving.frame()
assert list(frame.columns) == list(written.columns) == ["class", "x_low", "x_high", "y_low", "y_high"]
assert (frame["class"].astype(str) == written["class"]).all() and (frame.iloc[:, 1:].values == written.iloc[:, 1:].values).all()
"""
PLOTS = """
import matplotlib, paver
matplotlib.use("Agg")
axes = paver.plot(paver.run("examples/ring.mbx", eps=0.0625).paving(), "x", "y")
assert len(axes.collections) == 2, "one collection a class"
"""


def ring_text(depth: int) -> tuple[str, list[str]]:
    """The text of a paving of a ring by halves, made here: of version 2, and how many nodes it has of each letter."""
    size = 1 << (depth // 2)
    least, most = int(size * 0.23) ** 2, int(size * 0.47) ** 2
    spelled = [numbers.spelling((k << numbers.SCALE) // size) for k in range(size + 1)]
    lines = []

    def grow(k: int, ends: list[tuple[int, int]]) -> None:
        squares = [((low - size // 2) ** 2, (high - size // 2) ** 2, low <= size // 2 <= high) for low, high in ends]
        near = sum(0 if within else min(a, b) for a, b, within in squares)
        far = sum(max(a, b) for a, b, _ in squares)
        if far < least or near > most:
            lines.append("X")
        elif near >= least and far <= most:
            lines.append("I = = = =")
        elif k == depth:
            lines.append("S = = = =")
        else:
            low, high = ends[k % 2]
            middle = (low + high) // 2
            lines.append(f"C {k % 2} {spelled[middle]} = = = =")
            for half in ((low, middle), (middle, high)):
                grow(k + 1, [half, ends[1]] if k % 2 == 0 else [ends[0], half])

    grow(0, [(0, size), (0, size)])
    return "paving 2\nidentity " + "0" * 64 + "\n" + "\n".join(lines) + "\n", lines


class Users(PackageTest):
    """The package as its users have it."""

    def test_readme_of_package(self) -> None:
        """Every call of the package's README has the answer that stands below it."""
        text = (TOP / "python" / "README.md").read_text()
        blocks = re.findall(r"^```pycon\n(.*?)^```", text, re.M | re.S)
        names: dict[str, Any] = {}
        said: list[str] = []
        count = 0
        with tempfile.TemporaryDirectory() as folder:
            for name in ("examples", "README.md"):
                (Path(folder) / name).symlink_to(TOP / name)
            with at(folder):
                for number, block in enumerate(blocks):
                    test = doctest.DocTestParser().get_doctest(block, names, f"block {number}", "README.md", 0)
                    runner = doctest.DocTestRunner(verbose=False, optionflags=doctest.NORMALIZE_WHITESPACE)
                    count += runner.run(test, out=said.append, clear_globs=False).attempted
                    names = test.globs
        self.assertFalse(said, "".join(said))
        self.assertGreater(count, 30, "".join(said))

    def test_boxes_of_users(self) -> None:
        paving = paver.run_text(TRIANGLE, eps=0.5).paving()
        boxes = list(paving.boxes())
        self.assertEqual(len(set(boxes)), len(boxes))
        self.assertEqual(boxes, list(paving.boxes()))
        self.assertEqual(sum(box.volume for box in boxes), 16)
        self.assertEqual(16, sum(paving.volumes().values()))
        for box in paving.inner():
            self.assertIn(box.centre, box)
            self.assertLessEqual(sum(box.centre), 3)
            self.assertEqual(box[0], box["x"])
            self.assertEqual(box["x"], box.exact[0])
            self.assertEqual(len(box), 2)
            self.assertTrue(box == paver.Box("inner", box.words) != paver.Box("small", box.words))
            self.assertEqual(paving.where(box.centre), {"inner"})
            self.assertEqual(list(box), list(box.exact))
        self.assert_raised(KeyError, lambda: boxes[0]["z"])
        self.assert_raised(IndexError, lambda: boxes[0][2])
        self.assert_raised(ValueError, lambda: (1, 2, 3) in boxes[0])
        far = paver.run_text("Variables x; Constraints x >= 1; end", depth=4).paving()
        self.assert_raised(ValueError, lambda: [box.centre for box in far.boxes()])
        widths = [box.width for box in paving.greatest(4)]
        self.assertEqual(widths, sorted((box.width for box in paving.small()), reverse=True)[:4])

    def test_hull_of_any_boxes(self) -> None:
        """The hull of boxes of several pavings, and of boxes that were made by their texts."""
        source = random.Random(8)
        pavings = [paver.run_text(TRIANGLE, eps=eps).paving() for eps in (0.5, 0.3)]
        pool = [box for paving in pavings for box in paving.boxes()]
        pool += [paver.Box(box.kind, box.words) for box in pool]
        pool += list(paver.run_text("Variables x, y; Constraints x*y >= 1; end", depth=5).paving().boxes())
        for _ in range(300):
            boxes = source.sample(pool, source.randrange(1, 9))
            wanted = tuple((min(box[k][0] for box in boxes), max(box[k][1] for box in boxes)) for k in range(2))
            self.assertEqual(hull_of(iter(boxes)), wanted)
        self.assertIsNone(hull_of([]))

    def test_points_against_boxes(self) -> None:
        """A descent finds the classes that a look at every box finds, on points on faces, inside and outside."""
        source = random.Random(4)
        runs: list[tuple[str, dict[str, Any]]] = [
            ("ring", {"eps": 0.5}), ("torus", {"eps": 1}), ("unbounded", {"depth": 8}), ("tolerance", {"eps": 2})]
        for name, settings in runs:
            for answer in (paver.run(example(name), **settings), paver.run(example(name), **settings, boxes=20)):
                paving = answer.paving()
                boxes = list(paving.boxes())
                ends = [[end for box in boxes for end in box.exact[k] if not isinstance(end, float)]
                        for k in range(len(boxes[0]))]
                for _ in range(60):
                    point = [source.choice(ends[k]) if source.random() < 0.7 else Fraction(source.randrange(-400, 400), 64)
                             for k in range(len(boxes[0]))]
                    wanted = {box.kind for box in boxes if box.holds(point)} or {"outside"}
                    self.assertEqual(paving.where(point), wanted, (name, point))

    def test_covers_of_boxes(self) -> None:
        """A cover that has boxes and no tree is asked in the same way."""
        cover, file = Squares(), io.StringIO()
        self.assertEqual(cover.volumes(), {"inner": 1, "small": 1, "open": 0, "removed": 8})
        self.assertEqual(cover.hull(), ((0, 2), (0, 1)))
        self.assertEqual(len(cover.clusters()), 1)
        self.assertEqual(cover.widest().kind, "small")
        self.assertEqual(cover.where((0.5, 0.5)), {"inner"})
        self.assertEqual(cover.where((1, 1)), {"inner", "small"})
        self.assertEqual(cover.where((9, 9)), {"outside"})
        self.assertEqual([box.kind for box in cover.slice({"x": 1})], ["inner", "small"])
        cover.write_csv(file)
        self.assertEqual(file.getvalue().splitlines()[1:], ["inner,0.0,1.0,0.0,1.0", "small,1.0,2.0,0.0,1.0"])
        self.assertGreater(paver.svg(cover).count("z"), 3)
        self.assertTrue(cover._repr_html_().startswith("<div>"))

    def test_notebooks(self) -> None:
        """A cell shows little, whatever the size: and what is drawn coarsely keeps its word."""
        answer = paver.run(example("ring"), eps="0.00390625", boxes=100_000)
        html, picture = answer._repr_html_(), answer._repr_svg_()
        self.assertLess(len(html), 1_000_000, len(html))
        self.assertIn("<svg ", html, len(html))
        self.assertIn("<td>inner</td>", html, len(html))
        self.assertLess(len(repr(answer)), 200, len(html))
        self.assertLess(len(repr(answer.paving())), 200)
        self.assertTrue(picture.endswith("</svg>\n"))
        paving, source = answer.paving(), random.Random(6)
        coarse = list(notebook.coarse(paving, 4.0))
        self.assertLess(len(coarse), paving.counts()["inner"] + paving.counts()["small"])
        for _ in range(300):
            point = [Fraction(source.randrange(-3 << 16, 3 << 16), 1 << 16) for _ in range(2)]
            seen = {kind for kind, x, y in coarse if x[0] <= point[0] <= x[1] and y[0] <= point[1] <= y[1]}
            truth = paving.where(point)
            self.assertLessEqual(truth & {"inner", "small", "open"}, seen | ({"inner", "open"} if "small" in seen else set()),
                                 (point, truth))
            self.assertTrue("inner" not in seen or "inner" in truth, point)
        self.assertIn("<div>", paver.run(example("torus"), eps=2)._repr_html_())
        self.assertIsNone(paver.run_text("Variables x in [0,1]; Constraints x <= 2; end").paving()._repr_svg_())

    def python_with(self, module: str) -> str:
        """A Python that has a module; the test is skipped where none has."""
        for name in (sys.executable, "/usr/bin/python3"):
            words = [name, "-c", f"import {module}"]
            if shutil.which(name) and subprocess.run(words, capture_output=True, check=False).returncode == 0:
                return name
        self.skipTest(f"no Python here has {module}")

    def check_with(self, module: str, script: str) -> None:
        """A script by a Python that has a module."""
        environment = {**os.environ, "PYTHONPATH": str(TOP / "python")}
        done = subprocess.run([self.python_with(module), "-c", script], cwd=TOP, env=environment, capture_output=True,
                              text=True, timeout=SECONDS, check=False)
        self.assertEqual(done.returncode, 0, done.stderr)

    def test_types(self) -> None:
        """`mypy --strict` takes a user's script over the public surface."""
        if shutil.which("mypy") is None:
            self.skipTest("there is no mypy here")
        with tempfile.TemporaryDirectory() as folder:
            script = TOP / "tests" / "data" / "public_surface.py"
            done = subprocess.run(["mypy", "--strict", "--follow-imports=silent", "--cache-dir", folder, str(script)],
                                  cwd=folder, env={**os.environ, "MYPYPATH": str(TOP / "python")}, capture_output=True,
                                  text=True, timeout=SECONDS, check=False)
            self.assertEqual(done.returncode, 0, done.stdout)
        used = script.read_text()
        self.assertTrue(all(f"paver.{name}" in used for name in paver.__all__ if name[0].islower()),
                        "each public function is called")
        self.assertTrue((TOP / "python" / "paver" / "py.typed").exists())

    def test_times(self) -> None:
        """Some 460,000 nodes: each question takes its part of what README tells, with room for a loaded machine."""
        text, lines = ring_text(28)
        clock = time.process_time
        begun = clock()
        paving = paver.Paving.from_text(text, root=[(0, 1), (0, 1)])
        read = clock() - begun
        paving.check_numbers()
        passed = clock() - begun - read
        begun = clock()
        for k in range(1000):
            paving.where((Fraction(k, 1000), Fraction(k, 997)))
        point = (clock() - begun) / 1000
        begun = clock()
        volumes, hull, counts = paving.volumes(), paving.hull(), paving.counts()
        asked = clock() - begun
        begun, table = clock(), io.StringIO()
        paving.write_csv(table)
        written = clock() - begun
        begun = clock()
        picture = paver.svg(paving)
        drawn = clock() - begun
        begun = clock()
        clusters = paving.clusters()
        grouped = clock() - begun
        print(f"a paving of {len(lines)} nodes: read in {read:.2f} s, its numbers in {passed:.2f} s, a point in "
              f"{1000 * point:.3f} ms, volumes and hull in {asked:.2f} s, CSV in {written:.2f} s, a picture in {drawn:.2f} s, "
              f"clusters in {grouped:.1f} s")
        self.assertLess(asked, 4)
        self.assertLess(written, 10)
        self.assertLess(drawn, 20)
        self.assertEqual(table.getvalue().count("\n"), 1 + counts["inner"] + counts["small"])
        self.assertTrue(picture.endswith("</svg>\n"))
        self.assertLess(read, 4)
        self.assertLess(passed, 16)
        self.assertLess(point, 0.001)
        self.assertLess(grouped, 40)
        inner = sum(line[0] == "I" for line in lines)
        self.assertEqual(counts["inner"], inner)
        self.assertEqual(sum(volumes.values()), 1)
        self.assertEqual(len(clusters), 1)
        self.assertIsNotNone(hull)
        small = Fraction(sum(line[0] == "S" for line in lines), 1 << 28)
        self.assertEqual(volumes["small"], small)

    def test_arrays(self) -> None:
        self.check_with("numpy", ARRAYS)

    def test_frames(self) -> None:
        self.check_with("pandas", FRAMES)

    def test_one_collection_a_class(self) -> None:
        self.check_with("matplotlib", PLOTS)


if __name__ == "__main__":
    main()
