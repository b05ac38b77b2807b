"""Checks of `fit` and `project`: made measurements with known outliers, and projections beside a count of cells by exact
fractions, which goes by no part of the package."""
from __future__ import annotations

import math
import os
import random
import re
import subprocess
import sys
import tempfile
from fractions import Fraction
from pathlib import Path
from typing import Any, Iterator

import paver
from paver.fit import parts_of
from paver.measurements import read_csv
from tests.runners.package_around import commands_of
from tests.runners.package_test import PackageTest, command, example
from tests.runners.running import SECONDS, TOP, main

LINE = "Variables a in [-8, 8], b in [-8, 8]; Constraints y = a + b*t; end\n"
BALL = "Variables x in [-2,2], y in [-2,2], z in [-2,2]; Constraints x^2 + y^2 + z^2 <= 2; x + z >= -1; end"
WALL = "Variables x in [0,4], y in [0,4], z in [0,1]; Constraints x <= 3; abs(x - 1)*z <= 0; y >= 1; z >= 0.5; end"
SPHERE = "Variables x in [-2,2], y in [-2,2], z in [-2,2]; Constraints x^2 + y^2 + z^2 = 1; end"
UNBOUNDED = "Variables x in [0, oo], y in [-1,1], z in [-1,1]; Constraints x*(1 + y^2) >= 3 + z; x <= 9; end"
Box = tuple[tuple[Fraction, Fraction], ...]


def made(seed: int, count: int, wrong: int) -> tuple[str, tuple[Fraction, Fraction], set[int], list[tuple[int, Fraction]]]:
    """A table of a line's values, each within 1/4, but for some that are 3 to 5 off; the line, the wrong lines of the table,
    and the points."""
    draw = random.Random(seed)
    a, b = Fraction(draw.randint(-8, 8), 4), Fraction(draw.randint(-8, 8), 4)
    far = set(draw.sample(range(count), wrong))
    points = []
    for t in range(count):
        error = Fraction(draw.randint(-24, 24), 100)
        points.append((t, a + b * t + (Fraction(draw.randint(300, 500), 100) * draw.choice((-1, 1)) if t in far else error)))
    text = "t,y\n" + "".join(f"{t},{float(y)}\n" for t, y in points)
    return text, (a, b), {t + 2 for t in far}, points


def middle(pair: Any) -> Fraction:
    """A point between two ends, one at least finite."""
    low, high = pair
    return high - 1 if low == -math.inf else low + 1 if high == math.inf else (low + high) / 2


def cells(paving: paver.Paving, x: int, y: int) -> Iterator[tuple[Box, str]]:
    """The cells of the plane between all ends of boxes, each with its kind: of each kept box it is asked whether the cell's
    middle is in its shadow."""
    kept = [(box.kind, box.exact[x], box.exact[y]) for box in paving.boxes("inner", "small", "open")]
    removed = [box.exact for box in paving.removed()]
    columns = [sorted({end for pair in [*(one[1 + k] for one in kept), *(box[v] for box in removed)] for end in pair})
               for k, v in enumerate((x, y))]
    for left, right in zip(columns[0], columns[0][1:]):
        for low, high in zip(columns[1], columns[1][1:]):
            p, q = middle((left, right)), middle((low, high))
            over = {kind for kind, one, other in kept if one[0] <= p <= one[1] and other[0] <= q <= other[1]}
            yield ((left, right), (low, high)), "some" if "inner" in over else "rest" if over else "none"


class Written:
    """A folder with files of texts."""

    def __init__(self, **files: str) -> None:
        self.files = files

    def __enter__(self) -> Path:
        self.folder = tempfile.TemporaryDirectory()
        path = Path(self.folder.__enter__())
        for name, text in self.files.items():
            (path / name).write_text(text)
        return path

    def __exit__(self, *fault: Any) -> None:
        self.folder.__exit__(*fault)


class Fits(PackageTest):
    """Systems of measurements."""

    def test_outliers(self) -> None:
        """The true parameters are kept, and the wrong measurements are those that the part around them leaves out."""
        for seed in range(5):
            text, (a, b), wrong, points = made(seed, 10, 2)
            with self.subTest(seed), Written(model=LINE, data=text) as folder:
                found = paver.fit(folder / "model", folder / "data", 2, yerr="0.25")
                (folder / "s.mbx").write_text(found.text)
                answer = paver.run(folder / "s.mbx", contract=found.contract, eps="0.125")
                paving = answer.paving()
                self.assertNotEqual(paving.where((a, b)), {"removed"})
                parts = fit_parts(found, answer)
                near = [part for part in parts if all(low <= x <= high for x, (low, high) in zip((a, b), part.hull))]
                self.assertEqual([{found.groups[k][0].line for k in part.without} for part in near], [wrong])
                for box in paving.inner():
                    fits = sum(abs(box.centre[0] + box.centre[1] * t - y) <= Fraction(1, 4) for t, y in points)
                    self.assertGreaterEqual(fits, 8, box)

    def test_membership(self) -> None:
        """Of drawn parameters those that agree with enough measurements are never in removed parts alone, and the others never
        in inner boxes alone."""
        text, _, _, points = made(7, 8, 1)
        with Written(model=LINE, data=text) as folder:
            found = paver.fit(folder / "model", folder / "data", 1, yerr=0.25)
            paving = paver.run_text(found.text, contract=found.contract, eps="0.125").paving()
        draw = random.Random(1)
        for _ in range(2000):
            a, b = Fraction(draw.randint(-512, 512), 64), Fraction(draw.randint(-512, 512), 64)
            is_in = sum(abs(a + b * t - y) <= Fraction(1, 4) for t, y in points) >= 7
            self.assertNotEqual(paving.where((a, b)), {"removed"} if is_in else {"inner"}, (a, b))

    def test_text(self) -> None:
        """A comment names each measurement, the model's own constraint stays, and bounds are those of their columns."""
        model = "Variables p in [0,4];\nfunction f(t) return t^2; end\nConstraints p <= 3; f(p)*t = v; end\n"
        with Written(model=model, data="t,v_low,v_high\n-1,-4,-1\n2.5,0.5,2\n3,,\n") as folder:
            found = paver.fit(folder / "model", folder / "data", 1)
        self.assertIn("  // 1: line 2, t = -1: -4 <= v <= -1\n  abs(f(p)*(-1) + 2.5) <= 1.5;\n", found.text)
        self.assertIn("  // 2: line 3, t = 2.5: 0.5 <= v <= 2\n  abs(f(p)*2.5 - 1.25) <= 0.75;\n", found.text)
        self.assertEqual((found.contract, found.missing), ("compose(hc4(0),qinter(1,hc4(1),hc4(2)))", 1))

    def test_many(self) -> None:
        """65 measurements are refused with what to do, and as 13 groups they are taken."""
        text = "t,y,y_err\n" + "".join(f"{t},{2 * t},0.5\n" for t in range(65))
        with Written(model=LINE, data=text) as folder:
            with self.assertRaisesRegex(paver.FitRefused, "65 constraints .* 64 fit.*--together 2.*bins"):
                paver.fit(folder / "model", folder / "data")
            found = paver.fit(folder / "model", folder / "data", 1, together=5)
            self.assertEqual([len(group) for group in found.groups], [5] * 13)
            paving = paver.run_text(found.text, contract=found.contract, boxes=2000).paving()
            self.assertNotEqual(paving.where((0, 2)), {"removed"})

    def test_table(self) -> None:
        """Comments, another sign between cells, names that come again, and cells in quotes, as pandas reads them."""
        data = "# made by hand\nt; y; y; note\n1; 0.5; 7;\"a; b\" # first\n\n2; NaN; 8; c\n1e1; -2.5; 9; d\n"
        with Written(data=data) as folder:
            found = read_csv(folder / "data", ";", "#")
        self.assertEqual(found.columns, ["t", "y", "y.1", "note"])
        self.assertEqual([(row.line, found.number(row, "t")) for row in found.rows], [(3, 1), (5, 2), (6, 10)])
        self.assertEqual(["y" in row.cells for row in found.rows], [True, False, True])
        self.assertEqual(found.number(found.rows[2], "y"), Fraction(-5, 2))

    def test_refused(self) -> None:
        """Faults of tables and models by place and cause."""
        for data, words, model in [
                ("t,y\n1,2\n", "none is given", LINE), ("t,y,y_err\n1,x,1\n", "data, line 2, column y: 'x' is no number", LINE),
                ("t,y,y_err\n1,2\n", "data, line 2: 2 cells, where 3", LINE), ("", "no line with the names", LINE),
                ("t,y,y_err\n,2,1\n", "data, line 2, column t: the cell is missing", LINE),
                ("t,y,y_err\n1,2,-1\n", "half-width of y is below 0", LINE), ("t,y,y_err\n1,NA,1\n", "no measurement", LINE),
                ("t,a,y,y_err\n1,1,2,1\n", "`a` is a name of the model and a column", LINE),
                ("t,y_low,y_high\n1,2,1\n", "line 2: the bounds of y are empty", LINE),
                ("t,y,y_err\n1,2,1\n", "has the form", "Variables a; Constraints y <= a; end\n")]:
            with self.subTest(words), Written(model=model, data=data) as folder:
                with self.assertRaisesRegex(paver.FitRefused, re.escape(words)):
                    paver.fit(folder / "model", folder / "data")
        with Written(model="Variables a;\nConstraints y = a + ; end\n", data="y,y_err\n1,1\n") as folder:
            self.assert_raised(paver.SystemRefused, lambda: paver.fit(folder / "model", folder / "data"), row=2, column=21,
                               cause="Unexpected")

    def test_command(self) -> None:
        """The report names the outlier, draws the set, and an empty set is said."""
        text, _, wrong, _ = made(3, 8, 1)
        with Written(model=LINE, data=text) as folder:
            words = ["fit", folder / "model", folder / "data", "--yerr", "0.25"]
            status, out, _ = command(*words, "--outliers", 1, "--report", "--eps", "0.125", "--picture", folder / "p.svg")
            self.assertEqual(status, 0)
            self.assertEqual(re.findall(r"^  leaves out line (\d+)", out, re.M), [str(line) for line in wrong])
            self.assertIn("<svg", (folder / "p.svg").read_text())
            self.assertIn("no values of the parameters", command(*words, "--report")[1])
            self.assertEqual(command(*words, "--outliers", 1, "--qinter")[1],
                             f"qinter(7,{','.join(f'hc4({i})' for i in range(8))})\n")


class Page(PackageTest):
    """docs/FIT.md."""

    def test_commands(self) -> None:
        """Each command that the page shows prints what stands below it."""
        shown = list(commands_of((TOP / "docs" / "FIT.md").read_text()))
        self.assertGreaterEqual(len(shown), 4)
        with Written() as folder:
            (folder / "examples").symlink_to(TOP / "examples")
            for words, _, lines in shown:
                tools = words.replace("python3", sys.executable, 1)
                done = subprocess.run(["bash", "-c", f'paver() {{ "$PAVER" "$@"; }}; {tools}'], cwd=folder, text=True,
                                      timeout=SECONDS, capture_output=True, check=False,
                                      env={**os.environ, "PYTHONPATH": str(TOP / "python")})
                with self.subTest(words):
                    self.assertEqual([line.strip() for line in done.stdout.splitlines()], lines, done.stderr)


def fit_parts(found: paver.Fit, answer: paver.Answer) -> list[Any]:
    """The parts of an answer."""
    return parts_of(found, answer.known, answer.paving())


class Projections(PackageTest):
    """Planes of pavings."""

    def test_cells(self) -> None:
        """Each cell of the plane is of the kind that a count over all boxes gives, and areas are the cells' sums."""
        for text, eps, x, y in [(BALL, "1", 0, 1), (UNBOUNDED, "1", 0, 2), (BALL, "0.5", 2, 0), (WALL, "0.5", 0, 1),
                                (WALL, "0.25", 1, 2), (SPHERE, "1", 0, 2)]:
            with self.subTest((text, eps, x, y)):
                paving = paver.run_text(text, eps=eps).paving()
                found = paver.project(paving, x, y)
                areas = dict.fromkeys(("some", "none", "rest"), Fraction(0))
                for (one, other), kind in cells(paving, x, y):
                    areas[kind] += (one[1] - one[0]) * (other[1] - other[0])
                    self.assertEqual(found.where((middle(one), middle(other))), {kind})
                self.assertEqual(found.areas(), areas)

    def test_none_is_none(self) -> None:
        """No kept box, however thin, has its shadow inside a `none` box."""
        for eps in ("0.5", "0.25"):
            paving = paver.run_text(WALL, eps=eps).paving()
            for none in paver.project(paving, "x", "y").boxes("none"):
                for box in paving.boxes("inner", "small", "open"):
                    apart = any(shadow[1] <= side[0] or shadow[0] >= side[1] for shadow, side in zip(box.exact, none.exact))
                    self.assertTrue(apart, (box, none))

    def test_ball(self) -> None:
        """The shadow of a ball is a disc, whose membership is known: x^2 + y^2 <= 2, where x is at least -1 - sqrt(2 - ..)."""
        found = paver.project(paver.run_text(BALL, eps="0.25").paving(), "x", "y")
        draw = random.Random(2)
        for _ in range(1000):
            x, y = Fraction(draw.randint(-128, 128), 64), Fraction(draw.randint(-128, 128), 64)
            rest = 2 - x * x - y * y  # z has to be at least -1 - x and z^2 at most this
            is_in = rest >= 0 and (-1 - x <= 0 or (-1 - x) ** 2 <= rest)
            self.assertNotEqual(found.where((x, y)), {"none"} if is_in else {"some"}, (x, y))

    def test_equation(self) -> None:
        """With an equation no plane box is proved to be of the set, and it is said so; widened some are."""
        with Written(**{"s.mbx": SPHERE}) as folder:
            status, out, err = command("project", folder / "s.mbx", "--onto", "x,y", "--eps", "0.5")
            self.assertEqual((status, out.splitlines()[0][:6]), (0, "some 0"))
            self.assertIn("constraint 0 is an equation", err)
            out = command("project", folder / "s.mbx", "--onto", "x,y", "--eps", "0.25", "--widen", "0.5")[1]
            self.assertNotIn("some 0 ", out)

    def test_files(self) -> None:
        """CSV by fractions fills the plane; floats stay inside what is said; picture and page are written."""
        with Written() as folder:
            words = ["--csv", folder / "c", "--exactly", "--picture", folder / "p.svg", "--page", folder / "p.html"]
            status = command("project", example("torus"), "--onto", "x,z", "--eps", "0.5", *words)[0]
            rows = [line.split(",") for line in (folder / "c").read_text().splitlines()]
            self.assertEqual((status, rows[0]), (0, ["kind", "x_low", "x_high", "z_low", "z_high"]))
            paving = paver.run(example("torus"), eps="0.5").paving()
            areas = sum((Fraction(r[2]) - Fraction(r[1])) * (Fraction(r[4]) - Fraction(r[3])) for r in rows[1:])
            self.assertEqual(areas, 8 * 4)  # the domains of x and z in torus.mbx
            self.assertTrue((folder / "p.svg").read_text().startswith("<svg"))
            self.assertIn("<html", (folder / "p.html").read_text()[:500])
            found = paver.project(paving, "x", "z")
            for kind in ("some", "none"):
                exact = [tuple(map(Fraction, row)) for row in found.rows(kind, True)]
                for (a, b, c, d), (left, right, low, high) in zip(exact, found.rows(kind)):
                    self.assertTrue(a <= left <= right <= b and c <= low <= high <= d, (kind, a, b, c, d))

    def test_numpy(self) -> None:
        """Arrays have the boxes of the rows."""
        try:
            import numpy
        except ImportError:
            self.skipTest("there is no numpy here")
        found = paver.project(paver.run_text(BALL, eps="1").paving(), 0, 1)
        self.assertEqual(found.numpy("rest").shape, (found.counts()["rest"], 2, 2))
        self.assertTrue(numpy.all(found.numpy("some")[:, :, 0] <= found.numpy("some")[:, :, 1]))

    def test_refused(self) -> None:
        paving = paver.run_text(BALL, eps="2").paving()
        for x, y in (("x", "x"), ("x", "w"), (0, 3)):
            self.assert_raised(ValueError, lambda x=x, y=y: paver.project(paving, x, y))
        with Written(**{"s.mbx": BALL}) as folder:
            status, _, err = command("project", folder / "s.mbx", "--onto", "x")
            self.assertEqual((status, err), (2, "paver: --onto x: two variables are expected, as --onto x,y\n"))


if __name__ == "__main__":
    main()
