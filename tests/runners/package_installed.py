"""Checks of the package as pip installs it: the gallery's ways from an engineer's words to a decision, each command of which
prints what stands below it, and each decision of which holds by formulas in floats.

    python3 -m tests.runners.package_installed [-k WORD]
"""
from __future__ import annotations

import cmath
import csv
import math
import os
import random
import re
import shutil
import subprocess
import sys
import tempfile
import unittest
from itertools import product
from pathlib import Path

from tests.runners.package_around import commands_of
from tests.runners.running import PROGRAM, TOP, main

BEGIN, END = "\n## From an engineer's words to a decision\n", "\n## Questions on an answer\n"
TINY = 1e-9
Pairs = list[tuple[float, float]]


def poles(a: float, b: float, c: float) -> list[complex]:
    """The roots of a s^2 + b s + c."""
    root = cmath.sqrt(b * b - 4 * a * c)
    return [(-b - root) / (2 * a), (-b + root) / (2 * a)]


def is_calm(roots: list[complex], rate: float, damping: float) -> bool:
    """Whether all roots lie left of -rate, with more than a damping."""
    return all(z.real < -rate and -z.real > damping * abs(z) for z in roots)


def distance(point: complex, first: complex, second: complex) -> float:
    """How far a point is from a segment."""
    along = second - first
    share = ((point - first) * along.conjugate()).real / abs(along) ** 2
    return abs(point - first - min(max(share, 0), 1) * along)


def points_of(box: Pairs, source: random.Random, count: int) -> list[tuple[float, ...]]:
    """The corners of a box, and points drawn in it."""
    return [*product(*box), *(tuple(source.uniform(low, high) for low, high in box) for _ in range(count))]


class Installed(unittest.TestCase):
    """What runs from the installed package, in a folder with the examples alone."""
    path: Path
    environment: dict[str, str]
    shown: list[tuple[str, list[str], list[str]]]
    printed: dict[str, str] = {}

    @classmethod
    def setUpClass(cls) -> None:
        pip = [sys.executable, "-m", "pip"]
        if subprocess.run([*pip, "--version"], capture_output=True, check=False).returncode:
            raise unittest.SkipTest("there is no pip here")
        made = tempfile.TemporaryDirectory()
        cls.addClassCleanup(made.cleanup)
        cls.path, source, site = (Path(made.name) / name for name in ("work", "source", "site"))
        shutil.copytree(TOP / "python", source, ignore=shutil.ignore_patterns("__pycache__"))
        subprocess.run([*pip, "install", "--quiet", "--no-index", "--no-build-isolation", "--no-deps",
                        "--disable-pip-version-check", "--target", site, source], check=True, timeout=300, capture_output=True)
        shutil.rmtree(source)
        cls.path.mkdir()
        shutil.copytree(TOP / "examples", cls.path / "examples")
        (Path(made.name) / "bin").mkdir()
        (Path(made.name) / "bin" / "paver").symlink_to(PROGRAM)
        paths = f"{made.name}/bin:{Path(sys.executable).parent}:{os.environ['PATH']}"
        cls.environment = {**os.environ, "PYTHONPATH": str(site), "PAVER": PROGRAM, "PATH": paths}
        page = (TOP / "docs" / "GALLERY.md").read_text()
        cls.shown = list(commands_of(page[page.index(BEGIN):page.index(END)]))

    def bash(self, words: str) -> str:
        """What a command prints that ends well."""
        done = subprocess.run(["bash", "-c", words], cwd=self.path, env=self.environment, capture_output=True, text=True,
                              timeout=300, check=False)
        self.assertEqual(done.returncode, 0, (words, done.stdout, done.stderr))
        return done.stdout

    def lines_of(self, name: str) -> str:
        """What the commands of one way print, by the name of its files; they run once."""
        if name not in self.printed:
            said = [self.bash(words) for words, _, _ in self.shown if f"{name}." in words]
            self.assertEqual(len(said), 3)
            self.printed[name] = "".join(said)
        return self.printed[name]

    def test_place(self) -> None:
        """The package is the installed one, with all its parts."""
        place = self.bash('python3 -c "import paver; print(paver.__file__)"').strip()
        self.assertEqual(Path(place), Path(self.environment["PYTHONPATH"]) / "paver" / "__init__.py")
        for words in ("view examples/ring.mbx", "project examples/ring.mbx --onto x,y --page plane.html && cat plane.html"):
            self.assertIn("</html>", self.bash(f"python3 -m paver {words}"))

    def test_shown(self) -> None:
        """Each command prints what stands below it; three lead through each way."""
        names = ("cruise", "welder", "spring", "shelf", "ship")
        self.assertEqual(len(self.shown), 3 * len(names))
        for name in names:
            wanted = [line for words, _, lines in self.shown if f"{name}." in words for line in lines]
            pattern = "".join("(.*\n)*" if line == ".." else f" *{re.escape(line)}\n" for line in wanted)
            with self.subTest(name):
                self.assertRegex(self.lines_of(name), re.compile(rf"\A{pattern}\Z"))

    def test_report(self) -> None:
        """The page of the first way's paving, and of the fit's, whose contractor its run was given."""
        contract = "--contract \"$(python3 -m paver fit examples/spring.txt examples/spring.csv --yerr 0.8 --outliers 1 --qinter)\""
        for name, more in (("cruise", "--eps 0.0625"), ("spring", f"--eps 0.02 {contract}")):
            with self.subTest(name):
                self.lines_of(name)
                page = self.bash(f"python3 -m paver report {name}.mbx {name}.paving {more}")
                self.assertTrue(page.startswith("<!DOCTYPE html>") and "<svg" in page and "Greatest tolerance" in page)

    def test_cruise(self) -> None:
        """All gains within the tolerance give poles as asked."""
        said = re.findall(r"(\S+) \+- (\S+),", self.lines_of("cruise"))
        box = [(float(x) - float(move), float(x) + float(move)) for x, move in said]
        self.assertEqual(len(box), 2)
        for kp, ki in points_of(box, random.Random(1), 500):
            self.assertTrue(is_calm(poles(1, 0.2 + kp, ki), 0.5 - TINY, 0.7 - TINY), (kp, ki))

    def test_welder(self) -> None:
        """The arm's links keep clear of the pillar all along, and the joints within their limits."""
        self.lines_of("welder")
        with open(self.path / "welder.csv", newline="", encoding="utf-8") as file:
            points = [tuple(map(float, row)) for row in list(csv.reader(file))[1:]]
        self.assertEqual((points[0], points[-1]), ((0, 0), (1, 0)))
        for first, second in zip(points, points[1:]):
            for k in range(201):
                shoulder, elbow = (a + k / 200 * (b - a) for a, b in zip(first, second))
                self.assertLessEqual(max(abs(shoulder), abs(elbow)), 1)
                joint = cmath.rect(1, 2 * math.atan(shoulder))
                tip = joint + cmath.rect(0.8, 2 * math.atan(shoulder) + 2 * math.atan(elbow))
                apart = min(distance(1.4 + 1j, 0, joint), distance(1.4 + 1j, joint, tip))
                self.assertGreaterEqual(apart, 0.3 - TINY, (shoulder, elbow))

    def test_spring(self) -> None:
        """All values of a grid that agree with five of six readings are in the hull, and some are near its ends; with all six
        none agrees."""
        said = re.findall(r"^(\w+) in \[(\S+), (\S+)\];", self.lines_of("spring"), re.M)
        hull = {name: (float(low), float(high)) for name, low, high in said}
        with open(TOP / "examples" / "spring.csv", newline="", encoding="utf-8") as file:
            rows = [tuple(map(float, row)) for row in list(csv.reader(file))[1:]]
        agreed = set()
        for i, j in product(range(300), range(300)):
            rest, give = 119 + i / 150, 2.3 + j / 750
            misses = [k for k, (load, length) in enumerate(rows) if abs(rest + give * load - length) > 0.8]
            self.assertTrue(misses)
            if len(misses) == 1:
                self.assertEqual(misses, [3])
                agreed.add((rest, give))
        for k, name in enumerate(("rest", "give")):
            low, high = hull[name]
            found = [point[k] for point in agreed]
            self.assertTrue(low <= min(found) < low + 0.1 and high - 0.1 < max(found) <= high, (name, hull, min(found), max(found)))

    def test_shelf(self) -> None:
        """A box of the file has some thickness at each point, or at none, as the formulas of bending and weight say."""
        self.lines_of("shelf")
        with open(self.path / "shelf.csv", newline="", encoding="utf-8") as file:
            rows = list(csv.reader(file))[1:]
        source, counts = random.Random(2), {"some": 0, "none": 0, "rest": 0}
        for kind, *ends in rows:
            left, right, low, high = map(float, ends)
            counts[kind] += 1
            for reach, height in points_of([(left, right), (low, high)], source, 20):
                least = max(2.0, 180 * reach / height ** 2)
                most = min(6.0, 0.5 / (7.85e-5 * reach * height))
                if kind != "rest" and abs(most - least) > TINY:
                    self.assertEqual(kind == "some", least < most, (kind, reach, height))
        self.assertGreater(min(counts.values()), 10, counts)

    def test_ship(self) -> None:
        """All gains of the box give poles as asked, at all rates and lags."""
        ends = list(map(float, re.findall(r"[\d.]+", self.lines_of("ship").splitlines()[-1])))
        box = [(ends[0], ends[1]), (ends[2], ends[3]), (0.4, 0.6), (2.0, 3.0)]
        for kp, kd, rate, lag in points_of(box, random.Random(3), 2000):
            roots = poles(lag, 1 + rate * kd, rate * kp)
            self.assertTrue(is_calm(roots, 0.2 - 1e-5, 0.6 - 1e-5), (kp, kd, rate, lag))


if __name__ == "__main__":
    main()
