"""Checks of `control`: the written constraints beside roots that are found in floats, published regions, and complex values.

The constraints are read here by Python itself: their texts become expressions over fractions. Roots are found by Durand's and
Kerner's iteration on the coefficients of the loop, which are made here and not by the package.
"""
from __future__ import annotations

import cmath
import math
import os
import random
import re
import subprocess
import sys
import tempfile
from fractions import Fraction
from itertools import product
from pathlib import Path
from typing import Any, Callable, Iterator, Mapping, Sequence

import paver
from tests.runners import package_around
from tests.runners.package_test import PackageTest, command
from tests.runners.running import SECONDS, TOP, made_cases, main, rows

PAGE = TOP / "docs" / "CONTROL.md"
NEAR = 1e-3  # of the border, points are left out
AXES = "pig"  # the variables of a made plant
SIDE = 10  # values of each at a plant: so 1,000 points
ROUNDED = 1e-11  # of the sum of all terms' sizes: floats err by less, with a thousand operations
Point = Mapping[str, Fraction]
Coefficients = list[Fraction]


class Written:
    """The constraints of a text, as functions of a point."""

    def __init__(self, text: str) -> None:
        plain = re.sub(r"//[^\n]*", "", text)
        functions = re.findall(r"function (\w+)\(([^)]*)\)\s*return ([^;]*);\s*end", plain)
        relations = [c.strip() for c in plain[plain.index("Constraints") + 11:].split(";")[:-1]]
        self.known: dict[str, Any] = {"F": Fraction}
        for name, names, body in functions:
            exec(f"def {name}({names}): return {self.python(body)}", self.known)
        self.codes = [compile(self.python(c), "constraint", "eval") for c in relations]
        self.floats = self.in_floats(functions, relations, "-")
        self.sizes = self.in_floats(functions, relations, "+")

    @staticmethod
    def python(text: str) -> str:
        text = re.sub(r"\^(\d+)", r"**int('\1')", text)
        return re.sub(r"(?<![\w'.])(\d+(?:\.\d+)?(?:e\d+)?)", r"F('\1')", text)

    @staticmethod
    def in_floats(functions: list[tuple[str, str, str]], relations: list[str], minus: str) -> list[tuple[str, Any]]:
        """The relation of each constraint, and the function of floats by which its left side is above its right side; with
        `+` in place of `-` it is the sum of the sizes of all terms."""
        known: dict[str, Any] = {}
        for name, names, body in functions:
            exec(f"def {name}({names}): return {body.replace('^', '**').replace('-', minus)}", known)
        found = []
        for c in relations:
            left, relation, right = re.split(r"\s(<=|>=|<|>)\s", c)
            plain = f"({left}) - ({right})".replace("^", "**").replace("-", minus)
            found.append((relation, eval(f"lambda {', '.join(AXES)}: {plain}", known)))
        return found

    def holds(self, point: Point) -> bool:
        return all(eval(code, self.known, dict(point)) for code in self.codes)

    def holds_by_floats(self, point: tuple[float, float, float]) -> bool:
        """The same at a point of AXES in floats, each a dyadic number of few bits: what rounding could change is asked
        exactly."""
        sizes = [abs(x) for x in point]
        for k, (relation, value) in enumerate(self.floats):
            found = value(*point)
            if abs(found) <= ROUNDED * self.sizes[k][1](*sizes):
                if not eval(self.codes[k], self.known, dict(zip(AXES, map(Fraction, point)))):
                    return False
            elif (found > 0) != (relation[0] == ">"):
                return False
        return True


def multiplied(a: Coefficients, b: Coefficients) -> Coefficients:
    found = [Fraction(0)] * (len(a) + len(b) - 1)
    for i, x in enumerate(a):
        for j, y in enumerate(b):
            found[i + j] += x * y
    return found


def added(a: Coefficients, b: Coefficients) -> Coefficients:
    size = max(len(a), len(b))
    return [x + y for x, y in zip(a + [Fraction(0)] * (size - len(a)), b + [Fraction(0)] * (size - len(b)))]


def roots_of(a: Sequence[float | Fraction], near: Sequence[complex] = ()) -> list[complex]:
    """All roots in floats, by Durand and Kerner; from the roots of a polynomial nearby where they are given, moved off the
    real axis, which real ones would never leave."""
    b = [float(c / a[-1]) for c in a[-2::-1]]
    radius = 1 + max(map(abs, b))
    around = [cmath.rect(1, 0.7 + 2 * math.pi * k / len(b)) for k in range(len(b))]
    roots = [z + 0.01 * turn for z, turn in zip(near, around)] or [min(radius, 2) * turn for turn in around]
    for _ in range(300):
        most = 0.0
        for i, z in enumerate(roots):
            value, below = 1 + 0j, 1 + 0j
            for c in b:
                value = value * z + c
            for other in roots[:i]:
                below *= z - other
            for other in roots[i + 1:]:
                below *= z - other
            step = value / (below or 1e-30)
            roots[i], most = z - step, max(most, abs(step) / max(1, abs(z)))
        if most < 1e-10:  # the next step is its square
            break
    return roots if most < 1e-6 or not near else roots_of(a)


def text_of(a: Coefficients, name: str) -> str:
    return " + ".join(f"({c.numerator}/{c.denominator})*{name}^{k}" for k, c in enumerate(a))


def made_polynomial(source: random.Random, degree: int) -> Coefficients:
    """A product of factors with roots of some size, most of them left of 0."""
    found = [Fraction(1)]
    while len(found) <= degree:
        real = Fraction(source.randint(-16, 3), 8)
        if degree - len(found) >= 1 and source.random() < 0.5:
            found = multiplied(found, [real ** 2 + Fraction(source.randint(1, 16), 8) ** 2, -2 * real, Fraction(1)])
        else:
            found = multiplied(found, [-real, Fraction(1)])
    return found


def excess(kind: str, number: float, root: complex) -> float:
    """How far a root is outside the region that is asked for."""
    if kind == "damping":
        return number + root.real / abs(root) if abs(root) > 1e-6 else 0.0
    if kind in ("radius", "stable in z"):
        return abs(root) - (number if kind == "radius" else 1)
    return root.real + (number if kind == "shift" else 0)


def walk(source: random.Random) -> Iterator[tuple[float, float, float]]:
    """The points of a grid of drawn values of p, i and g, in an order in which each is near the last one."""
    values = [[source.randint(low, high) / 64 for _ in range(SIDE)] for low, high in ((-128, 256), (-128, 256), (32, 96))]
    first, second, third = map(sorted, values)
    for p in first:
        second.reverse()
        for i in second:
            third.reverse()
            for g in third:
                yield p, i, g


# A text, the variables' grids, whether a point is in the published region, and the source.
BOOKS: list[tuple[str, str, Callable[..., bool]]] = [
    ("Franklin, Powell, Emami-Naeini, Feedback Control of Dynamic Systems, example on K: K > 7.5",
     "gain K in [-2, 20]\nP = (s + 1)/(s*(s - 1)*(s + 6))\nC = K\nstable", lambda K: K > Fraction(15, 2)),
    ("Franklin, Powell, Emami-Naeini, the PI controller of 1/((s + 1)(s + 2)): KI > 0, K > KI/3 - 2",
     "gain K in [-4, 6]\ngain KI in [-3, 12]\nP = 1/((s + 1)*(s + 2))\nC = K + KI/s\nstable",
     lambda K, KI: KI > 0 and K > KI / 3 - 2),
    ("Ogata, Modern Control Engineering, Routh's criterion: 0 < K < 14/9",
     "gain K in [-1, 3]\nP = 1/(s*(s^2 + s + 1)*(s + 2))\nC = K\nstable", lambda K: 0 < K < Fraction(14, 9)),
    ("Dorf, Bishop, Modern Control Systems, welding head: K < 60, a < (60 - K)(K + 6)/(36 K)",
     "gain K in [1, 80]\ngain a in [0, 4]\nP = 1/(s*(s + 1)*(s + 2)*(s + 3))\nC = K*(s + a)\nstable",
     lambda K, a: K < 60 and 0 < a < (60 - K) * (K + 6) / (36 * K)),
    ("Jury, Theory and Application of the z-Transform Method, the triangle of the second order",
     "gain a in [-3, 3]\ngain b in [-2, 2]\npolynomial = z^2 + a*z + b\nstable", lambda a, b: abs(b) < 1 and abs(a) < 1 + b),
    ("Ogata, Discrete-Time Control Systems, Jury's test: 0 < K < 2.3925",
     "gain K in [-1, 4]\nP = (0.3679*z + 0.2642)/((z - 0.3679)*(z - 1))\nC = K\nstable",
     lambda K: 0 < K < (1 - Fraction(3679, 10000)) / Fraction(2642, 10000)),
    ("Anderson, Jury, Mansour, On robust Hurwitz polynomials, 1987: of the third order one polynomial suffices",
     "gain K in [-2, 10]\nuncertain a in [2, 3]\nuncertain b in [3, 4]\nuncertain c in [0, 1]\n"
     "P = 1/(s^3 + a*s^2 + b*s + c)\nC = K\nstable", lambda K: 0 < K < 2 * 3 - 1),
    ("the damping of the second order, 1/(2 sqrt(K)) > 1/2",
     "gain K in [-1, 3]\nP = 1/(s*(s + 1))\nC = K\ndamping 0.5", lambda K: 0 < K < 1),
    ("the gain margin of K/(s (s + 1) (s + 2)): 6/K > 2",
     "gain K in [0.5, 8]\nP = 1/(s*(s + 1)*(s + 2))\nC = K\ngain_margin 2\nstable", lambda K: 2 * K < 6),
]

HEAD = "gain k in [0, 2]\nP = 1/(s + 1)^3\nC = k\n"
REFUSED = [
    ("nothing asked", HEAD, 3, "nothing is asked"), ("no loop", "gain k in [0, 1]\nstable", 1, "a plant"),
    ("unknown", "P = q/s", 1, "`q` is no gain"), ("domain", "gain k in [2, 1]", 1, "low to high"),
    ("name", "gain s in [0, 1]", 1, "meaning of its own"), ("twice", "gain k in [0, 1]\ngain k in [0, 1]", 2, "defined above"),
    ("zero", "P = 1/(s - s)", 1, "division by 0"), ("power", "P = s^9", 1, "whole exponent"),
    ("end", "gain k in [0, 1] and", 1, "line's end"), ("both", "P = 1/s\nC = 1/z\nstable", 2, "both s and z"),
    ("degree", "gain k in [0, 1]\nP = k/(s + 1)^8\nC = 1/s\nstable", 3, "degree 9"),
    ("radius", HEAD + "radius 0.5", 4, "loop in z"), ("damping", HEAD + "damping 2", 4, "no ratio"),
    ("margin", HEAD + "phase_margin 30 for w in [0, 9]", 4, "ask `stable`"), ("band", HEAD + "S <= 2", 4, "`for` is expected"),
    ("open", "gain k in [0, 1]\npolynomial = s + k\nT <= 2 for w in [0, 1]", 3, "a polynomial is given"),
    ("variables", "".join(f"gain k{i} in [0, 1]\n" for i in range(13)) + "P = 1/s\nC = k0\nstable", 16, "13 variables"),
    ("deep", "P = " + "("*60 + "s" + ")"*60, 1, "nested"),
    ("terms", "".join(f"gain k{i} in [0, 1]\n" for i in range(9)) + "P = (" + "+".join(f"k{i}" for i in range(9)) + " + s)^8",
     10, "terms"),
    ("long", "".join(f"gain k{i} in [0, 1]\n" for i in range(8)) + "polynomial = s^8 + "
     + " + ".join(f"k{i}*s^{i}" for i in range(8)) + "\ndamping 0.5", 10, "terms"),
]


class Control(PackageTest):
    """What `control` writes."""

    def check_plant(self, source: random.Random, number: int) -> int:
        """A made plant with two gains and one parameter: constraints and roots agree at drawn points. How many there were."""
        sampled = number % 3 == 2
        name, degree = ("z" if sampled else "s"), source.choice([1, 2, 2, 3, 3, 4, 5] if number % 10 else [7])
        kind = source.choice(["stable", "radius"] if sampled else ["stable", "shift", "damping"] if degree < 5 else ["stable"])
        asked = {"shift": Fraction(1, 8), "radius": Fraction(3, 4), "damping": Fraction(3, 8)}.get(kind, Fraction(0))
        below = made_polynomial(source, degree)
        if sampled:
            below = [c / 2 ** (degree - k) for k, c in enumerate(below)]
        above = made_polynomial(source, source.randint(0, degree - 1))
        text = f"gain p in [-2, 4]\ngain i in [-2, 4]\nuncertain g in [0.5, 1.5]\nP = g*({text_of(above, name)})/" \
               f"({text_of(below, name)})\nC = p + i/({name}{' - 1' if sampled else ''})\n{kind} {float(asked) or ''}\n"
        found = paver.control_text(text, theorems=False)
        if number % 5 == 0:
            self.assertEqual(len(paver.check_text(found.text).constraints), len(found.constraints))
        integrator = [Fraction(-1 if sampled else 0), Fraction(1)]
        parts = [list(map(float, added(part, [Fraction(0)] * (degree + 2)))) for part in
                 (multiplied(below, integrator), multiplied(above, integrator), above)]
        asked_kind = f"{kind} in z" if sampled and kind == "stable" else kind
        written, points, roots = Written(found.text), 0, []  # type: Written, int, list[complex]
        for p, i, g in walk(source):
            roots = roots_of([a + g * (p * b + i * c) for a, b, c in zip(*parts)], roots)
            far = max([excess(asked_kind, float(asked), z) for z in roots])
            if abs(far) > NEAR:
                points += 1
                self.assertEqual(written.holds_by_floats((p, i, g)), far < 0, (text, p, i, g, far))
        return points

    def test_plants(self) -> None:
        count, seed = made_cases(200)
        source, points = random.Random(seed), 0
        for number in range(count):
            points += self.check_plant(source, number)
        self.assertGreater(points, 0.95 * SIDE ** 3 * count)

    def test_books(self) -> None:
        """Published regions, at points of a grid that meets no border."""
        for name, text, region in rows(BOOKS):
            with self.subTest(name):
                found = paver.control_text(text)
                self.assertEqual(found.for_all, [])  # the margin's factor stands in one coefficient, as an interval
                written, counts = Written(found.text), {True: 0, False: 0}
                gains = re.findall(r"gain (\w+) in \[([^,]*), ([^\]]*)\]", text)
                grids = [[Fraction(low) + (Fraction(high) - Fraction(low)) * Fraction(2 * k + 1, 61) for k in range(30)]
                         for _, low, high in gains]
                for values in product(*grids):
                    point = dict(zip([name for name, *_ in gains], values))
                    holds = written.holds(point)
                    self.assertEqual(holds, region(**point), point)
                    counts[holds] += 1
                self.assertGreater(min(counts.values()), 0, counts)

    def test_families(self) -> None:
        """Kharitonov's and edge polynomials: with a gain all hold exactly if the family's corners, or its edges, are stable."""
        texts = {False: "s^4 + a*s^3 + (b + 2)*s^2 + (c + k)*s + 1", True: "s^4 + 3*a*s^3 + (a + b + 1)*s^2 + (b*k + a)*s + k"}
        box = {"a": (1, 2), "b": (2, 3), "c": (1, 2)}
        for along, polynomial in texts.items():
            names = "ab" if along else "abc"
            lines = [f"uncertain {name} in [{box[name][0]}, {box[name][1]}]" for name in names]
            found = paver.control_text("\n".join(["gain k in [-2, 12]", *lines, f"polynomial = {polynomial}", "stable"]))
            self.assertEqual(found.for_all, ["edge"] if along else [])
            written, counts = Written(found.text), {True: 0, False: 0}
            for step in range(40):
                k = Fraction(-2) + Fraction(14 * step + 5, 40)
                worst = max(z.real for corner in self.corners([box[name] for name in names], along)
                            for z in roots_of(self.member(along, k, *corner)))
                if abs(worst) > 1e-2:
                    holds = all(written.holds({"k": k, "edge": Fraction(e, 20)}) for e in (range(21) if along else [0]))
                    self.assertEqual(holds, worst < 0, (polynomial, k, worst))
                    counts[holds] += 1
            self.assertGreater(min(counts.values()), 3, counts)

    @staticmethod
    def corners(ends: list[tuple[int, int]], along: bool) -> list[tuple[Fraction, ...]]:
        """The corners of a box of parameters, and points of its edges."""
        found = [tuple(map(Fraction, corner)) for corner in product(*ends)]
        for i in range(len(ends) if along else 0):
            found += [corner[:i] + (ends[i][0] + Fraction(step, 20),) + corner[i + 1:] for corner in found[:2 ** len(ends)]
                      for step in range(1, 20)]
        return found

    @staticmethod
    def member(along: bool, k: Fraction, a: Fraction, b: Fraction, c: Fraction = Fraction(0)) -> Coefficients:
        one = Fraction(1)
        return [k, b * k + a, a + b + 1, 3 * a, one] if along else [one, c + k, b + 2, a, one]

    def test_bands(self) -> None:
        """Gains of S and T and the phase margin's condition, beside complex numbers, in s and in z."""
        asks: list[tuple[str, Callable[[complex], float]]] = [
            ("S <= 1.1", lambda loop: 1.1 - abs(1 / (1 + loop))), ("T <= 0.5", lambda loop: 0.5 - abs(loop / (1 + loop))),
            ("stable\nphase_margin 40", lambda loop: max(abs(abs(loop) ** 2 - 1), loop.real + math.cos(math.radians(40))))]
        source = random.Random(2)
        for name, (ask, slack) in product("sz", asks):
            plant = f"1/(({name} + 0.5)*({name}^2 + 0.25*{name} + 0.125))"
            text = f"gain k in [0, 4]\nP = {plant}\nC = k\n{ask} for w in [0.1, 3]\n"
            found = paver.control_text(text)
            constraint = found.text[:found.text.index("Constraints")] + f"Constraints {found.constraints[-1].text};"
            written, counts, axis = Written(constraint), {True: 0, False: 0}, found.for_all[0]
            for _ in range(300):
                k, x = Fraction(source.randint(1, 64), 16), Fraction(source.randint(4, 60), 32)
                u = complex(0, float(x)) if name == "s" else cmath.exp(2j * math.atan(x))
                far = slack(float(k) / ((u + 0.5) * (u ** 2 + 0.25 * u + 0.125)))
                if abs(far) > 1e-4:
                    holds = written.holds({"k": k, axis: x})
                    self.assertEqual(holds, far > 0, (text, k, x, far))
                    counts[holds] += 1
            self.assertGreater(counts[True], 20, (text, counts))
            self.assertGreaterEqual(counts[False], 0 if "phase" in ask else 20, (text, counts))

    def test_none(self) -> None:
        """A condition that no gain meets is written, and the program finds no box."""
        text = paver.control_text("gain k in [0, 4]\npolynomial = s^2 - s + k\nstable").text
        counts = paver.run_text(text, eps=1).paving().counts()
        self.assertEqual({kind for kind, count in counts.items() if count}, {"settled", "removed"})

    def test_degree_eight(self) -> None:
        """The greatest degree fits: a chain of eight lags is stable from -1 to sec(pi/8)^8, where its phase is -pi."""
        text = "gain k in [-2, 4]\nP = 1/(s + 1)^8\nC = k\nstable"
        written, most = Written(paver.control_text(text).text), (1 / math.cos(math.pi / 8)) ** 8
        for step in range(60):
            k = Fraction(step, 10) - 2 + Fraction(1, 37)
            self.assertEqual(written.holds({"k": k}), -1 < k < most, k)

    def test_refused(self) -> None:
        """One line with place and cause, and nothing written."""
        for name, text, row, cause in rows(REFUSED):
            with self.subTest(name), tempfile.TemporaryDirectory() as folder:
                path = Path(folder) / "loop.txt"
                path.write_text(text)
                status, out, err = command("control", path)
                self.assertEqual((status, out, err.count("\n")), (3, "", 1), err)
                self.assertTrue(err.startswith(f"control {path}: line {row} column "), err)
                self.assertIn(cause, err)

    def test_to_tolerance(self) -> None:
        """From a plant to boxes of gains that are sure for all parameters."""
        with tempfile.TemporaryDirectory() as folder:
            loop, system = Path(folder) / "loop.txt", Path(folder) / "loop.mbx"
            loop.write_text("gain K in [0, 4]\ngain KI in [0, 4]\nuncertain g in [0.5, 1]\nP = g/((s + 1)*(s + 2))\n"
                            "C = K + KI/s\nstable\nS <= 2 for w in [0.5, 2]\n")
            status, out, err = command("control", loop)
            self.assertEqual((status, err), (0, ""))
            system.write_text(out)
            found = paver.robust(system, paver.control(loop).for_all, eps="0.25", boxes=20000)
            self.assertEqual(found.names, ["K", "KI"])
            self.assertGreater(len(found.sure), 0)
            for region in found.sure:
                K, KI = (float(x) for x in region.box.centre)
                for g, w in product((0.5, 0.75, 1.0), (0.5, 1.0, 1.5, 2.0)):
                    s = 1j * w
                    self.assertLessEqual(abs(1 / (1 + g * (K + KI / s) / ((s + 1) * (s + 2)))), 2)
                    self.assertGreater(3 * (2 + g * K), g * KI)
            answer = paver.run(system, eps="0.5", boxes=20000)
            self.assertGreater(answer.paving().counts()["inner"], 0)

    def test_page(self) -> None:
        """What CONTROL.md shows of commands is what they print."""
        text = PAGE.read_text()
        shown = list(package_around.commands_of(text))
        files = re.findall(r"^`(\w+\.txt)`:\n\n```\n(.*?)^```", text, re.M | re.S)
        self.assertGreaterEqual(len(shown), 3)
        self.assertGreaterEqual(len(files), 1)
        with tempfile.TemporaryDirectory() as folder:
            for name, lines in files:
                (Path(folder) / name).write_text(lines)
            environment = {**os.environ, "PYTHONPATH": str(TOP / "python"),
                           "PATH": f"{Path(sys.executable).parent}:{os.environ['PATH']}"}
            for words, told, lines in shown:
                words = words.replace("./paver", os.environ["PAVER"])
                done = subprocess.run(["bash", "-c", words], cwd=folder, capture_output=True, text=True, timeout=SECONDS,
                                      env=environment, check=False)
                answer = (done.returncode, done.stdout.splitlines())
                self.assertEqual(answer, (int(*told or ["0"]), lines), (words, done.stderr))


if __name__ == "__main__":
    main()
