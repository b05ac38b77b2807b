"""Checks of the systems that `robot` writes, beside kinematics in floats by the closed formulas of textbooks.

The formulas are those of Craig, Introduction to Robotics (planar arms, SCARA, the first three joints of a Puma), and for the
platform the places of its corners. None of them is the package's: it multiplies frames of Denavit and Hartenberg exactly.
"""
from __future__ import annotations

import math
import os
import random
import re
import subprocess
import tempfile
from collections.abc import Callable, Mapping, Sequence
from fractions import Fraction
from pathlib import Path
from typing import Any

import paver
from paver.robot import charts_of
from paver.robot_file import RobotRefused, read_text
from tests.reference import minibex
from tests.runners.package_around import commands_of
from tests.runners.package_test import PackageTest, command
from tests.runners.running import SECONDS, TOP, main, rows

POINTS = 10_000
CLOSE = 1e-9
Values = Mapping[str, float]
Test = Callable[[Sequence[float]], bool]

TWO = "chain\njoint q1 R a=1 qlim=-150,150\njoint q2 R a=0.8 qlim=-120,150\n"
THREE = "chain\njoint q1 R a=0.7\njoint q2 R a=0.5 qlim=-150,150\njoint q3 R a=0.3 qlim=-100,100\n"
SCARA = ("chain\njoint q1 R a=0.4 d=0.6 qlim=-120,120\njoint q2 R a=0.3 alpha=180 qlim=-140,140\njoint q3 P qlim=0,0.25\n"
         "joint q4 R\ntool z=0.1\n")
PUMA = "chain\njoint q1 R alpha=90\njoint q2 R a=0.43\njoint q3 R a=0.02 d=0.15 alpha=-90\njoint q4 R d=0.43 alpha=90\n"
RPR = """platform
leg l1 RPR base=0,0 corner=-0.5,-0.3 qlim=1,2
leg l2 RPR base=3,0 corner=0.5,-0.3 qlim=1,2
leg l3 RPR base=1.5,2.5 corner=0,0.6 qlim=1,2
turn qlim=-60,60
"""
FEET, CORNERS = ((0, 0), (3, 0), (1.5, 2.5)), ((-0.5, -0.3), (0.5, -0.3), (0, 0.6))
FIVE = "platform\nleg a RRR base=0,0 corner=0,0 links=1,1.25 qlim=0,180\nleg b RRR base=1,0 corner=0,0 links=1,1.25\n"


# ---- a constraint as a function of floats

def code(e: Any) -> str:
    """The Python text of an expression of the reference reader, over the list v."""
    kind, *rest = e
    if kind == "const":
        return f"({rest[0].numerator}/{rest[0].denominator})"
    if kind == "var":
        return f"v[{rest[0]}]"
    if kind == "^":
        return f"({code(rest[0])})**{rest[1]}"
    if kind in ("neg", "abs"):
        return f"(-{code(rest[0])})" if kind == "neg" else f"abs({code(rest[0])})"
    if kind in ("min", "max"):
        return f"{kind}({code(rest[0])}, {code(rest[1])})"
    return f"({code(rest[0])} {kind} {code(rest[1])})"


class Known:
    """A written system in floats: `off` says for a point by how much its worst constraint is missed."""

    def __init__(self, text: str) -> None:
        system = minibex.read(text)
        self.names = system.names
        parts = []
        for relation, left, right in system.constraints:
            difference = f"({code(left)}) - ({code(right)})"
            parts.append(f"abs({difference})" if relation == "=" else
                         difference if relation in ("<=", "<") else f"-({difference})")
        self.domains = [tuple(map(float, pair)) for pair in system.domains]
        self.worst: Callable[[Sequence[float]], float] = eval(f"lambda v: max({', '.join(parts)})")

    def off(self, values: Values) -> float:
        point = [values[name] for name in self.names]
        outside = max(max(low - x, x - high) for x, (low, high) in zip(point, self.domains))
        return max(self.worst(point), outside)


def circle(name: str, angle: float, half: bool = False, back: bool = False) -> dict[str, float]:
    """The variables of an angle in radians."""
    if half:
        return {f"t_{name}": math.tan((angle - (math.pi if back else 0)) / 2)}
    return {f"c_{name}": math.cos(angle), f"s_{name}": math.sin(angle)}


# ---- five robots by closed formulas: the tool from the joints

def planar(lengths: Sequence[float]) -> Callable[[Sequence[float]], tuple[float, ...]]:
    def tool(q: Sequence[float]) -> tuple[float, ...]:
        sums = [sum(q[:k + 1]) for k in range(len(lengths))]
        return (sum(a * math.cos(t) for a, t in zip(lengths, sums)), sum(a * math.sin(t) for a, t in zip(lengths, sums)))
    return tool


def scara(q: Sequence[float]) -> tuple[float, ...]:
    return (0.4 * math.cos(q[0]) + 0.3 * math.cos(q[0] + q[1]), 0.4 * math.sin(q[0]) + 0.3 * math.sin(q[0] + q[1]),
            0.6 - q[2] - 0.1)


def puma(q: Sequence[float]) -> tuple[float, ...]:
    """Shoulder height 0; the first axis is upright, and the second turns the arm up from the horizontal."""
    out = 0.43 * math.cos(q[1]) + 0.02 * math.cos(q[1] + q[2]) - 0.43 * math.sin(q[1] + q[2])
    up = 0.43 * math.sin(q[1]) + 0.02 * math.sin(q[1] + q[2]) + 0.43 * math.cos(q[1] + q[2])
    return (out * math.cos(q[0]) + 0.15 * math.sin(q[0]), out * math.sin(q[0]) - 0.15 * math.cos(q[0]), up)


FULL = (-180.0, 180.0)
ARMS: list[tuple[str, str, Callable[[Sequence[float]], tuple[float, ...]], list[tuple[float, float]], set[int]]] = [
    ("planar 2R", TWO, planar((1, 0.8)), [(-150, 150), (-120, 150)], set()),
    ("planar 3R", THREE, planar((0.7, 0.5, 0.3)), [FULL, (-150, 150), (-100, 100)], set()),
    ("SCARA", SCARA, scara, [(-120, 120), (-140, 140), (0, 0.25)], {2}),
    ("Puma", PUMA, puma, [FULL, FULL, FULL], set()),
]


Rows = Sequence[tuple[float, int, float]]  # a, alpha and d of revolute joints


def table(rows_of: Rows, form: str = "chain") -> str:
    return f"{form}\n" + "".join(f"joint q{k} R a={a} alpha={alpha} d={d}\n" for k, (a, alpha, d) in enumerate(rows_of, 1))


def frames(rows_of: Rows, q: Sequence[float], modified: bool = False) -> list[list[list[float]]]:
    """The frames of a table by products of matrices in floats, the base's first: the matrices as textbooks print them."""
    found = [[[float(i == k) for k in range(4)] for i in range(4)]]
    for angle, (a, alpha, d) in zip(q, rows_of):
        c, s, u, v = math.cos(angle), math.sin(angle), math.cos(math.radians(alpha)), math.sin(math.radians(alpha))
        step = [[c, -s * u, s * v, a * c], [s, c * u, -c * v, a * s], [0, v, u, d], [0, 0, 0, 1]]
        if modified:
            step = [[c, -s, 0, a], [s * u, c * u, -v, -v * d], [s * v, c * v, u, u * d], [0, 0, 0, 1]]
        found.append([[sum(found[-1][i][j] * step[j][k] for j in range(4)) for k in range(4)] for i in range(4)])
    return found


class Robots(PackageTest):
    """What robot writes."""

    def text(self, robot: str, **question: Any) -> str:
        with tempfile.TemporaryDirectory() as folder:
            path = Path(folder) / "robot.txt"
            path.write_text(robot)
            return paver.robot(path, **question)

    def check_arm(self, robot: str, tool: Callable[[Sequence[float]], tuple[float, ...]], limits: list[tuple[float, float]],
                  sliding: set[int]) -> None:
        """At random joints, a fifth of them beyond a limit, and with the tool there or pushed away, the system holds as the
        formula says."""
        known, source, counts = Known(self.text(robot, workspace=True)), random.Random(1), [0, 0, 0]
        for _ in range(POINTS):
            q = [source.uniform(*ends) if k in sliding else source.uniform(-180, 180) if source.random() < 0.1 else
                 source.uniform(*ends) for k, ends in enumerate(limits)]
            within = all(low - 1e-6 <= value <= high + 1e-6 for value, (low, high) in zip(q, limits))
            near = any(abs(value - end) < 1e-3 for k, (value, ends) in enumerate(zip(q, limits)) for end in ends
                       if k not in sliding and ends != FULL)
            if near:
                continue
            q = [value if k in sliding else math.radians(value) for k, value in enumerate(q)]
            pushed = source.random() < 0.25
            place = [value + pushed * source.choice((-1, 1)) * source.uniform(0.001, 0.1) for value in tool(q)]
            values = dict(zip("xyz", place))
            for k, value in enumerate(q):
                values.update({f"q{k + 1}": value} if k in sliding else circle(f"q{k + 1}", value))
            off = known.off(values)
            self.assertEqual(off <= CLOSE, within and not pushed, (q, pushed, off))
            counts[0 if off <= CLOSE else 1 if within else 2] += 1
        self.assertTrue(min(counts[:2]) > 1000 and sum(counts) > 0.95 * POINTS, counts)

    def test_arms(self) -> None:
        for name, *rest in rows(ARMS):
            with self.subTest(name):
                self.check_arm(*rest)

    def test_platform(self) -> None:
        """3-RPR: the legs' lengths by their ends, with a margin about the limits."""
        known, source, counts = Known(self.text(RPR, workspace=True)), random.Random(2), [0, 0]
        for _ in range(POINTS):
            x, y, turn = source.uniform(0.8, 2.2), source.uniform(0.2, 1.5), source.uniform(-1.15, 1.15)
            reach = [math.hypot(x + math.hypot(u, v) * math.cos(turn + math.atan2(v, u)) - a,
                                y + math.hypot(u, v) * math.sin(turn + math.atan2(v, u)) - b)
                     for (a, b), (u, v) in zip(FEET, CORNERS)]
            excess = max(max(1 - length, length - 2) for length in reach)
            excess = max(excess, abs(turn) - math.pi / 3)
            if abs(excess) < 1e-6:
                continue
            off = known.off({"x": x, "y": y, **circle("phi", turn)})
            self.assertEqual(off <= CLOSE, excess < 0, (x, y, turn, off))
            counts[excess < 0] += 1
        self.assertGreater(min(counts), 1000, counts)

    def test_half_angles(self) -> None:
        """Both charts of each joint of a Puma, and one of a 2R whose limits let one do."""
        charts = charts_of(read_text(PUMA))
        self.assertEqual((len(charts), charts_of(read_text(TWO))), (16, ["00"]))
        source = random.Random(3)
        for chart in ("000", "011", "110"):
            known = Known(self.text(PUMA, workspace=True, rotation="half", charts=chart + "0"))
            for _ in range(500):
                q = [source.uniform(-90, 90) + 180 * int(digit) for digit in chart]
                q = [math.radians(value) for value in q]
                values = dict(zip("xyz", puma(q)))
                for k, value in enumerate(q):
                    values.update(circle(f"q{k + 1}", value, True, chart[k] == "1"))
                self.assertLessEqual(known.off(values), CLOSE, (chart, q))
                values["z"] += 0.01
                self.assertGreater(known.off(values), 1e-4, (chart, q))

    def test_half_limits(self) -> None:
        """Limits that one chart holds stand in the domain."""
        known, source, counts = Known(self.text(TWO, workspace=True, rotation="half")), random.Random(11), [0, 0]
        for _ in range(1000):
            q = [source.uniform(-165, 165) for _ in range(2)]
            good = abs(q[0]) <= 150 and -120 <= q[1] <= 150
            q = [math.radians(value) for value in q]
            values = {**dict(zip("xy", planar((1, 0.8))(q))), **circle("q1", q[0], True), **circle("q2", q[1], True)}
            if min(abs(abs(value) - math.radians(end)) for value in q for end in (120, 150)) > 1e-6:
                self.assertEqual(known.off(values) <= CLOSE, good, q)
                counts[good] += 1
        self.assertGreater(min(counts), 100, counts)

    def test_inverse(self) -> None:
        """The two poses of a 2R by the closed formula, the cosine law, and no others on a grid of joints."""
        source = random.Random(4)
        for _ in range(30):
            x, y = Fraction(source.randrange(30, 120), 100), Fraction(source.randrange(-50, 50), 100)
            known = Known(self.text(TWO.replace("-120,150", "-150,150"), pose={"x": x, "y": y}))
            cosine = (float(x * x + y * y) - 1.64) / 1.6
            for sign in (-1, 1):
                second = sign * math.acos(cosine)
                first = math.atan2(y, x) - math.atan2(0.8 * math.sin(second), 1 + 0.8 * cosine)
                values = {**circle("q1", first), **circle("q2", second)}
                first = (first + math.pi) % (2 * math.pi) - math.pi
                good = max(abs(first), abs(second)) < math.radians(150)
                self.assertEqual(known.off(values) <= CLOSE, good, (x, y, sign))
                self.assertGreater(known.off({**values, **circle("q2", second + 0.01)}), 1e-4)

    def test_singular(self) -> None:
        """A 2R is singular where the sine of its second joint is 0; the determinant is a1 a2 sin q2."""
        known = {side: Known(self.text(TWO, singular="0.01", side=side)) for side in ("zero", "apart", "positive", "negative")}
        for k in range(-119, 150):
            for part in (0.0, 0.3):
                angle = math.radians(k + part)
                d = 0.8 * math.sin(angle)
                wanted = {"zero": abs(d) <= 0.01, "apart": abs(d) >= 0.01, "positive": d >= 0.01, "negative": d <= -0.01}
                for side, system in known.items():
                    self.assertEqual(system.names, ["c_q2", "s_q2"])
                    self.assertEqual(system.off(circle("q2", angle)) <= CLOSE, wanted[side], (k, part, side))

    def test_singular_puma(self) -> None:
        """The determinant by differences of the closed formula."""
        known, source, step = Known(self.text(PUMA, singular="0.02")), random.Random(5), 1e-5
        for _ in range(300):
            q = [source.uniform(-3, 3) for _ in range(3)]
            columns = []
            for k in range(3):
                ahead, back = (puma([value + sign * step * (i == k) for i, value in enumerate(q)]) for sign in (1, -1))
                columns.append([(a - b) / (2 * step) for a, b in zip(ahead, back)])
            (a, b, c), (d, e, f), (g, h, i) = columns
            found = a * (e * i - f * h) - b * (d * i - f * g) + c * (d * h - e * g)
            if abs(abs(found) - 0.02) > 1e-6:
                off = known.off({**circle("q2", q[1]), **circle("q3", q[2])})
                self.assertEqual(off <= CLOSE, abs(found) < 0.02, q)

    def test_clearance(self) -> None:
        """Links as 400 points each: where one is well inside an obstacle the system fails, and where all are well outside it
        holds."""
        obstacles = "disc x=1 y=0.5 r=0.3\nbox x=-0.9,-0.5 y=0.4,0.8\nradius 0.05\n"
        known, source, counts = Known(self.text(TWO + obstacles, clear=True)), random.Random(6), [0, 0]
        for _ in range(1000):
            q = [math.radians(source.uniform(-119, 119)) for _ in range(2)]
            ends = [(0.0, 0.0), (math.cos(q[0]), math.sin(q[0])), planar((1, 0.8))(q)]
            points = [(a[0] + k / 400 * (b[0] - a[0]), a[1] + k / 400 * (b[1] - a[1]))
                      for a, b in zip(ends, ends[1:]) for k in range(401)]
            apart = min(min(math.hypot(x - 1, y - 0.5) - 0.35,
                            max(abs(x + 0.7) - 0.25, abs(y - 0.6) - 0.25)) for x, y in points)
            if abs(apart) > 0.003:
                off = known.off({**circle("q1", q[0]), **circle("q2", q[1])})
                self.assertEqual(off <= CLOSE, apart > 0, (q, apart, off))
                counts[apart > 0] += 1
        self.assertGreater(min(counts), 100, counts)

    def test_platform_determinant(self) -> None:
        """Of a 3-RPR: the moments of the legs' lines are taken about the platform's centre."""
        known, source, counts = Known(self.text(RPR, singular="0.5", side="positive")), random.Random(14), [0, 0]
        for _ in range(2000):
            x, y, turn = source.uniform(0.8, 2.2), source.uniform(0.2, 1.5), source.uniform(-1, 1)
            lines = []
            for (a, b), (u, v) in zip(FEET, CORNERS):
                arm = u * math.cos(turn) - v * math.sin(turn), u * math.sin(turn) + v * math.cos(turn)
                dx, dy = x + arm[0] - a, y + arm[1] - b
                lines.append((dx, dy, arm[0] * dy - arm[1] * dx))
            if any(not 1.001 < math.hypot(dx, dy) < 1.999 for dx, dy, _ in lines):
                continue
            (a, b, c), (d, e, f), (g, h, i) = lines
            found = a * (e * i - f * h) - b * (d * i - f * g) + c * (d * h - e * g)
            if abs(found - 0.5) > 1e-6:
                off = known.off({"x": x, "y": y, **circle("phi", turn)})
                self.assertEqual(off <= CLOSE, found > 0.5, (x, y, turn, found, off))
                counts[found > 0.5] += 1
        self.assertGreater(min(counts), 20, counts)

    def test_five_bar(self) -> None:
        """A 5R: its tool from the elbows of both legs, and the determinant of its distal links."""
        known, source, counts = Known(self.text(FIVE, workspace=True, singular="0.5")), random.Random(7), [0, 0]
        for _ in range(1000):
            first, second = source.uniform(0.01, math.pi - 0.01), source.uniform(-math.pi, math.pi)
            a, b = (math.cos(first), math.sin(first)), (1 + math.cos(second), math.sin(second))
            gap = math.hypot(b[0] - a[0], b[1] - a[1])
            if not 0.001 < gap < 2.499:
                continue
            out = math.sqrt(1.25 ** 2 - gap * gap / 4) / gap
            x, y = (a[0] + b[0]) / 2 - out * (b[1] - a[1]), (a[1] + b[1]) / 2 + out * (b[0] - a[0])
            d = (x - a[0]) * (y - b[1]) - (y - a[1]) * (x - b[0])
            if abs(abs(d) - 0.5) < 1e-6:
                continue
            off = known.off({"x": x, "y": y, **circle("a", first), **circle("b", second)})
            self.assertEqual(off <= CLOSE, abs(d) < 0.5, (first, second, off))
            counts[off <= CLOSE] += 1
        self.assertGreater(min(counts), 10, counts)

    def test_fixed_angles(self) -> None:
        """An angle of 30 degrees is refused, or taken within the error that is said, and then still on the circle."""
        tilted = "chain\njoint q1 R alpha=30\njoint q2 R a=1\n"
        self.assert_raised(RobotRefused, lambda: self.text(tilted, workspace=True))
        text = self.text(tilted.replace("joint q1", "near 1e-9\njoint q1"), workspace=True)
        self.assertIn("30 degrees, by a rational point of the circle within 1e-9 rad", text)
        known, source = Known(text), random.Random(8)
        for _ in range(200):
            p, q = (source.uniform(-3, 3) for _ in range(2))
            u, v, w = math.cos(q), math.cos(math.pi / 6) * math.sin(q), math.sin(math.pi / 6) * math.sin(q)
            place = (math.cos(p) * u - math.sin(p) * v, math.sin(p) * u + math.cos(p) * v, w)
            self.assertLess(known.off({**dict(zip("xyz", place)), **circle("q1", p), **circle("q2", q)}), 4e-9)
            self.assertGreater(known.off({**dict(zip("xyz", place)), **circle("q1", p), **circle("q2", q + 0.01)}), 1e-4)

    def test_whole_pose(self) -> None:
        """Six joints with a wrist, the tool's place and axes: by products of matrices in floats."""
        rows_of = [(0.0, 90, 0.0), (0.43, 0, 0.0), (0.02, -90, 0.15), (0.0, 90, 0.43), (0.0, -90, 0.0), (0.0, 0, 0.1)]
        robot = table(rows_of).replace("chain", "chain\nnear 1e-12")
        source = random.Random(9)
        for _ in range(3):
            q = [source.uniform(-3, 3) for _ in rows_of]
            m = frames(rows_of, q)[-1]
            turns = {"yaw": math.atan2(m[1][0], m[0][0]), "pitch": math.atan2(-m[2][0], math.hypot(m[0][0], m[1][0])),
                     "roll": math.atan2(m[2][1], m[2][2])}
            pose = {**{axis: f"{m[i][3]:.12f}" for i, axis in enumerate("xyz")},
                    **{name: f"{math.degrees(value):.12f}" for name, value in turns.items()}}
            known = Known(self.text(robot, pose=pose))
            self.assertEqual(len(known.names), 12)
            values = {name: value for k, angle in enumerate(q, 1) for name, value in circle(f"q{k}", angle).items()}
            self.assertLessEqual(known.off(values), 1e-9)
            for k, angle in enumerate(q, 1):
                self.assertGreater(known.off({**values, **circle(f"q{k}", angle + 0.01)}), 1e-5, k)

    def test_modified(self) -> None:
        """Craig's form of the table."""
        rows_of = [(0.0, 0, 0.5), (0.1, -90, 0.0), (0.4, 0, 0.1), (0.05, 90, 0.3)]
        known, source = Known(self.text(table(rows_of, "chain modified"), workspace=True)), random.Random(12)
        for _ in range(500):
            q = [source.uniform(-3, 3) for _ in rows_of]
            values = {name: value for k, angle in enumerate(q, 1) for name, value in circle(f"q{k}", angle).items()}
            values.update(zip("xyz", (row[3] for row in frames(rows_of, q, True)[-1])))
            self.assertLessEqual(known.off(values), CLOSE, q)
            self.assertGreater(known.off({**values, "y": values["y"] + 0.01}), 1e-4, q)

    def test_clearance_in_space(self) -> None:
        """A ball and a box in space, beside 200 points of each link of an arm whose links meet at their ends."""
        rows_of = [(0.0, 90, 0.5), (0.4, 0, 0.0), (0.4, 0, 0.0)]
        obstacles = "ball x=0.4 y=0.3 z=0.6 r=0.2\nbox x=-0.6,-0.2 y=-0.3,0.1 z=0.6,1\n"
        known, source, counts = Known(self.text(table(rows_of) + obstacles, clear=True)), random.Random(13), [0, 0]
        for _ in range(600):
            q = [source.uniform(-3, 3) for _ in rows_of]
            ends = [[row[3] for row in frame[:3]] for frame in frames(rows_of, q)]
            points = [[a + k / 200 * (b - a) for a, b in zip(*pair)] for pair in zip(ends, ends[1:]) for k in range(201)]
            apart = min(min(math.dist(p, (0.4, 0.3, 0.6)) - 0.2,
                            max(abs(p[0] + 0.4) - 0.2, abs(p[1] + 0.1) - 0.2, abs(p[2] - 0.8) - 0.2)) for p in points)
            if abs(apart) > 0.003:
                values = {name: value for k, angle in enumerate(q, 1) for name, value in circle(f"q{k}", angle).items()}
                self.assertEqual(known.off(values) <= CLOSE, apart > 0, (q, apart))
                counts[apart > 0] += 1
        self.assertGreater(min(counts), 50, counts)

    def test_lengths(self) -> None:
        """The legs' lengths of a pose have that pose among theirs; a step away they differ."""
        source = random.Random(10)
        for _ in range(20):
            x, y, turn = source.uniform(1, 2), source.uniform(0.5, 1.2), source.uniform(-0.5, 0.5)
            lengths = {}
            for name, (a, b), (u, v) in zip(("l1", "l2", "l3"), FEET, CORNERS):
                c, s = math.cos(turn), math.sin(turn)
                lengths[name] = f"{math.hypot(x + u * c - v * s - a, y + u * s + v * c - b):.15f}"
            known = Known(self.text(RPR.replace("qlim=1,2", "qlim=0.2,4"), lengths=lengths))
            self.assertLessEqual(known.off({"x": x, "y": y, **circle("phi", turn)}), CLOSE)
            self.assertGreater(known.off({"x": x, "y": y, **circle("phi", turn + 0.01)}), 1e-5)

    def test_refused(self) -> None:
        """One line with the place and the cause."""
        pose = {"x": "0.5", "y": "0"}
        cases: list[tuple[str, dict[str, Any], str]] = [
            ("joint q1 R", {}, "line 1: `chain` or `platform` comes first"),
            ("chain\njoint q1 R a=1 b=2", {}, "line 2: `b=` is nothing that this `joint` has"),
            ("chain\njoint q1 R theta=20", {}, "line 2: joint `q1`: `theta=` is what this joint moves"),
            ("chain\njoint q1 P", {}, "line 2: `qlim=`: two numbers"),
            ("chain\njoint q1 R a=1/0", {}, "line 2: `1/0`: a number"),
            ("chain\njoint sin R", {}, "line 2: `sin` is no name"),
            ("chain\njoint q R\njoint q R", {}, "line 3: `q` is named already"),
            ("chain\njoint q1 R qlim=3,1", {}, "line 2: `qlim=`: the first number has to be below"),
            (TWO, {}, "nothing is asked"), (TWO, {"pose": {"x": 1}}, "the tool's y moves: give y="),
            (TWO, {"pose": {**pose, "z": 1}}, "pose z=1: the tool's z is always 0"),
            (TWO, {"clear": True}, "there is no disc, ball or box"),
            (PUMA, {"workspace": True, "rotation": "half"}, "joint q1 goes beyond 165 degrees"),
            (TWO + "joint q3 R a=1\njoint q4 R a=1\njoint q5 R a=1\njoint q6 R a=1\n", {"workspace": True},
             "14 variables, where a system has at most 12"),
            (RPR, {"lengths": {"l1": 1}}, "one for each RPR leg is expected"),
        ]
        for robot, question, phrase in cases:
            with self.subTest(phrase):
                with self.assertRaises(RobotRefused) as raised:
                    self.text(robot, **question)
                self.assertIn(phrase, str(raised.exception))
                self.assertNotIn("\n", str(raised.exception))

    def test_page(self) -> None:
        """Each command of the page prints what stands below it."""
        with tempfile.TemporaryDirectory() as folder:
            page = (TOP / "docs" / "ROBOT.md").read_text()
            shown = list(commands_of(page))
            self.assertGreaterEqual(len(shown), 3)
            (Path(folder) / "crane.txt").write_text(re.search(r"^```\n(chain.*?)^```", page, re.M | re.S).group(1))
            for words, told, lines in shown:
                done = subprocess.run(["bash", "-c", words], cwd=folder, capture_output=True, text=True, timeout=SECONDS,
                                      check=False, env={**os.environ, "PYTHONPATH": str(TOP / "python")})
                with self.subTest(words):
                    self.assertEqual((done.returncode, [line.strip() for line in (done.stdout + done.stderr).splitlines()]),
                                     (int(*told or ["0"]), lines))

    def test_program(self) -> None:
        """From the file to the two poses of an arm, by the command and the program."""
        with tempfile.TemporaryDirectory() as folder:
            path = Path(folder) / "arm.txt"
            path.write_text("chain\njoint q1 R a=1\njoint q2 R a=0.8\n")
            status, out, err = command("robot", path, "--pose", "x=1,y=0.5")
            self.assertEqual((status, err), (0, ""))
            system = Path(folder) / "arm.mbx"
            system.write_text(out)
            answer = paver.run(system, eps="0.05")
            paving = answer.paving()
            cosine = (1.25 - 1.64) / 1.6
            for sign in (-1, 1):
                second = sign * math.acos(cosine)
                first = math.atan2(0.5, 1) - math.atan2(0.8 * math.sin(second), 1 + 0.8 * cosine)
                point = {**circle("q1", first), **circle("q2", second)}
                self.assertTrue(paving.where(point) & {"inner", "small"}, (point, paving))
            self.assertEqual((answer.complete, len(paving.clusters())), (True, 2))
            status, out, err = command("robot", path, "--pose", "x=1")
            self.assertEqual((status, out), (2, ""))
            self.assertIn("give y=", err)
            folders = Path(folder) / "charts"
            status, out, err = command("robot", path, "--workspace", "--rotation", "half", "--folder", folders)
            self.assertEqual((status, len(out.splitlines()), len(list(folders.iterdir()))), (0, 4, 4), err)
            for name in out.splitlines():
                self.assertEqual(paver.check(name).names, ["x", "y", "t_q1", "t_q2"])


if __name__ == "__main__":
    main()
