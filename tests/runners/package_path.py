"""Checks of `path`: each segment lies in inner boxes by exact fractions of the test's own, no corner is a passage, and none is
found where there is none."""
from __future__ import annotations

import csv
import json
import math
import os
import random
import re
import subprocess
import tempfile
from fractions import Fraction
from itertools import product
from pathlib import Path
from typing import Any, Callable, Optional, Sequence

import paver
from paver.packed import packed
from tests.runners.package_around import commands_of
from tests.runners.package_test import PackageTest, command, example
from tests.runners.running import PROGRAM, SECONDS, TOP, main

Pairs = tuple[tuple[Any, Any], ...]
Exact = tuple[Fraction, ...]
SQUARE: Pairs = ((Fraction(-2), Fraction(2)),) * 2
CUBE: Pairs = ((Fraction(-2), Fraction(2)),) * 3


def word(value: Fraction) -> str:
    """A dyadic number as files have it."""
    mantissa, exponent = value.numerator, 1 - value.denominator.bit_length()
    while mantissa and mantissa % 2 == 0:
        mantissa, exponent = mantissa // 2, exponent + 1
    return f"{mantissa}:{exponent if mantissa else 0}"


def made(is_inner: Callable[[Pairs], Optional[bool]], root: Pairs, eps: Fraction) -> paver.Paving:
    """A paving by bisection: a box is inner, removed or, where nothing is said of it, cut in halves, and small in the end."""
    lines, waiting = [], [root]
    while waiting:
        box = waiting.pop()
        said, ends = is_inner(box), " ".join(word(end) for pair in box for end in pair)
        k = max(range(len(box)), key=lambda k: box[k][1] - box[k][0])
        low, high = box[k]
        if said is not None or high - low <= eps:
            lines.append("X" if said is False else f"{'I' if said else 'S'} {ends}")
            continue
        middle = (low + high) / 2
        lines.append(f"C {k} {word(middle)} {ends}")
        waiting += [(*box[:k], (middle, high), *box[k + 1:]), (*box[:k], (low, middle), *box[k + 1:])]
    names = list("xyzw")[:len(root)]
    return paver.Paving.from_text("\n".join(["paving 1", f"identity {'0' * 64}", *lines, ""]), root=root, names=names)


def of_cells(cells: Sequence[str]) -> paver.Paving:
    """A paving of unit squares that is drawn, the top row first: # inner, ? small, blank removed."""
    size, signs = len(cells), {"#": True, " ": False, "?": None}

    def is_inner(box: Pairs) -> Optional[bool]:
        if any(high - low > 1 for low, high in box):
            return None
        (x, _), (y, _) = box
        return signs[cells[size - 1 - int(y)][int(x)]]

    return made(is_inner, ((Fraction(0), Fraction(size)),) * 2, Fraction(1))


def clear_of(*balls: tuple[Sequence[Any], Any]) -> Callable[[Pairs], Optional[bool]]:
    """Whether a box is outside all balls, given by middle and radius, or within one of them."""
    def is_inner(box: Pairs) -> Optional[bool]:
        is_clear: Optional[bool] = True
        for middle, radius in balls:
            sides = list(zip(box, middle))
            if sum(max(abs(low - x), abs(high - x)) ** 2 for (low, high), x in sides) < radius ** 2:
                return False
            if sum(max(low - x, 0, x - high) ** 2 for (low, high), x in sides) < radius ** 2:
                is_clear = None
        return is_clear
    return is_inner


def stretch(first: Exact, second: Exact, box: Pairs) -> Optional[tuple[Fraction, Fraction]]:
    """From which share of a segment to which it lies in a box; None where it doesn't meet it."""
    begun, ended = Fraction(0), Fraction(1)
    for a, b, (low, high) in zip(first, second, box):
        if a == b:
            if not low <= a <= high:
                return None
        else:
            shares = sorted([Fraction(low - a) / (b - a), Fraction(high - a) / (b - a)])
            begun, ended = max(begun, shares[0]), min(ended, shares[1])
    return (begun, ended) if begun <= ended else None


class Paths(PackageTest):
    """Paths through inner boxes."""

    def assert_within(self, found: paver.Path, paving: paver.Paving) -> None:
        """That a path has exact points from its start to its goal, that each segment lies in inner boxes of the paving, and
        that its parts follow each other through boxes that share a face: by all inner boxes, not by those that it names."""
        bound = Fraction(10 ** 6)  # stands for infinite ends
        inner = [tuple((max(low, -bound), min(high, bound)) for low, high in box.exact) for box in paving.inner()]
        self.assertIs(found.verdict, paver.Verdict.PATH)
        self.assertEqual((found.points[0], found.points[-1]), (found.start, found.goal))
        self.assertTrue(all(type(x) is Fraction for point in found.points for x in point))
        reached = {k for k, box in enumerate(inner) if stretch(found.start, found.start, box)}
        for first, second in zip(found.points, found.points[1:]):
            parts = {k: part for k, box in enumerate(inner) for part in [stretch(first, second, box)] if part}
            at, behind = Fraction(0), {k for k in reached if k in parts and parts[k][0] == 0}
            while True:
                grown = set(behind)
                for k in behind:
                    grown |= {j for j in parts if parts[j][0] <= parts[k][1] and parts[j][1] >= at
                              and self.share_face(inner[k], inner[j]) and max(parts[j][0], at) <= parts[k][1]}
                if grown == behind:
                    break
                behind = grown
            self.assertTrue(any(parts[k][1] == 1 for k in behind), (first, second))
            reached = {k for k in behind if parts[k][1] == 1}
        known = set(paving.inner())
        self.assertTrue(all(box in known for some in found.boxes for box in some))

    @staticmethod
    def share_face(first: Pairs, second: Pairs) -> bool:
        widths = [min(b, d) - max(a, c) for (a, b), (c, d) in zip(first, second)]
        return min(widths) >= 0 and widths.count(0) <= 1

    def assert_none(self, found: paver.Path, verdict: paver.Verdict) -> None:
        self.assertEqual((found.verdict, found.points, found.boxes), (verdict, [], []))

    def test_around_a_disc(self) -> None:
        """In two variables, at random points: longer than the way by two tangents and an arc, and not by much."""
        source, paving = random.Random(1), made(clear_of(((0, 0), 1)), SQUARE, Fraction(1, 32))
        for _ in range(30):
            ends = [(Fraction(source.randint(-200, 200), 100), Fraction(source.choice([-1, 1]) * source.randint(120, 200), 100))
                    for _ in range(2)]
            found = paving.path(*ends)
            self.assert_within(found, paving)
            least = self.around_disc(*ends)
            with self.subTest(str(ends)):
                self.assertTrue(least - 1e-9 <= found.length <= 1.2 * least + 0.1, (found.length, least))

    @staticmethod
    def around_disc(first: Exact, second: Exact) -> float:
        """How long the shortest way around the unit disc is: straight, or two tangents and the arc between them."""
        a, b = [float(x) for x in first], [float(x) for x in second]
        along = [y - x for x, y in zip(a, b)]
        square = sum(d * d for d in along)
        share = min(1.0, max(0.0, -sum(x * d for x, d in zip(a, along)) / square)) if square else 0.0
        if math.hypot(*(x + share * d for x, d in zip(a, along))) >= 1:
            return math.sqrt(square)
        far = [math.hypot(*a), math.hypot(*b)]
        turn = math.acos(sum(x * y for x, y in zip(a, b)) / (far[0] * far[1])) - math.acos(1 / far[0]) - math.acos(1 / far[1])
        return math.sqrt(far[0] ** 2 - 1) + math.sqrt(far[1] ** 2 - 1) + turn

    def test_around_balls(self) -> None:
        """In three variables, around two balls."""
        paving = made(clear_of(((0, 0, 0), 1), ((1, 1, 1), Fraction(1, 2))), CUBE, Fraction(1, 4))
        for ends in (((-1.5, 0, 0), (1.5, 0, 0)), ((-2, -2, -2), (2, 2, 2)), ((0, 1.5, 0), (0, -1.5, 0.25))):
            found = paving.path(*ends)
            self.assert_within(found, paving)
            self.assertLess(found.length, 1.6 * math.dist(*ends))

    def test_straight(self) -> None:
        """Where all is inner on the straight way, the path is that way, whatever numbers the points have."""
        paving = made(clear_of(((0, 0), 1)), SQUARE, Fraction(1, 32))
        third = Fraction(1, 3)
        found = paving.path((-1 - third, 1 + third), {"y": 1 + third, "x": third})
        self.assert_within(found, paving)
        self.assertAlmostEqual(found.length, 5 / 3, delta=0.01)
        alone = paving.path((third, 1.5), (third, 1.5))
        self.assert_within(alone, paving)
        self.assertEqual(alone.length, 0)

    def test_corners(self) -> None:
        """Boxes that touch in a corner alone, or in three variables in an edge, are no passage; faces are one."""
        corner = of_cells([" #", "# "])
        self.assert_none(corner.path((0.5, 0.5), (1.5, 1.5)), paver.Verdict.NONE)
        self.assert_within(corner.path((0.5, 0.5), (1, 1)), corner)  # the corner itself is reached from either side
        around = of_cells(["## #", " # #", "## #", "####"])
        found = around.path((0.5, 3.5), (3.5, 3.5))
        self.assert_within(found, around)
        self.assertGreaterEqual(found.length, 3 + 2 * math.sqrt(2.25))

        def edge(box: Pairs) -> Optional[bool]:
            (a, b), (c, d), _ = box
            return None if b - a > 2 or d - c > 2 else (a < 0) == (c < 0)

        self.assert_none(made(edge, CUBE, Fraction(2)).path((-1, -1, 0), (1, 1, 0)), paver.Verdict.NONE)

    def test_mazes(self) -> None:
        """Random squares: a path is found exactly where a flood through sides reaches the goal, and parts are told apart
        exactly where no kept squares touch, corners too."""
        source, counts = random.Random(2), {verdict: 0 for verdict in paver.Verdict}
        for _ in range(150):
            cells = ["".join(source.choices("#? ", (5, 1, 4), k=8)) for _ in range(8)]
            at = {(x, y): cells[7 - y][x] for x, y in product(range(8), repeat=2)}
            ends = source.sample([place for place in at if at[place] == "#"], 2)
            paving = of_cells(cells)
            found = paving.path(*[(x + Fraction(1, 2), y + Fraction(1, 2)) for x, y in ends])
            wanted = paver.Verdict.PATH if ends[1] in self.flood(at, ends[0], "#", 1) else \
                paver.Verdict.NONE if ends[1] in self.flood(at, ends[0], "#?", 2) else paver.Verdict.SEPARATED
            self.assertIs(found.verdict, wanted, cells)
            counts[wanted] += 1
            if wanted is paver.Verdict.PATH:
                self.assert_within(found, paving)
        self.assertGreater(min(counts.values()), 10)

    @staticmethod
    def flood(at: dict[tuple[int, int], str], first: tuple[int, int], signs: str, most: int) -> set[tuple[int, int]]:
        """The squares of some signs that are reached by steps of which most many places change at a time."""
        found, waiting = {first}, [first]
        while waiting:
            x, y = waiting.pop()
            for dx, dy in product((-1, 0, 1), repeat=2):
                place = x + dx, y + dy
                if abs(dx) + abs(dy) <= most and place not in found and at.get(place, " ") in signs:
                    found.add(place)
                    waiting.append(place)
        return found

    def test_of_the_program(self) -> None:
        """Pavings of the program, in two and three variables, with a contracted box, an infinite and a single-valued domain."""
        texts = ("Variables x in [-2,2], y in [-2,2]; Constraints x^2+y^2 >= 1; end",
                 "Variables x in [-2,2], y in [-2,2], z in [-1,1]; Constraints x^2+y^2 >= 1; z <= 0.9; end",
                 "Variables x in [-oo,2], y in [-2,2]; Constraints x^2+y^2 >= 1; end",
                 "Variables x in [-2,2], z in [1,1], y in [-2,2]; Constraints x^2+y^2 >= z; end")
        ends = (((-1.5, 0), (1.5, Fraction(1, 7))), ((-1.5, 0, 0), (1.5, 0.25, 0)), ((-50, 1), (1.5, 0)),
                ((-1.5, 1, 0), (1.5, 1, 0)))
        for k, (text, (start, goal)) in enumerate(zip(texts, ends)):
            with self.subTest(text):
                paving = paver.run_text(text, eps=0.25).paving()
                found = paver.path(paving, start, goal)
                if k < 3:
                    self.assert_within(found, paving)
                else:  # its boxes are flat in one variable
                    self.assertEqual({point[1] for point in found.points}, {1})
                    self.assertIs(found.verdict, paver.Verdict.PATH)
                self.assertGreater(found.length, 3)

    def test_two_discs(self) -> None:
        """Two discs that are apart: boxes part them. Of two that touch in one point inner boxes lead to no other side, and no
        boxes part them."""
        text = "Variables x in [-4,4], y in [-2,2]; Constraints min((x-2)^2+y^2, (x+2)^2+y^2) <= R; end"
        apart = paver.run_text(text.replace("R", "1"), eps=0.25).paving()
        self.assert_none(apart.path((-2, 0), (2, 0)), paver.Verdict.SEPARATED)
        self.assert_within(apart.path((-2.5, 0.25), (-1.5, 0)), apart)
        near = paver.run_text(text.replace("R", "4"), eps=0.25).paving()
        self.assert_none(near.path((-2, 0), (2, 0)), paver.Verdict.NONE)

    def test_points(self) -> None:
        """Points that are in no inner box are told with their classes; others are refused."""
        paving = made(clear_of(((0, 0), 1)), SQUARE, Fraction(1, 32))
        removed = paving.path((0, 0), (1.5, 0))
        self.assert_none(removed, paver.Verdict.SEPARATED)
        self.assertEqual((removed.start_in, removed.goal_in >= {"inner"}), ({"removed"}, True))
        self.assert_none(paving.path((1.5, 0), (Fraction(99, 100), Fraction(1, 100))), paver.Verdict.NONE)
        refused = ((0, 0, 0), (math.inf, 0), (3, 0), {"x": 1}, {"x": 1, "z": 1}, ("a", 0))
        for point in refused:
            with self.subTest(str(point)):
                self.assertRaises(ValueError, lambda point=point: paving.path(point, (1.5, 0)))
        bare = paver.Paving.from_text(paving.file_text())
        self.assertRaises(ValueError, lambda: bare.path((1.5, 0), (1.5, 0)))

    def test_faults(self) -> None:
        """A path that was changed is not written."""
        paving = made(clear_of(((0, 0), 1)), SQUARE, Fraction(1, 32))
        found = paving.path((-1.5, 0), (1.5, 0))
        middle, boxes = found.points[1], list(found.boxes)
        found.points[1] = (Fraction(0), Fraction(0))
        self.assertRaises(paver.PathFault, found.rows)
        found.points[1], found.boxes = middle, boxes[:-1]
        self.assertRaises(paver.PathFault, found.rows)
        corner = of_cells([" #", "# "])
        other = corner.path((0.5, 0.5), (1, 1))
        other.points, other.boxes = [(Fraction(1, 2),) * 2, (Fraction(3, 2),) * 2], [list(corner.inner())]
        self.assertRaises(paver.PathFault, other.rows)

    def test_command(self) -> None:
        """The command's lines, its CSV and its statuses, from a stored paving and from a run of its own."""
        with tempfile.TemporaryDirectory() as folder:
            stored, table = Path(folder) / "ring.paving", Path(folder) / "path.csv"
            paver.run(example("ring"), eps=0.25, out=stored)
            paving = paver.Paving.read(stored, system=example("ring"))
            box = paving.greatest(1, "inner")[0]
            start = ",".join(f"{name}={x}" for name, x in zip("xy", box.centre))
            goal = f"x={box[0][0]},y={box[1][1]}"
            words = ("path", example("ring"), stored, "--from", start, "--to", goal)
            status, out, err = command(*words, "--csv", table)
            self.assertEqual((status, err), (0, ""))
            self.assertIn("path of 2 points through 1 inner box", out)
            rows = list(csv.reader(table.read_text().splitlines()))
            self.assertEqual(rows[0], ["x", "y"])
            self.assertEqual([tuple(map(Fraction, row)) for row in rows[1:]], [box.centre, (box[0][0], box[1][1])])
            self.assertEqual(command("path", example("ring"), "--eps", "0.25", *words[3:])[:2], (0, out))
            status, out, _ = command(*words[:5], "--to", "x=0,y=0")
            self.assertEqual((status, out.splitlines()[0]), (1, "separated: no path within the inner boxes"))
            for bad, said in (("x=1", "no value for y"), ("1,2,3", "3 numbers"), ("x=a,y=1", "'x=a'"), ("x=1,2", "variable's"),
                              ("x=1,x=2", "two values"), ("x=99,y=0", "outside")):
                with self.subTest(bad):
                    status, out, err = command(*words[:5], "--to", bad)
                    self.assertEqual((status, out, err.count("\n")), (2, "", 1))
                    self.assertIn(said, err)

    def test_page(self) -> None:
        """The page on paths: its system and its commands, with what it shows of them."""
        page = (TOP / "docs" / "PATH.md").read_text()
        system = re.search(r"^```\n(Variables.*?)^```", page, re.M | re.S)
        assert system is not None
        shown = list(commands_of(page))
        self.assertGreaterEqual(len(shown), 4)
        with tempfile.TemporaryDirectory() as folder:
            (Path(folder) / "crane.mbx").write_text(system.group(1))
            (Path(folder) / "paver").symlink_to(PROGRAM)
            known = {**os.environ, "PYTHONPATH": str(TOP / "python"), "PAVER": PROGRAM}
            for words, told, lines in shown:
                done = subprocess.run(["bash", "-c", words], cwd=folder, capture_output=True, text=True, env=known,
                                      timeout=SECONDS, check=False)
                with self.subTest(words):
                    self.assertEqual((done.returncode, [line.strip() for line in done.stdout.splitlines()]),
                                     (int(*told or ["0"]), [line for line in lines if line]), done.stderr[:500])

    def test_drawn(self) -> None:
        """The page has the points of a path, and refuses another system's and what is none."""
        with tempfile.TemporaryDirectory() as folder:
            table, stored = Path(folder) / "path.csv", Path(folder) / "ring.paving"
            paving = paver.run(example("ring"), eps=0.25, out=stored).paving()
            box = paving.greatest(1, "inner")[0]
            found = paving.path(box.centre, [low for low, _ in box.exact])
            with open(table, "w", encoding="utf-8") as file:
                found.write_csv(file)
            pages = [paver.view(example("ring"), stored, path=given).html for given in (table, found)]
            pages.append(command("view", example("ring"), stored, "--path", table)[1])
            wanted = '"path":' + json.dumps(found.rows(), separators=(",", ":"))
            self.assertEqual([page.count(wanted) for page in pages], [1, 1, 1])
            for text in ("x,z\n1,2\n", "x,y\n1\n", "x,y\n1,a\n", ""):
                table.write_text(text)
                with self.subTest(text):
                    status, out, err = command("view", example("ring"), stored, "--path", table)
                    self.assertEqual((status, out, err.count("\n")), (2, "", 1))

    def test_in_browser(self) -> None:
        """What two clicks find, by node: a way through inner boxes exactly where there is one, of about the same length."""
        self.needs_tool("node")
        mazes = [["## #", " # #", "## #", "####"], [" #", "# "], ["###", "# #", "# #"]]
        asked = [([0.5, 3.5], [3.5, 3.5]), ([0.5, 0.5], [1.5, 1.5]), ([0.5, 0.5], [2.5, 0.5])]
        pavings = [of_cells(cells) for cells in mazes] + [made(clear_of(((0, 0), 1)), SQUARE, Fraction(1, 16))]
        asked.append(([-1.5, 0.25], [1.5, 0.125]))
        scripts = "".join((TOP / "python" / "paver" / "viewer" / name).read_text()
                          for name in ("numbers.js", "tree.js", "paint.js", "search.js", "path.js"))
        for paving, (start, goal) in zip(pavings, asked):
            text, nodes, numbers, _ = packed(paving)
            ask = (f"unpacked({json.dumps(text)}).then((buffer) => {{ const "
                   f"tree = new Tree({{nodes: {nodes}, numbers: {numbers}}}, buffer, 2), "
                   f"point = (xs) => xs.map((x) => coordinate(parsed(String(x)))); console.log(JSON.stringify("
                   f"wayBetween(tree, point({start}), point({goal})))); }});")
            done = subprocess.run(["node", "-"], input=f"{scripts}\n{ask}", capture_output=True, text=True, timeout=SECONDS,
                                  check=False)
            self.assertEqual(done.returncode, 0, done.stderr)
            way, found = json.loads(done.stdout), paving.path(start, goal)
            self.assertEqual(way is None, found.verdict is not paver.Verdict.PATH)
            if way is None:
                continue
            self.assertEqual((way[0], way[-1]), (start, goal))
            inner = [box.exact for box in paving.inner()]
            for one, other in zip(way, way[1:]):
                ends = [tuple(map(Fraction, point)) for point in (one, other)]
                self.assertTrue(any(all(stretch(end, end, box) for end in ends) for box in inner), (one, other))
            length = sum(math.dist(one, other) for one, other in zip(way, way[1:]))
            self.assertTrue(0.8 * found.length < length < 1.25 * found.length, (length, found.length))


if __name__ == "__main__":
    main()
