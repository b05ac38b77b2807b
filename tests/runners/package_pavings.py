"""Checks of what the package reads in pavings, beside the reference's own reading of the printed text."""
from __future__ import annotations

import csv
import io
import math
import random
import re
import xml.dom.minidom
from fractions import Fraction
from typing import Callable, Iterable, Iterator, Sequence, Union

import paver
from paver import picture, plots
from paver.box import Exact, Pair
from paver.cover import KEPT, Pairs
from tests.data.examples import EXAMPLES, settings_of
from tests.reference import files, minibex
from tests.reference.kinds import Box, Value
from tests.reference.numbers import UNIT, spelling
from tests.reference.paver import Settler, halves
from tests.runners.package_test import PackageTest, example, options_of
from tests.runners.running import main, rows
from tests.runners.soundness import end, ends, parts

BRUTE = 400  # boxes that are compared each with each
KINDS = {"I": "inner", "S": "small", "O": "open"}
IDENTITY = "identity " + "0123456789abcdef" * 4


def exact_of(x: Value) -> Exact:
    return x if isinstance(x, float) else Fraction(x, UNIT)


def walked(lines: Iterable[str], root: Box) -> Iterator[tuple[str, Box, Box]]:
    """Of each node its letter, box and `to`, in the reference's numbers."""
    waiting = [root]
    for line in lines:
        kind, *words = line.split()
        box = waiting.pop()
        to = None if kind in "XO" else ends(words[2:] if kind == "C" else words)
        yield line, box, to
        if kind == "C":
            waiting += reversed(halves(to, int(words[0]), end(words[1])))


def second_version(lines: Iterable[str], root: Box) -> str:
    """The text of version 2: an end that equals the box's is `=`."""
    text = [f"paving 2\n{IDENTITY}\n"]
    for line, box, to in walked(lines, root):
        if to is None:
            text.append(f"{line}\n")
            continue
        words = line.split()
        head = words[:3] if words[0] == "C" else words[:1]
        moved = ["=" if new == old else spelling(new) for x, y in zip(to, box) for new, old in zip(x, y)]
        text.append(" ".join(head + moved) + "\n")
    return "".join(text)


class Known:
    """An example's paving as printed, and the reference's reading of it."""
    found: dict[tuple[str, ...], Known] = {}

    def __init__(self, name: str, words: list[str]) -> None:
        self.system = minibex.read(example(name).read_text())
        self.settler = Settler(self.system, **settings_of(words)[0])
        self.answer = paver.run(example(name), **options_of(words))
        self.lines = self.answer.text.splitlines()[1:]
        self.paving = self.answer.paving()
        self.nodes = list(walked(self.lines, self.settler.root))

    @classmethod
    def of(cls, name: str, words: list[str]) -> Known:
        key = (name, *words)
        if key not in cls.found:
            cls.found[key] = cls(name, words)
        return cls.found[key]

    def kept(self) -> Iterator[tuple[str, Pairs]]:
        """(class, pairs of exact values) of each kept box."""
        for line, box, to in self.nodes:
            if line[0] in KINDS:
                yield KINDS[line[0]], tuple((exact_of(a), exact_of(b)) for a, b in (to or box))


def brute_clusters(boxes: Sequence[Pairs], gap: Fraction) -> list[list[int]]:
    groups: list[list[int]] = []
    for number, box in enumerate(boxes):
        touched = [group for group in groups if any(
            all(max(a[0], b[0]) - min(a[1], b[1]) <= gap for a, b in zip(box, boxes[other])) for other in group)]
        groups = [group for group in groups if group not in touched] + [sorted([number, *sum(touched, [])])]
    return sorted(groups)


# ---- other texts

BAD = [
    ("", 1), ("paving 3\n", 1), ("paving 1", 1), ("paving 1\nidentity 12\n", 2),
    (f"paving 1\n{IDENTITY}\n", 3), (f"paving 1\n{IDENTITY}\nX\nX\n", 4), (f"paving 1\n{IDENTITY}\nQ\n", 3),
    (f"paving 1\n{IDENTITY}\n\n", 3), (f"paving 1\n{IDENTITY}\nI 0:0 1:0 0:0\n", 3),
    (f"paving 1\n{IDENTITY}\nC 0 1:-1 0:0 1:0 0:0 1:0\nX\n", 5),
    ("settled 1 cut 0 removed 1 inner 0 small 0 open 0\nS 0:0 1:0 0:0 1:0\n", 1),
    ("settled 3 cut 1 removed 2 inner 0 small 0 open 0\nC 0 1:-1 0:0 1:0 0:0 1:0\nX\n", 4),
    ("settled 1 cut 0 removed 0 inner 0 small 1 open 0\nS 0:0 1:0 0:0", 2),
]


def mutated(text: str, source: random.Random) -> str:
    """A text with one or two slips."""
    pieces = ["=", "0:0", "1:0", "-oo", "+oo", " ", "\n", "X\n", "O\n", "S", "I", "C", "1:3", "-", "3:0", "02", "\r"]
    for _ in range(source.randrange(1, 3)):
        at, kind = source.randrange(len(text)), source.randrange(4)
        if kind == 0:
            text = text[:at] + source.choice(pieces) + text[at:]
        elif kind == 1:
            text = text[:at] + text[at + source.randrange(1, 4):]
        else:
            sign = " " if kind == 2 else "\n"
            parts_of_text = text.split(sign)
            parts_of_text[source.randrange(len(parts_of_text))] = source.choice([*pieces[:5], *parts_of_text[2:]])
            text = sign.join(parts_of_text)
    return text


def is_read(text: str, root: Sequence[Pair]) -> bool:
    try:
        paving = paver.Paving.from_text(text, root=root)
        paving.check_numbers()
    except paver.PavingError:
        return False
    return paving.identity == IDENTITY.split()[1]


def way_to_first_open(lines: Iterable[str]) -> str | None:
    """The way to the first open leaf of node lines, followed from the root."""
    waiting = [""]
    for line in lines:
        way = waiting.pop()
        if line == "O":
            return way or "."
        if line[0] == "C":
            waiting += [way + "1", way + "0"]
    return None


Points = list[tuple[Union[int, Fraction], ...]]
TRUTHS: dict[str, tuple[Points, Points]] = {
    "arm_configurations": ([(1, 0), (1, 1), (1, -1)], [(Fraction(1, 4), 0), (0, 0)]),
    "robust_pid": ([(3, 1, 1), (2, 1, 2)], [(8, 8, Fraction(-3, 2)), (Fraction(17, 2), Fraction(15, 2), Fraction(1, 10))]),
    "outlier_decay": ([(5, Fraction(4, 5))], [(5, Fraction(1, 2)), (9, Fraction(4, 5))]),
    "three_rpr": ([(Fraction(3, 2), Fraction(4, 5), 0)], [(Fraction(1, 100), Fraction(1, 100), Fraction(1, 100))]),
    "puma_poses": ([tuple(Fraction(n, 100) for n in (80, 60, 96, -28, 60, -80))], [(0, 1, 1, 0, 1, 0)]),
}


class Pavings(PackageTest):
    """What is read of pavings."""

    def check_boxes(self, name: str, words: list[str]) -> None:
        """The kept boxes, the removed parts, the counts and the hull."""
        known = Known.of(name, words)
        kept = list(known.kept())
        self.assertEqual([(box.kind, box.exact) for box in known.paving.boxes("inner", "small", "open")], kept)
        summary = known.answer.text.split("\n")[0].split()
        self.assertEqual(known.paving.counts(), {summary[k]: int(summary[k + 1]) for k in range(0, 12, 2)})
        hull = tuple((min(box[k][0] for _, box in kept), max(box[k][1] for _, box in kept))
                     for k in range(len(known.system.names)))
        self.assertEqual(known.paving.hull(), hull)
        self.assertEqual(known.paving.names, known.system.names)
        for box in known.paving.inner():
            for (low, high), (a, b) in zip(box.exact, box.floats):
                self.assertLessEqual(a, low)
                self.assertLessEqual(high, b)

    def check_versions(self, name: str, words: list[str]) -> None:
        """Both versions of the file say the same as the printed text."""
        known = Known.of(name, words)
        first = f"paving 1\n{IDENTITY}\n" + "".join(f"{line}\n" for line in known.lines)
        second = second_version(known.lines, known.settler.root)
        root = [(exact_of(low), exact_of(high)) for low, high in known.settler.root]
        for version, text in ((1, first), (2, second)):
            paving = paver.Paving.from_text(text, root=root)
            self.assertEqual(paving.version, version)
            self.assertEqual(paving.identity, IDENTITY.split()[1])
            self.assertEqual(list(paving.nodes()), list(known.paving.nodes()))
            paving.check_numbers()
        bare = paver.Paving.from_text(first)
        self.assertEqual([box.words for box in bare.inner()], [box.words for box in known.paving.inner()])
        self.assert_raised(ValueError, lambda: list(paver.Paving.from_text(second).inner()))

    def check_volumes(self, name: str, words: list[str]) -> None:
        known = Known.of(name, words)
        volumes = known.paving.volumes()
        if any(isinstance(x, float) for pair in known.settler.root for x in pair):
            self.assertEqual(volumes["removed"], volumes["small"])
            self.assertEqual(volumes["small"], float("inf"))
            return
        for kind in KINDS.values():
            total = sum(math.prod(high - low for low, high in box) for found, box in known.kept() if found == kind)
            self.assertEqual(volumes[kind], total, kind)
        whole = Fraction(1)
        for low, high in known.settler.root:
            whole *= Fraction(high - low, UNIT)
        self.assertEqual(sum(volumes.values()), whole)

    def check_points(self, name: str, words: list[str]) -> None:
        """Random points lie in the parts in which the reference sees them."""
        known, source = Known.of(name, words), random.Random(5)
        claims = list(parts(known.lines, known.settler.root))
        boxes = list(known.paving.boxes())
        for _ in range(60):
            point = [Fraction(source.randrange(-3 << 20, 6 << 20), 1 << 20) for _ in known.system.names]
            grid = [x * UNIT for x in point]

            def within(box: Box, grid: list[Fraction] = grid) -> bool:
                return all(low <= x <= high for x, (low, high) in zip(grid, box))

            def strictly(box: Box, grid: list[Fraction] = grid) -> bool:
                return all(low < x < high for x, (low, high) in zip(grid, box))

            if not within(known.settler.root):
                continue
            wanted = {kind for kind, box, left in claims if strictly(box) and not (left and within(left))}
            seen = {box.kind for box in boxes if box.holds(point)}
            self.assertTrue(seen, (point, wanted, seen))
            self.assertLessEqual(wanted, seen, (point, wanted, seen))

    def check_clusters(self, name: str, words: list[str]) -> None:
        known = Known.of(name, words)
        both = [(kind, box) for kind, box in known.kept() if kind in ("small", "inner")]
        kinds = ("small", "inner") if len(both) <= BRUTE else ("small",)
        boxes = [box for kind, box in both if kind in kinds]
        if len(boxes) > BRUTE or any(isinstance(end, float) for box in boxes for pair in box for end in pair):
            self.assertEqual(sum(len(cluster.boxes) for cluster in known.paving.clusters(0, kinds)), len(boxes))
            return
        order = {box: number for number, box in enumerate(boxes)}
        for gap in (Fraction(0), Fraction(1, 10)):
            found = sorted(sorted(order[box.exact] for box in cluster.boxes) for cluster in known.paving.clusters(gap, kinds))
            self.assertEqual(found, brute_clusters(boxes, gap), gap)

    def check_csv(self, name: str, words: list[str]) -> None:
        known, file = Known.of(name, words), io.StringIO()
        known.paving.write_csv(file, exactly=True)
        rows = list(csv.reader(io.StringIO(file.getvalue())))
        self.assertEqual(len(rows[0]), 1 + 2 * len(known.system.names))
        self.assertEqual(rows[0][1], f"{known.system.names[0]}_low")
        for row, (kind, box) in zip(rows[1:], known.kept()):
            self.assertEqual(row[0], kind)
            self.assertEqual([float(w) if "inf" in w else Fraction(w) for w in row[1:]], [end for pair in box for end in pair])

    def check_slices(self, name: str, words: list[str]) -> None:
        """What a slice and a projection draw."""
        known = Known.of(name, words)
        names, source = known.system.names, random.Random(9)
        for _ in range(3):
            x, y = source.sample(names, 2)
            at: dict[str | int, Fraction] = {
                name: Fraction(source.randrange(-8, 16), 8) for name in names if name not in (x, y)}
            fixed = {k: at[name] for k, name in enumerate(names) if name in at}
            root = known.settler.root
            if not all(root[k][0] <= v * UNIT <= root[k][1] for k, v in fixed.items()):
                self.assert_raised(ValueError, lambda at=at, x=x, y=y: plots.rectangles(known.paving, x, y, at))
                at, fixed = dict.fromkeys(at, Fraction(0)), dict.fromkeys(fixed, Fraction(0))
            wanted = [kind for kind, box in known.kept() if all(box[k][0] <= v <= box[k][1] for k, v in fixed.items())]
            found = [kind for kind, *_ in plots.rectangles(known.paving, x, y, at)]
            self.assertEqual([kind for kind in found if kind != "removed"], wanted)
            kept = [(kind, box[names.index(x)], box[names.index(y)]) for kind, box in known.kept()
                    if all(box[k][0] <= v <= box[k][1] for k, v in fixed.items())]
            shown = list(plots.rectangles(known.paving, x, y, at, KEPT))
            self.assertEqual([kind for kind, *_ in shown], [kind for kind, *_ in kept])
            for rectangle, box in zip(shown, kept):
                for (low, high), pair in zip(rectangle[1:], box[1:]):
                    self.assertTrue(low <= pair[0] and pair[1] <= high, (rectangle, box))
                    self.assertTrue(math.nextafter(low, math.inf) > pair[0] and math.nextafter(high, -math.inf) < pair[1])
        shadows = {(kind, box[0], box[1]) for kind, box in known.kept()}
        drawn = list(plots.projection(known.paving, names[0], names[1]))
        self.assertEqual(len(drawn), len(shadows))
        self.assert_raised(ValueError, lambda: list(plots.rectangles(known.paving, names[0], names[0])))

    def check_svg(self, name: str, words: list[str]) -> None:
        """The picture is XML with a part of a path for each box that is seen, and has the names of its axes."""
        known = Known.of(name, words)
        names = known.system.names
        at: dict[str | int, int] = {name: 0 for name in names[2:]}
        fixed = {k: Fraction(0) for k in range(2, len(names))}
        seen = sum(all(box[k][0] <= v <= box[k][1] for k, v in fixed.items()) for _, box in known.kept())
        shadows = len({(kind, box[0], box[1]) for kind, box in known.kept()})
        for project, count in ((False, seen), (True, shadows)):
            document = xml.dom.minidom.parseString(paver.svg(known.paving, at=at, project=project))
            paths = [path.getAttribute("d") for path in document.getElementsByTagName("path")
                     if path.getAttribute("stroke-width")]
            self.assertEqual(sum(path.count("z") for path in paths), count)
            base = next(iter(document.getElementsByTagName("path")))
            self.assertEqual(base.getAttribute("fill"), plots.FILL["removed"], "what is not kept is removed")
            texts = [text.firstChild.data for text in document.getElementsByTagName("text")]
            self.assertIn(names[0], texts)
            self.assertIn(names[1], texts)
            self.assertIn("removed", texts)

    def test_unions(self) -> None:
        """The path of many rectangles covers the half pixels that they cover, each once."""
        source, frame = random.Random(3), picture.Frame([(0.0, 10.0), (0.0, 10.0)], True)
        rectangles = []
        for _ in range(200):
            (a, b), (c, d) = (sorted((source.uniform(0, 10), source.uniform(0, 10))) for _ in range(2))
            rectangles.append([(a, min(b, a + 0.5)), (c, min(d, c + 0.5))])
        wanted, found = set(), []
        for (a, b), (c, d) in rectangles:
            left, right, top, bottom = (round(2 * end) for end in (frame.x(a), frame.x(b), frame.y(d), frame.y(c)))
            wanted |= {(x, y) for x in range(left, max(right, left + 1)) for y in range(top, max(bottom, top + 1))}
        for numbers in re.findall(r"M(\S+) (\S+)H(\S+)V(\S+)H\1z", picture.path_of_union(rectangles, frame)):
            left, top, right, bottom = (int(2 * float(number)) for number in numbers)
            found += [(x, y) for x in range(left, right) for y in range(top, bottom)]
        self.assertEqual(len(found), len(set(found)))
        self.assertEqual(set(found), wanted)

    def test_bad_texts(self) -> None:
        for text, row in BAD:
            self.assert_raised(paver.PavingError, lambda text=text: paver.Paving.from_text(text, root=[(0, 1), (0, 1)]),
                               row=row)
        for line in ("S 0:0 2:0 0:0 1:0", "S 0:0 3:0 0:0 1:0", "S 1:0 0:0 0:0 1:0"):
            paving = paver.Paving.from_text(f"paving 1\n{IDENTITY}\n{line}\n", root=[(0, 1), (0, 1)])
            self.assert_raised(paver.PavingError, paving.check_numbers, row=3)
        for line in ("S 0:0 = = =", "S = 3:0 = =", "S = =: = =", "S = 1:2000 = ="):
            paving = paver.Paving.from_text(f"paving 2\n{IDENTITY}\n{line}\n", root=[(0, 1), (0, 1)])
            self.assert_raised(paver.PavingError, paving.check_numbers, row=3)
        for at in ("0:0", "1:0", "3:0"):
            paving = paver.Paving.from_text(f"paving 2\n{IDENTITY}\nC 0 {at} = = = =\nX\nX\n", root=[(0, 1), (0, 1)])
            self.assert_raised(paver.PavingError, paving.check_numbers, row=3)

    def test_mutated_files(self) -> None:
        """The package takes the files that the reference's reader takes, and no others."""
        known, source, taken = Known.of("tolerance", ["--eps", "2"]), random.Random(8), 0
        first = f"paving 1\n{IDENTITY}\n" + "".join(f"{line}\n" for line in known.lines)
        texts = [first, second_version(known.lines, known.settler.root)]
        root = [(exact_of(low), exact_of(high)) for low, high in known.settler.root]
        for _ in range(4000):
            text = mutated(source.choice(texts), source)
            try:
                files.read(text.encode(), known.settler.root, IDENTITY.split()[1])
                good = True
            except files.Refused:
                good = False
            taken += good
            self.assertEqual(is_read(text, root), good, text)
        self.assertGreater(taken, 20)

    def test_open_leaf(self) -> None:
        for boxes in (1, 7, 40, 200):
            paving = paver.run(example("ring"), boxes=boxes).paving()
            self.assertEqual(paving.path_of_first_open(), way_to_first_open(paving.lines), paving.lines)
            self.assertTrue(paving.counts()["open"] == sum(box.kind == "open" for box in paving.boxes()) > 0)
            self.assertEqual(sum(paving.volumes().values()), 36)
        self.assertEqual(paver.Paving.from_text(f"paving 1\n{IDENTITY}\nO\n").path_of_first_open(), ".")
        self.assertIsNone(paver.run(example("ring")).paving().path_of_first_open())

    def test_plots(self) -> None:
        """A picture is drawn where matplotlib is there; else the package says what is missing."""
        paving = paver.run(example("ring")).paving()
        try:
            import matplotlib
        except ImportError:
            self.assert_raised(plots.PlotsMissing, lambda: paver.plot(paving))
            self.skipTest("plots are skipped: matplotlib is not installed")
        matplotlib.use("Agg")
        axes = paver.plot(paving, "x", "y", title="ring")
        self.assertEqual((axes.get_xlabel(), axes.get_ylabel(), axes.get_aspect()), ("x", "y", 1.0))
        self.assertTrue(axes.get_xlim() == axes.get_ylim() == (-3, 3))
        near = paver.plot_projection(paving, near=True)
        self.assertEqual((near.get_xlabel(), near.get_xlim(), near.get_ylim()), ("x", (-2, 2), (-2, 2)))
        near.figure.canvas.draw()
        shown, beside = near.get_window_extent(), near.get_legend().get_window_extent()
        self.assertGreaterEqual(beside.x0, shown.x1, "the legend hides nothing of the picture")

    def check_truth(self, name: str, words: list[str]) -> None:
        """Points that are known to be in the set lie in no inner part of what is removed, and the others in no inner box."""
        known = Known.of(name, words)
        members, others = TRUTHS[name]
        for point in [*members, *others]:
            exactly = [Fraction(x) for x in point]
            held = known.settler.member(known.settler.program, [minibex.holds(c, exactly) for c in known.system.constraints])
            self.assertEqual(held, point in members, f"{point} by its own constraints")
        for point in members:
            self.assertTrue(known.paving.where(point) - {"removed"}, f"{point} is lost")
        for point in others:
            self.assertNotIn("inner", known.paving.where(point), f"{point} is no member")

    def test_half_lines(self) -> None:
        """A place with an infinite end is infinitely wide, wherever its other end lies."""
        infinite = float("inf")
        for pair in ("1:0 +oo", "-1:0 +oo", "-oo -1:0", "-oo 1:0", "-oo +oo", "1:300 +oo"):
            line = f"I 0:0 1:1 {pair}"
            paving = paver.Paving.from_text(f"paving 1\n{IDENTITY}\n{line}\n", root=("0:0", "1:1", *pair.split()))
            box = next(paving.inner())
            self.assertEqual(box.volume, box.width, pair)
            self.assertEqual(box.width, paving.widest("inner").width, pair)
            self.assertEqual(paving.widest("inner").width, paving.volumes()["inner"], pair)
            self.assertEqual(paving.volumes()["inner"], infinite, pair)
        flat = paver.Paving.from_text(f"paving 1\n{IDENTITY}\nI 1:0 1:0 1:0 +oo\n", root=("1:0", "1:0", "1:0", "+oo"))
        self.assertEqual(flat.volumes()["inner"], next(flat.inner()).volume)
        self.assertEqual(next(flat.inner()).volume, 0)
        self.assertEqual(next(flat.inner()).width, infinite)

    def test_no_outlier(self) -> None:
        """With no measurement left out, no law agrees with all seven."""
        self.assertIsNone(paver.run(example("outlier_decay")).paving().hull())

    def each_example(self, check: Callable[..., None], names: Iterable[str] | None = None) -> None:
        """Makes a check of each example, or of those that are named."""
        for name, words in rows(EXAMPLES):
            if names is None or name in names:
                with self.subTest(name):
                    check(name, words)

    def test_boxes(self) -> None:
        self.each_example(self.check_boxes)

    def test_versions(self) -> None:
        self.each_example(self.check_versions)

    def test_volumes(self) -> None:
        self.each_example(self.check_volumes)

    def test_points(self) -> None:
        self.each_example(self.check_points)

    def test_clusters(self) -> None:
        self.each_example(self.check_clusters)

    def test_csv(self) -> None:
        self.each_example(self.check_csv)

    def test_slices(self) -> None:
        self.each_example(self.check_slices)

    def test_svg(self) -> None:
        self.each_example(self.check_svg)

    def test_known_points(self) -> None:
        self.each_example(self.check_truth, TRUTHS)


if __name__ == "__main__":
    main()
