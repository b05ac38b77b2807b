"""Checks of `decide` and `report`: decisions beside brute force over the boxes that the independent reader finds in a file,
beside squares in figures whose measures are known, and beside the constraints' exact values at drawn points; the page of a
report.

    python3 -m tests.runners.package_decide [-k WORD]
"""
from __future__ import annotations

import html
import itertools
import math
import random
import re
import shlex
import subprocess
import sys
import tempfile
from fractions import Fraction
from html.parser import HTMLParser
from pathlib import Path
from typing import Any

import paver
from paver.decide_command import digits
from tests.reference import files, minibex, numbers
from tests.reference.paver import bound
from tests.runners.package_stages import exact, kept_of
from tests.runners.package_test import PackageTest, at, command, example
from tests.runners.running import PROGRAM, SECONDS, TOP, main

Pairs = tuple[tuple[Fraction, Fraction], ...]
TINY = Fraction(1, 1 << 90)
DISC = "Variables x in [-1,1], y in [-1,1]; Constraints x^2 + y^2 <= 1; end"
TRIANGLE = "Variables x in [0,4], y in [0,4]; Constraints x + y <= 3; end"
LONE = "settled 1 cut 0 removed 0 inner 1 small 0 open 0\nI 0:0 1:0\n"  # printed text, whose search box is not known
STAIRS = "Variables x in [0,8], y in [0,8]; Constraints x >= 1; x <= 6; y >= 1.5; y <= 7; x*y <= 20; end"
WEDGE = "Variables x in [0,2], y in [0,2], z in [0,1]; Constraints x + y + z <= 2; x >= 0.25; end"
# Names, texts, eps and scales of small pavings.
SMALL: list[tuple[str, str, str, dict[str, str]]] = [
    ("ring", example("ring").read_text(), "0.5", {}), ("disc", DISC, "0.25", {"x": "1"}), ("triangle", TRIANGLE, "0.5", {}),
    ("stairs", STAIRS, "1", {"x": "3/7", "y": "1"}), ("wedge", WEDGE, "0.5", {}),
    ("point", "Variables x in [0,4], p in [1,1]; Constraints x + p <= 3; end", "0.125", {}),
    ("one", "Variables x in [-1,3]; Constraints x^2 <= 2; end", "0.125", {})]
PARTS = ["Question", "Constraints", "Settings and identity", "What is proved", "Decisions", "Picture", "What is trusted",
         "How to check it again"]
LOADING = ("src", "href", "xlink:href", "data", "action", "poster", "srcset", "background")
VOID = ("meta", "br", "img", "hr", "input", "link")


def measure(box: Pairs) -> Fraction:
    """The volume over the variables in which a box is not one point."""
    return math.prod([high - low for low, high in box if high > low], start=Fraction(1))


def covered(box: Pairs, inner: list[Pairs]) -> bool:
    """Whether inner boxes, which have faces in common at most, fill a box: by the sum of the volumes of what they share."""
    shared = Fraction(0)
    for other in inner:
        part = tuple((max(a, c), min(b, d)) for (a, b), (c, d) in zip(box, other))
        if all(low < high or low == high == first == last for (low, high), (first, last) in zip(part, box)):
            shared += measure(part)
    return shared == measure(box)


def is_within_reach(half: Fraction, inner: list[Pairs], scales: list[Fraction], search: Pairs) -> bool:
    """Whether inner boxes fill some box that reaches this share of the scales to both sides: if one is filled, it can be let
    down in one variable after the other until its low face lies at an end of an inner box."""
    ends = [sorted({box[k][0] for box in inner}) for k in range(len(scales))]
    sizes = [2 * half * scale if first < last else Fraction(0) for scale, (first, last) in zip(scales, search)]
    return any(covered(tuple((low, low + size) for low, size in zip(lows, sizes)), inner) for lows in itertools.product(*ends))


class Page(HTMLParser):
    """The elements of a page: which stand open, what loads something, its headings, and its text."""

    def __init__(self) -> None:
        super().__init__()
        self.open: list[str] = []
        self.faults: list[str] = []
        self.tags: set[str] = set()
        self.headings: list[str] = []
        self.codes: list[str] = []
        self.text = ""

    def handle_starttag(self, tag: str, attrs: Any) -> None:
        self.tags.add(tag)
        self.faults += [f"{tag} {name}" for name, _ in attrs if name in LOADING or name.startswith("on")]
        if tag not in VOID:
            self.open.append(tag)

    def handle_endtag(self, tag: str) -> None:
        if not self.open or self.open.pop() != tag:
            self.faults.append(f"</{tag}> that closes nothing")

    def handle_startendtag(self, tag: str, attrs: Any) -> None:
        self.handle_starttag(tag, attrs)
        if tag not in VOID:
            self.open.pop()

    def handle_data(self, data: str) -> None:
        self.text += data
        if self.open[-1:] == ["h2"]:
            self.headings.append(data)
        if self.open[-1:] == ["code"]:
            self.codes.append(data)


class Decide(PackageTest):
    """Decisions, and the page."""

    def setUp(self) -> None:
        made = tempfile.TemporaryDirectory()
        self.addCleanup(made.cleanup)
        self.path = Path(made.name)

    def stored(self, text: str, eps: str, name: str = "s", **settings: Any) -> tuple[Path, Path]:
        """The files of a system and of its paving."""
        system, paving = self.path / f"{name}.mbx", self.path / f"{name}.paving"
        system.write_text(text)
        paver.run(system, eps=eps, out=paving, **settings)
        return system, paving

    def check_small(self, text: str, eps: str, given: dict[str, str]) -> None:
        """Both decisions beside brute force over the inner boxes of the file."""
        system, path = self.stored(text, eps)
        plain, data = minibex.read(text), path.read_bytes()
        box = [(bound(low, numbers.DOWN), bound(high, numbers.UP)) for low, high in plain.domains]
        identity = data.split()[3].decode()
        inner = [ends for kind, ends in kept_of(files.read(data, box, identity), box) if kind == "inner"]
        search = exact(box)
        scales = [Fraction(given.get(name, high - low or 1)) for name, (low, high) in zip(plain.names, search)]
        found = paver.decide(paver.Paving.read(path, system=system), given)
        tolerance, ball, largest = found.tolerance, found.ball, found.largest
        assert tolerance is not None and ball is not None and largest is not None
        self.assertEqual(list(found.scales), scales)
        moves = [tolerance.share * scale if low < high else 0 for scale, (low, high) in zip(scales, search)]
        self.assertEqual(list(tolerance.moves), moves)
        self.assertEqual(tolerance.box, tuple((x - move, x + move) for x, move in zip(tolerance.point, moves)))
        self.assertTrue(covered(tolerance.box, inner), tolerance)
        self.assertTrue(covered(largest.box, inner), largest)
        self.assertFalse(is_within_reach(tolerance.most * Fraction(1001, 1000), inner, scales, search), tolerance)
        self.assertGreaterEqual(tolerance.share, tolerance.most * Fraction(96, 100))
        self.assertEqual(largest.point, tuple((low + high) / 2 for low, high in largest.box))
        for k, (low, high) in enumerate(largest.box):
            for wider in ((low - TINY, high), (low, high + TINY)) if low < high else ():
                self.assertFalse(covered((*largest.box[:k], wider, *largest.box[k + 1:]), inner), (largest, k))
        self.assertGreaterEqual(measure(largest.box), max(map(measure, inner)))
        self.check_ball(ball, inner, scales, search)
        self.check_members(plain, tolerance.box)
        self.check_members(plain, largest.box)

    def check_ball(self, ball: paver.Ball, inner: list[Pairs], scales: list[Fraction], search: Pairs) -> None:
        """Its radius is the distance of its point, or nearly, and by the bound no other drawn point has more: measured to each
        cell between the ends of inner boxes that none of them fills, and to the faces of the search box."""
        free = [k for k, (low, high) in enumerate(search) if low < high]
        cuts = [sorted({end for box in inner for end in box[k]} | set(search[k])) for k in range(len(search))]
        sides = [list(zip(ends, ends[1:])) if k in free else [search[k]] for k, ends in enumerate(cuts)]
        unproved = [cell for cell in itertools.product(*sides) if not covered(cell, inner)]

        def square(point: Any) -> Fraction:
            """The square of how far a point is from what is not proved, in scales."""
            faces = [min(point[k] - search[k][0], search[k][1] - point[k]) / scales[k] for k in free]
            gaps = [[max(cell[k][0] - point[k], point[k] - cell[k][1], 0) / scales[k] for k in free] for cell in unproved]
            return min([min(faces) ** 2, *(sum(gap * gap for gap in each) for each in gaps)])

        least = square(ball.point)
        self.assertTrue(0 < ball.radius ** 2 <= least <= (ball.radius + TINY) ** 2 * Fraction(1001, 1000), ball)
        self.assertEqual(list(ball.reaches), [ball.radius * scale if k in free else 0 for k, scale in enumerate(scales)])
        self.assertGreaterEqual(ball.radius, ball.most * Fraction(90, 100))
        source = random.Random(3)
        for _ in range(100):
            point = [low + (high - low) * Fraction(source.randrange(1001), 1000) for low, high in source.choice(inner)]
            self.assertLessEqual(square(point), ball.most ** 2)

    def check_members(self, plain: Any, box: Pairs) -> None:
        """Corners and drawn points of a box meet all constraints."""
        source = random.Random(1)
        drawn = [[low + (high - low) * Fraction(source.randrange(1001), 1000) for low, high in box] for _ in range(50)]
        for point in (*map(list, itertools.product(*box)), *drawn):
            self.assertTrue(all(minibex.holds(c, point) for c in plain.constraints), (box, point))

    def test_small(self) -> None:
        for name, text, eps, scales in SMALL:
            with self.subTest(name):
                self.check_small(text, eps, scales)

    def test_known(self) -> None:
        """The greatest square in a disc of radius 1 has the half-side 1/sqrt(2), that in the triangle x + y <= 3 has 3/4, and the
        circle in it the radius 3 - 3/sqrt(2). A box of 2 by 1 is a square in scales of 2 and 1. What is proved comes near from
        below, and the bounds near from above."""
        box = "Variables x in [0,4], y in [0,4]; Constraints x <= 2; y <= 1; end"
        for text, eps, x, half, radius in ((DISC, "0.02", 1, math.sqrt(0.5), 1), (box, "0.02", 2, 0.5, 0.5),
                                           (TRIANGLE, "0.02", 1, 0.75, 3 - 3 / math.sqrt(2))):
            with self.subTest(text):
                found = paver.decide(paver.run_text(text, eps=eps).paving(), {"x": x, "y": 1})
                assert found.tolerance is not None and found.ball is not None
                for share, most, wanted in ((found.tolerance.share, found.tolerance.most, half),
                                            (found.ball.radius, found.ball.most, radius)):
                    self.assertLessEqual(float(share), wanted)
                    self.assertGreater(float(share), 0.95 * wanted)
                    self.assertTrue(share <= most and float(most) < 1.03 * wanted)

    def test_several_leaves(self) -> None:
        """A box that no single inner leaf holds is found."""
        paving = paver.run_text(DISC, eps="0.1").paving()
        found = paver.decide(paving).largest
        assert found is not None
        holding = [leaf for leaf in paving.inner()
                   if all(a <= c and d <= b for (a, b), (c, d) in zip(leaf.exact, found.box))]
        self.assertEqual(holding, [])

    def test_bound_holds_early(self) -> None:
        """With one try the bound is weaker, and holds all the same."""
        paving = paver.run_text(DISC, eps="0.05").paving()
        first, last = paver.decide(paving, tries=1).tolerance, paver.decide(paving).tolerance
        assert first is not None and last is not None
        self.assertGreaterEqual(first.most, last.share)
        self.assertGreaterEqual(last.most, first.share)
        self.assertGreaterEqual(first.most, last.most)

    def test_refused(self) -> None:
        paving = paver.run_text(TRIANGLE, eps="0.5").paving()
        endless = paver.run_text("Variables x; Constraints x <= 1; end").paving()
        calls: list[tuple[str, Any, dict[str, Any]]] = [
            ("the scale 0 of x", paving, {"scale": {"x": 0}}), ("there is no variable 'w'", paving, {"scale": {"w": 1}}),
            ("'a' is no number", paving, {"scale": {"y": "a"}}), ("x has no bounded domain", endless, {}),
            ("0 tries", paving, {"tries": 0}), ("the search box", paver.Paving.from_text(LONE), {})]
        for text, given, how in calls:
            with self.subTest(text):
                with self.assertRaisesRegex(ValueError, re.escape(text)):
                    paver.decide(given, **how)

    def test_nothing(self) -> None:
        """Of an equation no box is inner: there is no decision, and status 1."""
        text = "Variables x in [0,1], y in [0,1]; Constraints x = y; end"
        self.assertEqual(paver.decide(paver.run_text(text, eps="0.25").paving()).tolerance, None)
        system, path = self.stored(text, "0.25")
        status, out, _ = command("decide", system, path)
        self.assertEqual((status, out.count("\n")), (1, 1), out)
        self.assertIn("no inner box has a volume", paver.report(system, path))

    def test_command(self) -> None:
        """What is printed lies within what is proved; with --exactly it is the same as in Python."""
        system, path = self.stored(TRIANGLE, "0.1")
        found = paver.decide(paver.Paving.read(path, system=system), {"x": "1/2"})
        assert found.tolerance is not None and found.largest is not None
        status, out, err = command("decide", system, path, "--scale", "x=1/2", "--exactly")
        self.assertEqual((status, err), (0, ""))
        said = re.findall(r"^  (\w) = (\S+) \+- (\S+), scale (\S+)$", out, re.M)
        self.assertEqual([(name, *map(Fraction, rest)) for name, *rest in said],
                         list(zip("xy", found.tolerance.point, found.tolerance.moves, found.scales)))
        status, out, _ = command("decide", system, path, "--scale", "x=1/2")
        boxes = re.findall(r"^  \w in \[(\S+), (\S+)\], centre", out, re.M)
        self.assertEqual(len(boxes), 2, out)
        for (low, high), (first, last) in zip(boxes, found.largest.box):
            self.assertTrue(first <= Fraction(low) < Fraction(high) <= last, out)
        for word in ("x", "x=", "x=0", "w=1", "x=1/0"):
            with self.subTest(word):
                status, out, err = command("decide", system, path, "--scale", word)
                self.assertEqual((status, out, err.count("\n")), (2, "", 1), err)
        self.assertEqual(command("decide", system, path, "--eps", "0.2", "--strict")[0], 2)
        status, out, err = command("decide", system, path, "--eps", "0.2")
        self.assertEqual((status, out), command("decide", system, path)[:2])
        self.assertIn("that is taken", err)

    def test_digits(self) -> None:
        """Six digits, rounded to their side."""
        for value, up, text in ((Fraction(1, 3), False, "0.333333"), (Fraction(1, 3), True, "0.333334"),
                                (Fraction(0), True, "0"),
                                (Fraction(-2, 3), False, "-0.666667"), (Fraction(1234567), False, "1234560"),
                                (Fraction(5, 4), True, "1.25"), (Fraction(1, 10 ** 9), True, "1E-9")):
            self.assertEqual(digits(value, up), text)

    def page_of(self, text: str) -> Page:
        """A page that is well formed and loads nothing."""
        page = Page()
        page.feed(text)
        page.close()
        self.assertEqual((page.faults, page.open), ([], []))
        self.assertEqual(page.tags & {"script", "link", "iframe", "object", "embed", "img", "base", "form"}, set())
        self.assertNotRegex(text, r"url\(|@import")
        self.assertEqual(set(re.findall(r"https?://[^\"' <]+", text)) - {"http://www.w3.org/2000/svg"}, set())
        return page

    def test_report(self) -> None:
        """Each part is there, with the question, the identity, the volumes and the constraints."""
        system, path = self.stored("// Which loads\n//   can it carry?\n" + TRIANGLE, "0.25")
        status, out, err = command("report", system, path, "--scale", "x=2")
        self.assertEqual((status, err), (0, ""))
        page = self.page_of(out)
        self.assertEqual(page.headings, PARTS)
        for text in ("Which loads\ncan it carry?", "x + y <= 3", path.read_text().split()[3], "0.25", "[0, 4]", "may move by"):
            self.assertIn(text, page.text, text)
        self.assertIn("<svg", out)
        self.assertEqual(out, paver.report(system, path, scale={"x": Fraction(2)}))

    def test_report_commands(self) -> None:
        """The three commands are taken as they stand, in the form that the paving was made by."""
        for form in ("plain", "centered"):
            name = f"a b {form}"
            system, path = self.stored(DISC, "0.25", name, form=form)
            with at(self.path):
                codes = self.page_of(paver.report(system.name, path.name)).codes
                calls = [shlex.split(code) for code in codes if "paver " in code]
                self.assertEqual([call[:4][k] for call, k in zip(calls, (1, 1, 3))], ["check", "audit", "decide"])
                for call in calls:
                    words = [PROGRAM, *call[1:]] if call[0] == "paver" else [sys.executable, *call[1:]]
                    done = subprocess.run(words, capture_output=True, text=True, timeout=SECONDS, check=False)
                    with self.subTest(shlex.join(call)):
                        self.assertEqual(done.returncode, 0, done.stderr)
                        self.assertTrue(call[1] != "audit" or done.stdout == "honest\n", done.stdout)

    def test_report_escapes(self) -> None:
        """Names and comments that look like HTML are shown as they are; long ones are cut."""
        text = "// <script>alert(1)</script> & \"so\" \x1b[2J\n" + "// more\n" * 200 + "// " + "y" * 9000 + "\n" + TRIANGLE
        system, path = self.stored(text, "0.5", "a<b>&'\"c")
        out = paver.report(system, path)
        page = self.page_of(out)
        self.assertIn("<script>alert(1)</script> & \"so\"", page.text)
        self.assertIn("a<b>&'\"c", page.text)
        self.assertNotIn("\x1b", out)
        self.assertIn("(202 lines)", page.text)
        self.assertNotIn("y" * 3000, html.unescape(out))

    def test_report_more_variables(self) -> None:
        """Three variables are shown by a slice at the point, one by no picture, and a run that ended early says so."""
        system, path = self.stored(WEDGE, "0.25")
        self.assertIn("The slice where z = ", self.page_of(paver.report(system, path)).text)
        system, path = self.stored("Variables x in [0,2]; Constraints x <= 1; end", "0.25", "one")
        self.assertIn("no picture", self.page_of(paver.report(system, path)).text)
        system, path = self.stored(DISC, "0.01", "short", boxes=40)
        self.assertRegex(self.page_of(paver.report(system, path)).text, r"not whole: \d+ leaves are open")

    def test_report_refused(self) -> None:
        """Another system's file, other settings, and printed text are refused in one line, and nothing is written."""
        system, path = self.stored(TRIANGLE, "0.5")
        other, _ = self.stored(DISC, "0.5", "other")
        printed = self.path / "printed"
        printed.write_text(paver.run_text(TRIANGLE, eps="0.5").text)
        for words in ((other, path), (system, path, "--eps", "1", "--strict"), (system, printed), (system, self.path / "none")):
            with self.subTest(words[1:]):
                status, out, err = command("report", *words)
                self.assertEqual((status, out, err.count("\n")), (2, "", 1), err)

    def test_document(self) -> None:
        """The commands of DECIDE.md, one after the other, print what stands below them."""
        text = (TOP / "docs" / "DECIDE.md").read_text()
        block = re.search(r"^```\n(\$ .*?)^```", text, re.M | re.S)
        assert block is not None
        shown = re.findall(r"^\$ (.*)\n((?:[^$\n].*\n)*)", block[1], re.M)
        self.assertEqual([shlex.split(words)[0] for words, _ in shown], ["./paver", "python3", "python3"])
        (self.path / "examples").symlink_to(TOP / "examples")
        for words, lines in shown:
            call, _, target = words.partition(" > ")
            given = shlex.split(call)
            begun = [PROGRAM, *given[1:]] if given[0] == "./paver" else [sys.executable, *given[1:]]
            done = subprocess.run(begun, cwd=self.path, capture_output=True, text=True, timeout=SECONDS, check=False)
            self.assertEqual(done.returncode, 0, done.stderr)
            if target:
                self.assertEqual(self.page_of(done.stdout).headings, PARTS)
            elif lines:
                self.assertEqual(done.stdout, lines)


if __name__ == "__main__":
    main()
