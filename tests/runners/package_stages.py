"""Checks of `paver.Parts` on stages of one tree: what it answers of any shares, stopped or done, is what the independent reader
finds in the one file of their join, held as a whole or read in small pieces."""
from __future__ import annotations

import importlib
import io
import itertools
import random
import re
import subprocess
import sys
import tempfile
from fractions import Fraction
from pathlib import Path
from typing import Any, Callable, Iterator

import paver
from tests.data.reader_cases import canonical
from tests.reference import files, minibex
from tests.reference.commands import Call
from tests.reference.numbers import POS_INF, NEG_INF, as_fraction
from tests.runners.package_test import PackageTest, example
from tests.runners.running import SECONDS, TOP, main, made_cases

stages: Any = importlib.import_module("paver.stages")
RING = example("ring").read_text()
UNBOUNDED = "Variables x, y in [-2,2]; Constraints x*y >= 1; x^2 <= 100; end"
# A system, its settings, and the nodes of its opening and of its whole.
SYSTEMS: list[tuple[str, dict[str, Any], int]] = [
    (RING, {"eps": Fraction(1, 2)}, 12), (UNBOUNDED, {"eps": Fraction(1), "depth": 12}, 20)]
KINDS = {"I": "inner", "S": "small", "O": "open"}
Leaf = tuple[str, tuple[tuple[Any, Any], ...]]


def exact(box: Any) -> tuple[tuple[Any, Any], ...]:
    """The ends of a reference's box."""
    ends = [[end if end in (NEG_INF, POS_INF) else as_fraction(end) for end in pair] for pair in box]
    return tuple((low, high) for low, high in ends)


def kept_of(tree: Any, box: Any) -> Iterator[Leaf]:
    """The kept boxes of a reference's tree, in preorder."""
    if tree[0] == "C":
        for half, low_or_high in zip(tree[4:], files.halves(*tree[1:4])):
            yield from kept_of(half, low_or_high)
    elif tree[0] != "X":
        yield KINDS[tree[0]], exact(box if tree[0] == "O" else tree[1])


def classes_of(tree: Any, box: Any, point: tuple[Fraction, ...]) -> set[str]:
    """The classes of the closed boxes of a reference's tree that hold a point."""
    def holds(ends: Any) -> bool:
        return all(low <= x <= high for x, (low, high) in zip(point, exact(ends)))
    if not holds(box):
        return set()
    if tree[0] in "XO":
        return {"removed" if tree[0] == "X" else "open"}
    found = set()
    # cut off is what lies beyond an end of `to` that is not the box's, its face with `to` included
    for x, (low, high), (old_low, old_high) in zip(point, exact(tree[1]), exact(box)):
        if (low != old_low and x <= low) or (high != old_high and x >= high):
            found.add("removed")
    if not holds(tree[1]):
        return found
    if tree[0] != "C":
        return found | {KINDS[tree[0]]}
    return found.union(*[classes_of(half, ends, point) for half, ends in zip(tree[4:], files.halves(*tree[1:4]))])


class Shared(PackageTest):
    """A folder with random stages of a tree."""

    def setUp(self) -> None:
        made = tempfile.TemporaryDirectory()
        self.addCleanup(made.cleanup)
        self.path = Path(made.name)
        for name in ("HELD", "NODES"):
            self.addCleanup(setattr, stages, name, getattr(stages, name))

    def begin(self, text: str, settings: dict[str, Any], first: int) -> None:
        """A system, its reference, and an opening."""
        self.reference = Call(minibex.read(text), canonical(text), **settings)
        self.box = self.reference.settler.root
        self.root = [exact([pair])[0] for pair in self.box]
        self.opening = files.go_on_by_levels(self.reference.settler, ("O",), first)

    def stage(self, draws: random.Random, of: int) -> Any:
        """A random stage: that of a share by a random budget, or one that went on from such in any order."""
        budget = draws.choice((3, 12, 100_000))
        tree, _ = files.go_on_with_share(self.reference.settler, self.opening, budget, draws.randrange(of), of)
        if draws.random() < 0.3:
            tree = files.go_on(self.reference.settler, tree, draws.randrange(20))
        return tree

    def stored(self, name: str, tree: Any, version: int = 2) -> Path:
        (self.path / name).write_bytes(self.reference.write(tree, version))
        return self.path / name

    def read(self, paths: list[Path], held: bool) -> paver.Parts:
        stages.HELD, stages.NODES = (1 << 26, 50_000) if held else (0, 7)
        return paver.Parts.read(paths, root=self.root, names=["x", "y"])


class Joined(Shared):
    """Stages beside their join."""

    def points(self, draws: random.Random, kept: list[Leaf]) -> Iterator[tuple[Fraction, ...]]:
        """Corners of boxes, points within them, and points anywhere."""
        for _ in range(12):
            box = draws.choice(kept)[1]
            low, high = zip(*[[Fraction(max(-50, min(50, end))) for end in pair] for pair in box])
            yield tuple(draws.choice(pair) for pair in zip(low, high))
            yield tuple(a + (b - a) * draws.randrange(9) / 8 for a, b in zip(low, high))
            yield tuple(Fraction(draws.randrange(-400, 400), 100) for _ in box)

    def test_random_stages(self) -> None:
        """Counts, boxes, hull, classes of points and CSV are those of the join by the reference, in whatever order, as often
        and in whichever version the stages come; volumes too, which are the sum over the reference's boxes."""
        count, seed = made_cases(5)
        for case, (text, settings, first) in itertools.product(range(count), SYSTEMS):
            draws = random.Random(f"{seed} {case} {text}")
            self.begin(text, settings, first)
            trees = [self.stage(draws, draws.randrange(1, 6)) for _ in range(draws.randrange(1, 7))]
            joined = trees[0]
            for tree in trees[1:]:
                joined = files.join(joined, tree)
            paths = [self.stored(f"stage{k}", tree, draws.choice((1, 2))) for k, tree in enumerate(trees)]
            draws.shuffle(paths)
            whole = paver.Paving.read(self.stored("joined", joined), root=self.root, names=["x", "y"])
            for held in (True, False):
                with self.subTest(case=case, text=text[:20], held=held):
                    self.compare(draws, self.read([*paths, paths[0]], held), whole, joined)

    def compare(self, draws: random.Random, found: paver.Parts, whole: paver.Paving, joined: Any) -> None:
        """The answers of stages and those of their join."""
        kept = list(kept_of(joined, self.box))
        counts = files.counts(joined)
        self.assertEqual(found.counts(), {"settled": sum(counts.values()) - counts["O"], **dict(
            zip(("cut", "removed", "inner", "small", "open"), (counts[letter] for letter in "CXISO")))})
        self.assertEqual([(box.kind, box.exact) for box in found.boxes("inner", "small", "open")], kept)
        self.assertEqual(found.hull(), tuple((min(low), max(high)) for low, high in (
            zip(*[box[k] for _, box in kept]) for k in range(2))))
        for point in self.points(draws, kept):
            self.assertEqual(found.where(point), classes_of(joined, self.box, point) or {"outside"}, point)
        for kind in ("inner", "small", "open"):
            sizes = [(b - a) * (d - c) for name, ((a, b), (c, d)) in kept if name == kind]
            self.assertEqual(found.volumes()[kind], sum(sizes, Fraction(0)))
        self.assertEqual(found.volumes(), whole.volumes())
        self.assertEqual(list(found.boxes()), list(whole.boxes()))
        self.assertEqual((found.widest(), found.hull("small")), (whole.widest(), whole.hull("small")))
        self.assertEqual(list(found.slice({"x": 1})), list(whole.slice({"x": 1})))
        self.assertEqual(self.csv(found), self.csv(whole))
        self.assertEqual(len(found.clusters()), len(whole.clusters()))

    def csv(self, cover: Any) -> str:
        out = io.StringIO()
        cover.write_csv(out)
        return out.getvalue()

    def test_pavings_in_memory(self) -> None:
        """Pavings of one identity are one tree; those of other search boxes stand beside it."""
        self.begin(*SYSTEMS[0])
        draws = random.Random(1)
        trees = [self.stage(draws, 3) for _ in range(4)]
        joined = self.opening
        for tree in trees:
            joined = files.join(joined, tree)
        pavings = [paver.Paving.read(self.stored(f"stage{k}", tree, 1 + k % 2), root=self.root)
                   for k, tree in enumerate([*trees, self.opening])]
        found = paver.Parts(pavings)
        kept = [(box.kind, box.exact) for box in found.boxes("inner", "small", "open")]
        self.assertEqual(kept, list(kept_of(joined, self.box)))
        self.assertEqual(len(found.pavings), 1)
        beside = paver.Paving.from_text("settled 0 cut 0 removed 0 inner 0 small 0 open 1\nO\n", root=[(9, 10), (0, 1)])
        both = paver.Parts([*pavings, beside])
        self.assertEqual(both.counts()["open"], found.counts()["open"] + 1)
        printed = paver.Paving.from_text("settled 0 cut 0 removed 0 inner 0 small 0 open 1\nO\n", root=self.root)
        with self.assertRaisesRegex(ValueError, "have one identity"):
            paver.Parts([pavings[0], printed])


def spoiled(path: Path, old: bytes, new: bytes) -> None:
    """Puts something in the last place where a file has something else."""
    data = path.read_bytes()
    at = data.rindex(old)
    path.write_bytes(data[:at] + new + data[at + len(old):])


class Refused(Shared):
    """What is refused, by the name of the file."""

    def both(self) -> list[Path]:
        """Two stored stages."""
        self.begin(*SYSTEMS[0])
        trees = [files.go_on_with_share(self.reference.settler, self.opening, 20, number, 2)[0] for number in range(2)]
        return [self.stored(f"stage{k}", tree) for k, tree in enumerate(trees)]

    def test_spoiled_files(self) -> None:
        """Each in its own line, whether held or read in pieces."""
        def cut(path: Path) -> None:
            path.write_bytes(path.read_bytes()[:-1])

        def short(path: Path) -> None:
            path.write_bytes(b"".join(path.read_bytes().splitlines(True)[:-1]))

        def long(path: Path) -> None:
            path.write_bytes(path.read_bytes() + b"X\n")

        spoils: list[tuple[str, Callable[[Path], None], str]] = [
            ("cut", cut, "the line has no end"), ("short", short, "the tree is not whole"), ("long", long, "lines follow"),
            ("letter", lambda path: spoiled(path, b"\nS ", b"\nZ "), "no node of 2 variables"),
            ("words", lambda path: spoiled(path, b" =\n", b"\n"), "no node of 2 variables"),
            ("number", lambda path: spoiled(path, b" =\n", b" 2:0\n"), "no number of a paving"),
            ("end", lambda path: spoiled(path, b" =\n", b" 4611686018427387903:400\n"), "not in the node's box")]
        for (name, spoil, phrase), held in itertools.product(spoils, (True, False)):
            with self.subTest(name, held=held):
                paths = self.both()
                spoil(paths[1])
                with self.assertRaisesRegex(paver.PavingRefused, f"paving {paths[1]}: line [0-9]+: .*{phrase}"):
                    self.read(paths, held).volumes()

    def test_stages_that_disagree(self) -> None:
        self.begin(*SYSTEMS[0])
        one = files.go_on(self.reference.settler, ("O",), 9)
        other = (*one[:4], ("X",), one[5])
        found = self.read([self.stored("one", one), self.stored("other", other)], False)
        self.assert_raised(paver.Disagree, found.counts, status=9, kind="disagree", path="0", second="X")

    def test_other_files(self) -> None:
        """Another identity, printed text, none at all, and a search box that isn't known."""
        paths = self.both()
        self.assertRaisesRegex(ValueError, "search box", paver.Parts.read, paths)
        self.assertRaisesRegex(ValueError, "no paving", paver.Parts.read, [], root=self.root)
        self.begin(RING, {"eps": Fraction(1, 8)}, 30)
        other = self.stored("other", self.opening)
        with self.assertRaisesRegex(paver.PavingRefused, f"paving {other}: wrong identity: it is not that of {paths[0]}"):
            self.read([*paths, other], True)
        other.write_text("settled 0 cut 0 removed 0 inner 0 small 0 open 1\nO\n")
        with self.assertRaisesRegex(paver.PavingRefused, f"paving {other}: line 1: "):
            self.read([*paths, other], True)
        with self.assertRaises(FileNotFoundError):
            self.read([*paths, self.path / "none"], True)


class Swept(Shared):
    """The shares and joins of sweeps by the program."""

    def test_settings_are_compared(self) -> None:
        """Identities are those of the system under the settings, which are given or kept beside a file."""
        system = self.path / "ring.mbx"
        system.write_text(RING)
        paver.run(system, eps=0.5, boxes=20, out=self.path / "a")
        for number in range(2):
            paver.resume(system, self.path / "a", eps=0.5, share=f"{number}/2", out=self.path / f"b{number}")
        paths = [self.path / name for name in ("a", "b0", "b1")]
        whole = paver.run(system, eps=0.5).paving()
        settings: list[dict[str, Any]] = [{"eps": 0.5}, {}]
        for given in settings:
            found = paver.Parts.read(paths, system=system, **given)
            self.assertEqual((found.counts(), found.volumes()), (whole.counts(), whole.volumes()))
            self.assertEqual(found.names, ["x", "y"])
        with self.assertRaisesRegex(paver.PavingRefused, "this system's with --eps 0.5"):
            paver.Parts.read(paths, system=system, eps=0.25)
        with self.assertRaisesRegex(paver.PavingRefused, "another system"):
            paver.Parts.read(paths, system=example("torus"), eps=0.5)

    def test_what_scaling_shows(self) -> None:
        """The lines of SCALING.md that ask the shares of a sweep, whose whole is taken away, give what the page tells."""
        page = (TOP / "docs" / "SCALING.md").read_text()
        found = re.search(r"^```python\n([^`]*paver\.Parts\.read[^`]*)```", page, re.M)
        assert found is not None
        for name, to in (("examples", TOP / "examples"), ("python", TOP / "python")):
            (self.path / name).symlink_to(to)
        paver.sweep(self.path / "examples" / "torus.mbx", self.path / "torus", eps="0.0625", workers=2, shares=64)
        (self.path / "torus" / "whole.paving").unlink()
        done = subprocess.run([sys.executable, "-c", found.group(1)], cwd=self.path, capture_output=True, text=True,
                              timeout=SECONDS, check=False)
        told = [line.partition("  # ")[2] for line in found.group(1).splitlines() if "  # " in line]
        self.assertEqual((done.stderr, done.stdout.splitlines()), ("", told))


if __name__ == "__main__":
    main()
