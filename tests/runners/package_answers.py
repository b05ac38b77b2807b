"""Checks of the answers around the program: least values by levels, robust, widened equations, what is undecided, scales.

Bounds and boxes are compared with exact points that are drawn, by the reference's reader and exact values; runs that prove a
bound are made again by the reference's paver.
"""
from __future__ import annotations

import io
import math
import os
import random
import re
import signal
import subprocess
import sys
import tempfile
from fractions import Fraction
from pathlib import Path
from typing import Any, Callable, Iterable, Sequence

import paver
from paver import numbers
from paver.canonical import Steps
from paver.curvature import at_vertices, bend_of
from paver.ibex import translate
from paver.levels import BOXES, EMPTY, TIME, WITHIN
from paver.levels_kept import Proof
from paver.ranges import decided
from paver.scale import scaled_text, scales_of
from paver.texts import SystemText
from paver.undecided import undecided
from paver.widen import widened, widened_contract
from tests.data.examples import LEVELS, ROBUST, at_level, level_answers, robust_answers
from tests.data.ibex_cases import TAKEN
from tests.data.reader_cases import GOOD
from tests.generators.least_vectors import GROUPS, NONE, UNBOUNDED
from tests.reference import minibex
from tests.reference import paver as plain
from tests.reference.kinds import Bound, Expression, Relation
from tests.reference.slopes import CenteredSettler
from tests.runners.package_test import PackageTest, command, example
from tests.runners.running import SECONDS, main, rows

DRAWS = 10_000
QUARTIC = "Variables x in [-4,4], y in [-4,4]; Constraints x <= 4; end"
CIRCLE = "Variables x in [-2,2], y in [-2,2]; Constraints x^2 + y^2 = 1; end"


class Written:
    """A file of a text, for a while."""

    def __init__(self, text: str) -> None:
        self.text = text

    def __enter__(self) -> Path:
        self.folder = tempfile.TemporaryDirectory()
        path = Path(self.folder.__enter__()) / "system.mbx"
        path.write_text(self.text)
        return path

    def __exit__(self, *fault: Any) -> None:
        self.folder.__exit__(*fault)


def drawn(domains: Iterable[tuple[Bound, Bound]], source: random.Random, spread: int = 40) -> list[Fraction]:
    """A rational point of some domains: often on a grid that their ends and middles lie on."""
    point = []
    for low, high in domains:
        low = Fraction(low) if low > -math.inf else Fraction(-spread)
        high = Fraction(high) if high < math.inf else Fraction(spread)
        parts = source.choice((1, 2, 8, 120, 1 << 20, 10 ** 9))
        point.append(low + (high - low) * Fraction(source.randint(0, parts), parts))
    return point


def is_member(system: minibex.System, point: Sequence[Fraction]) -> bool:
    return all(minibex.holds(c, point) for c in system.constraints)


# ---- least values by levels

NEAR = [
    ("derivative gain", example("least_derivative_gain"), "kd", 2),
    ("best fit", example("best_fit"), "error", None),
    ("quartic", QUARTIC, "x^4 - 3*x^2 + x + y^4 - 2*y^2 + y/2", None),
    ("valley", QUARTIC, "100*(y - x^2)^2 + (1 - x)^2", 0),
]


def expression_of(text: str, of: str) -> Expression:
    """The reference's expression of a text, with the system's functions and constants."""
    reader = minibex.Reader(text)
    system = reader.read()
    reader.tokens, reader.at = minibex.tokens(of), 0
    return reader.expression({name: ("var", i) for i, name in enumerate(system.names)})


def proof_by_reference(proof: Proof) -> dict[str, int]:
    """The reference's paver, given the kept text and settings, has the summary of the kept run."""
    settler = CenteredSettler if proof.command == "run-centered" else plain.Settler
    settings = {"eps": Fraction(proof.settings["eps"]), "depth": proof.settings["depth"]}
    if "contract" in proof.settings:
        settings["contract"] = proof.settings["contract"]
    summary, _ = plain.pave(settler(minibex.read(proof.text), **settings), proof.settings["boxes"])
    return dict(zip(summary.split()[::2], map(int, summary.split()[1::2])))


REFUSED: list[tuple[str, dict[str, Any], type[Exception], dict[str, Any]]] = [
    ("x;", {}, paver.ObjectiveRefused, {}), ("x; y <= 1", {}, paver.ObjectiveRefused, {}),
    ("x <= 1", {}, paver.ObjectiveRefused, {}), ("x + z", {}, paver.ObjectiveRefused, {"byte": 4, "cause": "UnknownName"}),
    ("x) + (y", {}, paver.ObjectiveRefused, {"byte": 1}), ("", {}, paver.ObjectiveRefused, {"byte": 0}),
    ("x /* y", {}, paver.ObjectiveRefused, {}), ("sqrt(x)", {}, paver.ObjectiveRefused, {"cause": "NotInProfile", "byte": 0}),
    ("x; y <= 1; x", {}, paver.ObjectiveRefused, {"byte": 1, "cause": "Unexpected"}), ("é", {}, paver.ObjectiveRefused, {}),
    ("€", {}, paver.ObjectiveRefused, {}), ("x", {"contract": "hc4(1"}, paver.ContractRefused, {"byte": 5}),
    ("x", {"within": 0}, ValueError, {}), ("x", {"widen": "-1"}, ValueError, {}), ("x", {"boxes": 0}, paver.UsageError, {}),
]


def near(constraint: Relation, point: Sequence[Fraction]) -> bool:
    left, right = (minibex.value(side, point) for side in constraint[1:])
    return left is not None and right is not None and abs(left - right) <= Fraction(1, 4)


# ---- for all values of some

DIVIDED = "Variables k in [-2,2], p in [-1,1]; Constraints 1/(k - p) <= 4; k + p >= -1; end"
BENT = "Variables x in [-2,2], y in [-2,2], p in [-0.5,1.5], q in [0.25,0.75]; Constraints x*p + q^2 + abs(p - y) <= 2; " \
       "min(x, 1 - q*p) >= -1; (p*q - y)/(x + 3) < 2; end"


def inside(box: Iterable[tuple[Bound, Bound]], source: random.Random) -> list[Fraction]:
    """A point off the faces of a box."""
    ends = ((Fraction(low), Fraction(high)) for low, high in box)
    return [low + (high - low) * Fraction(source.randrange(1, 1 << 20), 1 << 20) for low, high in ends]


ROBUSTS: list[tuple[str, str | Path, list[str], dict[str, Any], bool]] = [
    ("an uncertain plant", example("uncertain_pid"), ["a", "g"], {"eps": "0.25"}, True),
    ("an uncertain plant, boxes alone", example("uncertain_pid"), ["a", "g"], {"eps": "0.25", "vertices": False}, True),
    ("joint tolerances", example("joint_tolerances"), ["u", "v"], {"eps": "0.125"}, True),
    ("joint tolerances, stopped", example("joint_tolerances"), ["u", "v"], {"eps": "0.125", "boxes": 500}, False),
    ("divisors that vanish", DIVIDED, ["p"], {"eps": "0.05"}, True),
    ("divisors that vanish, plain", DIVIDED, ["p"], {"eps": "0.05", "centered": False}, True),
    ("bent", BENT, ["p", "q"], {"eps": "0.25"}, True),
    ("one parameter", "Variables x in [-3,3], y in [-3,3], r in [1,2]; Constraints x^2 + y^2 <= r^2; end", ["r"],
     {"eps": "0.25"}, True),
]


def value_at(steps: Steps, point: Sequence[Fraction]) -> Fraction | None:
    from paver.canonical import value
    return value(steps, point)


def made_expression(source: random.Random, depth: int) -> str:
    """The canonical text of an expression over two variables."""
    if depth == 0 or source.random() < 0.2:
        return source.choice(["v0", "v1", "v1", "2/1", "-3/2", "1/3"])
    kind = source.choice(["+", "-", "*", "/", "min", "max", "neg", "abs", "^"])
    first = made_expression(source, depth - 1)
    if kind in ("neg", "abs"):
        return f"({kind} {first})"
    return f"(^ {first} {source.randrange(4)})" if kind == "^" else f"({kind} {first} {made_expression(source, depth - 1)})"


SCALED = "Constants c = 0.000005;\nVariables x in [0, c], y in [-10, 10], z in [0, 5], w in [0, 70000], v;\n" \
         "function f(x) return x*x; end\nConstraints y >= x*1000000 - f(x); z + x*w <= 4; w + v >= 0; end"


class Answers(PackageTest):
    """The answers around the program."""

    def check_bounds(self, text: str, of: str, found: paver.Bounds | paver.Levels, draws: int) -> None:
        """Each drawn member's value is above the lower bound; the point is a member, and its value at most the upper one."""
        system, source, e = minibex.read(text), random.Random(5), expression_of(text, of)
        for _ in range(draws):
            point = drawn(system.domains, source)
            if found.lower > -math.inf and is_member(system, point):
                value = minibex.value(e, point)
                self.assertTrue(value is None or value > found.lower, (of, point, value, found.lower))
        if found.point is not None:
            self.assertTrue(is_member(system, found.point), (of, found.point))
            self.assertTrue(all(low <= x <= high for x, (low, high) in zip(found.point, system.domains)), found.point)
            value = minibex.value(e, found.point)
            self.assertTrue(value is not None and found.upper is not None and value <= found.upper, (of, found))

    def check_near(self, system: str | Path, of: str, known: Fraction | int | None) -> None:
        """A gap of 1e-3 in little time, bounds that hold, and two runs that the reference makes alike."""
        text = system.read_text() if isinstance(system, Path) else system
        with Written(text) as path:
            begun = sum(os.times()[:4])
            found = paver.least_by_levels(path, of)
            taken = sum(os.times()[:4]) - begun
        self.assertEqual(found.ended, WITHIN, found)
        self.assertLessEqual(found.gap, Fraction(1, 1000), found)
        self.assertLess(taken, 2, taken)  # processor seconds; a quarter of one on a quiet machine
        self.assertTrue(known is None or found.upper is not None and found.lower < known <= found.upper, found)
        self.check_bounds(text, of, found, DRAWS)
        for name, proof in found.proofs.items():
            counts = proof.counts
            if counts["settled"] < 50:  # as many as the slow reference has time for
                self.assertEqual(counts, proof_by_reference(proof), (name, counts))
            kept = counts["inner"] + counts["small"] + counts["open"]
            self.assertTrue(kept == 0 if name == "lower" else counts["inner"] > 0, (name, counts))

    def check_levels_of_gallery(self, name: str, of: str, level: str, eps: str, point: dict[str, str]) -> None:
        """What the gallery shows: the program's run is the reference's, with nothing kept; the point is in the set."""
        text = example(name).read_text()
        with Written(at_level(text, of, level)) as path:
            printed = paver.run_centered(path, eps=eps).text.splitlines()[0]
        self.assertEqual(printed, level_answers()[name], printed)
        self.assertTrue(printed.endswith(" inner 0 small 0 open 0"), printed)
        system = minibex.read(text)
        there = [Fraction(point[variable]) for variable in system.names]
        self.assertTrue(is_member(system, there))
        self.assertLess(Fraction(level), there[system.names.index(of)])
        self.assertLess(there[system.names.index(of)], Fraction(level) + Fraction(1, 1000))

    def test_known_least_values(self) -> None:
        """Each case's least value, worked out by hand, lies between the bounds; with little time they are right as well."""
        met = 0
        for case in (case for group in GROUPS.values() for case in group):
            domains, constraints, of, _, known = case
            text, easy = f"Variables {domains}; Constraints {constraints}; end", isinstance(known, (int, Fraction))
            with Written(text) as path:
                found = paver.least_by_levels(path, of, seconds=10 if easy else 0.2, boxes=1000)
            if easy:
                self.assertLess(found.lower, known, (case, found))
                self.assertTrue(found.upper is None or known <= found.upper, (case, found))
                met += found.ended == WITHIN
            elif known == NONE:
                self.assertIsNone(found.upper, (case, found))
                self.assertIn(found.ended, (EMPTY, TIME, BOXES), (case, found))
            elif known == UNBOUNDED:
                self.assertEqual(found.lower, -math.inf, (case, found))
            self.check_bounds(text, of, found, 200)
        self.assertGreaterEqual(met, 30, met)

    def test_objective_of_names(self) -> None:
        """Functions and constants stand in the expression, and a contractor text keeps its meaning."""
        text, of = example("best_fit").read_text(), "rate(2, vmax, km) - error"
        with Written(text) as path:
            found = paver.least_by_levels(path, of)
            outlier = paver.least_by_levels(path, of, contract="qinter(9," + ",".join(f"hc4({i})" for i in range(10)) + ")")
        self.check_bounds(text, of, found, DRAWS // 5)
        self.assertTrue(found.complete)
        self.assertTrue(outlier.upper is not None and found.upper is not None and outlier.upper < found.upper)
        self.assertTrue(outlier.proofs["upper"].settings["contract"].endswith(",hc4(10)))"))
        system, source, e = minibex.read(text), random.Random(8), expression_of(text, of)
        for _ in range(DRAWS // 5):
            point = drawn(system.domains, source)
            if sum(minibex.holds(c, point) for c in system.constraints) >= 9:
                value = minibex.value(e, point)
                self.assertTrue(value is not None and value > outlier.lower, (point, outlier.lower))

    def test_tries(self) -> None:
        """A point of the user's begins the upper bound where it is in the set, and is no harm where it isn't."""
        with Written("Variables x in [0,1], y in [0,1]; Constraints x >= 0.3; end") as path:
            half, third = {"x": Fraction(1, 2), "y": Fraction(1, 2)}, {"x": Fraction(1, 3), "y": Fraction(0)}
            out = {"x": Fraction(0), "y": Fraction(0)}
            beyond = {"x": Fraction(2), "y": Fraction(0)}
            for tries in ([half], [out], [beyond], [third], [half, out, {"x": Fraction("0.31"), "y": Fraction(0)}]):
                found = paver.least_by_levels(path, "x + y", tries=tries)
                self.assertTrue(found.complete, found)
                self.assertTrue(found.upper is not None and found.lower < Fraction(3, 10) <= found.upper, found)
                self.assertTrue(found.point is not None and found.point[0] >= Fraction(3, 10), found)
            self.assert_raised(ValueError, lambda: paver.least_by_levels(path, "x", tries=[{"x": Fraction(1)}]))
            self.assert_raised(ValueError, lambda: paver.least_by_levels(path, "x", tries=[dict.fromkeys("xyz", Fraction(1))]))

    def test_least_of_outliers(self) -> None:
        """Eight of ten measurements of a constant lie from 0.5 to 0.6, so that the least error with two wrong is 0.05: found in
        few calls under a qinter text. No bound that is told lies below the domain's."""
        values = ["0.5", "0.51", "1.9", "0.52", "0.55", "0.57", "0.1", "0.58", "0.59", "0.6"]
        text = "Variables c in [0,2], error in [0,2]; Constraints " + "".join(f"abs(c - {v}) <= error; " for v in values) + "end"
        contract, told = f"qinter(8,{','.join(f'hc4({k})' for k in range(10))})", []
        with Written(text) as path:
            found = paver.least_by_levels(path, "error", contract=contract, tell=lambda bounds: told.append(bounds.lower))
        self.assertTrue(found.complete and found.upper is not None, found)
        self.assertTrue(found.lower < Fraction(1, 20) <= (found.upper or 0) <= Fraction(51, 1000), found)
        self.assertLessEqual(found.calls, 6, found)
        self.assertTrue(all(lower == -math.inf or lower > Fraction(-1, 1000) for lower in told), told)
        with Written(CIRCLE.replace("x in [-2,2]", "x in [0,2]")) as path:
            bare = paver.least_by_levels(path, "x", boxes=200)
        self.assertTrue(Fraction(-1, 1000) <= bare.lower < 0, bare)

    def test_widened_least(self) -> None:
        """Of equations with irrational roots alone the widened system has points, and its bounds are near the true value."""
        with Written(CIRCLE) as path:
            found = paver.least_by_levels(path, "x + 2*y", widen="1e-9")
            bare = paver.least_by_levels(path, "x + 2*y", seconds=0.5)
        least_there = Fraction(-math.isqrt(5 * 10 ** 40), 10 ** 20)  # -sqrt(5), to twenty digits
        self.assertTrue(found.complete, found)
        self.assertLess(found.lower, least_there, found)
        self.assertTrue(found.upper is not None and least_there < found.upper + Fraction(1, 10 ** 6), found)
        x, y = found.point or ()
        self.assertLessEqual(abs(x * x + y * y - 1), Fraction(1, 10 ** 9))
        self.assertIsNone(bare.point, bare)
        self.assertIn(bare.ended, (TIME, BOXES), bare)
        self.assertLess(bare.lower, least_there, bare)

    def test_refused_levels(self) -> None:
        with Written("Variables x in [0,1], y in [0,1]; Constraints x >= 0; y >= 0; end") as path:
            for of, options, kind, place in REFUSED:
                self.assert_raised(kind, lambda of=of, options=options: paver.least_by_levels(path, of, **options), **place)
            for words, phrase in ((["--of", "x", "--within", "1"], "with --levels alone"),
                                  (["--of", "x + q", "--levels"], "      ^"),
                                  (["--of", "x", "--levels", "--eps", "1"], "isn't taken with --levels"),
                                  (["--of", "x", "--levels", "--try", "x"], "as --try x=1,y=0.5"),
                                  (["--of", "x", "--levels", "--try", "x=1"], "look at y"),
                                  (["--of", "x", "--levels", "--within", "a"], "a number as 0.001"),
                                  (["--of", "x", "--widen", "0"], "above 0")):
                status, out, err = command("least", path, *words)
                self.assertEqual((status, out), (2, ""), (words, err))
                self.assertIn(phrase, err, (words, err))
        full = "; ".join(["x >= 0"] * 64)
        with Written(f"Variables x in [0,1]; Constraints {full}; end") as path:
            self.assert_raised(ValueError, lambda: paver.least_by_levels(path, "x"))

    def test_levels_command(self) -> None:
        """The printed bounds, the kept files, and the commands that repeat them: one keeps nothing, one an inner box."""
        with tempfile.TemporaryDirectory() as folder:
            status, out, _ = command("least", example("least_derivative_gain"), "--of", "kd", "--levels", "--within", "0.01",
                                     "--keep", folder, "--try", "kp=1,ki=1,kd=2.5")
            lower, upper = (Fraction(re.findall(rf"^{word} (\S+)$", out, re.M)[0]) for word in ("lower", "upper"))
            self.assertEqual(status, 0, out)
            self.assertLess(lower, 2, out)
            self.assertLessEqual(2, upper, out)
            self.assertLessEqual(upper, lower + Fraction(1, 100), out)
            self.assertIn("`run-centered` of the system with `kd <= ", out)
            self.assertIn("an inner box", out)
            told = (Path(folder) / "repeat.txt").read_text()
            commands = re.findall(r"^  paver (.*)$", told, re.M)
            self.assertEqual([words.split()[0] for words in commands], ["run-centered", "audit-centered", "run", "audit"])
            printed = [subprocess.run([os.environ["PAVER"], *words.split()], cwd=folder, capture_output=True, text=True,
                                      timeout=SECONDS, check=True).stdout.splitlines()[0] for words in commands]
            self.assertEqual(printed[1], printed[3], printed)
            self.assertEqual(printed[3], "honest", printed)
            self.assertTrue(printed[0].endswith(" inner 0 small 0 open 0"), printed)
            self.assertEqual(printed[2], "settled 1 cut 0 removed 0 inner 1 small 0 open 0", printed)
        with Written("Variables x in [0,1]; Constraints x >= 2; end") as path:
            status, out, _ = command("least", path, "--of", "x", "--levels")
            self.assertEqual(status, 0, out)
            self.assertTrue(out.startswith("lower +oo\nupper none\n"), out)

    def test_interrupted(self) -> None:
        """A signal, or the end of the time, ends a search with bounds that hold."""
        least_there = Fraction(-math.isqrt(5 * 10 ** 40), 10 ** 20)
        with Written(CIRCLE) as path:
            for number in (signal.SIGINT, signal.SIGTERM):
                words = ["least", path, "--of", "x + 2*y", "--levels", "--within", "1e-9", "--try", "x=0,y=-1"]
                child = subprocess.Popen([sys.executable, "-m", "paver", *map(str, words)], stdout=subprocess.PIPE,
                                         stderr=subprocess.PIPE, text=True,
                                         env={**os.environ, "PYTHONPATH": str(Path(paver.__file__).parents[1])})
                child.stderr.readline()  # the first bound is told
                child.send_signal(number)
                out, _ = child.communicate(timeout=SECONDS)
                self.assertEqual(child.returncode, 1, (out, child.returncode))
                self.assertIn("it was interrupted", out, (out, child.returncode))
                lower, upper = (re.findall(rf"^{name} (\S+)$", out, re.M)[0] for name in ("lower", "upper"))
                self.assertEqual(upper, "-2", out)
                self.assertTrue(lower == "-oo" or Fraction(lower) < least_there, out)
            moved = []
            found = paver.least_by_levels(path, "x + 2*y", seconds=0.3, tell=lambda bounds: moved.append(bounds.lower))
        self.assertEqual(found.ended, TIME)
        self.assertEqual(moved, sorted(moved))
        self.assertLess(found.lower, least_there)

    # ---- widened equations

    def test_texts(self) -> None:
        """Each good text that is written anew, from its parts, is the same system."""
        for text in GOOD:
            raw = text.encode().decode("latin-1")
            source = SystemText(raw)
            with Written("") as first, Written("") as second:
                first.write_bytes(text.encode())
                second.write_bytes(source.written([c.written() for c in source.constraints]).encode("latin-1"))
                self.assertEqual(paver.check(first).text, paver.check(second).text, text)

    def test_widened_texts(self) -> None:
        """At exact points the widened constraints hold where each equation's sides differ by at most D and the others hold."""
        source, count = random.Random(9), 0
        for text in [text for text in [*GOOD, example("puma_poses").read_text()] if "=" in re.sub("[<>]=", "", text)]:
            try:
                old, new = minibex.read(text), minibex.read(widened(text, "0.25"))
            except (AssertionError, RecursionError):  # beyond the reference's reader
                continue
            for _ in range(20):
                point = drawn(old.domains, source, 2)
                wanted = all(near(c, point) if c[0] == "=" else minibex.holds(c, point) for c in old.constraints)
                self.assertEqual(is_member(new, point), wanted, (text, point))
                count += 1
        text = "Variables x in [-2,2], y in [-2,2]; Constraints x^2 + 3*y = x*y - 1; x <= y; end"
        old, new = minibex.read(text), minibex.read(widened(text, "0.25"))
        for _ in range(DRAWS):
            point = drawn(old.domains, source)
            wanted = near(old.constraints[0], point) and minibex.holds(old.constraints[1], point)
            self.assertEqual(is_member(new, point), wanted, (text, point))
        self.assertGreater(count, 100, count)

    def test_widened_contracts(self) -> None:
        """A contractor text means the same of the widened constraints: by the reference's members, for all ways to hold."""
        relations = ["=", "<=", "=", ">"]
        for text in ("prop(8)", "qinter(2,hc4(0),hc4(1),hc4(2),hc4(3))", "union(hc4(3),compose(hc4(0),hc4(2)))",
                     "fix(2,hc4(1))"):
            new = widened_contract(text, relations)
            for ways in range(64):
                both = [bool(ways >> i & 1) for i in range(6)]
                old = [both[0] and both[1], both[2], both[3] and both[4], both[5]]
                member = plain.Settler.member
                settler = plain.Settler(minibex.read("Variables x; Constraints x = 0; end"))
                self.assertEqual(member(settler, plain.read_program(text), old), member(settler, plain.read_program(new), both),
                                 (new, both))

    def test_widened_refusals(self) -> None:
        for bad in ("0", "-1", "x", "1e-99", 0, -0.5, Fraction(1, 3)):
            self.assert_raised(ValueError, lambda bad=bad: widened(CIRCLE, bad))
        self.assertNotIn("1e-9", widened(CIRCLE, 1e-9))
        self.assertEqual(widened(CIRCLE, 1e-9), widened(CIRCLE, "1e-9"))
        self.assertEqual(widened(QUARTIC, 1), QUARTIC)
        self.assert_raised(ValueError, lambda: widened(f"Variables x; Constraints {'; '.join(['x = 0'] * 33)}; end", 1))

    def test_widened_ibex(self) -> None:
        """from-ibex --widen gives the text of from-ibex, widened; no equation is left."""
        for name, file, _ in TAKEN:
            with Written(file) as path:
                path.write_text(file, encoding="latin-1")
                status, out, _ = command("from-ibex", path, "--widen", "1e-6")
            self.assertEqual(status, 0, name)
            self.assertEqual(out, widened(translate(file).text or "", "1e-6"), name)
            self.assertFalse(re.search("[^<>]=", out.split("Constraints")[1]), out)

    def test_roots_widened(self) -> None:
        """Irrational roots lie in kept boxes of the widened paving; roots says on what that rests."""
        circle = "Variables x in [-2,2], y in [-2,2]; Constraints x^2 + y^2 = 1; y = x; x > -5; end"
        with Written(circle) as path:
            status, out, _ = command("roots", path, "--eps", "0.01")
            self.assertEqual(status, 0, out)
            self.assertEqual(out.count("one root, here"), 2, out)
            self.assertIn("widened by 1e-09: each real root", out, out)
            status, out, _ = command("roots", path, "--eps", "0.01", "--widen", "0")
            self.assertEqual(status, 0)
            self.assertIn("no rational root, and of irrational ones nothing is said", out)
            with paver.widened_file(path, "1e-9") as (wide, _):
                paving = paver.run(wide, eps="0.01").paving()
            root = Fraction(math.isqrt(5 * 10 ** 39), 10 ** 20)  # sqrt(1/2), to twenty digits
            for sign in (1, -1):
                self.assertTrue(paving.where((sign * root, sign * root)) & {"inner", "small"})
            stored = path.with_suffix(".paving")
            paver.run(path, eps="0.01", out=stored)
            status, out, _ = command("roots", path, stored, "--eps", "0.01")
            self.assertEqual(status, 0)
            self.assertIn("as they stand", out)

    def test_real_roots_are_kept(self) -> None:
        """Drawn points of a circle, irrational as a rule, lie in kept boxes of its widened equation. Each is between two
        rational points that are 2^-200 apart."""
        paving, source = paver.run_text(widened(CIRCLE, "1e-9"), eps="0.01").paving(), random.Random(12)
        self.assertGreater(paving.volumes()["removed"], 15)
        for _ in range(DRAWS):
            x = Fraction(source.randint(-1 << 30, 1 << 30), 1 << 30)
            root = Fraction(math.isqrt(math.floor((1 - x * x) * (1 << 400))), 1 << 200) * source.choice((1, -1))
            step = Fraction(source.choice((1, -1)), 1 << 200)
            self.assertTrue((paving.where((x, root)) | paving.where((x, root + step))) & {"inner", "small"}, (x, root))

    def check_stored(self, name: str, options: dict[str, Any]) -> None:
        """What a stored file says of drawn points is so: those of inner boxes are members, those of removed parts alone not."""
        system, source = minibex.read(example(name).read_text()), random.Random(14)
        counts = dict.fromkeys(("inner", "removed"), 0)
        with tempfile.TemporaryDirectory() as folder:
            path = Path(folder) / "p.paving"
            paver.run(example(name), out=path, **options)
            paving = paver.Paving.read(path, system=example(name))
        for _ in range(DRAWS):
            point = drawn(system.domains, source)
            found = paving.where(point)
            self.assertTrue(found <= {"inner", "small", "open", "removed"}, found)
            if "inner" in found:
                self.assertTrue(is_member(system, point), (found, point))
            if found == {"removed"}:
                self.assertFalse(is_member(system, point), point)
            for kind in counts.keys() & found:
                counts[kind] += 1
        self.assertTrue(all(count > DRAWS // 100 for count in counts.values()), counts)

    def shown_by_draws(self, text: str, found: paver.Robust, for_all: Sequence[str], draws: int) -> dict[str, int]:
        """No drawn point of a sure box fails a constraint for any drawn values; of a refuted one each fails at its witness."""
        system, source = minibex.read(text), random.Random(17)
        places = {name: i for i, name in enumerate(system.names)}
        counts = dict.fromkeys(("sure", "refuted"), 0)
        chosen = [region for region in found.regions if region.kind != "rest"]
        for _ in range(draws):
            region = source.choice(chosen)
            point = drawn(system.domains, source)
            for name, value in zip(found.names, drawn(region.box.exact, source) if region.kind == "refuted" else
                                   inside(region.box.exact, source)):
                point[places[name]] = value
            if region.kind == "refuted":
                self.assertEqual(set(region.witness or ()), set(for_all), region)
                for name, chosen_end in (region.witness or {}).items():
                    low, high = system.domains[places[name]]
                    self.assertLessEqual(low, chosen_end)
                    self.assertLessEqual(chosen_end, high)
                    point[places[name]] = Fraction(chosen_end)
            self.assertEqual(is_member(system, point), region.kind == "sure", (region, point))
            counts[region.kind] += 1
        return counts

    def covers_all(self, found: paver.Robust) -> None:
        """The regions have the search box's volume together, and drawn points lie in one at least, in two on a face alone."""
        self.assertEqual(sum(found.shares().values()), paver.Box("open", found.root).volume)
        source, root = random.Random(4), paver.Box("open", found.root).exact
        for _ in range(200):
            point = [low + (high - low) * Fraction(source.randrange(1, 10 ** 9), 10 ** 9) for low, high in root]
            self.assertTrue(any(region.box.holds(point) for region in found.regions))

    def check_robust(self, system: str | Path, for_all: Sequence[str], options: dict[str, Any], done: bool) -> None:
        text = system.read_text() if isinstance(system, Path) else system
        with Written(text) as path:
            found = paver.robust(path, for_all, **options)
        self.assertEqual(found.status, 0 if done else 1, found.status)
        self.covers_all(found)
        if found.sure or found.refuted:
            counts = self.shown_by_draws(text, found, for_all, DRAWS if options.keys() == {"eps"} else DRAWS // 4)
            self.assertTrue(not done or counts["sure"] and counts["refuted"], counts)

    def test_robust_known(self) -> None:
        """x^2 + y^2 <= r^2 for all r in [1, 2] is the disc of radius 1; 1/(k - p) <= 4 for all p in [-1, 1] asks for k above
        1.25 or below -1, as k = p must not be."""
        eps = 0.0625
        with Written(str(ROBUSTS[-1][1])) as path:
            found = paver.robust(path, ["r"], eps=eps, boxes=100_000)
        self.assertEqual(found.status, 0, "a stopped run has what its workers came to, another time something else")
        shares = {kind: float(volume) for kind, volume in found.shares().items()}
        self.assertLessEqual(shares["sure"], math.pi, shares)
        self.assertLessEqual(math.pi, shares["sure"] + shares["rest"], shares)
        # Each variable stands once, so a small box has a point outside the disc, and none that is further in than its diagonal.
        self.assertLessEqual(math.pi * (1 - math.sqrt(2) * eps) ** 2, shares["sure"], shares)
        with Written("Variables k in [-2,2], p in [-1,1]; Constraints 1/(k - p) <= 4; end") as path:
            found = paver.robust(path, ["p"], eps="0.01", boxes=100_000)
        self.assertEqual(found.status, 0)
        for region in found.sure:
            low, high = region.box.exact[0]
            self.assertTrue(low >= Fraction(5, 4) or high <= -1, region)
        self.assertLess(Fraction(17, 10), found.shares()["sure"], found.shares())
        self.assertLessEqual(found.shares()["sure"], Fraction(7, 4), found.shares())
        self.assertEqual(found.negation.divisors, 1)
        self.assertIn("k - p = 0", found.negation.text)

    def test_negated_by_reference(self) -> None:
        """The reference's paver has the paving of the negated system, of which the answer is told."""
        with Written(DIVIDED) as path:
            found = paver.robust(path, ["p"], eps="0.25")
        settings = {"eps": Fraction(1, 4), "contract": found.negation.contract}
        summary, lines = plain.pave(CenteredSettler(minibex.read(found.negation.text), **settings), 20000)
        self.assertEqual(lines, [*self.printed_lines(found.paving)])
        self.assertTrue(summary.startswith(f"settled {found.paving.counts()['settled']} "))

    def printed_lines(self, paving: paver.Paving) -> list[str]:
        self.assertIsNone(paving.version)
        return paving.lines

    def test_vertices(self) -> None:
        """The written vertices: a point is in their set where it holds at all of them, and then for all drawn values."""
        with Written(BENT.replace("abs(p - y) <= 2; ", "abs(p - y) <= 2 + 0; ")) as path:
            old, new = minibex.read(path.read_text()), minibex.read(paver.vertices_text(path, ["p", "q"]))
            source = random.Random(2)
            for _ in range(DRAWS // 4):
                gains = drawn(new.domains, source)
                if is_member(new, gains):
                    self.assertTrue(is_member(old, [*gains, *drawn(old.domains[2:], source)]), gains)
                else:
                    ends = [[*gains, p, q] for p in old.domains[2] for q in old.domains[3]]
                    self.assertFalse(all(is_member(old, [Fraction(x) for x in point]) for point in ends), gains)
            status, out, _ = command("robust", path, "--for-all", "p,q", "--write")
            self.assertEqual(status, 0)
            self.assertEqual(out, paver.vertices_text(path, ["p", "q"]))
        with Written("Variables x in [0,1], p in [0,1]; Constraints x <= 1; x >= p^2 - p; end") as path:
            self.assertIn("x >= 0^2 - 0", paver.vertices_text(path, ["p"]))
        with Written("Variables x in [0,1], p in [0,1]; Constraints x <= 1; x <= p^2 - p; end") as path:
            self.assert_raised(paver.NotRobust, lambda: paver.vertices_text(path, ["p"]))

    def test_bends(self) -> None:
        """What is called convex in a variable is at most the greater of its ends on an interval, by exact values."""
        source, seen = random.Random(31), 0
        for _ in range(DRAWS):
            text = made_expression(source, 4)
            system = paver.System.from_text(f"vars 2\nx -1:1 1:1\np -1:1 1:1\nctrs 1\n<= {text} 0/1\n")
            c = system.constraints[0]
            self.assertEqual(at_vertices(c, 1), bend_of([*c.left, *c.right, ("-",)], 1) in ("free", "affine", "convex"))
            if not at_vertices(c, 1):
                continue
            seen += 1
            low, high = sorted((drawn([(-2, 2)], source)[0], drawn([(-2, 2)], source)[0]))
            x, share = drawn([(-2, 2)], source)[0], Fraction(source.randrange(0, 65), 64)
            first, last, between = (value_at(c.left, (x, p)) for p in (low, high, low + (high - low) * share))
            if first is not None and last is not None:
                self.assertTrue(between is not None and between <= max(first, last), (text, x, low, high))
        self.assertGreater(seen, DRAWS // 4, seen)

    def test_refused_robust(self) -> None:
        ring = example("ring")
        for names in ([], ["x", "y"], ["z"]):
            self.assert_raised(ValueError, lambda names=names: paver.robust(ring, names))
        self.assert_raised(paver.NotRobust, lambda: paver.robust(example("puma_poses"), ["c1"]))
        self.assert_raised(paver.NotRobust, lambda: paver.robust(example("unbounded"), ["y"]))
        with Written("Variables k in [0,1], p in [0,1]; Constraints " + "; ".join(["k >= p"] * 40) + "; end") as path:
            self.assert_raised(paver.NotRobust, lambda: paver.robust(path, ["p"]))
        status, out, err = command("robust", example("puma_poses"), "--for-all", "c1")
        self.assertEqual((status, out), (2, ""), err)
        self.assertIn("constraint 0, `c1^2 + s1^2 = 1`, is an equation", err, err)
        status, out, err = command("robust", ring, "--for-all", "x", "--write")
        self.assertEqual((status, out), (2, ""), err)
        self.assertIn("constraint 0", err, err)

    def check_robust_command(self, name: str, words: Sequence[str]) -> None:
        """What it prints is what the reference's paving comes to; CSV and picture have the regions."""
        with tempfile.TemporaryDirectory() as folder:
            table, drawing = Path(folder) / "r.csv", Path(folder) / "r.svg"
            status, out, _ = command("robust", example(name), *words, "--csv", table, "--picture", drawing)
            self.assertEqual(status, 0, out)
            self.assertEqual(out.splitlines(), robust_answers()[name], out)
            rows, picture = table.read_text().splitlines(), drawing.read_text()
        count = sum(int(line.split()[1]) for line in out.splitlines() if line.startswith(("sure ", "refuted ", "rest "))
                    and line.split()[2] == "boxes,")
        self.assertEqual(len(rows), 1 + count)
        self.assertTrue(rows[0].startswith("kind,"))
        self.assertIn(">sure</text>", picture)
        self.assertIn(">refuted</text>", picture)
        source = io.StringIO()
        found = paver.robust(example(name), words[1].split(","), eps=words[3])
        found.write_regions(source, exactly=True)
        for row, exact in zip(rows[1:], source.getvalue().splitlines()[1:]):
            kind, *ends = row.split(",")[:5]
            for k, (near_end, end) in enumerate(zip(ends, exact.split(",")[1:5])):
                inward = Fraction(float(near_end)) - Fraction(end)
                self.assertGreaterEqual((inward if k % 2 == 0 else -inward) * (-1 if kind == "rest" else 1), 0, (row, exact))

    # ---- what is undecided, and scales

    def check_undecided(self, name: str, options: dict[str, Any]) -> None:
        """A constraint that isn't named holds at all drawn points of a box, or at none; one that is named is none that the
        reference is sure of. The greatest boxes come first."""
        answer, source = paver.run(example(name), **options), random.Random(3)
        paving, system = answer.paving(), paver.check(example(name))
        found, plainly = undecided(paving, system, 200, 60), minibex.read(example(name).read_text())
        self.assertEqual(len(found.boxes), min(200, found.total))
        self.assertEqual(found.total, sum(paving.counts()[k] for k in ("small", "open")))
        volumes = [box.volume for box, _ in found.boxes]
        self.assertEqual(volumes, sorted((box.volume for box in paving.boxes("small", "open")), reverse=True)[:200])
        self.assertTrue(all(numbers for _, numbers in found.boxes))
        settler = plain.Settler(plainly)
        for _ in range(DRAWS // 5):
            box, undecided_there = source.choice(found.boxes)
            points = [drawn(box.exact, source) for _ in range(5)]
            for i, c in enumerate(plainly.constraints):
                if i not in undecided_there:
                    self.assertEqual(len({minibex.holds(c, point) for point in points}), 1, (box, i))
        for box, undecided_there in found.boxes:
            ends = [(numbers.grid(a), numbers.grid(b)) for a, b in zip(box.words[::2], box.words[1::2])]
            self.assertFalse(any(settler.constraints[i].sure(ends) for i in undecided_there), box)

    def test_decided(self) -> None:
        """What is decided of a made constraint on a made box is so at drawn points, with slopes as without."""
        source, seen = random.Random(6), 0
        for _ in range(DRAWS // 8):
            text = f"{source.choice(['<=', '<', '>=', '>', '='])} {made_expression(source, 3)} {made_expression(source, 1)}"
            c = paver.System.from_text(f"vars 2\nx -1:1 1:1\np -1:1 1:1\nctrs 1\n{text}\n").constraints[0]
            ends = [sorted(drawn([(-2, 2), (-2, 2)], source)) for _ in range(2)]
            box = [(low, high) for low, high in ends]
            for slopes in (False, True):
                said = decided(c, box, slopes)
                for point in ([drawn(box, source) for _ in range(4)] if said is not None else ()):
                    left, right = value_at(c.left, point), value_at(c.right, point)
                    holds = left is not None and right is not None and {
                        "<=": left <= right, "<": left < right, ">=": left >= right, ">": left > right,
                        "=": left == right}[c.relation]
                    self.assertEqual(holds, said, (text, box, point))
                    seen += 1
        self.assertGreater(seen, DRAWS // 8, seen)

    def test_undecided_command(self) -> None:
        status, out, _ = command("summary", example("ring"))
        self.assertEqual(status, 0, out)
        self.assertIn("undecided, looking at all 172 small and open boxes:", out, out)
        counts = [int(count) for count in re.findall(r"^  constraint \d on (\d+)", out, re.M)]
        self.assertEqual(sum(counts), 172, out)
        self.assertEqual(out.count("  great: <small"), 3, out)
        with Written("Variables x in [0,1]; Constraints x <= 2; end") as path:
            self.assertNotIn("undecided", command("summary", path)[1])

    def test_scales(self) -> None:
        """The text in other units holds at the points in other units."""
        with Written(SCALED) as path:
            self.assertTrue(scales_of(paver.check(path)) == {"x": -6, "w": 4}
                            or scales_of(paver.check(path)) == {"x": -7, "w": 3})
            powers = scales_of(paver.check(path))
            old, new, source = minibex.read(SCALED), minibex.read(scaled_text(path)), random.Random(1)
            factors = [Fraction(10) ** powers.get(name, 0) for name in old.names]
            for (low, high), (first, last), factor in zip(new.domains, old.domains, factors):
                self.assertTrue(last == math.inf or (low * factor, high * factor) == (first, last))
            for _ in range(DRAWS):
                point = drawn(new.domains, source)
                self.assertEqual(is_member(new, point), is_member(old, [x * factor for x, factor in zip(point, factors)]))
            status, out, _ = command("explain", path, "--scale", path.with_suffix(".new"))
            self.assertEqual(status, 0, out)
            self.assertIn("write x*1e-", out, out)
            self.assertIn("v has no bounded domain", out, out)
            self.assertEqual(path.with_suffix(".new").read_text(), scaled_text(path))
        status, out, _ = command("explain", example("ring"), "--scale")
        self.assertEqual(status, 0)
        self.assertIn("scales would change little", out)

    def test_answers_page(self) -> None:
        """What ANSWERS.md shows of commands is what they print; of a search only what holds of any."""
        text = (example("ring").parents[1] / "docs" / "ANSWERS.md").read_text()
        shown = re.findall(r"^```\n\$ python3 -m paver (\w+) examples/(\w+)\.mbx ([^\n]*)\n(.*?)^```", text, re.M | re.S)
        self.assertEqual([name for name, *_ in shown], ["least", "robust"], shown)
        for name, system, words, lines in shown:
            status, out, _ = command(name, example(system), *words.split())
            self.assertEqual(status, 0, out)
            self.assertTrue(out == lines or name == "least" and out.splitlines()[-1].startswith("gap 0.001 after "), out)

    def each_row(self, table: Iterable[Sequence[Any]], check: Callable[..., None]) -> None:
        """Makes a check of each row of a table behind the row's name."""
        for name, *rest in rows(table):
            with self.subTest(name):
                check(*rest)

    def test_near(self) -> None:
        self.each_row(NEAR, self.check_near)

    def test_levels_of_gallery(self) -> None:
        self.each_row(((case[0], *case) for case in LEVELS), self.check_levels_of_gallery)

    def test_robust(self) -> None:
        self.each_row(ROBUSTS, self.check_robust)

    def test_robust_command(self) -> None:
        self.each_row(((name, name, words) for name, words in ROBUST), self.check_robust_command)

    def test_stored(self) -> None:
        for name, options in (("two_discs", {"eps": "0.25"}), ("pi_gains", {"eps": "0.125"}), ("robust_pid", {"eps": "1"})):
            with self.subTest(name):
                self.check_stored(name, options)

    def test_undecided(self) -> None:
        questions: list[tuple[str, dict[str, Any]]] = [
            ("ring", {}), ("three_rpr", {"eps": "0.25"}), ("best_fit", {"eps": "0.05", "boxes": 3000})]
        for name, options in questions:
            with self.subTest(name):
                self.check_undecided(name, options)


if __name__ == "__main__":
    main()
