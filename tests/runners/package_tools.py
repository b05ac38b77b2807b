"""Checks of the tools around the program: roots, from-ibex, explain, split and gather."""
from __future__ import annotations

import random
import re
import tempfile
from fractions import Fraction
from pathlib import Path
from typing import Any, Callable, Iterable, Sequence

import paver
from paver import expect, explain
from paver.cover import hull_of
from paver.ibex import translate
from tests.data.ibex_cases import REFUSED, TAKEN
from tests.data.reader_cases import FAULTS, GOOD
from tests.reference import minibex
from tests.reference.faults import first_fault
from tests.reference.kinds import Relation
from tests.runners.package_test import PackageTest, command, example
from tests.runners.running import main, rows

# ---- roots

ROOTS = [
    ("a square root", "Variables x in [0,2]; Constraints x^2 = 2; end", [(1.4142135623730951,)], 0, 0),
    ("two signs", "Variables x in [-2,2]; Constraints x^2 = 2; end", [(-1.4142135623730951,), (1.4142135623730951,)], 0, 0),
    ("three roots of a cubic", "Variables x in [-3,3]; Constraints x^3 - 4*x = 1; end",
     [(-1.8608058531117035,), (-0.2541016883650524,), (2.114907541476756,)], 0, 0),
    ("a circle and a line", "Variables x in [-2,2], y in [-2,2]; Constraints x^2 + y^2 = 1; x = y; end",
     [(-0.7071067811865476,) * 2, (0.7071067811865476,) * 2], 0, 0),
    ("an inequality refuses one", "Variables x in [-2,2], y in [-2,2]; Constraints x^2 + y^2 = 1; x = y; x + y > 0; end",
     [(0.7071067811865476,) * 2], None, 0),
    ("a rational root", "Variables x in [0,1]; Constraints 1/(1 + x) = 0.8; end", [(0.25,)], 0, 0),
    ("a double root stays undecided", "Variables x in [-1,3]; Constraints x^2 - 2*x + 1 = 0; end", [], None, None),
    ("no root", "Variables x in [-2,2], y in [-2,2]; Constraints x^2 + y^2 = 1; x + y = 1.5; end", [], None, 0),
    ("a kink", "Variables x in [-1,3]; Constraints abs(x - 1) + x = 1.5; end", [(1.25,)], 0, 0),
    ("least and greatest", "Variables x in [-2,2]; Constraints min(2*x, x + 1) = 0.5; end", [(0.25,)], 0, 0),
    ("a root on the edge", "Variables x in [0,2]; Constraints x^3 + x = 0; end", [(0,)], 0, 0),
    ("a quotient", "Variables x in [0.5,2], y in [0.5,2]; Constraints x/y = 1.25; x*y = 0.8; end", [(1.0, 0.8)], 0, 0),
]


# ---- explain

EXPLAINED = [
    ("Variables x in [0,4];\nConstraints\n\tx + <= 1; end", [],
     ["line 3, column 6", "\n    \t    ^", "Expected here: a sign,"]),
    ("Variables x in [0,4]; Constraints sqrt(x) <= 1; end", [], ["NotInProfile", "In place of `sqrt`: a variable r"]),
    ("Variables x in [0,4]; Constraints x^40 <= 1; end", [], ["BadExponent", "(x^20)^2"]),
    ("Variables x in [0,4]; Constraints y <= 1; end", [], ["UnknownName", "a name (x)"]),
    ("Variables x in [5,4]; Constraints x <= 1; end", [], ["BadBounds", "empty"]),
    ("Variables x in [0,4]; Constraints x <= 1", [], ["EndOfText", "`;` or `end`"]),
    ("Variables x in [0,4]; Constraints min(x) <= 1; end", [], ["`min` takes 2 arguments"]),
    ("Variables x in [0,4]; Constraints x <= .5; end", [], ["BadByte", "from-ibex"]),
    ("Variables x in [0,4]; Constraints x <= 1; x >= 0; end", ["--contract", "fix(0,hc4(0))"],
     ["0: x <= 1", "1: x >= 0", "refused at byte 4", "from 1 to 64"]),
    ("Variables x in [0,4]; Constraints x <= 1; end", ["--contract=qinter(2,hc4(0))"], ["byte 15", "2 have to agree"]),
    ("Variables x in [0,4]; Constraints x <= 1; end", ["--contract", "hc4(1)"], ["a constraint's number from 0 to 0"]),
    ("Variables x in [0,4]; Constraints x <= 1; end", ["--depth", "300"], ["a whole number from 1 to 200"]),
    ("Variables x in [0,4]; Constraints x <= 1; end", ["--eps", "-1"], ["unsigned"]),
    ("Variables x in [0,4]; Constraints x <= 1; end", ["--width", "1"], ["no option"]),
    ("Variables x in [0,4]; Constraints x <= 1; end", ["--eps", "1", "--eps", "2"], ["twice"]),
    ("Variables x in [0,4]; Constraints x <= 1; end", ["--bisect"], ["needs a value"]),
    ("\ufeffVariables x in [0,4]; Constraints x <= 1; end", [], ["line 1, column 1:", "byte order mark"]),
    ("Variables x in [0,4]; /* ä */ Constraints x <= ü; end", [], ["column 49:", f"\n{' ' * 51}^\n", "beyond ASCII"]),
    ("Variables x in [0,4]; Constraints x <= 1; end", ["--contract", "hc4(ä)"], ["byte 4", "\n    hc4(ä)\n        ^\n"]),
]


TOKENS = {"a sign": "-", "a number": "1", "an operator": "+", "a relation (= <= >= < >)": "<=", "`in [low, high]`": "in",
          "a whole exponent from 0 to 32, in digits alone": "2"}


def difference(constraint: Relation, point: Sequence[Fraction]) -> Fraction | None:
    """How far apart both sides are at a point; None where one has no value."""
    left, right = (minibex.value(side, point) for side in constraint[1:])
    return None if left is None or right is None else left - right


def token_of(phrase: str) -> str | None:
    """A token that a phrase of what is expected stands for; None where it stands for none here."""
    if phrase in TOKENS:
        return TOKENS[phrase]
    if phrase.startswith("a new name"):
        return "zz9"
    named = re.match(r"a (?:name|function|constant) \(([A-Za-z_0-9]+)", phrase)
    quoted = re.match(r"`([^`]+)`", phrase)
    return named.group(1) if named else quoted.group(1) if quoted else None


# ---- split and gather

SPLIT = [
    ("torus", 8, {"eps": "0.5"}, None), ("ring", 5, {"eps": "0.25"}, ["x"]), ("bounded_error_fit", 6, {"eps": "0.1"}, None),
    ("unbounded", 4, {"depth": 6}, None), ("three_rpr", 3, {"eps": "0.5"}, None),
]


class Tools(PackageTest):
    """The tools around the program."""

    def check_roots(self, text: str, wanted: Sequence[tuple[float, ...]], none: int | None, undecided: int | None) -> None:
        with tempfile.TemporaryDirectory() as folder:
            path = Path(folder) / "s.mbx"
            path.write_text(text)
            system, answer = paver.check(path), paver.run(path, eps="0.01")
            found = paver.find_roots(system, answer.paving())
        ones = sorted(root.box for root in found if root.verdict == "one root, here")
        self.assertEqual(len(ones), len(wanted), found)
        for box, point in zip(ones, wanted):
            for (low, high), x in zip(box, point):
                self.assertTrue(low - Fraction(1, 10 ** 12) <= Fraction(x) <= high + Fraction(1, 10 ** 12))
                self.assertLess(high - low, 1e-9)
        if none is not None:
            self.assertEqual(sum(root.verdict == "none" for root in found), none, found)
        count = sum(root.verdict == "undecided" for root in found)
        self.assertTrue(count == undecided if undecided is not None else count > 0, found)

    def test_random_roots(self) -> None:
        """Systems that are made from their roots: each is found once, or its cluster stays undecided."""
        source = random.Random(12)
        for _ in range(12):
            wanted = sorted(Fraction(k, 10) for k in source.sample(range(-19, 20), 3))
            shift = Fraction(source.randrange(-5, 6), 4)
            product = "*".join(f"(x - {a})" if a >= 0 else f"(x + {-a})" for a in map(float, wanted))
            text = f"Variables x in [-2,2], y in [-9,9]; Constraints {product} = 0; y - x^2 - x = {float(shift)}; end"
            with tempfile.TemporaryDirectory() as folder:
                path = Path(folder) / "s.mbx"
                path.write_text(text)
                found = paver.find_roots(paver.check(path), paver.run(path, eps="0.01", boxes=3000).paving())
            points = [(x, x * x + x + shift) for x in wanted]
            for root in found:
                inside = [p for p in points if all(low <= x <= high for x, (low, high) in zip(p, root.box))]
                self.assertTrue(root.verdict != "one root, here" or len(inside) == 1, (text, root))
                self.assertTrue(root.verdict != "none" or not inside, (text, root))
            for point in points:
                self.assertTrue(any(all(low <= x <= high for x, (low, high) in zip(point, root.box)) for root in found),
                                (text, point))

    def test_roots_of_puma(self) -> None:
        system = paver.check(example("puma_poses"))
        found = paver.find_roots(system, paver.run(example("puma_poses"), eps="0.0625").paving())
        self.assertEqual([root.verdict for root in found], ["one root, here"] * 4)
        known = [Fraction(n, 100) for n in (80, 60, 96, -28, 60, -80)]
        self.assertEqual(sum(all(low <= x <= high for (low, high), x in zip(root.box, known)) for root in found), 1)
        for root in found:
            for constraint in minibex.read(example("puma_poses").read_text()).constraints:
                apart = difference(constraint, [Fraction(x) for x in root.middle])
                self.assertTrue(apart is not None and abs(apart) < Fraction(1, 10 ** 20), apart)

    def test_roots_of_no_square(self) -> None:
        system = paver.check(example("ring"))
        self.assert_raised(ValueError, lambda: paver.find_roots(system, paver.run(example("ring")).paving()))

    def test_roots_command(self) -> None:
        status, out, _ = command("roots", example("puma_poses"), "--eps", "0.0625")
        self.assertEqual(status, 0)
        self.assertEqual(out.count("one root, here"), 4)
        self.assertIn("tested and not proved", out)
        low, high = re.search(r"c1 in \[(0\.[78]\d*), (0\.8\d*)\]", out).groups()
        self.assertTrue(Fraction(float(low)) <= Fraction(4, 5) <= Fraction(float(high)))
        self.assertLess(float(high) - float(low), 1e-15)

    # ---- from IBEX

    def check_taken(self, file: str, wanted: str) -> None:
        found = translate(file)
        text = found.text or ""
        self.assertTrue(text, [str(refusal) for refusal in found.refusals])
        self.assertIsNone(first_fault(text.encode()), text)
        paver.check_text(text)
        ours, theirs, source = minibex.read(text), minibex.read(wanted), random.Random(3)
        self.assertEqual(ours.names, theirs.names, (ours.names, ours.domains))
        self.assertEqual(ours.domains, theirs.domains, (ours.names, ours.domains))
        self.assertEqual([c[0] for c in ours.constraints], [c[0] for c in theirs.constraints], text)
        for _ in range(40):
            point = [Fraction(source.randrange(-40, 41), 16) or Fraction(1, 7) for _ in ours.names]
            for mine, other in zip(ours.constraints, theirs.constraints):
                self.assertEqual(difference(mine, point), difference(other, point), (mine, other))

    def check_refused(self, file: str, wanted: Sequence[tuple[int, str]]) -> None:
        found = translate(file)
        self.assertIsNone(found.text)
        seen = [(refusal.line, refusal.form) for refusal in found.refusals]
        self.assertEqual(len(seen), len(wanted), seen)
        for (line, word), (at, form) in zip(wanted, seen):
            self.assertEqual(line, at, (seen, wanted))
            self.assertIn(word, form, (seen, wanted))
        self.assertTrue(all(refusal.instead and "Instead" in str(refusal) for refusal in found.refusals))

    def test_ibex_command(self) -> None:
        with tempfile.TemporaryDirectory() as folder:
            path = Path(folder) / "a.mbx"
            path.write_text(TAKEN[0][1])
            status, out, _ = command("from-ibex", path)
            self.assertEqual(status, 0)
            self.assertEqual(out, translate(TAKEN[0][1]).text)
            path.write_text(REFUSED[0][1])
            status, out, err = command("from-ibex", path)
            self.assertEqual(status, 3)
            self.assertEqual(out, "")
            self.assertIn("line 4: `cos` can't be written. Instead: two variables c and s", err)

    def check_explained(self, text: str, words: Sequence[str], phrases: Sequence[str]) -> None:
        with tempfile.TemporaryDirectory() as folder:
            path = Path(folder) / "s.mbx"
            path.write_text(text)
            status, out, _ = command("explain", path, *words)
        self.assertEqual(status, 2)
        for phrase in phrases:
            self.assertIn(phrase, out, f"{phrase!r} is not in {out!r}")

    def test_expected(self) -> None:
        """With any token that is expected put in, the text is good beyond it: by the reference's reader."""
        count = 0
        for cause, marked in FAULTS:
            if cause in explain.WHOLE:
                continue
            byte, text = len(marked[:marked.index("¶")].encode()), marked.replace("¶", "").encode()
            phrases = expect.at_system(text.decode("latin-1"), byte)
            self.assertTrue(phrases, marked)
            for phrase in phrases:
                if phrase == "the end of the text":
                    self.assertIsNone(first_fault(text[:byte]), (marked, phrase))
                elif token_of(phrase):
                    token = token_of(phrase).encode()
                    fault = first_fault(text[:byte] + b" " + token + b" " + text[byte:])
                    at_limit = fault is not None and fault[1] in explain.WHOLE
                    self.assertTrue(fault is None or at_limit or fault[0] > byte + len(token), (marked, phrase, fault))
                    count += 1
        self.assertGreater(count, 300, count)

    def test_explained_good(self) -> None:
        status, out, _ = command("explain", example("localisation"), "--groups", "2", "--agree", "4")
        self.assertEqual(status, 0)
        self.assertIn("  9: (x - 9)^2 + (y - 8)^2 <= 1.4^2", out)
        text = explain.qinter_text(explain.groups_of(10, 2), 4)
        self.assertIn(f"--contract '{text}'", out)
        self.assertEqual(paver.run(example("localisation"), eps="0.0625", contract=text).summary["inner"], 15)
        self.assert_raised(ValueError, lambda: explain.qinter_text([[0], [1]], 3))
        for words in (("--groups", "0"), ("--groups", "-1"), ("--groups", "2", "--agree", "0"),
                      ("--groups", "2", "--agree", "6")):
            self.assertEqual(command("explain", example("localisation"), *words)[0], 2, words)

    def check_split(self, name: str, count: int, options: dict[str, Any], variables: list[str] | None) -> None:
        """The parts have no gap and overlap in faces alone; the sum of the answers is an answer to the whole."""
        whole = paver.run(example(name), **options).paving()
        with tempfile.TemporaryDirectory() as folder:
            paths = paver.split(example(name), count, folder, variables=variables)
            self.assertEqual(len(paths), count)
            roots = [paver.Box("open", paver.check(path).root) for path in paths]
            self.assertTrue(all(paver.check(path).constraints[0].left == paver.check(example(name)).constraints[0].left
                                for path in paths))
            self.assertEqual(sum(root.volume for root in roots), paver.Box("open", whole.root or ()).volume)
            for k, first in enumerate(roots):
                for second in roots[k + 1:]:
                    self.assertTrue(any(a[1] <= b[0] or b[1] <= a[0] for a, b in zip(first.exact, second.exact)))
            self.assert_raised(FileNotFoundError, lambda: paver.gather(folder))
            for path in paths:
                path.with_suffix(".txt").write_text(paver.run(path, **options).text)
            parts = paver.gather(folder)
            status, out, _ = command("gather", folder)
            self.assertEqual(status, 0)
            self.assertTrue(out.startswith(f"settled {parts.counts()['settled']} "))
        if name != "unbounded":
            volumes = parts.volumes()
            self.assertEqual(sum(volumes.values()), sum(whole.volumes().values()))
            self.assertLessEqual(volumes["inner"], sum(whole.volumes()[kind] for kind in ("inner", "small")))
            self.assertEqual(len(parts.clusters()), len(whole.clusters()))

    def test_split_texts(self) -> None:
        """Every good text of the reader's table can be split: comments, constants as bounds, variables without a domain."""
        count = 0
        for text in GOOD:
            with tempfile.TemporaryDirectory() as folder:
                path = Path(folder) / "s.mbx"
                path.write_bytes(text.encode())
                whole = paver.check(path)
                try:
                    paths = paver.split(path, 3, folder)
                except ValueError:
                    self.assertTrue(paver.Box("open", whole.root).width == 0 or len(whole.names) == 1, text)
                    continue
                parts = [paver.check(part) for part in paths]
                self.assertTrue(all(part.text.split("ctrs")[1] == whole.text.split("ctrs")[1] for part in parts), text)
                boxes = [paver.Box("open", part.root) for part in parts]
                self.assertEqual(hull_of(boxes), paver.Box("open", whole.root).exact, text)
                count += 1
        self.assertGreater(count, len(GOOD) // 2)

    def test_split_again(self) -> None:
        """A part can be split once more."""
        with tempfile.TemporaryDirectory() as folder:
            first = paver.split(example("ring"), 3, Path(folder) / "a")[0]
            second = paver.split(first, 2, Path(folder) / "b")
            volumes = [paver.Box("open", paver.check(path).root).volume for path in (first, *second)]
            self.assertEqual(volumes[0], volumes[1] + volumes[2])
            self.assert_raised(ValueError, lambda: paver.split(example("ring"), 2, folder, variables=[]))
            self.assert_raised(ValueError, lambda: paver.split(example("ring"), 2, folder, variables=["z"]),
                               args=("there is no variable 'z'",))
            self.assert_raised(ValueError, lambda: paver.split(example("ring"), 0, folder))
            self.assert_raised(FileNotFoundError, lambda: paver.gather(folder))
            self.assert_raised(FileExistsError, lambda: paver.split(example("ring"), 2, Path(folder) / "a"))
            self.assertEqual(len(list((Path(folder) / "a").iterdir())), 4, "three parts and the manifest")

    def test_gathered_kinds(self) -> None:
        """Answers to parts may be stored, printed or kept by a campaign."""
        with tempfile.TemporaryDirectory() as folder:
            stored, printed, kept = paver.split(example("ring"), 3, folder)
            paver.run(stored, out=stored.with_suffix(".paving"))
            printed.with_suffix(".txt").write_text(paver.run(printed).text)
            paver.campaign(kept, kept.with_suffix(".db"))
            whole = paver.gather(folder)
            self.assertEqual(sum(whole.volumes().values()), 36)
            self.assertEqual(whole.counts()["open"], 0)
            self.assertLess(0, whole.counts()["inner"])

    def test_least_command(self) -> None:
        """The bounds in decimal lie outside the program's, and the point is exact; a refused expression is shown."""
        system, words = example("least_derivative_gain"), ["--of", "kd", "--eps", "0.125"]
        found = paver.least(system, "kd", eps="0.125")
        status, out, err = command("least", system, *words)
        lower, upper = (Fraction(float(re.search(rf"^{word} (.*)$", out, re.M).group(1))) for word in ("lower", "upper"))
        self.assertEqual(status, 0)
        self.assertEqual(err, "")
        self.assertTrue(found.upper is not None and lower <= found.lower < found.upper <= upper, (lower, found, upper))
        self.assertLess(upper - lower, 1)
        point = re.findall(r"^  (\w+) = ([^,\n]*)", out, re.M)
        self.assertEqual(point, [(name, str(value)) for name, value in zip(("kp", "ki", "kd"), found.point or ())])
        status, out, err = command("least", system, *words, "--boxes", "1")
        self.assertEqual(status, 1)
        self.assertIn("upper none\n", out)
        self.assertIn("the budget ended the search", err)
        for of, phrase in (("kd+q", "names the variables"), ("sqrt(kd)", "NotInProfile"), ("kd +", "\n    kd +\n        ^")):
            status, out, err = command("least", system, "--of", of)
            self.assertEqual((status, out), (2, ""), (of, err))
            self.assertIn(phrase, err, (of, err))

    def test_summary_command(self) -> None:
        status, out, err = command("summary", example("ring"), "--depth", "8", "--clusters")
        self.assertEqual(status, 0)
        self.assertTrue(out.startswith("settled 335 "))
        self.assertIn("clusters 1\n", out)
        self.assertIn("--depth 12 suffices", err)
        status, out, _ = command("csv", example("ring"), "--eps", "2")
        self.assertEqual(status, 0)
        self.assertEqual(out.splitlines()[0], "class,x_low,x_high,y_low,y_high")

    def test_stored_commands(self) -> None:
        """Of a stored file it is said whether its identity is the system's under the given settings, and what depth left."""
        with tempfile.TemporaryDirectory() as folder:
            stored, kept = Path(folder) / "p", Path(folder) / "k"
            paver.run(example("ring"), depth=8, out=stored)
            status, out, err = command("summary", example("ring"), stored, "--depth", "8")
            self.assertEqual(status, 0)
            self.assertTrue(out.startswith("settled 335 "))
            self.assertIn("--depth 12 suffices", err)
            self.assertNotIn("identity", err)
            status, out, err = command("summary", example("ring"), stored)
            self.assertEqual(status, 0, "the settings are kept beside the file")
            self.assertIn("--depth 12 suffices", err, "the settings are kept beside the file")
            Path(f"{stored}.json").unlink()
            status, out, err = command("summary", example("ring"), stored)
            self.assertEqual(status, 0, "the settings are found")
            self.assertTrue(out.startswith("settled 335 "))
            self.assertIn("is this system's with --depth 8: that is taken", err)
            others: list[tuple[str, list[str], str]] = [
                ("ring", ["--strict"], "it is this system's with --depth 8"),
                ("two_discs", ["--depth", "8"], "of another system, or of other settings")]
            for system, words, phrase in others:
                status, out, err = command("summary", example(system), stored, *words)
                self.assertEqual((status, out), (2, ""), (system, err))
                self.assertIn("wrong identity", err, (system, err))
                self.assertIn(phrase, err, (system, err))
                status, out, err = command("summary", example(system), stored, *words, "--any-identity")
                self.assertTrue(status == 0 or "not in the node's box" in err, (system, err))
            paver.campaign(example("ring"), kept, eps=1)
            status, out, err = command("export", kept)
            self.assertEqual((status, out, err), (0, paver.Paving.read(kept).file_text(), ""))

    def test_refused_words(self) -> None:
        """What is refused of the words of a command is said in sentences."""
        ring = example("ring")
        for words, phrase in ((["--eps", ".5"], "an unsigned number"), (["--boxes", "0"], "from 1 to 100000"),
                              (["--contract", "hc4(2)"], "from 0 to 1"), (["--contract", "prop(8"], "Expected here: `)`")):
            status, out, err = command("summary", ring, *words)
            self.assertEqual((status, out), (2, ""), (words, err))
            self.assertIn(phrase, err, (words, err))
        for word in ("z", "z=", "z=one", "z=1/0", "0.5,1", ""):
            status, _, err = command("plot", example("torus"), "--picture", "none.svg", "--eps", "2", "--at", word)
            self.assertEqual(status, 2, (word, err))
            self.assertIn("as --at z=0.5", err, (word, err))
        status, _, err = command("plot", example("torus"), "--picture", "none.svg", "--eps", "2")
        self.assertEqual(status, 2, err)
        self.assertIn("look at z", err, err)
        with tempfile.TemporaryDirectory() as folder:
            drawn = [Path(folder) / name for name in ("named.svg", "listed.svg")]
            for picture, word in zip(drawn, ("z=0.5", "0.5")):
                self.assertEqual(command("plot", example("torus"), "--picture", str(picture), "--eps", "2", "--at", word)[0], 0)
            self.assertEqual(drawn[0].read_bytes(), drawn[1].read_bytes())

    def each_row(self, table: Iterable[Sequence[Any]], check: Callable[..., None]) -> None:
        """Makes a check of each row of a table behind the row's name."""
        for name, *rest in rows(table):
            with self.subTest(name):
                check(*rest)

    def test_roots(self) -> None:
        self.each_row(ROOTS, self.check_roots)

    def test_taken_from_ibex(self) -> None:
        self.each_row(TAKEN, self.check_taken)

    def test_refused_from_ibex(self) -> None:
        self.each_row(REFUSED, self.check_refused)

    def test_explained(self) -> None:
        self.each_row(((f"{text} {words}", text, words, phrases) for text, words, phrases in EXPLAINED), self.check_explained)

    def test_split(self) -> None:
        self.each_row(((case[0], *case) for case in SPLIT), self.check_split)


if __name__ == "__main__":
    main()
