"""Checks that the package answers no question wrongly: files of another system or other settings, edits after a run, points and
names that don't exist, places outside the search box, damaged files, and what strangers may give it."""
from __future__ import annotations

import io
import json
import os
import sqlite3
import subprocess
import sys
import tempfile
import time
import warnings
from fractions import Fraction
from pathlib import Path
from typing import Any, Sequence

import paver
from paver import beside
from tests.runners.package_test import PackageTest, command, example
from tests.runners.running import TOP, main

SECONDS = 10  # of an answer that takes well under one on a machine that does nothing else


DAMAGE = [("S ", "S 2:0 ", None), (" =\n", " 1:999\n", None), ("C 0 ", "C 0 1:20 ", "C 0 0:0 "), ("I = ", "I -1:9 ", None)]


# ---- strangers

def tool(*words: Any, **how: Any) -> tuple[subprocess.CompletedProcess[bytes], float]:
    """A command of the package in a process of its own, with the processor seconds that it took."""
    begun = sum(os.times()[2:4])
    how = {"stdout": subprocess.PIPE, "timeout": 60} | how
    done = subprocess.run([sys.executable, "-m", "paver", *map(str, words)], stderr=subprocess.PIPE, check=False,
                          env={**os.environ, "PYTHONPATH": str(TOP / "python")}, **how)
    return done, sum(os.times()[2:4]) - begun


def database(path: str | Path, *statements: str | tuple[str, Sequence[Any]]) -> None:
    connection = sqlite3.connect(path)
    connection.execute("CREATE TABLE head (id INTEGER PRIMARY KEY, identity BLOB)")
    connection.execute("INSERT INTO head VALUES (1, ?)", [bytes(32)])
    for statement in statements:
        connection.execute(*statement) if isinstance(statement, tuple) else connection.execute(statement)
    connection.commit()
    connection.close()


ENDLESS = "WITH RECURSIVE c(n) AS (SELECT 1 UNION ALL SELECT n + 1 FROM c)"


IBEX_LOOPS = "variables\n x[3] in [0,1];\nconstraints\n" + "".join(f"for i{k}=1:1000;" for k in range(6)) + \
    "x(1) <= 1;" + "end;" * 6 + "\nend\n"
IBEX_DOUBLES = "function f(a)\n b0 = a;\n" + "".join(f" b{k + 1} = b{k} + b{k};\n" for k in range(60)) + \
    " return b60;\nend\nvariables x in [0,1];\nconstraints f(x) <= 1;\nend\n"


class Misuse(PackageTest):
    """Questions that must not be answered wrongly."""

    def test_identity_at_every_read(self) -> None:
        """A file of another system or other settings is refused, and the settings that it has are named where they are near."""
        with tempfile.TemporaryDirectory() as folder:
            stored = Path(folder) / "p"
            paver.run(example("ring"), eps="0.5", depth=40, out=stored)
            Path(f"{stored}.json").unlink()
            for system in ("two_discs", "ring"):
                self.assert_raised(paver.PavingRefused,
                                   lambda system=system: paver.Paving.read(stored, system=example(system), strict=True),
                                   cause="wrong identity", name=str(stored))
            self.assert_raised(paver.PavingRefused, lambda: paver.Paving.read(stored, system=example("two_discs")),
                               cause="wrong identity", name=str(stored))
            with self.assertWarnsRegex(UserWarning, "is this system's with --eps 0.5 --depth 40: that is taken"):
                found = paver.Paving.read(stored, system=example("ring"))
            self.assertEqual(sum(found.volumes().values()), 36)
            good = paver.Paving.read(stored, system=example("ring"), eps=0.5, depth=40.0)
            self.assertEqual(sum(good.volumes().values()), 36)
            for work in (lambda: paver.Paving.read(stored, system=example("ring"), strict=True),
                         lambda: paver.audit(example("ring"), stored)):
                try:
                    work()
                except paver.PavingRefused as fault:
                    self.assertIn("it is this system's with --eps 0.5 --depth 40", str(fault), fault)
            other = paver.Paving.read(stored, system=example("ring"), identity=good.identity)
            self.assertTrue(other.counts() == paver.Paving.read(stored, system=example("ring"),
                                                                identity=None).counts() == good.counts())
            self.assert_raised(paver.PavingRefused,
                               lambda: paver.Paving.read(stored, system=example("ring"), identity="0" * 64))
            self.assert_raised(paver.PavingRefused,
                               lambda: paver.Paving.read(stored, system=example("ring"), eps=0.5, depth=40, form="centered",
                                                         strict=True))
            known = paver.check(example("ring"))
            text = paver.run(example("ring"), eps=1).text
            self.assert_raised(paver.PavingRefused, lambda: paver.Paving.from_text(text, system=known), cause="no identity")
            self.assertEqual(sum(paver.Paving.from_text(text, system=known, identity=None).volumes().values()), 36)

    def test_edited_system(self) -> None:
        """An answer keeps the text that was paved, and the file that it stored has to be the one it stored."""
        with tempfile.TemporaryDirectory() as folder:
            system, out = Path(folder) / "s.mbx", Path(folder) / "p"
            system.write_text("Variables x in [0,4], y in [0,4]; Constraints x + y <= 4; end\n")
            printed, stored = paver.run(system, eps=1), paver.run(system, eps=1, out=out)
            system.write_text("Variables a in [10,11]; Constraints a <= 4; end\n")
            for answer in (printed, stored):
                self.assertEqual(answer.paving().names, ["x", "y"])
                self.assertEqual(sum(answer.paving().volumes().values()), 16)
            system.write_text("Variables x in [0,4], y in [0,4]; Constraints x + y <= 4; end\n")
            again = paver.run(system, eps=1, out=out)
            paver.run(system, eps=2, out=out)
            self.assert_raised(paver.PavingRefused, again.paving, cause="wrong identity")
            part = paver.run(system, eps=1, boxes=3, out=out)
            paver.resume(system, out, out=out)
            self.assert_raised(paver.PavingRefused, part.paving, cause="written anew")

    def test_names_and_points(self) -> None:
        paving = paver.run(example("torus"), eps=2).paving()
        self.assert_raised(ValueError, lambda: paving.where((1, 1)),
                           args=("a point of 2 numbers, where the paving has 3 variables",))
        self.assert_raised(ValueError, lambda: next(paving.small()).holds((1, 1)))
        self.assert_raised(ValueError, lambda: paving.where({"x": 1, "y": 1}), args=("the point has no value for z",))
        self.assert_raised(ValueError, lambda: paving.where((1, 1, "one")))
        self.assert_raised(ValueError, lambda: paving.where((1, 1, float("nan"))))
        self.assertEqual(paving.where({"z": 0, "x": Fraction(3, 2), "y": 0.5}), paving.where((1.5, "0.5", 0)))
        self.assertEqual(paving.where((0, 0, 50)), {"outside"})
        for work in (lambda: paving.hull("Inner"), lambda: paving.boxes("foo"), lambda: paving.widest("smal"),
                     lambda: paving.clusters(0, ["Small"]), lambda: paving.slice({"z": 0}, ["kept"]),
                     lambda: paving.numpy("Open"), lambda: paving.write_csv(io.StringIO(), ["tiny"]),
                     lambda: paving.variable("w"), lambda: paving.variable(3), lambda: paving.slice({"w": 0}),
                     lambda: paver.svg(paving, "x", "x", {"z": 0}), lambda: paving.variable(True)):
            self.assert_raised(ValueError, work)
        unknown: dict[str, Any] = {"esp": 1}
        self.assert_raised(TypeError, lambda: paver.run(example("ring"), **unknown))

    def test_places_outside(self) -> None:
        """A slice outside the search box is refused: nothing is said of what is there."""
        for words in (("plot", "--at", "z=50", "--picture", "none.svg"), ("plot", "--at", "z=-50", "--picture", "none.png")):
            status, out, err = command(words[0], example("torus"), "--eps", "2", *words[1:])
            self.assertEqual((status, out), (2, ""), err)
            self.assertIn("lies outside the search box", err, err)
        paving = paver.run(example("torus"), eps=2).paving()
        self.assert_raised(ValueError, lambda: paver.svg(paving, "x", "y", {"z": 50}))
        self.assert_raised(ValueError, lambda: paving.slice({"z": 50}))

    def test_settings_of_any_kind(self) -> None:
        ring = example("ring")
        self.assertEqual(paver.run(ring, eps=0.1).text, paver.run(ring, eps="0.1").text)
        self.assertTrue(paver.run(ring, eps=1e0, boxes=1e4, depth=20.0, workers=1.0).complete)
        self.assertEqual(paver.check(ring).identity(eps=0.1), paver.check(ring).identity(eps="0.1"))
        for settings in ({"boxes": 1.5}, {"boxes": float("inf")}, {"eps": float("nan")}, {"eps": -1},
                         {"depth": Fraction(1, 2)}):
            self.assert_raised(ValueError, lambda settings=settings: paver.run(ring, **settings))
        self.assert_raised(ValueError, lambda: paver.check(ring).identity(eps="1/0"))
        self.assert_raised(paver.UsageError, lambda: paver.run(ring, limit=99))

    def test_kept_settings(self) -> None:
        """The settings beside a stored file serve the calls that take it, as long as they are of the file as it is."""
        ring = example("ring")
        with tempfile.TemporaryDirectory() as folder:
            out, second = Path(folder) / "p", Path(folder) / "q"
            paver.run(ring, eps=0.5, depth=30, boxes=50, out=out)
            self.assertEqual(json.loads(Path(f"{out}.json").read_text())["settings"], {"eps": "0.5", "depth": "30"})
            self.assertTrue(paver.audit(ring, out))
            self.assertTrue(paver.resume(ring, out, out=second).complete)
            self.assertTrue(paver.audit(ring, second))
            self.assertTrue(paver.draw(ring, second, "x", "y").startswith("<svg "))
            self.assertEqual(sum(paver.Paving.read(second, system=ring).volumes().values()), 36)
            self.assert_raised(paver.PavingRefused, lambda: paver.audit(ring, second, eps=1), cause="wrong identity")
            status, _, err = command("summary", ring, out)
            self.assertEqual(status, 0, "open leaves are told")
            self.assertIn("the paving is not whole", err, "open leaves are told")
            self.assertIn("paver resume", err, "open leaves are told")
            self.assertEqual(command("summary", ring, second)[2], "")
            Path(f"{second}.json").write_text(Path(f"{out}.json").read_text().replace("0.5", "4"))
            self.assertTrue(paver.audit(ring, second, eps=0.5, depth=30))
            out.write_bytes(b"paving 2\nidentity " + b"0" * 64 + b"\nO\n")
            self.assertEqual(beside.settings_of(out), {}, "they are of another file")
            mine = Path(folder) / "data.json"
            mine.write_text('{"mine": 1}')
            with warnings.catch_warnings(record=True) as said:
                warnings.simplefilter("always")
                paver.run(ring, out=Path(folder) / "data")
            self.assertEqual(len(said), 1)
            self.assertIn("no file of settings", str(said[0].message))
            self.assertEqual(mine.read_text(), '{"mine": 1}', "a file of the user's stays")

    def test_damaged_numbers(self) -> None:
        """What audit refuses for its numbers, summary, csv and plot refuse too, before they print anything."""
        ring = example("ring")
        with tempfile.TemporaryDirectory() as folder:
            out, bad = Path(folder) / "p", Path(folder) / "bad"
            paver.run(ring, eps=0.5, out=out)
            text, refused = out.read_text(), 0
            for number, (old, new, old_too) in enumerate(DAMAGE):
                changed = text.replace(old_too or old, new, 1)
                bad.write_text(changed)
                self.assert_raised(paver.PavingRefused, lambda: paver.audit(ring, bad, eps=0.5), cause="bad line")
                for words in (["summary"], ["csv"], ["plot", "--picture", f"{folder}/x.svg"]):
                    status, stdout, err = command(words[0], ring, bad, "--eps", "0.5", *words[1:])
                    self.assertEqual((status, stdout), (2, ""), (number, words, err))
                    self.assertTrue(err.startswith("paver: line "), (number, words, err))
                    refused += 1
            self.assertEqual(refused, 3 * len(DAMAGE))
            self.assertFalse(Path(folder, "x.svg").exists())

    def refuses(self, *words: Any, **how: Any) -> None:
        """That a command ends with one line on standard error, soon, and without a traceback."""
        done, seconds = tool(*words, **how)
        lines = done.stderr.decode().splitlines()
        self.assertIn(done.returncode, (2, 3, 6), (words, done))
        self.assertEqual(len(lines), 1, (words, done))
        self.assertNotIn("Traceback", lines[0], (words, done))
        self.assertLess(seconds, SECONDS, (words, seconds))
        self.assertTrue(all(c.isprintable() for c in lines[0]), (words, seconds))

    def test_databases_of_strangers(self) -> None:
        table = "CREATE TABLE node (path TEXT, line)"
        databases: list[list[Any]] = [
            [table, ("INSERT INTO node VALUES ('', ?)", [b"\xff\xfe"])], [table, "INSERT INTO node VALUES ('', NULL)"],
            [table, "INSERT INTO node VALUES ('', 7)"], [table, "INSERT INTO node VALUES (NULL, 'X')"],
            [table, "INSERT INTO node VALUES ('', zeroblob(90000000))"], [table, "UPDATE head SET identity = 'text'"],
            [table, "INSERT INTO node VALUES ('', printf('%.*c', 900000, 'I'))"],
            [f"CREATE VIEW node AS {ENDLESS} SELECT '' AS path, 'X' AS line FROM c"],
            [table, "DROP TABLE head", f"CREATE VIEW head AS {ENDLESS} SELECT 1 AS id, x'00' AS identity FROM c WHERE n < 0"]]
        for number, statements in enumerate(databases):
            with tempfile.TemporaryDirectory() as folder:
                name = Path(folder) / "k.db"
                database(name, *statements)
                self.refuses("export", name)
                if number in (0, 7):
                    self.refuses("summary", example("ring"), name)

    def test_texts_of_strangers(self) -> None:
        with tempfile.TemporaryDirectory() as folder:
            for number, text in enumerate((IBEX_LOOPS, IBEX_DOUBLES)):
                path = Path(folder) / f"{number}.mbx"
                path.write_text(text)
                self.refuses("from-ibex", path)
            self.refuses("from-ibex", "/dev/zero")
            ring = example("ring")
            for eps in ("1/0", "inf", "1e999999999", "\x1b[31m"):
                self.refuses("summary", ring, "--eps", eps)
                self.refuses("csv", ring, ring, "--eps", eps)
            self.refuses("summary", ring, "/dev/zero")
            done, seconds = tool("explain", "/dev/zero")
            self.assertEqual(done.returncode, 2, done)
            self.assertIn(b"TextTooLong", done.stdout, done)
            self.assertLess(seconds, SECONDS, done)
            steering = Path(folder) / "\x1b[31mred.mbx"
            steering.write_bytes(b"Variables x in [0,4]; Constraints x <= \x1b[2J\x9b1; end")
            done, _ = tool("explain", steering)
            self.assertEqual(done.returncode, 2, done.stdout)
            self.assertNotIn(b"\x1b", done.stdout + done.stderr, done.stdout)
            done, _ = tool("explain", "--line", steering)
            self.assertEqual(done.returncode, 2, done.stdout)
            self.assertNotIn(b"\x1b", done.stdout, done.stdout)
            self.assertEqual(done.stdout.count(b"\n"), 1, done.stdout)

    def test_closed_streams(self) -> None:
        ring = example("ring")
        self.refuses("csv", ring, stdout=None, preexec_fn=lambda: os.close(1))
        if os.path.exists("/dev/full"):
            with open("/dev/full", "wb") as full:
                self.refuses("csv", ring, stdout=full)

    def test_many_parts(self) -> None:
        """20,000 parts are written in seconds: each cut is worked out once."""
        with tempfile.TemporaryDirectory() as folder:
            begun = time.process_time()
            paths = paver.split(example("torus"), 20_000, folder)
            self.assertLess(time.process_time() - begun, 30)
            self.assertEqual(len(paths), 20_000)
            self.assertEqual(paths[-1].name, "part-19999.mbx")
        for parts in (0, 1_000_000_000):
            self.assert_raised(ValueError, lambda parts=parts: paver.split(example("ring"), parts, "none"))


if __name__ == "__main__":
    main()
