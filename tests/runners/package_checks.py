"""Checks of the package's calls of the program: statuses as exceptions, numbers, and the commands on stored files."""
from __future__ import annotations

import hashlib
import math
import random
import sqlite3
import subprocess
import sys
import tempfile
from fractions import Fraction
from pathlib import Path
from typing import Any

import paver
from paver import kept as keeping, numbers, program
from paver.advice import budget_warning
from paver.options import COMMANDS
from paver.tree import Table
from tests.data.examples import EXAMPLES
from tests.reference import numbers as plain
from tests.runners.package_test import PackageTest, example, options_of
from tests.runners.running import main, rows

EXAMPLE_FOLDER = Path(__file__).resolve().parents[2] / "examples"
EXPECTED = Path(__file__).resolve().parents[1] / "data" / "summaries.txt"


# ---- statuses

LINES: list[tuple[int, str, type[Exception], dict[str, Any]]] = [
    (2, "usage: paver COMMAND SYSTEM [OPTIONS] [PAVING..]", paver.UsageError, {}),
    (2, "contract: refused at byte 22", paver.ContractRefused, {"byte": 22}),
    (3, "system: line 1 column 39 byte 38: Unexpected", paver.SystemRefused,
     {"row": 1, "column": 39, "byte": 38, "cause": "Unexpected"}),
    (4, "paving a: b: too long", paver.PavingRefused, {"name": "a: b", "cause": "too long", "row": None}),
    (4, "paving p: wrong identity", paver.PavingRefused, {"name": "p", "cause": "wrong identity"}),
    (4, "paving p: bad line 7", paver.PavingRefused, {"cause": "bad line", "row": 7}),
    (4, "paving p: too many nodes at line 100003", paver.PavingRefused, {"cause": "too many nodes", "row": 100003}),
    (4, "paving k: bad row 0", paver.PavingRefused, {"name": "k", "cause": "bad row", "row": 0}),
    (4, "paving k: too many rows", paver.PavingRefused, {"name": "k", "cause": "too many rows", "row": None}),
    (5, "read fault: x y", paver.ReadFault, {"name": "x y"}),
    (6, "write fault: standard output", paver.WriteFault, {"name": "standard output"}),
    (7, "want of memory", paver.WantOfMemory, {}),
    (8, "tree limit: 100001 settled", paver.TreeLimit, {"settled": 100001}),
    (9, "disagree 0110: X | I 0:0 1:0", paver.Disagree,
     {"kind": "disagree", "path": "0110", "first": "X", "second": "I 0:0 1:0"}),
    (9, "differs .: S 0:0 1:0 | X", paver.Disagree, {"kind": "differs", "path": ".", "first": "S 0:0 1:0", "second": "X"}),
    (10, "keeper fault: k.db", paver.KeeperFault, {"name": "k.db"}),
    (11, "no file: s.mbx", paver.NoFile, {"name": "s.mbx"}),
    (-9, "", paver.ProgramFault, {"status": -9}),
    (2, "something else", paver.ProgramFault, {}),
]


HOLDS = ("import sqlite3, sys; c = sqlite3.connect(sys.argv[1], isolation_level=None); c.execute('BEGIN EXCLUSIVE'); "
         "print(); input()")
# What is done to a campaign's database, and what is then said of it.
ALTERED = [("CREATE VIEW one AS SELECT 1", "foreign: it has a view `one`"),
           ("CREATE INDEX lines ON node (line)", "foreign: it has a index `lines`"),
           ("DELETE FROM head", "foreign: it has rows and no identity"), ("DROP TABLE head", "foreign: ")]


class Calls(PackageTest):
    """Calls of the program."""

    # ---- numbers

    def test_numbers(self) -> None:
        source = random.Random(1)
        for _ in range(3000):
            value = Fraction(source.randrange(-10 ** 25, 10 ** 25), source.randrange(1, 10 ** source.randrange(1, 30)))
            for up in (False, True):
                text = numbers.rounded(value, up)
                wanted = plain.from_fraction(value, plain.UP if up else plain.DOWN)
                self.assertEqual(text, plain.spelling(wanted), (value, up, text))
                self.assertEqual(numbers.exact(text), plain.as_fraction(wanted))
                self.assertEqual(numbers.spelling(numbers.grid(text)), text)
            low, high = numbers.as_float(value, False), numbers.as_float(value, True)
            self.assertLessEqual(Fraction(low), value)
            self.assertLessEqual(value, Fraction(high))
            self.assertEqual(low == high, Fraction(low) == value)
        self.assertEqual(numbers.exact("-oo"), float("-inf"))
        self.assertEqual(numbers.float_of("+oo", False), float("inf"))
        top, most = numbers.spelling(numbers.GREATEST), sys.float_info.max
        self.assertEqual(numbers.stepped(math.inf, -1), most)
        self.assertEqual(numbers.stepped(-math.inf, 1), -most)
        self.assertGreater(numbers.stepped(0.0, 1), 0)
        self.assertEqual(numbers.as_float(Fraction(10) ** 400, False), most)
        self.assertEqual(numbers.as_float(-Fraction(10) ** 400, True), -most)
        self.assertEqual(numbers.rounded(Fraction(2) ** 600, True), "+oo")
        self.assertEqual(numbers.rounded(Fraction(2) ** 600, False), top)
        self.assertEqual(numbers.rounded(-Fraction(2) ** 600, False), "-oo")
        self.assertEqual(numbers.rounded(-Fraction(2) ** 600, True), "-" + top)
        for bad in ("1", "2:0", "01:0", "1:+1", "0:1", "-0:0", "oo", "1:-513", "1:00", " 1:0", "4611686018427387905:0"):
            self.assert_raised(numbers.NumberError, lambda bad=bad: numbers.grid(bad))

    def test_floats_of_tables(self) -> None:
        """The numbers of a paving stand in their order, each with the nearest floats on both sides, whatever else there is."""
        source = random.Random(7)
        for least, most, infinite in ((-60, 60, ""), (-512, 440, ""), (-60, 60, "-oo +oo")):
            values: dict[str, Fraction | float] = {word: float(word.replace("oo", "inf")) for word in infinite.split()}
            values["0:0"] = Fraction(0)
            for _ in range(10_000):
                mantissa = (source.getrandbits(source.randrange(1, 63)) | 1) * source.choice((1, -1))
                exponent = source.randint(least, most)
                values[f"{mantissa}:{exponent}"] = Fraction(mantissa) * Fraction(2) ** exponent
            table = Table([*values, "I", "1", "2:0"])
            self.assertEqual([values[word] for word in table.words], sorted(values.values()))
            for word, low, high in zip(table.words, table.floats(False), table.floats(True)):
                value = values[word]
                self.assertTrue(low <= value <= high, word)
                if low == high:
                    self.assertEqual(low, value)
                else:
                    self.assertEqual(math.nextafter(low, math.inf), high)
                    self.assertNotIn(value, (low, high))

    def test_minibex_numbers(self) -> None:
        for value, text in ((Fraction(1, 8), "0.125"), (Fraction(-5, 2), "-2.5"), (Fraction(7), "7"), (Fraction(1, 3), None),
                            (Fraction(10 ** 36), "1" + "0" * 36), (Fraction(10 ** 37), None), (Fraction(1, 2 ** 40), None)):
            self.assertEqual(numbers.minibex(value), text, (value, numbers.minibex(value)))

    def test_lines(self) -> None:
        for status, line, kind, place in LINES:
            fault = program.fault_of(status, line)
            self.assertIs(type(fault), kind, (line, type(fault)))
            for name, value in place.items():
                self.assertEqual(getattr(fault, name), value, (line, name))

    def test_refusals(self) -> None:
        ring = example("ring")
        self.assert_raised(paver.UsageError, lambda: paver.run(ring, depth=0),
                           args=("`--depth 0`: a whole number from 1 to 200 is expected.",))
        self.assert_raised(paver.UsageError, lambda: paver.resume(ring, []),
                           args=("`resume` takes one SYSTEM and 1 to 8 PAVINGs: 1 name is given.",))
        self.assert_raised(paver.ContractRefused, lambda: paver.run(ring, contract="union()"), byte=6)
        self.assert_raised(paver.SystemRefused, lambda: paver.check_text("Variables x in [0,4];\nConstraints x + <= 1; end"),
                           row=2, column=17, byte=38, cause="Unexpected")
        self.assert_raised(paver.NoFile, lambda: paver.run("no such file"), name="no such file")
        self.assert_raised(paver.ProgramMissing, lambda: paver.run(ring, program="/no/such/program"))
        unknown: dict[str, Any] = {"width": 1}
        self.assert_raised(TypeError, lambda: paver.run(ring, **unknown))
        self.assert_raised(ValueError, lambda: paver.run(ring, eps=Fraction(1, 3)))

    def test_answers(self) -> None:
        answer = paver.run(example("ring"), eps=Fraction(1), boxes=5)
        self.assertEqual((answer.command, answer.status, answer.complete, answer.summary["open"] > 0), ("run", 1, False, True))
        self.assertTrue(any("budget" in sentence and "paver resume" in sentence for sentence in answer.warnings()))
        shallow = paver.run(example("ring"), depth=4)
        self.assertTrue(any("--depth 12 suffices" in sentence for sentence in shallow.warnings()), shallow.warnings())
        enough = paver.run(example("ring"), depth=12)
        self.assertTrue(enough.complete)
        self.assertFalse(any("wider" in sentence for sentence in enough.warnings()))
        self.assertLessEqual(enough.paving().widest().width, Fraction(1, 8))
        self.assertEqual(paver.run(example("ring"), eps=0.5).text, paver.run(example("ring"), eps="0.5").text)

    def test_ways_to_go_on(self) -> None:
        """What is advised where leaves are open is a call that the program takes."""
        ring = example("ring")
        with tempfile.TemporaryDirectory() as folder:
            stored, kept = Path(folder) / "p", Path(folder) / "k"
            found: dict[Any, str] = {answer.command: answer.warnings()[0] for answer in (
                paver.run(ring, boxes=7, out=stored), paver.resume(ring, stored, boxes=1), paver.merge(ring, stored),
                paver.run_centered(ring, boxes=7), paver.campaign(ring, kept, boxes=7))}
            self.assertEqual({command for command, sentence in found.items() if "paver resume" in sentence},
                             {"run", "resume", "merge"})
            self.assertEqual({command for command, sentence in found.items() if "paver campaign" in sentence}, {"campaign"})
            self.assertIn("--keep", found["campaign"])
            self.assertIn("the join has open leaves", found["merge"])
        full = budget_warning("campaign", {"settled": 100_000, "open": 1}, None) or ""
        self.assertIn("paver split", full)
        self.assertNotIn("paver campaign", full)

    def test_depths(self) -> None:
        """The rule for a depth that suffices, on widths that differ, for both ways to cut."""
        text = "Variables x in [0,64], y in [0,1]; Constraints x*y >= 3.1; x + 7*y <= 40.3; end"
        with tempfile.TemporaryDirectory() as folder:
            path = Path(folder) / "s.mbx"
            path.write_text(text)
            for bisect, depth in (("largest", 8), ("round", 14)):
                root = [(0, 64), (0, 1)]
                self.assertEqual(paver.depth_that_suffices(root, Fraction(1, 2), bisect), depth)
                answer = paver.run(path, eps="0.5", bisect=bisect, depth=depth, contract="hc4(0)")
                self.assertLessEqual(answer.paving().widest().width, Fraction(1, 2), bisect)
                shallow = paver.run(path, eps="0.5", bisect=bisect, depth=3, contract="hc4(0)")
                self.assertTrue(any(f"--depth {depth} suffices" in sentence for sentence in shallow.warnings()),
                                shallow.warnings())
        self.assertIsNone(paver.depth_that_suffices([(0, 1), (float("-inf"), 0)], 1))
        exact = paver.run(example("ring"), eps=0, depth=5)
        self.assertTrue(any("with eps 0 no depth" in sentence for sentence in exact.warnings()))
        self.assertEqual([paver.depth_that_suffices([(0, w)], 1) for w in (1, 2, 3, 4, 5, Fraction(1, 3), 0)],
                         [0, 1, 2, 2, 3, 0, 0])

    def test_canonical(self) -> None:
        system = paver.check(example("pi_gains"))
        self.assertEqual(system.names, ["kp", "ki"])
        self.assertEqual(system.root, ("-1:1", "5:1", "-1:0", "1:2"))
        self.assertEqual(system.constraints[2].infix(system.names), "9*(1 + kp) > (1 + kp)^2 + 9*ki")
        deep = "Variables x; Constraints " + "-" * 999 + "x <= 1; end"
        self.assertEqual(len(paver.check_text(deep).constraints[0].left), 1000)

    # ---- stored files

    def test_missing(self) -> None:
        """What an older program lacks is named, and this one lacks nothing."""
        self.assertTrue(all(map(program.has, COMMANDS)))
        for command, work in (("resume", paver.resume), ("merge", paver.merge), ("audit", paver.audit),
                              ("run-centered", lambda system, _: paver.run_centered(system)),
                              ("audit-centered", paver.audit_centered)):
            if not program.has(command):
                self.assert_raised(paver.NotInProgram, lambda work=work: work(example("ring"), "none"))
        if not program.has("run --out"):
            self.assert_raised(paver.NotInProgram, lambda: paver.run(example("ring"), out="none"))

    def test_stored(self) -> None:
        self.needs("run --out")
        with tempfile.TemporaryDirectory() as folder:
            out = Path(folder) / "ring.paving"
            answer = paver.run(example("ring"), eps="0.5", out=out)
            stored, printed = answer.paving(), paver.run(example("ring"), eps="0.5").paving()
            self.assertEqual(stored.version, 2)
            self.assertEqual(list(stored.nodes()), list(printed.nodes()))
            self.assert_raised(paver.WriteFault, lambda: paver.run(example("ring"), out=Path(folder) / "none" / "x"))

    def test_resumed(self) -> None:
        self.needs("run --out")
        self.needs("resume")
        with tempfile.TemporaryDirectory() as folder:
            first, second = Path(folder) / "1", Path(folder) / "2"
            self.assertFalse(paver.run(example("ring"), boxes=100, out=first).complete)
            answer = paver.resume(example("ring"), first, out=second)
            self.assertTrue(answer.complete)
            self.assertEqual(answer.paving().counts(), paver.run(example("ring")).paving().counts())
            self.assert_raised(paver.PavingRefused, lambda: paver.resume(example("ring"), first, eps=1), cause="wrong identity")

    def test_merged(self) -> None:
        self.needs("run --out")
        self.needs("merge")
        with tempfile.TemporaryDirectory() as folder:
            first, second, third = (Path(folder) / name for name in "123")
            paver.run(example("ring"), boxes=100, workers=1, out=first)
            paver.run(example("ring"), boxes=300, workers=1, out=second)
            answer = paver.merge(example("ring"), [first, second], out=third)
            self.assertFalse(answer.complete)
            self.assertEqual(third.read_bytes(), second.read_bytes())

    def test_audited(self) -> None:
        self.needs("run --out")
        self.needs("audit")
        with tempfile.TemporaryDirectory() as folder:
            out = Path(folder) / "1"
            paver.run(example("ring"), eps=1, out=out)
            self.assertTrue(paver.audit(example("ring"), out, eps=1))
            lines = out.read_text().splitlines()
            last = max(k for k, line in enumerate(lines) if line.startswith("S"))
            lines[last] = "X"
            out.write_text("".join(f"{line}\n" for line in lines))
            self.assert_raised(paver.Disagree, lambda: paver.audit(example("ring"), out, eps=1), kind="differs", first="X")

    def test_centered(self) -> None:
        """A system whose variable stands in it twice is settled with one box, and neither kind of file is the other."""
        self.needs("run-centered")
        self.needs("audit-centered")
        with tempfile.TemporaryDirectory() as folder:
            system, out = Path(folder) / "s", Path(folder) / "p"
            system.write_text("Variables x in [0,1]; Constraints x - x <= 0; end\n")
            answer = paver.run_centered(system, out=out)
            self.assertTrue(answer.complete)
            self.assertEqual(answer.summary["inner"], 1)
            self.assertEqual(answer.summary["settled"], 1)
            self.assertGreater(paver.run(system).summary["small"], 1)
            self.assertTrue(paver.audit_centered(system, out), "the form is kept beside the file")
            self.assertTrue(paver.audit(system, out), "the form is kept beside the file")
            Path(f"{out}.json").unlink()
            self.assert_raised(paver.PavingRefused, lambda: paver.audit(system, out), cause="wrong identity")
            out.write_text(out.read_text().replace("I = =", "X"))
            self.assert_raised(paver.Disagree, lambda: paver.audit_centered(system, out), kind="differs", first="X")

    def test_drawn(self) -> None:
        self.needs("run --out")
        self.needs("svg")
        with tempfile.TemporaryDirectory() as folder:
            out = Path(folder) / "1"
            answer = paver.run(example("torus"), eps=1, out=out)
            flat = paver.draw(example("torus"), out, "x", "y", at=[Fraction(3, 10)], eps=1)
            self.assertTrue(flat.startswith("<svg "))
            self.assertTrue(flat.endswith("</svg>\n"))
            self.assertLessEqual(flat.count("#43a047"), answer.summary["inner"])
            self.assertGreater(flat.count("<rect "), 1)
            self.assertEqual(paver.draw(example("torus"), out, "x", "y", at=[-0.5], eps=1),
                             paver.draw(example("torus"), out, "x", "y", at=["-0.5"], eps=1))
            self.assert_raised(paver.UsageError, lambda: paver.draw(example("torus"), out, "x", "y", eps=1))
            self.assertEqual(paver.draw(example("torus"), out, "x", "y", at=[Fraction(3, 10)]), flat,
                             "eps is kept beside the file")
            self.assert_raised(ValueError, lambda: paver.draw(example("torus"), out, "x", "y", at=[50]))
            Path(f"{out}.json").unlink()
            self.assert_raised(paver.PavingRefused, lambda: paver.draw(example("torus"), out, "x", "y", at=[0]),
                               cause="wrong identity")

    def test_sampled(self) -> None:
        lines = paver.sample(1, 2).splitlines()
        self.assertEqual(lines[0], "sample seed 1 count 2")
        self.assertEqual(len(lines), 3)
        self.assertEqual(lines[1], "settled 911 cut 455 removed 0 inner 256 small 200 open 0")
        self.assertIn(f"`{lines[2]}`", (EXAMPLE_FOLDER.parent / "docs" / "USING.md").read_text())
        try:
            paver.sample(1, 17)
        except paver.UsageError as fault:
            self.assertIs(type(fault), paver.UsageError, fault)
        else:
            self.fail("17 circles were taken")

    def test_least(self) -> None:
        self.needs("least")
        text = "Variables x in [0,1]; Constraints 1/x >= 0; end\n"
        with tempfile.TemporaryDirectory() as folder:
            name = Path(folder) / "s"
            name.write_text(text)
            open_yet = paver.least(name, "x", eps=0.25, boxes=3)
            self.assertEqual((open_yet.lower, open_yet.upper, open_yet.point, open_yet.complete), (0, None, None, False))
            found = paver.least(name, "x", eps=Fraction(1, 4))
            self.assertEqual((found.lower, found.upper, found.point, found.complete),
                             (0, Fraction(1, 4), (Fraction(1, 4),), True))
            self.assertEqual(paver.least(name, "-x").lower, -1)
            self.assertEqual(paver.least(name, "1/0").lower, math.inf)
            self.assert_raised(paver.ObjectiveRefused, lambda: paver.least(name, "2*"), byte=2, cause="EndOfText")
            self.assert_raised(paver.UsageError, lambda: paver.least(name, "x", boxes=0))

    def test_campaigns(self) -> None:
        """What a campaign keeps is read as the paving that `run` prints of the same system, open leaves in their places."""
        self.needs("campaign")
        ring = example("ring")
        with tempfile.TemporaryDirectory() as folder:
            name = Path(folder) / "with a space.db"
            part = paver.campaign(ring, name, eps=1, boxes=7, rounds=2, workers=1)
            self.assertFalse(part.complete)
            self.assertEqual(part.summary["settled"], 14)
            self.assertEqual(14, part.paving().counts()["settled"])
            self.assertEqual(part.paving().lines, paver.run(ring, eps=1, boxes=14, workers=1).paving().lines)
            self.assertEqual(part.paving().counts(), part.summary)
            whole = paver.campaign(ring, name, eps=1)
            printed = paver.run(ring, eps=1)
            read = paver.Paving.read(name, system=ring)
            self.assertTrue(whole.complete)
            self.assertEqual(read.lines, printed.paving().lines)
            self.assertEqual(read.volumes(), printed.paving().volumes())
            self.assert_raised(paver.PavingRefused, lambda: paver.campaign(ring, name), cause="wrong identity", name=str(name))
            self.assert_raised(paver.TreeLimit, lambda: paver.campaign(ring, name, eps=1, boxes=100_000), settled=31)
            self.assert_raised(paver.UsageError, lambda: paver.campaign(ring, name, eps=1, rounds=101))
            self.assert_raised(paver.KeeperFault, lambda: paver.campaign(ring, folder), name=folder,
                               cause="foreign: it is no regular file with one name")
            self.assertEqual(paver.Paving.read(name, system=ring).lines, printed.paving().lines)

    def obstructs(self, cause: str, name: Path) -> None:
        """A database has an obstacle of this kind, and a campaign over it fails with the same words."""
        found = keeping.obstacle(name) or ""
        self.assertTrue(found.startswith(cause), f"{found} in place of {cause}")
        self.assert_raised(paver.KeeperFault, lambda: paver.campaign(example("ring"), name, eps=1), name=str(name), cause=found)

    def test_obstacles(self) -> None:
        """What stands in a campaign's way in its database is told by its kind, by the exception and without a call."""
        self.needs("campaign")
        with tempfile.TemporaryDirectory() as folder:
            name = Path(folder) / "k"
            paver.campaign(example("ring"), name, eps=1, boxes=7)
            self.assertIsNone(keeping.obstacle(name))
            self.assertIsNone(keeping.obstacle(Path(folder) / "none"))
            with subprocess.Popen([sys.executable, "-c", HOLDS, name], stdin=subprocess.PIPE, stdout=subprocess.PIPE) as holder:
                assert holder.stdout is not None
                holder.stdout.readline()
                self.obstructs("locked: ", name)
                holder.communicate(b"\n")
            whole = name.read_bytes()
            for sql, cause in ALTERED:
                connection = sqlite3.connect(name)
                connection.execute(sql)
                connection.commit()
                connection.close()
                self.obstructs(cause, name)
                name.write_bytes(whole)
            name.write_bytes(whole[:100] + bytes(100) + whole[200:])
            self.obstructs("damaged: ", name)
            name.write_bytes(b"text\n" * 200)
            self.obstructs("foreign: it is no SQLite database", name)
            name.unlink()
            Path(f"{name}-wal").write_bytes(b"notes")
            self.obstructs(f"foreign: {name}-wal", name)

    def test_identities(self) -> None:
        """A stored file has the identity that the package works out of its system and settings."""
        ring = example("ring")
        settings: list[dict[str, Any]] = [{}, {"eps": "0.3"}, {"eps": "1e-36", "depth": 2},
                                          {"eps": 1, "depth": 9, "bisect": "round", "contract": "fix(2,hc4(1))"}]
        with tempfile.TemporaryDirectory() as folder:
            out = Path(folder) / "p"
            for chosen in settings:
                for centered in (False, True):
                    work: Any = paver.run_centered if centered else paver.run
                    work(ring, out=out, **chosen)
                    stored = paver.Paving.read(out)
                    self.assertEqual(stored.identity, paver.check(ring).identity(**chosen, centered=centered),
                                     (chosen, centered))
                    self.assertEqual(stored.file_text(), out.read_text())

    def test_exported(self) -> None:
        """The paving of a campaign is a file that the program audits and goes on from; printed text is none."""
        self.needs("campaign")
        ring = example("ring")
        with tempfile.TemporaryDirectory() as folder:
            kept, out = Path(folder) / "k", Path(folder) / "p"
            self.assertFalse(paver.campaign(ring, kept, eps=1, boxes=7).complete)
            out.write_text(paver.Paving.read(kept).file_text())
            self.assertTrue(paver.audit(ring, out, eps=1))
            self.assertEqual(paver.resume(ring, out, eps=1).text, paver.run(ring, eps=1).text)
        self.assert_raised(ValueError, lambda: paver.run(ring, eps=1).paving().file_text())

    def test_kept_rows(self) -> None:
        """Rows that are no tree's, and databases that are no campaign's."""
        with tempfile.TemporaryDirectory() as folder:
            name = Path(folder) / "k"
            connection = sqlite3.connect(name)
            connection.executescript("CREATE TABLE head (id INTEGER PRIMARY KEY, identity BLOB);"
                                     "CREATE TABLE node (path TEXT, line TEXT);")
            self.assert_raised(paver.PavingError, lambda: paver.Paving.read(name), cause="no identity")
            connection.execute("INSERT INTO head VALUES (1, ?)", [bytes(32)])
            connection.executemany("INSERT INTO node VALUES (?, ?)", [("", "C 0 1:-1 0:0 1:0"), ("1", "X")])
            connection.commit()
            read = paver.Paving.read(name)
            self.assertEqual(read.lines, ["C 0 1:-1 0:0 1:0", "O", "X"])
            self.assertEqual(read.identity, "00" * 32)
            connection.execute("INSERT INTO node VALUES ('10', 'X')")
            connection.commit()
            self.assert_raised(paver.PavingError, lambda: paver.Paving.read(name), row=5)
            connection.execute("DROP TABLE node")
            connection.commit()
            connection.close()
            self.assert_raised(paver.PavingError, lambda: paver.Paving.read(name), row=1)

    def test_the_references_text(self) -> None:
        """The printed text is the reference's, so that what is read of it is the reference's paving."""
        expected = dict(line.split(" ", 2)[:2] for line in EXPECTED.read_text().splitlines())
        for name, words in rows(EXAMPLES):
            with self.subTest(name):
                answer = paver.run(example(name), **options_of(words))
                self.assertEqual(hashlib.sha256(answer.text.encode()).hexdigest(), expected[name])


if __name__ == "__main__":
    main()
