"""Runs what README and docs/USING.md show, in their order, in a folder with the examples, the program and the package, and
compares.

    python3 -m tests.runners.readme [-k WORD]

Commands behind `$` end with the status that their comment tells, 0 where it tells none, and print the lines below them. Those
that stand in its sentences are listed in IN_TEXT.
"""
from __future__ import annotations

import os
import re
import shutil
import subprocess
import tempfile
from pathlib import Path

from tests.runners import package_around
from tests.runners.running import PROGRAM, SECONDS, TOP, FolderTest, main

README, USING = (TOP / "README.md").read_text(), (TOP / "docs" / "USING.md").read_text()
TEXT = README + USING
MOST_LINES = 100
SYSTEM = re.compile(r"^```\n(Variables\n.*?)^```", re.M | re.S)
ROW = re.compile(r"^\| (?:`(\w+)`, \d variables)? ?\| ([0-9.]+) \| ([0-9,]+) \| [0-9.]+ \| \d+ \| ([0-9.]+) \|$", re.M)


# The commands that stand in sentences of the two pages, and what runs them.
IN_TEXT = {
    "make demo": "test_all_are_run", "make gate": "test_all_are_run", "make try": "first_look.py",
    "make install PREFIX=/usr/local": "package_around.py", "make dist": "tables.py", "rt version": "test_kit",
    "./paver run examples/ring.mbx | head -n 1": "test_head", "./paver sample --seed 1 --count 2": "test_sample",
    "python3 -m paver view examples/ring.mbx > ring.html": "test_view", "python3 -m paver plot": "test_plot",
    "python3 -m paver export torus.db > FILE": "test_export", "python3 -m paver summary SYSTEM torus.db": "test_export",
    "python3 -m paver sweep SYSTEM --folder F": "test_sweep", "resume SYSTEM first --share K/N --out partK": "test_shares",
    "python3 -m paver least --levels": "test_least", "--of='-(kd)'": "test_least",
    "python3 -m paver explain COMMAND SYSTEM OPTIONS": "test_explain",
    "python3 -m paver explain SYSTEM --groups 2 --agree 4": "test_explain",
}
TORUS = "examples/torus.mbx --eps 0.25"


class Readme(FolderTest):
    """What the two pages show and say."""
    folder: Path

    @classmethod
    def setUpClass(cls) -> None:
        """One folder for all: later commands read what earlier ones made."""
        made = tempfile.TemporaryDirectory()
        cls.addClassCleanup(made.cleanup)
        cls.folder = Path(made.name)
        for name, to in (("paver", Path(PROGRAM)), ("examples", TOP / "examples"), ("python", TOP / "python")):
            (cls.folder / name).symlink_to(to)
        (cls.folder / "plate.mbx").write_text(SYSTEM.findall(README)[0])

    def setUp(self) -> None:
        self.path = self.folder

    def shell(self, words: str) -> subprocess.CompletedProcess[str]:
        """A command in the folder, with the package's one line of set-up."""
        set_up = re.search(r"^export PYTHONPATH=.*?(?=   #)", TEXT, re.M)
        assert set_up is not None
        return subprocess.run(["bash", "-c", f"{set_up.group()}\n{words}"], cwd=self.path, capture_output=True, text=True,
                              timeout=SECONDS, env={**os.environ, "PYTHONDONTWRITEBYTECODE": "1"}, check=False)

    def ends_well(self, words: str) -> str:
        """What a command prints that has to end with status 0."""
        done = self.shell(words)
        self.assertEqual(done.returncode, 0, (words, done.stderr[:500]))
        return done.stdout

    def test_commands(self) -> None:
        """Each command and its output."""
        shown = list(package_around.commands_of(TEXT))
        self.assertGreaterEqual(len(shown), 14)
        for words, told, lines in shown:
            done = self.shell(words)
            with self.subTest(words):
                self.assertEqual((done.returncode, done.stdout.splitlines()), (int(*told or ["0"]), lines), done.stderr[:500])

    def test_all_are_run(self) -> None:
        """A command in a sentence is one that is run, here or by the runner that IN_TEXT names."""
        sentences = re.sub(r"^```.*?^```", "", TEXT, flags=re.M | re.S)
        found = re.findall(r"`((?:\./paver|python3 -m paver|make|rt|resume SYSTEM) [^`]+|--of=[^`]+)`", sentences)
        self.assertEqual(set(found) - {"resume SYSTEM PAVING.."}, set(IN_TEXT))
        targets = set(re.findall(r"(?:^|`)make (\w+)", TEXT, re.M))
        done = subprocess.run(["make", "-C", str(TOP), "-n", *sorted(targets)], capture_output=True, text=True, check=False)
        self.assertEqual((targets, done.returncode), ({"demo", "test", "gate", "try", "install", "dist"}, 0), done.stderr[:500])

    def test_kit(self) -> None:
        """The kit that is here is one of those that are named, with that logic."""
        if not shutil.which("rt"):
            self.skipTest("there is no rt here")
        said = subprocess.run(["rt", "version"], capture_output=True, text=True, check=True).stdout
        kits, logic = re.findall(r"`(rattle-kit-\w+)`", TEXT), re.search(r"logic `([0-9a-f]{16})`", TEXT)
        self.assertTrue(any(kit in said.split() for kit in kits) and logic.group(1) in said, said)

    def test_sample(self) -> None:
        digest = re.search(r"`\./paver sample --seed 1 --count 2` ends with `(file [0-9a-f]{64})`", TEXT)
        self.assertEqual(self.ends_well("./paver sample --seed 1 --count 2").splitlines()[-1], digest.group(1))

    def test_view(self) -> None:
        self.ends_well("python3 -m paver view examples/ring.mbx > ring.html")
        self.assertEqual((self.path / "ring.html").read_text()[:15].lower(), "<!doctype html>")

    def test_plot(self) -> None:
        self.ends_well("python3 -m paver plot examples/ring.mbx --picture ring.svg")
        self.assertIn("<svg", (self.path / "ring.svg").read_text()[:100])

    def test_export(self) -> None:
        """A campaign's paving as a stored file, of which `merge` makes the very file of one run."""
        self.ends_well(f"./paver campaign {TORUS} --keep torus.db --boxes 20000; ./paver run {TORUS} --out alone")
        self.ends_well("python3 -m paver export torus.db > FILE")
        summary = self.ends_well("python3 -m paver summary examples/torus.mbx torus.db --eps 0.25").splitlines()[0]
        self.assertEqual(summary, self.ends_well(f"./paver merge {TORUS} alone --out again").strip())
        self.assertEqual(self.ends_well(f"./paver audit {TORUS} FILE"), "honest\n")
        self.ends_well(f"./paver merge {TORUS} FILE --out of_file; cmp of_file alone")

    def test_explain(self) -> None:
        """It names the option that is refused, and writes a text over groups of constraints that the program takes."""
        self.assertIn("`--eps", self.shell("python3 -m paver explain run examples/ring.mbx --eps=-1").stdout)
        said = self.ends_well("python3 -m paver explain examples/localisation.mbx --groups 2 --agree 4")
        text = re.search(r"qinter\(4,[^ '\"`]*\)", said)
        self.assertTrue(text, said)
        self.shell(f"./paver run examples/localisation.mbx --boxes 10 --contract '{text.group()}' > grouped")
        self.assertRegex((self.path / "grouped").read_text(), r"^settled \d+ ")

    def test_sweep(self) -> None:
        """A sweep's join is one run's paving, and the same call again finds it done."""
        for _ in range(2):
            self.ends_well("python3 -m paver sweep examples/ring.mbx --folder F")
        self.ends_well("./paver run examples/ring.mbx --out alone; cmp F/whole.paving alone")

    def test_shares(self) -> None:
        """The join of a paving's shares is one run's paving, to the byte."""
        self.shell(f"./paver run {TORUS} --boxes 2000 --workers 1 --out first; ./paver run {TORUS} --out alone")
        for number in range(3):
            self.ends_well(f"./paver resume {TORUS} first --share {number}/3 --out part{number}")
        self.ends_well(f"./paver merge {TORUS} first part1 part0 part2 --out joined_shares; cmp joined_shares alone")

    def test_least(self) -> None:
        """The greatest value by the least of its opposite, and bounds that are closer by levels."""
        least = next(words for words, _, _ in package_around.commands_of(TEXT) if " least " in words)
        said = self.shell(least.replace("--of kd", "--of='-(kd)'")).stdout  # its budget ends it
        lower, upper = (int(m) * 2.0 ** int(e) for m, e in re.findall(r"^(?:lower|upper) (-?\d+):(-?\d+)$", said, re.M))
        self.assertTrue(lower <= upper < -1.9957, said)
        said = self.ends_well("python3 -m paver least examples/least_derivative_gain.mbx --of kd --levels --within 0.001")
        low, high = (float(text) for text in re.findall(r"^(?:lower|upper) +([0-9.]+)", said, re.M))
        self.assertTrue(1.9957 <= low <= high <= low + 0.001 and high <= 2.0198, said)

    def test_head(self) -> None:
        """A reader that leaves early: 6, or 0 where the pipe had taken all."""
        piped = re.search(r"`(\./paver run examples/ring\.mbx \| head -n 1)`", TEXT)
        assert piped is not None
        for _ in range(10):
            done = self.shell(piped.group(1) + "\necho ${PIPESTATUS[0]}")
            with self.subTest("head"):
                self.assertIn(done.stdout.splitlines()[-1], ("0", "6"))
        done = self.shell("./paver run examples/torus.mbx --boxes 100000 | head -n 1 > first_line; echo ${PIPESTATUS[0]}")
        with self.subTest("head, of more than a pipe takes"):
            self.assertEqual(done.stdout, "6\n")

    def test_examples_and_sizes(self) -> None:
        """The system that USING shows is the example's, and the table's counts and files are those of the runs."""
        shown = SYSTEM.search(USING)
        assert shown is not None
        text = (TOP / "examples" / "ring.mbx").read_text()
        bare = "".join(line for line in text.splitlines(True) if not line.startswith("//"))
        with self.subTest("ring.mbx"):
            self.assertEqual(bare, shown.group(1), shown.group(1))
        rows, name = ROW.findall(TEXT), ""
        with self.subTest("rows of the table of sizes"):
            self.assertGreaterEqual(len(rows), 6)
        for of, eps, settled, megabytes in rows:
            name = of or name
            done = self.call("run", f"examples/{name}.mbx", "--eps", eps, "--limit", "2000000", "--boxes", "2000000", "--out",
                             "sized")
            given = done.stdout.decode().split()[1:2], f"{(self.path / 'sized').stat().st_size / 1e6:.2f}"
            wanted = [settled.replace(",", "")], megabytes
            with self.subTest(f"{name} with eps {eps}"):
                self.assertEqual(given, wanted)

    def test_links(self) -> None:
        """The links of the documents beside README; those of README and of docs/ are met by package_around.py."""
        for document in (TOP / "CONTRIBUTING.md", TOP / "CHANGELOG.md"):
            for link in re.findall(r"\]\((?!https?:)([^)]+)\)", document.read_text()):
                name, _, heading = link.partition("#")
                target = TOP / name
                good = target.exists() and (not heading or heading in package_around.anchors_of(target.read_text()))
                with self.subTest(f"{document.name}: {link}"):
                    self.assertTrue(good)

    def test_form(self) -> None:
        """It is short, and what it says in passing of the program's arithmetic is so."""
        with self.subTest("lines"):
            self.assertLess(README.count("\n"), MOST_LINES)
        for wrong in ("so many", "way down", "behind"):
            with self.subTest(f"the words `{wrong}`"):
                self.assertNotIn(wrong, TEXT)
        mantissa, power = re.search(r"`(-\d+):(-\d+)` is about (-0\.866)", TEXT).group(1, 2)
        with self.subTest("the number that is read"):
            self.assertLess(abs(int(mantissa) * 2.0 ** int(power) + 0.866), 0.0005)
        lower, upper = (int(m) * 2.0 ** int(e) for m, e in re.findall(r"^(?:lower|upper) (\d+):(-\d+)$", TEXT, re.M))
        with self.subTest("the lower bound"):
            self.assertTrue("has a `kd` below 1.9957" in TEXT and 1.9957 <= lower < 1.9958, lower)
        with self.subTest("the upper bound"):
            self.assertTrue("one of at most 2.0198" in TEXT and 2.0197 < upper <= 2.0198, upper)


if __name__ == "__main__":
    main()
