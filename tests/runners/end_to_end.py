"""Runs the real binary on real files, each case in a fresh folder, and compares what it prints on standard
output and standard error, its status, and the files that are there afterwards.

    [ONLY=CASE] python3 -m tests.runners.end_to_end
"""
from __future__ import annotations

import hashlib
import tempfile
import unittest

from tests.data.cases import CASES, Case
from tests.data.examples import CENTERED, EXAMPLES
from tests.data.reader_cases import canonical
from tests.runners.running import TOP, FolderTest, main, rows, run
from tests.runners.soundness import faults_of_paving


def expected_summaries(file: str) -> dict[str, tuple[str, str]]:
    lines = (TOP / "tests" / "data" / file).read_text().splitlines()
    return {name: (digest, summary) for name, digest, summary in (line.split(" ", 2) for line in lines)}


class Cases(FolderTest):
    """The cases by hand, each in a folder of its own."""

    def test_cases(self) -> None:
        for _, case in rows((case.name, case) for case in CASES):
            with self.subTest(case.name), tempfile.TemporaryDirectory() as made:
                self.elsewhere(made).check_case(case)

    def check_case(self, case: Case) -> None:
        """The answer to a case, and that no file changes."""
        for file, data in case.files.items():
            self.put(file, data)
        for made in case.folders:
            (self.path / made).mkdir()
        before = self.files()
        if case.full_disk:
            with open("/dev/full", "wb") as full:
                answer = self.call(*case.words, stdout=full)
        else:
            answer = self.call(*case.words)
            self.assertTrue(case.accepts(answer.stdout), f"standard output: {answer.stdout[:300]!r}")
        self.assertEqual((answer.returncode, answer.stderr), (case.status, case.stderr))
        self.assertEqual(self.files(), before)


class Examples(unittest.TestCase):
    """The examples, beside what the slow reference printed and read."""

    def check_example(self, command: str, name: str, words: list[str], digest: str, summary: str) -> None:
        """The printed text is the reference's, and sound at sampled points."""
        system = TOP / "examples" / f"{name}.mbx"
        answer = run(TOP, command, system, *words)
        self.assertIn(answer.returncode, (0, 1), answer.stderr)
        printed = answer.stdout.decode()
        self.assertEqual(printed.split("\n")[0], summary)
        self.assertEqual(hashlib.sha256(answer.stdout).hexdigest(), digest, "the node lines differ from the reference's")
        self.assertEqual(faults_of_paving(system.read_text(), words, printed), [])

    def test_examples(self) -> None:
        expected = expected_summaries("summaries.txt")
        for name, words in rows(EXAMPLES):
            with self.subTest(name):
                self.check_example("run", name, words, *expected[name])

    def test_examples_by_centered_forms(self) -> None:
        expected = expected_summaries("centered_summaries.txt")
        for name, words in rows(EXAMPLES):
            if name in CENTERED:
                with self.subTest(name):
                    self.check_example("run-centered", name, words, *expected[name])

    def test_canonical_texts(self) -> None:
        """The canonical text of each example is that of the reference reader."""
        for name, _ in rows(EXAMPLES):
            with self.subTest(name):
                system = TOP / "examples" / f"{name}.mbx"
                answer = run(TOP, "check", system)
                self.assertEqual((answer.returncode, answer.stdout), (0, canonical(system.read_text())), answer.stderr)


if __name__ == "__main__":
    main()
