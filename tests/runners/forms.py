"""Takes pavings by centered forms through each command that has `--form`, and sees that the other form's are refused.

    [ONLY=EXAMPLE] python3 -m tests.runners.forms
"""
from __future__ import annotations

from collections.abc import Sequence

import paver
from tests.data.examples import CENTERED, EXAMPLES
from tests.runners.running import TOP, FolderTest, main, rows

FORM = ["--form", "centered"]
IDENTITY = b"wrong identity\n"


def settings(words: Sequence[str]) -> list[str]:
    return [word for k in range(0, len(words), 2) if words[k] != "--boxes" for word in words[k:k + 2]]


def axes_of(name: str) -> list[str]:
    """The first two variables as axes, and 0 for each of the others."""
    names = paver.check(TOP / "examples" / f"{name}.mbx").names
    return ["--x", names[0], "--y", names[1], *(["--at=" + ",".join("0" for _ in names[2:])] if names[2:] else [])]


class Forms(FolderTest):
    """Commands on a whole paving by centered forms, on one that its budget cut short, and on one of the other form."""

    def test_examples(self) -> None:
        words = dict(EXAMPLES)
        for name in rows(CENTERED):
            with self.subTest(name):
                for path in self.path.iterdir():
                    path.unlink()
                self.check_example(name, settings(words[name]))

    def check_example(self, name: str, words: list[str]) -> None:
        self.words, axes = words, axes_of(name)
        system = str(TOP / "examples" / f"{name}.mbx")
        self.whole = self.call("run-centered", system, *words, "--out", "whole")
        self.assertEqual(self.whole.returncode, 0, self.whole.stderr)
        self.call("run", system, *words, *FORM, "--boxes", "100", "--out", "part")
        self.call("run", system, *words, "--boxes", "100", "--out", "plain")
        for command in (["run", system], ["resume", system, "part"], ["merge", system, "part", "whole"]):
            self.stores_whole([*command, *FORM])
        for audit in (["audit", *FORM], ["audit-centered"]):
            self.wants([audit[0], system, "part", *audit[1:]], 0, b"honest\n")
        self.wants(["campaign", system, "--keep", "k", *FORM], 0, self.whole.stdout)
        self.wants(["svg", system, "whole", *axes, *FORM], 0, None)
        for command in (["resume"], ["merge"], ["audit"], ["svg", *axes]):
            self.wants([command[0], system, "part", *command[1:]], 4, b"", b"paving part: " + IDENTITY)
            self.wants([command[0], system, "plain", *command[1:], *FORM], 4, b"", b"paving plain: " + IDENTITY)
        self.wants(["campaign", system, "--keep", "k"], 4, b"", b"paving k: " + IDENTITY)

    def wants(self, words: list[str], status: int, out: bytes | None, err: bytes = b"") -> None:
        """A call has this status, output and line."""
        done = self.call(*words, *self.words)
        self.assertEqual((done.returncode, done.stderr), (status, err), words)
        if out is not None:
            self.assertEqual(done.stdout, out, words)

    def stores_whole(self, words: list[str]) -> None:
        self.wants([*words, "--out", "again"], 0, self.whole.stdout)
        self.assertTrue(self.get("again") == self.get("whole"), f"{words}: another file")


if __name__ == "__main__":
    main()
