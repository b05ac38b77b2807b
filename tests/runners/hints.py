"""What follows a refusal's line on standard error where hints are wanted: on a terminal, or with PAVER_HINTS=1.

    python3 -m tests.runners.hints [-k WORD]
"""
from __future__ import annotations

import os
import pty
import select
import subprocess
import time
from typing import Sequence

from tests.runners.running import FolderTest, main

SYSTEM = b"Variables\n x in [-3, 3],\n y in [-3, 3];\nConstraints\n x^2 + y^2 <= 2;\n x + y >= 0;\nend\n"
USAGE = "usage: paver COMMAND SYSTEM [OPTIONS] [PAVING..]"
SECONDS = 60

# Words, the status, the line, and parts of the hint.
WORDS: list[tuple[list[str], int, str, list[str]]] = [
    (["run", "s", "--boxes", "1000000"], 2, USAGE, ["--boxes 1000000", "from 1 to 100000", "--limit"]),
    (["run", "s", "--boxes", "1000000", "--limit", "200000"], 2, USAGE, ["--boxes 1000000", "from 1 to 200000"]),
    (["run", "s", "--eps", "-1"], 2, USAGE, ["'-1'", "--NAME=-1"]),
    (["run", "s", "--eps=-1"], 2, USAGE, ["--eps -1", "0.125"]),
    (["run", "s", "--depth", "201"], 2, USAGE, ["--depth 201", "from 1 to 200"]),
    (["run", "s", "--bisect", "both"], 2, USAGE, ["--bisect both", "largest or round"]),
    (["run", "s", "--form", "centred"], 2, USAGE, ["--form centred", "plain or centered"]),
    (["run", "s", "--workers", "17"], 2, USAGE, ["--workers 17", "from 1 to 16"]),
    (["run", "s", "--order", "breadth"], 2, USAGE, ["--order breadth", "depth or level"]),
    (["run", "s", "--limit", "5"], 2, USAGE, ["--limit 5", "from 100000 to 100000000"]),
    (["run", "s", "--epsilon", "1"], 2, USAGE, ["--epsilon"]),
    (["run", "s", "--out", "s"], 2, USAGE, ["--out s", "another name"]),
    (["resume", "s", "p", "--share", "4/4"], 2, USAGE, ["--share 4/4", "K/N"]),
    (["resume", "s", "p", "--share", "0/4", "--order", "level"], 2, USAGE, ["--share", "--order level"]),
    (["merge", "s", *["p"] * 9], 2, USAGE, ["no more were expected"]),
    (["svg", "s", "p", "--x", "x"], 2, USAGE, ["--y"]),
    (["svg", "s", "p", "--x", "x", "--y", "z"], 2, USAGE, ["no variable z", "x y"]),
    (["svg", "s", "p", "--x", "x", "--y", "x"], 2, USAGE, ["--x and --y"]),
    (["svg", "s", "p", "--x", "x", "--y", "y", "--at", "1"], 2, USAGE, ["--at", "0"]),
    (["svg", "s", "p", "--x", "x", "--y", "y", "--at", "a"], 2, USAGE, ["--at a", "commas"]),
    (["campaign", "s"], 2, USAGE, ["--keep"]),
    (["campaign", "s", "--keep", "k", "--rounds", "0"], 2, USAGE, ["--rounds 0", "from 1 to 100"]),
    (["sample", "--seed", "1", "--count", "17"], 2, USAGE, ["--count 17", "from 1 to 16"]),
    (["paint", "s"], 2, USAGE, ["paint"]),
    (["run", "s", "--contract", "hc4(2)"], 2, "contract: refused at byte 4", ["--contract", "\n    hc4(2)\n        ^\n"]),
    (["least", "s", "--of", "x + z"], 2, "objective: byte 4: UnknownName", ["--of", "\n    x + z\n        ^\n"]),
    (["run", "none"], 11, "no file: none", ["folder"]),
    (["merge", "s", "none"], 11, "no file: none", ["folder"]),
    (["merge", "s", "bad"], 4, "paving bad: bad line 3", ["--out"]),
    (["resume", "s", "p", "--boxes", "100000"], 8, "tree limit: 3 settled", ["--limit", "--boxes"]),
    (["run", "s", "--out", "none/p"], 6, "write fault: none/p", ["folder"]),
]

# Texts of a system, the line, the parts of the hint, and where its caret stands.
TEXTS: list[tuple[bytes, str, list[str], str]] = [
    (b"Variables x in [0,1];\nConstraints sin(x) <= 1;\nend\n", "system: line 2 column 13 byte 34: NotInProfile",
     ["c^2 + s^2 = 1"], "    Constraints sin(x) <= 1;\n                ^\n"),
    (b"Variables x in [0,1];\nConstraints x <= z;\nend\n", "system: line 2 column 18 byte 39: UnknownName",
     ["not declared"], "    Constraints x <= z;\n                     ^\n"),
    (b"Variables x in [2,1];\nConstraints x <= 1;\nend\n", "system: line 1 column 16 byte 15: BadBounds",
     ["domain"], "    Variables x in [2,1];\n                   ^\n"),
    (b"Variables x in [0,1];\nConstraints\tx <= 1 1;\nend\n", "system: line 2 column 20 byte 41: Unexpected",
     ["can't stand here"], "    Constraints\tx <= 1 1;\n               \t       ^\n"),
    (b"Variables x in [0,1];\nConstraints x <= 1;\n", "system: line 3 column 1 byte 42: EndOfText",
     ["ends too early"], "    \n    ^\n"),
]


def on_terminal(program: str, folder: str, words: Sequence[str], environment: dict[str, str]) -> tuple[int, str]:
    """The status of a call and what it writes to a terminal on its standard error."""
    upper, lower = pty.openpty()
    with subprocess.Popen([program, *words], cwd=folder, env=environment, stdin=subprocess.DEVNULL, stdout=subprocess.DEVNULL,
                          stderr=lower) as child:
        os.close(lower)
        written, until = b"", time.monotonic() + SECONDS
        while time.monotonic() < until and select.select([upper], [], [], until - time.monotonic())[0]:
            try:
                piece = os.read(upper, 4096)
            except OSError:  # the other end is closed
                break
            if not piece:
                break
            written += piece
        os.close(upper)
    return child.returncode, written.decode().replace("\r\n", "\n")


class Hints(FolderTest):
    """Calls that are refused, with hints and without."""

    def setUp(self) -> None:
        super().setUp()
        self.put("s", SYSTEM)
        self.put("bad", b"paving 2\n")
        self.assertEqual(self.call("run", "s", "--boxes", "3", "--out", "p").returncode, 1)
        bad = (self.path / "p").read_bytes().split(b"\n")
        self.put("bad", b"\n".join([*bad[:2], b"nonsense", *bad[3:]]))

    def told(self, words: Sequence[str], **environment: str) -> tuple[int, str, str]:
        """The status, the output and what stands on standard error, with words of the environment."""
        done = self.call(*words, env={**os.environ, **environment})
        return done.returncode, done.stdout.decode(), done.stderr.decode()

    def hint(self, words: Sequence[str], status: int, line: str) -> str:
        """The hint of a call that ends with this status and line. Without hints it answers the same but for the hint."""
        plain, (code, out, err) = self.told(words), self.told(words, PAVER_HINTS="1")
        self.assertEqual(plain, (status, out, f"{line}\n" if line else ""), words)
        self.assertEqual(self.told(words, PAVER_HINTS="0"), plain, words)
        front = f"{line}\nhint: " if line else "hint: "
        self.assertTrue(code == status and err.startswith(front), f"{words}: {code} {err!r}")
        return err[len(front):]

    def test_words(self) -> None:
        for words, status, line, parts in WORDS:
            hint = self.hint(words, status, line)
            for part in parts:
                with self.subTest(words=words, part=part):
                    self.assertIn(part, hint)
            self.assertTrue(hint.endswith("\n"), hint)

    def test_systems(self) -> None:
        for text, line, parts, caret in TEXTS:
            self.put("t", text)
            hint = self.hint(["check", "t"], 3, line)
            for part in parts:
                with self.subTest(text=text, part=part):
                    self.assertIn(part, hint)
            self.assertTrue(hint.endswith(caret), f"{text!r}: {hint!r}")

    def test_other_settings(self) -> None:
        for given in (["--eps", "0.5"], ["--bisect", "round"], ["--form", "centered"], ["--depth", "40"],
                      ["--contract", "prop(2)"]):
            self.assertEqual(self.call("run", "s", *given, "--out", "q").returncode, 0)
            hint = self.hint(["merge", "s", "p", "q"], 4, "paving q: wrong identity")
            with self.subTest(given=given):
                self.assertIn(f"q was stored with {' '.join(given)}", hint)
        self.put("t", SYSTEM.replace(b">= 0", b">= 1"))
        self.assertIn("another system", self.hint(["merge", "t", "p"], 4, "paving p: wrong identity"))

    def test_budget(self) -> None:
        self.assertIn("resume", self.hint(["run", "s", "--boxes", "3", "--out", "o"], 1, ""))
        self.assertIn("--boxes", self.hint(["run", "s", "--boxes", "3"], 1, ""))
        self.assertIn("--boxes", self.hint(["least", "s", "--of", "x", "--boxes", "1"], 1, ""))
        self.assertEqual(self.told(["run", "s"], PAVER_HINTS="1")[2], "")

    def test_terminal(self) -> None:
        refused = ["run", "s", "--boxes", "0"]
        environment = {name: value for name, value in os.environ.items() if name != "PAVER_HINTS"}
        status, told = on_terminal(self.program, str(self.path), refused, environment)
        self.assertEqual(status, 2)
        self.assertTrue(told.startswith(f"{USAGE}\nhint: --boxes 0: "), told)
        status, told = on_terminal(self.program, str(self.path), refused, {**environment, "PAVER_HINTS": "0"})
        self.assertEqual((status, told), (2, f"{USAGE}\n"))
        self.assertEqual(self.told(refused)[2], f"{USAGE}\n")

    def test_signs(self) -> None:
        """No byte of a text or a name steers the terminal."""
        self.put("t", b"Variables x in [0,1];\nConstraints \x1b[2J x <= 1;\nend\n")
        hint = self.hint(["check", "t"], 3, "system: line 2 column 13 byte 34: BadByte")
        self.assertIn("    Constraints ?[2J x <= 1;\n                ^\n", hint)
        self.assertNotIn("\x1b", self.told(["run", "s", "--eps", "\x1b[2J"], PAVER_HINTS="1")[2])


if __name__ == "__main__":
    main()
