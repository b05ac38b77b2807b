"""Holds docs/FORMATS.md to the program's files: its reader is taken out of the page and run, and each block that it shows is compared.

    python3 -m tests.runners.formats [-k WORD]

What is due comes of the reference's own files, canonical texts and settler, of SHA-256, and of the counts that the program prints.
"""
from __future__ import annotations

import hashlib
import re
import sqlite3
from collections import Counter
from fractions import Fraction
from typing import Any, Iterator

from tests.data.reader_cases import canonical
from tests.reference import files, minibex
from tests.reference.commands import Call
from tests.reference.kinds import Box, Tree
from tests.reference.numbers import as_fraction, is_finite
from tests.reference.paver import halves
from tests.runners.running import TOP, FolderTest, main

PAGE = (TOP / "docs" / "FORMATS.md").read_text()
BYTES = re.compile(r"^\| (\d+) \| (\d+) \| `([^`]+)` \|", re.M)
LONGEST_READER = 40  # lines, without imports and blank ones
SQUARE = b"Variables\n x in [0,2], y in [0,2];\nConstraints\n x <= 1;\nend\n"
# A system, its options, and the settings that they stand for.
RUNS: list[tuple[str, list[str], dict[str, Any]]] = [
    ("ring.mbx", ["--eps", "0.25"], {"eps": Fraction(1, 4)}),
    ("torus.mbx", ["--eps", "0.5", "--boxes", "300", "--form", "centered"], {"eps": Fraction(1, 2), "centered": True}),
    ("planar_arm.mbx", ["--eps", "0.5", "--boxes", "200", "--bisect", "round"], {"eps": Fraction(1, 2), "bisector": "round"}),
    ("unbounded.mbx", ["--eps", "1", "--boxes", "150", "--depth", "20", "--contract", "hc4(0)"],
     {"eps": Fraction(1), "depth": 20, "contract": "hc4(0)"}),
]


def block(kind: str) -> str:
    """The text of the page's one block of a kind."""
    found = re.findall(rf"^```{kind}\n(.*?)^```$", PAGE, re.M | re.S)
    assert len(found) == 1, (kind, len(found))
    return str(found[0])


def end(value: Any) -> Any:
    """A number of the reference as the page's reader gives it."""
    return as_fraction(value) if is_finite(value) else value


def nodes_of(tree: Tree, root: Box) -> Iterator[tuple[str, str, list[Any], Any]]:
    """The nodes of a tree of the reference in preorder, as the page's reader gives them."""
    waiting: list[tuple[str, Tree, Box]] = [("", tree, root)]
    while waiting:
        path, node, box = waiting.pop()
        kept = box if node[0] in "OX" else node[1]
        yield path, node[0], [end(value) for place in kept for value in place], (node[2], end(node[3])) if node[0] == "C" else None
        if node[0] == "C":
            low, high = halves(*node[1:4])
            waiting += [(path + "1", node[5], high), (path + "0", node[4], low)]


def settings_text(call: Call, settings: dict[str, Any]) -> str:
    """The page's settings with other words in their places."""
    given = {"eps": f"{settings['eps'].numerator}:{-(settings['eps'].denominator.bit_length() - 1)}",
             "depth": str(settings.get("depth", call.settler.depth)), "bisect": settings.get("bisector", "largest"),
             "contract": settings.get("contract", "prop(8)")}
    lines = [f"{line.split()[0]} {given[line.split()[0]]}" for line in block("settings").splitlines()]
    return "".join(f"{line}\n" for line in [*lines, *["centered"] * settings.get("centered", False)])


class Formats(FolderTest):
    """The page against the program."""

    def setUp(self) -> None:
        super().setUp()
        self.reader: dict[str, Any] = {}
        exec(compile(block("python"), "docs/FORMATS.md", "exec"), self.reader)  # pylint: disable=exec-used
        self.put("half.mbx", block("minibex").encode())
        self.call_of_half = Call(minibex.read(block("minibex")), canonical(block("minibex")), eps=Fraction(1, 4))
        self.tree = files.read(self.stored_half(), self.call_of_half.settler.root, self.call_of_half.identity)

    def stored_half(self) -> bytes:
        """The page's table of one file, as bytes, once its places and lengths are right."""
        rows = [(int(at), int(count), text) for at, count, text in BYTES.findall(PAGE)]
        self.assertGreaterEqual(len(rows), 7)
        at = 0
        for place, count, text in rows:
            self.assertEqual((place, count), (at, len(text) + 1), text)
            at += count
        self.assertIn(f"the whole file of the example, {at} bytes:", PAGE)
        return "".join(text + "\n" for _, _, text in rows).encode()

    def answer(self, *words: str, statuses: tuple[int, ...] = (0,)) -> str:
        done = self.call(*words)
        self.assertIn(done.returncode, statuses, done.stderr)
        return done.stdout.decode()

    def test_short(self) -> None:
        """The reader is about thirty lines of plain Python."""
        lines = [line for line in block("python").splitlines() if line and not line.startswith(("import", "from"))]
        self.assertLess(len(lines), LONGEST_READER)

    def test_example(self) -> None:
        """The file that is explained byte by byte is the program's and the reference's; so is what is printed of it."""
        self.assertEqual(self.answer("run", "half.mbx", "--eps", "0.25"), block("printed"))
        said = self.answer("run", "half.mbx", "--eps", "0.25", "--out", "half.paving")
        self.assertEqual(said, block("printed").splitlines(keepends=True)[0])
        self.assertEqual(self.get("half.paving"), self.stored_half())
        self.assertEqual(self.call_of_half.write(self.tree), self.stored_half())
        self.assertEqual(self.call_of_half.run(100, None)[1].decode(), block("printed"))

    def test_identity(self) -> None:
        """The blocks are what is hashed, and so many bytes."""
        self.assertEqual(self.answer("check", "half.mbx"), block("check"))
        self.assertEqual(canonical(block("minibex")).decode(), block("check"))
        hashed = (block("check") + block("settings")).encode()
        self.assertEqual(hashlib.sha256(hashed).hexdigest() + "\n", block("identity"))
        self.assertIn(f"{len(hashed)} bytes are hashed", PAGE)
        self.assertEqual(self.call_of_half.identity + "\n", block("identity"))

    def test_reader(self) -> None:
        """Files of the program in both versions: each node, and the counts that the program prints."""
        for name, words, settings in RUNS:
            text = (TOP / "examples" / name).read_text()
            self.put(name, text.encode())
            call = Call(minibex.read(text), canonical(text), **settings)
            said = self.answer("run", name, *words, "--out", "stored", statuses=(0, 1))
            check, options = self.answer("check", name), settings_text(call, settings)
            tree = call.read("stored", self.get("stored"))
            due = list(nodes_of(tree, call.settler.root))
            for version in (2, 1):
                data = call.write(tree, version)
                with self.subTest(name, version=version):
                    self.assertEqual(self.reader["read_paving"](data, check, options), due)
                    self.assertTrue(version == 1 or data == self.get("stored"))
            with self.subTest(name, what="the counts"):
                found = Counter(node[1] for node in self.reader["read_paving"](self.get("stored"), check, options))
                counts = [found[letter] for letter in "CXISO"]
                self.assertEqual([int(word) for word in said.split()[1::2]], [sum(counts[:4]), *counts])
                self.assertGreater(found["C"], 50)

    def test_version_1(self) -> None:
        """Version 1 has the printed node lines, and the program takes it."""
        lines = block("printed").splitlines(keepends=True)[1:]
        data = "".join(["paving 1\n", f"identity {block('identity')}", *lines]).encode()
        self.assertEqual(self.call_of_half.write(self.tree, 1), data)
        self.put("first", data)
        self.assertEqual(self.answer("audit", "half.mbx", "first", "--eps", "0.25"), "honest\n")

    def test_refusals(self) -> None:
        """The reader refuses what the program refuses: another identity, a cut text, and what follows the tree."""
        good = self.stored_half()
        for wrong in (good.replace(b"identity b", b"identity c"), good[:-1], good[:-6], good + b"X\n", b""):
            self.put("wrong", wrong)
            with self.subTest(wrong[-20:]):
                self.assertEqual(self.call("audit", "half.mbx", "wrong", "--eps", "0.25").returncode, 4)
                with self.assertRaises((ValueError, IndexError)):
                    self.reader["read_paving"](wrong, block("check"), block("settings"))

    def test_database(self) -> None:
        """The two tables as the database lists them, and their rows."""
        self.answer("campaign", "half.mbx", "--eps", "0.25", "--keep", "half.db", "--boxes", "100")
        connection = sqlite3.connect(self.path / "half.db")
        self.addCleanup(connection.close)
        listed = connection.execute("SELECT sql FROM sqlite_master WHERE type = 'table' ORDER BY name").fetchall()
        self.assertEqual("".join(f"{text}\n" for text, in listed), block("sql"))
        self.assertEqual(connection.execute("SELECT type FROM sqlite_master WHERE type != 'table'").fetchall(), [("index",)])
        self.assertEqual(connection.execute("SELECT * FROM head").fetchall(), [(1, bytes.fromhex(block("identity")))])
        rows = connection.execute("SELECT path, line FROM node ORDER BY path").fetchall()
        self.assertEqual("".join(f"{path}|{line}\n" for path, line in rows), block("rows"))
        lines = files.lines(self.tree, self.call_of_half.settler.root, 1)
        self.assertEqual(rows, list(zip(files.settled_paths(self.tree), lines)))

    def test_picture(self) -> None:
        """The picture that is shown is the program's, and its green half is the half that the constraint leaves."""
        self.put("square.mbx", SQUARE)
        self.answer("run", "square.mbx", "--out", "square")
        self.assertEqual(self.answer("svg", "square.mbx", "square", "--x", "x", "--y", "y"), block("svg"))
        self.assertIn('width="500" height="1000" fill="#43a047"', block("svg"))


if __name__ == "__main__":
    main()
