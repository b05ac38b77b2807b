"""Runs `campaign` over hostile databases: made by stock sqlite3 with other tables, types, orders, lines and identities, and
then cut short, changed in random bytes, or given another's log or journal.

    [COUNT=300 SEED=1] python3 -m tests.runners.fuzz_databases

Each answer is compared with what a model says of the rows: a good campaign goes on, another identity and a bad row are named,
and what is no campaign is a fault of the keeper. Where bytes were changed the model allows each of these, but no other status,
no other rows than those of the full tree with status 0 and 1, and no change with another status.
"""
from __future__ import annotations

import random
import sqlite3
from collections.abc import Iterable, Sequence
from fractions import Fraction
from typing import Any

from tests.data.cases import RECIPROCAL, system
from tests.reference import files
from tests.runners.campaigns import FOREIGN, QUARTER, TABLES, FAULT as LINE, Row, identity_of, rows_of, stock
from tests.runners.paving_files import call
from tests.runners.running import Answered, FolderTest, made_cases, main

TWO = system("x in [0,1], y in [-1,2]", "x*y <= 0.5; x + y >= 0")
FAULT = (10, b"", LINE)
LINES = ["X", "O", "", "C", "X ", "I 0:0 1:0", "S 0:0 1:-2", "C 0 1:-1 0:0 1:0", "C 1 1:-1 0:0 1:0", "I 1:0 0:0", "é",
         "X" * 660, "X" * 661]
LOOSE = TABLES.replace(") STRICT", ")")
OTHERS = [TABLES.replace("TEXT PRIMARY KEY", "BLOB PRIMARY KEY"), TABLES.replace("path TEXT PRIMARY KEY NOT NULL", "path TEXT"),
          TABLES.replace("line TEXT", "line BLOB"), TABLES.replace("identity BLOB", "identity TEXT"),
          TABLES.replace("path", "place"), TABLES.replace("head", "top"), TABLES.replace("node", "leaf"),
          TABLES.replace("NOT NULL,", "NOT NULL ,"), TABLES.replace(" CHECK (id = 1)", ""), LOOSE,
          "CREATE TABLE head (a); CREATE TABLE node (b);",
          "CREATE VIEW head AS SELECT 1 AS id, zeroblob(32) AS identity; CREATE TABLE node (path TEXT, line TEXT);",
          *FOREIGN.values()]


class Model:
    """A system, its full tree, and what a campaign over rows has to answer."""

    def __init__(self, text: bytes, options: Sequence[str], **settings: Any) -> None:
        self.text, self.options = text, options
        self.call = call(text, **settings)
        self.identity = bytes.fromhex(self.call.identity)
        self.full = rows_of(files.go_on(self.call.settler, ("O",), 5000))

    def first_bad(self, rows: Iterable[Row]) -> int | None:
        """The number of the first row whose path is no open leaf or whose line is not right for its box; None for none."""
        boxes = {"": self.call.settler.root}
        for number, (path, line) in enumerate(sorted(rows)):
            if path not in boxes:
                return number
            found = None if line == "O" else files.outcome_of(line, boxes[path], 1)
            if found is None or (found[0] == "C" and len(path) == files.MOST_STEPS):
                return number
            boxes = {other: box for other, box in boxes.items() if other > path and other != path}
            if found[0] == "C":
                low, high = files.halves(*found[1:])
                boxes |= {path + "0": low, path + "1": high}
        return None

    def answer(self, identity: bytes, rows: Sequence[Row]) -> tuple[int, bytes] | None:
        """A status and a line, or None where the campaign goes on."""
        if len(identity) != 32:
            return FAULT[0], FAULT[2]
        if identity != self.identity:
            return 4, b"paving k: wrong identity\n"
        if any(len(path) > 200 or set(path) - set("01") or len(line.encode()) > 660 for path, line in rows):
            return FAULT[0], FAULT[2]
        bad = self.first_bad(rows)
        return None if bad is None else (4, f"paving k: bad row {bad}\n".encode())


def stage(source: random.Random, full: Iterable[Row]) -> list[Row]:
    """The rows of some stage of the full tree."""
    chance = source.choice([0.3, 0.7, 0.9, 1])
    kept: set[Row] = set()
    for path, line in full:
        if (not path or path[:-1] in {cut for cut, said in kept if said[0] == "C"}) and source.random() < chance:
            kept.add((path, line))
    return sorted(kept)


def altered(source: random.Random, rows: Iterable[Row]) -> list[Row]:
    """The rows with a random change."""
    rows, kind = list(rows), source.randrange(7)
    at = source.randrange(len(rows)) if rows else 0
    if kind == 0 and rows:
        rows[at] = rows[at][0], source.choice(LINES)
    elif kind == 1 and rows:
        del rows[at]
    elif kind == 2:
        path = "".join(source.choice("01") for _ in range(source.choice([0, 1, 2, 3, 8, 200, 201])))
        rows = [row for row in rows if row[0] != path] + [(path, source.choice(LINES))]
    elif kind == 3:
        path = source.choice(["2", "0 ", "x", ".", "٠", "-", "0\0", "\n"])
        if path not in dict(rows):
            rows.append((path, "X"))
    elif kind == 4 and len(rows) > 1:
        other = source.randrange(len(rows))
        rows[at], rows[other] = (rows[at][0], rows[other][1]), (rows[other][0], rows[at][1])
    elif kind == 5 and rows:
        words = rows[at][1].split(" ")
        words[source.randrange(len(words))] = source.choice(["0:0", "1:0", "1:-1", "+oo", "-oo", "2:0", "=", "C", "I"])
        rows[at] = rows[at][0], " ".join(words)
    return rows


class FuzzDatabases(FolderTest):
    """Campaigns over a database that is made anew at each turn."""

    def setUp(self) -> None:
        super().setUp()
        self.turns, seed = made_cases(300)
        self.source = random.Random(seed)
        self.models = [Model(RECIPROCAL, QUARTER, eps=Fraction(1, 4)), Model(TWO, ["--eps", "0.5"], eps=Fraction(1, 2))]

    def write(self, rows: Sequence[Row], identity: bytes, tables: str) -> None:
        """A database by stock sqlite3 in a random form."""
        connection = sqlite3.connect(self.path / "k", isolation_level=None)
        size, mode = self.source.choice([512, 1024, 4096, 4096, 32768]), self.source.choice(["DELETE", "WAL", "PERSIST"])
        connection.executescript(f"PRAGMA page_size = {size}; PRAGMA journal_mode = {mode};{tables}")
        connection.execute("INSERT INTO head VALUES (1, ?)", [identity])
        connection.execute("BEGIN")
        connection.executemany("INSERT INTO node VALUES (?, ?)", self.source.sample(rows, len(rows)))
        connection.execute("COMMIT")
        connection.close()

    def answer_of(self, model: Model, boxes: int = 100) -> Answered:
        self.put("s", model.text)
        return self.answered("campaign", "s", "--keep", "k", "--boxes", str(boxes), *model.options)

    def goes_on(self, model: Model, got: Answered, before: Iterable[Row], title: str) -> None:
        """A campaign that was gone on with to its end keeps the full tree where its rows were the tree's."""
        if got[0] == 0 and set(before) <= set(model.full):
            self.assertEqual(stock(self.path, "k"), (True, model.identity, model.full), title)

    def rows(self) -> None:
        """Good tables with rows of any kind."""
        model = self.source.choice(self.models)
        rows = stage(self.source, model.full)
        for _ in range(self.source.choice([0, 0, 1, 1, 2])):
            rows = altered(self.source, rows)
        identity = self.source.choice([model.identity] * 6 + [bytes(32), bytes(31), identity_of(eps=Fraction(1, 8))])
        tables = self.source.choice([TABLES, TABLES, TABLES, LOOSE])
        self.write(rows, identity, tables)
        wanted = (FAULT[0], FAULT[2]) if tables == LOOSE else model.answer(identity, rows)
        got = self.answer_of(model)
        title = f"{len(rows)} rows"
        if wanted is None:
            self.assertEqual((got[0] in (0, 1), got[2]), (True, b""), title)
            self.goes_on(model, got, rows, title)
        else:
            self.assertEqual(got, (wanted[0], b"", wanted[1]), title)
            self.assertEqual(stock(self.path, "k"), (True, identity, sorted(rows)), title)

    def tables(self) -> None:
        """Anything but a campaign's tables is a fault, and stays as it is, to the byte."""
        model, tables = self.source.choice(self.models), self.source.choice(OTHERS)
        connection = sqlite3.connect(self.path / "k", isolation_level=None)
        connection.executescript(f"PRAGMA journal_mode = {self.source.choice(['DELETE', 'WAL'])};{tables}")
        connection.close()
        self.put("s", model.text)
        before = self.files()
        self.assertEqual((self.answer_of(model), self.files()), (FAULT, before), tables)

    def damage(self) -> None:
        """A good campaign whose files were changed."""
        model = self.source.choice(self.models)
        rows = stage(self.source, model.full)
        self.write(rows, model.identity, TABLES)
        data, kind = bytearray(self.get("k")), self.source.randrange(4)
        if kind == 0:
            del data[self.source.randrange(1, len(data)):]
        elif kind == 1:
            for _ in range(self.source.choice([1, 1, 3, 30])):
                data[self.source.randrange(len(data))] = self.source.randrange(256)
        elif kind == 2:
            data[self.source.randrange(min(100, len(data)))] ^= 1 << self.source.randrange(8)
        else:
            name = self.source.choice(["k-wal", "k-journal"])
            self.put(name, self.source.choice([b"", self.source.randbytes(600),
                                               b"\x37\x7f\x06\x82" + self.source.randbytes(5000),
                                               bytes.fromhex("d9d505f920a163d7") + self.source.randbytes(600)]))
        self.put("k", bytes(data))
        got, title = self.answer_of(model), f"damage {kind}"
        if got[0] in (0, 1):
            self.assertEqual(got[2], b"", title)
            if kind in (0, 3):
                self.goes_on(model, got, [], title)
        elif got[0] == 4:
            self.assertEqual((got[1], got[2][:10]), (b"", b"paving k: "), title)
        else:
            self.assertEqual(got, FAULT, title)
            self.assertEqual(self.get("k"), bytes(data), title)

    def test_turns(self) -> None:
        for turn in range(self.turns):
            for file in self.path.iterdir():
                file.unlink()
            with self.subTest(turn=turn):
                self.source.choice([self.rows, self.rows, self.rows, self.tables, self.damage, self.damage])()


if __name__ == "__main__":
    main()
