"""Runs `campaign` of the real binary over real database files: campaigns that are killed and gone on with, databases that
stock sqlite3 reads and writes, and files that are no campaign's, locked, cut short, or on a full disk.

    [SEED=1] python3 -m tests.runners.campaigns [-k WORD]
"""
from __future__ import annotations

import contextlib
import os
import random
import resource
import shutil
import signal
import sqlite3
import subprocess
import sys
import tempfile
import time
from collections.abc import Collection, Iterable, Iterator, Sequence
from contextlib import contextmanager
from fractions import Fraction
from pathlib import Path
from typing import Any

from tests.data.cases import RECIPROCAL, USAGE, system
from tests.reference import files
from tests.reference.kinds import Tree
from tests.reference.paver import node_line
from tests.runners.paving_files import QUARTER, WHOLE_SUMMARY, call
from tests.runners.running import SECONDS, FolderTest, Moments, made_cases, main, processor_seconds

KILLS = 50
NOBODY = 65534
SHORT_LOG = 55
Row = tuple[str, str]  # a path and its line
ROWS: list[Row] = [("", "C 0 1:-1 0:0 1:0"), ("0", "C 0 1:-2 0:0 1:-1"), ("00", "S 0:0 1:-2"), ("01", "I 1:-2 1:-1"),
                   ("1", "I 1:-1 1:0")]
ONE_SUMMARY = b"settled 1 cut 1 removed 0 inner 0 small 0 open 2\n"
DISC = system("x in [-4,4], y in [-4,4]", "sqr(x) + sqr(y) <= 7; x*y >= -1")
DISC_EPS = ["--eps", "0.015625"]
HEAD = """CREATE TABLE head (
    id INTEGER PRIMARY KEY CHECK (id = 1), identity BLOB NOT NULL) STRICT;"""
NODE = "CREATE TABLE node (path TEXT PRIMARY KEY NOT NULL, line TEXT NOT NULL) STRICT;"
TABLES = HEAD + NODE
ENDLESS = "WITH RECURSIVE c(n) AS (SELECT 1 UNION ALL SELECT n+1 FROM c) SELECT"
FOREIGN = {  # databases that no campaign made
    "note": "CREATE TABLE note (id INTEGER PRIMARY KEY, text TEXT); INSERT INTO note VALUES (1, 'mine');",
    "view": "CREATE VIEW one AS SELECT 1;",
    "columns": "CREATE TABLE head (a TEXT, b TEXT);",
    "head alone": HEAD,
    "node alone": NODE + "INSERT INTO node VALUES ('', 'X');",
    "loose": "CREATE TABLE node (path TEXT, line TEXT); INSERT INTO node VALUES ('', 'X');",
    "third column": HEAD + "CREATE TABLE users (a); "
                    "CREATE TABLE node (path TEXT PRIMARY KEY NOT NULL, line TEXT NOT NULL, n INT);",
    "endless head": f"CREATE VIEW head AS {ENDLESS} 1 AS id, x'00' AS identity FROM c WHERE n<0; {NODE}",
    "endless node": f"{HEAD} CREATE VIEW node AS {ENDLESS} '' AS path, 'X' AS line FROM c WHERE n<0;",
    "cross join": f"{HEAD} CREATE VIEW node AS {ENDLESS} '' AS path, 'X' AS line FROM c, c AS d, c AS e;",
    "further table": TABLES + "CREATE TABLE note (id INTEGER PRIMARY KEY, text TEXT);",
    "further view": TABLES + "CREATE VIEW one AS SELECT 1;",
    "further index": TABLES + "CREATE INDEX lines ON node (line);",
    "trigger": TABLES + "CREATE TRIGGER t AFTER INSERT ON node BEGIN DELETE FROM head; END;",
    "generated": HEAD + NODE.replace("line TEXT NOT NULL", "line TEXT NOT NULL, n INT AS (length(line))"),
    "collation": HEAD + NODE.replace("NOT NULL, line", "NOT NULL COLLATE NOCASE, line"),
}
FAULT = b"keeper fault: k\n"


def identity_of(text: bytes = RECIPROCAL, **settings: Any) -> bytes:
    return bytes.fromhex(call(text, **settings).identity)


def rows_of(tree: Tree) -> list[Row]:
    """The path and the line of each settled node, in preorder."""
    found, waiting = [], [(tree, "")]
    while waiting:
        node, path = waiting.pop()
        if node[0] != "O":
            found.append((path, node_line(files.outcome(node))))
        if node[0] == "C":
            waiting += [(node[5], path + "1"), (node[4], path + "0")]
    return found


def make(path: Path, rows: Iterable[Row], identity: bytes, pragmas: str = "", tables: str = TABLES) -> None:
    """A database that stock sqlite3 writes."""
    connection = sqlite3.connect(path, isolation_level=None)
    connection.executescript(pragmas + tables)
    connection.execute("INSERT INTO head VALUES (1, ?)", [identity])
    connection.execute("BEGIN")
    connection.executemany("INSERT INTO node VALUES (?, ?)", rows)
    connection.execute("COMMIT")
    connection.close()


def is_begun(file: Path) -> bool:
    """Whether a database was cut off while it was made: its first byte is 0 until all else of it is there."""
    return file.exists() and file.read_bytes()[:16] == b"\0QLite format 3\0"


def stock(folder: Path, name: str) -> tuple[bool, bytes | None, list[Row]]:
    """What stock sqlite3 finds in a copy of a database and its log: its own check, the identity and the rows in order. One
    that was cut off while it was made has nothing, and a campaign makes it anew."""
    if is_begun(folder / name):
        return True, None, []
    with tempfile.TemporaryDirectory() as aside:
        for file in (name, name + "-wal"):
            if (folder / file).exists():
                shutil.copyfile(folder / file, Path(aside) / ("copy" + file[len(name):]))
        connection = sqlite3.connect(Path(aside) / "copy")
        try:
            sound = connection.execute("PRAGMA integrity_check").fetchall() == [("ok",)]
            identity = connection.execute("SELECT identity FROM head WHERE id = 1").fetchone()
            rows = connection.execute("SELECT path, line FROM node ORDER BY path").fetchall()
        except sqlite3.OperationalError:
            return sound, None, []
        finally:
            connection.close()
    return sound, identity and identity[0], rows


def is_stage(rows: Collection[Row], whole: set[Row], boxes: int) -> bool:
    """The rows are some of the whole tree's, with those of all nodes above them, and of whole rounds."""
    paths = {path for path, _ in rows}
    closed = all(path[:-1] in paths for path in paths if path)
    return set(rows) <= whole and closed and (len(rows) % boxes == 0 or len(rows) == len(whole))


class Campaigns(FolderTest):
    """Campaigns, and what stock sqlite3 finds of them."""

    def setUp(self) -> None:
        super().setUp()
        self.source = random.Random(made_cases(0)[1])

    def words(self, rounds: int, boxes: int, options: Sequence[str], name: str, text: bytes) -> list[str]:
        self.put("s", text)
        return ["campaign", "s", f"--keep={name}", *options, "--rounds", str(rounds), "--boxes", str(boxes)]

    def expect(self, status: int, out: bytes | None = b"", err: bytes = b"", rounds: int = 1, boxes: int = 1,
               options: Sequence[str] = QUARTER, name: str = "k", text: bytes = RECIPROCAL) -> None:
        words = self.words(rounds, boxes, options, name, text)
        given = self.answered(*words)
        self.assertEqual(given, (status, given[1] if out is None else out, err), words)

    def start(self, *words: str) -> subprocess.Popen[bytes]:
        return subprocess.Popen([self.program, *words], cwd=self.path, stdout=subprocess.DEVNULL, stderr=subprocess.DEVNULL)

    def keeps(self, rows: list[Row], name: str = "k", identity: bytes | None = None) -> None:
        """Stock sqlite3 finds these rows, in this order, and the identity."""
        found = stock(self.path, name)
        self.assertEqual(found, (True, identity or identity_of(), rows), name)

    def contents(self) -> dict[str, bytes]:
        """The bytes of each file, but for logs that are too short to hold anything, which an open may leave."""
        return {name: data for name, data in self.files().items()
                if name != "s" and (len(data) > SHORT_LOG or not name.endswith("-wal"))}

    def refused(self, name: str = "k", status: int = 10, err: bytes | None = None, **how: Any) -> None:
        """A campaign ends with a status and a line, prints nothing and leaves each file as it was."""
        before = self.contents()
        self.expect(status, b"", err or f"keeper fault: {name}\n".encode(), name=name, **how)
        self.assertEqual(self.contents(), before, f"{name} was changed by a campaign that was refused")

    def untouched(self, name: str = "k", status: int = 10, err: bytes | None = None, **how: Any) -> None:
        """A campaign ends with a status and a line, and leaves each file as it was, to the byte, and makes none."""
        self.put("s", how.get("text", RECIPROCAL))
        before = self.files()
        self.expect(status, b"", err or f"keeper fault: {name}\n".encode(), name=name, **how)
        self.assertEqual(self.files(), before, f"{name} was touched by a campaign that was refused")

    def test_foreign_databases_are_untouched(self) -> None:
        """Whatever a database of somebody else lists, and whether its log lies beside it: nothing of it runs."""
        for name, sql in FOREIGN.items():
            for mode in ("DELETE", "WAL"):
                with self.subTest(name=name, mode=mode):
                    file = f"{name} {mode}"
                    connection = sqlite3.connect(self.path / "made", isolation_level=None)
                    connection.executescript(f"PRAGMA journal_mode = {mode};{sql}")
                    for end in ("", "-wal") if mode == "WAL" else ("",):
                        shutil.copyfile(self.path / f"made{end}", self.path / f"{file}{end}")
                    connection.close()
                    (self.path / "made").unlink()
                    before = processor_seconds()
                    self.untouched(file)
                    self.assertLess(processor_seconds() - before, 5, f"{file}: something of it was run")

    def test_rows_with_no_identity(self) -> None:
        """A deleted identity makes nobody's rows one's own, and locks out no owner whose identity is put back."""
        identity, other = identity_of(), ["--eps", "0.5"]
        make(self.path / "k", ROWS[:2], identity)
        statements: list[tuple[str, list[bytes]]] = [("DELETE FROM head", []), ("INSERT INTO head VALUES (1, ?)", [identity])]
        for sql, parameters in statements:
            connection = sqlite3.connect(self.path / "k")
            connection.execute(sql, parameters)
            connection.commit()
            connection.close()
            if not parameters:
                self.untouched()
                self.untouched(options=other)
        self.untouched(status=4, err=b"paving k: wrong identity\n", options=other)
        self.expect(0, WHOLE_SUMMARY, boxes=5)
        self.keeps(ROWS)

    def test_other_identities_leave_the_log(self) -> None:
        """A campaign that was killed has its rows in the log: one of another system leaves both files as they are."""
        first = self.start(*self.words(100, 50, DISC_EPS, "k", DISC))
        while not (self.path / "k-wal").exists() or (self.path / "k-wal").stat().st_size < 400_000:
            time.sleep(0.001)
        first.kill()
        first.wait()
        self.untouched(status=4, err=b"paving k: wrong identity\n")
        self.expect(0, None, boxes=20_000, options=DISC_EPS, text=DISC)

    def test_logs_beside_no_database(self) -> None:
        """What has the name of a log stays where no database is there, but for the beginning of a log."""
        for notes in (b"notes", b"n", b"my notes\n" * 100, b"7 notes", bytes(100)):
            for database in (None, b""):
                self.put("k-wal", notes)
                if database is not None:
                    self.put("k", database)
                self.untouched()
                (self.path / "k").unlink(missing_ok=True)
        for log in (b"", b"\x37\x7f\x06\x82" + bytes(37), bytes(41)):
            self.put("k-wal", log)
            self.expect(0, WHOLE_SUMMARY, boxes=5)
            self.keeps(ROWS)
            (self.path / "k").unlink()

    def test_files_that_go_under_way(self) -> None:
        """A campaign whose database or log is taken away or replaced while it works ends with 10."""
        for end in ("", "-wal"):
            for replaced in (False, True):
                with self.subTest(file=f"k{end}", replaced=replaced):
                    for file in self.path.glob("k*"):
                        file.unlink()
                    self.put("s", DISC)
                    words = self.words(100, 50, DISC_EPS, "k", DISC)
                    process = subprocess.Popen([self.program, *words], cwd=self.path, stdout=subprocess.PIPE,
                                               stderr=subprocess.PIPE)
                    while not (self.path / "k-wal").exists() or (self.path / "k-wal").stat().st_size < 50_000:
                        time.sleep(0.001)
                    os.kill(process.pid, signal.SIGSTOP)
                    (self.path / f"k{end}").unlink()
                    if replaced:
                        self.put(f"k{end}", b"")
                    os.kill(process.pid, signal.SIGCONT)
                    out, err = process.communicate(timeout=SECONDS)
                    self.assertEqual((process.returncode, out, err), (10, b"", FAULT))

    def test_rounds_are_kept(self) -> None:
        self.expect(1, ONE_SUMMARY)
        self.keeps(ROWS[:1])
        self.expect(0, WHOLE_SUMMARY, rounds=4)
        self.keeps(ROWS)
        before = self.contents()
        self.expect(0, WHOLE_SUMMARY, rounds=100)
        self.assertEqual(self.contents(), before, "a campaign with nothing left to settle changed its file")
        self.assertEqual(rows_of(files.go_on(call().settler, ("O",), 100)), ROWS, "the reference has other rows")

    def test_any_number_of_rows_is_saved(self) -> None:
        eps = Fraction(DISC_EPS[1])
        settler, identity = call(DISC, eps=eps).settler, identity_of(DISC, eps=eps)
        for boxes in (1, 2, 63, 64, 65, 127, 128, 129, 200):
            rows = rows_of(files.go_on(settler, ("O",), boxes))
            self.assertEqual(len(rows), boxes)
            with self.subTest(boxes=boxes):
                self.expect(1, None, boxes=boxes, options=[*DISC_EPS, "--workers", "1"], name=f"k{boxes}", text=DISC)
                self.keeps(rows, f"k{boxes}", identity)

    def test_tables_are_strict(self) -> None:
        self.expect(1, ONE_SUMMARY)
        connection = sqlite3.connect(self.path / "k")
        for insert in ("INSERT INTO head VALUES (2, 'text')", "INSERT INTO head VALUES (2, 3)",
                       "INSERT INTO node VALUES (x'30', 'X')", "INSERT INTO node VALUES ('0', x'58')",
                       "INSERT INTO node VALUES (NULL, 'X')"):
            with self.assertRaises(sqlite3.IntegrityError, msg=insert):
                connection.execute(insert)
        kinds = connection.execute("SELECT name, strict FROM pragma_table_list WHERE schema = 'main' AND name IN "
                                   "('head', 'node') ORDER BY name").fetchall()
        connection.close()
        self.assertEqual(kinds, [("head", 1), ("node", 1)], f"the tables are {kinds}")

    def test_names_are_those_of_files(self) -> None:
        for name in ("with spaces", "ümläut", "-x", "a'b\"c", "k.db", "%20", "a;b"):
            self.expect(0, WHOLE_SUMMARY, boxes=5, name=name)
            self.keeps(ROWS, name)
        (self.path / "below").mkdir()
        self.expect(0, WHOLE_SUMMARY, boxes=5, name="below/k")
        self.keeps(ROWS, "below/k")
        for name in (":memory:", "file:k", "", "no/k", "below"):
            self.refused(name)

    def test_words_are_judged(self) -> None:
        self.put("s", RECIPROCAL)
        for words in (["--rounds", "0"], ["--rounds", "101"], ["--rounds", "x"], ["--out", "o"], ["--boxes", "0"]):
            given = self.answered("campaign", "s", "--keep", "k", *words)
            self.assertEqual(given, (2, b"", USAGE), f"{words}: {given}")
            self.assertFalse(self.contents(), f"{words}: {given}")
        self.expect(8, b"", b"tree limit: 0 settled\n", rounds=100, boxes=1001)
        self.keeps([])

    def test_databases_of_stock_sqlite(self) -> None:
        identity = identity_of()
        for count, pragmas in ((0, ""), (1, "PRAGMA journal_mode = WAL;"), (2, "PRAGMA page_size = 512;"),
                               (4, "PRAGMA page_size = 65536;"),
                               (5, "PRAGMA page_size = 1024; PRAGMA journal_mode = TRUNCATE;")):
            name = f"stock{count}"
            make(self.path / name, random.Random(count).sample(ROWS[:count], count), identity, pragmas)
            self.expect(0, WHOLE_SUMMARY, boxes=5, name=name)
            self.keeps(ROWS, name)
        earlier = TABLES.replace("CREATE TABLE ", "CREATE TABLE IF NOT EXISTS ")
        make(self.path / "earlier", ROWS[:2], identity, tables=earlier)
        self.expect(0, WHOLE_SUMMARY, boxes=5, name="earlier")
        self.keeps(ROWS, "earlier")

    def test_kept_rows_are_refused(self) -> None:
        identity = identity_of()
        make(self.path / "other", ROWS, identity_of(eps=Fraction(1, 2)))
        self.refused("other", 4, b"paving other: wrong identity\n")
        bad = [("skips", [ROWS[0], ROWS[2]], 1), ("no cut", [("0", "X")], 0), ("wide", [ROWS[0], ("0", "I 0:0 1:0")], 1),
               ("behind", [*ROWS, ("10", "X")], 5), ("spelt", [("", "C 0 1:-1 0:0 2:-1")], 0),
               ("line", [*ROWS[:4], ("1", "X\n")], 4)]
        for name, rows, row in bad:
            make(self.path / name, rows, identity)
            self.refused(name, 4, f"paving {name}: bad row {row}\n".encode())
        many = [("", "C 0 1:-1 0:0 1:0"), *((f"1{i:017b}", "X") for i in range(100_000))]
        make(self.path / "many", many, identity)
        self.refused("many", 4, b"paving many: too many rows\n")
        make(self.path / "full", many[:-1], identity)
        self.refused("full", 4, b"paving full: bad row 1\n")

    def test_databases_that_hold_no_campaign(self) -> None:
        identity = identity_of()
        whole = {"two": [("2", "X")], "long": [("0" * 201, "X")], "line": [("", "X" * 661)]}
        for name, rows in whole.items():
            make(self.path / name, rows, identity)
            self.refused(name)
        self.expect(1, ONE_SUMMARY)
        with contextlib.closing(sqlite3.connect(self.path / "k", isolation_level=None)) as connection:
            connection.execute("INSERT INTO node VALUES ('2', 'X')")
        self.refused()
        for length in (0, 31, 33):
            make(self.path / f"short{length}", ROWS, bytes(length))
            self.refused(f"short{length}")
        self.put("text", b"Variables x in [0,1];\n" * 400)
        self.refused("text")
        make(self.path / "twice", ROWS, identity)
        os.link(self.path / "twice", self.path / "second name")
        os.mkfifo(self.path / "pipe")
        for name in ("twice", "second name", "pipe", "/dev/null"):
            self.refused(name)

    def test_databases_cut_short(self) -> None:
        self.expect(0, WHOLE_SUMMARY, boxes=5)
        whole = self.get("k")
        drawn = {self.source.randrange(2, len(whole)) for _ in range(10)}
        for length in sorted({1, 15, 16, 100, 511, 512, 4095, 4096, 4097, len(whole) - 1} | drawn):
            (self.path / "k-wal").unlink(missing_ok=True)
            self.put("k", whole[:length])
            if length > 1:
                self.refused()
        self.put("k", b"")
        self.expect(0, WHOLE_SUMMARY, boxes=5)
        self.keeps(ROWS)

    def test_locked_databases(self) -> None:
        """Another process has the lock: in this one, reading the file would let it go."""
        self.expect(1, ONE_SUMMARY)
        holds = "import sqlite3, sys; c = sqlite3.connect('k', isolation_level=None); c.execute(sys.argv[1]); print(); input()"
        for lock in ("BEGIN EXCLUSIVE", "BEGIN IMMEDIATE"):
            holder = subprocess.Popen([sys.executable, "-c", holds, lock], cwd=self.path, stdin=subprocess.PIPE,
                                      stdout=subprocess.PIPE)
            holder.stdout.readline()
            self.refused()
            holder.communicate(b"\n")
        self.expect(0, WHOLE_SUMMARY, rounds=4)
        self.keeps(ROWS)

    @contextmanager
    def stopped_within_its_rounds(self) -> Iterator[subprocess.Popen[bytes]]:
        """A campaign of 100 rounds that is stopped in the middle, and goes on afterwards. One that came to its end before it
        was stopped is done again."""
        for _ in range(100):
            for file in ("k", "k-wal"):
                (self.path / file).unlink(missing_ok=True)
            process = self.start(*self.words(100, 50, DISC_EPS, "k", DISC))
            while process.poll() is None and not ((self.path / "k").exists() and (self.path / "k").stat().st_size):
                time.sleep(0.001)
            process.send_signal(signal.SIGSTOP)
            if process.returncode is None and os.WIFSTOPPED(os.waitpid(process.pid, os.WUNTRACED)[1]):
                break
        else:
            self.fail("each of 100 campaigns came to its end before it was stopped")
        try:
            yield process
        finally:
            process.send_signal(signal.SIGCONT)

    def test_one_campaign_at_a_time(self) -> None:
        with self.stopped_within_its_rounds() as first:
            self.expect(10, b"", FAULT, options=DISC_EPS, text=DISC)
        self.assertEqual(first.wait(timeout=SECONDS), 1, "the first campaign did not come to its end")
        self.assertEqual(len(stock(self.path, "k")[2]), 5000, "the first campaign did not come to its end")

    def test_folders_that_may_not_be_written(self) -> None:
        self.expect(1, ONE_SUMMARY)
        with tempfile.TemporaryDirectory() as name:
            os.chmod(name, 0o755)
            folder = self.elsewhere(Path(name) / "closed", shutil.copy(self.program, Path(name) / "paver"))
            folder.path.mkdir()
            for file in ("k", "k-wal"):
                if (self.path / file).exists():
                    shutil.copy(self.path / file, folder.path / file)
                    os.chmod(folder.path / file, 0o444)
            folder.put("s", RECIPROCAL)
            os.chmod(folder.path, 0o555)
            before = folder.contents()
            nobody = {"user": NOBODY} if os.geteuid() == 0 else {}
            given = folder.answered("campaign", "s", "--keep=k", *QUARTER, **nobody)
            os.chmod(folder.path, 0o755)
            self.assertEqual(given, (10, b"", FAULT), f"in a folder that may not be written: {given}")
            self.assertEqual(folder.contents(), before, f"in a folder that may not be written: {given}")

    def test_full_disks(self) -> None:
        """Each limit on the size of a file, until a campaign comes to its end; and a disk of 64 KiB."""
        ended = False
        for size in (*range(0, 8192, 1024), *range(8192, 400_000, 49152), 1 << 20):
            for file in ("k", "k-wal"):
                (self.path / file).unlink(missing_ok=True)
            words = self.words(5, 1, QUARTER, "k", RECIPROCAL)
            given = self.answered(*words, restore_signals=False,
                                  preexec_fn=lambda size=size: resource.setrlimit(resource.RLIMIT_FSIZE, (size, size)))
            ended = given[0] == 0
            self.assertFalse(not ended and given != (10, b"", FAULT), f"files of {size} bytes: {given}")
            self.expect(0, WHOLE_SUMMARY, rounds=5)
            self.keeps(ROWS)
        self.assertTrue(ended, "no campaign came to its end")
        disk = self.path / "disk"
        disk.mkdir()
        mount = ["mount", "-t", "tmpfs", "-o", "size=64k", "none", str(disk)]
        if subprocess.run(mount, capture_output=True, check=False).returncode:
            return
        try:
            self.expect(10, b"", b"keeper fault: disk/k\n", name="disk/k")
        finally:
            subprocess.run(["umount", str(disk)], check=True)

    def test_killed_campaigns(self) -> None:
        boxes, kills, number = 7, 0, 0
        self.put("s", DISC)
        self.call("run", "s", *DISC_EPS, "--out", "whole")
        reference = call(DISC, eps=Fraction(1, 64))
        rows = rows_of(reference.read("whole", self.get("whole")))
        identity, whole = bytes.fromhex(reference.identity), set(rows)
        moments = Moments(self.source)
        while kills < KILLS:
            process = self.start(*self.words(100, boxes, [*DISC_EPS, "--workers", self.source.choice("124")], f"k{number}",
                                             DISC))
            moments.wait()
            process.kill()
            status = process.wait()
            moments.learn(status == -9)
            kills += status == -9
            found = stock(self.path, f"k{number}")
            self.assertIn(status, (-9, 0, 1), f"status {status}, {len(found[2])} rows, {found[0]}")
            self.assertTrue(found[0], f"status {status}, {len(found[2])} rows, {found[0]}")
            self.assertTrue(is_stage(found[2], whole, boxes), f"status {status}, {len(found[2])} rows, {found[0]}")
            number += len(found[2]) == len(rows)
        for name in {f"k{at}" for at in range(number + 1)}:
            self.expect(0, None, boxes=20_000, options=DISC_EPS, name=name, text=DISC)
            self.keeps(rows, name, identity)

    def test_little_memory(self) -> None:
        """Address space in steps of 16 KiB from the least with which the program starts, until the answer stands: it is the
        right one, or want of memory with its line; whole rounds are kept, and all of them where the answer is right."""
        for boxes, workers in ((1, "1"), (2, "4")):
            options, right = [*QUARTER, "--workers", workers], 0
            for limit in range(400 * 4096, 1 << 27, 16 << 10):
                for kept in self.path.glob("k*"):
                    kept.unlink()
                got = self.call(*self.words(5, boxes, options, "k", RECIPROCAL),
                                preexec_fn=lambda limit=limit: resource.setrlimit(resource.RLIMIT_AS, (limit, limit)))
                if got.returncode in (127, -signal.SIGSEGV, -signal.SIGKILL):
                    continue
                sound, _, rows = stock(self.path, "k") if (self.path / "k").exists() else (True, None, [])
                answers = got.returncode == 0 and (got.stdout, got.stderr, rows) == (WHOLE_SUMMARY, b"", ROWS)
                wants = got.returncode == 7 and got.stderr in (b"want of memory\n", b"") and \
                    WHOLE_SUMMARY.startswith(got.stdout)
                self.assertTrue(answers or wants, f"{limit} bytes, {workers} workers: {got}, {sound}, {rows}")
                self.assertTrue(sound, f"{limit} bytes, {workers} workers: {got}, {sound}, {rows}")
                self.assertTrue(is_stage(rows, set(ROWS), boxes), f"{limit} bytes, {workers} workers: {got}, {sound}, {rows}")
                right += answers
                # with four workers a thread that is late may still find no room
                if right == 8:
                    break
            self.assertGreaterEqual(right, 8, f"{workers} workers: right {right} times alone")


if __name__ == "__main__":
    main()
