"""The rows that a campaign keeps in its database, as the lines of a paving, and what stands in a campaign's way there."""
from __future__ import annotations

import os
import shutil
import tempfile
from contextlib import contextmanager
from pathlib import Path
from typing import TYPE_CHECKING, Iterator, List, Optional, Tuple, Union
from urllib.parse import quote

from .errors import PavingError

if TYPE_CHECKING:
    import sqlite3

HEADER = b"SQLite format 3\0"
PathName = Union[str, "os.PathLike[str]"]
TABLES = ("head", "node")
DAMAGED = "the database is damaged"
LONGEST_ROW = 1 << 16  # bytes of a path or a line; the longest of 12 variables has 660


def is_database(path: PathName) -> bool:
    """Whether a file begins as an SQLite database does."""
    with open(path, "rb") as file:
        return file.read(len(HEADER)) == HEADER


@contextmanager
def opened(path: PathName) -> Iterator[sqlite3.Connection]:
    """A connection that changes nothing: the database itself where it has no log beside it, else a copy of both."""
    import sqlite3  # a Python without it reads all else
    log = Path(f"{os.fspath(path)}-wal")
    with tempfile.TemporaryDirectory() as folder:
        name = Path(path).absolute()
        if log.exists() and log.stat().st_size:
            copy = Path(folder) / "copy"
            shutil.copyfile(path, copy)
            shutil.copyfile(log, f"{copy}-wal")
            connection = sqlite3.connect(copy)
        else:
            connection = sqlite3.connect(f"file:{quote(str(name))}?mode=ro&immutable=1", uri=True)
        if hasattr(connection, "setlimit"):  # from Python 3.11 on
            connection.setlimit(getattr(sqlite3, "SQLITE_LIMIT_LENGTH"), LONGEST_ROW)
        try:
            need_tables(connection)
            yield connection
        except (sqlite3.DatabaseError, OverflowError, UnicodeDecodeError) as fault:
            raise PavingError(1, f"{said_of(fault)}: {fault}") from fault
        finally:
            connection.close()


def said_of(fault: Exception) -> str:
    """Which of locked, full, damaged and foreign a fault of sqlite3 is. Its texts are the same in each version."""
    text = str(fault)
    if "locked" in text or "busy" in text:
        return "the database is locked by another program"
    if "full" in text:
        return "the disk is full"
    if "malformed" in text or "corrupt" in text or "I/O" in text:
        return DAMAGED
    return "no database of a campaign"


def need_tables(connection: sqlite3.Connection) -> None:
    """PavingError where what is read is not two plain tables: a view may be without end."""
    found = dict(connection.execute("SELECT name, type FROM sqlite_master WHERE name IN ('head', 'node')").fetchall())
    for name in TABLES:
        if found.get(name) != "table":
            raise PavingError(1, f"no database of a campaign: it has no table `{name}`")


def identity_in(connection: sqlite3.Connection) -> Optional[str]:
    """The identity in hexadecimal digits; None where there is none."""
    found = connection.execute("SELECT identity FROM head WHERE id = 1").fetchone()
    if found is not None and not (isinstance(found[0], bytes) and len(found[0]) == 32):
        raise PavingError(1, "the identity in `head` is no 32 bytes")
    return None if found is None else str(found[0].hex())


def identity_of(path: PathName) -> Optional[str]:
    """The identity of a database; None where it has none."""
    with opened(path) as connection:
        return identity_in(connection)


def rows_of(path: PathName) -> Tuple[Optional[str], List[Tuple[str, str]]]:
    """The identity in hexadecimal digits, and the paths and lines of the settled nodes in preorder."""
    rows: List[Tuple[str, str]] = []
    with opened(path) as connection:
        identity = identity_in(connection)
        for row in connection.execute("SELECT path, line FROM node ORDER BY path"):
            if not (isinstance(row[0], str) and isinstance(row[1], str) and row[1].isascii() and row[1].isprintable()):
                raise PavingError(3 + len(rows), f"the kept row {len(rows)} is no path and line of text")
            rows.append(row)
    return identity, rows


def lines_of(path: PathName) -> Tuple[List[str], str]:
    """The lines of the kept paving in preorder, with `O` for each open leaf, and its identity. PavingError where the rows
    are no tree's."""
    identity, rows = rows_of(path)
    if identity is None:
        raise PavingError(1, "no identity")
    lines, waiting, taken = [], [""], 0
    while waiting:
        node = waiting.pop()
        if taken == len(rows) or rows[taken][0] != node:
            lines.append("O")
            continue
        line = rows[taken][1]
        taken += 1
        lines.append(line)
        if line.startswith("C"):
            waiting += [node + "1", node + "0"]
    if taken < len(rows):
        raise PavingError(3 + taken, f"the kept row {taken} is at no open leaf of the rows before it")
    return lines, identity


# ---- What stands in a campaign's way

TEXTS = {"head": "CREATE TABLE head (\n    id INTEGER PRIMARY KEY CHECK (id = 1), identity BLOB NOT NULL) STRICT",
         "node": "CREATE TABLE node (path TEXT PRIMARY KEY NOT NULL, line TEXT NOT NULL) STRICT"}
KEYS = ("index", "sqlite_autoindex_node_1", None)
EMPTY_LOG, LOG_MARK = 41, b"\x37\x7f\x06"  # the longest log that keeps nothing, and what logs begin with
LOCKS = 1 << 30, 512  # where SQLite's locks lie, and the program's: the first byte and how many
ROOM = 1 << 20  # with fewer bytes left a disk counts as full


def obstacle(path: PathName) -> Optional[str]:
    """What keeps the program from a campaign's database, as far as Python's sqlite3 and the system tell: a text that begins
    with locked, full, damaged or foreign; None where nothing is found. It changes nothing."""
    name = os.fspath(path)
    if not os.path.exists(name):
        if not may_be_log(f"{name}-wal"):
            return f"foreign: {name}-wal is there without its database"
    elif not os.path.isfile(name) or os.stat(name).st_nlink != 1:
        return "foreign: it is no regular file with one name"
    else:
        found = is_locked(name) or is_strange(name)
        if found:
            return found
    folder = os.path.dirname(os.path.abspath(name))
    if os.path.isdir(folder) and shutil.disk_usage(folder).free < ROOM:
        return f"full: the disk of {folder} has less than a mebibyte left"
    return None


def may_be_log(name: str) -> bool:
    """Whether nothing is there, or the beginning of a log that keeps nothing: only these may lie beside no database."""
    if not os.path.lexists(name):
        return True
    if not os.path.isfile(name):
        return False
    with open(name, "rb") as file:
        found = file.read(EMPTY_LOG + 1)
    return len(found) <= EMPTY_LOG and all(byte in (0, mark) for byte, mark in zip(found, LOG_MARK))


def is_locked(name: str) -> Optional[str]:
    """Whether another process holds SQLite's locks of a file. A lock of this process is not seen."""
    try:
        import fcntl  # only where files are locked in this way
        with open(name, "r+b") as file:
            fcntl.lockf(file, fcntl.LOCK_EX | fcntl.LOCK_NB, LOCKS[1], LOCKS[0])
    except ImportError:
        return None
    except BlockingIOError:
        return "locked: another program has it open"
    except PermissionError:
        return "foreign: it may not be written"
    return None


def is_strange(name: str) -> Optional[str]:
    """Whether a file is damaged, or is no database of a campaign."""
    if os.path.getsize(name) == 0:
        return None
    if not is_database(name):
        return "foreign: it is no SQLite database"
    try:
        with opened(name) as connection:
            for listed in connection.execute("SELECT type, name, sql FROM sqlite_master"):
                if not is_own(*listed):
                    return f"foreign: it has a {listed[0]} `{listed[1]}` that no campaign made"
            checked = connection.execute("PRAGMA quick_check(1)").fetchone()[0]
            if checked != "ok":
                return f"damaged: {checked}"
            if identity_in(connection) is None and connection.execute("SELECT 1 FROM node LIMIT 1").fetchone():
                return "foreign: it has rows and no identity"
    except PavingError as fault:
        return f"{'damaged' if fault.cause.startswith(DAMAGED) else 'foreign'}: {fault.cause}"
    return None


def is_own(kind: str, name: str, text: Optional[str]) -> bool:
    """Whether a database of a campaign lists this: a table by the text that the program gives it, or its index. Earlier
    versions wrote IF NOT EXISTS."""
    if kind == "table" and name in TEXTS and text is not None:
        return text.replace("CREATE TABLE IF NOT EXISTS ", "CREATE TABLE ", 1) == TEXTS[name]
    return (kind, name, text) == KEYS
