"""The folder of a sweep: its manifest, the records of its tasks, and its first stage."""
from __future__ import annotations

import fcntl
import hashlib
import json
import os
import stat
import time
from contextlib import contextmanager
from pathlib import Path
from typing import Any, Dict, Iterator, List, Mapping, Optional, Set, Tuple

from . import beside, identity, program, sweep_task
from .canonical import System
from .errors import PavingRefused
from .options import KEPT_SETTINGS, words_of
from .sweep_checks import manifest_of, record_of, refused
from .sweep_plan import Part, Record, Share
from .sweep_task import REMEDY
from .version import VERSION

MANIFEST = "manifest.json"
LOCK = ".lock"  # held by the call that works in a folder; it stays, as one that goes could be held twice
PLACES = ("shares", "records")
LEVELS = 4  # by which each pass of `--order level` goes deeper than the one before it


def changed(line: str, name: Path) -> PavingRefused:
    """The exception on a file that isn't what its task stored."""
    return PavingRefused(4, line, name=str(name), cause="changed", row=None)


in_work: Set[str] = set()  # folders that calls of this process hold


def settled_words(settings: Mapping[str, Any]) -> List[str]:
    """The options of complete settings, as each call of a sweep has them."""
    return program.option_words(settings, KEPT_SETTINGS)


class Folder:
    """A sweep's folder. `manifest` is what its file holds: it is written anew by renaming, never changed in place."""

    def __init__(self, path: Path) -> None:
        self.path = path.absolute()
        self.manifest: Record = {}
        self.identity = ""
        self.saved = 0.0

    @property
    def system(self) -> Path:
        """The system's text as the sweep began with it."""
        return self.path / sweep_task.SYSTEM

    @property
    def whole(self) -> Path:
        """Where the one paving is in the end."""
        return self.path / "whole.paving"

    def read(self) -> bool:
        """Whether there is a sweep; its manifest is then read. FolderRefused where it is damaged."""
        found = manifest_of(self.path / MANIFEST)
        if found is not None:
            self.manifest = found
        return found is not None

    @contextmanager
    def held(self) -> Iterator[None]:
        """Makes the folder where it isn't there, and keeps it for this call. FolderRefused where another call works in it, or
        where it has something else in it. The lock goes with the process, however that ends; a disk without locks has none."""
        self.path.mkdir(parents=True, exist_ok=True)
        names = {path.name for path in self.path.iterdir()}
        if names and not names & {MANIFEST, LOCK}:
            raise refused(self.path, f"it has no {MANIFEST} and isn't empty: name another folder", "no sweep")
        key, busy = os.path.realpath(self.path), refused(self.path, "another call works in it", "busy")
        if key in in_work:  # a process may take its own lock twice
            raise busy
        number = os.open(self.path / LOCK, os.O_RDWR | os.O_CREAT | os.O_NOFOLLOW | os.O_NONBLOCK | os.O_CLOEXEC, 0o666)
        in_work.add(key)
        try:
            if not stat.S_ISREG(os.fstat(number).st_mode):
                raise refused(self.path / LOCK, "it is no regular file", "unreadable")
            try:
                fcntl.lockf(number, fcntl.LOCK_EX | fcntl.LOCK_NB)
            except (BlockingIOError, PermissionError):
                raise busy from None
            except OSError:
                pass
            yield
        finally:
            in_work.discard(key)
            os.close(number)

    def save(self, at_least: float = 0.0) -> None:
        """Writes the manifest, unless it was written fewer seconds ago."""
        if time.monotonic() - self.saved < at_least:
            return
        with sweep_task.whole_file(str(self.path / MANIFEST)) as file:
            file.write(json.dumps(self.manifest, indent=1) + "\n")
        self.saved = time.monotonic()

    def begin(self, system: str, known: System, settings: Mapping[str, str], source: bytes) -> None:
        """Fills the folder with the system's text and a manifest. FolderRefused where it has something else in it."""
        if any(path.name != LOCK for path in self.path.iterdir()):
            raise refused(self.path, f"it has no {MANIFEST} and isn't empty: name another folder", "no sweep")
        self.identity = identity.identity_of(known, settings)
        for place in PLACES:
            (self.path / place).mkdir()
        self.system.write_bytes(source)
        self.manifest = {"written_by": beside.WRITER, "kind": "sweep", "version": VERSION, "system": system,
                         "system_sha256": hashlib.sha256(source).hexdigest(),
                         "canonical_sha256": hashlib.sha256(known.text.encode()).hexdigest(), "settings": dict(settings),
                         "identity": self.identity, "tasks": {}, "lost": {}, "seconds": 0.0}
        self.save()

    def need_same(self, known: System, given: Mapping[str, Any]) -> Dict[str, str]:
        """The sweep's settings. FolderRefused where the system, or one of the given settings, is another."""
        if hashlib.sha256(known.text.encode()).hexdigest() != self.manifest["canonical_sha256"]:
            raise refused(self.path, f"it is of another system: that of {self.manifest['system']}", "another system")
        kept: Dict[str, str] = self.manifest["settings"]
        for key, word in words_of(given).items():
            changed = {**kept, key: word}
            if identity.settings_text(changed) != identity.settings_text(kept):
                raise refused(self.path, f"its {key} is {kept[key]}, and {word} is given", f"another {key}")
        self.identity = identity.identity_of(known, kept)
        if self.identity != self.manifest["identity"]:
            raise refused(self.path / MANIFEST, "it is damaged: its `identity` is not that of its settings", "damaged")
        self.need_text()
        return kept

    def need_text(self) -> None:
        """FolderRefused where the system's text in the folder isn't that with which the sweep began."""
        try:
            sweep_task.need_text(str(self.path), self.manifest["system_sha256"])
        except sweep_task.Fault as fault:
            raise refused(self.system, fault.line.partition(": ")[2], "another system") from fault

    def need_done(self, record: Record) -> None:
        """FolderRefused or PavingRefused unless the whole paving is that of this call's system and settings, as its task stored
        it, and has no open leaf."""
        self.need_text()
        self.need_stored(record)
        self.need_closed(record)

    def need_closed(self, record: Record) -> None:
        """FolderRefused where the record of the whole paving tells of open leaves."""
        if record["counts"]["open"] != 0 or record["status"] != 0:
            raise refused(self.path, f"{self.whole.name} has {record['counts']['open']} open leaves, so its shares are not "
                          "those that were dealt: begin in another folder", "open leaves")

    def record(self, name: str) -> Optional[Record]:
        """What the last task of a name wrote; None where it wrote nothing yet."""
        return record_of(self.path / "records" / f"{name}.json", REMEDY)

    def forget(self, name: str) -> None:
        """Takes a task's record away, before it is done again."""
        (self.path / "records" / f"{name}.json").unlink(missing_ok=True)

    def is_stored(self, record: Record) -> bool:
        """Whether the file of an answer's record is there. PavingRefused where its length is another."""
        if "out" not in record:
            return False
        path = self.path / record["out"]
        try:
            length = path.stat().st_size
        except OSError:
            return False
        if length != record["bytes"]:
            raise changed(f"paving {path}: {length} bytes, and its task stored {record['bytes']}: {REMEDY}", path)
        return True

    def need_stored(self, record: Record) -> None:
        """PavingRefused where the file of a record isn't what its task stored."""
        path = self.path / record["out"]
        try:
            sweep_task.need_stored(str(path), record, self.identity)
        except sweep_task.Fault as fault:
            raise changed(fault.line, path) from fault

    def known(self, part: Part) -> Optional[Record]:
        """The record of a part whose answer is there; None where it has none or its file is lost."""
        for found in (self.manifest["tasks"].get(part.name), self.record(part.name)):
            if found is not None and self.is_stored(found):
                if isinstance(part, Share) and found.get("share", part.share) != part.share:
                    raise refused(self.path, f"{part.name} was dealt as {found['share']}, and is {part.share}: begin in "
                                  "another folder", "another number of shares")
                return dict(found)
        return None

    def tidy(self) -> None:
        """Takes away what tasks and calls that were killed left half written."""
        for path in [*self.path.glob(f".*{sweep_task.NEW}"),
                     *(path for place in PLACES for path in (self.path / place).glob(".*"))]:
            path.unlink(missing_ok=True)


def first_stage(folder: Folder, path: str, wanted: int, limit: int) -> Record:
    """Makes the first stage on the spot, shallow leaves first, until so many leaves are open or none is, and gives its record.
    Leaves that are shallower than the others are settled too, so that all are alike in size."""
    out, clock = str(folder.path / "first.paving"), time.monotonic()
    words = [*settled_words(folder.manifest["settings"]), f"--limit={limit}", "--workers=1", "--order=level", f"--out={out}"]
    system = str(folder.system)
    status, counts = called([path, "run", *words, "--boxes=1", "--", system])
    while status == 1 and counts["settled"] < limit:
        depths = [len(leaf) for leaf in sweep_task.open_paths(out)]
        shallow = sum(depth < level_above(max(depths)) for depth in depths)
        if shallow == 0 and len(depths) >= wanted:
            break
        boxes = min(shallow or len(depths), limit - counts["settled"])
        status, counts = called([path, "resume", *words, f"--boxes={boxes}", "--", system, out])
    facts = sweep_task.facts_of(out)
    if facts.identity != folder.identity:
        folder.need_text()
        raise refused(folder.path, "its first stage has another identity than this call: begin in another folder", "identity")
    return {"name": "first", "out": "first.paving", "sha256": facts.sha256, "bytes": facts.bytes, "counts": counts,
            "wanted": wanted, "seconds": round(time.monotonic() - clock, 3)}


def level_above(depth: int) -> int:
    """The depth to which the program settles all leaves before it goes deeper."""
    return -(-depth // LEVELS) * LEVELS


def called(words: List[str]) -> Tuple[int, Dict[str, int]]:
    """The status and the counts of a call of the program that stores its paving."""
    try:
        return sweep_task.called(words)
    except sweep_task.Fault as fault:
        raise program.fault_of(fault.status, fault.line) from fault


def weights_of(opening: Path, shares: int) -> List[float]:
    """How much of the search box each share of an opening has, by the depths of its leaves."""
    found = [0.0] * shares
    for number, path in enumerate(sweep_task.open_paths(str(opening))):
        found[number % shares] += 0.5 ** len(path)
    return found
