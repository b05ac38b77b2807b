"""One paving by many machines: shares of its open leaves settled side by side, and their answers joined into one file."""
from __future__ import annotations

import json
import os
import time
from concurrent.futures import Executor
from contextlib import contextmanager
from dataclasses import dataclass
from pathlib import Path
from typing import Any, Callable, Dict, Iterator, List, Mapping, Optional, Union

from . import beside, errors, program, sweep_task
from .identity import complete
from .options import MOST_LIMIT, MOST_SHARES
from .paving import Paving, PathName
from .sweep_checks import need_planned, refused
from .sweep_engines import Engine, engine_of, need_engine
from .sweep_folder import MANIFEST, Folder, first_stage, weights_of
from .sweep_plan import WHOLE, Part, Plan, Progress, Record, is_share, task_of

OPEN_LEAVES = 16  # of a worker, in the first stage
BOXES = 1_000_000  # that a share settles at most before it is dealt again
ATTEMPTS = 5  # of a task in one call
SEEN_WITHIN = 5.0  # seconds in which what one machine stored has to be seen by another
NO_USE = (2, 3, 4, 8, 9, 11)  # statuses of the program that come again however often it is called


@dataclass(repr=False)
class Sweep:
    """A sweep that is done: its folder and what its manifest says."""
    folder: Path
    manifest: Dict[str, Any]
    program: str

    @property
    def out(self) -> Path:
        """The file of the one paving."""
        return self.folder / "whole.paving"

    @property
    def counts(self) -> Dict[str, int]:
        """How many nodes are settled, cut, removed, inner, small and open."""
        return dict(self.manifest["tasks"][WHOLE]["counts"])

    def paving(self) -> Paving:
        """The paving."""
        return Paving.read(self.out, system=self.folder / "system.mbx", program=self.program, **self.manifest["settings"])

    @property
    def shares(self) -> List[Record]:
        """The records of all shares, those that were dealt again with them: seconds, memory in kB, counts, attempts."""
        return [record for name, record in self.manifest["tasks"].items() if is_share(name)]

    @property
    def hours(self) -> float:
        """The processor hours of all recorded tasks."""
        return float(sum(record["processor"] for record in self.manifest["tasks"].values())) / 3600

    @property
    def greatest(self) -> Record:
        """The record of the share that took the longest."""
        return max(self.shares, key=lambda record: float(record["seconds"]))

    @property
    def idle(self) -> float:
        """The part of the workers' time in which they had no task."""
        busy = sum(float(record["seconds"]) for record in self.manifest["tasks"].values())
        there = float(self.manifest["seconds"]) * int(self.manifest["workers"])
        return max(0.0, 1 - busy / there) if there else 0.0

    def __repr__(self) -> str:
        return f"<sweep in {self.folder.name}: settled {self.counts['settled']} by {len(self.shares)} shares>"


def sweep(system: PathName, folder: PathName, *, eps: Any = None, depth: Any = None, bisect: Optional[str] = None,
          contract: Optional[str] = None, form: Optional[str] = None, boxes: Optional[int] = None,
          limit: Optional[int] = None, shares: Optional[int] = None, engine: Union[str, Executor] = "processes",
          workers: Optional[int] = None, address: Optional[str] = None, sbatch: str = "", audit: bool = False,
          tell: Optional[Callable[[Progress], None]] = None, program: Optional[str] = None) -> Sweep:
    """Paves a system to its end by tasks of an engine, in a folder that all machines see; the same call goes on where one was
    cut off.

    engine is `processes` of this machine, `dask` (the cluster at `address`), `slurm` (`sbatch` has more options for it), or an
    executor of concurrent.futures. boxes are the nodes that a share settles at most (1,000,000) before what it left open is
    dealt again, limit those of the whole paving (100,000,000), shares how many there are (16 for each worker). audit has the
    whole paving computed again. tell is called with the progress, a few times a second.

    FolderRefused where the folder is of another system or other settings, PavingRefused where a file in it isn't what its task
    stored, TaskLost where a task was lost five times, TreeLimit where the whole has more nodes than limit."""
    given = {"eps": eps, "depth": depth, "bisect": bisect, "contract": contract, "form": form}
    need_counts(boxes=boxes, limit=limit, shares=shares, workers=workers)
    need_engine(engine, address, sbatch)
    path = found(program)
    with opened(Path(folder), system, given, path) as kept:
        running = engine_of(engine, kept.path, workers, address, sbatch)
        call = Call(kept, running, path, boxes or BOXES, limit or MOST_LIMIT, tell)
        try:
            call.begin(shares)  # what it refuses stays as it is
            try:
                call.work()
            finally:
                call.save()
        finally:
            running.stop()
        call.end(system, audit)
    return Sweep(kept.path, kept.manifest, path)


def found(name: Optional[str]) -> str:
    """The program's path."""
    return program.find(name)


def need_counts(**counts: Optional[int]) -> None:
    """ValueError where a count is none."""
    for name, count in counts.items():
        if count is not None and count < 1:
            raise ValueError(f"{name} {count}: a whole number from 1 on is expected")


@contextmanager
def opened(place: Path, system: PathName, given: Mapping[str, Any], path: str) -> Iterator[Folder]:
    """The folder of a sweep, kept for this call: begun, or that of an earlier call, which has to be of this system and these
    settings."""
    folder = Folder(place)
    known, source = program.check(system, program=path), program.source_of(system)
    if not os.path.lexists(folder.path / MANIFEST):
        if source is None:
            raise ValueError(f"{os.fspath(system)}: a sweep wants a system in a file")
        if not program.has("resume --share", path):
            raise errors.NotInProgram(2, "the program has no `resume --share`: it is older than this package")
    with folder.held():
        if folder.read():
            folder.need_same(known, given)
        else:
            folder.begin(os.fspath(system), known, complete(given), source or b"")
        yield folder


class Call:
    """One call over a sweep's folder, by an engine."""

    def __init__(self, folder: Folder, engine: Engine, path: str, boxes: int, limit: int,
                 tell: Optional[Callable[[Progress], None]]) -> None:
        self.folder, self.engine, self.path, self.limit, self.tell = folder, engine, path, limit, tell
        self.before, self.clock, self.works = float(folder.manifest["seconds"]), time.monotonic(), False
        self.under_way: Dict[str, Part] = {}
        self.failed: Dict[str, int] = {}
        self.settled = self.new = 0
        words = program.option_words({**folder.manifest["settings"], "limit": limit})
        self.common = {"program": path, "system": str(folder.system), "words": words, "boxes": boxes, "limit": limit,
                       "identity": folder.identity, "system_sha256": folder.manifest["system_sha256"]}
        folder.manifest["workers"] = engine.workers

    def begin(self, shares: Optional[int]) -> None:
        """The first stage, and the plan with what earlier calls have done."""
        first = self._first(shares)
        self.plan = Plan(first, int(self.folder.manifest["shares"]))
        weights = weights_of(self.folder.path / first["out"], len(self.plan.shares))
        self.weights = {share.name: weight for share, weight in zip(self.plan.shares, weights)}
        self.settled = int(first["counts"]["settled"])
        going = set(self.engine.going())  # asked before the records are read: what ends in between has its record by then
        self.plan.take_known(self._known)
        need_planned(self.folder.path / MANIFEST, self.folder.manifest["tasks"], [part.name for part in self.plan.parts()])
        self.under_way = {part.name: part for part in self.plan.parts() if part.name in going and part.record is None}
        self.save()

    def _first(self, shares: Optional[int]) -> Record:
        """The first stage's record. A stage that was lost is made again, to the byte the same; as long as nothing was dealt
        from it, it is as this call wants it."""
        manifest = self.folder.manifest
        known: Optional[Record] = manifest.get("first")
        if known is None:
            wanted = max(OPEN_LEAVES * self.engine.workers, shares or 0)
            known = first_stage(self.folder, self.path, min(wanted, MOST_SHARES), self.limit)
            dealt = min(shares or OPEN_LEAVES * self.engine.workers, max(1, known["counts"]["open"]))
            manifest.update(first=known, asked=shares, shares=dealt)
            self.save()
        elif shares not in (None, manifest["asked"], manifest["shares"]):
            raise refused(self.folder.path, f"it was dealt in {manifest['shares']} shares, and {shares} are given",
                          "another number of shares")
        elif not self.folder.is_stored(known):
            first_stage(self.folder, self.path, known["wanted"], self.limit)
        self.folder.need_stored(known)
        return known

    def _known(self, part: Part) -> Optional[Record]:
        """What an earlier call has of a part."""
        record = self.folder.known(part)
        if record is not None:
            self._keep(part.name, record)
        return record

    def _keep(self, name: str, record: Record) -> None:
        """Puts a record into the manifest."""
        lost = self.folder.manifest["lost"].pop(name, 0)
        record.setdefault("attempts", lost + 1)
        self.folder.manifest["tasks"][name] = record
        self.settled += int(record["new"])

    def work(self) -> None:
        """Has everything done. Tasks begin as soon as what they need is there, the largest shares first."""
        while self.plan.whole.record is None:
            self.works = True
            ready = [part for part in self.plan.work() if part.name not in self.under_way]
            ready.sort(key=lambda part: -self.weights.get(part.name, 1.0))
            for part in ready:
                self.folder.forget(part.name)
                self.under_way[part.name] = part
            if ready:
                self.engine.start([task_of(part, self.common) for part in ready])
            for name, line in self.engine.ended(1.0):
                self._end(name, line)
            self.save(at_least=1.0)
            if self.tell is not None:
                self.tell(self.progress())

    def _end(self, name: str, line: str) -> None:
        """Takes what a task stored, or has it done again where it was lost."""
        part = self.under_way.pop(name, None)
        if part is None:  # of an earlier call: its answer was there before the engine let go of it
            return
        record = self._stored(name, SEEN_WITHIN if line == "" else 0.0)
        if record is not None:
            self._keep(name, record)
            self.new += int(record["new"])
            part.take(record)
            return
        fault = fault_of(line) or (self.folder.record(name) or {}).get("fault")
        if fault is not None and fault["status"] in NO_USE:
            raise raised(fault)
        self.folder.manifest["lost"][name] = self.folder.manifest["lost"].get(name, 0) + 1
        self.failed[name] = self.failed.get(name, 0) + 1
        if self.failed[name] >= ATTEMPTS:
            told = fault["line"] if fault is not None else line or "it left no record"
            raise errors.TaskLost(None, f"the task {name} was lost {ATTEMPTS} times: {told}", name=name, attempts=ATTEMPTS)

    def _stored(self, name: str, seconds: float) -> Optional[Record]:
        """The record of a task's answer, as soon as it is seen here; None where it isn't within some seconds."""
        until = time.monotonic() + seconds
        while True:
            record = self.folder.record(name)
            if record is not None and self.folder.is_stored(record):
                return record
            if time.monotonic() >= until or (record is not None and "fault" in record):
                return None
            time.sleep(0.1)

    def progress(self) -> Progress:
        """How far it is."""
        shares, seconds = self.plan.shares, time.monotonic() - self.clock
        return Progress(len(shares), sum(share.answer is not None for share in shares),
                        sum(share.again is not None for share in shares), len(self.plan.joins),
                        sum(join.record is not None for join in self.plan.joins), len(self.under_way), self.settled,
                        self.before + seconds, self.new / seconds if seconds else 0.0)

    def save(self, at_least: float = 0.0) -> None:
        """Writes the manifest, unless it was written fewer seconds ago."""
        if self.works:
            self.folder.manifest["seconds"] = round(self.before + time.monotonic() - self.clock, 3)
        if hasattr(self, "plan"):
            self.folder.manifest["progress"] = vars(self.progress())
        self.folder.save(at_least)

    def end(self, system: PathName, audit: bool) -> None:
        """Looks through the whole paving, tidies the folder, keeps the settings beside the whole, and has it audited where that
        is wanted."""
        manifest, whole = self.folder.manifest, self.folder.whole
        self.folder.need_done(manifest["tasks"][WHOLE])
        self.folder.tidy()
        beside.keep(whole, "sweep", system, self.folder.system.read_bytes(), manifest["settings"])
        if audit:
            program.audit(self.folder.system, whole, limit=self.limit, program=self.path, **manifest["settings"])
            manifest["audited"] = manifest["tasks"][WHOLE]["sha256"]
            self.folder.save()


def fault_of(line: str) -> Optional[Record]:
    """The fault that a task printed; None where it printed none, as one that was killed."""
    try:
        found_here = json.loads(line.splitlines()[-1]) if line else None
    except ValueError:
        return None
    return found_here if isinstance(found_here, dict) and {"status", "line"} <= set(found_here) else None


def raised(fault: Record) -> errors.PaverError:
    """The exception of a fault of a task."""
    if fault["status"] == sweep_task.REFUSED and os.path.basename(fault.get("name", "")) == sweep_task.SYSTEM:
        return refused(Path(fault["name"]), fault["line"].partition(": ")[2], "another system")
    if fault["status"] == sweep_task.REFUSED and fault.get("name"):
        return errors.PavingRefused(4, fault["line"], name=fault["name"], cause="changed", row=None)
    return program.fault_of(int(fault["status"]), str(fault["line"]))
