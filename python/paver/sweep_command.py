"""The words and the printed lines of `sweep`."""
from __future__ import annotations

import argparse
import logging
import signal
import sys
import time
from pathlib import Path
from typing import Any, Dict, Iterable, Iterator, List

from .beside import identity_of
from .options import KEPT_SETTINGS
from .sweep import Sweep, sweep
from .sweep_checks import refused
from .sweep_engines import ENGINES
from .sweep_folder import Folder
from .sweep_plan import WHOLE, Progress, is_share

ENDED = (signal.SIGINT, signal.SIGTERM)
COUNTS = ("boxes", "limit", "shares", "workers")


def add_options(command: argparse.ArgumentParser) -> None:
    command.add_argument("system", nargs="?")
    command.add_argument("--folder", help="where everything is kept: all machines see it under this name")
    command.add_argument("--status", metavar="FOLDER", help="says how far the sweep in a folder is, and does nothing else")
    for name in KEPT_SETTINGS:
        command.add_argument(f"--{name}", help=f"as the program's --{name}")
    command.add_argument("--boxes", type=int, help="nodes that a share settles at most before it is dealt again (1000000)")
    command.add_argument("--limit", type=int, help="nodes of the whole paving at most (100000000)")
    command.add_argument("--shares", type=int, help="how many shares there are (16 for each worker)")
    command.add_argument("--workers", type=int, help="how many tasks run at once (what the engine has)")
    command.add_argument("--engine", choices=ENGINES, default="processes")
    command.add_argument("--address", help="with dask: the scheduler's, as tcp://10.0.0.1:8786 (DASK_SCHEDULER_ADDRESS)")
    command.add_argument("--sbatch", default="", metavar="WORDS", help="with slurm: more options, as '--time=1:00:00 --mem=2G'")
    command.add_argument("--audit", action="store_true", help="has the whole paving computed again")


def work(arguments: argparse.Namespace) -> int:
    """Paves by many machines: shares of one tree as tasks of an engine, and joins of their answers until one file is left. The
    same call goes on where it was cut off. Status 1 where it was interrupted."""
    if arguments.status is not None:
        return print_status(Path(arguments.status))
    if arguments.system is None or arguments.folder is None:
        raise ValueError("sweep SYSTEM --folder FOLDER, or sweep --status FOLDER")
    options = {name: getattr(arguments, name) for name in (*KEPT_SETTINGS, *COUNTS, "address")}
    # A Dask client logs each worker that it loses. Tasks run again then, and the summary counts those that were lost.
    logging.disable(logging.ERROR)
    before = {number: signal.signal(number, raise_interrupt) for number in ENDED}
    shown = Shown() if sys.stderr.isatty() else None
    try:
        found = sweep(arguments.system, arguments.folder, engine=arguments.engine, sbatch=arguments.sbatch,
                      audit=arguments.audit, tell=shown.tell if shown else None, program=arguments.program, **options)
    except KeyboardInterrupt:
        print(f"paver: interrupted: the same call goes on with what {arguments.folder} has", file=sys.stderr)
        return 1
    finally:
        if shown is not None:
            shown.end()
        for number, handler in before.items():
            signal.signal(number, handler)
    print("\n".join(lines_of(found)))
    return 0


def raise_interrupt(_number: int, _frame: object) -> None:
    raise KeyboardInterrupt


def lines_of(found: Sweep) -> Iterator[str]:
    """The printed lines of a sweep that is done."""
    tasks: Dict[str, Dict[str, Any]] = found.manifest["tasks"]
    again = sum(record["status"] == 1 for record in found.shares)
    more = sum(record["attempts"] - 1 for record in tasks.values())
    greatest = found.greatest
    yield " ".join(f"{name} {count}" for name, count in found.counts.items())
    yield f"shares {len(found.shares)}, {again} of them dealt again; joins {len(tasks) - len(found.shares)}; {more} tasks lost"
    yield (f"processor hours {found.hours:.2g}; greatest share {greatest['name']}: {greatest['new']} nodes, "
           f"{greatest['seconds']:.1f} s, {most_memory(found.shares)} MB at most; joins {most_memory(joins_of(tasks))} MB; "
           f"workers idle {100 * found.idle:.0f} %")
    if found.manifest.get("audited") == tasks[WHOLE]["sha256"]:
        yield "honest"


def joins_of(tasks: Dict[str, Dict[str, Any]]) -> List[Dict[str, Any]]:
    return [record for name, record in tasks.items() if not is_share(name)]


def most_memory(records: Iterable[Dict[str, Any]]) -> int:
    """The most memory of a task, in MB."""
    return int(max((record["memory"] for record in records), default=0) // 1024)


def told(progress: Progress) -> str:
    """A line on how far a sweep is."""
    again = f", {progress.again} dealt again" if progress.again else ""
    return (f"shares {progress.shares_done} of {progress.shares}{again}, joins {progress.joins_done} of {progress.joins}, "
            f"{progress.under_way} tasks under way, {progress.settled} nodes, {progress.rate:.0f} a second")


class Shown:
    """The progress on a terminal: a bar where tqdm is there, else a line that is written over."""

    def __init__(self) -> None:
        try:
            from tqdm import tqdm  # type: ignore[import]
            self.bar: Any = tqdm(unit="task")
        except ImportError:
            self.bar = None

    def tell(self, progress: Progress) -> None:
        if self.bar is None:
            print(f"\r{told(progress)}\033[K", end="", file=sys.stderr, flush=True)
            return
        self.bar.total = progress.shares + progress.joins
        self.bar.set_postfix_str(f"{progress.settled} nodes, {progress.rate:.0f}/s", refresh=False)
        self.bar.update(progress.shares_done + progress.joins_done - self.bar.n)

    def end(self) -> None:
        if self.bar is None:
            print(file=sys.stderr)
        else:
            self.bar.close()


def print_status(place: Path) -> int:
    """Says how far the sweep in a folder is, from anywhere that sees it. Status 1 where it isn't done."""
    folder = Folder(place)
    if not folder.read():
        raise refused(place, "there is no sweep", "no sweep")
    manifest = folder.manifest
    if WHOLE in manifest["tasks"]:
        whole = manifest["tasks"][WHOLE]
        folder.need_closed(whole)
        if not folder.is_stored(whole) or identity_of(folder.whole) != manifest["identity"]:
            raise refused(folder.whole, "it is not the paving of the sweep: the same call makes it again", "changed")
        print("\n".join(lines_of(Sweep(folder.path, manifest, ""))))
        return 0
    if "progress" in manifest:
        print(told(Progress(**manifest["progress"])))
    else:
        print("the first stage isn't there yet")
    since = time.time() - (folder.path / "manifest.json").stat().st_mtime
    print(f"written {since:.0f} s ago" + ("" if since < 60 else ": is the call still there?"))
    return 1
