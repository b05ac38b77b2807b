#!/usr/bin/env python3
"""Proves the libraries that a crate stands on, as many side by side as processors and memory allow.

    python3 build/prove.py [--jobs N] [--dry-run] CRATE

at the top of the repository. It works by the kit's own rtlib, so what it leaves in each out/ is what `rt check` and `rt run`
take up. Unlike `rt all check` it proves no crate of tests or measurements, and makes no quick pass over all crates first.
What a check says stands in its crate's out/prove.log. Edit nothing while it runs. Status 0: all are proved. 1: one is not,
and the end of its log is shown. 3: this kit has no rtlib that is known here, and nothing was done.
"""
import argparse
import importlib.util
import inspect
import os
import shutil
import signal
import sys
import time
from concurrent.futures import FIRST_COMPLETED, ThreadPoolExecutor, wait
from typing import Any

MOST_JOBS = 4  # of one check, which gains little from more
URGENT_JOBS = 2  # of one that all wait for, where as many processors are idle
# Processor seconds of those checks that take longer than their lines tell, as seen on 2026-11-30. The order rests on them alone.
SECONDS = {"pv_words": 350, "pv_keep_sql": 320, "pv_resume": 195, "pv_num": 180, "pv_tree": 150, "pv_workers": 149, "pv_cli": 127,
           "pv_io": 125, "pv_view": 123, "pv_search": 117, "pv_run": 113, "pv_file": 113, "pv_board": 109, "pv_pool": 100,
           "pv_campaign": 100, "pv_rounds": 94, "pv_opening": 88, "pv_scope": 81, "pv_least": 49, "pv_rule": 35, "pv_deliver": 34}
LINES_A_SECOND = 50
GIGABYTE = 10 ** 9
CALLS = ["crates_below", "files_of", "text_of", "lock", "guarded", "number_in", "GROUPS"]


def kit() -> Any:
    """The kit's rtlib as a module, or None where there is none or one with other calls."""
    file = os.path.join(os.path.dirname(os.path.realpath(shutil.which("rt") or "")), "rtlib.py")
    if not os.path.isfile(file):
        return None
    sys.dont_write_bytecode = True
    spec = importlib.util.spec_from_file_location("rtlib", file)
    if spec is None or spec.loader is None:
        return None
    module = sys.modules["rtlib"] = importlib.util.module_from_spec(spec)
    spec.loader.exec_module(module)
    known = all(hasattr(module, name) for name in CALLS) and hasattr(module.Crate, "is_built")
    return module if known and [*inspect.signature(module.Crate.build_rlib).parameters] == ["self", "flags", "anew"] else None


def remember_stamps(rtlib: Any) -> None:
    """Works the stamp of each crate out once: rtlib asks those below again for each crate above, twice as often a level."""
    plain = rtlib.Crate.stamp
    known: dict[Any, str] = {}

    def stamp(crate: Any) -> str:
        if crate not in known:
            known[crate] = str(plain(crate))
        return known[crate]

    rtlib.Crate.stamp = stamp


def lines_of(rtlib: Any, crate: Any) -> int:
    """The lines of a crate's code, definitions and proofs."""
    return sum(rtlib.text_of(file).count("\n") for file in rtlib.files_of(crate.folder))


def seconds_of(crates: list[Any], lines: dict[Any, int]) -> dict[Any, int]:
    """About how many processor seconds the check of each crate takes."""
    return {crate: SECONDS.get(crate.name, lines[crate] // LINES_A_SECOND) for crate in crates}


def chains(crates: list[Any], lines: dict[Any, int]) -> dict[Any, int]:
    """Of each crate the seconds of the longest chain of crates that begins with it and goes up. Lower crates come first."""
    seconds = seconds_of(crates, lines)
    found = dict(seconds)
    for crate in reversed(crates):
        for low in crate.below():
            found[low] = max(found[low], found[crate] + seconds[low])
    return found


def memory_of(crate: Any, lines: dict[Any, int]) -> int:
    """What a check by one job is likely to take, in bytes, by the greatest that were measured. A further job takes half."""
    return GIGABYTE + 60_000 * lines[crate] + 15_000 * sum(lines[low] for low in crate.below())


def free_memory(rtlib: Any) -> int:
    """The memory that is free, in bytes, under the limit of a control group too."""
    groups = [(rtlib.number_in(limit, r"(\d+)"), rtlib.number_in(*held)) for limit, held in rtlib.GROUPS]
    left = [limit - held for limit, held in groups if limit and held is not None]
    return min([1024 * rtlib.number_in("/proc/meminfo", r"MemAvailable:\s+(\d+)"), *left])


class Build:
    """Crates that are to be proved, those that are being proved with their jobs and memory, and those that failed."""

    def __init__(self, rtlib: Any, crates: list[Any], jobs: int) -> None:
        self.jobs, self.memory, self.since = jobs, int(0.85 * free_memory(rtlib)), time.monotonic()
        lines = {crate: lines_of(rtlib, crate) for crate in crates}
        self.chain, self.needs = chains(crates, lines), {crate: memory_of(crate, lines) for crate in crates}
        self.seconds = seconds_of(crates, lines)
        self.all = len(crates)
        self.done: list[Any] = []
        self.left = sorted((crate for crate in crates if not crate.is_built()), key=lambda crate: -self.chain[crate])
        self.running: dict[Any, tuple[Any, int, int]] = {}
        self.begun: dict[Any, float] = {}
        self.failed: list[Any] = []

    def ready(self) -> list[Any]:
        """Those that stand on nothing that is still to be proved, the longest chain first."""
        waiting = {*self.left, *(crate for crate, _, _ in self.running.values())}
        return [crate for crate in self.left if not waiting & {*crate.below()}]

    def is_urgent(self, crate: Any) -> bool:
        """Whether no check at work has as much to wait for it as this one: then all wait for this crate in the end."""
        now = time.monotonic()
        return all(self.chain[other] - (now - self.begun[other]) < self.chain[crate] for other, _, _ in self.running.values())

    def start(self, pool: ThreadPoolExecutor) -> None:
        """Starts what processors and memory allow, and one check in any case. There are never more jobs than processors, since
        each of them loads the libraries anew; idle ones are shared by what is ready, and what all wait for gets two at least."""
        ready = self.ready()
        for at, crate in enumerate(ready):
            idle = self.jobs - sum(jobs for _, jobs, _ in self.running.values())
            room = self.memory - sum(taken for _, _, taken in self.running.values())
            need = self.needs[crate]
            if idle > 0 and (need <= room or not self.running):
                wanted = max(idle // (len(ready) - at), URGENT_JOBS if self.is_urgent(crate) else 1)
                jobs = max(1, min(MOST_JOBS, idle, wanted, 1 + (room - need) // (need // 2)))
                self.left.remove(crate)
                self.begun[crate] = time.monotonic()
                self.running[pool.submit(prove, crate, jobs)] = crate, jobs, need + (jobs - 1) * (need // 2)

    def take(self) -> None:
        """Waits until a check ends, and says how."""
        for done in wait(self.running, return_when=FIRST_COMPLETED).done:
            crate, jobs, _ = self.running.pop(done)
            status, seconds = done.result()
            self.failed += [crate] * bool(status)
            self.done += [crate] * (not status)
            what = f"{crate.name} {'NOT PROVED' if status else 'proved'} in {seconds:.0f} s by {jobs} job{'s' * (jobs > 1)}"
            print(f"{time.monotonic() - self.since:6.0f} s  {what}; {self.far()}", flush=True)

    def far(self) -> str:
        """How many libraries are proved, and about how long the others will take, by the seconds of this machine so far."""
        open_ones = [*self.left, *(crate for crate, _, _ in self.running.values())]
        if not open_ones:
            return f"{self.all} of {self.all}"
        pace = (time.monotonic() - self.since) / max(1, sum(self.seconds[crate] for crate in self.done))
        chain = max(self.chain[crate] for crate in open_ones) / max(1, min(self.jobs, URGENT_JOBS))
        minutes = max(pace * sum(self.seconds[crate] for crate in open_ones), pace * chain) / 60
        return f"{self.all - len(open_ones)} of {self.all}, about {minutes:.0f} minutes more"

    def run(self) -> int:
        with ThreadPoolExecutor(self.jobs) as pool:
            while self.running or self.left and not self.failed:
                if not self.failed:
                    self.start(pool)
                self.take()
        for crate in self.failed:
            with open(f"{crate.folder}/out/prove.log", encoding="utf-8", errors="replace") as log:
                print(f"== {crate.name}", *log.read().splitlines()[-30:], sep="\n")
        return 1 if self.failed else 0


def prove(crate: Any, jobs: int) -> tuple[int, float]:
    """Proves and builds a library over what earlier checks kept. Gives rattle's status and the seconds that it took."""
    since = time.monotonic()
    os.makedirs(f"{crate.folder}/out", exist_ok=True)
    with open(f"{crate.folder}/out/prove.log", "w", encoding="utf-8") as crate.out:
        return crate.build_rlib(["--jobs", str(jobs)], anew=False), time.monotonic() - since


def main() -> int:
    words = argparse.ArgumentParser()
    words.add_argument("--jobs", type=int, default=len(os.sched_getaffinity(0)), help="processors to use")
    words.add_argument("--dry-run", action="store_true", help="says what is to be proved, and proves nothing")
    words.add_argument("crate")
    given = words.parse_args()
    rtlib = kit()
    if rtlib is None:
        print("beside rt stands no rtlib that is known here", file=sys.stderr)
        return 3
    signal.signal(signal.SIGINT, signal.SIG_DFL)
    rtlib.guarded()  # what is started ends with this process
    remember_stamps(rtlib)
    crates = {crate.name: crate for crate in rtlib.crates_below(os.getcwd())}
    if given.crate not in crates:
        words.error(f"crates.txt lists no crate {given.crate}")
    build = Build(rtlib, crates[given.crate].below(), max(1, given.jobs))
    if given.dry_run:
        for crate in build.left:
            print(f"{crate.name}: {build.chain[crate]} s from here up, {build.needs[crate] / GIGABYTE:.1f} GB a job")
        return 0
    rtlib.lock(crates.values())  # until this process ends
    return build.run()


if __name__ == "__main__":
    sys.exit(main())
