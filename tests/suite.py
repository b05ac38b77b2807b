"""Runs all runners on the program that is there, with a line each, and ends with 'N passed, M failed'.

    python3 -m tests.suite [--jobs N] [NAME..]     all runners, or those that are named

at the top of the repository, with `python` on PYTHONPATH. Most run side by side, one for each processor. Those that take
several processors or much memory, or start clusters whose ports are theirs alone, run by themselves afterwards. What a
runner printed is shown where it failed; what was skipped is listed at the end.
"""
from __future__ import annotations

import argparse
import importlib.util
import os
import re
import subprocess
import sys
import time
from collections.abc import Iterator, Sequence
from concurrent.futures import ThreadPoolExecutor, as_completed
from dataclasses import dataclass, field
from pathlib import Path

TOP = Path(__file__).resolve().parents[1]

# The longest come first.
SIDE_BY_SIDE = (
    "crashes", "package_tools", "package_answers", "rendered", "end_to_end", "shares", "campaigns", "allocations",
    "campaign_allocations", "fuzz_systems", "fuzz_words", "fuzz_files", "fuzz_reader", "fuzz_databases", "paving_files",
    "stores", "tables", "readme", "least_values", "package_control", "package_decide", "package_fit", "package_holes",
    "package_installed", "package_path", "package_robot", "package_checks", "package_pavings", "package_misuse",
    "package_refusals", "package_users", "package_parts", "package_stages", "package_around", "faulty_calls", "schedules",
    "fuzz_options", "soaking", "reader_table", "scenes", "formats", "forms", "hints", "reading", "listed",
)
ALONE = ("outside", "limits", "sizes", "workers", "progress", "sweep", "scaling", "test_view", "first_look")
# Modules of the folder that are no runners: what runners share, and one for several.
SHARED = ("test_python", "running", "browser", "package_test", "soundness", "trapping", "view_pixels")

COUNTED = re.compile(r"^(\d+) passed, (\d+) failed", re.M)
SKIPPED = re.compile(r"(^|: )skipped[:,]")


@dataclass(frozen=True)
class Ran:
    """What a runner came to."""
    name: str
    seconds: float
    passed: int
    failed: int
    printed: str = field(repr=False)

    def line(self) -> str:
        return f"{clock(self.seconds):>8}  {self.name:<20} {self.passed:6} passed, {self.failed} failed"

    def skipped(self) -> Iterator[str]:
        return (f"{self.name}: {line}" for line in self.printed.splitlines() if SKIPPED.search(line))


def clock(seconds: float) -> str:
    """Seconds as minutes and seconds."""
    return f"{int(seconds) // 60}:{int(seconds) % 60:02}"


def run(name: str, python: str = sys.executable, words: Sequence[str] = ()) -> Ran:
    """Runs a runner. One that ends badly without a count has failed once."""
    since = time.monotonic()
    done = subprocess.run([python, "-m", f"tests.runners.{name}", *words], cwd=TOP, stdin=subprocess.DEVNULL, text=True,
                          stdout=subprocess.PIPE, stderr=subprocess.STDOUT, errors="replace", check=False)
    counts = COUNTED.findall(done.stdout)
    passed, failed = map(int, counts[-1]) if counts else (0, 1)
    if done.returncode and not failed:
        failed = 1
    return Ran(name, time.monotonic() - since, passed, failed, done.stdout)


def told(ran: Ran) -> Ran:
    """Prints a runner's line, and all that it printed where it failed."""
    print(ran.line() if not ran.failed else f"{ran.printed.rstrip()}\n{ran.line()}", flush=True)
    return ran


def ran_all(names: Sequence[str], jobs: int) -> Iterator[Ran]:
    """Runs runners, those that may side by side first."""
    with ThreadPoolExecutor(jobs) as pool:
        for done in as_completed([pool.submit(run, name) for name in names if name not in ALONE]):
            yield told(done.result())
    for name in names:
        if name in ALONE:
            yield told(run(name))
    if "package_pavings" in names and (python := python_that_plots()):
        yield told(run("package_pavings", python, ["-k", "plots"]))


def python_that_plots() -> str | None:
    """The system's own Python where it alone has matplotlib."""
    other = "/usr/bin/python3"
    if importlib.util.find_spec("matplotlib") or not os.path.exists(other):
        return None
    return None if subprocess.run([other, "-c", "import matplotlib"], capture_output=True, check=False).returncode else other


def main() -> int:
    words = argparse.ArgumentParser(description="runs the tests of the program that is there")
    words.add_argument("--jobs", type=int, default=len(os.sched_getaffinity(0)), help="runners side by side")
    words.add_argument("name", nargs="*")
    given = words.parse_args()
    unknown = set(given.name) - {*SIDE_BY_SIDE, *ALONE}
    if unknown:
        words.error(f"no runner {sorted(unknown)[0]}: there are {' '.join(SIDE_BY_SIDE + ALONE)}")
    since = time.monotonic()
    results = list(ran_all(given.name or SIDE_BY_SIDE + ALONE, max(1, given.jobs)))
    for line in (line for ran in results for line in ran.skipped()):
        print(line)
    passed, failed = sum(ran.passed for ran in results), sum(ran.failed for ran in results)
    bad = " ".join(ran.name for ran in results if ran.failed)
    print(f"{clock(time.monotonic() - since):>8}  all runners{f'; failed: {bad}' if bad else ''}")
    print(f"{passed} passed, {failed} failed")
    return 1 if failed else 0


if __name__ == "__main__":
    sys.exit(main())
