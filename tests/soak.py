"""Looks for faults of the program for as long as it is told: runs the runners that make their cases, with another seed each
time, until its hours are over.

    python3 -m tests.soak --hours H [--jobs N] [--seed S] [--log FILE] [STREAM..]

at the top of the repository, with `python` on PYTHONPATH and the program as PAVER (./paver where it isn't set). H may be a
fraction. A line is written for each turn, with the words that repeat it, and all that a turn printed that failed; at the end
a line for each stream and one that counts. The status is 1 if anything failed. A turn that is under way when the hours are
over is ended; what it had found counts.
"""
from __future__ import annotations

import argparse
import os
import random
import re
import shutil
import signal
import subprocess
import sys
import tempfile
import threading
import time
from collections import Counter
from collections.abc import Sequence
from dataclasses import dataclass, field
from pathlib import Path
from typing import IO

TOP = Path(__file__).resolve().parents[1]
PATIENCE = 30  # seconds for a turn that was told to end
LONGEST = 3600  # seconds of a turn; one that takes longer hangs
COUNTED = re.compile(r"^(\d+) passed, (\d+) failed", re.M)


@dataclass(frozen=True)
class Stream:
    """A runner, how many cases a turn of it makes, and a word of its tests where it isn't all of them."""

    runner: str
    count: int
    word: str = ""

    @property
    def name(self) -> str:
        return f"{self.runner}:{self.word}" if self.word else self.runner

    def words(self) -> list[str]:
        return ["-m", f"tests.runners.{self.runner}", *(["-k", self.word] if self.word else [])]


# A runner of the C interface has its place here.
STREAMS = (
    Stream("fuzz_systems", 30), Stream("fuzz_options", 25), Stream("faulty_calls", 12, "faults"),
    Stream("faulty_calls", 25, "kills"), Stream("schedules", 15), Stream("fuzz_files", 1500), Stream("fuzz_databases", 300),
    Stream("fuzz_reader", 1500), Stream("fuzz_words", 800), Stream("allocations", 15), Stream("campaign_allocations", 25),
    Stream("crashes", 1, "short"), Stream("stores", 1, "killed_r"), Stream("campaigns", 1, "kill"),
)


@dataclass
class Turn:
    """One run of a stream's runner by a seed, and what came of it."""

    stream: Stream
    seed: int
    seconds: float = 0.0
    passed: int = 0
    failed: int = 0
    is_ended: bool = False  # before it came to its end, as the hours were over
    printed: str = field(default="", repr=False)

    def line(self) -> str:
        words = " ".join(["python3", *self.stream.words()])
        ended = " (ended)" if self.is_ended else ""
        return (f"{time.strftime('%H:%M:%S')} {self.seconds:6.0f} s  {self.passed:6} passed, {self.failed} failed{ended}  "
                f"COUNT={self.stream.count} SEED={self.seed} {words}")

    def judge(self, status: int) -> None:
        """Counts by what was printed. A runner that ends badly without a count has failed once."""
        counts = COUNTED.findall(self.printed)
        if counts and not self.is_ended:
            self.passed, self.failed = map(int, counts[-1])
        if self.is_ended:
            self.failed = self.printed.count("FAILED ")
        elif status and not self.failed:
            self.failed = 1


class Soak:
    """Streams that take turns until a moment."""

    def __init__(self, streams: Sequence[Stream], seed: int, until: float, log: IO[str] | None) -> None:
        self.streams, self.seed, self.until, self.log = streams, seed, until, log
        self.turns: list[Turn] = []
        self.begun = 0
        self.lock = threading.Lock()
        self.is_over = threading.Event()

    def tell(self, text: str) -> None:
        """Prints a line, and writes it to the log."""
        with self.lock:
            for file in (sys.stdout, self.log):
                if file:
                    print(text, file=file, flush=True)

    def next(self) -> Turn:
        """The next turn: each stream in its order, by a seed of its own."""
        with self.lock:
            number, self.begun = self.begun, self.begun + 1
        source = random.Random(f"{self.seed} {number}")
        return Turn(self.streams[number % len(self.streams)], source.randrange(1, 1 << 31))

    def is_time(self) -> bool:
        return time.monotonic() >= self.until or self.is_over.is_set()

    def work(self, folder: str) -> None:
        """Takes turns until the hours are over."""
        while not self.is_time():
            turn = self.next()
            own = tempfile.mkdtemp(dir=folder)
            self.take(turn, own)
            shutil.rmtree(own, ignore_errors=True)  # another user's file may be in it
            self.turns.append(turn)
            self.tell(turn.line() if not turn.failed else f"{turn.line()}\n{turn.printed.rstrip()}")

    def take(self, turn: Turn, own: str) -> None:
        """Runs a turn; its files lie in a folder of its own."""
        since = time.monotonic()
        environment = {**os.environ, "COUNT": str(turn.stream.count), "SEED": str(turn.seed), "TMPDIR": own}
        with tempfile.TemporaryFile(dir=own) as printed:
            with subprocess.Popen([sys.executable, *turn.stream.words()], cwd=TOP, env=environment, stdin=subprocess.DEVNULL,
                                  stdout=printed, stderr=subprocess.STDOUT, start_new_session=True) as child:
                status = self.awaited(child, turn, since)
            printed.seek(0)
            turn.printed = printed.read().decode(errors="replace")
        turn.seconds = time.monotonic() - since
        turn.judge(status)

    def awaited(self, child: subprocess.Popen[bytes], turn: Turn, since: float) -> int:
        """The status of a turn; it is ended where it is time. One that hangs has failed."""
        while (status := child.poll()) is None:
            hangs = time.monotonic() - since > LONGEST
            if hangs or self.is_time():
                turn.is_ended = not hangs
                return end(child)
            time.sleep(0.05)
        return status

    def run(self, jobs: int) -> None:
        """So many turns at once, until all is over."""
        folder = tempfile.mkdtemp(prefix="paver-soak-")
        workers = [threading.Thread(target=self.work, args=[folder]) for _ in range(jobs)]
        for worker in workers:
            worker.start()
        for worker in workers:
            worker.join()
        shutil.rmtree(folder, ignore_errors=True)

    def summary(self) -> list[str]:
        """A line for each stream, and one that counts."""
        lines = []
        for stream in self.streams:
            own = [turn for turn in self.turns if turn.stream == stream]
            counts: Counter[str] = Counter()
            for turn in own:
                counts.update(passed=turn.passed, failed=turn.failed)
            seconds = sum(turn.seconds for turn in own)
            lines.append(f"{stream.name:<24} {len(own):5} turns {seconds / 3600:6.2f} h {counts['passed']:9} passed, "
                         f"{counts['failed']} failed")
        hours = sum(turn.seconds for turn in self.turns) / 3600
        passed, failed = sum(turn.passed for turn in self.turns), sum(turn.failed for turn in self.turns)
        return [*lines, f"{hours:.2f} hours in all, seed {self.seed}", f"{passed} passed, {failed} failed"]


def end(child: subprocess.Popen[bytes]) -> int:
    """Ends a turn that is under way: as by the keyboard, so that it takes its files along, and else at once."""
    os.killpg(child.pid, signal.SIGINT)
    try:
        return child.wait(PATIENCE)
    except subprocess.TimeoutExpired:
        os.killpg(child.pid, signal.SIGKILL)
        return child.wait()


def chosen(names: Sequence[str]) -> list[Stream]:
    """The streams of these names, or all."""
    return [stream for stream in STREAMS if not names or stream.name in names or stream.runner in names]


def main() -> int:
    words = argparse.ArgumentParser(description="looks for faults of the program for some hours")
    words.add_argument("--hours", type=float, required=True)
    words.add_argument("--jobs", type=int, default=1, help="turns at once")
    words.add_argument("--seed", type=int, default=None, help="of all turns' seeds")
    words.add_argument("--log", type=Path, default=None, help="a file to which the lines are added")
    words.add_argument("stream", nargs="*", help=" ".join(stream.name for stream in STREAMS))
    given = words.parse_args()
    streams = chosen(given.stream)
    if not streams or not 0 < given.hours:
        words.error("no such stream, or no time")
    seed = given.seed if given.seed is not None else random.SystemRandom().randrange(1, 1 << 31)
    with open(given.log or os.devnull, "a", encoding="utf-8") as log:
        soak = Soak(streams, seed, time.monotonic() + 3600 * given.hours, log)
        for number in (signal.SIGINT, signal.SIGTERM):
            signal.signal(number, lambda *_: soak.is_over.set())
        soak.run(max(1, given.jobs))
        for line in soak.summary():
            soak.tell(line)
    return 1 if any(turn.failed for turn in soak.turns) else 0


if __name__ == "__main__":
    sys.exit(main())
