"""Campaigns over a disk that loses power: the system calls of a real campaign on its database and its log are recorded, and
after each of them the machine stops. What had not been synced then is lost, kept, kept in part, torn at sectors, or kept in
another order, in each file for itself; stops in the first opening, in commits, in a checkpoint under way and at the end are
among them. Or files fail from a call on. From whatever is left the campaign goes on: it has all rounds that were safe, whole
rounds, and at the end one worker's rows.

    [COUNT=2 SEED=1] python3 -m tests.runners.crashes [-k WORD]

COUNT is how often each stop is tried in each way that is drawn at random. What needs strace is skipped where there is none.
"""
from __future__ import annotations

import os
import random
import re
import shutil
import subprocess
from collections import Counter
from dataclasses import dataclass
from pathlib import Path
from typing import Dict, Iterable, Iterator, List, Optional, Sequence, Tuple

from tests.data.cases import RECIPROCAL
from tests.runners.campaigns import DISC, FAULT, QUARTER, ROWS, WHOLE_SUMMARY, is_stage, stock
from tests.runners.running import SECONDS, Answered, FolderTest, made_cases, main

SECTOR = 512
FILES = ("k", "k-wal")
READS = "pread64,fstat"
CALLS = "pwrite64,ftruncate,fdatasync,fsync"
CALLED = re.compile(r'(\d+ +)?(\w+)\(\d+<([^>]*)>(?:, "((?:\\x[0-9a-f]{2})*)"(\.\.\.)?, \d+, (\d+)|, (\d+))?\) += (-?\d+)')
ONE_WORKER = ["--workers", "1"]

FileCall = Tuple[str, "re.Match[str]"]  # the file's name, and the call as it was recorded


@dataclass
class Step:
    """A call on one of the files: bytes that were written at a place, a new length, or, with neither, a sync."""

    name: str
    at: int = 0
    data: Optional[bytes] = None
    length: Optional[int] = None


def do(content: bytearray, step: Step) -> None:
    """Does a step to a file's content."""
    if step.data is not None:
        content.extend(bytes(max(0, step.at - len(content))))
        content[step.at:step.at + len(step.data)] = step.data
    elif step.length is not None:
        del content[step.length:]
        content.extend(bytes(step.length - len(content)))


def after(content: bytes, steps: Iterable[Step]) -> bytes:
    """A file's content after some steps."""
    made = bytearray(content)
    for step in steps:
        do(made, step)
    return bytes(made)


@dataclass
class File:
    """What a disk surely has of a file, and what it was told since."""

    safe: bytes = b""
    since: Tuple[Step, ...] = ()

    def after(self, step: Step) -> File:
        """The file after a further step on it."""
        if step.data is None and step.length is None:
            return File(self.seen())
        return File(self.safe, (*self.since, step))

    def seen(self) -> bytes:
        """What the file holds for whoever reads it."""
        return after(self.safe, self.since)


def sectors(step: Step) -> List[Step]:
    """A write in parts, each within a sector."""
    if step.data is None:
        return [step]
    ends = range(step.at - step.at % SECTOR + SECTOR, step.at + len(step.data), SECTOR)
    cuts = [step.at, *ends, step.at + len(step.data)]
    return [Step(step.name, low, step.data[low - step.at:high - step.at]) for low, high in zip(cuts, cuts[1:])]


class Losses:
    """What a stop may leave of a file."""

    def __init__(self, source: random.Random) -> None:
        self.source = source

    def ways(self) -> Sequence[str]:
        """The names of the ways; from the third on they are drawn at random."""
        return ("lost", "kept", "front", "some", "torn", "moved", "garbage")

    def left(self, file: File, way: str) -> bytes:
        """What is left of a file in a way."""
        if way == "lost":
            return file.safe
        if way == "kept":
            return file.seen()
        steps = list(file.since)
        if way == "front":
            steps = steps[:self.source.randrange(len(steps) + 1)]
        elif way == "some":
            steps = [step for step in steps if self.source.random() < 0.5]
        else:
            steps = [part for step in steps for part in sectors(step) if self.source.random() < 0.5]
            if way == "moved":
                self.source.shuffle(steps)
        content = after(file.safe, steps)
        if way == "garbage" and len(content) > len(file.safe):
            content = self.soiled(file, steps, content)
        return content

    def soiled(self, file: File, steps: Sequence[Step], content: bytes) -> bytes:
        """The content with any bytes where the file grew and nothing was written that was kept."""
        kept = bytearray(len(content))
        for step in steps:
            if step.data is not None:
                kept[step.at:step.at + len(step.data)] = b"\1" * len(step.data)
        noise = self.source.randbytes(len(content))
        return bytes(byte if at < len(file.safe) or kept[at] else noise[at] for at, byte in enumerate(content))


class Crashes(FolderTest):
    """Campaigns that are recorded, stopped and gone on with."""

    def setUp(self) -> None:
        super().setUp()
        self.tries, seed = made_cases(2)
        self.source = random.Random(seed)
        self.losses = Losses(self.source)
        if not shutil.which("strace") or subprocess.run(["strace", "-o", os.devnull, "true"], check=False,
                                                        capture_output=True).returncode:
            self.skipTest("no system call can be watched here")

    def words(self, options: Sequence[str], rounds: int, boxes: int) -> List[str]:
        return ["campaign", "s", "--keep=k", *ONE_WORKER, *options, "--rounds", str(rounds), "--boxes", str(boxes)]

    def watched(self, words: Sequence[str], options: Sequence[str] = ()) -> Tuple[Answered, List[FileCall]]:
        """What a campaign comes to, and its calls on its files, in their order, but for those that failed."""
        log = self.path / "log"
        watched = ["strace", "-f", "-y", "-xx", "-s", str(1 << 22), "-qq", "-e", f"trace={READS},{CALLS}", "-o", str(log)]
        done = subprocess.run([*watched, *options, self.program, *words], cwd=self.path, capture_output=True, check=False,
                              timeout=SECONDS)
        lines = log.read_text().splitlines()
        log.unlink()
        self.assertFalse([line for line in lines if "unfinished" in line[-40:]], "two calls at a time")
        found = [called for called in map(CALLED.fullmatch, map(str.strip, lines)) if called]
        names = [Path(bytes.fromhex(called[3].replace("\\x", "")).decode() if "\\x" in called[3] else called[3]).name
                 for called in found]
        return (done.returncode, done.stdout, done.stderr), [call for call in zip(names, found) if call[0] in FILES]

    def recorded(self, words: Sequence[str]) -> List[Step]:
        """The calls of a campaign that change or sync a file."""
        steps = [step for call in self.watched(words)[1] for step in self.steps_of(*call)]
        self.assertGreater(len(steps), 20, "no calls were recorded")
        return steps

    def steps_of(self, name: str, called: "re.Match[str]") -> Iterator[Step]:
        """The step that a call is, unless it reads."""
        if called[2] in READS.split(","):
            return
        if called[2] == "pwrite64":
            data = bytes.fromhex((called[4] or "").replace("\\x", ""))
            self.assertFalse(called[5], "the record is cut off")
            yield Step(name, int(called[6]), data[:int(called[8])])
        elif called[2] == "ftruncate":
            yield Step(name, length=int(called[7]))
        else:
            yield Step(name)

    def stops(self, files: Dict[str, File], steps: Sequence[Step]) -> Iterator[Dict[str, File]]:
        """The files before the first step and after each."""
        yield dict(files)
        for step in steps:
            files[step.name] = files[step.name].after(step)
            yield dict(files)

    def count_in(self, left: Dict[str, bytes], words: Sequence[str], whole: List[Tuple[str, str]], title: str) -> int:
        """How many nodes the files hold that a stop left, where all but one count as all: a campaign opens them and settles
        one node more. The rows are those of a stage of the tree."""
        for name, content in left.items():
            self.put(name, content)
        done_with = self.call(*words[:-3], "1", *words[-2:-1], "1")
        self.assertIn((done_with.returncode, done_with.stderr), ((0, b""), (1, b"")), f"{title}: {done_with}")
        sound, _, rows = stock(self.path, "k")
        self.assertTrue(sound, title)
        self.assertTrue(is_stage(rows, set(whole), 1), f"{title}: the rows of no stage")
        return len(rows) - done_with.returncode

    def survives(self, stop: Dict[str, File], words: Sequence[str], whole: List[Tuple[str, str]], title: str) -> None:
        """Whatever a stop leaves has all rounds that were safe and no more than were told, and comes to the same end."""
        boxes = int(words[-1])
        safe = self.count_in({name: file.safe for name, file in stop.items()}, words, whole, f"{title}, lost")
        told = self.count_in({name: file.seen() for name, file in stop.items()}, words, whole, f"{title}, kept")
        for way in self.losses.ways():
            for _ in range(self.tries if way not in ("lost", "kept") else 1):
                left = {name: self.losses.left(file, way) for name, file in stop.items()}
                count = self.count_in(left, words, whole, f"{title}, {way}")
                self.assertIn(count, (safe, told), f"{title}, {way}: other rounds than those that were safe, or told")
                self.assertTrue(count % boxes == 0 or count == len(whole), f"{title}, {way}: {count} nodes are no whole rounds")
        ended = self.call(*words[:-3], "100", *words[-2:-1], str(max(boxes, len(whole) // 50)))
        self.assertEqual((ended.returncode, ended.stderr), (0, b""), f"{title}: {ended}")
        self.assertEqual(stock(self.path, "k")[2], whole, f"{title}: other rows at the end")

    def begin(self, text: bytes, files: Dict[str, bytes]) -> Dict[str, File]:
        for name in FILES:
            (self.path / name).unlink(missing_ok=True)
        self.put("s", text)
        for name, content in files.items():
            self.put(name, content)
        return {name: File(files.get(name, b"")) for name in FILES}

    def whole(self, options: Sequence[str]) -> List[Tuple[str, str]]:
        """One worker's rows, kept in one round."""
        words = ["campaign", "s", "--keep=whole", *ONE_WORKER, *options]
        self.assertEqual(self.call(*words, "--boxes", "100000").returncode, 0)
        rows: List[Tuple[str, str]] = stock(self.path, "whole")[2]
        for name in ("whole", "whole-wal"):
            (self.path / name).unlink(missing_ok=True)
        return rows

    def test_every_stop_of_a_short_campaign(self) -> None:
        """Five rounds over a new database, from the first opening to the close."""
        words = self.words(QUARTER, 5, 1)
        files = self.begin(RECIPROCAL, {})
        whole = self.whole(QUARTER)
        self.assertEqual(whole, ROWS)
        steps = self.recorded(words)
        for number, stop in enumerate(self.stops(files, steps)):
            with self.subTest(stop=number):
                self.survives(stop, words, whole, f"stop {number} of {len(steps)}")

    def test_stops_in_a_checkpoint(self) -> None:
        """A campaign whose log is copied into the database under way: each stop in the copying, and some of the others."""
        options = ["--eps", "0.03125"]
        words = self.words(options, 100, 40)
        files = self.begin(DISC, {})
        whole = self.whole(options)
        steps = self.recorded(words)
        copying = [number for number, step in enumerate(steps) if step.name == "k"]
        self.assertGreater(len({number // 50 for number in copying}), 2, "the log was copied at the end alone")
        chosen = {number + by for number in copying for by in (0, 1)}
        if len(chosen) > 60:
            chosen = set(self.source.sample(sorted(chosen), 60))
        chosen |= set(self.source.sample(range(len(steps)), 40))
        for number, stop in enumerate(self.stops(files, steps)):
            if number in chosen:
                with self.subTest(stop=number):
                    self.survives(stop, words, whole, f"stop {number} of {len(steps)}")

    def failing(self, names: Sequence[str], calls: Sequence[Tuple[str, str]],
                words: Sequence[str]) -> Tuple[Answered, List[FileCall]]:
        """A campaign on new files, of which these fail from the call on that comes behind the ones that are named."""
        self.begin(RECIPROCAL, {})
        counts = Counter(call for name, call in calls if name in names)
        changes = [f"inject={call}:error=EIO:when={counts[call] + 1}+" for call in f"{READS},{CALLS}".split(",")]
        options = [*(word for change in changes for word in ("-e", change)),
                   *(word for name in names for word in ("-P", str(self.path.resolve() / name)))]
        return self.watched(words, options)

    def test_files_that_fail_from_each_call_on(self) -> None:
        """The log, the database or both fail from each of their calls on: a campaign of five rounds tells the fault, unless
        all rounds were saved, and writes nothing more. With all lost that was not synced it has the rounds that were saved,
        and goes on to the end."""
        words = self.words(QUARTER, 5, 1)
        files = self.begin(RECIPROCAL, {})
        called = self.watched(words)[1]
        calls = [(name, call[2]) for name, call in called]
        stops = [dict(files), *self.behind(files, called)]
        saves = self.saves(calls)
        for names, by in ((["k-wal"], 1), (["k"], 1), (["k", "k-wal"], 4)):
            for number in [number for number, (name, _) in enumerate(calls) if name in names][::by]:
                with self.subTest(" ".join(names), number=number, call=calls[number]):
                    saved = sum(save < number for save in saves)
                    given, made = self.failing(names, calls[:number], words)
                    self.assertEqual(given, (0, WHOLE_SUMMARY, b"") if saved == len(saves) else (10, b"", FAULT))
                    stop = stops[number]
                    for last in self.behind({name: File() for name in names}, made):
                        stop = {**stop, **last}
                    self.lose(stop, names)
                    self.keeps(saved, words)

    def behind(self, files: Dict[str, File], called: Sequence[FileCall]) -> Iterator[Dict[str, File]]:
        """Files behind each of these calls."""
        for name, call in called:
            for step in self.steps_of(name, call):
                files[name] = files[name].after(step)
            yield dict(files)

    def saves(self, calls: Sequence[Tuple[str, str]]) -> List[int]:
        """The syncs that end the saves of five rounds, between which the log alone is called: the last ones before it is read
        and copied into the database."""
        copied = calls.index(("k-wal", "pread64"))
        saves = [number for number, call in enumerate(calls[:copied]) if call == ("k-wal", "fdatasync")][-5:]
        self.assertEqual({name for name, _ in calls[saves[0]:saves[-1]]}, {"k-wal"}, calls)
        self.assertTrue({"k", "k-wal"} <= {name for name, _ in calls[:saves[0]]}, calls)
        return saves

    def lose(self, stop: Dict[str, File], failed: Sequence[str]) -> None:
        """Files that are as they were when some of them failed lose what was not synced. The log's salts are other ones in each
        run, so one that didn't fail stays, and has nothing to lose."""
        for name, file in stop.items():
            left = self.get(name) if (self.path / name).exists() else b""
            if name == "k" or name in failed:
                self.assertTrue(left == file.seen(), f"{name} was written to behind the fault")
                self.put(name, file.safe)
            else:
                self.assertEqual((len(left), file.since), (len(file.safe), ()))

    def keeps(self, saved: int, words: Sequence[str]) -> None:
        """The rows are those of the rounds that were saved, and maybe of one more. A campaign goes on to the end."""
        rows = stock(self.path, "k")[2]
        self.assertTrue(is_stage(rows, set(ROWS), 1), rows)
        self.assertIn(len(rows), {saved, min(saved + 1, len(ROWS))})
        self.assertEqual(self.answered(*words), (0, WHOLE_SUMMARY, b""))
        self.assertEqual(stock(self.path, "k")[2], ROWS)


if __name__ == "__main__":
    main()
