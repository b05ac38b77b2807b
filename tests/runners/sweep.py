"""Runs `python3 -m paver sweep` over real engines: processes, executors, a Dask cluster of four workers, and a Slurm of two
nodes, all on this machine. Tasks, workers, a driver are killed, disks are full, files are damaged; the one paving in the end
has the same bytes as one `run` by one worker.

    [ONLY=WORD] python3 -m tests.runners.sweep [-k WORD]

An engine that isn't there is skipped by name.
"""
from __future__ import annotations

import functools
import itertools
import json
import os
import random
import shutil
import signal
import subprocess
import sys
import tempfile
import threading
import time
import unittest
from concurrent.futures import ProcessPoolExecutor, ThreadPoolExecutor
from contextlib import contextmanager
from fractions import Fraction
from pathlib import Path
from typing import Any, Callable, Iterator

import paver
from paver import sweep_plan, sweep_task
from tests.data.reader_cases import canonical
from tests.reference import files, minibex
from tests.reference.commands import Call
from tests.runners.outside import RING
from tests.runners.running import SECONDS, TOP, FolderTest, main, rows

EPS = "0.03"  # of the ring, which then has some 3,000 nodes
WORKERS = "2"
SHARES = 16
HELD = ("1", "7")  # the tasks that are killed: a tenth of all, joins counted
DASK_PYTHON = "/usr/bin/python3"  # for which Debian has its package
SKIPPED = 77
# A program whose shares and joins take numbers from 0 on, in the order in which they begin. One waits while the folder `gate`
# has a file `held-NUMBER`, and then `waits-NUMBER` holds the process of its task, or while the number in `closed` is its own or
# lower. So tests meet tasks under way, however slow or fast the machine is.
GATE = """#!/bin/sh
case "$*" in
*--share=*--out=* | merge' '*)
    number=0
    until mkdir "{gate}/$number" 2> /dev/null; do number=$((number + 1)); done
    if [ -e "{gate}/held-$number" ]; then
        echo $PPID > "{gate}/told-$number" && mv "{gate}/told-$number" "{gate}/waits-$number"
    fi
    while [ -e "{gate}/held-$number" ]; do sleep 0.02; done
    while [ "$number" -ge "$(cat "{gate}/closed" 2> /dev/null || echo 1000000)" ]; do sleep 0.02; done ;;
esac
exec '{paver}' "$@"
"""
# Settings that are not those of a folder: the option, its value, and what the folder has.
OTHER_SETTINGS = [("depth", "59", "60"), ("bisect", "round", "largest"), ("contract", "hc4(0)", "prop(8)"),
                  ("form", "centered", "plain")]
# Words that are refused, and a phrase of the line.
ODD_WORDS = [(["s"], "sweep SYSTEM --folder FOLDER"), (["--folder", "F"], "sweep SYSTEM --folder FOLDER"),
             (["s", "--folder", "F", "--boxes", "0"], "boxes 0: a whole number"),
             (["s", "--folder", "F", "--address", "tcp://127.0.0.1:1"], "with the engine dask alone"),
             (["s", "--folder", "F", "--sbatch=-n1"], "with the engine slurm alone"),
             (["none", "--folder", "F"], "no file: none"), (["--status", "none"], "there is no sweep")]
# Keeps the second word's folder on a small disk of its own for the words behind it.
SMALL_DISK = 'mount -t tmpfs -o size=4k none "$1" && shift && exec "$@"'


class Sweeps(FolderTest):
    """A folder with a system, its paving by one `run`, and sweeps over it."""

    def setUp(self) -> None:
        super().setUp()
        self.put("s", RING)
        self.environment = {**os.environ, "PYTHONPATH": str(TOP / "python"), "PAVER": self.program}

    @functools.cached_property
    def wanted(self) -> bytes:
        """The bytes of one run by one worker."""
        done = self.call("run", "s", "--eps", EPS, "--workers", "1", "--boxes", "100000", "--out", "one")
        self.assertEqual(done.returncode, 0, done)
        return self.get("one")

    def words(self, *more: str, folder: str = "F", eps: str = EPS, system: str = "s",
              python: str = sys.executable) -> list[str]:
        return [python, "-m", "paver", "sweep", system, "--folder", folder, "--eps", eps, "--workers", WORKERS, "--shares",
                str(SHARES), *more]

    def begun(self, *more: str, **how: str) -> subprocess.Popen[str]:
        """A call of the driver that goes on beside the test."""
        return subprocess.Popen(self.words(*more, **how), cwd=self.path, env=self.environment, stdin=subprocess.DEVNULL,
                                stdout=subprocess.PIPE, stderr=subprocess.PIPE, text=True)

    def swept(self, *more: str, **how: str) -> tuple[int, str, str]:
        """The status of a call of the driver, and what it printed."""
        with self.begun(*more, **how) as child:
            out, err = child.communicate(timeout=SECONDS)
        return child.returncode, out, err

    def wants_whole(self, *more: str, **how: str) -> str:
        """A call of the driver comes to its end with the bytes of one run; what it printed."""
        status, out, err = self.swept(*more, **how)
        self.assertEqual((status, err), (0, ""), out)
        self.assertTrue(self.get("F/whole.paving") == self.wanted, "other bytes")
        return out

    def wants_refused(self, phrase: str, *more: str, **how: str) -> None:
        """A call of the driver is refused in one line with this phrase."""
        status, out, err = self.swept(*more, **how)
        self.assertEqual((status, out, err.count("\n")), (2, "", 1), err)
        self.assertIn(phrase, err)

    def waits(self, child: subprocess.Popen[str], ready: Callable[[], bool]) -> None:
        """Waits for something while a call of the driver goes on."""
        until = time.monotonic() + SECONDS
        while True:
            over = child.poll() is not None or time.monotonic() > until
            if ready():
                return
            if over:
                child.kill()
                self.fail(f"the driver ended before, or nothing came of it: {child.communicate()}")
            time.sleep(0.01)

    def waits_for_shares(self, child: subprocess.Popen[str], count: int) -> None:
        self.waits(child, lambda: len([*self.path.glob("F/records/share-*.json")]) >= count)

    @property
    def manifest(self) -> Any:
        return json.loads(self.get("F/manifest.json"))

    def attempts(self) -> int:
        """How often tasks were begun again."""
        return sum(record["attempts"] - 1 for record in self.manifest["tasks"].values())

    # ---- a program whose tasks wait

    def gated(self) -> None:
        """From here on the program is one whose tasks may be held: see GATE."""
        gate, program = self.path / "gate", self.path / "gated"
        if not program.exists():
            program.write_text(GATE.replace("{paver}", self.program).replace("{gate}", str(gate)))
            program.chmod(0o755)
        shutil.rmtree(gate, ignore_errors=True)
        gate.mkdir()
        self.environment["PAVER"] = str(program)

    def close_gate(self, first: int) -> None:
        """Lets only so many tasks pass."""
        (self.path / "gate" / f".{first}").write_text(f"{first}\n")
        (self.path / "gate" / f".{first}").rename(self.path / "gate" / "closed")

    def open_gate(self) -> None:
        """Lets all tasks pass."""
        (self.path / "gate" / "closed").unlink()

    @contextmanager
    def killing(self, workers: bool = False) -> Iterator[list[int]]:
        """Kills the tasks that HELD names while they are under way, or the workers that started them; gives what was killed."""
        killed: list[int] = []
        waiting, over = dict.fromkeys(HELD), threading.Event()
        for number in waiting:
            self.put(f"gate/held-{number}", b"")

        def watch() -> None:
            while waiting and not over.wait(0.005):
                for number in [number for number in waiting if (self.path / "gate" / f"waits-{number}").exists()]:
                    task = int(self.get(f"gate/waits-{number}"))
                    killed.append(parent_of(task) if workers else task)
                    os.kill(killed[-1], signal.SIGKILL)
                    (self.path / "gate" / f"held-{number}").unlink()
                    del waiting[number]

        thread = threading.Thread(target=watch)
        thread.start()
        try:
            yield killed
        finally:
            over.set()
            thread.join()
            for number in waiting:
                (self.path / "gate" / f"held-{number}").unlink()


def parent_of(process: int) -> int:
    """The process that started one."""
    return int(Path(f"/proc/{process}/stat").read_text().rsplit(")", 1)[1].split()[1])


def tasks_of(folder: Path) -> list[int]:
    """The processes of tasks over a folder."""
    found = []
    for place in Path("/proc").glob("[0-9]*"):
        try:
            words = (place / "cmdline").read_bytes().split(b"\0")
        except OSError:
            continue
        if str(sweep_task.__file__).encode() in words and str(folder).encode() in words:
            found.append(int(place.name))
    return found


# ---- the plan, and shares

class Plans(unittest.TestCase):
    """The joins that are planned, with nothing run."""

    def test_joins_by_eights(self) -> None:
        """For each number of shares: each goes once into the whole, and no join takes more than eight or fewer than one."""
        first = {"out": "first.paving", "sha256": "", "counts": {"settled": 1}}
        for shares in (*range(1, 80), 511, 512, 513, 4097):
            with self.subTest(shares=shares):
                plan = sweep_plan.Plan(first, shares)
                waiting: list[Any] = [plan.whole]
                reached = []
                while waiting:
                    part = waiting.pop()
                    if isinstance(part, sweep_plan.Share):
                        reached.append(part.share[0])
                    else:
                        few = range(1, 9) if shares <= 8 else range(1, 3)
                        self.assertIn(len(part.parts), few if part is plan.whole else range(2, 9), part.name)
                        waiting += part.parts
                self.assertEqual(sorted(reached), [*range(shares)])
                self.assertEqual(len({part.name for part in plan.parts()}), shares + len(plan.joins))


def with_share(stage: Any, whole: Any, number: int, of: int) -> tuple[Any, int]:
    """A stage with the leaves of a share as they are in the whole, and how many leaves it has."""
    count = itertools.count()

    def grown(one: Any, other: Any) -> Any:
        if one[0] == "O":
            return other if next(count) % of == number else one
        return (*one[:4], *[grown(*pair) for pair in zip(one[4:], other[4:])])
    return grown(stage, whole), next(count)


class Shares(Sweeps):
    """Shares of a stage, whose bytes are those of the independent reader's trees; what a budget left open is told."""

    def setUp(self) -> None:
        super().setUp()
        self.reference = Call(minibex.read(RING.decode()), canonical(RING.decode()), eps=Fraction(EPS))
        self.call("run", "s", "--eps", EPS, "--workers", "1", "--boxes", "40", "--order", "level", "--out", "first")
        self.stage = self.reference.read("first", self.get("first"))

    def run_share(self, number: int) -> None:
        """A share by a budget that is enough, to `t` and its number, and by one that isn't, to `cut` and its number."""
        tree, count = with_share(self.stage, self.reference.read("one", self.wanted), number, 3)
        others = sum(k % 3 != number for k in range(count))
        for name, budget, status in ((f"t{number}", "90000", 0), (f"cut{number}", "7", 1)):
            done = self.call("resume", "s", "first", "--share", f"{number}/3", "--eps", EPS, "--workers", "1", "--out", name,
                             "--boxes", budget)
            self.assertEqual(done.returncode, status, (name, done))
            left, own = sweep_task.left_open(str(self.path / "first"), str(self.path / name), [number, 3], None)
            self.assertEqual(left, files.counts(self.reference.read(name, self.get(name)))["O"], name)
            self.assertEqual(left, others + len(own), name)
            self.assertEqual(bool(own), status == 1, name)
        self.assertTrue(self.get(f"t{number}") == self.reference.write(tree), "another file")

    def test_shares_settle_their_leaves(self) -> None:
        """Whatever shares were run, in whatever order and however often they are joined, with all of them done the join is
        the whole."""
        for number in range(3):
            self.run_share(number)
        names = ["first", *[f"{kind}{number}" for kind in ("t", "cut") for number in range(3)]]
        for seed in range(6):
            joined = random.Random(seed).sample(names, 4 + seed % 4)
            full = {"t0", "t1", "t2"} <= set(joined)
            done = self.call("merge", "s", *joined, "--eps", EPS, "--out", "joined")
            self.assertEqual(done.returncode, 0 if full else 1, (joined, done))
            self.assertEqual(self.get("joined") == self.wanted, full, joined)


# ---- processes and executors

class Processes(Sweeps):
    """Sweeps by processes of this machine, and by executors."""

    def test_bytes_of_one_run(self) -> None:
        out = self.wants_whole("--audit")
        summary = self.call("run", "s", "--eps", EPS, "--boxes", "100000", "--out", "two").stdout.decode()
        self.assertTrue(out.startswith(summary) and out.endswith("honest\n"), out)
        manifest = self.manifest
        self.assertEqual(manifest["identity"], paver.check(self.path / "s", program=self.program).identity(eps=EPS))
        shares = [record for name, record in manifest["tasks"].items() if name.startswith("share-")]
        first = manifest["first"]["counts"]
        self.assertEqual([record["status"] for record in shares], [0] * SHARES)
        self.assertLessEqual(SHARES, first["open"])
        self.assertEqual(first["settled"] + sum(record["new"] for record in shares), int(summary.split()[1]))
        self.assertEqual([*self.path.glob("F/*/.*")], [])
        self.assertEqual(self.swept("--status", "F")[:2], (0, out))
        times = {path: path.stat().st_mtime_ns for path in self.path.glob("F/*/*.paving")}
        self.assertEqual(self.wants_whole(), out)
        self.assertEqual({path: path.stat().st_mtime_ns for path in times}, times)
        found = paver.Paving.read(self.path / "F/whole.paving", system=self.path / "s", program=self.program)
        self.assertEqual(found.counts()["open"], 0)

    def test_any_executor_does(self) -> None:
        made: Any
        for made in (ThreadPoolExecutor, ProcessPoolExecutor):
            with self.subTest(made.__name__), made(2) as executor:
                seen: list[Any] = []
                found = paver.sweep(self.path / "s", self.path / made.__name__, eps=EPS, engine=executor, shares=9,
                                    tell=seen.append, program=self.program)
                self.assertTrue(found.out.read_bytes() == self.wanted, "other bytes")
                self.assertEqual(found.counts["open"], 0)
                self.assertEqual(found.paving().counts(), found.counts)
                self.assertEqual((seen[-1].shares_done, seen[-1].shares), (9, 9))
                self.assertGreater(found.hours, 0)
                self.assertTrue(0 <= found.idle < 1, found.idle)
                self.assertEqual(found.greatest["seconds"], max(record["seconds"] for record in found.shares))

    def test_numbers_of_shares(self) -> None:
        """One share, two, and more shares than leaves, where the first stage is the whole."""
        for count, eps in ((1, EPS), (2, EPS), (1000, "0.1")):
            with self.subTest(shares=count):
                status, _, err = self.swept("--shares", str(count), eps=eps, folder=f"G{count}")
                self.assertEqual((status, err), (0, ""))
                if eps == EPS:
                    self.assertTrue(self.get(f"G{count}/whole.paving") == self.wanted, "other bytes")
                else:
                    manifest = json.loads(self.get(f"G{count}/manifest.json"))
                    self.assertEqual((manifest["shares"], manifest["first"]["counts"]["open"]), (1, 0))

    def test_forms(self) -> None:
        for eps, form in (("4", "plain"), ("0.1", "centered")):
            with self.subTest(form):
                self.call("run", "s", "--eps", eps, "--form", form, "--boxes", "100000", "--workers", "1", "--out", "other")
                status, _, err = self.swept("--form", form, eps=eps, folder=form)
                self.assertEqual((status, err), (0, ""))
                self.assertTrue(self.get(f"{form}/whole.paving") == self.get("other"), "other bytes")

    def test_budgets_are_dealt_again(self) -> None:
        """A budget of few nodes ends most shares, some of them again."""
        out = self.wants_whole("--boxes", "90", "--shares", "8")
        tasks = self.manifest["tasks"]
        self.assertLessEqual(max(record["new"] for record in tasks.values()), 90)
        again = [name for name, record in tasks.items() if record["status"] == 1 and sweep_plan.is_share(name)]
        self.assertGreater(len(again), 8)
        self.assertIn(f" {len(again)} of them dealt again", out)

    def test_a_limit_is_told(self) -> None:
        """Where the whole is larger than the limit, the sweep ends with the program's line."""
        self.wants_refused("tree limit", "--limit", "100000", eps="0.0005")


# ---- what goes wrong

def one_digit(data: bytes) -> bytes:
    at = data.index(b" 1:", 90)
    return data[:at] + b" 3:" + data[at + 3:]


def other_identity(data: bytes) -> bytes:
    return data.replace(b"identity ", b"identity 0")[:len(data)]


class Faults(Sweeps):
    """Tasks and drivers that are killed, other questions, damaged files and a full disk."""

    def test_killed_tasks_run_again(self) -> None:
        """A tenth of the tasks are killed under way."""
        self.gated()
        with self.killing() as killed:
            self.wants_whole()
        self.assertEqual((len(killed), self.attempts()), (len(HELD), len(HELD)))

    def test_a_killed_driver_goes_on(self) -> None:
        """The driver is killed when some shares are done: they stay as they are, and the same call does the rest."""
        self.gated()
        self.close_gate(6)
        with self.begun() as child:
            self.waits_for_shares(child, 6)
            child.kill()
        done = {path: path.stat().st_mtime_ns for path in self.path.glob("F/shares/share-*.paving")}
        self.assertEqual(len(done), 6)
        status, out, _ = self.swept("--status", "F")
        self.assertEqual((status, out[:7]), (1, "shares "), out)
        self.open_gate()
        self.wants_whole()
        self.assertEqual({path: path.stat().st_mtime_ns for path in done}, done)

    def test_an_interrupted_driver_says_so(self) -> None:
        self.gated()
        self.close_gate(1)
        with self.begun() as child:
            self.waits_for_shares(child, 1)
            child.send_signal(signal.SIGTERM)
            _, err = child.communicate(timeout=SECONDS)
        self.assertEqual((child.returncode, err), (1, "paver: interrupted: the same call goes on with what F has\n"))
        self.assertEqual(tasks_of(self.path / "F"), [], "tasks are left")
        self.open_gate()
        self.wants_whole()

    def contents(self) -> dict[Path, bytes]:
        return {path: path.read_bytes() for path in self.path.glob("F/**/*") if path.is_file()}

    def test_other_questions_are_refused(self) -> None:
        """Another system, each other setting, another deal and another folder are refused by name, and change nothing."""
        self.wants_whole()
        self.put("t", RING.replace(b"4", b"5"))
        before = self.contents()
        self.wants_refused("is of another system: that of s", system="t")
        self.wants_refused("its eps is 0.03, and 0.25 is given", eps="0.25")
        for name, value, kept in OTHER_SETTINGS:
            self.wants_refused(f"its {name} is {kept}, and {value} is given", f"--{name}", value)
        self.wants_refused("was dealt in 16 shares, and 7 are given", "--shares", "7")
        self.assertTrue(before == self.contents(), "files were changed")
        self.wants_whole(eps="0.0300")
        self.wants_refused("isn't empty: name another folder", folder=".")

    def test_odd_words_are_refused(self) -> None:
        """Each in one line, before anything is done."""
        for words, phrase in rows(ODD_WORDS):
            with self.subTest(words):
                done = subprocess.run([sys.executable, "-m", "paver", "sweep", *words], cwd=self.path, env=self.environment,
                                      capture_output=True, text=True, timeout=SECONDS, check=False)
                self.assertEqual((done.returncode, done.stdout, done.stderr.count("\n")), (2, "", 1), done.stderr)
                self.assertIn(phrase, done.stderr)
                self.assertFalse((self.path / "F").exists())
        for engine in rows(["other", "threads"]):
            with self.subTest(engine), self.assertRaisesRegex(ValueError, "one of processes, dask, slurm"):
                paver.sweep(self.path / "s", self.path / "F", engine=engine, program=self.program)

    def test_damaged_files_are_refused(self) -> None:
        """A file that was changed between tasks is refused by its name; taken away it is made again."""
        self.wants_whole()
        self.call("run", "s", "--eps", "0.5", "--out", "foreign")
        share, first, whole = (self.path / "F" / name for name in ("shares/share-0003.paving", "first.paving", "whole.paving"))
        spoils: list[tuple[str, Path, Callable[[bytes], bytes]]] = [
            ("a digit of a share", share, one_digit), ("a share that is cut", share, lambda data: data[:-2]),
            ("a foreign share", share, lambda data: self.get("foreign")), ("a digit of the first stage", first, one_digit),
            ("the whole of another identity", whole, other_identity), ("an empty whole", whole, lambda data: b"")]
        for name, path, spoil in spoils:
            with self.subTest(name):
                good = path.read_bytes()
                for part in ("join-1-0000", "whole") if path != whole else ():
                    for lost in (f"records/{part}.json", f"shares/{part}.paving", "whole.paving"):
                        (self.path / "F" / lost).unlink(missing_ok=True)
                path.write_bytes(spoil(good))
                self.wants_refused(f"paving {path}: ")
                path.unlink()
                self.wants_whole()
                self.assertTrue(path.read_bytes() == good, "another file")

    def test_a_full_disk_is_told(self) -> None:
        """Where the shares' disk is full the call ends with the program's line; with room again the same call goes on."""
        place = self.path / "F" / "shares"
        self.gated()
        self.close_gate(0)
        with self.begun("--shares", "8") as child:
            self.waits(child, place.exists)
            mount = ["mount", "-t", "tmpfs", "-o", "size=16k", "none", str(place)]
            is_mounted = subprocess.run(mount, capture_output=True, check=False).returncode == 0
            self.open_gate()
            if not is_mounted:
                child.kill()
                self.skipTest("nothing can be mounted here")
            try:
                _, err = child.communicate(timeout=SECONDS)
                self.assertEqual((child.returncode, err.count("\n")), (2, 1), err)
                self.assertIn("was lost 5 times: write fault: ", err)
                subprocess.run(["mount", "-o", "remount,size=10m", str(place)], check=True)
                self.wants_whole("--shares", "8")
            finally:
                subprocess.run(["umount", str(place)], check=True)


# ---- clusters

class Clusters(Sweeps):
    """Sweeps by the engines of clusters, which are brought up here."""

    def cluster(self, tool: str, *words: str) -> str:
        """The folder of an engine that is here until the test ends; its variables come into the environment."""
        script, place = str(TOP / "tests" / "runners" / f"{tool}_here.sh"), tempfile.mkdtemp()
        started = subprocess.run([script, "start", place, *words], capture_output=True, text=True, timeout=SECONDS, check=False)
        if started.returncode == SKIPPED:
            os.rmdir(place)
            self.skipTest(f"there is no {tool} here")
        self.assertEqual(started.returncode, 0, started)
        self.addCleanup(lambda: subprocess.run([script, "stop", place], capture_output=True, timeout=SECONDS, check=True))
        told = subprocess.run([script, "env", place], capture_output=True, text=True, check=True).stdout
        for line in told.splitlines():
            name, _, value = line.removeprefix("export ").partition("=")
            self.environment[name] = value
        return place

    def put_away(self, name: str) -> None:
        """What was swept gets another name, so that the next sweep begins anew."""
        (self.path / "F").rename(self.path / f"before_{name}")

    def test_dask(self) -> None:
        """A cluster of four workers: as it is, with workers killed under way, and with a worker more whose disk is full."""
        place, how = self.cluster("dask", "4"), {"python": DASK_PYTHON}
        with self.subTest("as it is"):
            self.wants_whole("--engine", "dask", **how)
            self.assertTrue(all(record["host"] for record in self.manifest["tasks"].values()))
            self.assertEqual(self.attempts(), 0)
        with self.subTest("workers are killed"):
            self.put_away("killed")
            self.gated()
            with self.killing(workers=True) as killed:
                self.wants_whole("--engine", "dask", **how)
            self.assertEqual(len(killed), len(HELD))
        with self.subTest("one disk is full"):
            self.put_away("full")
            self.one_disk_is_full(place, ["--engine", "dask"], how)

    def one_disk_is_full(self, place: str, words: list[str], how: dict[str, str]) -> None:
        """The shares' folder of a fifth worker is a small disk of its own, in a mount namespace of its own."""
        self.gated()
        self.close_gate(1)
        with self.begun(*words, **how) as child:
            self.waits_for_shares(child, 1)
            child.kill()
        worker = [DASK_PYTHON, "-m", "distributed.cli.dask_worker", "--scheduler-file", f"{place}/scheduler.json", "--host",
                  "127.0.0.1", "--dashboard-address", "127.0.0.1:0", "--no-dashboard", "--name", "full", "--nthreads", "1",
                  "--no-nanny", "--local-directory", place]
        with open(self.path / "log", "wb") as log, subprocess.Popen(
                ["unshare", "-m", "sh", "-c", SMALL_DISK, "sh", str(self.path / "F" / "shares"), *worker], cwd=self.path,
                env={**self.environment, "DASK_HERE": place}, stdin=subprocess.DEVNULL, stdout=log, stderr=log) as full:
            until = time.monotonic() + SECONDS
            while b"Registered to" not in self.get("log"):
                if full.poll() is not None or time.monotonic() > until:
                    full.kill()
                    self.skipTest(f"there is no mount namespace here: {self.get('log')[-200:]!r}")
                time.sleep(0.05)
            self.open_gate()
            try:
                self.wants_whole(*words, **how)
            finally:
                full.terminate()
        told = [path.name for path in self.path.glob("F/records/*") if "write fault" in path.read_text()]
        self.assertTrue(told or self.attempts() > 0, "it took no task")

    def test_slurm(self) -> None:
        """Two nodes of two processors: as it is, with tasks killed under way, and with a driver that is killed."""
        self.cluster("slurm", "2", "2")
        words = ["--engine", "slurm", "--sbatch=--mem=50M"]
        with self.subTest("as it is"):
            self.wants_whole("--engine", "slurm", "--sbatch", "--mem=50M --time=5")
            self.assertEqual(self.attempts(), 0)
        with self.subTest("tasks are killed"):
            self.put_away("killed")
            self.gated()
            with self.killing() as killed:
                self.wants_whole(*words)
            self.assertEqual((len(killed), self.attempts()), (len(HELD), len(HELD)))
        with self.subTest("the driver is killed"):
            self.put_away("driver")
            self.driver_is_killed(words)

    def driver_is_killed(self, words: list[str]) -> None:
        """What is in the queue goes on without the driver, and the next call finds it there: no share is given out twice."""
        self.gated()
        self.close_gate(4)
        with self.begun(*words) as child:
            self.waits_for_shares(child, 4)
            child.kill()
        self.open_gate()
        self.wants_whole(*words)
        given = [json.loads(line)["name"] for path in self.path.glob("F/slurm/*.tasks")
                 for line in path.read_text().splitlines()]
        self.assertEqual(len(given), len(set(given)), given)
        self.assertEqual(self.attempts(), 0, given)


if __name__ == "__main__":
    main()
