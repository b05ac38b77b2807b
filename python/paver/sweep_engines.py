"""What runs the tasks of a sweep: processes of this machine, a Dask cluster, job arrays of Slurm, or any executor. Queues,
placement, limits of time and what is tried again after a machine's death are the engine's own."""
from __future__ import annotations

import json
import os
import re
import shlex
import signal
import subprocess
import sys
import threading
import time
from concurrent.futures import FIRST_COMPLETED, CancelledError, Executor, Future, ThreadPoolExecutor, wait
from functools import partial
from importlib import import_module
from pathlib import Path
from typing import Any, Dict, List, Optional, Protocol, Sequence, Set, Tuple, Union

from .sweep_checks import refused
from .sweep_plan import Record
from .sweep_task import whole_file

ENGINES = ("processes", "dask", "slurm")
MOST_WORKERS = 64  # that are counted on where Slurm has more processors
PATIENCE = 120  # seconds for a call of Slurm's clients
LONGEST_NAP = 10.0  # seconds between two looks at Slurm's queue
SCRIPT = Path(__file__).resolve().with_name("sweep_task.py")
QUIET: Dict[str, Any] = {"stdin": subprocess.DEVNULL, "stdout": subprocess.PIPE, "stderr": subprocess.PIPE}
Ended = List[Tuple[str, str]]
Words = List[str]
Element = Tuple[str, str]  # of a job array of Slurm: the job's number, and its own


class Engine(Protocol):
    """Starts tasks and tells which ended, each by its name with what it said on standard error."""
    workers: int

    def start(self, tasks: Sequence[Record]) -> None:
        """Has tasks done, in any order and on any machine."""

    def ended(self, seconds: float) -> Ended:
        """The tasks that ended since the last call; it waits that long at most for one."""

    def going(self) -> List[str]:
        """The names of tasks that an earlier call over the same folder has started and that are still under way."""

    def stop(self) -> None:
        """Lets go of all that is under way."""


def words_of(folder: Path, task: Record) -> Words:
    """The words of a process that does a task."""
    return [sys.executable, str(SCRIPT), str(folder), json.dumps(task)]


class Executors:
    """An executor of concurrent.futures, or one with the same calls. A task is a process that a worker starts, so workers need
    no package; what they need is that Python, the package's folder, the program and the sweep's folder at the same places."""

    def __init__(self, folder: Path, executor: Executor, workers: int) -> None:
        self.folder, self.executor, self.workers = folder, executor, workers
        self.under_way: Dict["Future[Any]", str] = {}

    def _call(self, task: Record, **where: Any) -> "Future[Any]":
        return self.executor.submit(partial(subprocess.run, words_of(self.folder, task), check=False, **QUIET), **where)

    def start(self, tasks: Sequence[Record]) -> None:
        try:
            for task in tasks:
                self.under_way[self._call(task)] = task["name"]
        except RuntimeError as fault:  # as of an executor that is shut or broken
            raise OSError(f"the engine takes no tasks: {fault}") from fault

    def ended(self, seconds: float) -> Ended:
        done, _ = wait(self.under_way, timeout=seconds, return_when=FIRST_COMPLETED)
        return [(self.under_way.pop(future), said(future)) for future in done]

    def going(self) -> List[str]:
        return []

    def stop(self) -> None:
        for future in self.under_way:
            future.cancel()


def said(future: "Future[Any]") -> str:
    """What a task's process wrote on standard error, or why the engine lost it; nothing where it did its work."""
    try:
        fault = future.exception()
    except CancelledError:
        return "the engine let go of it"
    if fault is not None:
        return f"{type(fault).__name__}: {fault}"
    done = future.result()
    if done.returncode == 0:
        return ""
    return str(done.stderr.decode("utf-8", "replace").strip()) or f"its process ended with status {done.returncode}"


class Processes(Executors):
    """Processes of this machine."""

    def __init__(self, folder: Path, workers: Optional[int]) -> None:
        count = workers or len(os.sched_getaffinity(0))
        super().__init__(folder, ThreadPoolExecutor(count), count)
        self.children: List["subprocess.Popen[bytes]"] = []
        self.stopped, self.lock = False, threading.Lock()

    def _call(self, task: Record, **where: Any) -> "Future[Any]":
        return self.executor.submit(self._run, words_of(self.folder, task))

    def _run(self, words: Words) -> "subprocess.CompletedProcess[bytes]":
        child = self._begun(words)
        if child is None:
            return subprocess.CompletedProcess(words, 1, b"", b"stopped")
        with child:
            out, err = child.communicate()
        self.children.remove(child)
        return subprocess.CompletedProcess(words, child.returncode, out, err)

    def _begun(self, words: Words) -> Optional["subprocess.Popen[bytes]"]:
        """A task's process; None from `stop` on, which has to know of each that was begun before."""
        with self.lock:
            if self.stopped:
                return None
            child = subprocess.Popen(words, start_new_session=True, **QUIET)  # pylint: disable=consider-using-with
            self.children.append(child)
            return child

    def stop(self) -> None:
        with self.lock:
            self.stopped = True
        super().stop()
        for child in list(self.children):
            try:
                os.killpg(child.pid, signal.SIGTERM)
            except ProcessLookupError:
                continue
        self.executor.shutdown()


class Dask(Executors):
    """A cluster of dask.distributed: that of an address, else that of DASK_SCHEDULER_ADDRESS, else one on this machine."""

    def __init__(self, folder: Path, workers: Optional[int], address: Optional[str]) -> None:
        try:
            distributed = import_module("distributed")
        except ImportError as fault:
            raise ImportError(f"the engine dask needs the package `distributed` in {sys.executable}") from fault
        self.client: Any = distributed.Client(address)
        threads = sum(self.client.nthreads().values())
        super().__init__(folder, self.client.get_executor(retries=2, pure=False), workers or threads or 1)
        self.begun: Set[str] = set()
        self.turn = 0

    def _call(self, task: Record, **where: Any) -> "Future[Any]":
        """A task that was lost goes from worker to worker in turn: left to itself the cluster may give the last one each time
        to the same, whose disk is full."""
        addresses = sorted(self.client.nthreads()) if task["name"] in self.begun else []
        self.begun.add(task["name"])
        if not addresses:
            return super()._call(task)
        self.turn += 1
        return super()._call(task, workers=[addresses[self.turn % len(addresses)]], allow_other_workers=True)

    def stop(self) -> None:
        super().stop()
        self.client.close()


def client_of_slurm(*words: str) -> str:
    """What a client of Slurm prints. OSError where it fails."""
    try:
        done = subprocess.run(words, stdin=subprocess.DEVNULL, stdout=subprocess.PIPE, stderr=subprocess.PIPE, text=True,
                              timeout=PATIENCE, check=False)
    except FileNotFoundError as fault:
        raise OSError(f"the engine slurm needs the command {words[0]}") from fault
    except subprocess.TimeoutExpired as fault:
        raise OSError(f"{words[0]}: no answer in {PATIENCE} seconds") from fault
    if done.returncode != 0:
        raise OSError(f"{words[0]}: {done.stderr.strip() or done.returncode}")
    return done.stdout


class Slurm:
    """Job arrays of Slurm, one element a task. Which element does which task is kept in the sweep's folder, so a later call
    finds what is still in the queue."""

    def __init__(self, folder: Path, workers: Optional[int], more: Sequence[str] = ()) -> None:
        self.folder, self.more, self.place = folder, list(more), folder / "slurm"
        self.place.mkdir(exist_ok=True)
        found = re.search(r"^MaxArraySize\s*=\s*(\d+)", client_of_slurm("scontrol", "show", "config"), re.M)
        self.most = int(found.group(1)) if found else 1001
        self.workers = workers or self._processors()
        self.under_way: Dict[Element, str] = {}
        self.nap = 0.2

    @staticmethod
    def _processors() -> int:
        counts = re.findall(r"/(\d+)$", client_of_slurm("sinfo", "-h", "-o", "%C"), re.M)
        return max(1, min(MOST_WORKERS, sum(map(int, counts))))

    def start(self, tasks: Sequence[Record]) -> None:
        for k in range(0, len(tasks), self.most):
            self._submit(tasks[k:k + self.most])

    def _submit(self, tasks: Sequence[Record]) -> None:
        """A job array has the name of the file that lists its tasks, so that the queue tells of a job all that a later call
        wants, from the moment that it is in there."""
        listed = self.place / f"paver-sweep-{time.time_ns()}.tasks"
        with whole_file(str(listed)) as file:
            file.write("".join(json.dumps(task) + "\n" for task in tasks))
        script = " ".join(["exec", *map(shlex.quote, [sys.executable, str(SCRIPT), str(self.folder), str(listed)]),
                           '"$SLURM_ARRAY_TASK_ID"'])
        job = client_of_slurm("sbatch", "--parsable", "--cpus-per-task=1", *self.more, f"--array=0-{len(tasks) - 1}",
                              f"--job-name={listed.stem}", f"--output={self.place}/%A_%a.out", "--wrap", script)
        number = job.strip().partition(";")[0]
        self.under_way.update({(number, str(k)): task["name"] for k, task in enumerate(tasks)})
        self.nap = 0.2

    def _queued(self) -> Dict[Element, str]:
        """The array elements of this user that have not ended, and the names of their jobs."""
        lines = client_of_slurm("squeue", "-h", "-r", "--me", "-o", "%F %K %j").splitlines()
        return {(words[0], words[1]): words[2] for words in map(str.split, lines) if len(words) == 3}

    def ended(self, seconds: float) -> Ended:
        time.sleep(min(self.nap, max(seconds, 0.2)))
        self.nap = min(LONGEST_NAP, self.nap * 1.2)
        try:
            queued = self._queued()
        except OSError:  # a controller that is busy or begun anew: it is asked again
            return []
        gone = [element for element in self.under_way if element not in queued]
        self.nap = 0.2 if gone else self.nap
        return [(self.under_way.pop(element), self._said(element)) for element in gone]

    def _said(self, element: Element) -> str:
        """The last line that a task wrote; nothing where it wrote none."""
        try:
            lines = (self.place / f"{element[0]}_{element[1]}.out").read_text("utf-8", "replace").splitlines()
        except OSError:
            lines = []
        return lines[-1] if lines else ""

    def going(self) -> List[str]:
        listed = {path.stem: path for path in self.place.glob("*.tasks")}
        if listed:
            queued = {element: listed[job] for element, job in self._queued().items() if job in listed}
            try:
                names = {path: [str(json.loads(line)["name"]) for line in path.read_text("utf-8").splitlines()]
                         for path in set(queued.values())}
                self.under_way.update({element: names[path][int(element[1])] for element, path in queued.items()})
            except (LookupError, TypeError, ValueError) as fault:
                raise refused(self.place, f"a list of tasks is damaged: {fault!r}", "damaged") from fault
        return list(self.under_way.values())

    def stop(self) -> None:
        """What is in the queue goes on: the same call of the sweep finds it."""


def need_engine(engine: Union[str, Executor], address: Optional[str], sbatch: str) -> None:
    """ValueError for a name that is no engine's, or where an option is not the engine's."""
    if isinstance(engine, str) and engine not in ENGINES:
        raise ValueError(f"the engine {engine!r}: one of {', '.join(ENGINES)}, or in Python an executor")
    if address is not None and engine != "dask":
        raise ValueError("an address is taken with the engine dask alone")
    if sbatch and engine != "slurm":
        raise ValueError("options of sbatch are taken with the engine slurm alone")


def engine_of(engine: Union[str, Executor], folder: Path, workers: Optional[int], address: Optional[str],
              sbatch: str) -> Engine:
    """The engine of a name, or of an executor."""
    if engine == "processes":
        return Processes(folder, workers)
    if engine == "dask":
        return Dask(folder, workers, address)
    if engine == "slurm":
        return Slurm(folder, workers, shlex.split(sbatch))
    assert not isinstance(engine, str)
    return Executors(folder, engine, workers or int(getattr(engine, "_max_workers", 0)) or os.cpu_count() or 1)
