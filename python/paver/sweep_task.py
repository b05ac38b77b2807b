"""One task of a sweep, on whichever machine an engine chose: a share that is settled, or a join. It is run by its path, and
wants this file, the program and the folder of the sweep at the same places on each machine, and nothing else of the package:

    python3 sweep_task.py FOLDER TASK              TASK is a JSON object
    python3 sweep_task.py FOLDER LIST NUMBER       TASK is that line of a file, counted from 0

It stores its answer under a name of its own, renames it, and then writes records/NAME.json in the same way. So a task may be
killed at any moment, come late or run twice at once. Its status is 0 where the answer is stored, also where leaves are open.
"""
from __future__ import annotations

import hashlib
import json
import os
import re
import resource
import signal
import socket
import stat
import subprocess
import sys
import time
from concurrent.futures import ThreadPoolExecutor
from contextlib import contextmanager
from types import FrameType
from typing import Any, Dict, Iterator, List, NamedTuple, Optional, TextIO, Tuple

SUMMARY = re.compile(r"settled (\d+) cut (\d+) removed (\d+) inner (\d+) small (\d+) open (\d+)\n\Z", re.A)
FIELDS = ("settled", "cut", "removed", "inner", "small", "open")
LETTERS = (b"C", b"X", b"I", b"S", b"O")  # of the nodes in a stored paving, one a line and nowhere else, in the order of FIELDS
HEAD = re.compile(rb"paving [12]\nidentity ([0-9a-f]{64})\n")
SYSTEM = "system.mbx"
REFUSED, READ_FAULT, WRITE_FAULT, NO_MEMORY, TREE_LIMIT = 4, 5, 6, 7, 8  # statuses of the program
BRAKE = 1  # seconds after a fault of the machine: one whose disk is full shall not take the tasks of all others
CHUNK = 1 << 20
NEW = ".part"  # ends the name of a file that takes its own place only when it is whole
REMEDY = "take it away, and the next call makes it again"
running: List["subprocess.Popen[str]"] = []


class Fault(Exception):
    """A call of the program that stored nothing: its status and its line, and the file that is refused."""

    def __init__(self, status: int, line: str, name: str = "") -> None:
        super().__init__(line)
        self.status, self.line, self.name = status, line, name


# ---- files that are there whole or not at all: the whole package takes these two from here, as this file stands alone

@contextmanager
def in_place_of(target: str) -> Iterator[Tuple[int, str]]:
    """A new file beside a target: its descriptor, which the caller closes, and its name. It takes the target's place where the
    block ends well, and is taken away where it doesn't. The name holds 64 random bits and is made exclusively, so that no link
    that another put there is followed."""
    name = os.path.join(os.path.dirname(target), f".{os.urandom(8).hex()}{NEW}")
    number = os.open(name, os.O_WRONLY | os.O_CREAT | os.O_EXCL | os.O_NOFOLLOW | os.O_CLOEXEC, 0o666)
    try:
        yield number, name
        os.replace(name, target)
    except BaseException:
        if os.path.lexists(name):
            os.unlink(name)
        raise


@contextmanager
def whole_file(target: str) -> Iterator[TextIO]:
    """The same as a file of text, which is on the disk before it takes the target's place."""
    with in_place_of(target) as (number, _):
        with open(number, "w", encoding="utf-8") as file:
            yield file
            file.flush()
            os.fsync(file.fileno())


class Facts(NamedTuple):
    """What a look through a file tells: its SHA-256, its length, and of a stored paving its identity and its counts."""
    sha256: str
    bytes: int
    identity: str
    counts: Dict[str, int]


def facts_of(path: str) -> Facts:
    """The facts of a regular file. Fault where it can't be read; nothing else is waited for."""
    found, length, numbers, head = hashlib.sha256(), 0, [0] * len(LETTERS), b""
    try:
        with open(os.open(path, os.O_RDONLY | os.O_NONBLOCK | os.O_CLOEXEC), "rb") as file:
            if not stat.S_ISREG(os.fstat(file.fileno()).st_mode):
                raise OSError("it is no regular file")
            for chunk in iter(lambda: file.read(CHUNK), b""):
                found.update(chunk)
                length, head = length + len(chunk), head or chunk[:100]
                numbers = [number + chunk.count(letter) for number, letter in zip(numbers, LETTERS)]
    except OSError as fault:
        raise Fault(READ_FAULT, f"read fault: {path}") from fault
    told = HEAD.match(head)
    return Facts(found.hexdigest(), length, told.group(1).decode() if told else "",
                 dict(zip(FIELDS, [sum(numbers[:-1]), *numbers])))


def need_stored(path: str, stored: Dict[str, Any], identity: str) -> None:
    """Fault where a file isn't the paving of the sweep's identity that a record tells of."""
    found = facts_of(path)
    if found.sha256 != stored["sha256"]:
        raise Fault(REFUSED, f"paving {path}: it is not what its task stored: {REMEDY}", path)
    if found.identity != identity:
        raise Fault(REFUSED, f"paving {path}: it has another identity than the sweep: {REMEDY}", path)
    if found.counts != stored["counts"]:
        raise Fault(REFUSED, f"paving {path}: its record has other counts: {REMEDY}", path)


def need_text(folder: str, digest: str) -> None:
    """Fault where the system's text in a folder isn't that with which the sweep began."""
    path = os.path.join(folder, SYSTEM)
    if facts_of(path).sha256 != digest:
        raise Fault(REFUSED, f"{path}: it is not the text with which the sweep began: put that back", path)


def called(words: List[str]) -> Tuple[int, Dict[str, int]]:
    """The status, 0 or 1, and the counts of a call of the program that stores its paving."""
    with subprocess.Popen(words, stdin=subprocess.DEVNULL, stdout=subprocess.PIPE, stderr=subprocess.PIPE, text=True,
                          env={**os.environ, "PAVER_HINTS": "0"}) as child:
        running.append(child)
        out, line = child.communicate()
        running.remove(child)
    counts = SUMMARY.match(out)
    if child.returncode not in (0, 1) or counts is None:
        raise Fault(child.returncode, line.rstrip("\n") or f"the program ended with status {child.returncode}")
    return child.returncode, dict(zip(FIELDS, map(int, counts.groups())))


def open_paths(path: str) -> Iterator[str]:
    """The paths of a stored paving's open leaves in preorder, a digit a step."""
    at: List[str] = []
    with open(path, encoding="ascii") as file:
        file.readline()
        file.readline()
        for line in file:
            if line.startswith("C"):
                at.append("0")
                continue
            if line == "O\n":
                yield "".join(at)
            while at and at[-1] == "1":
                at.pop()
            if at:
                at[-1] = "1"


def left_open(opening: str, answer: str, share: List[int], leaves: Optional[List[int]]) -> Tuple[int, List[int]]:
    """How many leaves of a share's answer are open, and the numbers of those that are at or below the share: all others are
    open leaves of the opening, whose paths are the same."""
    own = set(leaves or ())
    others = [path for number, path in enumerate(open_paths(opening))
              if (number not in own if leaves is not None else number % share[1] != share[0])]
    others.append("none")
    count, found, at = 0, [], 0
    for path in open_paths(answer):
        if path == others[at]:
            at += 1
        else:
            found.append(count)
        count += 1
    return count, found


def steps_of(task: Dict[str, Any]) -> List[Tuple[int, int]]:
    """The shares that a task settles one after the other. Of single leaves the last comes first: once nothing below it is open,
    those before it have their numbers still, and one fewer is open in all."""
    if task["leaves"] is None:
        return [(task["share"][0], task["share"][1])]
    return [(number, task["share"][1] - k) for k, number in enumerate(sorted(task["leaves"], reverse=True))]


def settle(task: Dict[str, Any], folder: str, own: str) -> Dict[str, Any]:
    """Settles a share, at most the task's budget of nodes, into a file of its own name."""
    opening = os.path.join(folder, task["inputs"][0]["out"])
    current, settled, status, counts = opening, task["settled"], 0, dict(task["counts"])
    for number, of in steps_of(task):
        left = task["boxes"] - (counts["settled"] - settled)
        if counts["settled"] == task["limit"]:
            raise Fault(TREE_LIMIT, f"tree limit: {counts['settled']} settled")
        if left == 0:
            status = 1
            break
        words = [task["program"], "resume", *task["words"], f"--share={number}/{of}", "--workers=1",
                 f"--boxes={min(left, task['limit'] - counts['settled'])}", f"--out={own}", "--", task["system"], current]
        status, counts = called(words)
        current = own
        if status == 1:
            break
    found: Dict[str, Any] = {"status": status, "counts": counts, "new": counts["settled"] - settled, "share": task["share"]}
    if status == 1:
        found["of"], found["left"] = left_open(opening, own, task["share"], task["leaves"])
    return found


def join(task: Dict[str, Any], folder: str, own: str) -> Dict[str, Any]:
    """Joins files into one of its own name."""
    names = [os.path.join(folder, each["out"]) for each in task["inputs"]]
    status, counts = called([task["program"], "merge", *task["words"], f"--out={own}", "--", task["system"], *names])
    return {"status": status, "counts": counts, "new": 0}


def need_inputs(task: Dict[str, Any], folder: str) -> None:
    """Fault where the system's text or one of a task's files isn't what the sweep has it for."""
    need_text(folder, task["system_sha256"])
    for each in task["inputs"]:
        need_stored(os.path.join(folder, each["out"]), each, task["identity"])


def answered(task: Dict[str, Any], folder: str, own: str) -> Dict[str, Any]:
    """Does a task by the program, while its files are looked through: what isn't whole is told before what the program says."""
    with ThreadPoolExecutor(1) as beside:
        looked = beside.submit(need_inputs, task, folder)
        try:
            return (settle if task["kind"] == "share" else join)(task, folder, own)
        finally:
            looked.result()


def performed(task: Dict[str, Any], folder: str) -> Dict[str, Any]:
    """Does a task, and gives its record."""
    began, clock = time.time(), time.monotonic()
    out = os.path.join(folder, task["out"])
    with in_place_of(out) as (number, own):
        os.close(number)
        found = answered(task, folder, own)
        facts = facts_of(own)
        if facts.identity != task["identity"]:
            need_text(folder, task["system_sha256"])
            raise Fault(REFUSED, f"paving {out}: what is stored there would have another identity than the sweep", out)
        if facts.counts != found["counts"]:
            raise Fault(REFUSED, f"paving {out}: what is stored there would have other counts than the program told", out)
        found.update(out=task["out"], sha256=facts.sha256, bytes=facts.bytes)
    used = resource.getrusage(resource.RUSAGE_CHILDREN)
    found.update(name=task["name"], host=socket.gethostname(), began=round(began, 3),
                 seconds=round(time.monotonic() - clock, 3), processor=round(used.ru_utime + used.ru_stime, 3),
                 memory=used.ru_maxrss)
    return found


def written(folder: str, name: str, record: Dict[str, Any]) -> None:
    """Writes a record, whole."""
    with whole_file(os.path.join(folder, "records", f"{name}.json")) as file:
        file.write(json.dumps(record) + "\n")


def task_of(words: List[str]) -> Dict[str, Any]:
    """The task that the words after the folder give."""
    if len(words) == 1:
        text = words[0]
    else:
        with open(words[0], encoding="utf-8") as file:
            text = file.read().splitlines()[int(words[1])]
    found: Dict[str, Any] = json.loads(text)
    return found


def end_child(number: int, _frame: Optional[FrameType]) -> None:
    """Ends the program with the task."""
    for child in running:
        child.kill()
    sys.exit(128 + number)


def main(words: List[str]) -> int:
    signal.signal(signal.SIGTERM, end_child)
    folder, task = words[0], task_of(words[1:])
    try:
        written(folder, task["name"], performed(task, folder))
    except (Fault, OSError) as fault:
        told = vars(fault) if isinstance(fault, Fault) else {"status": WRITE_FAULT, "line": f"write fault: {fault}", "name": ""}
        if told["status"] in (READ_FAULT, WRITE_FAULT, NO_MEMORY):
            time.sleep(BRAKE)
        print(json.dumps(told), file=sys.stderr)
        try:
            written(folder, task["name"], {"name": task["name"], "fault": told})
        except OSError:  # the same disk is full: what was printed tells it
            pass
        return 1
    return 0


if __name__ == "__main__":
    sys.exit(main(sys.argv[1:]))
