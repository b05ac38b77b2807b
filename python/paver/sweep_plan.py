"""What a sweep has to do: shares of the open leaves of a first stage, joins by eights until eight files are left, and of these
by twos. Of it all no clock, process or machine is known here."""
from __future__ import annotations

from dataclasses import dataclass, field
from typing import Any, Callable, Dict, Iterator, List, Mapping, Optional, Union

EIGHT = 8  # files that one join takes, and parts into which a share that its budget ended is dealt
TWO = 2  # files that each of the last joins takes: they are large, and two take less than half the memory of eight
WHOLE = "whole"
Record = Dict[str, Any]


@dataclass
class Progress:
    """How far a sweep is: shares and joins that are done, of how many; shares that their budget ended and that were dealt
    again; tasks under way; nodes that are settled; seconds of all calls, and nodes a second of this one."""
    shares: int
    shares_done: int
    again: int
    joins: int
    joins_done: int
    under_way: int
    settled: int
    seconds: float
    rate: float


@dataclass
class Join:
    """A join of the answers of its parts, which are 1 to 8."""
    name: str
    parts: List[Part]
    record: Optional[Record] = None

    @property
    def answer(self) -> Optional[Record]:
        """The record of its file; None where it isn't there yet."""
        return self.record

    def take(self, record: Record) -> None:
        """Takes its task's record."""
        self.record = record

    def work(self) -> Iterator[Part]:
        """What can be done for it now: itself where all of its parts are there, else what is to be done for these."""
        if self.record is not None:
            return
        missing = [part for part in self.parts if part.answer is None]
        for part in missing:
            yield from part.work()
        if not missing:
            yield self


@dataclass
class Share:
    """A share of the open leaves of an opening: those whose number is share[0] modulo share[1], or single leaves by their
    numbers, of which there are share[1]. One that its budget ended goes on in parts, whose join stands for it."""
    name: str
    opening: Record
    share: List[int]
    leaves: Optional[List[int]] = None
    record: Optional[Record] = None
    again: Optional[Join] = field(default=None, repr=False)

    @property
    def answer(self) -> Optional[Record]:
        """The record of its file with no open leaf at or below it; None where it isn't there yet."""
        if self.record is None or self.record["status"] == 0:
            return self.record
        return self.again.answer if self.again is not None else None

    def take(self, record: Record) -> None:
        """Takes its task's record. Leaves that are left open are dealt in up to eight parts, each a share of its own."""
        self.record = record
        if record["status"] == 0:
            return
        left = record["left"]
        dealt = [left[k::EIGHT] for k in range(min(EIGHT, len(left)))]
        parts: List[Part] = [Share(f"{self.name}.{k}", record, [0, record["of"]], leaves) for k, leaves in enumerate(dealt)]
        self.again = Join(f"join-{self.name}", parts)

    def work(self) -> Iterator[Part]:
        """What can be done for it now: itself, or where its budget ended it what is to be done for its parts."""
        if self.record is None:
            yield self
        elif self.again is not None:
            yield from self.again.work()


Part = Union[Share, Join]


class Plan:
    """The parts of a sweep from its first stage's record and the number of shares on: the shares, and the joins of each
    level above them, of which the last is of one file."""

    def __init__(self, first: Record, shares: int) -> None:
        self.digits = max(4, len(str(shares - 1)))
        self.shares = [Share(f"share-{k:0{self.digits}d}", first, [k, shares]) for k in range(shares)]
        self.joins: List[Join] = []
        level: List[Part] = list(self.shares)
        depth = 0
        while len(level) > (TWO if depth else EIGHT):
            depth += 1
            level = self._joined(level, depth, EIGHT if len(level) > EIGHT else TWO)
        self.whole = Join(WHOLE, level)
        self.joins.append(self.whole)

    def _joined(self, level: List[Part], depth: int, by: int) -> List[Part]:
        """The joins of a level; one part that is left over goes up as it is."""
        found: List[Part] = []
        for k in range(0, len(level), by):
            group = level[k:k + by]
            if len(group) > 1:
                self.joins.append(Join(f"join-{depth}-{k // by:0{self.digits}d}", group))
                group = [self.joins[-1]]
            found += group
        return found

    def parts(self) -> Iterator[Part]:
        """All parts that are known by now, those of shares that are dealt again with them."""
        waiting: List[Part] = [*reversed(self.joins), *reversed(self.shares)]
        while waiting:
            part = waiting.pop()
            yield part
            if isinstance(part, Share) and part.again is not None:
                waiting += [part.again, *reversed(part.again.parts)]

    def work(self) -> Iterator[Part]:
        """What can be done now and isn't: nothing where the whole is there."""
        return self.whole.work()

    def take_known(self, known: Callable[[Part], Optional[Record]]) -> None:
        """Takes the records that a call knows of the parts."""
        for part in self.parts():
            record = known(part)
            if record is not None:
                part.take(record)


def is_share(name: str) -> bool:
    """Whether a name is that of a share's task."""
    return name.startswith("share-")


def input_of(record: Record) -> Record:
    """What a task compares of a file that it takes."""
    return {key: record[key] for key in ("out", "sha256", "counts")}


def task_of(part: Part, common: Mapping[str, Any]) -> Record:
    """A part's task in words: see sweep_task.py."""
    if isinstance(part, Share):
        opening = part.opening
        return {**common, "kind": "share", "name": part.name, "inputs": [input_of(opening)],
                "settled": opening["counts"]["settled"], "counts": opening["counts"], "share": part.share,
                "leaves": part.leaves, "out": f"shares/{part.name}.paving"}
    inputs = [input_of(answer) for answer in (each.answer for each in part.parts) if answer is not None]
    out = "whole.paving" if part.name == WHOLE else f"shares/{part.name}.paving"
    return {**common, "kind": "join", "name": part.name, "inputs": inputs, "out": out}
