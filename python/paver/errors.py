"""What can go wrong with a call of the program, each cause as an exception with its place."""
from __future__ import annotations

from typing import Any, Optional


class PaverError(Exception):
    """The base of all: status is the program's, line what it wrote on standard error."""

    def __init__(self, status: Optional[int], line: str, **place: Any) -> None:
        super().__init__(line or f"the program ended with status {status}")
        self.status, self.line = status, line
        for name, value in place.items():
            setattr(self, name, value)


class UsageError(PaverError):
    """Status 2: the words or a value are refused. Its text says which setting or budget and why, where that is known."""


class ContractRefused(UsageError):
    """Status 2: the contractor text is refused at .byte."""
    byte: int


class ObjectiveRefused(UsageError):
    """Status 2: the expression of --of is refused at .byte with .cause."""
    byte: int
    cause: str


class SystemRefused(PaverError):
    """Status 3: the system is refused at .row, .column (from 1) and .byte (from 0) with .cause."""
    row: int
    column: int
    byte: int
    cause: str


class PavingRefused(PaverError):
    """Status 4: the paving .name is refused with .cause, by the program or by the package as it reads a file, at .row (None
    where the cause has no place): the line of a file, from 1, or the row of a campaign, from 0."""
    name: str
    cause: str
    row: Optional[int]


class ReadFault(PaverError):
    """Status 5: the file .name could not be read."""
    name: str


class WriteFault(PaverError):
    """Status 6: .name, a file or standard output, did not take everything."""
    name: str


class WantOfMemory(PaverError):
    """Status 7."""


class TreeLimit(PaverError):
    """Status 8: .settled nodes and the budget (of a campaign that of all rounds) are together above 100,000; of a merge
    .settled alone is."""
    settled: int


class Disagree(PaverError):
    """Status 9: at the node .path, pavings disagree (.kind "disagree") or a paving differs from what settling gives
    ("differs"); .first and .second are the two node lines."""
    kind: str
    path: str
    first: str
    second: str


class KeeperFault(PaverError):
    """Status 10: the database .name of a campaign failed. What the rounds before it settled stays kept. The text .cause begins
    with locked, full, damaged or foreign; it is None where neither Python's sqlite3 nor the system tells."""
    name: str
    cause: Optional[str] = None


class NoFile(PaverError):
    """Status 11: there is no file .name."""
    name: str


class ProgramFault(PaverError):
    """The program ended in a way that it should not: by a signal, or with an unknown status."""


class ProgramMissing(PaverError):
    """The program was not found: give its path, set the variable PAVER, or put it on PATH."""


class SystemEdited(PaverError):
    """The system's file was edited while it was paved."""


class FolderRefused(PaverError):
    """The folder .name of a sweep is not the one that was asked for: .cause says what is another."""
    name: str
    cause: str


class TaskLost(PaverError):
    """The task .name of a sweep was lost .attempts times; its text says how the last one ended."""
    name: str
    attempts: int


class NotInProgram(UsageError):
    """The program that was found has no such command or option yet."""


class PavingError(ValueError):
    """A text that is no paving: .row is its line from 1, .cause says what is wrong."""

    def __init__(self, row: int, cause: str) -> None:
        super().__init__(f"line {row}: {cause}")
        self.row, self.cause = row, cause
