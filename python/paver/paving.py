"""A paving that was printed or stored, read lazily: its lines stay texts until a question needs their numbers."""
from __future__ import annotations

import os
import re
import warnings
from itertools import accumulate, repeat
from operator import indexOf
from typing import Any, BinaryIO, Dict, Iterable, List, Mapping, Optional, Sequence, Tuple, Union

from . import kept
from .box import Box
from .cover import Cover
from .errors import PavingError
from .identity import UNSAID, Identity, compared, found_settings, taken
from .numbers import NumberError, parts, rounded
from .canonical import System
from .tree import FOLLOW, Tree

SUMMARY = re.compile(r"settled (\d+) cut (\d+) removed (\d+) inner (\d+) small (\d+) open (\d+)\Z", re.A)
FIELDS = ("settled", "cut", "removed", "inner", "small", "open")
STEPS = {"C ": 1, "X": -1, "I ": -1, "S ": -1, "O": -1}  # how a line changes the number of nodes that are to come
CHUNK = 1 << 20  # bytes that are read at a time; a line has some hundreds at most
PathName = Union[str, "os.PathLike[str]"]
Root = Union[Sequence[str], Sequence[Tuple[Any, Any]]]


def read_summary(line: str, row: int) -> Dict[str, int]:
    """The counts of a summary line, which stands in the given row."""
    match = SUMMARY.match(line)
    if match is None:
        raise PavingError(row, "this is no summary line")
    return dict(zip(FIELDS, map(int, match.groups())))


def texts_of_root(root: Root) -> Tuple[str, ...]:
    """A root box as texts: from pairs of exact values, which are rounded outward, or from texts. ValueError where it is
    none."""
    if root and isinstance(root[0], str):
        found = tuple(map(str, root))
        for word in found:
            parts(word)
        return found
    return tuple(rounded(end, bool(side)) for pair in root for side, end in enumerate(pair))


class Paving(Cover):
    """version is 1 or 2, or None for printed text; identity is the stored one or None; summary the printed one or None; root
    the search box as texts, or None where it is not known; names those of the variables, or None.

    Without the root box only version 1 and printed text can be asked for their inner and small boxes."""

    def __init__(self, lines: List[str], version: Optional[int] = None, identity: Optional[str] = None,
                 summary: Optional[Dict[str, int]] = None, root: Optional[Tuple[str, ...]] = None,
                 names: Optional[List[str]] = None) -> None:
        self.lines, self.version, self.identity, self.summary = lines, version, identity, summary
        self.root, self.names = root, names
        self.first_row = 2 if version is None else 3
        self.dims = self._dims()
        self._tree: Optional[Tree] = None
        self._check_shape()

    @classmethod
    def from_text(cls, text: str, *, root: Optional[Root] = None, names: Optional[List[str]] = None,
                  system: Optional[System] = None, identity: Identity = UNSAID, name: str = "text",
                  settings: Optional[Mapping[str, Any]] = None) -> Paving:
        """Reads printed text, or a file's text of version 1 or 2. The root box is given as pairs or texts, or comes from the
        canonical system that program.check gives. PavingError where the text is no paving.

        With a system its identity under the settings (else the program's own) is compared: PavingRefused where it is another.
        identity is the one wanted, or None to compare nothing, as printed text has none."""
        if system is not None:
            root, names = root or system.root, names or system.names
        found = parsed(cls, text, None if root is None else texts_of_root(root), names)
        compared(found.identity, system, identity, settings or {}, name)
        return found

    @classmethod
    def read(cls, path: PathName, *, root: Optional[Root] = None, names: Optional[List[str]] = None,
             system: Union[System, PathName, None] = None, program: Optional[str] = None, identity: Identity = UNSAID,
             eps: Any = None, depth: Any = None, bisect: Optional[str] = None, contract: Optional[str] = None,
             form: Optional[str] = None, strict: bool = False) -> Paving:
        """Reads a file: a stored paving, printed text, or the database of a campaign. system is what program.check gave, or the
        path of a system's file, which is then checked.

        With a system the file's identity is compared with the system's under these settings. Settings that aren't given are
        those that run kept beside the file, else the program's own. Where it is another, settings near at hand are tried, and a
        warning names those that it has; PavingRefused where none is found, or with strict. identity is the one that is wanted;
        identity=None compares nothing, which printed text needs, as it has none."""
        from . import beside
        if isinstance(system, (str, os.PathLike)):
            from .program import check
            system = check(system, program=program)
        with open(path, "rb") as file:
            head = file.read(len(kept.HEADER))
            if head == kept.HEADER:
                lines, stored = kept.lines_of(path)
                text = "\n".join(["paving 1", f"identity {stored}", *lines, ""])
            else:
                text = whole_text(head, file)
        given = {"eps": eps, "depth": depth, "bisect": bisect, "contract": contract, "form": form}
        settings = {**beside.settings_of(path), **{key: value for key, value in given.items() if value is not None}}
        if isinstance(system, System) and identity is UNSAID and not strict:
            settings, words = found_settings(system, beside.identity_of(path), settings)
            if words:
                warnings.warn(taken(os.fspath(path), words), stacklevel=2)
        return cls.from_text(text, root=root, names=names, system=system, identity=identity, name=str(path), settings=settings)

    def file_text(self) -> str:
        """The text of a file of this paving, which the program's resume, merge, audit and svg take; of a campaign's database it
        is one of version 1. ValueError for printed text, which has no identity."""
        if self.identity is None:
            raise ValueError("printed text has no identity: store the paving by --out")
        return "".join(f"{line}\n" for line in (f"paving {self.version}", f"identity {self.identity}", *self.lines))

    def _dims(self) -> Optional[int]:
        if self.root is not None:
            return len(self.root) // 2
        for line in self.lines:
            if line[:1] in ("I", "S", "C"):
                return (line.count(" ") - (2 if line[0] == "C" else 0)) // 2
        return None

    def _check_shape(self) -> None:
        """Each line begins with a node's letter and has its number of words, and together they are one whole tree."""
        kinds = [line[:2] for line in self.lines]
        row = first_strange(self.lines, kinds, self.dims or 0)
        ended = end_of_tree(kinds if row is None else kinds[:row])
        if ended is not None and ended < (len(kinds) if row is None else row):
            raise PavingError(self.first_row + ended, FOLLOW)
        if row is not None:
            raise PavingError(self.first_row + row, f"no node of {self.dims} variables")
        if ended is None:
            missing = 1 + sum(map(STEPS.__getitem__, kinds))
            raise PavingError(self.first_row + len(self.lines),
                              f"the tree is not whole: {missing} leaves are missing; was the text cut by `head`?")
        if self.summary is not None and self.summary != self.counts():
            raise PavingError(1, "the summary counts other lines than follow")

    def counts(self) -> Dict[str, int]:
        """How many nodes are settled, cut, removed, inner, small and open."""
        if "counts" not in self._kept:
            kinds = "".join([line[:1] for line in self.lines])
            found = {field: kinds.count(letter) for field, letter in zip(FIELDS[1:], "CXISO")}
            self._kept["counts"] = {"settled": len(kinds) - found["open"], **found}
        return dict(self._kept["counts"])

    @property
    def tree(self) -> Tree:
        """The nodes as flat lists, worked out once. PavingError at the first line whose numbers are wrong."""
        if self._tree is None:
            if self.version == 2:
                self.need_root()
            self._tree = Tree(self.lines, self.version == 2, self.root, self.dims or 0, self.first_row)
        return self._tree

    def check_numbers(self) -> None:
        """Reads every number and compares it with the node's box. PavingError at the first line that is wrong."""
        self.tree  # pylint: disable=pointless-statement

    def path_of_first_open(self) -> Optional[str]:
        """The way to the first open leaf, a digit a step; None where no leaf is open."""
        path: List[str] = []
        for line in self.lines:
            if line == "O":
                return "".join(path) or "."
            if line[0] == "C":
                path.append("0")
                continue
            while path and path[-1] == "1":
                path.pop()
            if path:
                path[-1] = "1"
        return None

    def roots(self) -> Sequence[Paving]:
        """The pavings of which this one is made: itself."""
        return [self]

    def __repr__(self) -> str:
        return f"<paving{in_words(self)}>"


def end_of_tree(kinds: Iterable[str]) -> Optional[int]:
    """How many of these lines, given by their first two bytes, are one whole tree; None where it isn't whole yet."""
    try:
        return indexOf(accumulate(map(STEPS.__getitem__, kinds), initial=1), 0)
    except ValueError:
        return None


def first_strange(lines: Sequence[str], kinds: Sequence[str], dims: int) -> Optional[int]:
    """The number of the first line that has no node's letter, or another number of words; None where there is none. kinds are
    their first two bytes."""
    ends = 2 * dims
    blanks = {"C ": ends + 2, "I ": ends, "S ": ends, "X": 0, "O": 0}
    if list(map(blanks.get, kinds)) == list(map(str.count, lines, repeat(" "))):
        return None
    return next(k for k, (kind, line) in enumerate(zip(kinds, lines)) if blanks.get(kind) != line.count(" "))


def whole_text(head: bytes, file: BinaryIO) -> str:
    """The text of a file from its first bytes on. PavingError where it can be no paving's: a file as /dev/zero has no end."""
    if not head.startswith((b"paving ", b"settled ")):
        raise PavingError(1, "neither a summary line nor `paving 1` or `paving 2`")
    chunks, rows = [head], 1
    while True:
        chunk = file.read(CHUNK)
        if len(chunk) == CHUNK and b"\n" not in chunk:
            raise PavingError(rows, f"a line of more than {CHUNK} bytes")
        if not chunk:
            return b"".join(chunks).decode("latin-1")
        chunks.append(chunk)
        rows += chunk.count(b"\n")


def parsed(kind: type[Paving], text: str, root: Optional[Tuple[str, ...]], names: Optional[List[str]]) -> Paving:
    """The paving of a text."""
    lines = text.split("\n")
    if lines.pop() != "":
        raise PavingError(len(lines) + 1, "the line has no end: the text was cut short")
    if lines and lines[0].startswith("settled "):
        return kind(lines[1:], None, None, read_summary(lines[0], 1), root, names)
    version, identity = header_of(lines)
    return kind(lines[2:], version, identity, None, root, names)


def header_of(lines: Sequence[str]) -> Tuple[int, str]:
    """The version and the identity that the first two lines of a stored paving tell."""
    match = re.fullmatch(r"paving ([12])", lines[0] if lines else "")
    if match is None:
        raise PavingError(1, "neither a summary line nor `paving 1` or `paving 2`")
    found = re.fullmatch(r"identity ([0-9a-f]{64})", lines[1] if len(lines) > 1 else "")
    if found is None:
        raise PavingError(2, "no identity")
    return int(match.group(1)), found.group(1)


def in_words(cover: Cover) -> str:
    """The variables and counts of a paving in words."""
    counts = cover.counts()
    kinds = ", ".join(f"{counts[field]} {field}" for field in FIELDS[1:] if counts[field])
    return f" in {', '.join(cover.names_known())}: {counts['settled']} settled: {kinds}"


class Parts(Cover):
    """Several pavings asked as one: those of the parts of a search box, as `split` makes them, or stages of one tree, as the
    shares and joins of a `sweep` are and what `resume` goes on with. Stages have one identity, and are told as their join: each
    node once, and open only where it is in all. ValueError where pavings have one search box and are not known to be of one
    tree."""

    def __init__(self, pavings: Sequence[Paving]) -> None:
        self.pavings = one_for_each_tree(pavings)
        if not self.pavings:
            raise ValueError("no paving is given")
        self.names, self.dims = self.pavings[0].names, self.pavings[0].dims
        if any(paving.dims != self.dims for paving in self.pavings):
            raise ValueError("the pavings have different numbers of variables")
        if any(paving.names != self.names for paving in self.pavings):
            raise ValueError("the pavings have different names of variables")
        boxes = self.search_boxes()
        if len(set(boxes)) < len(boxes):
            raise ValueError("pavings of one search box are one where they have one identity: these have others, or none")

    @classmethod
    def read(cls, paths: Sequence[PathName], *, root: Optional[Root] = None, names: Optional[List[str]] = None,
             system: Union[System, PathName, None] = None, program: Optional[str] = None, identity: Identity = UNSAID,
             eps: Any = None, depth: Any = None, bisect: Optional[str] = None, contract: Optional[str] = None,
             form: Optional[str] = None) -> Parts:
        """Reads stored stages of one tree: shares and joins that a sweep leaves, files of `resume`, databases of campaigns. The
        search box comes from the system, or is given; all files have to be of its identity under these settings (see
        Paving.read), or of one identity where no system is given: PavingRefused names one that isn't.

        Files of more than 64 MB together are read again for each question, and some 50,000 nodes of them are held at a time;
        clusters and pictures alone have to hold all. Disagree where two stages tell different things of a node."""
        from .stages import stages_of
        if isinstance(system, (str, os.PathLike)):
            from .program import check
            system = check(system, program=program)
        given = {"eps": eps, "depth": depth, "bisect": bisect, "contract": contract, "form": form}
        found = texts_of_root(root) if root is not None else system.root if system is not None else None
        if found is None:
            raise ValueError("this needs the search box: give root= or system=")
        return stages_of(paths, tuple(found), names or (system.names if system is not None else None), system, identity, given)

    def counts(self) -> Dict[str, int]:
        """How many nodes of all parts are settled, cut, removed, inner, small and open."""
        found = [paving.counts() for paving in self.pavings]
        return {field: sum(counts[field] for counts in found) for field in FIELDS}

    def roots(self) -> Sequence[Paving]:
        """The pavings of the parts."""
        return self.pavings

    def __repr__(self) -> str:
        return f"<{len(self.pavings)} pavings{in_words(self)}>"


def one_for_each_tree(pavings: Sequence[Paving]) -> List[Paving]:
    """The pavings, where those of one identity are joined into one. Disagree where two tell different things of a node."""
    from .stages import joined_paving
    trees: Dict[Any, List[Paving]] = {}
    for number, paving in enumerate(pavings):
        trees.setdefault(number if paving.identity is None else paving.identity, []).append(paving)
    return [stages[0] if len(stages) == 1 else joined_paving(stages) for stages in trees.values()]


__all__ = ["Box", "NumberError", "Paving", "Parts", "read_summary"]
