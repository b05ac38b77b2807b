"""Stages of one tree as one paving without a file of their join: their lines are read side by side, each node is told once,
and of all nodes some tens of thousands are held at a time."""
from __future__ import annotations

import os
from fractions import Fraction
from itertools import islice
from typing import Any, Dict, Iterable, Iterator, List, Mapping, Optional, Sequence, Tuple

from . import beside, kept
from .box import Box, Exact
from .canonical import System
from .cover import KEPT, KINDS, Cover, Pairs, hull_in, joined, kept_volumes
from .errors import Disagree, PavingError, PavingRefused
from .identity import Identity, compared, refusal
from .paving import CHUNK, FIELDS, FOLLOW, STEPS, Parts, Paving, PathName, first_strange, header_of
from .tree import Segment

HELD = 1 << 26  # bytes of files whose join is held as a whole
NODES = 50_000  # that are held at a time else
HEADER = 83  # bytes of the first two lines of a stored paving
NOT_WHOLE = "a line is missing: the tree is not whole"
Words = Tuple[str, ...]
Lines = Iterator[str]


class Stage:
    """A stored paving, whose lines are read anew each time."""

    def __init__(self, path: PathName) -> None:
        self.path = path
        with open(path, "rb") as file:
            head = file.read(HEADER)
        self.is_database = head.startswith(kept.HEADER)
        if self.is_database:
            self.version, self.identity = 1, kept.identity_of(path)
        else:
            self.version, self.identity = header_of(head.decode("latin-1").split("\n"))

    def lines(self) -> Lines:
        """The lines of its nodes."""
        if self.is_database:
            yield from kept.lines_of(self.path)[0]
            return
        with open(self.path, encoding="latin-1", newline="") as file:
            file.seek(HEADER)
            yield from lines_in(iter(lambda: file.read(CHUNK), ""))


def lines_in(chunks: Iterable[str]) -> Lines:
    """The lines of a text that comes in chunks, without their ends. PavingError where the last one has no end."""
    rest, row = "", 3
    for chunk in chunks:
        *lines, rest = (rest + chunk).split("\n")
        yield from lines
        row += len(lines)
        if len(rest) > CHUNK:
            raise PavingError(row, f"a line of more than {CHUNK} bytes")
    if rest:
        raise PavingError(row, "the line has no end: the text was cut short")


def as_changes(lines: Lines, root: Words) -> Lines:
    """Lines of version 1 as those of version 2, where `=` stands for an end that is the box's. What is no node stays."""
    numbers = {str(k): 2 * k for k in range(len(root) // 2)}
    waiting = [root]
    for line in lines:
        words, box = line.split(" "), waiting.pop() if waiting else ()
        first = 3 if words[0] == "C" else 1
        ends = words[first:]
        if len(ends) == len(box):
            words[first:] = ["=" if new == old else new for new, old in zip(ends, box)]
        if words[0] == "C":
            low, high, place = list(ends), list(ends), numbers.get(words[1], 0)
            low[place + 1:place + 2], high[place:place + 1] = words[2:3], words[2:3]
            waiting += [tuple(high), tuple(low)]
        yield " ".join(words)


def join_of(stages: Sequence[Lines]) -> Lines:
    """The lines of the join of stages: a node is open where it is open in all that come there, and else told by those that
    settled it; then what stages have behind their trees. Disagree where two tell different things."""
    waiting: List[Tuple[str, Sequence[Lines]]] = [("", stages)]
    while waiting:
        path, here = waiting.pop()
        if len(here) == 1:
            yield from below(here[0])
            continue
        told = [(line, stage) for stage in here for line in [next(stage, "")] if line != "O"]
        if not told:
            yield "O"
            continue
        line = told[0][0]
        for other, _ in told:
            if other != line:
                raise disagreement(path or ".", line, other)
        yield line
        if line.startswith("C"):
            going_on = [stage for _, stage in told]
            waiting += [(path + "1", going_on), (path + "0", going_on)]
    for stage in stages:
        yield from stage


def disagreement(path: str, first: str, second: str) -> Disagree:
    """The exception on two stages that tell different things of a node."""
    return Disagree(9, f"disagree {path}: {first} | {second}", kind="disagree", path=path, first=first, second=second)


def below(stage: Lines) -> Lines:
    """The lines of a node and of all below it; an empty one, which is none, where one is missing or is no node's."""
    left = 1
    for line in stage:
        yield line
        step = STEPS.get(line[:2])
        if step is None:
            break
        left += step
        if not left:
            return
    yield ""


class Piece(Cover):
    """Some nodes of a paving, one after the other in preorder."""

    def __init__(self, tree: Segment, names: Optional[List[str]], root: Words) -> None:
        self.names, self.dims, self.root = names, len(root) // 2, root
        self._kept["tree"] = tree

    def roots(self) -> Sequence[Piece]:
        """The piece itself."""
        return [self]


def pieces_of(lines: Lines, names: Optional[List[str]], root: Words) -> Iterator[Piece]:
    """The nodes of a tree from its lines of version 2, in pieces. PavingError at the first line that is wrong."""
    waiting: Sequence[Tuple[Words, int]] = [(root, 0)]
    row, dims = 3, len(root) // 2
    while waiting:
        some = list(islice(lines, NODES))
        strange = first_strange(some, [line[:2] for line in some], dims) if some else 0
        if strange is not None:
            raise PavingError(row + strange, f"no node of {dims} variables" if some and some[strange] else NOT_WHOLE)
        tree = Segment(some, waiting, dims, row)
        waiting, row = tree.waiting, row + len(some)
        yield Piece(tree, names, root)
    if next(lines, None) is not None:
        raise PavingError(row, FOLLOW)


class Stages(Parts):
    """Stored stages of one tree as one paving: see Parts.read."""
    root: Words

    # pylint: disable-next=super-init-not-called
    def __init__(self, stages: Sequence[Stage], root: Words, names: Optional[List[str]]) -> None:
        self.stages, self.root, self.names, self.dims = list(stages), root, names, len(root) // 2
        self._whole: Optional[Paving] = None

    def lines(self) -> Lines:
        """The lines of the join, of version 2."""
        return join_of([stage.lines() if stage.version == 2 else as_changes(stage.lines(), self.root) for stage in self.stages])

    def pieces(self) -> Iterable[Cover]:
        """The nodes in pieces, one held at a time; or the whole, where it is held."""
        if self._whole is None and sum(os.path.getsize(stage.path) for stage in self.stages) > HELD:
            return self._streamed()
        return [self.whole()]

    def _streamed(self) -> Iterator[Piece]:
        try:
            yield from pieces_of(self.lines(), self.names, self.root)
        except (PavingError, Disagree) as fault:
            raise self._named(fault) from fault

    def _named(self, fault: Exception) -> Exception:
        """The exception on the first file that is no paving by itself; the given one where each is one."""
        for stage in self.stages:
            try:
                for _ in pieces_of(Stages([stage], self.root, self.names).lines(), self.names, self.root):
                    pass
            except PavingError as found:
                return named(stage.path, found)
        return fault

    def whole(self) -> Paving:
        """The join, which is held from the first question on that needs all nodes at once."""
        if self._whole is None:
            for _ in self._streamed():
                pass
            self._whole = Paving(list(self.lines()), 2, self.stages[0].identity, None, self.root, self.names)
        return self._whole

    @property
    def pavings(self) -> List[Paving]:  # type: ignore[override]
        """The one paving that the stages are together."""
        return [self.whole()]

    def roots(self) -> Sequence[Paving]:
        """The one paving that the stages are together."""
        return self.pavings

    def search_boxes(self) -> List[Words]:
        """The search box."""
        return [self.root]

    def boxes_known(self) -> bool:
        """It is."""
        return True

    def counts(self) -> Dict[str, int]:
        """How many nodes are settled, cut, removed, inner, small and open, each once."""
        return dict(self._passed("counts"))

    def volumes(self) -> Dict[str, Any]:
        """The exact volume of each class, and together that of the search box."""
        return dict(self._passed("volumes"))

    def hull(self, *kinds: str) -> Optional[Pairs]:
        """The least box around what is kept (inner, small, open), or around some classes; None where nothing is."""
        if not kinds:
            self._passed(("hull", frozenset(KEPT)))
        return super().hull(*kinds)

    def _passed(self, key: Any) -> Any:
        """An answer of those that are worked out together in one pass over the files."""
        if key not in self._kept:
            kinds, hulls = dict.fromkeys("CXISO", 0), []
            volumes: Dict[str, Exact] = dict.fromkeys(KINDS, Fraction(0))
            is_bounded = not {"-oo", "+oo"} & set(self.root)
            for piece in self.pieces():
                for letter in kinds:
                    kinds[letter] += piece.tree.kinds.count(letter)
                sizes: Mapping[str, Exact] = kept_volumes(piece.tree) if is_bounded else volumes_by_boxes(piece)
                for kind, volume in sizes.items():
                    volumes[kind] += volume
                hulls.append(hull_in(piece, KEPT))
            if is_bounded:
                volumes["removed"] = Box("removed", self.root).volume - sum(volumes.values())
            self._kept.update({"counts": counts_of(kinds), "volumes": volumes,
                               ("hull", frozenset(KEPT)): joined([hull for hull in hulls if hull is not None])})
        return self._kept[key]

    def __repr__(self) -> str:
        return f"<{len(self.stages)} stages of one paving>"


def counts_of(kinds: Mapping[str, int]) -> Dict[str, int]:
    """The counts of a summary from those of the letters."""
    return dict(zip(FIELDS, [sum(kinds.values()) - kinds["O"], *[kinds[letter] for letter in "CXISO"]]))


def volumes_by_boxes(cover: Cover) -> Dict[str, Any]:
    """The volumes of each class where an end may be infinite."""
    found: Dict[str, Any] = dict.fromkeys(KINDS, Fraction(0))
    for box in cover.boxes():
        found[box.kind] += box.volume
    return found


def named(path: PathName, fault: PavingError) -> PavingRefused:
    """The exception on a file."""
    name = os.fspath(path)
    return PavingRefused(4, f"paving {name}: {fault}", name=name, cause=fault.cause, row=fault.row)


def joined_paving(pavings: Sequence[Paving]) -> Paving:
    """The join of pavings of one tree, of which one at least knows the search box. Disagree where two tell different things."""
    first = next((paving for paving in pavings if paving.root is not None), pavings[0])
    first.need_root()
    root = first.root or ()
    lines = [iter(paving.lines) if paving.version == 2 else as_changes(iter(paving.lines), root) for paving in pavings]
    return Paving(list(join_of(lines)), 2, first.identity, None, root, first.names)


def stages_of(paths: Sequence[PathName], root: Words, names: Optional[List[str]], system: Optional[System], identity: Identity,
              given: Mapping[str, Any]) -> Stages:
    """The stages in some files, each compared with the wanted identity. PavingRefused names one that is no paving, or of
    another identity."""
    settings = {name: value for name, value in beside.with_kept(paths, given).items() if value is not None}
    found: List[Stage] = []
    for path in paths:
        try:
            found.append(Stage(path))
        except PavingError as fault:
            raise named(path, fault) from fault
        compared(found[-1].identity, system, identity, settings, os.fspath(path))
        if found[-1].identity != found[0].identity:
            raise refusal(os.fspath(path), "wrong identity", f"it is not that of {os.fspath(paths[0])}: they are no one tree's")
    if not found:
        raise ValueError("no paving is given")
    return Stages(found, root, names)
