"""A search box in parts: sub-systems for many machines, and their answers put together."""
from __future__ import annotations

import hashlib
import heapq
import json
from fractions import Fraction
from functools import lru_cache
from pathlib import Path
from typing import Any, Dict, Iterable, Iterator, List, Mapping, Optional, Sequence, Tuple, Union

from . import beside
from .box import Box, Exact
from .cover import KEPT, joined, kinds_of
from .identity import UNSAID, Identity
from .minibex import domains_of, spliced
from .numbers import minibex
from .options import KEPT_SETTINGS, words_of
from .paving import Parts, Paving, PathName
from .program import check
from .version import VERSION

DIGITS = 30  # of two after the point, at most, in the number of a cut
MANIFEST = "manifest.json"
ENDINGS = (".paving", ".txt", ".db")
MOST_PARTS = 100_000
HELD = 1 << 26  # bytes of answers that are held together
Pair = Tuple[Exact, Exact]


@lru_cache(maxsize=1 << 16)
def cut_of(low: Exact, high: Exact) -> Optional[Fraction]:
    """Where a place is cut: the number with the fewest binary places in its middle half; an unbounded place is cut as
    the program cuts it. None where no such number is short enough."""
    if isinstance(low, float) and isinstance(high, float):
        return Fraction(0)
    if isinstance(low, float):
        return Fraction(0) if high > 0 else Fraction(Fraction(2 * high - 1).__floor__())
    if isinstance(high, float):
        return Fraction(0) if low < 0 else Fraction(Fraction(2 * low + 1).__ceil__())
    width = high - low
    if width == 0:
        return None
    for places in range(-40, DIGITS + 1):
        step = Fraction(1, 2 ** places) if places >= 0 else Fraction(2 ** -places)
        at = round((low + high) / 2 / step) * step
        if low + width / 4 <= at <= high - width / 4 and minibex(at) is not None:
            return at
    return None


def width_of(pair: Pair) -> Exact:
    """The width of a place."""
    return float("inf") if isinstance(pair[0], float) or isinstance(pair[1], float) else pair[1] - pair[0]


def boxes_of(root: Sequence[Pair], parts: int, variables: Optional[Iterable[int]] = None) -> List[List[Pair]]:
    """The search box in that many parts: each time the first widest part is cut in its widest place. root has pairs of
    exact values; variables are the numbers of those that may be cut, else all. ValueError where it can't be cut."""
    if not 1 <= parts <= MOST_PARTS:
        raise ValueError(f"{parts} parts: from 1 to {MOST_PARTS} can be made")
    able = list(range(len(root)) if variables is None else variables)
    waiting: List[Tuple[Exact, Tuple[int, ...], int, List[Pair]]] = []
    whole: List[Tuple[Tuple[int, ...], List[Pair]]] = []

    def add(way: Tuple[int, ...], box: List[Pair]) -> None:
        ranked = [(width_of(box[k]), -k) for k in able if cut_of(*box[k]) is not None]
        if ranked:
            width, k = max(ranked)
            heapq.heappush(waiting, (-width, way, -k, box))
        else:
            whole.append((way, box))

    add((), list(root))
    while len(waiting) + len(whole) < parts:
        if not waiting:
            raise ValueError(f"the box can't be cut into {parts} parts")
        _, way, k, box = heapq.heappop(waiting)
        at = cut_of(*box[k])
        assert at is not None
        low, high = list(box), list(box)
        low[k], high[k] = (low[k][0], at), (at, high[k][1])
        add((*way, 0), low)
        add((*way, 1), high)
    return [box for _, box in sorted([*whole, *((way, box) for _, way, _, box in waiting)], key=lambda pair: pair[0])]


def split(system: PathName, parts: int, folder: PathName, *, variables: Optional[Sequence[str]] = None, eps: Any = None,
          depth: Any = None, bisect: Optional[str] = None, contract: Optional[str] = None, form: Optional[str] = None,
          program: Optional[str] = None) -> List[Path]:
    """Writes the system's text once for each part, as folder/part-000.mbx and so on, with the part's ends for domains,
    and gives their paths. variables are the names of those that may be cut. The parts cover the search box and meet in
    faces alone. folder/manifest.json says what was written, and the settings for all parts where they are given: `gather` then
    knows them. ValueError where the box can't be cut into so many parts, or a name is no variable's; FileExistsError where
    the folder has parts already, which `gather` would take for these."""
    known = check(system, program=program)
    with open(system, "rb") as file:
        text = file.read().decode("latin-1")
    root = Box("open", known.root).exact
    boxes = boxes_of(root, parts, None if variables is None else [known.variable(name) for name in variables])
    place = Path(folder)
    if any(place.glob("part-*.mbx")) or (place / MANIFEST).exists():
        raise FileExistsError(f"{place} has parts already: name another folder, or take them away")
    place.mkdir(parents=True, exist_ok=True)
    domains, digits, written = domains_of(text), max(3, len(str(parts - 1))), {}
    for number, box in enumerate(boxes):
        moved = {}
        for name, old, new in zip(known.names, root, box):
            sides = tuple(None if a == b else minibex(b) for a, b in zip(old, new))
            if sides != (None, None):
                moved[name] = sides
        path, data = place / f"part-{number:0{digits}d}.mbx", spliced(text, domains, moved).encode("latin-1")
        path.write_bytes(data)
        written[path.name] = hashlib.sha256(data).hexdigest()
    settings = words_of({"eps": eps, "depth": depth, "bisect": bisect, "contract": contract, "form": form})
    manifest = {"written_by": beside.WRITER, "version": VERSION, "system": str(system),
                "system_sha256": hashlib.sha256(text.encode("latin-1")).hexdigest(), "canonical": known.text,
                "settings": settings, "parts": written}
    (place / MANIFEST).write_text(json.dumps(manifest, indent=1) + "\n")
    return [place / name for name in written]


class Part:
    """A part of a folder: its system's file and its answer. A part whose own parts stand in a folder of its name has these."""

    def __init__(self, path: Path, answer: Path, settings: Mapping[str, Any], identity: Identity,
                 program: Optional[str]) -> None:
        self.path, self.answer, self.settings = path, answer, settings
        self.identity, self.program = identity, program

    def read(self) -> Paving:
        """Its paving. PavingRefused where the answer is another system's or has other settings than all parts."""
        known = check(self.path, program=self.program)
        identity = None if self.answer.suffix == ".txt" else self.identity
        return Paving.read(self.answer, system=known, identity=identity, strict=True, **dict(self.settings))


def manifest_of(folder: Path) -> Dict[str, Any]:
    """What `split` wrote into a folder. FileNotFoundError where a part is missing; ValueError where one was changed."""
    found = beside.content_of(folder / MANIFEST) if (folder / MANIFEST).exists() else {}
    if not found:
        names = sorted(path.name for path in folder.glob("part-*.mbx"))
        if not names:
            raise FileNotFoundError(f"{folder} has no part-NNN.mbx")
        raise FileNotFoundError(f"{folder} has no {MANIFEST}, which `split` wrote, or it can't be read: nothing tells which "
                                "parts there were")
    parts = found.get("parts")
    if not isinstance(parts, dict) or not parts:
        raise ValueError(f"{folder / MANIFEST} names no parts")
    for name, digest in parts.items():
        path = folder / name
        if not path.exists():
            raise FileNotFoundError(f"{path} is missing: the parts would not cover the box")
        if hashlib.sha256(path.read_bytes()).hexdigest() != digest:
            raise ValueError(f"{path} was changed since `split` wrote it")
    return found


def parts_of(folder: PathName, given: Mapping[str, Any], identity: Identity, program: Optional[str]) -> Iterator[Part]:
    """The parts of a folder in order, each found and compared with the manifest before any is read."""
    place = Path(folder)
    manifest = manifest_of(place)
    settings = {**manifest.get("settings", {}), **words_of(given)}
    found: List[Union[Part, List[Part]]] = []
    for name in manifest["parts"]:
        path = place / name
        answers = [path.with_suffix(end) for end in ENDINGS if path.with_suffix(end).exists()]
        answers = [answer for answer in answers if answer.stat().st_size]
        if path.with_suffix("").is_dir() and (path.with_suffix("") / MANIFEST).exists() and not answers:
            found.append(list(parts_of(path.with_suffix(""), settings, identity, program)))
            continue
        if not answers:
            raise FileNotFoundError(f"no answer to {path}: none of {', '.join(ENDINGS)}, or it is empty; a part that is split "
                                    f"again has its parts in the folder {path.with_suffix('')}")
        found.append([Part(path, answers[0], settings, identity, program)])
    for group in found:
        yield from group if isinstance(group, list) else [group]


class Gathered(Parts):
    """The answers to a folder's parts as one. Where they are large, counts, volumes, hull and the widest small box come from
    one pass that holds one part at a time, and so do CSV rows; what needs the boxes of all parts at once, as clusters and
    pictures, reads them all and keeps them."""

    def __init__(self, parts: Sequence[Part], progress: bool = False) -> None:
        self.parts, self.progress = list(parts), progress
        self._pavings: Optional[List[Paving]] = None
        self._pass(sum(part.answer.stat().st_size for part in parts) <= HELD)

    def each(self) -> Iterator[Paving]:
        """The pavings one after the other; where they are large one is held at a time."""
        if self._pavings is not None:
            yield from self._pavings
            return
        for part in shown(self.parts, self.progress):
            paving = part.read()
            paving.check_numbers()
            yield paving

    def _pass(self, hold: bool) -> None:
        """Counts, volumes, hull and the widest small box of all parts."""
        counts: Dict[str, int] = {}
        volumes: Dict[str, Exact] = {}
        hulls, widest, held = [], None, []
        for k, (part, paving) in enumerate(zip(self.parts, self.each())):
            if k == 0:
                self.names, self.dims = paving.names, paving.dims
            if paving.names != self.names:
                raise ValueError(f"{part.path} has other variables than the first part")
            for name, count in paving.counts().items():
                counts[name] = counts.get(name, 0) + count
            for kind, volume in paving.volumes().items():
                volumes[kind] = volumes.get(kind, Fraction(0)) + volume
            hull, box = paving.hull(), paving.widest()
            hulls += [] if hull is None else [hull]
            widest = box if widest is None or box is not None and box.width > widest.width else widest
            held += [paving] * hold
        self._counts, self._pavings = counts, held if hold else None
        self._answers = {"volumes": volumes, ("hull", frozenset(KEPT)): joined(hulls), ("widest", "small"): widest}

    def counts(self) -> Dict[str, int]:
        """How many nodes of all parts are settled, cut, removed, inner, small and open."""
        return dict(self._counts)

    @property
    def pavings(self) -> List[Paving]:  # type: ignore[override]
        """The pavings of all parts, which are kept from the first question that needs them all."""
        if self._pavings is None:
            self._pavings = list(self.each())
        return self._pavings

    def write_csv(self, file: Any, kinds: Sequence[str] = KEPT, exactly: bool = False) -> None:
        """Writes a box a row, as Cover.write_csv, with one part in memory at a time."""
        from .rows import csv_rows
        for number, paving in enumerate(self.each()):
            rows = csv_rows(paving, kinds_of(kinds), exactly)
            if number:
                next(rows)
            for row in rows:
                file.write(row)


def shown(parts: Sequence[Part], progress: bool) -> Iterable[Part]:
    """The parts, with a bar on a terminal where tqdm is there."""
    if progress:
        try:
            from tqdm import tqdm  # type: ignore[import]
        except ImportError:
            return parts
        bar: Iterable[Part] = tqdm(parts, unit="part")
        return bar
    return parts


def gather(folder: PathName, *, eps: Any = None, depth: Any = None, bisect: Optional[str] = None,
           contract: Optional[str] = None, form: Optional[str] = None, identity: Identity = UNSAID,
           program: Optional[str] = None, progress: bool = False) -> Gathered:
    """The answers to a folder's parts as one: reads beside each part-NNN.mbx the file part-NNN.paving that --out stored, the
    printed text part-NNN.txt, or the database part-NNN.db of a campaign; or the parts of its own in the folder part-NNN.

    The parts have to be those of the folder's manifest, unchanged, and all answers those of their parts under one group of
    settings: the given ones, else those that `split` was given, else those that are kept beside an answer or the program's own.
    (Printed text has no identity, and is taken as it is.) FileNotFoundError names a part without an answer; PavingRefused an
    answer to another system or with other settings. identity=None compares nothing."""
    given = {"eps": eps, "depth": depth, "bisect": bisect, "contract": contract, "form": form}
    parts = list(parts_of(folder, given, identity, program))
    if identity is UNSAID:
        settings = one_group(parts)
        for part in parts:
            part.settings = settings
    return Gathered(parts, progress)


def one_group(parts: Sequence[Part]) -> Dict[str, str]:
    """The settings of all parts: those kept beside the first answer, where none are given, stand for all."""
    first = parts[0]
    found = {**beside.settings_of(first.answer), **{k: v for k, v in first.settings.items() if k in KEPT_SETTINGS}}
    if not found and first.answer.suffix != ".txt":
        stored = beside.identity_of(first.answer)
        from .identity import complete, searched
        near = stored and searched(check(first.path, program=first.program), stored, complete({}))
        found = near or {}
    return {name: str(word) for name, word in found.items()}


__all__ = ["Gathered", "Part", "boxes_of", "cut_of", "gather", "split"]
