"""For which values of some variables do all constraints hold, whatever the others are in their domains?

The constraints are negated, and the points (k, p) at which some negated one holds are paved. At a rational k that lies in no
kept box's shadow, and any rational p of its box, no negated constraint holds; divisors are asked not to be 0, too. So all
constraints hold there. (Shadows are closed, and of a sure box nothing is said of its faces, where one may lie.) An inner box
holds a p that refutes each k of its shadow. A parameter in which a constraint is convex, affine at best, needs the two ends of
its interval alone.
"""
from __future__ import annotations

import csv
import math
import tempfile
from collections.abc import Iterable, Iterator, Sequence
from dataclasses import dataclass, field
from fractions import Fraction
from itertools import product
from pathlib import Path
from typing import Any, Dict, TextIO, Union

from . import program
from .canonical import Constraint, Steps, System, holds, infix, value
from .cover import Box, Cover, Node
from .curvature import at_vertices
from .numbers import as_float, grid, spelling
from .paving import Paving
from .ranges import decided
from .regions import Item, regions
from .texts import ENCODING, Related, SystemText
from .widen import widened, width_of

NEGATED = {"<=": ">", "<": ">=", ">=": "<", ">": "<="}
MOST_CONSTRAINTS = 64
SHOWN = {"sure": "inner", "refuted": "removed", "rest": "small"}  # the classes of boxes and pictures
Witness = Dict[str, Union[Fraction, float]]


class NotRobust(ValueError):
    """A system of which it can't be asked what holds for all values of some variables."""


@dataclass
class Negation:
    """The negated system: its text, and for each negated constraint the ends at which parameters stand in it."""
    text: str
    gains: list[str]
    parameters: list[str]  # those that stay variables
    vertices: list[Witness]
    divisors: int

    @property
    def contract(self) -> str:
        count = len(self.vertices) + self.divisors
        parts = ",".join(f"hc4({i})" for i in range(count))
        return f"union({parts})" if count > 1 else parts


class Vertices:
    """A system's constraints with some variables at the ends of their domains."""

    def __init__(self, source: SystemText, known: System, for_all: Sequence[str], use: bool = True) -> None:
        self.source, self.known, self.for_all = source, known, list(for_all)
        self.able = [[name for name in self.for_all if use and known.variable(name) in variables_of(c)
                      and at_vertices(c, known.variable(name))] for c in known.constraints]

    def ends(self, name: str) -> list[str]:
        low, high = self.source.variables[name] or ("-oo", "oo")
        first, last = self.source.bounds(name)
        if isinstance(first, float) or isinstance(last, float):
            raise NotRobust(f"`{name}` has no bounded domain: for all values of it in [low, high] is asked")
        return [low] if first == last else [low, high]

    def choices(self, i: int) -> Iterator[dict[str, str]]:
        """Each choice of ends for the parameters that stand at ends in a constraint."""
        for words in product(*(self.ends(name) for name in self.able[i])):
            yield {name: f"({word})" if word[0] in "+-" else word for name, word in zip(self.able[i], words)}

    def exact(self, choice: dict[str, str]) -> Witness:
        return {name: self.source.bounds(name)[word.strip("()") == self.ends(name)[-1]] for name, word in choice.items()}

    def rest(self) -> list[str]:
        """The parameters that some constraint needs as variables."""
        needed = {name for i, c in enumerate(self.known.constraints) for name in self.for_all
                  if self.known.variable(name) in variables_of(c) and name not in self.able[i]}
        return [name for name in self.for_all if name in needed]


def variables_of(c: Constraint) -> set[int]:
    return {step[1] for step in [*c.left, *c.right] if step[0] == "var"}


def divisors_of(system: System) -> Iterator[Steps]:
    """The divisors of all constraints, each once; a constant that is not 0 is none."""
    seen = set()
    for c in system.constraints:
        for steps in (c.left, c.right):
            for divisor in of_expression(steps):
                key = tuple(divisor)
                constant = not any(step[0] == "var" for step in divisor)
                if key not in seen and not (constant and value(divisor, [])):
                    seen.add(key)
                    yield divisor


def of_expression(steps: Steps) -> Iterator[Steps]:
    """The divisors of an expression, innermost first."""
    starts: list[int] = []  # where the expressions on the stack begin
    for at, step in enumerate(steps):
        if step[0] in ("const", "var"):
            starts.append(at)
        elif step[0] not in ("neg", "abs", "^"):
            second = starts.pop()
            if step[0] == "/":
                yield steps[second:at]


def asked_names(known: System, for_all: Iterable[str]) -> list[str]:
    names = list(dict.fromkeys(for_all))
    for name in names:
        known.variable(name)
    if not names or len(names) == len(known.names):
        raise NotRobust("--for-all names some variables and leaves others: those are what is asked for")
    return names


def negation_of(text: str, known: System, for_all: Iterable[str], vertices: bool = True, path: str | None = None) -> Negation:
    """The negated system. NotRobust where a constraint is an equation, or there are too many."""
    source, names = SystemText(text), asked_names(known, for_all)
    for i, c in enumerate(source.constraints):
        if c.relation == "=":
            raise NotRobust(f"constraint {i}, `{c.written()}`, is an equation: it can't hold for all values. Give it a "
                            "tolerance, as by --widen 0.01")
    ends = Vertices(source, known, names, vertices)
    rest, found, stands = ends.rest(), [], []
    for i, c in enumerate(source.constraints):
        for choice in ends.choices(i):
            found.append(Related(c.left, NEGATED[c.relation], c.right).written(choice))
            stands.append(ends.exact(choice))
    limited(found)
    kept = {name: domain for name, domain in source.variables.items() if name not in names or name in rest}
    for name in rest:
        ends.ends(name)
    plain = source.written(found, kept)
    system = program.check_text(plain, program=path)
    divisors = [f"{infix(divisor, system.names)} = 0" for divisor in divisors_of(system)]
    limited([*found, *divisors])
    gains = [name for name in known.names if name not in names]
    return Negation(source.written([*found, *divisors], kept), gains, rest, stands, len(divisors))


def limited(constraints: list[str]) -> None:
    if len(constraints) > MOST_CONSTRAINTS:
        raise NotRobust(f"{len(constraints)} negated constraints with their vertices and divisors: {MOST_CONSTRAINTS} are "
                        "taken. Name fewer parameters, or leave vertices out")


def vertices_text(system: str | Path, for_all: Iterable[str], *, program_path: str | None = None) -> str:
    """The text of the system over the other variables alone, each constraint at each vertex of these. A point is in its set
    exactly where all constraints hold for all values. NotRobust names a constraint that isn't convex in one of them."""
    known, source = program.check(system, program=program_path), SystemText.read(system)
    names = asked_names(known, for_all)
    ends, found = Vertices(source, known, names), []
    for i, c in enumerate(source.constraints):
        wrong = [name for name in names if known.variable(name) in variables_of(known.constraints[i])
                 and name not in ends.able[i]]
        if wrong:
            raise NotRobust(f"constraint {i}, `{c.written()}`: `{wrong[0]}` doesn't enter it affinely (or so that its greatest "
                            "excess lies at an end), as far as its operations show. Ask without --write")
        found += [c.written(choice) for choice in ends.choices(i)]
    if len(found) > MOST_CONSTRAINTS:
        raise NotRobust(f"{len(found)} constraints at the vertices: {MOST_CONSTRAINTS} are taken. Name fewer parameters")
    return source.written(found, {name: domain for name, domain in source.variables.items() if name not in names})


@dataclass
class Region:
    """A box of values of the variables that are asked for: kind is sure, refuted or rest. Each rational point inside a sure
    box, off its faces, meets all constraints for all values of the parameters; each rational point of a refuted one, faces
    and all, fails with the witness."""
    kind: str
    words: tuple[str, ...]
    witness: Witness | None = None

    @property
    def box(self) -> Box:
        return Box(SHOWN[self.kind], self.words)


@dataclass
class Robust(Cover):
    """What robust answered. `paving` is that of the negated system, `negation` its text; as a cover it has the sure boxes as
    inner ones, the refuted as removed and the rest as small."""
    names: list[str]
    root: tuple[str, ...] = field()  # which has no value of its own as in Cover
    regions: list[Region]
    negation: Negation
    paving: Paving
    status: int
    dims: int = field(init=False)

    def __post_init__(self) -> None:
        self.dims = len(self.names)

    def of_kind(self, kind: str) -> list[Region]:
        return [region for region in self.regions if region.kind == kind]

    @property
    def sure(self) -> list[Region]:
        return self.of_kind("sure")

    @property
    def refuted(self) -> list[Region]:
        return self.of_kind("refuted")

    @property
    def rest(self) -> list[Region]:
        return self.of_kind("rest")

    def nodes(self) -> Iterator[Node]:
        """A leaf for each region."""
        return (Node(region.box.kind, region.words, region.words, None) for region in self.regions)

    def boxes(self, *kinds: str) -> Iterator[Box]:
        return (region.box for region in self.regions if not kinds or region.box.kind in kinds)

    def counts(self) -> dict[str, int]:
        return {kind: len(self.of_kind(kind)) for kind in SHOWN}

    def roots(self) -> list[Robust]:
        return [self]

    def boxes_known(self) -> bool:
        return True

    def shares(self) -> dict[str, Fraction | float]:
        """The exact volume of each kind."""
        found: dict[str, Fraction | float] = dict.fromkeys(SHOWN, Fraction(0))
        for region in self.regions:
            found[region.kind] += region.box.volume
        return found

    @property
    def certified(self) -> Fraction | float | None:
        """Which part of what may be sure is sure: sure / (sure + rest); None where that has no volume, or an infinite one."""
        found = self.shares()
        whole = found["sure"] + found["rest"]
        return found["sure"] / whole if whole and whole != math.inf else None

    def write_regions(self, file: TextIO, exactly: bool = False) -> None:
        """Writes a region a row: its kind, its ends, and the witness of a refuted one. Floats are rounded inward, of the
        rest outward; with exactly they are fractions."""
        writer = csv.writer(file, lineterminator="\n")
        parameters = sorted({name for region in self.regions for name in region.witness or ()})
        writer.writerow(["kind", *(f"{name}_{side}" for name in self.names for side in ("low", "high")), *parameters])
        for region in self.regions:
            ends = [written(end, (side == 1) == (region.kind == "rest"), exactly)
                    for pair in region.box.exact for side, end in enumerate(pair)]
            writer.writerow([region.kind, *ends, *(str((region.witness or {}).get(name, "")) for name in parameters)])


def written(end: Fraction | float, up: bool, exactly: bool) -> str:
    return str(end) if exactly else repr(as_float(end, up))


class Classifier:
    """Tells the regions from the paving of a negated system."""

    def __init__(self, negation: Negation, system: System, paving: Paving, for_all: Sequence[str], source: SystemText) -> None:
        self.negation, self.system, self.paving = negation, system, paving
        self.gains = [system.variable(name) for name in negation.gains]
        self.rest = {name: system.variable(name) for name in negation.parameters}
        self.domains = {name: source.bounds(name) for name in for_all}

    def projected(self, box: Box) -> tuple[int, ...]:
        return tuple(grid(word) for k in self.gains for word in box.words[2 * k:2 * k + 2])

    def items(self) -> list[Item]:
        """The shadows of the kept boxes, each once; of an inner box with the box itself."""
        found: dict[tuple[int, ...], Box | None] = {}
        for box in self.paving.boxes("inner", "small", "open"):
            key = self.projected(box)
            if box.kind == "inner" or key not in found:
                found[key] = found.get(key) or (box if box.kind == "inner" else None)
        return [Item(key, box) for key, box in found.items()]

    def witness_of(self, cell: tuple[int, ...], box: Box) -> Witness | None:
        """Values of the parameters with which each point of the cell fails one constraint; None where none are found."""
        ends = Box("inner", tuple(spelling(end) for end in cell)).exact
        pairs = list(box.exact)
        for k, pair in zip(self.gains, ends):
            pairs[k] = pair
        if any(isinstance(end, float) for pair in pairs for end in pair):
            return None
        whole = [(Fraction(low), Fraction(high)) for low, high in pairs]
        chosen = {name: inside(whole[k], self.domains[name]) for name, k in self.rest.items()}
        for name, k in self.rest.items():
            whole[k] = (Fraction(chosen[name]),) * 2
        centre = [(low + high) / 2 for low, high in whole]
        for i, stands in enumerate(self.negation.vertices):
            c = self.system.constraints[i]
            if not holds(c, centre):
                continue
            if decided(c, whole) or decided(c, whole, slopes=True):
                return {**{name: low for name, (low, _) in self.domains.items()}, **chosen, **stands}
        return None


def inside(pair: tuple[Fraction, Fraction], domain: tuple[Fraction | float, Fraction | float]) -> Fraction | float:
    """The middle of an interval, moved into a domain as it is written."""
    return min(max((pair[0] + pair[1]) / 2, domain[0]), domain[1])


def robust(system: str | Path, for_all: Iterable[str], *, vertices: bool = True, centered: bool = True,
           widen: str | Fraction | None = None, program_path: str | None = None, **options: object) -> Robust:
    """The values of a system's other variables with which all constraints hold for all values of some, `for_all`, in their
    domains. Options: eps, depth, bisect, boxes, workers, limit. With vertices a parameter in which a constraint is convex,
    affine at best, stands at its ends there. NotRobust where a constraint is an equation, a parameter has no bounded domain, or
    there are too many constraints. Where the budget ends the run, what is said is right as far as it goes."""
    known, names = program.check(system, program=program_path), list(for_all)
    text = Path(system).read_bytes().decode(ENCODING)
    if widen is not None:
        text = widened(text, width_of(widen))
        known = program.check_text(text, program=program_path)
    negation = negation_of(text, known, names, vertices, program_path)
    with tempfile.TemporaryDirectory() as folder:
        path = Path(folder) / "negated.mbx"
        path.write_bytes(negation.text.encode(ENCODING))
        run: Any = program.run_centered if centered else program.run
        answer = run(path, program=program_path, contract=negation.contract, **options)
        paving, negated = answer.paving(), program.check(path, program=program_path)
    return classified(negation, negated, paving, names, SystemText(text), answer.status)


def classified(negation: Negation, negated: System, paving: Paving, names: list[str], source: SystemText, status: int
               ) -> Robust:
    telling = Classifier(negation, negated, paving, names, source)
    root = tuple(word for k in telling.gains for word in negated.root[2 * k:2 * k + 2])
    cells = regions(tuple(map(grid, root)), telling.items(), telling.witness_of)
    found = [Region(kind, tuple(spelling(end) for end in cell), witness) for kind, cell, witness in cells]
    return Robust(negation.gains, root, found, negation, paving, status)
