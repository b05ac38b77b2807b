"""The least value of an expression over a system's set, by levels.

A level c is asked by a run of the system with the constraint `OF <= c`. Where it ends with no inner, small or open leaf, no
rational point of the set has a value at or below c; a point of an inner box is a witness. Each bound rests on one run of
the proved program alone. Where to ask next is guessed in floats, and nothing rests on that.
"""
from __future__ import annotations

import math
import subprocess
import tempfile
from collections.abc import Callable, Iterable, Mapping, Sequence
from dataclasses import dataclass, field
from fractions import Fraction
from pathlib import Path
from time import monotonic
from typing import Any, Union

from . import canonical, errors, numbers, program
from .canonical import Steps, System
from .cover import Box
from .descent import Field, low_point
from .intervals import Undefined
from .levels_kept import Proof, command_words, stored
from .paving import Paving
from .ranges import range_of
from .texts import ENCODING, SystemText
from .values import least
from .widen import Width, widened, widened_contract

Exact = Union[Fraction, float]  # a float where it is infinite
HINT = 0.15  # seconds of a descent
DEPTH, LADDER = 200, 12
MOST_POINTS = 200  # inner boxes of a run that are looked at
MOST_STEP = Fraction(10 ** 12)
MOST_DIGITS = 30  # of a level
MOST_FALLS = 3  # levels just below the upper bound that had witnesses, one after the other, before a wider step
NOTHING, WITNESS, UNDECIDED = "nothing", "witness", "undecided"
WITHIN, EMPTY, TIME, BOXES = "within", "empty", "time", "boxes"
INTERRUPTED, MEMORY, UNBOUNDED = "interrupted", "memory", "no lower bound"
ENDINGS = {
    WITHIN: "the bounds are as near as asked", EMPTY: "no rational point of the search box is in the set with a value",
    TIME: "the time is used up: --seconds gives more", INTERRUPTED: "it was interrupted", MEMORY: "the program had no memory",
    BOXES: "the levels between are undecided with this many boxes: --boxes gives more",
    UNBOUNDED: f"no level down to {MOST_STEP} below the point is without points",
}


class Stopped(Exception):
    """The search has to end: .args has the cause."""


@dataclass
class Levels:
    """What a search found. No rational point of the set in the search box has a value at or below `lower`, which is
    -math.inf where nothing is known and math.inf where the set is empty. Where a point was found, `point` has its Fractions:
    it is in the set, and its value is at most `upper`; else both are None. `ended` says why the search ended; `proofs` has
    the runs on which the bounds rest, by the names lower and upper; `calls` is how often the program was called."""
    names: list[str]
    within: Fraction
    lower: Exact = -math.inf
    upper: Fraction | None = None
    point: tuple[Fraction, ...] | None = None
    ended: str = BOXES
    proofs: dict[str, Proof] = field(default_factory=dict)
    calls: int = 0

    @property
    def gap(self) -> Exact:
        """How far the bounds are apart."""
        return math.inf if self.upper is None or self.lower == -math.inf else self.upper - self.lower

    @property
    def complete(self) -> bool:
        """Whether the bounds are as near as asked, or the set is empty."""
        return self.ended in (WITHIN, EMPTY)


class Question:
    """A system, an expression and settings: what is asked of the program."""

    def __init__(self, system: str | Path, of: str, *, widen: Width | None, contract: str | None, centered: bool, boxes: int,
                 limit: str | int | None, path: str | None) -> None:
        self.of, self.boxes, self.limit, self.path = of, boxes, limit, path
        self.command = "run-centered" if centered else "run"
        known = program.check(system, program=path)
        text = Path(system).read_bytes().decode(ENCODING)
        self.given = self.contract = self._contract(system, contract, known, widen)
        self.text = SystemText(text if widen is None else widened(text, widen))
        self.base = known if widen is None else self._checked(self.text.text)
        self.objective = self._objective()
        if self.given:  # of the text's constraints, and of the level's, which is the last
            self.contract = f"fix(8,compose({self.given},hc4({len(self.base.constraints)})))"
        self.root = Box("open", self.base.root).exact
        self.domains = [self.text.bounds(name) for name in self.base.names]

    def _contract(self, system: str | Path, contract: str | None, known: System, widen: Width | None) -> str | None:
        if contract is None:
            return None
        program.run(system, boxes=1, contract=contract, program=self.path)  # a refused text is refused in its own words
        return contract if widen is None else widened_contract(contract, [c.relation for c in known.constraints])

    def _checked(self, text: str) -> System:
        with tempfile.TemporaryDirectory() as folder:
            path = Path(folder) / "system.mbx"
            path.write_bytes(text.encode(ENCODING, "xmlcharrefreplace"))
            return program.check(path, program=self.path)

    def _objective(self) -> Steps:
        """The expression's steps. ObjectiveRefused where the text is none, at its own byte."""
        text = self.at_level(Fraction(0))
        start = text.rindex(f"{self.of}\n<= 0;\nend")
        try:
            found = self._checked(text)
        except errors.SystemRefused as fault:
            if fault.cause == "TooManyConstraints" and len(self.base.constraints) == 64:
                raise ValueError("the system has 64 constraints, and `OF <= c` is one more: join two by min or max") from fault
            byte = min(max(0, fault.byte - start), len(self.of))
            raise errors.ObjectiveRefused(2, fault.line, byte=byte, cause=fault.cause) from fault
        last = found.constraints[-1]
        if len(found.constraints) != len(self.base.constraints) + 1 or (last.relation, last.right) != ("<=", [("const", 0)]):
            at = next((i for i, c in enumerate(self.of) if c in ";<>="), 0)
            raise errors.ObjectiveRefused(2, "", byte=at, cause="Unexpected")
        return last.left

    def at_level(self, level: Fraction | None, point: Iterable[Fraction] | None = None) -> str:
        """The text with the level's constraint, and with a point in place of the domains."""
        constraints = [c.written() for c in self.text.constraints]
        if level is not None:
            constraints.append(f"{self.of}\n<= {numbers.minibex(level)}")
        if point is None:
            return self.text.written(constraints)
        words = (numbers.minibex(value) or "" for value in point)  # a point's numbers are ones that a text can hold
        ends = {name: (word, word) for name, word in zip(self.base.names, words)}
        return self.text.written(constraints, ends)

    def settings(self, level: Fraction | None, eps: Fraction, boxes: int) -> dict[str, Any]:
        found = {"eps": numbers.minibex(eps), "depth": DEPTH, "boxes": boxes}
        contract = self.given if level is None else self.contract
        return {**found, **{name: word for name, word in (("contract", contract), ("limit", self.limit)) if word is not None}}

    def widths(self) -> list[Fraction]:
        """Falling values of eps: a tenth of the search box's width, and on by tens."""
        finite = [high - low for low, high in self.root if not isinstance(low, float) and not isinstance(high, float)]
        top = math.floor(math.log10(max(finite, default=0) or 10))
        return [Fraction(10) ** (top - k) for k in range(1, LADDER) if -36 <= top - k <= 30] or [Fraction(1)]

    def bottom(self) -> Exact:
        """A number that the expression's values on the search box don't fall below; -math.inf where none is seen."""
        if len(self.objective) == 1 and self.objective[0][0] == "var":
            return self.root[self.objective[0][1]][0]
        used = {step[1] for step in self.objective if step[0] == "var"}
        if any(isinstance(end, float) for k in used for end in self.root[k]):
            return -math.inf
        nothing = (Fraction(0), Fraction(0))
        box = [(Fraction(low), Fraction(high)) if k in used else nothing for k, (low, high) in enumerate(self.root)]
        try:
            return range_of(self.objective, box)[0]
        except Undefined:
            return -math.inf

    def field(self, point: Sequence[Fraction] | None = None) -> Field:
        """The expression and the constraints in floats. Under a contractor text, by which a point of the set may fail some
        constraints, those that hold at the point."""
        base = self.base
        if self.given and point is not None:
            held = [c for c in base.constraints if canonical.holds(c, point)]
            base = System(base.names, base.root, held, base.text)
        return Field(base, self.objective, [(float(low), float(high)) for low, high in self.root])

    def holds(self, point: Iterable[Fraction]) -> bool:
        """Whether a point lies in the domains as they are written."""
        return all(low <= value <= high for value, (low, high) in zip(point, self.domains))

    def value(self, point: Iterable[Fraction]) -> Fraction | None:
        """The expression's exact value at a point; None where it has none."""
        return canonical.value(self.objective, list(point))


class Search:
    """A search that is under way: its bounds are right at every moment."""

    def __init__(self, question: Question, within: Fraction, seconds: float, tell: Callable[[Levels], None] | None) -> None:
        self.question, self.tell = question, tell
        self.until = monotonic() + seconds
        self.found = Levels(list(question.base.names), within)
        self.quantum = Fraction(10) ** math.floor(math.log10(within) - 2)
        self.undecided: set[Fraction] = set()
        self.tried: set[Fraction] = set()
        self.step, self.falls = within, 0
        self.bottom = question.bottom()

    # ---- calls of the program

    def call(self, command: str, level: Fraction | None, eps: Fraction, boxes: int, point: tuple[Fraction, ...] | None = None
             ) -> tuple[Proof, Paving]:
        """A run, and its paving. Stopped where the time is used up or memory was wanting."""
        left = self.until - monotonic()
        if left <= 0:
            raise Stopped(TIME)
        text, settings = self.question.at_level(level, point), self.question.settings(level, eps, boxes)
        self.found.calls += 1
        with tempfile.TemporaryDirectory() as folder:
            system, out = Path(folder) / "level.mbx", Path(folder) / "level.paving"
            system.write_bytes(text.encode(ENCODING))
            words = command_words(command, system, settings, out)
            try:
                program.asked(words, self.question.path, left)
            except subprocess.TimeoutExpired as late:
                raise Stopped(TIME) from late
            except errors.WantOfMemory as fault:
                raise Stopped(MEMORY) from fault
            data = out.read_bytes()
        root: Any = self.question.base.root if point is None else [(value, value) for value in point]
        paving = Paving.from_text(data.decode(ENCODING), root=root, names=self.question.base.names)
        return Proof(command, settings, text, data, level, paving.counts()), paving

    def ask(self, level: Fraction | None) -> tuple[str, Proof, Paving]:
        """What the program says of a level (None for the set alone), with ever smaller boxes."""
        for eps in self.question.widths():
            proof, paving = self.call(self.question.command, level, eps, self.question.boxes)
            if proof.counts["inner"]:
                return WITNESS, proof, paving
            if not proof.counts["small"] and not proof.counts["open"]:
                return NOTHING, proof, paving
            if proof.counts["open"]:
                break
        return UNDECIDED, proof, paving

    # ---- upper bounds

    def certified(self, point: Iterable[Fraction]) -> bool:
        """Whether a point is shown to be in the set by one run on the domains [p,p]; the upper bound is then its value."""
        point = tuple(point)
        value = self.question.value(point)
        if value is None or not self.question.holds(point) or None in map(numbers.minibex, point):
            return False
        level = self.rounded(value)
        for bound in (level, self.rounded(level + self.quantum)):
            if self.found.upper is not None and bound >= self.found.upper or numbers.minibex(bound) is None:
                return False
            proof, _ = self.call("run", bound, Fraction(1), 1, point)
            if proof.counts["inner"] == 1:
                self.raise_point(bound, point, proof)
                return True
        return False

    def raise_point(self, bound: Fraction, point: tuple[Fraction, ...], proof: Proof) -> None:
        self.found.upper, self.found.point, self.found.proofs["upper"] = bound, point, proof
        self.told()

    def descend(self, begin: tuple[Fraction, ...] | None = None) -> None:
        """A low point is looked for in floats, from a point of the set where one is known, and then certified."""
        left = min(HINT, self.until - monotonic())
        starts = [] if begin is None else [list(map(float, begin))]
        x = low_point(self.question.field(begin), left, float(self.found.within) / 100, starts)
        if x is not None and all(map(math.isfinite, x)):
            self.certified(short_point(x))

    def plain_point(self) -> None:
        """The point that the program's `least` finds is certified and improved."""
        eps, left = self.question.widths()[:2][-1], self.until - monotonic()
        settings = self.question.settings(None, eps, self.question.boxes)
        of = canonical.infix(self.question.objective, self.question.base.names)  # `least` knows no functions of the text
        self.found.calls += 1
        with program.as_file(self.question.at_level(None)) as path:
            try:
                point = least(path, of, program=self.question.path, timeout=max(left, 0), **settings).point
            except errors.ObjectiveRefused:  # it is too long in these words
                return
            except subprocess.TimeoutExpired as late:
                raise Stopped(TIME) from late
            except errors.WantOfMemory as fault:
                raise Stopped(MEMORY) from fault
        if point is not None and (self.certified(short_point(point)) or self.certified(point)):
            self.descend(self.found.point)

    def witness(self, level: Fraction | None, proof: Proof, paving: Paving) -> None:
        """Points of inner boxes are looked at, and the best one is improved."""
        ranked = []
        for _, box in zip(range(MOST_POINTS), paving.inner()):
            for point in points_of(box, self.question.domains):
                value = self.question.value(point)
                if value is not None:
                    ranked.append((value, point))
        if not ranked:
            return
        value, point = min(ranked)
        if level is not None and (self.found.upper is None or level < self.found.upper):
            self.raise_point(level, point, proof)  # an inner box of this run holds the point
        self.certified(short_point(point)) or self.certified(point)
        self.descend(point)

    # ---- where to ask

    def rounded(self, value: Fraction) -> Fraction:
        """The next level in few digits that is not below a value."""
        digits = len(str(abs(math.floor(value))))
        quantum = max(self.quantum, Fraction(10) ** (digits - MOST_DIGITS))
        return math.ceil(value / quantum) * quantum

    def next_level(self) -> Fraction | None:
        """The level to ask; None where those between the bounds are undecided as near as it matters."""
        level = self.wanted_level()
        return None if level is None or numbers.minibex(level) is None else level

    def wanted_level(self) -> Fraction | None:
        found, within = self.found, self.found.within
        top = found.upper
        unbound = found.lower == -math.inf and self.below_bottom() not in (None, *self.tried)
        if top is not None and self.falls < (1 if unbound else MOST_FALLS) and self.rounded(top - within) not in self.tried:
            return self.rounded(top - within)
        if unbound:
            return self.below_bottom()
        if found.lower == -math.inf:
            self.step *= 4
            return self.rounded((top or 0) - self.step) if self.step <= MOST_STEP else None
        lower = Fraction(found.lower)
        between = sorted(level for level in self.undecided if lower < level and (top is None or level < top))
        ends = [lower, *between, *([] if top is None else [top])]
        if len(ends) == 1:
            self.step *= 4
            return self.rounded(lower + self.step) if self.step <= MOST_STEP else None
        for low, high in ((ends[0], ends[1]), (ends[-2], ends[-1])):
            middle = self.rounded((low + high) / 2)
            if high - low > within / 4 and middle not in self.tried and (top is not None or high == ends[1]):
                return middle
        return None

    def below_bottom(self) -> Fraction | None:
        """The first level below all values on the search box; None where none is known."""
        return None if isinstance(self.bottom, float) else self.rounded(self.bottom - self.quantum)

    def told(self) -> None:
        if self.tell:
            self.tell(self.found)

    # ---- the search

    def begin(self, tries: Iterable[Iterable[Fraction]]) -> None:
        for point in tries:
            self.certified(point)
        if self.question.given and self.found.point is None:
            self.plain_point()
        else:
            self.descend(self.found.point)
        if self.found.point is None:
            said, proof, paving = self.ask(None)
            if said == NOTHING:
                self.found.lower, self.found.proofs["lower"] = math.inf, proof
                raise Stopped(EMPTY)
            if said == WITNESS:
                self.witness(None, proof, paving)

    def work(self, tries: Iterable[Iterable[Fraction]]) -> None:
        self.begin(tries)
        while self.found.gap > self.found.within:
            level = self.next_level()
            if level is None:
                raise Stopped(UNBOUNDED if self.found.lower == -math.inf and not self.undecided else BOXES)
            self.tried.add(level)
            said, proof, paving = self.ask(level)
            self.falls = self.falls + 1 if said == WITNESS else 0
            if said == NOTHING:
                self.found.lower, self.found.proofs["lower"] = level, proof
                self.told()
            elif said == WITNESS:
                self.witness(level, proof, paving)
            else:
                self.undecided.add(level)
        raise Stopped(WITHIN)


def points_of(box: Box, domains: Iterable[tuple[Exact, Exact]]) -> Iterable[tuple[Fraction, ...]]:
    """The centre of a box and its low and high points, kept within the domains as they are written."""
    ends = []
    for (low, high), (first, last) in zip(box.exact, domains):
        low, high = max(low, first), min(high, last)
        if low > high:
            return
        if isinstance(low, float) and isinstance(high, float):
            low, high = Fraction(-1), Fraction(1)
        ends.append((Fraction(high - 1 if isinstance(low, float) else low),
                     Fraction(low + 1 if isinstance(high, float) else high)))
    yield tuple((low + high) / 2 for low, high in ends)
    yield tuple(low for low, _ in ends)
    yield tuple(high for _, high in ends)


def short_point(x: Iterable[float | Fraction]) -> tuple[Fraction, ...]:
    """Numbers of fifteen digits next to these, which a text can hold."""
    return tuple(Fraction(f"{float(value):.15g}") for value in x)


def least_by_levels(system: str | Path, of: str, *, within: str | int | Fraction = Fraction(1, 1000),
                    tries: Iterable[Mapping[str, Fraction]] = (), widen: Width | None = None, seconds: float = 60,
                    boxes: int = 20000, limit: str | int | None = None, contract: str | None = None, centered: bool = True,
                    keep: str | Path | None = None, tell: Callable[[Levels], None] | None = None,
                    program: str | None = None) -> Levels:
    """Bounds of the least value of an expression over a system's set, at most `within` apart where the search comes to its
    end. The expression may use the system's functions and constants. `tries` has points as names and numbers; `widen` widens
    the system's equations; `keep` names a folder for what proves the bounds; `tell` is given the bounds each time that they
    move. An interruption ends the search, and what it has found is given."""
    within = Fraction(within)
    if within <= 0:
        raise ValueError(f"--within {within}: a number above 0 is expected")
    question = Question(system, of, widen=widen, contract=contract, centered=centered, boxes=boxes, limit=limit,
                        path=program)
    points = [tuple(named_point(question.base.names, values)) for values in tries]
    search = Search(question, within, seconds, tell)
    try:
        search.work(points)
    except Stopped as cause:
        search.found.ended = cause.args[0]
    except KeyboardInterrupt:
        search.found.ended = INTERRUPTED
    if keep is not None:
        stored(keep, search.found.proofs, of)
    return search.found


def named_point(names: list[str], values: Mapping[str, Fraction]) -> list[Fraction]:
    """The values in the variables' order; ValueError where one is missing, or names no variable."""
    wrong = sorted(set(values) ^ set(names))
    if wrong:
        raise ValueError(f"--try: a value for each variable and no other is expected: look at {', '.join(wrong)}")
    return [Fraction(values[name]) for name in names]
