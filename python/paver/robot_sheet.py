"""The sheet on which a robot's system is written: its variables, and constraints with a comment each, within the limits."""
from __future__ import annotations

import math
import re
from dataclasses import dataclass
from fractions import Fraction
from typing import Dict, FrozenSet, List, NoReturn, Optional, Sequence, Set, Tuple

from .minibex import tokens
from .robot_file import Pair, Robot, RobotRefused
from .trigonometry import COSINE, SINE, Trigonometric, expression, number, number_text, rational_turn, symbol

MOST_VARIABLES, MOST_CONSTRAINTS, MOST_OPERATIONS, MOST_NODES, MOST_BYTES = 12, 64, 1000, 65536, 65536
LIMIT_ERROR = 1e-9  # radians by which joint limits are moved outward where they have no rational cosine
EXACT_COSINES = {0: Fraction(1), 60: Fraction(1, 2), 90: Fraction(0), 120: Fraction(-1, 2)}
ALONE = 165  # degrees up to which one chart, with its tangent below 8, holds all of a joint's angles
FUNCTIONS = {
    "c": "function c(t)  // the cosine of 2 atan(t)\n  return (1 - t^2)/(1 + t^2);\nend",
    "s": "function s(t)  // its sine\n  return 2*t/(1 + t^2);\nend",
    "c_back": "function c_back(t)  // the cosine of 180 degrees + 2 atan(t)\n  return (t^2 - 1)/(1 + t^2);\nend",
    "s_back": "function s_back(t)  // its sine\n  return -2*t/(1 + t^2);\nend"}
CALLED = 14  # nodes of an expanded call of these


@dataclass
class Turn:
    """An angle that moves: its limits in degrees, and what it is."""
    name: str
    qlim: Optional[Pair]
    what: str


class Sheet:
    """Gathers a system. `rotation` is cosines or half; `charts` has a digit for each turn: 0 is the half circle about 0
    degrees, 1 that about 180."""

    def __init__(self, robot: Robot, rotation: str = "cosines", charts: Optional[str] = None) -> None:
        self.robot, self.rotation, self.charts = robot, rotation, charts
        self.turns: List[Turn] = []
        self.lengths: Dict[str, Pair] = {}
        self.spelled: Dict[str, str] = {}
        self.fixed: Dict[str, str] = {}
        self.used: Set[str] = set()
        self.constraints: List[Tuple[str, str]] = []
        self.notes: List[str] = []

    def refuse(self, cause: str, line: Optional[int] = None) -> NoReturn:
        raise RobotRefused(f"{self.robot.name}: " + (f"line {line}: " if line else "") + cause)

    # ---- what polynomials are made of

    def angle(self, degrees: Fraction, line: Optional[int] = None) -> Tuple[Trigonometric, Trigonometric]:
        """The cosine and sine of a fixed angle: numbers where they are 0 and 1, else a rational point near it."""
        c, s, exact = rational_turn(degrees, self.robot.places or 9)
        if exact:
            return number(c), number(s)
        places = self.robot.places
        if places is None:
            self.refuse(f"the angle {float(degrees):.9g} is no multiple of 90 degrees, and has no rational cosine and sine: a "
                        "line `near 1e-9` takes a rational point of the circle within so many radians", line)
        name = f"#{degrees}"
        if name not in self.fixed:
            self.fixed[name] = f"{float(degrees):.9g} degrees, by a rational point of the circle within 1e-{places} rad"
            for word, value in ((COSINE + name, c), (SINE + name, s)):
                self.spelled[word] = f"({'-' if value < 0 else ''}{number_text(abs(value))})"
        return symbol(COSINE + name), symbol(SINE + name)

    def moving(self, turn: Turn) -> Tuple[Trigonometric, Trigonometric]:
        """The cosine and sine of an angle that moves."""
        chart = self.chart_of(len(self.turns), turn)
        self.turns.append(turn)
        for word, letter in ((COSINE + turn.name, "c"), (SINE + turn.name, "s")):
            self.spelled[word] = f"{letter}_{turn.name}" if self.rotation == "cosines" else \
                f"{letter}{'_back' if chart else ''}(t_{turn.name})"
        return symbol(COSINE + turn.name), symbol(SINE + turn.name)

    def chart_of(self, place: int, turn: Turn) -> int:
        if self.rotation == "cosines":
            return 0
        if self.charts is None:
            if not one_chart(turn.qlim):
                self.refuse(f"{turn.what} goes beyond {ALONE} degrees, and needs two charts: give --charts with a digit for "
                            "each angle, as 01, or --folder for all of them")
            return 0
        if place >= len(self.charts) or self.charts[place] not in "01":
            self.refuse(f"--charts {self.charts}: a digit 0 or 1 for each angle is expected")
        if self.charts[place] == "1" and one_chart(turn.qlim):
            self.refuse(f"--charts {self.charts}: {turn.what} has its angles in chart 0 alone")
        return int(self.charts[place])

    def length(self, name: str, low: Fraction, high: Fraction) -> Trigonometric:
        low, high = self.robot.search.get(name, (low, high))
        self.lengths[name], self.spelled[name] = (low, high), name
        return symbol(name)

    @property
    def order(self) -> List[FrozenSet[str]]:
        return [*(frozenset((COSINE + turn.name, SINE + turn.name)) for turn in self.turns),
                *(frozenset((name,)) for name in self.lengths),
                *(frozenset((COSINE + name, SINE + name)) for name in self.fixed)]

    # ---- what is written

    def text(self, p: Trigonometric) -> str:
        self.used |= p.names
        try:
            return expression(p, self.order, self.spelled)
        except ValueError as fault:
            self.refuse(str(fault))

    def ask(self, comment: str, text: str) -> None:
        """A constraint that the system needs."""
        if operations(text) > MOST_OPERATIONS:
            self.refuse(f"{comment}: {operations(text)} operations, where a constraint has at most {MOST_OPERATIONS}")
        self.constraints.append((comment, text))

    def help(self, comment: str, p: Trigonometric) -> None:
        """A redundant one, where it fits: the polynomial is 0 at all solutions, so it stands within a tolerance, and the
        count of equations stays that of the variables."""
        used = set(self.used)
        text = self.text(p)
        if p.number is None and operations(text) < MOST_OPERATIONS // 4:
            self.constraints.append((f"follows from the others, and helps contraction: {comment}", f"abs({text}) <= 1e-6"))
        else:
            self.used = used

    def written(self) -> str:
        """The whole text; RobotRefused where it passes the profile's limits."""
        variables, rows = self.variables_and_limits()
        rows += self.constraints
        for count, most, what in ((len(variables), MOST_VARIABLES, "variables"), (len(rows), MOST_CONSTRAINTS, "constraints")):
            if count > most:
                self.refuse(f"{count} {what}, where a system has at most {most}: ask less at once, or fix some joints")
        if not rows:
            self.refuse("nothing is asked of what moves: the system has no constraint")
        shared = set(names_of(variables))
        if len(shared) < len(variables):
            self.refuse("two variables have one name: rename a joint")
        body = "\n".join(f"  // {comment}\n  {text};" for comment, text in rows)
        heads = [FUNCTIONS[name] for name in FUNCTIONS if re.search(rf"\b{name}\(t_", body)]
        entries = ",\n".join(f"  {name} in [{ends}]" for name, ends in variables)
        notes = [*self.notes, *(f"fixed angle {what}" for what in self.fixed.values())]
        text = "".join(f"// {note}\n" for note in notes) + "\n".join(
            [*(heads if self.rotation == "half" else []), "Variables", entries + ";", "Constraints", body, "end", ""])
        nodes = sum(nodes_of(row) for _, row in rows)
        if nodes > MOST_NODES or len(text) > MOST_BYTES:
            self.refuse(f"{nodes} nodes and {len(text)} bytes, where a system has at most {MOST_NODES} of each")
        return text

    def variables_and_limits(self) -> Tuple[List[Tuple[str, str]], List[Tuple[str, str]]]:
        """The variables that stand in constraints, and what their circles and limits ask."""
        variables: List[Tuple[str, str]] = []
        rows: List[Tuple[str, str]] = []
        for name, (low, high) in self.lengths.items():
            if name in self.used:
                variables.append((name, f"{bound(low, False)}, {bound(high, True)}"))
        for place, turn in enumerate(self.turns):
            if {COSINE + turn.name, SINE + turn.name} & self.used:
                found, more = self.circle(turn, None if self.charts is None else self.charts[place])
                variables += found
                rows += more
        return variables, rows

    def circle(self, turn: Turn, chart: Optional[str]) -> Tuple[List[Tuple[str, str]], List[Tuple[str, str]]]:
        c, s = self.spelled[COSINE + turn.name], self.spelled[SINE + turn.name]
        limit = limit_text(turn, c, s)
        if self.rotation == "cosines":
            return [(c, "-1, 1"), (s, "-1, 1")], [(f"cosine and sine of {turn.what}", f"{c}^2 + {s}^2 = 1"), *limit]
        if turn.qlim and one_chart(turn.qlim):
            low, high = turn.qlim
            self.notes.append(f"the domain of t_{turn.name} has the limits of {turn.what}, {float(low):.9g} to "
                              f"{float(high):.9g} degrees, outward by less than 1e-8")
            return [(f"t_{turn.name}", f"{half_tangent(low, False)}, {half_tangent(high, True)}")], []
        return [(f"t_{turn.name}", "-1, 1")], limit


def one_chart(qlim: Optional[Pair]) -> bool:
    return qlim is not None and -ALONE <= qlim[0] and qlim[1] <= ALONE


def limit_text(turn: Turn, c: str, s: str) -> List[Tuple[str, str]]:
    """The limits of an angle as one half-plane: cos(angle - middle) is at least the cosine of half their width."""
    if turn.qlim is None or turn.qlim[1] - turn.qlim[0] >= 360:
        return []
    low, high = turn.qlim
    middle, half = (low + high) / 2, (high - low) / 2
    mc, ms, exact = rational_turn(middle, 12)
    least = EXACT_COSINES.get(int(half)) if exact and half.denominator == 1 else None
    by = "" if least is not None else ", moved outward by less than 1e-8 rad"
    if least is None:
        wide = min(math.pi, math.radians(float(half)) + LIMIT_ERROR)
        least = Fraction(math.floor(math.cos(wide) * 10 ** 15) - 1, 10 ** 15)
    side = expression(symbol("c") * number(mc) + symbol("s") * number(ms), [frozenset("c"), frozenset("s")], {"c": c, "s": s})
    sign = "-" if least < 0 else ""
    return [(f"limits of {turn.what}: {float(low):.9g} to {float(high):.9g} degrees{by}",
             f"{side} >= {sign}{number_text(abs(least))}")]


def bound(value: Fraction, up: bool) -> str:
    """A bound of a domain, outward where it is no short decimal."""
    text = number_text(abs(value))
    if "/" in text or len(text) > 15:
        return outward(float(value), up)
    return ("-" if value < 0 else "") + text


def half_tangent(degrees: Fraction, up: bool) -> str:
    """The tangent of half an angle as a bound of a domain."""
    if degrees in (-90, 0, 90):
        return str(int(degrees / 90))
    return outward(math.tan(math.radians(float(degrees)) / 2), up)


def outward(value: float, up: bool) -> str:
    scaled = Fraction(value) * 10 ** 9
    found = math.ceil(scaled) + 1 if up else math.floor(scaled) - 1
    return ("-" if found < 0 else "") + number_text(abs(Fraction(found, 10 ** 9)))


def names_of(variables: Sequence[Tuple[str, str]]) -> List[str]:
    return [name for name, _ in variables]


def operations(text: str) -> int:
    """The operations of a constraint, calls of functions among them, as the profile counts them or more."""
    words = tokens(text)
    return sum(word.text in ("+", "-", "*", "/", "^") or (word.kind == "name" and words[at + 1].text == "(")
               for at, word in enumerate(words))


def nodes_of(text: str) -> int:
    """At least the nodes of a constraint after functions are expanded."""
    words = tokens(text)
    calls = sum(word.text in FUNCTIONS for word in words)
    return operations(text) + sum(word.kind in ("name", "number") for word in words) + CALLED * calls


