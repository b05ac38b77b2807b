"""Contraction, settling and paving straight from their definitions, slow and plain."""
import re
from fractions import Fraction
from typing import Any, List, Set, Tuple

from . import intervals as iv
from .kinds import Bound, Box, Expression, Interval, Outcome, Parts, Program, Relation, Value
from .minibex import System
from .numbers import DOWN, UP, from_fraction, middle, spelling, sub


def bound(value: Bound, side: str) -> Value:
    return value if isinstance(value, float) else from_fraction(value, side)


class Empty(Exception):
    """Some step of a contraction was empty."""


def kept(x: Interval) -> Interval:
    if x is None:
        raise Empty
    return x


FORWARD = {"+": iv.plus, "-": iv.minus, "*": iv.times, "min": iv.least, "max": iv.greatest}
BACKWARD = {"+": iv.back_add, "-": iv.back_sub, "*": iv.back_mul, "/": iv.back_div, "min": iv.back_min,
            "max": iv.back_max}


class Constraint:
    def __init__(self, constraint: Relation) -> None:
        self.relation, self.left, self.right = constraint

    def forward(self, e: Expression, box: Box) -> Tuple[Interval, bool]:
        """The interval of e on the box, and whether no divisor's interval holds 0."""
        kind = e[0]
        if kind == "const":
            return (from_fraction(e[1], DOWN), from_fraction(e[1], UP)), True
        if kind == "var":
            return box[e[1]], True
        if kind in ("neg", "abs", "^"):
            x, total = self.forward(e[1], box)
            return {"neg": lambda: iv.opposite(x), "abs": lambda: iv.absolute(x),
                    "^": lambda: iv.raised(x, e[2])}[kind](), total
        (x, total_x), (y, total_y) = self.forward(e[1], box), self.forward(e[2], box)
        total = total_x and total_y
        if kind == "/":
            return kept(iv.quotient(x, y)), total and not y[0] <= 0 <= y[1]
        return FORWARD[kind](x, y), total

    def related(self, left: Interval, right: Interval) -> Parts:
        if self.relation == "=":
            common = kept(iv.meet(left, right))
            return common, common
        if self.relation in (">=", ">"):
            right, left = self.below(right, left)
            return left, right
        return self.below(left, right)

    def below(self, left: Interval, right: Interval) -> Parts:
        if left[0] > right[1] or (self.relation in ("<", ">") and left[0] >= right[1]):
            raise Empty
        return (left[0], min(left[1], right[1])), (max(right[0], left[0]), right[1])

    def targets(self, e: Expression, z: Interval, box: Box, found: List[Tuple[int, Interval]]) -> None:
        kind = e[0]
        if kind == "var":
            found.append((e[1], z))
        elif kind in ("neg", "abs", "^"):
            x, _ = self.forward(e[1], box)
            x1 = {"neg": lambda: iv.back_neg(z, x), "abs": lambda: iv.back_abs(z, x),
                  "^": lambda: iv.back_pow(z, x, e[2])}[kind]()
            self.targets(e[1], kept(x1), box, found)
        elif kind != "const":
            x1, y1 = kept(BACKWARD[kind](z, self.forward(e[1], box)[0], self.forward(e[2], box)[0]))
            self.targets(e[1], x1, box, found)
            self.targets(e[2], y1, box, found)

    def revise(self, box: Box) -> Box:
        left, right = self.related(self.forward(self.left, box)[0], self.forward(self.right, box)[0])
        found: List[Tuple[int, Interval]] = []
        self.targets(self.left, left, box, found)
        self.targets(self.right, right, box, found)
        result = list(box)
        for i, z in found:
            result[i] = kept(iv.meet(result[i], z))
        return result

    def variables(self) -> Set[int]:
        def found(e: Expression) -> Set[int]:
            return {e[1]} if e[0] == "var" else set().union(*(found(part) for part in e[1:] if isinstance(part, tuple)))
        return found(self.left) | found(self.right)

    def sure(self, box: Box) -> bool:
        try:
            (left, total_left), (right, total_right) = self.forward(self.left, box), self.forward(self.right, box)
        except Empty:
            return False
        if not (total_left and total_right):
            return False
        return {"<=": left[1] <= right[0], "<": left[1] < right[0], ">=": left[0] >= right[1],
                ">": left[0] > right[1], "=": left[0] == left[1] == right[0] == right[1]}[self.relation]


def read_program(text: str) -> Program:
    """A good contractor text as nested tuples: ("hc4", i), ("fix", n, p), ("qinter", q, [p]), ("union", [p]) .."""
    words = re.findall(r"[a-z0-9]+|[(),]", text)

    def program() -> Program:
        name = words.pop(0)
        assert words.pop(0) == "("
        parts = []
        while True:
            parts.append(int(words.pop(0)) if words[0].isdigit() else program())
            if words.pop(0) == ")":
                break
        if name in ("hc4", "prop"):
            return (name, parts[0])
        if name in ("qinter", "fix"):
            return (name, parts[0], parts[1:])
        return (name, parts)

    return program()


def q_hull(q: int, boxes: Any) -> Box:
    result = []
    for place in zip(*boxes):
        def covered(end: Value) -> bool:
            return sum(x[0] <= end <= x[1] for x in place) >= q
        lows, highs = [x[0] for x in place if covered(x[0])], [x[1] for x in place if covered(x[1])]
        if not lows or not highs:
            return None
        result.append((min(lows), max(highs)))
    return result


class Settler:
    def __init__(self, system: System, eps: Fraction = Fraction(1, 8), depth: int = 60, bisector: str = "largest",
                 contract: str = "prop(8)") -> None:
        self.constraints = [Constraint(c) for c in system.constraints]
        self.root = [(bound(lo, DOWN), bound(hi, UP)) for lo, hi in system.domains]
        self.eps, self.depth, self.bisector = from_fraction(eps, DOWN), depth, bisector
        self.program = read_program(contract)

    def contract(self, program: Program, box: Box) -> Box:
        """The contracted box; None where it is empty."""
        kind = program[0]
        if kind == "hc4":
            try:
                return self.constraints[program[1]].revise(box)
            except Empty:
                return None
        if kind == "compose":
            return self.in_order(program[1], box)
        if kind == "fix":
            return self.turns(program[1], program[2], box)
        if kind == "prop":
            return self.turns(program[1], [("hc4", i) for i in range(len(self.constraints))], box)
        results = [r for r in (self.contract(p, box) for p in program[-1]) if r is not None]
        if kind == "qinter":
            return q_hull(program[1], results) if len(results) >= program[1] else None
        if not results:
            return None
        return [(min(x[0] for x in place), max(x[1] for x in place)) for place in zip(*results)]

    def in_order(self, programs: Any, box: Box) -> Box:
        for program in programs:
            box = self.contract(program, box)
            if box is None:
                return None
        return box

    def turns(self, most: int, programs: Any, box: Box) -> Box:
        for _ in range(most):
            before, box = box, self.in_order(programs, box)
            if box is None or box == before:
                break
        return box

    def revisions(self, program: Program, box: Box) -> int:
        """How many revisions the contraction of the box needs."""
        kind = program[0]
        if kind == "hc4":
            return 1
        if kind in ("union", "qinter"):
            return sum(self.revisions(p, box) for p in program[-1])
        if kind == "prop":
            return self.revisions_of_unclean(program[1], box)
        count = 0
        for _ in range(program[1] if kind == "fix" else 1):
            before = box
            for part in program[-1]:
                count += self.revisions(part, box)
                box = self.contract(part, box)
                if box is None:
                    return count
            if box == before:
                break
        return count

    def revisions_of_unclean(self, most: int, box: Box) -> int:
        """The pairs of a turn and a constraint that is not clean when its place comes, up to and with the first empty one."""
        history: List[Tuple[int, Box, Box]] = []
        for _ in range(most):
            before = box
            for i in range(len(self.constraints)):
                if self.is_clean(i, history):
                    continue
                left = self.contract(("hc4", i), box)
                history.append((i, box, left))
                if left is None:
                    return len(history)
                box = left
            if box == before:
                break
        return len(history)

    def is_clean(self, i: int, history: List[Tuple[int, Box, Box]]) -> bool:
        """Whether constraint i once kept the box, and no place of one of its variables changed from then on."""
        places = self.constraints[i].variables()
        return any(number == i and old == new and all(b[k] == c[k] for _, b, c in history[at:] for k in places)
                   for at, (number, old, new) in enumerate(history))

    def sure(self, program: Program, box: Box) -> bool:
        kind = program[0]
        if kind == "hc4":
            return self.constraints[program[1]].sure(box)
        if kind == "prop":
            return all(c.sure(box) for c in self.constraints)
        parts = [self.sure(p, box) for p in program[-1]]
        return {"compose": all(parts), "fix": all(parts), "union": any(parts),
                "qinter": kind == "qinter" and sum(parts) >= program[1]}[kind]

    def member(self, program: Program, held: Any) -> bool:
        """Whether a point is a member, given which constraints hold there."""
        kind = program[0]
        if kind == "hc4":
            return held[program[1]]
        if kind == "prop":
            return all(held)
        parts = [self.member(p, held) for p in program[-1]]
        return {"compose": all(parts), "fix": all(parts), "union": any(parts),
                "qinter": kind == "qinter" and sum(parts) >= program[1]}[kind]

    def width(self, x: Interval) -> Value:
        return sub(x[1], x[0], UP)

    def choose(self, box: Box, length: int) -> Any:
        cuts = [middle(*x) for x in box]
        able = [i for i, cut in enumerate(cuts) if cut is not None]
        if not able:
            return None
        if self.bisector == "largest":
            i = max(able, key=lambda i: (self.width(box[i]), -i))
        else:
            i = min(able, key=lambda i: (i - length) % len(box))
        return i, cuts[i]

    def settle(self, box: Box, depth_left: int, length: int) -> Outcome:
        to = self.contract(self.program, box)
        if to is None:
            return ("X",)
        if self.sure(self.program, to):
            return ("I", to)
        choice = self.choose(to, length)
        if all(self.width(x) <= self.eps for x in to) or depth_left == 0 or choice is None:
            return ("S", to)
        return ("C", to, *choice)


def halves(to: Box, variable: int, at: Value) -> Tuple[Box, Box]:
    low, high = list(to), list(to)
    low[variable], high[variable] = (to[variable][0], at), (at, to[variable][1])
    return low, high


def pave(settler: Any, budget: int = 20000) -> Tuple[str, List[str]]:
    """The node lines in preorder; the first open leaf in preorder is settled each time."""
    lines, counts, settled = [], dict.fromkeys("CXISO", 0), 0
    waiting = [(settler.root, 0)]
    while waiting:
        box, length = waiting.pop()
        outcome = ("O",) if settled == budget else settler.settle(box, max(0, settler.depth - length), length)
        settled += outcome[0] != "O"
        counts[outcome[0]] += 1
        lines.append(node_line(outcome))
        if outcome[0] == "C":
            low, high = halves(*outcome[1:])
            waiting += [(high, length + 1), (low, length + 1)]
    summary = "settled %d cut %d removed %d inner %d small %d open %d" % (
        settled, counts["C"], counts["X"], counts["I"], counts["S"], counts["O"])
    return summary, lines


def node_line(outcome: Outcome) -> str:
    if outcome[0] in "XO":
        return outcome[0]
    ends = " ".join(spelling(end) for x in outcome[1] for end in x)
    cut = f"{outcome[2]} {spelling(outcome[3])} " if outcome[0] == "C" else ""
    return f"{outcome[0]} {cut}{ends}"
