"""Writes the system of a control question: for which gains has the closed loop what is asked?

The text's format stands in docs/CONTROL.md, the conditions and their sources in control_conditions.py. The closed loop of a
plant P and a controller C has the numerator of 1 + P C as its polynomial; nothing is cancelled, so hidden modes count. All is
exact, but for three numbers that are rounded to the strict side: the cosine of a phase margin, and a sampled loop's band.
"""
from __future__ import annotations

import math
from collections.abc import Sequence
from dataclasses import dataclass, field
from fractions import Fraction
from itertools import product
from pathlib import Path
from typing import Callable, Dict, Iterator, List, Optional, Tuple

from . import control_conditions as conditions
from .control_conditions import Condition
from .control_text import Ask, ControlRefused, Question, read
from .intervals import Interval
from .minibex import tokens
from .polynomials import ONE, Polynomial, Quotient, TooLong, constant, sum_of, variable, written

MOST_DEGREE, MOST_VARIABLES, MOST_CONSTRAINTS, MOST_FUNCTIONS = 8, 12, 64, 64
MOST_OPERATIONS, MOST_NODES, MOST_BYTES, MOST_EDGES = 1000, 65536, 65536, 32
MILLION = 10 ** 6
Family = List[Tuple[str, List[Polynomial]]]
Criterion = Callable[[conditions.Coefficients], Iterator[Condition]]


@dataclass
class Constraint:
    """A constraint's text, and where it comes from."""
    text: str
    origin: str


@dataclass
class Control:
    """text is the system; for_all are the variables for whose values all has to hold, which `robust` takes; polynomial has the
    closed loop's coefficients, from that of power 0 on."""
    text: str
    for_all: list[str]
    polynomial: list[Polynomial]
    constraints: list[Constraint]


class Writer:
    """The system as it grows."""

    def __init__(self, question: Question, theorems: bool) -> None:
        self.question, self.theorems = question, theorems
        self.domains: Dict[str, Interval] = dict(question.box)
        self.extra: list[str] = []  # parameters that no line names
        self.functions: Dict[Polynomial, str] = {}
        self.constraints: list[Constraint] = []

    def fresh(self, name: str) -> str:
        taken = {*self.domains, *self.functions.values(), *self.question.definitions}
        return name if name not in taken else self.fresh(name + "_")

    def parameter(self, name: str, domain: Interval) -> Polynomial:
        """A further variable for whose values all has to hold."""
        known = [extra for extra in self.extra if self.domains[extra] == domain and extra.rstrip("_") == name]
        found = known[0] if known else self.fresh(name)
        if not known:
            self.extra.append(found)
            self.domains[found] = domain
        return variable(found)

    def call(self, body: Polynomial, name: str) -> str:
        """The text that stands for a polynomial: itself if it is one monomial, else the call of a function for it."""
        if len(body.terms) < 2:
            return written(body, {})
        if body not in self.functions:
            self.functions[body] = self.fresh(name)
        return f"{self.functions[body]}({', '.join(self.arguments(body))})"

    def arguments(self, body: Polynomial) -> list[str]:
        return [name for name in self.domains if name in body.names]

    def add(self, text: str, origin: str) -> None:
        if not any(c.text == text for c in self.constraints):
            self.constraints.append(Constraint(text, origin))

    def positive(self, p: Polynomial, origin: str, atoms: Dict[str, Polynomial]) -> None:
        """The constraint that a polynomial in atoms is above 0: expanded if that is shorter, else by calls of functions. One
        that is seen to hold in all domains is left out."""
        whole = None
        try:
            expanded = p.substituted(atoms)
            if expanded.bounds(self.domains)[0] > 0:
                return
            whole = written(scaled(expanded), {})
        except TooLong:
            pass
        bodies = {name: size(written(body, {})) for name, body in atoms.items()}
        plain = scaled(p)
        if whole is not None and size(whole) <= 1.5 * size(written(plain, {}), bodies):
            self.add(f"{whole} > 0", origin)
        else:
            calls = {name: self.call(body, name) for name, body in atoms.items() if name in plain.names}
            self.add(f"{written(plain, calls)} > 0", origin)

    def all_positive(self, a: Sequence[Polynomial], criterion: Criterion, origin: str, edge: Optional[str] = None) -> None:
        """The conditions of a criterion on a polynomial whose leading coefficient is above 0. A condition that is affine along
        an edge stands at the edge's ends."""
        atoms: Dict[str, Polynomial] = {}
        short = []
        for k, c in enumerate(a):
            name = self.fresh(f"c{k}")
            known = self.functions.get(c)
            if len(c.terms) > 1:
                atoms[known or name] = c
                short.append(variable(known or name))
            else:
                short.append(c)
        for words, p in criterion(short):
            if edge is not None and p.substituted(atoms).degree(edge) == 1:
                for end in (0, 1):
                    at_end = p.substituted(atoms).substituted({edge: constant(end)})
                    self.positive(at_end, f"{origin}: {words}, at an end", {})
            else:
                self.positive(p, f"{origin}: {words}", atoms)


def scaled(p: Polynomial) -> Polynomial:
    """Times the positive number that makes its coefficients whole and without a common divisor."""
    below, common = 1, 0
    for c in p.terms.values():
        below = below * c.denominator // math.gcd(below, c.denominator)
    for c in p.terms.values():
        common = math.gcd(common, int(c * below))
    return p * constant(Fraction(below, common)) if common else p


def size(text: str, bodies: Optional[Dict[str, int]] = None) -> int:
    """The nodes of an expression: its names, numbers and operations; a name of a body counts as that, with no arguments."""
    found, skipping = 0, False
    for token in tokens(text):
        if skipping:
            skipping = token.text != ")"
        elif bodies and token.text in bodies:
            found += bodies[token.text]
            skipping = text[token.at + len(token.text):][:1] == "("
        else:
            found += token.kind in ("name", "number") or token.text in ("+", "-", "*", "/", "^")
    return found


def operations(text: str) -> int:
    words = tokens(text)
    return sum(a.text in ("+", "-", "*", "/", "^") or a.kind == "name" and b.text == "(" for a, b in zip(words, words[1:]))


def with_sign(a: list[Polynomial], box: Dict[str, Interval]) -> Tuple[list[Polynomial], bool]:
    """The polynomial with a leading coefficient above 0, and whether that holds on the whole box. If the coefficient's sign is
    not seen, all is multiplied by it, so that its square leads."""
    low, high = a[-1].bounds(box)
    if low > 0:
        return a, True
    if high < 0:
        return [-c for c in a], True
    return [a[-1] * c for c in a], False


def independent(a: Sequence[Polynomial], names: set[str], box: Dict[str, Interval]) -> Optional[Family]:
    """Kharitonov's four polynomials, if each parameter stands in one coefficient alone, which is affine and monotone in it."""
    low, high = list(a), list(a)
    for name in sorted(names):
        places = [k for k, c in enumerate(a) if name in c.names]
        slope = a[places[0]].derivative(name)
        if len(places) != 1 or a[places[0]].degree(name) != 1:
            return None
        first, last = slope.bounds(box)
        if first < 0 < last:
            return None
        ends = box[name] if first >= 0 else (box[name][1], box[name][0])
        k = places[0]
        low[k] = low[k].substituted({name: constant(ends[0])})
        high[k] = high[k].substituted({name: constant(ends[1])})
    names_of = {"llhh": "first", "hhll": "second", "lhhl": "third", "hllh": "fourth"}
    return [(f"Kharitonov's {names_of[pattern]} polynomial", p) for pattern, p in conditions.kharitonov(low, high)]


def edges_of(a: Sequence[Polynomial], names: Sequence[str], box: Dict[str, Interval], edge: Polynomial) -> Optional[Family]:
    """The polynomials along the edges of the parameters' box, if all coefficients are affine in the parameters together."""
    for c in a:
        if any(sum(power for name, power in monomial if name in names) > 1 for monomial in c.terms):
            return None
    found: Family = []
    for name in names:
        others = [other for other in names if other != name]
        for ends in product(*(box[other] for other in others)):
            values = {other: constant(end) for other, end in zip(others, ends)}
            values[name] = constant(box[name][0]) + constant(box[name][1] - box[name][0]) * edge
            words = ", ".join(f"{other} = {end}" for other, end in zip(others, ends))
            found.append((f"edge along {name}, {words}", [c.substituted(values) for c in a]))
    return found


class Loop:
    """A closed loop, and what is asked of it."""

    def __init__(self, question: Question) -> None:
        self.question, known = question, question.definitions
        row = max([row for row, _ in question.lines.values()], default=1)
        if "polynomial" in known:
            whole, self.open = known["polynomial"], None
        elif "P" in known and "C" in known:
            self.open = Quotient(known["P"].numerator * known["C"].numerator, (*known["P"].factors, *known["C"].factors))
            whole = Quotient(self.open.numerator + self.open.denominator)
        else:
            raise ControlRefused(row, 1, "a plant `P = ..` and a controller `C = ..`, or a `polynomial = ..`, are expected")
        if whole.factors:
            raise ControlRefused(row, 1, "a polynomial has no divisor with a variable")
        self.variable = self.variable_of(whole.numerator, row)
        self.polynomial = whole.numerator.in_powers_of(self.variable)
        if not 1 <= len(self.polynomial) - 1 <= MOST_DEGREE:
            raise ControlRefused(row, 1, f"the closed loop has degree {len(self.polynomial) - 1}: 1 to {MOST_DEGREE} is taken")

    def variable_of(self, whole: Polynomial, row: int) -> str:
        names = whole.names | (self.open.numerator.names | self.open.denominator.names if self.open else set())
        found = [name for name in ("s", "z") if name in names]
        if len(found) != 1:
            raise ControlRefused(row, 1, "the loop has both s and z" if found else "the loop has neither s nor z")
        return found[0]

    def parts(self, ask: Ask) -> Tuple[list[Polynomial], list[Polynomial]]:
        """Numerator and denominator of the open loop."""
        if self.open is None:
            raise ControlRefused(ask.row, 1, f"`{ask.kind}` is asked of a plant and a controller, and a polynomial is given")
        return self.open.numerator.in_powers_of(self.variable), self.open.denominator.in_powers_of(self.variable)


def region(ask: Ask, loop: Loop, writer: Writer) -> None:
    """The constraints that the roots lie in a region."""
    a, criterion = loop.polynomial, conditions.hurwitz if loop.variable == "s" else conditions.jury
    if ask.kind in ("shift", "damping", "radius") and (ask.kind == "radius") != (loop.variable == "z"):
        raise ControlRefused(ask.row, 1, f"`{ask.kind}` is asked of a loop in {'z' if ask.kind == 'radius' else 's'}")
    if ask.kind == "gain_margin":
        top, bottom = loop.parts(ask)
        gain = writer.parameter("loop_gain", (Fraction(1), ask.number))
        a = [conditions.at(bottom, k) + gain * conditions.at(top, k) for k in range(max(len(top), len(bottom)))]
    elif ask.kind == "shift":
        a = conditions.moved(a, ask.number)
    elif ask.kind == "radius":
        a = conditions.stretched(a, ask.number)
    elif ask.kind == "damping":
        criterion = lambda c: conditions.damped(c, ask.number)
    a, fixed = with_sign(a, writer.domains)
    if not fixed:
        writer.positive(a[-1], f"{ask.text}: the leading coefficient is not 0, so that the degree is full", {})
    for words, coefficients, edge in families(a, criterion, writer, fixed):
        writer.all_positive(coefficients, criterion, f"{ask.text}: {words}" if words else ask.text, edge)


def families(a: list[Polynomial], criterion: Criterion, writer: Writer, fixed: bool
             ) -> list[Tuple[str, list[Polynomial], Optional[str]]]:
    """The polynomials to ask in place of an uncertain one, each with the parameter of its edge if it has one."""
    all_names = {name for c in a for name in c.names}
    names = [name for name in (*writer.question.uncertain, *writer.extra) if name in all_names]
    if not names or not writer.theorems or not fixed:
        return [("", a, None)]
    if criterion is conditions.hurwitz:
        four = independent(a, set(names), writer.domains)
        if four is not None:
            return [(words, p, None) for words, p in four]
    if len(names) == 1 or len(names) * 2 ** (len(names) - 1) > MOST_EDGES:
        return [("", a, None)]
    probe = edges_of(a, names, writer.domains, ONE)
    if probe is None or len(probe) * len(a) > MOST_CONSTRAINTS:
        return [("", a, None)]
    edge = writer.parameter("edge", (Fraction(0), Fraction(1)))
    found = edges_of(a, names, writer.domains, edge) or []
    return [(words, p, next(iter(edge.names))) for words, p in found]


def band(ask: Ask, loop: Loop, writer: Writer) -> None:
    """The constraint for all frequencies of a band."""
    top, bottom = loop.parts(ask)
    first, last = ask.band or (Fraction(0), Fraction(0))
    if loop.variable == "z":
        if last >= Fraction(314, 100):
            raise ControlRefused(ask.row, 1, "the band of a sampled loop ends below 3.14 radians a sample")
        first, last = (rounded(math.tan(float(first) / 2), False), rounded(math.tan(float(last) / 2), True))
        axis = writer.parameter("t", (max(first, Fraction(0)), last))
        degree = max(len(top), len(bottom)) - 1
        top, bottom = conditions.by_half_angle(top, degree), conditions.by_half_angle(bottom, degree)
    else:
        axis = writer.parameter("w", (first, last))
    both = [conditions.at(top, k) + conditions.at(bottom, k) for k in range(max(len(top), len(bottom)))]
    numerator, denominator, closed = (conditions.on_axis(a, axis) for a in (top, bottom, both))
    origin = f"{ask.text}" + (f", with {next(iter(axis.names))} = tan(w/2)" if loop.variable == "z" else "")
    if ask.kind == "phase_margin":
        cosine = rounded(math.cos(math.radians(float(ask.number))), False)
        (nr, ni), (dr, di) = pair(writer, numerator, "numerator"), pair(writer, denominator, "denominator")
        gain, size_of = square((nr, ni)), square((dr, di))
        level = written(constant(cosine), {})
        writer.add(f"max(abs({gain} - ({size_of})), {nr}*{dr} + {ni}*{di} + ({level})*({size_of})) > 0",
                   f"{origin}: if the open loop has gain 1 its real part is above -cos of the margin, {level} from below")
        return
    above, words = (denominator, "1") if ask.kind == "S" else (numerator, "P C")
    first_two = pair(writer, above, "denominator" if ask.kind == "S" else "numerator")
    most = written(constant(ask.number ** 2), {})
    writer.add(f"{square(first_two)} <= {most}*({square(pair(writer, closed, 'closed'))})",
               f"{origin}: the squares of {words} and of 1 + P C, times the open loop's denominator")


def pair(writer: Writer, parts: Tuple[Polynomial, Polynomial], name: str) -> Tuple[str, str]:
    """The texts of a real and an imaginary part, each as a factor."""
    texts = writer.call(parts[0], f"{name}_real"), writer.call(parts[1], f"{name}_imag")
    real, imaginary = (text if text.isalnum() or text.endswith(")") else f"({text})" for text in texts)
    return real, imaginary


def square(parts: Tuple[str, str]) -> str:
    return " + ".join(f"{part}^2" for part in parts if part != "0") or "0"


def rounded(value: float, up: bool) -> Fraction:
    """A number of millionths beyond a float, by more than the float's own error."""
    return Fraction(math.floor(value * MILLION) + (2 if up else -1), MILLION)


def check_limits(writer: Writer, text: str, row: int) -> None:
    """Refuses what is beyond the limits of docs/MINIBEX.md, with the ask's line."""
    bodies = {name: size(written(body, {})) for body, name in writer.functions.items()}
    nodes = sum(size(c.text, bodies) for c in writer.constraints)
    longest = max([operations(c.text) for c in writer.constraints]
                  + [operations(written(body, {})) for body in writer.functions])
    used = used_names(writer)
    for count, most, noun in ((len(used), MOST_VARIABLES, "variables"),
                              (len(writer.constraints), MOST_CONSTRAINTS, "constraints"),
                              (len(writer.functions), MOST_FUNCTIONS, "functions"),
                              (nodes, MOST_NODES, "nodes of expressions"),
                              (longest, MOST_OPERATIONS, "operations in one constraint"), (len(text), MOST_BYTES, "bytes")):
        if count > most:
            raise ControlRefused(row, 1, f"the system has {count} {noun} with this line: {most} are taken")


def used_names(writer: Writer) -> list[str]:
    """The gains, and the parameters that stand in constraints."""
    found = {token.text for c in writer.constraints for token in tokens(c.text)}
    return [name for name in writer.domains if name in writer.question.gains or name in found]


def text_of(loop: Loop, writer: Writer, for_all: Sequence[str]) -> str:
    question = loop.question
    lines = ["// Written by `python3 -m paver control` from these lines:"]
    lines += [f"//   {text}" for _, text in question.lines.values()] + [f"//   {ask.text}" for ask in question.asks]
    loop_text = written(sum_of([c * variable(loop.variable) ** k for k, c in enumerate(loop.polynomial)]), {})
    lines.append(f"// The closed loop's polynomial is {loop_text}.")
    lines.append(f"//   python3 -m paver robust FILE --for-all {','.join(for_all)}" if for_all else "//   paver run FILE")
    names = used_names(writer)
    ends = [(signed(writer.domains[name][0], False), signed(writer.domains[name][1], True)) for name in names]
    entries = [f"{name} in [{low}, {high}]" for name, (low, high) in zip(names, ends)]
    lines += ["Variables", "  " + ", ".join(entries) + ";"]
    for body, name in writer.functions.items():
        lines += [f"function {name}({', '.join(writer.arguments(body))})", f"  return {written(body, {})};", "end"]
    lines.append("Constraints")
    for c in writer.constraints:
        lines += [f"  // {c.origin}", f"  {c.text};"]
    return "\n".join([*lines, "end", ""])


def signed(value: Fraction, up: bool) -> str:
    """An end of a domain as a decimal; one that has none is rounded outward."""
    text = written(constant(value), {})
    if "/" not in text:
        return text
    step = 10 ** 12
    whole = -(-value.numerator * step // value.denominator) if up else value.numerator * step // value.denominator
    return written(constant(Fraction(whole, step)), {}) if value.denominator != 1 else text


def control_text(text: str, *, theorems: bool = True) -> Control:
    """The system of a control question's text. With theorems an uncertain polynomial is asked by Kharitonov's polynomials or by
    edges if its family is of that kind. ControlRefused, with line and column, for what can't be read or is beyond limits."""
    question = read(text)
    try:
        loop = Loop(question)
    except TooLong as fault:
        raise ControlRefused(len(text.splitlines()) or 1, 1, f"the closed loop needs {fault}") from fault
    if not question.asks:
        raise ControlRefused(len(text.splitlines()) or 1, 1, "nothing is asked: `stable`, for example, is expected")
    stable = any(ask.kind not in ("S", "T", "phase_margin") for ask in question.asks)
    writer = Writer(question, theorems)
    for ask in question.asks:
        if ask.kind == "phase_margin" and not stable:
            raise ControlRefused(ask.row, 1, "`phase_margin` is asked of a stable loop: ask `stable`, too")
        try:
            (band if ask.band is not None else region)(ask, loop, writer)
            for_all = [name for name in used_names(writer) if name not in question.gains]
            whole = text_of(loop, writer, for_all)
        except TooLong as fault:
            raise ControlRefused(ask.row, 1, f"`{ask.text}` needs {fault}") from fault
        if writer.constraints:
            check_limits(writer, whole, ask.row)
    if not writer.constraints:
        raise ControlRefused(question.asks[0].row, 1, "no gain or parameter stands in the conditions: all hold")
    return Control(whole, for_all, loop.polynomial, writer.constraints)


def control(path: str | Path, *, theorems: bool = True) -> Control:
    """The system of a control question's file; as control_text."""
    return control_text(Path(path).read_text(encoding="utf-8"), theorems=theorems)
