"""Which parameters of a model agree with a table of measurements, each known within bounds, when some of them may be wrong?

Each measurement low <= model <= high becomes the one constraint abs(model - middle) <= half the width. All but K of them have
to hold: the set is the q-relaxed intersection of Jaulin and Walter (Guaranteed robust nonlinear minimax estimation, IEEE Trans.
Automatic Control 47, 2002), which the contractor text qinter(n - K, ..) asks for.
"""
from __future__ import annotations

from dataclasses import dataclass, field
from fractions import Fraction
from pathlib import Path
from typing import Dict, Iterator, List, Optional, Sequence, Set, Tuple, Union

from . import errors, program
from .canonical import Constraint, System
from .cover import Cover
from .explain import qinter_text
from .measurements import FitRefused, Row, Table, read_csv
from .minibex import RESERVED, Token, tokens
from .numbers import counted, minibex, printable
from .ranges import decided
from .texts import ENCODING, Related, Side, SystemText

MOST_CONSTRAINTS = 64
PathName = Union[str, Path]
Bounded = Sequence[Tuple[Fraction, Fraction]]  # a box of finite ends


@dataclass
class Measurement:
    """One measured value: the line of the table, its column, its bounds, the inputs that the model has there, and the text of
    model less middle."""
    line: int
    column: str
    low: Fraction
    high: Fraction
    inputs: Dict[str, Fraction]
    difference: str

    @property
    def half(self) -> Fraction:
        """Half the width of its bounds."""
        return (self.high - self.low) / 2

    def written(self) -> str:
        """The measurement for people, in one line."""
        inputs = ", ".join(f"{name} = {minibex(value)}" for name, value in self.inputs.items())
        return printable(f"line {self.line}{f', {inputs}' if inputs else ''}: "
                         f"{minibex(self.low)} <= {self.column} <= {minibex(self.high)}")


@dataclass
class Fit:
    """A system and how it is asked. `text` is the Minibex text, `contract` the contractor text (None where all have to hold),
    `groups` the measurements of each constraint, `first` the number of the first of these constraints: those before it are the
    model's own, and have to hold. `outliers` of the groups may be wrong."""
    text: str
    contract: Optional[str]
    groups: List[List[Measurement]]
    first: int
    outliers: int
    missing: int = 0
    names: List[str] = field(default_factory=list)


class Model:
    """A model's text: variables, functions, and constraints, of which each law `column = expression` stands for a measurement a
    row."""

    def __init__(self, path: PathName, table: Table, path_of_program: Optional[str] = None) -> None:
        self.table, text = table, Path(path).read_bytes().decode(ENCODING)
        self.bases = {name[:-4] for name in table.columns if name.endswith("_low") and f"{name[:-4]}_high" in table.columns}
        columns = {*table.columns, *self.bases} - RESERVED
        self._check(text, columns, path_of_program)
        self.source = SystemText(text)
        declared = declared_in(text, columns)
        both = sorted(declared & {name for c in self.source.constraints for name in c.left.names() | c.right.names()} & columns)
        if both:
            raise FitRefused(f"`{both[0]}` is a name of the model and a column of {table.name}: rename one of them")
        self.columns = columns - declared
        self.own = [c for c in self.source.constraints if not self.inputs(c.left) and not self.inputs(c.right)]
        self.laws = [self._law(c) for c in self.source.constraints if c not in self.own]
        if not self.laws:
            raise FitRefused(f"the model has no law `column = expression`; the columns are {', '.join(table.columns)}")

    @staticmethod
    def _check(text: str, columns: Set[str], path_of_program: Optional[str]) -> None:
        """Has the program take the text with a number in the place of each column: it refuses at the model's own places."""
        declared, found, words = declared_in(text, columns), text, tokens(text)
        for token in reversed(words[block_of_constraints(words):]):
            if token.kind == "name" and token.text in columns - declared:
                found = found[:token.at] + "1".ljust(len(token.text)) + found[token.at + len(token.text):]
        program.check_text(found.encode(ENCODING), program=path_of_program)

    def inputs(self, side: Side) -> Set[str]:
        """The columns that a side names."""
        return side.names() & self.columns

    def _law(self, c: Related) -> Tuple[str, Side]:
        """The measured column of a law, and its expression."""
        for side, other in ((c.left, c.right), (c.right, c.left)):
            if c.relation == "=" and len(side.tokens) == 1 and self.inputs(side):
                return side.tokens[0].text, other
        raise FitRefused(f"`{c.written().strip()}`: a constraint with a column has the form `column = expression`")

    def measurements(self, half: Optional[str]) -> Iterator[Measurement]:
        """The measurements, row by row; a row whose value is missing has none."""
        for row in self.table.rows:
            for column, side in self.laws:
                if row.cells.get(column, row.cells.get(f"{column}_low")) is not None:
                    yield self._measured(row, column, side, half)

    def _measured(self, row: Row, column: str, side: Side, half: Optional[str]) -> Measurement:
        number = self.table.number
        low, high = self._bounds(row, column, half)
        place = f"{self.table.name}, line {row.line}"
        if low > high:
            raise FitRefused(f"{place}: the bounds of {column} are empty: {minibex(low)} is above {minibex(high)}")
        inputs = {name: number(row, name) for name in sorted(self.inputs(side))}
        instead = {name: text_of(value, name, place) for name, value in inputs.items()}
        middle = (low + high) / 2
        sign = "+" if middle < 0 else "-"
        written = side.written(instead)
        return Measurement(row.line, column, low, high, inputs,
                           written if middle == 0 else f"{written} {sign} {text_of(abs(middle), column, place)}")

    def _bounds(self, row: Row, column: str, half: Optional[str]) -> Tuple[Fraction, Fraction]:
        number, known = self.table.number, self.table.columns
        own = f"{column}_err"
        ways = [column in self.bases, own in known, half is not None]
        if sum(ways) != 1:
            given = "more than one is given" if sum(ways) else "none is given"
            raise FitRefused(f"{self.table.name}: the bounds of {column} are {column}_low and {column}_high, or {column} and "
                             f"its half-width {own}, or {column} and --yerr: {given}")
        if column in self.bases:
            return number(row, f"{column}_low"), number(row, f"{column}_high")
        value = number(row, column)
        name = own if half is None else half
        width = number(row, name) if name in known else number_of(name)
        if width < 0:
            raise FitRefused(f"{self.table.name}, line {row.line}: the half-width of {column} is below 0")
        return value - width, value + width


def block_of_constraints(words: Sequence[Token]) -> int:
    """The number of the token that begins the constraints; how many there are where none does."""
    return next((i for i, token in enumerate(words) if token.word == "Constraints"), len(words))


def declared_in(text: str, columns: Set[str]) -> Set[str]:
    """The columns' names that a text declares as constants, variables or functions. Parameters of functions may be called as
    columns are."""
    words, found, is_within = tokens(text), set(), False
    for before, token in zip([Token("end", "", 0), *words], words[:block_of_constraints(words)]):
        if token.kind == "name" and (not is_within or before.word == "Function"):
            found.add(token.text)
        is_within = token.word == "Function" or is_within and token.word != "End"
    return found & columns


def number_of(word: str) -> Fraction:
    try:
        return Fraction(word)
    except (ValueError, ZeroDivisionError) as fault:
        raise FitRefused(f"--yerr {word}: a number or the name of a column is expected") from fault


def text_of(value: Fraction, name: str, place: str) -> str:
    """A number as a constraint has it."""
    text = minibex(value)
    if text is None:
        raise FitRefused(f"{place}: a number of {name} has more than 37 digits")
    return f"({text})" if value < 0 else text


def constraint_of(group: Sequence[Measurement], place: str) -> str:
    """The one constraint of measurements that hold together."""
    if len(group) == 1:
        return f"abs({group[0].difference}) <= {text_of(group[0].half, group[0].column, place)}"
    found = ""
    for one in group:
        excess = f"abs({one.difference}) - {text_of(one.half, one.column, place)}"
        found = f"max({found}, {excess})" if found else excess
    return f"{found} <= 0"


def contract_of(first: int, count: int, outliers: int) -> Optional[str]:
    """The contractor text: None where all constraints have to hold, which the program asks by itself."""
    if not outliers:
        return None
    relaxed = qinter_text([[first + k] for k in range(count)], count - outliers)
    return relaxed if not first else f"compose({','.join(f'hc4({i})' for i in range(first))},{relaxed})"


def refuse_many(count: int, own: int, together: int, rows: int) -> None:
    """FitRefused where there are more constraints than a system takes."""
    if count + own > MOST_CONSTRAINTS:
        least = -(-rows // max(1, MOST_CONSTRAINTS - own))
        raise FitRefused(f"{count} constraints for {counted(rows, 'measurement')} and {own} of the model's own: "
                         f"{MOST_CONSTRAINTS} fit. Take {least} measurements that agree together as one (--together {least}: "
                         "they are right or wrong together then), or put measurements into bins, each with its bounds")


def fit(model: PathName, data: PathName, outliers: int = 0, *, yerr: Union[str, int, float, Fraction, None] = None,
        together: int = 1, sep: str = ",", comment: Optional[str] = None, program_path: Optional[str] = None) -> Fit:
    """The system of a model and a CSV file of measurements of which at most `outliers` are wrong. The bounds of a measured
    column y are the columns y_low and y_high, or y with the half-width in y_err, or y with `yerr`, a number or a column. With
    `together` that many measurements, in their order, are one constraint, and right or wrong together. FitRefused says what
    can't be taken; SystemRefused is of the model's text."""
    table = read_csv(data, sep, comment)
    known = Model(model, table, program_path)
    half = None if yerr is None else repr(yerr) if isinstance(yerr, float) else str(yerr)
    found = list(known.measurements(half))
    if not found:
        raise FitRefused(f"{table.name}: there is no measurement")
    if together < 1:
        raise FitRefused(f"--together {together}: at least 1 is expected")
    groups = [found[k:k + together] for k in range(0, len(found), together)]
    refuse_many(len(groups), len(known.own), together, len(found))
    if not 0 <= outliers < len(groups):
        raise FitRefused(f"--outliers {outliers}: from 0 to {len(groups) - 1} of {len(groups)} can be wrong")
    contract = contract_of(len(known.own), len(groups), outliers)
    text = text_of_system(known, groups, outliers, contract)
    try:
        names = program.check_text(text.encode(ENCODING), program=program_path).names
    except errors.SystemRefused as fault:
        line = text.split("\n")[fault.row - 1].strip()
        raise FitRefused(f"the system of the measurements is refused in `{line[:80]}`: {fault.cause}") from fault
    missing = len(table.rows) * len(known.laws) - len(found)
    return Fit(text, contract, groups, len(known.own), outliers, missing, names)


def text_of_system(model: Model, groups: Sequence[Sequence[Measurement]], outliers: int, contract: Optional[str]) -> str:
    """The text, with a comment before each constraint that names its measurements."""
    first, table = len(model.own), ascii_of(model.table.name)
    noun = "measurements" if all(len(group) == 1 for group in groups) else "groups of measurements"
    head = [f"// {len(groups)} {noun} of {table}, of which at most {outliers} may be wrong.",
            f"// Constraints {first} to {first + len(groups) - 1} are theirs, one each"
            + ("; those before are the model's own." if first else "."),
            f"//   paver run FILE{'' if contract is None else f' --contract {chr(39)}{contract}{chr(39)}'}"]
    lines = [f"  // {i}: the model's own\n  {c.written()}" for i, c in enumerate(model.own)]
    for i, group in enumerate(groups, first):
        told = "; ".join(ascii_of(one.written()) for one in group)
        lines.append(f"  // {i}: {told}\n  {constraint_of(group, table)}")
    return "\n".join(head) + "\n" + model.source.written([line.lstrip() for line in lines])


def ascii_of(text: str) -> str:
    """A text that a comment can have."""
    return text.encode("ascii", "replace").decode().replace("\n", " ")


@dataclass
class Part:
    """A part of the set, whose kept boxes touch: `boxes` of them, `inner` of those proved, their `hull`; and which groups of
    measurements agree with no rational point of it (`without`), with each (`within`), or with some as far as intervals tell
    (`partly`)."""
    boxes: int
    inner: int
    hull: Tuple[Tuple[Fraction, Fraction], ...]
    within: List[int]
    without: List[int]
    partly: List[int]


def verdict(constraint: Constraint, hull: Bounded, boxes: Sequence[Bounded]) -> Optional[bool]:
    """Whether a constraint holds on all boxes, on none, or neither is seen; the hull decides many at once."""
    whole = decided(constraint, hull)
    if whole is not None:
        return whole
    first = decided(constraint, boxes[0])
    if first is None or any(decided(constraint, box) is not first for box in boxes[1:]):
        return None
    return first


def parts_of(found: Fit, system: System, paving: Cover) -> List[Part]:
    """The parts of a paving of the fit's system. It looks at each measurement on each box in exact fractions."""
    parts = []
    for cluster in paving.clusters():
        hull = tuple((Fraction(low), Fraction(high)) for low, high in cluster.hull)
        boxes = [[(Fraction(low), Fraction(high)) for low, high in box.exact] for box in cluster.boxes]
        told = [verdict(system.constraints[found.first + k], hull, boxes) for k in range(len(found.groups))]
        lists = [[k for k, one in enumerate(told) if one is value] for value in (True, False, None)]
        inner = sum(box.kind == "inner" for box in cluster.boxes)
        parts.append(Part(len(boxes), inner, hull, *lists))
    return sorted(parts, key=lambda part: -part.boxes)
