"""Measurements from a CSV file, read by pandas' conventions: the first line names the columns, a name that comes again is y.1,
and an empty cell, NA, NaN and the like are missing. Numbers are exact: 0.1 is one tenth."""
from __future__ import annotations

import csv
import re
from dataclasses import dataclass
from fractions import Fraction
from pathlib import Path
from typing import Dict, List, Optional, Union

from .numbers import minibex, printable

MISSING = {"", "#N/A", "#NA", "-NaN", "-nan", "<NA>", "N/A", "NA", "NULL", "NaN", "None", "n/a", "nan", "null"}
NUMBER = re.compile(r"[+-]?([0-9]+(\.[0-9]*)?|\.[0-9]+)([eE][+-]?[0-9]{1,2})?\Z", re.A)


class FitRefused(ValueError):
    """A model or a table that can't be taken: the text says where and why."""


@dataclass
class Row:
    """A line of the file, from 1, with the cells that are not missing by their columns."""
    line: int
    cells: Dict[str, str]


@dataclass
class Table:
    """The measurements of a file: `name` is the file's in a text for people."""
    name: str
    columns: List[str]
    rows: List[Row]

    def number(self, row: Row, column: str) -> Fraction:
        """The exact number of a cell; FitRefused where it is missing, is none, or has more digits than a system takes."""
        word = row.cells.get(column)
        place = f"{self.name}, line {row.line}, column {column}"
        if word is None:
            raise FitRefused(f"{place}: the cell is missing: a measurement needs a value there")
        if not NUMBER.match(word):
            raise FitRefused(f"{place}: {printable(word)[:40]!r} is no number as 0.5 or 2e-3")
        value = Fraction(word)
        if minibex(value) is None:
            raise FitRefused(f"{place}: {word[:40]} has more than 37 digits or 36 decimal places")
        return value


def named_once(names: List[str]) -> List[str]:
    """The names as pandas tells them apart: y, y.1, y.2."""
    seen: Dict[str, int] = {}
    found = []
    for name in names:
        count = seen.get(name, 0)
        seen[name] = count + 1
        found.append(name if count == 0 else f"{name}.{count}")
    return found


def read_csv(path: Union[str, Path], sep: str = ",", comment: Optional[str] = None) -> Table:
    """Reads a file; `sep` parts its cells, and what follows the sign `comment` is passed over, as in pandas. FitRefused where
    it is no such table."""
    name = printable(Path(path).name)
    if len(sep) != 1 or comment is not None and len(comment) != 1:
        raise FitRefused("--sep and --comment take one sign each")
    with open(path, newline="", encoding="utf-8-sig") as file:
        try:
            lines = [line.rstrip("\r\n").split(comment)[0] if comment else line for line in file]
            reader = csv.reader(lines, delimiter=sep)
            found = [(reader.line_num, [cell.strip() for cell in cells]) for cells in reader if any(map(str.strip, cells))]
        except (UnicodeDecodeError, csv.Error) as fault:
            raise FitRefused(f"{name}: this is no CSV text: {fault}") from fault
    if not found:
        raise FitRefused(f"{name}: there is no line with the names of columns")
    columns, rows = named_once(found[0][1]), []
    for line, cells in found[1:]:
        if len(cells) != len(columns):
            raise FitRefused(f"{name}, line {line}: {len(cells)} cells, where {len(columns)} columns are named")
        rows.append(Row(line, {column: cell for column, cell in zip(columns, cells) if cell not in MISSING}))
    return Table(name, columns, rows)
