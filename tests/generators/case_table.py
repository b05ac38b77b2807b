"""What the makers of tables of worked cases share: how numbers are spelled there, and how a table is written.

A number of the plain paver is written as a mantissa and an exponent; the exponent 999 stands for an infinite end.
"""
from __future__ import annotations

from collections.abc import Callable, Mapping, Sequence
from pathlib import Path
from typing import Any

from tests.reference.kinds import Interval, Value
from tests.reference.numbers import NEG_INF, POS_INF, SCALE

CRATES = Path(__file__).resolve().parents[2] / "crates"


def spelled(a: Value) -> str:
    if a in (NEG_INF, POS_INF):
        return f"({1 if a > 0 else -1}, 999)"
    if a == 0:
        return "(0, 0)"
    trailing = (a & -a).bit_length() - 1
    return f"({a >> trailing}, {trailing - SCALE})"


def ends(x: Interval) -> str:
    return f"({spelled(x[0])}, {spelled(x[1])})"


def table(name: str, kind: str, rows: Sequence[str], scope: str = "crate") -> str:
    """A static table of rows of a kind."""
    return f"pub({scope}) static {name}: [{kind}; {len(rows)}] = [\n" + "\n".join(rows) + "\n];\n"


def write(crate: str, heading: str, groups: Mapping[str, Sequence[Sequence[Any]]], row: Callable[..., str], *more: str) -> None:
    """Writes a crate's src/table.rt: the heading's lines, a table for each group with a line for each case, and more."""
    tables = [table(name, "Case", [row(*case) for case in cases]) for name, cases in groups.items()]
    (CRATES / crate / "src" / "table.rt").write_text("\n".join([heading, *tables, *more]))
