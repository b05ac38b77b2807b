"""The words and the printed lines of `fit`."""
from __future__ import annotations

import argparse
import sys
import tempfile
from collections.abc import Callable, Iterator
from pathlib import Path

from . import program
from .fit import Fit, Part, fit, parts_of
from .numbers import Exact, as_float, counted
from .paving import Paving
from .picture import svg
from .texts import ENCODING

OPTIONS = ("eps", "depth", "bisect", "boxes", "workers", "limit", "form")


def add_options(command: argparse.ArgumentParser) -> None:
    """The words of the command `fit`."""
    command.add_argument("system", metavar="MODEL", help="a text with laws `column = expression` among its constraints")
    command.add_argument("data", metavar="DATA.csv", help="measurements, with y_low and y_high, or y and its half-width y_err")
    command.add_argument("--outliers", type=int, default=0, metavar="K", help="how many measurements may be wrong (0)")
    command.add_argument("--yerr", metavar="E", help="the half-width: a number or the name of a column")
    command.add_argument("--together", type=int, default=1, metavar="N",
                         help="takes N measurements as one constraint: they are right or wrong together")
    command.add_argument("--sep", default=",", help="the sign between cells")
    command.add_argument("--comment", help="the sign from which on a line is passed over")
    command.add_argument("--qinter", action="store_true", help="prints the contractor text alone")
    command.add_argument("--report", action="store_true", help="paves the system, and says what agrees with the measurements")
    command.add_argument("--picture", metavar="FILE.svg", help="with --report: the picture of two parameters")
    command.add_argument("--x", default="0", help="a parameter's name or number in the picture")
    command.add_argument("--y", default="1")
    command.add_argument("--paving", help="with --report: a stored paving of the system, in place of a run")
    command.add_argument("--any-identity", action="store_true", help="take a file without comparing its identity")
    for name in OPTIONS:
        command.add_argument(f"--{name}", help=f"with --report: as the program's --{name}")


def interval(low: Exact, high: Exact) -> str:
    """An interval in floats that are rounded outward."""
    return f"[{as_float(low, False)!r}, {as_float(high, True)!r}]"


def lines_of(found: Fit, paving: Paving, parts: list[Part]) -> Iterator[str]:
    """The lines of the report."""
    count = sum(len(group) for group in found.groups)
    groups = "" if count == len(found.groups) else f" in {len(found.groups)} groups"
    yield f"{counted(count, 'measurement')}{groups}, at most {found.outliers} wrong"
    yield " ".join(f"{name} {count}" for name, count in paving.counts().items())
    if not parts:
        yield "no values of the parameters in their domains agree with so many"
        return
    hull, inner = paving.hull(), paving.hull("inner")
    for k, name in enumerate(found.names):
        proved = f"; inner boxes reach over {interval(*inner[k])}" if inner else ""
        yield f"{name} in {interval(*hull[k])}{proved}" if hull else name
    for number, part in enumerate(parts, 1):
        ends = " x ".join(interval(*pair) for pair in part.hull)
        yield f"part {number}: {counted(part.boxes, 'box', 'boxes')}, {part.inner} inner, in {ends}"
        yield from (f"  leaves out {told(found, k)}" for k in part.without)
        if len(part.without) > found.outliers:
            yield "  which is more than may be wrong, so that no rational point of the set is there"
            continue
        if len(part.without) == found.outliers:
            yield "  and agrees with all others wherever the set has a point there"
            continue
        yield from (f"  leaves out, perhaps and in places, {told(found, k)}" for k in part.partly)
        yield f"  agrees all over with {len(part.within)} of {len(found.groups)}"


def told(found: Fit, group: int) -> str:
    """The measurements of a group in one line."""
    return "; ".join(one.written() for one in found.groups[group])


def paving_of_fit(found: Fit, arguments: argparse.Namespace, read: Callable[[argparse.Namespace], "tuple[Paving, list[str]]"],
                  folder: str) -> tuple[Paving, list[str], Path]:
    """The paving of a fit's system, stored or of a run, with the sentences on it, and the system's file."""
    path = Path(folder) / "fit.mbx"
    path.write_bytes(found.text.encode(ENCODING))
    changed = argparse.Namespace(**{**vars(arguments), "system": str(path), "contract": found.contract})
    paving, warnings = read(changed)
    return paving, warnings, path


def work(arguments: argparse.Namespace, read: Callable[[argparse.Namespace], "tuple[Paving, list[str]]"],
         report: Callable[[list[str]], None]) -> int:
    """Writes the system of a model and a table of measurements, or reports which parameters agree with them."""
    found = fit(arguments.system, arguments.data, arguments.outliers, yerr=arguments.yerr, together=arguments.together,
                sep=arguments.sep, comment=arguments.comment, program_path=arguments.program)
    notes = [f"{counted(found.missing, 'value')} missing: no measurement"] if found.missing else []
    if not arguments.report:
        if arguments.picture or arguments.paving:
            raise ValueError("--picture and --paving are taken with --report")
        sys.stdout.write(f"{found.contract or 'prop(8)'}\n" if arguments.qinter else found.text)
        report(notes)
        return 0
    with tempfile.TemporaryDirectory() as folder:
        paving, warnings, path = paving_of_fit(found, arguments, read, folder)
        parts = parts_of(found, program.check(path, program=arguments.program), paving)
    print("\n".join(lines_of(found, paving, parts)))
    if arguments.picture:
        x, y = (int(word) if word.isdigit() else word for word in (arguments.x, arguments.y))
        drawn = svg(paving, x, y, project=len(found.names) > 2, title=Path(arguments.system).stem, equal=False, near=True)
        Path(arguments.picture).write_text(drawn, encoding="utf-8")
    report([*notes, *warnings])
    return 0
