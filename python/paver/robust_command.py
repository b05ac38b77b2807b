"""The words and the printed lines of `robust`."""
from __future__ import annotations

import argparse
import sys
from collections.abc import Mapping
from fractions import Fraction
from pathlib import Path

from .numbers import as_float
from .picture import svg
from .planes import axis, need_plane, others_of, values_of
from .plots import Name, Number
from .program import check
from .robust import SHOWN, Robust, robust, vertices_text
from .widen import widened_file

OPTIONS = ("eps", "depth", "bisect", "boxes", "workers", "limit")


def add_options(command: argparse.ArgumentParser) -> None:
    command.add_argument("system")
    command.add_argument("--for-all", required=True, metavar="p,q", help="the variables for whose values all has to hold")
    for name in OPTIONS:
        command.add_argument(f"--{name}", help=f"as the program's --{name}")
    command.add_argument("--boxes-alone", action="store_true", help="no parameter stands at the ends of its domain")
    command.add_argument("--write", action="store_true", help="prints the system with each parameter at its ends, and no more")
    command.add_argument("--widen", metavar="D", help="equations f = 0 become f >= -D; f <= D")
    command.add_argument("--csv", metavar="FILE", help="the boxes that are sure, refuted with a witness, and the rest")
    command.add_argument("--exactly", action="store_true", help="fractions in place of floats in the CSV")
    command.add_argument("--picture", metavar="FILE.svg", help="a picture: sure green, refuted grey, the rest yellow")
    command.add_argument("--x", default="0", help="a variable's name or number")
    command.add_argument("--y", default="1")
    command.add_argument("--at", action="append", metavar="NAME=VALUE", help="the value of another variable in the picture, or "
                         "the numbers of all others in order, with commas")


def work(arguments: argparse.Namespace) -> int:
    """Says for which values of a system's other variables all constraints hold for all values of these. Status 1 where the
    budget ended the run."""
    names = [name.strip() for name in arguments.for_all.split(",")]
    if arguments.write:
        with widened_file(arguments.system, arguments.widen, program=arguments.program) as (path, _):
            sys.stdout.write(vertices_text(path, names, program_path=arguments.program))
        return 0
    x, y, at = plane_of(arguments, names)
    options = {name: getattr(arguments, name) for name in OPTIONS if getattr(arguments, name) is not None}
    found = robust(arguments.system, names, vertices=not arguments.boxes_alone, widen=arguments.widen,
                   program_path=arguments.program, **options)
    print("\n".join(lines_of(found, names)))
    if arguments.csv:
        with open(arguments.csv, "w", newline="", encoding="utf-8") as file:
            found.write_regions(file, arguments.exactly)
    if arguments.picture:
        Path(arguments.picture).write_text(picture_of(found, x, y, at, Path(arguments.system).stem))
    if found.status:
        print(f"note: the budget ended the run, and {found.paving.counts()['open']} leaves are open: they are in the rest. "
              "More --boxes or a larger eps goes on", file=sys.stderr)
    return found.status


def plane_of(arguments: argparse.Namespace, parameters: list[str]) -> tuple[Name, Name, dict[Name, Fraction]]:
    """The axes of the picture and the values of the other variables. What the picture would refuse is refused at once, and not
    when all has been worked out."""
    x, y = axis(arguments.x), axis(arguments.y)
    if not arguments.picture:
        return x, y, {}
    names = [name for name in check(arguments.system, program=arguments.program).names if name not in parameters]
    at = values_of(arguments.at or [], others_of(names, (x, y)))
    need_plane(names, (x, y), at)
    return x, y, at


def picture_of(found: Robust, x: str | int, y: str | int, at: Mapping[Name, Number], title: str) -> str:
    """The picture of a slice, with the words for regions in its legend."""
    text = svg(found, x, y, at, title=title, equal=False)
    for kind, shown in SHOWN.items():
        text = text.replace(f">{shown}</text>", f">{kind}</text>")
    return text


def lines_of(found: Robust, names: list[str]) -> list[str]:
    counts = found.paving.counts()
    boxed = found.negation.parameters
    ends = [name for name in names if name not in boxed]
    lines = [f"settled {counts['settled']} nodes of the negated system over {', '.join(found.names + boxed)}"
             + (f"; {', '.join(ends)} at the ends of their domains" if ends else "")]
    for kind, share in found.shares().items():
        lines.append(f"{kind} {found.counts()[kind]} boxes, volume {as_float(share, False):.9g}")
    if found.certified is not None:
        lines.append(f"sure are at least {float(found.certified):.1%} of what holds for all values")
    return lines
