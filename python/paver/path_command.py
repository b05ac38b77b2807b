"""The words and the printed lines of `path`."""
from __future__ import annotations

import argparse
import os
from typing import Callable, List, Tuple

from .numbers import counted
from .path import Path, Verdict, path, point_of_words
from .paving import Paving

PavingOf = Callable[[argparse.Namespace], Tuple[Paving, List[str]]]
INNER = "every rational point of it is in the set: each segment was compared with its boxes by exact fractions"
UNDECIDED = ("undecided boxes may join them: a smaller --eps, or more --boxes where leaves are open, may decide that")
PARTED = ("the boxes that are kept fall into parts, and the two points are in two of them: each way from one to the other, "
          "within the search box, leaves the kept boxes; no rational point of it outside them is in the set")
OUT = "it lies in removed boxes alone, and is not in the set"
REAL = ("for points that are not rational this holds if each constraint is < or > of what is continuous; else widen <= and = "
        "by a little and ask again")


def add_options(command: argparse.ArgumentParser) -> None:
    command.add_argument("--from", required=True, dest="start", metavar="POINT", help="as x=0,y=1/3, or --from=0,1/3")
    command.add_argument("--to", required=True, dest="goal", metavar="POINT")
    command.add_argument("--csv", metavar="FILE", help="the points exactly, one a row, in a file")


def work(arguments: argparse.Namespace, paving_of: PavingOf, report: Callable[[list[str]], None]) -> int:
    """Prints a short path between two points through the inner boxes of a paving, or that there is none there. Status 1 where
    there is none."""
    ends = point_of_words(arguments.start, "--from"), point_of_words(arguments.goal, "--to")
    paving, warnings = paving_of(arguments)
    found = path(paving, *ends)
    print("\n".join(lines_of(found)))
    if arguments.csv:
        made = f"{arguments.csv}.{os.getpid()}.part"
        with open(made, "w", encoding="utf-8") as file:
            found.write_csv(file)
        os.replace(made, arguments.csv)
    report(warnings)
    return 0 if found.verdict is Verdict.PATH else 1


def lines_of(found: Path) -> list[str]:
    """What is printed of an answer."""
    if found.verdict is Verdict.PATH:
        inner = len({box for some in found.boxes for box in some})
        lines = [f"path of {counted(len(found.points), 'point')} through {counted(inner, 'inner box', 'inner boxes')}, "
                 f"length {found.length:.9g}"]
        lines += ["  " + ", ".join(f"{name} = {x}" for name, x in zip(found.names, row)) for row in found.rows()]
        return [*lines, INNER]
    lines = [f"{found.verdict.value}: no path within the inner boxes"]
    for option, classes in (("--from", found.start_in), ("--to", found.goal_in)):
        if classes == {"removed"}:
            lines.append(f"{option}: {OUT}")
        elif "inner" not in classes:
            lines.append(f"{option}: it lies in no inner box ({', '.join(sorted(classes))}), and whether it is in the set is "
                         "not decided")
    if found.verdict is Verdict.NONE:
        return [*lines, UNDECIDED]
    if {"removed"} in (found.start_in, found.goal_in):
        return lines
    return [*lines, PARTED, REAL]
