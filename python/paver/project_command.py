"""The words and the printed lines of `project`."""
from __future__ import annotations

import argparse
from collections.abc import Callable
from pathlib import Path

from . import program
from .numbers import as_float
from .paving import Paving
from .project import SHOWN, Projection, project, sentences
from .widen import widened_file

Read = Callable[[argparse.Namespace], "tuple[Paving, list[str]]"]


def add_options(command: argparse.ArgumentParser) -> None:
    """The options beside those of all commands that take a system and a paving."""
    command.add_argument("--onto", required=True, metavar="x,y", help="the two variables of the plane")
    command.add_argument("--widen", metavar="D", help="equations f = 0 become f >= -D; f <= D, where the system is run")
    command.add_argument("--csv", metavar="FILE", help="the boxes, some, none and rest")
    command.add_argument("--exactly", action="store_true", help="fractions in place of floats in the CSV")
    command.add_argument("--numpy", metavar="FILE.npz", help="arrays some, none and rest of shape (boxes, 2, 2)")
    command.add_argument("--picture", metavar="FILE.svg", help="a picture: some green, none grey, the rest yellow")
    command.add_argument("--page", metavar="FILE.html", help="the page of `view` on the plane: some is told as inner there, "
                         "none as removed, the rest as small")


def onto(word: str) -> tuple[str, str]:
    """The two names of a word as x,y. ValueError where it has not two."""
    names = [name.strip() for name in word.split(",")]
    if len(names) != 2 or not all(names):
        raise ValueError(f"--onto {word}: two variables are expected, as --onto x,y")
    return names[0], names[1]


def lines_of(found: Projection) -> list[str]:
    """The printed lines."""
    x, y = found.names
    said = {"some": f"{x}, {y} with which some value of the others is in the set",
            "none": "with which none is", "rest": "of which nothing is said"}
    return [f"{kind} {found.counts()[kind]} boxes, area {as_float(found.areas()[kind], False):.9g}: {said[kind]}"
            for kind in SHOWN]


def work(arguments: argparse.Namespace, read: Read, report: Callable[[list[str]], None]) -> int:
    """Says for which values of two variables some value of the others is in the set, and for which none is."""
    names = onto(arguments.onto)
    if arguments.widen is not None and arguments.paving:
        raise ValueError("--widen is for a run: a stored paving is of the system as it was paved; write the widened one by "
                         "`from-ibex --widen D`")
    options = {name: getattr(arguments, name) for name in program.OPTIONS if getattr(arguments, name, None) is not None}
    with widened_file(arguments.system, arguments.widen, options, arguments.program) as (path, given):
        changed = argparse.Namespace(**{**vars(arguments), "system": str(path), **given})
        paving, warnings = read(changed)
        known = program.check(path, program=arguments.program)
    found = project(paving, *names)
    print("\n".join(lines_of(found)))
    title = Path(arguments.system).stem
    if arguments.csv:
        with open(arguments.csv, "w", newline="", encoding="utf-8") as file:
            found.write_csv(file, arguments.exactly)
    if arguments.numpy:
        import numpy
        numpy.savez(arguments.numpy, **{kind: found.numpy(kind) for kind in SHOWN})
    if arguments.picture:
        Path(arguments.picture).write_text(found.svg(title), encoding="utf-8")
    if arguments.page:
        source = Path(arguments.system).read_bytes().decode("utf-8", "replace")
        found.page(f"{title} onto {arguments.onto}", source).save(arguments.page)
    report([*sentences(known, found.names), *warnings])
    return 0
