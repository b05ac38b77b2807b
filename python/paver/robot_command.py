"""The words of `robot`."""
from __future__ import annotations

import argparse
import sys
from fractions import Fraction
from pathlib import Path
from typing import Dict, Optional

from . import robot_file
from .robot import SIDES, Question, charts_of, robot_text
from .robot_file import RobotRefused


def add_options(command: argparse.ArgumentParser) -> None:
    command.add_argument("file", help="a chain by its table or a platform by its legs: docs/ROBOT.md")
    command.add_argument("--workspace", action="store_true", help="where the tool can be, with the joints that bring it there")
    command.add_argument("--pose", metavar="x=1,y=0.5", help="the joints that bring the tool there; phi=, or roll=, pitch=, "
                         "yaw=, in degrees")
    command.add_argument("--lengths", metavar="l1=1,..", help="the platform's poses with these lengths of its RPR legs")
    command.add_argument("--singular", metavar="D", help="poses in which the Jacobian's determinant is within D of 0")
    command.add_argument("--side", choices=SIDES, default="zero", help="of --singular: within D, apart, at least D, at most -D")
    command.add_argument("--coordinates", metavar="x,y", help="those of the Jacobian, in place of all that move")
    command.add_argument("--clear", action="store_true", help="the links keep clear of the file's discs, balls and boxes")
    command.add_argument("--rotation", choices=("cosines", "half"), default="cosines",
                         help="cosine and sine as variables, or the tangent of half an angle")
    command.add_argument("--charts", metavar="01..", help="of half: a digit for each angle, 0 about 0 degrees, 1 about 180")
    command.add_argument("--folder", metavar="F", help="of half: writes the systems of all charts as F/chart_01.mbx ..")


def numbers_of(option: str, text: Optional[str]) -> Dict[str, Fraction]:
    """The numbers of words as x=1,y=0.5; ValueError where one is no such word."""
    found: Dict[str, Fraction] = {}
    for word in (text or "").split(",") if text else []:
        name, equals, value = (part.strip() for part in word.partition("="))
        try:
            if not equals or name in found:
                raise ValueError
            found[name] = robot_file.number_of(value)
        except ValueError as fault:
            raise RobotRefused(f"--{option} {word}: a name and its number are expected, once each, as x=0.5") from fault
    return found


def work(arguments: argparse.Namespace) -> int:
    """Writes the system of a question about a robot: workspace, inverse poses, singular poses, clearance."""
    robot = robot_file.read(arguments.file)
    singular = numbers_of("singular", f"D={arguments.singular}").get("D") if arguments.singular is not None else None
    coordinates = arguments.coordinates.split(",") if arguments.coordinates else ()
    question = Question(arguments.workspace, numbers_of("pose", arguments.pose), numbers_of("lengths", arguments.lengths),
                        singular, arguments.side, tuple(coordinates), arguments.clear)
    if arguments.folder is None:
        sys.stdout.write(robot_text(robot, question, arguments.rotation, arguments.charts))
        return 0
    if arguments.rotation != "half" or arguments.charts is not None:
        raise RobotRefused("--folder F belongs to --rotation half, without --charts")
    texts = {charts: robot_text(robot, question, "half", charts) for charts in charts_of(robot)}
    Path(arguments.folder).mkdir(parents=True)
    for text in dict.fromkeys(texts.values()):  # angles that don't stand in the question have no charts
        charts = next(word for word, other in texts.items() if other == text)
        path = Path(arguments.folder) / f"chart_{charts}.mbx"
        path.write_text(text, encoding="utf-8")
        print(path)
    return 0
