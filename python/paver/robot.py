"""Writes the system of a question about a robot: workspace, inverse poses, singular poses, clearance.

The text's set is stated by polynomials with rational coefficients: angles stand by cosine and sine on the unit circle, or by
the tangent of half of them in one of two charts. What is written is tested beside other kinematics in floats, and is not
proved.
"""
from __future__ import annotations

from dataclasses import dataclass, field
from fractions import Fraction
from itertools import product
from pathlib import Path
from typing import Dict, List, Optional, Sequence, Tuple, Union

from . import robot_file
from .robot_chain import AXES, Chain, Vector, added, less, turn_of
from .robot_clearance import clearances
from .robot_file import Robot, RobotRefused, number_of
from .robot_platform import Platform
from .robot_sheet import Sheet, one_chart
from .trigonometry import Trigonometric, number, number_text, total

SIDES = ("zero", "apart", "positive", "negative")
TURNS = ("roll", "pitch", "yaw")


@dataclass
class Question:
    """What is asked; several parts may be asked together. `pose` gives the tool's x, y, z, and phi or roll, pitch and yaw in
    degrees; `lengths` those of RPR legs; `singular` the tolerance D of the determinant, and `side` whether it is within D of 0
    (zero), not (apart), at least D (positive) or at most -D (negative)."""
    workspace: bool = False
    pose: Dict[str, Fraction] = field(default_factory=dict)
    lengths: Dict[str, Fraction] = field(default_factory=dict)
    singular: Optional[Fraction] = None
    side: str = "zero"
    coordinates: Sequence[str] = ()
    clear: bool = False

    def refuse_bad(self, sheet: Sheet) -> None:
        if not (self.workspace or self.pose or self.lengths or self.singular is not None or self.clear):
            sheet.refuse("nothing is asked: a workspace, a pose, lengths, singular poses or clearance")
        if self.workspace and self.pose:
            sheet.refuse("a workspace and a pose are not asked together: a pose fixes what a workspace leaves free")
        if self.side not in SIDES or (self.singular is not None and self.singular <= 0):
            sheet.refuse(f"singular poses are asked with a tolerance above 0 and a side of {', '.join(SIDES)}")
        if self.clear and not sheet.robot.obstacles:
            sheet.refuse("clearance is asked, and there is no disc, ball or box")


def robot_text(robot: Robot, question: Question, rotation: str = "cosines", charts: Optional[str] = None) -> str:
    """The system's text; RobotRefused says why there is none."""
    sheet = Sheet(robot, rotation, charts)
    question.refuse_bad(sheet)
    if rotation not in ("cosines", "half") or (charts is not None and rotation != "half"):
        sheet.refuse("a rotation is `cosines` or `half`, and charts belong to `half`")
    sheet.notes.append(f"{' '.join(Path(robot.name).name.split())}: {asked(question)}; angles by "
                       + ("cosine c_ and sine s_" if rotation == "cosines" else "the tangent t_ of half of them"))
    try:
        (of_chain if robot.joints else of_platform)(sheet, question)
        return sheet.written()
    except RobotRefused:
        raise
    except ValueError as fault:  # a number with too many digits
        raise RobotRefused(f"{robot.name}: {fault}") from fault


def asked(question: Question) -> str:
    parts = ["workspace"] if question.workspace else []
    parts += ["pose " + ", ".join(f"{name}={value}" for name, value in question.pose.items())] if question.pose else []
    parts += ["legs " + ", ".join(f"{name}={value}" for name, value in question.lengths.items())] if question.lengths else []
    if question.singular is not None:
        parts.append({"zero": "singular poses", "apart": "poses apart from singular ones", "positive": "positive determinant",
                      "negative": "negative determinant"}[question.side] + f" by {question.singular}")
    return ", ".join(parts + (["clearance"] if question.clear else []))


# ---- chains

def of_chain(sheet: Sheet, question: Question) -> None:
    chain = Chain(sheet)
    if sheet.charts is not None and len(sheet.charts) != len(sheet.turns):
        sheet.refuse(f"--charts {sheet.charts}: a digit for each of {len(sheet.turns)} revolute joints is expected")
    if question.lengths:
        sheet.refuse("lengths are asked of a platform's legs")
    if question.workspace or question.pose:
        close(sheet, chain, question)
    if question.singular is not None:
        names = list(question.coordinates) or [AXES[k] for k in chain.moving]
        wrong = [name for name in names if name not in ("x", "y", "z", "phi")]
        if wrong or len(set(names)) < len(names) or len(names) > 3 or ("phi" in names and not chain.is_planar):
            sheet.refuse(f"coordinates {','.join(names)}: up to three of x, y, z, and phi of a chain that turns about z alone")
        singular_chain(sheet, question, chain, names)
    if question.clear:
        clearances(sheet, [chain.points])


def target_of(sheet: Sheet, chain: Chain, question: Question) -> Vector:
    """The tool's point: numbers of a pose, coordinates of a workspace."""
    turns = {"phi"} if chain.is_planar else set(TURNS)
    wrong = [name for name in question.pose if name not in set(AXES) | turns]
    if wrong:
        sheet.refuse(f"pose `{wrong[0]}=`: {', '.join([*AXES, *sorted(turns)])} are what this tool has")
    reach = reach_of(sheet.robot)
    found: List[Trigonometric] = []
    for k, axis in enumerate(AXES):
        fixed = chain.whole.shift[k].number
        given = question.pose.get(axis)
        if fixed is not None and given is not None and fixed != given:
            sheet.refuse(f"pose {axis}={given}: the tool's {axis} is always {float(fixed):.9g}")
        if fixed is None and question.pose and given is None:
            sheet.refuse(f"pose: the tool's {axis} moves: give {axis}=, too")
        found.append(number(fixed) if fixed is not None else number(given) if given is not None
                     else sheet.length(axis, -reach, reach))
    return found


def reach_of(robot: Robot) -> Fraction:
    lengths = [abs(value) for joint in robot.joints for value in (joint.a, joint.d, *(joint.prismatic and joint.qlim or ()))]
    return sum((*lengths, *map(abs, robot.tool.values()), *map(abs, robot.base.values())), Fraction(1))


def close(sheet: Sheet, chain: Chain, question: Question) -> None:
    """The closures, at the cut that takes the fewest operations, and what follows from them."""
    target = target_of(sheet, chain, question)
    best = chain.best_closure(target)
    seen = "in the base's axes" if best == 0 else f"seen from behind joint {chain.joints[best - 1].name}"
    equate(sheet, chain.closure(best, target), f"closure: the tool's point {seen}", AXES)
    close_turn(sheet, chain, question)
    if best:
        for axis, (left, right) in zip(AXES, chain.closure(0, target)):
            sheet.help(f"the tool's {axis} in the base's axes", left - right)
    first = chain.before[0].shift
    for k in (0, 1):
        there = chain.before[k].shift
        away = less(target, there)
        seen_here = added(chain.whole.shift, [-part for part in first]) if k == 0 else chain.behind[k].shift
        if k < len(chain.joints) and (k == 0 or any(part.terms for part in less(there, first))) and small(seen_here, away):
            sheet.help(f"the squared distance of the tool's point from {'the base' if k == 0 else 'the first frame'}",
                       squared(seen_here) - squared(away))


def small(*vectors: Vector) -> bool:
    return all(len(part.terms) <= 40 for v in vectors for part in v)


def squared(v: Vector) -> Trigonometric:
    return total(part * part for part in v)


def close_turn(sheet: Sheet, chain: Chain, question: Question) -> None:
    if "phi" in question.pose:
        c, s = sheet.angle(question.pose["phi"])
        for name, entry, wanted in (("cosine", chain.whole.turn[0][0], c), ("sine", chain.whole.turn[1][0], s)):
            equate(sheet, [(entry, wanted)], "closure: the direction of the tool's x axis", [name])
    elif any(name in question.pose for name in TURNS):
        roll, pitch, yaw = (question.pose.get(name, Fraction(0)) for name in TURNS)
        pairs = chain.turn_closure(len(chain.joints) // 2, turn_of(sheet, roll, pitch, yaw), (0, 2))
        equate(sheet, pairs, "closure: the tool's axes", [f"{axis} of {side}" for side in "xz" for axis in AXES])


def equate(sheet: Sheet, pairs: Sequence[Tuple[Trigonometric, Trigonometric]], comment: str, names: Sequence[str]) -> None:
    """An equation for each pair of sides that are not the same."""
    for name, (left, right) in zip(names, pairs):
        rest = (left - right).number
        if rest is None:
            sheet.ask(f"{comment}, {name}", f"{sheet.text(left)} = {sheet.text(right)}")
        elif rest:
            sheet.refuse(f"{comment}, {name}: the two sides always differ by {float(rest):.9g}")


def singular_chain(sheet: Sheet, question: Question, chain: Chain, names: Sequence[str]) -> None:
    minors = chain.minors(names)
    if not minors:
        sheet.refuse(f"fewer joints move {', '.join(names)} than these are: each pose is singular; give fewer --coordinates")
    if len(minors) > 1 and question.side != "zero":
        sheet.refuse(f"{len(minors)} determinants, as more joints than coordinates move the tool: the side can be zero alone")
    for joints, p in minors:
        ask_determinant(sheet, question, p, f"determinant of the Jacobian of {', '.join(names)} by {', '.join(joints)}")


def ask_determinant(sheet: Sheet, question: Question, p: Trigonometric, comment: str) -> None:
    value = p.number
    if value is not None:
        sheet.refuse(f"{comment}: it is {float(value):.9g} in each pose")
    assert question.singular is not None
    d, text = number_text(question.singular), sheet.text(p)
    sheet.ask(comment, {"zero": f"abs({text}) <= {d}", "apart": f"abs({text}) >= {d}", "positive": f"{text} >= {d}",
                        "negative": f"{text} <= -{d}"}[question.side])


# ---- platforms

def of_platform(sheet: Sheet, question: Question) -> None:
    if question.coordinates:
        sheet.refuse("coordinates are asked of a chain")
    needed = {"x", "y"} | ({"phi"} if len({leg.corner for leg in sheet.robot.legs}) > 1 else set())
    if question.pose and set(question.pose) != needed:
        sheet.refuse(f"pose: {', '.join(sorted(needed))} are what this platform has")
    platform = Platform(sheet, question.pose)
    if question.pose and question.lengths:
        sheet.refuse("a pose and lengths are not asked together")
    if question.pose:
        inverse(sheet, platform)
    elif question.lengths:
        forward(sheet, question, platform)
    elif any(leg.links and leg.qlim for leg in platform.legs):
        platform.with_elbows()
    if not question.pose:
        platform.reaches()
    if question.singular is not None:
        ask_determinant(sheet, question, platform.determinant(), "determinant of the legs' lines of force")
    if question.clear:
        clearances(sheet, platform.lines())


def inverse(sheet: Sheet, platform: Platform) -> None:
    """The lengths of RPR legs, and the elbows of RRR legs, at a pose."""
    if any(leg.links for leg in platform.legs):
        platform.with_elbows()
    for leg, p in zip(platform.legs, platform.length_squares()):
        if leg.qlim and not leg.links:
            length = sheet.length(f"l_{leg.name}", *leg.qlim)
            sheet.ask(f"leg {leg.name}: its length from foot to corner", f"{sheet.text(length)}^2 = {sheet.text(p)}")


def forward(sheet: Sheet, question: Question, platform: Platform) -> None:
    """The poses at given lengths of RPR legs; what two legs differ by has no x^2 + y^2."""
    names = [leg.name for leg in platform.legs]
    if set(question.lengths) != set(names) or any(leg.links for leg in platform.legs):
        sheet.refuse(f"lengths: one for each RPR leg is expected, {', '.join(names)}")
    rest = [p - number(question.lengths[leg.name] ** 2) for leg, p in zip(platform.legs, platform.length_squares())]
    for leg, corner in zip(platform.legs, platform.corners):
        base = number(leg.base[0]), number(leg.base[1])
        sheet.ask(f"closure: leg {leg.name} has its length",
                  f"{platform.square(base, corner)} = {sheet.text(number(question.lengths[leg.name] ** 2))}")
    for name, p in zip(names[1:], rest[1:]):
        sheet.help(f"leg {name} less leg {names[0]}", p - rest[0])


# ---- calls

def charts_of(robot: Robot) -> List[str]:
    """The digits of all charts that a robot's turns need together, the platform's turn first."""
    limits = [joint.qlim for joint in robot.joints if not joint.prismatic]
    if robot.legs:
        limits = ([] if len({leg.corner for leg in robot.legs}) == 1 else [robot.turn]) + \
            [leg.qlim for leg in robot.legs if leg.links]
    return ["".join(word) for word in product(*("0" if one_chart(limit) else "01" for limit in limits))]


def robot(file: Union[str, Path], *, rotation: str = "cosines", charts: Optional[str] = None, workspace: bool = False,
          pose: Optional[Dict[str, object]] = None, lengths: Optional[Dict[str, object]] = None, singular: object = None,
          side: str = "zero", coordinates: Sequence[str] = (), clear: bool = False) -> str:
    """The Minibex text of a question about the robot that a file describes. Numbers are whole ones, Fractions or texts as
    "0.5"; angles are in degrees. RobotRefused, with the line or the part and the cause, where there is no such system."""
    question = Question(workspace, exact(pose), exact(lengths), None if singular is None else number_of(str(singular)), side,
                        tuple(coordinates), clear)
    return robot_text(robot_file.read(file), question, rotation, charts)


def exact(given: Optional[Dict[str, object]]) -> Dict[str, Fraction]:
    return {name: number_of(str(value)) for name, value in (given or {}).items()}
