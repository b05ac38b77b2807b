"""Reads the text that describes a robot: a serial chain by Denavit and Hartenberg's table, or a planar platform by its legs.

One line is one part, as `joint q1 R a=0.4 alpha=90 qlim=-120,120`; the names of a joint's numbers are those of the robotics
toolbox for Python. Angles are in degrees, lengths in any one unit; `#` begins a comment. docs/ROBOT.md has the whole form.
"""
from __future__ import annotations

from dataclasses import dataclass, field
from fractions import Fraction
from pathlib import Path
from typing import Callable, Dict, List, NoReturn, Optional, Tuple, Union

from .minibex import RESERVED, TOKEN

Pair = Tuple[Fraction, Fraction]
MOST_BYTES = 65536
OBSTACLES = {"disc": "xyr", "ball": "xyzr", "box": "xyz"}


class RobotRefused(ValueError):
    """A robot, or a question of one, that has no system: the text names the file, the line or the part, and the cause."""


@dataclass
class Joint:
    """A row of the table; `offset` is added to a revolute joint's angle; qlim in degrees, of a prismatic joint in lengths."""
    name: str
    line: int
    prismatic: bool
    a: Fraction
    alpha: Fraction
    d: Fraction
    theta: Fraction
    qlim: Optional[Pair]


@dataclass
class Leg:
    """A leg from its foot to a corner (u, v) of the platform: RPR, whose length is driven between the ends of qlim, or RRR,
    with two links, whose first joint is driven with qlim in degrees."""
    name: str
    line: int
    base: Pair
    corner: Pair
    links: Optional[Pair]
    qlim: Optional[Pair]


@dataclass
class Obstacle:
    """A disc (in x and y alone), a ball, or a box by intervals; `radius` is 0 of a box."""
    kind: str
    line: int
    centre: Dict[str, Fraction]
    half: Dict[str, Fraction]
    radius: Fraction


@dataclass
class Robot:
    """What a text describes. joints and legs are not both there. `places` is set where fixed angles may be off by
    10^-places radians."""
    name: str
    joints: List[Joint] = field(default_factory=list)
    legs: List[Leg] = field(default_factory=list)
    obstacles: List[Obstacle] = field(default_factory=list)
    kind: str = ""
    modified: bool = False
    places: Optional[int] = None
    base: Dict[str, Fraction] = field(default_factory=dict)
    tool: Dict[str, Fraction] = field(default_factory=dict)
    turn: Optional[Pair] = None
    search: Dict[str, Pair] = field(default_factory=dict)
    radius: Fraction = Fraction(0)


class Line:
    """A line's words: the first says what it is, the others are bare or name=value. Each is taken once."""

    def __init__(self, name: str, row: int, text: str) -> None:
        self.name, self.row = name, row
        words = text.split()
        self.what = words[0]
        self.bare = [word for word in words[1:] if "=" not in word]
        pairs = [word.split("=", 1) for word in words[1:] if "=" in word]
        self.given = {key: value for key, value in pairs}
        if len(self.given) < len(pairs):
            self.refuse("a number is named twice")

    def refuse(self, cause: str) -> NoReturn:
        raise RobotRefused(f"{self.name}: line {self.row}: {cause}")

    def number(self, key: str, default: Optional[Fraction] = None) -> Fraction:
        if key not in self.given:
            if default is None:
                self.refuse(f"`{self.what}` needs `{key}=`")
            return default
        return self.exact(self.given.pop(key))

    def exact(self, word: str) -> Fraction:
        try:
            return number_of(word)
        except ValueError as fault:
            self.refuse(str(fault))

    def pair(self, key: str, ordered: bool = False, needed: bool = True) -> Optional[Pair]:
        if key not in self.given and not needed:
            return None
        words = self.given.pop(key, "").split(",")
        if len(words) != 2:
            self.refuse(f"`{key}=`: two numbers joined by a comma are expected")
        low, high = self.exact(words[0]), self.exact(words[1])
        if ordered and low >= high:
            self.refuse(f"`{key}=`: the first number has to be below the second")
        return low, high

    def end(self, bare: int = 0) -> None:
        """Refuses what nobody took."""
        if len(self.bare) != bare:
            self.refuse(f"`{self.what}` takes {bare} bare words, and {len(self.bare)} are given")
        if self.given:
            self.refuse(f"`{next(iter(self.given))[:40]}=` is nothing that this `{self.what}` has")


def number_of(word: str) -> Fraction:
    """The exact value of a number in words; ValueError where it is none, or one of more digits than any text needs."""
    try:
        if len(word) > 60 or len(word.lower().partition("e")[2].lstrip("+-")) > 2:
            raise ValueError(word)
        return Fraction(word)
    except (ValueError, ZeroDivisionError) as fault:
        raise ValueError(f"`{word[:40]}`: a number as 0.5, -1e-3 or 1/3 is expected") from fault


def read(path: Union[str, Path]) -> Robot:
    """The robot of a file; RobotRefused where its text is none."""
    data = Path(path).read_bytes()
    if len(data) > MOST_BYTES:
        raise RobotRefused(f"{path}: more than {MOST_BYTES} bytes")
    return read_text(data.decode("latin-1"), str(path))


def read_text(text: str, name: str = "robot") -> Robot:
    """The robot of a text; `name` stands in what is refused."""
    robot = Robot(name)
    for row, words in enumerate(text.splitlines(), 1):
        words = words.partition("#")[0].strip()
        if not words:
            continue
        line = Line(name, row, words)
        if line.what not in PARTS:
            line.refuse(f"`{line.what[:40]}` is no part of a robot: {', '.join(PARTS)} are")
        if not robot.kind and line.what not in ("chain", "platform"):
            line.refuse("`chain` or `platform` comes first")
        PARTS[line.what](robot, line)
    if not robot.joints and not robot.legs:
        raise RobotRefused(f"{name}: a chain with joints or a platform with legs is expected")
    return robot


def first(robot: Robot, line: Line) -> None:
    if robot.kind:
        line.refuse("`chain` or `platform` stands once")
    robot.kind = line.what
    if line.what == "chain" and line.bare:
        if line.bare not in (["standard"], ["modified"]):
            line.refuse("`chain standard` or `chain modified` is expected")
        robot.modified = line.bare == ["modified"]
        line.bare = []
    line.end()


def new_name(robot: Robot, line: Line) -> str:
    word = line.bare[0] if line.bare else ""
    match = TOKEN.fullmatch(word)
    if match is None or match.lastgroup != "name" or word in RESERVED | {"x", "y", "z", "c", "s"}:
        line.refuse(f"`{word[:40]}` is no name that Minibex takes for a variable of its own")
    if word in [part.name for part in [*robot.joints, *robot.legs]]:
        line.refuse(f"`{word}` is named already")
    return word


def joint(robot: Robot, line: Line) -> None:
    kind(robot, line, "chain")
    name = new_name(robot, line)
    if line.bare[1:] not in (["R"], ["P"]):
        line.refuse(f"joint `{name}`: `R` (revolute) or `P` (prismatic) is expected behind its name")
    prismatic, zero = line.bare[1] == "P", Fraction(0)
    if ("d" if prismatic else "theta") in line.given:
        line.refuse(f"joint `{name}`: `{'d' if prismatic else 'theta'}=` is what this joint moves; a fixed part is `offset=`")
    d, theta = line.number("d", zero), line.number("theta", zero)
    offset = line.number("offset", zero)
    limits = line.pair("qlim", True, prismatic)
    robot.joints.append(Joint(name, line.row, prismatic, line.number("a", zero), line.number("alpha", zero),
                              d + offset if prismatic else d, theta if prismatic else theta + offset, limits))
    line.end(2)


def leg(robot: Robot, line: Line) -> None:
    kind(robot, line, "platform")
    name = new_name(robot, line)
    if line.bare[1:] not in (["RPR"], ["RRR"]):
        line.refuse(f"leg `{name}`: `RPR` or `RRR` is expected behind its name")
    driven = line.bare[1] == "RPR"
    base, corner = line.pair("base"), line.pair("corner")
    links = None if driven else line.pair("links")
    limits = line.pair("qlim", True, driven)
    assert base and corner
    if (links and min(links) <= 0) or (driven and limits and limits[0] < 0):
        line.refuse(f"leg `{name}`: a length is above 0")
    robot.legs.append(Leg(name, line.row, base, corner, links, limits))
    line.end(2)


def kind(robot: Robot, line: Line, wanted: str) -> None:
    if robot.kind != wanted:
        line.refuse(f"`{line.what}` is no part of a {robot.kind}")


def near(robot: Robot, line: Line) -> None:
    words = line.bare
    if len(words) != 1 or words[0] not in [f"1e-{places}" for places in range(3, 13)]:
        line.refuse("`near` takes the error in radians of fixed angles, from 1e-3 to 1e-12, as `near 1e-9`")
    robot.places = int(words[0][3:])
    line.end(1)


def point(robot: Robot, line: Line) -> None:
    kind(robot, line, "chain")
    found = {axis: line.number(axis, Fraction(0)) for axis in "xyz"}
    line.end()
    setattr(robot, line.what, found)


def turn(robot: Robot, line: Line) -> None:
    kind(robot, line, "platform")
    robot.turn = line.pair("qlim", True)
    line.end()


def search(robot: Robot, line: Line) -> None:
    robot.search.update({axis: found for axis in "xyz" for found in [line.pair(axis, True, False)] if found})
    line.end()


def radius(robot: Robot, line: Line) -> None:
    if len(line.bare) != 1:
        line.refuse("`radius` takes one number: how far the links reach about their middle lines")
    robot.radius = line.exact(line.bare[0])
    if robot.radius < 0:
        line.refuse("`radius` is not below 0")
    line.end(1)


def obstacle(robot: Robot, line: Line) -> None:
    if line.what == "box":
        ends = {axis: found for axis in "xyz" for found in [line.pair(axis, True, axis != "z")] if found}
        centre = {axis: (low + high) / 2 for axis, (low, high) in ends.items()}
        half, round_by = {axis: (high - low) / 2 for axis, (low, high) in ends.items()}, Fraction(0)
    else:
        centre = {axis: line.number(axis) for axis in OBSTACLES[line.what][:-1]}
        half, round_by = {}, line.number("r")
        if round_by <= 0:
            line.refuse("a radius `r=` above 0 is expected")
    line.end()
    robot.obstacles.append(Obstacle(line.what, line.row, centre, half, round_by))


PARTS: Dict[str, Callable[[Robot, Line], None]] = {
    "chain": first, "platform": first, "joint": joint, "leg": leg, "near": near, "base": point, "tool": point, "turn": turn,
    "search": search, "radius": radius, **{what: obstacle for what in OBSTACLES}}
