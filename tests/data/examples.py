"""The example systems and the options that each is run with."""
from __future__ import annotations

from collections.abc import Sequence
from fractions import Fraction
from pathlib import Path

from tests.reference.kinds import Settings


def pairs(count: int) -> str:
    """Programs that ask for constraints 2k and 2k + 1 together."""
    return ",".join(f"compose(hc4({2 * k}),hc4({2 * k + 1}))" for k in range(count))


EXAMPLES: list[tuple[str, list[str]]] = [
    ("tolerance", ["--eps", "0.5"]),
    ("ring", []),
    ("two_discs", []),
    ("pi_gains", ["--eps", "0.0625"]),
    ("gough_slice", ["--eps", "0.03125"]),
    ("bounded_error_fit", ["--eps", "0.03125"]),
    ("localisation", ["--eps", "0.0625", "--contract", f"qinter(4,{pairs(5)})"]),
    ("unbounded", ["--depth", "14"]),
    ("torus", ["--eps", "0.25", "--boxes", "100000"]),
    ("planar_arm", ["--eps", "0.25", "--boxes", "100000"]),
    ("arm_configurations", ["--eps", "0.0625"]),
    ("robust_pid", ["--eps", "0.5", "--boxes", "100000"]),
    ("outlier_decay", ["--eps", "0.0078125", "--contract", f"qinter(6,{pairs(7)})"]),
    ("three_rpr", ["--eps", "0.125", "--boxes", "100000"]),
    ("puma_poses", ["--eps", "0.0625"]),
    ("damped_gains", ["--eps", "0.03125"]),
    ("platform_determinant", ["--eps", "0.03125"]),
    ("lyapunov_fall", ["--eps", "0.03125"]),
]

# Those that are paved by centered forms, too.
CENTERED = ["pi_gains", "arm_configurations", "bounded_error_fit", "damped_gains", "platform_determinant",
            "lyapunov_fall"]
# Searches for the least value of an expression, with growing budgets and widths that fall.
LEAST = [(name, ["--of", of, "--eps", eps, "--boxes", boxes]) for name, of, searches in (
    ("best_fit", "error", (("0.0625", "1000"), ("0.015625", "100"), ("0.015625", "1000"), ("0.00390625", "10000"))),
    ("least_derivative_gain", "kd", (("0.5", "1000"), ("0.125", "100"), ("0.125", "1000"), ("0.03125", "10000"),
                                     ("0.0078125", "10000"))),
) for eps, boxes in searches]


def least_answers() -> dict[tuple[str, tuple[str, ...]], str]:
    """What each search of LEAST has to come to: its status and the printed words, by its name and words."""
    rows = (line.split(" | ") for line in (Path(__file__).parent / "least.txt").read_text().splitlines())
    return {(name, tuple(words.split())): answer for name, words, answer in rows}


def settings_of(words: Sequence[str]) -> tuple[Settings, int]:
    """The reference settler's arguments, and the budget."""
    options = dict(zip(words[::2], words[1::2]))
    settings: Settings = {}
    if "--eps" in options:
        settings["eps"] = Fraction(options["--eps"])
    if "--depth" in options:
        settings["depth"] = int(options["--depth"])
    if "--bisect" in options:
        settings["bisector"] = options["--bisect"]
    if "--contract" in options:
        settings["contract"] = options["--contract"]
    return settings, int(options.get("--boxes", "20000"))


# What holds for all values of some variables, with growing budgets.
ROBUST = [
    ("uncertain_pid", ["--for-all", "a,g", "--eps", "0.25"]),
    ("joint_tolerances", ["--for-all", "u,v", "--eps", "0.125"]),
]


def robust_answers() -> dict[str, list[str]]:
    """The printed lines that each command of ROBUST has to come to, by its name."""
    blocks = (Path(__file__).parent / "robust.txt").read_text().split("\n\n")
    return {lines[0]: lines[1:] for lines in (block.strip().splitlines() for block in blocks) if lines}


# Levels of least values: an expression, a level below which nothing is, its eps, and a point of a value near.
LEVELS = [
    ("least_derivative_gain", "kd", "1.9995", "0.01", {"kp": "1", "ki": "1", "kd": "2.0001"}),
    ("best_fit", "error", "0.0085", "0.01", {"vmax": "2.0216", "km": "1.0196", "error": "0.0091"}),
]


def level_answers() -> dict[str, str]:
    """The summary of `run-centered` of each system of LEVELS with its level, by its name."""
    rows = (line.split(" ", 1) for line in (Path(__file__).parent / "levels.txt").read_text().splitlines())
    return {name: summary for name, summary in rows}


def at_level(text: str, of: str, level: str) -> str:
    """A system's text with the level's constraint."""
    return f"{text.rstrip().removesuffix('end')}  {of} <= {level};\nend\n"
