#!/usr/bin/env python3
"""Measures `run` beside `run-centered` on examples, with one worker.

    python3 -m bench.centered ./paver > tests/data/centered_times.txt

prints a line per example: its name, for each of the two commands the settled nodes and the least seconds of five runs,
and how many nodes `run` settles, with eps halved as often as needed, to leave no greater volume undecided than
`run-centered` does; `-` where 100,000 are too few. tests/generators/gallery.py makes a table of it.
"""
from __future__ import annotations

import os
import sys
import time
from collections.abc import Callable
from fractions import Fraction
from pathlib import Path

import paver
from paver.box import Exact
from tests.data.examples import EXAMPLES, settings_of

TOP = Path(__file__).resolve().parents[1]

SHOWN = ["lyapunov_fall", "platform_determinant", "damped_gains", "pi_gains", "robust_pid", "torus", "three_rpr", "ring"]
TIMES = 5
MOST = 100_000


def measured(command: Callable[..., paver.Answer], system: Path, eps: Fraction) -> tuple[paver.Answer, float]:
    """The answer, and the least seconds of several runs."""
    best = float("inf")
    for _ in range(TIMES):
        begun = time.perf_counter()
        answer = command(system, eps=eps, boxes=MOST, workers=1)
        best = min(best, time.perf_counter() - begun)
    return answer, best


def undecided(answer: paver.Answer) -> Exact:
    return answer.paving().volumes()["small"]


def nodes_for(system: Path, eps: Fraction, volume: Exact) -> int | str:
    """How many nodes `run` settles to leave at most this volume undecided."""
    while True:
        answer = paver.run(system, eps=eps, boxes=MOST, workers=1)
        if not answer.complete:
            return "-"
        if undecided(answer) <= volume:
            return answer.summary["settled"]
        eps /= 2


def main() -> None:
    os.environ["PAVER"] = os.path.abspath(sys.argv[1])
    words = dict(EXAMPLES)
    for name in SHOWN:
        system, eps = TOP / "examples" / f"{name}.mbx", settings_of(words[name])[0].get("eps", Fraction(1, 8))
        plain, seconds = measured(paver.run, system, eps)
        centered, more = measured(paver.run_centered, system, eps)
        needed = nodes_for(system, eps, undecided(centered))
        print(name, plain.summary["settled"], f"{seconds:.3f}", centered.summary["settled"], f"{more:.3f}", needed, flush=True)


if __name__ == "__main__":
    main()
