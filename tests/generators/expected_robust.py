#!/usr/bin/env python3
"""Works out by the slow reference what `python3 -m paver robust` has to print for each example of it, and what
`run-centered` has to for each level of the gallery.

    python3 -m tests.generators.expected_robust ./paver

writes tests/data/levels.txt and robust.txt. The program serves to read systems alone.
"""
from __future__ import annotations

import os
import sys
from collections.abc import Sequence
from fractions import Fraction
from pathlib import Path

import paver
from paver.robust import classified, negation_of
from paver.robust_command import lines_of
from paver.texts import SystemText
from tests.data.examples import LEVELS, ROBUST, at_level, settings_of
from tests.reference import minibex, paver as plain
from tests.reference.slopes import CenteredSettler

TOP = Path(__file__).resolve().parents[2]


def answer_of(name: str, words: Sequence[str]) -> list[str]:
    """The answer of robust with the reference's paving in place of the program's."""
    text, (settings, budget) = (TOP / "examples" / f"{name}.mbx").read_text(), settings_of(words)
    names = words[1].split(",")
    negation = negation_of(text, paver.check_text(text), names)
    settings["contract"] = negation.contract
    summary, lines = plain.pave(CenteredSettler(minibex.read(negation.text), **settings), budget)
    system = paver.check_text(negation.text)
    paving = paver.Paving.from_text("".join(f"{line}\n" for line in [summary, *lines]), system=system)
    return lines_of(classified(negation, system, paving, names, SystemText(text), int(paving.counts()["open"] > 0)), names)


def summary_of(name: str, of: str, level: str, eps: str) -> str:
    """The summary of the reference's run by centered forms of a system with a level."""
    text = at_level((TOP / "examples" / f"{name}.mbx").read_text(), of, level)
    return plain.pave(CenteredSettler(minibex.read(text), eps=Fraction(eps)), 20000)[0]


def main() -> None:
    os.environ["PAVER"], data = os.path.abspath(sys.argv[1]), TOP / "tests" / "data"
    levels = [f"{name} {summary_of(name, of, level, eps)}\n" for name, of, level, eps, _ in LEVELS]
    (data / "levels.txt").write_text("".join(levels))
    blocks = ["\n".join([name, *answer_of(name, words)]) for name, words in ROBUST]
    (data / "robust.txt").write_text("\n\n".join(blocks) + "\n")


if __name__ == "__main__":
    main()
