#!/usr/bin/env python3
"""Works out by the slow reference what `paver least` has to print for each search of tests/data/examples.py.

    python3 -m tests.generators.expected_least [NAME..]

prints a line per search: the example's name, the words, and the status with the printed words. tests/data/least.txt
holds what it printed; tests/runners/least_values.py compares the program with that.
"""
import sys
from collections.abc import Sequence
from pathlib import Path

from tests.data.examples import LEAST, settings_of
from tests.reference import least, minibex
from tests.reference.paver import Settler

TOP = Path(__file__).resolve().parents[2]


def answer_to(name: str, words: Sequence[str]) -> str:
    system = minibex.read((TOP / "examples" / f"{name}.mbx").read_text())
    e = least.expression(system, dict(zip(words[::2], words[1::2]))["--of"])
    settings, budget = settings_of(words)
    lower, found, _, done = least.least(Settler(system, **settings), e, budget)
    return " ".join(["0" if done else "1", *least.printed(lower, found)])


def main() -> None:
    for name, words in LEAST:
        if name in (sys.argv[1:] or [name]):
            print(name, " ".join(words), answer_to(name, words), sep=" | ", flush=True)


if __name__ == "__main__":
    main()
