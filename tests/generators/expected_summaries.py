#!/usr/bin/env python3
"""Works out by the slow reference what `paver run` has to print for each example, or `paver run-centered` for those that
are paved so, too.

    python3 -m tests.generators.expected_summaries [--centered] [NAME..]

prints a line per example: its name, the SHA-256 of the printed text, and the summary line.
tests/data/summaries.txt and centered_summaries.txt hold what it printed; the end-to-end tests compare the program with that.
"""
import hashlib
import sys
from pathlib import Path

from tests.data.examples import CENTERED, EXAMPLES, settings_of
from tests.reference import minibex, paver
from tests.reference.slopes import CenteredSettler


def main() -> None:
    centered = "--centered" in sys.argv
    settler = CenteredSettler if centered else paver.Settler
    wanted = [word for word in sys.argv[1:] if word != "--centered"] or (
        CENTERED if centered else [name for name, _ in EXAMPLES])
    for name, words in EXAMPLES:
        if name in wanted:
            text = (Path(__file__).resolve().parents[2] / "examples" / f"{name}.mbx").read_text()
            settings, budget = settings_of(words)
            summary, lines = paver.pave(settler(minibex.read(text), **settings), budget)
            printed = "".join(f"{line}\n" for line in [summary, *lines])
            print(name, hashlib.sha256(printed.encode()).hexdigest(), summary, flush=True)


if __name__ == "__main__":
    main()
