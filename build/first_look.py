#!/usr/bin/env python3
"""Paves examples/ring.mbx by the program's own libraries as they are written, with NO PROOF, and draws the answer.

    python3 build/first_look.py FOLDER

leaves try.txt in the folder, the very bytes that `paver run examples/ring.mbx --eps 0.5` prints, and the picture try.svg.
`rt try` of the program itself takes three times as long: words, campaigns and their database are most of it. So a program
that has none of them, build/first_look.rt.txt, is put over copies of the libraries that it names.
"""
import re
import shutil
import subprocess
import sys
import tempfile
from pathlib import Path

import paver

TOP = Path(__file__).resolve().parents[1]

MAIN = TOP / "build" / "first_look.rt.txt"
SYSTEM = TOP / "examples" / "ring.mbx"


def listed() -> dict[str, list[str]]:
    """The crates with the libraries that each stands on."""
    lines = (line.partition(":") for line in (TOP / "crates.txt").read_text().splitlines() if not line.startswith("#"))
    return {name.strip(): below.split() for name, _, below in lines}


def with_those_below(names: list[str], crates: dict[str, list[str]]) -> list[str]:
    """These crates and all of the repository that they stand on."""
    found = list(names)
    for name in found:
        found += [low for low in crates[name] if low in crates and low not in found]
    return found


def repository(folder: Path) -> Path:
    """Makes a repository with the program over copies of its libraries, and gives the program's folder."""
    crates = listed()
    named = sorted({name for name in re.findall(r"^use (\w+)::", MAIN.read_text(), re.M) if name in crates})
    needed = with_those_below(named, crates)
    for name in needed:
        for part in ("src", "specs"):
            if (TOP / "crates" / name / part).is_dir():
                shutil.copytree(TOP / "crates" / name / part, folder / "crates" / name / part)
    program = folder / "crates" / "first_look"
    (program / "src").mkdir(parents=True)
    shutil.copyfile(MAIN, program / "src" / "main.rt")
    lines = [f"{name}: {' '.join(crates[name])}\n" for name in needed] + [f"first_look: {' '.join(named)}\n"]
    (folder / "crates.txt").write_text("".join(lines))
    return program


def answer() -> str:
    """What the program prints."""
    with tempfile.TemporaryDirectory() as folder:
        words = ["rt", "try", "--data", f"system.mbx={SYSTEM}"]
        program = repository(Path(folder))
        done = subprocess.run(words, cwd=program, stdin=subprocess.DEVNULL, capture_output=True, text=True, check=False)
    if done.returncode or not done.stdout.startswith("settled "):
        sys.exit(f"rt try ended with status {done.returncode}\n{done.stdout}{done.stderr}")
    return done.stdout


def main() -> None:
    if len(sys.argv) != 2 or sys.argv[1].startswith("-"):
        sys.exit(__doc__)
    folder, text = Path(sys.argv[1]), answer()
    folder.mkdir(parents=True, exist_ok=True)
    (folder / "try.txt").write_text(text)
    paving = paver.Paving.from_text(text, root=[(-3, 3), (-3, 3)], names=["x", "y"])
    (folder / "try.svg").write_text(str(paver.svg(paving)))
    print(text.splitlines()[0])
    print("NOT PROVED: this took the program's libraries as they are written, with no proof. make demo proves them first.")
    print(f"the picture is in {folder}/try.svg")


if __name__ == "__main__":
    main()
