"""The runs that prove the bounds of a search by levels, as files that anyone can repeat."""
from __future__ import annotations

import shlex
from collections.abc import Mapping
from dataclasses import dataclass
from fractions import Fraction
from pathlib import Path
from typing import Any

from . import program
from .numbers import decimal
from .texts import ENCODING


@dataclass
class Proof:
    """A run of the program: its command and settings, the system's text, the stored paving, the level, and the counts."""
    command: str
    settings: dict[str, Any]
    text: str
    paving: bytes
    level: Fraction | None
    counts: dict[str, int]


def command_words(command: str, system: str | Path, settings: Mapping[str, Any], out: str | Path | None) -> list[str]:
    """The words of a run, as the program takes them."""
    stores = [] if out is None else [f"--out={out}"]
    return [command, *program.option_words(settings), *stores, "--", str(system)]


def shown(proof: Proof, name: str) -> str:
    """The two commands that repeat a run and check its file."""
    run = command_words(proof.command, f"{name}.mbx", proof.settings, None)
    settings = {key: value for key, value in proof.settings.items() if key in (*program.SETTINGS, "limit")}
    audit = [proof.command.replace("run", "audit"), *program.option_words(settings), "--", f"{name}.mbx", f"{name}.paving"]
    return f"  {shlex.join(['paver', *run])}\n  {shlex.join(['paver', *audit])}\n"


def claims(proofs: Mapping[str, Proof], of: str) -> list[tuple[str, str]]:
    """What each run proves, by its name."""
    found = []
    if "lower" in proofs:
        level = proofs["lower"].level
        what = "is in the set" if level is None else f"is in the set with a value of `{of}` at or below {decimal(level)}"
        found.append(("lower", f"No rational point of the search box {what}: the run ends with status 0 and no leaf that is "
                      "inner, small or open."))
    if "upper" in proofs:
        bound = decimal(proofs["upper"].level)
        found.append(("upper", f"A point of the set has a value of `{of}` at or below {bound}: the run has an inner box, and "
                      "every rational point of it meets the constraints."))
    return found


def stored(folder: str | Path, proofs: Mapping[str, Proof], of: str) -> None:
    """Writes for each bound its system and paving, and a text with the commands."""
    folder = Path(folder)
    folder.mkdir(parents=True, exist_ok=True)
    lines = ["What proves the bounds, and the commands that repeat it in this folder.\n"]
    for name, claim in claims(proofs, of):
        (folder / f"{name}.mbx").write_bytes(proofs[name].text.encode(ENCODING))
        (folder / f"{name}.paving").write_bytes(proofs[name].paving)
        lines += [f"\n{name}: {claim}\n", shown(proofs[name], name)]
    (folder / "repeat.txt").write_text("".join(lines))
