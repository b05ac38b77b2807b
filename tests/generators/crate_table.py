"""Writes the table of crates in docs/ARCHITECTURE.md: its sections, the order of its rows and what each crate stands on, all
from crates.txt. What a crate is for stands in the page alone.

    python3 -m tests.generators.command_tables      or `make tables`
"""
from __future__ import annotations

import re

from tests.runners.running import TOP

CRATES = TOP / "crates.txt"
HEAD = "| crate | what it is for | stands on |\n|---|---|---|\n"
ROW = re.compile(r"^\| `(\w+)` \| (.*) \| [^|]* \|$", re.M)
OTHERS = {"test_": "Tests", "claims_": "Claims", "bench_": "Measurements"}  # whose rows stand last, wherever they are proved


def sections(text: str) -> dict[str, str]:
    """The section of each crate, in the order of the list."""
    found: dict[str, str] = {}
    section = ""
    for line in text.splitlines():
        comment = re.fullmatch(r"# (\w+(?: \w+)?)", line)
        if comment:
            section = comment.group(1)
        elif not line.startswith("#"):
            name = line.partition(":")[0]
            found[name] = next((other for start, other in OTHERS.items() if name.startswith(start)), section)
    return found


def libraries(text: str) -> dict[str, list[str]]:
    """The libraries that each crate stands on, as the list has them."""
    lines = (line.partition(":") for line in text.splitlines() if not line.startswith("#"))
    return {name: rest.split() for name, _, rest in lines}


def below(name: str, crates: dict[str, list[str]]) -> set[str]:
    """All that a crate stands on, by however many steps."""
    return {low for library in crates.get(name, []) for low in {library, *below(library, crates)}}


def nearest(name: str, crates: dict[str, list[str]]) -> list[str]:
    """The libraries of a crate that no other of them brings."""
    brought = {low for library in crates[name] for low in below(library, crates)}
    return [library for library in crates[name] if library not in brought]


def cell(name: str, crates: dict[str, list[str]]) -> str:
    """What a crate stands on, as its row says it."""
    return ", ".join(f"`{library}`" for library in nearest(name, crates)) or "nothing"


def table(purposes: dict[str, str], text: str) -> str:
    """The rows, section by section. ValueError if the page and the list don't have the same crates."""
    crates, places = libraries(text), sections(text)
    if set(purposes) != set(crates):
        raise ValueError(f"in docs/ARCHITECTURE.md or crates.txt alone: {sorted(set(purposes) ^ set(crates))}")
    order = [*dict.fromkeys(place for place in places.values() if place not in OTHERS.values()), *OTHERS.values()]
    rows = []
    for section in order:
        rows.append(f"| **{section}** | | |")
        rows += [f"| `{name}` | {purposes[name]} | {cell(name, crates)} |" for name in crates if places[name] == section]
    return "\n".join(rows) + "\n"


def architecture(page: str) -> str:
    """The page with its table written anew."""
    before, _, rest = page.partition(HEAD)
    rows, blank, after = rest.partition("\n\n")
    return before + HEAD + table(dict(ROW.findall(rows)), CRATES.read_text()) + blank[1:] + after
