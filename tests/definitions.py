#!/usr/bin/env python3
"""Counts the definitions that a statement reaches: how much there is to read for whoever wants to know what it says.

    python3 -m tests.definitions                         what `paver_main` promises, and each law of `pv_laws`
    python3 -m tests.definitions pv_product.Ends.IsEnd   one definition, with the files and how much of each is reached

A definition is what specs/ of this repository defines, with its constructors and fields, or a type of the code that a
definition names. What the kit brings (std, clap, sha2, hex) is apart.
"""
import re
import sys
from collections import Counter
from dataclasses import dataclass, field
from pathlib import Path
from typing import Dict, Iterator, List, Optional, Set, Tuple

CRATES = Path(__file__).resolve().parents[1] / "crates"
PROMISE = ("pv_product", "Ends", "IsEnd")

# a crate, a module of its specs/, and a name there
Name = Tuple[str, str, str]

USE = re.compile(r"^(?:pub )?use Rattle\.(\w+)\.specs\.([\w.]+?)(?:\.\{([^}]*)\})?(?: as (\S+))?$")
START = re.compile(r"^\s*(?:(?:abbrev|unfoldable|pub|record|data) )*([^\s:({]+) (?::|\()")
TYPE = re.compile(r"^(?:pub )?(record|data) ")
CONSTRUCTOR = re.compile(r"^  (\S+) :")


@dataclass
class Module:
    """A file of specs/: what it defines, whose name each constructor is, and what it takes from other modules."""

    bodies: Dict[str, List[str]] = field(default_factory=dict)
    owners: Dict[str, str] = field(default_factory=dict)
    names: Dict[str, Name] = field(default_factory=dict)
    aliases: Dict[str, Tuple[str, str]] = field(default_factory=dict)


def read(path: Path) -> Module:
    """The module in a file."""
    module = Module()
    body: List[str] = []
    name = ""
    data = ""
    for line in path.read_text().splitlines():
        use = USE.match(line)
        if use:
            take(module, use.group(1), use.group(2), use.group(3), use.group(4))
            continue
        text = line.split("-- ")[0]
        start = START.match(text)
        if data and text.startswith("  "):
            constructor = CONSTRUCTOR.match(text)
            if constructor and TYPE.sub(r"\1", data) == "data":
                module.owners[constructor.group(1)] = name
        elif start and (not text.startswith("   ")) and is_new(module, text, start.group(1)):
            name = start.group(1)
            body = module.bodies.setdefault(name, [])
            kind = TYPE.match(text)
            data = kind.group(0) if kind else ""
        body.append(text)
    return module


def is_new(module: Module, text: str, name: str) -> bool:
    """Whether a line begins a definition, and no further clause or field of one."""
    return bool(re.match(r"^\s*((abbrev|unfoldable|pub|record|data) )", text)) or (
        name not in module.bodies and not text.startswith(" ") and " : " in text)


def take(module: Module, crate: str, path: str, names: Optional[str], alias: Optional[str]) -> None:
    """Notes what a line `use` brings."""
    if names is None:
        last = path.split(".")[-1]
        module.aliases[alias or last] = (crate, path)
        return
    for name in names.split(", "):
        known, _, called = name.partition(" as ")
        module.names[called or known] = (crate, path, known)


class Repository:
    """The modules of specs/, read as they are asked for."""

    def __init__(self) -> None:
        self.modules: Dict[Tuple[str, str], Optional[Module]] = {}

    def module(self, crate: str, path: str) -> Optional[Module]:
        """A module; None where the repository has no such file."""
        if (crate, path) not in self.modules:
            file = CRATES / crate / "specs" / (path.replace(".", "/") + ".antt")
            self.modules[crate, path] = read(file) if file.is_file() else None
        return self.modules[crate, path]

    def found(self, crate: str, path: str, word: str) -> Optional[Name]:
        """The definition that a module means by a word; None where it is the kit's, or no definition."""
        parts = path.split(".")
        if parts[0] == "declared":
            return (crate, ".".join(parts[:3]), "") if (CRATES / crate).is_dir() else None
        module = self.module(crate, path)
        if module is None:
            return None
        if word in module.bodies:
            return crate, path, word
        if word in module.owners:
            return crate, path, module.owners[word]
        if word in module.names:
            return self.found(*module.names[word])
        first, _, rest = word.partition(".")
        if first in module.aliases and rest:
            return self.found(*module.aliases[first], rest)
        return self.found(crate, path, first) if rest else None

    def named_in(self, name: Name) -> Iterator[Name]:
        """The definitions that a definition names."""
        crate, path, word = name
        module = self.module(crate, path) if word else None
        for line in module.bodies[word] if module else []:
            for other in re.split(r"[\s()\[\]{},;]+", line):
                found = self.found(crate, path, other) if other else None
                if found:
                    yield found

    def reached(self, start: Name) -> Set[Name]:
        """The definitions that a definition reaches, itself among them."""
        known = {start}
        left = [start]
        while left:
            new = set(self.named_in(left.pop())) - known
            known |= new
            left.extend(new)
        return known


def file_of(name: Name) -> str:
    """The file in which a definition stands."""
    crate, path, _ = name
    return f"{crate}/src/{path.split('.')[1]}.rt" if path.startswith("declared.") else f"{crate}/specs/{path}.antt"


def told(reached: Set[Name]) -> str:
    """How many definitions of specs/ and types of the code there are, and in how many files."""
    defined = [file_of(name) for name in reached if name[2]]
    types = [file_of(name) for name in reached if not name[2]]
    return (f"{len(defined)} definitions in {len(set(defined))} files of specs/, "
            f"and {len(types)} types in {len(set(types))} files of src/")


def laws() -> List[Name]:
    """The statements that the calls of `pv_laws` have as clauses."""
    text = (CRATES / "pv_laws" / "src" / "laws.rt").read_text()
    uses = re.findall(r"ghost use Rattle\.(\w+)\.specs\.(\w+)\.\{([^}]*)\}", text)
    return [(crate, module, name) for crate, module, names in uses for name in re.findall(r"\w+", names)]


def main() -> None:
    """Prints the counts."""
    repository = Repository()
    if sys.argv[1:]:
        crate, path, name = sys.argv[1].split(".")
        reached = repository.reached((crate, path, name))
        for file, count in sorted(Counter(map(file_of, reached)).items()):
            print(f"{count:4} {file}")
        print(told(reached))
        return
    for start in [PROMISE, *laws()]:
        print(f"{start[2]}: {told(repository.reached(start))}")


if __name__ == "__main__":
    main()
