"""The one table of the program's commands and options, as data alone.

A command or an option is one entry here, beside its code. `make tables` writes from it the table of commands in docs/USING.md,
the synopsis of the manual page and the completions of three shells; tests/runners/tables.py compares it with the program, with
the calls of the package and with what else is written by hand. The order of this table is that of all of them.
"""
from typing import Dict, NamedTuple, Optional, Tuple


class Option(NamedTuple):
    """What an option's value is, and what is said of it."""
    value: str  # the word for the value: N, FILE, TEXT
    says: str  # one line, for the completions
    default: Optional[str] = None
    range: Optional[Tuple[int, int]] = None  # of a whole number
    choices: Tuple[str, ...] = ()
    example: str = ""  # a value that is taken, where neither range nor choices say one
    offers: Tuple[str, ...] = ()  # what may be completed, where any text is taken
    is_file: bool = False


class Command(NamedTuple):
    """What a command does and takes."""
    files: str  # the names of files behind its word
    does: str  # the words of docs/USING.md
    says: str  # one line, for the completions
    options: Tuple[str, ...]
    needs: Tuple[str, ...] = ()  # options that can't be left out


MOST_BOXES, MOST_LIMIT = 100_000, 100_000_000
OPTIONS: Dict[str, Option] = {
    "eps": Option("D", "a box whose widths are all at most this is small", "0.125", example="0.5"),
    "depth": Option("N", "at most this many cuts above a node, 1 to 200", "60", (1, 200)),
    "bisect": Option("RULE", "which variable is cut", "largest", choices=("largest", "round")),
    "contract": Option("TEXT", "the contractor program", "prop(8)", example="prop(1)",
                       offers=("prop(8)", "hc4(", "compose(", "union(", "qinter(", "fix(", "prop(")),
    "form": Option("FORM", "by which forms boxes are tested", "plain", choices=("plain", "centered")),
    "boxes": Option("N", "settle at most this many nodes", "20000", (1, MOST_BOXES)),
    "limit": Option("N", "the most settled nodes of a tree, 100000 to 100000000", "100000", (MOST_BOXES, MOST_LIMIT)),
    "workers": Option("N", "threads, 1 to 16", "4", (1, 16)),
    "order": Option("ORDER", "which open leaves are settled first", "depth", choices=("depth", "level")),
    "share": Option("K/N", "K/N, the open leaves whose number is K modulo N", example="0/1"),
    "out": Option("FILE", "store the paving in this file", example="stored", is_file=True),
    "x": Option("NAME", "the variable that goes to the right", example="a"),
    "y": Option("NAME", "the variable that goes up", example="b"),
    "at": Option("N,..", "the numbers of the other variables, in their order", example="0.5"),
    "keep": Option("NAME", "the database in which the paving is kept", example="kept", is_file=True),
    "rounds": Option("N", "rounds, 1 to 100", "1", (1, 100)),
    "of": Option("TEXT", "the expression", example="a"),
    "seed": Option("N", "the number that makes the system", range=(0, 2 ** 31 - 1)),
    "count": Option("N", "its circles, 1 to 16", range=(1, 16)),
}
SETTINGS = ("eps", "depth", "bisect", "contract")
BUDGET = ("boxes", "limit", "workers", "order")
COMMANDS: Dict[str, Command] = {
    "check": Command("SYSTEM", "prints the system as paver understood it", "print the system as it was understood", ()),
    "run": Command("SYSTEM", "paves", "pave a system", (*SETTINGS, "form", *BUDGET, "out")),
    "resume": Command("SYSTEM PAVING..", "goes on from the join of 1 to 8 stored pavings", "go on from stored pavings",
                      (*SETTINGS, "form", *BUDGET, "share", "out")),
    "merge": Command("SYSTEM PAVING..", "joins 1 to 8 stored pavings; neither their order nor repeats change a byte, "
                     "which is proved", "join stored pavings", (*SETTINGS, "form", "limit", "out")),
    "audit": Command("SYSTEM PAVING", "computes each settled node again", "recompute every settled node of a stored paving",
                     (*SETTINGS, "form", "limit", "workers")),
    "svg": Command("SYSTEM PAVING", "draws a stored paving", "draw a plane of a stored paving",
                   (*SETTINGS, "form", "limit", "x", "y", "at"), ("x", "y")),
    "campaign": Command("SYSTEM", "paves in 1 to 100 rounds that are kept", "pave a system in rounds that are kept",
                        (*SETTINGS, "form", *BUDGET, "keep", "rounds"), ("keep",)),
    "least": Command("SYSTEM", "bounds the least value of an expression over the set",
                     "bound the least value of an expression over the set", (*SETTINGS, "boxes", "limit", "of"), ("of",)),
    "run-centered": Command("SYSTEM", "`run --form centered`", "pave a system by centered forms", (*SETTINGS, *BUDGET, "out")),
    "audit-centered": Command("SYSTEM PAVING", "`audit --form centered`", "recompute a stored paving by centered forms",
                              (*SETTINGS, "limit", "workers")),
    "sample": Command("", "paves circles made from a seed, to check an installation: `./paver sample --seed 1 --count 2` ends "
                      "with `file 11574911400edcb97140b9fc03ea80550a174694c79188ec132007be53af8654`", "pave a made system",
                      ("seed", "count"), ("seed", "count")),
}
