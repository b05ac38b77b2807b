#!/usr/bin/env python3
"""Writes the table of contractor texts: which are right, and at which byte the others are refused.

A reader of its own, by Earley's method over the tokens: at each token it keeps the set of positions
in the grammar's rules that the tokens so far can stand at, so "the grammar does not allow it there"
is that no position is left. Ranges, the node limit and the programs of a `qinter` are looked at beside.

Usage: program_vectors.py > crates/test_programs/src/texts/programs.rt
"""
from __future__ import annotations

import re
import sys
from collections.abc import Iterable, Sequence
from typing import Tuple

RULES = {
    "program": [
        ["hc4", "(", "num", ")"],
        ["compose", "(", "list", ")"],
        ["union", "(", "list", ")"],
        ["qinter", "(", "num", ",", "list", ")"],
        ["fix", "(", "num", ",", "program", ")"],
        ["prop", "(", "num", ")"],
    ],
    "list": [["program"], ["list", ",", "program"]],
}
Item = Tuple[str, Tuple[str, ...], int, int]  # a rule and its name, how much of it is read, and from where
WORDS = ("hc4", "compose", "union", "qinter", "fix", "prop")


def tokens(text: str) -> list[tuple[int, str]]:
    """Pairs of a token's start and its characters."""
    return [(m.start(), m.group()) for m in re.finditer(r"[a-z][a-z0-9]*|[0-9]+|.", text, re.S)]


def kind(token: str) -> str:
    return "num" if token.isdigit() else token


def closed(items: Iterable[Item], chart: Sequence[set[Item]]) -> set[Item]:
    """Earley's prediction and completion at the chart's end."""
    work, seen = list(items), set(items)
    at = len(chart)
    while work:
        name, rule, dot, start = work.pop()
        if dot < len(rule):
            new = [(rule[dot], tuple(r), 0, at) for r in RULES.get(rule[dot], [])]
        else:
            base = seen if start == at else chart[start]
            new = [(n, r, d + 1, s) for (n, r, d, s) in base if d < len(r) and r[d] == name]
        for item in new:
            if item not in seen:
                seen.add(item)
                work.append(item)
    return seen


def out_of_range(before: Sequence[str], token: str, count: int) -> bool:
    if not token.isdigit():
        return False
    if len(token) > 1 and token[0] == "0":
        return True
    word = before[-2]
    low, high = {"hc4": (0, count - 1), "qinter": (1, 256)}.get(word, (1, 64))
    return not low <= int(token) <= high


def too_few(before: Sequence[str], token: str) -> bool:
    """Whether the token closes a qinter with fewer programs than it wants."""
    if token != ")":
        return False
    depth, commas, i = 1, 0, len(before) - 1
    while depth:
        depth += {")": 1, "(": -1}.get(before[i], 0)
        commas += before[i] == "," and depth == 1
        i -= 1
    return before[i] == "qinter" and commas < int(before[i + 2])


def refused_at(text: str, count: int) -> int | None:
    """None where the text is right, else the byte."""
    if len(text) > 4096:
        return 4096
    chart: list[set[Item]] = []
    before: list[str] = []
    items = closed([("start", ("program",), 0, 0)], chart)
    for start, token in tokens(text):
        chart.append(items)
        items = {(n, r, d + 1, s) for (n, r, d, s) in items if d < len(r) and r[d] == kind(token)}
        named = sum(t in WORDS for t in before)
        if (not items or out_of_range(before, token, count) or (token in WORDS and named >= 256)
                or too_few(before, token)):
            return start
        items = closed(items, chart)
        before.append(token)
    return None if ("start", ("program",), 1, 0) in items else len(text)


GOOD = [
    (1, "hc4(0)"), (64, "hc4(63)"), (1, "prop(1)"), (1, "prop(8)"), (1, "prop(64)"),
    (2, "compose(hc4(0))"), (2, "compose(hc4(0),hc4(1))"), (3, "union(hc4(2),hc4(1),prop(3))"),
    (3, "qinter(2,hc4(0),hc4(1),hc4(2))"), (1, "qinter(1,hc4(0))"), (1, "fix(64,hc4(0))"),
    (2, "fix(3,compose(hc4(1),union(hc4(0),fix(2,prop(1)))))"),
    (1, "qinter(3,hc4(0),qinter(1,prop(2)),fix(1,hc4(0)),union(hc4(0)))"),
    (1, "fix(1," * 255 + "hc4(0)" + ")" * 255),
    (1, "qinter(255," + ",".join(["hc4(0)"] * 255) + ")"),
    (4294967295, "hc4(4294967294)"), (0, "prop(64)"), (0, "fix(1,prop(1))"),
    (4294967295, "qinter(255," + ",".join(["hc4(4294967294)"] * 255) + ")"),
]
BAD = [
    (1, ""), (1, "hc4"), (1, "hc4("), (1, "hc4(0"), (1, "hc4(0)x"), (1, "hc4(0))"), (1, "hc4(0),"),
    (1, " hc4(0)"), (1, "hc4 (0)"), (1, "hc4(0) "), (1, "hc4(1)"), (1, "hc4(00)"), (2, "hc4(01)"),
    (64, "hc4(64)"), (1, "hc4(4294967296)"), (1, "hc4(99999999999999999999)"), (1, "hc4(-1)"),
    (1, "hc4()"), (1, "hc4(0,0)"), (1, "HC4(0)"), (1, "hc4a(0)"), (1, "hc(0)"), (1, "0"), (1, "("),
    (1, "prop(0)"), (1, "prop(65)"), (1, "prop(08)"), (1, "prop"), (1, "prop(8"), (1, "prop(hc4(0))"),
    (1, "union()"), (1, "union(hc4(0)"), (1, "union(hc4(0),)"), (1, "union(hc4(0);hc4(0))"),
    (1, "compose()"), (1, "compose(1,hc4(0))"), (1, "qinter(3,hc4(0),hc4(0))"), (1, "qinter(0,hc4(0))"),
    (1, "qinter(257,hc4(0))"), (1, "qinter(1)"), (1, "qinter(1,)"), (1, "qinter(2,hc4(0)"),
    (1, "qinter(2,hc4(0);"), (1, "qinter(2,qinter(2,hc4(0)),hc4(0))"), (1, "fix(0,hc4(0))"),
    (1, "fix(65,hc4(0))"), (1, "fix(2,hc4(0),hc4(0))"), (1, "fix(2)"), (1, "fix(hc4(0))"),
    (1, "fix(2,hc4(0)"), (1, "union(hc4(0),12ab)"), (1, "hc4(\u007f0)"),
    (1, "fix(1," * 256 + "hc4(0)" + ")" * 256),
    (1, "union(" + ",".join(["hc4(0)"] * 256) + ")"),
    (1, "qinter(256," + ",".join(["hc4(0)"] * 256) + ")"),
    (1, "hc4(0)" + " " * 4090), (1, "x" * 4097), (1, "9" * 4096), (1, "h" * 4096),
]
# A table of its own, since the proof of a test computes with its whole table.
MORE_BAD = [
    (0, "hc4(0)"), (0, "hc4("), (0, "hc4()"), (4294967295, "hc4(4294967295)"), (4294967295, "hc4(4294967296)"),
    (11, "hc4(11)"), (11, "hc4(010)"), (1, "prop(1)prop(1)"), (1, "prop(1"), (1, "prop(1,1)"), (1, "prop(00)"),
    (1, "fix(2,hc4(0))hc4(0)"), (1, "fix(2,)"), (1, "fix(02,hc4(0))"), (1, "fix(64hc4(0))"), (1, "fix(64,hc4(0),)"),
    (1, "qinter()"), (1, "qinter(hc4(0))"), (1, "qinter(01,hc4(0))"), (1, "qinter(256,hc4(0))"),
    (1, "qinter(2,hc4(0),"), (1, "qinter(2,hc4(0)hc4(0))"), (1, "qinter(1,hc4(0),fix(1,hc4(1)))"),
    (1, "compose(hc4(0),compose())"), (1, "compose(,hc4(0))"), (1, "union(union(union(hc4(0)))"),
    (1, "union(hc4(0)))"), (1, "union (hc4(0))"), (1, "union(hc4(0)\n)"), (1, "unions(hc4(0))"),
    (1, "union2(hc4(0))"), (1, "2union(hc4(0))"), (1, "union(hc4(0),0)"), (1, "union(hc4(0),hc4)"),
    (1, "fix(1," * 255 + "hc4(0)" + ")" * 254), (1, "fix(1," * 255 + "hc4(1)" + ")" * 255),
    (1, "qinter(255," + ",".join(["hc4(0)"] * 254) + ")"), (1, "hc4(0)" + " " * 4091),
]


def literal(text: str) -> str:
    return '"' + text.replace("\u007f", "\\x7f").replace("\n", "\\n") + '"'


def main() -> None:
    out = ["//! Made by tests/generators/program_vectors.py.", "",
           "pub const ACCEPTED: &[(u32, &str)] = &["]
    for count, text in GOOD:
        assert refused_at(text, count) is None, text
        out.append(f"    ({count}, {literal(text)}),")
    for name, texts in (("REFUSED", BAD), ("MORE_REFUSED", MORE_BAD)):
        out += ["];", "", f"pub const {name}: &[(u32, &str, u32)] = &["]
        for count, text in texts:
            byte = refused_at(text, count)
            assert byte is not None, text
            out.append(f"    ({count}, {literal(text)}, {byte}),")
    out += ["];", ""]
    sys.stdout.write("\n".join(out))


if __name__ == "__main__":
    main()
