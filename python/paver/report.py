"""One page of HTML on a stored paving, for a design review: nothing is loaded, no script runs, and it prints."""
from __future__ import annotations

import os
import shlex
import warnings
from collections.abc import Iterable, Mapping, Sequence
from fractions import Fraction
from html import escape
from pathlib import Path
from typing import Any

from . import beside
from .box import Exact
from .canonical import System
from .cover import Name, Pairs
from .decide import TRIES, Decisions, decide
from .decide_command import NOTHING, boxes_in_words, digits, spelled
from .identity import complete, found_settings, identity_of, taken
from .numbers import as_float, exact, printable
from .options import KEPT_SETTINGS, words_of
from .paving import Paving
from .picture import Frame, path_of, svg
from .plots import axes_of, finite_axes
from .program import check
from .texts import ENCODING
from .version import VERSION

MOST_TEXT = 2000  # characters of a constraint or a line of the question
MOST_LINES = 60  # of the question
STYLE = """body{font:15px/1.45 sans-serif;max-width:46em;margin:2em auto;padding:0 1em;color:#111}
h1{font-size:1.5em}h2{font-size:1.15em;margin-top:1.6em;break-after:avoid}
table{border-collapse:collapse}td,th{border:1px solid #bbb;padding:.2em .6em;text-align:left;vertical-align:top}
pre,code{font:13px monospace;white-space:pre-wrap;overflow-wrap:anywhere}svg{max-width:100%;height:auto}
figure{margin:0;break-inside:avoid}@media print{body{margin:0;max-width:none}}"""
TRUSTED = (
    "The command that made the paving is proved: each rational point of an inner box is in the set, and none of a removed part "
    "is. Of small and open boxes nothing is said.",
    "Trusted are the toolchain that proves and compiles the program, the C library, and the machine.",
    "That the file is what the program wrote is found by the identity and by `audit` below, which computes all of it again.",
    "The decisions and this page are made by the Python package, which is tested and not proved: it compares exact fractions.",
    "That the constraints say what the question asks is for the reader to judge.",
)


def report(system: str | os.PathLike[str], paving: str | os.PathLike[str], *, scale: Mapping[Name, Any] | None = None,
           tries: int = TRIES, program: str | None = None, strict: bool = False, **settings: Any) -> str:
    """The page on a stored paving of a system's file. Its settings are those that run kept beside it, where they aren't given;
    scale and tries are those of decide. Settings near at hand are found, unless strict, and a warning names them. PavingRefused
    where the file is another system's, of settings that weren't found, or of none; what decide refuses is a ValueError."""
    known = check(system, program=program)
    given = {name: value for name, value in settings.items() if value is not None}
    its, other = beside.with_kept([paving], given), None
    if not strict:
        its, other = found_settings(known, beside.identity_of(paving), its)
    if other:
        warnings.warn(taken(os.fspath(paving), other), stacklevel=2)
    read = Paving.read(paving, system=known, strict=strict, **its)
    read.check_numbers()
    kept = {name: word for name, word in words_of(its).items() if name in KEPT_SETTINGS}
    if kept.get("form") is None and read.identity == identity_of(known, {**kept, "form": "centered"}):
        kept["form"] = "centered"
    found = decide(read, scale, tries)
    source = Path(system).read_bytes().decode(ENCODING)
    words = [f"--scale={name}={value}" for name, value in (scale or {}).items()]
    words += [f"--tries={tries}"] * (tries != TRIES)
    sections = [
        ("Question", question_part(source)), ("Constraints", constraints_part(known)),
        ("Settings and identity", settings_part(read, kept)), ("What is proved", volumes_part(read)),
        ("Decisions", decisions_part(found)), ("Picture", picture_part(read, found)),
        ("What is trusted", "<ul>" + "".join(f"<li>{marked(text)}</li>" for text in TRUSTED) + "</ul>"),
        ("How to check it again", check_part(os.fspath(system), os.fspath(paving), kept, words))]
    return page(Path(system).stem, sections)


def page(title: str, sections: Iterable[tuple[str, str]]) -> str:
    """The page of sections, each a heading and its HTML."""
    shown = safe(title)
    body = "\n".join(f"<section>\n<h2>{heading}</h2>\n{text}\n</section>" for heading, text in sections)
    return ('<!DOCTYPE html>\n<html lang="en">\n<head>\n<meta charset="utf-8">\n'
            '<meta name="viewport" content="width=device-width, initial-scale=1">\n'
            f"<title>{shown}: report</title>\n<style>{STYLE}</style>\n</head>\n<body>\n<h1>{shown}</h1>\n{body}\n"
            f"<p>Made by paver {VERSION}.</p>\n</body>\n</html>\n")


def safe(text: str, most: int = MOST_TEXT) -> str:
    """A text of a file as HTML: what steers a terminal or a browser is shown, and what is longer is cut and says so."""
    cut = text if len(text) <= most else f"{text[:most]} .. ({len(text)} characters)"
    return escape(printable(cut))


def marked(text: str) -> str:
    """A sentence of this module, in which code stands between backquotes."""
    parts = escape(text).split("`")
    return "".join(f"<code>{part}</code>" if k % 2 else part for k, part in enumerate(parts))


def table(rows: Iterable[Sequence[str]], head: Sequence[str] = ()) -> str:
    """A table of cells that are HTML already."""
    first = "<tr>" + "".join(f"<th>{cell}</th>" for cell in head) + "</tr>\n" if head else ""
    body = ["".join(f"<td>{cell}</td>" for cell in row) for row in rows]
    return "<table>\n" + first + "\n".join(f"<tr>{cells}</tr>" for cells in body) + "\n</table>"


def question_of(source: str) -> list[str]:
    """The comment lines at the head of a system's text, without their signs."""
    found: list[str] = []
    for line in source.splitlines():
        text = line.strip()
        if text and not text.startswith("//"):
            break
        found += [text[2:].strip()] if text else []
    return found


def question_part(source: str) -> str:
    lines = question_of(source)
    if not lines:
        return "<p>The system's file has no comment at its head.</p>"
    more = f"\n.. ({len(lines)} lines)" if len(lines) > MOST_LINES else ""
    return "<pre>" + "\n".join(safe(line) for line in lines[:MOST_LINES]) + more + "</pre>"


def constraints_part(system: System) -> str:
    """The search box and the constraints as the program understood them."""
    pairs = [(exact(low), exact(high)) for low, high in zip(system.root[::2], system.root[1::2])]
    domains = [(safe(name), f"[{shown(low, False)}, {shown(high, True)}]") for name, (low, high) in zip(system.names, pairs)]
    rows = [(str(k), f"<code>{safe(one.infix(system.names))}</code>") for k, one in enumerate(system.constraints)]
    return table(domains, ("variable", "search box")) + "\n<p>As the program understood them:</p>\n" + \
        table(rows, ("number", "constraint"))


def shown(value: Exact, up: bool) -> str:
    """An end in six digits, rounded to its side; an infinite one as oo."""
    if isinstance(value, float):
        return "oo" if value > 0 else "-oo"
    return digits(value, up)


def settings_part(paving: Paving, kept: Mapping[str, str]) -> str:
    rows = [(name, f"<code>{safe(word)}</code>") for name, word in complete(kept).items()]
    rows.append(("identity", f"<code>{safe(paving.identity or '')}</code>"))
    return table(rows) + "\n<p>The identity is the SHA-256 of the system as the program understood it and of these " \
        "settings; it was compared.</p>"


def volumes_part(paving: Paving) -> str:
    """The volumes by class, with what each says; shares are rounded down of what is proved, and up of what is not."""
    volumes, counts = paving.volumes(), paving.counts()
    whole = sum(volumes.values(), Fraction(0))
    says = {"inner": "proved: each rational point is in the set", "removed": "proved: no rational point is in the set",
            "small": "undecided: small boxes", "open": "undecided: open boxes, as the budget ended the run"}
    rows = []
    for kind, text in says.items():
        up, volume = kind in ("small", "open"), volumes[kind]
        share = "" if isinstance(whole, float) or not whole else f"{digits(Fraction(100 * volume / whole), up)} %"
        rows.append((text, str(counts[kind]), shown(volume, up), share))
    end = "The run ended with nothing open." if not counts["open"] else \
        f"The run is not whole: {counts['open']} leaves are open."
    return table(rows, ("", "leaves", "volume", "of the search box")) + f"\n<p>{end}</p>"


def decisions_part(found: Decisions) -> str:
    """The decisions with their boxes and the ball."""
    tolerance, ball, largest = found.tolerance, found.ball, found.largest
    if tolerance is None or ball is None or largest is None:
        return f"<p>{escape(NOTHING)}.</p>"
    rows = [(safe(name), spelled(x, False), digits(move, False), spelled(scale, False)) for name, x, move, scale in
            zip(found.names, tolerance.point, tolerance.moves, found.scales)]
    balls = [(safe(name), spelled(x, False), digits(reach, False)) for name, x, reach in
             zip(found.names, ball.point, ball.reaches)]
    boxes = [(safe(text), spelled(x, False)) for text, x in zip(boxes_in_words(found, largest.box, False), largest.point)]
    return (f"<p>Greatest tolerance: at this point all variables may move at once by {digits(tolerance.share, False)} of their "
            f"scales, up or down, and stay proved. No point of the search box allows above {digits(tolerance.most, True)} in "
            "this paving.</p>\n" + table(rows, ("variable", "value", "may move by", "scale"))
            + f"\n<p>Largest ball, measured in scales: its radius is {digits(ball.radius, False)}, and around no point one above "
            f"{digits(ball.most, True)} is proved in this paving.</p>\n" + table(balls, ("variable", "centre", "reaches"))
            + f"\n<p>Largest box found: its volume in scales is {digits(largest.volume, False)}. No larger proved box holds "
            "it.</p>\n" + table(boxes, ("proved", "centre")))


def picture_part(paving: Paving, found: Decisions) -> str:
    """Two variables, the first ones, with the box of the tolerance: a slice at its point, or the projection where there is
    none."""
    if (paving.dims or 0) < 2:
        return "<p>With one variable there is no picture.</p>"
    tolerance, names = found.tolerance, paving.names_known()
    others = range(2, paving.dims or 0)
    at: dict[Name, Any] = {} if tolerance is None else {k: tolerance.point[k] for k in others}
    drawn = svg(paving, 0, 1, at, tolerance is None and bool(others), f"{names[0]} and {names[1]}", False)
    if tolerance is not None:
        drawn = drawn.replace("</svg>", f"{box_drawn(paving, tolerance.box)}</svg>")
    where = "" if not at else " where " + ", ".join(f"{names[k]} = {spelled(at[k], False)}" for k in others)
    kind = "The slice" if at else "The projection" if others else "The paving"
    box = "; the heavy line is the box of the greatest tolerance" if tolerance is not None else ""
    return f"<figure>\n{drawn}<figcaption>{safe(kind + where + box)}.</figcaption>\n</figure>"


def box_drawn(paving: Paving, box: Pairs) -> str:
    """The outline of a box in a picture of the first two variables, drawn within it."""
    frame = Frame(finite_axes(axes_of(paving, 0, 1, False)), False)
    pairs = [(as_float(low, True), as_float(high, False)) for low, high in box[:2]]
    return f'<path d="{path_of([pairs], frame)}" fill="none" stroke="#b71c1c" stroke-width="2.5"/>\n'


def check_part(system: str, paving: str, kept: Mapping[str, str], words: Sequence[str]) -> str:
    """The three commands, with the settings of the run."""
    options = [word for name, value in kept.items() for word in (f"--{name}", value)]
    calls = [("the system is taken, and what the program understands of it", ["paver", "check", system]),
             ("every node is computed again: `honest` is expected", ["paver", "audit", system, paving, *options]),
             ("the decisions are made anew", ["python3", "-m", "paver", "decide", system, paving, *options, *words])]
    rows = [(f"<code>{safe(shlex.join(call))}</code>", marked(says)) for says, call in calls]
    return table(rows)


__all__ = ["report"]
