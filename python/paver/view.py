"""One page of HTML that shows pavings of a system in any browser, with no network: see viewer/ for its parts."""
from __future__ import annotations

import argparse
import base64
import copy
import csv
import hashlib
import json
import os
import warnings
from html import escape
from pathlib import Path
from typing import Any, Callable, Dict, Iterable, Mapping, Sequence, Tuple, Union

from . import beside
from . import program as calls
from .box import exact_number
from .canonical import System
from .errors import PavingError
from .identity import found_settings, taken
from .numbers import Exact, as_float
from .options import CHOICES, DEFAULTS, SETTINGS
from .packed import packed
from .path import Path as Answered
from .paving import Paving

PARTS = Path(__file__).parent / "viewer"
SCRIPTS = ("numbers.js", "tree.js", "paint.js", "search.js", "path.js", "constraints.js", "axes.js", "colours.js", "panes.js",
           "pictures.js", "facts.js", "app.js")
UNKNOWN = "not compared"
OF_RUN = ("boxes", "workers", "limit")
COMMANDS = {"plain": "run", "centered": "run-centered"}  # that make pavings of each form
Rows = Sequence[Sequence[str]]  # the points of a path as exact texts
Entry = Tuple[Dict[str, Any], str]  # what the page tells of a paving, and its packed nodes


class View:
    """A page: `html` is its text, `save` writes it; in a notebook it shows itself in a frame."""

    def __init__(self, html: str) -> None:
        self.html = html

    def save(self, path: str | Path) -> None:
        """Writes the page into a file."""
        Path(path).write_text(self.html, encoding="utf-8")

    def _repr_html_(self) -> str:
        return f'<iframe srcdoc="{escape(self.html)}" style="width:100%;height:640px;border:0"></iframe>'

    def __repr__(self) -> str:
        return f"<view of {len(self.html)} bytes: save it as an .html file>"


def named_settings(settings: Mapping[str, Any]) -> dict[str, str]:
    """The settings that make an identity but for the form, as texts, with the program's defaults."""
    given = {name: calls.spelled(name, value) for name, value in settings.items() if value is not None}
    return {name: given.get(name, DEFAULTS[name]) for name in SETTINGS}


def command_of(paving: Paving, system: System, settings: Mapping[str, Any], form: str | None, unchecked: bool, name: str
               ) -> str:
    """Which command's paving this is, by its identity; of either form, where none is given. PavingError where it is not this
    system's under these settings."""
    if form and form not in CHOICES["form"]:
        raise ValueError(f"{name}: the form {form!r}: one of {', '.join(CHOICES['form'])}")
    for known in [form] if form else CHOICES["form"]:
        if paving.identity == system.identity(**settings, form=known):
            return COMMANDS[known]
    if unchecked:
        return UNKNOWN
    if paving.identity is None:
        raise PavingError(1, f"{name} is printed text, which has no identity: store the paving by --out, or say that it is "
                             "this system's by --unchecked (unchecked=True)")
    shown = " ".join(f"--{option} {value}" for option, value in settings.items())
    raise PavingError(2, f"{name} has another identity than this system under {shown}: give the settings of its run, or "
                         "the system that it is of")


def rows_of_path(path: PathLike, names: Sequence[str]) -> Rows | None:
    """The points of a path, or of the file that `path --csv` wrote, as texts. ValueError where it is of other variables, or has
    what is no number."""
    if path is None or isinstance(path, Answered):
        head, rows = (list(names), None) if path is None else (path.names, path.rows())
    else:
        with open(path, encoding="utf-8", newline="") as file:
            head, *rows = list(csv.reader(file)) or [[]]
    if head != list(names):
        raise ValueError(f"the path {path} is of {', '.join(head) or 'no variables'}, and the system of {', '.join(names)}")
    for k, row in enumerate(rows or []):
        if len(row) != len(names):
            raise ValueError(f"the path {path}, point {k + 1}: {len(row)} numbers for {len(names)} variables")
        for word in row:
            exact_number(word)
    return rows or None


def shown_number(value: Exact) -> str:
    return "infinite" if value == float("inf") else f"{as_float(value, False):.12g}"


def entry(paving: Paving, settings: Mapping[str, str], command: str, name: str) -> Entry:
    """What the page tells of a paving, and its packed nodes."""
    text, nodes, numbers, volumes = packed(paving)
    whole = sum(volumes.values())
    finite = whole not in (0, float("inf"))
    about = {"name": name, "command": command, "identity": paving.identity, "settings": settings, "nodes": nodes,
             "numbers": numbers, "counts": paving.counts(),
             "volumes": {kind: shown_number(value) for kind, value in volumes.items()},
             "shares": {kind: float(value / whole) for kind, value in volumes.items()} if finite else None}
    return about, text


def for_script(value: object) -> str:
    """JSON that can stand within a script element: nothing in it can end the element."""
    text = json.dumps(value, ensure_ascii=True, separators=(",", ":"))
    return text.replace("<", "\\u003c").replace(">", "\\u003e").replace("&", "\\u0026")


def digest(text: str) -> str:
    """A part's digest, as a content security policy names it."""
    return "sha256-" + base64.b64encode(hashlib.sha256(text.encode()).digest()).decode()


def page(system: System, source: str, entries: Sequence[Entry], title: str, way: Rows | None = None) -> str:
    """The text of the page: its parts, what is known of the system and the pavings, the packed nodes, and the points of a path
    that is drawn."""
    script = "\n" + "".join((PARTS / name).read_text(encoding="utf-8") for name in SCRIPTS)
    style = "\n" + (PARTS / "style.css").read_text(encoding="utf-8")
    about = {"title": title, "names": list(system.names), "root": list(system.root), "source": source,
             "canonical": system.text, "constraints": [one.infix(system.names) for one in system.constraints],
             "digest": hashlib.sha256(system.text.encode()).hexdigest(), "pavings": [one for one, _ in entries],
             "path": None if way is None else [list(row) for row in way]}
    data = "\n".join(f'<script type="application/octet-stream" id="data-{k}">{text}</script>'
                     for k, (_, text) in enumerate(entries))
    filled = {"TITLE": escape(title), "SCRIPT_DIGEST": digest(script), "STYLE_DIGEST": digest(style), "STYLE": style,
              "ABOUT": for_script(about), "DATA": data, "SCRIPT": script}
    parts = (PARTS / "page.html").read_text(encoding="utf-8").split("@@")  # text, a word, text, a word, .., text
    return "".join(filled[part] if k % 2 else part for k, part in enumerate(parts))


def page_of_text(canonical: str, pavings: list[Paving], title: str = "paving", source: str = "") -> View:
    """The page of pavings whose system is given by its canonical text, with no call of the program: their identities are
    not compared."""
    system = System.from_text(canonical)
    return View(page(system, source, [entry(paving, {}, UNKNOWN, f"paving {k}") for k, paving in enumerate(pavings)], title))


def read_one(given: One, system: System, settings: dict[str, Any], strict: bool = False) -> tuple[Paving, str, dict[str, Any]]:
    """A paving, its name and the settings under which its identity is to be compared: of a file, a Paving, or an Answer.
    Settings of a file are found, unless strict. Nothing is compared here."""
    if isinstance(given, Paving):
        return given, "paving", settings
    if isinstance(given, calls.Answer):
        known = {name: value for name, value in given.settings.items() if name in beside.KEPT_SETTINGS}
        paving = copy.copy(given.paving())
        if paving.identity is None:  # it was printed: it is that of the answer's own system
            paving.identity = given.known.identity(**known)
        return paving, given.command, {**settings, **known}
    known = beside.with_kept([given], settings)
    known, words = (known, None) if strict else found_settings(system, beside.identity_of(given), known)
    if words:
        warnings.warn(taken(os.fspath(given), words), stacklevel=3)
    return Paving.read(given, system=system, identity=None), Path(given).name, known


# Names of stored files or of campaigns' databases, Pavings and Answers: one, several, or none for a run.
One = Union[str, "os.PathLike[str]", Paving, calls.Answer]
Pavings = Union[One, Iterable[One], None]
PathLike = Union[str, "os.PathLike[str]", Answered, None]


def run_one(path: Path, system: System, settings: Mapping[str, Any], centered: bool, options: Mapping[str, Any],
            program: str | None) -> Entry:
    """An entry of the system's own run."""
    work: Callable[..., calls.Answer] = calls.run
    if centered:
        work = calls.run_centered
    answer = work(path, program=program, **settings, **options)
    paving, command, known = read_one(answer, system, {})
    named, form = named_settings(known), known.get("form", "plain")
    return entry(paving, named, command_of(paving, system, named, form, False, command), command)


def view(system: str | Path, pavings: Pavings = None, *, settings: list[dict[str, Any]] | None = None, title: str | None = None,
         unchecked: bool = False, strict: bool = False, centered: bool = False, program: str | None = None,
         path: PathLike = None, **options: object) -> View:
    """A page that shows pavings of a system: stored files, databases of campaigns, Pavings or Answers, one or several; with
    none the system is run (or run by centered forms).

    The options are eps, depth, bisect, contract and form, for all pavings; `settings` is a list of such dicts, one a paving.
    What isn't given is that which was kept beside a file. Settings near at hand are found, unless `strict`, and a warning names
    them. A paving with another identity is refused by PavingError, unless `unchecked` says that it is this system's. `path` is
    drawn: one of Paving.path, or the file of `path --csv`. boxes, workers and limit are for the run."""
    name_of_system, known = Path(system), calls.check(system, program=program)
    way = rows_of_path(path, known.names)
    common = {name: options.pop(name) for name in beside.KEPT_SETTINGS if name in options}
    title = name_of_system.stem if title is None else title
    source = name_of_system.read_bytes().decode("utf-8", "replace")
    if pavings is None:
        if centered:
            common.pop("form", None)
        entries = [run_one(name_of_system, known, common, centered, options, program)]
        return View(page(known, source, entries, title, way))
    if options:
        raise TypeError(f"unknown option {sorted(options)[0]}")
    given: Sequence[One] = [pavings] if isinstance(pavings, (str, os.PathLike, Paving, calls.Answer)) else list(pavings)
    if not given or (settings is not None and len(settings) != len(given)):
        raise ValueError("a paving at least, and as many settings as pavings")
    entries = []
    for one, own in zip(given, settings or [{}] * len(given)):
        paving, name, of_it = read_one(one, known, {**common, **own}, strict)
        named = named_settings(of_it)
        entries.append(entry(paving, named, command_of(paving, known, named, of_it.get("form"), unchecked, name), name))
    return View(page(known, source, entries, title, way))


def settings_of_words(arguments: argparse.Namespace, count: int) -> list[dict[str, str]]:
    """The settings of each paving of a command line: an option that is given once holds for all."""
    found: list[dict[str, str]] = [{} for _ in range(count)]
    for name in beside.KEPT_SETTINGS:
        values = getattr(arguments, name) or []
        if len(values) not in (0, 1, count):
            raise ValueError(f"--{name} is given {len(values)} times for {count} pavings: give it once, or once for each")
        for k in range(count if values else 0):
            found[k][name] = values[k if len(values) > 1 else 0]
    return found


def view_command(arguments: argparse.Namespace) -> str:
    """Prints one page of HTML that shows pavings of the system in a browser; with no paving the system is run."""
    settings = settings_of_words(arguments, max(1, len(arguments.paving)))
    how: dict[str, Any] = {"title": arguments.title, "program": arguments.program, "path": arguments.path}
    if arguments.paving:
        made = view(arguments.system, arguments.paving, settings=settings, unchecked=arguments.unchecked,
                    strict=arguments.strict, **how)
    else:
        how.update(settings[0])
        how.update({name: getattr(arguments, name) for name in OF_RUN if getattr(arguments, name) is not None})
        made = view(arguments.system, centered=arguments.centered, **how)
    return made.html


def add_words(parser: argparse.ArgumentParser) -> None:
    """The words of the command `view`."""
    parser.add_argument("system")
    parser.add_argument("paving", nargs="*", help="stored pavings or databases of campaigns, as one film or side by side")
    for name in beside.KEPT_SETTINGS:
        parser.add_argument(f"--{name}", action="append", help=f"as the program's --{name}; once, or once for each paving")
    for name in OF_RUN:
        parser.add_argument(f"--{name}", help=f"as the program's --{name}, where the system is run")
    parser.add_argument("--centered", action="store_true", help="run by centered forms")
    parser.add_argument("--title", help="the page's title; else the system's name")
    parser.add_argument("--path", metavar="FILE", help="draws the path that `path --csv FILE` wrote")
    parser.add_argument("--unchecked", action="store_true", help="take pavings whose identity is not this system's")
