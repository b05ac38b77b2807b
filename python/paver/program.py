"""The program's commands as functions. Each runs the program once, and raises an exception of errors.py for every
status but 0 and 1."""
from __future__ import annotations

import os
import re
import shutil
import subprocess
import tempfile
from contextlib import contextmanager
from dataclasses import dataclass, field
from itertools import takewhile
from pathlib import Path
from typing import Any, Dict, Iterable, Iterator, List, Mapping, NoReturn, Optional, Sequence, Tuple, Union

from . import beside, errors, identity, kept
from .box import exact_number
from .canonical import System
from .options import COMMANDS, EXAMPLES, FILES, LATER, OPTIONS, REQUIRED, SETTINGS, faults, number_text, spelled
from .paving import Paving, in_words, read_summary

PathName = Union[str, "os.PathLike[str]"]
Pavings = Union[PathName, Iterable[PathName]]
MOST_BYTES = 65536  # of a system's text


def find(program: Optional[str] = None) -> str:
    """The program's path: the argument, else the variable PAVER, else `paver` on PATH. ProgramMissing where none is."""
    named = program or os.environ.get("PAVER")
    found = shutil.which(str(named)) if named else shutil.which("paver")
    if found is None:
        raise errors.ProgramMissing(None, f"no program {named or 'paver'}: give program=, set PAVER, or put it on PATH")
    return os.path.abspath(found)


def option_words(settings: Mapping[str, Any], known: Sequence[str] = OPTIONS) -> List[str]:
    """The words of the options that are given, as `--eps=0.5`."""
    unknown = {name for name, value in settings.items() if value is not None} - set(known)
    if unknown:
        raise TypeError(f"unknown option {sorted(unknown)[0]}")
    return [f"--{name}={spelled(name, settings[name])}" for name in known if settings.get(name) is not None]


def source_of(system: PathName) -> Optional[bytes]:
    """The bytes of a system's file, as many as the program reads; None where it is no regular file."""
    try:
        if not os.path.isfile(system):
            return None
        with open(system, "rb") as file:
            return file.read(MOST_BYTES + 1)
    except OSError:
        return None


@dataclass(repr=False)
class Answer:
    """What run, run_centered, resume, merge and campaign answered: status 0, or 1 where leaves are open. `command` is the
    program's word for which of them; `out` is the file where the paving is, or a campaign's database; None where it was
    printed. `source` is the system's text as it was paved: editing its file changes nothing here."""
    command: str
    status: int
    text: str
    system: Path
    program: str
    settings: Dict[str, Any] = field(default_factory=dict)
    out: Optional[str] = None
    source: Optional[bytes] = None
    _paving: Optional[Paving] = None
    _known: Optional[System] = None

    @property
    def summary(self) -> Dict[str, int]:
        """The counts of the summary line: settled, cut, removed, inner, small, open."""
        return read_summary(self.text.split("\n", 1)[0], 1)

    @property
    def complete(self) -> bool:
        """Whether no leaf is open; of a share, none at or below its leaves."""
        return self.status == 0

    @property
    def known(self) -> System:
        """The system as the program understood it when it was paved."""
        if self._known is None:
            self._known = check(self.system, program=self.program) if self.source is None else \
                check_text(self.source, program=self.program)
        return self._known

    def paving(self) -> Paving:
        """The paving, with the root box and names of the system as it was paved. A stored one is read from its file, whose
        identity and counts have to be those of this answer."""
        if self._paving is None:
            self._paving = self._read()
        return self._paving

    def _read(self) -> Paving:
        if self.out is None:
            return Paving.from_text(self.text, system=self.known, identity=None)
        settings = {name: value for name, value in self.settings.items() if name in (*SETTINGS, "form")}
        wanted = identity.identity_of(self.known, settings)
        paving = Paving.read(self.out, system=self.known, identity=wanted)
        if paving.counts() != self.summary:
            raise errors.PavingRefused(4, f"paving {self.out}: it was written anew since this answer", name=self.out,
                                       cause="written anew", row=None)
        return paving

    def warnings(self, paving: Optional[Paving] = None) -> List[str]:
        """What a reader of the answer should know: see advice.py."""
        from .advice import warnings_of
        return warnings_of(self, paving or self.paving())

    def __repr__(self) -> str:
        counts = " ".join(f"{name} {count}" for name, count in self.summary.items() if count)
        where = "" if self.out is None else f", in {self.out}"
        return f"<{self.command} of {self.system.name}: {counts}{where}>"

    def _repr_svg_(self) -> Optional[str]:
        return self.paving()._repr_svg_()

    def _repr_html_(self) -> str:
        from .notebook import html_of
        return html_of(self.paving(), f"{self.command} of {self.system.name}{in_words(self.paving())}", self.warnings())


def plain_environment() -> Dict[str, str]:
    """The environment in which the program says no more than its line, to which the package adds sentences of its own."""
    return {**os.environ, "PAVER_HINTS": "0"}


def call(words: Sequence[Any], program: Optional[str] = None, timeout: Optional[float] = None) -> Tuple[int, str, str]:
    """Runs the program with the words, and gives its status, standard output and standard error as texts."""
    path = find(program)
    done = subprocess.run([path, *map(str, words)], stdin=subprocess.DEVNULL, stdout=subprocess.PIPE,
                          stderr=subprocess.PIPE, timeout=timeout, check=False, env=plain_environment())
    return done.returncode, done.stdout.decode("utf-8"), done.stderr.decode("utf-8", "replace").rstrip("\n")


PATTERNS: List[Tuple[int, type[errors.PaverError], str]] = [
    (2, errors.ContractRefused, r"contract: refused at byte (?P<byte>\d+)"),
    (2, errors.ObjectiveRefused, r"objective: byte (?P<byte>\d+): (?P<cause>\w+)"),
    (2, errors.UsageError, r"usage: .*"),
    (3, errors.SystemRefused, r"system: line (?P<row>\d+) column (?P<column>\d+) byte (?P<byte>\d+): (?P<cause>\w+)"),
    (4, errors.PavingRefused,
     r"paving (?P<name>.*): (?P<cause>too long|wrong identity|bad line|too many nodes|bad row|too many rows)"
     r"(?: at line)?(?: (?P<row>\d+))?"),
    (5, errors.ReadFault, r"read fault: (?P<name>.*)"),
    (6, errors.WriteFault, r"write fault: (?P<name>.*)"),
    (7, errors.WantOfMemory, r"want of memory"),
    (8, errors.TreeLimit, r"tree limit: (?P<settled>\d+) settled"),
    (9, errors.Disagree, r"(?P<kind>disagree|differs) (?P<path>\.|[01]+): (?P<first>.*?) \| (?P<second>.*)"),
    (10, errors.KeeperFault, r"keeper fault: (?P<name>.*)"),
    (11, errors.NoFile, r"no file: (?P<name>.*)"),
]
NUMERIC = {"byte", "row", "column", "settled"}


def fault_of(status: int, line: str) -> errors.PaverError:
    """The exception of a status and its line on standard error."""
    for number, kind, pattern in PATTERNS:
        match = re.fullmatch(pattern, line, re.S)
        if number == status and match:
            place = {k: int(v) if k in NUMERIC and v is not None else v for k, v in match.groupdict().items()}
            return kind(status, line, **place)
    return errors.ProgramFault(status, line)


def asked(words: Sequence[Any], program: Optional[str], timeout: Optional[float]) -> Tuple[int, str]:
    """The status and standard output of a call with status 0 or 1; else its exception."""
    status, out, line = call(words, program, timeout)
    if status in (0, 1):
        return status, out
    fault = fault_of(status, line)
    if type(fault) is errors.UsageError:
        refuse_usage(fault, list(map(str, words)), program)
    if isinstance(fault, errors.KeeperFault):
        fault.cause = kept.obstacle(fault.name)
        fault.args = (f"{fault.line}: {fault.cause}" if fault.cause else fault.line,)
    raise fault


def refuse_usage(fault: errors.PaverError, words: Sequence[str], program: Optional[str]) -> NoReturn:
    """The exception of words that are refused: it says which command or option an older program lacks, or what is wrong."""
    names = [word[2:].partition("=")[0] for word in takewhile(lambda word: word != "--", words[1:])]
    later = [f"{words[0]} --{name}" for name in names if name in LATER]
    for command in [words[0], *later]:
        if not has(command, program):
            raise errors.NotInProgram(fault.status, f"the program has no `{command}`: it is older than this package")
    said = " ".join(sentence for sentence in faults(words[0], words[1:]))
    fault.args = (said or fault.line,)
    raise fault


def has(command: str, program: Optional[str] = None) -> bool:
    """Whether the program has a command, or a command's option, as `run --out`: with it, a system that is not there is no
    file. A sample needs no system."""
    name, _, option = command.partition(" --")
    if name == "sample":
        return call(["sample", "--seed=1", "--count=1"], program)[0] == 0
    given = dict.fromkeys([*REQUIRED[name], *([option] if option else [])])
    pavings = ["none"] * (len(FILES[name].split()) - 1)
    words = [name, *(f"--{other}={EXAMPLES[other]}" for other in given), "--", "/no such folder/no such system", *pavings]
    return call(words, program)[0] == 11


def check(system: PathName, *, program: Optional[str] = None, timeout: Optional[float] = None) -> System:
    """The system as the program understood it."""
    return System.from_text(asked(["check", "--", system], program, timeout)[1])


def check_text(text: Union[str, bytes], *, program: Optional[str] = None, timeout: Optional[float] = None) -> System:
    """The same for a system's text."""
    with as_file(text) as name:
        return check(name, program=program, timeout=timeout)


@contextmanager
def as_file(text: Union[str, bytes]) -> Iterator[Path]:
    """A file of a system's text, for as long as it is needed."""
    with tempfile.TemporaryDirectory() as folder:
        name = Path(folder) / "system.mbx"
        name.write_bytes(text.encode() if isinstance(text, str) else text)
        yield name


def paved(command: str, system: PathName, pavings: Sequence[PathName], out: Optional[PathName], given: Mapping[str, Any],
          program: Optional[str], timeout: Optional[float], more: Sequence[str] = ()) -> Answer:
    """The answer of a command that paves. Settings that aren't given come from beside the pavings."""
    kept_in = out if command != "campaign" else given["keep"]
    if kept_in is not None:
        beside.need_name(kept_in)
    source = source_of(system)
    settings = {name: value for name, value in beside.with_kept(pavings, given).items() if value is not None}
    words = [command, *option_words(settings, COMMANDS[command]), *more]
    words += [f"--out={os.fspath(out)}"] if out is not None else []
    status, text = named(lambda: asked([*words, "--", system, *pavings], program, timeout), system, pavings, settings, program)
    if source is not None and source != source_of(system):
        raise errors.SystemEdited(None, f"{os.fspath(system)} was edited while it was paved: call again")
    if command == "run-centered":
        settings["form"] = "centered"
    where = None if kept_in is None else os.fspath(kept_in)
    if where is not None:
        beside.keep(where, command, system, source, settings)
    settings.pop("keep", None)
    return Answer(command, status, text, Path(system), find(program), settings, where, source)


def named(work: Any, system: PathName, pavings: Sequence[PathName], settings: Mapping[str, Any],
          program: Optional[str]) -> Any:
    """What a call gives; a wrong identity says which settings may differ."""
    try:
        return work()
    except errors.PavingRefused as fault:
        if fault.cause == "wrong identity":
            stored = beside.identity_of(fault.name)
            if stored is not None:
                fault.args = (f"{fault.line}: {identity.reason(check(system, program=program), stored, settings)}.",)
        raise


def run(system: PathName, *, eps: Any = None, depth: Any = None, bisect: Optional[str] = None, contract: Optional[str] = None,
        boxes: Any = None, workers: Any = None, order: Optional[str] = None, limit: Any = None, form: Optional[str] = None,
        out: Optional[PathName] = None, program: Optional[str] = None, timeout: Optional[float] = None) -> Answer:
    """Paves a system. eps and the whole numbers may be of any kind: a float is taken as it is written, so that eps=0.1 is
    `--eps 0.1`. out stores the paving in a file, and the settings in another beside it, `out`.json."""
    given = dict(eps=eps, depth=depth, bisect=bisect, contract=contract, boxes=boxes, workers=workers, order=order, limit=limit,
                 form=form)
    return paved("run", system, [], out, given, program, timeout)


def run_text(text: Union[str, bytes], *, eps: Any = None, depth: Any = None, bisect: Optional[str] = None,
             contract: Optional[str] = None, boxes: Any = None, workers: Any = None, order: Optional[str] = None,
             limit: Any = None, form: Optional[str] = None, out: Optional[PathName] = None, program: Optional[str] = None,
             timeout: Optional[float] = None) -> Answer:
    """The same for a system's text."""
    with as_file(text) as name:
        return run(name, eps=eps, depth=depth, bisect=bisect, contract=contract, boxes=boxes, workers=workers, order=order,
                   limit=limit, form=form, out=out, program=program, timeout=timeout)


def run_centered(system: PathName, *, eps: Any = None, depth: Any = None, bisect: Optional[str] = None,
                 contract: Optional[str] = None, boxes: Any = None, workers: Any = None, order: Optional[str] = None,
                 limit: Any = None, out: Optional[PathName] = None, program: Optional[str] = None,
                 timeout: Optional[float] = None) -> Answer:
    """As run, where boxes are tested by centered forms, too."""
    given = dict(eps=eps, depth=depth, bisect=bisect, contract=contract, boxes=boxes, workers=workers, order=order, limit=limit)
    return paved("run-centered", system, [], out, given, program, timeout)


def resume(system: PathName, pavings: Pavings, *, eps: Any = None, depth: Any = None, bisect: Optional[str] = None,
           contract: Optional[str] = None, boxes: Any = None, workers: Any = None, order: Optional[str] = None,
           limit: Any = None, form: Optional[str] = None, share: Optional[str] = None, out: Optional[PathName] = None,
           program: Optional[str] = None, timeout: Optional[float] = None) -> Answer:
    """Joins 1 to 8 stored pavings of the system under the same settings, and goes on from there; with share, as "0/4", at and
    below the open leaves alone whose number is 0 modulo 4. Settings that aren't given are those that were kept beside the
    first file."""
    given = dict(eps=eps, depth=depth, bisect=bisect, contract=contract, boxes=boxes, workers=workers, order=order, limit=limit,
                 form=form, share=share)
    return paved("resume", system, listed(pavings), out, given, program, timeout)


def merge(system: PathName, pavings: Pavings, *, eps: Any = None, depth: Any = None, bisect: Optional[str] = None,
          contract: Optional[str] = None, limit: Any = None, form: Optional[str] = None, out: Optional[PathName] = None,
          program: Optional[str] = None, timeout: Optional[float] = None) -> Answer:
    """Joins 1 to 8 stored pavings of the system under the same settings: those kept beside the first file, where they aren't
    given."""
    given = dict(eps=eps, depth=depth, bisect=bisect, contract=contract, limit=limit, form=form)
    return paved("merge", system, listed(pavings), out, given, program, timeout)


def campaign(system: PathName, keep: PathName, *, rounds: Any = None, eps: Any = None, depth: Any = None,
             bisect: Optional[str] = None, contract: Optional[str] = None, boxes: Any = None, workers: Any = None,
             order: Optional[str] = None, limit: Any = None, form: Optional[str] = None, program: Optional[str] = None,
             timeout: Optional[float] = None) -> Answer:
    """Goes on with the paving that is kept in the database `keep`, or begins one there, for 1 to 100 rounds (else one).
    Each round settles at most `boxes` nodes and keeps them before the next begins, so what whole rounds settled stays
    whatever ends the call. With status 1 the same call again goes on from there."""
    given = dict(eps=eps, depth=depth, bisect=bisect, contract=contract, boxes=boxes, workers=workers, order=order, limit=limit,
                 form=form, keep=os.fspath(keep))
    more = [] if rounds is None else [f"--rounds={spelled('rounds', rounds)}"]
    return paved("campaign", system, [], None, given, program, timeout, more)


def audit(system: PathName, paving: PathName, *, eps: Any = None, depth: Any = None, bisect: Optional[str] = None,
          contract: Optional[str] = None, limit: Any = None, form: Optional[str] = None, workers: Any = None,
          program: Optional[str] = None, timeout: Optional[float] = None) -> bool:
    """Has every settled node of a stored paving recomputed. True where it is honest; Disagree where a node differs. Settings
    that aren't given are those that were kept beside the file."""
    given = dict(eps=eps, depth=depth, bisect=bisect, contract=contract, limit=limit, form=form, workers=workers)
    settings = beside.with_kept([paving], given)
    if form is None and settings.get("form") == "centered":
        return honest("audit-centered", system, paving, {**settings, "form": None}, program, timeout)
    return honest("audit", system, paving, settings, program, timeout)


def audit_centered(system: PathName, paving: PathName, *, eps: Any = None, depth: Any = None, bisect: Optional[str] = None,
                   contract: Optional[str] = None, limit: Any = None, workers: Any = None, program: Optional[str] = None,
                   timeout: Optional[float] = None) -> bool:
    """The same for a stored paving of run_centered."""
    given = dict(eps=eps, depth=depth, bisect=bisect, contract=contract, limit=limit, workers=workers)
    return honest("audit-centered", system, paving, {**beside.with_kept([paving], given), "form": None}, program, timeout)


def honest(command: str, system: PathName, paving: PathName, settings: Mapping[str, Any], program: Optional[str],
           timeout: Optional[float]) -> bool:
    """Whether an audit said so; every other answer is an exception."""
    words = [command, *option_words(settings, COMMANDS[command]), "--", system, paving]
    known = {**settings, "form": "centered"} if command == "audit-centered" else settings
    _, text = named(lambda: asked(words, program, timeout), system, [paving], known, program)
    if text != "honest\n":
        raise errors.ProgramFault(0, f"{command} answered {text!r}")
    return True


def draw(system: PathName, paving: PathName, x: Union[str, int], y: Union[str, int], *, at: Optional[Sequence[Any]] = None,
         eps: Any = None, depth: Any = None, bisect: Optional[str] = None, contract: Optional[str] = None, limit: Any = None,
         form: Optional[str] = None, program: Optional[str] = None, timeout: Optional[float] = None) -> str:
    """The picture of a stored paving on the plane of two variables, as the program draws it: SVG text. `at` has the
    numbers of the other variables in their order: ValueError where one lies outside the search box, where the program's
    picture is empty. Settings that aren't given are those that were kept beside the file."""
    given = dict(eps=eps, depth=depth, bisect=bisect, contract=contract, limit=limit, form=form)
    settings = beside.with_kept([paving], given)
    if at:
        need_within(check(system, program=program), x, y, at)
    words = ["svg", *option_words(settings, COMMANDS["svg"]), f"--x={x}", f"--y={y}"]
    words += [f"--at={','.join(level(n) for n in at)}"] if at else []
    text: str = named(lambda: asked([*words, "--", system, paving], program, timeout), system, [paving], settings, program)[1]
    return text


def need_within(system: System, x: Union[str, int], y: Union[str, int], at: Sequence[Any]) -> None:
    """ValueError where a number of a slice lies outside the search box."""
    frame = Paving(["O"], root=system.root, names=system.names)
    others = [k for k, name in enumerate(system.names) if name not in (str(x), str(y))]
    if len(others) == len(at):
        frame.need_within({k: exact_number(level(value)) for k, value in zip(others, at)})


def level(number: Any) -> str:
    """A number of `--at` in words, a float as it is written."""
    return number if isinstance(number, str) else number_text(number, "at", True)


def sample(seed: int, count: int, *, program: Optional[str] = None, timeout: Optional[float] = None) -> str:
    """The three lines that the program prints of the system that a number makes."""
    return asked(["sample", f"--seed={seed}", f"--count={count}"], program, timeout)[1]


def listed(pavings: Pavings) -> List[PathName]:
    """One file's name, or several, as a list."""
    return [pavings] if isinstance(pavings, (str, os.PathLike)) else list(pavings)
