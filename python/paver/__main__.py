"""python3 -m paver COMMAND: tools around the program. Each is a function of the package too."""
from __future__ import annotations

import argparse
import os
import sys
import warnings
from collections.abc import Callable, Iterable, Iterator, Mapping
from contextlib import contextmanager
from fractions import Fraction
from pathlib import Path
from typing import TYPE_CHECKING, Any, TextIO

from . import (
    beside, control_command, decide_command, errors, explain, fit_command, levels_command, path_command, program,
    project_command, robot_command, robust_command, scale, sweep_command,
)
from .advice import limits_of, stored_sentences, warnings_of
from .cover import KEPT, Cover, Name
from .ibex import translate
from .identity import UNSAID, found_settings, taken
from .kept import is_database
from .numbers import as_float, counted, printable
from .options import COMMANDS, KEPT_SETTINGS
from .paving import Paving
from .picture import svg
from .planes import axis, others_of, values_of
from .plots import drawing, plot, plot_projection, rectangles
from .roots import ONE, TESTED, NotSquare, find_roots
from .split import gather, split
from .sweep_task import whole_file
from .undecided import report as report_undecided
from .values import least
from .view import add_words, view_command
from .widen import claim_of_roots, roots_width, widened, widened_file


UNCOMPARED = "the paving has no identity, as printed text has none: that it is this system's is not compared."
MOST_BYTES = 1 << 22  # of a file for IBEX
MOST_TOUCHING = 200_000  # boxes whose parts summary counts unasked

if TYPE_CHECKING:
    Commands = argparse._SubParsersAction[argparse.ArgumentParser]


def run_options(parser: argparse.ArgumentParser, names: Iterable[str] = program.OPTIONS) -> None:
    for name in names:
        parser.add_argument(f"--{name}", help=f"as the program's --{name}")


def options_of(arguments: argparse.Namespace, known: Iterable[str] = program.OPTIONS) -> dict[str, Any]:
    return {name: getattr(arguments, name) for name in known if getattr(arguments, name, None) is not None}


def paving_of(arguments: argparse.Namespace, sentences: Callable[[program.Answer, Cover], list[str]] = warnings_of
              ) -> tuple[Paving, list[str]]:
    """The paving of a command, a file's or that of a run, and the sentences on it. A file is compared with the system under the
    given settings, or those kept beside it; all its numbers are read."""
    if not arguments.paving:
        answer = program.run(arguments.system, program=arguments.program, **options_of(arguments))
        paving = answer.paving()
        return paving, sentences(answer, paving)
    system = program.check(arguments.system, program=arguments.program)
    stored, strict = beside.identity_of(arguments.paving), getattr(arguments, "strict", False)
    identity = None if stored is None or getattr(arguments, "any_identity", False) else UNSAID
    settings, words = beside.with_kept([arguments.paving], options_of(arguments, KEPT_SETTINGS)), None
    if identity is UNSAID and not strict:
        settings, words = found_settings(system, stored, settings)
    paving = Paving.read(arguments.paving, system=system, identity=identity, strict=strict, **settings)
    paving.check_numbers()
    found = [taken(arguments.paving, words)] if words else []
    found += stored_sentences(paving, {**options_of(arguments), **settings}, is_database(arguments.paving))
    return paving, [UNCOMPARED, *found] if paving.identity is None else found


def roots(arguments: argparse.Namespace) -> int:
    """Prints each cluster of undecided boxes of a square system with its verdict. Status 1 where one is undecided or a leaf is
    open."""
    system = program.check(arguments.system, program=arguments.program)
    by = roots_width(system, arguments.paving, arguments.widen)
    with widened_file(arguments.system, by, options_of(arguments), arguments.program) as (path, options):
        paving, warnings = paving_of(argparse.Namespace(**{**vars(arguments), "system": path, **options}), limits_of)
    found = find_roots(system, paving)
    for root in found:
        count = counted(root.boxes, "box", "boxes")
        print(f"{root.verdict}: {count}" + (f" ({root.remark})" if root.remark else ""))
        for name, (low, high) in zip(system.names, root.box):
            print(f"  {name} in [{as_float(low, False)!r}, {as_float(high, True)!r}]")
    counts = {verdict: sum(root.verdict == verdict for root in found) for verdict in (ONE, "none", "undecided")}
    print(f"{counted(counts[ONE], 'root')}, {counted(counts['none'], 'cluster')} without one, {counts['undecided']} undecided; "
          f"{TESTED}.")
    print(claim_of_roots(by))
    report(warnings)
    return 1 if counts["undecided"] or paving.counts()["open"] else 0


def report(warnings: Iterable[str]) -> None:
    for sentence in warnings:
        print(f"note: {printable(sentence)}", file=sys.stderr)


def from_ibex(arguments: argparse.Namespace) -> int:
    """Prints the profile's text of an IBEX file; status 3, and each form by its line, where something is refused."""
    with open(arguments.file, "rb") as file:
        text = file.read(MOST_BYTES + 1)
    if len(text) > MOST_BYTES:
        raise ValueError(f"{arguments.file}: more than {MOST_BYTES} bytes")
    found = translate(text.decode("latin-1"))
    for refusal in found.refusals:
        print(printable(f"{arguments.file}: {refusal}"), file=sys.stderr)
    if found.text is None:
        return 3
    report(found.notes)
    sys.stdout.write(found.text if arguments.widen is None else widened(found.text, arguments.widen))
    return 0


def explain_command(arguments: argparse.Namespace) -> int:
    """Says in sentences what is refused of a call of the program, or lists the constraints by number. Status 2 where something
    is refused."""
    own = explain.own_options(arguments.words)
    if own.line:
        line = explain.in_one_line(own.words[0], arguments.program) if own.words else None
        print(line or "", end="\n" if line else "")
        return 2 if line else 0
    lines, good = explain.explained(own.words, arguments.program)
    print("\n".join(lines))
    if good and own.groups is not None:
        system = program.check(explain.system_of(own.words), program=arguments.program)
        groups = explain.groups_of(len(system.constraints), own.groups)
        agree = max(1, len(groups) - 1) if own.agree is None else own.agree
        print(f"at least {agree} of {len(groups)} groups of constraints:")
        print(f"  --contract '{explain.qinter_text(groups, agree)}'")
    if good and own.scale is not None:
        scale.report(explain.system_of(own.words), own.scale, arguments.program)
    return 0 if good else 2


def least_command(arguments: argparse.Namespace) -> int:
    """Prints the bounds of an expression's least value as floats that are rounded outward, and the point as exact fractions.
    Status 1 where the budget ended the search."""
    levels_command.refuse_words(arguments)
    if arguments.levels:
        return levels_command.work(arguments)
    names = program.check(arguments.system, program=arguments.program).names
    with widened_file(arguments.system, arguments.widen, options_of(arguments), arguments.program) as (system, options):
        found = least(system, arguments.of, program=arguments.program, **options)
    print(f"lower {as_float(found.lower, False)!r}")
    print("upper none" if found.upper is None else f"upper {as_float(found.upper, True)!r}")
    for name, value in zip(names, found.point or ()):
        print(f"  {name} = {value}" + ("" if value.denominator == 1 else f", about {float(value):.9g}"))
    if not found.complete:
        report(["the budget ended the search: the bounds hold all the same; more --boxes may bring them closer"])
    return found.status


def summary(arguments: argparse.Namespace) -> int:
    """Prints counts, volumes, hull and the widest small box of a paving, and on demand its clusters."""
    paving, warnings = paving_of(arguments)
    print_summary(paving, arguments.clusters)
    print_parts(paving)
    report_undecided(paving, program.check(arguments.system, program=arguments.program))
    report(warnings)
    return 0


def print_summary(paving: Cover, clusters: bool = False, file: TextIO | None = None) -> None:
    print(" ".join(f"{name} {count}" for name, count in paving.counts().items()), file=file)
    for kind, volume in paving.volumes().items():
        print(f"volume {kind} {as_float(volume, False):.9g}", file=file)
    for k, (low, high) in enumerate(paving.floats_of_hull() or ()):
        print(f"hull {paving.name_of(k)} [{low:.17g}, {high:.17g}]", file=file)
    if clusters:
        print(f"clusters {len(paving.clusters())}", file=file)
    widest = paving.widest()
    if widest is not None:
        print(f"widest small box {as_float(widest.width, True):.9g}: {widest!r}", file=file)


def print_parts(paving: Cover) -> None:
    """Prints into how many parts that don't touch the kept boxes fall, and the inner ones: the set has points in each of the
    latter, and none between the former."""
    counts = paving.counts()
    if sum(counts[kind] for kind in KEPT) <= MOST_TOUCHING:
        print(f"parts kept {len(paving.clusters())} inner {len(paving.clusters('inner'))}")


def export(arguments: argparse.Namespace) -> int:
    """Prints the paving of a campaign's database as a stored file, which the program's audit, merge, resume and svg take."""
    sys.stdout.write(Paving.read(arguments.paving).file_text())
    return 0


def robust_of(arguments: argparse.Namespace) -> int:
    """Says for which values of a system's other variables all constraints hold for all values of some."""
    return robust_command.work(arguments)


def project_of(arguments: argparse.Namespace) -> int:
    """Says for which values of two variables some value of the others is in the set, and for which none is."""
    return project_command.work(arguments, paving_of, report)


def fit_of(arguments: argparse.Namespace) -> int:
    """Writes the system of a model and a table of measurements, or reports which parameters agree with them."""
    return fit_command.work(arguments, paving_of, report)
def decide_of(arguments: argparse.Namespace) -> int:
    """Prints the point whose variables may move farthest and stay proved, and a largest proved box."""
    return decide_command.decide_command(arguments, paving_of)
def report_of(arguments: argparse.Namespace) -> int:
    """Prints one page of HTML on a stored paving, for a design review: no network, no scripts."""
    return decide_command.report_command(arguments, options_of(arguments, KEPT_SETTINGS))


def csv_command(arguments: argparse.Namespace) -> int:
    """Prints the kept boxes of a paving as CSV."""
    paving, warnings = paving_of(arguments)
    paving.write_csv(sys.stdout, KEPT, arguments.exactly)
    report(warnings)
    return 0


def path_of(arguments: argparse.Namespace) -> int:
    """Prints a short path between two points through the inner boxes of a paving, or that there is none. Status 1 where there
    is none."""
    return path_command.work(arguments, paving_of, report)


def plot_command(arguments: argparse.Namespace) -> int:
    """Draws a slice, or the projection on two variables, into a picture file: SVG by the package itself, other forms by
    matplotlib where it is installed."""
    paving, warnings = paving_of(arguments)
    x, y = axis(arguments.x), axis(arguments.y)
    at = values_of(arguments.at or [], others_of(paving.names or [], (x, y)))
    title = Path(arguments.system).stem
    if not arguments.project:
        rectangles(paving, x, y, at)  # which refuses what can't be drawn
    if arguments.picture.endswith(".svg"):
        drawn = svg(paving, x, y, at, arguments.project, title, not arguments.stretch, arguments.near)
        Path(arguments.picture).write_text(drawn, encoding="utf-8")
    else:
        draw_by_matplotlib(paving, (x, y), at, title, arguments)
    report(warnings)
    return 0


def draw_by_matplotlib(paving: Paving, names: tuple[Name, Name], at: Mapping[Name, Fraction], title: str,
                       arguments: argparse.Namespace) -> None:
    pyplot = drawing()[0]
    how: dict[str, Any] = {"title": title, "equal": not arguments.stretch, "near": arguments.near}
    if arguments.project:
        plot_projection(paving, *names, **how)
    else:
        plot(paving, *names, at, **how)
    pyplot.savefig(arguments.picture, dpi=200, bbox_inches="tight")


def page_command(arguments: argparse.Namespace) -> int:
    """Prints one page of HTML that shows pavings of the system in a browser; with no paving the system is run."""
    sys.stdout.write(view_command(arguments))
    return 0


def split_command(arguments: argparse.Namespace) -> int:
    """Writes the sub-systems of the parts of a search box, and prints their names."""
    variables = arguments.variables.split(",") if arguments.variables else None
    for path in split(arguments.system, arguments.parts, arguments.folder, variables=variables,
                      program=arguments.program, **options_of(arguments, KEPT_SETTINGS)):
        print(path)
    return 0


def gather_command(arguments: argparse.Namespace) -> int:
    """Puts the answers to a folder's parts together: a summary, or CSV. The answers have to be those of the parts that split
    wrote, under one group of settings."""
    identity = None if arguments.any_identity else UNSAID
    parts = gather(arguments.folder, program=arguments.program, identity=identity, progress=sys.stderr.isatty(),
                   **options_of(arguments, KEPT_SETTINGS))
    with whole(arguments.out) as file:
        if arguments.csv:
            parts.write_csv(file, KEPT, False)
        else:
            print_summary(parts, arguments.clusters, file)
    if parts.counts()["open"]:
        report([f"{parts.counts()['open']} leaves are open in the parts: an open leaf says nothing"])
    return 0


@contextmanager
def whole(name: str | None) -> Iterator[TextIO]:
    """Standard output, or a file that is there whole or not at all."""
    if name is None:
        yield sys.stdout
        return
    beside.need_name(name)
    with whole_file(name) as file:
        yield file


def parser() -> argparse.ArgumentParser:
    main_parser = argparse.ArgumentParser(prog="python3 -m paver", description=__doc__)
    main_parser.add_argument("--program", help="the program's path; else the variable PAVER, else PATH")
    commands = main_parser.add_subparsers(dest="command", required=True)
    for name, work in (("roots", roots), ("summary", summary), ("csv", csv_command), ("plot", plot_command),
                       ("path", path_of), ("project", project_of), ("decide", decide_of)):
        command = commands.add_parser(name, help=work.__doc__, description=work.__doc__)
        command.set_defaults(work=work)
        command.add_argument("system")
        command.add_argument("paving", nargs="?",
                             help="a stored paving, printed text or a campaign's database; else the system is run")
        run_options(command)
        compared(command)
    commands.choices["roots"].add_argument("--widen", metavar="D", help="f = 0 is paved as f >= -D; f <= D (1e-9; 0: as it is)")
    commands.choices["summary"].add_argument("--clusters", action="store_true", help="count the groups of boxes that touch")
    commands.choices["csv"].add_argument("--exactly", action="store_true", help="fractions in place of floats")
    path_command.add_options(commands.choices["path"])
    project_command.add_options(commands.choices["project"])
    commands.choices["decide"].add_argument("--exactly", action="store_true", help="fractions in place of decimals")
    decide_command.add_options(commands.choices["decide"])
    drawn = commands.choices["plot"]
    drawn.add_argument("--picture", required=True, help="the file to write, as ring.png")
    drawn.add_argument("--x", default="0", help="a variable's name or number")
    drawn.add_argument("--y", default="1")
    drawn.add_argument("--at", action="append", metavar="NAME=VALUE", help="the value of another variable, or the numbers of "
                       "all others in order, with commas")
    drawn.add_argument("--near", action="store_true", help="axes around what is kept")
    drawn.add_argument("--stretch", action="store_true", help="scales that are not equal")
    drawn.add_argument("--project", action="store_true", help="the projection in place of a slice")
    more_commands(commands)
    return main_parser


def compared(command: argparse.ArgumentParser) -> None:
    command.add_argument("--any-identity", action="store_true", help="take a file without comparing its identity")
    strictly(command)


def strictly(command: argparse.ArgumentParser) -> None:
    command.add_argument("--strict", action="store_true", help="refuse a file of other settings than those given, though they "
                         "are found")


def more_commands(commands: Commands) -> None:
    def add(name: str, work: Callable[[argparse.Namespace], int]) -> argparse.ArgumentParser:
        command = commands.add_parser(name, help=work.__doc__, description=work.__doc__)
        command.set_defaults(work=work)
        return command

    written = add("from-ibex", from_ibex)
    written.add_argument("file")
    written.add_argument("--widen", metavar="D", help="equations f = 0 become f >= -D; f <= D")
    control_command.add_options(add("control", control_command.work))
    add("export", export).add_argument("paving", help="the database of a campaign, or a stored paving")
    bounded = add("least", least_command)
    bounded.add_argument("system")
    bounded.add_argument("--of", required=True, help="the expression, over the variables")
    run_options(bounded, (*program.SETTINGS, "boxes", "limit"))
    levels_command.add_options(bounded)
    robust_command.add_options(add("robust", robust_of))
    robot_command.add_options(add("robot", robot_command.work))
    fit_command.add_options(add("fit", fit_of))
    explained = add("explain", explain_command)
    explained.usage = "%(prog)s [COMMAND] SYSTEM [--groups N [--agree N]] [--scale [FILE]] [--line] [OPTIONS]"
    explained.epilog = ("Words after COMMAND are those of the program's command, else of run: what is refused of them is told. "
                        "--groups N: constraints in each group of a qinter text; --agree N: how many groups have to agree, "
                        "else all but one; --scale: scales for variables, --scale=FILE writes the text in them; --line: a "
                        f"refused system in one line, for editors. COMMAND is one of {', '.join(COMMANDS)}.")
    explained.add_argument("words", nargs=argparse.REMAINDER)
    shown = add("view", page_command)
    add_words(shown)
    strictly(shown)
    sweep_command.add_options(add("sweep", sweep_command.work))
    reported = add("report", report_of)
    reported.add_argument("system")
    reported.add_argument("paving", help="a stored paving")
    decide_command.add_options(reported)
    run_options(reported, KEPT_SETTINGS)
    strictly(reported)
    parted = add("split", split_command)
    parted.add_argument("system")
    parted.add_argument("--parts", type=int, required=True)
    parted.add_argument("--folder", default="parts")
    parted.add_argument("--variables", help="names of those that may be cut, joined by commas")
    run_options(parted, KEPT_SETTINGS)
    gathered = add("gather", gather_command)
    gathered.add_argument("folder")
    gathered.add_argument("--csv", action="store_true")
    gathered.add_argument("--clusters", action="store_true", help="count the groups of boxes that touch: takes the boxes of "
                          "all parts at once")
    gathered.add_argument("--out", help="a file in place of standard output, which is there whole or not at all")
    run_options(gathered, KEPT_SETTINGS)
    compared(gathered)


def on_refused_contract(arguments: argparse.Namespace, fault: errors.ContractRefused) -> list[str]:
    """The lines on the refused contractor text of a command that runs the program."""
    system = program.check(arguments.system, program=arguments.program)
    return explain.of_refused_contract(arguments.contract, fault.byte, len(system.constraints))


def parsed(words: list[str]) -> argparse.Namespace:
    """The arguments of words. Those after `explain` are the program's, and are left as they are."""
    before = words[:words.index("explain")] if "explain" in words else None
    if before is None or len(before) > 2 or words[-1] in ("-h", "--help"):
        return parser().parse_args(words)
    arguments = parser().parse_args([*before, "explain"])
    arguments.words = words[len(before) + 1:]
    return arguments


def main(words: Iterable[str] | None = None) -> int:
    arguments = parsed(sys.argv[1:] if words is None else list(words))
    if sys.stdout is None:
        sys.stdout = open(os.devnull, "w", encoding="utf-8")  # so that nothing else fails
        print("paver: standard output is closed", file=sys.stderr)
        return 6
    try:
        with warnings.catch_warnings():
            warnings.showwarning = in_a_line
            status = arguments.work(arguments)
        sys.stdout.flush()
        return int(status)
    except errors.SystemRefused as fault:
        refused = refused_name(arguments)
        print("\n".join(explain.of_refused_system(refused, explain.text_of(refused), fault)), file=sys.stderr)
        return 3
    except errors.ContractRefused as fault:
        print("\n".join(on_refused_contract(arguments, fault)), file=sys.stderr)
        return 2
    except errors.ObjectiveRefused as fault:
        print("\n".join(explain.of_refused_objective(arguments.of, fault)), file=sys.stderr)
        return 2
    except BrokenPipeError:  # a reader as head ended early: nothing more can be said on standard output
        silent()
        return 6
    except (errors.PaverError, errors.PavingError, NotSquare, ValueError, OSError, ImportError, MemoryError,
            OverflowError) as fault:
        print(f"paver: {one_line(str(fault) or type(fault).__name__)}", file=sys.stderr)
        if isinstance(fault, OSError):
            silent()
        return 2


def in_a_line(message: Warning | str, *_: Any) -> None:
    """Shows a warning as the commands show what they note."""
    print(f"note: {one_line(str(message))}", file=sys.stderr)


def refused_name(arguments: argparse.Namespace) -> str:
    """The system's file of a command."""
    return getattr(arguments, "system", None) or arguments.words[0]


def one_line(text: str) -> str:
    """A text of errors in one line that steers no terminal."""
    return printable(text.replace("\n", " "))[:2000]


def silent() -> None:
    """Lets Python's own writing at its end go nowhere, so that it says nothing more."""
    try:
        os.dup2(os.open(os.devnull, os.O_WRONLY), sys.stdout.fileno())
    except (OSError, ValueError, AttributeError):  # a stream that is no file
        return


if __name__ == "__main__":
    sys.exit(main())
