"""Sentences about a system, its options and its contractor text: what is refused where, and what is taken there."""
from __future__ import annotations

import os
import re
from typing import List, Optional, Sequence, Tuple

from . import errors, expect, identity, program
from .beside import identity_of
from .canonical import System
from .errors import ContractRefused, ObjectiveRefused, SystemRefused
from .hints import hint_at
from .ibex.refusals import INSTEAD
from .numbers import counted, printable
from .options import COMMANDS, KEPT_SETTINGS, SETTINGS, Words, faults, file_faults

CAUSES = {
    "BadByte": "no token begins with this byte",
    "NumberTooWide": "this number is too long: at most 37 digits, and powers of ten from -36 to 36",
    "NotInProfile": "this word of Minibex is outside the profile",
    "TooManyVariables": "this is a 13th variable; 12 are taken",
    "TooManyConstraints": "a 65th constraint begins here; 64 are taken: a <= 0 and b <= 0 can be one as max(a, b) <= 0",
    "TooManyFunctions": "a 65th function begins here; 64 are taken",
    "TooDeep": "here the 101st level opens, or the 1,001st operation of this constraint or function stands: put a part "
               "into a function",
    "DuplicateName": "this name is declared already",
    "UnknownName": "this name is not declared for this use: variables are unknown in functions and bounds",
    "BadExponent": "this is no exponent: it has to be a whole number in digits from 0 to 32; a higher power is a power of "
                   "a power, as (x^20)^2",
    "EndOfText": "the text ends too early",
    "Unexpected": "this can't stand here",
    "BadBounds": "this domain is empty or lies at infinity",
    "TooLarge": "with this constraint the system, functions written out, has more than 65,536 nodes, or it is deeper than "
                "2,000",
    "TextTooLong": "the text has more than 65,536 bytes",
}
WHOLE = ("BadBounds", "TooLarge", "TextTooLong", "TooManyVariables", "TooManyConstraints", "TooManyFunctions", "TooDeep")
BYTE_ORDER_MARK = "\xef\xbb\xbf"  # as single-byte characters
MOST_SHOWN = 200  # signs of a line that are shown


def shown(part: str) -> str:
    """A part of a text of single-byte characters as people see it: as UTF-8, where it is such, and with no sign that steers a
    terminal."""
    return printable(part.encode("latin-1").decode("utf-8", "replace"))


def single_bytes(word: str) -> str:
    """A word of the command line as a text of single-byte characters."""
    return word.encode("utf-8", "surrogateescape").decode("latin-1")


def text_of(name: str) -> str:
    """A system's file as a text of single-byte characters: no more of it than the program reads."""
    with open(name, "rb") as file:
        return file.read(program.MOST_BYTES + 1).decode("latin-1")


def caret(text: str, byte: int) -> str:
    """The line of a byte and a caret under it; a tab stays a tab, so that the caret stands right. Of a long line a part is
    shown."""
    start = max(text.rfind("\n", 0, byte) + 1, byte - MOST_SHOWN)
    end = text.find("\n", byte)
    line = (text[start:] if end < 0 else text[start:end]).rstrip("\r")[:2 * MOST_SHOWN]
    before = "".join("\t" if c == "\t" else " " for c in shown(text[start:byte]))
    return f"    {shown(line)}\n    {before}^"


def alternatives(phrases: Sequence[str]) -> str:
    """Phrases joined by `or`."""
    if len(phrases) < 2:
        return "".join(phrases)
    return ", ".join(phrases[:-1]) + " or " + phrases[-1]


def of_refused_system(name: str, text: str, fault: SystemRefused) -> List[str]:
    """The lines on a refused system."""
    lines = [f"{printable(name)}, line {fault.row}, column {fault.column}: {cause_of(fault)}",
             caret(text, fault.byte)]
    word = refused_word(text, fault.byte)
    if fault.cause == "BadByte" and text.startswith(BYTE_ORDER_MARK):
        return [*lines, "The file begins with a byte order mark: save it without one."]
    hint = hint_at(text, fault.byte, fault.cause)
    if fault.cause == "NotInProfile" and word:
        lines.append(f"In place of `{word}`: {INSTEAD[word]}.")
    elif fault.cause not in WHOLE:
        found = expect.at_system(text, fault.byte)
        if found:
            lines.append(f"Expected here: {alternatives(found)}.")
    if hint:
        lines.append(hint)
    if text[fault.byte:fault.byte + 1] > "\x7f":
        lines.append("Only comments have letters and signs beyond ASCII.")
    elif fault.cause in ("NotInProfile", "BadByte", "Unexpected"):
        lines.append("If this is a file for IBEX, `python3 -m paver from-ibex FILE` writes what can be written of it.")
    return lines


def cause_of(fault: SystemRefused) -> str:
    """A refused system's cause in words."""
    return f"{CAUSES.get(fault.cause, fault.cause)} ({fault.cause})."


def refused_word(text: str, byte: int) -> Optional[str]:
    """The word at a byte for which there is another way to write it."""
    match = re.match(r"[A-Za-z_][A-Za-z0-9_]*", text[byte:byte + 100])
    word = match.group() if match else ""
    return next((known for known in (word, word.lower()) if known in INSTEAD), None)


def in_one_line(name: str, path: Optional[str] = None) -> Optional[str]:
    """What is refused of a system, as `FILE:LINE:COLUMN: SENTENCES`, which editors read; None where it is taken."""
    try:
        program.check(name, program=path)
    except errors.SystemRefused as fault:
        text = text_of(name)
        word = refused_word(text, fault.byte) if fault.cause == "NotInProfile" else None
        more = f"In place of `{word}`: {INSTEAD[word]}." if word else hint_at(text, fault.byte, fault.cause)
        found = [] if more or fault.cause in WHOLE else expect.at_system(text, fault.byte)
        more = more or (f"Expected here: {alternatives(found)}." if found else "")
        return printable(f"{name}:{fault.row}:{fault.column}: {cause_of(fault)} {more}".rstrip())
    return None


def of_refused_contract(text: str, byte: int, constraints: int) -> List[str]:
    """The lines on a refused contractor text."""
    text = single_bytes(text)
    lines = [f"--contract: refused at byte {byte}.", caret(text, byte)]
    if len(text) > 4096:
        return [*lines, "A contractor text has at most 4,096 bytes."]
    found = expect.at_program(text, byte, constraints)
    if found:
        lines.append(f"Expected here: {alternatives(found)}.")
    if any(c in " \t\r\n" for c in text):
        lines.append("A contractor text has no blanks.")
    return lines


def of_refused_objective(text: str, fault: ObjectiveRefused) -> List[str]:
    """The lines on a refused expression of least."""
    lines = [f"--of: {CAUSES.get(fault.cause, fault.cause)} ({fault.cause}).", caret(single_bytes(text), fault.byte)]
    hint = hint_at(single_bytes(text), fault.byte, fault.cause)
    if hint:
        lines.append(hint)
    if fault.cause == "UnknownName":
        lines.append("The expression names the variables of the system, and not its constants and functions.")
    return lines


def constraint_lines(system: System) -> List[str]:
    """Each constraint with the number that hc4 takes."""
    return [f"  {i}: {c.infix(system.names)}" for i, c in enumerate(system.constraints)]


def groups_of(count: int, size: int) -> List[List[int]]:
    """Constraints in order, in groups of a size; the last may be smaller."""
    if size < 1:
        raise ValueError(f"groups of {size} constraints: a group has at least one")
    return [list(range(k, min(k + size, count))) for k in range(0, count, size)]


def qinter_text(groups: Sequence[Sequence[int]], agree: int) -> str:
    """The contractor text that asks for at least `agree` of the groups of constraints."""
    if not 1 <= agree <= len(groups):
        raise ValueError(f"of {len(groups)} groups from 1 to {len(groups)} can agree")
    programs = [",".join(f"hc4({i})" for i in group) for group in groups]
    whole = [text if len(group) == 1 else f"compose({text})" for group, text in zip(groups, programs)]
    return f"qinter({agree},{','.join(whole)})"


class Own:
    """Explain's own options among words, and the other words."""

    def __init__(self) -> None:
        self.groups: Optional[int] = None
        self.agree: Optional[int] = None
        self.scale: Optional[str] = None  # the name of a file for the scaled text, or empty
        self.line = False
        self.words: List[str] = []


def own_options(words: Sequence[str]) -> Own:
    """Takes --groups, --agree, --scale and --line out of words. ValueError where a whole number is missing."""
    own, rest = Own(), list(words)
    while rest:
        word = rest.pop(0)
        name, equals, value = word.partition("=")
        if word == "--line":
            own.line = True
        elif name == "--scale":
            own.scale = value if equals else rest.pop(0) if rest and rest[0][:1] != "-" and has_files(own.words) else ""
        elif name in ("--groups", "--agree"):
            value = value if equals else rest.pop(0) if rest else ""
            if not re.fullmatch("-?[0-9]{1,9}", value, re.A):
                raise ValueError(f"{name} needs a whole number")
            setattr(own, name[2:], int(value))
        else:
            own.words.append(word)
    return own


def command_of(words: Sequence[str]) -> Tuple[str, List[str]]:
    """The command of the program that is meant, and the words after it: `run`, where none is named before the system."""
    first = words[0] if words else ""
    follows = first == "sample" or len(words) > 1 and not words[1].startswith("-")
    named = first in COMMANDS and (follows or not os.path.exists(first))
    return (first, list(words[1:])) if named else ("run", list(words))


def has_files(words: Sequence[str]) -> bool:
    """Whether words name all files that their command needs, so that one more is another's."""
    command, rest = command_of(words)
    return not file_faults(command, len(Words(command, rest).files))


def system_of(words: Sequence[str]) -> str:
    """The system's file among words."""
    found = Words(*command_of(words)).files
    if not found:
        raise ValueError("no system is named")
    return found[0]


def explained(words: Sequence[str], path: Optional[str] = None) -> Tuple[List[str], bool]:
    """The lines on a call of the program, and whether all is taken: the words are those after `paver`, or a system and the
    options of `run`. Nothing is paved: at most one box is settled."""
    command, rest = command_of(words)
    read = Words(command, rest)
    lines: List[str] = []
    system = None
    if command != "sample" and read.files:
        lines, system = of_system(read.files[0], path)
        if system is None:
            return lines, False
    refused = faults(command, rest)
    if refused:
        return [*lines, *map(printable, refused)], False
    if system is None:
        return [f"`{command}` takes these words."], True
    more = of_settings(command, read, system, path) or of_pavings(read, system) or of_picture(command, read, system)
    return [*lines, *more], not more


def of_system(name: str, path: Optional[str]) -> Tuple[List[str], Optional[System]]:
    """The lines on a system, and the system where it is taken."""
    try:
        system = program.check(name, program=path)
    except errors.SystemRefused as fault:
        return of_refused_system(name, text_of(name), fault), None
    except errors.NoFile:
        return [f"there is no file {printable(name)}."], None
    except errors.ReadFault:
        return [f"the file {printable(name)} could not be read: is it a folder, or not yours to read?"], None
    counts = f"{counted(len(system.names), 'variable')}, {counted(len(system.constraints), 'constraint')}"
    return [f"{printable(name)}: {counts}; it is taken.", *constraint_lines(system)], system


def of_settings(command: str, read: Words, system: System, path: Optional[str]) -> List[str]:
    """The lines on a contractor text or an expression that is refused."""
    name = read.files[0]
    words = [f"--{option}={value}" for option, value, _ in read.options if option in SETTINGS]
    run = ["least", f"--of={read.value('of')}"] if command == "least" else ["run"]
    status, _, line = program.call([*run, "--boxes=1", *words, "--", name], path)
    if status in (0, 1):
        return []
    fault = program.fault_of(status, line)
    if isinstance(fault, ContractRefused):
        return of_refused_contract(read.value("contract") or "", fault.byte, len(system.constraints))
    if isinstance(fault, ObjectiveRefused):
        return of_refused_objective(read.value("of") or "", fault)
    return [f"the program answers: {printable(line or str(status))}"]


def of_pavings(read: Words, system: System) -> List[str]:
    """The lines on pavings that are not there, or not this system's under these settings."""
    found = []
    settings = {name: read.value(name) for name in KEPT_SETTINGS}
    for name in read.files[1:]:
        stored = identity_of(name)
        if not os.path.exists(name):
            found.append(f"there is no file {printable(name)}.")
        elif stored is None:
            found.append(f"{printable(name)} is no stored paving: it does not begin with `paving 2` and an identity.")
        elif stored != identity.identity_of(system, settings):
            found.append(printable(f"{name}: wrong identity: {identity.reason(system, stored, settings)}."))
    return found


def of_picture(command: str, read: Words, system: System) -> List[str]:
    """The lines on the variables of `svg` and the numbers of its `--at`."""
    if command != "svg":
        return []
    x, y = read.value("x") or "", read.value("y") or ""
    missing = [printable(name) for name in (x, y) if name not in system.names]
    if missing:
        return [f"there is no variable {' and no variable '.join(missing)}: {', '.join(system.names)} are."]
    ends = dict(zip(system.names, zip(system.root[::2], system.root[1::2])))
    unbounded = [name for name in (x, y) if "-oo" in ends[name] or "+oo" in ends[name]]
    if unbounded:
        return [f"the domain of {unbounded[0]} is unbounded, and a picture needs bounds."]
    at, others = read.value("at"), [name for name in system.names if name not in (x, y)]
    count = len(at.split(",")) if at is not None else 0
    if count != len(others):
        wanted = f"a number each for {', '.join(others)}" if others else "no numbers, as there is no other variable"
        return [f"`--at` has {counted(count, 'number')}: {wanted}."]
    try:
        program.need_within(system, x, y, (at or "").split(",") if others else [])
    except ValueError as fault:
        return [f"`--at`: {fault}; the picture is empty."]
    return []
