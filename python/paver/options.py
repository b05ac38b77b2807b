"""The words of the program's commands, by the table in commands.py: how options are spelled, and what is refused of them."""
from __future__ import annotations

import math
import numbers as abstract
import re
from decimal import Decimal
from fractions import Fraction
from typing import Any, Dict, List, Mapping, Optional, Sequence, Tuple

from . import commands
from .commands import BUDGET, MOST_BOXES, MOST_LIMIT, SETTINGS
from .numbers import minibex

KEPT_SETTINGS = (*SETTINGS, "form")  # those that an identity holds
OPTIONS = (*KEPT_SETTINGS, *BUDGET)
FILES = {name: command.files for name, command in commands.COMMANDS.items()}
COMMANDS = {name: command.options for name, command in commands.COMMANDS.items()}
REQUIRED = {name: command.needs for name, command in commands.COMMANDS.items()}
LATER = ("limit", "form", "order", "share", "out")  # which an older program does not have
MOST_SHARES = 1_000_000
RANGES = {name: option.range for name, option in commands.OPTIONS.items() if option.range}
CHOICES = {name: option.choices for name, option in commands.OPTIONS.items() if option.choices}
DEFAULTS = {name: commands.OPTIONS[name].default or "" for name in KEPT_SETTINGS}
EXAMPLES = {name: option.example or str((option.range or option.choices)[0]) for name, option in commands.OPTIONS.items()}
OUTPUTS = ("/dev/stdout", "/dev/fd/1", "/proc/self/fd/1")  # under which nothing is stored
NUMBER = r"[0-9]+(\.[0-9]*)?([eE][+-]?[0-9]+)?"


def spelled(name: str, value: Any) -> str:
    """An option's value in words. Numbers may be of any kind; a float is taken as it is written, so eps=0.1 is `--eps 0.1`.
    ValueError where a number has no such words."""
    if isinstance(value, str) or not isinstance(value, (abstract.Number, Decimal)) or isinstance(value, bool):
        return str(value)
    if name == "eps":
        return number_text(value, "eps")
    if name in RANGES:
        number: Any = value
        if number != number or number in (math.inf, -math.inf) or int(number) != number:
            raise ValueError(f"{name} {value}: a whole number is expected")
        return str(int(number))
    return str(value)


def number_text(value: Any, what: str, signed: bool = False) -> str:
    """The Minibex number of a value, a float as it is written; ValueError where there is none."""
    try:
        exact = Fraction(repr(float(value))) if isinstance(value, float) else \
            value if isinstance(value, Fraction) else Fraction(str(value))
    except (ValueError, ZeroDivisionError) as fault:
        raise ValueError(f"{what} {value} is no number") from fault
    text = minibex(abs(exact))
    if text is None or exact < 0 and not signed:
        raise ValueError(f"{what} {value} can't be written as a Minibex number: give a text")
    return f"-{text}" if exact < 0 else text


def words_of(settings: Mapping[str, Any]) -> Dict[str, str]:
    """The settings that are given, in words."""
    return {name: spelled(name, value) for name, value in settings.items() if value is not None}


def number_of(text: str) -> Fraction:
    """The exact value of an unsigned number in words; ValueError where it is none."""
    if not re.fullmatch(NUMBER, text, re.A) or len(text) > 1000 or len(text.lower().partition("e")[2]) > 5:
        raise ValueError(f"`{text[:40]}`: an unsigned number as 0.5 or 1e-3 is expected")
    return Fraction(text)


def eps_of(settings: Mapping[str, Any]) -> Fraction:
    """The exact eps of settings; ValueError where it is no number."""
    value = settings.get("eps")
    return number_of(DEFAULTS["eps"] if value is None else spelled("eps", value))


# ---- what is refused

class Words:
    """The words after a command: options as (name, value or None, whether they are joined by `=`), and names of files."""

    def __init__(self, command: str, words: Sequence[str]) -> None:
        self.options: List[Tuple[str, Optional[str], bool]] = []
        self.unknown: List[str] = []
        self.files: List[str] = []
        rest = list(words)
        while rest:
            word = rest.pop(0)
            name, equals, value = word.partition("=")
            if word == "--":
                self.files += rest
                return
            if not word.startswith("-") or word == "-":
                self.files.append(word)
            elif not word.startswith("--") or name[2:] not in COMMANDS[command]:
                self.unknown.append(name)
                if not equals and rest and not rest[0].startswith("-"):
                    rest.pop(0)
            elif equals:
                self.options.append((name[2:], value, True))
            else:
                self.options.append((name[2:], rest.pop(0) if rest else None, False))

    def value(self, name: str) -> Optional[str]:
        """The value of an option; None where it is not given."""
        return next((value for option, value, _ in self.options if option == name), None)

    def most(self) -> int:
        """The greatest budget, which `--limit` sets wherever it stands."""
        limit = self.value("limit") or ""
        return int(limit) if re.fullmatch("[0-9]{1,10}", limit, re.A) else MOST_BOXES


def faults(command: str, words: Sequence[str]) -> List[str]:
    """Sentences on the words of a command of the program that are refused, by the same rules as the program's."""
    read = Words(command, words)
    found = [unknown(command, word) for word in read.unknown]
    seen: Dict[str, Optional[str]] = {}
    for name, value, joined in read.options:
        if name in seen:
            found.append(f"`--{name}` is given twice.")
        seen[name] = value
        found += value_fault(name, value, joined, read.most())
    found += [f"`{command}` needs `--{name}`." for name in REQUIRED[command] if name not in seen]
    if seen.get("x") is not None and seen.get("x") == seen.get("y"):
        found.append("`--x` and `--y` name one variable: a picture has two.")
    found += out_fault(seen.get("out"), read.files)
    if seen.get("share") is not None and seen.get("order") == "level":
        found.append("`--share` and `--order level` exclude each other: a share is settled in its own order.")
    return found + file_faults(command, len(read.files))


def out_fault(name: Optional[str], files: Sequence[str]) -> List[str]:
    """The sentence on a name of `--out` under which nothing is stored."""
    if name is not None and files[:1] == [name]:
        return [f"`--out {name}` is the system itself, which would be lost: name another file."]
    if name in OUTPUTS:
        return [f"`--out {name}` is the standard output, where the counts are printed: without `--out` the nodes are printed, "
                "too."]
    return []


def unknown(command: str, word: str) -> str:
    """The sentence on an option that a command does not take."""
    known = COMMANDS[command]
    names = [f"--{name}" for name in known]
    takes = " and ".join([", ".join(names[:-1])] * (len(names) > 1) + names[-1:])
    near = [name for name, options in COMMANDS.items() if word[2:] in options]
    others = f"; it is one of {', '.join(near)}" if near else ""
    return f"`{word}` is no option of {command}{others}: {command} takes {takes or 'none'}."


def file_faults(command: str, count: int) -> List[str]:
    """The sentence on the names of files, where there are too few or too many."""
    wanted = FILES[command]
    least = len(wanted.split())
    greatest = 9 if wanted.endswith("..") else least
    if least <= count <= greatest:
        return []
    names = {"": "no file", "SYSTEM": "one SYSTEM", "SYSTEM PAVING": "one SYSTEM and one PAVING",
             "SYSTEM PAVING..": "one SYSTEM and 1 to 8 PAVINGs"}[wanted]
    return [f"`{command}` takes {names}: {count} {'name is' if count == 1 else 'names are'} given."]


def value_fault(name: str, value: Optional[str], joined: bool = False, boxes: int = MOST_BOXES) -> List[str]:
    """The sentence on the value of an option, where it is refused."""
    if value is None or (value.startswith("--") and not joined):
        return [f"`--{name}` needs a value."]
    if value.startswith("-") and not joined:
        return [f"`--{name} {value}`: a value that begins with `-` is written `--{name}={value}`.",
                *value_fault(name, value, True)]
    if name in RANGES:
        low, high = RANGES[name] if name != "boxes" else (1, boxes)
        if not (value.isdigit() and value.isascii() and len(value) <= 10 and low <= int(value) <= high):
            return [f"`--{name} {value}`: a whole number from {low} to {high} is expected{beyond(name, value)}."]
    if name in CHOICES and value not in CHOICES[name]:
        return [f"`--{name} {value}`: {' or '.join(f'`{word}`' for word in CHOICES[name])} is expected."]
    if name == "share" and not is_share(value):
        return [f"`--share {value}`: K/N is expected, K below N and N at most {MOST_SHARES}, as 0/4."]
    if name == "eps" and not is_number(value):
        return [f"`--eps {value}`: an unsigned number as 0.5 or 1e-3 is expected{how_written(value)}."]
    if name == "at" and not all(is_number(part[1:] if part[:1] == "-" else part) for part in value.split(",")):
        return [f"`--at {value}`: numbers joined by commas are expected, one for each other variable, as 0.5,-1."]
    return []


def beyond(name: str, value: str) -> str:
    """What lets a greater budget through, behind the sentence that refuses it."""
    is_greater = name == "boxes" and re.fullmatch("[1-9][0-9]{0,9}", value, re.A)
    return f"; for more give `--limit {value}`, too" if is_greater and MOST_BOXES < int(value) <= MOST_LIMIT else ""


def how_written(value: str) -> str:
    """How a number is written that was refused as one, behind the sentence that refuses it."""
    if re.fullmatch(NUMBER, value, re.A):
        return ", of at most 37 digits, the last of them no less than 1e-36"
    if re.fullmatch(r"\.[0-9]+([eE][+-]?[0-9]+)?", value, re.A):
        return f": write `0{value}`"
    return ""


def is_share(text: str) -> bool:
    """Whether a text is K/N, of up to ten digits each, with K below N and N at most a million."""
    found = re.fullmatch("([0-9]{1,10})/([0-9]{1,10})", text, re.A)
    return found is not None and int(found[1]) < int(found[2]) <= MOST_SHARES


def is_number(text: str) -> bool:
    """Whether a text is an unsigned number that is not too wide."""
    if not re.fullmatch(NUMBER, text, re.A) or len(text) > 1000:
        return False
    digits, _, exponent = text.lower().partition("e")
    if len(exponent.lstrip("+-0")) > 3:
        return False
    power = int(exponent or 0) - len(digits.partition(".")[2])
    return -36 <= power <= 36 and len(digits.replace(".", "").lstrip("0") or "0") + max(power, 0) <= 37
