"""The words of commands for the plane of a picture: its two axes, and the values of the other variables."""
from __future__ import annotations

from fractions import Fraction
from typing import Dict, Iterable, List, Sequence, Tuple

from .plots import Name


def axis(word: str) -> Name:
    """A variable as --x and --y name it: by its name, or by its number from 0."""
    return int(word) if word.isdigit() else word


def others_of(names: Sequence[str], axes: Iterable[Name]) -> List[str]:
    """The names of the variables that are no axis, in order."""
    taken = {names[name] if isinstance(name, int) and name < len(names) else name for name in axes}
    return [name for name in names if name not in taken]


def number_in(text: str) -> Fraction:
    """The number of a text; ValueError where it is none."""
    try:
        return Fraction(text)
    except ZeroDivisionError as fault:
        raise ValueError(text) from fault


def values_of(words: Iterable[str], others: Sequence[str]) -> Dict[Name, Fraction]:
    """The values that --at gives, each as z=0.5, or all with commas between them in the order of the other variables.
    ValueError where a word is neither."""
    found: Dict[Name, Fraction] = {}
    for word in words:
        try:
            found.update(pairs_of(word, others))
        except ValueError as fault:
            raise ValueError(f"--at {word}: a variable and its number are expected, as --at z=0.5, or the numbers of all "
                             f"others, as --at 0.5,1 ({', '.join(others) or 'there are none'})") from fault
    return found


def pairs_of(word: str, others: Sequence[str]) -> List[Tuple[Name, Fraction]]:
    """The variables of a word with their numbers."""
    name, equals, number = word.partition("=")
    if equals:
        return [(name.strip(), number_in(number))]
    numbers = word.split(",")
    if len(numbers) != len(others):
        raise ValueError(word)
    return [(other, number_in(text)) for other, text in zip(others, numbers)]


def need_plane(names: Sequence[str], axes: Tuple[Name, Name], at: Iterable[Name]) -> None:
    """ValueError where the axes and the values are not those of a plane: what a picture refuses, before the first second of
    work."""
    for name in axes:
        if name not in names and not (isinstance(name, int) and name < len(names)):
            raise ValueError(f"there is no variable {name}: {', '.join(names)} are")
    others, given = others_of(names, axes), list(at)
    missing = [name for name in others if name not in given]
    if len(others) != len(names) - 2 or missing or len(given) != len(others):
        wrong = missing or [str(name) for name in given if name not in others] or [str(axes[0])]
        raise ValueError("a slice takes two variables and a value (--at) for each other one, and no more: look at "
                         f"{', '.join(wrong)}")
