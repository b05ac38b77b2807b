"""Numbers of pavings. A number is written m:e for m·2^e, or -oo or +oo.

Three forms are used. The text is what files hold. The grid form is the whole number value·2^512, which is exact
for every finite number of a paving and quick to compare; an infinite end is ±INFINITE, beyond every finite one.
Exact values are Fractions, or ±math.inf; floats are asked for by their side and rounded outward.
"""
from __future__ import annotations

import math
import re
import sys
from fractions import Fraction
from functools import lru_cache
from itertools import filterfalse
from typing import Any, Callable, Collection, List, Optional, Tuple, Union

Exact = Union[Fraction, float]  # a float where it is infinite
SCALE = 512
INFINITE = 1 << 4096
MANTISSA_BITS = 62
MOST_MANTISSA = (1 << MANTISSA_BITS) - 1
MOST_EXPONENT, LARGE = 511, 450  # of a number in its shortest form; up to LARGE any mantissa has its place
GREATEST = MOST_MANTISSA << (LARGE + SCALE)
NUMBER = re.compile(r"(-?[1-9][0-9]{0,18}):(-?[1-9][0-9]{0,2}|0)\Z")
# A line that is a number where its mantissa is not too large: odd, and with an exponent far from its ends.
USUAL = re.compile(r"^-?(?:[1-9][0-9]{0,17})?[13579]:(?:0|-?(?:[1-3][0-9]{2}|[1-9][0-9]?))$", re.M)


class NumberError(ValueError):
    """A text that is no number of a paving."""


def parts(text: str) -> Tuple[int, int]:
    """The mantissa and exponent of a number's text, ±INFINITE and 0 of an infinite end; NumberError where it is none."""
    match = NUMBER.match(text)
    if match is None:
        if text == "0:0":
            return 0, 0
        if text in ("+oo", "-oo"):
            return INFINITE if text == "+oo" else -INFINITE, 0
        raise NumberError(f"{text[:40]!r} is no number of a paving")
    mantissa, exponent = int(match.group(1)), int(match.group(2))
    if mantissa & 1 and -MOST_MANTISSA <= mantissa <= MOST_MANTISSA and -SCALE <= exponent <= MOST_EXPONENT \
            and (exponent <= LARGE or abs(mantissa) << exponent + SCALE <= GREATEST):
        return mantissa, exponent
    raise NumberError(f"{text!r} is no number of a paving")


def parts_of(texts: Collection[str]) -> Tuple[List[str], List[int], List[int]]:
    """The texts that are numbers, their mantissas and their exponents. Most are looked at together."""
    words: List[str] = USUAL.findall("\n".join(texts))
    ends = "\n".join(words).replace(":", "\n").split("\n") if words else []
    mantissas, exponents = list(map(int, ends[::2])), list(map(int, ends[1::2]))
    rest = list(filterfalse(set(words).__contains__, texts))
    if mantissas and (min(mantissas) < -MOST_MANTISSA or max(mantissas) > MOST_MANTISSA):
        rest, words, mantissas, exponents = list(texts), [], [], []
    for text in rest:
        try:
            mantissa, exponent = parts(text)
        except NumberError:
            continue
        words.append(text)
        mantissas.append(mantissa)
        exponents.append(exponent)
    return words, mantissas, exponents


@lru_cache(maxsize=1 << 16)
def grid(text: str) -> int:
    """The grid form of a number's text; NumberError where it is none."""
    mantissa, exponent = parts(text)
    return mantissa if abs(mantissa) == INFINITE else mantissa << exponent + SCALE


def width(low: int, high: int) -> int:
    """How far apart two grid forms are; INFINITE where an end is infinite."""
    return INFINITE if low == -INFINITE or high == INFINITE else high - low


def exact_of_grid(value: int) -> Exact:
    """The exact value of a grid form: a Fraction, or an infinite float."""
    if abs(value) >= INFINITE:
        return math.inf if value > 0 else -math.inf
    return Fraction(value, 1 << SCALE)


def exact(text: str) -> Exact:
    """The exact value of a number's text: a Fraction, or an infinite float."""
    return exact_of_grid(grid(text))


def as_float(value: Exact, up: bool) -> float:
    """The greatest float that is not above an exact value, or, where up is set, the least that is not below it."""
    if isinstance(value, float):
        return value
    try:
        nearest = value.numerator / value.denominator
    except OverflowError:
        nearest = math.inf if value > 0 else -math.inf
    if not up and nearest > value:
        return nextafter(nearest, -math.inf)
    if up and nearest < value:
        return nextafter(nearest, math.inf)
    return nearest


def stepped(value: float, toward: float) -> float:
    """A float beyond value by at least one step, toward an infinity, for Pythons before 3.9, which have no math.nextafter."""
    if math.isinf(value):
        return math.copysign(sys.float_info.max, value)
    return value + math.copysign(max(abs(value) * 2.0 ** -52, 5e-324), toward)


nextafter: Callable[[float, float], float] = getattr(math, "nextafter", stepped)


@lru_cache(maxsize=1 << 16)
def float_of(text: str, up: bool) -> float:
    """A number's text as a float that is rounded to its side."""
    return as_float(exact(text), up)


def spelling(value: int) -> str:
    """The text of a grid form that is a number of a paving."""
    if abs(value) >= INFINITE:
        return "+oo" if value > 0 else "-oo"
    if value == 0:
        return "0:0"
    trailing = (value & -value).bit_length() - 1
    return f"{value >> trailing}:{trailing - SCALE}"


def rounded(value: Any, up: bool) -> str:
    """The text of the number next to an exact value on its side: the greatest not above it, or the least not below."""
    if isinstance(value, float) and math.isinf(value):
        return "+oo" if value > 0 else "-oo"
    value = Fraction(value)
    if value < 0:
        text = rounded(-value, not up)
        return text if text == "0:0" else "-" + text.lstrip("+")
    scaled, rest = divmod(value.numerator << SCALE, value.denominator)
    shift = max(0, scaled.bit_length() - MANTISSA_BITS)
    below = (scaled >> shift) << shift
    if up and (rest or below != scaled):
        below += 1 << shift
    if below > GREATEST:
        return "+oo" if up else spelling(GREATEST)
    return spelling(below)


def decimal(value: Any) -> Optional[str]:
    """The Minibex spelling of an exact value, without an exponent; None where it has no finite decimal expansion."""
    value = Fraction(value)
    twos = fives = 0
    rest = value.denominator
    while rest % 2 == 0:
        rest, twos = rest // 2, twos + 1
    while rest % 5 == 0:
        rest, fives = rest // 5, fives + 1
    if rest != 1:
        return None
    places = max(twos, fives)
    digits = str(abs(value.numerator) * 10 ** places // value.denominator).rjust(places + 1, "0")
    text = digits if places == 0 else f"{digits[:-places]}.{digits[-places:]}"
    return "-" + text if value < 0 else text


def minibex(value: Any) -> Optional[str]:
    """The Minibex spelling of an exact value within the limits of the profile's numbers; None where it has none."""
    text = decimal(value)
    if text is None:
        return None
    digits = text.lstrip("-")
    whole, _, places = digits.partition(".")
    if len((whole + places).lstrip("0") or "0") <= 37 and len(places) <= 36:
        return text
    stripped = whole.rstrip("0")
    power = len(whole) - len(stripped)
    if not places and stripped and power <= 36 and len(stripped) + power <= 37:
        return ("-" if value < 0 else "") + f"{stripped}e{power}"
    return None


def wide(value: Exact) -> str:
    """An exact value in few digits for people: it is not exact."""
    shown = as_float(value, True)
    return "over 1e308" if shown == math.inf != value else f"{shown:.6g}"


def counted(count: int, noun: str, more: Optional[str] = None) -> str:
    """A number of things in words, as `1 variable`; more is the noun of several where it isn't the noun with an s."""
    return f"{count} {noun if count == 1 else more or noun + 's'}"


def printable(text: str) -> str:
    """A text without signs that steer a terminal: in their place stands the sign for what can't be shown."""
    return "".join([c if c.isprintable() or c in "\n\t" else "\ufffd" for c in text])
