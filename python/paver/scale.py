"""Scales for variables whose domains differ by orders: eps and `--bisect largest` compare widths in the variables' units."""
from __future__ import annotations

import math
from collections.abc import Iterator
from fractions import Fraction
from pathlib import Path

from . import program
from .canonical import System
from .cover import Box
from .numbers import minibex, wide
from .texts import ENCODING, SystemText

ORDERS = 2  # powers of ten from the middle one of the widths, from which on a scale is proposed


def order_of(number: Fraction) -> int:
    """The power of ten at or below a number above 0, exactly."""
    found = math.floor(math.log10(number.numerator) - math.log10(number.denominator))
    while Fraction(10) ** found > number:
        found -= 1
    while Fraction(10) ** (found + 1) <= number:
        found += 1
    return found


def scales_of(system: System) -> dict[str, int]:
    """For each variable whose domain is orders wider or narrower than the middle one the power of ten that would be its unit.
    An unbounded domain, or one of a single point, has none."""
    widths = {name: high - low for name, (low, high) in zip(system.names, Box("open", system.root).exact)
              if not isinstance(low, float) and not isinstance(high, float) and high > low}
    orders = {name: order_of(width) for name, width in widths.items()}
    usual = sorted(orders.values())[len(orders) // 2] if orders else 0
    return {name: order - usual for name, order in orders.items() if abs(order - usual) >= ORDERS}


def proposals(system: System) -> Iterator[str]:
    """A sentence for each variable that had better have another unit, or none."""
    found = scales_of(system)
    domains = dict(zip(system.names, Box("open", system.root).exact))
    for name, power in found.items():
        low, high = domains[name]
        first, last = (wide(end / Fraction(10) ** power) for end in (low, high))
        yield (f"{name} is {wide(high - low)} wide, {abs(power)} orders {'more' if power > 0 else 'less'} than most: take "
               f"{name} in [{first}, {last}] and write {name}*{unit(power)} in its place")
    for name, (low, high) in domains.items():
        if isinstance(low, float) or isinstance(high, float):
            yield f"{name} has no bounded domain, and so no scale: give it one"
    if not found:
        yield f"the domains' widths are less than {ORDERS} orders from the middle one: scales would change little"


def unit(power: int) -> str:
    text = minibex(Fraction(10) ** power)
    return text if text is not None and abs(power) <= 3 else f"1e{power}"


def scaled_text(system: str | Path, *, program_path: str | None = None) -> str:
    """The system's text in the proposed units, under the same names. ValueError where a bound can't be written then."""
    known, source = program.check(system, program=program_path), SystemText.read(system)
    powers = scales_of(known)
    instead = {name: f"({name}*{unit(power)})" for name, power in powers.items()}
    domains = dict(source.variables)
    for name, power in powers.items():
        low, high = (minibex(end / Fraction(10) ** power) for end in source.bounds(name))
        if low is None or high is None:
            raise ValueError(f"the bounds of {name} can't be written in its unit: they have too many digits")
        domains[name] = (low, high)
    return source.written([c.written(instead) for c in source.constraints], domains)


def report(system: str | Path, path: str, program_path: str | None = None) -> None:
    """Prints the proposals; where a path is given, writes the text in the proposed units there."""
    print("\n".join(proposals(program.check(system, program=program_path))))
    if path:
        Path(path).write_bytes(scaled_text(system, program_path=program_path).encode(ENCODING))
