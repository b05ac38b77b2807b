#!/usr/bin/env python3
"""Writes the tables of crates/test_reader/src/tokens/lexical.rt: tokens, values of numbers, lines and columns.

The tokens come from regular expressions, the values from fractions, and none from the program.
Run it at the top of the repository: python3 -m tests.generators.token_vectors > crates/test_reader/src/tokens/lexical.rt
"""
from __future__ import annotations

import re
from fractions import Fraction

GAP = re.compile(rb"(?:[ \t\r\n]|//[^\n]*|/\*(?:(?!\*/)[\s\S])*(?:\*/|\Z))*")
NUMBER = re.compile(rb"([0-9]+)(?:\.([0-9]*))?(?:[eE]([+-]?[0-9]+))?")
NAME = re.compile(rb"[A-Za-z_][A-Za-z0-9_]*")
MARKS = [
    (b"<=", "LessEqual"), (b">=", "GreaterEqual"), (b"<", "Less"), (b">", "Greater"), (b"=", "Equal"),
    (b"+", "Plus"), (b"-", "Minus"), (b"*", "Star"), (b"/", "Slash"), (b"^", "Caret"), (b"(", "Open"),
    (b")", "Close"), (b"[", "OpenBracket"), (b"]", "CloseBracket"), (b",", "Comma"), (b";", "Semicolon"),
]


def next_token(text: bytes, start: int) -> tuple[str, int, int]:
    start = GAP.match(text, start).end()
    if start == len(text):
        return "End", start, start
    for kind, pattern in (("Name", NAME), ("Number", NUMBER)):
        found = pattern.match(text, start)
        if found:
            return kind, start, found.end()
    for mark, kind in MARKS:
        if text.startswith(mark, start):
            return kind, start, start + len(mark)
    return "Bad", start, start + 1


def value(text: bytes) -> Fraction | None:
    found = NUMBER.fullmatch(text)
    if not found:
        return None
    whole, part, exponent = found.group(1), found.group(2) or b"", int(found.group(3) or b"0")
    digits = int(whole + part)
    scale = exponent - len(part)
    if not -36 <= scale <= 36 or len(str(digits)) + max(scale, 0) > 37:
        return None
    return Fraction(digits) * Fraction(10) ** scale


NUMBERS = [
    b"0", b"007", b"0.50", b"1.", b"1.e2", b"12.5E+3", b"12.5e-2", b"1e36", b"1e37", b"12e36", b"12e35",
    b"1e-36", b"1e-37", b"1" + b"0" * 36, b"1" + b"0" * 37, b"9" * 37, b"9" * 38, b"0" * 50 + b"7",
    b"0e36", b"0e37", b"0.0e-35", b"0.0e-36", b"0." + b"0" * 40 + b"1e41", b"0." + b"0" * 40 + b"1e4",
    b"1e99999999999999999999999999999999999999", b"1e-99999999999999999999999999999999999999",
    b"1e00000000000000000000000000000000000000002", b"1024e-10", b"3e-1", b"", b".5", b"1e", b"1e+", b"1.5e",
    b"+1", b"1 ", b"1e5.", b"x",
]

TEXTS = [
    b"x1_ <=2.5e+3/4//c\n>= y", b"/*/ a */b/* c", b"1e+x 1ex 1.2.3 .5", b"//", b"a//\rb\nc", b"<= = < >=>",
    b"2e3e4 $_9z \x80", b"/**/*/**", b"+-*^()[],;\t#",
]


def literal(text: bytes) -> str:
    out = "".join(chr(b) if 32 <= b < 127 and b not in b'"\\' else "\\x%02x" % b for b in text)
    return 'b"%s"' % out


def main() -> None:
    print("// Written by tests/generators/token_vectors.py.\n")
    print("use pv_tokens::Kind;\n")
    print("/// Texts and the value of the number that each is, where it is one that is not too wide.")
    print("pub(crate) const NUMBERS: &[(&[u8], Option<(i128, u128)>)] = &[")
    for text in NUMBERS:
        v = value(text)
        answer = "None" if v is None else "Some((%d, %d))" % (v.numerator, v.denominator)
        print("    (%s, %s)," % (literal(text), answer))
    print("];\n")
    rows, places = [], []
    for text in TEXTS:
        at = 0
        while True:
            kind, start, end = next_token(text, at)
            rows.append((text, at, kind, start, end))
            before = text[:start]
            places.append((text, start, before.count(b"\n") + 1, start - (before.rfind(b"\n") + 1) + 1))
            at = end
            if kind == "End":
                break
    print("/// Texts, places, and the kind, the start and the end of the next token there.")
    print("pub(crate) const TOKENS: &[(&[u8], usize, Kind, usize, usize)] = &[")
    for text, at, kind, start, end in rows:
        print("    (%s, %d, Kind::%s, %d, %d)," % (literal(text), at, kind, start, end))
    print("];\n")
    places = [p for p in places if p[2] > 1 or p[1] < 2]
    print("/// Texts, places, and the line and the column there.")
    print("pub(crate) const PLACES: &[(&[u8], usize, u32, u32)] = &[")
    for text, byte, line, column in places:
        print("    (%s, %d, %d, %d)," % (literal(text), byte, line, column))
    print("];")


if __name__ == "__main__":
    main()
