"""Compares `paver check` with the reference's first fault and canonical text on made texts: good, broken, in odd
encodings, of random bytes, and with sizes round the limits.

    [COUNT=800 SEED=1] python3 -m tests.runners.fuzz_reader

A text that differs is printed with both answers.
"""
from __future__ import annotations

import random
import sys
import threading
from collections.abc import Callable, Iterator, Sequence
from typing import TypeVar

from tests.data.reader_cases import canonical
from tests.reference.faults import line_of
from tests.runners.running import Answered, FolderTest, made_cases, main

NAMES = ["x", "y", "z", "k", "f", "g", "a", "b", "_t", "x1", "in", "oo", "min", "sqr", "sin", "pi", "End", "end",
         "Variables", "return", "abs", "undeclared"]
PIECES = ["+", "-", "*", "/", "^", "(", ")", "[", "]", ",", ";", "=", "<=", ">=", "<", ">", "1", "2.5", "1e3", "1e36",
          "1e37", "0", "33", "007", "1.", "2.e1", "1e", "//c\n", "/*c*/", "/*/", " ", "\n", "#", "$", "\u00e9", ".5",
          "for", "sum", "^2", "^32", "^33", "^x"]


Item = TypeVar("Item")


class Maker:
    def __init__(self, source: random.Random) -> None:
        self.source = source
        self.functions: list[tuple[str, int]] = []  # with how many parameters each has

    def pick(self, items: Sequence[Item]) -> Item:
        return self.source.choice(items)

    def expression(self, depth: int, names: Sequence[str]) -> str:
        kind = self.source.randrange(9 if depth > 0 else 2)
        if kind == 0 or (kind == 1 and not names):
            return self.pick(["1", "2", "0.5", "3.25e-2", "1e2", "12."])
        if kind == 1:
            return self.pick(names)
        inner = self.expression(depth - 1, names)
        if kind == 2:
            return f"({inner})"
        if kind == 3:
            return f"{self.pick('+-')}{inner}"
        if kind == 4:
            return f"{self.pick(['abs', 'sqr'])}({inner})"
        if kind == 5:
            return f"{self.pick(['min', 'max'])}({inner}, {self.expression(depth - 1, names)})"
        if kind == 6:
            return f"({inner})^{self.source.randrange(34)}"
        if kind == 7 and self.functions:
            name, count = self.pick(self.functions)
            return f"{name}({','.join(self.expression(depth - 2, names) for _ in range(count))})"
        return f"{inner} {self.pick('+-*/')} {self.expression(depth - 1, names)}"

    def function(self, name: str) -> str:
        parameters = [f"p{i}" for i in range(self.pick([1, 1, 2, 3, 12]))]
        body = self.expression(3, parameters + ["k"])
        self.functions.append((name, len(parameters)))
        return f"function {name}({', '.join(parameters)})\n return {body}{self.pick(['', ';'])} end{self.pick(['', ';'])}\n"

    def text(self) -> str:
        self.functions = []
        parts = [f"Constants k = {self.pick(['1', '-2.5', '+3'])};\n"] + [
            self.function(f"f{i}") for i in range(self.source.randrange(3))]
        names = [f"x{i}" for i in range(self.pick([1, 2, 3, 12]))]
        parts.append("Variables " + self.pick([", ", ";"]).join(
            f"{name}{self.pick(['', ' in [0, 4]', ' in [-oo, k]', ' in [-1.5, +oo]', ' in [3, 2]'])}" for name in names))
        parts.append(self.pick(["", ";"]) + "\n")
        parts += [self.function(f"g{i}") for i in range(self.source.randrange(2))]
        constraints = [f"{self.expression(3, names + ['k'])} {self.pick(['=', '<=', '>=', '<', '>'])} "
                       f"{self.expression(2, names)}" for _ in range(self.pick([1, 2, 5, 64]))]
        parts.append("Constraints " + ";\n".join(constraints) + self.pick(["", ";"]) + " end\n")
        return "".join(parts)

    def broken(self, text: str) -> str:
        for _ in range(self.pick([1, 1, 2, 3])):
            at = self.source.randrange(len(text) + 1)
            to = min(len(text), at + self.pick([0, 0, 1, 1, 2, 5, 20]))
            text = text[:at] + self.pick([self.pick(PIECES), self.pick(NAMES), "", f" {self.pick(NAMES)} "]) + text[to:]
        return text[:self.source.randrange(len(text) + 1)] if self.source.random() < 0.1 else text

    def odd(self, text: str) -> bytes:
        """Bytes that no editor meant: other encodings of the text, bytes of its own exchanged, or no text at all."""
        kind, data = self.source.randrange(7), text.encode()
        if kind == 0:
            return text.encode(self.pick(["utf-16", "utf-16-le", "utf-16-be", "utf-8-sig", "utf-32"]))
        if kind == 1:
            return data.replace(b"\n", self.pick([b"\r\n", b"\r", b"\x0b", b"\x0c", b"\xc2\x85"]))
        if kind == 2:
            return self.source.randbytes(self.pick([1, 3, 40, 400]))
        at = self.source.randrange(len(data))
        if kind == 3:
            return data[:at] + self.pick([b"\0", b"\xff", b"\xc3", b"\xe2\x82\xac", b"\xef\xbb\xbf", b"\x1b[31m"]) + data[at:]
        if kind == 4:
            return data[:at] + bytes([self.source.randrange(256)]) + data[at + 1:]
        if kind == 5:
            return data[:at] + bytes([data[at] ^ (1 << self.source.randrange(8))]) + data[at + 1:]
        to = self.source.randrange(len(data))
        return data[:min(at, to)] + data[max(at, to):] + data[min(at, to):max(at, to)]

    def data(self) -> bytes:
        text, kind = self.text(), self.source.random()
        if kind < 0.15:
            return text.encode()
        return self.odd(text) if kind < 0.35 else self.broken(text).encode()


def padded() -> Iterator[str]:
    """Good texts and one that is refused at its end, of sizes round the limit."""
    good, bad = system("x", "x<=1"), "Variables x; Constraints x<=1; end x"
    for size in (65535, 65536, 65537):
        for text in (good, bad):
            room = size - len(text)
            yield " " * room + text
            yield text + "\n" * room
            yield "/*" + "*" * (room - 4) + "*/" + text
            yield text + "//" + "x" * (room - 2)
    yield "Variables " + "x" * 65000 + "; Constraints " + "x" * 500 + "<=1; end"


def system(domains: str, constraints: str) -> str:
    return f"Variables {domains}; Constraints {constraints}; end\n"


def limits() -> Iterator[str]:
    """Texts at the limits of the profile."""
    yield from padded()
    for levels in (99, 100, 101):
        yield system("x", "(" * levels + "x" + ")" * levels + "<=1")
        yield system("x", "(" * levels + "abs(x)" + ")" * levels + "<=1")
        yield system("x", "(" * levels + "nobody" + ")" * levels + "<=1")
    for count in (999, 1000, 1001):
        yield system("x", "x" + "+1" * count + "<=1")
        yield system("x", "-" * count + "x<=1")
        yield system("x", "x" + "*2" * (count - 1) + "*min(x,1)<=1")
        yield "Variables x; function f(a) return a" + "-a" * count + "; end Constraints f(x) <= 1; end"
    yield system("x", "(" * 100 + "x" + "+1" * 1000 + "*sqr(x)")
    yield system("x", "(" * 100 + "x" + "+1" * 1000 + "+")
    yield system("x", "(" * 100 + "-" * 1000 + "sqr(x)")
    for count in (63, 64, 65):
        for next_token in ("x<=1", "nobody", ")", "-", "end"):
            yield system("x", ";".join(["x<=1"] * count) + f";{next_token}")
        yield "".join(f"function f{i}(a) return a end\n" for i in range(count)) + "Variables x; Constraints x<=1 end"
    for count in (11, 12, 13):
        yield system(",".join(f"x{i}" for i in range(count)), "x0<=1")
        yield system(",".join(f"x{i}" for i in range(count)) + ",x0", "x0<=1")
        yield f"function f({','.join(f'p{i}' for i in range(count))}) return p0 end Variables x; Constraints x<=1 end"
    for k in range(10, 17):
        text = "Variables x;\nfunction f1(a) return a+a; end\n" + "".join(
            f"function f{i}(a) return f{i - 1}(a)+f{i - 1}(a); end\n" for i in range(2, k))
        for right in ("1", "-1", "--1"):
            yield text + f"Constraints f{k - 1}(x) <= {right}; x<=1; end\n"
    chain = "Variables x;\nfunction f0(a) return " + "-" * 990 + "a; end\n"
    for count in (1, 2, 3):
        yield chain + f"Constraints {'f0(' * count}x{')' * count} <= 1; end\n"
        yield chain + f"Constraints {'f0(' * count}-----------------x{')' * count} <= 1; end\n"
    yield " " * 65536
    yield " " * 65537
    yield "/*" * 40000
    yield system("x", "x<=" + "9" * 37)
    yield system("x", "x<=" + "9" * 38)
    yield system("x", "x<=0." + "0" * 35 + "1")
    yield system("x", "x<=0." + "0" * 36 + "1")
    yield system("x", "x<=" + "0" * 50000 + "1")


def texts(count: int, seed: int) -> Iterator[bytes]:
    maker = Maker(random.Random(seed))
    yield from (text.encode() for text in limits())
    for _ in range(count):
        yield maker.data()


def wanted_of(data: bytes) -> Answered:
    """Status, standard output and standard error."""
    line = line_of(data)
    if line:
        return 3, b"", line.encode() + b"\n"
    return 0, canonical(data.decode("latin-1")), b""


def with_a_deep_stack(work: Callable[[], None]) -> None:
    """Does work, which may go deep, on a thread with room for it."""
    sys.setrecursionlimit(1_000_000)
    size = threading.stack_size(512 << 20)
    thread = threading.Thread(target=work)
    thread.start()
    thread.join()
    threading.stack_size(size)


class FuzzReader(FolderTest):
    """`check` of made texts beside the reference's reader."""

    def test_texts(self) -> None:
        wanted: list[tuple[bytes, tuple[int, bytes, bytes]]] = []
        with_a_deep_stack(lambda: wanted.extend((data, wanted_of(data)) for data in texts(*made_cases(800))))
        self.assertTrue(wanted)
        for data, answer in wanted:
            self.put("s", data)
            with self.subTest(text=data):
                self.assertEqual(self.answered("check", "s"), answer)


if __name__ == "__main__":
    main()
