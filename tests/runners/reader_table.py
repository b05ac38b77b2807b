"""Runs `paver check` on the table of texts by hand, and on texts by hand at the limits of the profile.

    python3 -m tests.runners.reader_table

The sign ¶ stands right before the fault of a text.
"""
from __future__ import annotations

from tests.data.reader_cases import C, FAULTS, GOOD, canonical, place
from tests.runners.running import FolderTest, main

ONE = "x<=1"
FUNCTIONS = [f"function f{k}(a) return a; end " for k in range(64)]
DOUBLING = "function f1(a) return a+a; end " + "".join(
    f"function f{k}(a) return f{k - 1}(a)+f{k - 1}(a); end " for k in range(2, 17))
SIGNS = "function s(a) return " + "-" * 1000 + "a; end "
VARIABLES = "Variables " + ",".join(f"x{k}" for k in range(12))
BLANKS = " " * 65536

LIMITS = [
    ("TooManyFunctions", "".join(FUNCTIONS) + "¶function g(a) return a; end Variables x; Constraints x<=1; end"),
    ("TooManyFunctions", "".join(FUNCTIONS) + "¶Function g(a) Return a End Variables x; Constraints x<=1; end"),
    ("TooManyFunctions", "Variables x; " + "".join(FUNCTIONS) + "¶function g"),
    ("TooManyFunctions", "".join(FUNCTIONS[:40]) + "Variables x; " + "".join(FUNCTIONS[40:]) + "¶function"),
    ("TooManyVariables", VARIABLES + ",¶x12; Constraints x0<=1; end"),
    ("TooManyVariables", VARIABLES + ";¶x0; Constraints x0<=1; end"),
    ("TooManyVariables", VARIABLES + " in [0,1], ¶last"),
    ("TooManyVariables", VARIABLES + ";\n¶_"),
    ("Unexpected", VARIABLES + " ¶x12; Constraints x0<=1; end"),
    ("TooManyConstraints", C + ";".join([ONE] * 64) + ";¶x<=1; end"),
    ("TooManyConstraints", C + ";".join([ONE] * 64) + ";¶(x)<=1; end"),
    ("TooManyConstraints", C + ";".join([ONE] * 64) + ";¶-1<=x; end"),
    ("TooManyConstraints", C + ";".join([ONE] * 64) + ";¶nobody"),
    ("Unexpected", C + ";".join([ONE] * 64) + ";¶)"),
    ("TooDeep", C + "(" * 100 + "¶(x"),
    ("TooDeep", C + "abs(" * 100 + "¶(x"),
    ("TooDeep", C + "x" + "+1" * 1000 + "¶+1<=1; end"),
    ("TooDeep", C + "-" * 1000 + "¶-x<=1; end"),
    ("TooDeep", C + "x" + "*2" * 1000 + "+¶1<=1; end".replace("+¶", "¶+")),
    ("TooDeep", "function f(a) return a" + "-a" * 1000 + "¶-a; end"),
    ("TooDeep", C + "(" * 100 + "-" * 1000 + "¶abs(x)"),
    ("Unexpected", C + "(" * 100 + "-" * 999 + "¶abs(x)"),
    ("TooLarge", DOUBLING + "Variables x; Constraints ¶f16(x)<=1; end"),
    ("TooLarge", DOUBLING + "Variables x; Constraints f14(x)<=1; ¶f15(x)<=x; end"),
    ("TooLarge", DOUBLING + "Variables x; Constraints ¶f15(x)<=-1; end"),
    ("TooLarge", DOUBLING + "Variables x; Constraints f8(x)<=1;\n ¶1>=f8(f8(x)); end"),
    ("TooLarge", SIGNS + "Variables x; Constraints ¶s(s(x))<=1; end"),
    ("TextTooLong", BLANKS + "¶ "),
    ("TextTooLong", BLANKS + "¶#"),
    ("TextTooLong", C + "x<=1; end" + " " * (65536 - len(C) - 9) + "¶\n"),
    ("TextTooLong", "#" + "\n" * 65535 + "¶" + "x" * 100),
]
GOOD_LIMITS = [
    "".join(FUNCTIONS) + "Variables x; Constraints f63(x)<=1; end",
    VARIABLES + "; Constraints x11<=1; end",
    C + ";".join([ONE] * 64) + "; end",
    C + "(" * 100 + "x" + ")" * 100 + "<=1; end",
    C + "x" + "+1" * 1000 + "<=1; end",
    C + "-" * 1000 + "x<=1; end",
    DOUBLING + "Variables x; Constraints f15(x)<=1; end",
    C + "x<=1; end" + " " * (65536 - len(C) - 9),
]


def line_of(cause: str, text: bytes, byte: int) -> bytes:
    line, column = place(text, byte)
    return f"system: line {line} column {column} byte {byte}: {cause}\n".encode()


class ReaderTable(FolderTest):
    """`check` of texts by hand."""

    def check(self, text: bytes) -> tuple[int, bytes, bytes]:
        self.put("s", text)
        return self.answered("check", "s")

    def test_faults(self) -> None:
        for cause, marked in FAULTS + LIMITS:
            byte, text = len(marked[:marked.index("¶")].encode()), marked.replace("¶", "").encode()
            with self.subTest(marked[:200]):
                self.assertEqual(self.check(text), (3, b"", line_of(cause, text, byte)))

    def test_good_texts(self) -> None:
        for text in GOOD:
            with self.subTest(text[:200]):
                self.assertEqual(self.check(text.encode()), (0, canonical(text), b""))

    def test_good_texts_at_limits(self) -> None:
        for text in GOOD_LIMITS:
            with self.subTest(text[:200]):
                status, _, line = self.check(text.encode())
                self.assertEqual((status, line), (0, b""))


if __name__ == "__main__":
    main()
