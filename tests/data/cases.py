"""The cases of the end-to-end tests: words and files, and what has to come of them."""
from dataclasses import dataclass, field
from typing import Dict, List

USAGE = b"usage: paver COMMAND SYSTEM [OPTIONS] [PAVING..]\n"


@dataclass
class Case:
    name: str
    words: List[str]
    status: int
    files: Dict[str, bytes] = field(default_factory=dict)
    stdout: bytes = b""
    begins: bool = False  # standard output only begins with stdout
    stderr: bytes = b""
    folders: List[str] = field(default_factory=list)
    full_disk: bool = False

    def accepts(self, printed: bytes) -> bool:
        return printed.startswith(self.stdout) if self.begins else printed == self.stdout


def system(domains: str, constraints: str) -> bytes:
    return f"Variables {domains}; Constraints {constraints}; end\n".encode()


def lines(*texts: str) -> bytes:
    return "".join(f"{text}\n" for text in texts).encode()


HALF_LINE = system("x in [0,4]", "x <= 1")
STRICT = system("x in [0,1]", "x < 1")
RECIPROCAL = system("x in [0,1]", "1/x >= 0")
NO_MORE = system("x in [0,1]", "x - x <= 0")
FUNCTION = b"Variables x in [0,4]; function f(a) return a^2; end Constraints f(x) <= 4; end\n"

CASES = [
    Case("a half line is one inner box", ["run", "s"], 0, {"s": HALF_LINE},
         lines("settled 1 cut 0 removed 0 inner 1 small 0 open 0", "I 0:0 1:0")),
    Case("a strict bound leaves a small box", ["run", "s"], 0, {"s": STRICT},
         lines("settled 7 cut 3 removed 0 inner 3 small 1 open 0", "C 0 1:-1 0:0 1:0", "I 0:0 1:-1",
               "C 0 3:-2 1:-1 1:0", "I 1:-1 3:-2", "C 0 7:-3 3:-2 1:0", "I 3:-2 7:-3", "S 7:-3 1:0")),
    Case("no number in the box is a root of 2", ["run", "s"], 0, {"s": system("x in [0,1]", "x*x = 2")},
         lines("settled 1 cut 0 removed 1 inner 0 small 0 open 0", "X")),
    Case("a quotient is undefined at 0", ["run", "s", "--eps", "0.25"], 0, {"s": RECIPROCAL},
         lines("settled 5 cut 2 removed 0 inner 2 small 1 open 0", "C 0 1:-1 0:0 1:0", "C 0 1:-2 0:0 1:-1",
               "S 0:0 1:-2", "I 1:-2 1:-1", "I 1:-1 1:0")),
    Case("a small depth ends a run", ["run", "s", "--eps=0.25", "--depth", "1"], 0, {"s": RECIPROCAL},
         lines("settled 3 cut 1 removed 0 inner 1 small 1 open 0", "C 0 1:-1 0:0 1:0", "S 0:0 1:-1", "I 1:-1 1:0")),
    Case("the bisector goes round", ["run", "--bisect", "round", "s", "--depth", "1"], 0,
         {"s": system("x in [0,4], y in [0,4]", "x + y <= 4")},
         lines("settled 3 cut 1 removed 0 inner 0 small 2 open 0", "C 0 1:1 0:0 1:2 0:0 1:2", "S 0:0 1:1 0:0 1:2",
               "S 1:1 1:2 0:0 1:1")),
    Case("two of three constraints", ["run", "s", "--eps", "3", "--contract", "qinter(2,hc4(0),hc4(1),hc4(2))"], 0,
         {"s": system("x in [0,4]", "x <= 2; x >= 1; x >= 3")},
         lines("settled 1 cut 0 removed 0 inner 0 small 1 open 0", "S 1:0 1:2")),
    Case("a budget of one", ["run", "s", "--eps", "0.25", "--boxes", "1"], 1, {"s": RECIPROCAL},
         lines("settled 1 cut 1 removed 0 inner 0 small 0 open 2", "C 0 1:-1 0:0 1:0", "O", "O")),
    Case("a budget one short", ["run", "s", "--eps", "0.25", "--boxes", "4"], 1, {"s": RECIPROCAL},
         b"settled 4 ", begins=True),
    Case("a budget that is just enough", ["run", "s", "--eps", "0.25", "--boxes", "5"], 0, {"s": RECIPROCAL},
         b"settled 5 cut 2 removed 0 inner 2 small 1 open 0\n", begins=True),
    Case("a difference that is 0, by one worker", ["run-centered", "s", "--workers", "1"], 0, {"s": NO_MORE},
         lines("settled 1 cut 0 removed 0 inner 1 small 0 open 0", "I 0:0 1:0")),
    Case("a difference that is 0, by eight workers", ["run-centered", "s", "--workers", "8"], 0, {"s": NO_MORE},
         lines("settled 1 cut 0 removed 0 inner 1 small 0 open 0", "I 0:0 1:0")),
    Case("a difference that is not 1/4, by one worker",
         ["run-centered", "s", "--contract", "hc4(0)", "--workers", "1"], 0, {"s": system("x in [0,1]", "x - x = 0.25")},
         lines("settled 1 cut 0 removed 1 inner 0 small 0 open 0", "X")),
    Case("a difference that is not 1/4, by eight workers",
         ["run-centered", "s", "--contract", "hc4(0)", "--workers", "8"], 0, {"s": system("x in [0,1]", "x - x = 0.25")},
         lines("settled 1 cut 0 removed 1 inner 0 small 0 open 0", "X")),
    Case("a difference that is not 1/4, by the sides' intervals", ["run", "s", "--contract", "hc4(0)"], 0,
         {"s": system("x in [0,1]", "x - x = 0.25")},
         lines("settled 3 cut 1 removed 2 inner 0 small 0 open 0", "C 0 1:-1 1:-2 3:-2", "X", "X")),
    Case("an audit by centered forms without a file", ["audit-centered", "s", "p"], 11, {"s": NO_MORE},
         stderr=b"no file: p\n"),
    Case("17 workers", ["run", "s", "--workers", "17"], 2, {"s": HALF_LINE}, stderr=USAGE),
    Case("an eps that is no number", ["run", "s", "--eps", "x"], 2, {"s": HALF_LINE}, stderr=USAGE),
    Case("a contractor of a constraint that is not there", ["run", "s", "--contract", "hc4(1)"], 2, {"s": HALF_LINE},
         stderr=b"contract: refused at byte 4\n"),
    Case("an empty contractor text", ["run", "s", "--contract="], 2, {"s": HALF_LINE},
         stderr=b"contract: refused at byte 0\n"),
    Case("an option twice", ["run", "s", "--eps", "1", "--eps", "1"], 2, {"s": HALF_LINE}, stderr=USAGE),
    Case("an option of another command", ["check", "s", "--eps", "1"], 2, {"s": HALF_LINE}, stderr=USAGE),
    Case("a word too many", ["check", "s", "t"], 2, {"s": HALF_LINE}, stderr=USAGE),
    Case("a depth of 0", ["run", "s", "--depth", "0"], 2, {"s": HALF_LINE}, stderr=USAGE),
    Case("an unused command of clap", ["help"], 2, {}, stderr=USAGE),
    Case("no flag for help", ["run", "--help"], 2, {}, stderr=USAGE),
    Case("a contractor is read after the system", ["run", "s", "--contract", "x"], 3, {"s": b"Variables"},
         stderr=b"system: line 1 column 10 byte 9: EndOfText\n"),
    Case("an operand is missing", ["check", "s"], 3, {"s": system("x in [0,4]", "x + <= 1")},
         stderr=b"system: line 1 column 39 byte 38: Unexpected\n"),
    Case("a root is not in the profile", ["run", "s"], 3, {"s": system("x in [0,4]", "sqrt(x) <= 1")},
         stderr=b"system: line 1 column 35 byte 34: NotInProfile\n"),
    Case("a domain the wrong way round", ["run", "s"], 3, {"s": system("x in [5,3]", "x <= 1")},
         stderr=b"system: line 1 column 16 byte 15: BadBounds\n"),
    Case("the canonical text", ["check", "s"], 0, {"s": RECIPROCAL},
         lines("vars 1", "x 0:0 1:0", "ctrs 1", ">= (/ 1/1 v0) 0/1")),
    Case("the canonical text of an expanded function", ["check", "s"], 0, {"s": FUNCTION},
         lines("vars 1", "x 0:0 1:2", "ctrs 1", "<= (^ v0 2) 4/1")),
    Case("a system with a function", ["run", "s"], 0, {"s": FUNCTION},
         lines("settled 1 cut 0 removed 0 inner 1 small 0 open 0", "I 0:0 1:1")),
    Case("the budget ends a run", ["run", "s"], 1,
         {"s": system("x in [0,9999999], y in [0,9999999]", "x < y")}, b"settled 20000 ", begins=True),
    Case("no such file", ["run", "t"], 11, {"s": HALF_LINE}, stderr=b"no file: t\n"),
    Case("a folder in place of the system", ["run", "d"], 5, {"s": HALF_LINE}, stderr=b"read fault: d\n",
         folders=["d"]),
    Case("a file whose bytes the machine refuses to read", ["run", "/proc/self/mem"], 5,
         stderr=b"read fault: /proc/self/mem\n"),
    Case("a folder in place of the file to store", ["run", "s", "--out", "p"], 6, {"s": HALF_LINE, "q": b"other\n"},
         stderr=b"write fault: p\n", folders=["p"]),
    Case("standard output on a full disk", ["run", "s"], 6, {"s": HALF_LINE},
         stderr=b"write fault: standard output\n", full_disk=True),
    Case("an empty file", ["run", "s"], 3, {"s": b""}, stderr=b"system: line 1 column 1 byte 0: EndOfText\n"),
    Case("a text of 65,537 blanks", ["run", "s"], 3, {"s": b" " * 65537},
         stderr=b"system: line 1 column 65537 byte 65536: TextTooLong\n"),
    Case("bytes that are no text", ["run", "s"], 3, {"s": b"\xff\xfe\x00"},
         stderr=b"system: line 1 column 1 byte 0: BadByte\n"),
    Case("no system is named", ["run"], 2, {}, stderr=USAGE),
    Case("no command", [], 2, {}, stderr=USAGE),
    Case("an unknown command", ["draw", "s"], 2, {"s": HALF_LINE}, stderr=USAGE),
    Case("the least value of an expression", ["least", "s", "--of", "2*x+1"], 0, {"s": HALF_LINE},
         lines("lower 1:0", "upper 1:0", "point 0:0")),
    Case("no member has a value", ["least", "s", "--of", "x"], 0, {"s": system("x in [0,1]", "x < 0")},
         lines("lower +oo", "upper none")),
    Case("an equation without a root has no value", ["least", "s", "--of", "x"], 0, {"s": system("x in [0,1]", "x*x = 2")},
         lines("lower +oo", "upper none")),
    Case("a search of one box", ["least", "s", "--eps", "0.25", "--of", "x", "--boxes", "1"], 1, {"s": RECIPROCAL},
         lines("lower 0:0", "upper none")),
    Case("a search one box short", ["least", "s", "--eps", "0.25", "--of", "x", "--boxes", "3"], 1, {"s": RECIPROCAL},
         lines("lower 0:0", "upper none")),
    Case("a search of boxes that are just enough", ["least", "--of=x", "--boxes=4", "s", "--eps", "0.25"], 0,
         {"s": RECIPROCAL}, lines("lower 0:0", "upper 1:-2", "point 1:-2")),
    Case("an expression without its end", ["least", "s", "--of", "2*"], 2, {"s": HALF_LINE},
         stderr=b"objective: byte 2: EndOfText\n"),
    Case("an expression is read after the contractor", ["least", "s", "--of", "2*", "--contract", "hc4(1)"], 2,
         {"s": HALF_LINE}, stderr=b"contract: refused at byte 4\n"),
    Case("an expression is read after the system", ["least", "s", "--of", "2*"], 3, {"s": b"Variables"},
         stderr=b"system: line 1 column 10 byte 9: EndOfText\n"),
    Case("no expression", ["least", "s"], 2, {"s": HALF_LINE}, stderr=USAGE),
    Case("a search by workers", ["least", "s", "--of", "x", "--workers", "2"], 2, {"s": HALF_LINE}, stderr=USAGE),
    Case("a least value on a full disk", ["least", "s", "--of", "x"], 6, {"s": HALF_LINE},
         stderr=b"write fault: standard output\n", full_disk=True),
]
