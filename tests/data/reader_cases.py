#!/usr/bin/env python3
"""The table of texts for the reader's tests, by hand from the grammar; the sign ¶ stands right before the fault.

    python3 -m tests.data.reader_cases

writes crates/test_reader/src/parse/systems.rt, after a comparison with the reference reader; tests/runners/reader_table.py runs
the whole table on the real program.
"""
import sys
from pathlib import Path

from tests.reference import minibex, numbers
from tests.reference.faults import first_fault
from tests.reference.kinds import Expression
from tests.reference.paver import bound

V = "Variables x in [0,4], y; "
C = "Variables x; Constraints "
F = "Variables x in [0,4]; function "

FAULTS = [
    ("Unexpected", "Variables x in [0,4]; Constraints x + ¶<= 1; end\n"),
    ("NotInProfile", "Variables x in [0,4]; Constraints ¶sqrt(x) <= 1; end\n"),
    ("BadBounds", "Variables x in ¶[5,3]; Constraints x <= 1; end\n"),
    ("UnknownName", "Variables x in [0,4]; function f(a) return ¶f(a); end Constraints x <= 1; end"),
    ("UnknownName", "Variables x, y; function f(x) return x + ¶y; end Constraints f(x) < 1; end"),
    # the end of the text
    ("EndOfText", "¶"), ("EndOfText", " \n¶"), ("EndOfText", "// no more¶"), ("EndOfText", "/* open¶"),
    ("EndOfText", "/*/¶"), ("EndOfText", "Constants¶"), ("EndOfText", "Constants a¶"), ("EndOfText", "Constants a =¶"),
    ("EndOfText", "Constants a = -¶"), ("EndOfText", "Constants a = 1¶"), ("EndOfText", "Constants a = 1;¶"),
    ("EndOfText", "Variables¶"), ("EndOfText", "Variables x¶"), ("EndOfText", "Variables x,¶"),
    ("EndOfText", "Variables x in¶"), ("EndOfText", "Variables x in [¶"), ("EndOfText", "Variables x in [-¶"),
    ("EndOfText", "Variables x in [0¶"), ("EndOfText", "Variables x in [0,¶"), ("EndOfText", "Variables x in [0,oo¶"),
    ("EndOfText", "Variables x in [0,oo]¶"), ("EndOfText", C + "¶"), ("EndOfText", C + "x¶"), ("EndOfText", C + "x <¶"),
    ("EndOfText", C + "x < 1¶"), ("EndOfText", C + "x < 1;¶"), ("EndOfText", C + "x ^¶"), ("EndOfText", C + "abs¶"),
    ("EndOfText", C + "min(x,¶"), ("EndOfText", F + "¶"), ("EndOfText", F + "f¶"), ("EndOfText", F + "f(a¶"),
    ("EndOfText", F + "f(a)¶"), ("EndOfText", F + "f(a) return¶"), ("EndOfText", F + "f(a) return a¶"),
    ("EndOfText", F + "f(a) return a;¶"), ("EndOfText", F + "f(a) return a end;¶"),
    # bytes, wide numbers, words outside the profile
    ("BadByte", "¶#"), ("BadByte", C + "x ¶& y < 1; end"), ("BadByte", C + "x < 1; end ¶."), ("BadByte", C + "x^¶!2 < 1; end"),
    ("BadByte", "Variables x in [0,¶.5]; Constraints x < 1; end"), ("BadByte", "Variables x¶é; end"),
    ("NumberTooWide", C + "x < ¶1e37; end"), ("NumberTooWide", C + "x^¶1e99 < 1; end"),
    ("NumberTooWide", "Variables x in [¶1e-37, 1]; Constraints x < 1; end"),
    ("NumberTooWide", C + "x < ¶12345678901234567890123456789012345678; end"), ("NumberTooWide", C + "x < 1; end ¶0e40"),
    ("NumberTooWide", C + "x < ¶10e36; end"), ("NumberTooWide", "Constants a = ¶1.0e-36; Variables x"),
    ("NotInProfile", C + "¶sqrt(x) < 1; end"), ("NotInProfile", "¶for"), ("NotInProfile", "Variables ¶pi; Constraints pi < 1; end"),
    ("NotInProfile", C + "x^¶sin < 1; end"), ("NotInProfile", C + "x < 1; ¶Minimize x; end"),
    ("NotInProfile", C + "x ¶atan2 y < 1; end"),
    # names
    ("UnknownName", C + "¶y < 1; end"), ("UnknownName", C + "x + ¶z < 1; end"), ("UnknownName", C + "x < 1; ¶q < 2; end"),
    ("UnknownName", C + "¶foo(x) < 1; end"), ("UnknownName", "Variables x in [0, ¶k]; Constraints x < 1; end"),
    ("UnknownName", "Variables a, x in [¶a, 1]; Constraints x < 1; end"), ("UnknownName", C + "¶X < 1; end"),
    ("UnknownName", F + "f(a) return ¶x end Constraints f(x) < 1; end"),
    ("UnknownName", F + "f(a) return ¶f(a); end Constraints x <= 1; end"),
    ("UnknownName", F + "f(a) return ¶g(a) end function g(a) return a end Constraints x < 1; end"),
    ("UnknownName", "function f(a) return a end Variables x in [¶f, 1]; Constraints x < 1; end"),
    ("UnknownName", C + "x < -¶y; end"), ("UnknownName", C + "sqr(¶y) < 1; end"),
    ("UnknownName", F + "f(a) return a end function g(b) return ¶a end Constraints x < 1; end"),
    ("DuplicateName", "Variables x, ¶x; Constraints x < 1; end"), ("DuplicateName", "Constants a = 1; ¶a = 2; Variables x"),
    ("DuplicateName", "Constants a = 1; Variables ¶a; Constraints a < 1; end"),
    ("DuplicateName", F + "¶x(a) return a end Constraints x < 1; end"),
    ("DuplicateName", F + "f(a, ¶a) return a end Constraints x < 1; end"),
    ("DuplicateName", F + "f(¶f) return f end Constraints x < 1; end"),
    ("DuplicateName", F + "f(a) return a end function g(¶f) return f end Constraints x < 1; end"),
    ("DuplicateName", F + "f(a) return a end function ¶f(a) return a end Constraints x < 1; end"),
    ("DuplicateName", "function f(a) return a end Variables ¶f; Constraints f < 1; end"),
    ("DuplicateName", "Constants a = 1; function ¶a(b) return b end Variables x"),
    # exponents
    ("BadExponent", C + "x^¶33 < 1; end"), ("BadExponent", C + "x^¶-2 < 1; end"), ("BadExponent", C + "x^¶(2) < 1; end"),
    ("BadExponent", C + "x^¶2. < 1; end"), ("BadExponent", C + "x^¶1e1 < 1; end"), ("BadExponent", C + "x^¶x < 1; end"),
    ("BadExponent", C + "x^¶undeclared < 1; end"), ("BadExponent", C + "x^¶; end"), ("BadExponent", C + "x^¶abs(x) < 1; end"),
    ("BadExponent", C + "x^¶end"), ("BadExponent", C + "x^¶12345678901 < 1; end"),
    # limits on counts
    ("TooManyVariables", "Variables a,b,c,d,e,f,g,h,i,j,k,l,¶m; Constraints a < 1; end"),
    ("TooManyVariables", "Variables a;b;c;d;e;f;g;h;i;j;k;l;¶a; Constraints a < 1; end"),
    ("TooManyVariables", "Variables a,b,c,d,e,f,g,h,i,j,k,l in [0,1], ¶m, n"),
    ("TooManyVariables", "Constants z = 1; Variables a,b,c,d,e,f,g,h,i,j,k,l;¶z"),
    ("TooManyConstraints", C + "x<1;" * 64 + " ¶x < 2; end"), ("TooManyConstraints", C + "x<1;" * 64 + " ¶undeclared"),
    ("TooManyConstraints", C + "x<1;" * 64 + "¶-"), ("TooManyConstraints", C + "x<1;" * 64 + "¶(x) < 1; end"),
    ("TooManyConstraints", C + "x<1;" * 64 + "¶7"),
    ("Unexpected", C + "x<1;" * 64 + "¶) < 1; end"),
    # what the grammar does not allow
    ("Unexpected", "¶x"), ("Unexpected", "¶;"), ("Unexpected", "¶End"), ("Unexpected", "Constants ¶= 1"),
    ("Unexpected", "Constants a ¶1;"), ("Unexpected", "Constants a = ¶b;"), ("Unexpected", "Constants a = --¶1;"[:15] + "¶-1;"),
    ("Unexpected", "Constants a = 1 ¶b = 2;"), ("Unexpected", "Constants a = 1;;¶"[:16] + "¶; Variables x"),
    ("Unexpected", "Constants ¶in = 1;"), ("Unexpected", "Constants ¶return = 1; Variables x"),
    ("Unexpected", "Variables ¶Return; Constraints x < 1; end"), ("Unexpected", "Variables x ¶y; Constraints x < 1; end"),
    ("Unexpected", "Variables x in ¶(0,1); Constraints x < 1; end"), ("Unexpected", "Variables x in [0¶;1]; Constraints x < 1; end"),
    ("Unexpected", "Variables x in [¶,1]; Constraints x < 1; end"), ("Unexpected", "Variables x in [0,1¶); Constraints x < 1; end"),
    ("Unexpected", "Variables x in [0,1]¶]; Constraints x < 1; end"), ("Unexpected", "Variables x in [-¶-1,1]; Constraints x"),
    ("Unexpected", "Variables x; ¶Constants a = 1; Constraints x < 1; end"), ("Unexpected", V + "Constraints x + ¶<= 1; end"),
    ("Unexpected", C + "x ¶y < 1; end"), ("Unexpected", C + "x < 1 ¶< 2; end"), ("Unexpected", C + "x¶; end"),
    ("Unexpected", C + "(x¶ < 1; end".replace("¶ ", " ¶")), ("Unexpected", C + "x¶) < 1; end"), ("Unexpected", C + "abs ¶x < 1; end"),
    ("Unexpected", C + "abs(x¶, x) < 1; end"), ("Unexpected", C + "min(x¶) < 1; end"), ("Unexpected", C + "max(x, x¶, x) < 1; end"),
    ("Unexpected", C + "¶oo < 1; end"), ("Unexpected", C + "x < ¶oo; end"), ("Unexpected", C + "x^2¶^2 < 1; end"),
    ("Unexpected", C + "2 ¶x < 1; end"), ("Unexpected", C + "x < 1; end ¶x"), ("Unexpected", C + "x < 1; end¶;"),
    ("Unexpected", C + "x * ¶/ x < 1; end"), ("Unexpected", C + "x < 1;¶; end"), ("Unexpected", C + "¶; x < 1; end"),
    ("Unexpected", C + "x ¶[ 1 ] < 1; end"), ("Unexpected", C + "x < 1¶, x < 2; end"),
    ("Unexpected", F + "f(¶) return 1 end Constraints x < 1; end"), ("Unexpected", F + "f ¶return 1 end"),
    ("Unexpected", F + "f(a ¶b) return a end"), ("Unexpected", F + "f(a;".replace("a;", "a¶;")), ("Unexpected", F + "f(a) ¶a end"),
    ("Unexpected", F + "f(a) return a < 1 end".replace("a < 1", "a ¶< 1")), ("Unexpected", F + "f(a) return a; ¶; end"),
    ("Unexpected", F + "f(a,b,c,d,e,f1,g,h,i,j,k,l¶,m) return a end"), ("Unexpected", F + "f(a) return a end Constraints f(x¶, x) < 1; end"),
    ("Unexpected", F + "f(a,b) return a end Constraints f(x¶) < 1; end"), ("Unexpected", F + "f(a) return a end Constraints f ¶< 1; end"),
    ("Unexpected", F + "f(a) return a end; ¶; Constraints x < 1; end"), ("Unexpected", F + "¶end(a) return a end"),
    # bad bounds, after a whole reading alone
    ("BadBounds", "Variables x in ¶[5,3]; Constraints x <= 1; end"), ("BadBounds", "Variables x in ¶[oo, 1]; Constraints x < 1; end"),
    ("BadBounds", "Variables x in ¶[0, -oo]; Constraints x < 1; end"), ("BadBounds", "Variables x in ¶[+oo,oo]; Constraints x < 1; end"),
    ("BadBounds", "Variables x in [1,1], y in\n ¶[-1,-2], z in [2,1]; Constraints x < 1; end"),
    ("BadBounds", "Constants k = 0.1; Variables x in ¶[k, 0.0999999999999999999999999999999999]; Constraints x < 1; end"),
    ("BadBounds", "Variables x in ¶[-1e-36, -1.0000000000000000000000000000000000e-2]; Constraints x < 1; end"),
    ("Unexpected", "Variables x in [5,3]; Constraints x ¶; end"),
]

GOOD = [
    "Variables x in [0,4]; Constraints x <= 1; end", "variables x constraints x=1 end", "Variables x,y;z Constraints x+y=z;End",
    "Constants a=1,b=-2;c=+0.50; Variables x Constraints a*x+b<c end", "Variables x in[-oo,oo];Constraints x>0;end",
    "Variables x in [+1,+oo] Constraints x>=0 end//", "Variables x in [-oo,-1] Constraints x>=0 end/*", "Variables x in [-1/**/,1.] Constraints x>=1.e2 end",
    "Constants k=2 Variables x in [-k,+k] Constraints x<k end", "Variables x, Constraints x<1; end", "Variables x; Constraints x<1; end",
    C + "-x^2 < 1 end", C + "--x < 1 end", C + "+x < 1 end", C + "2--3*-x < 1 end", C + "x-1-2 < x/2/4 end", C + "x*(1+x)^3 >= -(x-1) end",
    C + "x^007 = x^0 end", C + "sqr(x+1) < abs(-x) end", C + "min(x,max(1,x)) < 1e-3 end", C + "sqr(x)^2 < 1 end", C + "x < 1e36 end", C + "x < 1e-36 end",
    C + "x < 9999999999999999999999999999999999999 end", C + "x < 0.5e0 end", C + "x < 5E-1 end", C + "x < 5e+1 end", C + "x < 00.250 end",
    C + "1e = 1 end".replace("1e =", "1 ="), C + "x<1;x>2;x=3;x<=4;x>=5; end", C + "x<1;x>2 end", C + "((((x)))) < 1 end",
    C + "x//c\n<1/* * / */ end", C + "x/x<1 end", C + "x*x/x*x<1 end", "Variables End1, In, ABS Constraints In<ABS*End1 end",
    "Variables _ Constraints _<1 end", "Variables x in [3,3] Constraints x=3 end", "Variables x in [0.1,0.10] Constraints x<1 end",
    "Variables x in [-2,-1.5] Constraints x<1 end", "Variables x in [1e-36, 1e36] Constraints x<1 end",
    F + "f(a) return a^2; end Constraints f(x) <= 4; end", F + "f(a,b) return a-b end Constraints f(x,1) < f(2,x) end",
    F + "f(a) return 1 end Constraints f(x/0) < 1 end", F + "id(a) return a end function g(b) return id(id(b)) end; Constraints g(x) = id(x) end",
    F + "f(a,b) return a+a end function g(a) return f(a,f(a,a)) end Constraints g(x) < 1 end",
    "Constants a=3 function f(a) return a+1 end Variables x Constraints f(x)<a end", "Constants a=3; function f(b) return a*b end Variables x Constraints f(x)<a end",
    "function f(x) return x end function g(x) return f(x)^2 end Variables x Constraints g(x)<1 end", "Function f(a) Return -a End Variables x Constraints f(x)<1 End",
    F + "f(a) return a end Constraints f(f(f(x))) < 1; end", F + "f(a) return min(a,sqr(a)) end Constraints abs(f(x+1)) < 1; end",
    F + "f(a,b,c,d,e,g,h,i,j,k,l,m) return m-a end Constraints f(1,2,3,4,5,6,7,8,9,10,11,x) < 1 end",
    F + "f(y) return y end; function g(y) return f(y)*f(2) end Constraints g(x) > 0; end", "Variables a,b,c,d,e,f,g,h,i,j,k,l, Constraints l<1; end",
    C + "x<1;" * 64 + " end", C + "x^32 = 1 end", C + "-2*x^2+3 < 1 end", C + "(x)^2 < 1 end", C + "2^3^x".replace("^x", "") + " < x end", C + "x>-1 end",
    C + "x<-1+-2 end", C + "min(1,2)/max(x,0)<1 end",
]


def place(text: bytes, byte: int) -> tuple[int, int]:
    line = text.count(b"\n", 0, byte) + 1
    return line, byte - (text.rfind(b"\n", 0, byte) + 1) + 1


def spelled(e: Expression) -> str:
    if e[0] == "const":
        return f"{e[1].numerator}/{e[1].denominator}"
    if e[0] == "var":
        return f"v{e[1]}"
    if e[0] == "^":
        return f"(^ {spelled(e[1])} {e[2]})"
    return f"({e[0]} {' '.join(spelled(part) for part in e[1:])})"


def canonical(text: str) -> bytes:
    system = minibex.read(text)
    lines = [f"vars {len(system.names)}"]
    for name, (low, high) in zip(system.names, system.domains):
        lines.append(f"{name} {numbers.spelling(bound(low, numbers.DOWN))} {numbers.spelling(bound(high, numbers.UP))}")
    lines.append(f"ctrs {len(system.constraints)}")
    lines += [f"{relation} {spelled(left)} {spelled(right)}" for relation, left, right in system.constraints]
    return "".join(line + "\n" for line in lines).encode()


def literal(text: bytes) -> str:
    out = ""
    for b in text:
        c = chr(b)
        out += {"\n": "\\n", '"': '\\"', "\\": "\\\\"}.get(c, c if 32 <= b < 127 else f"\\x{b:02x}")
    return f'b"{out}"'


def main() -> int:
    folder = Path(__file__).resolve().parents[2] / "crates/test_reader/src/parse"
    wrong = 0
    for cause, marked in FAULTS:
        assert marked.count("¶") == 1, marked
        at = len(marked[:marked.index("¶")].encode())
        found = first_fault(marked.replace("¶", "").encode())
        if found is None or (found[1], found[0]) != (cause, at):
            wrong += 1
            print("differs:", marked, found, at)
    for text in GOOD:
        found = first_fault(text.encode())
        if found is not None:
            wrong += 1
            print("not good for the reference:", text, found)
    print(len(FAULTS), "faults,", len(GOOD), "good,", wrong, "differ")
    head = "// Written by tests/data/reader_cases.py, which has the table by hand.\n\n"
    body = head + "/// Texts of systems, and their canonical texts.\n"
    body += f"pub(super) const SYSTEMS: [(&[u8], &[u8]); {len(GOOD)}] = [\n"
    body += "".join(f"    ({literal(t.encode())}, {literal(canonical(t))}),\n" for t in GOOD)
    (folder / "systems.rt").write_text(body + "];\n")
    return wrong


if __name__ == "__main__":
    sys.exit(main())
