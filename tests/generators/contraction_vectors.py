#!/usr/bin/env python3
"""Cases of contractor programs, on boxes of two variables, worked out by the plain paver of tests/reference, which
computes on whole numbers, knows no marks and shares nothing with the program. It finds which constraints are clean
anew from the whole history of revisions.

Writes crates/test_programs/src/table.rt.
"""
from tests.generators.case_table import ends, write
from tests.reference import minibex
from tests.reference.paver import Settler

THREE = ("[0,4]", "[0,4]", "x <= 2; x >= 1; x >= 3")
RINGS = ("[-4,4]", "[-4,4]", "x^2 + y^2 <= 4; (x - 1)^2 + y^2 <= 4; (x - 6)^2 + y^2 <= 1")
CHAIN = ("[0,16]", "[0,16]", "y <= x / 2; x <= y")
LINES = ("[0,4]", "[0,4]", "x + y = 3; x - y = 1")
SPLIT = ("[-8,8]", "[0,4]", "x <= -2; x >= 2; y <= 1")

# x, y, constraints, program
GROUPS = {
    "IN_ORDER": [
        (*THREE, "hc4(0)"), (*THREE, "hc4(2)"), (*THREE, "compose(hc4(0),hc4(1))"),
        (*THREE, "compose(hc4(0),hc4(2))"), (*LINES, "hc4(1)"), (*LINES, "compose(hc4(0),hc4(1))"),
        (*LINES, "compose(hc4(1),hc4(0))"), (*CHAIN, "compose(hc4(0),hc4(1),hc4(0))"), (*RINGS, "hc4(0)"),
        (*RINGS, "compose(hc4(0),hc4(1))"), (*RINGS, "compose(hc4(1),hc4(2))"),
        ("[-oo,+oo]", "[1,2]", "x = y; x * y <= 2", "compose(hc4(0),hc4(1))"),
    ],
    "UNIONS": [
        (*SPLIT, "union(hc4(0),hc4(1))"), (*SPLIT, "union(hc4(0),compose(hc4(0),hc4(1)))"),
        (*SPLIT, "union(compose(hc4(0),hc4(1)),compose(hc4(1),hc4(0)))"),
        (*SPLIT, "compose(union(hc4(0),hc4(1)),hc4(2))"), (*SPLIT, "union(hc4(1))"), (*SPLIT, "union(hc4(1),hc4(2))"),
        (*RINGS, "union(hc4(1),hc4(2))"), (*RINGS, "union(hc4(0),hc4(1),hc4(2))"), (*THREE, "union(hc4(0),hc4(2))"),
        ("[0,1]", "[0,1]", "x <= 2; y >= 3", "union(hc4(0),hc4(1))"),
        ("[0,1]", "[0,1]", "x > 2; y > 3", "union(hc4(0),hc4(1))"),
        ("[0,+oo]", "[0,1]", "x <= 2; y <= 3", "union(hc4(0),hc4(1))"),
    ],
    "Q_INTERSECTIONS": [
        (*THREE, "qinter(1,hc4(0),hc4(1),hc4(2))"), (*THREE, "qinter(2,hc4(0),hc4(1),hc4(2))"),
        (*THREE, "qinter(3,hc4(0),hc4(1),hc4(2))"), (*THREE, "qinter(1,hc4(1))"), (*RINGS, "qinter(2,hc4(0),hc4(1),hc4(2))"),
        (*RINGS, "qinter(3,hc4(0),hc4(1),hc4(2))"), (*SPLIT, "qinter(2,hc4(0),hc4(1),hc4(2))"),
        (*SPLIT, "qinter(3,hc4(0),hc4(1),hc4(2))"), (*SPLIT, "qinter(2,compose(hc4(0),hc4(1)),hc4(2))"),
        (*LINES, "qinter(2,hc4(0),hc4(1))"), ("[0,1]", "[0,1]", "x <= 2; y <= 3; x > 4", "qinter(2,hc4(0),hc4(1),hc4(2))"),
        ("[0,1]", "[0,1]", "x <= 2; y <= 0.5; x > 4", "qinter(2,hc4(0),hc4(1),hc4(2))"),
    ],
    "TURNS": [
        (*CHAIN, "prop(1)"), (*CHAIN, "prop(2)"), (*CHAIN, "prop(8)"), (*CHAIN, "fix(3,hc4(0))"),
        (*CHAIN, "fix(2,compose(hc4(1),hc4(0)))"), (*LINES, "prop(3)"), (*LINES, "fix(64,compose(hc4(0),hc4(1)))"),
        (*THREE, "prop(1)"), (*RINGS, "fix(4,union(hc4(0),hc4(1)))"), (*RINGS, "fix(4,compose(hc4(0),hc4(1)))"),
        ("[0,4]", "[0,4]", "x <= 1; y <= 4", "prop(8)"), ("[0.1,3]", "[0.1,3]", "x * y = 1; x + y <= 2.5; x >= y", "prop(20)"),
    ],
    # in which constraints are clean for a while, in a composition twice over, and up to an empty one
    "CLEAN": [
        ("[0,4]", "[0,4]", "x <= 1; y <= 4", "fix(3,prop(8))"), ("[0,4]", "[0,4]", "y <= 4; x <= 1", "prop(8)"),
        ("[0,4]", "[0,4]", "x <= 1; y <= 2", "prop(8)"), ("[0,4]", "[0,4]", "x <= y; y <= 1; x <= 3", "prop(8)"),
        ("[0,16]", "[0,16]", "y <= x / 2; x <= y; x <= 20; y <= 20", "prop(4)"),
        ("[0,16]", "[0,16]", "y <= x / 2; x <= y; x <= 20; y <= 20", "compose(prop(2),prop(2))"),
        ("[0,4]", "[0,4]", "x <= 1; y <= 4; x >= 2; y >= 0", "prop(8)"), (*THREE, "union(prop(2),hc4(0),hc4(2))"),
        (*THREE, "qinter(2,compose(hc4(0),hc4(2),hc4(1)),prop(3),hc4(1))"), (*LINES, "union(prop(3),fix(5,hc4(0)))"),
        ("[0.1,3]", "[0.1,3]", "x * y = 1; y <= 2.5; x >= 0.2; x + y <= 3", "prop(12)"),
        (*SPLIT, "fix(3,compose(hc4(2),union(hc4(0),hc4(1)),prop(2)))"),
    ],
}


def row(x: str, y: str, constraints: str, program: str) -> str:
    system = f"Variables x in {x}, y in {y}; Constraints {constraints}; End"
    settler = Settler(minibex.read(system), contract=program)
    left = settler.contract(settler.program, settler.root)
    answer = "Nothing" if left is None else f"Places({ends(left[0])}, {ends(left[1])})"
    sure = "true" if settler.sure(settler.program, settler.root) else "false"
    count = settler.revisions(settler.program, settler.root)
    return f'    ("{system}", "{program}", {answer}, {sure}, {count}),'


HEADING = (
    "//! Cases of contractions. Written by tests/generators/contraction_vectors.py: change them there.\n"
    "use crate::programs::Case;\n"
    "use crate::programs::Left::{Nothing, Places};\n"
)

if __name__ == "__main__":
    write("test_programs", HEADING, GROUPS, row)
