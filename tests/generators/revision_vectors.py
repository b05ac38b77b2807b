#!/usr/bin/env python3
"""Cases of HC4-revise and of the sure test, on boxes of two variables, worked out by the plain paver of
tests/reference, which computes on whole numbers and shares nothing with the program.

Writes crates/test_revisions/src/table.rt.
"""
from tests.generators.case_table import ends, write
from tests.reference import minibex
from tests.reference.numbers import DOWN, UP
from tests.reference.paver import Constraint, Empty, bound

# x, y, constraint: ten cases a group
GROUPS = {
    "SUMS": [
        ("[0,4]", "[1,3]", "x + y <= 3"),
        ("[0,4]", "[1,3]", "x + y >= 6.5"),
        ("[0,4]", "[1,3]", "x - y = 3"),
        ("[0,4]", "[1,3]", "x + y <= 8"),
        ("[0,4]", "[1,3]", "x + y < 1"),
        ("[0,4]", "[1,3]", "x + y <= 1"),
        ("[-oo,+oo]", "[1,3]", "x + y = 10"),
        ("[-oo,4]", "[-oo,3]", "x + y >= 0"),
        ("[-oo,+oo]", "[-oo,+oo]", "x - y <= 0"),
        ("[0.1,0.7]", "[0.2,0.3]", "x + y = 0.9"),
    ],
    "PRODUCTS": [
        ("[1,4]", "[2,5]", "x * y <= 4"),
        ("[-3,4]", "[-2,5]", "x * y >= 12"),
        ("[-3,4]", "[0,5]", "x * y = 0"),
        ("[0,4]", "[0,0]", "x * y >= 1"),
        ("[-oo,+oo]", "[2,5]", "x * y <= 10"),
        ("[0,+oo]", "[0,+oo]", "x * y >= 1"),
        ("[-1,1]", "[3,+oo]", "x * y > 2"),
        ("[1,2]", "[-oo,-1]", "x * y < -7"),
        ("[-2,-1]", "[-5,-4]", "x * y <= 5"),
        ("[0.1,0.3]", "[0.1,0.3]", "x * y = 0.05"),
    ],
    "QUOTIENTS": [
        ("[1,4]", "[2,5]", "x / y <= 0.5"),
        ("[1,4]", "[0,5]", "x / y <= 2"),
        ("[1,4]", "[0,0]", "x / y <= 2"),
        ("[1,4]", "[-1,1]", "x / y >= 3"),
        ("[0,0]", "[-1,1]", "x / y >= 1"),
        ("[0,4]", "[-1,0]", "x / y >= -1"),
        ("[-oo,+oo]", "[1,+oo]", "x / y = 3"),
        ("[1,2]", "[3,+oo]", "1 / (x * y) < 0.01"),
        ("[0,1]", "[0,1]", "1 / x >= 0"),
        ("[2,3]", "[-2,-1]", "x / y = -1.7"),
    ],
    "EVEN_POWERS": [
        ("[-3,5]", "[0,1]", "x^2 = 4 + y"),
        ("[-3,5]", "[0,1]", "x^2 <= 4"),
        ("[-3,5]", "[0,1]", "x^2 >= 16"),
        ("[-3,5]", "[0,1]", "x^2 + y <= -1"),
        ("[-oo,+oo]", "[0,1]", "x^4 <= 16"),
        ("[-oo,0]", "[2,7]", "x^2 = y"),
        ("[-1,1]", "[-1,1]", "x^32 + y^32 >= 1.5"),
        ("[1.1,1.3]", "[0,2]", "x^6 = y"),
        ("[-2,2]", "[1,1]", "x^0 = y"),
        ("[-2,2]", "[2,2]", "x^0 = y"),
    ],
    "ODD_POWERS": [
        ("[-3,5]", "[0,1]", "x^3 = 8 + y"),
        ("[-3,5]", "[0,1]", "x^3 <= -8"),
        ("[-3,5]", "[-1,1]", "x^3 - y^3 >= 120"),
        ("[-oo,+oo]", "[0,1]", "x^3 >= 27"),
        ("[-oo,+oo]", "[-oo,+oo]", "x^5 + y^5 <= -32"),
        ("[0,2]", "[0,2]", "x^31 <= y"),
        ("[-1,1]", "[3,4]", "x^7 >= y"),
        ("[-0.3,0.2]", "[-1,1]", "x^3 = y"),
        ("[2,3]", "[0,1]", "x^1 <= 2.5"),
        ("[-2,-1]", "[-30,30]", "x^5 = y"),
    ],
    "SIZES_AND_CHOICES": [
        ("[-3,5]", "[0,1]", "abs(x) <= 2"),
        ("[-3,5]", "[0,1]", "abs(x) >= 4"),
        ("[-3,5]", "[0,1]", "abs(x) + y < 0"),
        ("[-oo,+oo]", "[1,2]", "abs(x) = y"),
        ("[0,4]", "[1,3]", "min(x, y) >= 2"),
        ("[0,4]", "[1,3]", "max(x, y) <= 2"),
        ("[0,1]", "[3,5]", "max(x, y) = 4"),
        ("[0,1]", "[3,5]", "min(x, y) = 0.5"),
        ("[0,1]", "[3,5]", "min(x, y) > 1"),
        ("[-oo,+oo]", "[-oo,2]", "-max(x, -y) >= 1"),
    ],
    "SHARED": [
        ("[0,4]", "[0,4]", "(x + y)^2 - (x + y) <= 0"),
        ("[-1,1]", "[-1,1]", "(x * y) + (x * y) = 1.5"),
        ("[0,2]", "[0,2]", "x * x - 2 * x * y + y * y >= 3"),
        ("[1,2]", "[1,2]", "x / y + y / x >= 3"),
        ("[-3,3]", "[-3,3]", "(x - y)^2 + (x - y)^2 = 0"),
        ("[0,10]", "[0,10]", "x = x + y"),
        ("[0,10]", "[0,10]", "x < x"),
        ("[0,10]", "[2,10]", "x * y + x * y + x * y <= 12"),
        ("[0.5,3]", "[1,3]", "max(x, y) - min(x, y) > 2"),
        ("[-2,2]", "[-2,2]", "abs(x - y) * abs(x - y) <= 0.25"),
    ],
    "SURE_OR_NOT": [
        ("[0,1]", "[0,1]", "x + y <= 2"),
        ("[0,1]", "[0,1]", "x + y < 2"),
        ("[0,1]", "[0,1]", "x - y >= -1"),
        ("[0,1]", "[0,1]", "x - y > -1"),
        ("[2,2]", "[3,3]", "x * y = 6"),
        ("[0.1,0.1]", "[0.2,0.2]", "x + y = 0.3"),
        ("[1,2]", "[0,1]", "x / y >= 1"),
        ("[1,2]", "[0.5,1]", "x / y >= 1"),
        ("[0,0]", "[-1,1]", "x / y = 0"),
        ("[-oo,+oo]", "[-oo,+oo]", "x^2 + y^2 >= 0"),
    ],
}


def row(x: str, y: str, text: str) -> str:
    system = f"Variables x in {x}, y in {y}; Constraints {text}; End"
    read = minibex.read(system)
    box = [(bound(low, DOWN), bound(high, UP)) for low, high in read.domains]
    constraint = Constraint(read.constraints[0])
    try:
        left = constraint.revise(box)
        answer = "Kept" if left == box else f"Changed({ends(left[0])}, {ends(left[1])})"
    except Empty:
        answer = "Empty"
    sure = "true" if constraint.sure(box) else "false"
    return f'    ("{system}", {answer}, {sure}),'


HEADING = (
    "//! Cases of revisions. Written by tests/generators/revision_vectors.py: change them there.\n"
    "use crate::revisions::Case;\n"
    "use crate::revisions::Left::{Changed, Empty, Kept};\n"
)

if __name__ == "__main__":
    write("test_revisions", HEADING, GROUPS, row)
