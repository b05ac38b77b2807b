"""The kinds of values that the reference works with, as its functions name them."""
from fractions import Fraction
from typing import Any, Optional, Tuple, TypedDict, Union

Value = Any  # a whole number of units of 2^-512, or an infinite float
Interval = Any  # a pair of Values, the lower and the upper end; None where it is empty
Parts = Any  # what is left of an operation's arguments, an Interval each; None where one is empty
Box = Any  # a list of Intervals
Bound = Union[Fraction, float]  # an end of a domain as it is written, a float where it is infinite
Expression = Tuple[Any, ...]  # nested tuples, as minibex.py has them
Relation = Tuple[str, Expression, Expression]  # a constraint: its sign and its sides
Program = Tuple[Any, ...]  # a contractor program, nested tuples
Outcome = Any  # ("X",), ("I", to), ("S", to) or ("C", to, variable, at); ("O",) of an open leaf
Tree = Tuple[Any, ...]  # the same with both subtrees behind a cut, as files.py has them
Answer = Tuple[int, bytes, bytes, Optional[bytes]]  # a call's status, its output and its errors, and what it stored


class Settings(TypedDict, total=False):
    """What a settler is given besides the system."""
    eps: Fraction
    depth: int
    bisector: str
    contract: str
