"""Forms of Minibex that the profile has no words for, and what an engineer writes instead."""

ANGLE = ("two variables c and s with c^2 + s^2 = 1 in place of its cosine and sine; or one variable t, the tangent of "
         "half the angle: cos = (1 - t^2)/(1 + t^2), sin = 2*t/(1 + t^2)")
INVERSE = ("keep the angle out of the system: state the constraint by the sine and cosine of the angle, and work the "
           "angle out from the boxes afterwards")
HYPERBOLIC = "a variable u in place of exp(x): cosh = (u + 1/u)/2, sinh = (u - 1/u)/2, tanh = (u^2 - 1)/(u^2 + 1)"
LOGARITHM = ("take the exponential of both sides: a variable u in place of the logarithm's exponential, a power for a "
             "factor")
CASES = "a constraint for each case, and `union` of the cases in the contractor text"
INSTEAD = {
    "sqrt": "a variable r in [0, oo] with r^2 = the argument; or square both sides: sqrt(a) <= b is a <= b^2 with a >= 0 "
            "and b >= 0",
    "root": "a variable r with r^n = the argument, and r >= 0 where n is even",
    "exp": "a variable u in place of exp(-p): exp(-p*t) is u^t where t is a whole number of steps",
    "log": LOGARITHM, "ln": LOGARITHM,
    "cos": ANGLE, "sin": ANGLE, "tan": "a variable for the tangent itself, or for that of half the angle: 2*t/(1 - t^2)",
    "acos": INVERSE, "asin": INVERSE, "atan": INVERSE, "atan2": INVERSE,
    "cosh": HYPERBOLIC, "sinh": HYPERBOLIC, "tanh": HYPERBOLIC,
    "acosh": INVERSE, "asinh": INVERSE, "atanh": INVERSE,
    "sign": CASES, "chi": CASES, "floor": CASES, "ceil": CASES, "saw": CASES, "step": CASES,
    "pi": "a variable in [3.14159265358979323, 3.14159265358979324], or a rational number that is near enough",
    "minimize": "leave the line out and ask for the least value by `paver least SYSTEM --of=OBJECTIVE`; or ask for the points "
                "with objective <= level",
    "maximize": "leave the line out and ask for the least value of its opposite by `paver least SYSTEM --of='-(OBJECTIVE)'`; "
                "or ask for the points with objective >= level",
    "diff": "write the derivative out",
    "integer": "a whole number is no rational interval: run once for each value",
}


class Refusal(Exception):
    """A form that can't be written: .line from 1, .form names it, .instead says what to do."""

    def __init__(self, line: int, form: str, instead: str) -> None:
        super().__init__(f"line {line}: {form} can't be written. Instead: {instead}.")
        self.line, self.form, self.instead = line, form, instead


class Overrun(Refusal):
    """A file that asks for more work than any text of the profile needs: the translation ends there."""


class Work:
    """How much has been done for one file, in steps; Overrun beyond the most."""

    def __init__(self, most: int) -> None:
        self.left = most

    def step(self, line: int) -> None:
        self.left -= 1
        if self.left < 0:
            raise Overrun(line, "what stands here, written out,", "a text of at most 65,536 bytes once loops, sums and "
                          "assignments are written out")


def refused_word(line: int, word: str) -> Refusal:
    return Refusal(line, f"`{word}`", INSTEAD[word.lower() if word.lower() in ("minimize", "maximize") else word])
