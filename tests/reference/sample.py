"""The systems that a number makes, and the report on their pavings."""
import hashlib
from typing import Any, Iterator

from . import files

MODULUS = 1 << 31


def draws(state: int) -> Iterator[int]:
    """Numbers drawn one after another: the higher bits of a linear congruence's states."""
    while True:
        state = (state * 1103515245 + 12345) % MODULUS
        yield state // 65536


def text_of(seed: int, count: int) -> str:
    """The Minibex text of `count` circles, a constraint each: the outsides of their discs."""
    drawn = draws(seed)
    rows = ["Variables x in [0,1024], y in [0,1024];", "Constraints"]
    for _ in range(count):
        x, y, radius = next(drawn) % 1000, next(drawn) % 1000, 50 + next(drawn) % 200
        rows.append(f"(x-{x})^2+(y-{y})^2 >= {radius * radius};")
    return "".join(row + "\n" for row in [*rows, "end"])


def report(call: Any, seed: int, count: int, budget: int = 100_000) -> bytes:
    """The three lines of a sample, for a call of its system with the sample's settings."""
    tree = files.go_on(call.settler, ("O",), budget)
    digest = hashlib.sha256(call.write(tree)).hexdigest()
    return f"sample seed {seed} count {count}\n{files.summary(tree)}\nfile {digest}\n".encode()
