"""Compares `merge`, `resume`, `audit` and `audit-centered` with the reference's on made paving files: good ones, cut out
of full trees, and random edits of them; and one file of each version with each byte replaced and cut at each.

    [COUNT=1000 SEED=1] python3 -m tests.runners.fuzz_files

Words whose answer differs are printed with both answers.
"""
from __future__ import annotations

import random
from collections.abc import Callable, Iterator, Sequence
from fractions import Fraction
from functools import partial
from typing import Any

from tests.data.cases import system
from tests.reference import files
from tests.reference.commands import Call, answer
from tests.reference.kinds import Answer, Tree
from tests.runners.paving_files import call
from tests.runners.running import FolderTest, made_cases, main

SYSTEMS: list[tuple[bytes, list[str], dict[str, Any]]] = [
    (system("x in [0,1]", "1/x >= 0"), ["--eps", "0.25"], {"eps": Fraction(1, 4)}),
    (system("x in [0,1], y in [-1,2]", "x*y <= 0.5; x + y >= 0"), ["--eps", "0.5"], {"eps": Fraction(1, 2)}),
    (system("x, y in [0,3]", "x^2 + y = 2; y <= 1"), ["--eps", "1", "--depth", "5", "--bisect", "round"],
     {"eps": Fraction(1), "depth": 5, "bisector": "round"}),
]
WORDS = ["0:0", "1:0", "1:-1", "3:-2", "-1:0", "+oo", "-oo", "=", "O", "X", "I", "S", "C", "0", "1", "2:0", "", "01",
         "4611686018427387903:450", "4611686018427387905:0", "16304772281661597777:-60", "1:511", "1:512", "1:-512", "1:-513"]
CENTERED: tuple[bytes, list[str], dict[str, Any]] = (
    system("x in [0,1], y in [-1,2]", "x - x*y <= 0.5; x + y >= 0"), ["--eps", "0.5"], {"eps": Fraction(1, 2)})


def pruned(tree: Tree, source: random.Random, chance: float) -> Tree:
    """The tree with some nodes open."""
    if source.random() < chance:
        return ("O",)
    if tree[0] != "C":
        return tree
    return (*tree[:4], pruned(tree[4], source, chance), pruned(tree[5], source, chance))


def altered(tree: Tree, source: random.Random) -> Tree:
    """The tree with one settled node, and what is below it, settled otherwise: a good paving that is no stage."""
    if tree[0] == "C" and source.random() < 0.7:
        side = source.choice([4, 5])
        return (*tree[:side], altered(tree[side], source), *tree[side + 1:])
    if tree[0] in "OX":
        return source.choice([("O",), ("X",)])
    to = list(tree[1])
    if source.random() < 0.3:
        place = source.randrange(len(to))
        to[place] = (to[place][0], to[place][0]) if to[place][0] != float("-inf") else to[place]
    return source.choice("IS"), to


def moved(word: bytes, source: random.Random) -> bytes:
    """An end that is a number, half a unit of its own away; another word as it is."""
    mantissa, colon, exponent = word.partition(b":")
    if not colon or not mantissa.lstrip(b"-").isdigit() or not exponent.lstrip(b"-").isdigit():
        return word
    return b"%d:%d" % (2 * int(mantissa) + source.choice([-1, 1]), int(exponent) - 1)


def edited(data: bytes, source: random.Random) -> bytes:
    """The bytes with one random change."""
    kind = source.randrange(9)
    if kind == 0:
        at = source.randrange(len(data) + 1)
        return data[:at]
    if kind == 1 and data:
        at = source.randrange(len(data))
        return data[:at] + bytes([source.choice(b"#0 1:-=+oOXISC\n\r\xff")]) + data[at + source.randrange(2):]
    rows = data.split(b"\n")
    at = source.randrange(len(rows))
    if kind == 2:
        del rows[at]
    elif kind == 3:
        rows.insert(at, source.choice(rows))
    elif kind == 4:
        other = source.randrange(len(rows))
        rows[at], rows[other] = rows[other], rows[at]
    elif kind == 5:
        words = rows[at].split(b" ")
        place = source.randrange(len(words))
        words[place] = moved(words[place], source)
        rows[at] = b" ".join(words)
    elif kind == 6:
        rows[0] = source.choice([b"paving 1", b"paving 2", b"paving 3", b"paving 02", b"Paving 2", b"paving 1\r"])
    else:
        words = rows[at].split(b" ")
        place = source.randrange(len(words))
        words[place] = source.choice(WORDS).encode() if kind == 7 else source.choice(source.choice(rows).split(b" "))
        rows[at] = b" ".join(words)
    return b"\n".join(rows)


Work = tuple[list[str], dict[str, bytes], Callable[[], Answer]]  # words, files, and the work of the reference


class Maker:
    def __init__(self, source: random.Random) -> None:
        self.source = source
        self.calls = [(text, options, call(text, **settings)) for text, options, settings in SYSTEMS]
        text, options, settings = CENTERED
        self.calls.append((text, options, call(text, centered=True, **settings)))
        self.full = [files.go_on(c.settler, ("O",), 200) for _, _, c in self.calls]
        text, _, settings = SYSTEMS[0]
        others: list[dict[str, Any]] = [
            {"eps": Fraction(1, 8)}, {**settings, "depth": 59}, {**settings, "bisector": "round"},
            {**settings, "contract": "prop(7)"}, {**settings, "contract": "hc4(0)"}, {**settings, "centered": True}]
        self.identities = [c.identity for _, _, c in self.calls] + [call(text, **other).identity for other in others]

    def other_identity(self, data: bytes) -> bytes:
        """The file under another system's or other settings' name, or one that is no identity."""
        rows = data.split(b"\n")
        word = self.source.choice(self.identities)
        rows[1] = b"identity " + self.source.choice([word, word, word.upper(), word[:-1], word + "0", "0" * 64]).encode()
        return b"\n".join(rows)

    def file(self, reference: Call, full: Tree) -> bytes:
        tree = pruned(full, self.source, self.source.choice([0, 0.05, 0.2]))
        if self.source.random() < 0.3:
            tree = altered(tree, self.source)
        data = reference.write(tree, self.source.choice([1, 2]))
        if self.source.random() < 0.05:
            data = self.other_identity(data)
        for _ in range(self.source.choice([0, 0, 0, 0, 1, 1, 2])):
            data = edited(data, self.source)
        return data

    def work(self) -> Work:
        """Words, files, and the work of the reference."""
        at = self.source.randrange(len(self.calls))
        (text, options, reference), full = self.calls[at], self.full[at]
        named = [(f"f{i}", self.file(reference, full)) for i in range(self.source.choice([1, 1, 2, 3]))]
        made = {"s": text, **dict(named)}
        out = self.source.choice([None, "o"])
        kept = ["--out", out] if out else []
        names = [name for name, _ in named]
        kind = self.source.randrange(3)
        if at == len(SYSTEMS):
            return ["audit-centered", "s", names[0], *options], made, lambda: reference.audit(*named[0])
        if kind == 0:
            return ["merge", "s", *names, *options, *kept], made, lambda: reference.merge(named, out)
        if kind == 1:
            budget = self.source.choice([1, 2, 5, 1000, 99990])
            words = ["resume", "s", *names, *options, *kept, "--boxes", str(budget)]
            return words, made, lambda: reference.resume(named, budget, out)
        return ["audit", "s", names[0], *options], made, lambda: reference.audit(*named[0])

    def damages(self) -> Iterator[Work]:
        """The audit of one file of each version with each byte replaced, and cut at each."""
        text, options, reference = self.calls[0]
        for version in (1, 2):
            data = reference.write(self.full[0], version)
            for at in range(len(data)):
                other = bytes([self.source.choice([b for b in range(256) if b != data[at]])])
                for bad in (data[:at], data[:at] + other + data[at + 1:]):
                    yield ["audit", "s", "f", *options], {"s": text, "f": bad}, partial(reference.audit, "f", bad)

    def works(self, count: int) -> Iterator[Work]:
        yield from self.damages()
        for _ in range(count):
            yield self.work()


def are_same(words: Sequence[str], got: Answer, wanted: Answer) -> bool:
    """A run that its budget ends may have settled other leaves than the reference has, but as many."""
    if words[0] != "resume" or wanted[0] != 1:
        return got == wanted
    (status, out, err, stored), (_, wanted_out, wanted_err, wanted_stored) = got, wanted
    return (status, err) == (1, wanted_err) and out.split()[:2] == wanted_out.split()[:2] and (
        (stored is None) == (wanted_stored is None))


class FuzzFiles(FolderTest):
    """Commands on made paving files beside the reference's."""

    def test_files(self) -> None:
        count, seed = made_cases(1000)
        for words, made, work in Maker(random.Random(seed)).works(count):
            (self.path / "o").unlink(missing_ok=True)
            for file, data in made.items():
                self.put(file, data)
            given = *self.answered(*words), self.files().get("o")
            wanted = answer(work)
            with self.subTest(words=words, files=made):
                self.assertTrue(are_same(words, given, wanted), f"{given} in place of {wanted}")


if __name__ == "__main__":
    main()
