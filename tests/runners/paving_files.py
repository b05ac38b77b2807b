"""Runs the real binary's commands on paving files, real ones in fresh folders: runs that stop, go on, are shared out
and joined, and are audited; and bad files, names, folders and disks.

    python3 -m tests.runners.paving_files [-k WORD]
"""
from __future__ import annotations

import hashlib
import subprocess
from collections.abc import Collection, Iterable, Sequence
from fractions import Fraction
from typing import Any

from tests.data.cases import HALF_LINE, NO_MORE, RECIPROCAL, USAGE, lines, system
from tests.data.reader_cases import canonical
from tests.reference import minibex, sample
from tests.reference.commands import Call, answer
from tests.reference.numbers import UNIT, spelling
from tests.runners.running import FolderTest, main

QUARTER = ["--eps", "0.25"]
TWO_DISCS = b"""/* two discs and a line */
Constants
  r = 2.1;
Variables
  x in [-4, 4], y in [-4, 4];
Constraints
  sqr(x - 0.5) + y^2 <= r^2;  // first disc
  sqr(x + 0.5) + y^2 <= 4;
  y >= 0.1 * x;
end
"""
# The node lines of worked files of 1/x >= 0 on [0,1] with eps 1/4.
A = ["C 0 1:-1 0:0 1:0", "C 0 1:-2 0:0 1:-1", "O", "O", "I 1:-1 1:0"]
B = ["C 0 1:-1 0:0 1:0", "C 0 1:-2 0:0 1:-1", "S 0:0 1:-2", "I 1:-2 1:-1", "O"]
F = ["C 0 1:-1 0:0 1:0", "I 0:0 1:-1", "O"]
G = ["C 0 1:-1 0:0 1:0", "O", "S 1:-1 1:0"]
WHOLE_1 = ["C 0 1:-1 0:0 1:0", "C 0 1:-2 0:0 1:-1", "S 0:0 1:-2", "I 1:-2 1:-1", "I 1:-1 1:0"]
WHOLE = ["C 0 1:-1 = =", "C 0 1:-2 = =", "S = =", "I = =", "I = ="]
PART = ["C 0 1:-1 = =", "O", "O"]
WHOLE_SUMMARY = b"settled 5 cut 2 removed 0 inner 2 small 1 open 0\n"


def call(text: bytes = RECIPROCAL, **settings: Any) -> Call:
    settings.setdefault("eps", Fraction(1, 4))
    return Call(minibex.read(text.decode()), canonical(text.decode()), **settings)


IDENTITY = call().identity


def file_of(version: int, nodes: Iterable[str], identity: str = IDENTITY) -> bytes:
    return lines(f"paving {version}", f"identity {identity}", *nodes)


def complete(levels: int, box: tuple[int, int], leaf: str = "X") -> list[str]:
    """The version 1 node lines of complete cuts in halves."""
    if not levels:
        return [leaf]
    low, high = box
    at = (low + high) // 2
    here = f"C 0 {spelling(at)} {spelling(low)} {spelling(high)}"
    return [here, *complete(levels - 1, (low, at), leaf), *complete(levels - 1, (at, high), leaf)]


def halved(levels: int, box: tuple[int, int]) -> list[str]:
    """The same by version 2, where each cut keeps both ends."""
    cuts = (line.split(" ") for line in complete(levels, box))
    return [f"{' '.join(cut[:3])} = =" if len(cut) > 1 else cut[0] for cut in cuts]


def rect(x: int, y: int, width: int, height: int, fill: str) -> str:
    return f'<rect x="{x}" y="{y}" width="{width}" height="{height}" fill="{fill}"/>'


def picture(*rects: str) -> bytes:
    head = '<svg xmlns="http://www.w3.org/2000/svg" width="1000" height="1000" viewBox="0 0 1000 1000">'
    return lines(head, *rects, "</svg>")


class PavingFiles(FolderTest):
    """Calls on paving files: what they answer, and which files they change."""

    def expect(self, words: Sequence[str | bytes], status: int, out: bytes | None = b"", err: bytes = b"",
               changed: Collection[str] = (), **how: Any) -> None:
        """A command has this status and output, and changes no other file; `out` None says that it may be anything."""
        before = self.files()
        got = self.call(*words, **how)
        after = self.files()
        self.assertEqual(got.returncode, status, (words, got.stderr))
        if out is not None:
            self.assertEqual(got.stdout, out, words)
        self.assertEqual(got.stderr, err, words)
        moved = {name for name in before | after if before.get(name) != after.get(name)}
        self.assertFalse(moved - set(changed), f"{words}: changed {sorted(moved)}")

    def same(self, one: str, other: str) -> None:
        self.assertFalse(subprocess.run(["cmp", "--silent", one, other], cwd=self.path).returncode, f"{one} and {other} differ")

    def holds(self, name: str, data: bytes | None) -> None:
        self.assertEqual(self.get(name), data, f"{name} holds {self.get(name)[:300]!r}")

    def test_stored_runs(self) -> None:
        self.put("s", RECIPROCAL)
        self.expect(["run", "s", *QUARTER, "--boxes", "1", "--out", "a"], 1,
                    b"settled 1 cut 1 removed 0 inner 0 small 0 open 2\n", changed="a")
        self.holds("a", file_of(2, PART))
        self.expect(["run", "s", *QUARTER, "--boxes", "5", "--out=b"], 0, WHOLE_SUMMARY, changed="b")
        self.holds("b", file_of(2, WHOLE))
        self.expect(["run", "s", *QUARTER, "--boxes", "4"], 1, None)
        self.put("half", HALF_LINE)
        self.expect(["run", "half", "--out", "p"], 0, b"settled 1 cut 0 removed 0 inner 1 small 0 open 0\n", changed="p")
        self.holds("p", file_of(2, ["I = 1:0"], call(HALF_LINE, eps=Fraction(1, 8)).identity))
        self.expect(["run", "half", "--out", "p"], 0, b"settled 1 cut 0 removed 0 inner 1 small 0 open 0\n")

    def test_resumed_runs(self) -> None:
        self.put("s", RECIPROCAL)
        self.put("a", file_of(2, PART))
        self.put("b", file_of(2, WHOLE))
        self.expect(["resume", "s", "a", *QUARTER, "--boxes", "4", "--out", "c"], 0, WHOLE_SUMMARY, changed="c")
        self.same("b", "c")
        self.expect(["resume", "s", "a", *QUARTER, "--boxes", "3", "--workers", "1"], 1,
                    lines("settled 4 cut 2 removed 0 inner 1 small 1 open 1", *WHOLE_1[:4], "O"))
        self.expect(["resume", "s", "a", *QUARTER, "--boxes", "100000"], 8, err=b"tree limit: 1 settled\n")
        self.expect(["resume", "s", "b", *QUARTER, "--boxes", "99996"], 8, err=b"tree limit: 5 settled\n")
        self.expect(["resume", "s", "b", *QUARTER, "--boxes", "99995", "--out", "d"], 0, WHOLE_SUMMARY, changed="d")
        self.same("b", "d")
        self.expect(["resume", "s", "a", *QUARTER, "--boxes", "4", "--out", "a"], 0, WHOLE_SUMMARY, changed="a")
        self.same("b", "a")

    def test_names_that_are_taken(self) -> None:
        """Nothing is stored under the system's own name or on the standard output; under a paving's name it is."""
        self.put("s", RECIPROCAL)
        self.put("a", file_of(2, PART))
        for name in ("s", "/dev/stdout", "/dev/fd/1", "/proc/self/fd/1"):
            for words in (["run", "s"], ["run-centered", "s"], ["resume", "s", "a"], ["merge", "s", "a"]):
                for out in (["--out", name], [f"--out={name}"]):
                    self.expect([*words, *out], 2, err=USAGE)
        self.expect(["run", "absent", "--out", "absent"], 2, err=USAGE)
        self.expect(["resume", "s", "a", *QUARTER, "--out", "a"], 0, WHOLE_SUMMARY, changed="a")

    def test_merged_files(self) -> None:
        for name, data in dict(s=RECIPROCAL, A=file_of(1, A), B=file_of(1, B), F=file_of(1, F), b=file_of(2, WHOLE),
                               old=file_of(1, WHOLE_1)).items():
            self.put(name, data)
        for names in (["A", "B"], ["B", "A"], ["A", "B", "A"], ["b", "A", "old", "B"], ["A"] * 7 + ["B"], ["old"]):
            self.expect(["merge", "s", *names, *QUARTER, "--out", "m"], 0, WHOLE_SUMMARY, changed="m")
            self.same("b", "m")
        self.expect(["merge", "s", "A", *QUARTER, "B"], 0, WHOLE_SUMMARY + lines(*WHOLE_1))
        self.expect(["merge", "s", "A", "A", *QUARTER, "--out", "n"], 1, b"settled 3 cut 2 removed 0 inner 1 small 0 open 2\n",
                    changed="n")
        self.holds("n", file_of(2, ["C 0 1:-1 = =", "C 0 1:-2 = =", "O", "O", "I = ="]))
        apart = b"disagree 0: C 0 1:-2 0:0 1:-1 | I 0:0 1:-1\n"
        self.expect(["merge", "s", "A", "F", *QUARTER, "--out", "x"], 9, err=apart)
        self.expect(["merge", "s", "A", "B", "F", *QUARTER], 9, err=apart)
        self.expect(["resume", "s", "A", "F", *QUARTER], 9, err=apart)
        self.expect(["merge", "s", "F", "A", *QUARTER], 9, err=b"disagree 0: I 0:0 1:-1 | C 0 1:-2 0:0 1:-1\n")
        for count in (0, 9):
            self.expect(["merge", "s", *["A"] * count, *QUARTER], 2, err=USAGE)
        self.expect(["merge", "s", *["A"] * 5, *QUARTER, *["B"] * 4], 2, err=USAGE)
        self.expect(["merge", "s", "A", "--boxes", "1"], 2, err=USAGE)

    def test_audited_files(self) -> None:
        for name, data in dict(s=RECIPROCAL, A=file_of(1, A), b=file_of(2, WHOLE), F=file_of(1, F)).items():
            self.put(name, data)
        self.expect(["audit", "s", "F", *QUARTER], 9, err=b"differs 0: I 0:0 1:-1 | C 0 1:-2 0:0 1:-1\n")
        self.expect(["audit", "s", "A", *QUARTER], 0, b"honest\n")
        self.expect(["audit", "s", "b", *QUARTER], 0, b"honest\n")
        self.expect(["audit", "s", "b", "b", *QUARTER], 2, err=USAGE)
        self.expect(["audit", "s", "b", *QUARTER, "--out", "x"], 2, err=USAGE)

    def test_workers_store_the_same(self) -> None:
        self.put("s", TWO_DISCS)
        for workers in ("1", "2", "8"):
            self.expect(["run", "s", "--workers", workers, "--out", f"p{workers}"], 0,
                        b"settled 323 cut 161 removed 0 inner 74 small 88 open 0\n", changed=[f"p{workers}"])
            self.same("p1", f"p{workers}")
        self.expect(["audit", "s", "p8"], 0, b"honest\n")
        reference = call(TWO_DISCS, eps=Fraction(1, 8))
        self.holds("p1", reference.run(20000, "p")[3])
        self.expect(["run", "s", "--boxes", "100", "--out", "q"], 1, None, changed="q")
        self.expect(["resume", "s", "q", "--out", "r"], 0, None, changed="r")
        self.same("p1", "r")

    def test_bad_files(self) -> None:
        whole = file_of(2, WHOLE)
        self.put("s", RECIPROCAL)
        third = whole.index(b"S = =") + 2
        made = {
            "bad line 5": whole[:third],
            "wrong identity": file_of(2, WHOLE, "0" * 64),
            "bad line 8": file_of(1, [*WHOLE_1, "O"]),
            "bad line 1": b"",
            "bad line 2": lines("paving 2", "identity " + "A" * 64),
            "bad line 3": file_of(1, ["C 0 2:-2 0:0 1:0", "O", "O"]),
        }
        for fault, data in made.items():
            self.put("f", data)
            for words in (["resume", "s", "f"], ["merge", "s", "f"], ["audit", "s", "f"]):
                self.expect([*words, *QUARTER], 4, err=f"paving f: {fault}\n".encode())
        self.put("f", whole)
        self.expect(["resume", "s", "f", "--eps", "0.5"], 4, err=b"paving f: wrong identity\n")
        for nodes in (["C 0 1:0 0:0 1:0", "O", "O"], ["I = 1:0"], ["C 0 1:1 0:0 1:0", "O", "O"], ["I 0:0 1:1"],
                      ["I 1:0 0:0"], ["I 0:0"], ["I 0:0 1:0 0:0 1:0"], ["C 1 1:-1 0:0 1:0", "O", "O"],
                      ["I 0:0 1:0 "], ["I  0:0 1:0"], ["X "], ["x"], ["O\r"], ["I 0:0 2:-1"], ["I +oo +oo"]):
            self.put("f", file_of(1, nodes))
            self.expect(["merge", "s", "f", *QUARTER], 4, err=b"paving f: bad line 3\n")
        self.put("f", file_of(2, ["I 0:0 1:-1"]))
        self.expect(["merge", "s", "f", *QUARTER], 4, err=b"paving f: bad line 3\n")
        self.put("f", b"#" * 70_000_001)
        self.expect(["audit", "s", "f"], 4, err=b"paving f: too long\n")
        self.put("f", b"#" * 70_000_000)
        self.expect(["audit", "s", "f"], 4, err=b"paving f: bad line 1\n")

    def test_cut_anywhere(self) -> None:
        self.put("s", RECIPROCAL)
        for version, nodes in ((1, WHOLE_1), (2, WHOLE)):
            whole = file_of(version, nodes)
            for n in range(len(whole)):
                self.put("f", whole[:n])
                self.expect(["resume", "s", "f", *QUARTER, "--boxes", "4", "--out", "m"], 4,
                            err=f"paving f: bad line {whole[:n].count(10) + 1}\n".encode())

    def test_each_byte_replaced(self) -> None:
        self.put("s", RECIPROCAL)
        for version, nodes in ((1, WHOLE_1), (2, WHOLE)):
            whole = file_of(version, nodes)
            for n in range(len(whole)):
                self.put("f", whole[:n] + b"#" + whole[n + 1:])
                line = f"paving f: bad line {whole[:n].count(10) + 1}\n".encode()
                self.expect(["merge", "s", "f", *QUARTER], 4, err=line)
                self.expect(["resume", "s", "f", *QUARTER, "--boxes", "4", "--out", "m"], 4, err=line)

    def test_big_trees(self) -> None:
        self.put("s", RECIPROCAL)
        self.put("f", file_of(1, complete(16, (0, UNIT))))
        self.expect(["merge", "s", "f", *QUARTER], 4, err=b"paving f: too many nodes at line 100003\n")
        half = UNIT // 2
        self.put("low", file_of(1, ["C 0 1:-1 0:0 1:0", *complete(15, (0, half)), "O"]))
        self.put("high", file_of(1, ["C 0 1:-1 0:0 1:0", "O", *complete(15, (half, UNIT))]))
        self.expect(["merge", "s", "low", "high", *QUARTER, "--out", "x"], 8, err=b"tree limit: 131071 settled\n")
        self.expect(["resume", "s", "low", "high", *QUARTER, "--out", "x"], 8, err=b"tree limit: 131071 settled\n")
        self.put("low 2", file_of(2, ["C 0 1:-1 = =", *halved(15, (0, half)), "O"]))
        self.put("high 2", file_of(2, ["C 0 1:-1 = =", "O", *halved(15, (half, UNIT))]))
        self.expect(["merge", "s", "low 2", "high 2", *QUARTER, "--out", "x"], 8, err=b"tree limit: 131071 settled\n")
        self.expect(["merge", "s", "low", *QUARTER, "--out", "x"], 1, None, changed="x")
        self.expect(["merge", "s", "x", "low", *QUARTER, "--out", "y"], 1, None, changed="y")
        self.same("x", "y")

    def test_names_folders_and_disks(self) -> None:
        self.put("s", RECIPROCAL)
        self.put("b", file_of(2, WHOLE))
        (self.path / "d").mkdir()
        for words in (["merge", "s", "b"], ["resume", "s", "b"]):
            self.expect([*words, "no", *QUARTER], 11, err=b"no file: no\n")
            self.expect([*words, "d", *QUARTER], 5, err=b"read fault: d\n")
        self.expect(["audit", "s", "no", *QUARTER], 11, err=b"no file: no\n")
        self.expect(["audit", "no", "b", *QUARTER], 11, err=b"no file: no\n")
        self.expect(["audit", "s", "d", *QUARTER], 5, err=b"read fault: d\n")
        self.expect(["merge", "s", "b", *QUARTER, "--out", "d"], 6, err=b"write fault: d\n")
        self.expect(["run", "s", *QUARTER, "--out", "/dev/full"], 6, err=b"write fault: /dev/full\n")
        self.expect(["run", "s", *QUARTER, "--out", "no/such"], 6, err=b"write fault: no/such\n")
        with open("/dev/full", "wb") as full:
            self.expect(["audit", "s", "b", *QUARTER], 6, None, err=b"write fault: standard output\n", stdout=full)
            self.expect(["merge", "s", "b", *QUARTER, "--out", "m"], 6, None, err=b"write fault: standard output\n",
                        changed="m", stdout=full)
        self.same("b", "m")
        self.expect(["merge", "s", "b", *QUARTER, "--contract", "hc4(1)"], 2, err=b"contract: refused at byte 4\n")
        self.put("t", system("x in [0,4]", "x + <= 1"))
        self.expect(["merge", "t", "no"], 3, err=b"system: line 1 column 39 byte 38: Unexpected\n")

    def test_order_of_refusals(self) -> None:
        self.put("s", RECIPROCAL)
        self.put("A", file_of(1, A))
        self.put("F", file_of(1, F))
        self.put("cut", b"paving 2\n")
        self.expect(["merge", "s", "A", "cut", "no", *QUARTER], 4, err=b"paving cut: bad line 2\n")
        self.expect(["merge", "s", "A", "no", "cut", *QUARTER], 11, err=b"no file: no\n")
        self.expect(["merge", "s", "no", *QUARTER, "--contract", "x"], 2, err=b"contract: refused at byte 0\n")
        self.expect(["resume", "s", "A", "F", *QUARTER, "--boxes", "100000"], 9,
                    err=b"disagree 0: C 0 1:-2 0:0 1:-1 | I 0:0 1:-1\n")
        self.expect(["resume", "s", "A", *QUARTER, "--boxes", "100001"], 2, err=USAGE)

    def test_files_that_disagree_before_others(self) -> None:
        """A fault of a later file is told first, and else the first disagreement."""
        for name, data in dict(s=RECIPROCAL, A=file_of(1, A), B=file_of(1, B), F=file_of(1, F), G=file_of(1, G),
                               cut=b"paving 2\n", other=file_of(2, ["I = 1:0"], call(HALF_LINE).identity)).items():
            self.put(name, data)
        (self.path / "d").mkdir()
        for last, status, fault in (("no", 11, b"no file: no\n"), ("d", 5, b"read fault: d\n"),
                                    ("other", 4, b"paving other: wrong identity\n"), ("cut", 4, b"paving cut: bad line 2\n")):
            for names in (["A", "F", last], ["A", "F", "B", last], ["A", "F", "G", last, "cut", "no"], ["F", last, "A"]):
                for words in (["merge"], ["resume", "--boxes", "100000"]):
                    self.expect([*words, "s", *names, *QUARTER], status, err=fault)
        at_0 = b"disagree 0: C 0 1:-2 0:0 1:-1 | I 0:0 1:-1\n"
        at_1 = b"disagree 1: I 1:-1 1:0 | S 1:-1 1:0\n"
        for names, fault in ((["A", "F", "B"], at_0), (["A", "F", "G"], at_0), (["A", "G", "F"], at_1),
                             (["B", "A", "G", "F"], at_1)):
            self.expect(["merge", "s", *names, *QUARTER], 9, err=fault)
            self.expect(["resume", "s", *names, *QUARTER], 9, err=fault)
        self.put("many", file_of(1, complete(16, (0, UNIT))))
        self.expect(["merge", "s", "A", "F", "many", *QUARTER], 4, err=b"paving many: too many nodes at line 100003\n")

    def test_drawn_files(self) -> None:
        one = b"settled 1 cut 0 removed 0 inner 1 small 0 open 0\n"
        half = picture(rect(0, 0, 1000, 1000, "#cfd8dc"), rect(0, 0, 500, 1000, "#43a047"))
        self.put("s", system("x in [0,2], y in [0,2]", "x <= 1"))
        self.expect(["run", "s", "--out", "p"], 0, one, changed="p")
        self.expect(["svg", "s", "p", "--x", "x", "--y", "y"], 0, half)
        self.expect(["svg", "--y", "x", "s", "--x=y", "p"], 0,
                    picture(rect(0, 0, 1000, 1000, "#cfd8dc"), rect(0, 500, 1000, 500, "#43a047")))
        self.put("e", system("x in [0,1], y in [0,1]", "x < 0"))
        self.expect(["run", "e", "--out", "q"], 0, b"settled 1 cut 0 removed 1 inner 0 small 0 open 0\n", changed="q")
        self.expect(["svg", "e", "q", "--x", "x", "--y", "y"], 0, picture(rect(0, 0, 1000, 1000, "#cfd8dc")))
        self.put("c", system("x in [0,2], y in [0,2], z in [-1,4]", "x <= 1"))
        self.expect(["run", "c", "--out", "r"], 0, one, changed="r")
        for at in ("-1", "4", "1e-3"):
            self.expect(["svg", "c", "r", "--x", "x", "--y", "y", f"--at={at}"], 0, half)
        self.expect(["svg", "c", "r", "--x", "x", "--y", "y", "--at=-1.01"], 0, picture())
        self.expect(["svg", "c", "r", "--x", "x", "--y", "y", "--at=-.5"], 2, err=USAGE)
        self.put("t", RECIPROCAL)
        self.put("b", file_of(2, WHOLE))
        for words in (["t", "b", "--x", "x", "--y", "x", *QUARTER], ["s", "p", "--x", "x", "--y", "z"], ["s", "p", "--x", "x"],
                      ["s", "p", "--x", "x", "--y", "y", "--at", "1"], ["c", "r", "--x", "x", "--y", "y"],
                      ["no", "p", "--x", "x", "--y", "y", "--at", "1,"], ["s", "no", "--x", "x", "--y", "w"]):
            self.expect(["svg", *words], 2, err=USAGE)
        self.expect(["svg", "no", "p", "--x", "w", "--y", "w", "--at", "1,2"], 11, err=b"no file: no\n")
        self.expect(["svg", "s", "no", "--x", "x", "--y", "y"], 11, err=b"no file: no\n")
        self.expect(["svg", "s", "p", "--x", "w", "--y", "w", "--contract", "x"], 2, err=b"contract: refused at byte 0\n")
        self.expect(["svg", "s", "p", "--x", "x", "--y", "y", *QUARTER], 4, err=b"paving p: wrong identity\n")
        with open("/dev/full", "wb") as full:
            self.expect(["svg", "s", "p", "--x", "x", "--y", "y"], 6, None, err=b"write fault: standard output\n", stdout=full)

    def test_samples(self) -> None:
        """A sample's report is that of a run of the system that the reference makes, which stores its paving."""
        words = ["--eps", "8", "--depth", "14", "--boxes", "100000"]
        for seed, count in ((1, 2), (7, 1), (7, 16), (2147483647, 3), (0, 5)):
            self.put("s", sample.text_of(seed, count).encode())
            stored = subprocess.run([self.program, "run", "s", *words, "--out", "p"], cwd=self.path, stdout=subprocess.PIPE,
                                    check=True)
            digest = hashlib.sha256(self.get("p")).hexdigest()
            report = f"sample seed {seed} count {count}\n".encode() + stored.stdout + f"file {digest}\n".encode()
            for _ in range(2):
                self.expect(["sample", "--seed", str(seed), f"--count={count}"], 0, report)
        none: list[str] = []
        for refused in (none, ["--seed", "1"], ["--seed", "1", "--count", "0"], ["--seed", "2147483648", "--count", "1"],
                        ["--seed", "1", "--count", "17"], ["s", "--seed", "1", "--count", "1"]):
            self.expect(["sample", *refused], 2, err=USAGE)
        with open("/dev/full", "wb") as full:
            self.expect(["sample", "--seed", "1", "--count", "1"], 6, None, err=b"write fault: standard output\n", stdout=full)

    def test_words_that_are_no_text(self) -> None:
        self.put("s", HALF_LINE)
        self.expect([b"run", b"\xff"], 2, err=USAGE)

    def test_settings_of_others(self) -> None:
        self.put("s", RECIPROCAL)
        self.put("t", system("x in [0,1]", "1/x >= 1"))
        self.expect(["run", "s", *QUARTER, "--out", "p"], 0, WHOLE_SUMMARY, changed="p")
        for words in (["t", "p", *QUARTER], ["s", "p"], ["s", "p", *QUARTER, "--depth", "59"],
                      ["s", "p", *QUARTER, "--bisect", "round"], ["s", "p", *QUARTER, "--contract", "prop(7)"]):
            self.expect(["audit", *words], 4, err=b"paving p: wrong identity\n")
        self.expect(["audit", "s", "p", "--eps", "2.5e-1", "--depth", "0060", "--bisect", "largest", "--contract", "prop(8)"],
                    0, b"honest\n")

    def test_centered_files(self) -> None:
        self.put("s", NO_MORE)
        eighth = Fraction(1, 8)
        whole = file_of(2, ["I = ="], call(NO_MORE, eps=eighth, centered=True).identity)
        for workers in ("1", "8"):
            self.expect(["run-centered", "s", "--workers", workers, "--out", "p"], 0,
                        b"settled 1 cut 0 removed 0 inner 1 small 0 open 0\n", changed="p")
            self.holds("p", whole)
            self.expect(["audit-centered", "s", "p"], 0, b"honest\n")
        for words in (["audit", "s", "p"], ["merge", "s", "p"], ["resume", "s", "p"]):
            self.expect(words, 4, err=b"paving p: wrong identity\n")
        self.put("n", file_of(2, ["I = ="], call(NO_MORE, eps=eighth).identity))
        self.expect(["audit-centered", "s", "n"], 4, err=b"paving n: wrong identity\n")
        self.expect(["audit", "s", "n"], 9, err=b"differs .: I 0:0 1:0 | C 0 1:-1 0:0 1:0\n")
        self.put("d", TWO_DISCS)
        self.expect(["run-centered", "d", "--boxes", "40", "--out", "q"], 1, None, changed="q")
        self.expect(["audit-centered", "d", "q"], 0, b"honest\n")
        _, printed, _, stored = answer(lambda: call(TWO_DISCS, eps=eighth, centered=True).run(100000, "q"))
        self.expect(["run-centered", "d", "--boxes", "100000", "--out", "q"], 0, printed, changed="q")
        self.holds("q", stored)
        self.expect(["audit-centered", "d", "q"], 0, b"honest\n")


if __name__ == "__main__":
    main()
