"""Runs commands on a tree of 886,217 settled nodes, which `--limit` allows, and on files with one node more than a limit.

    python3 -m tests.runners.sizes [-k WORD]

The count of the ring's nodes is that of a plain paver outside this repository.
"""
from __future__ import annotations

import os
import resource
import subprocess
import tempfile
from pathlib import Path

from tests.runners.running import FolderTest, main, run

RING = "ring"
TEXT = b"Variables x in [-3, 3], y in [-3, 3]; Constraints x^2 + y^2 >= 1; x^2 + y^2 <= 2; end\n"
EPS = ["--eps", "0.0001"]
LARGE = ["--limit", "1000000"]
NODES = 886_217
STEP = 24 << 20  # bytes of address space
USAGE = b"usage: paver COMMAND SYSTEM [OPTIONS] [PAVING..]\n"


class Sizes(FolderTest):
    """Commands in a folder with the whole paving of the ring, by one worker."""
    folder: Path
    done: subprocess.CompletedProcess[bytes]

    @classmethod
    def setUpClass(cls) -> None:
        made = tempfile.TemporaryDirectory()
        cls.addClassCleanup(made.cleanup)
        cls.folder = Path(made.name)
        (cls.folder / RING).write_bytes(TEXT)
        words = ["run", RING, *EPS, *LARGE, "--boxes", "1000000", "--workers", "1", "--out", "whole"]
        cls.done = run(cls.folder, *words)

    def setUp(self) -> None:
        self.path, self.summary = self.folder, self.done.stdout
        self.assertEqual(self.done.returncode, 0, self.done.stderr)
        self.assertTrue(self.summary.startswith(f"settled {NODES} ".encode()), self.summary)

    def wants(self, words: list[str], status: int, out: bytes | None = None, err: bytes = b"") -> None:
        """A call has this status, output and line."""
        done = self.call(*words)
        self.assertEqual((done.returncode, done.stderr), (status, err),
                         f"{words}: {done.returncode} {done.stdout[:200]!r} {done.stderr!r}")
        self.assertIn(out, (None, done.stdout), f"{words}: {done.returncode} {done.stdout[:200]!r} {done.stderr!r}")

    def is_whole(self, name: str) -> None:
        self.assertEqual((self.path / name).read_bytes(), (self.path / "whole").read_bytes(),
                         f"{name} differs from what one worker wrote")

    def most_memory(self, *words: str) -> int:
        """The most memory in KiB that a call took, which was done."""
        with subprocess.Popen([self.program, *words], cwd=self.path, stdout=subprocess.DEVNULL) as child:
            _, status, usage = os.wait4(child.pid, 0)
            child.returncode = os.waitstatus_to_exitcode(status)
        self.assertEqual(child.returncode, 0, words)
        return usage.ru_maxrss

    def test_several_workers(self) -> None:
        for workers in ("4", "16"):
            self.wants(["run", RING, *EPS, *LARGE, "--boxes", str(NODES), "--workers", workers, "--out", "more"], 0,
                       self.summary)
            self.is_whole("more")

    def test_resumed_and_merged(self) -> None:
        self.wants(["run", RING, *EPS, *LARGE, "--boxes", "400000", "--out", "part"], 1)
        self.wants(["resume", RING, "part", *EPS, *LARGE, "--boxes", "600000", "--out", "on"], 0, self.summary)
        self.is_whole("on")
        self.wants(["merge", RING, "part", "whole", *EPS, *LARGE, "--out", "joined"], 0, self.summary)
        self.is_whole("joined")
        self.wants(["resume", RING, "part", *EPS, *LARGE, "--boxes", "600001"], 8, b"", b"tree limit: 400000 settled\n")

    def test_memory_of_joins(self) -> None:
        """A join of eight files takes the memory of one of two, within a tenth."""
        for words in (["merge", RING], ["resume", RING, "--boxes", "1"]):
            two, eight = (self.most_memory(*words, *["whole"] * count, *EPS, *LARGE, "--out", "joined") for count in (2, 8))
            self.assertLessEqual(eight, two * 1.1, f"{words}: {two} and {eight} KiB")
            self.is_whole("joined")

    def starved(self, words: list[str], target: str, right: str) -> None:
        """Calls with address space in steps until the answer stands: before that each wants memory, and leaves its target as it
        was, which then has the bytes of a file."""
        known, wanted, status = (self.path / right).read_bytes(), 0, 7
        while status == 7:
            before = (self.path / target).read_bytes() if (self.path / target).exists() else None
            space = 2 * STEP + wanted * STEP
            done = self.call(*words, preexec_fn=lambda space=space: resource.setrlimit(resource.RLIMIT_AS, (space, space)))
            status = done.returncode
            if status == 7:
                wanted += 1
                self.assertEqual((done.stdout, done.stderr), (b"", b"want of memory\n"), (words, space))
                after = (self.path / target).read_bytes() if (self.path / target).exists() else None
                self.assertEqual(after, before, (words, space))
                self.assertEqual([*self.path.glob("*paver*")], [], (words, space))
        self.assertEqual((status, done.stdout, done.stderr), (0, self.summary, b""), words)
        self.assertEqual((self.path / target).read_bytes(), known, words)
        self.assertGreater(wanted, 1, f"{words}: memory was never wanted")

    def test_little_memory(self) -> None:
        """Want of memory at each size of the tree: nothing is lost, and nothing is half stored."""
        large = [*EPS, *LARGE]
        for workers in ("1", "4"):
            run_words = ["run", RING, *large, "--boxes", "1000000", "--workers", workers, "--out", f"new{workers}"]
            self.starved(run_words, f"new{workers}", "whole")
        self.wants(["run", RING, *large, "--boxes", "800000", "--out", "over"], 1)
        self.starved(["resume", RING, "over", *large, "--boxes", "200000", "--out", "over"], "over", "whole")
        self.wants(["run", RING, *large, "--boxes", "800000", "--out", "part"], 1)
        self.starved(["merge", RING, "part", "whole", *large, "--out", "part"], "part", "whole")

    def test_audited_and_drawn(self) -> None:
        self.wants(["audit", RING, "whole", *EPS, *LARGE], 0, b"honest\n")
        drawn = self.call("svg", RING, "whole", *EPS, *LARGE, "--x", "x", "--y", "y")
        self.assertEqual(drawn.returncode, 0, f"svg: {drawn.returncode} {drawn.stderr!r}")
        self.assertTrue(drawn.stdout.endswith(b"</svg>\n"), f"svg: {drawn.returncode} {drawn.stderr!r}")
        self.assertGreaterEqual(drawn.stdout.count(b"<rect"), 100_000, f"svg: {drawn.returncode} {drawn.stderr!r}")

    def test_kept(self) -> None:
        self.wants(["campaign", RING, *EPS, *LARGE, "--keep", "k", "--boxes", "300000", "--rounds", "3"], 0, self.summary)
        self.wants(["campaign", RING, *EPS, "--keep", "k"], 4, b"", b"paving k: too many rows\n")

    def test_refused_without_it(self) -> None:
        """A whole file has a line for each settled node behind its two first ones."""
        for most in (100_000, NODES - 1):
            self.wants(["audit", RING, "whole", *EPS, "--limit", str(most)], 4, b"",
                       f"paving whole: too many nodes at line {most + 3}\n".encode())
        self.wants(["merge", RING, "whole", *EPS], 4, b"", b"paving whole: too many nodes at line 100003\n")
        self.wants(["audit", RING, "whole", *EPS, "--limit", str(NODES)], 0, b"honest\n")

    def test_limit_alone(self) -> None:
        """Where no budget is given, a limit that is given is the budget of what begins anew, and of nothing else."""
        self.wants(["run", RING, *EPS, *LARGE], 0, None)
        self.wants(["run", RING, *EPS, *LARGE, "--out", "alone"], 0, self.summary)
        for command in (["run"], ["run-centered"]):
            done = self.call(*command, RING, *EPS, "--limit", "150000", "--out", "part")
            self.assertEqual((done.returncode, done.stdout.split()[:2]), (1, [b"settled", b"150000"]), done.stderr)
        self.wants(["run", RING, *EPS, *LARGE, "--boxes", "20000", "--out", "part"], 1, None)
        done = self.call("resume", RING, "part", *EPS, *LARGE, "--out", "part")
        self.assertEqual((done.returncode, done.stdout.split()[:2]), (1, [b"settled", b"40000"]), done.stderr)
        least = [self.call("least", RING, *EPS, "--limit", "150000", "--of", "x*y", *more).stdout
                 for more in ([], ["--boxes", "150000"], ["--boxes", "20000"])]
        self.assertEqual(least[0], least[1])
        self.assertNotEqual(least[0], least[2])

    def test_refused_words(self) -> None:
        for words in (["--boxes", "100001"], ["--limit", "99999"], ["--limit", "100000001"],
                      [*LARGE, "--boxes", "1000001"], ["--limit", ""], ["--limit", "+200000"], [*LARGE, *LARGE]):
            self.wants(["run", RING, *words], 2, b"", USAGE)
        self.wants(["check", RING, *LARGE], 2, b"", USAGE)


if __name__ == "__main__":
    main()
