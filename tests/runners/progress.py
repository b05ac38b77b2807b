"""Runs the real binary with its line of progress shown, hidden and left to whether standard error is a terminal. The line
comes and is wiped, and nothing else changes: not what is printed, not what is stored, not the command's own line on standard
error, not the status.

    python3 -m tests.runners.progress [-k WORD]
"""
from __future__ import annotations

import os
import pty
import re
import statistics
import subprocess
import time

from tests.runners.outside import RING
from tests.runners.running import SECONDS, FolderTest, main, rows

LINE = re.compile(rb"([\d,]+) settled, ([\d,]+) a second, (1 worker|(?:[2-9]|1[0-6]) workers) *")
NUMBER = re.compile(rb"\d{1,3}(,\d{3})*")
SHORT = ["run", "s", "--eps", "0.05"]
LONG = ["run", "s", "--eps", "0.00005", "--boxes", "10000000", "--limit", "10000000", "--workers", "2", "--out", "p"]
# Calls that settle no node, over the files `s` and `p`.
SETTLING_NOTHING = [["check", "s"], ["audit", "s", "p", "--eps", "0.05"], ["merge", "s", "p", "--eps", "0.05"],
                    ["least", "s", "--of", "x", "--eps", "0.05"]]


def surroundings(wish: str | None) -> dict[str, str]:
    """The environment with this value of PAVER_PROGRESS, or with none."""
    others = {name: value for name, value in os.environ.items() if name != "PAVER_PROGRESS"}
    return others if wish is None else {**others, "PAVER_PROGRESS": wish}


def read_all(terminal: int) -> bytes:
    """What a terminal is given until nobody holds its other end."""
    given = b""
    while True:
        try:
            piece = os.read(terminal, 65536)
        except OSError:
            return given
        if not piece:
            return given
        given += piece


def lines_and_rest(given: bytes) -> tuple[list[bytes], list[bytes], bytes]:
    """The lines of progress that a stream was given, the pieces with those that wipe, and what stands behind the last one."""
    *before, rest = given.split(b"\r")
    return [piece for piece in before if piece.strip(b" ")], before, rest


def times_of(lines: list[bytes]) -> list[float]:
    """At how many seconds each line was written: what was settled by then, over how much of it came in a second."""
    found = [LINE.fullmatch(line) for line in lines]
    pairs = [[int(number.replace(b",", b"")) for number in match.groups()[:2]] for match in found if match]
    return [settled / max(rate, 1) for settled, rate in pairs]


class Progress(FolderTest):
    """Runs of a system whose line of progress is shown, or isn't."""

    def setUp(self) -> None:
        super().setUp()
        self.put("s", RING)

    def told(self, wish: str | None, *words: str) -> tuple[int, bytes, bytes]:
        """A call with this value of PAVER_PROGRESS, or with none: its status and both streams."""
        return self.answered(*words, env=surroundings(wish))

    def on_terminal(self, wish: str | None, *words: str) -> tuple[int, bytes, bytes]:
        """A call whose standard error is a terminal: its status, what it prints and what the terminal is given."""
        ours, theirs = pty.openpty()
        with open(self.path / "printed", "wb") as printed, subprocess.Popen(
                [self.program, *words], cwd=self.path, stdin=subprocess.DEVNULL, stdout=printed, stderr=theirs,
                env=surroundings(wish)) as child:
            os.close(theirs)
            given = read_all(ours)
            status = child.wait(SECONDS)
        os.close(ours)
        return status, self.get("printed"), given

    def check_lines(self, given: bytes, own: bytes = b"") -> None:
        """On standard error there are lines of progress, of which the last was wiped, and the command's own line."""
        lines, before, rest = lines_and_rest(given)
        self.assertTrue(lines, f"no line of progress: {given!r}")
        for line in lines:
            found = LINE.fullmatch(line)
            self.assertTrue(found, line)
            for number in found.groups()[:2]:
                self.assertTrue(NUMBER.fullmatch(number), f"digits that are grouped otherwise: {number!r}")
        self.assertEqual(before[-1].strip(b" "), b"", "a line that was not wiped")
        self.assertGreaterEqual(len(before[-1]), len(lines[-1].rstrip(b" ")), "a line that was wiped in part")
        self.assertEqual(rest, own)

    def check_same(self, *words: str) -> None:
        """A command with the line shown answers what it does with none."""
        status, printed, _ = self.told("0", *words)
        other, shown, given = self.told("1", *words)
        self.check_lines(given)
        self.assertEqual(other, status, words)
        self.assertTrue(shown == printed, f"{words}: another answer")

    # ---- shown

    def test_a_run_shows_the_line_and_wipes_it(self) -> None:
        for count in ("1", "4"):
            with self.subTest(workers=count):
                self.check_same(*SHORT, "--workers", count)

    def test_a_run_that_stores_shows_it(self) -> None:
        self.check_same(*SHORT, "--out", "p")
        whole = self.get("p")
        self.told("0", *SHORT, "--out", "q")
        self.assertTrue(self.get("q") == whole, "another file")

    def test_a_budget_that_ends_leaves_its_status(self) -> None:
        status, _, given = self.told("1", *SHORT, "--boxes", "40")
        self.check_lines(given)
        self.assertEqual(status, 1)

    def test_resumed_and_centered_runs_show_it(self) -> None:
        self.told("0", *SHORT, "--boxes", "40", "--out", "p")
        self.check_same("resume", "s", "p", "--eps", "0.05")
        self.check_same("run-centered", "s", "--eps", "0.05")

    def test_a_campaign_shows_it(self) -> None:
        words = ["--rounds", "3", "--boxes", "40", "--eps", "0.05", "--workers", "1"]
        status, printed, _ = self.told("0", "campaign", "s", "--keep", "a.db", *words)
        other, shown, given = self.told("1", "campaign", "s", "--keep", "b.db", *words)
        self.check_lines(given)
        self.assertEqual((other, shown), (status, printed))

    def test_a_refusal_after_the_line_stands_alone(self) -> None:
        status, _, given = self.told("1", *SHORT, "--out", "no/p")
        self.check_lines(given, b"write fault: no/p\n")
        self.assertEqual(status, 6)

    def test_a_line_comes_twice_a_second(self) -> None:
        """By the lines' own times, half a second lies between two at least, and hardly more: where the machine has a pause,
        one is late, and the run is made again."""
        for _ in range(20):
            _, _, given = self.told("1", *LONG)
            self.check_lines(given)
            times = times_of(lines_and_rest(given)[0])
            gaps = [later - earlier for earlier, later in zip(times, times[1:])]
            self.assertGreaterEqual(len(gaps), 2, times)
            self.assertGreaterEqual(min(gaps), 0.499, times)
            if statistics.median_low(gaps) <= 0.7:
                return
        self.fail(f"the lines come seldom: {times}")

    # ---- not shown

    def test_what_settles_nothing_shows_none(self) -> None:
        self.told("0", *SHORT, "--out", "p")
        for words in rows(SETTLING_NOTHING):
            with self.subTest(words[0]):
                self.assertEqual(self.told("1", *words)[2], b"")

    def test_nothing_is_shown_in_a_pipe(self) -> None:
        for wish in (None, "", "0", "2", "11", "yes"):
            with self.subTest(wish=wish):
                self.assertEqual(self.told(wish, *SHORT)[2], b"")

    def test_a_standard_error_that_is_closed_changes_nothing(self) -> None:
        wanted = self.told("0", *SHORT)[:2]
        shell = ["sh", "-c", 'exec "$@" 2>&-', "sh", self.program, *SHORT]
        done = subprocess.run(shell, cwd=self.path, stdin=subprocess.DEVNULL, stdout=subprocess.PIPE, env=surroundings("1"),
                              timeout=SECONDS, check=False)
        self.assertEqual(done.returncode, wanted[0])
        self.assertTrue(done.stdout == wanted[1], "another answer")

    # ---- on a terminal

    def test_a_terminal_shows_it_after_a_second(self) -> None:
        status, _, given = self.on_terminal(None, *LONG)
        self.check_lines(given)
        self.assertIn(status, (0, 1))
        self.assertGreaterEqual(times_of(lines_and_rest(given)[0])[0], 1)

    def test_a_terminal_shows_none_before(self) -> None:
        """Of a call that the machine holds up for a second nothing is asked."""
        for _ in range(100):
            begun = time.monotonic()
            status, _, given = self.on_terminal(None, *SHORT)
            self.assertEqual(status, 0)
            if time.monotonic() - begun < 1:
                self.assertEqual(given, b"")
                return
        self.fail("each of 100 short calls took a second")

    def test_a_terminal_is_left_in_peace(self) -> None:
        self.assertEqual(self.on_terminal("0", *LONG)[2], b"")


if __name__ == "__main__":
    main()
