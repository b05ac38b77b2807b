"""Runs the real binary where what is outside it is unkind: streams that are closed, broken, full or slow, files without
an end, files that grow, pipes, folders and odd names. What the machine limits is in limits.py.

    python3 -m tests.runners.outside [-k WORD]
"""
from __future__ import annotations

import os
import subprocess
import sys
import time
from collections.abc import Callable, Collection, Sequence
from typing import Any, BinaryIO

from tests.data.cases import HALF_LINE, RECIPROCAL, USAGE, system
from tests.runners.running import SECONDS, FolderTest, main

RING = system("x in [-3,3], y in [-3,3]", "x^2 + y^2 >= 1; x^2 + y^2 <= 4")
PRINT_FAULT = b"write fault: standard output\n"
# A call of each command that prints, over the files of `prepared`.
PRINTING = [["check", "s"], ["run", "s"], ["run-centered", "s"], ["resume", "s", "part"], ["merge", "s", "p"],
            ["audit", "s", "p"], ["audit-centered", "s", "c"], ["svg", "s", "p", "--x", "x", "--y", "y"],
            ["least", "s", "--of", "x*y", "--boxes", "500"], ["sample", "--seed", "1", "--count", "1"]]
# Calls that are refused over the same files, their statuses and lines.
REFUSED = [(["run", "--eps"], 2, USAGE), (["run", "s", "--contract", "x"], 2, b"contract: refused at byte 0\n"),
           (["least", "s", "--of", "x+"], 2, b"objective: byte 2: EndOfText\n"),
           (["check", "bad"], 3, b"system: line 1 column 39 byte 38: Unexpected\n"),
           (["audit", "s", "bad"], 4, b"paving bad: bad line 1\n"), (["run", "."], 5, b"read fault: .\n"),
           (["run", "s", "--out", "."], 6, b"write fault: .\n"),
           (["resume", "s", "part", "--boxes", "100000"], 8, b"tree limit: 1 settled\n"),
           (["run", "no"], 11, b"no file: no\n")]


def closed(number: int) -> Callable[[], None]:
    return lambda: os.close(number)


def broken() -> BinaryIO:
    reader, writer = os.pipe()
    os.close(reader)
    return os.fdopen(writer, "wb")


class KeptTest(FolderTest):
    """A test in a folder in which a call that is refused changes nothing."""

    def refused(self, words: Sequence[str] | Sequence[bytes], status: int, line: bytes | None,
                changed: Collection[str] = (), **how: Any) -> subprocess.CompletedProcess[bytes]:
        """The call has this status and line, and changes nothing but the named files."""
        before = self.files()
        done = self.call(*words, **how)
        self.assertEqual(done.returncode, status, (words, done.returncode, done.stderr))
        self.assertIn(done.stderr, (line, None), (words, done.stderr))
        after = {name: text for name, text in self.files().items() if name not in changed}
        self.assertEqual(after, {name: text for name, text in before.items() if name not in changed}, words)
        return done

    def prepared(self) -> None:
        """The files that the calls read: a system, its pavings by both forms, one that is not whole, and one that is none."""
        self.put("s", RING)
        self.put("bad", system("x in [0,4]", "x + <= 1"))
        for words in (["run", "s", "--out", "p"], ["run-centered", "s", "--out", "c"],
                      ["run", "s", "--boxes", "1", "--out", "part"]):
            self.assertIn(self.call(*words).returncode, (0, 1), words)


class Outside(KeptTest):
    """Streams, files, pipes, folders and names that are unkind."""

    def test_closed_streams(self) -> None:
        self.prepared()
        for words in PRINTING:
            whole = self.call(*words)
            self.assertEqual((whole.returncode, whole.stderr), (0, b""), (words, whole))
            self.assertTrue(whole.stdout, (words, whole))
            self.refused(words, 6, PRINT_FAULT, stdout=None, preexec_fn=closed(1))
            done = self.call(*words, stdin=None, preexec_fn=closed(0))
            self.assertEqual((done.returncode, done.stdout), (0, whole.stdout), words)
            done = self.call(*words, stderr=None, preexec_fn=closed(2))
            self.assertEqual((done.returncode, done.stdout), (0, whole.stdout), words)
        for words, status, _ in REFUSED:
            done = self.refused(words, status, None, stderr=None, preexec_fn=closed(2))
            self.assertEqual(done.stdout, b"", words)
        self.refused(["run", "s", "--eps", "1", "--out", "q"], 6, PRINT_FAULT, changed=["q"], stdout=None, preexec_fn=closed(1))
        done = self.call("audit", "s", "q", "--eps", "1")
        self.assertEqual((done.returncode, done.stdout), (0, b"honest\n"), done)

    def test_full_and_broken_streams(self) -> None:
        """Each stream for itself, and both: the status is that of the table, and no file changes."""
        self.prepared()
        for made in (lambda: open("/dev/full", "wb"), broken):
            with made() as stream:
                for words in PRINTING:
                    self.refused(words, 6, PRINT_FAULT, stdout=stream)
                    self.refused(words, 6, None, stdout=stream, stderr=stream)
                for words, status, line in REFUSED:
                    self.refused(words, status, line, stdout=stream)
                    self.assertEqual(self.refused(words, status, None, stderr=stream).stdout, b"", words)

    def test_campaigns_on_bad_streams(self) -> None:
        """A campaign saves all its rounds before it prints: a call after the fault finds them, and has nothing left to do."""
        self.prepared()
        summary = self.call("run", "s").stdout.split(b"\n")[0] + b"\n"
        kept = ["k", "k-wal", "k-shm", "k-journal"]
        words = ["campaign", "s", "--keep", "k"]
        for made in (lambda: open("/dev/full", "wb"), broken):
            for name in kept:
                (self.path / name).unlink(missing_ok=True)
            with made() as stream:
                self.refused(words, 6, PRINT_FAULT, changed=kept, stdout=stream)
            done = self.call(*words, "--boxes", "1")
            self.assertEqual((done.returncode, done.stdout, done.stderr), (0, summary, b""), done)
        words = ["campaign", "s", "--keep", "no/such"]
        self.refused(words, 10, b"keeper fault: no/such\n")
        with open("/dev/full", "wb") as full:
            self.refused(words, 10, None, stderr=full)
            self.refused(words, 10, b"keeper fault: no/such\n", stdout=full)

    def test_reader_that_leaves(self) -> None:
        """A reader that takes a part and goes: the fault comes in the middle of what is printed."""
        self.put("s", RING)
        for command in ("run", "run-centered"):
            words = [command, "s", "--eps", "0.015625", "--boxes", "100000"]
            with subprocess.Popen([self.program, *words], cwd=self.path, stdout=subprocess.PIPE,
                                  stderr=subprocess.PIPE) as child:
                said = child.stdout.read(1000)
                child.stdout.close()
                line, status = child.stderr.read(), child.wait(SECONDS)
            self.assertTrue(said.startswith(b"settled "), (words, status, line))
            self.assertEqual((status, line), (6, PRINT_FAULT), (words, status, line))

    def test_slow_reader(self) -> None:
        self.put("s", RING)
        whole = self.call("run", "s").stdout
        with subprocess.Popen([self.program, "run", "s"], cwd=self.path, stdout=subprocess.PIPE) as child:
            said = b""
            while piece := os.read(child.stdout.fileno(), 997):
                said += piece
                time.sleep(0.0005)
            self.assertEqual((child.wait(SECONDS), said), (0, whole))

    def test_files_without_an_end(self) -> None:
        self.put("s", RECIPROCAL)
        done = self.call("check", "/dev/zero")
        self.assertEqual((done.returncode, done.stdout), (3, b""), done.stderr)
        self.assertTrue(done.stderr.startswith(b"system: line 1 column "), done.stderr)
        self.refused(["merge", "s", "/dev/zero"], 4, b"paving /dev/zero: too long\n")
        # 70,000,000 bytes are read, and the second line is no identity
        for size, fault in ((70_000_000, b"bad line 2"), (70_000_001, b"too long")):
            self.put("long", (b"paving 2\n" * 7_777_778)[:size])
            for words in (["audit", "s", "long"], ["resume", "s", "long"], ["audit-centered", "s", "long"]):
                self.refused(words, 4, b"paving long: " + fault + b"\n")
        (self.path / "long").unlink()
        # of a system 65,537 bytes are read at the most
        self.put("t", (b"Variables x; Constraints x<=1; end" + b" " * 70_000)[:65_537])
        self.refused(["check", "t"], 3, b"system: line 1 column 65537 byte 65536: TextTooLong\n")
        self.refused(["run", "/dev/null"], 3, b"system: line 1 column 1 byte 0: EndOfText\n")
        self.refused(["run", "."], 5, b"read fault: .\n")

    def test_growing_file(self) -> None:
        """What is there when it is read counts; a fault is one of the text, and never a crash."""
        self.put("s", RECIPROCAL)
        self.put("p", b"")
        grow = "import time\nwhile True:\n open('p', 'ab').write(b'paving 2\\n' * 100)\n time.sleep(0.001)"
        with subprocess.Popen([sys.executable, "-c", grow], cwd=self.path) as child:
            try:
                for _ in range(5):
                    done = self.call("audit", "s", "p")
                    self.assertEqual(done.returncode, 4, done)
                    self.assertTrue(done.stderr.startswith(b"paving p: "), done)
            finally:
                child.kill()

    def test_growing_system(self) -> None:
        """The same of a text that grows: a system, or refused as one that is too long."""
        text = system("x in [0,4]", "x <= 1")
        self.put("s", text)
        self.put("grow.py", b"import time\nwhile True:\n open('s', 'ab').write(b' ' * 300)\n time.sleep(0.001)")
        # the text is one line, and what grows is the second
        wanted = {0: b"", 3: b"system: line 2 column %d byte 65536: TextTooLong\n" % (65536 - len(text) + 1)}
        answers, until = {self.call("check", "s").returncode}, time.monotonic() + SECONDS
        with subprocess.Popen([sys.executable, "grow.py"], cwd=self.path) as child:
            try:
                while answers != {0, 3} and time.monotonic() < until:
                    done = self.call("check", "s")
                    answers.add(done.returncode)
                    self.assertEqual(done.stderr, wanted.get(done.returncode), done)
            finally:
                child.kill()
        self.assertEqual(answers, {0, 3}, answers)

    def test_text_from_a_pipe(self) -> None:
        """A system that comes in pieces, with pauses; and a paving that goes into a pipe."""
        self.put("s", RING)
        os.mkfifo(self.path / "pipe")
        whole = self.call("check", "s").stdout
        with subprocess.Popen([self.program, "check", "pipe"], cwd=self.path, stdout=subprocess.PIPE) as child:
            with open(self.path / "pipe", "wb", buffering=0) as pipe:
                for at in range(len(RING)):
                    pipe.write(RING[at:at + 1])
                    time.sleep(0.001)
            self.assertEqual((child.stdout.read(), child.wait(SECONDS)), (whole, 0))
        self.assertEqual(self.call("run", "s", "--out", "p").returncode, 0)
        with subprocess.Popen([self.program, "run", "s", "--out", "pipe"], cwd=self.path, stdout=subprocess.DEVNULL) as child:
            with open(self.path / "pipe", "rb") as pipe:
                said = pipe.read()
            self.assertEqual((child.wait(SECONDS), said), (0, self.get("p")))

    def test_odd_names(self) -> None:
        """A line holds a name byte for byte, and an odd name is as good as any other."""
        self.put("s", HALF_LINE)
        for name in ("two words", "-", "\u00fc", "a\nb", "\x1b[31m", "*", "...", "$(id)", "'\"", "\\", "\r", "%s%n", "--eps"):
            odd = name.encode()
            self.refused(["check", f"./{name}"], 11, b"no file: ./" + odd + b"\n")
            self.refused(["run", "s", "--out", f"./{name}/p"], 6, b"write fault: ./" + odd + b"/p\n")
            (self.path / name).mkdir()
            self.refused(["check", f"./{name}"], 5, b"read fault: ./" + odd + b"\n")
            (self.path / name).rmdir()
            self.put(name, HALF_LINE)
            done = self.call("run", f"./{name}", "--out", "p")
            self.assertEqual(done.returncode, 0, (name, done.stderr))
            self.refused(["audit", "s", f"./{name}"], 4, b"paving ./" + odd + b": bad line 1\n")
            done = self.call("run", "s", "--out", f"./{name}")
            self.assertEqual((done.returncode, self.get(name)), (0, self.get("p")), name)
        self.refused(["check", ""], 11, b"no file: \n")
        self.refused(["check", "n" * 4000], 5, b"read fault: " + b"n" * 4000 + b"\n")

    def test_links_and_devices(self) -> None:
        self.put("s", HALF_LINE)
        for name, to in (("loop", "loop"), ("nowhere", "no"), ("link", "s")):
            (self.path / name).symlink_to(to)
        self.refused(["check", "loop"], 5, b"read fault: loop\n")
        self.refused(["check", "nowhere"], 11, b"no file: nowhere\n")
        self.assertEqual(self.call("check", "link").returncode, 0)
        self.refused(["check", "s/t"], 5, b"read fault: s/t\n")
        self.refused(["run", "s", "--out", "loop"], 6, b"write fault: loop\n")
        self.refused(["run", "s", "--out", "/dev/full"], 6, b"write fault: /dev/full\n")
        self.refused(["audit", "s", "/proc/self/mem"], 5, b"read fault: /proc/self/mem\n")

    def test_no_words(self) -> None:
        self.refused([], 2, USAGE)
        self.refused(["run"], 2, USAGE)
        self.refused(["--help"], 2, USAGE)
        self.refused(["run", "s", "--version"], 2, USAGE)
        self.refused([b"\xff\xfe"], 2, USAGE)


if __name__ == "__main__":
    main()
