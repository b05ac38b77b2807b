"""Runs the real binary where the machine sets limits: memory, stack, threads, handles, sizes of files, disks and time;
and sends it signals in the middle of its work and of a store.

    python3 -m tests.runners.limits [-k WORD]
"""
from __future__ import annotations

import itertools
import os
import random
import resource
import shutil
import signal
import subprocess
import time

from tests.data.cases import system
from tests.runners.outside import PRINTING, RING, KeptTest
from tests.runners.running import SECONDS, Moments, main, processor_seconds, wait_until_it_works
from tests.runners.stores import BESIDE

# This runs for a quarter of an hour and in little memory: a node takes ten milliseconds, and nothing is ever decided.
LONG = system("x in [0,9999999], y in [0,9999999]", "; ".join(["x" + "+x-x" * 240 + " < y"] * 60))

# Calls of each command over the files of `prepared`, some by four workers, and the file that is stored.
STARVED = [(words, None) for words in PRINTING] + [
    (["run", "s", "--eps", "0.03125", "--out", "new"], "new"), (["run", "s", "--workers", "4", "--out", "new"], "new"),
    (["run-centered", "s", "--workers", "4", "--out", "new"], "new"),
    (["resume", "s", "part", "--workers", "4", "--out", "new"], "new"),
    (["merge", "s", "part", "p", "--out", "new"], "new"), (["check", "bad"], None), (["audit", "s", "bad"], None),
    (["run", "no"], None), (["run", "s", "--eps"], None)]


def balanced(part: str, count: int) -> str:
    return part if count == 1 else f"({balanced(part, count // 2)}+{balanced(part, count - count // 2)})"


DEEP = [system("x", "(" * 100 + "x" + ")" * 100 + "<=1"), system("x", "-" * 999 + "x<=1"),
        system("x", "x" + "+1" * 1000 + "<=1"),
        # trees of 1,999 nodes on the way down; 2,000 are taken at the most
        b"Variables x; function f(a) return " + b"-" * 999 + b"a; end Constraints " + b"-" * 999 + b"f(x) <= 1; end\n",
        b"Variables x; function f(a) return a" + b"+1" * 999 + b"; end Constraints f(x)" + b"+1" * 999 + b" <= 1; end\n"]


class Limits(KeptTest):
    """Limits of memory, stack, threads, handles, files and time; and signals."""

    def setUp(self) -> None:
        """Where a shell has this run in the background, or by nohup, the program would ignore these signals."""
        super().setUp()
        for number in (signal.SIGINT, signal.SIGHUP):
            self.addCleanup(signal.signal, number, signal.signal(number, signal.SIG_DFL))

    def test_file_size_limit(self) -> None:
        """A store beyond the limit: a fault where the signal is ignored, else the machine ends the program. All files stay, but
        that the signal leaves a file beside the target."""
        self.put("s", RING)
        self.put("p", b"as it was\n")
        before = self.files()
        for handler, status, line in ((signal.SIG_IGN, 6, b"write fault: p\n"), (signal.SIG_DFL, -signal.SIGXFSZ, b"")):
            def limited(handler: signal.Handlers = handler) -> None:
                resource.setrlimit(resource.RLIMIT_FSIZE, (512, 512))
                signal.signal(signal.SIGXFSZ, handler)
            done = self.call("run", "s", "--out", "p", preexec_fn=limited)
            self.assertEqual((done.returncode, done.stdout, done.stderr), (status, b"", line), done)
            beside = [name for name in self.files() if BESIDE.fullmatch(name)]
            self.assertEqual({name: text for name, text in self.files().items() if name not in beside}, before)
            self.assertEqual(len(beside), status < 0, beside)
            for name in beside:
                (self.path / name).unlink()

    def test_killed_in_the_middle(self) -> None:
        """A run that is killed while it works has changed nothing."""
        self.put("s", LONG)
        self.put("p", b"as it was\n")
        before = self.files()
        for number in (signal.SIGTERM, signal.SIGINT, signal.SIGHUP, signal.SIGKILL):
            words = [self.program, "run", "s", "--boxes", "100000", "--depth", "200", "--out", "p"]
            with subprocess.Popen(words, cwd=self.path, stdout=subprocess.DEVNULL) as child:
                wait_until_it_works(child)
                child.send_signal(number)
                self.assertEqual(child.wait(SECONDS), -number, number)
            self.assertEqual(self.files(), before, number)

    def test_killed_in_a_store(self) -> None:
        """A pipe to which a killed run stores may have taken a front of its text; all files stay. Such a front is refused when
        it is read. A pipe that is read slowly holds the store up until the signal has come."""
        self.put("s", RING)
        words = ["run", "s", "--eps", "0.00390625", "--boxes", "100000"]
        summary = self.call(*words, "--out", "whole").stdout
        whole = self.get("whole")
        self.assertGreater(len(whole), 200_000)
        self.assertEqual(summary.count(b"\n"), 1)
        os.mkfifo(self.path / "pipe")
        before = self.files()
        for number in (signal.SIGTERM, signal.SIGINT, signal.SIGHUP, signal.SIGKILL):
            with subprocess.Popen([self.program, *words, "--out", "pipe"], cwd=self.path, stdout=subprocess.PIPE) as child:
                with open(self.path / "pipe", "rb", buffering=0) as pipe:
                    front = pipe.read(100)
                    child.send_signal(number)
                    while piece := pipe.read(65536):
                        front += piece
                self.assertEqual((child.stdout.read(), child.wait(SECONDS)), (b"", -number), number)
            self.assertLess(len(front), len(whole), (number, len(front)))
            self.assertTrue(whole.startswith(front), (number, len(front)))
            self.assertEqual(self.files(), before, number)
            self.put("front", front)
            line = b"paving front: bad line %d\n" % (front.count(b"\n") + 1)
            self.assertEqual(self.refused(["audit", "s", "front", "--eps", "0.00390625"], 4, line).stdout, b"")
            (self.path / "front").unlink()

    def test_killed_at_any_time(self) -> None:
        """A run that is killed at any moment leaves what the name held, or the new text, whole; other files stay, but for one
        that it may leave beside its target."""
        self.put("s", RING)
        words = ["run", "s", "--eps", "0.00390625", "--boxes", "100000", "--out", "p"]
        self.assertEqual(self.call(*words).returncode, 0)
        whole, moments, seen = self.get("p"), Moments(random.Random(1)), set()
        before = {name: text for name, text in self.files().items() if name != "p"}
        for turn in itertools.count():
            self.put("p", b"as it was\n")
            with subprocess.Popen([self.program, *words], cwd=self.path, stdout=subprocess.DEVNULL) as child:
                moments.wait()
                number = (signal.SIGTERM, signal.SIGKILL)[turn % 2]
                child.send_signal(number)
                status = child.wait(SECONDS)
            self.assertIn(status, (0, -number), turn)
            moments.learn(status != 0)
            for name in self.files():
                if BESIDE.fullmatch(name):
                    (self.path / name).unlink()
            now = self.files()
            held = now.pop("p")
            self.assertEqual(now, before, (turn, len(held)))
            self.assertIn(held, (b"as it was\n", whole), (turn, len(held)))
            seen.add(held)
            if turn >= 60 and len(seen) == 2:
                return

    def test_stopped_and_continued(self) -> None:
        """A run that is stopped for a while and goes on answers what it would have answered."""
        self.put("s", RING)
        words = ["run", "s", "--eps", "0.00390625", "--boxes", "100000", "--workers", "4", "--out"]
        summary = self.call(*words, "whole").stdout
        for _ in range(5):
            with subprocess.Popen([self.program, *words, "p"], cwd=self.path, stdout=subprocess.PIPE) as child:
                for _ in range(5):
                    time.sleep(0.005)
                    child.send_signal(signal.SIGSTOP)
                    time.sleep(0.005)
                    child.send_signal(signal.SIGCONT)
                self.assertEqual((child.stdout.read(), child.wait(SECONDS)), (summary, 0))
            self.assertEqual(self.get("p"), self.get("whole"))

    def starts(self, words: list[str], limit: int) -> bool:
        """Whether the program begins at all with so much address space: the loader says 127 where it doesn't."""
        done = self.call(*words, preexec_fn=lambda: resource.setrlimit(resource.RLIMIT_AS, (limit, limit)))
        return done.returncode not in (127, -signal.SIGSEGV, -signal.SIGKILL)

    def test_little_memory(self) -> None:
        """Address space in steps of 16 KiB from the least with which the program starts, until the answer stands: it is the
        right one, or want of memory with its line; files are as they were, and a stored one is whole."""
        self.prepared()
        least = next(limit for limit in range(400 * 4096, 1 << 24, 16 << 10) if self.starts(["check", "no"], limit))
        for words, stored in STARVED:
            wanted = self.call(*words)
            new = self.get(stored) if stored else None
            right = 0
            for limit in range(least, 1 << 27, 16 << 10):
                if stored:
                    (self.path / stored).unlink(missing_ok=True)
                before = self.files()
                done = self.call(*words, preexec_fn=lambda limit=limit: resource.setrlimit(resource.RLIMIT_AS, (limit, limit)))
                now = self.files()
                held = now.pop(stored, None) if stored else None
                self.assertEqual(now, before, (words, limit))
                self.assertIn(held, (new, None), (words, limit))
                if done.returncode == wanted.returncode:
                    self.assertEqual((done.stdout, done.stderr, held), (wanted.stdout, wanted.stderr, new), (words, limit))
                    right += 1
                else:
                    self.assertEqual(done.returncode, 7, (words, limit, done))
                    self.assertIn(done.stderr, (b"want of memory\n", b""), (words, limit, done))
                    self.assertTrue(wanted.stdout.startswith(done.stdout), (words, limit))
                # with four workers a thread that is late may still find no room
                if right == 8:
                    break
            self.assertEqual(right, 8, words)

    def test_small_disk(self) -> None:
        """A disk that is full in the middle of a store: a fault, and no word printed. Needs the right to mount one."""
        disk = self.path / "disk"
        disk.mkdir()
        mount = ["mount", "-t", "tmpfs", "-o", "size=64k", "none", str(disk)]
        if subprocess.run(mount, capture_output=True, check=False).returncode:
            self.skipTest("no disk can be mounted here")
        try:
            self.put("s", RING)
            self.refused(["run", "s", "--eps", "0.00390625", "--boxes", "100000", "--out", "disk/p"], 6,
                         b"write fault: disk/p\n")
            self.assertEqual(self.call("run", "s", "--eps", "1", "--out", "disk/p").returncode, 0)
        finally:
            subprocess.run(["umount", str(disk)], check=True)

    def test_many_nodes_in_many_variables(self) -> None:
        """100,000 nodes in 12 variables stay within 224 MiB, by one worker and by 16: stored, and printed with numbers that are
        nearly as long as numbers can be, which a join of two files prints, too."""
        names = [f"v{i}" for i in range(12)]
        squares = " + ".join(f"{name}^2" for name in names)
        self.put("s", system(", ".join(f"{name} in [0,1]" for name in names), f"{squares} <= 3"))
        self.put("t", system(", ".join(f"{name} in [-0.9e-35,-0.1e-35]" for name in names),
                             " + ".join(f"{name}-{name}" for name in names) + " <= 0"))
        deep = ["--eps", "0", "--depth", "200"]
        self.call("run", "t", *deep, "--boxes", "99999", "--out", "q")
        for workers in ("1", "16"):
            for words in (["run", "s", "--boxes", "100000", "--out", "p"], ["run", "t", *deep, "--boxes", "100000"],
                          ["run", "t", *deep, "--boxes", "100000", "--out", "p"],
                          ["resume", "t", "q", "q", *deep, "--boxes", "1"]):
                with subprocess.Popen([self.program, *words, "--workers", workers], cwd=self.path,
                                      stdout=subprocess.PIPE) as child:
                    said = child.stdout.readline()
                    while child.stdout.read(1 << 20):
                        pass
                    _, status, usage = os.wait4(child.pid, 0)
                    child.returncode = os.waitstatus_to_exitcode(status)
                self.assertTrue(said.startswith(b"settled 100000 "), said)
                self.assertLessEqual(usage.ru_maxrss, 224 * 1024, (words, workers, usage.ru_maxrss))

    def test_slow_texts(self) -> None:
        """The slowest texts that we know take a moment of the processor; other work on the machine is not counted."""
        aliases = "function w0(u) return -u; end\n" + "".join(
            f"function w{i}(u) return w{i - 1}(u); end\n" for i in range(1, 60))
        functions = (f"{aliases}function g(u) return {'w59(' * 40}u{')' * 40}; end\n"
                     f"function t(u) return {balanced('u', 512)}; end\nfunction b(u) return {balanced('t(u)', 64)}; end\n")
        texts = [
            f"Variables x;\n{functions}Constraints {'g(' * 10}b(x){')' * 10} <= 1; end\n",
            f"Variables x;\n{functions}Constraints {'; '.join(['g(t(x)) <= 1'] * 64)}; end\n",
            "Variables x; Constraints " + ";".join(["x" + "+x" * 500 + "<=1"] * 60) + " end",
            "Variables x; Constraints x <= " + "0" * 60000 + "1; end",
            "/*" + "*" * 65000,
        ]
        for text in texts:
            self.put("s", text.encode())
            spent = []
            for _ in range(3):
                before = processor_seconds()
                self.call("check", "s")
                spent.append(processor_seconds() - before)
            self.assertLess(min(spent), 0.3, (text[:60], spent))

    def test_little_stack(self) -> None:
        """A stack of 2 MiB is enough for the deepest texts, programs and trees, on the first thread and on workers."""
        def run(*words: str) -> None:
            done = self.call(*words, preexec_fn=lambda: resource.setrlimit(resource.RLIMIT_STACK, (2 << 20, 2 << 20)))
            self.assertIn(done.returncode, (0, 1), (words, done))
            self.assertFalse(done.stderr, (words, done))
        for text in DEEP:
            self.put("s", text)
            run("check", "s")
            for workers in ("1", "4"):
                run("run", "s", "--boxes", "50", "--workers", workers)
                run("run-centered", "s", "--boxes", "50", "--workers", workers)
            run("least", "s", "--of", "x" + "+1" * 1000, "--boxes", "20")
            run("least", "s", "--of", "(" * 100 + "x" + ")" * 100, "--boxes", "20")
        self.put("s", system("x in [0,1], y in [0,1]", "x < y"))
        fine = ["--eps", "0", "--depth", "200"]
        run("run", "s", *fine, "--boxes", "5000", "--workers", "4", "--out", "p")
        for command in ("audit", "merge", "resume"):
            run(command, "s", "p", *fine)
        run("svg", "s", "p", *fine, "--x", "x", "--y", "y")
        nested = ["--contract", "fix(1," * 255 + "hc4(0)" + ")" * 255]
        run("run", "s", "--boxes", "50", "--workers", "4", *nested)

    def test_few_handles(self) -> None:
        """Where the handles run out while the system comes in by a pipe, the next file is a fault."""
        self.prepared()
        os.mkfifo(self.path / "pipe")
        for words, status, line in ((["audit", "pipe", "p"], 5, b"read fault: p\n"),
                                    (["run", "pipe", "--out", "q"], 6, b"write fault: q\n"),
                                    (["run", "pipe", "--workers", "4", "--out", "q"], 6, b"write fault: q\n")):
            with subprocess.Popen([self.program, *words], cwd=self.path, stdout=subprocess.PIPE,
                                  stderr=subprocess.PIPE) as child:
                with open(self.path / "pipe", "wb") as pipe:
                    resource.prlimit(child.pid, resource.RLIMIT_NOFILE, (3, 3))
                    pipe.write(RING)
                self.assertEqual((child.stdout.read(), child.stderr.read(), child.wait(SECONDS)), (b"", line, status), words)
        self.assertNotIn("q", self.files())

    def test_no_threads(self) -> None:
        """Where no thread can be started a run by several workers wants memory, or answers as it should. Root has no limit."""
        self.prepared()
        shutil.copy(self.program, self.path / "program")
        other = self.elsewhere(self.path, self.path / "program")
        os.chmod(self.path, 0o755)

        def limited() -> None:
            if os.getuid() == 0:
                os.setuid(65534)
            resource.setrlimit(resource.RLIMIT_NPROC, (1, 1))
        for words in PRINTING:
            right = self.call(*words).stdout
            workers = ["--workers", "4"] if words[0].startswith(("run", "resume")) else []
            done = other.call(*words, *workers, preexec_fn=limited)
            answers = ((0, right, b""), (7, b"", b"want of memory\n"))
            self.assertIn((done.returncode, done.stdout, done.stderr), answers, (words, done))


if __name__ == "__main__":
    main()
