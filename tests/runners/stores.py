"""Runs the real binary where a store goes wrong: each of its system calls fails or is the last before a SIGKILL, disks are
full, runs are killed at any moment, and several runs store under one name. The name always holds its old content or the new
one, whole.

    [SEED=1] python3 -m tests.runners.stores [-k WORD]

What needs strace, a mount or another user is skipped by name where these aren't to be had.
"""
from __future__ import annotations

import os
import random
import re
import resource
import shutil
import signal
import subprocess
from collections.abc import Iterable, Sequence

from tests.runners.outside import RING
from tests.runners.running import SECONDS, FolderTest, Moments, made_cases, main

FINE = ["--workers", "1", "--boxes", "100000", "--eps"]
KILLS = 300
ERRORS = ("ENOSPC", "EIO", "EINTR", "EDQUOT", "EACCES")
BESIDE = re.compile(r"\.p\.paver-new-\d+-\d+")
FAULT = b"write fault: p\n"
NOBODY = 65534


def umask() -> int:
    """The mode bits that a new file doesn't get."""
    now = os.umask(0)
    os.umask(now)
    return now


class Stores(FolderTest):
    """Stores of a system's paving into a folder."""

    def setUp(self) -> None:
        super().setUp()
        self.source = random.Random(made_cases(0)[1])
        self.put("s", RING)

    def needs_traces(self) -> None:
        """Skips the test where system calls can't be watched."""
        words = ["strace", "-o", "/dev/null", "true"]
        if not shutil.which("strace") or subprocess.run(words, capture_output=True, check=False).returncode:
            self.skipTest("no system call can be watched here")

    def made(self, *words: str, name: str = "p") -> bytes:
        """The content that a run stores."""
        done = self.call("run", "s", *words, "--out", name)
        self.assertIn(done.returncode, (0, 1), done)
        return self.get(name)

    def beside(self) -> list[str]:
        """The files that a store left beside its target."""
        return [name for name in self.files() if BESIDE.fullmatch(name)]

    def held(self) -> bytes | None:
        """What the target holds; None where it isn't there."""
        return self.get("p") if (self.path / "p").exists() else None

    def restore(self, old: bytes | None) -> None:
        """The folder as before a store: the target holds this, or isn't there, and nothing lies beside it."""
        for name in self.beside():
            (self.path / name).unlink()
        if old is None:
            (self.path / "p").unlink(missing_ok=True)
        else:
            self.put("p", old)

    def traced(self, inject: Iterable[str], words: Sequence[str]) -> subprocess.CompletedProcess[bytes]:
        """A call under strace that changes one of its system calls."""
        options = [word for change in inject for word in ("-e", f"inject={change}")]
        watched = ["strace", "-f", "-qq", "-o", "/dev/null", *options, self.program, *words]
        return subprocess.run(watched, cwd=self.path, capture_output=True, check=False, timeout=SECONDS)

    def calls_of_store(self, words: Sequence[str]) -> list[tuple[str, int]]:
        """Each system call of a run from the first that names the target on: its name, and its number among those."""
        log = self.path / "log"
        subprocess.run(["strace", "-f", "-qq", "-o", str(log), self.program, *words], cwd=self.path, capture_output=True,
                       check=True)
        counts: dict[str, int] = {}
        found: list[tuple[str, int]] = []
        for line in log.read_text().splitlines():
            if called := re.match(r"\d+ +(\w+)\(", line):
                name = called[1]
                counts[name] = counts.get(name, 0) + 1
                if found or ('"p"' in line and name != "execve"):
                    found.append((name, counts[name]))
        log.unlink()
        self.assertGreaterEqual(len(found), 8, found)
        return found

    def test_each_call_fails(self) -> None:
        """Each system call of a store fails in turn: the answer and the new content, or the fault and the old one. Only where
        the folder can't be synced any more does the new one stand in spite of the fault. Nothing is left beside the target."""
        self.needs_traces()
        words = ["run", "s", *FINE, "0.25", "--out", "p"]
        new, older = self.made(*FINE, "0.25"), self.made(*FINE, "1")
        for old in (older, None):
            self.restore(old)
            calls = self.calls_of_store(words)
            syncs = [call for call in calls if call[0] == "fsync"]
            self.assertEqual(len(syncs), 2, calls)
            self.assertEqual(sum(call[0] == "rename" for call in calls), 1, calls)
            for name, number in calls:
                if name in ("exit_group", "munmap", "mmap", "brk"):
                    continue
                for error in ERRORS if name not in ("statx", "readlink") else ERRORS[1:3]:
                    self.restore(old)
                    done = self.traced([f"{name}:error={error}:when={number}"], words)
                    told = done.returncode, done.stdout != b"", done.stderr
                    fault = told == (6, False,
                                     FAULT) and (self.held() == old or ((name, number) == syncs[1] and self.held() == new))
                    printed = done.returncode == 6 and done.stderr == b"write fault: standard output\n" and self.held() == new
                    good = told == (0, True, b"") and self.held() == new
                    seen = f"{name} {number} {error}: {done.returncode} {done.stderr!r} {self.beside()}"
                    self.assertTrue(fault or good or printed, seen)
                    self.assertFalse(self.beside(), seen)

    def test_faults_of_the_sync(self) -> None:
        """What a disk tells late, at the sync, is a fault, and the old content stands."""
        self.needs_traces()
        old, words = self.made(*FINE, "1"), ["run", "s", *FINE, "0.25", "--out", "p"]
        for error in ("ENOSPC", "EIO", "EDQUOT"):
            self.restore(old)
            done = self.traced([f"fsync:error={error}:when=1"], words)
            self.assertEqual((done.returncode, done.stdout, done.stderr), (6, b"", FAULT),
                             f"{error}: {done.returncode} {done.stderr!r} {self.beside()}")
            self.assertEqual(self.held(), old, f"{error}: {done.returncode} {done.stderr!r} {self.beside()}")
            self.assertFalse(self.beside(), f"{error}: {done.returncode} {done.stderr!r} {self.beside()}")

    def test_killed_at_each_call(self) -> None:
        """A SIGKILL at each system call of a store: the target is whole, and the next run to it is not disturbed by what is
        left, whose name says what it is."""
        self.needs_traces()
        words = ["run", "s", *FINE, "0.25", "--out", "p"]
        new, older, left = self.made(*FINE, "0.25"), self.made(*FINE, "1"), 0
        for old in (older, None):
            self.restore(old)
            turned = False
            for name, number in self.calls_of_store(words):
                self.restore(old)
                done = self.traced([f"{name}:signal=SIGKILL:when={number}"], words)
                strange = set(self.files()) - {"s", "p", *self.beside()}
                self.assertIn(done.returncode, (-signal.SIGKILL, 128 + signal.SIGKILL),
                              f"{name} {number}: {done.returncode}, {len(self.held() or b'')} bytes, {strange}")
                self.assertIn(self.held(), (old, new),
                              f"{name} {number}: {done.returncode}, {len(self.held() or b'')} bytes, {strange}")
                self.assertFalse(strange, f"{name} {number}: {done.returncode}, {len(self.held() or b'')} bytes, {strange}")
                self.assertFalse(turned and self.held() != new, f"{name} {number}: the old content came back")
                turned, left = self.held() == new, left + len(self.beside())
                again = self.call(*words)
                self.assertEqual(again.returncode, 0, (name, number, again.stderr))
                self.assertEqual(self.held(), new, (name, number, again.stderr))
            self.assertTrue(turned, "no run came to its end")
        self.assertTrue(left, "no run was killed within its store")

    def chain_of(self, step: int) -> tuple[list[str], list[bytes]]:
        """What `resume` over itself stores, from the first call to the last."""
        options = ["--eps", "0.0625", "--workers", "1", "--boxes", str(step)]
        chain = [self.made(*options)]
        while self.call("resume", "s", "p", *options, "--out", "p").returncode == 1:
            chain.append(self.get("p"))
        return ["resume", "s", "p", *options, "--out", "p"], [*chain, self.get("p")]

    def test_killed_runs(self) -> None:
        """Kills at random moments of runs to a name: it holds the content before, or that run's, whole."""
        words = [["run", "s", *FINE, eps, "--out", "p"] for eps in ("0.03125", "0.0625")]
        wholes = []
        for call in words:
            self.assertEqual(self.call(*call).returncode, 0)
            wholes.append(self.get("p"))
        moments = [Moments(self.source), Moments(self.source)]
        kills = changed = 0
        held: bytes | None = wholes[1]
        while kills < KILLS or not changed:
            turn = self.source.randrange(2)
            kills += self.killed(words[turn], moments[turn])
            now = self.held()
            self.assertIn(now, (held, wholes[turn]), f"after {kills} kills {len(now or b'')} bytes")
            changed, held = changed + (now != held), now
            self.assertLess(kills, 10 * KILLS, "no run came as far as its store")

    def test_killed_resumes(self) -> None:
        """Kills at random moments of `resume p --out p`: never is what was stored lost, or another paving."""
        words, chain = self.chain_of(60)
        kills, at, moments = 0, len(chain) - 1, Moments(self.source)
        while kills < KILLS:
            if at == len(chain) - 1:
                self.restore(chain[0])
                at = 0
            kills += self.killed(words, moments)
            now = self.held()
            if now not in (chain[at], chain[min(at + 1, len(chain) - 1)]):
                self.fail(f"after {kills} kills {len(now or b'')} bytes in place of {len(chain[at])}")
            else:
                at = chain.index(now)

    def killed(self, words: Sequence[str], moments: Moments) -> bool:
        """Whether a call was ended by a kill at a random moment."""
        with subprocess.Popen([self.program, *words], cwd=self.path, stdout=subprocess.DEVNULL) as child:
            moments.wait()
            child.kill()
            status = child.wait(SECONDS)
        self.assertIn(status, (0, 1, -signal.SIGKILL), status)
        moments.learn(status == -signal.SIGKILL)
        for name in self.beside():
            (self.path / name).unlink()
        return status == -signal.SIGKILL

    def test_small_disks(self) -> None:
        """A disk of 64 KiB that is full in the middle of a store, or a limit on the size of files: the fault, and the old
        content. Of a call that goes on from the file that it stores, too."""
        disk = self.path / "disk"
        disk.mkdir()
        mount = ["mount", "-t", "tmpfs", "-o", "size=64k", "none", str(disk)]
        mounted = subprocess.run(mount, capture_output=True, check=False).returncode == 0
        try:
            shutil.copy(self.path / "s", disk / "s")
            inner = self.elsewhere(disk)
            old = inner.made("--workers", "1", "--boxes", "500", "--eps", "0.015625")
            self.assertLess(len(old), 30_000)

            def limited() -> None:
                signal.signal(signal.SIGXFSZ, signal.SIG_IGN)
                resource.setrlimit(resource.RLIMIT_FSIZE, (64 << 10, 64 << 10))
            for words in (["run", "s", *FINE, "0.015625"], ["resume", "s", "p", "--eps", "0.015625", "--boxes", "90000"]):
                done = inner.call(*words, "--out", "p", preexec_fn=None if mounted else limited)
                self.assertEqual((done.returncode, done.stdout, done.stderr), (6, b"", FAULT),
                                 f"{words}: {done}, {len(inner.held())} bytes, {inner.beside()}")
                self.assertEqual(inner.held(), old, f"{words}: {done}, {len(inner.held())} bytes, {inner.beside()}")
                self.assertFalse(inner.beside(), f"{words}: {done}, {len(inner.held())} bytes, {inner.beside()}")
        finally:
            if mounted:
                subprocess.run(["umount", str(disk)], check=True)

    def test_two_runs_to_one_name(self) -> None:
        """Of two runs at once each answers, and one of the two pavings is kept, whole."""
        words = [["run", "s", *FINE, eps, "--out", "p"] for eps in ("0.03125", "0.0625")]
        wholes = []
        for call in words:
            self.assertEqual(self.call(*call).returncode, 0)
            wholes.append(self.get("p"))
        for turn in range(60):
            children = [subprocess.Popen([self.program, *call], cwd=self.path, stdout=subprocess.DEVNULL) for call in words]
            statuses = [child.wait(SECONDS) for child in children]
            self.assertEqual(statuses, [0, 0], f"turn {turn}: {statuses}, {len(self.held() or b'')} bytes, {self.beside()}")
            self.assertIn(self.held(), wholes, f"turn {turn}: {statuses}, {len(self.held() or b'')} bytes, {self.beside()}")
            self.assertFalse(self.beside(), f"turn {turn}: {statuses}, {len(self.held() or b'')} bytes, {self.beside()}")

    def test_readers_see_whole_files(self) -> None:
        """Who reads a name while runs store under it reads one of the pavings, whole."""
        whole, seen = self.made(*FINE, "0.03125"), 0
        words = [self.program, "run", "s", *FINE, "0.03125", "--out", "p"]
        for _ in range(20):
            with subprocess.Popen(words, cwd=self.path, stdout=subprocess.DEVNULL) as child:
                while child.poll() is None:
                    seen += 1
                    self.assertEqual(self.get("p"), whole, f"read {seen} is not whole")
        self.assertGreaterEqual(seen, 20, f"{seen} reads")

    def test_links_and_modes(self) -> None:
        """A link stays, and the file that it leads to is replaced; its mode stays, and so do a hard link's other names. A new
        file has the usual mode."""
        new = self.made(*FINE, "0.25")
        self.assertEqual((self.path / "p").stat().st_mode & 0o777, 0o666 & ~umask())
        (self.path / "far").mkdir()
        for mode in (0o600, 0o640, 0o644, 0o666, 0o755):
            self.put("far/t", b"old\n")
            (self.path / "far/t").chmod(mode)
            for name, to in (("link", "far/t"), ("second", "link")):
                (self.path / name).unlink(missing_ok=True)
                (self.path / name).symlink_to(to)
            (self.path / "hard").unlink(missing_ok=True)
            os.link(self.path / "far/t", self.path / "hard")
            made = self.made(*FINE, "0.25", name="second")
            found = (self.path / "far/t").stat().st_mode & 0o777
            self.assertEqual((made, self.get("far/t"), self.get("hard"), found), (new, new, b"old\n", mode),
                             f"mode {mode:o}: {found:o}, {len(made)} bytes")
            self.assertTrue((self.path / "second").is_symlink(), f"mode {mode:o}: {found:o}, {len(made)} bytes")
        (self.path / "loose").symlink_to("far/none")
        self.assertEqual(self.made(*FINE, "0.25", name="loose"), new, "a link to no file was not followed")
        self.assertEqual(self.get("far/none"), new, "a link to no file was not followed")
        self.assertEqual(sorted(path.name for path in (self.path / "far").iterdir()), ["none", "t"],
                         "something was left beside a target")

    def test_folders_that_take_no_file(self) -> None:
        """In a folder that takes no new file the target is written in place; one that may not be written is refused."""
        nobody = {"user": NOBODY} if os.geteuid() == 0 else {}
        new, folder = self.made(*FINE, "0.25"), self.path / "closed"
        folder.mkdir()
        paver = shutil.copy(self.program, self.path / "paver")
        for path in [*self.path.parents][:1]:
            if nobody and not path.stat().st_mode & 1:
                self.skipTest("another user can't reach the folder")
        self.path.chmod(0o755)
        (folder / "s").write_bytes(RING)
        (folder / "p").write_bytes(b"old\n")
        (folder / "q").write_bytes(b"old\n")
        (folder / "p").chmod(0o666)
        (folder / "q").chmod(0o444)
        before = (folder / "p").stat().st_ino
        folder.chmod(0o555)
        inner = self.elsewhere(folder, paver)
        try:
            done = inner.call("run", "s", *FINE, "0.25", "--out", "p", **nobody)
            self.assertEqual((done.returncode, inner.get("p"), (folder / "p").stat().st_ino), (0, new, before),
                             f"in place: {done}")
            done = inner.call("run", "s", *FINE, "0.25", "--out", "q", **nobody)
            self.assertEqual((done.returncode, done.stderr, inner.get("q")), (6, b"write fault: q\n", b"old\n"),
                             f"read-only: {done}")
            done = inner.call("run", "s", *FINE, "0.25", "--out", "r", **nobody)
            self.assertEqual((done.returncode, done.stderr, (folder / "r").exists()), (6, b"write fault: r\n", False),
                             f"no new file: {done}")
        finally:
            folder.chmod(0o755)

    def test_names_at_their_longest(self) -> None:
        """A name of 255 bytes is as good as any other, and leaves nothing beside it."""
        new = self.made(*FINE, "0.25")
        for length in (1, 200, 201, 254, 255):
            self.assertEqual(self.made(*FINE, "0.25", name="n" * length), new, f"a name of {length} bytes")
        done = self.call("run", "s", *FINE, "0.25", "--out", "n" * 256)
        self.assertEqual(done.returncode, 6, f"a name of 256 bytes: {done}")
        if strange := set(self.files()) - {"s", "p", *("n" * length for length in (1, 200, 201, 254, 255))}:
            self.fail(f"left: {strange}")


if __name__ == "__main__":
    main()
