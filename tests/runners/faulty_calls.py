"""Runs each command of the real binary, and campaigns, with a system call that fails, is cut short or is the last before a
SIGKILL: reads, writes, syncs, renames, closes, the kernel's memory, and all others on files. Calls that the C library makes
by itself are among them.

    [ONLY=COMMAND] [COUNT=N] [SEED=S] python3 -m tests.runners.faulty_calls [-k WORD]

COUNT is how many calls of each command are tried in each way. The answer has to be the very one of a call to which nothing
happens, or a fault with its status and line. What is stored is whole or as before, no other file changes, and nothing is
left beside it but by a kill; a database is sound, has whole rounds, and a further call comes to its end.
"""
from __future__ import annotations

import random
import signal
from collections import Counter

from tests.runners.allocations import CommandsTest, commands
from tests.runners.campaign_allocations import COMMANDS, KeptTest
from tests.runners.campaigns import ROWS
from tests.runners.running import Answered, made_cases, main
from tests.runners.stores import BESIDE
from tests.runners.trapping import TrapTest, error_number

SAMPLE = 6
WRITING = ["ENOSPC", "EIO", "EDQUOT", "EINTR", "EFBIG"]
OPENING = ["EACCES", "EMFILE", "ENFILE", "EIO", "EINTR", "EROFS", "ENOSPC"]
# Kinds of calls, and the errors that they have.
ERRORS = {
    "read": ["EIO", "EINTR", "EISDIR"], "pread64": ["EIO", "EINTR"], "write": WRITING, "pwrite64": WRITING, "open": OPENING,
    "openat": OPENING, "close": ["EIO", "EINTR", "ENOSPC"], "fsync": ["EIO", "ENOSPC", "EDQUOT"],
    "fdatasync": ["EIO", "ENOSPC", "EDQUOT"], "ftruncate": ["EIO", "ENOSPC", "EINTR"],
    "rename": ["EIO", "EACCES", "ENOSPC", "EXDEV", "EBUSY"], "unlink": ["EIO", "EACCES", "EBUSY"], "statx": ["EIO", "EACCES"],
    "fstat": ["EIO"], "newfstatat": ["EIO", "EACCES"], "lseek": ["EIO"], "fcntl": ["EAGAIN", "EIO", "ENOLCK"],
    "fchmod": ["EPERM", "EIO"], "fchown": ["EPERM", "EIO"], "readlink": ["EIO", "EACCES"], "mmap": ["ENOMEM"],
    "brk": ["ENOMEM"], "mremap": ["ENOMEM"],
}
CUT = ("read", "pread64", "write", "pwrite64")
# Statuses of faults with the beginning of their line; where the fault is that of a write, the line may be lost.
FAULTS = {5: b"read fault: ", 6: b"write fault: ", 7: b"want of memory\n", 10: b"keeper fault: "}
Trap = tuple[str, dict[str, int]]  # the kind of calls that are trapped, and how


class FaultyTest(TrapTest, CommandsTest):
    """A test in which calls of commands go wrong."""

    def setUp(self) -> None:
        super().setUp()
        self.most, seed = made_cases(SAMPLE)
        self.source = random.Random(seed)

    def traps(self, counts: Counter[str]) -> list[Trap]:
        """Faults of a call of each kind, at one call or from one on, and calls that are cut short."""
        kinds = sorted(counts)
        return [self.trap(kind, self.source.randint(1, counts[kind]))
                for kind in (self.source.choice(kinds) for _ in range(self.most))]

    def trap(self, kind: str, number: int) -> Trap:
        error = self.source.choice(ERRORS[kind])
        # who is interrupted at each call tries for ever
        place = {"at" if error == "EINTR" else self.source.choice(["at", "at", "from"]): number}
        if kind in CUT and self.source.random() < 0.3:
            return kind, {**place, "short": self.source.choice([1, 2, 7, 100])}
        return kind, {**place, "error": error_number(error)}

    def kills(self, calls: list[str]) -> list[Trap]:
        """A kill at some calls: each of them where there are no more than are asked for."""
        numbers = range(1, len(calls) + 1)
        chosen = sorted(self.source.sample(numbers, self.most)) if self.most < len(calls) else numbers
        return [(",".join(ERRORS), {"at": number, "kill": 1}) for number in chosen]

    def judge_answer(self, how: str, trap: Trap, got: Answered, wanted: Answered) -> None:
        """The very answer, where a write failed perhaps without its line; or a fault with its own, and at the most a front of
        what is printed."""
        if got == wanted or (trap[0] == "write" and got[:2] == wanted[:2] and wanted[2].startswith(got[2])):
            return
        if trap[0] != "pread64":  # a database that is read in part is one that fails: no disk does so
            self.assertNotIn("short", trap[1], (how, got))
        self.assertIn(got[0], FAULTS, (how, got))
        lines = (got[2],) if got[2].startswith(FAULTS[got[0]]) else (b"",) if trap[0] in ("write", "mmap", "brk") else ()
        self.assertIn(got[2], lines, (how, got))
        self.assertTrue(wanted[1].startswith(got[1]), (how, got))
        if got[1]:
            self.assertIn(got[0], (6, 7), (how, got))

    def beside(self) -> set[str]:
        """Files that a store left beside its target."""
        return {name for name in self.files() if BESIDE.fullmatch(name.replace(".new.", ".p."))}


class FaultyCalls(FaultyTest):
    """Commands, and what they store."""

    def test_faults(self) -> None:
        self.is_killing = False
        self.try_all(commands())

    def test_kills(self) -> None:
        self.is_killing = True
        self.try_all({name: command for name, command in commands().items() if command[2]})

    def try_command(self, status: int, words: list[str], stored: str) -> None:
        wanted, calls = self.calls_of(words, ",".join(ERRORS))
        self.assertEqual(wanted[0], status, wanted[2])
        new = self.files().get(stored)
        self.remove(stored)
        for trap in self.kills(calls) if self.is_killing else self.traps(Counter(calls)):
            old = self.source.choice([None, b"as it was\n"]) if stored else None
            self.remove(stored)
            if old is not None:
                self.put(stored, old)
            before = self.files()
            how = f"{words} {trap} {'over a file' if old else ''}"
            got = self.trapped(words, trap[0], **trap[1])
            self.judge_files(how, trap, before, stored, (old, new) if got != wanted else (new,))
            if self.is_killing:
                self.assertIn(got[0], (status, -signal.SIGKILL), how)
            else:
                self.judge_answer(how, trap, got, wanted)

    def judge_files(self, how: str, trap: Trap, before: dict[str, bytes], stored: str, may: tuple[bytes | None, ...]) -> None:
        beside = self.beside()
        now = {name: text for name, text in self.files().items() if name not in beside}
        self.assertEqual({name: text for name, text in now.items() if name != stored},
                         {name: text for name, text in before.items() if name != stored}, how)
        if stored:
            self.assertIn(now.get(stored), may, (how, len(now.get(stored) or b"")))
        if not self.is_killing and trap[0] != "unlink" and "from" not in trap[1]:
            self.assertFalse(beside, how)
        for name in beside:
            (self.path / name).unlink()


class FaultyCampaigns(KeptTest, FaultyTest):
    """Campaigns, and what they keep."""

    def test_faults(self) -> None:
        self.is_killing = False
        self.try_all(COMMANDS)

    def test_kills(self) -> None:
        self.is_killing = True
        self.try_all(COMMANDS)

    def try_command(self, status: int, words: list[str], stored: str) -> None:
        whole = self.whole(status, words, stored)
        wanted, calls = self.calls_of(words, ",".join(ERRORS))
        self.assertEqual(wanted[0], status, wanted[2])
        for trap in self.kills(calls) if self.is_killing else self.traps(Counter(calls)):
            self.remove(stored)
            before, how = self.others(self.files(), stored), f"{words} {trap}"
            got = self.trapped(words, trap[0], **trap[1])
            self.assertEqual(self.others(self.files(), stored), before, how)
            rows = self.judge_rows(words, how, stored)
            if self.is_killing:
                self.assertIn(got[0], (status, -signal.SIGKILL), how)
            else:
                self.judge_answer(how, trap, got, wanted)
            if got == wanted:
                self.assertEqual(rows, whole, how)
            self.goes_on(how, words, stored, status)

    def goes_on(self, how: str, words: list[str], stored: str, status: int) -> None:
        """A further call comes to the end of a campaign that may come to it."""
        if status not in (0, 1) or stored == "others":
            return
        done = self.call(*words[:words.index("--boxes")], "--boxes", "100")
        self.assertEqual((done.returncode, done.stderr), (0, b""), (how, "gone on"))
        self.assertEqual(self.rows(stored), (True, ROWS), (how, "gone on"))


if __name__ == "__main__":
    main()
