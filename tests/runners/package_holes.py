"""What strangers may lay in the package's way: links under the names of its new files, long names, and edited folders."""
from __future__ import annotations

import ast
import copy
import hashlib
import json
import os
import shutil
import socket
import subprocess
import sys
import tempfile
from concurrent.futures import Future, ThreadPoolExecutor
from pathlib import Path
from typing import Any, Callable
from unittest import mock

import paver
from paver import beside, descent, sweep_task
from paver.__main__ import whole
from paver.sweep_folder import Folder
from tests.runners.package_test import PackageTest, command, example
from tests.runners.running import SECONDS, TOP, main, rows

MINE = "a file of the user's"
FIXED = b"\x5a" * 8  # in place of random bytes


class NewFiles(PackageTest):
    """New files of the package are made exclusively, under names that nobody can foresee."""

    def setUp(self) -> None:
        made = tempfile.TemporaryDirectory()
        self.addCleanup(made.cleanup)
        self.path = Path(made.name)
        self.mine = self.path / "mine"
        self.mine.write_text(MINE)
        (self.path / "records").mkdir()

    def names(self) -> list[str]:
        return sorted(path.name for path in self.path.iterdir() if not path.is_symlink())

    def save(self) -> None:
        """Writes a manifest."""
        folder = Folder(self.path)
        folder.manifest = {"kind": "sweep"}
        folder.save()

    def write_whole(self) -> None:
        """Writes what a command prints into a file."""
        with whole(str(self.path / "out")) as file:
            file.write("x\n")

    def writers(self) -> list[tuple[str, str, Callable[[], object]]]:
        """What writes, the file, and a name under which it could be foreseen to write before."""
        number = os.getpid()
        return [("p.json", f".p.json.{number}", lambda: paver.run(example("ring"), out=self.path / "p")),
                ("manifest.json", f".manifest.json.{number}", self.save),
                ("records/s.json", f"records/.s.{socket.gethostname()}-{number}",
                 lambda: sweep_task.written(str(self.path), "s", {"name": "s"})),
                ("out", f"out.{number}.part", self.write_whole)]

    def test_links_are_not_followed(self) -> None:
        """Links under names with the process's number, or under the very name that is drawn, lead to nothing written."""
        for name, foreseen, work in self.writers():
            with self.subTest(name):
                (self.path / foreseen).symlink_to(self.mine)
                work()
                self.assertEqual(self.mine.read_text(), MINE)
                self.assertTrue((self.path / name).stat().st_size > 1)
                self.assertTrue((self.path / foreseen).is_symlink(), "it is another's")
                drawn = (self.path / name).parent / f".{FIXED.hex()}{sweep_task.NEW}"
                drawn.symlink_to(self.mine)
                with mock.patch("os.urandom", lambda _count: FIXED):
                    self.assertRaises(FileExistsError, work)
                drawn.unlink()
                self.assertEqual(self.mine.read_text(), MINE)

    def test_nothing_is_left_behind(self) -> None:
        """Where the work in it fails, or the file can't take its place, the new file goes."""
        def fail(target: str) -> None:
            with sweep_task.whole_file(target) as file:
                file.write("half")
                raise KeyboardInterrupt

        before = self.names()
        self.assertRaises(KeyboardInterrupt, lambda: fail(str(self.path / "new")))
        self.assertEqual(self.names(), before)
        (self.path / "out").mkdir()
        self.assertRaises(OSError, self.write_whole)
        self.assertEqual(self.names(), sorted([*before, "out"]))
        self.assertEqual(list((self.path / "out").iterdir()), [])

    def test_rights_are_the_users(self) -> None:
        """A new file has the rights that any file has which the user makes."""
        before = os.umask(0o027)
        try:
            self.write_whole()
        finally:
            os.umask(before)
        self.assertEqual((self.path / "out").stat().st_mode & 0o777, 0o640)

    def test_long_names(self) -> None:
        """A name without room for the settings beside it is refused before anything is stored; the longest other one works."""
        ring, before = example("ring"), self.names()
        for name in ("x" * 245, "x" * 255, "\u00e9" * 123):
            with self.subTest(len(os.fsencode(name))):
                self.assert_raised(paver.UsageError, lambda name=name: paver.run(ring, out=self.path / name), status=2)
                self.assert_raised(paver.UsageError, lambda name=name: paver.campaign(ring, self.path / name), status=2)
                self.assertEqual(self.names(), before)
        longest = self.path / ("x" * beside.LONGEST_NAME)
        paver.run(ring, eps=0.5, out=longest)
        self.assertEqual(beside.settings_of(longest), {"eps": "0.5"})


# ---- folders of sweeps

SHARES, EPS = 12, "0.25"
WIDER = b"Variables\n x in [-3, 3];\n y in [-3, 3];\nConstraints\n x^2 + y^2 <= 5;\n x^2 + y^2 >= 1;\nend\n"
Edit = Callable[[Any], object]  # changes a manifest or a record in place


def without(*keys: str) -> Edit:
    """Takes away what a path of keys leads to."""
    def edit(found: Any) -> None:
        for key in keys[:-1]:
            found = found[key]
        del found[keys[-1]]
    return edit


def having(value: Any, *keys: str) -> Edit:
    """Puts a value where a path of keys leads."""
    def edit(found: Any) -> None:
        for key in keys[:-1]:
            found = found[key]
        found[keys[-1]] = value
    return edit


# What is no manifest of a sweep that was dealt in SHARES shares: what is changed, and how.
MANIFESTS: list[tuple[str, Edit]] = [
    *((f"no {key}", without(key)) for key in ("kind", "system_sha256", "canonical_sha256", "settings", "identity", "tasks",
                                              "lost", "seconds", "shares", "asked", "first")),
    *((f"{key} is a list", having([], key)) for key in ("kind", "system", "system_sha256", "settings", "identity", "tasks",
                                                        "lost", "seconds", "shares", "first", "progress", "workers", "asked")),
    ("a billion shares", having(10 ** 9, "shares")), ("no shares at all", having(0, "shares")),
    ("shares are a float", having(12.0, "shares")), ("shares are true", having(True, "shares")),
    ("fewer shares", having(5, "shares")),
    ("seconds without end", having(float("inf"), "seconds")), ("a strange form", having("odd", "settings", "form")),
    ("a depth of letters", having("x", "settings", "depth")),
    ("no eps", without("settings", "eps")), ("another identity", having("0" * 64, "identity")),
    ("no counts of the first stage", without("first", "counts")), ("a first stage elsewhere", having("../x", "first", "out")),
    ("counts that do not add up", having(10 ** 6, "first", "counts", "settled")),
    ("a task that is a text", having("x", "tasks", "share-0003")),
    ("a task with no name", without("tasks", "share-0003", "name")),
    ("a task that is none", lambda found: found["tasks"].update({"share-0099": {**found["tasks"]["share-0003"],
                                                                               "name": "share-0099",
                                                                               "out": "shares/share-0099.paving"}})),
    ("a strange name of a task", lambda found: found["tasks"].update({"../x": {}})),
    ("progress with a key more", having(1, "progress", "more"))]
RECORDS: list[tuple[str, Edit]] = [
    *((f"no {key}", without(key)) for key in ("name", "out", "sha256", "bytes", "counts", "status", "new", "seconds")),
    *((f"{key} is a list", having([], key)) for key in ("name", "out", "sha256", "bytes", "counts", "status", "new", "memory")),
    ("a file elsewhere", having("../../x", "out")), ("a status of 7", having(7, "status")),
    ("a fault of text", having("x", "fault")), ("left open with no leaves", having(1, "status")),
    ("fewer than no nodes", having(-1, "new"))]
TEXTS = [("nothing", b""), ("no JSON", b"{"), ("no object", b"[]"), ("no text", b"\xff{}"), ("deep", b"[" * 100_000)]


class Folders(PackageTest):
    """Folders of sweeps that were edited: nothing is said to be done that isn't."""

    done: Path  # a folder of a sweep that is done, and its system
    place: Any

    @classmethod
    def setUpClass(cls) -> None:
        cls.place = tempfile.TemporaryDirectory()
        cls.done = Path(cls.place.name) / "done"
        shutil.copyfile(example("ring"), Path(cls.place.name) / "s")
        paver.sweep(Path(cls.place.name) / "s", cls.done, eps=EPS, shares=SHARES, workers=2)

    @classmethod
    def tearDownClass(cls) -> None:
        cls.place.cleanup()

    def setUp(self) -> None:
        made = tempfile.TemporaryDirectory()
        self.addCleanup(made.cleanup)
        self.path = Path(made.name)
        self.system = self.path / "s"
        shutil.copyfile(example("ring"), self.system)
        self.folder = self.path / "F"
        self.fill()

    def fill(self) -> None:
        """Puts the folder back as it was when it was done."""
        shutil.rmtree(self.folder, ignore_errors=True)
        shutil.copytree(self.done, self.folder)

    def again(self, **how: Any) -> paver.Sweep:
        """The same call again."""
        return paver.sweep(self.system, self.folder, eps=EPS, **{"workers": 2, **how})

    def edit(self, name: str, work: Edit) -> None:
        """Changes a file of JSON in the folder."""
        found = json.loads((self.folder / name).read_text())
        work(found)
        (self.folder / name).write_text(json.dumps(found))

    def forget(self, *names: str, first: bool = False) -> None:
        """Takes away the answers of tasks, as if they were never done; with first all of them and the first stage."""
        def work(manifest: Any) -> None:
            for name in names or list(manifest["tasks"]):
                manifest["tasks"].pop(name)
                (self.folder / f"records/{name}.json").unlink()
                (self.folder / ("whole.paving" if name == "whole" else f"shares/{name}.paving")).unlink()
            for key in ("first", "shares", "asked", "progress") if first else ():
                manifest.pop(key)
        self.edit("manifest.json", work)

    def joins(self) -> list[str]:
        return [path.stem for path in (self.folder / "records").glob("*.json") if not path.stem.startswith("share")]

    def refused(self, name: str | Path, kind: type[paver.PaverError] = paver.FolderRefused, **how: Any) -> str:
        """That the same call is refused by the name of a file, and what it says."""
        with self.assertRaises(kind) as raised:
            self.again(**how)
        self.assertEqual(getattr(raised.exception, "name"), str(self.folder / name))
        return str(raised.exception)

    def test_the_untouched_folder_is_done(self) -> None:
        """The folder that these tests change is whole, and so is one whose tasks were taken away."""
        before = (self.folder / "whole.paving").read_bytes()
        self.assertEqual(self.again().counts["open"], 0)
        self.forget(first=True)
        self.assertEqual(self.again(shares=SHARES).counts["open"], 0)
        self.assertEqual((self.folder / "whole.paving").read_bytes(), before)

    def test_another_text(self) -> None:
        """The system's text in the folder is changed before the first stage, after it, and with its digest."""
        text = self.folder / "system.mbx"
        for first in (True, False):
            self.fill()
            self.forget(first=first)
            text.write_bytes(WIDER)
            self.refused("system.mbx", shares=SHARES, audit=True)
            self.assertFalse((self.folder / "whole.paving").exists())
        text.write_bytes(example("ring").read_bytes() + b"\n")
        self.refused("system.mbx")
        self.fill()
        text.write_bytes(WIDER)
        self.refused("system.mbx", audit=True)
        self.forget(first=True)
        self.edit("manifest.json", having(hashlib.sha256(WIDER).hexdigest(), "system_sha256"))
        self.assertIn("another identity", self.refused("", shares=SHARES))

    def test_another_text_under_way(self) -> None:
        """The text is changed before some task, a share or a join: that task refuses it."""
        folder = self.folder

        class Editor(ThreadPoolExecutor):
            """Changes the text before the task of a number."""
            waits = 0

            def submit(self, *words: Any, **more: Any) -> Future[Any]:
                if self.waits == 0:
                    (folder / "system.mbx").write_bytes(WIDER)
                self.waits -= 1
                return super().submit(*words, **more)

        for number in (0, SHARES):
            with self.subTest(number), Editor(1) as executor:
                self.fill()
                self.forget()
                executor.waits = number
                self.refused("system.mbx", engine=executor)
                self.assertFalse((self.folder / "whole.paving").exists())

    def test_fewer_shares(self) -> None:
        """Shares are taken from the manifest, step by step with all that tells of them: leaves that are open are no end."""
        self.edit("manifest.json", having(5, "shares"))
        self.assertIn("not what was dealt", self.refused("manifest.json"))
        self.edit("manifest.json", having(None, "asked"))
        self.assertIn("was dealt as [0, 12]", self.refused(""))
        for k in range(5):
            self.edit("manifest.json", without("tasks", f"share-{k:04d}", "share"))
            self.edit(f"records/share-{k:04d}.json", without("share"))
        self.assertIn("is no task of its shares", self.refused("manifest.json"))
        self.forget(*self.joins(), *(f"share-{k:04d}" for k in range(5, SHARES)))
        self.assertIn("open leaves", self.refused(""))
        self.status_refused("open leaves")

    def status_refused(self, phrase: str) -> None:
        """That nothing is said to be done in the folder."""
        status, out, err = command("sweep", "--status", self.folder)
        self.assertEqual((status, out, err.count("\n")), (2, "", 1), err)
        self.assertIn(phrase, err)

    def test_status_of_edited_folders(self) -> None:
        """A status is refused, too: of damaged manifests, and where the whole isn't there, or is another's."""
        self.assertEqual(command("sweep", "--status", self.folder)[0], 0)
        paver.run(self.system, eps=1, out=self.folder / "other")
        (self.folder / "whole.paving").unlink()
        self.status_refused("whole.paving: it is not the paving of the sweep")
        shutil.copyfile(self.folder / "other", self.folder / "whole.paving")
        self.status_refused("whole.paving: ")
        self.edit("manifest.json", having((self.folder / "other").stat().st_size, "tasks", "whole", "bytes"))
        self.status_refused("whole.paving: it is not the paving of the sweep")
        self.edit("manifest.json", having(10 ** 9, "shares"))
        self.status_refused("manifest.json: it is damaged: its `shares` is none")

    def test_other_settings(self) -> None:
        """Settings in the manifest that are not those of its identity, where the call gives none."""
        self.edit("manifest.json", having("0.5", "settings", "eps"))
        with self.assertRaisesRegex(paver.FolderRefused, "`identity` is not that of its settings"):
            paver.sweep(self.system, self.folder, workers=2)

    def test_other_counts(self) -> None:
        """Counts in the manifest are not those of the file: of a share that is joined, of the first stage, of the whole."""
        def count(name: str) -> Edit:
            def work(found: Any) -> None:
                counts = (found["first"] if name == "first" else found["tasks"][name])["counts"]
                counts.update(settled=counts["settled"] + 1, small=counts["small"] + 1)
            return work

        for name, lost in (("share-0003", self.joins()), ("first", []), ("whole", [])):
            with self.subTest(name):
                self.fill()
                if lost:
                    self.forget(*lost)
                self.edit("manifest.json", count(name))
                place = f"{name}.paving" if not lost else f"shares/{name}.paving"
                self.assertIn("other counts", self.refused(place, paver.PavingRefused))

    def test_another_paving(self) -> None:
        """The whole is one of other settings, and its record has its digest."""
        paver.run(self.system, eps=1, out=self.folder / "whole.paving")
        facts = sweep_task.facts_of(str(self.folder / "whole.paving"))
        for key in ("sha256", "bytes", "counts"):
            self.edit("manifest.json", having(getattr(facts, key), "tasks", "whole", key))
        self.assertIn("another identity", self.refused("whole.paving", paver.PavingRefused))

    def test_damaged_manifests(self) -> None:
        """Each is refused by its name, by the call and by its status alike, and nothing is written."""
        self.refused_edits("manifest.json", MANIFESTS)

    def refused_edits(self, place: str, edits: list[tuple[str, Edit]]) -> None:
        """That a file of JSON is refused by its name after each of some edits, and as each of TEXTS."""
        good = json.loads((self.folder / place).read_text())
        for name, work in rows(edits):
            found = copy.deepcopy(good)
            work(found)
            self.refused_text(place, name, json.dumps(found).encode())
        for name, data in rows(TEXTS):
            self.refused_text(place, name, data)

    def refused_text(self, place: str, name: str, data: bytes) -> None:
        with self.subTest(name):
            (self.folder / place).write_bytes(data)
            status, out, err = command("sweep", self.system, "--folder", self.folder, "--eps", EPS, "--workers", 2)
            self.assertEqual((status, out, err.count("\n")), (2, "", 1), err)
            self.assertIn(str(self.folder / place), err)
            self.assertEqual((self.folder / place).read_bytes(), data)

    def test_damaged_records(self) -> None:
        """Each is refused by its name."""
        self.edit("manifest.json", without("tasks", "share-0003"))
        self.refused_edits("records/share-0003.json", RECORDS)

    def test_pipes(self) -> None:
        """A named pipe in place of a file is refused, and nobody waits for what comes through it."""
        environment = {**os.environ, "PYTHONPATH": str(TOP / "python")}
        words = [sys.executable, "-m", "paver", "sweep", self.system, "--folder", self.folder, "--eps", EPS]
        for name in ("records/share-0003.json", "manifest.json", ".lock", "system.mbx", "whole.paving"):
            with self.subTest(name):
                self.fill()
                self.edit("manifest.json", without("tasks", "share-0003"))
                (self.folder / name).unlink()
                os.mkfifo(self.folder / name)
                done = subprocess.run(words, env=environment, capture_output=True, text=True, timeout=SECONDS, check=False)
                self.assertEqual((done.returncode, done.stdout, done.stderr.count("\n")), (2, "", 1), done.stderr)
                self.assertIn(str(self.folder / name), done.stderr)

    def test_one_call_at_a_time(self) -> None:
        """A second call over the folder is refused by name while the first works in it, from this process and from another, and
        the first comes to its end; then a call works in it again."""
        self.forget(first=True)
        words = [sys.executable, "-m", "paver", "sweep", self.system, "--folder", self.folder, "--eps", EPS, "--shares", "7"]
        told: list[Any] = []

        def tell(_progress: object) -> None:
            if not told:
                told.append(subprocess.run(words, env={**os.environ, "PYTHONPATH": str(TOP / "python")}, capture_output=True,
                                           text=True, timeout=SECONDS, check=False))
                told.append(self.refused("", shares=7))

        self.assertEqual(self.again(shares=SHARES, tell=tell).counts["open"], 0)
        self.assertEqual((told[0].returncode, told[0].stdout), (2, ""))
        for line in (told[0].stderr, told[1]):
            self.assertIn(f"{self.folder}: another call works in it", line)
        self.assertEqual((self.folder / "whole.paving").read_bytes(), (self.done / "whole.paving").read_bytes())
        self.assertEqual(self.again().counts["open"], 0)


class Settings(PackageTest):
    """Settings beside a stored paving that another wrote."""

    def test_strange_settings_are_refused(self) -> None:
        """A form or a value that is none is refused in one line by the file's name, and nothing is printed."""
        with tempfile.TemporaryDirectory() as folder:
            out = Path(folder) / "p"
            paver.run(example("ring"), eps=0.5, out=out)
            kept = Path(f"{out}.json")
            good = json.loads(kept.read_text())
            for name, value in (("form", "odd"), ("form", ["plain"]), ("eps", {}), ("depth", "x"), ("bisect", 3)):
                kept.write_text(json.dumps({**good, "settings": {**good["settings"], name: value}}))
                for words in (["view", example("ring"), out], ["summary", example("ring"), out]):
                    with self.subTest((words[0], name, value)):
                        status, printed, err = command(*words)
                        self.assertEqual((status, printed, err.count("\n")), (2, "", 1), err)
                        self.assertIn(str(kept), err)
            kept.unlink()
            self.assert_raised(ValueError, lambda: paver.view(example("ring"), out, eps=0.5, form="odd"))


class Sources(PackageTest):
    """Nothing of a system becomes a text of Python that is run."""

    def test_no_text_is_run(self) -> None:
        """No module calls what runs a text."""
        runs = ("exec", "eval", "compile")
        found = [(path.name, node.lineno) for path in (TOP / "python" / "paver").rglob("*.py")
                 for node in ast.walk(ast.parse(path.read_text(encoding="utf-8")))
                 if isinstance(node, ast.Call) and isinstance(node.func, ast.Name) and node.func.id in runs]
        self.assertEqual(found, [])

    def test_values_of_descents(self) -> None:
        """The numbers of a descent's function are those of the written formulas, where they are defined."""
        text = ("Variables x in [-8, 8]; y in [-8, 8]; Constraints abs(x - y)^3/y + min(x, 2*y) <= 7/2; "
                "max(-x, x^2)*(x - y) = y^0; end")
        known = paver.check_text(text)
        field = descent.Field(known, known.constraints[0].left, [(-8.0, 8.0)] * 2)
        for x, y in ((1.5, -2.25), (-3.0, 0.5), (-0.0, 4.0), (7.0, 7.0)):
            first = abs(x - y) ** 3 / y + min(x, 2 * y)
            second = max(-x, x ** 2) * (x - y)
            self.assertEqual(field.at([x, y]), [first, first - 3.5, second - 1, 1 - second, -8 - x, x - 8, -8 - y, y - 8])
        self.assertIsNone(field.at([1.0, 0.0]))
        self.assertIsNone(field.at([1e200, 1.0]))


if __name__ == "__main__":
    main()
