"""Checks of split and gather: nothing that is missing, mixed, stale or damaged goes unnoticed, and large answers are
streamed."""
from __future__ import annotations

import importlib
import io
import tempfile
from pathlib import Path
from typing import Any, Callable

import paver
from tests.runners.package_test import PackageTest, command, example
from tests.runners.running import main

splitting: Any = importlib.import_module("paver.split")  # the package has a function of this name


def answered(folder: str | Path, count: int = 4, **settings: Any) -> list[Path]:
    """The parts of the ring in a folder, each with its stored answer."""
    paths = paver.split(example("ring"), count, folder, **settings)
    for path in paths:
        paver.run(path, eps=0.5, out=path.with_suffix(".paving"))
    return paths


class Parts(PackageTest):
    """Split and gather."""

    def test_whole_parts(self) -> None:
        """The answers are one cover of the search box, whether settings were given to split, to gather, or are kept beside."""
        whole = paver.run(example("ring"), eps=0.5).paving()
        half: dict[str, Any] = {"eps": 0.5}
        none: dict[str, Any] = {}
        for at_split, at_gather, keep in ((half, none, False), (none, half, False), (none, none, True), (none, none, False)):
            with tempfile.TemporaryDirectory() as folder:
                paths = answered(folder, **at_split)
                for path in paths if not keep else []:
                    Path(f"{path.with_suffix('.paving')}.json").unlink()
                found = paver.gather(folder, **at_gather)
                self.assertEqual(sum(found.volumes().values()), 36)
                self.assertEqual(len(found.pavings), 4)
                self.assertEqual(found.hull(), whole.hull())
                self.assertEqual(len(found.clusters()), 1)
                self.assertLessEqual(found.widest().width, 0.5)
                file, out = io.StringIO(), Path(folder) / "all.csv"
                found.write_csv(file)
                self.assertEqual(command("gather", folder, "--eps", "0.5", "--csv", "--out", out)[0], 0)
                rows = file.getvalue().splitlines()
                self.assertEqual(out.read_text(), file.getvalue())
                self.assertEqual(rows.count(rows[0]), 1)
                self.assertTrue(rows[0].startswith("class,"))
                self.assertEqual(len(rows), 1 + sum(found.counts()[kind] for kind in ("inner", "small", "open")))

    def test_streamed_parts(self) -> None:
        """Where the answers are large one part is held at a time, and says the same."""
        with tempfile.TemporaryDirectory() as folder:
            answered(folder)
            held, before = paver.gather(folder, eps=0.5), splitting.HELD
            try:
                splitting.HELD = 10
                streamed = paver.gather(folder, eps=0.5)
            finally:
                splitting.HELD = before
            self.assertIsNotNone(held._pavings)
            self.assertIsNone(streamed._pavings)
            texts = []
            for found in (held, streamed):
                texts.append(io.StringIO())
                found.write_csv(texts[-1])
            self.assertEqual((held.counts(), held.volumes(), held.hull()),
                             (streamed.counts(), streamed.volumes(), streamed.hull()))
            self.assertEqual(texts[0].getvalue(), texts[1].getvalue())
            self.assertIsNone(streamed._pavings)
            self.assertEqual(len(streamed.clusters()), 1)
            self.assertIsNotNone(streamed._pavings)

    def test_spoiled_parts(self) -> None:
        """Each way to spoil a folder is refused, by the name of what is wrong."""
        def without_answer(paths: list[Path]) -> None:
            paths[1].with_suffix(".paving").unlink()

        def empty_answer(paths: list[Path]) -> None:
            paths[1].with_suffix(".paving").write_bytes(b"")

        def without_part(paths: list[Path]) -> None:
            paths[1].unlink()

        def changed_part(paths: list[Path]) -> None:
            paths[1].write_text(paths[1].read_text().replace("4;", "5;"))

        def other_settings(paths: list[Path]) -> None:
            paver.run(paths[1], eps=0.25, out=paths[1].with_suffix(".paving"))

        def other_part(paths: list[Path]) -> None:
            paths[1].with_suffix(".paving").write_bytes(paths[2].with_suffix(".paving").read_bytes())

        def cut_short(paths: list[Path]) -> None:
            answer = paths[1].with_suffix(".paving")
            answer.write_bytes(answer.read_bytes()[:-9])

        def without_manifest(paths: list[Path]) -> None:
            paths[1].with_name("manifest.json").unlink()

        spoilers: list[tuple[Callable[[list[Path]], None], type[Exception], str]] = [
            (without_answer, FileNotFoundError, "part-001"), (empty_answer, FileNotFoundError, "part-001"),
            (without_part, FileNotFoundError, "part-001"), (changed_part, ValueError, "part-001"),
            (other_settings, paver.PavingRefused, "part-001"), (other_part, paver.PavingRefused, "part-001"),
            (cut_short, paver.PavingError, "line"), (without_manifest, FileNotFoundError, "manifest.json")]
        for spoil, kind, phrase in spoilers:
            with tempfile.TemporaryDirectory() as folder:
                spoil(answered(folder))
                with self.assertRaises(kind, msg=spoil.__name__) as raised:
                    paver.gather(folder)
                self.assertIn(phrase, str(raised.exception), spoil.__name__)
                status, out, err = command("gather", folder, "--csv", "--out", Path(folder) / "out")
                self.assertEqual((status, out), (2, ""), err)
                self.assertIn(phrase, err, err)
                self.assertFalse((Path(folder) / "out").exists(), err)

    def test_parts_of_parts(self) -> None:
        """A part that is split again has its parts in a folder of its name, and they stand for it."""
        with tempfile.TemporaryDirectory() as folder:
            paths = answered(folder, eps=0.5)
            paths[2].with_suffix(".paving").unlink()
            self.assert_raised(FileNotFoundError, lambda: paver.gather(folder))
            answered_again = paver.split(paths[2], 3, paths[2].with_suffix(""))
            for path in answered_again:
                paver.run(path, eps=0.5, out=path.with_suffix(".paving"))
            found = paver.gather(folder)
            self.assertEqual(sum(found.volumes().values()), 36)
            self.assertEqual(len(found.pavings), 6)
            self.assertEqual(found.counts()["open"], 0)

    def test_order_of_parts(self) -> None:
        """The heap cuts as the rule says: the first widest part in its widest place, at most so many."""
        root = paver.Box("open", paver.check(example("torus")).root).exact
        for count in (1, 2, 3, 7, 24, 60):
            boxes = splitting.boxes_of(root, count)
            wanted = [list(root)]
            while len(wanted) < count:
                widths = [(max(splitting.width_of(pair) for pair in box), -i) for i, box in enumerate(wanted)]
                i = -max(widths)[1]
                k = max(range(len(root)), key=lambda k: (splitting.width_of(wanted[i][k]), -k))
                at = splitting.cut_of(*wanted[i][k])
                low, high = list(wanted[i]), list(wanted[i])
                low[k], high[k] = (low[k][0], at), (at, high[k][1])
                wanted[i:i + 1] = [low, high]
            self.assertEqual(boxes, wanted, count)


if __name__ == "__main__":
    main()
