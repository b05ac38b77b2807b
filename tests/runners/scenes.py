"""Plays scenes, which are texts of tests/data/scenes: files, calls over them one after another, and what comes of each.

    python3 -m tests.runners.scenes [-k WORD]

A line begins a scene (`# NAME`), makes a file (`file NAME`, of the lines that follow behind `|`, or behind `/` without a line
feed) or a folder (`folder NAME`), calls the program (`call WORD..`), or looks at a file (`show NAME`) or at the rows that a
campaign keeps (`rows NAME`). Behind a call stands what it prints (`>`), what it tells (`!`) and its status (`=`), behind a look
what is there (`:`) or that nothing is (`=none`). A line `-` says that the text before it doesn't end with a line feed.
"""
from __future__ import annotations

from collections.abc import Iterator
from pathlib import Path

from tests.data.cases import RECIPROCAL, system
from tests.runners.campaigns import stock
from tests.runners.paving_files import PART, TWO_DISCS, WHOLE, WHOLE_SUMMARY, file_of
from tests.runners.running import FolderTest, main

SCENES = Path(__file__).resolve().parents[1] / "data" / "scenes"
EXPECTED = tuple(">!=:-")
LINE_FEED = b"\n"


def scenes_of(text: str) -> Iterator[str]:
    """The scenes of a text."""
    return (f"# {scene}" for scene in text[2:].split("\n# ") for scene in [scene.rstrip("\n") + "\n"])


def marked(mark: str, text: bytes) -> str:
    """A text behind a mark, and a line `-` where it has no line feed at its end."""
    lines = text.decode().split("\n")
    last = lines.pop()
    return "".join(f"{mark}{line}\n" for line in lines) + (f"{mark}{last}\n-\n" if last else "")


class Scenes(FolderTest):
    """Scenes that the real program plays."""

    file = ""  # the one that is being written

    def play(self, scene: str) -> str:
        """The scene with what came of it, in a folder with nothing in it."""
        self.clear()
        said = ""
        for line in scene.splitlines():
            if not line.startswith(EXPECTED):
                said += f"{line}\n{self.done(line)}"
        return said

    def clear(self) -> None:
        for path in self.path.iterdir():
            path.rmdir() if path.is_dir() else path.unlink()

    def done(self, line: str) -> str:
        """What comes of a line that begins a scene, a file or a folder, goes on with the file, calls or looks."""
        word, _, rest = line.partition(" ")
        if word == "call":
            status, out, err = self.answered(*rest.split())
            return f"{marked('>', out)}{marked('!', err)}={status}\n"
        if word == "show":
            return marked(":", self.get(rest))
        if word == "rows":
            return self.rows(rest)
        if word == "file":
            self.file = rest
            self.put(rest, b"")
        elif line[0] in "|/":
            self.put(self.file, self.get(self.file) + line[1:].encode() + LINE_FEED * (line[0] == "|"))
        elif word == "folder":
            (self.path / rest).mkdir()
        else:
            self.assertEqual(word, "#", line)
        return ""

    def rows(self, name: str) -> str:
        """The rows that a campaign has kept, as stock sqlite3 finds them."""
        if not (self.path / name).exists():
            return "=none\n"
        sound, identity, rows = stock(self.path, name)
        self.assertTrue(sound and identity, name)
        return "".join(f":{path or '.'} {row}\n" for path, row in rows)

    def test_scenes(self) -> None:
        for file in sorted(SCENES.glob("*.txt")):
            for scene in scenes_of(file.read_text(encoding="utf-8")):
                with self.subTest(scene.splitlines()[0][2:], file=file.stem):
                    self.assertEqual(self.play(scene), scene)


class Workers(FolderTest):
    """Commands that one worker and several work on."""

    def called(self, words: str, status: int, front: bytes) -> bytes:
        """What a call prints, which begins so. It tells nothing."""
        given = self.answered(*words.split())
        self.assertEqual((given[0], given[2]), (status, b""), words)
        self.assertTrue(given[1].startswith(front), (words, given))
        return given[1]

    def test_the_line_by_one_two_and_eight(self) -> None:
        """A budget of one and the whole, stored, and gone on with."""
        self.put("s", RECIPROCAL)
        whole = file_of(2, WHOLE)
        turns = [("run s", 0, WHOLE_SUMMARY, "", b""), ("run s --boxes 1 --out a", 1, b"settled 1 ", "a", file_of(2, PART)),
                 ("run s --boxes 5 --out b", 0, WHOLE_SUMMARY, "b", whole), ("run s --boxes 4", 1, b"settled 4 ", "", b""),
                 ("resume s a --boxes 4 --out c", 0, WHOLE_SUMMARY, "c", whole),
                 ("resume s a --boxes 3", 1, b"settled 4 ", "", b"")]
        for workers in (1, 2, 8):
            for words, status, front, name, text in turns:
                with self.subTest(words, workers=workers):
                    self.called(f"{words} --eps 0.25 --workers {workers}", status, front)
                    self.assertEqual(self.get(name) if name else b"", text)

    def test_two_discs_by_one_two_and_eight(self) -> None:
        self.put("s", TWO_DISCS)
        whole = self.called("run s --workers 1", 0, b"settled 323 cut 161 removed 0 inner 74 small 88 open 0\n")
        self.called("run s --workers 1 --out p", 0, b"")
        for workers in (2, 8):
            with self.subTest(workers=workers):
                self.assertEqual(self.called(f"run s --workers {workers}", 0, b""), whole)
                self.called(f"run s --workers {workers} --out q", 0, b"")
                self.assertEqual(self.get("q"), self.get("p"))

    def test_budgets_end_a_run(self) -> None:
        self.put("s", TWO_DISCS)
        self.called("run s --boxes 100 --workers 8", 1, b"settled 100 ")
        self.put("s", system("x in [0,9999999], y in [0,9999999]", "x < y"))
        self.called("run s", 1, b"settled 20000 ")

    def test_a_text_that_is_too_long(self) -> None:
        self.put("s", b" " * 65537)
        line = b"system: line 1 column 65537 byte 65536: TextTooLong\n"
        status, _, err = self.answered("run", "s")
        self.assertEqual((status, err), (3, line))


if __name__ == "__main__":
    main()
