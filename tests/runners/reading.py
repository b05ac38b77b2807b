"""Checks docs/READING.md, whose commands give what it shows, and with docs/PROOFS.md and docs/GLOSSARY.md that each named line
of a file has the name, and with docs/LIBRARY.md that the lines of a program are the program's.

    [MEND=yes] python3 -m tests.runners.reading

With MEND the numbers of lines are first set to those on which the names now are declared.
"""
from __future__ import annotations

import os
import re
from pathlib import Path

from tests.runners.running import TOP, FolderTest, main

PAGE = TOP / "docs" / "READING.md"
PAGES = [PAGE, TOP / "docs" / "PROOFS.md", TOP / "docs" / "GLOSSARY.md"]
LINK = re.compile(r"\[`([a-zA-Z_]+)`, line (\d+)\]\(([^)]+)\)")
DECLARES = r"(?:^\s*|\b(?:fn|record|data|struct|trait|const|ensures|unfoldable pub|abbrev pub|pub|ghost) )%s\b"


def declared(name: str, file: Path) -> list[int]:
    """The lines that declare a name, with those that begin with a keyword first."""
    lines = file.read_text().splitlines()
    found = [i for i, line in enumerate(lines, 1) if re.search(DECLARES % name, line)]
    return sorted(found, key=lambda i: re.match(r"\s*%s\b(?!\s*:[^:])" % name, lines[i - 1]) is not None)


def mended(text: str) -> str:
    """A page with the numbers of lines as they are now."""
    def number(match: re.Match[str]) -> str:
        places = declared(match.group(1), PAGE.parent / match.group(3))
        return f"[`{match.group(1)}`, line {places[0] if places else 0}]({match.group(3)})"
    return LINK.sub(number, text)


class Reading(FolderTest):
    """The pages' lines, and the first one's commands."""

    def setUp(self) -> None:
        super().setUp()
        if os.environ.get("MEND"):
            for page in PAGES:
                page.write_text(mended(page.read_text()))
        self.text = PAGE.read_text()

    def test_lines(self) -> None:
        for page, least in zip(PAGES, (25, 10, 25)):
            links = LINK.findall(page.read_text())
            self.assertGreaterEqual(len(links), least)
            for name, line, to in links:
                with self.subTest(name, file=to):
                    self.assertIn(int(line), declared(name, page.parent / to))

    def test_library(self) -> None:
        """The lines that docs/LIBRARY.md shows stand in the program that it names, one after the other."""
        shown = re.findall(r"^```\n(.*?)^```", (TOP / "docs" / "LIBRARY.md").read_text(), re.M | re.S)
        program = [line.strip() for line in (TOP / "build" / "first_look.rt.txt").read_text().splitlines()]
        self.assertEqual(len(shown), 1)
        self.assertIn("\n".join(line.strip() for line in shown[0].splitlines()), "\n".join(program))

    def test_contract(self) -> None:
        """The contract that the page shows stands in the file of the call that it names next."""
        shown = re.findall(r"^```rattle\n(.*?)^```.*?\]\(([^)]+)\)", self.text, re.M | re.S)
        self.assertEqual(len(shown), 1)
        for lines, file in shown:
            code = [line.strip() for line in (PAGE.parent / file).read_text().splitlines()]
            self.assertIn("\n".join(line.strip() for line in lines.splitlines()), "\n".join(code))

    def test_commands(self) -> None:
        blocks = [block for kind, block in re.findall(r"^```(.*)\n((?:.*\n)*?)```$", self.text, re.M) if not kind]
        systems, shown = ([block for block in blocks if block.startswith("$ ") == wanted] for wanted in (False, True))
        self.assertEqual((len(systems), len(shown)), (2, 3))
        for name, system in zip(("square.mbx", "broken.mbx"), systems):
            self.put(name, system.encode())
        for block in shown:
            command, _, wanted = block.partition("\n")
            with self.subTest(command):
                done = self.call(*command.split()[2:])
                self.assertEqual((done.stdout + done.stderr).decode(), wanted)


if __name__ == "__main__":
    main()
