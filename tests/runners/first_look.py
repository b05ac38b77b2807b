"""Tests that what `make try` shows is what the proved program prints.

    python3 -m tests.runners.first_look
"""
from __future__ import annotations

import subprocess
import sys
from xml.etree import ElementTree

from tests.runners.running import SECONDS, TOP, FolderTest, main


class FirstLook(FolderTest):
    """What is shown without a proof."""

    def test_first_look(self) -> None:
        """The text is the program's, byte for byte, and the picture has a shape for each inner and small box at least."""
        done = subprocess.run([sys.executable, TOP / "build" / "first_look.py", self.path], capture_output=True,
                              timeout=3 * SECONDS, check=False)
        self.assertEqual(done.returncode, 0, done.stderr)
        wanted = self.call("run", TOP / "examples" / "ring.mbx", "--eps", "0.5").stdout
        self.assertEqual(self.get("try.txt"), wanted, self.get("try.txt")[:200])
        self.assertIn(b"NOT PROVED", done.stdout, done.stdout)
        self.assertTrue(done.stdout.startswith(wanted.splitlines()[0]), done.stdout)
        kept = sum(line[:1] in (b"I", b"S") for line in wanted.splitlines()[1:])
        shapes = list(ElementTree.parse(self.path / "try.svg").iter())
        drawn = sum(shape.get("d", "").count("M") + shape.tag.endswith("}rect") for shape in shapes)
        self.assertGreaterEqual(drawn, kept, (drawn, kept))
        self.assertGreater(kept, 20, (drawn, kept))


if __name__ == "__main__":
    main()
