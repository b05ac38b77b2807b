"""Follows docs/SCALING.md by its own commands, in their order, in a folder with the examples, the program and the package.

    python3 -m tests.runners.scaling [-k WORD]

Each block is one script of a shell, as who copies it has it; what it prints has the lines of the page in it, times apart. The
large example, which takes a machine for half an hour, is left out; engines that aren't here are skipped, and said.
"""
from __future__ import annotations

import re
import shutil
import subprocess
import tempfile
from pathlib import Path

from tests.runners.running import PROGRAM, TOP, FolderTest, main

PAGE = (TOP / "docs" / "SCALING.md").read_text()
SET_UP = "export PYTHONPATH=python PAVER=$PWD/paver PYTHONDONTWRITEBYTECODE=1\n"
SECONDS = 300
ENGINES = {"dask_here.sh": ["/usr/bin/python3", "-c", "import distributed"], "slurm_here.sh": ["sh", "-c", "command -v sbatch"]}


def blocks(kind: str = "") -> list[str]:
    """The blocks of the page that are of a language, or of none."""
    return [block for of, block in re.findall(r"^```(\w*)\n(.*?)^```", PAGE, re.M | re.S) if of == kind]


def commands(block: str) -> list[str]:
    """The commands behind `$` of a block."""
    return [line[2:] for line in block.splitlines() if line.startswith("$ ")]


def block_with(words: str) -> str:
    """The one block that has these words."""
    found = [block for block in blocks() if words in block]
    assert len(found) == 1, (words, found)
    return found[0]


def told(block: str) -> list[str]:
    """The lines that a block says are printed: without those of times, and where some are left out."""
    return [line for line in block.splitlines() if not line.startswith(("$ ", "processor hours", "..")) and line]


class Scaling(FolderTest):
    """What the page shows. Later blocks read what earlier ones made."""
    folder: Path

    @classmethod
    def setUpClass(cls) -> None:
        made = tempfile.TemporaryDirectory()
        cls.addClassCleanup(made.cleanup)
        cls.folder = Path(made.name)
        cls.folder.chmod(0o755)  # the daemons of Slurm have users of their own
        (cls.folder / "paver").symlink_to(PROGRAM)
        for name in ("examples", "python", "tests"):
            (cls.folder / name).symlink_to(TOP / name)

    def setUp(self) -> None:
        self.path = self.folder

    def follow(self, script: str) -> list[str]:
        """The lines that a script prints, each of whose commands ends well."""
        done = subprocess.run(["bash", "-ec", SET_UP + script], cwd=self.path, capture_output=True, text=True, timeout=SECONDS,
                              check=False)
        self.assertEqual(done.returncode, 0, (script, done.stdout[-500:], done.stderr[-500:]))
        return done.stdout.splitlines()

    def prints(self, block: str, script: str) -> None:
        """The lines of a block come in their order among those that a script prints."""
        found = iter(self.follow(script))
        for line in told(block):
            self.assertIn(line, found, script)

    def test_shares(self) -> None:
        block = block_with("--folder torus --eps 0.0625")
        self.prints(block, "\n".join(commands(block)))
        self.assertTrue((self.path / "torus" / "whole.paving").exists())

    def test_engines(self) -> None:
        lines = commands(block_with("--engine slurm"))
        for name, probe in ENGINES.items():
            if subprocess.run(probe, capture_output=True, check=False).returncode:
                print(f"skipped: {name}: no such engine here")
                continue
            mine = [at for at, line in enumerate(lines) if name in line]
            script = "\n".join(lines[mine[0]:mine[-1] + 1]).replace("/tmp/", f"{self.path}/of_")
            stop = f"trap '{lines[mine[-1]]}' EXIT\n".replace("/tmp/", f"{self.path}/of_")
            self.follow("\n".join([stop, *script.splitlines()[:-1]]))
            folder = "by_dask" if "dask" in name else "by_slurm"
            self.assertTrue((self.path / folder / "whole.paving").exists(), folder)
            self.assertIn("322287", "\n".join(self.follow(f"python3 -m paver sweep --status {folder}")))

    def test_split_and_gathered(self) -> None:
        split, gather = block_with("paver split examples/torus.mbx --parts 16"), block_with("paver gather parts --clusters")
        self.prints(split, "\n".join(commands(split)))
        self.follow(next(line for line in block_with("parallel -j 4").splitlines() if "xargs" in line))
        self.prints(gather, "\n".join(commands(gather)))
        self.follow("\n".join(["cat > ask.py <<'E'", *blocks("python")[-1].splitlines(), "E", "python3 ask.py"]))
        self.follow(block_with("rm parts/part-007.paving"))

    def test_by_hand(self) -> None:
        grown, joined = block_with("--boxes 20000 --out a.paving"), block_with("paver merge SYSTEM b.paving d.paving")
        shutil.copy(TOP / "examples" / "torus.mbx", self.path / "SYSTEM")
        lines = [*grown.splitlines(), "cp b.paving d.paving", *joined.splitlines()]
        script = "".join(f"answers ./{line}\n" if line.startswith("paver ") else f"{line}\n" for line in lines)
        last = self.follow('answers() { "$@" || [ $? -eq 1 ]; }\n' + script)[-1]
        self.assertEqual(last, "honest")


if __name__ == "__main__":
    main()
