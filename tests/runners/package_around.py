"""Checks of what lies around the program: links of documents, the man page, completions, installing,
and the package for pip."""
from __future__ import annotations

import ast
import os
import pty
import re
import select
import shutil
import subprocess
import sys
import tempfile
import time
from pathlib import Path
from typing import Iterator

import paver
from paver.options import COMMANDS
from tests.runners.package_test import PackageTest
from tests.runners.running import SECONDS, TOP, main

OPTIONS = {command: sorted(f"--{name}" for name in names) for command, names in COMMANDS.items()}
STATUSES = [str(status) for status in range(12)]
LINES = ["usage: paver COMMAND SYSTEM [OPTIONS] [PAVING..]", "contract: refused at byte B", "objective: byte B: CAUSE",
         "system: line L column C byte B: CAUSE", "paving NAME: too long", "paving NAME: wrong identity",
         "paving NAME: bad line L", "paving NAME: too many nodes at line L", "paving NAME: bad row N",
         "paving NAME: too many rows", "keeper fault: NAME", "read fault: NAME", "write fault: NAME",
         "write fault: standard output", "want of memory", "tree limit: N settled", "disagree PATH: A | B",
         "differs PATH: A | B", "no file: NAME", "honest"]


def said_within(terminal: int, seconds: float) -> str:
    """What comes from a terminal until it is silent for that long."""
    said = b""
    while select.select([terminal], [], [], seconds)[0]:
        said += os.read(terminal, 4096)
    return said.decode()


def zsh_makes_of(typed: str) -> str:
    """What stands on zsh's line after these keys and a tab."""
    child, terminal = pty.fork()
    if child == 0:
        os.execvpe("zsh", ["zsh", "-f", "-i"], {**os.environ, "TERM": "dumb"})
    ready = f"PROMPT=; fpath=('{TOP}/completions' $fpath); autoload -Uz compinit; compinit -u -D; print rea''dy\n"
    os.write(terminal, ready.encode())
    until, said, line = time.monotonic() + SECONDS, "", ""
    while "ready" not in said and time.monotonic() < until:
        said += said_within(terminal, 0.5)
    os.write(terminal, typed.encode() + b"\t")
    while len(line) <= len(typed) and time.monotonic() < until:
        line += said_within(terminal, 2)
    os.write(terminal, b"\x15exit\n")
    os.close(terminal)
    os.waitpid(child, 0)
    return line


def commands_of(text: str) -> Iterator[tuple[str, list[str], list[str]]]:
    """Of each command that a document shows behind `$` its words, the status in its comment, and the lines shown below it."""
    for block in re.findall(r"^```\n(.*?)^```", text, re.M | re.S):
        found: list[tuple[str, list[str], list[str]]] = []
        for line in block.splitlines():
            words, _, comment = line.partition("   #")
            if line.startswith("$ "):
                found.append((words[2:].strip(), re.findall(r"status (\d+)", comment), []))
            elif found:
                found[-1][2].append(words.strip())
        yield from found


def untyped_in(path: Path) -> Iterator[str]:
    """The functions of a module that leave an argument or their result without a type."""
    for node in ast.walk(ast.parse(path.read_text())):
        if isinstance(node, (ast.FunctionDef, ast.AsyncFunctionDef)):
            given = node.args
            named = [*given.posonlyargs, *given.args, *given.kwonlyargs, *filter(None, (given.vararg, given.kwarg))]
            bare = [one for one in named if one.annotation is None and one.arg not in ("self", "cls")]
            if bare or node.returns is None:
                yield f"{path.relative_to(TOP)} {node.lineno}: {node.name}"


def anchors_of(text: str) -> set[str]:
    """The anchors that the headings of a document have."""
    return {re.sub(r"[^\w -]", "", heading.lower()).replace(" ", "-") for heading in re.findall(r"^#+ (.*)$", text, re.M)}


def completed(*words: str) -> list[str]:
    """What bash offers for the last word."""
    script = f"source '{TOP}/completions/paver.bash'; COMP_WORDS=(\"$@\"); COMP_CWORD=$(($# - 1)); _paver; " \
             "printf '%s\\n' \"${COMPREPLY[@]}\""
    done = subprocess.run(["bash", "-c", script, "bash", *words], capture_output=True, text=True, timeout=SECONDS, check=True)
    if done.stderr:
        raise ValueError(done.stderr)
    return done.stdout.split()


class Around(PackageTest):
    """What lies around the program."""

    def needs_tool(self, name: str) -> None:
        if shutil.which(name) is None:
            self.skipTest(f"there is no {name} here")

    def test_man_page(self) -> None:
        """Every command, option, status and line stands in it."""
        text = (TOP / "docs" / "paver.1").read_text().replace("\\-", "-")
        for command in COMMANDS:
            self.assertTrue(re.search(rf'^\.BI {command} "', text, re.M), command)
        for option in sum(OPTIONS.values(), []):
            self.assertTrue(re.search(rf'^\.BI? ?R? ?{option} "', text.replace(".BR", ".B"), re.M), option)
        status = text[text.index(".SH EXIT STATUS"):text.index(".SH LIMITS")]
        self.assertEqual(re.findall(r"^\.TP\n\.B (\d+)$", status, re.M), STATUSES)
        for line in LINES:
            self.assertIn(line, text, line)

    def test_man_page_by_groff(self) -> None:
        self.needs_tool("groff")
        done = subprocess.run(["groff", "-man", "-Tascii", "-ww", str(TOP / "docs" / "paver.1")], capture_output=True,
                              timeout=SECONDS, check=False)
        self.assertEqual(done.returncode, 0, done.stderr)
        self.assertEqual(done.stderr, b"", done.stderr)

    def test_completions(self) -> None:
        self.assertEqual(completed("paver", ""), [*COMMANDS])
        self.assertEqual(completed("paver", "re"), ["resume"])
        for command, wanted in OPTIONS.items():
            with self.subTest(command):
                self.assertEqual(sorted(completed("paver", command, "--")), wanted)
        self.assertEqual(completed("paver", "run", "s", "--form", ""), ["plain", "centered"])
        self.assertNotIn("--boxes", completed("paver", "merge", "s", "--"))
        self.assertEqual(completed("paver", "run", "s", "--bisect", ""), ["largest", "round"])
        self.assertEqual(completed("paver", "run", "s", "--bisect", "=", "l"), ["largest"])
        self.assertEqual(completed("paver", "run", "s", "--bisect", "="), ["largest", "round"])
        self.assertEqual(completed("paver", "run", "s", "--eps", "="), [])

    def test_words_of_completions(self) -> None:
        """Each command and each option stands in the files for zsh and for fish, and nothing else does."""
        zsh, fish = ((TOP / "completions" / file).read_text() for file in ("_paver", "paver.fish"))
        self.assertTrue(set(re.findall(r"'--([a-z]+)=\[", zsh)) == set(re.findall(r"^complete .* -l ([a-z]+) ", fish,
                                                                                  re.M)) == set(sum(COMMANDS.values(), ())))
        self.assertEqual(set(re.findall(r" -a ([a-z-]+) -d", fish)), set(COMMANDS))
        self.assertEqual(re.findall(r"'([a-z-]+):", zsh[zsh.index("commands=("):zsh.index("_describe")]), [*COMMANDS])
        cases = re.findall(r"^  ([a-z|-]+)\) _arguments", zsh, re.M)
        self.assertEqual(sorted("|".join(cases).split("|")), sorted(COMMANDS))

    def fish_offers(self, line: str) -> list[str]:
        script = f"source '{TOP}/completions/paver.fish'; complete -C '{line}'"
        done = subprocess.run(["fish", "-c", script], capture_output=True, text=True, timeout=SECONDS, check=False)
        self.assertEqual(done.returncode, 0, done.stderr)
        self.assertEqual(done.stderr, "", done.stderr)
        return [offer.split("\t")[0] for offer in done.stdout.splitlines()]

    def test_fish(self) -> None:
        self.needs_tool("fish")
        self.assertEqual(sorted(self.fish_offers("paver ")), sorted(COMMANDS))
        for command, wanted in OPTIONS.items():
            with self.subTest(command):
                self.assertEqual(sorted(self.fish_offers(f"paver {command} s --")), wanted)
        self.assertEqual(self.fish_offers("paver run s --bisect r"), ["round"])

    def test_zsh(self) -> None:
        self.needs_tool("zsh")
        self.assertEqual(zsh_makes_of("paver re"), "paver resume ")
        self.assertEqual(zsh_makes_of("paver run s --bisect l"), "paver run s --bisect largest ")
        self.assertEqual(zsh_makes_of("paver audit s --d"), "paver audit s --depth=")
        self.assertEqual(zsh_makes_of("paver sample --s"), "paver sample --seed=")
        self.assertEqual(zsh_makes_of("paver campaign s --r"), "paver campaign s --rounds=")

    def test_octave(self) -> None:
        """A stored file, and the same printed, have the package's counts and boxes."""
        self.needs_tool("octave")
        with tempfile.TemporaryDirectory() as folder:
            words = [os.environ["PAVER"], "run", str(TOP / "examples" / "ring.mbx"), "--eps", "1"]
            printed = subprocess.run(words, capture_output=True, text=True, timeout=SECONDS, check=True).stdout
            (Path(folder) / "printed").write_text(printed)
            subprocess.run([*words, "--out", f"{folder}/stored"], capture_output=True, timeout=SECONDS, check=True)
            script = f"addpath('{TOP}/python'); a = read_paving('{folder}/printed'); " \
                     f"b = read_paving('{folder}/stored', [-3 3; -3 3]); " \
                     "printf('%d %d %d %d %d\\n', rows(a.inner), rows(a.small), a.removed, a.cut, " \
                     "isequal(a.small, b.small)); printf('%.17g ', a.small(1, :))"
            done = subprocess.run(["octave", "--no-gui", "--quiet", "--norc", "--eval", script], capture_output=True, text=True,
                                  timeout=SECONDS, check=False)
            self.assertEqual(done.returncode, 0, done.stderr)
            found, first = done.stdout.split("\n")
            kinds = [line[0] for line in printed.splitlines()[1:]]
            self.assertEqual(found.split(), [*(str(kinds.count(kind)) for kind in "ISXC"), "1"], found)
            small = next(iter(paver.Paving.from_text(printed).small())).exact
            self.assertEqual([float(word) for word in first.split()], [float(end) for side in small for end in side], first)

    def test_install(self) -> None:
        """`make install` and `make uninstall` under another root; the program is not built for it."""
        self.needs_tool("make")
        if not (TOP / "paver").exists():
            self.skipTest("there is no ./paver to install")
        with tempfile.TemporaryDirectory() as folder:
            words = ["make", "--silent", "-C", str(TOP), "-o", "paver", f"DESTDIR={folder}", "PREFIX=/usr"]
            subprocess.run([*words, "install"], check=True, timeout=SECONDS)
            found = sorted(str(path.relative_to(folder)) for path in Path(folder).rglob("*") if path.is_file())
            self.assertEqual(found,
                             ["usr/bin/paver", "usr/share/bash-completion/completions/paver",
                              "usr/share/fish/vendor_completions.d/paver.fish", "usr/share/man/man1/paver.1",
                              "usr/share/zsh/site-functions/_paver"], found)
            subprocess.run([*words, "uninstall"], check=True, timeout=SECONDS)
            self.assertFalse([path for path in Path(folder).rglob("*") if path.is_file()])

    def test_pip(self) -> None:
        """The package can be installed with no network, and runs from there."""
        pip = [sys.executable, "-m", "pip"]
        if subprocess.run([*pip, "--version"], capture_output=True, check=False).returncode:
            self.skipTest("there is no pip here")
        with tempfile.TemporaryDirectory() as folder:
            shutil.copytree(TOP / "python", f"{folder}/source", ignore=shutil.ignore_patterns("__pycache__"))
            words = [*pip, "install", "--quiet", "--no-index", "--disable-pip-version-check",
                     "--target", f"{folder}/site", f"{folder}/source"]
            done = subprocess.run(words, capture_output=True, text=True, timeout=SECONDS, check=False)
            self.assertEqual(done.returncode, 0, done.stderr)
            run = subprocess.run([sys.executable, "-m", "paver", "summary", str(TOP / "examples" / "ring.mbx")],
                                 env={**os.environ, "PYTHONPATH": f"{folder}/site"}, capture_output=True, text=True,
                                 timeout=SECONDS, check=False)
            self.assertEqual(run.returncode, 0, run.stderr)
            self.assertTrue(run.stdout.startswith("settled 663 "), run.stderr)

    def test_versions(self) -> None:
        """Each Python that is here, from the least that is promised on, takes every module of the package with no warning."""
        least = int(re.findall(r'requires-python = ">=3\.(\d+)"', (TOP / "python" / "pyproject.toml").read_text())[0])
        modules = [path for path in (TOP / "python" / "paver").rglob("*.py") if path.name != "__init__.py"]
        names = [".".join(path.relative_to(TOP / "python").with_suffix("").parts) for path in modules]
        here = [found for minor in range(least, least + 20) for found in (shutil.which(f"python3.{minor}"),) if found]
        if not here:
            self.skipTest("there is no python3.N here")
        for python in here:
            if subprocess.run([python, "-c", ""], capture_output=True, check=False).returncode:
                continue  # a shim with nothing behind it
            done = subprocess.run([python, "-W", "error", "-c", f"import {', '.join(names)}"], capture_output=True, text=True,
                                  env={**os.environ, "PYTHONPATH": str(TOP / "python"), "PYTHONDONTWRITEBYTECODE": "1"},
                                  timeout=SECONDS, check=False)
            with self.subTest(python):
                self.assertEqual((done.returncode, done.stderr), (0, ""))

    def test_types(self) -> None:
        """Each function of the repository's Python names the types of its arguments and of its result."""
        files = [path for folder in ("bench", "build", "python", "tests") for path in sorted((TOP / folder).rglob("*.py"))]
        self.assertEqual([function for path in files for function in untyped_in(path)], [])

    def test_vim(self) -> None:
        """The errorformat finds the refused place, also in another folder than the one where vim runs."""
        self.needs_tool("vim")
        with tempfile.TemporaryDirectory() as folder:
            system, result = Path(folder) / "below" / "bad.mbx", Path(folder) / "found"
            system.parent.mkdir()
            system.write_text("Variables x in [0,4];\nConstraints\n  x + <= 1;\nend\n")
            link = Path(folder) / "paver"
            link.symlink_to(os.environ["PAVER"])
            entry = "[bufname(d.bufnr), d.lnum, d.col, d.text]"
            show = f"call writefile([string(map(getqflist(), {{_, d -> {entry}}}))], '{result}')"
            subprocess.run(["vim", "-Nes", "-u", "NONE", "-c", f"edit {system}", "-c", f"source {TOP}/docs/paver.vim",
                            "-c", "silent make!", "-c", show, "-c", "qa!"], cwd=folder, stdin=subprocess.DEVNULL,
                           env={**os.environ, "PATH": f"{folder}:{os.environ['PATH']}"}, capture_output=True, timeout=SECONDS,
                           check=False)
            if not result.exists():
                self.skipTest("this vim knows no lambdas")
            self.assertTrue(result.read_text().strip().endswith("below/bad.mbx', 3, 7, 'Unexpected']]"), result.read_text())
            tools = Path(folder) / "paver-tools"
            tools.write_text(f'#!/bin/sh\nPYTHONPATH={TOP}/python exec {sys.executable} -m paver "$@"\n')
            tools.chmod(0o755)
            system.write_text("Variables x in [0,4];\nConstraints\n  x == 1;\nend\n")
            subprocess.run(["vim", "-Nes", "-u", "NONE", "-c", f"edit {system}", "-c", f"source {TOP}/docs/paver.vim",
                            "-c", "silent make!", "-c", show, "-c", "qa!"], cwd=folder, stdin=subprocess.DEVNULL,
                           env={**os.environ, "PATH": f"{folder}:{os.environ['PATH']}"}, capture_output=True, timeout=SECONDS,
                           check=False)
            self.assertIn("below/bad.mbx', 3, 6, 'this can''t stand here (Unexpected). Equality is written `=`",
                          result.read_text(), result.read_text())

    def test_links(self) -> None:
        """Each link of a document goes to a file or a folder, and to a heading where it names one."""
        count = 0
        for document in [TOP / "README.md", TOP / "python" / "README.md", *(TOP / "docs").glob("*.md")]:
            for link in re.findall(r"\]\((?!https?:)([^)]+)\)", document.read_text()):
                name, _, heading = link.partition("#")
                target = document.parent / name if name else document
                self.assertTrue(target.exists(), (document, link))
                self.assertTrue(not heading or heading in anchors_of(target.read_text()), (document, link))
                count += 1
        self.assertGreater(count, 200, count)


if __name__ == "__main__":
    main()
