"""Checks the one table of commands and options, python/paver/commands.py, against all that tell or take them: the program,
the package's calls, docs/USING.md, the manual page, the completions of three shells, and the lists of other tests. Also that
each word of docs/GLOSSARY.md stands with the place of its definition.

    python3 -m tests.runners.tables [-k WORD]

A command or an option is added in commands.py and in its code. `make tables` writes what is made of it, and this says what else
still lacks it.
"""
from __future__ import annotations

import inspect
import re
import subprocess

import paver
import wheel_of_package
from paver import __main__ as package_commands
from paver import commands, options
from paver.version import VERSION
from tests.generators import command_tables
from tests.runners import allocations, campaign_allocations, fuzz_words, outside, package_around, reading
from tests.runners.running import PROGRAM, SECONDS, TOP, FolderTest, main

TABLE = {command: set(names) for command, names in options.COMMANDS.items()}
NAMES = sorted({name for names in options.COMMANDS.values() for name in names})
VALUES = options.EXAMPLES
OTHER_NAMES = {"svg": "draw"}  # of the calls of the package
USAGE = 2
USING = (TOP / "docs" / "USING.md").read_text()
GLOSSARY = TOP / "docs" / "GLOSSARY.md"
# Words of the glossary, and those that would say the same in other words.
OTHER_WORDS = {
    "settle": "(?:processed|solved|expanded|visited|explored) (?:node|box|leaf|boxes|nodes|leaves)",
    "inner box": "(?:inside|interior|feasible|solution) box(?:es)?", "small box": "(?:boundary|unknown|undecidable) box(?:es)?",
    "removed part": "(?:outer|rejected|infeasible) (?:box|boxes|part|parts)", "budget": "quota|allowance",
    "paving": "tiling|subdivision|tessellation", "share": "shards?|chunk of the leaves", "identity": "fingerprint",
    "contractor": "pruning operator|narrowing operator|filtering operator", "bisection": "branching",
    "settings": "configuration", "worker": "agents?|job runner", "round": "epochs?", "hull": "bounding box(?:es)?",
}
MANUAL = (TOP / "docs" / "paver.1").read_text().replace("\\-", "-")


def named(cell: str) -> set[str]:
    """The options that a text names, with those that `settings` stand for."""
    without = set(re.findall(r"settings without `--([a-z]+)`", cell))
    found = set(re.findall(r"--([a-z]+)", cell)) - without
    return found | set(options.KEPT_SETTINGS) - without if re.search(r"\bsettings\b|\bSETTINGS\b", cell) else found


def zsh_tables() -> dict[str, set[str]]:
    """The options of each command in the completion for zsh, with what its variables stand for."""
    text = (TOP / "completions" / "_paver").read_text()
    stand = dict(re.findall(r"^local (o_[a-z]+)='--([a-z]+)=\[", text, re.M))
    found: dict[str, set[str]] = {}
    for command, words in re.findall(r"^  ([a-z-]+)\) _arguments (.*) ;;$", text, re.M):
        found[command] = {stand[variable] for variable in re.findall(r"\$(\w+)", words)}
    return found


def fish_tables() -> dict[str, set[str]]:
    """The options of each command in the completion for fish."""
    text = (TOP / "completions" / "paver.fish").read_text()
    lists = dict(re.findall(r"^set -l (\w+) (.*)$", text, re.M))
    found: dict[str, set[str]] = {command: set() for command in lists["commands"].split()}
    for names, option in re.findall(r'^complete -c paver -n "__fish_seen_subcommand_from ([^"]*)" -l ([a-z]+) ', text, re.M):
        for command in names.split():
            found[command].add(option)
    return found


def bash_tables() -> dict[str, set[str]]:
    """What bash offers for each command."""
    offered = package_around.completed("paver", "")
    return {command: {offer[2:] for offer in package_around.completed("paver", command, "--")} for command in offered}


class Tables(FolderTest):
    """Each place that tells or takes commands and options."""

    def takes(self, command: str, given: dict[str, str], files: int | None = None, more: list[str] | None = None) -> bool:
        """Whether the program takes these words: in a folder without files it then ends otherwise than by the usage line."""
        wanted = len(options.FILES[command].split())
        names = [f"absent{i}" for i in range(wanted if files is None else files)]
        needed = {name: VALUES[name] for name in options.REQUIRED[command]}
        words = [f"--{name}={value}" for name, value in (needed | given).items()]
        done = self.call(command, *names, *words, *(more or []))
        return not (done.returncode == USAGE and done.stderr.startswith(b"usage: "))

    def test_program(self) -> None:
        """Each command takes its options and no others, each once, and as many names of files as the table says."""
        for command in options.COMMANDS:
            with self.subTest(f"{command} with what it needs"):
                self.assertTrue(self.takes(command, {}))
            for name in NAMES:
                wanted = name in TABLE[command]
                with self.subTest(f"{command} --{name}"):
                    self.assertEqual(self.takes(command, {name: VALUES[name]}), wanted)
                twice = self.takes(command, {name: VALUES[name]}, more=[f"--{name}={VALUES[name]}"])
                with self.subTest(f"{command} --{name} twice"):
                    self.assertFalse(twice)
            for name in options.REQUIRED[command]:
                words = [f"--{other}={VALUES[other]}" for other in options.REQUIRED[command] if other != name]
                files = ["absent"] * len(options.FILES[command].split())
                done = self.call(command, *files, *words)
                with self.subTest(f"{command} without --{name}"):
                    self.assertEqual(done.returncode, USAGE)
            for number in range(11):
                wanted = not options.file_faults(command, number)
                with self.subTest(f"{command} with {number} names"):
                    self.assertEqual(self.takes(command, {}, number), wanted)

    def test_values(self) -> None:
        """The bounds and the choices of values are those of the program."""
        for command, names in TABLE.items():
            for name, (low, high) in options.RANGES.items():
                if name not in names or command == "sample":
                    continue
                most = options.MOST_BOXES if name == "boxes" else high
                for value, wanted in ((low, True), (most, True), (low - 1, False), (most + 1, False)):
                    taken = self.takes(command, {name: str(value)})
                    with self.subTest(f"{command} --{name}={value}"):
                        self.assertEqual(taken, wanted)
            for name, choices in options.CHOICES.items():
                if name in names:
                    for word in choices:
                        with self.subTest(f"{command} --{name}={word}"):
                            self.assertTrue(self.takes(command, {name: word}))
                    with self.subTest(f"{command} --{name}=other"):
                        self.assertFalse(self.takes(command, {name: "other"}))
        for name, (low, high) in options.RANGES.items():
            if name in ("seed", "count"):
                for value, wanted in ((low, True), (low - 1, False), (high + 1, False)):
                    taken = self.takes("sample", {name: str(value)})
                    with self.subTest(f"sample --{name}={value}"):
                        self.assertEqual(taken, wanted)
        limits = {"limit": "200000", "boxes": "200000"}
        given = self.takes("run", limits), self.takes("run", limits | {"boxes": "200001"})
        with self.subTest("boxes and limit"):
            self.assertEqual(given, (True, False))

    def test_defaults(self) -> None:
        """The defaults of the table, given in words, change no byte, and docs/USING.md and the manual page tell them."""
        (self.path / "ring.mbx").write_bytes((TOP / "examples" / "ring.mbx").read_bytes())
        told = {name: option.default for name, option in commands.OPTIONS.items() if option.default}
        words = [f"--{name}={told[name]}" for name in options.COMMANDS["run"] if name in told]
        plain = self.call("run", "ring.mbx").stdout
        with self.subTest("defaults in words"):
            self.assertTrue(plain)
            self.assertEqual(self.call("run", "ring.mbx", *words).stdout, plain)
        (self.path / "ring.mbx").unlink()
        for name, value in told.items():
            row = re.search(rf"^\| `--{name} .*\| `?([^|`]*)`? \|$", USING, re.M)
            given = row and row.group(1).replace(",", "")
            with self.subTest(f"USING's default of {name}"):
                self.assertEqual(given, value if name in options.COMMANDS["run"] else None)
            start = re.search(rf'^\.B[IR] --{name} "', MANUAL, re.M)
            default = re.search(r"default\s+(?:\.BR )?([\w().]*[\w)])", MANUAL[start.start():] if start else "")
            given = default and default.group(1)
            with self.subTest(f"the manual's default of {name}"):
                self.assertEqual(given, value)

    def test_using(self) -> None:
        """The rows of the table of commands in docs/USING.md."""
        with self.subTest("`make tables` writes nothing new"):
            self.assertEqual([name for name, text in command_tables.made().items() if (TOP / name).read_text() != text], [])
        rows = re.findall(r"^\| `([a-z-]+)((?: SYSTEM)?(?: PAVING(?:\.\.)?)?)` \| .* \|([^|]*)\|$", USING, re.M)
        with self.subTest("commands in USING"):
            self.assertEqual(sorted(row[0] for row in rows), sorted(TABLE), [row[0] for row in rows])
        for command, files, cell in rows:
            wanted = options.FILES[command]
            with self.subTest(f"USING's files of {command}"):
                self.assertEqual(files.strip(), wanted, files)
            with self.subTest(f"USING's options of {command}"):
                self.assertEqual(named(cell), TABLE.get(command))
        shown = set(re.findall(r"^\| `--([a-z]+) ", USING, re.M))
        with self.subTest("USING's options of run, one by one"):
            self.assertEqual(shown, TABLE["run"])

    def test_manual(self) -> None:
        """The synopsis of the manual page, its list of options, its lines, statuses and version."""
        synopsis = MANUAL[MANUAL.index(".SH SYNOPSIS"):MANUAL.index(".SH DESCRIPTION")]
        parts = {part.split("\n")[0].strip(): part for part in synopsis.split(".B paver ")[1:]}
        with self.subTest("commands in the synopsis"):
            self.assertEqual(sorted(parts), sorted(TABLE), [*parts])
        for command, part in parts.items():
            with self.subTest(f"synopsis of {command}"):
                self.assertEqual(named(part), TABLE.get(command))
            needed = set(re.findall(r"^\.B --([a-z]+)$", part, re.M))
            wanted = set(options.REQUIRED[command])
            with self.subTest(f"what {command} needs"):
                self.assertEqual(needed, wanted)
        body = MANUAL[MANUAL.index(".SS Settings"):]
        listed = set(re.findall(r'^\.B[IR] --([a-z]+) "', body, re.M))
        wanted = set().union(*TABLE.values())
        with self.subTest("options of the manual"):
            self.assertEqual(listed, wanted)
        statuses = {place: set(re.findall(pattern, text, re.M)) for place, pattern, text in (
            ("manual", r"^\.TP\n\.B (\d+)$", MANUAL), ("USING", r"^\| (\d+)(?:, \d+)? \| ", USING.split("| status |")[-1]))}
        statuses["USING"] |= {"6"} if "| 5, 6 |" in USING else set()
        with self.subTest("statuses"):
            self.assertTrue(statuses["manual"] == statuses["USING"] == {*map(str, range(12))}, statuses)
        for line in package_around.LINES:
            short = line.removeprefix("paving NAME: ").replace("|", r"\|")
            with self.subTest(f"the line `{line}`"):
                self.assertTrue(line in MANUAL and (line == "honest" or f"`{short}`" in USING or f"NAME: {short}`" in USING))

    def test_completions(self) -> None:
        for shell, tables in (("zsh", zsh_tables()), ("fish", fish_tables()), ("bash", bash_tables())):
            with self.subTest(f"commands of {shell}"):
                self.assertEqual(sorted(tables), sorted(TABLE), [*tables])
            for command, names in TABLE.items():
                with self.subTest(f"{shell}: {command}"):
                    self.assertEqual(tables.get(command), names)

    def test_package(self) -> None:
        """The calls of the package take what their commands do, by the same names, and nothing of its own name besides."""
        for command, names in TABLE.items():
            with self.subTest(f"the call of {command}"):
                call = getattr(paver, OTHER_NAMES.get(command, command.replace("-", "_")))
                self.assertEqual(set(inspect.signature(call).parameters) & set(NAMES), names)
        shown = re.findall(r"^\| `([a-z-]+) (?:.*?, `([a-z]+) [A-Z]+`)?.*\|$", (TOP / "python" / "README.md").read_text(), re.M)
        choices = next(action.choices for action in package_commands.parser()._actions if action.dest == "command")
        with self.subTest("the commands of the package in its README"):
            self.assertEqual({name for row in shown for name in row if name}, set(choices or ()))
        with self.subTest("the call of run on a text"):
            self.assertEqual(set(inspect.signature(paver.run_text).parameters) & set(NAMES), TABLE["run"])

    def test_words_in_one_sense(self) -> None:
        """No page has another word for what the glossary names; the glossary itself may say what the field calls it."""
        for page in (*TOP.glob("docs/*.md"), TOP / "README.md", TOP / "CONTRIBUTING.md", TOP / "python" / "README.md"):
            text = page.read_text()
            for word, others in OTHER_WORDS.items():
                found = re.findall(rf"\b(?:{others})\b", text, re.I) if page != GLOSSARY else []
                with self.subTest(page=page.name, word=word):
                    self.assertEqual(found, [])

    def test_glossary(self) -> None:
        """Each word of the glossary has its meaning, in a sentence or two, and a place in the crates that declares it."""
        for part in GLOSSARY.read_text().split("\n## ")[1:]:
            entries = re.findall(r"^- \*\*(.*?)\*\*.*?: (.*)$", part, re.M)
            words = [word for word, _ in entries]
            with self.subTest(part.split("\n")[0]):
                self.assertTrue(15 <= len(words) <= 25 and words == sorted(set(words), key=str.lower), words)
                self.assertEqual(len(entries), part.count("\n- "))
            for word, text in entries:
                with self.subTest(word):
                    meaning, found = text.split(" [`")[0], reading.LINK.findall(text)
                    self.assertTrue(5 <= len(meaning.split()) <= 45 and found, text)
                    for name, line, to in found:
                        self.assertTrue(to.startswith("../crates/") and (GLOSSARY.parent / to).is_file(), to)
                        self.assertIn(int(line), reading.declared(name, GLOSSARY.parent / to), name)

    def test_lists_of_tests(self) -> None:
        """What other tests try: each command has a call, and each option of made words a value."""
        tried = {"outside": {words[0] for words in outside.PRINTING},
                 "allocations": {words[0] for _, words, _ in allocations.commands().values()} | {
                     words[0] for _, words, _ in campaign_allocations.COMMANDS.values()},
                 "fuzz_words": set(fuzz_words.COMMANDS) | {"sample"}}
        for place, found in tried.items():
            with self.subTest(f"the commands of {place}"):
                self.assertEqual(found | ({"campaign"} if place == "outside" else set()), set(TABLE))
        with self.subTest("the values of fuzz_words"):
            self.assertEqual(set(fuzz_words.Words.VALUES) | set(options.COMMANDS["sample"]) | {"at"}, set(NAMES))

    def test_crates(self) -> None:
        """What docs/ARCHITECTURE.md says that each crate stands on brings what crates.txt says, and nothing else; a crate
        stands behind those that it stands on."""
        lines = (line.split(":") for line in (TOP / "crates.txt").read_text().splitlines() if not line.startswith("#"))
        listed = {name: rest.split() for name, rest in lines}
        page = (TOP / "docs" / "ARCHITECTURE.md").read_text()
        rows = {name: re.findall(r"`(\w+)`", on) for name, on in re.findall(r"^\| `(\w+)` \| .* \| ([^|]*) \|$", page, re.M)
                if name in listed or re.match(r"(pv|test|claims|bench)_", name)}
        self.assertEqual(sorted(rows), sorted(listed))
        whole: dict[str, set[str]] = {}  # what each brings by its row
        for name, libraries in listed.items():
            with self.subTest(f"{name} in crates.txt"):
                self.assertLessEqual({library for library in libraries if library in listed}, set(whole))
            whole[name] = {low for library in rows[name] for low in {library, *whole.get(library, ())}}
            with self.subTest(f"the row of {name}"):
                self.assertTrue(set(rows[name]) <= set(libraries) <= whole[name], (rows[name], libraries))
        folders = {path.name for path in (TOP / "crates").iterdir() if path.is_dir()} | {"paver"}
        with self.subTest("crates that are there"):
            self.assertEqual(set(listed), folders)

    def test_version(self) -> None:
        """One version, in python/paver/version.py; what else tells it agrees."""
        told = {"manual": re.search(r'^\.TH PAVER 1 "[0-9-]+" "paver ([0-9.]+)"', MANUAL),
                "the wheel": re.search(r"^Version: ([0-9.]+)$", wheel_of_package.METADATA, re.M),
                "CHANGELOG": re.search(r"^## ([0-9.]+) ", (TOP / "CHANGELOG.md").read_text(), re.M)}
        for place, found in told.items():
            given = found and found.group(1)
            with self.subTest(f"the version in {place}"):
                self.assertEqual(given, VERSION)

    def test_dist(self) -> None:
        """`make dist` packs the same bytes twice, with digests that are right."""
        digests = []
        for _ in range(2):
            done = subprocess.run([str(TOP / "build" / "dist.sh"), PROGRAM], capture_output=True, text=True, timeout=SECONDS,
                                  check=False)
            digests.append(done.stdout)
            with self.subTest("dist"):
                self.assertEqual(done.returncode, 0, done.stderr[-500:])
        with self.subTest("two archives"):
            self.assertTrue(digests[0] == digests[1] != "", digests)
        name = digests[0].split()[-1]
        subprocess.run(["tar", "xzf", str(TOP / "dist" / name), "-C", str(self.path)], check=True, timeout=SECONDS)
        packed = self.path / name.removesuffix(".tar.gz")
        done = subprocess.run(["sha256sum", "--check", "--strict", "--quiet", "SHA256SUMS"], cwd=packed, capture_output=True,
                              text=True, timeout=SECONDS, check=False)
        listed = {line.split("  ")[1] for line in (packed / "SHA256SUMS").read_text().splitlines()}
        there = {str(path.relative_to(packed)) for path in packed.rglob("*") if path.is_file()} - {"SHA256SUMS"}
        with self.subTest("digests"):
            self.assertTrue(done.returncode == 0 and listed == there, done.stdout[:500])
        sample = self.elsewhere(packed, packed / "bin" / "paver").call("sample", "--seed", "1", "--count", "2")
        last = sample.stdout.splitlines()[-1].decode()
        with self.subTest("the packed program"):
            self.assertIn(last, USING)


if __name__ == "__main__":
    main()
