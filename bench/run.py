#!/usr/bin/env python3
"""Measures paver beside a lean Rust program with the same arithmetic (bench/lean).

    make && python3 bench/run.py            everything
    python3 bench/run.py numbers            nanoseconds for add, mul and div in a dependent chain
    python3 bench/run.py calls              nanoseconds for the other calls of pv_num
    python3 bench/run.py paving             settled nodes a second of fourteen kinds of systems, beside bench/lean
    python3 bench/run.py printing           the share of instructions that printing takes, where there is valgrind
    python3 bench/run.py growth             how the time grows as --eps is halved
    python3 bench/run.py files              a large paving file: stored, joined with itself and in eight parts, audited
    python3 bench/run.py campaigns          what a campaign costs beside the plain run: its rounds, its opening and its file
    python3 bench/run.py rounds             100 rounds of 1,000 nodes beside one round of 100,000
    python3 bench/run.py workers            how much faster 2, 3, 4 and 16 workers are than one, on fifteen runs
    python3 bench/run.py millions           the same of 2, 4 and 16 workers on runs of about a million nodes, beside what the
                                            machine gives to runs of one worker side by side
    python3 bench/run.py small              the same of 4 workers on runs of 1,000 to 30,000 nodes
    python3 bench/run.py profile            instructions, cache misses, changes of thread and page faults of 1, 2, 4 and 16
                                            workers, and of the line of progress, where there is valgrind
    python3 bench/run.py phases             what reading, joining, lines and storing take of a million nodes, where there is perf
    python3 bench/run.py sizes              seconds and memory of runs from 10,000 nodes to 10,000,000
    python3 bench/run.py tickets            what the pool's jobs and the board's tickets cost
    python3 bench/run.py trees              milliseconds for settling, counting, copying, joining and auditing a large tree

Each figure is the best of five runs or more. Needs rustc for the yardstick; without it only paver's own figures are printed.
"""
from __future__ import annotations

import os
import re
import resource
import shutil
import sqlite3
import subprocess
import sys
import tempfile
import time
from collections.abc import Sequence
from pathlib import Path
from typing import List, Optional, Tuple, Union

TOP = Path(__file__).parent.parent
EXAMPLES = TOP / "examples"
SYSTEMS = TOP / "bench" / "systems"
STEPS = 10_000_000
# What cachegrind calls instructions, and reads and writes that miss the first data cache and the last one.
CACHEGRIND = ("I refs", "D1 misses", "LLd misses")
TURNS = 6
Word = Union[str, int, Path]
Words = Sequence[Word]
PAVINGS: List[Tuple[str, Optional[Path], Optional[List[str]]]] = [
    ("ring", EXAMPLES / "ring.mbx", ["--eps", "0.00390625"]),
    ("agnesi", SYSTEMS / "agnesi.mbx", None),
    ("PI gains", EXAMPLES / "pi_gains.mbx", ["--eps", "0.0078125"]),
    ("circles of known points", SYSTEMS / "known_points.mbx", None),
    ("polynomial of degree 4", SYSTEMS / "quartic.mbx", None),
    ("least maximum", SYSTEMS / "least_maximum.mbx", None),
    ("Gough slice, 12 constraints", EXAMPLES / "gough_slice.mbx", ["--eps", "0.0009765625"]),
    ("rate law, 8 measurements", SYSTEMS / "rate_law.mbx", None),
    ("arm with sines and cosines", SYSTEMS / "arm_angles.mbx", None),
    ("beacons, qinter", SYSTEMS / "beacons.mbx", None),
    ("union of solids", SYSTEMS / "solids.mbx", None),
    ("torus", EXAMPLES / "torus.mbx", ["--eps", "0.125"]),
    ("planar arm", EXAMPLES / "planar_arm.mbx", ["--eps", "0.125"]),
    ("strict order, a deep tree", None, []),
]
# Examples whose nodes cost more, for several workers: the name, the command and eps.
COSTLY = [("ring", "run-centered", "0.00390625"), ("robust_pid", "run", "0.125"),
          ("lyapunov_fall", "run-centered", "0.0009765625"), ("torus", "run-centered", "0.125"),
          ("three_rpr", "run", "0.0625"), ("robust_pid", "run-centered", "0.25"), ("three_rpr", "run-centered", "0.0625"),
          ("damped_gains", "run-centered", "0.001953125"), ("platform_determinant", "run-centered", "0.001953125")]
# Runs of about a million nodes: the title in PAVINGS, and eps. What has None takes its own eps.
MILLIONS = [("ring", "0.0001"), ("Gough slice, 12 constraints", "0.000025"), ("rate law, 8 measurements", "0.000008"),
            ("torus", "0.03125"), ("planar arm", "0.04"), ("PI gains", "0.0002"), ("circles of known points", "0.0001"),
            ("beacons, qinter", "0.00001"), ("union of solids", "0.01"), ("polynomial of degree 4", "0.0001"),
            ("strict order, a deep tree", None)]
# Questions whose nodes' time is to be the same at each size.
SIZES = ("ring", "torus", "Gough slice, 12 constraints", "rate law, 8 measurements", "strict order, a deep tree")
# Campaigns of 100,000 nodes: the title in PAVINGS, and eps.
ROUNDS = [("ring", "0.0009765625"), ("torus", "0.0625")]
ORDER = "Variables x in [0,9999999], y in [0,9999999]; Constraints x < y; end\n"


def seconds(words: Words) -> tuple[float, bytes]:
    """The best of five runs, and what was printed."""
    best, printed = float("inf"), b""
    for _ in range(5):
        start = time.perf_counter()
        printed = subprocess.run([str(word) for word in words], stdout=subprocess.PIPE, check=False).stdout
        best = min(best, time.perf_counter() - start)
    return best, printed


def yardstick(folder: str, name: str) -> Path | None:
    if not shutil.which("rustc"):
        return None
    program = Path(folder) / name
    source = TOP / "bench" / "lean" / f"{name}.rs"
    subprocess.run(["rustc", "--edition", "2021", "-O", str(source), "-o", str(program)], check=True,
                   stderr=subprocess.DEVNULL)
    return program


def numbers(folder: str) -> None:
    programs = {"pv_num": TOP / "crates/bench_numbers/out/bench_numbers", "lean Rust": yardstick(folder, "numbers"),
                "same code": yardstick(folder, "same")}
    for name, program in programs.items():
        if program and program.exists():
            empty, _ = seconds([program, "none", STEPS])
            for operation in ("add", "sub", "mul", "div") if name != "lean Rust" else ("add", "mul", "div"):
                spent, _ = seconds([program, operation, STEPS])
                print(f"{name:10} {operation}: {(spent - empty) / STEPS * 1e9:6.1f} ns")


def calls(_folder: str) -> None:
    program = TOP / "crates/bench_numbers/out/bench_numbers"
    fed, _ = seconds([program, "fed", STEPS // 10])
    for operation in ("neg", "abs", "cmp", "pow3", "root2", "root3", "root31", "middle", "floor", "ratio", "fin",
                      "parts", "text"):
        spent, _ = seconds([program, operation, STEPS // 10])
        print(f"{operation:7} {(spent - fed) / STEPS * 1e10:8.1f} ns")


def paving_of(folder: str, file: Path | None, words: list[str] | None) -> list[Word]:
    """The words that follow `run`. A system of bench/systems/ has its options in its comment."""
    if file is None:
        file = Path(folder) / "order.mbx"
        file.write_text(ORDER)
    if words is None:
        words = re.findall(r"^//   (--.*)$", file.read_text(), re.MULTILINE)[0].split()
    budget = [] if file.name != "order.mbx" else ["--boxes", "20000"]
    return [file, *words, *(budget or ["--boxes", "100000"])]


def processor_seconds(words: Words) -> tuple[float, bytes]:
    """The processor time of a run, and what it printed."""
    before = resource.getrusage(resource.RUSAGE_CHILDREN)
    printed = subprocess.run([str(word) for word in words], stdout=subprocess.PIPE, check=False).stdout
    after = resource.getrusage(resource.RUSAGE_CHILDREN)
    return after.ru_utime + after.ru_stime - before.ru_utime - before.ru_stime, printed


def paving(folder: str) -> None:
    """Thousand settled nodes a second, the programs in turn, and the best time of each."""
    lean = yardstick(folder, "paver")
    for title, file, options in PAVINGS:
        words = paving_of(folder, file, options)
        runs: list[list[Word]] = [[TOP / "paver", "run", *words, "--workers", "1"]]
        runs += [[lean, *words]] if lean else []
        best, printed = [float("inf")] * len(runs), [b""] * len(runs)
        for _ in range(TURNS):
            for i, run in enumerate(runs):
                spent, printed[i] = processor_seconds(run)
                best[i] = min(best[i], spent)
        settled = int(printed[0].split()[1])
        line = f"{title:28} {settled:7} nodes, paver {settled / best[0] / 1000:6.0f}"
        if lean:
            same = "" if printed[0] == printed[1] else ", OTHER OUTPUT"
            line += f", lean Rust {settled / best[1] / 1000:6.0f}, ratio {best[1] / best[0]:5.2f}{same}"
        print(line, flush=True)


def side_by_side(words: Words, count: int) -> float:
    """The time in which so many runs of one worker end that start together, each storing under a name of its own."""
    start = time.perf_counter()
    runs = [subprocess.Popen([*map(str, words[:-1]), f"{words[-1]}{i}", "--workers", "1"], stdout=subprocess.DEVNULL)
            for i in range(count)]
    for run in runs:
        run.wait()
    return time.perf_counter() - start


def grown(title: str, words: Words) -> None:
    """Milliseconds from start to end by so many workers, those of processors in brackets, and how many times as fast as one
    they are; and how much four runs of one worker get done side by side, which is all that the machine can do."""
    alone, parts = 0.0, []
    for count in (1, 2, 3, 4, 16):
        spent, printed = seconds([*words, "--workers", count])
        used = min(processor_seconds([*words, "--workers", count])[0] for _ in range(TURNS))
        alone = alone or spent
        parts.append(f"{count}: {spent * 1000:.0f} ({used * 1000:.0f}) x{alone / spent:.2f}")
    limit = 4 * alone / min(side_by_side(words, 4) for _ in range(TURNS))
    print(f"{title:34} {int(printed.split()[1]):7} nodes, {', '.join(parts)}, four runs at once x{limit:.2f}", flush=True)


def workers(folder: str) -> None:
    """Several workers on six systems and on those whose nodes cost more. Nothing is printed but the summary."""
    chosen = ("ring", "Gough slice, 12 constraints", "rate law, 8 measurements", "torus", "planar arm",
              "strict order, a deep tree")
    stored: List[Word] = ["--out", Path(folder) / "paving"]
    for title, file, words in PAVINGS:
        if title in chosen:
            grown(title, [TOP / "paver", "run", *paving_of(folder, file, words), *stored])
    for name, command, eps in COSTLY:
        system = EXAMPLES / f"{name}.mbx"
        grown(f"{name}, {command}", [TOP / "paver", command, system, "--eps", eps, "--boxes", "100000", *stored])


def of_size(folder: str, title: str, eps: str | None, nodes: int) -> list[Word]:
    """The words that follow a command to settle that system's first so many nodes, with this eps."""
    file = next(file for name, file, _ in PAVINGS if name == title)
    words = paving_of(folder, file, None if file and file.parent == SYSTEMS else [])[:-2]
    if "--eps" in words:
        at = words.index("--eps")
        words = words[:at] + words[at + 2:]
    return [*words, *(["--eps", eps] if eps else []), "--boxes", str(nodes), "--limit", str(max(nodes, 100_000))]


def by_clock(words: Words, turns: int = 3) -> tuple[float, bytes]:
    """The best time by the clock of some runs, and what the last one printed."""
    best, printed = float("inf"), b""
    for _ in range(turns):
        start = time.perf_counter()
        printed = subprocess.run([*map(str, words)], stdout=subprocess.PIPE, check=False).stdout
        best = min(best, time.perf_counter() - start)
    return best, printed


def timed(words: Words) -> tuple[float, float, int]:
    """Seconds of a run by the clock and of processors, and its settled nodes."""
    start = time.perf_counter()
    used, printed = processor_seconds(words)
    return time.perf_counter() - start, used, int(printed.split()[1])


def millions(folder: str) -> None:
    """How many times as fast as one worker 2, 4 and 16 are, beside what two and four runs of one worker get done side by side:
    the least times of some turns, in each of which all are measured, and in brackets the turns' own ratios of side by side."""
    for title, eps in MILLIONS:
        words: list[Word] = [TOP / "paver", "run", *of_size(folder, title, eps, 1_000_000), "--out", Path(folder) / "paving"]
        runs: dict[int, list[tuple[float, float, int]]] = {1: [], 2: [], 4: [], 16: []}
        beside: dict[int, list[float]] = {2: [], 4: []}
        for _ in range(3):
            for count, some in runs.items():
                some.append(timed([*words, "--workers", count]))
            for count, times in beside.items():
                times.append(side_by_side(words, count))
        print(f"{title:28} {runs[1][0][2]:8} nodes; {compared(runs, beside)}", flush=True)


def compared(runs: dict[int, list[tuple[float, float, int]]], beside: dict[int, list[float]]) -> str:
    """One system's line of `millions`, but for its name."""
    alone, used = (min(run[k] for run in runs[1]) for k in (0, 1))
    parts = [f"1: {alone:.3f} s"]
    for count in (2, 4, 16):
        spent, work = (min(run[k] for run in runs[count]) for k in (0, 1))
        times = beside[min(count, 4)]
        turns = [min(count, 4) * run[0] / time for run, time in zip(runs[1], times)]
        most = min(count, 4) * alone / min(times)
        parts.append(f"{count}: x{alone / spent:.2f} of x{most:.2f} ({min(turns):.2f} to {max(turns):.2f}), "
                     f"{alone / spent / most:.2f}, work x{work / used:.2f}")
    return "; ".join(parts)


def small(folder: str) -> None:
    """How many times as fast as one worker 4 are where there is little to do: the best of twenty runs each, in turn."""
    for title, eps in MILLIONS:
        parts = []
        for nodes in (1000, 3000, 10_000, 20_000, 30_000):
            words: list[Word] = [TOP / "paver", "run", *of_size(folder, title, eps, nodes), "--out", Path(folder) / "paving",
                                 "--workers"]
            turns = [[by_clock([*words, count], 1)[0] for count in (1, 4)] for _ in range(20)]
            one, four = (min(turn[k] for turn in turns) for k in (0, 1))
            parts.append(f"{nodes}: {one * 1000:.1f} ms x{one / four:.2f}")
        print(f"{title:28} {', '.join(parts)}", flush=True)


def counted(words: Words) -> list[int]:
    """Instructions of a run, misses of its first data cache and of its last one, as valgrind's cachegrind counts them."""
    told = subprocess.run(["valgrind", "--tool=cachegrind", "--cache-sim=yes", "--cachegrind-out-file=/dev/null",
                           *map(str, words)], stdout=subprocess.DEVNULL, stderr=subprocess.PIPE, text=True, check=False).stderr
    lines = dict(re.findall(r"^==\d+== (\w+ +\w+): +([0-9,]+)", told, re.MULTILINE))
    names = {" ".join(name.split()): int(number.replace(",", "")) for name, number in lines.items()}
    return [names[name] for name in CACHEGRIND]


def switched(words: Words) -> list[int]:
    """How often a run's threads waited, how often they were made to, and its page faults."""
    before = resource.getrusage(resource.RUSAGE_CHILDREN)
    subprocess.run([*map(str, words)], stdout=subprocess.DEVNULL, check=False)
    after = resource.getrusage(resource.RUSAGE_CHILDREN)
    return [after.ru_nvcsw - before.ru_nvcsw, after.ru_nivcsw - before.ru_nivcsw, after.ru_minflt - before.ru_minflt]


def profile(folder: str) -> None:
    """Of 1, 2, 4 and 16 workers: what 1,000 and 20,000 nodes count under valgrind, and changes of thread of 1,000 nodes and of
    a million; then of the ring with its line of progress and without it."""
    for title, eps in MILLIONS:
        for count in (1, 2, 4, 16):
            print(f"{title:28} {count:2}: {counts_of(folder, title, eps, count)}", flush=True)
    title, eps = MILLIONS[0]
    for wish, name in ("0", "hidden"), ("1", "shown"):
        os.environ["PAVER_PROGRESS"] = wish
        for count in (1, 4):
            print(f"{title}, progress {name:7} {count:2}: {counts_of(folder, title, eps, count)}", flush=True)
    del os.environ["PAVER_PROGRESS"]


def counts_of(folder: str, title: str, eps: str | None, workers: int) -> str:
    """The counts of one system by so many workers."""
    parts = []
    for nodes in (1000, 20_000, 1_000_000):
        words: list[Word] = [TOP / "paver", "run", *of_size(folder, title, eps, nodes), "--out", Path(folder) / "paving",
                             "--workers", workers]
        if nodes < 1_000_000:
            parts.append(" ".join(f"{number / 1e6:.2f}" for number in counted(words)))
        if nodes != 20_000:
            parts.append(f"({' '.join(str(number) for number in switched(words))})")
    return ", ".join(parts) + " million instructions, misses of the first cache, of the last (waits, preemptions, page faults)"


# A sample of a thread's clock, as `perf script` prints it, and the functions that tell what a command is about.
SAMPLE = re.compile(r"^\s*\d+\s+([\d.]+):\s+[0-9a-f]+\s+(\S+)", re.MULTILINE)
READS = ("pv_opening::pavings", "pv_file::outcome_line")
JOINS = ("pv_join::", "pv_opening::opening::join")
MAKES = ("pv_file::lines", "pv_file::writer")


def sampled(folder: str, words: Words) -> list[tuple[float, str]]:
    """The samples of a command: seconds since its beginning, and the function."""
    data = Path(folder) / "samples"
    subprocess.run(["perf", "record", "-q", "-F", "5000", "-e", "cpu-clock", "-o", data, *map(str, words)],
                   stdout=subprocess.DEVNULL, stderr=subprocess.DEVNULL, check=False)
    script = subprocess.run(["perf", "script", "-i", data, "-F", "tid,time,ip,sym"], stdout=subprocess.PIPE,
                            stderr=subprocess.DEVNULL, text=True, check=True).stdout
    samples = sorted((float(at), name) for at, name in SAMPLE.findall(script))
    return [(at - samples[0][0], name) for at, name in samples]


def phases_of(samples: list[tuple[float, str]]) -> dict[str, float]:
    """Seconds by the clock from one work's last sample to the next one's."""
    def within(names: tuple[str, ...]) -> tuple[float, float]:
        times = [at for at, name in samples if name.startswith(names)]
        return (times[0], times[-1]) if times else (0.0, 0.0)

    read, joined, (lines_from, lines_to) = within(READS)[1], within(JOINS)[1], within(MAKES)
    joined = max(read, joined)
    return {"reading": read, "joining": joined - read, "between": lines_from - joined, "lines": lines_to - lines_from,
            "storing": samples[-1][0] - lines_to}


def phases(folder: str) -> None:
    """Reading, joining, what lies between, lines and storing of a million nodes: the least of some turns each. Between is
    settling for `run`, and next to nothing for the others."""
    for title, eps in MILLIONS:
        names = [Path(folder) / name for name in ("whole", "part", "out")]
        system = of_size(folder, title, eps, 1_000_000)
        subprocess.run([TOP / "paver", "run", *map(str, system), "--out", names[0]], stdout=subprocess.DEVNULL, check=False)
        subprocess.run([TOP / "paver", "run", *map(str, of_size(folder, title, eps, 300_000)), "--out", names[1]],
                       stdout=subprocess.DEVNULL, check=False)
        merged = [*system[:system.index("--boxes")], "--limit", "2000000"]
        works: dict[str, list[Word]] = {
            "run": ["run", *system],
            "merge of one": ["merge", merged[0], names[0], *merged[1:]],
            "merge of two": ["merge", merged[0], names[0], names[1], *merged[1:]],
            "resume": ["resume", merged[0], names[0], *merged[1:], "--boxes", "1"]}
        for work, words in works.items():
            turns = [phases_of(sampled(folder, [TOP / "paver", *words, "--out", names[2]])) for _ in range(3)]
            told = ", ".join(f"{name} {min(turn[name] for turn in turns):.3f}" for name in turns[0])
            print(f"{title:28} {work:13} {told}", flush=True)


def used_by(words: Words) -> tuple[int, float, int]:
    """The settled nodes of a run, its processor seconds and its greatest memory in bytes."""
    with subprocess.Popen([*map(str, words)], stdout=subprocess.PIPE) as run:
        assert run.stdout is not None
        settled = int(run.stdout.read().split()[1])
        _, _, used = os.wait4(run.pid, 0)
    return settled, used.ru_utime + used.ru_stime, used.ru_maxrss * 1024


def sizes(folder: str) -> None:
    """Seconds, microseconds a node without the program's start, and bytes a node of memory and file, by one worker that
    stores: the least of some runs, the sizes in turn, since a machine may change its speed. Up to some 100,000 nodes the
    memory told is this script's own, of which a child begins as a copy."""
    turns_of = {1: 20, 10_000: 20, 100_000: 10, 1_000_000: 4, 10_000_000: 1}
    for title in SIZES:
        eps, out = dict(MILLIONS)[title] and "1e-9", Path(folder) / "paving"
        runs: dict[int, list[tuple[int, float, int, int]]] = {nodes: [] for nodes in turns_of}
        for turn in range(max(turns_of.values())):
            for nodes in (nodes for nodes, turns in turns_of.items() if turn < turns):
                words: list[Word] = [TOP / "paver", "run", *of_size(folder, title, eps, nodes), "--workers", 1, "--out", out]
                runs[nodes].append((*used_by(words), out.stat().st_size))
        start = min(spent for _, spent, _, _ in runs[1])
        for settled, spent, memory, stored in (min(some, key=lambda run: run[1]) for some in runs.values()):
            print(f"{title:28} {settled:9} nodes {spent:8.3f} s {(spent - start) / settled * 1e6:6.2f} us and "
                  f"{memory / settled:5.0f} bytes a node, file {stored / settled:5.1f}", flush=True)


def printing(folder: str) -> None:
    if not shutil.which("valgrind"):
        return
    counts = Path(folder) / "counts"
    for title, file, words in PAVINGS:
        run = [TOP / "paver", "run", *paving_of(folder, file, words)[:-1], "5000"]
        subprocess.run(["valgrind", "--tool=callgrind", f"--callgrind-out-file={counts}", *map(str, run)],
                       stdout=subprocess.DEVNULL, stderr=subprocess.DEVNULL, check=False)
        lines = subprocess.run(["callgrind_annotate", "--inclusive=yes", str(counts)], stdout=subprocess.PIPE,
                               text=True, check=True).stdout.splitlines()
        share = next((line.split("(")[1].split(")")[0] for line in lines if "printing::write_lines [" in line), "0%")
        print(f"{title:28} 5,000 nodes, printing {share.strip()} of the instructions")


def growth(_folder: str) -> None:
    for name, eps in [("ring", 2**-k) for k in range(4, 10)] + [("torus", 2**-k) for k in range(1, 5)]:
        spent, printed = seconds([TOP / "paver", "run", EXAMPLES / f"{name}.mbx", "--eps", f"{eps:.10f}", "--boxes",
                                  "100000"])
        settled = int(printed.split()[1])
        print(f"{name:6} eps {eps:.6f} {settled:7} nodes {spent:7.3f} s {spent / settled * 1e6:6.2f} us a node")


def files(folder: str) -> None:
    """A file of 100,000 settled nodes in 4 variables, and eight stages of it."""
    paver, system, eps = TOP / "paver", EXAMPLES / "planar_arm.mbx", ["--eps", "0.0625"]
    names: list[Path] = []
    for part in range(1, 9):
        names.append(Path(folder) / f"part{part}")
        subprocess.run([paver, "run", system, *eps, "--boxes", str(12_500 * part), "--out", names[-1]], check=False,
                       stdout=subprocess.DEVNULL)
    whole, joined = names[-1], Path(folder) / "joined"
    size = whole.stat().st_size / 1e6
    works: dict[str, list[Word]] = {
        "run with --out": ["run", system, *eps, "--boxes", "100000", "--out", joined],
        "run, printing": ["run", system, *eps, "--boxes", "100000"],
        "merge of one (read and write)": ["merge", system, whole, *eps, "--out", joined],
        "merge of eight": ["merge", system, *names, *eps, "--out", joined],
        "audit": ["audit", system, whole, *eps],
    }
    print(f"a file of {size:.2f} MB; eight parts of {sum(name.stat().st_size for name in names) / 1e6:.2f} MB")
    for work, words in works.items():
        print(f"{work:30} {seconds([paver, *words])[0] * 1000:8.1f} ms")


def campaigns(folder: str) -> None:
    """Processor milliseconds of rounds beside plain runs of as many nodes, and of a campaign that only opens its file."""
    kept = Path(folder) / "kept"
    for title, file, options in PAVINGS:
        if title not in ("Gough slice, 12 constraints", "planar arm", "strict order, a deep tree"):
            continue
        words = paving_of(folder, file, options)[:-1]
        for boxes in (1000, 20_000, 50_000):
            best = dict.fromkeys(("plain", "round", "opening"), float("inf"))
            for _ in range(TURNS):
                for name in (kept, Path(f"{kept}-wal")):
                    name.unlink(missing_ok=True)
                campaign: list[Word] = ["campaign", *words, str(boxes), "--keep", kept]
                runs: dict[str, list[Word]] = {
                    "plain": ["run", *words, str(boxes), "--out", Path(folder) / "paving"], "round": campaign,
                    "opening": [*campaign[:-3], "1", "--keep", kept]}
                for work, run in runs.items():
                    best[work] = min(best[work], processor_seconds([TOP / "paver", *run, "--workers", "1"])[0])
            settled = len(sqlite3.connect(kept).execute("SELECT path FROM node").fetchall())
            costs = ", ".join(f"{work} {spent * 1000:5.0f} ms" for work, spent in best.items())
            print(f"{title:28} {settled:6} rows: {costs}, {kept.stat().st_size / 1e6:.1f} MB", flush=True)


def rounds(folder: str) -> None:
    """Seconds of a campaign of 100 rounds of 1,000 nodes beside one round of 100,000: of processors, and by the clock."""
    kept = Path(folder) / "kept"
    for title, eps in ROUNDS:
        campaign: list[Word] = [TOP / "paver", "campaign", EXAMPLES / f"{title}.mbx", "--eps", eps, "--keep", kept,
                                "--workers", "1"]
        best: dict[int, tuple[float, float]] = {}
        for _ in range(TURNS):
            for count, boxes in (1, 100_000), (100, 1000):
                for name in (kept, Path(f"{kept}-wal")):
                    name.unlink(missing_ok=True)
                start = time.perf_counter()
                spent, _ = processor_seconds([*campaign, "--boxes", boxes, "--rounds", count])
                took = (spent, time.perf_counter() - start)
                before = best.get(count, took)
                best[count] = min(before[0], took[0]), min(before[1], took[1])
        print(f"{title:10} one round {best[1][0]:5.2f} s, {best[1][1]:5.2f} by the clock; 100 rounds {best[100][0]:5.2f} and "
              f"{best[100][1]:5.2f}: {best[100][0] / best[1][0]:4.2f} times, {best[100][1] / best[1][1]:4.2f} by the clock",
              flush=True)


def trees(_folder: str) -> None:
    program = TOP / "crates/bench_trees/out/bench_trees"
    built, _ = seconds([program, "none", 0])
    for work, times in ("settle", 1), ("count", 1000), ("clone", 20), ("join", 5), ("audit", 5):
        spent, _ = seconds([program, work, times])
        print(f"{work:7} {max(spent - built, 0) / times * 1000:8.1f} ms")


def tickets(_folder: str) -> None:
    """What jobs and tickets cost where the work itself costs next to nothing."""
    program = TOP / "crates/bench_pool/out/bench_pool"
    for count in (1, 2, 4, 16):
        spent, _ = seconds([program, 1_000_000, count])
        used = min(processor_seconds([program, 1_000_000, count])[0] for _ in range(3))
        print(f"a million jobs by {count:2} workers {spent * 1000:6.1f} ms, {used * 1000:6.1f} of processors")
    program = TOP / "crates/bench_workers/out/bench_workers"
    empty, _ = seconds([program, 1, 1])
    for cuts in (6, 8, 10, 12, 14):
        spent, printed = seconds([program, cuts, 1])
        nodes, tickets = (int(word) for word in re.findall(rb"[0-9]+", printed))
        print(f"{nodes:6} nodes by {tickets:6} tickets of one worker {(spent - empty) / tickets * 1e9:7.0f} ns a ticket")


def main() -> None:
    parts = {"numbers": numbers, "calls": calls, "paving": paving, "printing": printing, "growth": growth, "files": files,
             "workers": workers, "campaigns": campaigns, "rounds": rounds,
             "tickets": tickets, "trees": trees, "millions": millions, "small": small, "profile": profile,
             "phases": phases, "sizes": sizes}
    with tempfile.TemporaryDirectory() as folder:
        for part in sys.argv[1:] or parts:
            parts[part](folder)


if __name__ == "__main__":
    main()
