#!/usr/bin/env python3
"""Writes docs/GALLERY.md: each example's question, command, summary and picture.

    python3 -m tests.generators.gallery

The summaries are those of tests/data/summaries.txt, which the plain paver worked out; the pictures are drawn by
examples/pictures.sh, and bench/centered.py measured the times of tests/data/centered_times.txt.
"""
from __future__ import annotations

import math
import re
import shlex
from collections.abc import Mapping, Sequence
from fractions import Fraction
from itertools import groupby, takewhile
from pathlib import Path

from tests.data.examples import (
    EXAMPLES, LEAST, LEVELS, ROBUST, least_answers, level_answers, pairs, robust_answers,
)

TOP = Path(__file__).resolve().parents[2]

HEAD = """# Gallery

Each example of `examples/` has its question, its command and the first line of the answer. Green boxes are inner: each of their rational points is in the set. Grey parts are removed: none of their rational points is. Yellow boxes are undecided. [ANSWERS.md](ANSWERS.md#equations) says what holds of irrational points. In place write `./paver` for `paver`.

With three variables and more a picture is a slice, or the projection on two variables: green then says that some values of the other variables are in the set, and grey that none are. `python3 -m paver plot SYSTEM OPTIONS --picture FILE.svg` draws each, with the options of its command if none stand below it.
"""


SIDE_BY_SIDE = """
## By centered forms

`run-centered` tests each box by [centered forms](RULES.md#centered-forms) too. The last column says how many nodes `run` settles, with smaller eps, to leave no more undecided (- if 100,000 are too few). One worker, each example's own eps, the best of five runs of an unproved build on a busy machine:

| example | `run`: nodes | seconds | `run-centered`: nodes | seconds | nodes of `run` for as little undecided |
|---|---|---|---|---|---|
"""

LEAST_HEAD = """
## Least values

No value on the set is below the lower bound; the point is in the set, and its value is at most the upper bound. The tables round outward to six digits.
"""

VIEWED = "pi_gains"  # whose page is kept, see view_picture.py
LEVELS_HEAD = """
### By levels

What two levels of [`least --levels`](ANSWERS.md#least-values-by-levels) show; two or three bring these bounds within 0.001:

| example | level | run with the level | so | a point of the set |
|---|---|---|---|---|
"""

ROBUST_HEAD = """
## For all values

[`robust`](ANSWERS.md#for-all-values-of-some-variables) asks for which values of the other variables all constraints hold, whatever those of `--for-all` are. Green is sure; grey is refuted, each box by one choice of their values; yellow is neither. `--picture FILE.svg` draws it.
"""

# In place of {NAME} the file NAME of examples/ is shown.
DECIDED = """
## From an engineer's words to a decision

`..` stands for lines that are left out.

### Cruise control

> My car's speed control has to settle soon and must not swing. Which gains do I solder, how exactly?

```
{cruise.txt}
$ python3 -m paver control examples/cruise.txt > cruise.mbx
$ paver run cruise.mbx --eps 0.0625 --out cruise.paving
settled 817 cut 408 removed 12 inner 181 small 216 open 0
$ python3 -m paver decide cruise.mbx cruise.paving --eps 0.0625
greatest tolerance: all variables may move at once by 0.1925 of their scales, and no point allows above 0.195313
  kp = 3.22 +- 0.77, scale 4
  ki = 2.68 +- 0.77, scale 4
..
```

He solders 3.22 and 2.68 from parts of 20%.

### Welder

> How does my welding arm swing from straight ahead to straight left, past the pillar?

```
{welder.txt}
$ python3 -m paver robot examples/welder.txt --clear --rotation half > welder.mbx
$ paver run welder.mbx --eps 0.03125 --out welder.paving
settled 1815 cut 907 removed 64 inner 486 small 358 open 0
$ python3 -m paver path welder.mbx welder.paving --eps 0.03125 --from 0,0 --to 1,0 --csv welder.csv
path of 15 points through 46 inner boxes, length 2.34115701
  t_shoulder = 0, t_elbow = 0
  t_shoulder = -0.062561, t_elbow = 0.25
..
```

He drives along `welder.csv`: the elbow bends to 86 degrees meanwhile.

### Spring

> I read a spring's length under six loads, to 0.8 mm, and may have slipped once. How stiff is it?

```
{spring.txt}
$ python3 -m paver fit examples/spring.txt examples/spring.csv --yerr 0.8 --outliers 1 > spring.mbx
$ paver run spring.mbx --eps 0.02 --contract 'qinter(5,hc4(0),hc4(1),hc4(2),hc4(3),hc4(4),hc4(5))' --out spring.paving
settled 793 cut 396 removed 8 inner 179 small 210 open 0
$ python3 -m paver fit examples/spring.txt examples/spring.csv --yerr 0.8 --outliers 1 --report --paving spring.paving --eps 0.02
..
give in [2.397569444444444, 2.6140000000000003]; inner boxes reach over [2.4267578125, 2.5958593750000003]
..
  leaves out line 5, load = 8: 142.3 <= length <= 143.9
..
```

He reports 2.39 to 2.62 mm a newton, and reads 8 N again.

### Shelf

{shelf}

```
$ paver run examples/shelf.mbx --eps 1 --out shelf.paving
settled 5007 cut 2503 removed 14 inner 544 small 1946 open 0
$ python3 -m paver project examples/shelf.mbx shelf.paving --eps 1 --onto reach,height --csv shelf.csv
some 79 boxes, area 492.70068: reach, height with which some value of the others is in the set
..
$ grep some shelf.csv | sort -t, -k3,3g -k5,5gr | tail -n 1
some,30.625,31.25,32.5,33.125
```

He builds 31 cm, on 33 mm.

### Ship

> My autopilot has to hold the heading at all speeds and loads, and must not swing. Which gains?

```
{ship.txt}
$ python3 -m paver control examples/ship.txt > ship.mbx
$ python3 -m paver robust ship.mbx --for-all edge --eps 0.0625
..
sure are at least 89.6% of what holds for all values
$ python3 -c "import paver; print(max(paver.robust('ship.mbx', ['edge'], eps='0.0625').sure, key=lambda one: one.box.volume).box)"
<inner [0.85, 1.96502] x [2.1875, 2.75]>
```

He sets kp = 1.4 and kd = 2.47, the middle of that box.
"""

ASKED = """
## Questions on an answer

`..` stands for lines that are left out; [ANSWERS.md](ANSWERS.md#a-stored-paving) says what each answer rests on.

### What is undecided

> By which constraints are boxes undecided?

```
$ python3 -m paver summary examples/ring.mbx
..
undecided, looking at all 172 small and open boxes:
  constraint 1 on 116, on 116 alone: x^2 + y^2 <= 4
  constraint 0 on 56, on 56 alone: x^2 + y^2 >= 1
..
```

### Scales

> Which scale would serve variables of very different size?

`pump.mbx` has `Variables speed in [0,4], flow in [0,40000]; Constraints speed^2 + flow <= 20000; end`.

```
$ python3 -m paver explain pump.mbx --scale
..
speed is 4 wide, 4 orders less than most: take speed in [0, 40000] and write speed*1e-4 in its place
```

### Points, volumes and the hull

> In which part of the answer does a point lie, how great is each, and where does what is kept end?

```pycon
>>> import math, paver
>>> paving = paver.run("examples/ring.mbx", eps=0.0625).paving()
>>> paving.where((1.5, 0)), paving.where(("0.3", "0.4")), paving.where((3, 0.5)), paving.where((4, 0))
({'inner'}, {'removed'}, {'removed'}, {'outside'})
>>> volumes = paving.volumes()
>>> float(volumes["inner"]) < 3 * math.pi < float(volumes["inner"] + volumes["small"])
True
>>> paving.hull()
((Fraction(-2, 1), Fraction(2, 1)), (Fraction(-2, 1), Fraction(2, 1)))
```

### An answer to another question

> Is this file an answer to my system, with these settings?

```
$ paver run examples/ring.mbx --eps 0.25 --out ring.paving
..
$ python3 -m paver summary examples/ring.mbx ring.paving --eps 0.5 --strict
paver: paving ring.paving: wrong identity: it is this system's with --eps 0.25, and the settings here are eps 0.5, depth 60, bisect largest, contract prop(8), form plain.
$ python3 -m paver summary examples/two_discs.mbx ring.paving --eps 0.25
paver: paving ring.paving: wrong identity: the file is of another system, or of other settings than eps 0.25, depth 60, bisect largest, contract prop(8), form plain; give those of its run.
$ python3 -m paver plot examples/robust_pid.mbx --eps 0.5 --at kd=50 --picture slice.svg
paver: kd = 50 lies outside the search box, whose ends are -2 and 4: of what is there nothing is said
```

### A refusal

> Why is my text or call refused?

`between.mbx` has `Variables x in [0,4], y in [0,4]; Constraints 1 <= x + y <= 3; end`.

```
$ python3 -m paver explain between.mbx
between.mbx, line 1, column 58: this can't stand here (Unexpected).
    Variables x in [0,4], y in [0,4]; Constraints 1 <= x + y <= 3; end
                                                             ^
Expected here: an operator, `;` or `end`.
A constraint has one relation: `a <= e <= b` is written `a <= e; e <= b`.
..
$ python3 -m paver explain run examples/ring.mbx --boxes 1000000
..
`--boxes 1000000`: a whole number from 1 to 100000 is expected; for more give `--limit 1000000`, too.
```
"""

TITLES = {"pi_gains": "PI gains", "robust_pid": "Robust PID", "three_rpr": "3-RPR platform", "uncertain_pid": "Uncertain PID"}


def title_of(name: str) -> str:
    return TITLES.get(name, name.replace("_", " ").capitalize())


def question_of(name: str) -> str:
    """The question at the head of the file, quoted: its comment up to the first line that ends with a question mark."""
    text = (TOP / "examples" / f"{name}.mbx").read_text()
    lines = [line[2:].strip() for line in takewhile(lambda line: line.startswith("//"), text.splitlines())]
    end = next((place for place, line in enumerate(lines) if line.endswith("?")), None)
    if end is None:
        raise ValueError(f"examples/{name}.mbx begins with no question")
    return "\n".join(f"> {line}  " for line in lines[:end + 1])


def summaries() -> dict[str, str]:
    rows = (line.split(" ", 2) for line in (TOP / "tests" / "data" / "summaries.txt").read_text().splitlines())
    return {name: summary for name, _, summary in rows}


def drawings() -> dict[str, list[str]]:
    """The words that draw each picture, from the script that draws them all."""
    script = (TOP / "examples" / "pictures.sh").read_text()
    script = re.sub(r"\$\(pairs (\d+) (\d+)\)", lambda found: f"qinter({found[1]},{pairs(int(found[2]))})", script)
    lines = (shlex.split(line) for line in script.splitlines() if line.startswith("draw "))
    return {name: words for _, name, *words in lines}


def command_of(*words: str) -> str:
    return " ".join(f"'{word}'" if "(" in word else word for word in words)


def entry(name: str, words: Sequence[str], summary: str, drawn: Sequence[str]) -> str:
    system = f"examples/{name}.mbx"
    return f"""
## {title_of(name)}

{question_of(name)}

```
$ {command_of("paver", "run", system, *words)}
{summary}
```

![{title_of(name)}](pictures/{name}.svg)
{drawn_with(words, drawn)}{viewed(name, words)}"""


def drawn_with(words: Sequence[str], drawn: Sequence[str]) -> str:
    """A line on the options of a picture, if they are not those of its command."""
    own = [*words] if "--eps" in words or "--depth" in words else ["--eps", "0.125", *words]
    if [*drawn[:len(own)]] != own:
        return f"\nDrawn with `{command_of(*drawn)}`.\n"
    more = drawn[len(own):]
    return f"\nDrawn with `{command_of(*more)}`, too.\n" if more else ""


def viewed(name: str, words: Sequence[str]) -> str:
    """A line on the page of an example, where that is kept."""
    if name != VIEWED:
        return ""
    command = command_of("python3", "-m", "paver", "view", f"examples/{name}.mbx", *words)
    return f"\n[A page for any browser](view/{name}.html), written by `{command} > {name}.html`.\n"


def side_by_side() -> str:
    """`run` and `run-centered` on some examples, with one worker."""
    text = SIDE_BY_SIDE
    for line in (TOP / "tests" / "data" / "centered_times.txt").read_text().splitlines():
        name, *numbers = line.split()
        text += f"| {title_of(name)} | " + " | ".join(numbers) + " |\n"
    return text


def decimal(word: str, up: bool) -> str:
    """A printed number to six digits behind the point, rounded down or up."""
    if word in ("none", "-oo", "+oo"):
        return word
    mantissa, exponent = map(int, word.split(":"))
    scaled = Fraction(mantissa) * Fraction(2) ** exponent * 10**6
    whole = math.ceil(scaled) if up else math.floor(scaled)
    return f"{'-' if whole < 0 else ''}{abs(whole) // 10**6}.{abs(whole) % 10**6:06}"


def search_row(words: Sequence[str], answer: str) -> str:
    options, (status, _, lower, _, upper) = dict(zip(words[::2], words[1::2])), answer.split()[:5]
    end = "ended" if status == "0" else "budget spent"
    return f"| {options['--eps']} | {options['--boxes']} | {decimal(lower, False)} | {decimal(upper, True)} | {end} |\n"


def lines_of(answer: str) -> str:
    """The printed lines of an answer's words."""
    return answer.split(" ", 1)[1].replace(" upper ", "\nupper ").replace(" point ", "\npoint ")


def least_entry(name: str, searches: Sequence[Sequence[str]], answers: Mapping[tuple[str, tuple[str, ...]], str]) -> str:
    words = searches[-1]
    rows = "".join(search_row(words, answers[name, tuple(words)]) for words in searches)
    return f"""
### {title_of(name)}

{question_of(name)}

```
$ paver least examples/{name}.mbx {" ".join(words)}
{lines_of(answers[name, tuple(words)])}
```

| `--eps` | `--boxes` | lower | upper | search |
|---|---|---|---|---|
{rows}"""


def levels_part() -> str:
    """What the levels of two examples show."""
    text, answers = LEVELS_HEAD, level_answers()
    for name, of, level, eps, point in LEVELS:
        shown = ", ".join(f"{variable} = {value}" for variable, value in point.items())
        text += f"| {title_of(name)} | `{of} <= {level}`, `--eps {eps}` | {answers[name]} | {of} > {level} | {shown} |\n"
    return text


def robust_entry(name: str, words: Sequence[str], lines: Sequence[str]) -> str:
    script, shown = (TOP / "examples" / "pictures.sh").read_text(), "\n".join(lines)
    drawn = re.findall(rf"^robust {name} (.*)$", script, re.M)[0]
    return f"""
### {title_of(name)}

{question_of(name)}

```
$ python3 -m paver robust examples/{name}.mbx {" ".join(words)}
{shown}
```

![{title_of(name)}](pictures/{name}.svg)

Drawn with `{drawn.removeprefix(" ".join(words[:2])).strip()}`.
"""


def decided_part() -> str:
    """Five questions with their files, from words to a decision."""
    text = DECIDED.replace("{shelf}", question_of("shelf"))
    return re.sub(r"\{(\w+\.txt)\}", lambda found: (TOP / "examples" / found[1]).read_text().strip(), text)


def main() -> None:
    found, drawn, answers = summaries(), drawings(), least_answers()
    text = HEAD + "".join(entry(name, words, found[name], drawn[name]) for name, words in EXAMPLES)
    text += side_by_side() + LEAST_HEAD
    for name, searches in groupby(LEAST, key=lambda search: search[0]):
        text += least_entry(name, [words for _, words in searches], answers)
    text += levels_part() + ROBUST_HEAD + "".join(robust_entry(name, words, robust_answers()[name]) for name, words in ROBUST)
    (TOP / "docs" / "GALLERY.md").write_text(text + decided_part() + ASKED)


if __name__ == "__main__":
    main()
