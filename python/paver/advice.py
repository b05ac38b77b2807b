"""What to know where an answer may disappoint, in sentences."""
from __future__ import annotations

import math
from fractions import Fraction
from typing import TYPE_CHECKING, Any, Dict, List, Mapping, Optional, Sequence, Tuple

from .numbers import Exact, wide
from .options import DEFAULTS, MOST_BOXES, eps_of

if TYPE_CHECKING:
    from .cover import Cover
    from .program import Answer

MOST_DEPTH = 200
ANEW = ("run", "run-centered", "least")  # whose budget, where none is given, is the limit that is


def depth_of(settings: Mapping[str, Any]) -> int:
    """The depth of settings."""
    return int(settings.get("depth") or DEFAULTS["depth"])


def limit_of(settings: Mapping[str, Any]) -> int:
    """The most settled nodes under settings."""
    return int(settings.get("limit") or MOST_BOXES)


def depth_that_suffices(root: Sequence[Tuple[Any, Any]], eps: Any, bisect: str = "largest") -> Optional[int]:
    """A depth that lets every box become as narrow as eps. For `largest` it is the sum over the variables of
    log2(width / eps), each rounded up; for `round`, which cuts narrow places too, the greatest of these times the
    number of variables. root has pairs of exact values. None where a variable has no bounded domain, or eps is 0."""
    halvings: List[int] = []
    if not eps:
        return None
    for low, high in root:
        if isinstance(low, float) or isinstance(high, float):
            return None
        ratio = (high - low) / Fraction(eps)
        halvings.append(max(0, math.ceil(ratio) - 1).bit_length())
    return sum(halvings) if bisect == "largest" else len(halvings) * max(halvings)


def depth_warning(paving: Cover, settings: Mapping[str, Any]) -> Optional[str]:
    """The sentence on small boxes that are wider than eps; None where there are none."""
    eps, depth, bisect = eps_of(settings), depth_of(settings), settings.get("bisect") or "largest"
    box = paving.widest("small")
    if box is None or box.width <= eps:
        return None
    count = wider(paving, eps)
    return (f"{count} small boxes are wider than eps = {wide(eps)}: the depth {depth} was used up. "
            f"The widest is {wide(box.width)} wide: {box!r}. {depth_rule(paving, eps, depth, bisect)}.")


def wider(paving: Cover, eps: Fraction) -> int:
    """How many small boxes are wider than eps."""
    from .cover import width_in
    count = 0
    for part in paving.pieces():
        table = part.tree.table
        scaled = eps * (1 << table.shift)
        most = scaled.numerator // scaled.denominator
        count += sum(width_in(table.values, ends) > most for ends in part.tree.ends_of("S"))
    return count


def depth_rule(paving: Cover, eps: Fraction, depth: int, bisect: str) -> str:
    """What depth would do."""
    if not eps:
        return "with eps 0 no depth suffices"
    enough = depth_that_suffices(root_pairs(paving), eps, bisect) if paving.boxes_known() else None
    if enough is None:
        return "a variable without a bounded domain never gets there: give it one"
    if enough > MOST_DEPTH:
        return f"a depth that suffices is {enough}, above the greatest, {MOST_DEPTH}: split the box, or take a larger eps"
    if enough > depth and bisect == "largest":
        return f"--depth {enough} suffices (the sum over the variables of log2(width/eps))"
    if enough > depth:
        return (f"--depth {enough} suffices (the greatest log2(width/eps) times the number of variables, as `round` cuts each "
                "in turn)")
    return "by the rule the depth suffices: these boxes can't be cut further, or the rounding of cuts took one more"


def root_pairs(paving: Cover) -> List[Tuple[Exact, Exact]]:
    """The search box of the first part as pairs of exact values."""
    from .box import Box
    return [pair for root in paving.search_boxes()[:1] for pair in Box("open", root).exact]


STORED = ("go on from a file that --out stored by `paver resume SYSTEM FILE --out FILE2` with the settings of its run, or take "
          "a larger eps")
MORE = "give more by --boxes (a paving has at most {most} settled nodes)"
WAYS = {
    "run": f"{MORE}, {STORED}",
    "resume": f"{MORE}, {STORED}",
    "merge": STORED,
    "run-centered": f"{MORE}, or take a larger eps",
    "campaign": "call `paver campaign` again with the same --keep and settings (the settled nodes and --rounds times --boxes "
                "may come to {most} at most), or begin another with a larger eps",
}
FULL = "a paving has at most {most} settled nodes: split the box (`python3 -m paver split`), or take a larger eps"


def budget_warning(command: str, counts: Mapping[str, int], boxes: Optional[int], most: int = MOST_BOXES, share: str = ""
                   ) -> Optional[str]:
    """The sentence on the open leaves that a command left, with the share of the search box that they hold; None where no leaf
    is open."""
    if not counts["open"]:
        return None
    full = counts["settled"] >= most or command != "merge" and (boxes or 0) >= most
    ended = "the join has open leaves" if command == "merge" else "the budget ended the run"
    return f"{ended}: {open_in_words(counts, share)} To go on: {(FULL if full else WAYS[command]).format(most=most)}."


def open_in_words(counts: Mapping[str, int], share: str = "") -> str:
    """What open leaves leave unsaid."""
    return (f"{counts['open']} leaves are open after {counts['settled']} settled nodes{share}. What is printed or kept is "
            "right as far as it goes; an open leaf says nothing.")


def open_share(paving: Cover) -> str:
    """Which share of the search box the open leaves hold, in words: a few of them may hold most of it. Nothing where the box is
    not known or has no volume."""
    if not paving.boxes_known() or not paving.counts()["open"]:
        return ""
    volumes = paving.volumes()
    whole = sum(volumes.values(), Fraction(0))
    if isinstance(whole, float) or not whole:
        return ""
    return f", and they hold {100 * float(Fraction(volumes['open']) / whole):.3g} % of the search box"


def stored_sentences(paving: Cover, settings: Mapping[str, Any], is_kept: bool = False) -> List[str]:
    """The sentences on a paving that was stored, or is kept by a campaign: on open leaves, and on what the depth left."""
    found, counts = [], paving.counts()
    if counts["open"]:
        way = WAYS["campaign"].format(most=limit_of(settings)) if is_kept else STORED
        found.append(f"the paving is not whole: {open_in_words(counts, open_share(paving))} To go on: {way}.")
    depth = depth_warning(paving, settings)
    return found + ([depth] if depth else [])


def limits_of(answer: Answer, paving: Cover) -> List[str]:
    """The sentences on what the budget and the depth left undone."""
    settings: Dict[str, Any] = answer.settings
    boxes = int(settings["boxes"]) if settings.get("boxes") else None
    if boxes is None and settings.get("limit") and answer.command in ANEW:
        boxes = limit_of(settings)
    found = [budget_warning(answer.command, paving.counts(), boxes, limit_of(settings), open_share(paving)),
             depth_warning(paving, settings)]
    return [sentence for sentence in found if sentence]


def warnings_of(answer: Answer, paving: Cover) -> List[str]:
    """The sentences for an answer and its paving; an empty list where nothing disappoints."""
    found, counts = limits_of(answer, paving), paving.counts()
    if counts["settled"] and not counts["inner"] and not counts["small"] and not counts["open"]:
        found.append("nothing is kept: no rational point of the search box is in the set.")
    elif not counts["inner"] and counts["small"]:
        found.append("no box is inner: with equations none can be, as their sets have no volume; else take a smaller eps.")
    return found
