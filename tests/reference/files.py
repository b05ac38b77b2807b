"""Paving files written, read, joined and audited straight from their format, slow and plain.

A tree is a tuple: ("O",), ("X",), ("I", to), ("S", to) or ("C", to, variable, at, low, high).
"""
import re
from typing import Any, Callable, Dict, Iterator, List, NoReturn, Optional, Tuple

from .kinds import Box, Outcome, Tree, Value
from .numbers import NEG_INF, POS_INF, TOP, is_grid, spelling
from .paver import halves, node_line

MOST_SETTLED = 100_000  # where no limit is given
MOST_STEPS = 200


class Refused(Exception):
    """Why bytes are no paving file: what the line on standard error says after the file's name."""


class Disagree(Exception):
    """Two outcomes at one path."""

    def __init__(self, path: str, one: Any, other: Any) -> None:
        super().__init__(path)
        self.path, self.one, self.other = path, one, other


def settled(tree: Tree) -> int:
    count, waiting = 0, [tree]
    while waiting:
        node = waiting.pop()
        count += node[0] != "O"
        waiting += node[4:]
    return count


def outcome(node: Tree) -> Outcome:
    return node[:4]


def counts(tree: Tree) -> Dict[str, int]:
    found, waiting = dict.fromkeys("CXISO", 0), [tree]
    while waiting:
        node = waiting.pop()
        found[node[0]] += 1
        waiting += node[4:]
    return found


def summary(tree: Tree) -> str:
    found = counts(tree)
    return "settled %d cut %d removed %d inner %d small %d open %d" % (
        sum(found.values()) - found["O"], found["C"], found["X"], found["I"], found["S"], found["O"])


def lines(tree: Tree, root: Box, version: int) -> Iterator[str]:
    """The node lines in preorder, without line feeds."""
    waiting = [(tree, root)]
    while waiting:
        node, box = waiting.pop()
        yield node_line(outcome(node)) if version == 1 or node[0] in "OX" else changes_line(node, box)
        if node[0] == "C":
            low, high = halves(*node[1:4])
            waiting += [(node[5], high), (node[4], low)]


def changes_line(node: Tree, box: Box) -> str:
    ends = " ".join("=" if new == old else spelling(new)
                    for new_place, old_place in zip(node[1], box) for new, old in zip(new_place, old_place))
    cut = f"{node[2]} {spelling(node[3])} " if node[0] == "C" else ""
    return f"{node[0]} {cut}{ends}"


def write(tree: Tree, root: Box, identity: str, version: int = 2) -> bytes:
    head = [f"paving {version}", f"identity {identity}"]
    return "".join(line + "\n" for line in [*head, *lines(tree, root, version)]).encode()


def number(word: str) -> Value:
    """The number of its one spelling; None where the word is none."""
    if word in ("-oo", "+oo"):
        return NEG_INF if word == "-oo" else POS_INF
    parts = re.fullmatch(r"(-?(?:0|[1-9][0-9]{0,30})):(-?(?:0|[1-9][0-9]{0,5}))", word)
    if not parts:
        return None
    mantissa, exponent = int(parts[1]), int(parts[2])
    if not -512 <= exponent <= 511:
        return None
    value = mantissa << (exponent + 512)
    return value if abs(value) <= TOP and is_grid(value) and spelling(value) == word else None


def new_end(word: str, old: Value, version: int) -> Value:
    if version == 2 and word == "=":
        return old
    value = number(word)
    return None if version == 2 and value == old else value


def outcome_of(line: str, box: Box, version: int) -> Outcome:
    """The outcome that a line gives for a box, ("O",) included; None where it gives none."""
    words = line.split(" ")
    if line in ("O", "X"):
        return (line,)
    if words[0] not in ("I", "S", "C"):
        return None
    ends = words[3:] if words[0] == "C" else words[1:]
    if len(ends) != 2 * len(box):
        return None
    to = []
    for low_word, high_word, (old_low, old_high) in zip(ends[::2], ends[1::2], box):
        low, high = new_end(low_word, old_low, version), new_end(high_word, old_high, version)
        if low is None or high is None or low > high or low == POS_INF or high == NEG_INF:
            return None
        if low < old_low or high > old_high:
            return None
        to.append((low, high))
    if words[0] != "C":
        return words[0], to
    if not re.fullmatch("0|[1-9][0-9]?", words[1]) or int(words[1]) >= len(box):
        return None
    variable, at = int(words[1]), number(words[2])
    if at is None or at in (NEG_INF, POS_INF) or not to[variable][0] < at < to[variable][1]:
        return None
    return "C", to, variable, at


class Reader:
    def __init__(self, data: bytes) -> None:
        self.data, self.at, self.line = data, 0, 0

    def next(self) -> Optional[str]:
        """The next line without its line feed; None where there is none."""
        self.line += 1
        end = self.data.find(b"\n", self.at)
        if end < 0:
            return None
        line, self.at = self.data[self.at:end], end + 1
        return line.decode("latin-1")

    def bad(self) -> NoReturn:
        raise Refused(f"bad line {self.line}")


def read(data: bytes, root: Box, identity: str, limit: int = MOST_SETTLED) -> Tree:
    if len(data) > 662 * limit + 3_800_000:
        raise Refused("too long")
    reader = Reader(data)
    version = {"paving 1": 1, "paving 2": 2}.get(reader.next() or "") or reader.bad()
    second = reader.next()
    if second is None or not re.fullmatch("identity [0-9a-f]{64}", second):
        reader.bad()
    if second != f"identity {identity}":
        raise Refused("wrong identity")
    found, waiting, count = [], [(root, 0)], 0
    while waiting:
        box, steps = waiting.pop()
        line = reader.next()
        node = None if line is None else outcome_of(line, box, version)
        if node is None or (node[0] == "C" and steps == MOST_STEPS):
            reader.bad()
        count += node[0] != "O"
        if count > limit:
            raise Refused(f"too many nodes at line {reader.line}")
        found.append(node)
        if node[0] == "C":
            low, high = halves(*node[1:])
            waiting += [(high, steps + 1), (low, steps + 1)]
    if reader.at < len(data):
        reader.line += 1
        reader.bad()
    return tree_of(found)


def tree_of(nodes: Any) -> Tree:
    """The tree of outcomes in preorder."""
    stack: List[Tree] = []
    for node in reversed(nodes):
        stack.append((*node, stack.pop(), stack.pop()) if node[0] == "C" else node)
    return stack[0]


def path_text(path: str) -> str:
    return path or "."


def join(one: Any, other: Any, path: str = "") -> Tree:
    """The join of two trees over one box."""
    if one[0] == "O":
        return other
    if other[0] == "O":
        return one
    if outcome(one) != outcome(other):
        raise Disagree(path, outcome(one), outcome(other))
    if one[0] != "C":
        return one
    low = join(one[4], other[4], path + "0")
    return (*outcome(one), low, join(one[5], other[5], path + "1"))


def go_on(settler: Any, tree: Tree, budget: int, within: int = MOST_STEPS + 1) -> Tree:
    """The tree with so many more nodes settled, each time the first open leaf in preorder whose path has fewer steps."""
    return settle_chosen(settler, tree, budget, lambda number, steps: steps < within)[0]


def go_on_with_share(settler: Any, tree: Tree, budget: int, number: int, of: int) -> Tuple[Tree, bool]:
    """The tree with so many more nodes settled at or below the open leaves that have this number modulo `of`, counted from 0
    in preorder; and whether none is open there."""
    return settle_chosen(settler, tree, budget, lambda leaf, steps: leaf % of == number)


def settle_chosen(settler: Any, tree: Tree, budget: int, is_chosen: Callable[[int, int], bool]
                  ) -> Tuple[Tree, bool]:
    """The tree with so many more nodes settled, in preorder, where the number of the opening's leaf at or above a leaf and the
    steps to it are chosen; and whether no chosen leaf is open."""
    found, leaves, done = [], 0, True
    waiting: List[Tuple[Tree, Box, int, Optional[int]]] = [(tree, settler.root, 0, None)]
    while waiting:
        node, box, steps, leaf = waiting.pop()
        if node[0] == "O":
            if leaf is None:
                leaf, leaves = leaves, leaves + 1
            if is_chosen(leaf, steps):
                if budget:
                    budget -= 1
                    node = settler.settle(box, max(0, settler.depth - steps), steps)
                else:
                    done = False
        found.append(outcome(node))
        if node[0] == "C":
            low, high = halves(*outcome(node)[1:])
            kids = node[4:] or (("O",), ("O",))
            waiting += [(kids[1], high, steps + 1, leaf), (kids[0], low, steps + 1, leaf)]
    return tree_of(found), done


def go_on_by_levels(settler: Any, tree: Tree, budget: int) -> Tree:
    """The tree with so many more nodes settled, in passes of which each settles the leaves above a depth, four more each."""
    within, most = 4, settled(tree) + budget
    while counts(tree)["O"] and settled(tree) < most:
        tree = go_on(settler, tree, most - settled(tree), within)
        within += 4
    return tree


def open_paths(tree: Tree, path: str = "") -> List[str]:
    """The paths of the open leaves, in preorder."""
    if tree[0] == "O":
        return [path]
    return open_paths(tree[4], path + "0") + open_paths(tree[5], path + "1") if tree[0] == "C" else []


def settled_paths(tree: Tree, path: str = "") -> List[str]:
    """The paths of the settled nodes, in preorder."""
    if tree[0] == "O":
        return []
    below = settled_paths(tree[4], path + "0") + settled_paths(tree[5], path + "1") if tree[0] == "C" else []
    return [path] + below


def audit(settler: Any, tree: Tree) -> Any:
    """None where the tree is a stage of the open box; else the first path, the tree's outcome and the settler's."""
    waiting = [(tree, settler.root, "")]
    while waiting:
        node, box, path = waiting.pop()
        if node[0] == "O":
            continue
        due = settler.settle(box, max(0, settler.depth - len(path)), len(path))
        if outcome(node) != due:
            return path, outcome(node), due
        if node[0] == "C":
            low, high = halves(*due[1:])
            waiting += [(node[5], high, path + "1"), (node[4], low, path + "0")]
    return None
