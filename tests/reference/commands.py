"""What the commands on paving files answer, by the reference's own files and settler."""
import hashlib
from typing import Any, Callable, Dict, Optional

from . import files
from .kinds import Answer, Outcome, Tree
from .minibex import System
from .numbers import spelling
from .paver import Settler, node_line
from .slopes import CenteredSettler


ORDERS: Dict[str, Callable[[Settler, Tree, int], Tree]] = {"depth": files.go_on, "level": files.go_on_by_levels}


class Call:
    """A system's text and its settings, as the options spell them, and the limit on a tree's settled nodes."""

    def __init__(self, system: System, canonical: bytes, centered: bool = False, limit: int = files.MOST_SETTLED,
                 **settings: Any) -> None:
        self.limit = limit
        self.settler = (CenteredSettler if centered else Settler)(system, **settings)
        depth, bisector = self.settler.depth, self.settler.bisector
        contract = settings.get("contract", "prop(8)")
        form = "centered\n" if centered else ""
        text = f"eps {spelling(self.settler.eps)}\ndepth {depth}\nbisect {bisector}\ncontract {contract}\n{form}"
        self.identity = hashlib.sha256(canonical + text.encode()).hexdigest()

    def write(self, tree: Tree, version: int = 2) -> bytes:
        return files.write(tree, self.settler.root, self.identity, version)

    def read(self, name: str, data: bytes) -> Tree:
        try:
            return files.read(data, self.settler.root, self.identity, self.limit)
        except files.Refused as refused:
            raise Stopped(4, f"paving {name}: {refused}") from None

    def opening(self, named: Any) -> Tree:
        trees = [self.read(name, data) for name, data in named]
        whole = trees[0]
        for tree in trees[1:]:
            try:
                whole = files.join(whole, tree)
            except files.Disagree as apart:
                raise Stopped(9, line_of("disagree", apart.path, apart.one, apart.other)) from None
        return whole

    def delivered(self, tree: Tree, out: Optional[str], done: Optional[bool] = None) -> Answer:
        """What comes of a tree, with status 0 where this or, by itself, no open leaf says that all is done."""
        summary = (files.summary(tree) + "\n").encode()
        status = 0 if (not files.counts(tree)["O"] if done is None else done) else 1
        if out:
            return status, summary, b"", self.write(tree)
        body = "".join(line + "\n" for line in files.lines(tree, self.settler.root, 1))
        return status, summary + body.encode(), b"", None

    def run(self, budget: int, out: Optional[str], order: str = "depth") -> Answer:
        return self.delivered(ORDERS[order](self.settler, ("O",), budget), out)

    def resume(self, named: Any, budget: int, out: Optional[str], order: str = "depth", share: Any = None) -> Answer:
        """What is gone on with: all open leaves in an order, or those of a share, a number and of how many."""
        tree = self.opening(named)
        settled = files.settled(tree)
        if settled + budget > self.limit:
            raise Stopped(8, f"tree limit: {settled} settled")
        if share is None:
            return self.delivered(ORDERS[order](self.settler, tree, budget), out)
        tree, done = files.go_on_with_share(self.settler, tree, budget, *share)
        return self.delivered(tree, out, done)

    def merge(self, named: Any, out: Optional[str]) -> Answer:
        tree = self.opening(named)
        settled = files.settled(tree)
        if settled > self.limit:
            raise Stopped(8, f"tree limit: {settled} settled")
        return self.delivered(tree, out)

    def audit(self, name: str, data: bytes) -> Answer:
        found = files.audit(self.settler, self.read(name, data))
        if found:
            raise Stopped(9, line_of("differs", *found))
        return 0, b"honest\n", b"", None


class Stopped(Exception):
    """A status and its line."""

    def __init__(self, status: int, line: str) -> None:
        super().__init__(line)
        self.status, self.line = status, line


def line_of(word: str, path: str, one: Outcome, other: Outcome) -> str:
    return f"{word} {files.path_text(path)}: {node_line(one)} | {node_line(other)}"


def answer(work: Callable[[], Answer]) -> Answer:
    """Status, standard output, standard error and what is stored, None for nothing."""
    try:
        return work()
    except Stopped as stopped:
        return stopped.status, b"", (stopped.line + "\n").encode(), None
