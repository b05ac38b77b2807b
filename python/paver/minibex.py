"""The texts of the profile: tokens with their places, and domains put in the place of others."""
from __future__ import annotations

import re
from typing import List, Mapping, Optional, Sequence, Tuple

TOKEN = re.compile(
    r"(?P<blank>[ \t\r\n]+|//[^\n]*|/\*.*?(?:\*/|\Z))|(?P<name>[A-Za-z_][A-Za-z0-9_]*)"
    r"|(?P<number>[0-9]+(?:\.[0-9]*)?(?:[eE][+-]?[0-9]+)?)|(?P<sign><=|>=|[<>=+*/^()\[\],;-])|(?P<bad>.)", re.S)
BLOCKS = ["Constants", "Variables", "Constraints", "Function", "Return", "End"]
WORDS = {spelling: block for block in BLOCKS for spelling in (block, block[0].lower() + block[1:])}
FUNCTIONS = {"abs": 1, "sqr": 1, "min": 2, "max": 2}
OUTSIDE = set("""sqrt root exp log ln cos sin tan acos asin atan atan2 cosh sinh tanh acosh asinh atanh sign pi for sum
Minimize minimize""".split())
RESERVED = set(WORDS) | set(FUNCTIONS) | {"in", "oo"} | OUTSIDE


Span = Optional[Tuple[int, int]]
Domain = Tuple[str, int, Span, Span]


class Token:
    """kind is name, number, sign, bad or end; word is the text, or the block word that it spells; at is its place."""
    __slots__ = ("kind", "text", "word", "at")

    def __init__(self, kind: str, text: str, at: int) -> None:
        self.kind, self.text, self.at = kind, text, at
        self.word = WORDS.get(text, text)

    @property
    def is_free_name(self) -> bool:
        return self.kind == "name" and self.text not in RESERVED


def tokens(text: str) -> List[Token]:
    """The tokens of a text of single-byte characters, with one for the end."""
    found, at = [], 0
    while at < len(text):
        match = TOKEN.match(text, at)
        if match is None or match.lastgroup is None:
            raise ValueError(f"no token at byte {at}")
        if match.lastgroup != "blank":
            found.append(Token(match.lastgroup, match.group(), at))
        at = match.end()
    return found + [Token("end", "", len(text))]


def domains_of(text: str) -> List[Domain]:
    """Of each variable of a good text its name, and the places of its domain's two bounds; of one without a domain
    the place behind its name, twice None."""
    found: List[Domain] = []
    words = tokens(text)
    at = next(i for i, token in enumerate(words) if token.word == "Variables") + 1
    while words[at].is_free_name:
        name, behind = words[at].text, words[at].at + len(words[at].text)
        at += 1
        if words[at].text == "in":
            comma = next(i for i in range(at, len(words)) if words[i].text == ",")
            close = next(i for i in range(comma, len(words)) if words[i].text == "]")
            found.append((name, behind, (words[at + 2].at, words[comma].at), (words[comma + 1].at, words[close].at)))
            at = close + 1
        else:
            found.append((name, behind, None, None))
        if words[at].text in (",", ";"):
            at += 1
    return found


def domains_replaced(text: str, moved: Mapping[str, Tuple[Optional[str], ...]]) -> str:
    """The text with other bounds: moved gives for names a pair of texts, None for a bound that stays."""
    return spliced(text, domains_of(text), moved)


def spliced(text: str, domains: Sequence[Domain], moved: Mapping[str, Tuple[Optional[str], ...]]) -> str:
    """The same, where the places of the domains are known."""
    edits = []
    for name, behind, low, high in domains:
        first, second = moved.get(name, (None, None))
        if low is None and (first or second):
            edits.append((behind, behind, f" in [{first or '-oo'}, {second or 'oo'}]"))
            continue
        if first and low:
            edits.append((*low, first))
        if second and high:
            edits.append((high[0], high[1], f"{second}"))
    for start, end, new in sorted(edits, reverse=True):
        text = text[:start] + new + text[end:]
    return text
