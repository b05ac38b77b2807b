"""Whether a stored paving is a system's under some settings, and which settings it may have instead."""
from __future__ import annotations

import hashlib
from fractions import Fraction
from itertools import product
from typing import Any, Dict, Iterator, List, Mapping, Optional, Tuple, Union

from .canonical import System
from .errors import PavingRefused
from .options import CHOICES, DEFAULTS, KEPT_SETTINGS, number_of, words_of
from .numbers import decimal, rounded


class Unsaid:
    """What a caller did not say."""

    def __repr__(self) -> str:
        return "that of the system"


UNSAID = Unsaid()
Identity = Union[str, None, Unsaid]
EPS = [*(Fraction(2) ** k for k in range(8, -31, -1)),
       *(Fraction(digit, 10) / 10 ** k for k in range(-2, 12) for digit in (10, 20, 25, 50, 75))]
CONTRACTS = [f"prop({n})" for n in range(1, 65)]


def complete(settings: Mapping[str, Any]) -> Dict[str, str]:
    """All settings in words: the given ones, and the program's own for the others."""
    given = {name: word for name, word in words_of(settings).items() if name in KEPT_SETTINGS}
    return {**DEFAULTS, **given}


def settings_text(settings: Mapping[str, str]) -> str:
    """The text of complete settings in an identity; ValueError where eps is no number."""
    lines = [f"eps {rounded(number_of(settings['eps']), False)}", f"depth {int(settings['depth'])}",
             f"bisect {settings['bisect']}", f"contract {settings['contract']}"]
    return "".join(f"{line}\n" for line in [*lines, *["centered"] * (settings["form"] == "centered")])


def identity_of(system: System, settings: Mapping[str, Any]) -> str:
    """The digits of the second line of a file that the program stores of a system under settings."""
    return hashlib.sha256((system.text + settings_text(complete(settings))).encode()).hexdigest()


def forms_of(settings: Mapping[str, Any]) -> List[str]:
    """The forms that a paving by these settings may have: either, where none is given."""
    return [settings["form"]] if settings.get("form") else list(CHOICES["form"])


def found_settings(system: System, stored: Optional[str], settings: Mapping[str, Any]) -> Tuple[Dict[str, Any], Optional[str]]:
    """The settings of a file: these, or those near at hand under which the file is the system's; then with the words for
    those that differ."""
    if stored is None or stored in [identity_of(system, {**settings, "form": form}) for form in forms_of(settings)]:
        return dict(settings), None
    asked = complete(settings)
    found = searched(system, stored, asked)
    return (dict(settings), None) if found is None else (dict(found), difference(found, asked))


def difference(found: Mapping[str, str], asked: Mapping[str, str]) -> str:
    """The options of settings that differ from those that are asked for."""
    return " ".join(f"--{name} {word}" for name, word in found.items() if word != asked[name])


def taken(name: str, words: str) -> str:
    """The sentence on settings that were found."""
    return f"{name} is this system's with {words}: that is taken (--strict refuses it)"


def compared(stored: Optional[str], system: Optional[System], wanted: Identity, settings: Mapping[str, Any], name: str) -> None:
    """PavingRefused where a file's identity is not the wanted one: that of the system under the settings, whose form may be
    either where it is not given."""
    if wanted is None or (system is None and isinstance(wanted, Unsaid)):
        return
    if stored is None:
        raise refusal(name, "no identity", "printed text has none, so nothing tells whose it is: store the paving by --out (in "
                      "Python by out=), or say identity=None")
    if isinstance(wanted, str):
        if stored != wanted:
            raise refusal(name, "wrong identity", f"it is {stored}, and {wanted} is wanted")
        return
    assert system is not None
    if stored not in [identity_of(system, {**settings, "form": form}) for form in forms_of(settings)]:
        raise refusal(name, "wrong identity", reason(system, stored, settings))


def refusal(name: str, cause: str, sentence: str) -> PavingRefused:
    """The exception on a paving."""
    return PavingRefused(4, f"paving {name}: {cause}: {sentence}.", name=name, cause=cause, row=None)


def reason(system: System, stored: str, settings: Mapping[str, Any]) -> str:
    """Which settings a file of another identity has, where they are near at hand, else that they or the system differ."""
    asked = complete(settings)
    said = ", ".join(f"{name} {word}" for name, word in asked.items())
    found = searched(system, stored, asked)
    if found is None:
        return f"the file is of another system, or of other settings than {said}; give those of its run"
    return f"it is this system's with {difference(found, asked)}, and the settings here are {said}"


def searched(system: System, stored: str, asked: Mapping[str, str]) -> Optional[Dict[str, str]]:
    """The settings under which the system has an identity, among those that are near at hand; None where none of them is."""
    head = hashlib.sha256(system.text.encode())
    for eps, word, depth, bisect, contract, form in candidates(asked):
        digest = head.copy()
        centered = "centered\n" * (form == "centered")
        digest.update(f"eps {eps}\ndepth {depth}\nbisect {bisect}\ncontract {contract}\n{centered}".encode())
        if digest.hexdigest() == stored:
            return {"eps": word, "depth": depth, "bisect": bisect, "contract": contract, "form": form}
    return None


def candidates(asked: Mapping[str, str]) -> Iterator[Tuple[str, str, str, str, str, str]]:
    """Settings that are tried: (eps as a file's number, and in words), depth, bisect, contract, form."""
    words = [asked["eps"], DEFAULTS["eps"], *(text for text in map(decimal, EPS) if text is not None)]
    sizes = [(rounded(number_of(word), False), word) for word in dict.fromkeys(words)]
    depths, every = list(dict.fromkeys([asked["depth"], DEFAULTS["depth"]])), list(map(str, range(1, 201)))
    contracts = list(dict.fromkeys([asked["contract"], DEFAULTS["contract"]]))
    for chosen in (product(sizes, depths, CHOICES["bisect"], contracts, CHOICES["form"]),
                   product(sizes, every, CHOICES["bisect"][:1], contracts[:1], CHOICES["form"]),
                   product(sizes[:2], depths, CHOICES["bisect"], CONTRACTS, CHOICES["form"])):
        for (eps, word), depth, bisect, contract, form in chosen:
            yield eps, word, depth, bisect, contract, form
