"""What the manifest of a sweep and the records of its tasks have to hold: each key with a rule for its value."""
from __future__ import annotations

import json
import math
import os
import re
import stat
from dataclasses import fields
from pathlib import Path
from typing import Any, Callable, Dict, Iterable, Mapping, Optional

from .errors import FolderRefused
from .options import KEPT_SETTINGS, MOST_LIMIT, MOST_SHARES, value_fault
from .sweep_plan import WHOLE, Progress, Record, is_share
from .sweep_task import FIELDS

LONGEST_MANIFEST = 1 << 29  # bytes; a million records have about 400 MB
LONGEST_RECORD = 1 << 26  # bytes; one has eight for each leaf that a share left open
MOST = 1 << 62  # of counts that have no range of their own
NAME = re.compile(r"(share-[0-9]{4,7}(\.[0-7])*|join-[0-9]{1,2}-[0-9]{4,7}|join-share-[0-9]{4,7}(\.[0-7])*|whole)\Z", re.A)
Rule = Callable[[Any], bool]


def refused(name: Path, sentence: str, cause: str) -> FolderRefused:
    """The exception on a folder, or on a file in it."""
    return FolderRefused(None, f"{name}: {sentence}", name=str(name), cause=cause)


# ---- rules

def is_text(value: Any) -> bool:
    return isinstance(value, str)


def is_digest(value: Any) -> bool:
    """Whether a value is a SHA-256 in hexadecimal digits."""
    return isinstance(value, str) and re.fullmatch("[0-9a-f]{64}", value, re.A) is not None


def is_count(value: Any) -> bool:
    return isinstance(value, int) and not isinstance(value, bool) and 0 <= value <= MOST


def is_number_of_shares(value: Any) -> bool:
    return is_count(value) and 1 <= value <= MOST_SHARES


def is_seconds(value: Any) -> bool:
    return isinstance(value, (int, float)) and not isinstance(value, bool) and 0 <= value < math.inf


def is_counts(value: Any) -> bool:
    """Whether a value is the counts of a paving: what is settled is cut, removed, inner or small."""
    return (isinstance(value, dict) and set(value) == set(FIELDS) and all(map(is_count, value.values()))
            and value["settled"] == sum(value[name] for name in ("cut", "removed", "inner", "small"))
            and value["settled"] <= MOST_LIMIT)


def is_settings(value: Any) -> bool:
    """Whether a value is complete settings that the program takes; of a contractor's text its length alone is looked at."""
    return (isinstance(value, dict) and set(value) == set(KEPT_SETTINGS)
            and all(is_text(word) and len(word) < 1 << 16 and not value_fault(name, word, True)
                    for name, word in value.items()))


def is_progress(value: Any) -> bool:
    return (isinstance(value, dict) and set(value) == {field.name for field in fields(Progress)}
            and all(map(is_seconds, value.values())))


def is_fault(value: Any) -> bool:
    return (isinstance(value, dict) and set(value) == {"status", "line", "name"} and isinstance(value["status"], int)
            and is_text(value["line"]) and is_text(value["name"]))


def is_share_of(value: Any) -> bool:
    """Whether a value is a share's number and how many there are."""
    return (isinstance(value, list) and len(value) == 2 and all(map(is_count, value)) and value[0] < max(1, value[1]))


def is_leaves(value: Any) -> bool:
    """Whether a value is numbers of leaves, each greater than the one before it."""
    return (isinstance(value, list) and len(value) > 0 and all(map(is_count, value))
            and all(a < b for a, b in zip(value, value[1:])))


def is_first(value: Any) -> bool:
    return isinstance(value, dict) and fault_in(value, FIRST, {}) is None and value["out"] == "first.paving"


def is_dict(value: Any) -> bool:
    return isinstance(value, dict)


STORED: Dict[str, Rule] = {"name": is_text, "out": is_text, "sha256": is_digest, "bytes": is_count, "counts": is_counts,
                           "seconds": is_seconds}
FIRST: Dict[str, Rule] = {**STORED, "wanted": is_number_of_shares}
ANSWER: Dict[str, Rule] = {**STORED, "status": lambda value: is_count(value) and value <= 1, "new": is_count,
                           "processor": is_seconds, "memory": is_count}
MAY_ANSWER: Dict[str, Rule] = {"attempts": is_count, "host": is_text, "began": is_seconds, "share": is_share_of, "of": is_count,
                               "left": is_leaves}
KEYS: Dict[str, Rule] = {"kind": lambda value: value == "sweep", "system": is_text, "system_sha256": is_digest,
                         "canonical_sha256": is_digest, "settings": is_settings, "identity": is_digest, "tasks": is_dict,
                         "lost": lambda value: is_dict(value) and all(map(is_count, value.values())), "seconds": is_seconds}
MAY_KEYS: Dict[str, Rule] = {"written_by": is_text, "version": is_text, "workers": lambda value: is_count(value) and value > 0,
                             "asked": lambda value: value is None or is_count(value) and value > 0,
                             "shares": is_number_of_shares, "first": is_first, "progress": is_progress, "audited": is_digest}


# ---- what breaks them

def fault_in(found: Mapping[str, Any], needed: Mapping[str, Rule], allowed: Mapping[str, Rule]) -> Optional[str]:
    """What is wrong with a group of keys; None where nothing is."""
    for name, rule in needed.items():
        if name not in found:
            return f"it has no `{name}`"
        if not rule(found[name]):
            return f"its `{name}` is none"
    for name, rule in allowed.items():
        if name in found and not rule(found[name]):
            return f"its `{name}` is none"
    return None


def fault_of_record(found: Record, name: str) -> Optional[str]:
    """What is wrong with the record of the task of a name; None where nothing is."""
    if NAME.match(name) is None:
        return f"no task has the name `{name[:40]}`"
    if found.get("name") != name:
        return "its `name` is another"
    if "fault" in found:
        return None if is_fault(found["fault"]) else "its `fault` is none"
    fault = fault_in(found, ANSWER, MAY_ANSWER)
    if fault is None and found["out"] != ("whole.paving" if name == WHOLE else f"shares/{name}.paving"):
        return "its `out` is another file"
    if fault is None and is_share(name) and found["status"] == 1:
        fault = fault_in(found, {"of": is_count, "left": is_leaves}, {})
        if fault is None and (found["left"][-1] >= found["of"] or found["of"] != found["counts"]["open"]):
            return "its `left` is more than there is"
    return fault


def fault_of_manifest(found: Record) -> Optional[str]:
    """What is wrong with a manifest; None where nothing is."""
    fault = fault_in(found, KEYS, MAY_KEYS)
    if fault is not None:
        return fault
    if "first" in found:
        if "shares" not in found or "asked" not in found:
            return "it has no number of shares"
        most = max(1, found["first"]["counts"]["open"])
        if found["shares"] > most or found["asked"] is not None and found["shares"] != min(found["asked"], most):
            return "its `shares` is not what was dealt"
    elif found["tasks"]:
        return "it has no `first`"
    for name, record in found["tasks"].items():
        fault = fault_of_record(record, name) if is_dict(record) and "fault" not in record else "it is no record"
        if fault is not None:
            return f"the task `{name[:40]}`: {fault}"
    return None


def read(target: Path, longest: int) -> Optional[Record]:
    """The object that a file of JSON holds; None where there is no file. FolderRefused where it holds something else, or is no
    regular file of at most so many bytes: nothing is waited for."""
    try:
        number = os.open(target, os.O_RDONLY | os.O_NONBLOCK | os.O_CLOEXEC)
    except FileNotFoundError:
        return None
    except OSError as fault:
        raise refused(target, f"it can't be read: {fault.strerror}", "unreadable") from fault
    with open(number, "rb") as file:
        if not stat.S_ISREG(os.fstat(number).st_mode):
            raise refused(target, "it is no regular file", "unreadable")
        data = file.read(longest + 1)
    if len(data) > longest:
        raise refused(target, f"it has more than {longest} bytes", "unreadable")
    try:
        found = json.loads(data.decode("utf-8"))
    except (ValueError, RecursionError) as fault:
        raise refused(target, f"it can't be read: {type(fault).__name__}", "unreadable") from fault
    if not isinstance(found, dict):
        raise refused(target, "it is no JSON object", "unreadable")
    return found


def manifest_of(target: Path) -> Optional[Record]:
    """What a manifest holds; None where there is none. FolderRefused where it is damaged."""
    found = read(target, LONGEST_MANIFEST)
    if found is None:
        return None
    if found.get("kind") != "sweep":
        raise refused(target, "it is no manifest of a sweep", "no sweep")
    fault = fault_of_manifest(found)
    if fault is not None:
        raise refused(target, f"it is damaged: {fault}", "damaged")
    return found


def record_of(target: Path, remedy: str) -> Optional[Record]:
    """What the record of a task holds; None where there is none. FolderRefused where it is damaged."""
    found = read(target, LONGEST_RECORD)
    fault = None if found is None else fault_of_record(found, target.name[:-len(".json")])
    if fault is not None:
        raise refused(target, f"it is damaged: {fault}: {remedy}", "damaged")
    return found


def need_planned(target: Path, tasks: Iterable[str], planned: Iterable[str]) -> None:
    """FolderRefused where a manifest has a task that its shares do not give."""
    strange = sorted(set(tasks) - set(planned))
    if strange:
        raise refused(target, f"it is damaged: `{strange[0]}` is no task of its shares", "damaged")
