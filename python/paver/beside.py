"""The settings of a stored paving, kept in a file beside it: F.json beside F."""
from __future__ import annotations

import hashlib
import json
import os
import re
import warnings
from pathlib import Path
from typing import Any, Dict, Mapping, Optional, Union

from . import kept
from .errors import PavingError, UsageError
from .options import KEPT_SETTINGS, value_fault, words_of
from .sweep_task import whole_file
from .version import VERSION

PathName = Union[str, "os.PathLike[str]"]
WRITER = "paver"
LONGEST = 1 << 20
LONGEST_NAME = 244  # bytes of a name that leave room for what is kept beside the file


def name_of(path: PathName) -> Path:
    """The file that has the settings of a stored paving."""
    return Path(f"{os.fspath(path)}.json")


def need_name(path: PathName) -> None:
    """UsageError where a name is too long for what is kept beside the file, before anything is stored under it."""
    length = len(os.fsencode(os.path.basename(os.fspath(path))))
    if length > LONGEST_NAME:
        raise UsageError(2, f"{os.fspath(path)}: the name has {length} bytes, and {LONGEST_NAME} are the most")


def identity_of(path: PathName) -> Optional[str]:
    """The identity of a stored paving or a campaign's database; None where the file has none."""
    try:
        with open(path, "rb") as file:
            head = file.read(90)
        if head.startswith(kept.HEADER):
            return kept.identity_of(path)
        match = re.match(rb"paving [12]\nidentity ([0-9a-f]{64})\n", head)
    except (OSError, PavingError):
        return None
    return match.group(1).decode() if match else None


def keep(path: PathName, command: str, system: PathName, source: Optional[bytes], settings: Mapping[str, Any]) -> None:
    """Writes the settings of the file that a command stored. A file of that name that another wrote stays."""
    identity, target = identity_of(path), name_of(path)
    if identity is None or not Path(path).is_file():
        return
    if target.exists() and content_of(target).get("written_by") != WRITER:
        warnings.warn(f"{target} is no file of settings: it stays, and the settings of {path} are kept nowhere", stacklevel=4)
        return
    found = {"written_by": WRITER, "version": VERSION, "command": command, "system": os.fspath(system),
             "system_sha256": None if source is None else hashlib.sha256(source).hexdigest(), "identity": identity,
             "settings": {name: word for name, word in words_of(settings).items() if name in KEPT_SETTINGS}}
    with whole_file(str(target)) as file:
        file.write(json.dumps(found, indent=1) + "\n")


def content_of(target: Path) -> Dict[str, Any]:
    """What a file of settings holds; nothing where it is none."""
    try:
        if target.stat().st_size > LONGEST or not target.is_file():
            return {}
        found = json.loads(target.read_text())
    except (OSError, ValueError, RecursionError):
        return {}
    return found if isinstance(found, dict) else {}


def settings_of(path: PathName) -> Dict[str, str]:
    """The settings that are kept beside a file, where they are of the file as it is now: their identity is its own. UsageError
    where one of them is none that the program takes."""
    found = content_of(name_of(path))
    settings = found.get("settings")
    if found.get("written_by") != WRITER or not isinstance(settings, dict) or found.get("identity") != identity_of(path):
        return {}
    for name, word in settings.items():
        fault = value_fault(name, word, True) if isinstance(word, str) else [f"`{name}` is no text."]
        if fault and name in KEPT_SETTINGS:
            raise UsageError(2, f"{name_of(path)}: {fault[0]}")
    return {name: word for name, word in settings.items() if name in KEPT_SETTINGS}


def with_kept(paths: Any, given: Mapping[str, Any]) -> Dict[str, Any]:
    """The given settings, and those kept beside the first file that has some for the others."""
    for path in paths:
        kept_here = settings_of(path)
        if kept_here:
            return {**given, **{name: word for name, word in kept_here.items() if given.get(name) is None}}
    return dict(given)
