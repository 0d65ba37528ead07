"""What `ae` remembers between two commands: in a folder that nobody else may write, by project, and made again when it's gone."""
from __future__ import annotations

import hashlib
import json
import os
import stat
from typing import Any, Optional

from .place import Place

FORM = 1


def folder_of(place: Place) -> Optional[str]:
    """The folder for a project, where one can be made that is nobody else's."""
    top = os.environ.get("XDG_CACHE_HOME", "")
    if not top.startswith("/"):
        home = os.environ.get("HOME", "")
        if not home.startswith("/"):
            return None
        top = os.path.join(home, ".cache")
    own = os.path.join(top, "ae")
    found = os.path.join(own, hashlib.sha256(os.path.join(place.top, place.home).encode("utf-8", "surrogateescape")).hexdigest())
    try:
        os.makedirs(top, exist_ok=True)
        for folder in (own, found):
            if not is_own(folder):
                return None
    except OSError:
        return None
    return found


def is_own(folder: str) -> bool:
    """Whether the folder, which is made where there is none, is the user's, and nobody else may write it."""
    try:
        os.mkdir(folder, 0o700)
    except FileExistsError:
        pass
    found = os.lstat(folder)
    return stat.S_ISDIR(found.st_mode) and found.st_uid == os.geteuid() and not found.st_mode & 0o077


def recall(place: Place, name: str) -> Any:
    """What was remembered under a name; nothing where it isn't there, or isn't as it was written."""
    folder = folder_of(place)
    if folder is None:
        return None
    try:
        opened = os.open(os.path.join(folder, name), os.O_RDONLY | os.O_NOFOLLOW | os.O_NONBLOCK | os.O_CLOEXEC)
        with open(opened, "rb") as file:
            found = json.loads(file.read())
    except (OSError, ValueError):
        return None
    return found.get("is") if isinstance(found, dict) and found.get("form") == FORM else None


def remember(place: Place, name: str, value: Any) -> None:
    """Remembers a value under a name. Where that can't be done it is worked out again the next time."""
    folder = folder_of(place)
    if folder is None:
        return
    made = os.path.join(folder, f"{name}.{os.getpid()}")
    try:
        opened = os.open(made, os.O_WRONLY | os.O_CREAT | os.O_TRUNC | os.O_NOFOLLOW | os.O_CLOEXEC, 0o600)
        with open(opened, "w", encoding="utf-8") as file:
            json.dump({"form": FORM, "is": value}, file, separators=(",", ":"))
        os.replace(made, os.path.join(folder, name))
    except OSError:
        pass
