"""The folders of a project: the one around it, those of its branches, and the repository to which a team comes. Little is loaded for it."""
from __future__ import annotations

import os

MIRROR = "aegis.git"


def top_of(folder: str) -> str | None:
    """The folder whose project is around this one. What is in an aegis.d belongs to the project around that."""
    parts = folder.split("/")
    if "aegis.d" in parts:
        return "/".join(parts[: parts.index("aegis.d")]) or "/"
    while True:
        if os.path.isdir(os.path.join(folder, "aegis.d", "store")):
            return folder
        if folder in ("/", ""):
            return None
        folder = os.path.dirname(folder)


def home_of(branch: str) -> str:
    """The folder of a branch, or of the trunk where none is named, from the top on."""
    return f"aegis.d/branch.{branch}" if branch else "aegis.d"


def branches_of(top: str) -> list[str]:
    """The branches of a project, by their names."""
    home = os.path.join(top, "aegis.d")
    names = sorted(name.removeprefix("branch.") for name in os.listdir(home) if name.startswith("branch."))
    return [name for name in names if os.path.exists(os.path.join(top, home_of(name), "store", "project"))]


def mirror_of(top: str) -> str:
    """The bare repository of a project."""
    return os.path.join(top, MIRROR)
