"""Where a command is given: the project around the current folder, its branch, and the change whose directory it is."""
from __future__ import annotations

import os
import re
from typing import List, NamedTuple, Optional

from .failures import Failure, Misused
from .folders import branches_of, home_of, top_of

BRANCH = re.compile(r"[A-Za-z][A-Za-z0-9._-]{0,63}")
DIRECTORY = re.compile(r"(develop|base|integrate)\.([0-9]+)(\.old(?:\.[0-9]+)?)?")


class Place(NamedTuple):
    """A project, or a branch of it, and where one stands in it."""

    top: str  # the folder that has aegis.d
    branch: str = ""  # the branch's name, or nothing in the trunk
    change: Optional[int] = None  # that of the develop or base directory one stands in
    delta: Optional[int] = None  # that of the integrate directory one stands in
    below: str = ""  # the folder in the develop directory, or nothing
    is_kept: bool = False  # whether this is a directory that was kept when a command emptied it

    @property
    def home(self) -> str:
        """The folder of the trunk or the branch, from the top on."""
        return home_of(self.branch)

    @property
    def words(self) -> list[str]:
        """The words that name the branch to the program."""
        return ["-br", self.branch] if self.branch else []

    def develop(self, change: int) -> str:
        """The develop directory of a change."""
        return os.path.join(self.top, self.home, f"develop.{change}")


def is_in_project() -> bool:
    """Whether a project is around the current folder, or that was removed."""
    try:
        return top_of(os.getcwd()) is not None
    except FileNotFoundError:
        return True


def find(folder: Optional[str] = None, branch: Optional[str] = None) -> Place:
    """The place of a folder, which is the current one where none is named; of the branch that is named, else of that one stands in."""
    if branch and not BRANCH.fullmatch(branch):
        raise Misused(f'"{branch}" is no name of a branch')
    try:
        folder = os.path.realpath(folder) if folder else os.getcwd()
    except FileNotFoundError:
        raise Failure("the current folder was removed: cd to another") from None
    top = top_of(folder)
    if top is None:
        raise Failure("there is no project in this folder, nor in one above")
    rest = folder[len(top.rstrip("/")) + 1 :].split("/")[1:]
    around = rest.pop(0)[len("branch.") :] if rest and rest[0].startswith("branch.") else ""
    if branch is not None and branch != around:
        return Place(top, branch)
    found = DIRECTORY.fullmatch(rest[0]) if rest else None
    if not found:
        return Place(top, around)
    kind, digits, kept = found.groups()
    if kind == "integrate":
        return Place(top, around, delta=int(digits), is_kept=bool(kept))
    below = "/".join(rest[1:]) if kind == "develop" else ""
    return Place(top, around, change=int(digits), below=below, is_kept=bool(kept))


def places_of(top: str) -> List[Place]:
    """The trunk of a project, and its branches by their names."""
    return [Place(top), *(Place(top, name) for name in branches_of(top))]
