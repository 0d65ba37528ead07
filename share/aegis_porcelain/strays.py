"""Files of a develop directory that nothing refuses there, and that make an integration fail or do nothing.

A file that is as it was when it was looked at last isn't read again: a line with its length, times and number is remembered.
"""
from __future__ import annotations

from typing import Any, Dict, List, NamedTuple, Set

from . import memory
from .directory import Directory, has_settled, path_of
from .git_names import kept_by_git
from .records import Change, ChangeFile
from .store import Store
from .wanted import folders_of, is_folder

UNREGISTERED, LEFT_OVER, EDITED = "unregistered", "left over", "edited"


class Strays(NamedTuple):
    """What a developer should look at."""

    unregistered: List[str]  # neither the change nor the project has them
    left_over: List[str]  # the project had them until another change removed them
    edited: List[str]  # the project's, with other bytes, which the change doesn't have: the next build puts the project's back
    unchanged: List[str]  # copied to be modified, and as they were
    kept_by_git: List[str]  # of a name that git keeps for itself, so that no repository of it can have the change


def strays(store: Store, change: Change, directory: Directory) -> Strays:
    """The files of a develop directory that a developer should look at."""
    own = {file.path: file for file in change.files}
    kinds = kinds_of(store, set(own), directory)
    found = {kind: sorted(path for path, other in kinds.items() if other == kind) for kind in (UNREGISTERED, LEFT_OVER, EDITED)}
    unchanged = [path for path, file in own.items() if file.action == "modify" and is_unchanged(store, file, directory)]
    directory.remember()
    reserved = [path for path, file in own.items() if file.action != "remove" and kept_by_git(path)]
    return Strays(in_folders(found[UNREGISTERED], sorted(own), store), found[LEFT_OVER], found[EDITED], unchanged, reserved)


class Seen:
    """What is remembered of a directory: the lines of files that were as the project has them, and those of others with what they were."""

    def __init__(self, store: Store, directory: Directory) -> None:
        self.place, self.name = directory.place, f"{directory.name}.seen"
        self.files = store.digest_of_table
        found = memory.recall(self.place, self.name)
        before: Dict[str, Any] = found if isinstance(found, dict) and found.get("files") == self.files else {}
        self.fine: Set[str] = set(text_in(before, "fine").split("\0"))
        self.odd: Dict[str, str] = {}
        for kind in (UNREGISTERED, LEFT_OVER, EDITED):
            self.odd.update((line, kind) for line in text_in(before, kind).split("\0") if line)

    def remember(self, fine: Set[str], odd: Dict[str, str]) -> None:
        kinds = {kind: "\0".join(line for line, other in odd.items() if other == kind) for kind in (UNREGISTERED, LEFT_OVER, EDITED)}
        memory.remember(self.place, self.name, {"files": self.files, "fine": "\0".join(fine), **kinds})


def text_in(found: Dict[str, Any], name: str) -> str:
    value = found.get(name)
    return value if isinstance(value, str) else ""


def kinds_of(store: Store, own: Set[str], directory: Directory) -> Dict[str, str]:
    """Of each file that isn't the change's, and not as the project has it, what it is."""
    lines, seen = directory.lines(), Seen(store, directory)
    new = {line: path_of(line) for line in lines - seen.fine - seen.odd.keys()}
    known = {line: kind_of(store, directory, path, int(line.split(" ", 1)[0])) for line, path in new.items() if path not in own}
    kinds = {line: kind for line, kind in [*seen.odd.items(), *known.items()] if kind and line in lines}
    settled = [line for line in known if has_settled(line, directory.now)]
    if settled:
        fine = (seen.fine & lines) | {line for line in settled if not known[line]}
        seen.remember(fine, {line: kind for line, kind in kinds.items() if line in seen.odd or line in settled})
    return {path_of(line): kind for line, kind in kinds.items() if path_of(line) not in own}


def kind_of(store: Store, directory: Directory, path: str, length: int) -> str:
    """What a file is; nothing where it is as the project has it. One of another length isn't read."""
    file = store.now_at(path)
    if file is None:
        return LEFT_OVER if path in store.paths else UNREGISTERED
    if length == file.length and directory.has_digest(path, file.digest):
        return ""
    return EDITED


def is_unchanged(store: Store, file: ChangeFile, directory: Directory) -> bool:
    base, state = store.base_of(file.path, file.origin), directory.state(file.path)
    return base is not None and state is not None and (base.length, base.digest) == (state.length, state.digest)


def in_folders(paths: List[str], own: List[str], store: Store) -> List[str]:
    """Paths, where a folder in which neither the change nor the project has a file stands for all that are in it."""
    folders = {folder for path in paths for folder in folders_of(path)}
    unknown = {folder for folder in folders if not is_folder(folder, own) and not store.is_folder(folder, ())}
    return sorted({next((folder + "/" for folder in folders_of(path) if folder in unknown), path) for path in paths})
