"""The one reader of a project's store, by docs/FORMATS.md. It never writes there.

The records are those of one moment (copied.py). Versions are read later by their place in `pack`, and checked by their length and SHA-256.
"""
from __future__ import annotations

import contextlib
import hashlib
import os
import re
from functools import cached_property
from typing import Callable, Container, Dict, Iterator, List, Mapping, Optional, Tuple, TypeVar

from . import copied, memory, records, text
from .canonical import Index, Now, index_of
from .copied import Contents, open_file
from .failures import Damaged, Failure, VersionGone
from .place import Place
from .records import Change, Delta, Files, Project, ProjectFile, Version

T = TypeVar("T")

UNIT = 64
TABLE = "table"
# a table of paths of which it is remembered that it is canonical
LARGE = 100_000


def patience_of_a_command() -> float:
    """How long a command waits for the lock."""
    asked = os.environ.get("AEGIS_WAIT", "")
    return float(min(int(asked), 86400)) if re.fullmatch(r"[0-9]{1,5}", asked) else 5.0


class Store:
    """The records of a project at one moment, and the bytes of its versions."""

    def __init__(self, place: Place, contents: Contents, folder: int) -> None:
        self.place = place
        self.contents = contents
        self.folder = folder
        self.known: Dict[int, Change] = {}
        self.tests: object = None  # those of the baseline, where they were remembered
        if not contents.get("project"):
            raise Failure("there is no project")

    def record(self, name: str, make: Callable[[text.Fields], T]) -> T:
        try:
            return make(text.read(self.contents.get(name, b"")))
        except (text.BadText, records.BadRecord):
            raise Damaged(name) from None

    @cached_property
    def project(self) -> Project:
        return self.record("project", records.project_of)

    @cached_property
    def index(self) -> Optional[Index]:
        """The paths and the locks, where the record is as the program writes it. Of a large one that is remembered."""
        data = self.contents.get("files", b"")
        if len(data) < LARGE:
            return index_of(data)
        known = memory.recall(self.place, TABLE)
        if isinstance(known, dict) and known.get("files") == self.digest_of_table:
            self.tests = known.get("tests")
            return index_of(data, is_known=True)
        found = index_of(data)
        if found is not None:
            memory.remember(self.place, TABLE, {"files": self.digest_of_table, "tests": found.tests()})
        return found

    def baseline_tests(self) -> List[str]:
        """The tests of the baseline, by their paths."""
        if self.index is None:
            return [path for path, file in self.now.items() if file.usage == "test"]
        return [str(path) for path in self.tests] if isinstance(self.tests, list) else self.index.tests()

    def has_baseline(self) -> bool:
        """Whether the baseline has a file."""
        return self.index.has_file(b"") if self.index is not None else bool(self.now)

    def now_at(self, path: str) -> Optional[Now]:
        """The file of the baseline at a path."""
        return self.index.now_at(path) if self.index is not None else self.now.get(path)

    def is_folder(self, folder: str, besides: Container[str]) -> bool:
        """Whether the baseline has a file in the folder, besides some paths."""
        if self.index is not None:
            return self.index.is_folder(folder, besides)
        return any(path.startswith(folder + "/") and path not in besides for path in self.now)

    def was_folder(self, folder: str) -> bool:
        """Whether the project has or had a file in the folder."""
        return self.index.was_folder(folder) if self.index is not None else any(path.startswith(folder + "/") for path in self.paths)

    @cached_property
    def table(self) -> Files:
        """The paths that the project has or had, each with deltas that there are, and the locks."""
        found = self.index.table() if self.index is not None else self.record("files", records.files_of)
        last = len(self.project.deltas)
        for file in found.files:
            deltas = [0, *(entry.delta for entry in file.past), last + 1]
            if len(deltas) == 2 or any(before >= after for before, after in zip(deltas, deltas[1:])):
                raise Damaged("files")
        return found

    @cached_property
    def paths(self) -> Mapping[str, ProjectFile]:
        """Every path that the project has or had."""
        return self.index if self.index is not None else {file.path: file for file in self.table.files}

    @cached_property
    def now(self) -> Dict[str, Now]:
        """The files of the baseline, by their paths."""
        if self.index is not None:
            return self.index.now()
        kept = ((path, entry.usage, entry.version) for path, entry in self.tree().items())
        return {path: Now(usage, version.length, version.digest) for path, usage, version in kept if version}

    @cached_property
    def holders(self) -> Dict[str, int]:
        """The change that holds each locked path."""
        locks = self.index.locks if self.index is not None else self.table.locks
        return {lock.path: lock.change for lock in locks}

    def change(self, number: int) -> Change:
        """A change by its number."""
        if number not in self.project.changes:
            raise Failure(f"there is no change {number}")
        if number not in self.known:
            found = self.record(f"change.{number}", lambda fields: records.change_of(fields, self.project.format))
            if found.number != number:
                raise Damaged(f"change.{number}")
            self.known[number] = found
        return self.known[number]

    def changes(self) -> Iterator[Change]:
        """All changes, by their numbers."""
        return map(self.change, self.project.changes)

    def open_changes(self) -> Iterator[Change]:
        """The changes that no delta names, by their numbers: all that aren't completed."""
        completed = {delta.change for delta in self.project.deltas}
        return (self.change(number) for number in self.project.changes if number not in completed)

    def digest(self) -> str:
        """A SHA-256 of all records."""
        return copied.digest_of(self.contents)

    @cached_property
    def digest_of_table(self) -> str:
        """The SHA-256 of the state file `files`, which says whether the baseline is another one."""
        return hashlib.sha256(self.contents.get("files", b"")).hexdigest()

    def delta(self, number: int) -> Delta:
        """A delta by its number."""
        if not 1 <= number <= len(self.project.deltas):
            raise Failure(f"there is no delta {number}")
        return self.project.deltas[number - 1]

    def delta_of(self, change: int) -> Optional[Delta]:
        """The delta as which a change was integrated."""
        return next((delta for delta in self.project.deltas if delta.change == change), None)

    def begun_from(self) -> Optional[int]:
        """The trunk's delta from which a branch was begun."""
        found = self.contents.get("trunk", b"")
        if not found:
            return None
        return self.record("trunk", lambda fields: records.number(records.values(fields, "delta")[0]))

    def tree(self, delta: Optional[int] = None) -> Dict[str, records.PastEntry]:
        """The files of the baseline, as they are now or were at a delta."""
        last = len(self.project.deltas) if delta is None else delta
        found = {}
        for file in self.table.files:
            entry = file.at(last)
            if entry and entry.version:
                found[file.path] = entry
        return found

    def bytes_of(self, version: Version) -> bytes:
        """The bytes of a version, which are as long as the record says and have its SHA-256."""
        found = self.packed(version) if version.length else b""
        if len(found) != version.length or hashlib.sha256(found).hexdigest() != version.digest:
            raise VersionGone
        return found

    def packed(self, version: Version) -> bytes:
        pack = open_file("pack", self.folder)
        if pack is None:
            return b""
        try:
            return os.pread(pack, version.length, version.at * UNIT)
        finally:
            os.close(pack)

    def pack_length(self) -> int:
        """How many bytes the pack has; no version ends after them."""
        pack = open_file("pack", self.folder)
        if pack is None:
            return 0
        try:
            return os.fstat(pack).st_size
        finally:
            os.close(pack)

    def base_of(self, path: str, origin: int) -> Optional[Version]:
        """The version from which work on a path began: that of its edit of this number."""
        file = self.paths.get(path)
        return file.past[origin - 1].version if file and 1 <= origin <= file.edit else None


@contextlib.contextmanager
def opened(place: Place, keeps_lock: bool = False) -> Iterator[Store]:
    """A store whose records are those of this moment. Where it keeps the lock, no command changes them before the end."""
    folders = copied.open_folders(place.top, place.branch)
    home, folder = folders
    try:
        if keeps_lock:
            with copied.LockHeld(home, patience_of_a_command()) as is_held:
                contents = copied.copy_records(folder) if is_held else copied.copy_twice(folder)
                yield Store(place, copied.effective(contents), folder)
        else:
            yield Store(place, copied.copy(folders), folder)
    finally:
        os.close(home)
        os.close(folder)


def with_store(place: Place, work: Callable[[Store], T]) -> T:
    """Does what only looks, over a copy of the records; where a version doesn't fit these, once more with the lock held."""
    try:
        with opened(place) as store:
            return work(store)
    except VersionGone:
        pass
    try:
        with opened(place, keeps_lock=True) as store:
            return work(store)
    except VersionGone:
        raise Damaged("pack") from None
