"""The state file `files` of a large project, read by its canonical text alone, which is how the program writes it.

This is twenty times as quick as reading any text, and makes of a row only what is asked for. Where something isn't canonical nothing is
answered, and the text is read as any other.
"""
from __future__ import annotations

import re
from functools import cached_property
from typing import Container, Dict, Iterator, List, Mapping, NamedTuple, Optional, Tuple

from .records import LONGEST_PATH, Files, Lock, PastEntry, ProjectFile, Version, files_of
from .text import read

# a row as it is found: all of it, the path, the edit, the entries before the last, and the parts of that one
Row = Tuple[bytes, ...]

NUMBER = rb"(?:0|[1-9][0-9]{0,18})"
USAGE = rb"(?:source|config|test)"
PART = rb'(?!\.\.?[/"])[A-Za-z0-9._+-]+'
PATH = rb'(?!-)(?!aegis\.log")' + PART + rb"(?:/" + PART + rb")*"
FRONT, BETWEEN, AFTER = b"files = [", b", ", b"];\n"
BEGIN = b'{ path = "'


def entry_of(group: bytes) -> bytes:
    """The pattern of an entry of a past, whose parts are in such groups."""
    number, usage = group % NUMBER, group % USAGE
    kept = rb"number = %b; at = %b; length = %b; digest = " % (number, number, number) + b'"' + group % b"[0-9a-f]{64}" + b'"; '
    return rb"\{ delta = " + number + rb"; usage = " + usage + rb"; version = \{ (?:" + kept + rb")?\}; \}"


ENTRY = re.compile(entry_of(b"(%b)"))
ROW = re.compile(
    rb'(\{ path = "('
    + PATH
    + rb')"; edit = ('
    + NUMBER
    + rb"); past = \[((?:"
    + entry_of(b"(?:%b)")
    + rb", )*)"
    + entry_of(b"(%b)")
    + rb"\]; \})"
)


class Now(NamedTuple):
    """A file of the baseline: what it is for, and its bytes by their number and SHA-256."""

    usage: str
    length: int
    digest: str


class Index(Mapping[str, ProjectFile]):
    """All paths that the project has or had, and the locks. A path is looked up by halves, and its row read when it's asked for."""

    def __init__(self, data: bytes, end: int, locks: Tuple[Lock, ...]) -> None:
        self.data = data
        self.end = end
        self.locks = locks

    @cached_property
    def rows(self) -> Dict[str, Row]:
        """All rows, by their paths."""
        return {row[1].decode(): row for row in ROW.findall(self.data, 0, self.end)}

    def row_after(self, at: int) -> int:
        """Where the first row begins that begins no sooner than here, or the end."""
        found = self.data.find(BEGIN, at, self.end)
        return found if found >= 0 else self.end

    def path_at(self, at: int) -> bytes:
        """The path of the row that begins here."""
        return self.data[at + len(BEGIN) : self.data.index(b'"', at + len(BEGIN))]

    def place_of(self, path: bytes) -> int:
        """Where the first row begins whose path isn't less, or the end."""
        low, high = 0, self.end
        while low < high:
            middle = (low + high) // 2
            at = self.row_after(middle)
            if at < high and self.path_at(at) < path:
                low = at + 1
            else:
                high = middle
        return self.row_after(low)

    def found(self, path: object) -> Optional[Row]:
        """The row of a path."""
        if not isinstance(path, str):
            return None
        name = path.encode("utf-8", "surrogateescape")
        at = self.place_of(name)
        if at == self.end or self.path_at(at) != name:
            return None
        row = ROW.match(self.data, at)
        return row.groups(default=b"") if row else None

    def __len__(self) -> int:
        return len(self.rows)

    def __iter__(self) -> Iterator[str]:
        return iter(self.rows)

    def __contains__(self, path: object) -> bool:
        return self.found(path) is not None

    def __getitem__(self, path: str) -> ProjectFile:
        row = self.found(path)
        if row is None:
            raise KeyError(path)
        return file_of(row)

    def now_at(self, path: str) -> Optional[Now]:
        """The file of the baseline at a path."""
        row = self.found(path)
        return now_of(row) if row and row[6] else None

    def has_file(self, front: bytes, besides: Container[str] = ()) -> bool:
        """Whether the baseline has a file whose path begins so, besides some paths."""
        at = self.place_of(front)
        while at < self.end and self.path_at(at).startswith(front):
            row = ROW.match(self.data, at)
            if row and row[7] and row[2].decode() not in besides:
                return True
            at = self.row_after(at + 1)
        return False

    def was_folder(self, folder: str) -> bool:
        """Whether the project has or had a file in the folder."""
        front = folder.encode("utf-8", "surrogateescape") + b"/"
        at = self.place_of(front)
        return at < self.end and self.path_at(at).startswith(front)

    def is_folder(self, folder: str, besides: Container[str]) -> bool:
        """Whether the baseline has a file in the folder, besides some paths."""
        return self.has_file(folder.encode("utf-8", "surrogateescape") + b"/", besides)

    def now(self) -> Dict[str, Now]:
        """The files of the baseline."""
        return {path: now_of(row) for path, row in self.rows.items() if row[6]}

    def tests(self) -> List[str]:
        """The tests of the baseline."""
        return [path for path, row in self.rows.items() if row[6] and row[5] == b"test"]

    def table(self) -> Files:
        """The whole record."""
        return Files(tuple(map(file_of, self.rows.values())), self.locks)


def file_of(row: Row) -> ProjectFile:
    past = [entry(found) for found in ENTRY.findall(row[3])] + [entry(row[4:])]
    return ProjectFile(row[1].decode(), int(row[2]), tuple(past))


def now_of(row: Row) -> Now:
    return Now(row[5].decode(), int(row[8]), row[9].decode())


def entry(parts: Tuple[bytes, ...]) -> PastEntry:
    delta, usage, number, at, length, digest = parts
    version = Version(int(number), int(at), int(length), digest.decode()) if number else None
    return PastEntry(int(delta), usage.decode(), version)


def index_of(data: bytes, is_known: bool = False) -> Optional[Index]:
    """The record by its paths, where it has rows and each is canonical, which may be known already."""
    end = data.rfind(AFTER + b"locks = [")
    if end < 0 or not (is_known or is_canonical(data, end)):
        return None
    try:
        return Index(data, end, files_of(read(b"files = [];\n" + data[end + len(AFTER) :])).locks)
    except ValueError:
        return None


def is_canonical(data: bytes, end: int) -> bool:
    """Whether there are rows up to here, each as the program writes it, and their paths ascend."""
    found: List[Row] = ROW.findall(data, 0, end)
    if not found or FRONT + BETWEEN.join([row[0] for row in found]) != data[:end]:
        return False
    paths = [row[1] for row in found]
    if paths != sorted(set(paths)) or max(map(len, paths)) > LONGEST_PATH:
        return False
    return all(row[3].count(b"delta = ") + 1 == int(row[2]) for row in found if row[3] or row[2] != b"1")
