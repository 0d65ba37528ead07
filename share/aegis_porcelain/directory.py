"""The files of a change's directory. No link is followed, as the program follows none; what hasn't changed isn't read again."""
from __future__ import annotations

import hashlib
import os
import stat
import subprocess
import time
from typing import Dict, Iterable, NamedTuple, Optional, Protocol, Set, Tuple

from . import memory
from .place import Place

LOG = "aegis.log"
# a file that was changed so shortly before it is read may change again without another time of change
SETTLED = 2_000_000_000
Known = Tuple[int, int, int, int, str]


class FileState(NamedTuple):
    """How many bytes a file has, and their SHA-256."""

    length: int
    digest: str


class Directory:
    """A directory of a change. Its files are looked at when they are asked for."""

    def __init__(self, place: Place, name: str) -> None:
        self.place = place
        self.name = name
        self.path = os.path.join(place.top, place.home, name)
        self.now = time.time_ns()
        self.known: Dict[str, Known] = {}
        self.has_news = False
        self.recall()

    def recall(self) -> None:
        """Takes up what was remembered of the files."""
        found = memory.recall(self.place, self.name)
        if isinstance(found, dict):
            self.known = {path: (row[0], row[1], row[2], row[3], row[4]) for path, row in found.items() if is_known(row)}

    def remember(self) -> None:
        """Remembers what was learned of the files."""
        if self.has_news:
            memory.remember(self.place, self.name, self.known)
            self.has_news = False

    def lines(self) -> Set[str]:
        """A line for each file, but for the log: its length, its times of change, its number, and its path, which begins the rest."""
        command = ["find", ".", "-type", "f", "!", "-path", f"./{LOG}", "-printf", "%s %T@ %C@ %i %P\\0"]
        try:
            found = subprocess.run(command, cwd=self.path, stdout=subprocess.PIPE, stderr=subprocess.DEVNULL).stdout
        except OSError:
            return set()
        return set(found.decode("utf-8", "surrogateescape").split("\0")[:-1])

    def look(self, path: str) -> Optional[os.stat_result]:
        """A regular file that no link leads to."""
        at = self.path
        try:
            *folders, name = path.split("/")
            for folder in folders:
                at = os.path.join(at, folder)
                if not stat.S_ISDIR(os.lstat(at).st_mode):
                    return None
            found = os.lstat(os.path.join(at, name))
        except OSError:
            return None
        return found if stat.S_ISREG(found.st_mode) else None

    def state(self, path: str) -> Optional[FileState]:
        """The state of a file, which is read where it has changed since it was read last."""
        found = self.look(path)
        if not found:
            return None
        front = (found.st_size, found.st_mtime_ns, found.st_ctime_ns, found.st_ino)
        known = self.known.get(path)
        if known and known[:4] == front:
            return FileState(known[0], known[4])
        content = self.content(path)
        if content is None:
            return None
        digest = hashlib.sha256(content).hexdigest()
        if max(found.st_mtime_ns, found.st_ctime_ns) + SETTLED < self.now and len(content) == found.st_size:
            self.known[path] = (*front, digest)
            self.has_news = True
        return FileState(len(content), digest)

    def has_digest(self, path: str, digest: str) -> bool:
        """Whether the bytes of a file are those of a SHA-256."""
        content = self.content(path)
        return content is not None and hashlib.sha256(content).hexdigest() == digest

    def content(self, path: str) -> Optional[bytes]:
        """The bytes of a file."""
        try:
            opened = os.open(os.path.join(self.path, path), os.O_RDONLY | os.O_NOFOLLOW | os.O_NONBLOCK | os.O_CLOEXEC)
        except OSError:
            return None
        if not stat.S_ISREG(os.fstat(opened).st_mode):
            os.close(opened)
            return None
        with open(opened, "rb") as file:
            return file.read()


class HasDigest(Protocol):
    """A file's bytes, by their number and their SHA-256: of a version, or in a directory."""

    @property
    def length(self) -> int:
        ...

    @property
    def digest(self) -> str:
        ...


def path_of(line: str) -> str:
    """The path of a line."""
    return line.split(" ", 4)[4]


def has_settled(line: str, now: int) -> bool:
    """Whether a file was changed long enough ago that another change would show."""
    _, written, changed, _, _ = line.split(" ", 4)
    return (max(float(written), float(changed)) + 1) * 1e9 + SETTLED < now


def is_known(row: object) -> bool:
    return isinstance(row, list) and len(row) == 5 and all(isinstance(part, int) for part in row[:4]) and isinstance(row[4], str)


def digest_of(rows: Iterable[Tuple[str, Optional[HasDigest]]]) -> str:
    """The digest of files: of each its path, and its length and SHA-256, or nothing where it is removed."""
    found = hashlib.sha256()
    for path, state in rows:
        found.update(f"{path} {state.length} {state.digest}\n".encode() if state else f"{path} -\n".encode())
    return found.hexdigest()
