"""The records of a project as the bytes of one moment, by docs/FORMATS.md. Nothing is written, and little is loaded for it.

The lock is held only while they are copied. Where it can't be had, because a run holds it or it may not be read, the records are copied
twice: copies that are the same, with the bytes of the gate and the body among them, are of one moment, since a command writes no record
while the gate is closed, and none outside the body while it's open.
"""
from __future__ import annotations

import errno
import fcntl
import hashlib
import os
import stat
import time

from .failures import Damaged, Failure
from .folders import home_of

Contents = dict[str, bytes]

NAME_LETTERS = frozenset(b"abcdefghijklmnopqrstuvwxyz0123456789.")
LONGEST_NAME = 64
SHORT_WAIT = 0.5
BETWEEN_TRIES = 0.05
COPIES = 200
FOLDER = os.O_RDONLY | os.O_DIRECTORY | os.O_CLOEXEC


def is_record(name: str) -> bool:
    """Whether a file of the store is a record of the project."""
    digits = name.removeprefix("change.")
    return name in ("project", "files", "trunk") or (digits != name and digits.isascii() and digits.isdigit())


def is_name(name: bytes) -> bool:
    """Whether a file of the store may have this name."""
    return 1 <= len(name) <= LONGEST_NAME and NAME_LETTERS.issuperset(name)


def open_file(name: str, folder: int) -> int | None:
    """Opens a regular file for reading, and nothing where there is none. No link is followed."""
    try:
        found = os.open(name, os.O_RDONLY | os.O_NOFOLLOW | os.O_NONBLOCK | os.O_CLOEXEC, dir_fd=folder)
    except FileNotFoundError:
        return None
    except OSError as error:
        raise Failure(f"{name} of the store can't be read: {error.strerror}") from None
    if not stat.S_ISREG(os.fstat(found).st_mode):
        os.close(found)
        raise Failure(f"in the place of {name} of the store is something else than a file")
    return found


def read_file(name: str, folder: int) -> bytes:
    """The bytes of a file of the store. One that isn't there is empty."""
    found = open_file(name, folder)
    if found is None:
        return b""
    with open(found, "rb") as file:
        return file.read()


class Body:
    """The body, read from its beginning."""

    def __init__(self, held: bytes) -> None:
        self.held, self.at = held, 0

    def take(self, length: int) -> bytes:
        """The next so many bytes, which are there."""
        found = self.held[self.at : self.at + length]
        if len(found) != length:
            raise Damaged("body")
        self.at += length
        return found

    def number(self, length: int) -> int:
        return int.from_bytes(self.take(length), "little")


def entries_of(held: bytes) -> Contents:
    """The files that a commit writes: those of the body, an absent one as an empty one."""
    body, found, last = Body(held), dict[str, bytes](), b""
    for _ in range(body.number(4)):
        name, kind = body.take(body.number(1)), body.number(1)
        content = body.take(body.number(8)) if kind == 1 else b""
        if kind > 1 or not is_name(name) or name <= last or name in (b"gate", b"body"):
            raise Damaged("body")
        found[name.decode()], last = content, name
    if body.at != len(held):
        raise Damaged("body")
    return found


def copy_records(folder: int) -> Contents:
    """The bytes of the gate, the body where it counts, and all records."""
    found = {"gate": read_file("gate", folder)[:1]}
    if found["gate"] == b"\x01":
        found["body"] = read_file("body", folder)
    for name in sorted(filter(is_record, os.listdir(folder))):
        found[name] = read_file(name, folder)
    return found


def copy_twice(folder: int) -> Contents:
    """The records of one moment, without the lock."""
    before = copy_records(folder)
    for _ in range(COPIES):
        found = copy_records(folder)
        if found == before:
            return found
        before = found
        time.sleep(BETWEEN_TRIES)
    raise Failure("another command works in this project")


def effective(contents: Contents) -> Contents:
    """The records with the entries of the body over them, where the gate is open."""
    found = {name: content for name, content in contents.items() if name not in ("gate", "body")}
    if contents["gate"] == b"\x01":
        found.update((name, content) for name, content in entries_of(contents["body"]).items() if is_record(name))
    return found


class LockHeld:
    """Holds the project's lock beside other readers, and answers whether it could be had in so many seconds."""

    def __init__(self, home: int, patience: float) -> None:
        self.home, self.patience = home, patience
        self.lock: int | None = None

    def __enter__(self) -> bool:
        try:
            self.lock = os.open("lock", os.O_RDONLY | os.O_NOFOLLOW | os.O_NONBLOCK | os.O_CLOEXEC, dir_fd=self.home)
        except OSError:
            return False
        return took(self.lock, time.monotonic() + self.patience)

    def __exit__(self, *_: object) -> None:
        if self.lock is not None:
            os.close(self.lock)


def took(lock: int, until: float) -> bool:
    while True:
        try:
            fcntl.flock(lock, fcntl.LOCK_SH | fcntl.LOCK_NB)
            return True
        except OSError as error:
            if error.errno not in (errno.EAGAIN, errno.EINTR) or time.monotonic() > until:
                return False
        time.sleep(BETWEEN_TRIES)


def open_folders(top: str, branch: str) -> tuple[int, int]:
    """Opens the folder of the trunk or the branch, and its store. No link is followed."""
    opened = [os.open(top, FOLDER)]
    try:
        for name in [*home_of(branch).split("/"), "store"]:
            opened.append(os.open(name, FOLDER | os.O_NOFOLLOW, dir_fd=opened[-1]))
    except OSError as error:
        for folder in opened:
            os.close(folder)
        if error.errno == errno.ENOENT:
            raise Failure(f"there is no branch {branch}" if branch else f"there is no project in {top}") from None
        raise Failure(f"{home_of(branch)} can't be read: {error.strerror}") from None
    *others, home, store = opened
    for folder in others:
        os.close(folder)
    return home, store


def copy(folders: tuple[int, int]) -> Contents:
    """The records in these folders, which are open, as they are at one moment."""
    home, store = folders
    with LockHeld(home, SHORT_WAIT) as is_held:
        found = copy_records(store) if is_held else copy_twice(store)
    return effective(found)


def digest_of(contents: Contents) -> str:
    """A SHA-256 of all records."""
    found = hashlib.sha256()
    for name, content in sorted(contents.items()):
        found.update(f"{name} {len(content)}\n".encode() + content)
    return found.hexdigest()
