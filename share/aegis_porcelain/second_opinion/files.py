"""The files of a store, as section "The vault's files" of docs/FORMATS.md has them: after a stop, with the entries of `body` over them."""
import errno
import fcntl
import os
import re
import stat
import time
from contextlib import contextmanager
from typing import Dict, Iterator, Optional, Tuple

FILE_NAME = re.compile(rb"[a-z0-9.]{1,64}")
UNIT = 64


class BadBody(Exception):
    """The gate is open, and `body` isn't in its grammar."""


class Unavailable(Exception):
    """A file can't be read, or the lock isn't given."""


class Cursor:
    """Bytes that are read from their beginning on."""

    def __init__(self, text: bytes) -> None:
        self.text, self.at = text, 0

    def take(self, count: int) -> bytes:
        """So many bytes, which have to be there."""
        held = self.text[self.at : self.at + count]
        if len(held) != count:
            raise BadBody
        self.at += count
        return held

    def number(self, size: int) -> int:
        """A number of so many bytes."""
        return int.from_bytes(self.take(size), "little")


def read_entry(cursor: Cursor) -> Tuple[bytes, bytes]:
    """The name of an entry, and its bytes. An absent file is an empty one."""
    name = cursor.take(cursor.number(1))
    kind = cursor.number(1)
    if kind > 1:
        raise BadBody
    return name, cursor.take(cursor.number(8)) if kind == 1 else b""


def read_body(text: bytes) -> Dict[str, bytes]:
    """The entries of a body, by their names."""
    cursor, last = Cursor(text), b""
    entries: Dict[str, bytes] = {}
    for _ in range(cursor.number(4)):
        name, held = read_entry(cursor)
        if FILE_NAME.fullmatch(name) is None or name in (b"gate", b"body") or name <= last:
            raise BadBody
        entries[name.decode()], last = held, name
    if cursor.at != len(text):
        raise BadBody
    return entries


class Store:
    """A folder of a store. Nothing is written there, no link is followed, and each file is opened to be read alone."""

    def __init__(self, folder: str) -> None:
        self.folder = folder
        self.over: Dict[str, bytes] = {}
        self.pack: Optional[int] = None

    def opened(self, name: str) -> Optional[int]:
        """A file, opened; nothing where it is absent."""
        try:
            descriptor = os.open(os.path.join(self.folder, name), os.O_RDONLY | os.O_NOFOLLOW | os.O_NONBLOCK | os.O_CLOEXEC)
        except OSError as error:
            if error.errno == errno.ENOENT:
                return None
            raise Unavailable(f"{name}: {error.strerror}") from error
        if not stat.S_ISREG(os.fstat(descriptor).st_mode):
            os.close(descriptor)
            raise Unavailable(f"{name}: not a regular file")
        return descriptor

    def bytes_there(self, name: str) -> bytes:
        """The bytes of a file of the folder."""
        descriptor = self.opened(name)
        if descriptor is None:
            return b""
        with os.fdopen(descriptor, "rb") as file:
            return file.read()

    def open_all(self) -> None:
        """Looks at the gate, and reads the body where it is open."""
        if self.bytes_there("gate")[:1] == b"\1":
            self.over = read_body(self.bytes_there("body"))
        self.pack = self.opened("pack")

    def bytes_of(self, name: str) -> bytes:
        """The bytes that a state file stands for."""
        return self.over[name] if name in self.over else self.bytes_there(name)

    def packed(self, at: int, length: int) -> bytes:
        """So many bytes of `pack` from this unit on, or fewer at its end."""
        if "pack" in self.over:
            return self.over["pack"][UNIT * at : UNIT * at + length]
        return b"" if self.pack is None or not length else os.pread(self.pack, length, UNIT * at)

    def close(self) -> None:
        """Gives the pack back."""
        if self.pack is not None:
            os.close(self.pack)
            self.pack = None


def patience() -> float:
    """How many seconds the lock is waited for: as the program does, by AEGIS_WAIT."""
    told = os.environ.get("AEGIS_WAIT", "5")
    return float(told) if re.fullmatch(r"[0-9]{1,6}", told) else 5.0


@contextmanager
def locked(folder: str) -> Iterator[None]:
    """Holds the lock of the store beside others who read; where there is none, as in a copy, or it may not be read, goes without."""
    try:
        descriptor = os.open(os.path.join(os.path.dirname(os.path.abspath(folder)), "lock"), os.O_RDONLY | os.O_NOFOLLOW | os.O_CLOEXEC)
    except (FileNotFoundError, PermissionError):
        yield
        return
    except OSError as error:
        raise Unavailable(f"lock: {error.strerror}") from error
    try:
        wait_for(descriptor, time.monotonic() + patience())
        yield
    finally:
        os.close(descriptor)


def wait_for(descriptor: int, until: float) -> None:
    """Waits until this moment for the lock."""
    while True:
        try:
            fcntl.flock(descriptor, fcntl.LOCK_SH | fcntl.LOCK_NB)
            return
        except BlockingIOError as error:
            if time.monotonic() >= until:
                raise Unavailable("another command works in this project") from error
        time.sleep(0.05)
