"""Where commands write what they show: never in the folder of the project's records, and whole or not at all."""
from __future__ import annotations

import contextlib
import os
import stat
from typing import Iterator, Tuple

from .failures import Failure
from .place import Place


def outside(where: Place, path: str) -> str:
    """The path, which doesn't lead into the folder of the project's records."""
    inner = os.path.join(os.path.realpath(where.top), "aegis.d")
    found = os.path.realpath(path)
    if found == inner or found.startswith(inner + os.sep):
        raise Failure(f"{path} is in aegis.d, where only aegis writes")
    return path


@contextlib.contextmanager
def new_folder(path: str) -> Iterator[str]:
    """A new folder that has its name only once all is in it. It gets the mode that the process gives, where it is given no other."""
    import shutil
    import tempfile

    path = path.rstrip("/") or "/"
    if os.path.lexists(path):
        raise Failure(f"{path} is there already")
    parent = os.path.dirname(path) or "."
    try:
        made = tempfile.mkdtemp(prefix=".ae-", dir=parent)
    except OSError as error:
        raise Failure(f"no folder can be made in {parent}: {error.strerror}") from None
    try:
        yield made
        if stat.S_IMODE(os.stat(made).st_mode) == 0o700:
            os.chmod(made, 0o777 & ~umask())
        os.rename(made, path)
    except BaseException:
        shutil.rmtree(made, ignore_errors=True)
        raise
    sync_folder(parent)


def new_file(folder: str, front: str, end: str = "") -> Tuple[int, str]:
    """Opens a new file of a folder, by a name that nobody can know before, and answers its path too."""
    path = os.path.join(folder, f"{front}{os.urandom(8).hex()}{end}")
    return os.open(path, os.O_RDWR | os.O_CREAT | os.O_EXCL | os.O_NOFOLLOW | os.O_CLOEXEC, 0o600), path


def umask() -> int:
    """That of this process."""
    found = os.umask(0o077)
    os.umask(found)
    return found


def sync_folder(path: str) -> None:
    """Waits until the names of a folder are on the disk."""
    folder = os.open(path, os.O_RDONLY | os.O_DIRECTORY)
    try:
        os.fsync(folder)
    finally:
        os.close(folder)


def holds(path: str, held: bytes) -> bool:
    """Whether a file is there with these bytes."""
    try:
        with open(path, "rb") as file:
            return file.read() == held
    except FileNotFoundError:
        return False


def write_whole(path: str, held: bytes, is_synced: bool = True) -> bool:
    """Puts a file in the place of an older one; one that has these bytes stays. Answers whether it was written.

    It is written by a name that nobody can know before, so that nothing is written through a link.
    """
    if holds(path, held):
        return False
    descriptor, beside = new_file(os.path.dirname(path) or ".", ".ae-")
    try:
        with open(descriptor, "wb") as file:
            file.write(held)
            os.fchmod(descriptor, 0o666 & ~umask())
            file.flush()
            if is_synced:
                os.fsync(descriptor)
        os.replace(beside, path)
    except BaseException:
        os.remove(beside)
        raise
    return True
