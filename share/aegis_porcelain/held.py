"""Writes files of a change's directory through folders that are held open, so that nothing is written through a link."""
from __future__ import annotations

import contextlib
import os
import stat
from typing import List, Tuple

from .failures import Failure
from .place import Place

FOLDER = os.O_RDONLY | os.O_DIRECTORY | os.O_NOFOLLOW | os.O_CLOEXEC


class HeldDirectory:
    """A directory of a change. Of its folders those on the way to the last file are open."""

    def __init__(self, where: Place, name: str) -> None:
        self.opened: List[Tuple[str, int]] = [("", os.open(where.top, os.O_RDONLY | os.O_DIRECTORY | os.O_CLOEXEC))]
        try:
            for part in [*where.home.split("/"), name]:
                self.enter(part)
        except BaseException:
            self.close()
            raise
        self.depth = len(self.opened)

    def __enter__(self) -> HeldDirectory:
        return self

    def __exit__(self, *_: object) -> None:
        self.close()

    def close(self) -> None:
        for _, folder in self.opened:
            os.close(folder)
        self.opened.clear()

    def enter(self, name: str) -> None:
        """Opens a folder of the one that was opened last."""
        try:
            self.opened.append((name, os.open(name, FOLDER, dir_fd=self.opened[-1][1])))
        except OSError as error:
            raise Failure(f"{name} of a change's directory can't be opened as a folder: {error.strerror}") from None

    def go_to(self, folders: List[str]) -> int:
        """Opens the folder of a path, which is made where it isn't there."""
        known = [name for name, _ in self.opened[self.depth :]]
        same = len(os.path.commonprefix([known, folders]))
        for _, folder in self.opened[self.depth + same :]:
            os.close(folder)
        del self.opened[self.depth + same :]
        for name in folders[same:]:
            with contextlib.suppress(FileExistsError):
                os.mkdir(name, dir_fd=self.opened[-1][1])
            self.enter(name)
        return self.opened[-1][1]

    def put(self, path: str, data: bytes, is_script: bool) -> None:
        """Gives a file its bytes. One that has them stays as it is; any other is a new one, whatever else has its name now."""
        *folders, name = path.split("/")
        folder = self.go_to(folders)
        if has(folder, name, data):
            return
        try:
            with contextlib.suppress(FileNotFoundError):
                os.unlink(name, dir_fd=folder)
            flags = os.O_WRONLY | os.O_CREAT | os.O_EXCL | os.O_NOFOLLOW | os.O_CLOEXEC
            with open(os.open(name, flags, 0o777 if is_script else 0o666, dir_fd=folder), "wb") as file:
                file.write(data)
        except OSError as error:
            raise Failure(f"{path} can't be written: {error.strerror}") from None

    def remove(self, path: str) -> None:
        """Takes a file away, where there is one."""
        *folders, name = path.split("/")
        with contextlib.ExitStack() as opened:
            held = self.opened[self.depth - 1][1]
            try:
                for folder in folders:
                    held = os.open(folder, FOLDER, dir_fd=held)
                    opened.callback(os.close, held)
                os.unlink(name, dir_fd=held)
            except (FileNotFoundError, NotADirectoryError, IsADirectoryError):
                return
            except OSError as error:
                raise Failure(f"{path} can't be removed: {error.strerror}") from None


def has(folder: int, name: str, data: bytes) -> bool:
    """Whether a file of its own has these bytes."""
    try:
        opened = os.open(name, os.O_RDONLY | os.O_NOFOLLOW | os.O_NONBLOCK | os.O_CLOEXEC, dir_fd=folder)
    except OSError:
        return False
    found = os.fstat(opened)
    if not stat.S_ISREG(found.st_mode):
        os.close(opened)
        return False
    with open(opened, "rb") as file:
        return found.st_nlink == 1 and found.st_size == len(data) and file.read() == data
