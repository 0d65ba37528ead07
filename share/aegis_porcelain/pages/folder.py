"""The folder of the pages. What is there as it is to be stays, and a page that there is no more goes."""
from __future__ import annotations

import contextlib
import os
import re
from typing import Callable, Iterable, List, Set, Tuple

from ..failures import Failure
from ..output import write_whole

LIST = "pages.txt"
PATHS = "path"
NAME = re.compile(rf"[a-z]+(?:-[0-9]+)?\.(?:html|css)|{PATHS}/[A-Za-z0-9._+,-]+\.html")


class Folder:
    """A folder that was made for pages: it has a list of them."""

    def __init__(self, path: str) -> None:
        self.path = path
        self.names: List[str] = []
        self.written = 0
        if os.path.lexists(path) and (not os.path.isdir(path) or (os.listdir(path) and not os.path.exists(self.place(LIST)))):
            raise Failure(f"{path} is there, and wasn't made by ae pages")

    def place(self, name: str) -> str:
        """Where a page is."""
        return os.path.join(self.path, name)

    def known(self) -> Set[str]:
        """The pages that were written before."""
        try:
            with open(self.place(LIST), encoding="ascii") as file:
                return {name for name in file.read().splitlines() if NAME.fullmatch(name)}
        except FileNotFoundError:
            return set()

    def prepare(self) -> None:
        """Makes the folders that aren't there. That of the paths may be no link, through which another's files would be written."""
        for folder in (self.path, self.place(PATHS)):
            os.makedirs(folder, exist_ok=True)
        if os.path.islink(self.place(PATHS)):
            raise Failure(f"{self.place(PATHS)} is a link")

    def put_list(self, names: Iterable[str]) -> None:
        """Writes the list."""
        write_whole(self.place(LIST), "".join(f"{name}\n" for name in sorted(names)).encode("ascii"), is_synced=False)

    def write_all(self, pages: Iterable[Tuple[str, bytes]], note: Callable[[], None]) -> None:
        """Writes all pages, and notes each. Their list is there before and again at the end, so that the folder is known after a stop."""
        before = self.known()
        self.names, self.written = [], 0
        self.prepare()
        self.put_list(before)
        for name, held in pages:
            self.names.append(name)
            self.written += write_whole(self.place(name), held, is_synced=False)
            note()
        self.remove(before - set(self.names))
        self.put_list(self.names)

    def remove(self, names: Iterable[str]) -> None:
        """Takes away pages that there are no more."""
        for name in names:
            with contextlib.suppress(FileNotFoundError):
                os.remove(self.place(name))
