"""The repository beside aegis.d: how git runs for it, and whether it is up to the project. Little is loaded for it.

Its file aegis-stamp says what it was made of, a line for each: the records, those of them that say which deltas there are, and the commit of
each ref below refs/changes.
"""
from __future__ import annotations

import hashlib
import os

from . import copied
from .folders import branches_of

STAMP = "aegis-stamp"
FOLDERS = "/usr/local/bin:/usr/bin:/bin"
# what git has of a host: nothing of a caller's
ENVIRONMENT = {
    "PATH": FOLDERS,
    "HOME": "/nonexistent",
    "LC_ALL": "C.UTF-8",
    "GIT_CONFIG_NOSYSTEM": "1",
    "GIT_CONFIG_GLOBAL": os.devnull,
}


def is_folder(mirror: str) -> bool:
    """Whether there is a repository. A link isn't one."""
    return os.path.isdir(mirror) and not os.path.islink(mirror)


class Stamp:
    """What a repository was made of."""

    def __init__(self, records: str, deltas: str, heads: dict[str, str]) -> None:
        self.records = records  # a digest of all records of the project and of its branches
        self.deltas = deltas  # a digest of those that say which deltas there are
        self.heads = heads  # by ref, which commit it is

    @property
    def text(self) -> str:
        rows = [("records", self.records), ("deltas", self.deltas), *sorted(self.heads.items())]
        return "".join(f"{name} {value}\n" for name, value in rows)


def stamp_in(mirror: str) -> Stamp:
    """The stamp of a repository; one of nothing where there is none."""
    try:
        with open(os.path.join(mirror, STAMP), encoding="ascii") as file:
            heads = {name: value for name, value in (line.split() for line in file)}
    except (FileNotFoundError, ValueError):
        heads = {}
    return Stamp(heads.pop("records", ""), heads.pop("deltas", ""), heads)


def digests_of(top: str) -> tuple[str, str]:
    """The digests of the records as they are."""
    records, deltas = hashlib.sha256(), hashlib.sha256()
    for branch in ["", *branches_of(top)]:
        contents = records_of(top, branch)
        records.update(f"{branch} {copied.digest_of(contents)}\n".encode())
        for name in ("project", "trunk"):
            held = contents.get(name, b"")
            # of a project its deltas alone, which come last
            held = held[max(held.find(b"\ndeltas = "), 0) :]
            deltas.update(f"{branch} {name} {len(held)}\n".encode() + held)
    return records.hexdigest(), deltas.hexdigest()


def records_of(top: str, branch: str) -> copied.Contents:
    folders = copied.open_folders(top, branch)
    try:
        return copied.copy(folders)
    finally:
        for folder in folders:
            os.close(folder)
