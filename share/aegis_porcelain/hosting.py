"""A host: the project's folder on the machine to which others come by ssh, and the bare repository beside aegis.d."""
from __future__ import annotations

import contextlib
import fcntl
import os
import re
import subprocess
from typing import Dict, Iterator, NamedTuple

from .failures import Failure
from .folders import MIRROR, mirror_of
from .mirror import ENVIRONMENT, FOLDERS, STAMP, Stamp, digests_of, is_folder, stamp_in
from .output import write_whole
from .place import Place

CACHE = "aegis-cache"
LOCK = "aegis-lock"
SETTING = re.compile(r"aegis\.([a-z]+) (.+)")


class Host(NamedTuple):
    """What was set up on this machine for a project. Nothing of a caller's environment is in it."""

    where: Place
    program: str
    shell: str  # the folder in which `sh` runs a command as the account that builds; nothing where there is none
    keys: str  # the file of authorized keys

    @property
    def mirror(self) -> str:
        return mirror_of(self.where.top)

    def environment(self, user: str) -> Dict[str, str]:
        """What a command has that is given for this user."""
        return {
            **ENVIRONMENT,
            "PATH": f"{self.shell}:{FOLDERS}" if self.shell else FOLDERS,
            "XDG_CACHE_HOME": os.path.join(self.mirror, CACHE),
            "AEGIS": self.program,
            "AEGIS_PROGRAM": self.program,
            "AEGIS_USER": user,
        }


def host_of(where: Place) -> Host:
    """The host of a project, as `ae host init` wrote it down."""
    mirror = mirror_of(where.top)
    if not is_folder(mirror):
        raise Failure(f"there is no {MIRROR} in {where.top}: ae host init makes it")
    words = ["git", "--git-dir", mirror, "config", "--local", "--get-regexp", r"^aegis\."]
    try:
        said = subprocess.run(words, env=ENVIRONMENT, capture_output=True, text=True, check=False).stdout
    except OSError:
        raise Failure("there is no git: apt install git") from None
    rows = (SETTING.fullmatch(line) for line in said.splitlines())
    settings = {row[1]: row[2] for row in rows if row}
    program = settings.get("program") or program_there()
    return Host(where, program, settings.get("shell", ""), settings.get("keys", ""))


def program_there() -> str:
    """The program where nothing was written down."""
    import shutil

    found = shutil.which("aegis", path=FOLDERS)
    if not found:
        raise Failure("there is no program aegis")
    return found


@contextlib.contextmanager
def locked(mirror: str) -> Iterator[None]:
    """Lets nobody else write the mirror or the keys meanwhile."""
    lock = os.open(os.path.join(mirror, LOCK), os.O_RDWR | os.O_CREAT | os.O_NOFOLLOW | os.O_CLOEXEC, 0o600)
    try:
        fcntl.flock(lock, fcntl.LOCK_EX)
        yield
    finally:
        os.close(lock)


def bring_up(where: Place, mirror: str) -> None:
    """Brings the mirror up to the project, where that has changed since."""
    with locked(mirror):
        before = stamp_in(mirror)
        records, deltas = digests_of(where.top)
        if records == before.records:
            return
        # what is only for this takes long to load
        from . import git, heads

        if deltas != before.deltas:
            git.write(where, mirror, adds=True)
        after = Stamp(records, deltas, heads.bring_up(where, mirror, before.heads))
        write_whole(os.path.join(mirror, STAMP), after.text.encode())
