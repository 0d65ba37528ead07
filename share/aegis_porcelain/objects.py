"""The objects of a repository, as one process of git reads them one after another."""
from __future__ import annotations

import re
import subprocess
from typing import Callable, Dict, NamedTuple, Optional, Tuple

from .failures import Failure
from .git import environment

# more names than all paths of a project have
MOST_FOLDER = 8_388_608
ROW = re.compile(rb"([0-7]+) ([^\0]+)\0(.{20})", re.S)


class Entry(NamedTuple):
    """What a folder has under a name, as git shows it."""

    mode: str
    object: str

    @property
    def is_folder(self) -> bool:
        return self.mode == "040000"


def mode_of(digits: bytes) -> str:
    """A mode, of which git keeps what it is and whether it may be run."""
    mode = int(digits, 8)
    kind = mode & 0o170000
    if kind == 0o100000:
        return "100755" if mode & 0o100 else "100644"
    return f"{kind:06o}" if kind in (0o040000, 0o120000) else "160000"


def take_any(size: int) -> None:
    """Refuses no size."""


class Objects:
    """A process of git that is asked for objects until the end."""

    def __init__(self, repository: str) -> None:
        words = ["git", "--git-dir", repository, "cat-file", "--batch"]
        try:
            self.process = subprocess.Popen(words, stdin=subprocess.PIPE, stdout=subprocess.PIPE, env=environment())
        except OSError:
            raise Failure("there is no git: apt install git") from None

    def __enter__(self) -> Objects:
        return self

    def __exit__(self, *_: object) -> None:
        # it may be about to write what isn't asked for any more
        self.process.kill()
        self.process.communicate()

    def read(self, name: str, look: Callable[[bytes, int], None]) -> Optional[Tuple[bytes, bytes]]:
        """What an object is, and its bytes, after a look at what it is and how many they are; nothing where there is no object of the name."""
        assert self.process.stdin and self.process.stdout
        self.process.stdin.write(name.encode() + b"\n")
        self.process.stdin.flush()
        found = self.process.stdout.readline().split()
        if len(found) != 3:
            return None
        kind, size = found[1], int(found[2])
        look(kind, size)
        held = self.process.stdout.read(size + 1)[:-1]
        if len(held) != size:
            raise Failure("git cat-file has ended")
        return kind, held

    def blob(self, name: str, look: Callable[[int], None] = take_any) -> Optional[bytes]:
        """The bytes of a file, whose size is looked at before; nothing where there is no file of the name."""

        def look_at(kind: bytes, size: int) -> None:
            if kind == b"blob":
                look(size)
            elif size > MOST_FOLDER:
                raise Failure(f"{name} is no file")

        found = self.read(name, look_at)
        return found[1] if found and found[0] == b"blob" else None

    def folder(self, name: str) -> Dict[bytes, Entry]:
        """What is in a folder, by the names."""

        def look_at(kind: bytes, size: int) -> None:
            if kind != b"tree" or size > MOST_FOLDER:
                raise Failure(f"a folder of the commit has {size} bytes of names; at most {MOST_FOLDER} are taken")

        found = self.read(name, look_at)
        if found is None:
            raise Failure(f"git has no folder {name}")
        return {row[2]: Entry(mode_of(row[1]), row[3].hex()) for row in ROW.finditer(found[1])}

    def there(self, name: str, look: Callable[[int], None] = take_any) -> bytes:
        """The bytes of a file that is there."""
        held = self.blob(name, look)
        if held is None:
            raise Failure(f"git has no file {name}")
        return held
