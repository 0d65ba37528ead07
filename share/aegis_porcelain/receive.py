"""What git asks of the host for a push to refs/for/..: the hook proc-receive, by the protocol that githooks(5) describes."""
from __future__ import annotations

import os
import sys
from typing import BinaryIO, Iterator, List

from . import pushed, pushed_change
from .failures import Failure, VersionGone
from .folders import mirror_of
from .hosting import bring_up
from .place import Place, find
from .program import user

LONGEST_REASON = 900


def packets(file: BinaryIO) -> Iterator[str]:
    """The lines of a part of the protocol, up to its end."""
    while True:
        size = int(file.read(4) or b"0", 16)
        if size == 0:
            return
        yield file.read(size - 4).decode("utf-8", "surrogateescape").rstrip("\n")


def write(file: BinaryIO, lines: List[str]) -> None:
    """Writes a part of the protocol, and its end."""
    for line in lines:
        held = line.encode("utf-8", "surrogateescape") + b"\n"
        file.write(b"%04x" % (len(held) + 4) + held)
    file.write(b"0000")
    file.flush()


def receive() -> int:
    """Answers git, which asks in a folder of the project. What the commands say goes to standard error, which whoever pushes sees."""
    where, given = Place(find().top), sys.stdin.buffer
    with os.fdopen(os.dup(1), "wb") as answers:
        os.dup2(2, 1)
        front = " ".join(packets(given))
        has_options = "push-options" in front
        write(answers, ["version=1\0push-options" if has_options else "version=1"])
        asked = [line.split(" ", 2) for line in packets(given)]
        options = list(packets(given)) if has_options else []
        write(answers, [received(where, new, ref, options, is_alone=len(asked) == 1) for _, new, ref in asked])
    return 0


def received(where: Place, new: str, ref: str, options: List[str], is_alone: bool) -> str:
    """Makes a change of what is pushed to a ref, and answers the line that git is told."""
    mirror = mirror_of(where.top)
    try:
        if not is_alone:
            raise Failure("push one commit at a time")
        bring_up(where, mirror)
        number = pushed_change.make(pushed.read(where.top, mirror, new, ref, options), mirror, user())
    except (Failure, VersionGone, OSError) as failure:
        said = ascii(str(failure)).strip("'\"")
        return f"ng {ref} {said[:LONGEST_REASON]}"
    finally:
        sys.stdout.flush()
    print(f"change {number}", flush=True)
    try:
        bring_up(where, mirror)
    except (Failure, OSError) as failure:
        # the push is done; the next fetch brings the mirror up
        print(f"ae: {failure}", flush=True)
    return f"ok {ref}"
