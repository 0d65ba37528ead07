"""What ends a command of `ae`: a line for standard error, and a status."""
from __future__ import annotations

import os
import sys

TYPE_CHECKING = False
if TYPE_CHECKING:
    from collections.abc import Callable

# what a shell says of a command that SIGPIPE ended
NOT_READ = 141


class Failure(Exception):
    """A command can't be done as it was asked. The status is 1 where the project is in the way, and 2 where the words are."""

    status = 1


class Misused(Failure):
    """The words ask for something that there isn't."""

    status = 2


class Damaged(Failure):
    """A file of the store isn't what its format says."""

    def __init__(self, name: str) -> None:
        super().__init__(f'"{name}" is damaged')
        self.name = name


class VersionGone(Failure):
    """A version that was named when the records were copied is no longer named: its change went back meanwhile."""

    def __init__(self) -> None:
        super().__init__("the project has changed meanwhile: give it again")


def ended(work: Callable[[], int]) -> int:
    """Does a command, and answers its status."""
    try:
        status = work()
        sys.stdout.flush()
        return status
    except Failure as failure:
        print(f"ae: {failure}", file=sys.stderr)
        return failure.status
    except BrokenPipeError:
        drop_output()
        return NOT_READ
    except OSError as error:
        drop_output()
        print(f"ae: {said_by(error)}", file=sys.stderr)
        return Failure.status
    except KeyboardInterrupt:
        return 130


def drop_output() -> None:
    """Leaves out what was printed and can't be written, which Python would try again at its end."""
    try:
        sys.stdout.flush()
    except OSError:
        os.dup2(os.open(os.devnull, os.O_WRONLY), 1)


def said_by(error: OSError) -> str:
    """What the system says that can't be done, and of which file."""
    said = error.strerror or str(error)
    return f"{os.fsdecode(error.filename)}: {said}" if isinstance(error.filename, (str, bytes)) else said
