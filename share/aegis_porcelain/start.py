"""How `ae` begins. What a key and a push ask for has words of its own, and is done without all that reads those of users."""
from __future__ import annotations

import os
import sys

from .failures import ended


def main(words: list[str]) -> int:
    """Does a command, and answers its status."""
    if None in (sys.stdin, sys.stdout, sys.stderr):
        fill_streams()
    if len(words) == 2 and words[0] == "serve" and not words[1].startswith("-"):
        from . import fetch

        fetch.take_over(words[1])
        from . import serve

        return ended(lambda: serve.serve(words[1]))
    if words == ["host", "receive"]:
        from . import receive

        return ended(receive.receive)
    from . import main as parsing

    return parsing.main(words)


def fill_streams() -> None:
    """Opens those of the three streams that the caller has closed, since the next file that is opened would be taken for one of them."""
    for stream in range(3):
        try:
            os.fstat(stream)
        except OSError:
            os.set_inheritable(os.open(os.devnull, os.O_RDWR), True)
    sys.stdin, sys.stdout, sys.stderr = sys.stdin or open(0), sys.stdout or open(1, "w"), sys.stderr or open(2, "w")
